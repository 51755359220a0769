//! The real rayon, and beside it the place at work that the oracle's stand-in keeps for fired rays, which nobody reads where nothing is watched.
pub use threads::*;

pub static CURRENT: std::sync::atomic::AtomicUsize = std::sync::atomic::AtomicUsize::new(0);
