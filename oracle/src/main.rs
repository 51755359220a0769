//! The Rust that the bake was ported from, over stand-ins: the answers that the port is held to. README.md says how it is used.
#![allow(dead_code)]

mod answers;
mod bad;
mod calls;
mod chance;
mod command;
mod items;
mod lamp_places;
mod lamps;
mod panel_places;
mod panels;
mod passed;
mod progress_places;
mod records;
mod scene;
mod shrink;
mod solid;
mod solid_places;
mod table;
mod text;
mod timed;
mod tree_places;
mod trees;
mod watch;
mod wide_places;
mod word_places;
mod words;
mod worlds;

// The copies report their progress to standard output, where only the oracle's own answers belong.
macro_rules! println {
    ($($text:tt)*) => {{
        let _ = format_args!($($text)*);
    }};
}

#[path = "original/gi.rs"]
mod gi;
#[path = "original/math.rs"]
mod math;
#[path = "original/raytracer.rs"]
mod raytracer;
#[path = "original/util.rs"]
mod util;
#[path = "original/voxelgrid.rs"]
mod voxelgrid;

fn main() -> std::process::ExitCode {
    command::main()
}
