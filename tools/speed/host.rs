//! host SIDE CALL TURNS: prepares the hall, makes one of the measured calls TURNS times by the port or by the Rust that it was ported from, and prints
//! the nanoseconds of the fastest turn. With 0 turns all is done as with 1 but for the call, so the difference of two counts is the call's own.
//! host SIDE CALL answer: makes the call once and writes the answer's bits instead. tools/speed/run builds and runs it.
#![allow(dead_code)]

mod by_port;
mod by_rust;
mod hall;
mod port;

#[path = "../../oracle/src/lamps.rs"]
mod lamps;
#[path = "no_panels.rs"]
mod panels;
#[path = "../../oracle/src/scene.rs"]
mod scene;
#[path = "no_trees.rs"]
mod trees;
// The oracle's features are off here: nothing is watched.
#[allow(unexpected_cfgs)]
#[path = "../../oracle/src/watch.rs"]
mod watch;

// The Rust reports its progress to standard output, where only the answer belongs.
macro_rules! println {
    ($($text:tt)*) => {{
        let _ = format_args!($($text)*);
    }};
}

#[path = "../../oracle/src/original/gi.rs"]
mod gi;
#[path = "../../oracle/src/original/math.rs"]
mod math;
#[path = "../../oracle/src/original/raytracer.rs"]
mod raytracer;
#[path = "../../oracle/src/original/util.rs"]
mod util;
#[path = "../../oracle/src/original/voxelgrid.rs"]
mod voxelgrid;

use hall::{Chance, Hall, Line, VOXELS};
use std::hint::black_box;
use std::io::Write;
use std::time::Instant;

pub const RAYS: usize = 400;
/// Rays that meet every triangle one by one.
pub const MET: usize = 16;
pub const POSITIONS: usize = 4096;
/// One in so many of the active voxels is baked, so that an emulator ends in minutes.
const BAKED: usize = 48;
pub const SHORTEST: f32 = 1.0e-4;

/// What both sides start from beside the hall.
pub struct Lists {
    pub lines: Vec<Line>,
    pub positions: Vec<[f32; 3]>,
    pub active: Vec<bool>,
    pub few: Vec<bool>,
    pub lights: Vec<f32>,
    pub volume: Vec<f32>,
}

impl Lists {
    fn new(hall: &Hall) -> Self {
        let mut chance = Chance::new(1);
        let lines = (0..RAYS).map(|_| hall::line(&mut chance)).collect();
        let positions = (0..POSITIONS).map(|_| hall::position(&mut chance)).collect();
        let lights = (0..VOXELS).map(|_| chance.between(0.0, 1.0)).collect();
        let volume = (0..16 * VOXELS).map(|_| chance.between(0.0, 4.0)).collect();
        let active = by_rust::active(hall);
        let mut few = vec![false; VOXELS];
        for voxel in (0..VOXELS).filter(|i| active[*i]).step_by(BAKED) {
            few[voxel] = true;
        }
        Lists { lines, positions, active, few, lights, volume }
    }
}

/// Makes the call so often, each time on a state made anew, prints the time of the fastest turn and ends; where no number is given, makes it once.
pub fn measure<S>(turns: Option<usize>, state: &mut S, anew: impl Fn(&mut S), call: impl Fn(&mut S)) {
    let mut best = 0;
    for turn in 0..turns.unwrap_or(1).max(1) {
        anew(state);
        if turns != Some(0) {
            let start = Instant::now();
            call(black_box(state));
            let taken = start.elapsed().as_nanos();
            best = if turn == 0 { taken } else { best.min(taken) };
        }
    }
    if turns.is_some() {
        std::println!("{best}");
        std::process::exit(0);
    }
}

pub fn bits(list: &[f32]) -> Vec<u32> {
    list.iter().map(|x| x.to_bits()).collect()
}

/// Whether there is a hit, its place, distance, u and v.
pub fn met(hit: Option<(usize, f32, f32, f32)>) -> [u32; 5] {
    hit.map_or([0; 5], |(place, t, u, v)| [1, place as u32, t.to_bits(), u.to_bits(), v.to_bits()])
}

fn main() {
    let args: Vec<String> = std::env::args().collect();
    let [_, side, call, turns] = &args[..] else { panic!("host SIDE CALL TURNS") };
    let turns = if turns == "answer" { None } else { Some(turns.parse().expect("TURNS is a whole number or answer")) };
    let hall = Hall::new();
    let lists = Lists::new(&hall);
    let words = match side.as_str() {
        "port" => by_port::answer(call, turns, &hall, &lists),
        "rust" => by_rust::answer(call, turns, &hall, &lists),
        _ => panic!("SIDE is port or rust"),
    };
    let bytes: Vec<u8> = words.iter().flat_map(|w| w.to_le_bytes()).collect();
    std::io::stdout().write_all(&bytes).expect("standard output is open");
}
