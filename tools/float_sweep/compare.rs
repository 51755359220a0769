// Reads what `answers` writes and holds it to Rust's own operations: compare FUNCTION COUNT STEP, with the words that `answers` was given.
// Prints how many answers came and how many differ; ends with 1 where one differs or one is missing.
use std::io::Read;

const NAN: u32 = 0x7fc0_0000;

// The pattern is tested, not the number: rustc 1.95 with -O was seen to drop `x.is_nan()` after a root.
fn bits(x: f32) -> u32 {
    let b = x.to_bits();
    if b & 0x7fff_ffff > 0x7f80_0000 { NAN } else { b }
}

fn larger(x: f32, y: f32) -> f32 {
    if x.is_nan() || y.is_nan() {
        f32::NAN
    } else if y < x {
        x
    } else {
        y
    }
}

fn smaller(x: f32, y: f32) -> f32 {
    if x.is_nan() || y.is_nan() {
        f32::NAN
    } else if x < y {
        x
    } else {
        y
    }
}

// splitmix64
fn draw(state: &mut u64) -> u64 {
    *state = state.wrapping_add(0x9e37_79b9_7f4a_7c15);
    let mut z = *state;
    z = (z ^ (z >> 30)).wrapping_mul(0xbf58_476d_1ce4_e5b9);
    z = (z ^ (z >> 27)).wrapping_mul(0x94d0_49bb_1331_11eb);
    z ^ (z >> 31)
}

fn pair(i: u64, state: &mut u64) -> (u32, u32) {
    let z = draw(state);
    let b = (z >> 32) as u32;
    match i % 4 {
        1 => (b, b),
        2 => (b, b ^ 0x8000_0000),
        3 => (b, b.wrapping_add(1)),
        _ => (b, z as u32),
    }
}

fn main() {
    let words: Vec<String> = std::env::args().collect();
    let function = words[1].as_str();
    let count: u64 = words[2].parse().unwrap();
    let step: u64 = words[3].parse().unwrap();
    let mut state = step;
    let mut room = vec![0u8; 1 << 16];
    let mut input = std::io::stdin().lock();
    let (mut came, mut differ) = (0u64, 0u64);
    loop {
        // whole answers only: the stream's parts may end anywhere
        let mut filled = 0;
        while filled < room.len() {
            let got = input.read(&mut room[filled..]).unwrap();
            if got == 0 {
                break;
            }
            filled += got;
        }
        for answer in room[..filled].chunks_exact(4) {
            let answer = u32::from_le_bytes(answer.try_into().unwrap());
            let b = came.wrapping_mul(step) as u32;
            let x = f32::from_bits(b);
            let (own, of) = match function {
                "root" => (bits(x.sqrt()), (b, 0)),
                "floor" => (bits(x.floor()), (b, 0)),
                "ceiling" => (bits(x.ceil()), (b, 0)),
                "magnitude" => (bits(x.abs()), (b, 0)),
                "larger" => {
                    let (b, c) = pair(came, &mut state);
                    (bits(larger(f32::from_bits(b), f32::from_bits(c))), (b, c))
                }
                "smaller" => {
                    let (b, c) = pair(came, &mut state);
                    (bits(smaller(f32::from_bits(b), f32::from_bits(c))), (b, c))
                }
                _ => panic!("no such function"),
            };
            if own != answer {
                differ += 1;
                if differ <= 10 {
                    println!("{function} of {:08x} {:08x}: answered {answer:08x}, Rust {own:08x}", of.0, of.1);
                }
            }
            came += 1;
        }
        if filled < room.len() {
            break;
        }
    }
    println!("{function}: {came} answers of {count}, {differ} differ");
    if came != count || differ != 0 {
        std::process::exit(1);
    }
}
