// Writes the vectors that the program `float_vectors` is held to, by Rust's own operations and nothing of the port:
//     rustc -O tools/float_vectors.rs -o /tmp/float_vectors && /tmp/float_vectors > crates/float_vectors/stdin
// A line has a function's letter and three patterns of eight hexadecimal digits: its argument, its second argument (0 where it
// takes one) and its answer. Letters: r root, f floor, c ceiling, m magnitude, l larger, s smaller. A NaN answers 7fc00000.

const NAN: u32 = 0x7fc0_0000;

// splitmix64, from a fixed start, so that every run writes the same
struct Chance(u64);

impl Chance {
    fn next(&mut self) -> u32 {
        self.0 = self.0.wrapping_add(0x9e37_79b9_7f4a_7c15);
        let mut z = self.0;
        z = (z ^ (z >> 30)).wrapping_mul(0xbf58_476d_1ce4_e5b9);
        z = (z ^ (z >> 27)).wrapping_mul(0x94d0_49bb_1331_11eb);
        ((z ^ (z >> 31)) >> 32) as u32
    }
}

// The pattern is tested, not the number: rustc 1.95 with -O was seen to drop `x.is_nan()` after a root.
fn bits(x: f32) -> u32 {
    let b = x.to_bits();
    if b & 0x7fff_ffff > 0x7f80_0000 { NAN } else { b }
}

fn larger(x: f32, y: f32) -> f32 {
    if x.is_nan() || y.is_nan() {
        f32::NAN
    } else if y < x {
        x
    } else {
        y
    }
}

fn smaller(x: f32, y: f32) -> f32 {
    if x.is_nan() || y.is_nan() {
        f32::NAN
    } else if x < y {
        x
    } else {
        y
    }
}

// Zeros, subnormals, both ends of the normal range, infinities and NaNs, without their signs.
fn ends() -> Vec<u32> {
    vec![
        0, 1, 2, 3, 4, 0x1000, 0x3f_ffff, 0x40_0000, 0x40_0001, 0x7f_fffe, 0x7f_ffff, 0x80_0000, 0x80_0001, 0xff_ffff, 0x100_0000,
        0x7f7f_fffe, 0x7f7f_ffff, 0x7f80_0000, 0x7f80_0001, 0x7fbf_ffff, 0x7fc0_0000, 0x7fff_ffff,
    ]
}

fn singles(chance: &mut Chance) -> Vec<u32> {
    let mut list = ends();
    // a power of two and its neighbours, in every other exponent
    for field in (1..255u32).step_by(2) {
        list.extend([field * 0x80_0000 - 1, field * 0x80_0000, field * 0x80_0000 + 1]);
    }
    // whole numbers and halves and their neighbours, up to where every f32 is whole
    for x in [0.5f32, 1.0, 1.5, 2.0, 2.5, 3.0, 31.0, 32.0, 100.5, 4095.0, 4096.0, 65535.0, 65535.5, 4194303.5, 8388607.0, 8388607.5, 8388608.0, 16777215.0, 16777216.0] {
        let b = x.to_bits();
        list.extend([b - 1, b, b + 1]);
    }
    // squares and their neighbours, whose roots are exact or nearest to the middle of two
    for n in [3u32, 5, 7, 1000, 2047, 2049, 4095] {
        let b = ((n * n) as f32).to_bits();
        list.extend([b - 1, b, b + 1]);
    }
    let mut signed: Vec<u32> = list.iter().flat_map(|&b| [b, b | 0x8000_0000]).collect();
    for _ in 0..150 {
        signed.push(chance.next());
        // a random number near 1, and a subnormal
        signed.push(0x3f00_0000 + chance.next() % 0x0200_0000);
        signed.push(chance.next() % 0x80_0000);
    }
    signed
}

fn pairs(chance: &mut Chance) -> Vec<(u32, u32)> {
    let some = [0u32, 1, 0x7f_ffff, 0x80_0000, 0x3f7f_ffff, 0x3f80_0000, 0x3f80_0001, 0x7f7f_ffff, 0x7f80_0000, 0x7f80_0001, 0x7fc0_0000, 0x7fff_ffff];
    let list: Vec<u32> = some.iter().flat_map(|&b| [b, b | 0x8000_0000]).collect();
    let mut pairs: Vec<(u32, u32)> = list.iter().flat_map(|&b| list.iter().map(move |&c| (b, c))).collect();
    for _ in 0..200 {
        let b = chance.next();
        pairs.extend([(b, chance.next()), (b, b), (b, b ^ 0x8000_0000), (b, b.wrapping_add(1))]);
    }
    pairs
}

fn main() {
    let mut chance = Chance(1);
    let singles = singles(&mut chance);
    let pairs = pairs(&mut chance);
    let ones: [(char, fn(f32) -> f32); 4] = [('r', f32::sqrt), ('f', f32::floor), ('c', f32::ceil), ('m', f32::abs)];
    for (letter, operation) in ones {
        for &b in &singles {
            println!("{letter} {b:08x} 00000000 {:08x}", bits(operation(f32::from_bits(b))));
        }
    }
    let twos: [(char, fn(f32, f32) -> f32); 2] = [('l', larger), ('s', smaller)];
    for (letter, operation) in twos {
        for &(b, c) in &pairs {
            println!("{letter} {b:08x} {c:08x} {:08x}", bits(operation(f32::from_bits(b), f32::from_bits(c))));
        }
    }
}
