//! Bytes turned at random in drawings, material files, hall files and part files: read or refused in words, and never a panic.
use geaidnosa::Progress;
use plate::{baking, faults::Found, hall, part::Only, part::Part};
use std::path::Path;

struct Random(u64);

impl Random {
    fn below(&mut self, n: usize) -> usize {
        self.0 ^= self.0 << 13;
        self.0 ^= self.0 >> 7;
        self.0 ^= self.0 << 17;
        (self.0 % n.max(1) as u64) as usize
    }
}

const PIECES: [&str; 24] = [
    "f ", "v ", "\n", "-1", "0", "99999999999999999999", "1e400", "nan", "/", "//", "usemtl ", "mtllib hall.mtl", "o ", "g ", "s off", "t crease 1/9999999/0 2", "l 1 2", "p 1", "[", "]",
    "=", "\"", "\r", "\0",
];

/// Some bytes changed, cut out, put in or doubled.
fn turned(good: &[u8], random: &mut Random) -> Vec<u8> {
    let mut bytes = good.to_vec();
    for _ in 0..1 + random.below(6) {
        let at = random.below(bytes.len());
        match random.below(5) {
            0 if !bytes.is_empty() => bytes[at] = random.below(256) as u8,
            1 if !bytes.is_empty() => drop(bytes.drain(at..(at + 1 + random.below(40)).min(bytes.len()))),
            2 => drop(bytes.splice(at..at, PIECES[random.below(PIECES.len())].bytes())),
            3 => drop(bytes.splice(at..at, (0..1 + random.below(8)).map(|_| 32 + random.below(90) as u8).collect::<Vec<_>>())),
            _ => {
                let end = (at + random.below(60)).min(bytes.len());
                let piece = bytes[at..end].to_vec();
                drop(bytes.splice(at..at, piece));
            }
        }
    }
    bytes
}

fn rounds() -> usize {
    std::env::var("PLATE_FUZZ").ok().and_then(|n| n.parse().ok()).unwrap_or(2000)
}

fn seeded(name: &str) -> Random {
    let seed = std::env::var("PLATE_SEED").ok().and_then(|n| n.parse().ok()).unwrap_or_else(|| std::process::id() as u64 * 2_654_435_761 + 12345);
    println!("{name}: PLATE_SEED={seed}");
    Random(seed | 1)
}

type Files = [(&'static str, &'static str); 3];

/// The hall that `plate new` writes, and one with panels.
const BEGUN: Files = [("hall.toml", include_str!("../new/hall.toml")), ("hall.obj", include_str!("../new/hall.obj")), ("hall.mtl", include_str!("../new/hall.mtl"))];
const PANELS: Files = [("hall.toml", include_str!("panels/hall.toml")), ("hall.obj", include_str!("panels/hall.obj")), ("hall.mtl", include_str!("panels/hall.mtl"))];

fn laid_out(dir: &Path, files: Files) {
    files.iter().for_each(|(name, text)| std::fs::write(dir.join(name), text).unwrap());
}

/// A hall comes back exactly when there is no fault, and then the library takes it.
fn judged(dir: &Path) -> bool {
    let mut found = Found::default();
    let hall = hall::read(&dir.join("hall.toml"), &mut found);
    assert_eq!(hall.is_some(), found.faults.is_empty());
    found.faults.iter().for_each(|f| assert!(!f.to_string().is_empty() && !f.words.contains("the library refuses"), "{f}"));
    hall.is_some()
}

/// Half of the files are of the one hall, half of the other.
fn fuzzed(name: &str) {
    let mut random = seeded(name);
    let (mut read, mut bytes) = (0, 0);
    for (files, count) in [(BEGUN, rounds() - rounds() / 2), (PANELS, rounds() / 2)] {
        let dir = tempfile::tempdir().unwrap();
        laid_out(dir.path(), files);
        let good = std::fs::read(dir.path().join(name)).unwrap();
        for _ in 0..count {
            let bad = turned(&good, &mut random);
            bytes += bad.len();
            std::fs::write(dir.path().join(name), bad).unwrap();
            read += usize::from(judged(dir.path()));
        }
    }
    println!("{name}: {} turned files, {bytes} bytes, {read} read", rounds());
}

#[test]
fn drawings() {
    fuzzed("hall.obj");
}

#[test]
fn material_files() {
    fuzzed("hall.mtl");
}

#[test]
fn hall_files() {
    fuzzed("hall.toml");
}

#[test]
fn part_files() {
    let dir = tempfile::tempdir().unwrap();
    laid_out(dir.path(), BEGUN);
    let hall = hall::read(&dir.path().join("hall.toml"), &mut Found::default()).unwrap();
    let n = hall.axes.count();
    let active = baking::active_of(&hall).unwrap();
    // of the third of eight shares, the first half has passed voxel 2 and the second none
    let shares = vec![Progress { next: 7, rays: 100 }, Progress { next: 7, rays: 0 }];
    let part = Part { shares, only: Some(Only { share: 3, of: 8 }), seconds: 1.5, volume: vec![0.25; 16 * n] };
    let path = dir.path().join("x.part");
    part.write(&path, &hall).unwrap();
    let good = std::fs::read(&path).unwrap();
    assert_eq!(Part::of_bytes(&good, &hall, &active).unwrap(), part);
    let mut random = seeded("part files");
    // the volume is most of it: turn the two lines as often
    let lines = good.iter().enumerate().filter(|(_, b)| **b == b'\n').nth(1).unwrap().0 + 1;
    let mut bytes = 0;
    for round in 0..rounds() {
        let mut bad = if round % 2 == 0 { turned(&good, &mut random) } else { [turned(&good[..lines], &mut random), good[lines..].to_vec()].concat() };
        // every other one with a right sum, so that what stands behind it is read too
        if round % 4 >= 2 {
            if let Some(first) = bad.iter().position(|b| *b == b'\n') {
                let body = bad.split_off(first + 1);
                bad = [format!("plate-part-2 {}\n", hall::sha256(&body)).into_bytes(), body].concat();
            }
        }
        bytes += bad.len();
        if let Ok(read) = Part::of_bytes(&bad, &hall, &active) {
            let voxels = read.voxels(&active);
            assert!(read.volume.len() == 16 * n && read.shares.iter().all(|p| p.next <= n) && (64 * voxels..=hall.voxel_cost() * voxels).contains(&read.rays()));
        }
    }
    println!("part files: {} turned files, {bytes} bytes", rounds());
}
