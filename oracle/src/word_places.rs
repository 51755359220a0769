//! What document 02's C-18 asks for: grids whose voxels end at a word's end or beside it, masks whose voxels stand there, lists longer and
//! shorter than the grid that are the same words, and the inputs that it refuses.
use crate::answers::{bake_call, baked};
use crate::bad::{self, set_bit, unused};
use crate::calls::{Bake, Call, Grid, Lists, Progress, Scratch};
use crate::chance::Chance;
use crate::items::Item;
use crate::progress_places;
use crate::table;
use crate::words::needed;
use crate::worlds::voxels;

/// 1, 63, 64, 65 and 128 voxels.
const SMALL: [[u64; 3]; 5] = [[1, 1, 1], [7, 3, 3], [4, 4, 4], [13, 5, 1], [8, 4, 4]];
/// 32,768 voxels, the most before C-21: no bit of the last word is unused.
const LARGEST: [u64; 3] = [32, 32, 32];
/// 27,000 voxels: eight bits are unused.
const LARGE: [u64; 3] = [30, 30, 30];
/// 4,096 voxels: small enough that random masks can be recorded.
const MIDDLING: [u64; 3] = [32, 32, 4];

/// Rows that end at a word's end, beside it and across it.
const ROWS: [[u64; 3]; 9] = [[32, 3, 1], [31, 3, 2], [30, 4, 2], [17, 4, 2], [5, 13, 2], [3, 11, 4], [2, 32, 2], [1, 32, 3], [1, 1, 32]];

/// Grids of some words or nearly so.
pub const SHAPES: [[u64; 3]; 20] = [
    [1, 1, 1], [31, 1, 2], [7, 9, 1], [3, 3, 7], [21, 1, 3], [4, 4, 4], [32, 2, 1], [1, 2, 32], [2, 32, 1], [13, 5, 1], [1, 13, 5], [6, 11, 1],
    [9, 7, 2], [8, 4, 4], [32, 2, 2], [2, 2, 32], [10, 13, 1], [3, 4, 16], [32, 6, 1], [5, 13, 3],
];

/// Voxels with edges of 1, the first corner at 0.
pub fn grid(axes: [u64; 3]) -> Grid {
    Grid { axes, corners: [0.0, 0.0, 0.0, axes[0] as f32, axes[1] as f32, axes[2] as f32] }
}

pub fn random(c: &mut Chance, n: usize, one_in: usize) -> Vec<u8> {
    (0..n).map(|_| c.one_in(one_in) as u8).collect()
}

pub fn only(n: usize, voxel: usize) -> Vec<u8> {
    (0..n).map(|i| (i == voxel) as u8).collect()
}

/// The first and the last voxel of the first two words and of the last two.
fn ends(n: usize) -> Vec<usize> {
    let words = needed(n);
    let mut out: Vec<usize> = [0, 1, words.saturating_sub(2), words - 1].into_iter().filter(|w| *w < words).flat_map(|w| [64 * w, (64 * w + 63).min(n - 1)]).collect();
    out.sort();
    out.dedup();
    out
}

/// No voxel, every voxel, a single one at a word's end, some.
fn masks(c: &mut Chance, n: usize) -> Vec<Vec<u8>> {
    let mut out = vec![vec![0; n], vec![1; n]];
    if n > 1 {
        out.extend(ends(n).into_iter().map(|i| only(n, i)));
        out.extend([2, 2, 7].map(|k| random(c, n, k)));
    }
    out
}

/// The same words as a list of another length: as long as the grid, as long as its words, or as short as they and the last voxel let it be.
pub fn same_words(mask: &[u8], form: usize) -> Vec<u8> {
    let mut out = mask.to_vec();
    match form % 3 {
        1 => out.resize(64 * needed(mask.len()), 0),
        2 => out.truncate(mask.iter().rposition(|m| *m == 1).map_or(0, |i| i + 1).max(64 * needed(mask.len()) - 63)),
        _ => {}
    }
    out
}

/// A triangle so small that its one sample is the middle of a voxel.
pub fn speck(grid: &Grid, voxel: usize) -> [f32; 9] {
    let [w, h, _] = grid.axes.map(|a| a as usize);
    let [x, y, z] = [voxel % w, voxel / w % h, voxel / (w * h)].map(|i| i as f32 + 0.5);
    [x - 0.25, y - 0.25, z, x + 0.25, y - 0.25, z, x - 0.25, y + 0.25, z]
}

fn specks(grid: &Grid, mask: &[u8]) -> Vec<f32> {
    (0..mask.len()).filter(|i| mask[*i] == 1).flat_map(|i| speck(grid, i)).collect()
}

/// Two triangles that take the whole plane of voxels at x of a grid with 32 on the other axes.
fn plane(x: usize) -> Vec<f32> {
    let x = x as f32 + 0.5;
    vec![x, 0.0, 0.0, x, 32.0, 0.0, x, 0.0, 32.0, x, 32.0, 32.0, x, 0.0, 32.0, x, 32.0, 0.0]
}

pub fn masks_call(axes: [u64; 3], points: Vec<f32>, occupied: Vec<u8>, active: Vec<u8>) -> Call {
    Call::Masks { grid: grid(axes), points, occupied, active }
}

/// Masks that are filled, over what stood in their voxels' bits and in the unused ones.
fn good_masks(c: &mut Chance) -> Vec<Item> {
    let mut out = Vec::new();
    let mut over = |c: &mut Chance, axes: [u64; 3], points: Vec<f32>, form: usize| {
        let n = voxels(&grid(axes));
        let whole = 64 * needed(n);
        let (occupied, active) = match form % 3 {
            0 if n <= 128 => (random(c, n, 2), random(c, n, 2)),
            0 => (vec![1; n], vec![0; n]),
            1 => (vec![1; whole], vec![1; whole]),
            _ => ((0..whole).map(|i| (i % 2) as u8).collect(), vec![0; n]),
        };
        out.push(Item::One(masks_call(axes, points, occupied, active)));
    };
    for axes in SMALL {
        for (form, mask) in masks(c, voxels(&grid(axes))).iter().enumerate() {
            over(c, axes, specks(&grid(axes), mask), form);
            if form < 3 {
                over(c, axes, specks(&grid(axes), mask), form + 1);
            }
        }
    }
    for axes in ROWS {
        let n = voxels(&grid(axes));
        let mut masks = vec![random(c, n, 40), random(c, n, 40)];
        // what is active about the last voxel of a row and the first of the next stays in its row
        masks.extend([62, 63, 64, 65].into_iter().filter(|i| *i < n).map(|i| only(n, i)));
        for (form, mask) in masks.iter().enumerate() {
            over(c, axes, specks(&grid(axes), mask), form);
        }
    }
    for form in 0..2 {
        let mask = random(c, voxels(&grid(MIDDLING)), 90);
        over(c, MIDDLING, specks(&grid(MIDDLING), &mask), form);
    }
    for axes in [LARGEST, LARGE] {
        let last = axes[0] as usize - 1;
        for k in 0..8 {
            // a corner of the grid: 27 voxels are active
            let [x, y, z] = [k & 1, k / 2 & 1, k / 4].map(|far| far * last);
            over(c, axes, speck(&grid(axes), x + (last + 1) * (y + (last + 1) * z)).to_vec(), k);
        }
        over(c, axes, vec![], 1);
    }
    over(c, LARGEST, (0..32).flat_map(plane).collect(), 0);
    over(c, LARGEST, (0..32).step_by(2).flat_map(plane).collect(), 1);
    over(c, LARGEST, [5, 21].into_iter().flat_map(plane).collect(), 2);
    out
}

pub fn add(lists: &mut Lists, points: [f32; 9], kind: u8, numbers: [f32; 7]) {
    lists.points.extend(points);
    lists.uses.push(lists.kinds.len() as u32);
    lists.kinds.push(kind);
    lists.numbers.extend(numbers);
}

pub fn hits(lists: &Lists) -> Scratch {
    Scratch { distances: vec![-7.5; lists.uses.len()], places: vec![99; lists.uses.len()] }
}

/// A sheet far above the whole grid, which lets through so much, and over the lower half of x an opaque one.
pub fn sheets(axes: [u64; 3], through: f32, half: bool) -> Lists {
    let mut lists = Lists::default();
    add(&mut lists, [-200.0, -200.0, 100.0, 400.0, -200.0, 100.0, -200.0, 400.0, 100.0], 1, [0.5, 0.5, 0.5, 0.0, 0.0, 0.0, through]);
    if half {
        let x = axes[0] as f32 / 2.0 + 0.25;
        add(&mut lists, [x, -300.0, 120.0, x, 300.0, 120.0, x - 300.0, 0.0, 120.0], 0, [0.5, 0.5, 0.5, 0.0, 0.0, 0.0, 0.0]);
    }
    lists
}

pub fn sun_call(axes: [u64; 3], lists: Lists, active: Vec<u8>) -> Call {
    let n = voxels(&grid(axes));
    let hits = hits(&lists);
    Call::Sun { grid: grid(axes), lists, direction: [0.0, 0.0, 2.0], active, light: vec![f32::NAN; n], scratch: vec![0.25; n], hits }
}

fn good_sun(c: &mut Chance) -> Vec<Item> {
    let mut out = Vec::new();
    let mut over = |axes: [u64; 3], lists: Lists, active: Vec<u8>| out.push(Item::One(sun_call(axes, lists, active)));
    for axes in SMALL {
        for (form, mask) in masks(c, voxels(&grid(axes))).iter().enumerate() {
            over(axes, sheets(axes, 0.7, true), same_words(mask, form));
            if form < 3 {
                over(axes, sheets(axes, 0.7, true), same_words(mask, form + 1));
            }
        }
    }
    let n = voxels(&grid(MIDDLING));
    over(MIDDLING, sheets(MIDDLING, 0.0, false), random(c, n, 2));
    for axes in [LARGEST, LARGE] {
        let n = voxels(&grid(axes));
        for mask in [vec![0; n], vec![1; n]] {
            // the mean of halves is a half at the borders too, so that the answer stays short
            over(axes, sheets(axes, 0.5, false), mask);
        }
        for (form, i) in ends(n).into_iter().enumerate() {
            over(axes, sheets(axes, 0.7, false), same_words(&only(n, i), form));
        }
    }
    // two columns of voxels in each row, which are bits 5, 21, 37 and 53 of each word, and the last bit of all
    let n = voxels(&grid(LARGEST));
    over(LARGEST, sheets(LARGEST, 0.0, false), (0..n).map(|i| (i % 16 == 5 || i == n - 1) as u8).collect());
    out
}

/// A bake over a floor, from its beginning.
pub fn room(axes: [u64; 3], active: Vec<u8>, floor: bool) -> Bake {
    let n = voxels(&grid(axes));
    let mut lists = Lists::default();
    if floor {
        add(&mut lists, [-60.0, -60.0, -2.0, 180.0, -60.0, -2.0, -60.0, 180.0, -2.0], 0, [0.8, 0.6, 0.7, 0.0, 0.0, 0.0, 0.0]);
    }
    Bake {
        grid: grid(axes),
        hits: hits(&lists),
        lists,
        sunlight: [0.25, 0.125, 1.0, 2.0, 1.5, 1.0],
        ambient: [0.5, 0.25, 0.75, 0.125, -0.0, 0.25, 0.0, 0.5, -0.125, 0.25, 0.0, 0.125],
        sky: (0..1728).map(|i| [0.25, 0.5, 0.75][i % 3]).collect(),
        lamps: vec![],
        active,
        light: (0..n).map(|i| (i % 7) as f32 / 8.0).collect(),
        volume: vec![f32::NAN; 16 * n],
        scratch: vec![f32::INFINITY; 16 * n],
        progress: Progress::default(),
        allowance: u64::MAX,
    }
}

/// Calls one after another with these allowances, each going on from the last.
pub fn calls(bake: &Bake, allowances: &[u64]) -> Item {
    let figures = baked(bake, Some(&bake.active));
    let mut now = bake.clone();
    let mut calls = Vec::new();
    for allowance in allowances {
        calls.push((now.progress, *allowance));
        now.allowance = *allowance;
        now.progress = bake_call(&mut now, &figures).0;
    }
    Item::Bakes { bake: Box::new(bake.clone()), calls }
}

/// A bake that goes on from a voxel, over a volume that no bake wrote.
fn from(axes: [u64; 3], active: Vec<u8>, next: usize, allowance: u64) -> Item {
    let mut bake = room(axes, active, true);
    bake.volume.fill(0.25);
    let progress = progress_places::chosen(&bake, next as u64);
    Item::Bakes { bake: Box::new(bake), calls: vec![(progress, allowance)] }
}

fn good_bakes(c: &mut Chance) -> Vec<Item> {
    let mut out = Vec::new();
    for axes in SMALL {
        let n = voxels(&grid(axes));
        let end = u64::MAX;
        for (form, mask) in [vec![0; n], vec![1; n]].iter().enumerate() {
            out.push(calls(&room(axes, same_words(mask, form + 1), true), &[end, 384]));
        }
        if n == 1 {
            continue;
        }
        for (form, i) in ends(n).into_iter().enumerate() {
            let bake = room(axes, same_words(&only(n, i), form), true);
            out.push(calls(&bake, &[384]));
            // all that is left is inactive: no voxel is taken, and the volume is blurred
            if i + 1 < n {
                out.push(from(axes, bake.active, i + 1, 384));
            }
        }
        // the first call takes one voxel and stops at the other, far on or next to it
        for (one, other) in [(0, n - 1), (62, 63), (63, 64)] {
            if other < n {
                let mut bake = room(axes, only(n, one), true);
                bake.active[other] = 1;
                out.push(calls(&bake, &[384, 384]));
            }
        }
        // voxels of the same word that are active below progress stay as they are
        for progress in [1, 62, 63, 64, 65, 126, 127] {
            if progress < n {
                out.push(from(axes, vec![1; n], progress, 384));
            }
        }
        out.push(calls(&room(axes, random(c, n, 2), true), &[384, 1000, 5000, end]));
        out.push(calls(&room(axes, same_words(&random(c, n, 12), 2), true), &[400, 384, end]));
        for progress in [63, 64, 65] {
            if progress < n {
                let mask = random(c, n, 3);
                out.push(from(axes, mask.clone(), progress, 384));
                out.push(from(axes, mask, progress, end));
            }
        }
    }
    out
}

fn good_fired() -> Vec<Item> {
    let two = |axes: [u64; 3], on: [usize; 2]| {
        let mut active = vec![0; voxels(&grid(axes))];
        on.into_iter().for_each(|i| active[i] = 1);
        Item::Fired(Box::new(room(axes, active, false)))
    };
    vec![two([1, 1, 1], [0, 0]), two([7, 3, 3], [31, 62]), two([4, 4, 4], [0, 63]), two([13, 5, 1], [63, 64]), two([8, 4, 4], [63, 64]), two([8, 4, 4], [96, 127])]
}

/// The records of these grids, inside the limits.
pub fn made(module: &str) -> Vec<Item> {
    let mut c = Chance::new(0xC18);
    match module {
        "masks" => good_masks(&mut c),
        "sun" => good_sun(&mut c),
        "bake" => good_bakes(&mut c),
        "fired" => good_fired(),
        _ => vec![],
    }
}

/// A grid of some words or nearly so and a random mask over it, for a seed.
pub fn seeded(module: &str, seed: u64) -> Vec<Item> {
    let mut chance = Chance::new(seed ^ 0x3027_D5);
    let c = &mut chance;
    let axes = c.pick(&SHAPES);
    let n = voxels(&grid(axes));
    let mut mask = match c.below(6) {
        0 => only(n, c.below(n)),
        1 => random(c, n, 1),
        k => random(c, n, [2, 3, 9, 40][k - 2]),
    };
    let form = c.below(3);
    match module {
        "masks" => {
            let whole = 64 * needed(n);
            let (a, b) = (c.from(n, whole), c.from(n, whole));
            vec![Item::One(masks_call(axes, specks(&grid(axes), &mask), random(c, a, 2), random(c, b, 2)))]
        }
        "sun" => vec![Item::One(sun_call(axes, sheets(axes, 0.7, true), same_words(&mask, form)))],
        "bake" => {
            // a few voxels only
            while mask.iter().filter(|m| **m == 1).count() > 8 {
                mask[c.below(n)] = 0;
            }
            let floor = c.one_in(2);
            vec![calls(&room(axes, same_words(&mask, form), floor), &[384 + c.below(900) as u64, u64::MAX])]
        }
        "fired" => {
            mask = only(n, c.below(n));
            mask[c.below(n)] = 1;
            vec![Item::Fired(Box::new(room(axes, mask, false)))]
        }
        _ => vec![],
    }
}

fn masks_of(call: &mut Call) -> Vec<&mut Vec<u8>> {
    match call {
        Call::Masks { occupied, active, .. } => vec![occupied, active],
        Call::Sun { active, .. } => vec![active],
        Call::Bake(b) => vec![&mut b.active],
        _ => vec![],
    }
}

/// A call whose mask has one bit more.
fn with_bit(call: &Call, bit: usize) -> Call {
    let mut call = call.clone();
    set_bit(masks_of(&mut call).swap_remove(0), bit);
    call
}

/// A module's base with these axes. What is lent is 0 and 1 in turn, the unused bits of a list that is filled among it; in a large grid one
/// voxel is active in the sun pass and few in the masks, so that the answer stays short.
fn base(module: &str, axes: [u64; 3]) -> Call {
    let n = voxels(&grid(axes));
    let large = n > 192;
    let turns = |n: usize| (0..n).map(|i| (i % 2) as u8).collect::<Vec<u8>>();
    match module {
        "masks" => masks_call(axes, speck(&grid(axes), if large { 0 } else { n / 2 }).to_vec(), turns(64 * needed(n)), turns(n)),
        "sun" => sun_call(axes, sheets(axes, 0.7, !large), if large { only(n, n - 1) } else { turns(n) }),
        _ => {
            let mut bake = room(axes, turns(n), true);
            bake.lamps = vec![0.5, 0.5, 3.0, 1.0, 0.5, 0.25];
            bake.volume.fill(0.25);
            bake.progress = progress_places::chosen(&bake, n as u64 / 2);
            bake.allowance = 500;
            Call::Bake(Box::new(bake))
        }
    }
}

/// What C-18 refuses, and what stands next to it: words too few and too many, each unused bit, and each of these beside a fault of every
/// other row.
pub fn bad(module: &str, seed: u64) -> Vec<Item> {
    let mut chance = Chance::new(seed ^ 0xBAD_C18);
    let c = &mut chance;
    let grids: &[[u64; 3]] = match module {
        "masks" | "sun" => &[SMALL[0], SMALL[1], SMALL[2], SMALL[3], SMALL[4], [10, 13, 1], LARGE, LARGEST],
        "bake" => &[SMALL[0], SMALL[1], SMALL[2], SMALL[3], SMALL[4], [10, 13, 1]],
        _ => &[],
    };
    let mut out = Vec::new();
    let mut put = |mut call: Call, number: u32, what: &str| {
        progress_places::choose(&mut call);
        bad::meant(table::refusal(&call), number, what);
        out.push(Item::One(call));
    };
    for axes in grids.iter().cloned() {
        let n = voxels(&grid(axes));
        let whole = 64 * needed(n);
        let good = base(module, axes);
        put(good.clone(), 0, "a base");
        for which in 0..masks_of(&mut good.clone()).len() {
            let changed = |make: &dyn Fn(&mut Vec<u8>)| {
                let mut call = good.clone();
                make(masks_of(&mut call).swap_remove(which));
                call
            };
            put(changed(&|mask| mask.clear()), 3, "no words");
            if whole > 64 {
                put(changed(&|mask| mask.resize(whole - 64, 0)), 3, "a word less");
            }
            put(changed(&|mask| mask.resize(whole + 1, 0)), 3, "a word more");
            put(changed(&|mask| set_bit(mask, whole)), 3, "a word more, its first bit set");
            put(changed(&|mask| set_bit(mask, whole + 63)), 3, "a word more, its last bit set");
            if masks_of(&mut good.clone())[which].len() < whole {
                put(changed(&|mask| mask.resize(whole, 0)), 0, "whole words");
            }
        }
        if module == "masks" {
            // a mask that is filled may hold anything, and keeps it where the call is refused
            let mut call = good.clone();
            masks_of(&mut call).into_iter().for_each(|mask| *mask = vec![1; whole]);
            put(call.clone(), 0, "all bits set");
            if let Call::Masks { points, .. } = &mut call {
                points[4] = f32::NAN;
            }
            put(call, 5, "all bits set and a bad point");
            continue;
        }
        let bits = unused(n);
        let some: Vec<usize> = if n <= 65 || bits.is_empty() { bits.clone().collect() } else { vec![bits.start, (bits.start + bits.end) / 2, bits.end - 1] };
        for bit in some {
            put(with_bit(&good, bit), 13, "an unused bit");
        }
        if bits.is_empty() {
            continue;
        }
        for (entry, what) in [(0, "all unused bits and no voxel"), (1, "all bits")] {
            let mut call = good.clone();
            let mask = masks_of(&mut call).swap_remove(0);
            mask.fill(entry);
            mask.resize(whole, 1);
            put(call, 13, what);
        }
        if let Call::Bake(bake) = &good {
            for progress in [0, n as u64] {
                let mut bake = bake.clone();
                bake.progress.next = progress;
                put(with_bit(&Call::Bake(bake), bits.start), 13, "an unused bit at the beginning or the end");
            }
        }
    }
    // two faults, of which the one whose row comes first is given
    for axes in [SMALL[0], SMALL[3]] {
        if !grids.contains(&axes) {
            continue;
        }
        let good = base(module, axes);
        let n = voxels(&grid(axes));
        let bits = unused(n);
        let all = bad::changes(&good, true);
        let rows = [1, 2, 3, 4, 5, 6, 7, 19, 9, 10, 13];
        for (place, row) in rows.into_iter().enumerate() {
            let fit: Vec<&bad::Change> = all
                .iter()
                .filter(|change| change.number == Some(row) && !change.name.contains("by words") && !change.name.starts_with("unused bit"))
                .filter(|change| module == "masks" || !change.name.contains("triangles"))
                .collect();
            if fit.is_empty() {
                continue;
            }
            for form in 0..3 {
                let fault = fit[c.below(fit.len())];
                let mut call = good.clone();
                (fault.make)(&mut call);
                if form == 0 {
                    // the words are too many; a list that is filled holds set bits in them
                    let last = masks_of(&mut call).len() - 1;
                    set_bit(masks_of(&mut call).swap_remove(last), 64 * needed(n) + c.below(64));
                    put(call, if place < 2 { row } else { 3 }, &format!("{} and a word more", fault.name));
                } else if module != "masks" {
                    let bit = if form == 1 { bits.start } else { bits.end - 1 };
                    put(with_bit(&call, bit), row, &format!("{} and unused bit {bit}", fault.name));
                }
            }
        }
    }
    out
}
