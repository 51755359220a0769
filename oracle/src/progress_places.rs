//! What document 02's C-16 asks for: records of next voxel and rays so far that stand at both bounds of the rule and one beside them, about
//! the ends of words, far above every bound, at the beginning and at the end; and bakes that hand their record on.
//!
//! The bounds are counted here from a mask's entries, apart from the table, so that what is asked does not move with what is answered.
use crate::answers::{bake_call, baked};
use crate::bad::{lamps_to, meant, set_bit, unused};
use crate::calls::{Bake, Call, Progress};
use crate::chance::Chance;
use crate::items::Item;
use crate::table;
use crate::words::needed;
use crate::word_places::{add, calls, grid, hits, only, random, room, SHAPES};
use crate::worlds::voxels;

/// The fewest and the most rays that a record with this next voxel may have.
pub fn least_and_most(bake: &Bake, next: u64) -> (u64, u64) {
    let taken = bake.active.iter().take(next.min(bake.active.len() as u64) as usize).filter(|entry| **entry == 1).count() as u64;
    (64 * taken, table::cost(&bake.lamps) * taken)
}

/// Whether a bake's record keeps the rule.
pub fn keeps(bake: &Bake) -> bool {
    let (least, most) = least_and_most(bake, bake.progress.next);
    bake.progress.next <= voxels(&bake.grid) as u64 && (least..=most).contains(&bake.progress.rays)
}

/// A record with this next voxel that keeps the rule: by turns the fewest rays, the most, and some between.
pub fn chosen(bake: &Bake, next: u64) -> Progress {
    let (least, most) = least_and_most(bake, next);
    Progress { next, rays: [least, most, (least + most) / 2][(next % 3) as usize] }
}

/// Gives a bake's record rays that fit its next voxel.
pub fn choose(call: &mut Call) {
    if let Call::Bake(bake) | Call::SolidBake(bake) | Call::TreeBake(bake, _) = call {
        bake.progress = chosen(bake, bake.progress.next);
    }
}

/// A record as near as its next voxel lets it be.
pub fn fitted(bake: &Bake, progress: Progress) -> Progress {
    let (least, most) = least_and_most(bake, progress.next);
    Progress { rays: progress.rays.clamp(least, most), ..progress }
}

/// Rays beyond every bound, most of which a sum, a product or a narrower number brings back between the bounds.
pub fn far(bake: &Bake, next: u64) -> Vec<u64> {
    let (least, most) = least_and_most(bake, next);
    let cost = table::cost(&bake.lamps);
    let mut out = vec![u64::MAX, u64::MAX - 63, 1 << 63];
    out.extend([32, 56, 57, 58, 63].map(|bits| (1 << bits) + (least + most) / 2));
    out.extend([64, cost, least, most, most - least].map(|back| back.wrapping_neg()).into_iter().filter(|rays| *rays != 0));
    out.sort();
    out.dedup();
    out
}

/// A bake over a floor that is lent the same numbers all over, so that its records stay short.
fn desk(axes: [u64; 3], active: Vec<u8>, lamps: usize) -> Bake {
    let mut bake = room(axes, active, true);
    bake.light.fill(0.5);
    bake.volume.fill(0.25);
    lamps_to(&mut bake.lamps, lamps);
    bake
}

/// Four voxels between a floor and a ceiling, with eight lamps: each fires more than 384 rays.
fn bright(active: Vec<u8>) -> Bake {
    let mut bake = room([2, 2, 1], active, true);
    add(&mut bake.lists, [-60.0, -60.0, 3.0, 180.0, -60.0, 3.0, -60.0, 180.0, 3.0], 0, [0.7, 0.8, 0.6, 0.0, 0.0, 0.0, 0.0]);
    bake.hits = hits(&bake.lists);
    bake.volume.fill(0.25);
    bake.lamps = (0..8).flat_map(|k| [0.25 * k as f32, 1.0, 0.5, 2.0, 1.0 + k as f32, 0.5]).collect();
    bake
}

/// Calls over one bake, each with the number that it is made for.
fn asked(bake: Bake, calls: Vec<(Progress, u64, u32)>, what: &str) -> Item {
    let mut now = bake.clone();
    for (progress, allowance, number) in &calls {
        now.progress = *progress;
        now.allowance = *allowance;
        meant(table::refusal(&Call::Bake(Box::new(now.clone()))), *number, &format!("{what}: {progress:?}, allowance {allowance}"));
    }
    Item::Bakes { bake: Box::new(bake), calls: calls.into_iter().map(|(progress, allowance, _)| (progress, allowance)).collect() }
}

/// A next voxel with rays one below the fewest and one above the most, and `far` ones: each 9. Then, where the answer stays short, the fewest,
/// the most and some between, each accepted.
pub fn about(bake: &Bake, next: u64, and_far: bool) -> Item {
    let (least, most) = least_and_most(bake, next);
    let cost = table::cost(&bake.lamps);
    let mut wrong = vec![most + 1];
    wrong.extend(least.checked_sub(1));
    if least > 0 {
        wrong.extend([0, least - 64, least - 63, most + 64, most + cost]);
    } else {
        wrong.extend([64, cost]);
    }
    if and_far {
        wrong.extend(far(bake, next));
    }
    wrong.sort();
    wrong.dedup();
    let record = |rays: u64, number: u32| (Progress { next, rays }, cost, number);
    let mut calls: Vec<(Progress, u64, u32)> = wrong.into_iter().filter(|rays| *rays < least || *rays > most).map(|rays| record(rays, 9)).collect();
    // one voxel that is left and a volume that is blurred make a long list
    let left = bake.active.iter().skip(next as usize).filter(|entry| **entry == 1).count();
    if left != 1 || voxels(&bake.grid) <= 8 {
        let mut right = vec![least, most, (least + most) / 2];
        if least > 0 {
            right.extend([least + 1, most - 1, (384 * least / 64 + 1).min(most)]);
        }
        right.dedup();
        calls.extend(right.into_iter().map(|rays| record(rays, 0)));
    }
    asked(bake.clone(), calls, "a record")
}

/// Next voxels at the ends of words, at the ends of the grid, and about the first and the last active voxel.
fn places(bake: &Bake) -> Vec<u64> {
    let n = voxels(&bake.grid) as u64;
    let mut out = vec![0, 1, 62, 63, 64, 65, 66, 127, 128, 129, n - 1, n];
    for end in [bake.active.iter().position(|entry| *entry == 1), bake.active.iter().rposition(|entry| *entry == 1)].into_iter().flatten() {
        out.extend([end as u64, end as u64 + 1]);
    }
    out.retain(|next| *next <= n);
    out.sort();
    out.dedup();
    out
}

/// Next voxels above the count, whatever the rays.
pub fn above(bake: &Bake) -> Item {
    let n = voxels(&bake.grid) as u64;
    let (least, most) = least_and_most(bake, n);
    let nexts = [n + 1, n + 2, n + 64, 64 * needed(n as usize) as u64 + 1, (1 << 32) + n, 1 << 32, (1 << 58) + n, 1 << 63, u64::MAX];
    let calls = nexts.into_iter().flat_map(|next| [0, least, most].map(|rays| (Progress { next, rays }, u64::MAX, 9)));
    asked(bake.clone(), calls.collect(), "a next voxel above the count")
}

/// A bake in calls that may each take so many rays, with wrong records between the right ones: those are refused and write nothing, and the
/// right one goes on.
pub fn handed_on(bake: &Bake, allowances: &[u64]) -> Item {
    let figures = baked(bake, Some(&bake.active));
    let n = voxels(&bake.grid) as u64;
    let mut now = bake.clone();
    let (mut calls, mut sum) = (Vec::new(), 0);
    for allowance in allowances {
        let Progress { next, rays } = now.progress;
        let (least, most) = least_and_most(bake, next);
        let wrong = |next: u64, rays: u64| {
            let other = least_and_most(bake, next);
            let number = if next <= n && (other.0..=other.1).contains(&rays) { 0 } else { 9 };
            (number == 9).then_some((Progress { next, rays }, *allowance, number))
        };
        calls.extend(least.checked_sub(1).and_then(|few| wrong(next, few)));
        calls.extend([wrong(next, most + 1), wrong(next + 1, rays), wrong(next.saturating_sub(1), rays)].into_iter().flatten());
        calls.push((now.progress, *allowance, 0));
        now.allowance = *allowance;
        let (progress, own) = bake_call(&mut now, &figures);
        sum += own;
        now.progress = progress;
        meant((sum == progress.rays) as u32, 1, "the sum of the calls' rays");
    }
    asked(bake.clone(), calls, "a record that is handed on")
}

/// A record that breaks the rule or keeps it beside a fault of every other row, of which the one whose row comes first is given.
fn beside(out: &mut Vec<Item>) {
    let good = desk([13, 5, 1], in_turn(65, 0), 1);
    let n = 65;
    let cost = table::cost(&good.lamps);
    let mut both = |bake: &Bake, allowance: u64, wrong: u32, right: u32, what: &str| {
        let mut calls = Vec::new();
        for next in [0, 1, 33, 64, n] {
            let (least, most) = least_and_most(&good, next);
            // the last would fit one voxel more, as an unused bit that is counted makes it
            let mut rays = vec![least, most, most + 1, u64::MAX, most + cost];
            rays.extend(least.checked_sub(1));
            rays.sort();
            rays.dedup();
            for rays in rays {
                let number = if rays < least || rays > most { wrong } else { right };
                calls.push((Progress { next, rays }, allowance, number));
            }
        }
        calls.push((Progress { next: n + 1, rays: 64 * 33 }, allowance, wrong));
        out.push(asked(bake.clone(), calls, what));
    };
    let changed = |make: &dyn Fn(&mut Bake)| {
        let mut bake = good.clone();
        make(&mut bake);
        bake
    };
    for allowance in [0, 384, cost - 1] {
        both(&good, allowance, 9, 10, "too small an allowance");
    }
    for bit in [65, 70, 127] {
        both(&changed(&|bake| set_bit(&mut bake.active, bit)), cost, 9, 13, "an unused bit");
    }
    let filled = changed(&|bake| bake.active.extend(unused(65).map(|_| 1)));
    both(&filled, cost, 9, 13, "every unused bit");
    both(&filled, cost - 1, 9, 10, "every unused bit and too small an allowance");
    both(&changed(&|bake| bake.light[64] = f32::NAN), cost, 9, 13, "a bad light");
    both(&changed(&|bake| bake.lamps[2] = f32::NAN), cost, 19, 19, "a bad lamp");
    let bad_lamp_and_mask = changed(&|bake| {
        bake.lamps[5] = 1.0e9;
        set_bit(&mut bake.active, 65);
    });
    both(&bad_lamp_and_mask, 0, 19, 19, "a bad lamp, a bad mask and no allowance");
    both(&changed(&|bake| lamps_to(&mut bake.lamps, 9)), u64::MAX, 19, 19, "nine lamps");
    both(&changed(&|bake| bake.sky[1] = f32::INFINITY), cost, 7, 7, "a bad sky");
    both(&changed(&|bake| bake.lists.kinds[0] = 3), cost, 6, 6, "a bad material");
    both(&changed(&|bake| bake.lists.points[8] = f32::NAN), cost, 5, 5, "a bad point");
    both(&changed(&|bake| bake.active.truncate(64)), cost, 3, 3, "a word too few");
    both(&changed(&|bake| set_bit(&mut bake.active, 128)), cost, 3, 3, "a word too many");
    both(&changed(&|bake| bake.grid.corners[3] = 0.0), cost, 2, 2, "bad corners");
    both(&changed(&|bake| bake.grid.axes[1] = 0), cost, 1, 1, "no voxels");
    // coefficients are looked at strictly between the ends alone
    let (least, most) = least_and_most(&good, 64);
    let (first, last) = least_and_most(&good, n);
    let mut bad_volume = good.clone();
    bad_volume.volume[1039] = f32::NEG_INFINITY;
    let calls = [(64, least - 1, 9), (64, least, 13), (64, most, 13), (64, most + 1, 9), (n, first - 1, 9), (n, first, 0), (n, last, 0), (n, last + 1, 9), (0, 1, 9)];
    out.push(asked(bad_volume, calls.map(|(next, rays, number)| (Progress { next, rays }, cost, number)).to_vec(), "a bad coefficient"));
}

/// Every other voxel, from the first or the second on.
fn in_turn(n: usize, first: usize) -> Vec<u8> {
    (0..n).map(|i| (i % 2 == first) as u8).collect()
}

/// What C-16 refuses and what stands next to it.
pub fn bad(module: &str, seed: u64) -> Vec<Item> {
    if module != "bake" {
        return vec![];
    }
    let mut chance = Chance::new(seed ^ 0xBAD_C16);
    let c = &mut chance;
    let mut out = Vec::new();
    let whole = [8, 4, 4];
    let mut upper = vec![0; 64];
    upper.extend([1; 64]);
    let mut pair = only(65, 63);
    pair[64] = 1;
    let bakes = [
        desk([1, 1, 1], vec![1], 0),
        desk([1, 1, 1], vec![1], 8),
        desk([1, 1, 1], vec![0], 0),
        desk([4, 1, 1], vec![1, 0, 1, 1], 2),
        desk([7, 3, 3], vec![1; 63], 0),
        desk([4, 4, 4], in_turn(64, 1), 1),
        desk([13, 5, 1], in_turn(65, 0), 8),
        desk([13, 5, 1], pair, 0),
        desk(whole, vec![1; 128], 3),
        desk(whole, upper, 0),
        desk(whole, only(128, 0), 5),
        desk([10, 13, 1], random(c, 130, 3), 0),
    ];
    for (which, bake) in bakes.iter().enumerate() {
        let all = places(bake);
        let far = [all[all.len() / 2], all[all.len() - 1], 0];
        for next in &all {
            out.push(about(bake, *next, far[which % 2..].contains(next)));
        }
        out.push(above(bake));
    }
    // document 01's figure: three voxels of 64 rays
    let mut figure = desk([3, 1, 1], vec![1; 3], 0);
    (figure.lists, figure.hits) = Default::default();
    out.push(handed_on(&figure, &[384, 384, 384, 384]));
    out.push(handed_on(&figure, &[448, 384, u64::MAX]));
    out.push(handed_on(&bright(vec![1; 4]), &[896, 896, 896, 896, 896]));
    out.push(handed_on(&bright(vec![0, 1, 1, 0]), &[896, 2000, 896]));
    // a seed's own: some voxels of a grid, lamps, and every next voxel about them
    let axes = c.pick(&SHAPES);
    let n = voxels(&grid(axes));
    let one_in = c.pick(&[1, 2, 5, 30]);
    let bake = desk(axes, random(c, n, one_in), c.below(9));
    for _ in 0..6 {
        out.push(about(&bake, c.below(n + 1) as u64, c.one_in(3)));
    }
    beside(&mut out);
    out
}

/// Bakes that hand their record on, and records at both bounds, all inside the limits.
pub fn made(module: &str) -> Vec<Item> {
    if module != "bake" {
        return vec![];
    }
    let lit = bright(vec![1; 4]);
    let figures = baked(&lit, Some(&lit.active));
    assert!(figures.rays_of.iter().all(|rays| *rays > 384), "lamps bring each voxel above 384 rays");
    let mut out = vec![calls(&lit, &[896, 896, 896, 896, 896]), calls(&lit, &[2000, 1500, u64::MAX]), calls(&bright(vec![0, 1, 0, 1]), &[896, 896, 896])];
    // going on from what another desk has done: every next voxel with the rays that the voxels below it fired
    for next in 1..=4 {
        let rays = figures.rays_of[..next].iter().sum();
        out.push(Item::Bakes { bake: Box::new(lit.clone()), calls: vec![(Progress { next: next as u64, rays }, 1000)] });
    }
    out
}

/// An interrupted bake for a seed, and one that goes on from some voxel with any rays that the rule lets it have.
pub fn seeded(module: &str, seed: u64) -> Vec<Item> {
    if module != "bake" {
        return vec![];
    }
    let mut chance = Chance::new(seed ^ 0xC16_5EED);
    let c = &mut chance;
    let axes = c.pick(&SHAPES);
    let n = voxels(&grid(axes));
    let mut mask = vec![0; n];
    for _ in 0..c.from(0, 6) {
        mask[c.below(n)] = 1;
    }
    let lamps = c.below(9);
    let bake = if c.one_in(2) { bright(random(c, 4, 2)) } else { desk(axes, mask, lamps) };
    let cost = table::cost(&bake.lamps);
    let allowances: Vec<u64> = (0..c.from(1, 4)).map(|_| cost + c.below(1500) as u64).chain([u64::MAX, cost]).collect();
    let next = c.below(voxels(&bake.grid) + 1) as u64;
    let (least, most) = least_and_most(&bake, next);
    let between = least + c.next() % (most - least + 1);
    let rays = c.pick(&[least, most, between]);
    let mut middle = bake.clone();
    middle.volume.fill(-0.5);
    vec![
        calls(&bake, &allowances),
        Item::Bakes { bake: Box::new(middle), calls: vec![(Progress { next, rays }, cost + c.below(600) as u64)] },
    ]
}
