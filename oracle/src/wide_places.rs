//! What document 02's C-21 asks for: grids with an axis above document 01's 32 and up to the new limit, what stands about their far ends, and
//! axes on both sides of the limit. Lists of 32,768 voxels are one number or a short row of numbers all over but for a few places, so that
//! their records stay short.
use crate::bad;
use crate::calls::{Bake, Call, Grid, Lists, Progress};
use crate::chance::Chance;
use crate::items::Item;
use crate::panel_places;
use crate::progress_places::{about, above, choose, chosen, handed_on};
use crate::table::{self, AXIS};
use crate::word_places::{add, calls, grid, hits, masks_call, only, random, room, same_words, sheets, speck, sun_call};
use crate::words::needed;
use crate::worlds::{self, voxels, World};

/// The limit on each axis.
const LONG: [[u64; 3]; 3] = [[AXIS, 1, 1], [1, AXIS, 1], [1, 1, AXIS]];
/// One more than the limit was, and one less than it is: a last word with unused bits.
const BESIDE: [[u64; 3]; 6] = [[33, 1, 1], [1, 33, 1], [1, 1, 33], [AXIS - 1, 1, 1], [1, AXIS - 1, 1], [1, 1, AXIS - 1]];
/// The limit on two axes: 32,768 voxels.
const FLAT: [[u64; 3]; 3] = [[AXIS, AXIS, 2], [AXIS, 2, AXIS], [2, AXIS, AXIS]];
/// 81,920 voxels, more than sixteen bits count. The programs have room for its masks and its light, and for no volume of it.
const DEEP: [u64; 3] = [AXIS, AXIS, 5];
/// Its voxels about 65,536, which sixteen bits take for 0, and its last.
const PAST_SIXTEEN_BITS: [usize; 5] = [65_535, 65_536, 65_537, 65_536 + 300, 81_919];
/// Least corner and edge on a long axis: edges that are no whole numbers, the widest and the narrowest.
const EDGES: [(f32, f32); 5] = [(0.1, 0.3), (-0.7, 0.011), (3.3, 1.3), (-4096.0, 64.0), (1.0, 1.0 / 1024.0)];
/// Cells and planes between cells about the old limit and about the ends.
const PLANES: [f32; 11] = [0.0, 1.0, 31.0, 32.0, 33.0, 63.0, 64.0, 65.0, 126.0, 127.0, 128.0];

/// The longest axis.
fn along(axes: [u64; 3]) -> usize {
    (0..3).find(|i| axes[*i] == axes[0].max(axes[1]).max(axes[2])).expect("one of three")
}

/// A point with `t` on one axis and `other` on the two others.
fn on(axis: usize, t: f32, other: f32) -> [f32; 3] {
    let mut point = [other; 3];
    point[axis] = t;
    point
}

/// A grid that is not in whole numbers along an axis.
fn edged(axes: [u64; 3], (low, edge): (f32, f32)) -> Grid {
    let mut out = grid(axes);
    let i = along(axes);
    out.corners[i] = low;
    out.corners[3 + i] = (low + axes[i] as f32 * edge).min(4096.0);
    // the narrowest may come out a step too narrow
    while (out.corners[3 + i] - low) / (axes[i] as f32) < 1.0 / 1024.0 {
        out.corners[3 + i] = out.corners[3 + i].next_up();
    }
    out
}

/// Voxels about the ends of the grid, of its rows, of words and of narrower numbers.
fn ends(n: usize) -> Vec<usize> {
    let mut out = vec![0, 31, 32, 63, 64, 126, 127, 128, 255, 256, n / 2 - 1, n / 2, n - 2, n - 1];
    out.retain(|i| *i < n);
    out.sort();
    out.dedup();
    out
}

fn marked(n: usize, voxels: &[usize]) -> Vec<u8> {
    let mut out = vec![0; n];
    voxels.iter().for_each(|i| out[*i] = 1);
    out
}

/// Seven numbers in turn: with 128 voxels a row, each row begins with another one. Sums of them are exact.
fn sevens(n: usize) -> Vec<f32> {
    (0..n).map(|i| (i % 7) as f32 / 8.0).collect()
}

/// Coefficients of seven voxels in turn, each number another one.
fn seven_voxels(n: usize) -> Vec<f32> {
    (0..16 * n).map(|i| (i % 112) as f32 / 8.0 - 5.0).collect()
}

fn small_triangle(middle: [f32; 3], leg: f32) -> [f32; 9] {
    let [x, y, z] = middle;
    [x - leg, y - leg, z, x + leg, y - leg, z, x - leg, y + leg, z]
}

/// A triangle across an axis at `t`, within the first unit of the two others.
fn across(axis: usize, t: f32) -> [f32; 9] {
    let mut out = [0.25; 9];
    (0..3).for_each(|k| out[3 * k + axis] = t);
    out[3 + (axis + 1) % 3] = 0.75;
    out[6 + (axis + 2) % 3] = 0.75;
    out
}

fn good_masks(c: &mut Chance) -> Vec<Item> {
    let mut out = Vec::new();
    let mut over = |c: &mut Chance, grid: Grid, points: Vec<f32>, form: usize| {
        let n = voxels(&grid);
        let whole = 64 * needed(n);
        let (occupied, active) = match form % 3 {
            0 if n <= 128 => (random(c, n, 2), random(c, n, 2)),
            0 => (vec![1; n], vec![0; n]),
            1 => (vec![1; whole], vec![1; whole]),
            _ => ((0..whole).map(|i| (i % 2) as u8).collect(), vec![0; n]),
        };
        out.push(Item::One(Call::Masks { grid, points, occupied, active }));
    };
    for axes in LONG {
        let (i, n) = (along(axes), voxels(&grid(axes)));
        let mut masks = vec![vec![0; n], vec![1; n], random(c, n, 30)];
        masks.extend(ends(n).into_iter().map(|voxel| only(n, voxel)));
        for (form, mask) in masks.iter().enumerate() {
            over(c, grid(axes), (0..n).filter(|v| mask[*v] == 1).flat_map(|v| speck(&grid(axes), v)).collect(), form);
        }
        // a sample in the last cell, at its end, and past it
        let far = [126.5, 127.0f32.next_down(), 127.0, 127.5, 128.0f32.next_down(), 128.0, 128.0f32.next_up(), 129.5, 255.5, 383.5];
        for (form, t) in far.into_iter().enumerate() {
            over(c, grid(axes), across(i, t).to_vec(), form);
        }
        // along the whole axis, into the last cell, and from one end past the other
        for (form, (from, to)) in [(0.0, 128.0), (96.5, 127.9), (120.0, 128.0), (-40.0, 170.0), (125.2, 300.0), (127.0, 127.75)].into_iter().enumerate() {
            let points = [on(i, from, 0.125), on(i, to, 0.125), on((i + 1) % 3, 0.875, 0.25)];
            let mut points: Vec<f32> = points.into_iter().flatten().collect();
            points[6 + i] = (from + to) * 0.5;
            over(c, grid(axes), points, form);
        }
        for (form, edges) in EDGES.into_iter().enumerate() {
            let grid = edged(axes, edges);
            let own = (grid.corners[3 + i] - grid.corners[i]) / AXIS as f32;
            for planes in PLANES.chunks(6) {
                over(c, grid, planes.iter().flat_map(|k| across(i, (grid.corners[i] + k * own).min(4096.0))).collect(), form);
            }
        }
    }
    for axes in BESIDE {
        let n = voxels(&grid(axes));
        for (form, mask) in [random(c, n, 20), only(n, n - 1), only(n, n - 3)].iter().enumerate() {
            over(c, grid(axes), (0..n).filter(|v| mask[*v] == 1).flat_map(|v| speck(&grid(axes), v)).collect(), form);
        }
    }
    for axes in FLAT {
        let n = voxels(&grid(axes));
        for k in 0..8 {
            // a corner of the grid
            let [x, y, z] = [0, 1, 2].map(|i| (k >> i & 1) * (axes[i] as usize - 1));
            let corner = x + axes[0] as usize * (y + axes[1] as usize * z);
            over(c, grid(axes), speck(&grid(axes), corner).to_vec(), k);
        }
        for (form, voxel) in [127, 128, 300, n / 2 - 1, n / 2, n / 2 + 300].into_iter().enumerate() {
            over(c, grid(axes), speck(&grid(axes), voxel).to_vec(), form);
        }
        over(c, grid(axes), ends(n).into_iter().flat_map(|voxel| speck(&grid(axes), voxel)).collect(), 1);
        over(c, grid(axes), vec![], 1);
    }
    // both layers under triangles that are given 4,096 samples and would need more: every other cell of every other row
    let large = [0.5, 1.5].into_iter().flat_map(|z| [[0.0, 0.0, z, 128.0, 0.0, z, 0.0, 128.0, z], [128.0, 128.0, z, 0.0, 128.0, z, 128.0, 0.0, z]]);
    over(c, grid(FLAT[0]), large.flatten().collect(), 2);
    // the last of each row: what is active about it stays in its row
    over(c, grid(FLAT[0]), (0..128).flat_map(|y| small_triangle([127.5, y as f32 + 0.5, 1.5], 0.25)).collect(), 1);
    for (form, voxel) in PAST_SIXTEEN_BITS.into_iter().enumerate() {
        over(c, grid(DEEP), speck(&grid(DEEP), voxel).to_vec(), 1 + form % 2);
    }
    out
}

/// A sheet at 300 towards the light, over all that lies past `from` on an axis, which lets through so much.
fn shade(light: usize, bound: usize, from: f32, through: f32) -> Lists {
    let mut lists = Lists::default();
    let third = 3 - light - bound;
    let mut points = [300.0; 9];
    for (k, (b, t)) in [(from, -300.0), (from, 600.0), (from + 600.0, 150.0)].into_iter().enumerate() {
        points[3 * k + bound] = b;
        points[3 * k + third] = t;
    }
    add(&mut lists, points, 1, [0.5, 0.5, 0.5, 0.0, 0.0, 0.0, through]);
    lists
}

/// The sun along an axis.
fn sun(axes: [u64; 3], light: usize, lists: Lists, active: Vec<u8>) -> Item {
    let mut call = sun_call(axes, lists, active);
    if let Call::Sun { direction, .. } = &mut call {
        *direction = on(light, 2.0, 0.0);
    }
    Item::One(call)
}

fn good_sun(c: &mut Chance) -> Vec<Item> {
    let mut out = Vec::new();
    for axes in LONG.into_iter().chain(BESIDE) {
        let (i, n) = (along(axes), voxels(&grid(axes)));
        let light = (i + 1) % 3;
        let far = (n - 1) as f32 + 0.25;
        let mut masks = vec![vec![1; n], only(n, n - 1), random(c, n, 2)];
        if n == AXIS as usize {
            masks.extend([vec![0; n], only(n, 0), only(n, 63), only(n, 64), only(n, 126)]);
        }
        for (form, mask) in masks.iter().enumerate() {
            // the last voxel alone, half of them, all above the old limit
            let from = [far, n as f32 / 2.0 + 0.25, 31.75][form % 3];
            out.push(sun(axes, light, shade(light, i, from, 0.7), same_words(mask, form)));
        }
        // sheets above the grid or in it
        out.push(sun(axes, 2, sheets(axes, 0.7, true), vec![1; n]));
    }
    for axes in FLAT {
        let n = voxels(&grid(axes));
        let light = (0..3).find(|i| axes[*i] == 2).expect("a short axis");
        for bound in (0..3).filter(|i| *i != light) {
            out.push(sun(axes, light, shade(light, bound, 127.25, 0.0), vec![1; n]));
        }
        out.push(sun(axes, light, shade(light, (light + 1) % 3, -200.0, 0.5), vec![1; n]));
        for (form, voxel) in [0, 127, n / 2 - 1, n / 2, n - 1].into_iter().enumerate() {
            out.push(sun(axes, light, shade(light, (light + 1) % 3, -200.0, 0.7), same_words(&only(n, voxel), form)));
        }
    }
    // the last of each row, and the last voxel with a neighbour in the row before
    let (axes, n) = (FLAT[0], voxels(&grid(FLAT[0])));
    out.push(sun(axes, 2, shade(2, 0, -200.0, 0.0), (0..n).map(|i| (i % 128 == 127) as u8).collect()));
    out.push(sun(axes, 2, shade(2, 0, -200.0, 0.7), marked(n, &[n - 1, n - 129, 16384, 16383])));
    out.push(sun(axes, 2, shade(2, 0, -200.0, 0.7), vec![0; n]));
    let deep = voxels(&grid(DEEP));
    // the last two layers lie in the shade, and the first, in which sixteen bits would look for them, does not
    out.extend(PAST_SIXTEEN_BITS.map(|voxel| sun(DEEP, 0, shade(0, 2, 3.25, 0.7), only(deep, voxel))));
    out
}

fn light_blur(axes: [u64; 3], light: Vec<f32>) -> Item {
    let scratch = vec![f32::NAN; light.len()];
    Item::One(Call::LightBlur { axes, light, scratch })
}

fn coefficient_blur(axes: [u64; 3], volume: Vec<f32>) -> Item {
    let scratch = vec![-4.0; volume.len()];
    Item::One(Call::CoefficientBlur { axes, volume, scratch })
}

fn good_blurs(c: &mut Chance) -> Vec<Item> {
    let mut out = Vec::new();
    for axes in LONG.into_iter().chain(BESIDE) {
        let n = voxels(&grid(axes));
        let unit = |c: &mut Chance, n: usize| (0..n).map(|_| c.unit()).collect::<Vec<f32>>();
        out.push(light_blur(axes, unit(c, n)));
        out.push(light_blur(axes, ends(n).into_iter().fold(vec![0.0; n], |mut light, i| {
            light[i] = 1.0 + c.unit();
            light
        })));
        let mut volume = vec![0.25; 16 * n];
        for i in [0, n / 2, n - 2, n - 1] {
            volume[16 * i..16 * i + 16].copy_from_slice(&unit(c, 16));
        }
        out.push(coefficient_blur(axes, volume));
    }
    for axes in FLAT {
        let n = voxels(&grid(axes));
        let mut light = vec![0.5; n];
        ends(n).into_iter().for_each(|i| light[i] = c.unit());
        out.push(light_blur(axes, light));
        // numbers of a row, the same in every row, so that their means are too
        let row = if axes[0] == AXIS { 128 } else { 256 };
        out.push(light_blur(axes, (0..n).map(|i| (i % row * 37 % 101) as f32 / 8.0).collect()));
        let mut volume = vec![0.25; 16 * n];
        ends(n).into_iter().for_each(|i| volume[16 * i + i % 13] = c.unit());
        volume[16 * n - 1] = -3.0;
        out.push(coefficient_blur(axes, volume));
    }
    let n = voxels(&grid(FLAT[0]));
    out.push(coefficient_blur(FLAT[0], (0..16 * n).map(|i| (i % 2048 * 37 % 101) as f32 / 8.0).collect()));
    out.push(light_blur(DEEP, deep_light()));
    out
}

/// One number all over, and others past sixteen bits.
fn deep_light() -> Vec<f32> {
    let mut out = vec![0.5; voxels(&grid(DEEP))];
    PAST_SIXTEEN_BITS.into_iter().enumerate().for_each(|(k, i)| out[i] = 1.0 + k as f32 / 16.0);
    out
}

/// Positions about each plane of a long axis, one beside the grid and one at the limit.
fn positions(c: &mut Chance, grid: &Grid, count: usize) -> Vec<[f32; 3]> {
    let edge = [0, 1, 2].map(|i| (grid.corners[3 + i] - grid.corners[i]) / grid.axes[i] as f32);
    let mut out = vec![
        [0, 1, 2].map(|i| grid.corners[3 + i]),
        [0, 1, 2].map(|i| grid.corners[3 + i].next_down()),
        [0, 1, 2].map(|i| grid.corners[3 + i] - edge[i]),
        [4096.0; 3],
    ];
    while out.len() < count {
        out.push([0, 1, 2].map(|i| {
            let last = grid.axes[i] as f32;
            let plane = if c.one_in(2) { last - c.pick(&[0.0, 1.0, 2.0]) } else { c.pick(&PLANES).min(last + 1.0) };
            let t = plane + c.pick(&[0.0, 0.0, 0.25, 0.5, -0.25, 0.999]);
            (grid.corners[i] + t * edge[i]).clamp(-4096.0, 4096.0)
        }));
    }
    out
}

fn part(axes: [u64; 3], index: usize, choice: bool) -> Call {
    let n = voxels(&grid(axes));
    let scratch = (0..16 * n).map(|i| (i % 192) as f32).collect();
    Call::Part { axes, volume: seven_voxels(n), scratch, index: index as u64, choice }
}

fn good_lookups(c: &mut Chance) -> Vec<Item> {
    let mut out = Vec::new();
    let mut over = |c: &mut Chance, grid: Grid, light: Vec<f32>, count: usize| {
        let n = voxels(&grid);
        let positions = positions(c, &grid, count);
        out.push(Item::LightLookups { grid, light, positions: positions.clone() });
        out.push(Item::CoefficientLookups { grid, volume: seven_voxels(n), positions: positions[..count / 2].to_vec() });
    };
    for axes in LONG.into_iter().chain(BESIDE) {
        let n = voxels(&grid(axes));
        let light = (0..n).map(|_| c.unit()).collect();
        over(c, grid(axes), light, 24);
        for edges in EDGES.into_iter().take(if n == AXIS as usize { 5 } else { 0 }) {
            over(c, edged(axes, edges), sevens(n), 14);
        }
    }
    for axes in FLAT {
        let n = voxels(&grid(axes));
        let mut light = sevens(n);
        ends(n).into_iter().for_each(|i| light[i] = c.unit() + 1.0);
        over(c, grid(axes), light, 40);
    }
    let past = PAST_SIXTEEN_BITS.map(|i| [(i % 128) as f32 + 0.25, (i / 128 % 128) as f32 + 0.5, (i / 16_384) as f32 + 0.125]);
    out.push(Item::LightLookups { grid: grid(DEEP), light: deep_light(), positions: past.to_vec() });
    for axes in LONG {
        out.extend([0, 32, 63, 126, 127].map(|index| Item::One(part(axes, index, index % 2 == 1))));
    }
    for axes in BESIDE {
        out.push(Item::One(part(axes, voxels(&grid(axes)) - 1, true)));
    }
    out.extend([0, 127, 128, 255, 256, 16_383, 16_384, 32_766].map(|index| Item::One(part(FLAT[0], index, index % 2 == 1))));
    out.extend(FLAT.map(|axes| Item::One(part(axes, 32_767, axes[0] == 2))));
    out
}

/// One number all over but about the ends.
fn at_the_ends(n: usize) -> Vec<f32> {
    let mut out = vec![0.5; n];
    ends(n).into_iter().enumerate().for_each(|(k, i)| out[i] = k as f32 / 16.0);
    out
}

/// A bake between a floor and two walls that reach past the far ends, from its beginning: light of one number all over, or others in turn or,
/// where voxels are many, at the ends.
fn hall(axes: [u64; 3], active: Vec<u8>, lamps: usize, varied: bool) -> Bake {
    let mut bake = room(axes, active, false);
    let [w, h, d] = axes.map(|a| a as f32);
    let floor = [-200.0, -200.0, -2.0, 800.0, -200.0, -2.0, -200.0, 800.0, -2.0];
    let wall = [w + 2.0, -200.0, -200.0, w + 2.0, 800.0, -200.0, w + 2.0, -200.0, 800.0];
    let back = [-200.0, h + 3.0, -200.0, 800.0, h + 3.0, -200.0, -200.0, h + 3.0, d + 800.0];
    add(&mut bake.lists, floor, 0, [0.8, 0.6, 0.7, 0.0, 0.0, 0.0, 0.0]);
    add(&mut bake.lists, wall, 0, [0.25, 0.5, 1.0, 0.0, 0.125, 0.0, 0.0]);
    add(&mut bake.lists, back, 1, [0.5, 0.75, 0.25, 0.0, 0.0, 0.0, 0.5]);
    bake.hits = hits(&bake.lists);
    bake.lamps = (0..lamps).flat_map(|k| [w - 0.5, h - 0.5 - k as f32, d + 1.5, 2.0, 1.0 + k as f32, 0.5]).collect();
    let n = bake.light.len();
    if !varied {
        bake.light.fill(0.5);
    } else if n > 400 {
        bake.light = at_the_ends(n);
    }
    bake
}

/// A bake that goes on from a voxel, over a volume that no bake wrote.
fn from(mut bake: Bake, next: usize, allowance: u64) -> Item {
    bake.volume.fill(0.25);
    let progress = chosen(&bake, next as u64);
    Item::Bakes { bake: Box::new(bake), calls: vec![(progress, allowance)] }
}

fn good_bakes(c: &mut Chance) -> Vec<Item> {
    let mut out = Vec::new();
    let end = u64::MAX;
    for axes in LONG {
        let n = voxels(&grid(axes));
        out.push(calls(&hall(axes, vec![0; n], 0, true), &[end, 384]));
        out.push(calls(&hall(axes, vec![1; n], 0, true), &[end]));
        // taken one by one
        for active in [vec![0, 127], vec![126, 127], vec![31, 32, 64]] {
            let allowances: Vec<u64> = vec![384; active.len() + 1];
            out.push(calls(&hall(axes, marked(n, &active), 0, true), &allowances));
        }
        out.push(calls(&hall(axes, marked(n, &[1, 126, 127]), 2, true), &[512 + 384, end, 512]));
        for next in [33, 127, 128] {
            out.push(from(hall(axes, marked(n, &[0, 32, 63, 64, 126, 127]), 0, true), next, 384));
        }
    }
    for axes in BESIDE {
        let n = voxels(&grid(axes));
        out.push(calls(&hall(axes, same_words(&marked(n, &[0, n - 1]), n), 0, true), &[384, 384]));
        out.push(from(hall(axes, random(c, n, 9), 1, true), n - 1, 448));
    }
    for axes in FLAT {
        let n = voxels(&grid(axes));
        let half = n / 2;
        let active = marked(n, &[0, 127, 128, half - 1, half, n - 1]);
        out.push(calls(&hall(axes, only(n, n - 1), 0, true), &[384, 384]));
        out.push(from(hall(axes, active.clone(), 1, false), half, 448));
        if axes == FLAT[0] {
            // no voxel at all; interrupted in the first row, in the middle and at the end
            out.push(calls(&hall(axes, vec![0; n], 0, true), &[384]));
            out.push(calls(&hall(axes, active.clone(), 0, true), &[384, 700, 384, 384, end, 384]));
            out.extend([128, n - 1, n].map(|next| from(hall(axes, active.clone(), 1, false), next, 448)));
        }
    }
    out
}

fn good_fired() -> Vec<Item> {
    let mut out = Vec::new();
    for axes in LONG {
        out.push(Item::Fired(Box::new(hall(axes, only(128, 127), 0, false))));
    }
    for axes in FLAT {
        out.push(Item::Fired(Box::new(room(axes, marked(32_768, &[16_383, 32_767]), false))));
    }
    out.push(Item::Fired(Box::new(hall(FLAT[0], only(32_768, 16_384), 1, false))));
    out
}

/// The records of these grids, inside the limits.
pub fn made(module: &str) -> Vec<Item> {
    let mut chance = Chance::new(0xC21);
    let c = &mut chance;
    match module {
        "masks" => good_masks(c),
        "blurs" => good_blurs(c),
        "sun" => good_sun(c),
        "lookup" => good_lookups(c),
        "bake" => good_bakes(c),
        "fired" => good_fired(),
        _ => vec![],
    }
}

/// Good calls of a module with these axes, each lent lists that fit. What happens in them happens at the last voxel.
fn bases(module: &str, axes: [u64; 3]) -> Vec<Call> {
    let (grid, n) = (grid(axes), voxels(&grid(axes)));
    let turns = |n: usize| (0..n).map(|i| (i % 2) as u8).collect::<Vec<u8>>();
    let position = axes.map(|a| a as f32 - 0.75);
    match module {
        "masks" => vec![masks_call(axes, speck(&grid, n - 1).to_vec(), turns(64 * needed(n)), turns(n))],
        "blurs" => vec![
            Call::LightBlur { axes, light: sevens(n), scratch: vec![0.25; n] },
            Call::CoefficientBlur { axes, volume: vec![0.25; 16 * n], scratch: vec![-1.0; 16 * n] },
        ],
        "sun" => vec![sun_call(axes, sheets(axes, 0.7, false), only(n, n - 1))],
        "bake" => {
            let mut bake = hall(axes, only(n, n - 1), 1, false);
            bake.volume.fill(0.25);
            bake.progress = chosen(&bake, n as u64 / 2);
            bake.allowance = 500;
            vec![Call::Bake(Box::new(bake))]
        }
        "lookup" => vec![
            Call::LightLookup { grid, light: sevens(n), position },
            Call::CoefficientLookup { grid, volume: vec![0.25; 16 * n], position },
            Call::Part { axes, volume: vec![0.25; 16 * n], scratch: vec![-1.0; 16 * n], index: n as u64 - 1, choice: n % 2 == 1 },
        ],
        _ => vec![],
    }
}

/// A call with these axes, its lists as they were.
fn with_axes(call: &Call, axes: [u64; 3]) -> Call {
    let mut call = call.clone();
    *bad::axes_of(&mut call).expect("axes") = axes;
    call
}

/// A call whose lists fit so many voxels, whatever its axes.
fn with_lists(call: &Call, n: usize) -> Call {
    let mut call = call.clone();
    match &mut call {
        Call::Masks { occupied, active, .. } => [occupied, active].into_iter().for_each(|mask| mask.resize(n, 0)),
        Call::LightBlur { light, scratch, .. } => [light, scratch].into_iter().for_each(|list| list.resize(n, 0.5)),
        Call::Sun { active, light, scratch, .. } => {
            active.resize(n, 0);
            [light, scratch].into_iter().for_each(|list| list.resize(n, 0.5));
        }
        Call::LightLookup { light, .. } => light.resize(n, 0.5),
        Call::CoefficientLookup { volume, .. } => volume.resize(16 * n, 0.25),
        Call::CoefficientBlur { volume, scratch, .. } | Call::Part { volume, scratch, .. } => [volume, scratch].into_iter().for_each(|list| list.resize(16 * n, 0.25)),
        Call::Bake(b) => {
            b.active.resize(n, 0);
            b.light.resize(n, 0.5);
            [&mut b.volume, &mut b.scratch].into_iter().for_each(|list| list.resize(16 * n, 0.25));
        }
        _ => {}
    }
    call
}

/// Axes beyond the limit, most of which a narrower number brings back within it: the first eight are tried on each axis, the others on one.
const BEYOND: [u64; 14] = [
    AXIS + 1, 256, 257, 256 + AXIS, 65_536, 65_537, 65_536 + AXIS, (1 << 32) + AXIS, AXIS + 32, 255, 65_535, 1 << 31, (1 << 63) + 1, u64::MAX,
];

/// More voxels than 16 bits count.
const HUGE: [[u64; 3]; 4] = [[AXIS, AXIS, AXIS], [AXIS - 1, AXIS - 1, AXIS - 1], [AXIS, 5, AXIS], [AXIS, AXIS, 4]];

/// What C-21 refuses and what stands next to it, for every call that takes axes.
pub fn bad(module: &str, seed: u64) -> Vec<Item> {
    if bases(module, [1, 1, 1]).is_empty() {
        return vec![];
    }
    let mut chance = Chance::new(seed ^ 0xBAD_C21);
    let c = &mut chance;
    let mut out = Vec::new();
    let mut put = |call: Call, number: u32, what: &str| {
        bad::meant(table::refusal(&call), number, what);
        out.push(Item::One(call));
    };
    // lists that fit: good on this side of the limit, bad on that
    for axes in LONG.into_iter().chain(BESIDE).chain([[AXIS, 3, 2], [2, AXIS - 1, 3], [3, 33, 2], [2, 3, AXIS]]) {
        bases(module, axes).into_iter().for_each(|call| put(call, 0, "axes within the limit"));
    }
    let over = AXIS + 1;
    let fitting = [[over, 1, 1], [1, over, 1], [1, 1, over], [over, AXIS, 1], [1, over, AXIS], [AXIS - 1, 2, over], [255, 1, 1], [1, 256, 1], [1, 1, 257], [1, 1, 32_768]];
    for axes in fitting {
        bases(module, axes).into_iter().for_each(|call| put(call, 1, "an axis beyond the limit, with lists that fit"));
    }
    for axes in [[0, 1, 1], [1, 0, 1], [1, 1, 0], [0, AXIS, AXIS], [AXIS, 0, over], [over, AXIS, 0], [0, 0, 0]] {
        for call in bases(module, [1, 1, 1]) {
            put(with_axes(&with_lists(&call, 0), axes), 1, "no voxel on an axis, and empty lists");
            put(with_axes(&call, axes), 1, "no voxel on an axis");
        }
    }
    // lists that fit what a narrower number makes of the axis
    for i in 0..3 {
        for (_, value) in BEYOND.into_iter().enumerate().filter(|(k, _)| *k < 8 || k % 3 == i) {
            let narrow = [127, 255, 65_535, u32::MAX as u64].map(|bits| value & bits).into_iter().find(|axis| (1..=AXIS).contains(axis)).unwrap_or(1);
            let (mut fit, mut axes) = ([1; 3], [1; 3]);
            (fit[i], axes[i]) = (narrow, value);
            bases(module, fit).iter().for_each(|call| put(with_axes(call, axes), 1, "an axis that a narrower number cuts"));
        }
    }
    // lists of other axes
    for (place, axes) in FLAT.into_iter().enumerate() {
        for call in bases(module, axes) {
            for i in (0..3).filter(|i| place == 0 || *i == place) {
                let mut other = axes;
                other[i] -= 1;
                put(with_axes(&call, other), 3, "lists of a longer axis");
            }
        }
    }
    for axes in HUGE {
        let count = (axes[0] * axes[1] * axes[2]) as usize;
        let mut lengths = vec![0, count % 256, count % 4096, count % 65_536, 64 * (needed(count) % 256)];
        if axes == HUGE[3] {
            lengths.push(32_768);
        }
        lengths.retain(|n| *n <= 32_900);
        lengths.sort();
        lengths.dedup();
        for n in lengths {
            for call in bases(module, [1, 1, 1]) {
                put(with_axes(&with_lists(&call, n), axes), 3, "lists that fit a count cut short");
            }
        }
    }
    // a fault of each later row alone and beside a bad axis
    for (place, axes) in LONG.into_iter().enumerate() {
        for good in bases(module, axes) {
            let all = bad::changes(&good, true);
            for row in [2, 3, 4, 5, 6, 7, 19, 9, 10, 11, 13] {
                let fit: Vec<&bad::Change> = all.iter().filter(|change| change.number == Some(row) && !change.name.contains("triangles") && !change.name.starts_with("lamps:")).collect();
                if fit.is_empty() {
                    continue;
                }
                let fault = fit[c.below(fit.len())];
                let call = bad::applied(&good, &[fault]).call;
                let mut bad_axes = axes;
                bad_axes[c.below(3)] = c.pick(&[0, over]);
                put(with_axes(&call, bad_axes), 1, &format!("{} and a bad axis", fault.name));
                put(call, row, &fault.name);
            }
            // by turns, so that each stands with one of the axes
            let lengths = all.iter().filter(|change| change.name.ends_with("1 long")).skip(place).step_by(3);
            for change in lengths.chain(all.iter().filter(|change| change.name.starts_with(&format!("edge {place}")))) {
                let call = bad::applied(&good, &[change]).call;
                let number = table::refusal(&call);
                put(call, number, &change.name);
            }
        }
    }
    match module {
        "lookup" => out.extend(bad_lookups()),
        "bake" => out.extend(bad_bakes()),
        "blurs" => out.extend(bad_blurs()),
        _ => {}
    }
    out
}

/// Voxel indices past a grid, and bad numbers in the far cells that a lookup reads and in those next to them.
fn bad_lookups() -> Vec<Item> {
    let mut out = Vec::new();
    let mut put = |call: Call, number: u32, what: &str| {
        bad::meant(table::refusal(&call), number, what);
        out.push(Item::One(call));
    };
    for axes in LONG {
        for index in [128, 129, 255, 256, 256 + 127, 65_536 + 127, (1 << 32) + 127] {
            put(part(axes, index, index % 2 == 1), 11, "an index past the grid");
        }
    }
    for index in [32_768, 65_535, 65_536, 65_536 + 127, (1 << 32) + 127] {
        put(part(FLAT[0], index, index % 2 == 1), 11, "an index past the grid");
    }
    for axes in LONG.into_iter().chain(FLAT) {
        let n = voxels(&grid(axes));
        let [w, h, d] = axes.map(|a| a as usize);
        let place = |x: usize, y: usize, z: usize| x + w * (y + h * z);
        // the last cell of each axis and the one before it are read, or that one alone
        let near = axes.map(|a| (a as f32 - 1.75).max(0.25));
        let far = axes.map(|a| a as f32 - 0.25);
        let before = |axis: usize| axis.saturating_sub(2);
        for (position, cell, number) in [
            (near, n - 1, 13),
            (near, place(before(w), before(h), before(d)), 13),
            (near, place(before(w), h - 1, d - 1), 13),
            (near, place(w - 1, before(h), before(d)), 13),
            (far, n - 1, 13),
            (far, place(before(w), before(h), before(d)), 0),
            (far, place(w / 2, h / 2, d / 2), 0),
            (near, place(w.saturating_sub(3), h.saturating_sub(3), d.saturating_sub(3)), 0),
        ]
        .into_iter()
        .take(if axes == FLAT[0] || n == AXIS as usize { 8 } else { 3 })
        {
            let mut light = sevens(n);
            light[cell] = f32::NAN;
            put(Call::LightLookup { grid: grid(axes), light, position }, number, "a bad light");
            let mut volume = seven_voxels(n);
            volume[16 * cell + 15] = f32::INFINITY;
            put(Call::CoefficientLookup { grid: grid(axes), volume, position }, number, "a bad coefficient");
        }
    }
    out
}

/// A bad number at the far end of a list.
fn bad_blurs() -> Vec<Item> {
    let mut out = Vec::new();
    for axes in LONG.into_iter().chain(FLAT) {
        let n = voxels(&grid(axes));
        for place in if axes == FLAT[0] { vec![127, n / 2, n - 1] } else { vec![n - 1] } {
            for mut call in bases("blurs", axes) {
                match &mut call {
                    Call::LightBlur { light, .. } => light[place] = f32::NAN,
                    Call::CoefficientBlur { volume, .. } => volume[16 * place + 15] = f32::NEG_INFINITY,
                    _ => {}
                }
                bad::meant(table::refusal(&call), 13, "a bad number");
                out.push(Item::One(call));
            }
        }
    }
    out
}

/// Records of a bake about far voxels, and bad numbers there.
fn bad_bakes() -> Vec<Item> {
    let mut out = Vec::new();
    for axes in LONG {
        let n = voxels(&grid(axes));
        let mut bake = hall(axes, vec![1; n], 1, false);
        bake.volume.fill(0.25);
        for next in [0, 33, 127, 128] {
            out.push(about(&bake, next, next == 127));
        }
        out.push(above(&bake));
        if axes == LONG[2] {
            bake.active = marked(n, &[0, 126, 127]);
            out.push(handed_on(&bake, &[448, 448, 448, 448]));
        }
    }
    for axes in FLAT {
        let n = voxels(&grid(axes));
        let mut bake = hall(axes, marked(n, &[0, 127, n / 2 - 1, n / 2, n - 2, n - 1]), 1, false);
        bake.volume.fill(0.25);
        out.push(about(&bake, n as u64 / 2, false));
        if axes != FLAT[0] {
            continue;
        }
        for next in [128, n / 2 + 1, n - 2, n] {
            out.push(about(&bake, next as u64, false));
        }
        out.push(above(&bake));
        for next in [65_536u64, 65_536 + 128, 2 * 65_536, (1 << 32) + 128] {
            let progress = Progress { next, rays: 128 };
            bake.progress = progress;
            bad::meant(table::refusal(&Call::Bake(Box::new(bake.clone()))), 9, "a next voxel past the grid");
            out.push(Item::Bakes { bake: Box::new(bake.clone()), calls: vec![(progress, u64::MAX)] });
        }
        for (next, place) in [(n / 2, n - 1), (n - 1, 128), (1, n / 2)] {
            for coefficient in [false, true] {
                let mut call = Call::Bake(Box::new(bake.clone()));
                if let Call::Bake(b) = &mut call {
                    b.progress.next = next as u64;
                    if coefficient {
                        b.volume[16 * place + 15] = f32::NAN;
                    } else {
                        b.light[place] = f32::NAN;
                    }
                }
                choose(&mut call);
                bad::meant(table::refusal(&call), 13, "a bad number");
                out.push(Item::One(call));
            }
        }
    }
    out
}

/// A scene for a seed over a grid with one wide axis or, for every eighth seed, two.
fn scene(c: &mut Chance, seed: u64) -> World {
    let mut world = worlds::family(bad::FAMILY_ANYTHING, seed);
    let first = c.below(3);
    let mut axes = [0; 3].map(|_| c.pick(&[1, 1, 2, 3]));
    let wide = |c: &mut Chance| {
        let any = c.from(33, AXIS as usize) as u64;
        c.pick(&[33, 34, 64, 65, AXIS - 1, AXIS, AXIS, any])
    };
    axes[first] = wide(c);
    if seed % 8 == 5 {
        let second = (first + 1 + c.below(2)) % 3;
        axes[second] = wide(c);
        axes[3 - first - second] = c.from(1, 2) as u64;
    }
    let edge = c.pick(&[1.0, 1.0, 0.5, 0.3, 2.0, 7.3, 0.01]);
    world.grid = worlds::sized(c, axes, edge, 0.0);
    world.lists.points.clear();
    world.lists.uses.clear();
    let count = c.from(1, 6);
    worlds::scatter(c, &world.grid, &mut world.lists, count);
    world.active = vec![0; voxels(&world.grid)];
    for _ in 0..c.from(0, 4) {
        let voxel = c.below(world.active.len());
        world.active[voxel] = 1;
    }
    world.active[c.below(voxels(&world.grid))] = 1;
    panel_places::put_up(seed, &mut world.lists);
    world
}

/// A wide grid for a seed.
pub fn seeded(module: &str, seed: u64) -> Vec<Item> {
    let mut chance = Chance::new(seed ^ 0xC21_5EED);
    let c = &mut chance;
    let world = scene(c, seed);
    let (grid, n) = (world.grid, voxels(&world.grid));
    let axes = grid.axes;
    let some = |c: &mut Chance, list: Vec<f32>| {
        let mut list = list;
        for _ in 0..20 {
            let place = c.below(list.len());
            list[place] = c.unit();
        }
        list
    };
    let light = if n <= 400 { worlds::light_list(c, n) } else { some(c, sevens(n)) };
    let volume = if n <= 400 { worlds::coefficient_list(c, &world) } else { some(c, vec![0.25; 16 * n]) };
    match module {
        "masks" => vec![Item::One(Call::Masks { grid, points: world.lists.points, occupied: vec![1; n], active: random(c, n, 2) })],
        "blurs" => vec![light_blur(axes, light), coefficient_blur(axes, volume)],
        "sun" => {
            let active = if c.one_in(2) { worlds::active_of(&grid, &world.lists.points) } else { world.active.clone() };
            let (light, scratch) = (vec![f32::NAN; n], vec![0.25; n]);
            let hits = worlds::hits(c, &world.lists);
            vec![Item::One(Call::Sun { grid, direction: worlds::towards(&world), lists: world.lists, active, light, scratch, hits })]
        }
        "bake" => {
            let many = n > 400;
            let mut bake = worlds::bake(c, &world, if many { vec![0.5; n] } else { light });
            if many {
                // numbers whose mean is exact, so that the volume stays short
                bake.ambient = bake.ambient.map(|x| (x.clamp(-100.0, 100.0) * 8.0).round() / 8.0);
            }
            let cost = table::cost(&bake.lamps);
            let interrupted = calls(&bake, &[cost + c.below(900) as u64, cost, u64::MAX, cost]);
            let next = c.below(n + 1) as u64;
            bake.volume.fill(-0.5);
            let progress = chosen(&bake, next);
            vec![interrupted, Item::Bakes { bake: Box::new(bake), calls: vec![(progress, cost + c.below(600) as u64)] }]
        }
        "lookup" => {
            let positions = positions(c, &grid, 12);
            let index = c.below(n) as u64;
            vec![
                Item::LightLookups { grid, light, positions: positions.clone() },
                Item::CoefficientLookups { grid, volume: volume.clone(), positions: positions[4..10].to_vec() },
                Item::One(Call::Part { axes, scratch: seven_voxels(n), volume, index, choice: c.one_in(2) }),
            ]
        }
        "fired" => {
            let light = vec![0.5; n];
            let mut bake = worlds::bake(c, &world, light);
            bake.active = only(n, c.below(n));
            bake.active[c.below(n)] = 1;
            vec![Item::Fired(Box::new(bake))]
        }
        _ => vec![],
    }
}
