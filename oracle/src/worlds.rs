//! Seeded scenes inside the limits. `FAMILIES` names the corners; seed s makes family s mod their number.
use crate::answers::{answer, vector};
use crate::calls::{word, Bake, Call, Grid, Lists, Progress, Ray, Scratch};
use crate::chance::Chance;
use crate::lamp_places;
use crate::panel_places;

#[derive(Clone, Debug)]
pub struct World {
    pub family: &'static str,
    pub grid: Grid,
    pub lists: Lists,
    pub sunlight: [f32; 6],
    pub ambient: [f32; 12],
    pub sky: Vec<f32>,
    pub lamps: Vec<f32>,
    pub active: Vec<u8>,
}

pub const FAMILIES: [&str; 20] = [
    "one voxel",
    "six in a row",
    "three different axes",
    "thirty-two on an axis",
    "no triangles",
    "no active voxels",
    "all active",
    "inactive after the last active",
    "closed hall",
    "translucent sheets",
    "coincident triangles",
    "degenerate on both sides of absent",
    "faint and black",
    "edges at 1/1024",
    "coordinates at 4096",
    "odd colours",
    "minus zero",
    "thin light",
    "whole windows",
    "anything",
];

pub fn voxels(grid: &Grid) -> usize {
    (grid.axes[0] * grid.axes[1] * grid.axes[2]) as usize
}

pub fn sized(c: &mut Chance, axes: [u64; 3], edge: f32, least: f32) -> Grid {
    let low = [0, 1, 2].map(|_| least + c.pick(&[0.0, -0.0, -1.0, 0.25, 0.1, 3.7]));
    let stretch = [0, 1, 2].map(|_| c.pick(&[1.0, 1.0, 0.75, 1.3]));
    let mut corners = [0.0; 6];
    for i in 0..3 {
        corners[i] = low[i];
        corners[3 + i] = low[i] + axes[i] as f32 * edge * stretch[i];
    }
    Grid { axes, corners }
}

fn colour(c: &mut Chance, odd: bool) -> f32 {
    if odd {
        c.pick(&[
            0.0, -0.0, 1.0, -1.0, 0.5, 2.0, -0.25, 1e-40, -1e-40, 65536.0, -65536.0, 1e-20, 1e-30, 0.3, 0.7, 1.0000001,
        ])
    } else if c.one_in(8) {
        c.pick(&[0.0, 1.0, 0.5, 0.25, 1.5])
    } else {
        c.unit()
    }
}

fn material(c: &mut Chance, odd: bool, translucent: bool) -> (u8, [f32; 7]) {
    let kind = if translucent { 1 } else { c.pick(&[0, 0, 0, 1]) };
    let glow = odd || c.one_in(4);
    let mut n = [0.0; 7];
    for (i, x) in n.iter_mut().enumerate().take(6) {
        if i < 3 || glow {
            *x = colour(c, odd);
        }
    }
    n[6] = c.pick(&[0.5, 0.5, 0.25, 0.9, 1.0, 0.7, 0.3, 0.999, 0.0001, 0.0, -0.0, 0.00011, 1e-40]);
    if kind == 1 && c.one_in(2) {
        n[6] = c.between(0.2, 1.0);
    }
    (kind, n)
}

fn materials(c: &mut Chance, lists: &mut Lists, count: usize, odd: bool, translucent: bool) {
    for _ in 0..count {
        let (kind, n) = material(c, odd, translucent);
        lists.kinds.push(kind);
        lists.numbers.extend(n);
    }
}

fn put(c: &mut Chance, lists: &mut Lists, points: [[f32; 3]; 3]) {
    lists.points.extend(points.iter().flatten().map(|x| x.clamp(-4096.0, 4096.0)));
    lists.uses.push(c.below(lists.kinds.len()) as u32);
}

fn somewhere(c: &mut Chance, grid: &Grid, reach: f32) -> [f32; 3] {
    [0, 1, 2].map(|i| {
        let (low, high) = (grid.corners[i], grid.corners[3 + i]);
        let by = (high - low) * reach;
        if c.one_in(6) {
            // on a plane between cells
            let k = c.from(0, grid.axes[i] as usize) as f32;
            low + k * ((high - low) / grid.axes[i] as f32)
        } else {
            c.between(low - by, high + by)
        }
    })
}

pub fn scatter(c: &mut Chance, grid: &Grid, lists: &mut Lists, count: usize) {
    for _ in 0..count {
        let a = somewhere(c, grid, 0.2);
        let mut p = [a, somewhere(c, grid, 0.2), somewhere(c, grid, 0.2)];
        match c.below(4) {
            0 => {
                // in a plane across an axis: the normal is an axis itself
                let i = c.below(3);
                p[1][i] = a[i];
                p[2][i] = a[i];
            }
            1 => {
                // small
                for q in 1..3 {
                    for i in 0..3 {
                        p[q][i] = a[i] + (p[q][i] - a[i]) * 0.2;
                    }
                }
            }
            _ => {}
        }
        put(c, lists, p);
    }
}

/// A closed box of `n` by `n` squares a side, just inside or around the grid, its points a little out of place where `bent`.
fn hall(c: &mut Chance, grid: &Grid, lists: &mut Lists, n: usize, bent: bool) {
    let scale = c.pick(&[0.98, 1.02, 0.9, 1.1]);
    let middle = [0, 1, 2].map(|i| (grid.corners[i] + grid.corners[3 + i]) * 0.5);
    let half = [0, 1, 2].map(|i| (grid.corners[3 + i] - grid.corners[i]) * 0.5 * scale);
    let seed = c.next();
    let at = |axis: usize, side: f32, a: usize, b: usize| -> [f32; 3] {
        let (u, v) = ((axis + 1) % 3, (axis + 2) % 3);
        let mut p = [0.0; 3];
        p[axis] = side;
        p[u] = a as f32 * 2.0 / n as f32 - 1.0;
        p[v] = b as f32 * 2.0 / n as f32 - 1.0;
        let mut own = Chance::new(seed ^ p.iter().fold(7, |h, x| h * 31 + x.to_bits() as u64));
        [0, 1, 2].map(|i| {
            let out = if bent { 1.0 + (own.unit() - 0.5) * 0.02 } else { 1.0 };
            middle[i] + p[i] * half[i] * out
        })
    };
    for axis in 0..3 {
        for side in [-1.0, 1.0] {
            for a in 0..n {
                for b in 0..n {
                    let q = [at(axis, side, a, b), at(axis, side, a + 1, b), at(axis, side, a + 1, b + 1), at(axis, side, a, b + 1)];
                    put(c, lists, [q[0], q[1], q[2]]);
                    put(c, lists, [q[0], q[2], q[3]]);
                }
            }
        }
    }
}

/// Squares across an axis, one behind another, larger than the grid.
fn sheets(c: &mut Chance, grid: &Grid, lists: &mut Lists, count: usize) {
    let axis = c.below(3);
    let (u, v) = ((axis + 1) % 3, (axis + 2) % 3);
    let corner = |along: f32, a: f32, b: f32| {
        let mut p = [0.0; 3];
        let size = |i: usize| grid.corners[3 + i] - grid.corners[i];
        p[axis] = grid.corners[axis] + size(axis) * along;
        p[u] = grid.corners[u] + size(u) * a;
        p[v] = grid.corners[v] + size(v) * b;
        p
    };
    for k in 0..count {
        let along = if c.one_in(5) { 1.5 } else { 1.0 + 0.31 * k as f32 + c.unit() * 0.1 };
        let q = [corner(along, -9.0, -9.0), corner(along, 10.0, -9.0), corner(along, 10.0, 10.0), corner(along, -9.0, 10.0)];
        put(c, lists, [q[0], q[1], q[2]]);
        put(c, lists, [q[0], q[2], q[3]]);
    }
}

fn direction(c: &mut Chance) -> [f32; 3] {
    match c.below(6) {
        0 => c.pick(&[[0.0, 0.0, 1.0], [0.0, 1.0, 0.0], [1.0, 0.0, 0.0], [0.0, -1.0, -0.0], [-1.0, 0.0, 0.0], [-0.0, -0.0, -1.0]]),
        1 => c.pick(&[[1.0, 1.0, 0.0], [1.0, 2.0, 3.0], [0.5, -0.5, 1.0], [4096.0, 4096.0, -4096.0]]),
        _ => [c.between(-1.0, 1.0), c.between(-1.0, 1.0), c.between(0.05, 1.0)],
    }
}

/// A direction whose squared length is the least float above 1e-12, or within a few steps of it.
fn thin(c: &mut Chance) -> [f32; 3] {
    let mut d = c.pick(&[[1e-6f32, 0.0, 0.0], [0.0, -0.0, 1e-6], [6e-7, 8e-7, 0.0], [-5.7735e-7, 5.7735e-7, 5.7735e-7]]);
    let square = |d: [f32; 3]| (d[0] * d[0] + d[1] * d[1]) + d[2] * d[2];
    while square(d) > 1.0e-12 {
        d = d.map(|x| if x == 0.0 { x } else { f32::from_bits(x.to_bits() - 1) });
    }
    while !(square(d) > 1.0e-12) {
        d = d.map(|x| if x == 0.0 { x } else { f32::from_bits(x.to_bits() + 1) });
    }
    d
}

fn sky(c: &mut Chance, kind: usize) -> Vec<f32> {
    match kind {
        0 => vec![0.0; 1728],
        1 => {
            let t = [c.unit(), c.unit(), c.unit()];
            (0..1728).map(|i| t[i % 3]).collect()
        }
        2 => (0..1728).map(|_| c.unit()).collect(),
        3 => (0..1728).map(|_| c.between(-1.0, 1.0)).collect(),
        4 => {
            let t = c.pick(&[[-0.0f32, -0.0, -0.0], [2.6469780e-23, 0.0, 0.0], [2.646978e-23, 2.6469784e-23, -0.0], [65536.0, -65536.0, 1.0], [1e-40, -1e-40, 0.0]]);
            (0..1728).map(|i| t[i % 3]).collect()
        }
        _ => {
            let t: Vec<f32> = (0..64 * 3).map(|_| c.between(0.0, 2.0)).collect();
            (0..1728).map(|i| t[i % 192]).collect()
        }
    }
}

fn ambient(c: &mut Chance, kind: usize) -> [f32; 12] {
    let mut a = [0.0; 12];
    for (i, x) in a.iter_mut().enumerate() {
        *x = match kind {
            0 => 0.0,
            1 => {
                if i < 3 {
                    c.between(0.3, 1.0)
                } else {
                    c.between(-0.5, 0.5)
                }
            }
            2 => c.between(-1.0, 1.0),
            3 => -c.between(0.0, 1.0),
            4 => -0.0,
            5 => c.pick(&[65536.0, -65536.0, 1e-40, -1e-40, 1e-30, 0.0, -0.0]),
            6 => c.pick(&[1e-30, 2e-30, -1e-30]),
            // bright: the floor is high
            _ => {
                if i < 3 {
                    c.between(100.0, 1000.0)
                } else {
                    c.between(-50.0, 50.0)
                }
            }
        };
    }
    a
}

/// The masks of the Rust for a grid and its triangles.
pub fn active_of(grid: &Grid, points: &[f32]) -> Vec<u8> {
    let n = voxels(grid);
    let call = Call::Masks { grid: *grid, points: points.to_vec(), occupied: vec![0; n], active: vec![0; n] };
    answer(&call).lists[1].iter().map(|w| *w as u8).collect()
}

/// A seed's scene, with panels in every third.
pub fn world(seed: u64) -> World {
    let mut world = before_panels(seed);
    panel_places::put_up(seed, &mut world.lists);
    world
}

/// A seed's scene as it was before C-19.
pub fn before_panels(seed: u64) -> World {
    family(seed as usize % FAMILIES.len(), seed)
}

pub fn family(which: usize, seed: u64) -> World {
    let mut chance = Chance::new(seed);
    let c = &mut chance;
    let name = FAMILIES[which];
    let small = |c: &mut Chance| [c.from(1, 4) as u64, c.from(1, 3) as u64, c.from(1, 3) as u64];
    let edge = c.pick(&[1.0, 1.0, 0.5, 0.3, 2.0, 7.3, 0.01]);
    let mut lists = Lists::default();
    let odd = matches!(name, "odd colours" | "faint and black") || name == "anything" && c.one_in(3);
    let kinds = if c.one_in(6) { c.from(9, 20) } else { c.from(1, 5) };
    let translucent = name == "translucent sheets" && c.one_in(2);
    materials(c, &mut lists, kinds, odd, translucent);
    let mut sunlight_direction = direction(c);
    let mut ambient_kind = c.pick(&[1, 1, 1, 0, 2, 3, 7]);
    let mut sky_kind = c.pick(&[1, 1, 2, 3, 0, 5]);
    let grid;
    let count = c.from(1, 12);
    match name {
        "one voxel" => {
            grid = sized(c, [1, 1, 1], edge, 0.0);
            scatter(c, &grid, &mut lists, count);
        }
        "six in a row" => {
            grid = sized(c, [6, 1, 1], edge, 0.0);
            let few = c.from(1, 3);
            scatter(c, &grid, &mut lists, few);
        }
        "three different axes" => {
            let axes = c.pick(&[[2, 3, 4], [4, 2, 3], [3, 5, 2], [5, 1, 3], [1, 2, 7], [3, 4, 5]]);
            grid = sized(c, axes, edge, 0.0);
            scatter(c, &grid, &mut lists, count);
        }
        "thirty-two on an axis" => {
            let axes = c.pick(&[[32, 1, 1], [1, 32, 1], [1, 1, 32], [32, 2, 1], [1, 3, 32]]);
            grid = sized(c, axes, edge, 0.0);
            let few = c.from(1, 3);
            scatter(c, &grid, &mut lists, few);
        }
        "no triangles" => {
            let axes = small(c);
            grid = sized(c, axes, edge, 0.0);
            if c.one_in(2) {
                lists = Lists::default();
            }
        }
        "no active voxels" => {
            let axes = small(c);
            grid = sized(c, axes, edge, 0.0);
            if c.one_in(2) {
                // far away
                for _ in 0..count {
                    let p = [0, 1, 2].map(|_| [c.between(100.0, 200.0), c.between(3000.0, 4000.0), c.between(100.0, 200.0)]);
                    put(c, &mut lists, p);
                }
            } else {
                scatter(c, &grid, &mut lists, count);
            }
        }
        "closed hall" => {
            let axes = c.pick(&[[3, 3, 3], [4, 3, 2], [2, 5, 3], [4, 4, 3], [6, 2, 2]]);
            grid = sized(c, axes, edge, 0.0);
            let (side, bent) = (c.from(3, 6), c.one_in(2));
            hall(c, &grid, &mut lists, side, bent);
            let few = c.from(0, 9);
            scatter(c, &grid, &mut lists, few);
        }
        "translucent sheets" => {
            let axes = small(c);
            grid = sized(c, axes, edge, 0.0);
            let many = c.from(3, 15);
            sheets(c, &grid, &mut lists, many);
            let few = c.from(0, 3);
            scatter(c, &grid, &mut lists, few);
        }
        "coincident triangles" => {
            let axes = small(c);
            grid = sized(c, axes, edge, 0.0);
            scatter(c, &grid, &mut lists, count);
            for t in 0..count {
                for _ in 0..c.from(1, 3) {
                    let p = lists.points[9 * t..9 * t + 9].to_vec();
                    let v = [0, 1, 2].map(|i| [p[3 * i], p[3 * i + 1], p[3 * i + 2]]);
                    let turned = c.pick(&[[0, 1, 2], [0, 1, 2], [1, 2, 0], [0, 2, 1]]);
                    put(c, &mut lists, turned.map(|i| v[i]));
                }
            }
        }
        "degenerate on both sides of absent" => {
            let axes = small(c);
            let fine = c.pick(&[0.0014, 0.002, 0.01, 1.0]);
            grid = sized(c, axes, fine, 0.0);
            scatter(c, &grid, &mut lists, count);
            for _ in 0..count {
                let a = somewhere(c, &grid, 0.0);
                let leg = c.pick(&[0.001f32, 0.00099999, 0.0010001, 0.00100002, 0.0, 1.0]);
                let along = c.pick(&[leg, 0.5]);
                let mut p = [a, a, a];
                p[1][0] += leg;
                p[2][1] += leg;
                if c.one_in(3) {
                    // three points in a line
                    p[1] = [a[0] + along, a[1] + along, a[2]];
                    p[2] = [a[0] + 2.0 * along, a[1] + 2.0 * along, a[2]];
                }
                put(c, &mut lists, p);
            }
        }
        "faint and black" => {
            let axes = small(c);
            grid = sized(c, axes, edge, 0.0);
            let step = f32::from_bits(((2.0f32).powi(-75)).to_bits());
            let faint = [0.0, -0.0, step, f32::from_bits(step.to_bits() + 1), -step, -1.0, 1e-30, 1e-22];
            for m in 0..lists.kinds.len() {
                for i in 0..6 {
                    lists.numbers[7 * m + i] = if c.one_in(9) { 0.5 } else { c.pick(&faint) };
                }
            }
            scatter(c, &grid, &mut lists, count);
            sky_kind = c.pick(&[0, 4, 4, 3]);
            ambient_kind = c.pick(&[0, 1, 4, 5, 6, 6]);
        }
        "edges at 1/1024" => {
            let axes = small(c);
            let low = c.pick(&[0.0f32, -0.0, 1.0, -0.5]);
            let mut corners = [low; 6];
            for i in 0..3 {
                corners[3 + i] = low + axes[i] as f32 * c.pick(&[1.0 / 1024.0, 1.0 / 1024.0, 0.0015, 0.005]);
            }
            grid = Grid { axes, corners };
            scatter(c, &grid, &mut lists, count);
        }
        "coordinates at 4096" => {
            let axes = small(c);
            grid = Grid { axes, corners: [-4096.0, -4096.0, -4096.0, 4096.0, 4096.0, 4096.0] };
            for _ in 0..count {
                let p = [0, 1, 2].map(|_| [0, 1, 2].map(|_| c.pick(&[-4096.0, 4096.0, 0.0, -0.0, 100.0, -2000.5])));
                put(c, &mut lists, p);
            }
            scatter(c, &grid, &mut lists, count);
        }
        "minus zero" => {
            let axes = small(c);
            grid = sized(c, axes, 1.0, 0.0);
            for _ in 0..count {
                let p = [0, 1, 2].map(|_| [0, 1, 2].map(|_| c.pick(&[0.0, -0.0, -0.0, 1.0, 2.0, 0.5])));
                put(c, &mut lists, p);
            }
            ambient_kind = c.pick(&[4, 1, 5]);
            sky_kind = c.pick(&[4, 1]);
        }
        "thin light" => {
            let axes = small(c);
            grid = sized(c, axes, edge, 0.0);
            scatter(c, &grid, &mut lists, count);
            sunlight_direction = thin(c);
        }
        "whole windows" => {
            grid = sized(c, [7, 6, 5], 1.0, 0.0);
            let few = c.from(1, 2);
            scatter(c, &grid, &mut lists, few);
            lists.points.truncate(9);
            lists.uses.truncate(1);
            // one small triangle about the middle voxel
            let e = [0, 1, 2].map(|i| (grid.corners[3 + i] - grid.corners[i]) / grid.axes[i] as f32);
            let m = [0, 1, 2].map(|i| grid.corners[i] + e[i] * (2.5 + c.unit() * 0.2));
            lists.points = vec![m[0], m[1], m[2], m[0] + 0.1, m[1], m[2], m[0], m[1] + 0.1, m[2] + 0.05];
        }
        _ => {
            let axes = small(c);
            grid = sized(c, axes, edge, 0.0);
            let more = c.from(1, 30);
            scatter(c, &grid, &mut lists, more);
        }
    }
    let light_odd = name == "odd colours" || name == "faint and black" || c.one_in(5);
    let rgb = [0, 1, 2].map(|_| if light_odd { colour(c, true) } else { c.between(0.0, 3.0) });
    let sunlight = [sunlight_direction[0], sunlight_direction[1], sunlight_direction[2], rgb[0], rgb[1], rgb[2]];
    if name == "odd colours" {
        ambient_kind = c.pick(&[2, 3, 5, 6]);
        sky_kind = c.pick(&[3, 4]);
    }
    let n = voxels(&grid);
    let mut active = active_of(&grid, &lists.points);
    match name {
        "no active voxels" => active = vec![0; n],
        "all active" | "no triangles" => active = vec![1; n],
        "inactive after the last active" => {
            let last = c.below(n);
            for (i, a) in active.iter_mut().enumerate() {
                *a = (i <= last && !c.one_in(3)) as u8;
            }
        }
        "thirty-two on an axis" | "whole windows" | "anything" => {
            if c.one_in(2) {
                for a in active.iter_mut() {
                    *a = c.one_in(3) as u8;
                }
            }
        }
        _ => {}
    }
    let world = World { family: name, grid, sunlight, ambient: ambient(c, ambient_kind), sky: sky(c, sky_kind), lamps: vec![], lists, active };
    World { lamps: lamp_places::lamps(seed, &world), ..world }
}

/// Lent hit scratch with something in it, at least as long as the triangle list.
pub fn hits(c: &mut Chance, lists: &Lists) -> Scratch {
    let more = c.below(3);
    let n = lists.uses.len() + more;
    Scratch { distances: (0..n).map(|_| c.pick(&[0.0, -7.5, f32::NAN, 3.0])).collect(), places: (0..n).map(|_| c.pick(&[0, 1, 99, u64::MAX])).collect() }
}

/// A public ray that is likely to meet something.
pub fn ray(c: &mut Chance, world: &World) -> Ray {
    let t = world.lists.uses.len();
    let origin = if c.one_in(12) {
        [0, 1, 2].map(|_| c.pick(&[65536.0, -65536.0, 0.0, -0.0, 1e-40]))
    } else if t > 0 && c.one_in(6) {
        // on a triangle's corner: the distance is a zero of either sign
        let k = 9 * c.below(t) + 3 * c.below(3);
        [world.lists.points[k], world.lists.points[k + 1], world.lists.points[k + 2]]
    } else {
        somewhere(c, &world.grid, 0.6)
    };
    let mut d = [c.between(-1.0, 1.0), c.between(-1.0, 1.0), c.between(-1.0, 1.0)];
    if t > 0 && !c.one_in(4) {
        // at a triangle: its inside, its edge or its corner
        let k = c.below(t);
        let p = &world.lists.points[9 * k..9 * k + 9];
        let (a, b) = c.pick(&[(0.2, 0.3), (0.5, 0.5), (0.0, 0.4), (0.4, 0.0), (0.0, 0.0), (1.0, 0.0), (0.3, 0.3), (0.25, 0.25)]);
        let target = [0, 1, 2].map(|i| p[i] * (1.0 - a - b) + p[3 + i] * a + p[6 + i] * b);
        d = [0, 1, 2].map(|i| target[i] - origin[i]);
        let most = d.iter().fold(0.0f32, |m, x| m.max(x.abs()));
        if most >= f32::MIN_POSITIVE {
            let scale = c.pick(&[1.0, 2.0, 0.5]) / most;
            d = d.map(|x| (x * scale).clamp(-2.0, 2.0));
        }
    }
    if c.one_in(10) {
        d = c.pick(&[[0.0, 0.0, 0.0], [-0.0, 0.0, -0.0], [0.0, 0.0, -1.0], [0.0, 0.0, 1.0], [2.0, -2.0, 2.0], [1e-30, 0.0, 0.0], [0.0, -1.0, -0.0], [1.0, -0.0, 0.0]]);
    }
    let shortest = c.pick(&[0.0, 0.0, 0.0, -0.0, 1e-4, 0.5, 65536.0, 1e-40]);
    let longest = c.pick(&[f32::INFINITY, f32::INFINITY, f32::INFINITY, 10.0, 1.0, f32::NEG_INFINITY, -1.0, 0.0, -0.0, 3.4e38]);
    Ray { origin, direction: d, shortest, longest }
}

/// Rays about a hit: its distance as the shortest or the longest, and one step to either side.
pub fn rays_about(world: &World, ray: &Ray) -> Vec<Ray> {
    let wide = Ray { shortest: 0.0, longest: f32::INFINITY, ..*ray };
    let call = Call::Nearest { lists: world.lists.clone(), ray: wide };
    let w = answer(&call).words;
    if w[0] != 0 || w[1] == 0 {
        return vec![];
    }
    let t = f32::from_bits(w[3]);
    let mut out = vec![wide];
    for near in [step(t, -1), t, step(t, 1)] {
        if near <= 65536.0 && near >= 0.0 {
            out.push(Ray { shortest: near, ..wide });
        }
        out.push(Ray { longest: near, ..wide });
    }
    out
}

/// The float next to `x`, above it for 1, below it for −1.
pub fn step(x: f32, by: i32) -> f32 {
    if by > 0 {
        x.next_up()
    } else {
        x.next_down()
    }
}

pub fn light_list(c: &mut Chance, n: usize) -> Vec<f32> {
    let kind = c.below(5);
    (0..n)
        .map(|_| match kind {
            0 => c.pick(&[0.0, -0.0, 1.0]),
            1 => c.unit(),
            2 => c.pick(&[-0.0, 0.5, -3.0, 1e-40, 1e19, -1e19, 18446744073709551616.0, -18446744073709551616.0]),
            3 => c.between(-2.0, 2.0),
            _ => -0.0,
        })
        .collect()
}

/// Coefficients that no bake wrote: as the light is, and in a scene with lamps some of them up to 2^96.
pub fn coefficient_list(c: &mut Chance, world: &World) -> Vec<f32> {
    let mut out = light_list(c, 16 * voxels(&world.grid));
    if !world.lamps.is_empty() {
        let mut own = Chance::new(out.len() as u64 ^ word(world.lamps[0]) as u64);
        let most = 79228162514264337593543950336.0f32;
        for x in out.iter_mut() {
            if own.one_in(3) {
                *x = own.pick(&[most, -most, step(18446744073709551616.0, 1), step(-18446744073709551616.0, -1), 1e25, -3e27, most * 0.75]);
            }
        }
    }
    out
}

pub fn position(c: &mut Chance, grid: &Grid) -> [f32; 3] {
    let reach = c.pick(&[0.0, 0.3, 2.0]);
    let p = somewhere(c, grid, reach);
    [0, 1, 2].map(|i| {
        let edge = (grid.corners[3 + i] - grid.corners[i]) / grid.axes[i] as f32;
        let x = match c.below(9) {
            0 => grid.corners[i],
            1 => grid.corners[3 + i],
            2 => grid.corners[i] + edge * c.below(grid.axes[i] as usize + 1) as f32,
            3 => step(grid.corners[i], -1),
            4 => grid.corners[i] - 1e-9,
            5 => c.pick(&[4096.0, -4096.0, 0.0, -0.0, -1e-9, 1e-40]),
            _ => p[i],
        };
        x.clamp(-4096.0, 4096.0)
    })
}

/// The bake of a world from its beginning, over lists with something in them.
pub fn bake(c: &mut Chance, world: &World, light: Vec<f32>) -> Bake {
    let n = voxels(&world.grid);
    let junk = c.pick(&[0.0f32, f32::NAN, -7.0, f32::INFINITY]);
    Bake {
        grid: world.grid,
        lists: world.lists.clone(),
        sunlight: world.sunlight,
        ambient: world.ambient,
        sky: world.sky.clone(),
        lamps: world.lamps.clone(),
        active: world.active.clone(),
        light,
        volume: vec![junk; 16 * n],
        scratch: vec![-junk; 16 * n],
        hits: hits(c, &world.lists),
        progress: Progress::default(),
        allowance: u64::MAX,
    }
}

pub fn towards(world: &World) -> [f32; 3] {
    let v = vector(&world.sunlight);
    [v.x, v.y, v.z]
}
