//! Lamps for seeded scenes, from a stream of numbers of their own: what else a seed gives is what it gave before there were lamps. The
//! points where light is received are found here by a plain walk, so that a slip in the copies moves no lamp.
use crate::calls::{Grid, Lists};
use crate::chance::Chance;
use crate::scene::recorded_bits;
use crate::worlds::{voxels, World, FAMILIES};

type Point = [f32; 3];

/// A point off a surface, as the bake has it: where it is, the normal there, the hit bias and the shortest distance.
#[derive(Clone, Copy)]
struct Spot {
    point: Point,
    normal: Point,
    bias: f32,
    shortest: f32,
}

fn add(a: Point, b: Point) -> Point {
    [a[0] + b[0], a[1] + b[1], a[2] + b[2]]
}

pub fn sub(a: Point, b: Point) -> Point {
    [a[0] - b[0], a[1] - b[1], a[2] - b[2]]
}

fn times(a: Point, k: f32) -> Point {
    a.map(|x| x * k)
}

pub fn dot(a: Point, b: Point) -> f32 {
    (a[0] * b[0] + a[1] * b[1]) + a[2] * b[2]
}

pub fn cross(a: Point, b: Point) -> Point {
    [a[1] * b[2] - a[2] * b[1], a[2] * b[0] - a[0] * b[2], a[0] * b[1] - a[1] * b[0]]
}

pub fn unit(a: Point) -> Point {
    let root = dot(a, a).sqrt();
    a.map(|x| x / root)
}

fn corner(lists: &Lists, triangle: usize, which: usize) -> Point {
    let at = 9 * triangle + 3 * which;
    [lists.points[at], lists.points[at + 1], lists.points[at + 2]]
}

/// Where a triangle meets a ray, document 01's module 3.
pub fn met(p: [Point; 3], origin: Point, direction: Point, shortest: f32, longest: f32) -> Option<f32> {
    let (e1, e2) = (sub(p[1], p[0]), sub(p[2], p[0]));
    let across = cross(e1, e2);
    if dot(across, across) <= 1.0e-12 {
        return None;
    }
    let pvec = cross(direction, e2);
    let det = dot(e1, pvec);
    if det.abs() <= 1.0e-8 {
        return None;
    }
    let inverse = 1.0 / det;
    let from = sub(origin, p[0]);
    let u = dot(from, pvec) * inverse;
    let qvec = cross(from, e1);
    let v = dot(direction, qvec) * inverse;
    let t = dot(e2, qvec) * inverse;
    (u >= 0.0 && u <= 1.0 && v >= 0.0 && u + v <= 1.0 && t >= shortest && t <= longest).then_some(t)
}

/// The point that primary direction `place` of a voxel lights, if it meets a surface.
fn spot(grid: &Grid, lists: &Lists, voxel: usize, place: usize) -> Option<Spot> {
    let (w, h) = (grid.axes[0] as usize, grid.axes[1] as usize);
    let at = [voxel % w, voxel / w % h, voxel / (w * h)];
    let edge = [0, 1, 2].map(|i| (grid.corners[3 + i] - grid.corners[i]) / grid.axes[i] as f32);
    let centre = [0, 1, 2].map(|i| (grid.corners[i] + edge[i] * 0.5) + at[i] as f32 * edge[i]);
    let diagonal = dot(edge, edge).sqrt();
    let shortest = (edge[0].min(edge[1]).min(edge[2]) * 0.15).max(1.0e-4);
    let bias = (diagonal * 0.05).max(1.0e-4 * 8.0);
    let set = ((at[0] % 3) + 3 * (at[1] % 3) + (at[2] % 3)) % 9;
    let direction = [0, 1, 2].map(|i| f32::from_bits(recorded_bits()[3 * (64 * set + place) + i]));
    let origin = add(centre, times(direction, (diagonal * 0.35).max(1.0e-4 * 4.0)));
    let mut best: Option<(f32, Point)> = None;
    for triangle in 0..lists.uses.len() {
        let p = [0, 1, 2].map(|k| corner(lists, triangle, k));
        let longest = best.map_or(f32::INFINITY, |b| b.0);
        if let Some(t) = met(p, origin, direction, shortest, longest) {
            best = Some((t, unit(cross(sub(p[1], p[0]), sub(p[2], p[0])))));
        }
    }
    let (t, mut normal) = best?;
    if dot(normal, direction.map(|x| -x)) < 0.0 {
        normal = normal.map(|x| -x);
    }
    Some(Spot { point: add(add(origin, times(direction, t)), times(normal, bias)), normal, bias, shortest })
}

/// Some spots of the voxels that are active.
fn spots(c: &mut Chance, world: &World) -> Vec<Spot> {
    let on: Vec<usize> = (0..voxels(&world.grid)).filter(|i| world.active[*i] == 1).collect();
    if on.is_empty() {
        return vec![];
    }
    (0..12).filter_map(|_| spot(&world.grid, &world.lists, c.pick(&on), c.below(64))).collect()
}

/// A point about 1e-6 from a spot, on the side that its normal looks to. Of many tried, the one with the greatest computed squared distance
/// of at most 1e-12, which is often 1e-12 itself where the numbers are fine enough, or the one with the least above that.
fn beside(c: &mut Chance, spot: &Spot, above: bool) -> Point {
    let mut best = spot.point;
    let mut held = if above { f32::INFINITY } else { -1.0 };
    for _ in 0..3000 {
        let aside = [c.between(-1.0, 1.0), c.between(-1.0, 1.0), c.between(-1.0, 1.0)];
        let tried = add(spot.point, times(unit(add(times(aside, 0.7), spot.normal)), 1.0e-6));
        let to = sub(tried, spot.point);
        let square = dot(to, to);
        let better = if above { square > 1.0e-12 && square < held } else { square <= 1.0e-12 && square > held };
        if better && dot(spot.normal, to) > 0.0 {
            best = tried;
            held = square;
        }
    }
    best
}

fn inside(c: &mut Chance, grid: &Grid, reach: f32) -> Point {
    [0, 1, 2].map(|i| {
        let by = (grid.corners[3 + i] - grid.corners[i]) * reach;
        c.between(grid.corners[i] - by, grid.corners[3 + i] + by)
    })
}

/// A place for one more lamp.
fn place(c: &mut Chance, world: &World, spots: &[Spot], lamps: &[f32]) -> Point {
    let t = world.lists.uses.len();
    let kind = c.below(14);
    if kind < 5 && !spots.is_empty() {
        let spot = c.pick(spots);
        return match kind {
            0 => spot.point,
            1 => beside(c, &spot, false),
            2 => beside(c, &spot, true),
            3 => {
                // about the shortest distance, and twice that, where the longest equals the shortest
                let aside = [c.between(-0.5, 0.5), c.between(-0.5, 0.5), c.between(-0.5, 0.5)];
                let far = c.pick(&[0.5, 1.0, 1.0000001, 1.5, 2.0, 1.9999999, 2.0000002, 2.5]);
                add(spot.point, times(unit(add(aside, spot.normal)), spot.shortest * far))
            }
            _ => {
                // in the plane through the spot across an axis: n·l is 0 where the normal is that axis
                let axis = (0..3).fold(0, |best, i| if spot.normal[i].abs() > spot.normal[best].abs() { i } else { best });
                let mut p = inside(c, &world.grid, 0.0);
                p[axis] = spot.point[axis];
                p
            }
        };
    }
    match kind {
        5 | 6 if t > 0 => {
            // on a triangle, or a little off it: in the wall, nearer than a spot is, or less than the shortest distance behind
            let triangle = c.below(t);
            let p = [0, 1, 2].map(|k| corner(&world.lists, triangle, k));
            let (u, v) = c.pick(&[(0.25, 0.25), (0.2, 0.5), (0.4, 0.3), (0.0, 0.5), (1.0, 0.0)]);
            let on = add(add(times(p[0], 1.0 - u - v), times(p[1], u)), times(p[2], v));
            let across = cross(sub(p[1], p[0]), sub(p[2], p[0]));
            let reach = spots.first().map_or(0.01, |s| s.bias.min(s.shortest));
            if kind == 6 && dot(across, across) > 1.0e-12 {
                add(on, times(unit(across), reach * c.pick(&[0.5, -0.5, 0.1, -0.1])))
            } else {
                on
            }
        }
        7 => [0, 1, 2].map(|_| c.pick(&[4096.0, -4096.0, 4096.0, -4096.0, 0.0, -0.0])),
        8 if lamps.len() >= 6 => {
            let k = 6 * c.below(lamps.len() / 6);
            [lamps[k], lamps[k + 1], lamps[k + 2]]
        }
        9 => inside(c, &world.grid, 3.0),
        10 => inside(c, &world.grid, 0.5),
        _ => inside(c, &world.grid, 0.0),
    }
}

fn colour(c: &mut Chance) -> Point {
    match c.below(8) {
        0 => c.pick(&[[0.0; 3], [-0.0; 3], [0.0, -0.0, 0.0]]),
        1 => [0, 1, 2].map(|_| -c.between(0.0, 3.0)),
        2 => [0, 1, 2].map(|_| c.pick(&[0.0, -0.0, 1.0, -1.0, 65536.0, -65536.0, 1e-40, -1e-40, 1e-30, 0.5, 2.0])),
        3 => [0, 1, 2].map(|_| c.between(0.0, 1000.0)),
        _ => [0, 1, 2].map(|_| c.between(0.0, 3.0)),
    }
}

/// `count` lamps for a world.
fn some(c: &mut Chance, world: &World, count: usize) -> Vec<f32> {
    let spots = spots(c, world);
    let mut out = Vec::new();
    for _ in 0..count {
        let p = place(c, world, &spots, &out);
        out.extend(p.map(|x| x.clamp(-4096.0, 4096.0)));
        out.extend(colour(c));
    }
    out
}

/// A seeded scene's lamps: none in every third scene, each family in turn, else one to eight.
pub fn lamps(seed: u64, world: &World) -> Vec<f32> {
    if (seed + 2 * (seed / FAMILIES.len() as u64)) % 3 == 0 {
        return vec![];
    }
    let mut chance = Chance::new(seed ^ 0x1A39);
    let c = &mut chance;
    let count = if c.one_in(4) { c.pick(&[1, 8]) } else { c.from(1, 8) };
    some(c, world, count)
}

/// Rooms of one voxel, made for slips that a seeded scene seldom shows: plain colours, so that every lamp counts.
pub fn rooms() -> Vec<World> {
    (0..ROOMS).map(room).collect()
}

const ROOMS: u64 = 8;

fn room(which: u64) -> World {
    let mut chance = Chance::new(which ^ 0x400A);
    let c = &mut chance;
    // two are so small that a squared distance can be 1e-12 itself; the lamps of two stand beyond black walls that let light
    // through to a ceiling
    let (fine, beyond) = (which >= ROOMS - 2, which == 1 || which == 5);
    let side = if fine { 1.0 / 1024.0 } else { 2.0 };
    let grid = Grid { axes: [1, 1, 1], corners: [-0.5 * side, -0.5 * side, -0.5 * side, 0.5 * side, 0.5 * side, 0.5 * side] };
    let mut lists = Lists::default();
    for (kind, through) in [(0, 0.5), (1, 0.6), (0, 0.0), (1, 0.9)] {
        lists.kinds.push(kind);
        let base = [0, 1, 2].map(|_| if beyond && kind == 1 { 0.0 } else { c.between(0.2, 1.0) });
        lists.numbers.extend([base[0], base[1], base[2], 0.0, 0.0, 0.0, through]);
    }
    let half = side * 1.3;
    for axis in 0..3 {
        for s in [-1.0, 1.0] {
            let at = |a: f32, b: f32| {
                let mut p = [0.0; 3];
                p[axis] = s * half;
                p[(axis + 1) % 3] = a * half;
                p[(axis + 2) % 3] = b * half;
                p
            };
            // some walls let light through, and some stand open
            let ceiling = beyond && axis == 2 && s > 0.0;
            if beyond || !c.one_in(5) {
                for p in [[at(-1.0, -1.0), at(1.0, -1.0), at(1.0, 1.0)], [at(-1.0, -1.0), at(1.0, 1.0), at(-1.0, 1.0)]] {
                    lists.points.extend(p.iter().flatten());
                    lists.uses.push(if ceiling { 0 } else if beyond { c.pick(&[1, 3]) } else { c.below(4) as u32 });
                }
            }
        }
    }
    // a board in the room, before a lamp for some points
    let low = inside(c, &grid, -0.1);
    for p in [low, add(low, [side * 0.4, 0.0, side * 0.1]), add(low, [0.0, side * 0.5, 0.0])] {
        lists.points.extend(p);
    }
    lists.uses.push(c.below(4) as u32);
    // sun and sky beside the lamps, or next to nothing
    let bright = which % 2 == 0;
    let strength = side * side * c.between(0.5, 1.5);
    let mut world = World {
        family: "room with lamps",
        grid,
        lists,
        sunlight: [0.3, -0.2, 0.9, 0.7, 0.6, 0.5].map(|x| x * if bright { 1.0 } else { 0.01 }),
        ambient: [0; 12].map(|_| if bright { c.between(0.0, 0.3) } else { 0.0 }),
        sky: (0..1728).map(|i| if bright { [0.5, 0.4, 0.3][i % 3] } else { 0.0 }).collect(),
        lamps: vec![],
        active: vec![1],
    };
    let near = spots(c, &world);
    let count = [8, 3, 5, 2, 8, 4, 8, 6][which as usize % 8];
    let mut lamps: Vec<f32> = Vec::new();
    for k in 0..count {
        let p = match (k, near.is_empty()) {
            (0, false) if fine => beside(c, &near[0], false),
            (1, false) if fine => beside(c, &near[near.len() / 2], false),
            (2, false) if fine => beside(c, &near[0], true),
            _ if beyond => add(inside(c, &grid, 1.0), [0.0, 0.0, -2.5 * side]),
            _ if which == 3 => inside(c, &grid, 0.15),
            _ => place(c, &world, &near, &lamps),
        };
        lamps.extend(p.map(|x| x.clamp(-4096.0, 4096.0)));
        // some take light away, less than the others give
        let sign = if k % 4 == 0 { -0.3 } else { 1.0 };
        let plain = [0, 1, 2].map(|_| sign * strength * c.between(0.5, 1.5));
        // at a spot a lamp is some 1e12 times as bright
        lamps.extend(if k < 3 && fine { times(plain, 1.0e-9) } else { plain });
    }
    world.lamps = lamps;
    world
}
