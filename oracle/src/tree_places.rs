//! What document 02's C-20 asks for: trees of the builder and of every other shape over few triangles and many, rays, suns and bakes through them, and
//! each condition of acceptance broken by the least step, alone, in pairs and beside a fault of every other row; for a seed its own scene through trees.
//!
//! Padded boxes, absent triangles and the shapes of trees are written here anew, so that what is asked does not move with what is answered.
use crate::answers::{bake_call, baked, sunned, tree_baked};
use crate::bad::{self, change, meant, tree_of, Change};
use crate::calls::{Bake, Call, Grid, Lists, Progress, Ray, RayCall, Scratch, Tree};
use crate::chance::Chance;
use crate::items::{self, Item};
use crate::lamp_places::met;
use crate::panel_places::{self, along, down_and_up, half, of_each_kind, q, sheet};
use crate::progress_places;
use crate::solid_places;
use crate::table;
use crate::trees;
use crate::word_places::{add, grid, hits};
use crate::worlds::{self, step, voxels, World};

const OPAQUE: u8 = 0;
const TRANSLUCENT: u8 = 1;
const PANEL: u8 = 2;
const MOST_TRIANGLES: usize = 4096;
/// As deep as a box may stand.
const DEEPEST: usize = 24;

type Corners = [f32; 6];

fn numbers(through: f32) -> [f32; 7] {
    [0.5, 0.25, 0.75, 0.0, 0.0, 0.0, through]
}

/// A triangle's box padded by 1e-5.
fn padded(points: &[f32], place: usize) -> Corners {
    let p = &points[9 * place..9 * place + 9];
    let mut out = [0.0; 6];
    for k in 0..3 {
        out[k] = p[k].min(p[3 + k]).min(p[6 + k]) - 1.0e-5;
        out[3 + k] = p[k].max(p[3 + k]).max(p[6 + k]) + 1.0e-5;
    }
    out
}

fn joined(a: Corners, b: Corners) -> Corners {
    let mut out = a;
    for k in 0..3 {
        out[k] = a[k].min(b[k]);
        out[3 + k] = a[3 + k].max(b[3 + k]);
    }
    out
}

/// The places of the triangles that are there.
fn present(points: &[f32]) -> Vec<u32> {
    (0..points.len() / 9)
        .filter(|place| {
            let p = &points[9 * place..9 * place + 9];
            let (a, b) = ([0, 1, 2].map(|k| p[3 + k] - p[k]), [0, 1, 2].map(|k| p[6 + k] - p[k]));
            let n = [a[1] * b[2] - a[2] * b[1], a[2] * b[0] - a[0] * b[2], a[0] * b[1] - a[1] * b[0]];
            (n[0] * n[0] + n[1] * n[1]) + n[2] * n[2] > 1.0e-12
        })
        .map(|place| place as u32)
        .collect()
}

/// A tree's shape: which triangles stand together.
#[derive(Clone)]
enum Shape {
    Leaf(Vec<u32>),
    Inner(Box<[Shape; 2]>),
}

fn inner(left: Shape, right: Shape) -> Shape {
    Shape::Inner(Box::new([left, right]))
}

/// How a shape is laid out.
#[derive(Clone, Copy, Default)]
struct Style {
    /// So far a box may stand off what it holds, on each side.
    loose: f32,
    /// Level by level, in place of a box and then all that is in it.
    levels: bool,
    /// Numbers that are not asked for: a leaf's third, and the order outside every run.
    junk: bool,
    /// The first box holds everything.
    unbounded: bool,
    /// Leaves' runs from the order's end.
    backward: bool,
}

fn mixed<T>(c: &mut Chance, list: &mut [T]) {
    for k in 0..list.len() {
        let other = c.below(list.len());
        list.swap(k, other);
    }
}

/// Any binary shape with leaves of at most so many.
fn any_shape(c: &mut Chance, places: Vec<u32>, leaf: usize, deep: usize) -> Shape {
    if places.len() == 1 || deep == 0 || places.len() <= leaf && c.one_in(2) {
        return Shape::Leaf(places);
    }
    let at = if c.one_in(3) { 1 } else { c.from(1, places.len() - 1) };
    let (left, right) = places.split_at(at);
    let (left, right) = if c.one_in(4) { (right, left) } else { (left, right) };
    inner(any_shape(c, left.to_vec(), leaf, deep - 1), any_shape(c, right.to_vec(), leaf, deep - 1))
}

/// Boxes one in another as deep as asked, with a leaf beside each; the last has all that is left.
fn chain(places: &[u32], deep: usize, turned: bool) -> Shape {
    if deep == 0 {
        return Shape::Leaf(places.to_vec());
    }
    let (one, rest) = (Shape::Leaf(places[..1].to_vec()), chain(&places[1..], deep - 1, !turned));
    if turned { inner(rest, one) } else { inner(one, rest) }
}

/// A shape as lists: tight boxes, or loose ones that still hold one another.
fn laid(c: &mut Chance, points: &[f32], shape: &Shape, style: Style) -> Tree {
    let triangles = points.len() / 9;
    let mut tree = Tree::default();
    // each shape with its parent's index and which half it is
    let mut waiting = vec![(shape.clone(), None::<(usize, usize)>)];
    let mut parents = Vec::new();
    let mut leaves = Vec::new();
    while !waiting.is_empty() {
        let (now, parent) = if style.levels { waiting.remove(0) } else { waiting.pop().expect("a shape") };
        let i = tree.nodes.len() / 3;
        if let Some((above, half)) = parent {
            tree.nodes[3 * above + 1 + half] = i as u32;
        }
        parents.push(parent.map(|(above, _)| above));
        tree.nodes.extend([0; 3]);
        match now {
            Shape::Leaf(places) => leaves.push((i, places)),
            Shape::Inner(halves) => {
                let [left, right] = *halves;
                let both = [(left, Some((i, 0))), (right, Some((i, 1)))];
                if style.levels {
                    waiting.extend(both);
                } else {
                    waiting.extend(both.into_iter().rev());
                }
            }
        }
    }
    let count = parents.len();
    let mut boxes: Vec<Option<Corners>> = vec![None; count];
    let taken: usize = leaves.iter().map(|(_, places)| places.len()).sum();
    // room for what stands outside every run, before them and behind
    let spare = if style.junk { triangles.saturating_sub(taken) } else { 0 };
    let before = if spare > 0 { c.below(spare + 1) } else { 0 };
    tree.order = (0..before).map(|_| c.pick(&[0, u32::MAX, triangles as u32, 1])).collect();
    if style.backward {
        leaves.reverse();
    }
    for (i, places) in &leaves {
        let third = if style.junk { c.pick(&[7, u32::MAX, 0, 1]) } else { 0 };
        tree.nodes[3 * i] = places.len() as u32;
        tree.nodes[3 * i + 1] = tree.order.len() as u32;
        tree.nodes[3 * i + 2] = third;
        tree.order.extend(places);
        boxes[*i] = places.iter().map(|place| padded(points, *place as usize)).reduce(joined);
    }
    tree.order.extend((before..spare).map(|_| c.pick(&[3, u32::MAX, 0])));
    // from the last box to the first: every box follows its parent
    for i in (0..count).rev() {
        let mut own = boxes[i].expect("a box holds something");
        if style.loose > 0.0 {
            for k in 0..3 {
                if !c.one_in(3) {
                    own[k] -= c.between(0.0, style.loose);
                }
                if !c.one_in(3) {
                    own[3 + k] += c.between(0.0, style.loose);
                }
            }
        }
        if i == 0 && style.unbounded {
            own = [f32::NEG_INFINITY, f32::NEG_INFINITY, f32::NEG_INFINITY, f32::INFINITY, f32::INFINITY, f32::INFINITY];
        }
        boxes[i] = Some(own);
        if let Some(above) = parents[i] {
            boxes[above] = Some(boxes[above].map_or(own, |other| joined(other, own)));
        }
    }
    tree.boxes = boxes.into_iter().flat_map(|own| own.expect("a box")).collect();
    tree
}

/// Any tree of these triangles.
fn any_tree(c: &mut Chance, points: &[f32]) -> Tree {
    let mut places = present(points);
    if places.is_empty() {
        let triangles = points.len() / 9;
        return Tree { order: (0..c.below(triangles + 1)).map(|_| c.pick(&[0, u32::MAX])).collect(), ..Tree::default() };
    }
    mixed(c, &mut places);
    let leaf = c.pick(&[1, 2, 4, 9, 40]);
    let shape = any_shape(c, places, leaf, DEEPEST);
    let style = Style { loose: c.pick(&[0.0, 0.0, 0.001, 0.5, 30.0]), levels: c.one_in(2), junk: c.one_in(2), unbounded: c.one_in(4), backward: c.one_in(3) };
    laid(c, points, &shape, style)
}

/// As deep a chain as these triangles let it be.
fn chained(c: &mut Chance, points: &[f32]) -> Tree {
    let mut places = present(points);
    if places.is_empty() {
        return Tree::default();
    }
    mixed(c, &mut places);
    let deep = DEEPEST.min(places.len() - 1);
    let turned = c.one_in(2);
    let style = Style { loose: c.pick(&[0.0, 0.1]), levels: c.one_in(2), junk: c.one_in(2) && points.len() < 900, ..Style::default() };
    laid(c, points, &chain(&places, deep, turned), style)
}

/// All triangles in one leaf.
fn one_leaf(c: &mut Chance, points: &[f32], style: Style) -> Tree {
    laid(c, points, &Shape::Leaf(present(points)), style)
}

fn both_calls(rays: &[Ray]) -> Vec<(RayCall, Ray)> {
    rays.iter().flat_map(|ray| [(RayCall::Nearest, *ray), (RayCall::Transmittance, *ray)]).collect()
}

/// Each ray's nearest hit and its transmittance through a tree.
fn asked(lists: &Lists, tree: Tree, rays: &[Ray]) -> Item {
    Item::TreeRays { lists: lists.clone(), tree, hits: hits(lists), asked: both_calls(rays) }
}

/// Scattered triangles of every kind, about the middle, some of them absent where asked.
fn scattered(c: &mut Chance, count: usize, absent: bool) -> Lists {
    let mut lists = Lists { kinds: vec![OPAQUE, TRANSLUCENT, PANEL, TRANSLUCENT], numbers: [0.5, 0.75, 0.5, 0.625].into_iter().flat_map(numbers).collect(), ..Lists::default() };
    for k in 0..count {
        let a = [0, 1, 2].map(|_| c.from(0, 16) as f32 * 0.25 - 2.0);
        let size = c.pick(&[0.5, 2.0, 4.0]);
        let mut p = [a; 3];
        for corner in &mut p[1..] {
            for x in corner.iter_mut() {
                *x += (c.from(0, 8) as f32 - 4.0) * 0.25 * size;
            }
        }
        if c.one_in(2) {
            // across an axis: its box is as thin as it may be
            let axis = c.below(3);
            (1..3).for_each(|corner| p[corner][axis] = a[axis]);
        }
        if absent && k % 3 == 1 {
            p[2] = p[1];
        }
        lists.points.extend(p.iter().flatten());
        lists.uses.push(c.below(4) as u32);
    }
    lists
}

/// Rays in every octant, with components of 0 and −0, from the middle and from outside.
fn octants(c: &mut Chance, count: usize) -> Vec<Ray> {
    (0..count)
        .map(|k| {
            let sign = [0, 1, 2].map(|axis| if k >> axis & 1 == 1 { -1.0 } else { 1.0 });
            let mut direction = [0, 1, 2].map(|axis| {
                let any = c.between(0.05, 1.0);
                sign[axis] * c.pick(&[1.0, 0.5, 0.25, 0.75, any])
            });
            if k % 3 == 1 {
                direction[c.below(3)] = c.pick(&[0.0, -0.0]);
            }
            let from = c.pick(&[0.0, 1.0, 6.0]);
            let origin = [0, 1, 2].map(|axis| c.from(0, 8) as f32 * 0.25 - 1.0 - sign[axis] * from);
            Ray { origin, direction, shortest: c.pick(&[0.0, 0.0, 0.25]), longest: c.pick(&[f32::INFINITY, f32::INFINITY, 4.0]) }
        })
        .collect()
}

/// Rays whose origin stands at a face of Q's own box, one step inside it and outside, with every sort of direction across that face; Q's inside lies on
/// the way of some.
fn about_a_face() -> Vec<Ray> {
    let own = padded(&q(false), 0);
    let mut out = Vec::new();
    for axis in 0..2 {
        for (face, outward) in [(own[axis], -1.0f32), (own[3 + axis], 1.0)] {
            for (by, across) in [(0, 0.0f32), (1, 0.0), (1, -0.0), (0, outward * 0.5), (1, outward * 1.0e-3), (1, -outward * 0.5), (-1, 0.0), (-1, outward)] {
                let mut origin = [0.25, 0.25, 0.5];
                origin[axis] = match by {
                    0 => face,
                    1 => step(face, outward as i32),
                    _ => step(face, -outward as i32),
                };
                let mut direction = [0.0, 0.0, -1.0];
                direction[axis] = across;
                out.push(Ray { origin, direction, shortest: 0.0, longest: f32::INFINITY });
            }
        }
    }
    // above and below: the plane itself, the padded face, and one step past it
    for z in [0.0, own[5], step(own[5], 1), own[2], step(own[2], -1)] {
        for way in [1.0, -1.0] {
            out.push(along([0.25, 0.25, z], way));
        }
        out.push(Ray { direction: [0.5, 0.0, 0.0], ..along([-1.0, 0.25, z], 1.0) });
    }
    out
}

/// Q where a float's step is so much larger than the padding that its box has no padding left: a ray from the box's own face meets it.
fn far_q(way: f32) -> [f32; 9] {
    q(false).map(|x| way * 2048.0 + x)
}

/// Rays from the faces of that box along them and away from it, from one step outside and one inside.
fn from_a_face(way: f32) -> Vec<Ray> {
    let least = way * 2048.0;
    let own = padded(&far_q(way), 0);
    let mut out = Vec::new();
    for axis in 0..2 {
        for (face, outward, aside) in [(own[axis], -1, 0.25), (own[3 + axis], 1, 0.0)] {
            for (x, across) in [(face, 0.0), (face, -0.0), (step(face, outward), 0.0), (step(face, -outward), 0.0)] {
                let mut origin = [least + aside, least + aside, least + 2.0];
                origin[axis] = x;
                let mut direction = [0.0, 0.0, -1.0];
                direction[axis] = across;
                out.push(Ray { origin, direction, shortest: 0.0, longest: f32::INFINITY });
            }
        }
    }
    for up in [1.0, -1.0] {
        out.push(along([least + 0.25, least + 0.25, least], up));
        out.push(along([least + 0.25, least + 0.25, step(least, up as i32)], up));
    }
    out
}

/// Triangles that a ray meets as it is computed, though their own padded box is passed over: the full scan answers otherwise. Found anew by chance, some with
/// the origin far off and some within a hall.
pub fn passed_yet_met(count: usize) -> Vec<([f32; 9], Ray)> {
    let mut chance = Chance::new(0xC20_4A55);
    let c = &mut chance;
    let mut out = Vec::new();
    for near in [true, false] {
        let wanted = out.len() + count / 2;
        while out.len() < wanted {
            let (points, ray) = grazed(c, near);
            if yet_met(&points, &ray) {
                out.push((points, ray));
            }
        }
    }
    out
}

/// Whether a triangle is met though its own box is passed over.
fn yet_met(points: &[f32; 9], ray: &Ray) -> bool {
    let own = padded(points, 0);
    let passed = (0..3).any(|k| {
        let (o, d) = (ray.origin[k], ray.direction[k]);
        o > own[3 + k] && (d > 0.0 || d == 0.0) || o < own[k] && (d < 0.0 || d == 0.0)
    });
    let p = [0, 1, 2].map(|corner| [0, 1, 2].map(|k| points[3 * corner + k]));
    passed && met(p, ray.origin, ray.direction, ray.shortest, ray.longest).is_some()
}

/// A large triangle beside a ray that runs along one axis' planes, a step or two off its box, which the ray meets as it is computed; none if chance would
/// have it otherwise.
fn beside_a_ray(c: &mut Chance, ray: &Ray) -> Option<[f32; 9]> {
    let flat: Vec<usize> = (0..3).filter(|k| ray.direction[*k] == 0.0).collect();
    let axis = c.pick(&flat);
    let inward = c.pick(&[1, -1]);
    let size = c.between(10.0, 4000.0);
    let far = c.between(1.0, 300.0);
    let target = [0, 1, 2].map(|k| ray.origin[k] + ray.direction[k] * far);
    let mut p = [target; 3];
    let one = c.below(3);
    for (corner, point) in p.iter_mut().enumerate() {
        for (k, x) in point.iter_mut().enumerate() {
            if k == axis {
                *x = (0..c.from(1, 2)).fold(ray.origin[k], |x, _| step(x, inward));
            }
            if corner != one {
                *x += if k == axis { inward as f32 * c.between(0.1, 1.0) * size } else { c.between(-size, size) };
            }
        }
    }
    let mut points = [0.0; 9];
    points.iter_mut().zip(p.iter().flatten()).for_each(|(to, from)| *to = *from);
    (points.iter().all(|x| x.abs() <= 4096.0) && yet_met(&points, ray)).then_some(points)
}

/// A voxel far off the middle.
fn far_voxel(c: &mut Chance) -> Grid {
    let low = [0, 1, 2].map(|_| c.between(-2500.0, 2500.0));
    let edge = c.between(0.5, 4.0);
    Grid { axes: [1, 1, 1], corners: [low[0], low[1], low[2], low[0] + edge, low[1] + edge, low[2] + edge] }
}

fn as_asked(ray: &crate::watch::Fired) -> Ray {
    let (o, d) = (ray.origin, ray.direction);
    Ray { origin: [o.x, o.y, o.z], direction: [d.x, d.y, d.z], shortest: ray.shortest, longest: ray.longest }
}

/// Suns whose ray the full scan would say a triangle stops, though it is passed over.
fn passed_suns(c: &mut Chance, count: usize) -> Vec<Item> {
    let mut out = Vec::new();
    while out.len() < count {
        let grid = far_voxel(c);
        let mut direction = [0, 1, 2].map(|_| c.between(-1.0, 1.0));
        direction[c.below(3)] = c.pick(&[0.0, -0.0]);
        let ray = as_asked(&sunned(&grid, &Lists::default(), direction, Some(&[1])).rays[0]);
        if let Some(points) = (0..2000).find_map(|_| beside_a_ray(c, &ray)) {
            let mut lists = Lists::default();
            add(&mut lists, points, [OPAQUE, TRANSLUCENT][out.len() % 2], numbers(0.5));
            let tree = one_leaf(c, &lists.points, Style { unbounded: out.len() % 2 == 0, ..Style::default() });
            out.push(Item::One(Call::TreeSun { grid, hits: hits(&lists), lists, tree, direction, active: vec![1], light: vec![0.5], scratch: vec![0.25] }));
        }
    }
    out
}

/// Bakes of which one ray straight up would meet a triangle that is passed over.
fn passed_bakes(c: &mut Chance, count: usize) -> Vec<Item> {
    let mut out = Vec::new();
    while out.len() < count {
        let mut bake = crate::word_places::room([1, 1, 1], vec![1], false);
        bake.grid = far_voxel(c);
        let rays = baked(&bake, Some(&bake.active)).rays;
        let up: Vec<Ray> = rays.iter().map(as_asked).filter(|ray| ray.direction.contains(&0.0)).collect();
        if up.is_empty() {
            continue;
        }
        let ray = up[c.below(up.len())];
        if let Some(points) = (0..2000).find_map(|_| beside_a_ray(c, &ray)) {
            add(&mut bake.lists, points, OPAQUE, [0.8, 0.6, 0.7, 0.5, 0.25, 0.125, 0.0]);
            bake.hits = hits(&bake.lists);
            let tree = one_leaf(c, &bake.lists.points, Style { unbounded: out.len() % 2 == 0, ..Style::default() });
            out.push(calls(&bake, &tree, &[384, 384]));
        }
    }
    out
}

/// A triangle and a ray that passes close beside its box, or away from it.
pub fn grazed(c: &mut Chance, near: bool) -> ([f32; 9], Ray) {
    let reach = if near { 8.0 } else { 4096.0 };
    let size = c.pick(&[1.0, 0.125, 0.01, 4.0]) * if near { 1.0 } else { c.pick(&[1.0, 100.0]) };
    let a = [0, 1, 2].map(|_| c.between(-reach, reach));
    let mut p = [a; 3];
    for corner in &mut p[1..] {
        for (k, x) in corner.iter_mut().enumerate() {
            *x = (a[k] + c.between(-size, size)).clamp(-4096.0, 4096.0);
        }
    }
    let mut points = [0.0; 9];
    points.iter_mut().zip(p.iter().flatten()).for_each(|(to, from)| *to = *from);
    let own = padded(&points, 0);
    // at a corner or a point of an edge, where the box ends
    let (one, other) = (c.below(3), c.below(3));
    let any = c.unit();
    let by = c.pick(&[0.0, 0.0, 0.5, any]);
    let target = [0, 1, 2].map(|k| p[one][k] + (p[other][k] - p[one][k]) * by);
    let mut direction = [0, 1, 2].map(|_| c.between(-1.0, 1.0));
    let axis = c.below(3);
    let outward = c.pick(&[1.0f32, -1.0]);
    direction[axis] = outward * c.pick(&[0.0, 0.0, -0.0, 1.0e-7, 1.0e-5, 1.0e-3]);
    let far = c.between(0.0, if near { 12.0 } else { 20000.0 });
    let mut origin = [0, 1, 2].map(|k| (target[k] - direction[k] * far).clamp(-65536.0, 65536.0));
    let face = if outward > 0.0 { own[3 + axis] } else { own[axis] };
    origin[axis] = (0..c.below(3)).fold(step(face, outward as i32), |x, _| step(x, outward as i32));
    (points, Ray { origin, direction, shortest: c.pick(&[0.0, 0.0, 1.0e-4]), longest: f32::INFINITY })
}

/// As many triangles as there may be, all but three of them absent.
fn mostly_absent() -> Lists {
    let mut lists = Lists { kinds: vec![OPAQUE, TRANSLUCENT, PANEL], numbers: [0.5, 0.5, 0.5].into_iter().flat_map(numbers).collect(), ..Lists::default() };
    lists.points = [8.0, 8.0, 8.0].repeat(3 * MOST_TRIANGLES);
    lists.uses = vec![0; MOST_TRIANGLES];
    for (place, z, material) in [(1, 1.0, 1), (2047, 3.0, 2), (4095, -2.0, 0)] {
        lists.points[9 * place..9 * place + 9].copy_from_slice(&sheet(z, material == 2, 0));
        lists.uses[place] = material;
    }
    lists
}

/// As many triangles as there may be, all of them there: small ones aside at one place, and a wall at the last.
fn most() -> Lists {
    let mut lists = Lists { kinds: vec![OPAQUE], numbers: numbers(0.5).to_vec(), ..Lists::default() };
    for _ in 1..MOST_TRIANGLES {
        lists.points.extend([200.0, 200.0, 8.0, 201.0, 200.0, 8.0, 200.0, 201.0, 8.0]);
    }
    lists.points.extend(sheet(20.0, true, 0));
    lists.uses = vec![0; MOST_TRIANGLES];
    lists
}

/// The same triangle over and over, of every kind in turn: places decide.
fn at_one_place(count: usize) -> Lists {
    let mut lists = Lists { kinds: vec![TRANSLUCENT, PANEL, TRANSLUCENT, OPAQUE], numbers: [0.5, 0.5, 0.75, 0.0].into_iter().flat_map(numbers).collect(), ..Lists::default() };
    for k in 0..count {
        lists.points.extend(sheet(1.0, false, 0));
        lists.uses.push([0, 2, 1, 0, 2, 3, 0][k % 7]);
    }
    lists
}

fn made_rays() -> Vec<Item> {
    let mut chance = Chance::new(0xC20_4A75);
    let c = &mut chance;
    let mut out = Vec::new();
    let plain = Style::default();
    // none at all, none that is there
    out.push(asked(&Lists::default(), Tree::default(), &down_and_up()));
    let mut absent = Lists { kinds: vec![OPAQUE], numbers: numbers(0.5).to_vec(), uses: vec![0; 3], ..Lists::default() };
    absent.points = sheet(1.0, false, 0).map(|x| x * 1.0e-7).repeat(3);
    for order in [vec![], vec![0], vec![u32::MAX, 7, 0]] {
        out.push(asked(&absent, Tree { order, ..Tree::default() }, &down_and_up()));
    }
    // one, and its own box
    let mut one = Lists::default();
    add(&mut one, q(false), OPAQUE, numbers(0.5));
    out.push(asked(&one, trees::built(&one.points), &about_a_face()));
    for way in [1.0, -1.0] {
        let mut far = Lists::default();
        add(&mut far, far_q(way), OPAQUE, numbers(0.5));
        let tree = one_leaf(c, &far.points, Style { unbounded: way < 0.0, ..plain });
        out.push(Item::TreeRays { hits: hits(&far), lists: far, tree, asked: from_a_face(way).into_iter().map(|ray| (RayCall::Nearest, ray)).collect() });
    }
    // the box about it does not matter
    let some: Vec<Ray> = about_a_face().into_iter().step_by(3).collect();
    out.push(asked(&one, one_leaf(c, &one.points, Style { unbounded: true, junk: true, ..plain }), &some));
    out.push(asked(&one, one_leaf(c, &one.points, Style { loose: 5.0, ..plain }), &some));
    // four are a leaf, five are not; trees of other shapes over the same
    for (count, absent) in [(4, false), (5, false), (6, true), (9, true)] {
        let lists = scattered(c, count, absent);
        let rays = octants(c, 8);
        out.push(asked(&lists, trees::built(&lists.points), &rays));
        out.push(asked(&lists, any_tree(c, &lists.points), &rays));
        out.push(asked(&lists, one_leaf(c, &lists.points, Style { junk: true, ..plain }), &rays[..4]));
    }
    // all at one place: equal distances, and which stands where in the tree
    for count in [5, 7] {
        let lists = at_one_place(count);
        for tree in [trees::built(&lists.points), any_tree(c, &lists.points), chained(c, &lists.points)] {
            out.push(asked(&lists, tree, &down_and_up()));
        }
    }
    // the builder's, any, as deep as may be, all in one
    let lists = scattered(c, 27, false);
    let rays = octants(c, 11);
    let deepest = chained(c, &lists.points);
    for tree in [trees::built(&lists.points), deepest, any_tree(c, &lists.points), any_tree(c, &lists.points), one_leaf(c, &lists.points, Style { unbounded: true, ..plain })] {
        out.push(asked(&lists, tree, &rays));
    }
    // just as deep as may be: 25 boxes one in another, each touching the one above
    let exactly = loop {
        let lists = scattered(c, DEEPEST + 1, false);
        if present(&lists.points).len() == DEEPEST + 1 {
            break lists;
        }
    };
    let tree = laid(c, &exactly.points, &chain(&present(&exactly.points), DEEPEST, false), plain);
    out.push(asked(&exactly, tree, &octants(c, 6)));
    // what the full scan would meet
    for (k, (points, ray)) in passed_yet_met(8).into_iter().enumerate() {
        let mut lists = Lists::default();
        add(&mut lists, points, [OPAQUE, TRANSLUCENT][k % 2], numbers(0.5));
        let tree = one_leaf(c, &lists.points, Style { unbounded: k % 4 < 2, ..plain });
        out.push(asked(&lists, tree, &[ray]));
    }
    let lists = mostly_absent();
    out.push(asked(&lists, one_leaf(c, &lists.points, Style { loose: 1.0, ..plain }), &down_and_up()));
    let lists = most();
    let [down, _] = down_and_up();
    let rays = [Ray { origin: [0.5, 0.25, 30.0], ..down }, Ray { origin: [200.25, 200.25, 30.0], ..down }, Ray { origin: [0.5, 0.25, 10.0], ..down }];
    out.push(Item::TreeRays { tree: one_leaf(c, &lists.points, plain), hits: hits(&lists), lists, asked: both_calls(&rays) });
    out.extend(made_builds(c));
    out
}

/// Lists that are lent to the builder, with something in them, so much longer than they must be.
fn room_for(triangles: usize, more: usize) -> Tree {
    Tree {
        boxes: (0..6 * triangles + more).map(|k| [0.5, f32::NAN, -7.5][k % 3]).collect(),
        nodes: (0..3 * triangles + more).map(|k| [99, u32::MAX, 5][k % 3]).collect(),
        order: (0..triangles + more).map(|k| [77, 88][k % 2]).collect(),
    }
}

fn build(points: Vec<f32>, more: usize) -> Item {
    Item::One(Call::BuildTree { tree: room_for(points.len() / 9, more), points })
}

/// Triangles along an axis, mixed, with equal keys and keys that differ by a step.
fn along_an_axis(c: &mut Chance, axis: usize, count: usize) -> Vec<f32> {
    let mut at: Vec<f32> = (0..count).map(|k| (k / 3) as f32 * 0.5 - 1.0).collect();
    mixed(c, &mut at);
    at.into_iter()
        .flat_map(|x| {
            let mut p = [0.0, 0.0, 0.0, 0.25, 0.0, 0.125, 0.0, 0.25, -0.125];
            (0..3).for_each(|corner| p[3 * corner + axis] += x);
            p
        })
        .collect()
}

fn made_builds(c: &mut Chance) -> Vec<Item> {
    let mut out = vec![build(vec![], 0), build(vec![], 7)];
    // every count about four and about the halves of halves
    for count in [1, 2, 3, 4, 5, 6, 8, 9, 10, 17] {
        let lists = scattered(c, count, false);
        out.push(build(lists.points, count % 2));
    }
    for count in [3, 7, 12] {
        let lists = scattered(c, count, true);
        out.push(build(lists.points, 0));
    }
    for axis in 0..3 {
        out.push(build(along_an_axis(c, axis, 11), 1));
    }
    // halved along x, then along y, where keys are equal and stand as x has put them
    let rows = [7, 2, 11, 4, 0, 9, 5, 10, 1, 8, 3, 6].into_iter().flat_map(|x| {
        let (x, y) = (x as f32, [0.0, 10.0][x % 2]);
        [x, y, 0.0, x + 0.5, y, 0.0, x, y + 0.5, 0.0]
    });
    out.push(build(rows.collect(), 0));
    // equal spreads: which axis is taken
    for spread in [[1.0, 1.0, 1.0], [1.0, 1.0, 0.5], [0.5, 1.0, 1.0], [1.0, 0.5, 1.0], [0.5, 0.25, 1.0], [0.25, 0.5, 1.0], [0.5, 1.0, 0.25], [1.0, 0.25, 0.5]] {
        let points = (0..6).flat_map(|k| {
            let place = [[0, 3, 5], [1, 4, 2], [2, 0, 4], [3, 5, 1], [4, 1, 0], [5, 2, 3]][k].map(|n| n as f32);
            [0.0, 0.0, 0.0, 1.0, 0.0, 0.0, 0.0, 1.0, 0.0].into_iter().enumerate().map(move |(i, x)| x + place[i % 3] * spread[i % 3]).collect::<Vec<f32>>()
        });
        out.push(build(points.collect(), 0));
    }
    // sums that come out in this order alone: another loses the third number
    out.push(build([5.0, 2.0, 4.0, 1.0, 3.0, 0.0].into_iter().flat_map(|x| [4096.0, 0.0, 0.0, -4096.0, 1.0, 0.0, x * 1.0e-5, 0.0, 1.0]).collect(), 0));
    // sums that round: large numbers of either sign, and keys of −0
    let large = (0..9).flat_map(|k| [0; 9].map(|_| c.pick(&[4096.0, -4096.0, 0.1, -0.3, k as f32, 1.0e-5, -0.0])).to_vec());
    out.push(build(large.collect(), 0));
    out.push(build(at_one_place(9).points, 2));
    // none is there, and all but three
    out.push(build(sheet(1.0, false, 0).map(|x| x * 1.0e-7).repeat(4), 0));
    let points = mostly_absent().points;
    let tree = Tree { boxes: vec![f32::NAN; 6 * MOST_TRIANGLES], nodes: vec![u32::MAX; 3 * MOST_TRIANGLES], order: vec![7; MOST_TRIANGLES] };
    out.push(Item::One(Call::BuildTree { points, tree }));
    // as many as there may be, all alike, over lists in which what is not written looks the same, so that they stay short
    let points = sheet(1.0, false, 0).repeat(MOST_TRIANGLES);
    let mut tree = room_for(MOST_TRIANGLES, 0);
    tree.boxes = padded(&points, 0).repeat(MOST_TRIANGLES);
    tree.nodes.fill(0);
    out.push(Item::One(Call::BuildTree { points, tree }));
    out
}

fn tree_sun(axes: [u64; 3], lists: &Lists, tree: Tree, direction: [f32; 3], active: Vec<u8>) -> Item {
    let grid = grid(axes);
    let n = voxels(&grid);
    Item::One(Call::TreeSun { grid, hits: hits(lists), lists: lists.clone(), tree, direction, active, light: vec![f32::NAN; n], scratch: vec![0.25; n] })
}

fn made_sun() -> Vec<Item> {
    let mut chance = Chance::new(0xC20_5C75);
    let c = &mut chance;
    let mut out = Vec::new();
    let up = [0.0, 0.0, 1.0];
    // halves of levels of every kind, either way round, on the way and behind
    for (axes, active) in [([1, 1, 1], vec![1]), ([2, 1, 1], vec![1, 1]), ([3, 1, 1], vec![1, 0, 1]), ([2, 2, 1], vec![1, 1, 0, 1])] {
        for direction in [up, [0.25, -0.5, 1.0], [-0.0, 0.0, -2.0]] {
            let mut lists = Lists::default();
            for (k, z) in [20.0, -20.0, 30.0, 40.0, -30.0, 25.0].into_iter().enumerate() {
                let kind = [TRANSLUCENT, PANEL, TRANSLUCENT, PANEL, OPAQUE, TRANSLUCENT][k];
                add(&mut lists, half(z, [0.75, 1.25, 2.25][k % 3], k % 2 == 0, c.one_in(2)), kind, numbers([0.5, 0.75, 0.625][k % 3]));
            }
            let tree = match out.len() % 3 {
                0 => trees::built(&lists.points),
                1 => any_tree(c, &lists.points),
                _ => chained(c, &lists.points),
            };
            out.push(tree_sun(axes, &lists, tree, direction, active.clone()));
        }
        out.push(tree_sun(axes, &Lists::default(), Tree::default(), up, active.clone()));
    }
    // no voxel is active: hit scratch stands as it was
    let mut lists = Lists::default();
    add(&mut lists, half(20.0, -100.0, false, false), OPAQUE, numbers(0.5));
    out.push(tree_sun([2, 1, 1], &lists, trees::built(&lists.points), up, vec![0; 2]));
    // a sheet right at a ray's start, and just behind it: the ray begins within the padded box or past it
    let start = 0.5 + 3.0f32.sqrt() * 3.0;
    for past in [-2.0e-5, -5.0e-6, 0.0, 5.0e-6, 2.0e-4] {
        let mut lists = Lists::default();
        add(&mut lists, half(start + past, -100.0, false, false), OPAQUE, numbers(1.0));
        out.push(tree_sun([1, 1, 1], &lists, trees::built(&lists.points), up, vec![1]));
    }
    let deep = scattered(c, 27, true);
    for tree in [chained(c, &deep.points), trees::built(&deep.points)] {
        out.push(tree_sun([2, 2, 1], &deep, tree, [0.1, 0.2, -1.0], vec![1; 4]));
    }
    out.push(tree_sun([2, 1, 1], &mostly_absent(), chained(c, &mostly_absent().points), up, vec![1; 2]));
    out.extend(passed_suns(c, 4));
    out
}

/// Calls one after another through a tree with these allowances, each going on from the last.
fn calls(bake: &Bake, tree: &Tree, allowances: &[u64]) -> Item {
    let figures = tree_baked(bake, tree);
    let mut now = bake.clone();
    let mut calls = Vec::new();
    for allowance in allowances {
        calls.push((now.progress, *allowance));
        now.allowance = *allowance;
        now.progress = bake_call(&mut now, &figures).0;
    }
    Item::TreeBakes { bake: Box::new(bake.clone()), tree: tree.clone(), calls }
}

/// Calls each allowed no more than a voxel may cost, until nothing is left, and one after that.
fn at_the_least(bake: &Bake, tree: &Tree) -> Item {
    let taken = bake.active.iter().filter(|entry| **entry == 1).count();
    calls(bake, tree, &vec![table::cost(&bake.lamps); taken.max(1) + 1])
}

/// Halls of solid walls and rooms with panels, all with lamps or without, few of each.
fn halls() -> Vec<Bake> {
    let solid = solid_places::halls().into_iter().enumerate().filter(|(which, _)| [0, 3, 5, 6, 7, 8, 10, 13, 14].contains(which));
    let panels = panel_places::rooms().into_iter().enumerate().filter(|(which, _)| [0, 2, 3, 5, 7, 8].contains(which));
    solid.chain(panels).map(|(_, bake)| bake).collect()
}

fn made_bakes() -> Vec<Item> {
    let mut chance = Chance::new(0xC20_BA7E);
    let c = &mut chance;
    let mut out = Vec::new();
    for (which, bake) in halls().into_iter().enumerate() {
        let points = &bake.lists.points;
        let tree = match which % 3 {
            0 => trees::built(points),
            1 => any_tree(c, points),
            _ => chained(c, points),
        };
        out.push(if which % 4 == 3 { calls(&bake, &tree, &[u64::MAX]) } else { at_the_least(&bake, &tree) });
    }
    // the same hall through several trees
    let hall = panel_places::rooms().into_iter().last().expect("a room");
    for tree in [trees::built(&hall.lists.points), chained(c, &hall.lists.points), one_leaf(c, &hall.lists.points, Style { unbounded: true, ..Style::default() })] {
        out.push(calls(&hall, &tree, &[u64::MAX]));
    }
    // nothing there, nothing active, from the middle
    let mut none = solid_places::halls().into_iter().nth(6).expect("a hall of three voxels");
    none.lists = Lists::default();
    none.hits = Scratch { distances: vec![0.5; 2], places: vec![7] };
    out.push(calls(&none, &Tree::default(), &[384, 448, 384]));
    let mut idle = solid_places::halls().into_iter().nth(7).expect("a hall of four voxels");
    idle.active.fill(0);
    out.push(at_the_least(&idle, &trees::built(&idle.lists.points)));
    let mut middle = solid_places::halls().into_iter().nth(7).expect("a hall of four voxels");
    middle.volume.fill(0.25);
    for next in 1..=4 {
        let progress = progress_places::chosen(&middle, next);
        let tree = any_tree(c, &middle.lists.points);
        out.push(Item::TreeBakes { bake: Box::new(middle.clone()), tree, calls: vec![(progress, 1000)] });
    }
    let mut absent = solid_places::halls().into_iter().next().expect("a hall");
    absent.lists = mostly_absent();
    absent.hits = hits(&absent.lists);
    let tree = trees::built(&absent.lists.points);
    out.push(calls(&absent, &tree, &[384]));
    out.extend(passed_bakes(c, 3));
    out
}

/// The records of trees, inside the limits.
pub fn made(module: &str) -> Vec<Item> {
    match module {
        "rays" => made_rays(),
        "sun" => made_sun(),
        "bake" => made_bakes(),
        _ => vec![],
    }
}

/// Which boxes of a tree are leaves, and which inner ones.
fn sorts(tree: &Tree) -> (Vec<usize>, Vec<usize>) {
    (0..tree.nodes.len() / 3).partition(|i| tree.nodes[3 * i] != 0)
}

/// What of a box's own numbers must be: those of its triangles, or of its halves.
fn tight(points: &[f32], tree: &Tree, i: usize) -> Corners {
    let at = |i: usize| {
        let mut own = [0.0; 6];
        own.copy_from_slice(&tree.boxes[6 * i..6 * i + 6]);
        own
    };
    let [count, first, last] = [0, 1, 2].map(|k| tree.nodes[3 * i + k] as usize);
    if count == 0 {
        joined(at(first), at(last))
    } else {
        tree.order[first..first + count].iter().map(|place| padded(points, *place as usize)).reduce(joined).expect("a leaf holds something")
    }
}

fn set<T: Copy>(list: &mut [T], at: usize, value: T) {
    // another change may have shortened the list
    list.get_mut(at).into_iter().for_each(|x| *x = value);
}

const SIDES: [&str; 6] = ["low x", "low y", "low z", "high x", "high y", "high z"];

/// Every condition of acceptance broken by the least step, and beside it what is still accepted, for a call that is lent a good tree. `few` takes the first leaf
/// and the last inner box alone.
pub fn changes(call: &Call, few: bool) -> Vec<Change> {
    let mut own = call.clone();
    let Some(tree) = tree_of(&mut own).cloned() else {
        return vec![];
    };
    let points = bad_lists(&mut own).points.clone();
    let triangles = points.len() / 9;
    let count = tree.nodes.len() / 3;
    let mut out: Vec<Change> = Vec::new();
    let mut put = |name: String, number: Option<u32>, make: Box<dyn Fn(&mut Tree)>| {
        out.push(change(format!("tree: {name}"), number, move |call| make(tree_of(call).expect("a tree"))));
    };
    macro_rules! put { ($name:expr, $number:expr, $make:expr) => { put($name.to_string(), $number, Box::new($make)) }; }
    let there = present(&points);
    let absent = (0..triangles as u32).find(|place| !there.contains(place));
    if count == 0 {
        put!("a box where nothing is", Some(16), |tree: &mut Tree| {
            tree.boxes.extend([-9.0, -9.0, -9.0, 9.0, 9.0, 9.0]);
            tree.nodes.extend([1, 0, 0]);
        });
        put!("nodes one long", Some(16), |tree: &mut Tree| tree.nodes.push(1));
        put!("boxes six long", Some(16), |tree: &mut Tree| tree.boxes.extend([0.5; 6]));
        put!("an order longer than the triangles are many", Some(16), move |tree: &mut Tree| tree.order = vec![0; triangles + 1]);
        return out;
    }
    let (leaves, inners) = sorts(&tree);
    let parent = |i: usize| inners.iter().copied().find(|above| tree.nodes[3 * above + 1..3 * above + 3].contains(&(i as u32)));
    let mut chosen: Vec<usize> = if few { vec![leaves[0]] } else { leaves.clone() };
    chosen.extend(if few { inners.last().copied().into_iter().collect() } else { inners.clone() });
    for i in chosen {
        let sort = if leaves.contains(&i) { "leaf" } else { "inner box" };
        let tight = tight(&points, &tree, i);
        for side in 0..6 {
            let inward = if side < 3 { 1 } else { -1 };
            let name = SIDES[side];
            put!(format!("{sort} {i}, {name} a step too small"), Some(16), move |tree: &mut Tree| set(&mut tree.boxes, 6 * i + side, step(tight[side], inward)));
            put!(format!("{sort} {i}, {name} no number"), Some(16), move |tree: &mut Tree| set(&mut tree.boxes, 6 * i + side, f32::NAN));
            if tree.boxes[6 * i + side] != tight[side] {
                put!(format!("{sort} {i}, {name} tight"), None, move |tree: &mut Tree| set(&mut tree.boxes, 6 * i + side, tight[side]));
            }
            let nothing = if side < 3 { f32::INFINITY } else { f32::NEG_INFINITY };
            if !few || side % 3 == i % 3 {
                put!(format!("{sort} {i}, {name} that holds nothing"), Some(16), move |tree: &mut Tree| set(&mut tree.boxes, 6 * i + side, nothing));
            }
            let above = parent(i);
            if let Some(above) = above {
                let bound = tree.boxes[6 * above + side];
                if !few || side % 2 == i % 2 {
                    put!(format!("{sort} {i}, {name} of the box above"), None, move |tree: &mut Tree| set(&mut tree.boxes, 6 * i + side, bound));
                }
                put!(format!("{sort} {i}, {name} a step past the box above"), if bound.is_finite() { Some(16) } else { None }, move |tree: &mut Tree| {
                    set(&mut tree.boxes, 6 * i + side, step(bound, -inward))
                });
            } else {
                put!(format!("the first box, {name} without end"), None, move |tree: &mut Tree| set(&mut tree.boxes, 6 * i + side, -nothing));
            }
        }
    }
    put!("the first box without end", None, |tree: &mut Tree| {
        (0..3).for_each(|k| set(&mut tree.boxes, k, f32::NEG_INFINITY));
        (3..6).for_each(|k| set(&mut tree.boxes, k, f32::INFINITY));
    });
    put!("every bound no number", Some(16), |tree: &mut Tree| tree.boxes.fill(f32::NAN));
    for i in if few { inners.last().copied().into_iter().collect() } else { inners.clone() } {
        for half in 0..2 {
            let other = tree.nodes[3 * i + 2 - half];
            let sets = |value: u32| move |tree: &mut Tree| set(&mut tree.nodes, 3 * i + 1 + half, value);
            put!(format!("box {i}, both halves are {other}"), Some(16), sets(other));
            put!(format!("box {i}, half {half} is itself"), Some(16), sets(i as u32));
            put!(format!("box {i}, half {half} is the first"), Some(16), sets(0));
            put!(format!("box {i}, half {half} is past the end"), Some(16), sets(count as u32));
            put!(format!("box {i}, half {half} is far past the end"), Some(16), sets(u32::MAX));
            put!(format!("box {i}, half {half} wraps to the first"), Some(16), sets((1u64 << 32).div_ceil(3) as u32));
            if i > 0 {
                put!(format!("box {i}, half {half} is the one before"), Some(16), sets(i as u32 - 1));
            }
        }
        put!(format!("box {i} a leaf of one"), Some(16), move |tree: &mut Tree| set(&mut tree.nodes, 3 * i, 1));
        if let [left, right] = tree.nodes[3 * i + 1..3 * i + 3] {
            put!(format!("box {i}, halves change places"), None, move |tree: &mut Tree| {
                set(&mut tree.nodes, 3 * i + 1, right);
                set(&mut tree.nodes, 3 * i + 2, left);
            });
        }
    }
    // a half of one box is a half of another as well
    if let [first, .., last] = inners[..] {
        let taken = tree.nodes[3 * last + 1];
        put!("a half of two boxes", Some(16), move |tree: &mut Tree| set(&mut tree.nodes, 3 * first + 1, taken));
    }
    for i in if few { leaves.iter().copied().take(2).collect() } else { leaves.clone() } {
        let [run, first] = [0, 1].map(|k| tree.nodes[3 * i + k]);
        let long = tree.order.len() as u32;
        let sets = |k: usize, value: u32| move |tree: &mut Tree| set(&mut tree.nodes, 3 * i + k, value);
        put!(format!("leaf {i} one short"), Some(16), sets(0, run - 1));
        // one more is another's triangle, or past the order, or what stands outside every run
        put!(format!("leaf {i} one long"), if first + run < long && !leaves.iter().any(|l| tree.nodes[3 * l + 1] == first + run) { None } else { Some(16) }, sets(0, run + 1));
        put!(format!("leaf {i} as long as can be"), Some(16), sets(0, u32::MAX));
        put!(format!("leaf {i} longer than the order"), Some(16), sets(0, long + 1));
        put!(format!("leaf {i} half of what can be"), Some(16), sets(0, 1 << 31));
        put!(format!("leaf {i} begins at the end"), Some(16), sets(1, long));
        put!(format!("leaf {i} begins far past the end"), Some(16), sets(1, u32::MAX));
        // first and count together wrap about
        put!(format!("leaf {i} wraps about"), Some(16), sets(1, run.wrapping_neg()));
        put!(format!("leaf {i}'s third number"), None, sets(2, u32::MAX));
        if i + 1 < count {
            let last = count as u32 - 1;
            put!(format!("leaf {i} a box whose halves are the last"), Some(16), move |tree: &mut Tree| (0..3).for_each(|k| set(&mut tree.nodes, 3 * i + k, [0, last, last][k])));
        }
        let here = first as usize;
        let place = |value: u32| move |tree: &mut Tree| set(&mut tree.order, here, value);
        put!(format!("leaf {i}, a place past the triangles"), Some(16), place(triangles as u32));
        put!(format!("leaf {i}, a place far past"), Some(16), place(u32::MAX));
        put!(format!("leaf {i}, a place that wraps"), Some(16), place(((1u64 << 32).div_ceil(9)) as u32));
        if let Some(absent) = absent {
            put!(format!("leaf {i}, an absent triangle"), Some(16), place(absent));
        }
        let another = there.iter().copied().find(|other| *other != tree.order[here]);
        if let Some(another) = another {
            put!(format!("leaf {i}, a triangle once more"), Some(16), place(another));
        }
    }
    // lengths: a tree that does not fit is 16, not 3
    for (name, by) in [("one short", -1i64), ("one long", 1), ("empty", i64::MIN)] {
        let fit = move |long: usize| (long as i64).saturating_add(by).max(0) as usize;
        put!(format!("boxes {name}"), Some(16), move |tree: &mut Tree| tree.boxes.resize(fit(tree.boxes.len()), 0.5));
        put!(format!("nodes {name}"), Some(16), move |tree: &mut Tree| tree.nodes.resize(fit(tree.nodes.len()), 1));
        if by < 0 {
            put!(format!("order {name}"), if tree.order.len() == there.len() || by < -1 { Some(16) } else { None }, move |tree: &mut Tree| tree.order.resize(fit(tree.order.len()), 0));
        }
    }
    put!("order as long as the triangles are many", None, move |tree: &mut Tree| tree.order.resize(triangles.max(tree.order.len()), u32::MAX));
    put!("order one longer than the triangles are many", Some(16), move |tree: &mut Tree| tree.order.resize(triangles + 1, 0));
    put!("order far longer than the triangles are many", Some(16), move |tree: &mut Tree| tree.order.resize(triangles + 64, 0));
    put!("a box more than there are nodes", Some(16), |tree: &mut Tree| tree.boxes.extend([-9.0, -9.0, -9.0, 9.0, 9.0, 9.0]));
    put!("a node more than there are boxes", Some(16), |tree: &mut Tree| tree.nodes.extend([1, 0, 0]));
    put!("a leaf that is no half", Some(16), |tree: &mut Tree| {
        tree.boxes.extend([0.0; 6]);
        tree.nodes.extend([1, 0, 0]);
    });
    put!("the last box away", Some(16), |tree: &mut Tree| {
        tree.boxes.truncate(tree.boxes.len().saturating_sub(6));
        tree.nodes.truncate(tree.nodes.len().saturating_sub(3));
    });
    put!("none at all", Some(16), |tree: &mut Tree| *tree = Tree::default());
    put!("none at all but the order", Some(16), |tree: &mut Tree| {
        tree.boxes.clear();
        tree.nodes.clear();
    });
    out
}

fn bad_lists(call: &mut Call) -> Lists {
    match call {
        Call::TreeNearest { lists, .. } | Call::TreeTransmittance { lists, .. } | Call::TreeSun { lists, .. } => lists.clone(),
        Call::TreeBake(bake, _) => bake.lists.clone(),
        _ => Lists::default(),
    }
}

/// Four triangles that are there, each kind among them, and an absent one between, in a tree of five boxes: leaves of two, one and one.
fn small_scene() -> (Lists, Tree) {
    let mut lists = Lists { kinds: vec![OPAQUE, TRANSLUCENT, PANEL], numbers: numbers(0.5).repeat(3), ..Lists::default() };
    for (z, material) in [(1.0, 1), (3.0, 2), (0.0, 0), (-2.0, 1), (5.0, 0)] {
        let mut points = sheet(z, material == 2, 0);
        if z == 0.0 {
            // a line
            points[6] = points[3];
            points[7] = points[4];
        }
        lists.points.extend(points);
        lists.uses.push(material);
    }
    let shape = inner(Shape::Leaf(vec![3, 0]), inner(Shape::Leaf(vec![4]), Shape::Leaf(vec![1])));
    let tree = laid(&mut Chance::new(0xC20), &lists.points, &shape, Style::default());
    (lists, tree)
}

/// The calls of a module over the small scene, accepted: a bake from the middle without lamps, and one from the beginning with them.
fn bases(module: &str) -> Vec<Call> {
    let (lists, tree) = small_scene();
    let [down, _] = down_and_up();
    let of_bake = |lamps: usize, next: u64| {
        let mut bake = crate::word_places::room([2, 1, 1], vec![1, 1], false);
        bake.lists = lists.clone();
        bake.hits = hits(&bake.lists);
        bake.light.fill(0.5);
        bake.volume.fill(0.25);
        bake.scratch.fill(0.5);
        bad::lamps_to(&mut bake.lamps, lamps);
        bake.allowance = table::cost(&bake.lamps);
        bake.progress = progress_places::chosen(&bake, next);
        Call::TreeBake(Box::new(bake), tree.clone())
    };
    match module {
        "rays" => vec![
            Call::TreeNearest { lists: lists.clone(), tree: tree.clone(), ray: down },
            Call::TreeTransmittance { hits: hits(&lists), lists, tree, ray: down },
        ],
        "sun" => vec![Call::TreeSun { grid: grid([2, 1, 1]), hits: hits(&lists), lists, tree, direction: [0.0, 0.0, 1.0], active: vec![1, 1], light: vec![0.5; 2], scratch: vec![0.25; 2] }],
        "bake" => vec![of_bake(0, 1), of_bake(2, 0)],
        _ => vec![],
    }
}

/// A call that is made for this number, where there is one.
fn put(out: &mut Vec<Item>, mut call: Call, number: Option<u32>, what: &str) {
    progress_places::choose(&mut call);
    if let Some(number) = number {
        meant(table::refusal(&call), number, what);
    }
    out.push(Item::One(call));
}

/// What C-20 refuses and what stands next to it.
pub fn bad(module: &str, seed: u64) -> Vec<Item> {
    let mut chance = Chance::new(seed ^ 0xBAD_C20);
    let c = &mut chance;
    let mut out = Vec::new();
    for (which, base) in bases(module).into_iter().enumerate() {
        put(&mut out, base.clone(), Some(0), "a base");
        let wrong = changes(&base, true);
        // each alone: all of them by the nearest hit, some by the others
        for (k, fault) in wrong.iter().enumerate() {
            let every = match (module, which) {
                ("rays", 0) => 1,
                ("sun", _) => 4,
                ("bake", 1) => 12,
                _ => 6,
            };
            if k % every == which {
                let number = fault.number;
                let mut call = base.clone();
                (fault.make)(&mut call);
                put(&mut out, call, number, &fault.name);
            }
        }
        let faults: Vec<&Change> = wrong.iter().filter(|fault| fault.number == Some(16)).collect();
        for _ in 0..3 {
            let mut call = base.clone();
            (c.pick(&faults).make)(&mut call);
            (c.pick(&faults).make)(&mut call);
            put(&mut out, call, None, "two faults of a tree");
        }
        // beside a fault of every other row
        let all = bad::changes(&base, true);
        let rows = [1, 2, 3, 4, 5, 6, 7, 19, 8, 9, 10, 13];
        let before = 8;
        for (at, row) in rows.into_iter().enumerate() {
            let fit: Vec<&Change> = all.iter().filter(|change| change.number == Some(row) && !change.name.contains("triangles") && !change.name.starts_with("lamps:")).collect();
            // the second call of a module takes its own rows and the last before 16
            if fit.is_empty() || which == 1 && row < 6 && row != 3 || which == 1 && module == "bake" && row < 8 {
                continue;
            }
            for both in 0..2 {
                let (other, fault) = (c.pick(&fit), c.pick(&faults));
                let mut call = base.clone();
                (other.make)(&mut call);
                if both == 0 {
                    put(&mut out, call, Some(row), &other.name);
                    continue;
                }
                (fault.make)(&mut call);
                put(&mut out, call, Some(if at < before { row } else { 16 }), &format!("{} and {}", other.name, fault.name));
            }
        }
        // hit scratch longer than it must be, and a tree whose triangles have moved by a step
        for place in [0, 9 * 3 + 4] {
            let mut call = base.clone();
            let moved = bad_points(&mut call);
            moved[place] = step(moved[place], if moved[place] < 0.0 { -1 } else { 1 });
            put(&mut out, call, Some(16), "a point a step outside");
        }
    }
    if module == "rays" {
        out.extend(bad_shapes(c));
        out.extend(bad_builds());
    }
    if module == "bake" {
        out.extend(bad_calls());
    }
    out
}

fn bad_points(call: &mut Call) -> &mut Vec<f32> {
    match call {
        Call::TreeNearest { lists, .. } | Call::TreeTransmittance { lists, .. } | Call::TreeSun { lists, .. } => &mut lists.points,
        Call::TreeBake(bake, _) => &mut bake.lists.points,
        _ => unreachable!("a call with a tree"),
    }
}

/// One box too deep, and trees of scenes where nothing is there or everything.
fn bad_shapes(c: &mut Chance) -> Vec<Item> {
    let mut out = Vec::new();
    let [down, _] = down_and_up();
    let mut nearest = |lists: &Lists, tree: Tree, number: u32, what: &str| put(&mut out, Call::TreeNearest { lists: lists.clone(), tree, ray: down }, Some(number), what);
    // 26 boxes one in another, in both orders, and one less
    let lists = at_one_place(DEEPEST + 2);
    let places: Vec<u32> = (0..DEEPEST as u32 + 2).collect();
    for (deep, levels, number) in [(DEEPEST, false, 0), (DEEPEST, true, 0), (DEEPEST + 1, false, 16), (DEEPEST + 1, true, 16)] {
        let style = Style { levels, ..Style::default() };
        nearest(&lists, laid(c, &lists.points, &chain(&places, deep, levels), style), number, "about the greatest depth");
    }
    // nothing is there
    let mut absent = Lists { kinds: vec![OPAQUE], numbers: numbers(0.5).to_vec(), uses: vec![0; 2], ..Lists::default() };
    absent.points = sheet(1.0, false, 0).map(|x| x * 1.0e-7).repeat(2);
    for lists in [&Lists::default(), &absent] {
        let base = Call::TreeNearest { lists: lists.clone(), tree: Tree::default(), ray: down };
        for fault in changes(&base, true) {
            let mut call = base.clone();
            (fault.make)(&mut call);
            put(&mut out, call, fault.number, &fault.name);
        }
    }
    let whole = |order: Vec<u32>| Tree { boxes: vec![-9.0, -9.0, -9.0, 9.0, 9.0, 9.0], nodes: vec![order.len() as u32, 0, 0], order };
    put(&mut out, Call::TreeNearest { lists: absent.clone(), tree: whole(vec![0]), ray: down }, Some(16), "an absent triangle alone");
    // one that is there: the empty tree, its box alone, its box twice
    let mut one = Lists::default();
    add(&mut one, q(false), OPAQUE, numbers(0.5));
    let own = padded(&one.points, 0);
    let leaf = |boxes: Vec<f32>, nodes: Vec<u32>| Tree { boxes, nodes, order: vec![0] };
    let trees = [
        (Tree::default(), 16, "the empty tree"),
        (Tree { order: vec![0], ..Tree::default() }, 16, "the empty tree and an order"),
        (leaf(own.to_vec(), vec![1, 0, 0]), 0, "its own box"),
        (leaf(own.to_vec(), vec![0, 0, 0]), 16, "a box that is its own halves"),
        (leaf(own.to_vec(), vec![0, 1, 1]), 16, "halves past the end"),
        (leaf([own, own].concat(), vec![0, 1, 1, 1, 0, 0]), 16, "one box both halves"),
        (leaf([own, own].concat(), vec![1, 0, 0, 1, 0, 0]), 16, "a second box that is no half"),
        (leaf([own, own, own].concat(), vec![0, 1, 2, 1, 0, 0, 1, 0, 0]), 16, "the triangle in both halves"),
        (leaf([own, own, own].concat(), vec![0, 1, 2, 1, 0, 0, 0, 1, 1]), 16, "a leaf that is a half three times"),
        (leaf([own, own, own].concat(), vec![0, 2, 1, 0, 2, 2, 0, 1, 1]), 16, "boxes in a ring"),
    ];
    for (tree, number, what) in trees {
        put(&mut out, Call::TreeNearest { lists: one.clone(), tree, ray: down }, Some(number), what);
    }
    out.extend(alone());
    out
}

/// Each condition broken and no other: every box holds everything, and all triangles that are there stand at one place.
fn alone() -> Vec<Item> {
    let mut out = Vec::new();
    // so many triangles, an absent one more where asked
    let mut tried = |count: usize, absent: bool, nodes: &[[u32; 3]], order: &[u32], number: u32, what: &str| {
        let mut lists = at_one_place(count);
        if absent {
            lists.points.extend([1.0; 9]);
            lists.uses.push(3);
        }
        let tree = Tree { boxes: [-9.0, -9.0, -9.0, 99.0, 99.0, 99.0].repeat(nodes.len()), nodes: nodes.concat(), order: order.to_vec() };
        let [down, _] = down_and_up();
        put(&mut out, Call::TreeTransmittance { hits: hits(&lists), lists, tree, ray: down }, Some(number), what);
    };
    let three = [0, 1, 2];
    tried(3, false, &[[0, 1, 2], [1, 0, 0], [0, 3, 4], [1, 1, 0], [1, 2, 0]], &three, 0, "three leaves");
    tried(3, false, &[[0, 2, 1], [0, 4, 3], [1, 0, 0], [1, 1, 0], [1, 2, 0]], &three, 0, "three leaves, right before left");
    tried(3, false, &[[0, 1, 2], [0, 3, 4], [0, 4, 5], [1, 0, 0], [1, 1, 0], [1, 2, 0]], &three, 16, "a leaf of two boxes");
    tried(3, false, &[[0, 1, 2], [0, 3, 3], [1, 0, 0], [2, 1, 0]], &three, 16, "a leaf that is both halves");
    tried(3, false, &[[2, 0, 0], [1, 2, 0]], &three, 16, "a leaf that is no half");
    tried(3, false, &[[0, 1, 3], [1, 0, 0], [1, 1, 0], [0, 2, 4], [1, 2, 0]], &three, 16, "a half before its box");
    tried(3, false, &[[1, 0, 0], [0, 2, 3], [0, 1, 4], [1, 1, 0], [1, 2, 0]], &three, 16, "two boxes that are halves of each other");
    tried(3, false, &[[2, 0, 0], [0, 1, 2], [1, 2, 0]], &three, 16, "a box that is its own half");
    tried(3, false, &[[0, 1, 2], [0, 0, 3], [2, 0, 0], [1, 2, 0]], &three, 16, "the first box a half");
    tried(2, true, &[[3, 0, 0]], &[0, 1, 0], 16, "a triangle twice in a leaf");
    tried(2, true, &[[0, 1, 2], [2, 0, 0], [1, 2, 0]], &[0, 1, 0], 16, "a triangle in two leaves");
    tried(2, false, &[[0, 1, 2], [2, 0, 0], [1, 1, 0]], &[0, 1], 16, "two leaves with one run");
    tried(2, false, &[[1, 0, 0]], &[0], 16, "a triangle in no leaf");
    tried(2, false, &[[1, 0, 0]], &[0, 1], 16, "a triangle in the order and in no leaf");
    tried(2, true, &[[3, 0, 0]], &[0, 1, 2], 16, "an absent triangle in a leaf");
    tried(2, true, &[[2, 0, 0]], &[0, 1, 2], 0, "an absent triangle outside every run");
    tried(2, true, &[[2, 1, 0]], &[2, 1, 0], 0, "the same before the run");
    tried(2, true, &[[3, 0, 0]], &[0, 1, 3], 16, "a place past the triangles in a leaf");
    tried(2, true, &[[2, 0, 0]], &[0, 1, 3], 0, "a place past the triangles outside every run");
    tried(2, true, &[[3, 0, 0]], &[0, 1], 16, "a run past the order");
    tried(2, false, &[[2, 0, 0]], &[0, 1, 0], 16, "an order longer than the triangles are many");
    tried(2, true, &[[0, 1, 2], [1, 0, 0], [1, 2, 0]], &[0, 2, 1], 0, "a gap between the runs");
    out
}

/// What the builder refuses, each list as short as it may be and one shorter, and two faults at once.
fn bad_builds() -> Vec<Item> {
    let mut out = Vec::new();
    let good: Vec<f32> = [sheet(1.0, false, 0), sheet(3.0, true, 0)].concat();
    let mut build = |points: &[f32], tree: &Tree, number: u32, what: &str| {
        let call = Call::BuildTree { points: points.to_vec(), tree: tree.clone() };
        meant(table::refusal(&call), number, what);
        out.push(Item::One(call));
    };
    let room = room_for(2, 0);
    build(&good, &room, 0, "lists as short as they may be");
    let mut wrong = good.clone();
    wrong[17] = step(4096.0, 1);
    for list in 0..3 {
        let mut short = room.clone();
        match list {
            0 => drop(short.boxes.pop()),
            1 => drop(short.nodes.pop()),
            _ => drop(short.order.pop()),
        }
        build(&good, &short, 3, "a list one short");
        build(&wrong, &short, 3, "a list one short and a bad point");
    }
    build(&good, &Tree::default(), 3, "empty lists");
    for length in [1, 8, 10, 17] {
        build(&good[..length], &room, 3, "points that are no triangles");
    }
    for (at, value) in [(0, f32::NAN), (8, f32::INFINITY), (9, f32::NEG_INFINITY), (17, step(4096.0, 1)), (3, step(-4096.0, -1))] {
        let mut points = good.clone();
        points[at] = value;
        build(&points, &room, 5, "a bad point");
    }
    let limits: Vec<f32> = good.iter().map(|x| if *x < 0.0 { -4096.0 } else { 4096.0 }).collect();
    build(&limits, &room, 0, "points at their bounds");
    // an absent triangle with a bad point is refused all the same
    build(&[f32::NAN; 9], &room, 5, "no number at all");
    let most: Vec<f32> = sheet(1.0, false, 0).map(|x| x * 1.0e-7).repeat(MOST_TRIANGLES + 1);
    build(&most, &room_for(MOST_TRIANGLES + 1, 0), 4, "one triangle too many");
    let mut worse = most.clone();
    worse[5] = f32::NAN;
    build(&worse, &room_for(MOST_TRIANGLES + 1, 0), 4, "one triangle too many and a bad point");
    build(&most, &room_for(MOST_TRIANGLES, 0), 3, "one triangle too many and lists too short");
    out
}

/// Bakes in parts with wrong records and other trees between the right ones.
fn bad_calls() -> Vec<Item> {
    let mut out = Vec::new();
    let mut bake = solid_places::halls().into_iter().nth(7).expect("a hall of four voxels");
    bake.volume.fill(0.25);
    let tree = trees::built(&bake.lists.points);
    let figures = tree_baked(&bake, &tree);
    let cost = table::cost(&bake.lamps);
    let n = bake.active.len() as u64;
    let mut now = bake.clone();
    let mut calls = Vec::new();
    for allowance in [cost, cost + 64, cost, cost] {
        let (least, most) = progress_places::least_and_most(&bake, now.progress.next);
        calls.push((Progress { rays: most + 1, ..now.progress }, allowance));
        calls.extend(least.checked_sub(1).map(|rays| (Progress { rays, ..now.progress }, allowance)));
        calls.push((now.progress, cost - 1));
        calls.push((Progress { next: n + 1, ..now.progress }, allowance));
        calls.push((now.progress, allowance));
        now.allowance = allowance;
        now.progress = bake_call(&mut now, &figures).0;
    }
    out.push(Item::TreeBakes { bake: Box::new(bake.clone()), tree: tree.clone(), calls: calls.clone() });
    // the same calls through a tree that is not accepted: every one is 16
    let mut other = tree;
    other.nodes[0] = other.nodes[0].wrapping_add(1);
    calls.truncate(4);
    out.push(Item::TreeBakes { bake: Box::new(bake), tree: other, calls });
    out
}

/// The bases of a seed through trees, with each number broken, as the other calls' are.
pub fn broken(module: &str, seed: u64, few: bool, several: usize) -> Vec<Item> {
    let mut chance = Chance::new(seed ^ 0xB20_C20);
    let c = &mut chance;
    let world = if seed % 2 == 0 { bad::base_world(seed) } else { of_each_kind(seed) };
    let mut out = Vec::new();
    for base in bad::bases(c, &world) {
        if items::module_of(&base) != module {
            continue;
        }
        let tree = if c.one_in(2) { trees::built(&world.lists.points) } else { any_tree(c, &world.lists.points) };
        if let Some(base) = base.through(&tree) {
            // a bake has thousands of numbers, and the other calls' are broken at every place
            let few = few || module == "bake";
            out.extend(bad::of(c, &base, few, several).into_iter().map(|bad| Item::One(bad.call)));
        }
    }
    out
}

/// A scene through a tree: rays at it and about what they meet, its sun pass, its bake in parts.
fn of_world(module: &str, c: &mut Chance, world: &World, tree: &Tree) -> Vec<Item> {
    let n = voxels(&world.grid);
    match module {
        "rays" => {
            let mut rays = Vec::new();
            for k in 0..6 {
                let ray = worlds::ray(c, world);
                rays.push(ray);
                if k % 3 == 0 {
                    rays.extend(worlds::rays_about(world, &ray));
                }
                rays.extend(beside_a_box(c, world));
            }
            vec![Item::TreeRays { lists: world.lists.clone(), tree: tree.clone(), hits: worlds::hits(c, &world.lists), asked: both_calls(&rays) }]
        }
        "sun" => {
            let direction = worlds::towards(world);
            let (light, scratch) = (vec![c.pick(&[f32::NAN, 0.5]); n], vec![c.pick(&[f32::INFINITY, 0.25]); n]);
            let hits = worlds::hits(c, &world.lists);
            vec![Item::One(Call::TreeSun { grid: world.grid, lists: world.lists.clone(), tree: tree.clone(), direction, active: world.active.clone(), light, scratch, hits })]
        }
        "bake" => {
            let light = worlds::light_list(c, n);
            let bake = worlds::bake(c, world, light);
            let cost = table::cost(&bake.lamps);
            let mut allowances: Vec<u64> = (0..c.from(1, 3)).map(|_| cost + c.below(2000) as u64).collect();
            allowances.extend([u64::MAX, cost]);
            vec![calls(&bake, tree, &allowances)]
        }
        _ => vec![],
    }
}

/// A ray from a face of a triangle's own box or a step beside it, towards that triangle or along the face.
fn beside_a_box(c: &mut Chance, world: &World) -> Option<Ray> {
    let count = world.lists.uses.len();
    if count == 0 {
        return None;
    }
    let place = c.below(count);
    let own = padded(&world.lists.points, place);
    let p = &world.lists.points[9 * place..9 * place + 9];
    let axis = c.below(3);
    let high = c.one_in(2);
    let face = own[axis + 3 * high as usize];
    let out = if high { 1 } else { -1 };
    let far = c.pick(&[0.5, 3.0, 20.0]);
    let mut origin = [0, 1, 2].map(|k| (p[k] + p[3 + k] + p[6 + k]) / 3.0 + c.between(-far, far));
    origin[axis] = c.pick(&[face, step(face, out), step(face, -out)]);
    let mut direction = [0, 1, 2].map(|k| (p[3 * c.below(3) + k] - origin[k]) / (2.0 * far));
    direction = direction.map(|x| x.clamp(-2.0, 2.0));
    direction[axis] = c.pick(&[0.0, -0.0, 1.0e-6, -1.0e-6, direction[axis]]);
    Some(Ray { origin, direction, shortest: c.pick(&[0.0, 0.0, 1.0e-4]), longest: f32::INFINITY })
}

/// For a seed its scene through the builder's tree, any tree or a chain as deep as may be, in turn; every fourth seed through all three. The builder over its
/// points as well.
pub fn seeded(module: &str, seed: u64) -> Vec<Item> {
    if !["rays", "sun", "bake"].contains(&module) {
        return vec![];
    }
    let mut chance = Chance::new(seed ^ 0xC20_5EED);
    let c = &mut chance;
    let world = worlds::world(seed);
    let points = &world.lists.points;
    let mut trees = vec![trees::built(points), any_tree(c, points), chained(c, points)];
    if seed % 4 != 0 || module == "bake" {
        trees = vec![trees.swap_remove((seed / 4 % 3) as usize)];
    }
    let mut out: Vec<Item> = trees.iter().flat_map(|tree| of_world(module, c, &world, tree)).collect();
    if module == "rays" {
        out.push(build(points.clone(), c.below(3)));
    }
    out
}

/// For a seed a call of its scene through a tree of which one thing is wrong.
pub fn refused(module: &str, seed: u64) -> Vec<Item> {
    if !["rays", "sun", "bake"].contains(&module) {
        return vec![];
    }
    let mut chance = Chance::new(seed ^ 0x16_C20);
    let c = &mut chance;
    let world = worlds::world(seed);
    let points = &world.lists.points;
    let n = voxels(&world.grid);
    let tree = match c.below(3) {
        0 => trees::built(points),
        1 => any_tree(c, points),
        _ => chained(c, points),
    };
    let base = match module {
        "rays" => Call::Transmittance { lists: world.lists.clone(), ray: worlds::ray(c, &world), hits: worlds::hits(c, &world.lists) },
        "sun" => Call::Sun { grid: world.grid, lists: world.lists.clone(), direction: worlds::towards(&world), active: world.active.clone(), light: vec![0.5; n], scratch: vec![0.25; n], hits: worlds::hits(c, &world.lists) },
        _ => Call::Bake(Box::new(worlds::bake(c, &world, vec![0.5; n]))),
    };
    let base = base.through(&tree).expect("a call that takes a tree");
    let mut out = Vec::new();
    let faults: Vec<Change> = changes(&base, true).into_iter().filter(|fault| fault.number == Some(16)).collect();
    for _ in 0..if module == "rays" { 3 } else { 1 } {
        let mut call = base.clone();
        (faults[c.below(faults.len())].make)(&mut call);
        out.push(Item::One(call));
    }
    // a chain one too deep
    let places = present(points);
    if module == "rays" && places.len() > DEEPEST + 1 {
        let deep = laid(c, points, &chain(&places, DEEPEST + 1, seed % 2 == 0), Style::default());
        out.push(Item::One(Call::TreeNearest { lists: world.lists.clone(), tree: deep, ray: worlds::ray(c, &world) }));
    }
    out
}
