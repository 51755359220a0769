//! What document 02's C-19 asks for: panels among the materials of seeded scenes, from a stream of numbers of their own; sheets met from both
//! sides, back faces before front faces, triangles of every kind at one distance, det about its limit, a panel's transmission, panels between
//! voxels and sun, sky and lamps; and the kinds that are refused, each beside a fault of every other row.
//!
//! The kind of a panel is written here anew, so that what is asked does not move with what is answered.
use crate::bad::{self, meant};
use crate::calls::{Bake, Call, Grid, Lists, Progress, Ray, RayCall};
use crate::chance::Chance;
use crate::items::{self, Item};
use crate::lamp_places::{cross, dot, met, sub, unit};
use crate::progress_places;
use crate::table;
use crate::word_places::{add, calls, grid, hits, only};
use crate::worlds::{step, voxels, World, FAMILIES};

const OPAQUE: u8 = 0;
const TRANSLUCENT: u8 = 1;
const PANEL: u8 = 2;

/// Whether a seed's scene has panels: every third, each family in turn, with lamps and without.
pub fn in_seed(seed: u64) -> bool {
    let families = FAMILIES.len() as u64;
    (seed / (3 * families) + seed % families) % 3 == 1
}

/// Makes panels of some of a seeded scene's materials, one at least; nothing else of the scene changes.
pub fn put_up(seed: u64, lists: &mut Lists) {
    if !in_seed(seed) || lists.kinds.is_empty() {
        return;
    }
    let mut c = Chance::new(seed ^ 0xC19);
    let one = c.below(lists.kinds.len());
    for (m, kind) in lists.kinds.iter_mut().enumerate() {
        if m == one || c.one_in(3) {
            *kind = PANEL;
        }
    }
}

/// A large triangle across z, its points in one of three orders. Its front looks up; turned about, down. Its numbers are powers of two, so
/// that a distance along z comes out the same in every order.
pub fn sheet(z: f32, turned: bool, order: usize) -> [f32; 9] {
    let p = [[-4.0, -4.0, z], [12.0, -4.0, z], [-4.0, 12.0, z]];
    let way = if turned { [0, 2, 1] } else { [0, 1, 2] };
    let mut out = [0.0; 9];
    for k in 0..3 {
        out[3 * k..3 * k + 3].copy_from_slice(&p[way[(k + order) % 3]]);
    }
    out
}

fn numbers(through: f32) -> [f32; 7] {
    [0.5, 0.25, 0.75, 0.0, 0.0, 0.0, through]
}

/// Sheets of these kinds, heights and ways round, each with a material of its own.
fn sheets(all: &[(u8, f32, bool)]) -> Lists {
    let mut lists = Lists::default();
    for (k, (kind, z, turned)) in all.iter().cloned().enumerate() {
        add(&mut lists, sheet(z, turned, k), kind, numbers([0.5, 0.75, 0.625][k % 3]));
    }
    lists
}

pub fn along(origin: [f32; 3], z: f32) -> Ray {
    Ray { origin, direction: [0.0, 0.0, z], shortest: 0.0, longest: f32::INFINITY }
}

/// Down from 16 and up from −16.
pub fn down_and_up() -> [Ray; 2] {
    [along([0.5, 0.25, 16.0], -1.0), along([0.5, 0.25, -16.0], 1.0)]
}

/// Each ray's nearest hit and its transmittance.
fn asked(lists: Lists, rays: &[Ray]) -> Item {
    let hits = hits(&lists);
    Item::Rays { lists, hits, asked: rays.iter().flat_map(|ray| [(RayCall::Nearest, *ray), (RayCall::Transmittance, *ray)]).collect() }
}

/// Magnitudes of det at 1e-8, next to it, and tiny.
fn dets() -> [f32; 7] {
    let limit = 1.0e-8f32;
    assert!(limit.to_bits() == 0x322b_cc77);
    [limit.next_down(), limit, limit.next_up(), 1.0e-20, f32::MIN_POSITIVE, 1.0e-40, f32::from_bits(1)]
}

/// Document 01's triangle Q, or Q turned about.
pub fn q(turned: bool) -> [f32; 9] {
    if turned {
        [0.0, 0.0, 0.0, 0.0, 1.0, 0.0, 1.0, 0.0, 0.0]
    } else {
        [0.0, 0.0, 0.0, 1.0, 0.0, 0.0, 0.0, 1.0, 0.0]
    }
}

/// Rays at Q from above and below whose det is each of `dets`, of either sign.
pub fn at_the_limit() -> Vec<Ray> {
    dets().into_iter().flat_map(|d| [1.0, -1.0].map(|side| along([0.25, 0.25, side], -side * d))).collect()
}

/// Rays about a sheet at z = 0: from both sides, slantwise, along it, at its corner and its edges, and with bounds at the distance and one
/// step beside it.
pub fn about_a_sheet() -> Vec<Ray> {
    let mut out = Vec::new();
    for side in [1.0f32, -1.0] {
        let straight = along([0.5, 0.25, 2.0 * side], -side);
        out.push(straight);
        out.push(Ray { direction: [0.3, -0.7, -0.2 * side], ..straight });
        out.push(Ray { direction: [1.0, 0.5, 0.0], ..straight });
        out.push(Ray { direction: [1.0, 0.5, -1.0e-9 * side], ..straight });
        for [x, y] in [[-4.0, -4.0], [-4.0, 3.0], [4.0, 4.0]] {
            out.push(Ray { origin: [x, y, 2.0 * side], ..straight });
        }
        // on the sheet itself, and away from it
        out.push(Ray { origin: [0.5, 0.25, 0.0], ..straight });
        out.push(Ray { direction: [0.0, 0.0, side], ..straight });
        for near in [step(2.0, -1), 2.0, step(2.0, 1)] {
            out.push(Ray { shortest: near, ..straight });
            out.push(Ray { longest: near, ..straight });
        }
    }
    out
}

/// Large triangles met so nearly along their plane that det has the one sign and the normal's product with the direction the other, as
/// they are computed: det decides. Of each sign some.
fn grazing() -> Vec<([f32; 9], Ray)> {
    let mut chance = Chance::new(0xC19_64A2);
    let c = &mut chance;
    let mut out = Vec::new();
    while out.len() < 8 {
        let p = [0, 1, 2].map(|_| [0, 1, 2].map(|_| c.between(-4000.0, 4000.0)));
        let (e1, e2) = (sub(p[1], p[0]), sub(p[2], p[0]));
        let (a, b, far) = (c.between(-1.0, 1.0), c.between(-1.0, 1.0), c.between(0.0, 3000.0));
        let direction = unit([0, 1, 2].map(|i| e1[i] * a + e2[i] * b));
        let origin = [0, 1, 2].map(|i| p[0][i] + e1[i] * 0.25 + e2[i] * 0.5 - direction[i] * far);
        let det = dot(e1, cross(direction, e2));
        let normal = unit(cross(e1, e2));
        let wanted = if out.len() % 2 == 0 { det > 0.0 && dot(direction, normal) > 0.0 } else { det < 0.0 && dot(direction, normal) < 0.0 };
        if wanted && met(p, origin, direction, 0.0, f32::INFINITY).is_some() {
            let mut points = [0.0; 9];
            points.iter_mut().zip(p.iter().flatten()).for_each(|(to, from)| *to = *from);
            out.push((points, Ray { origin, direction, shortest: 0.0, longest: f32::INFINITY }));
        }
    }
    out
}

/// One triangle by itself: every order of its points, from both sides.
fn meets() -> Vec<Item> {
    let mut out = Vec::new();
    let mut one = |points: [f32; 9], ray: Ray| out.push(Item::One(Call::Triangle { points, ray }));
    for turned in [false, true] {
        for order in 0..3 {
            for ray in down_and_up() {
                one(sheet(1.0, turned, order), ray);
                one(sheet(1.0, turned, order), Ray { direction: [0.125, -0.0625, ray.direction[2] * 0.75], ..ray });
            }
        }
        for ray in about_a_sheet().into_iter().skip(turned as usize).step_by(2) {
            one(sheet(0.0, turned, 0), ray);
        }
        for ray in at_the_limit() {
            one(q(turned), ray);
        }
        // document 01's figures, and the same from below
        for side in [1.0, -1.0] {
            for origin in [[0.25, 0.25, side], [0.5, 0.5, side], [0.5, 0.75, side], [0.25, 0.25, -side]] {
                one(q(turned), along(origin, -side));
            }
        }
        // too thin to be there, whatever its side
        one(q(turned).map(|x| x * 1.0e-6), along([0.0, 0.0, 1.0], -1.0));
    }
    grazing().into_iter().for_each(|(points, ray)| one(points, ray));
    out
}

/// Every order of a list.
pub fn orders<T: Copy>(list: &[T]) -> Vec<Vec<T>> {
    if list.is_empty() {
        return vec![vec![]];
    }
    (0..list.len())
        .flat_map(|k| {
            let mut rest = list.to_vec();
            let first = rest.remove(k);
            orders(&rest).into_iter().map(move |mut all| {
                all.insert(0, first);
                all
            })
        })
        .collect()
}

fn made_rays() -> Vec<Item> {
    let mut out = meets();
    // the same sheet from both sides, of each kind
    for turned in [false, true] {
        for kind in [OPAQUE, TRANSLUCENT] {
            out.push(asked(sheets(&[(kind, 0.0, turned)]), &down_and_up()));
        }
        out.push(asked(sheets(&[(PANEL, 0.0, turned)]), &about_a_sheet().into_iter().step_by(1 + turned as usize).collect::<Vec<_>>()));
    }
    for turned in [false, true] {
        let mut lists = Lists::default();
        add(&mut lists, q(turned), PANEL, numbers(0.5));
        out.push(asked(lists, &at_the_limit()));
    }
    for (points, ray) in grazing() {
        let mut lists = Lists::default();
        add(&mut lists, points, PANEL, numbers(0.5));
        out.push(asked(lists, &[ray]));
    }
    out.extend(back_before_front());
    out.extend(at_one_distance());
    out.extend(never_read());
    out.extend(many_sheets());
    let mut c = Chance::new(0xC19_57AC);
    out.extend((0..4).map(|_| stack(&mut c)));
    out
}

/// A back face before a front face, of the same material and of others, in the list before it and after it; and two backs before and behind.
fn back_before_front() -> Vec<Item> {
    let mut out = Vec::new();
    let [down, up] = down_and_up();
    // from above the back is 13 away and the other 15; from below the front of the first 19, and the other 17
    let rays = [down, Ray { longest: 13.0, ..down }, Ray { shortest: 13.5, ..down }, up, Ray { shortest: 17.5, ..up }];
    let back = (PANEL, 3.0, true);
    for other in [(OPAQUE, 1.0, false), (TRANSLUCENT, 1.0, true), (PANEL, 1.0, false), (PANEL, 1.0, true)] {
        for all in orders(&[back, other]) {
            let lists = sheets(&all);
            out.push(asked(lists.clone(), &rays));
            if other.0 == PANEL {
                let mut same = lists;
                same.uses.fill(0);
                same.kinds.truncate(1);
                same.numbers.truncate(7);
                out.push(asked(same, &rays));
            }
        }
    }
    let deep = [(PANEL, 5.0, true), (PANEL, 3.0, true), (PANEL, 1.0, false), (TRANSLUCENT, -1.0, true), (PANEL, -3.0, true), (OPAQUE, -5.0, false)];
    let mut turned = deep;
    turned.reverse();
    for all in [deep, turned] {
        out.push(asked(sheets(&all), &rays));
    }
    out
}

/// Triangles of every kind at one place, in every order of the list, with the panel either way round; of four that are both, some orders.
fn at_one_distance() -> Vec<Item> {
    let mut out = Vec::new();
    let mut every = |all: &[(u8, bool)], nth: usize| {
        for order in orders(all).into_iter().step_by(nth) {
            let lists = sheets(&order.iter().map(|(kind, turned)| (*kind, 2.0, *turned)).collect::<Vec<_>>());
            out.push(asked(lists, &down_and_up()));
        }
    };
    for turned in [false, true] {
        every(&[(OPAQUE, false), (TRANSLUCENT, false), (PANEL, turned)], 1);
        every(&[(OPAQUE, false), (PANEL, turned)], 1);
        every(&[(TRANSLUCENT, true), (PANEL, turned)], 1);
        every(&[(PANEL, false), (PANEL, turned)], 2 - turned as usize);
    }
    every(&[(OPAQUE, true), (TRANSLUCENT, false), (PANEL, false), (PANEL, true)], 5);
    out
}

/// A panel's transmission is tested and never read: whatever it is, the front lets nothing through and the back everything.
fn never_read() -> Vec<Item> {
    let mut out = Vec::new();
    for through in [0.0, 0.5, 1.0, 0.0001] {
        for turned in [false, true] {
            let mut lists = sheets(&[(TRANSLUCENT, 4.0, false), (PANEL, 2.0, turned), (TRANSLUCENT, 0.0, true)]);
            lists.numbers[13] = through;
            out.push(asked(lists, &down_and_up()));
        }
        let mut alone = sheets(&[(PANEL, 2.0, false)]);
        alone.numbers[6] = through;
        out.push(asked(alone, &down_and_up()));
    }
    out
}

/// Thirteen and fourteen sheets of .5 with a panel before, among and behind them, first or last in the list.
fn many_sheets() -> Vec<Item> {
    let mut out = Vec::new();
    for count in [13, 14] {
        for (which, at) in [-0.5, 6.5, 13.5, 7.0].into_iter().enumerate() {
            let mut lists = Lists { kinds: vec![TRANSLUCENT, PANEL], ..Lists::default() };
            lists.numbers.extend(numbers(0.5));
            lists.numbers.extend(numbers(0.25));
            let mut put = |z: f32, turned: bool, material: u32| {
                lists.points.extend(sheet(z, turned, 0));
                lists.uses.push(material);
            };
            let first = which % 2 == 0;
            if first {
                put(at, true, 1);
            }
            (0..count).for_each(|k| put(k as f32, k % 2 == 0, 0));
            if !first {
                put(at, true, 1);
            }
            out.push(asked(lists, &down_and_up()));
        }
    }
    out
}

/// Sheets of every kind in no order of place, some at one distance and some turned about.
fn stack(c: &mut Chance) -> Item {
    let count = c.from(2, 9);
    let tied = c.from(1, 3);
    let all: Vec<(u8, f32, bool)> = (0..count).map(|k| (c.pick(&[OPAQUE, TRANSLUCENT, TRANSLUCENT, PANEL, PANEL]), (k / tied) as f32, c.one_in(2))).collect();
    let mut mixed = all;
    for k in 0..count {
        let other = c.below(count);
        mixed.swap(k, other);
    }
    let mut rays = down_and_up().to_vec();
    for _ in 0..2 {
        let up = if c.one_in(2) { 1.0 } else { -1.0 };
        let z = c.from(0, 2 * count) as f32 * 0.5;
        let origin = [c.between(0.0, 1.0), c.between(0.0, 1.0), z];
        let direction = [c.between(-0.3, 0.3), c.between(-0.3, 0.3), up];
        rays.push(Ray { origin, direction, shortest: c.pick(&[0.0, 0.0, 0.5, 1.0]), longest: c.pick(&[f32::INFINITY, 2.0, 3.5]) });
    }
    asked(sheets(&mixed), &rays)
}

fn sun_call(lists: Lists, direction: [f32; 3]) -> Item {
    let grid = grid([3, 2, 1]);
    let n = voxels(&grid);
    let hits = hits(&lists);
    Item::One(Call::Sun { grid, lists, direction, active: vec![1, 1, 1, 0, 1, 1], light: vec![f32::NAN; n], scratch: vec![0.25; n], hits })
}

/// A half of a level that the grid's rays to the sun cross, left or right of x.
pub fn half(z: f32, x: f32, left: bool, turned: bool) -> [f32; 9] {
    let far = if left { -300.0 } else { 300.0 };
    let points = [[x, -300.0, z], [x, 300.0, z], [x + far, 0.0, z]];
    // the front looks up
    let way = if left != turned { [0, 1, 2] } else { [0, 2, 1] };
    let mut out = [0.0; 9];
    for k in 0..3 {
        out[3 * k..3 * k + 3].copy_from_slice(&points[way[k]]);
    }
    out
}

fn made_sun() -> Vec<Item> {
    let mut out = Vec::new();
    for (up, slant) in [(1.0, 0.0), (-1.0, 0.0), (1.0, 0.3), (-1.0, -0.2)] {
        let z = 20.0 * up;
        let direction = [slant, -slant, up];
        for turned in [false, true] {
            // over every voxel, over some, and either way round beside one another
            let mut whole = Lists::default();
            add(&mut whole, half(z, -100.0, false, turned), PANEL, numbers(0.5));
            out.push(sun_call(whole.clone(), direction));
            let x = 1.25 + slant * 20.0;
            let mut left = Lists::default();
            add(&mut left, half(z, x, true, turned), PANEL, numbers(1.0));
            out.push(sun_call(left.clone(), direction));
            add(&mut left, half(z, x, false, !turned), PANEL, numbers(0.0));
            out.push(sun_call(left.clone(), direction));
            left.uses.fill(0);
            out.push(sun_call(left, direction));
            // a sheet that lets light through before the panel, and one behind it
            let mut dimmed = Lists::default();
            add(&mut dimmed, half(z - up, x, true, false), TRANSLUCENT, numbers(0.75));
            add(&mut dimmed, half(z, -100.0, false, turned), PANEL, numbers(0.5));
            add(&mut dimmed, half(z + up, -100.0, false, true), TRANSLUCENT, numbers(0.625));
            out.push(sun_call(dimmed, direction));
        }
    }
    out
}

/// A box about the middle. Seen from inside, its walls are fronts where `inward`.
pub fn walls(lists: &mut Lists, half: f32, inward: bool, open: Option<(usize, f32)>, material: u32) {
    for axis in 0..3 {
        for s in [-1.0, 1.0] {
            if open == Some((axis, s)) {
                continue;
            }
            let at = |a: f32, b: f32| {
                let mut p = [0.0; 3];
                p[axis] = s * half;
                p[(axis + 1) % 3] = a * half;
                p[(axis + 2) % 3] = b * half;
                p
            };
            // this way round it looks along the axis
            for mut p in [[at(-1.0, -1.0), at(1.0, -1.0), at(1.0, 1.0)], [at(-1.0, -1.0), at(1.0, 1.0), at(-1.0, 1.0)]] {
                if (s > 0.0) == inward {
                    p.swap(1, 2);
                }
                lists.points.extend(p.iter().flatten());
                lists.uses.push(material);
            }
        }
    }
}

/// A level across a room.
pub fn level(lists: &mut Lists, z: f32, turned: bool, material: u32) {
    let points = sheet(z, turned, 0);
    lists.points.extend(points.iter().enumerate().map(|(i, x)| if i % 3 == 2 { *x } else { 8.0 * x }));
    lists.uses.push(material);
}

/// One opaque material, a translucent one, and panels of three transmissions, the last of which glows.
fn palette() -> Lists {
    let mut lists = Lists { kinds: vec![OPAQUE, TRANSLUCENT, PANEL, PANEL, PANEL], ..Lists::default() };
    for m in [[0.8, 0.6, 0.7, 0.0, 0.0, 0.0, 0.5], [0.3, 0.5, 0.4, 0.0, 0.0, 0.0, 0.6], [0.7, 0.9, 0.5, 0.0, 0.0, 0.0, 0.5]] {
        lists.numbers.extend(m);
    }
    for m in [[0.4, 0.3, 0.9, 0.0, 0.0, 0.0, 1.0], [0.5, 0.5, 0.2, 0.25, 0.125, 0.5, 0.0]] {
        lists.numbers.extend(m);
    }
    lists
}

/// Rooms with panels, and lamps on both sides of them.
pub fn rooms() -> Vec<Bake> {
    let mut out = Vec::new();
    let mut room = |wide: bool, lamps: &[[f32; 3]], put: &dyn Fn(&mut Lists)| {
        let mut lists = palette();
        put(&mut lists);
        let grid = Grid { axes: [1 + wide as u64, 1, 1], corners: [-1.0, -1.0, -1.0, 1.0, 1.0, 1.0] };
        let n = voxels(&grid);
        let lamps = lamps.iter().enumerate().flat_map(|(k, p)| [p[0], p[1], p[2], 3.0 + k as f32, 2.0, 4.0 - k as f32]).collect();
        out.push(Bake {
            grid,
            hits: hits(&lists),
            lists,
            sunlight: [0.25, 0.125, 1.0, 2.0, 1.5, 1.0],
            ambient: [0.5, 0.25, 0.75, 0.125, -0.0, 0.25, 0.0, 0.5, -0.125, 0.25, 0.0, 0.125],
            sky: (0..1728).map(|i| [0.25, 0.5, 0.75][i % 3]).collect(),
            lamps,
            active: vec![1; n],
            light: vec![0.5; n],
            volume: vec![f32::NAN; 16 * n],
            scratch: vec![f32::INFINITY; 16 * n],
            progress: Progress::default(),
            allowance: u64::MAX,
        });
    };
    let (inside, beside, above) = ([0.4, 0.6, 0.8], [0.5, -3.0, 0.25], [-0.5, 0.75, 5.0]);
    // walls that look inward, outward, and outward within opaque ones that stand open to the sun, or inward about translucent ones
    room(false, &[inside, beside], &|lists| walls(lists, 2.25, true, None, 2));
    room(false, &[inside, beside], &|lists| walls(lists, 2.25, false, None, 2));
    room(false, &[inside, beside, above], &|lists| {
        walls(lists, 2.25, false, None, 3);
        walls(lists, 4.0, true, Some((2, 1.0)), 0);
    });
    room(false, &[inside, beside], &|lists| {
        walls(lists, 4.0, true, Some((0, 1.0)), 4);
        walls(lists, 2.25, true, None, 1);
    });
    // a floor, and above it a panel that looks down or up, with the sun and a lamp beyond it
    for turned in [false, true] {
        room(false, &[[0.5, 0.25, 1.5], above], &|lists| {
            level(lists, -2.0, false, 0);
            level(lists, 3.0, turned, 2);
        });
        // and a sheet that lets light through above that, with a wall of panels that look one way
        room(true, &[[0.5, 0.25, 1.5], above, beside], &|lists| {
            level(lists, 4.0, false, 1);
            level(lists, 3.0, turned, 3);
            level(lists, -2.0, !turned, 0);
            lists.points.extend([-20.0, -2.5, -20.0, 60.0, -2.5, -20.0, -20.0, -2.5, 60.0]);
            lists.uses.push(4);
        });
    }
    // walls of any kind, either way round
    let mut chance = Chance::new(0xC19_4003);
    for _ in 0..2 {
        let picks: Vec<(u32, bool)> = (0..24).map(|_| (chance.below(5) as u32, chance.one_in(2))).collect();
        room(false, &[inside, beside, above], &|lists| {
            walls(lists, 2.25, true, None, 2);
            walls(lists, 4.0, true, Some((2, 1.0)), 0);
            for t in 0..lists.uses.len() {
                let (material, turned) = picks[t];
                lists.uses[t] = material;
                if turned {
                    for i in 0..3 {
                        lists.points.swap(9 * t + 3 + i, 9 * t + 6 + i);
                    }
                }
            }
        });
    }
    out
}

/// The records of panels, inside the limits: those made for them, then some seeded scenes that have panels.
pub fn made(module: &str) -> Vec<Item> {
    let (mut out, seeds): (Vec<Item>, &[u64]) = match module {
        "rays" => (made_rays(), &[10]),
        "sun" => (made_sun(), &[10, 19, 30, 69, 89, 128]),
        "bake" => {
            let mut out = Vec::new();
            for bake in rooms() {
                let cost = table::cost(&bake.lamps);
                let two = bake.active.len() == 2;
                out.push(calls(&bake, if two { &[1000, 1000, 1000] } else { &[u64::MAX] }));
                meant((cost <= 1000) as u32, 1, "an allowance of 1000");
            }
            (out, &[19, 30, 89])
        }
        "fired" => {
            let one = |mut bake: Bake| {
                let n = bake.active.len();
                bake.active = only(n, n - 1);
                Item::Fired(Box::new(bake))
            };
            (rooms().into_iter().map(one).collect(), &[19, 30])
        }
        _ => (vec![], &[]),
    };
    for seed in seeds {
        meant(in_seed(*seed) as u32, 1, "a seed with panels");
        out.extend(items::good(module, *seed));
    }
    out
}

/// For a seed, sheets of every kind one behind another, by rays and by the sun.
pub fn seeded(module: &str, seed: u64) -> Vec<Item> {
    let mut chance = Chance::new(seed ^ 0xC19_5EED);
    let c = &mut chance;
    match module {
        "rays" => vec![stack(c)],
        "sun" => {
            let up = c.pick(&[1.0, -1.0]);
            let direction = [c.between(-0.3, 0.3), c.between(-0.3, 0.3), up];
            let mut lists = Lists::default();
            for k in 0..c.from(1, 5) {
                let z = up * (20.0 + (k / c.from(1, 2)) as f32);
                let x = 1.5 + direction[0] * 20.0 + c.between(-1.5, 1.5);
                let kind = c.pick(&[OPAQUE, TRANSLUCENT, TRANSLUCENT, PANEL, PANEL, PANEL]);
                add(&mut lists, half(z, x, c.one_in(2), c.one_in(2)), kind, numbers(c.between(0.2, 1.0)));
            }
            vec![sun_call(lists, direction)]
        }
        _ => vec![],
    }
}

/// A small world with one material of each kind, all of them used.
pub fn of_each_kind(seed: u64) -> World {
    let mut world = bad::base_world(seed);
    world.lists.kinds = vec![OPAQUE, TRANSLUCENT, PANEL];
    world.lists.numbers = [0.5, 0.75, 0.25].into_iter().flat_map(numbers).collect();
    let points = world.lists.points.clone();
    world.lists.points.extend(points);
    world.lists.points.truncate(27);
    world.lists.uses = vec![0, 1, 2];
    world
}

pub fn lists_of(call: &mut Call) -> Option<&mut Lists> {
    match call {
        Call::Nearest { lists, .. } | Call::Transmittance { lists, .. } | Call::Sun { lists, .. } => Some(lists),
        Call::SolidTransmittance { lists, .. } | Call::SolidSun { lists, .. } => Some(lists),
        Call::Bake(bake) | Call::SolidBake(bake) => Some(&mut bake.lists),
        _ => None,
    }
}

/// A call with a kind at a place of its list, if the list goes so far.
pub fn with_kind(call: &Call, place: usize, kind: u8) -> Call {
    let mut call = call.clone();
    lists_of(&mut call).expect("lists").kinds.get_mut(place).into_iter().for_each(|k| *k = kind);
    call
}

/// What C-19 refuses and what stands next to it: every kind at every place of the list, alone and beside a fault of each other row, and a
/// panel's numbers at their bounds.
pub fn bad(module: &str, seed: u64) -> Vec<Item> {
    if !["rays", "sun", "bake"].contains(&module) {
        return vec![];
    }
    let mut chance = Chance::new(seed ^ 0xBAD_C19);
    let c = &mut chance;
    let mut out = Vec::new();
    let mut put = |mut call: Call, number: u32, what: &str| {
        progress_places::choose(&mut call);
        meant(table::refusal(&call), number, what);
        out.push(Item::One(call));
    };
    let world = of_each_kind(seed);
    for base in bad::bases(c, &world) {
        if items::module_of(&base) != module || lists_of(&mut base.clone()).is_none() {
            continue;
        }
        let lamped = matches!(&base, Call::Bake(bake) if !bake.lamps.is_empty());
        let from_the_middle = matches!(&base, Call::Bake(bake) if bake.progress.next > 0);
        // a bake's records are long: the first is broken by itself, the one that goes on beside the other rows, the one with lamps beside row 19
        let bake = matches!(base, Call::Bake(_));
        if !bake || !from_the_middle {
            put(base.clone(), 0, "a base");
            for place in 0..3 {
                for kind in [3, 4, 255, [130, 128, 5][place]] {
                    put(with_kind(&base, place, kind), 6, &format!("kind {kind} at {place}"));
                }
                put(with_kind(&base, place, PANEL), 0, "a panel more");
            }
            for kind in [3, 255] {
                let mut unused = with_kind(&base, 1, kind);
                lists_of(&mut unused).expect("lists").uses.fill(2);
                put(unused, 6, "a bad kind that no triangle uses");
            }
            let mut panels = base.clone();
            lists_of(&mut panels).expect("lists").kinds.fill(PANEL);
            put(panels, 0, "panels alone");
            let mut number = |at: usize, x: f32, number: u32| {
                let mut call = base.clone();
                lists_of(&mut call).expect("lists").numbers[14 + at] = x;
                put(call, number, &format!("a panel's number {at} := {x:e}"));
            };
            for (at, x, row) in [(6, step(1.0, 1), 6), (6, -f32::from_bits(1), 6), (6, f32::NAN, 6), (6, 0.0, 0), (6, 1.0, 0), (5, step(65536.0, 1), 6)] {
                number(at, x, row);
            }
        }
        if bake && !from_the_middle {
            continue;
        }
        let all = bad::changes(&base, true);
        let rows = [1, 2, 3, 4, 5, 6, 7, 8, 19, 9, 10, 13];
        let six = 5;
        for (at, row) in rows.into_iter().enumerate() {
            let plain = |change: &&bad::Change| !change.name.contains("triangles") && !change.name.starts_with("lamps:");
            let fit: Vec<&bad::Change> = all.iter().filter(|change| change.number == Some(row)).filter(plain).collect();
            if row == 6 || fit.is_empty() || lamped && row != 19 {
                continue;
            }
            for place in 0..3 {
                let kind = [3, 4, 255][(place + at) % 3];
                let fault = fit[c.below(fit.len())];
                let mut call = base.clone();
                (fault.make)(&mut call);
                put(with_kind(&call, place, kind), if at < six { row } else { 6 }, &format!("{} and kind {kind} at {place}", fault.name));
                if place == 0 {
                    put(with_kind(&call, place, PANEL), row, &format!("{} and a panel at {place}", fault.name));
                }
            }
        }
    }
    out
}
