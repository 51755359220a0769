//! What document 02's C-22 asks for: rays, suns and bakes among solid walls alone, by both engines, and each kind that the second one refuses, in short
//! lists and long ones, at their ends and between, used and not, alone and beside a fault of every other row. For a seed its own scene, or the same
//! with solid walls alone.
//!
//! All is made as the solid call takes it. What has no other kind in its list is then recorded as the other engine's call, lent as much hit scratch as it
//! needs, which the programs put through both (`through_both` in `records.rs`). Some of that stands once more as the solid call's own, with empty hit
//! lists: it needs none.
//!
//! The solid kind is written here anew, so that what is asked does not move with what is answered.
use crate::bad::{self, lamps_to, meant};
use crate::calls::{Bake, Call, Grid, Lists, Progress, Ray, RayCall, Scratch};
use crate::chance::Chance;
use crate::items::{self, Item};
use crate::panel_places::{about_a_sheet, along, at_the_limit, down_and_up, half, level, lists_of, of_each_kind, orders, q, sheet, walls, with_kind};
use crate::progress_places::{self, above, about, handed_on};
use crate::table;
use crate::word_places::{add, calls, grid, hits, only, room};
use crate::worlds::{self, step, voxels, World};

const SOLID: u8 = 0;
/// Translucent, a panel, the first that every call refuses, and the last.
const OTHERS: [u8; 4] = [1, 2, 3, 255];
/// Materials in a list.
const SIZES: [usize; 6] = [1, 2, 3, 8, 255, 256];
const MOST_TRIANGLES: usize = 4096;

/// A wall's numbers; no ray reads what it lets through.
fn numbers(through: f32) -> [f32; 7] {
    [0.5, 0.25, 0.75, 0.0, 0.0, 0.0, through]
}

/// Walls across z, each with a material of its own.
fn walls_at(heights: &[f32]) -> Lists {
    let mut lists = Lists::default();
    for (k, z) in heights.iter().enumerate() {
        add(&mut lists, sheet(*z, k % 2 == 1, k), SOLID, numbers([0.5, 1.0, 0.0, 0.0001][k % 4]));
    }
    lists
}

/// So many materials, all solid, and no triangle.
fn materials(count: usize) -> Lists {
    Lists { kinds: vec![SOLID; count], numbers: (0..count).flat_map(|_| numbers(0.5)).collect(), ..Lists::default() }
}

/// As many triangles as there may be: small ones far aside, and a wall at the last place.
fn most_triangles() -> Lists {
    let mut lists = materials(1);
    for _ in 1..MOST_TRIANGLES {
        lists.points.extend([200.0, 200.0, 8.0, 201.0, 200.0, 8.0, 200.0, 201.0, 8.0]);
    }
    lists.points.extend(sheet(20.0, true, 0).map(|x| if x.abs() == 20.0 { x } else { 8.0 * x }));
    lists.uses = vec![0; MOST_TRIANGLES];
    lists
}

fn all_solid(lists: &Lists) -> bool {
    lists.kinds.iter().all(|kind| *kind == SOLID)
}

/// As much hit scratch as the other engine needs for these lists, with something in it.
fn scratch(lists: &Lists) -> Scratch {
    let n = lists.uses.len();
    Scratch { distances: (0..n).map(|k| [0.5, f32::NAN, -7.5][k % 3]).collect(), places: (0..n).map(|k| [99, 0, u64::MAX, 7, 1, 1 << 40, 3, 2][k % 8]).collect() }
}

/// What has no kind but the solid one in its list, refused or not, as the other engine's call; all else as it is, and rays that are asked by more than
/// the solid call too.
fn through_both(item: Item) -> Item {
    match item {
        Item::One(Call::SolidTransmittance { lists, ray }) if all_solid(&lists) => Item::One(Call::Transmittance { hits: scratch(&lists), lists, ray }),
        Item::One(Call::SolidSun { grid, lists, direction, active, light, scratch: blurred }) if all_solid(&lists) => {
            Item::One(Call::Sun { grid, hits: scratch(&lists), lists, direction, active, light, scratch: blurred })
        }
        Item::One(Call::SolidBake(bake)) if all_solid(&bake.lists) => Item::One(Call::Bake(Box::new(Bake { hits: scratch(&bake.lists), ..*bake }))),
        Item::SolidBakes { bake, calls } if all_solid(&bake.lists) => Item::Bakes { bake: Box::new(Bake { hits: scratch(&bake.lists), ..*bake }), calls },
        Item::Rays { lists, asked, .. } if all_solid(&lists) && asked.iter().all(|(which, _)| *which == RayCall::SolidTransmittance) => {
            Item::Rays { hits: scratch(&lists), lists, asked: asked.into_iter().map(|(_, ray)| (RayCall::Transmittance, ray)).collect() }
        }
        other => other,
    }
}

fn solid_rays(lists: Lists, rays: &[Ray]) -> Item {
    Item::Rays { lists, hits: Scratch::default(), asked: rays.iter().map(|ray| (RayCall::SolidTransmittance, *ray)).collect() }
}

/// Each ray by all three calls, with hit scratch that is as long as it must be and so much longer.
fn by_all_three(lists: Lists, rays: &[Ray], more: usize) -> Item {
    let mut hits = hits(&lists);
    hits.distances.resize(hits.distances.len() + more, 0.5);
    hits.places.resize(hits.places.len() + more, 7);
    let asked = |ray: &Ray| [RayCall::SolidTransmittance, RayCall::Nearest, RayCall::Transmittance].map(|which| (which, *ray));
    Item::Rays { lists, hits, asked: rays.iter().flat_map(asked).collect() }
}

/// Rays at walls at 3, 1 and −2: past one, two or all of them, with a bound at a wall and one step beside it, and beside them all.
fn among_walls() -> Vec<Ray> {
    let [down, up] = down_and_up();
    let between = along([0.5, 0.25, 2.0], -1.0);
    vec![
        down,
        up,
        between,
        Ray { longest: 13.0, ..down },
        Ray { longest: step(13.0, -1), ..down },
        Ray { shortest: 18.0, ..down },
        Ray { shortest: step(18.0, 1), ..down },
        Ray { shortest: 13.5, longest: 14.5, ..down },
        Ray { shortest: 13.5, longest: 15.5, ..down },
        Ray { longest: 0.5, ..between },
        Ray { direction: [0.0, 0.0, 1.0], ..down },
        Ray { origin: [30.0, 0.25, 16.0], ..down },
    ]
}

fn made_rays() -> Vec<Item> {
    let mut out = Vec::new();
    // the nearest wall first in the list, last and between
    for heights in orders(&[3.0, 1.0, -2.0]) {
        out.push(solid_rays(walls_at(&heights), &among_walls()));
    }
    for (more, heights) in [[3.0, 1.0, -2.0], [-2.0, 1.0, 3.0]].into_iter().enumerate() {
        out.push(by_all_three(walls_at(&heights), &among_walls()[..6], more));
    }
    for (k, through) in [0.0, 1.0, 0.5, 0.0001].into_iter().enumerate() {
        let mut lists = Lists::default();
        add(&mut lists, sheet(0.0, k % 2 == 1, k), SOLID, numbers(through));
        out.push(solid_rays(lists, &about_a_sheet().into_iter().skip(k / 2).step_by(2).collect::<Vec<_>>()));
    }
    for turned in [false, true] {
        let mut lists = Lists::default();
        add(&mut lists, q(turned), SOLID, numbers(1.0));
        out.push(solid_rays(lists, &at_the_limit()));
    }
    out.push(solid_rays(walls_at(&[2.0, 2.0, 2.0]), &down_and_up()));
    // walls too thin to be there, alone and before one that is
    let thin = sheet(5.0, false, 0).map(|x| x * 1.0e-7);
    let mut lists = Lists::default();
    add(&mut lists, thin, SOLID, numbers(0.5));
    out.push(solid_rays(lists.clone(), &[along([0.0, 0.0, 1.0], -1.0)]));
    add(&mut lists, sheet(-1.0, false, 0), SOLID, numbers(0.5));
    out.push(solid_rays(lists, &[along([0.0, 0.0, 1.0], -1.0), along([0.0, 0.0, -0.5], 1.0)]));
    // a wall of the last material
    for count in SIZES {
        let mut lists = materials(count);
        lists.points.extend(sheet(1.0, false, 0));
        lists.uses.push(count as u32 - 1);
        out.push(solid_rays(lists, &down_and_up()));
    }
    for count in [0, 1, 256] {
        out.push(solid_rays(materials(count), &down_and_up()));
    }
    out.push(by_all_three(Lists::default(), &down_and_up(), 0));
    out.push(among_the_most());
    out
}

/// The last wall alone, all but the last, none.
fn among_the_most() -> Item {
    let [down, _] = down_and_up();
    let far = Ray { origin: [200.25, 200.25, 30.0], ..down };
    solid_rays(most_triangles(), &[Ray { origin: [0.5, 0.25, 30.0], ..down }, far, Ray { longest: 21.0, ..far }, Ray { origin: [-200.0, 0.25, 30.0], ..down }])
}

fn solid_sun(axes: [u64; 3], lists: Lists, direction: [f32; 3], active: Vec<u8>) -> Item {
    let grid = grid(axes);
    let n = voxels(&grid);
    Item::One(Call::SolidSun { grid, lists, direction, active, light: vec![f32::NAN; n], scratch: vec![0.25; n] })
}

/// A wall across the way to the sun: over every voxel of a small grid, or over those left or right of x.
fn shade(z: f32, x: Option<(f32, bool)>, through: f32) -> Lists {
    let mut lists = Lists::default();
    let (x, left) = x.unwrap_or((-100.0, false));
    add(&mut lists, half(z, x, left, left), SOLID, numbers(through));
    lists
}

fn made_sun() -> Vec<Item> {
    let mut out = Vec::new();
    let up = [0.0, 0.0, 1.0];
    for (axes, active) in [([1, 1, 1], vec![1]), ([2, 1, 1], vec![1, 1]), ([3, 1, 1], vec![1, 0, 1]), ([2, 2, 1], vec![1, 1, 0, 1])] {
        let n = active.len();
        out.push(solid_sun(axes, shade(20.0, None, [0.5, 0.0, 1.0][n % 3]), up, active.clone()));
        for left in [false, true] {
            out.push(solid_sun(axes, shade(20.0, Some((1.25, left)), 0.5), [0.0, 0.0, 2.0], active.clone()));
        }
        // no wall on the way, none at all, no material
        out.push(solid_sun(axes, shade(-20.0, None, 0.5), up, active.clone()));
        out.push(solid_sun(axes, materials(n), up, active.clone()));
        out.push(solid_sun(axes, Lists::default(), [0.25, -0.5, 1.0], active));
        out.push(solid_sun(axes, shade(20.0, None, 0.5), up, vec![0; n]));
    }
    // several walls, the nearest first in the list and last
    for heights in [[20.0, 30.0, 40.0], [40.0, 30.0, 20.0], [30.0, 20.0, 40.0]] {
        let mut lists = Lists::default();
        for (z, x) in heights.into_iter().zip([0.75, 1.25, 2.25]) {
            add(&mut lists, half(z, x, true, false), SOLID, numbers(0.5));
        }
        out.push(solid_sun([4, 1, 1], lists, up, vec![1; 4]));
    }
    // a wall right at the shortest distance and beside it: it begins at the ray's start
    let start = 0.5 + 3.0f32.sqrt() * 3.0;
    for past in [0.0, 5.0e-5, 1.0e-4, 2.0e-4] {
        out.push(solid_sun([1, 1, 1], shade(start + past, None, 1.0), up, vec![1]));
    }
    // black, white and glowing walls are alike
    for colours in [[0.0; 6], [1.0, 1.0, 1.0, 0.0, 0.0, 0.0], [0.0, 0.0, 0.0, 65536.0, 1.0, 2.0]] {
        let mut lists = shade(20.0, Some((1.25, true)), 0.5);
        lists.numbers[..6].copy_from_slice(&colours);
        out.push(solid_sun([2, 1, 1], lists, up, vec![1; 2]));
    }
    out.push(solid_sun([2, 1, 1], most_triangles(), up, vec![1; 2]));
    out
}

/// Materials of solid walls: grey, white, black, glowing, and one that would let all through.
fn palette() -> Lists {
    let mut lists = Lists::default();
    for m in [[0.8, 0.6, 0.7, 0.0, 0.0, 0.0, 0.5], [1.0, 1.0, 1.0, 0.0, 0.0, 0.0, 0.0], [0.0, 0.0, 0.0, 0.0, 0.0, 0.0, 0.5]] {
        lists.kinds.push(SOLID);
        lists.numbers.extend(m);
    }
    for m in [[0.25, 0.5, 0.25, 0.5, 0.25, 0.125, 0.0], [0.5, 0.75, 0.25, 0.0, 0.0, 0.0, 1.0]] {
        lists.kinds.push(SOLID);
        lists.numbers.extend(m);
    }
    lists
}

/// A bake about the middle, with walls and lamps.
fn hall(axes: [u64; 3], active: Vec<u8>, lamps: &[[f32; 3]], put: &dyn Fn(&mut Lists)) -> Bake {
    let mut bake = room(axes, active, false);
    bake.grid = Grid { axes, corners: [-1.0, -1.0, -1.0, 1.0, 1.0, 1.0] };
    bake.lists = palette();
    put(&mut bake.lists);
    bake.hits = hits(&bake.lists);
    bake.lamps = lamps.iter().enumerate().flat_map(|(k, p)| [p[0], p[1], p[2], 3.0 + k as f32, 2.0, 4.0 - k as f32]).collect();
    bake
}

/// The same calls by C-22's engine.
fn solid(item: Item) -> Item {
    match item {
        Item::Bakes { bake, calls } => Item::SolidBakes { bake: Box::new(bake.without_hits()), calls },
        other => other,
    }
}

/// Calls each allowed no more than a voxel may cost, until nothing is left, and one after that.
fn at_the_least(bake: &Bake) -> Item {
    let taken = bake.active.iter().filter(|entry| **entry == 1).count();
    solid(calls(bake, &vec![table::cost(&bake.lamps); taken.max(1) + 1]))
}

const INSIDE: [f32; 3] = [0.4, 0.6, 0.8];
const BESIDE: [f32; 3] = [0.5, -3.0, 0.25];
const ABOVE: [f32; 3] = [-0.5, 0.75, 5.0];

/// Halls of solid walls: closed and open ones, one within another, with lamps before the walls and behind them.
pub fn halls() -> Vec<Bake> {
    let mut out = Vec::new();
    let one = || vec![1];
    let floor = |material: u32| move |lists: &mut Lists| level(lists, -2.0, false, material);
    for material in 0..5 {
        out.push(hall([1, 1, 1], one(), &[], &floor(material)));
    }
    out.push(hall([2, 1, 1], vec![1, 1], &[ABOVE], &floor(0)));
    out.push(hall([3, 1, 1], vec![1, 0, 1], &[], &floor(1)));
    out.push(hall([2, 2, 1], vec![0, 1, 1, 1], &[ABOVE, BESIDE], &floor(4)));
    // closed to sun, sky and lamps outside, and open above
    for (open, material) in [(None, 1), (None, 2), (Some((2, 1.0)), 0), (Some((0, -1.0)), 3)] {
        out.push(hall([1, 1, 1], one(), &[INSIDE, BESIDE], &move |lists| walls(lists, 2.25, true, open, material)));
    }
    // one within another, the nearer walls first in the list or last
    for outer_first in [false, true] {
        out.push(hall([1, 1, 1], one(), &[INSIDE, BESIDE, ABOVE], &move |lists| {
            if outer_first {
                walls(lists, 4.0, false, Some((2, 1.0)), 0);
            }
            walls(lists, 2.25, true, Some((1, 1.0)), 4);
            if !outer_first {
                walls(lists, 4.0, false, Some((2, 1.0)), 0);
            }
        }));
    }
    // floors and ceilings one behind another, in both orders
    for heights in [[-2.0, -4.0, 3.0, 6.0], [6.0, 3.0, -4.0, -2.0]] {
        out.push(hall([2, 1, 1], vec![1, 1], &[[0.5, 0.25, 1.5], [0.25, 0.5, 4.5]], &move |lists| {
            heights.iter().enumerate().for_each(|(k, z)| level(lists, *z, k % 2 == 1, [0, 1, 4, 3][k]));
        }));
    }
    out
}

fn made_bakes() -> Vec<Item> {
    let mut out: Vec<Item> = halls().iter().map(at_the_least).collect();
    // nothing in the way at all, with materials and without
    let bare = hall([3, 1, 1], vec![1; 3], &[], &|_| ());
    let none = Bake { lists: Lists::default(), hits: Scratch::default(), ..bare.clone() };
    let many = Bake { lists: materials(256), ..bare };
    for bake in [&none, &many] {
        out.push(solid(calls(bake, &[384, 384, 384, 384])));
        out.push(solid(calls(bake, &[448, 384])));
        out.push(solid(calls(bake, &[u64::MAX])));
    }
    out.push(at_the_least(&hall([4, 1, 1], vec![0; 4], &[INSIDE], &|lists| level(lists, -2.0, false, 0))));
    // eight lamps, as many as there may be
    let mut bright = hall([1, 2, 2], vec![1, 0, 1, 1], &[], &|lists| {
        level(lists, -2.0, false, 1);
        level(lists, 3.0, true, 0);
    });
    bright.lamps = (0..8).flat_map(|k| [0.25 * k as f32 - 1.0, 0.5, if k % 2 == 0 { 2.0 } else { 4.0 }, 2.0, 1.0 + k as f32, 0.5]).collect();
    out.push(at_the_least(&bright));
    out.push(solid(calls(&bright, &[2000, u64::MAX])));
    // from the middle, over a volume that no bake wrote, and at the end
    let mut middle = bright;
    middle.volume.fill(0.25);
    for next in 1..=4 {
        let progress = progress_places::chosen(&middle, next);
        out.push(Item::SolidBakes { bake: Box::new(middle.without_hits()), calls: vec![(progress, 1000)] });
    }
    // a mask longer than its grid and one shorter that are the same words
    let mut other = hall([2, 1, 1], vec![1, 0, 0, 0, 0], &[], &|lists| level(lists, -2.0, false, 0));
    out.push(at_the_least(&other));
    other.active = vec![1];
    out.push(at_the_least(&other));
    let mut most = hall([1, 1, 1], vec![1], &[], &|_| ());
    most.lists = most_triangles();
    out.push(solid(calls(&most, &[384])));
    out
}

/// Some of these calls once more, each with triangles and no hit scratch at all.
fn without_scratch(module: &str) -> Vec<Item> {
    let up = [0.0, 0.0, 1.0];
    match module {
        "rays" => vec![solid_rays(walls_at(&[1.0, 3.0, -2.0]), &among_walls()), solid_rays(walls_at(&[2.0, 2.0, 2.0]), &down_and_up()), among_the_most()],
        "sun" => vec![
            solid_sun([2, 1, 1], shade(20.0, None, 1.0), up, vec![1; 2]),
            solid_sun([3, 1, 1], shade(20.0, Some((1.25, true)), 0.5), [0.0, 0.0, 2.0], vec![1, 0, 1]),
            solid_sun([2, 1, 1], shade(20.0, None, 0.5), up, vec![0; 2]),
            solid_sun([2, 1, 1], most_triangles(), up, vec![1; 2]),
        ],
        // a floor, two voxels and a lamp, a closed hall, walls behind walls
        "bake" => halls().iter().enumerate().filter(|(which, _)| [0, 5, 8, 14].contains(which)).map(|(_, bake)| at_the_least(bake)).collect(),
        _ => vec![],
    }
}

/// The records of solid walls, inside the limits.
pub fn made(module: &str) -> Vec<Item> {
    let of_module = match module {
        "rays" => made_rays(),
        "sun" => made_sun(),
        "bake" => made_bakes(),
        _ => vec![],
    };
    of_module.into_iter().map(through_both).chain(without_scratch(module)).collect()
}

/// A list of materials with one of another kind at a place, which a triangle uses or none does.
fn with_one(count: usize, place: usize, kind: u8, used: bool) -> Lists {
    let mut lists = materials(count);
    lists.kinds[place] = kind;
    let other = (place + 1) % count;
    // where there is no other material, none is used
    if used || other != place {
        lists.points.extend(sheet(1.0, false, 0));
        lists.points.extend(sheet(3.0, true, 0));
        lists.uses = vec![other as u32, if used { place } else { other } as u32];
    }
    lists
}

/// First, middle and last place.
fn places(count: usize) -> Vec<usize> {
    let mut out = vec![0, count / 2, count - 1];
    out.dedup();
    out
}

/// One call of a module over these lists.
fn call_over(module: &str, lists: Lists) -> Call {
    match module {
        "rays" => Call::SolidTransmittance { lists, ray: down_and_up()[0] },
        "sun" => Call::SolidSun { grid: grid([2, 1, 1]), lists, direction: [0.0, 0.0, 1.0], active: vec![1, 0], light: vec![0.5; 2], scratch: vec![0.25; 2] },
        _ => {
            let mut bake = room([1, 1, 1], vec![1], false).without_hits();
            bake.lists = lists;
            bake.volume.fill(0.25);
            bake.scratch.fill(0.5);
            bake.allowance = 384;
            Call::SolidBake(Box::new(bake))
        }
    }
}

/// A call that is made for this number.
fn put(out: &mut Vec<Item>, mut call: Call, number: u32, what: &str) {
    progress_places::choose(&mut call);
    meant(table::refusal(&call), number, what);
    out.push(Item::One(call));
}

/// What C-22 refuses and what stands next to it. A base and a fault of each row stand once more as the solid call's own: without hit scratch none of
/// them becomes 3.
pub fn bad(module: &str, seed: u64) -> Vec<Item> {
    if !["rays", "sun", "bake"].contains(&module) {
        return vec![];
    }
    let mut chance = Chance::new(seed ^ 0xBAD_C22);
    let c = &mut chance;
    let (mut out, mut once_more) = (Vec::new(), Vec::new());
    // each kind at each place, by turns used and not
    for (which, count) in SIZES.into_iter().enumerate() {
        for (at, place) in places(count).into_iter().enumerate() {
            for (k, kind) in OTHERS.into_iter().enumerate() {
                let used = (which + at + k) % 2 == 0;
                put(&mut out, call_over(module, with_one(count, place, kind, used)), 6, &format!("kind {kind} at {place} of {count}, used: {used}"));
            }
        }
        if count == 1 || count == 256 {
            put(&mut out, call_over(module, materials(count)), 0, "solid walls alone");
        }
    }
    for kind in [1, 2] {
        let mut all = with_one(3, 0, kind, true);
        all.kinds.fill(kind);
        put(&mut out, call_over(module, all), 6, "no solid wall at all");
        let unused = Lists { kinds: vec![SOLID, kind], numbers: [numbers(0.5), numbers(1.0)].concat(), ..Lists::default() };
        put(&mut out, call_over(module, unused), 6, "another kind and no triangle");
    }
    if module == "rays" {
        // the other engine lacks hit scratch, this one needs none; and it lets in what this one refuses
        let rays = down_and_up().map(|ray| [RayCall::Transmittance, RayCall::SolidTransmittance].map(|which| (which, ray))).concat();
        for (distances, places) in [(0, 0), (1, 2), (2, 1)] {
            let hits = Scratch { distances: vec![0.5; distances], places: vec![9; places] };
            out.push(Item::Rays { lists: walls_at(&[3.0, 1.0]), hits, asked: rays.clone() });
        }
        for kind in [1, 2] {
            let lists = with_one(2, 1, kind, kind == 1);
            out.push(Item::Rays { hits: hits(&lists), lists, asked: rays.clone() });
        }
    }
    let mut world = of_each_kind(seed);
    world.lists.kinds.fill(SOLID);
    for base in bad::bases(c, &world).iter().filter_map(Call::solid) {
        if items::module_of(&base) != module {
            continue;
        }
        let lamped = matches!(&base, Call::SolidBake(bake) if !bake.lamps.is_empty());
        let whole = matches!(&base, Call::SolidBake(bake) if bake.progress.next == 0);
        put(&mut out, base.clone(), 0, "a base");
        put(&mut once_more, base.clone(), 0, "a base");
        // a bake is broken from the middle, and with lamps in row 19
        if whole {
            continue;
        }
        let all = bad::changes(&base, true);
        let plain = |change: &&bad::Change| !change.name.contains("triangles") && !change.name.starts_with("lamps:");
        let of_row = |row: u32| all.iter().filter(|change| change.number == Some(row)).filter(plain).collect::<Vec<&bad::Change>>();
        let broken = |fault: &bad::Change| {
            let mut call = base.clone();
            (fault.make)(&mut call);
            call
        };
        // every list that is lent, too short and too long
        for (k, fault) in of_row(3).into_iter().filter(|_| !lamped).enumerate() {
            put(&mut out, broken(fault), 3, &fault.name);
            if k == 0 {
                put(&mut once_more, broken(fault), 3, &fault.name);
            }
            if k % 4 == 0 {
                put(&mut out, with_kind(&broken(fault), 1, OTHERS[k / 4 % 4]), 3, &format!("{} and another kind", fault.name));
            }
        }
        let rows = [1, 2, 3, 4, 5, 6, 7, 8, 19, 9, 10, 13];
        let six = 5;
        for (at, row) in rows.into_iter().enumerate() {
            let fit = of_row(row);
            if row == 3 || fit.is_empty() || lamped && row != 19 {
                continue;
            }
            for place in 0..3 {
                let kind = [1, 2, 255][(place + at) % 3];
                let fault = fit[c.below(fit.len())];
                let number = if at < six { row } else { 6 };
                put(&mut out, with_kind(&broken(fault), place, kind), number, &format!("{} and kind {kind} at {place}", fault.name));
                if place == 0 {
                    put(&mut out, broken(fault), row, &fault.name);
                    put(&mut once_more, broken(fault), row, &fault.name);
                }
            }
        }
        // faults of several rows after 6, then one before it too
        let mut several = with_kind(&base, 2, 1);
        for row in [13, 10, 9, 19, 8, 7] {
            if let Some(fault) = of_row(row).first() {
                (fault.make)(&mut several);
            }
        }
        put(&mut out, several.clone(), 6, "another kind and a fault of every later row");
        if let Some(point) = lists_of(&mut several).and_then(|lists| lists.points.last_mut()) {
            *point = f32::NAN;
        }
        put(&mut out, several, 5, "the same and a bad point");
    }
    if module == "bake" {
        out.extend(bad_calls());
    }
    out.into_iter().map(through_both).chain(once_more).collect()
}

/// Bakes in parts with wrong records between the right ones, and records about both bounds.
fn bad_calls() -> Vec<Item> {
    let mut out = Vec::new();
    for (which, mut bake) in halls().into_iter().enumerate() {
        bake.volume.fill(0.25);
        let cost = table::cost(&bake.lamps);
        if [5, 6, 7, 15].contains(&which) {
            out.push(solid(handed_on(&bake, &vec![cost; bake.active.len() + 1])));
        }
        if which == 7 {
            out.extend([0, 1, 3, 4].map(|next| solid(about(&bake, next, next == 3))));
            out.push(solid(above(&bake)));
            // too small an allowance at the beginning, in the middle and at the end
            let calls = [0, 2, 4].map(|next| (progress_places::chosen(&bake, next), cost - 1)).to_vec();
            out.push(Item::SolidBakes { bake: Box::new(bake.without_hits()), calls });
            lamps_to(&mut bake.lamps, 9);
            out.push(Item::SolidBakes { bake: Box::new(bake.without_hits()), calls: vec![(Progress::default(), u64::MAX)] });
        }
    }
    // a mask's unused bit, and a bake that would be good without it
    let mut bake = hall([2, 1, 1], only(2, 1), &[], &|lists| level(lists, -2.0, false, 0)).without_hits();
    for bit in [2, 63] {
        let mut set = bake.clone();
        bad::set_bit(&mut set.active, bit);
        out.push(Item::SolidBakes { bake: Box::new(set), calls: vec![(Progress::default(), 384), (Progress { next: 2, rays: 64 }, 384)] });
    }
    bake.light[1] = f32::INFINITY;
    out.push(Item::SolidBakes { bake: Box::new(bake), calls: vec![(Progress::default(), 384)] });
    out
}

/// The solid bases of a seed with each number broken, as the other calls' are; through both engines where no other kind was put in.
pub fn broken(module: &str, seed: u64, few: bool, several: usize) -> Vec<Item> {
    let mut chance = Chance::new(seed ^ 0xB20_C22);
    let c = &mut chance;
    let mut world = bad::base_world(seed);
    world.lists.kinds.fill(SOLID);
    let mut out = Vec::new();
    for base in bad::bases(c, &world).iter().filter_map(Call::solid) {
        if items::module_of(&base) == module {
            // a bake has thousands of numbers, and the other engine's are broken at every place
            let few = few || module == "bake";
            out.extend(bad::of(c, &base, few, several).into_iter().map(|bad| through_both(Item::One(bad.call))));
        }
    }
    out
}

/// A scene by the solid calls: rays at it and about what they meet, its sun pass, its bake in parts.
fn of_world(module: &str, c: &mut Chance, world: &World) -> Vec<Item> {
    let n = voxels(&world.grid);
    match module {
        "rays" => {
            let mut rays = Vec::new();
            for k in 0..8 {
                let ray = worlds::ray(c, world);
                rays.push(ray);
                if k % 4 == 0 {
                    rays.extend(worlds::rays_about(world, &ray));
                }
            }
            vec![solid_rays(world.lists.clone(), &rays)]
        }
        "sun" => {
            let direction = worlds::towards(world);
            let (light, scratch) = (vec![c.pick(&[f32::NAN, 0.5]); n], vec![c.pick(&[f32::INFINITY, 0.25]); n]);
            vec![Item::One(Call::SolidSun { grid: world.grid, lists: world.lists.clone(), direction, active: world.active.clone(), light, scratch })]
        }
        "bake" => {
            let light = worlds::light_list(c, n);
            let bake = worlds::bake(c, world, light);
            let cost = table::cost(&bake.lamps);
            let mut allowances: Vec<u64> = (0..c.from(1, 4)).map(|_| cost + c.below(2000) as u64).collect();
            allowances.extend([u64::MAX, cost]);
            vec![solid(calls(&bake, &allowances))]
        }
        _ => vec![],
    }
}

/// For a seed whose scene has solid walls alone, that scene through both engines; for every third the scene with every wall made solid.
pub fn seeded(module: &str, seed: u64) -> Vec<Item> {
    let mut chance = Chance::new(seed ^ 0xC22_5EED);
    let c = &mut chance;
    let mut out = Vec::new();
    if !["rays", "sun", "bake"].contains(&module) {
        return out;
    }
    let mut world = worlds::world(seed);
    if all_solid(&world.lists) {
        out.extend(of_world(module, c, &world));
    }
    if seed % 3 == 0 {
        world.lists.kinds.fill(SOLID);
        out.extend(of_world(module, c, &world));
    }
    out.into_iter().map(through_both).collect()
}

/// For a seed whose scene has another kind in its list, one solid call of it, which is refused.
pub fn refused(module: &str, seed: u64) -> Vec<Item> {
    if !["rays", "sun", "bake"].contains(&module) {
        return vec![];
    }
    let mut chance = Chance::new(seed ^ 0x6_C22);
    let c = &mut chance;
    let world = worlds::world(seed);
    if all_solid(&world.lists) {
        return vec![];
    }
    let n = voxels(&world.grid);
    let light = vec![0.5; n];
    let call = match module {
        "rays" => Call::SolidTransmittance { lists: world.lists.clone(), ray: worlds::ray(c, &world) },
        "sun" => Call::SolidSun { grid: world.grid, lists: world.lists.clone(), direction: worlds::towards(&world), active: world.active.clone(), light, scratch: vec![0.25; n] },
        _ => Call::SolidBake(Box::new(worlds::bake(c, &world, light).without_hits())),
    };
    vec![Item::One(call)]
}
