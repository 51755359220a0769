//! What is compared, module by module: for a seed the records of one seeded scene, and for a seed of bad inputs those of one base.
use crate::answers::{baked, sunned};
use crate::bad;
use crate::calls::{Bake, Call, Grid, Lists, Progress, Ray, RayCall, Scratch, Tree};
use crate::chance::Chance;
use crate::lamp_places;
use crate::panel_places;
use crate::progress_places;
use crate::records::{self, Record};
use crate::solid_places;
use crate::table;
use crate::tree_places;
use crate::wide_places;
use crate::word_places;
use crate::worlds::{self, voxels, World};

#[derive(Clone, Debug)]
pub enum Item {
    One(Call),
    Rays { lists: Lists, hits: Scratch, asked: Vec<(RayCall, Ray)> },
    LightLookups { grid: Grid, light: Vec<f32>, positions: Vec<[f32; 3]> },
    CoefficientLookups { grid: Grid, volume: Vec<f32>, positions: Vec<[f32; 3]> },
    Bakes { bake: Box<Bake>, calls: Vec<(Progress, u64)> },
    SolidBakes { bake: Box<Bake>, calls: Vec<(Progress, u64)> },
    Fired(Box<Bake>),
    TreeRays { lists: Lists, tree: Tree, hits: Scratch, asked: Vec<(RayCall, Ray)> },
    TreeBakes { bake: Box<Bake>, tree: Tree, calls: Vec<(Progress, u64)> },
}

impl Item {
    pub fn record(&self) -> Record {
        match self {
            Item::One(call) => records::record(call),
            Item::Rays { lists, hits, asked } => records::rays(lists, hits, asked),
            Item::LightLookups { grid, light, positions } => records::light_lookups(grid, light, positions),
            Item::CoefficientLookups { grid, volume, positions } => records::coefficient_lookups(grid, volume, positions),
            Item::Bakes { bake, calls } => records::bakes(bake, calls),
            Item::SolidBakes { bake, calls } => records::solid_bakes(bake, calls),
            Item::Fired(bake) => records::fired(bake),
            Item::TreeRays { lists, tree, hits, asked } => records::tree_rays(lists, tree, hits, asked),
            Item::TreeBakes { bake, tree, calls } => records::tree_bakes(bake, tree, calls),
        }
    }

    pub fn bytes(&self) -> Vec<u8> {
        self.record().bytes
    }
}

pub const MODULES: [&str; 7] = ["rays", "masks", "blurs", "sun", "bake", "lookup", "fired"];

/// The records of a seeded scene for a module.
pub fn good(module: &str, seed: u64) -> Vec<Item> {
    of_world(module, seed, worlds::world(seed))
}

/// The records of a seed's scene as it was before C-19.
pub fn before_panels(module: &str, seed: u64) -> Vec<Item> {
    of_world(module, seed, worlds::before_panels(seed))
}

fn of_world(module: &str, seed: u64, world: World) -> Vec<Item> {
    let mut chance = Chance::new(seed ^ 0x600D);
    let c = &mut chance;
    match module {
        "rays" => rays(c, &world),
        "masks" => {
            let n = voxels(&world.grid);
            let (occupied, active) = (vec![c.below(256) as u8; n], vec![c.below(256) as u8; n]);
            vec![Item::One(Call::Masks { grid: world.grid, points: world.lists.points.clone(), occupied, active })]
        }
        "blurs" => blurs(c, &world),
        "sun" => sun(c, &world),
        "bake" => bakes(c, &world),
        "lookup" => lookups(c, &world),
        "fired" => fired(c, &world),
        _ => vec![],
    }
}

/// The bad inputs of one seeded base for a module.
pub fn bad(module: &str, seed: u64, few: bool, several: usize) -> Vec<Item> {
    let world = bad::base_world(seed);
    let mut chance = Chance::new(seed ^ 0xBADBAD);
    let c = &mut chance;
    let mut out = Vec::new();
    for base in bad::bases(c, &world) {
        if module_of(&base) == module {
            for b in bad::of(c, &base, few, several) {
                out.push(Item::One(b.call));
            }
        }
    }
    out
}

/// What of a seed is streamed: all that is inside the limits, then what C-22 and C-20 refuse of its scene.
pub fn seeded(module: &str, seed: u64) -> Vec<Item> {
    let mut out = inside(module, seed);
    out.extend(solid_places::refused(module, seed));
    out.extend(tree_places::refused(module, seed));
    out
}

/// What of a seed is inside the limits: its scene's records, then those of a grid of whole words or nearly so, of a bake's progress, of a wide grid, of
/// panels, of solid walls and of trees.
pub fn inside(module: &str, seed: u64) -> Vec<Item> {
    let mut out = good(module, seed);
    out.extend(word_places::seeded(module, seed));
    out.extend(progress_places::seeded(module, seed));
    out.extend(wide_places::seeded(module, seed));
    out.extend(panel_places::seeded(module, seed));
    out.extend(solid_places::seeded(module, seed));
    out.extend(tree_places::seeded(module, seed));
    out
}

/// The bad inputs of a seed, then those of masks in words, of a bake's progress, of axes about the limit, of kinds and of the solid calls.
pub fn all_bad(module: &str, seed: u64, few: bool, several: usize) -> Vec<Item> {
    let mut out = bad(module, seed, few, several);
    out.extend(word_places::bad(module, seed));
    out.extend(progress_places::bad(module, seed));
    out.extend(wide_places::bad(module, seed));
    out.extend(panel_places::bad(module, seed));
    out.extend(solid_places::bad(module, seed));
    out.extend(solid_places::broken(module, seed, few, several));
    out.extend(tree_places::bad(module, seed));
    out.extend(tree_places::broken(module, seed, few, several));
    out
}

pub fn module_of(call: &Call) -> &'static str {
    match call {
        Call::Triangle { .. } | Call::Nearest { .. } | Call::Transmittance { .. } | Call::SolidTransmittance { .. } => "rays",
        Call::TreeNearest { .. } | Call::TreeTransmittance { .. } | Call::BuildTree { .. } => "rays",
        Call::Masks { .. } => "masks",
        Call::LightBlur { .. } | Call::CoefficientBlur { .. } => "blurs",
        Call::Sun { .. } | Call::SolidSun { .. } | Call::TreeSun { .. } => "sun",
        Call::Bake(_) | Call::SolidBake(_) | Call::TreeBake(..) => "bake",
        Call::LightLookup { .. } | Call::CoefficientLookup { .. } | Call::Part { .. } => "lookup",
    }
}

/// Records made for slips that a seeded scene seldom shows. They are as small as the slip lets them be.
pub fn made(module: &str) -> Vec<Item> {
    let mut chance = Chance::new(0x5117);
    let c = &mut chance;
    match module {
        "rays" => {
            let mut out: Vec<Item> = (0..12).map(|k| stack(c, 7, k % 3 == 0, 0.4)).collect();
            out.extend(at_the_bounds());
            out.extend([(97, false), (200, true), (256, false)].map(|(sheets, tied)| stack(c, sheets, tied, 0.97)));
            out
        }
        "masks" => {
            let mut out: Vec<Item> = (0..48).map(|k| on_the_planes(c, k)).collect();
            out.extend((0..8).map(|k| at_a_square(c, 1 + k % 4)));
            out.extend([64.0, 90.0].map(most_samples));
            out
        }
        // the C library's powf(x, 2.0) is not x*x here
        "blurs" => vec![Item::One(Call::LightBlur { axes: [1, 1, 1], light: vec![f32::from_bits(0x3e80_0800)], scratch: vec![0.0] })],
        "sun" => {
            let mut out = [0.0, 5.0e-5, 1.0e-4, 2.0e-4].map(just_past_the_start).to_vec();
            out.extend((0..3).map(|_| along_an_edge(c)));
            out.push(beside_the_dark());
            out
        }
        "bake" => {
            let mut out: Vec<Item> = (0..6).map(|_| whole(floored(c))).collect();
            out.extend((0..3).map(|k| whole(faintly_lit(c, k))));
            out.extend((0..2).map(|_| whole(under_a_sheet(c))));
            out.push(whole(darker_than_black()));
            out.extend(lamp_places::rooms().iter().flat_map(|world| bakes(c, world)));
            out.push(whole(four_sheets(c)));
            out
        }
        "fired" => lamp_places::rooms().iter().flat_map(|world| fired(c, world)).collect(),
        _ => vec![],
    }
}

/// A bake in one call.
fn whole(bake: Bake) -> Item {
    Item::Bakes { bake: Box::new(bake), calls: vec![(Progress::default(), u64::MAX)] }
}

/// Single triangles about the two bounds of the test: |det| at 1e-8 and the cross's squared length at 1e-12, each with the floats next to it.
fn at_the_bounds() -> Vec<Item> {
    let one = |points: [f32; 9], origin: [f32; 3], direction: [f32; 3]| {
        Item::One(Call::Triangle { points, ray: Ray { origin, direction, shortest: 0.0, longest: f32::INFINITY } })
    };
    let mut out = Vec::new();
    for d in [1.0e-8f32.next_down(), 1.0e-8, 1.0e-8f32.next_up()] {
        for side in [1.0, -1.0] {
            // det is d or -d
            out.push(one([0.0, 0.0, 0.0, 1.0, 0.0, 0.0, 0.0, 1.0, 0.0], [0.25, 0.25, side], [0.0, 0.0, -side * d]));
        }
    }
    // a small triangle: its det is small against 1e-8 and not against its own edges
    let leg = 1.0 / 64.0;
    out.push(one([0.0, 0.0, 0.0, leg, 0.0, 0.0, 0.0, leg, 0.0], [leg / 4.0, leg / 4.0, 1.0], [0.0, 0.0, -1.0e-5]));
    // the cross is (0, -a, b) with a*a + b*b as the bound, or next to it
    let bound = 1.0e-12f32;
    for square in [bound.next_down(), bound, bound.next_up()] {
        let mut b = 1.0e-6f32;
        while b * b >= bound.next_down() {
            b = b.next_down();
        }
        let a = (1..100_000).map(|k| k as f32 * 1.0e-12).find(|a| a * a + b * b == square);
        let a = a.expect("a square that makes up the rest");
        out.push(one([0.0, 0.0, 0.0, 1.0, 0.0, 0.0, 0.0, b, a], [0.25, b * 0.25, 1.0], [0.0, 0.0, -1.0]));
    }
    out
}

/// A triangle whose target of samples is the square of `n` if the area is divided by the edge's square, and not if it is divided by the
/// edge twice, or the other way round; its samples for n lie in other cells than those for n+1.
fn at_a_square(c: &mut Chance, n: usize) -> Item {
    loop {
        let (least, edge) = (c.between(-2.0, 2.0), c.between(0.1, 1.5));
        let grid = Grid { axes: [6, 6, 1], corners: [least, least, least, least + 6.0 * edge, least + 6.0 * edge, least + 2.0 * edge] };
        let own = (grid.corners[3] - grid.corners[0]) / 6.0;
        let (leg, from) = (n as f32 * own, least + own * 0.5);
        let (x, z) = (from + leg, least + edge);
        let points = vec![from, from, z, x, from, z, from, x, z];
        let area = 0.5 * ((x - from) * (x - from));
        let steps = |samples: f32| (samples.ceil()).sqrt().ceil();
        if steps((area / (own * own)) * 2.0) != steps((area / own / own) * 2.0) {
            let cells = voxels(&grid);
            return Item::One(Call::Masks { grid, points, occupied: vec![5; cells], active: vec![6; cells] });
        }
    }
}

/// A triangle with legs of so many cells, far larger than the grid: with fewer than 64 samples a side, cells are missed.
fn most_samples(cells: f32) -> Item {
    let grid = Grid { axes: [22, 22, 1], corners: [0.0, 0.0, 0.0, 11.0, 11.0, 0.5] };
    let points = vec![0.0, 0.0, 0.25, 0.5 * cells, 0.0, 0.25, 0.0, 0.5 * cells, 0.25];
    let n = voxels(&grid);
    Item::One(Call::Masks { grid, points, occupied: vec![7; n], active: vec![8; n] })
}

/// One voxel whose ray to the sun meets a sheet `past` its start.
fn just_past_the_start(past: f32) -> Item {
    let grid = Grid { axes: [1, 1, 1], corners: [0.0, 0.0, 0.0, 1.0, 1.0, 1.0] };
    let z = 0.5 + 3.0f32.sqrt() * 3.0 + past;
    let lists = Lists {
        points: vec![-4.0, -4.0, z, 8.0, -4.0, z, -4.0, 8.0, z],
        uses: vec![0],
        kinds: vec![1],
        numbers: vec![0.5, 0.5, 0.5, 0.0, 0.0, 0.0, 0.7],
    };
    let hits = Scratch { distances: vec![0.0], places: vec![0] };
    Item::One(Call::Sun { grid, lists, direction: [0.0, 0.0, 1.0], active: vec![1], light: vec![0.5], scratch: vec![0.25], hits })
}

/// Two sheets that share an edge, straight above a voxel's centre: the ray to the sun meets both there, and a step to either side one alone.
/// The centre is one that another order of adding puts a step aside.
fn along_an_edge(c: &mut Chance) -> Item {
    let (least, edge, x) = loop {
        let (least, edge) = (c.between(-3.0, 3.0), c.between(0.3, 2.0));
        let own = ((least + 3.0 * edge) - least) / 3.0;
        let centre = |k: f32| (least + own * 0.5) + k * own;
        if let Some(k) = [1.0, 2.0].into_iter().find(|k| centre(*k) != least + (k + 0.5) * own) {
            break (least, edge, centre(k));
        }
    };
    let grid = Grid { axes: [3, 1, 1], corners: [least, 0.0, 0.0, least + 3.0 * edge, 1.0, 1.0] };
    let mut lists = Lists::default();
    for (side, passes) in [(8.0, 0.7), (-8.0, 0.6)] {
        lists.points.extend([x, -4.0, 20.0, x + side, -4.0, 20.0, x, 8.0, 20.0]);
        lists.uses.push(lists.kinds.len() as u32);
        lists.kinds.push(1);
        lists.numbers.extend([0.5, 0.5, 0.5, 0.0, 0.0, 0.0, passes]);
    }
    let hits = Scratch { distances: vec![0.0; 2], places: vec![0; 2] };
    Item::One(Call::Sun { grid, lists, direction: [0.0, 0.0, 1.0], active: vec![1; 3], light: vec![0.5; 3], scratch: vec![0.25; 3], hits })
}

/// A voxel in the shade beside two that are not active: the blur reaches one of them.
fn beside_the_dark() -> Item {
    let grid = Grid { axes: [3, 1, 1], corners: [0.0, 0.0, 0.0, 3.0, 1.0, 1.0] };
    let lists = Lists {
        points: vec![-40.0, -40.0, 20.0, 80.0, -40.0, 20.0, -40.0, 80.0, 20.0],
        uses: vec![0],
        kinds: vec![0],
        numbers: vec![0.5, 0.5, 0.5, 0.0, 0.0, 0.0, 0.0],
    };
    let hits = Scratch { distances: vec![0.0], places: vec![0] };
    Item::One(Call::Sun { grid, lists, direction: [0.0, 0.0, 1.0], active: vec![1, 0, 0], light: vec![0.5; 3], scratch: vec![0.25; 3], hits })
}

/// A voxel of a 1x1x1 grid over lists that are given, under a sky of one colour.
fn single(lists: Lists, sunlight: [f32; 6], ambient: [f32; 12], sky: [f32; 3]) -> Bake {
    let hits = Scratch { distances: vec![0.0; lists.uses.len()], places: vec![0; lists.uses.len()] };
    Bake {
        grid: Grid { axes: [1, 1, 1], corners: [0.0, 0.0, 0.0, 1.0, 1.0, 1.0] },
        lists,
        sunlight,
        ambient,
        sky: (0..1728).map(|i| sky[i % 3]).collect(),
        lamps: vec![],
        active: vec![1],
        light: vec![0.5],
        volume: vec![0.0; 16],
        scratch: vec![0.0; 16],
        hits,
        progress: Progress::default(),
        allowance: u64::MAX,
    }
}

/// A dim sky under a bright ambient: the brightness floor takes a part of the way, towards coefficients of either sign.
fn floored(c: &mut Chance) -> Bake {
    let ambient = [0; 12].map(|_| c.between(-300.0, 300.0));
    let mut ambient: [f32; 12] = ambient;
    for x in &mut ambient[..3] {
        *x = c.between(100.0, 1000.0);
    }
    // the sky's first coefficient comes to its colour times about pi
    let sky = [0, 1, 2].map(|i| ambient[i] * 0.005 * c.between(0.1, 0.8) / 3.2);
    single(Lists::default(), [0.0, 0.0, 1.0, 1.0, 1.0, 1.0], ambient, sky)
}

/// A surface whose ambient has no squared length, though it has components, and whose own light is about as faint.
fn faintly_lit(c: &mut Chance, k: usize) -> Bake {
    let (x, z) = (c.between(6.0, 9.0), c.between(-3.0, -2.0));
    let lists = Lists {
        points: vec![-x, -x, z, 3.0 * x, -x, z, -x, 3.0 * x, z],
        uses: vec![0],
        kinds: vec![0],
        numbers: vec![1.0, 0.5, 1.0, 4.0e-23, 6.0e-23, c.between(3.0, 9.0) * 1.0e-23, 0.0],
    };
    let mut ambient = [0.0; 12];
    let faint = c.between(1.0, 2.0) * 1.0e-23;
    ambient[k] = faint;
    ambient[(k + 1) % 3] = faint;
    single(lists, [0.0, 0.0, -1.0, 1.0, 1.0, 1.0], ambient, [0.0, 0.0, 0.0])
}

/// Translucent sheets in no order of place, some of them at one distance: the order of the product shows in its last bits. Each lets through at least so much.
fn stack(c: &mut Chance, sheets: usize, tied: bool, least: f32) -> Item {
    let mut lists = Lists::default();
    let mut levels: Vec<f32> = (0..sheets).map(|k| if tied { (k / 3) as f32 } else { k as f32 }).collect();
    for k in 0..levels.len() {
        let other = c.below(levels.len());
        levels.swap(k, other);
    }
    for (k, z) in levels.iter().enumerate() {
        lists.kinds.push(1);
        lists.numbers.extend([0.5, 0.5, 0.5, 0.0, 0.0, 0.0, c.between(least, 1.0)]);
        lists.points.extend([-4.0, -4.0, *z, 8.0, -4.0, *z, -4.0, 8.0, *z]);
        lists.uses.push(k as u32);
    }
    let hits = worlds::hits(c, &lists);
    let asked = (0..6)
        .map(|k| {
            let up = k % 2 == 0;
            let origin = [c.between(0.0, 1.0), c.between(0.0, 1.0), if up { -1.0 } else { sheets as f32 + 2.0 }];
            (RayCall::Transmittance, Ray { origin, direction: [0.0, 0.0, if up { 1.0 } else { -1.0 }], shortest: 0.0, longest: f32::INFINITY })
        })
        .collect();
    Item::Rays { lists, hits, asked }
}

/// Triangles whose samples lie on the planes between cells, and whose target of samples is a square number within a rounding.
fn on_the_planes(c: &mut Chance, k: usize) -> Item {
    let edge = c.pick(&[0.3f32, 0.1, 0.7, 1.3, 0.9, 0.011]);
    let least = c.pick(&[0.0f32, 0.1, -0.7, 3.3]);
    let axes = [9, 9, 1];
    let grid = Grid { axes, corners: [least, least, least, least + 9.0 * edge, least + 9.0 * edge, least + edge] };
    let own = (grid.corners[3] - grid.corners[0]) / 9.0;
    let mut points = Vec::new();
    if k % 2 == 0 {
        let (a, b) = (c.from(1, 8) as f32 * own, c.from(1, 8) as f32 * own);
        let (x, y, z) = (least, least, least + own * 0.5);
        points.extend([x, y, z, x + a, y, z, x, y + b, z]);
    } else {
        for _ in 0..3 {
            let (i, j) = (c.from(1, 8) as f32, c.from(1, 8) as f32);
            let (x, y, z) = (least + i * own, least + j * own, least + own * 0.5);
            let leg = own * 0.03;
            // one sample at u = v = .5, w = 0: half way between the second and the third point
            points.extend([x - leg, y - leg, z, x - leg, y + leg, z, x + leg, y - leg, z]);
        }
    }
    let n = voxels(&grid);
    Item::One(Call::Masks { grid, points, occupied: vec![3; n], active: vec![4; n] })
}

/// A large triangle across z, its material the one that stands last.
fn level(lists: &mut Lists, z: f32, kind: u8, numbers: [f32; 7]) {
    lists.points.extend([-50.0, -50.0, z, 150.0, -50.0, z, -50.0, 150.0, z]);
    lists.uses.push(lists.kinds.len() as u32);
    lists.kinds.push(kind);
    lists.numbers.extend(numbers);
}

/// A floor on which the sun falls slantwise through a sheet: the light is a product of three numbers that are none of them 0 or 1.
fn under_a_sheet(c: &mut Chance) -> Bake {
    let mut lists = Lists::default();
    level(&mut lists, -2.0, 0, [0.8, 0.6, 0.7, 0.0, 0.0, 0.0, 0.0]);
    level(&mut lists, 3.0, 1, [0.0, 0.0, 0.0, 0.0, 0.0, 0.0, c.between(0.5, 0.9)]);
    let sunlight = [c.between(0.1, 0.4), c.between(0.1, 0.4), 0.9, c.between(1.0, 3.0), c.between(1.0, 3.0), c.between(1.0, 3.0)];
    single(lists, sunlight, [0.0; 12], [0.0, 0.0, 0.0])
}

/// A small floor whose four rays to the sky pass four sheets far above it, one each: the order of the four shows in the last bit of their sum.
fn four_sheets(c: &mut Chance) -> Bake {
    let mut lists = Lists { kinds: vec![0], numbers: vec![0.8, 0.6, 0.7, 0.0, 0.0, 0.0, 0.0], ..Lists::default() };
    lists.points.extend([-8.0, -8.0, -2.0, 18.0, -8.0, -2.0, -8.0, 18.0, -2.0]);
    lists.uses.push(0);
    let passes = loop {
        let p = [0; 4].map(|_| c.between(0.1, 0.9));
        if ((p[0] + p[1]) + p[2]) + p[3] != ((p[3] + p[2]) + p[1]) + p[0] {
            break p;
        }
    };
    // straight up, and up at 60 degrees from the normal, as the hemisphere's frame over a level floor lies
    for ([x, y], passed) in [[0.0, 0.0], [0.0, 176.7], [-153.0, -88.3], [153.0, -88.3]].into_iter().zip(passes) {
        let z = 100.0;
        lists.points.extend([x - 60.0, y - 60.0, z, x + 140.0, y - 60.0, z, x - 60.0, y + 140.0, z]);
        lists.uses.push(lists.kinds.len() as u32);
        lists.kinds.push(1);
        lists.numbers.extend([0.0, 0.0, 0.0, 0.0, 0.0, 0.0, passed]);
    }
    let mut ambient = [0.0; 12];
    ambient[..3].copy_from_slice(&[0.9, 0.7, 0.3]);
    single(lists, [0.0, 0.0, -1.0, 1.0, 1.0, 1.0], ambient, [0.0, 0.0, 0.0])
}

/// A floor and a ceiling whose colours are at most 0: black once they are raised to 0, and so without rays of their own.
fn darker_than_black() -> Bake {
    let mut lists = Lists::default();
    level(&mut lists, -2.0, 0, [-1.0, 0.0, -0.5, 0.0, 0.0, 0.0, 0.0]);
    level(&mut lists, 3.0, 0, [0.0, 0.0, 0.0, 0.0, -0.25, -1.0, 0.0]);
    single(lists, [0.0, 0.0, 1.0, 1.0, 1.0, 1.0], [0.5; 12], [0.25, 0.5, 0.75])
}

fn rays(c: &mut Chance, world: &World) -> Vec<Item> {
    let mut asked = Vec::new();
    let mut out = Vec::new();
    for k in 0..10 {
        let ray = worlds::ray(c, world);
        let mut about = vec![ray];
        if k % 3 == 0 {
            about.extend(worlds::rays_about(world, &ray));
        }
        for r in about {
            asked.push((RayCall::Nearest, r));
            asked.push((RayCall::Transmittance, r));
        }
        let t = world.lists.uses.len();
        if t > 0 {
            let k = c.below(t);
            let mut points = [0.0; 9];
            points.copy_from_slice(&world.lists.points[9 * k..9 * k + 9]);
            out.push(Item::One(Call::Triangle { points, ray }));
        }
    }
    out.push(Item::Rays { lists: world.lists.clone(), hits: worlds::hits(c, &world.lists), asked });
    out
}

fn blurs(c: &mut Chance, world: &World) -> Vec<Item> {
    let axes = world.grid.axes;
    let n = voxels(&world.grid);
    let junk = c.pick(&[0.0, f32::NAN, f32::INFINITY, -4.0]);
    vec![
        Item::One(Call::LightBlur { axes, light: worlds::light_list(c, n), scratch: vec![junk; n] }),
        Item::One(Call::CoefficientBlur { axes, volume: worlds::coefficient_list(c, world), scratch: vec![junk; 16 * n] }),
    ]
}

fn sun(c: &mut Chance, world: &World) -> Vec<Item> {
    let n = voxels(&world.grid);
    let direction = worlds::towards(world);
    let mut masks = vec![world.active.clone()];
    if c.one_in(3) {
        masks.push(vec![1; n]);
        let whole = sunned(&world.grid, &world.lists, direction, Some(&masks[1]));
        let none = sunned(&world.grid, &world.lists, direction, None);
        assert!(whole.rays == none.rays && crate::calls::bits(&whole.after) == crate::calls::bits(&none.after), "a mask of ones equals the Rust's None");
    }
    masks
        .into_iter()
        .map(|active| {
            Item::One(Call::Sun {
                grid: world.grid,
                lists: world.lists.clone(),
                direction,
                active,
                light: vec![c.pick(&[f32::NAN, 0.5, -0.0]); n],
                scratch: vec![c.pick(&[f32::INFINITY, 0.25]); n],
                hits: worlds::hits(c, &world.lists),
            })
        })
        .collect()
}

fn fired(c: &mut Chance, world: &World) -> Vec<Item> {
    let light = lit(c, world);
    let mut bake = worlds::bake(c, world, light);
    bake.active = few(c, &bake.active);
    vec![Item::Fired(Box::new(bake))]
}

/// At most two of the voxels that are active: a voxel fires up to 896 rays, and each is recorded.
fn few(c: &mut Chance, active: &[u8]) -> Vec<u8> {
    let on: Vec<usize> = (0..active.len()).filter(|i| active[*i] == 1).collect();
    let mut out = vec![0; active.len()];
    if !on.is_empty() {
        out[c.pick(&on)] = 1;
        out[c.pick(&on)] = 1;
    }
    out
}

/// The light that a bake is lent: the sun pass's own, or anything.
fn lit(c: &mut Chance, world: &World) -> Vec<f32> {
    let n = voxels(&world.grid);
    match c.below(4) {
        0 => worlds::light_list(c, n),
        1 => vec![-0.0; n],
        _ => sunned(&world.grid, &world.lists, worlds::towards(world), Some(&world.active)).after,
    }
}

fn bakes(c: &mut Chance, world: &World) -> Vec<Item> {
    let n = voxels(&world.grid) as u64;
    let cost = table::cost(&world.lamps);
    let light = lit(c, world);
    let bake = worlds::bake(c, world, light);
    let figures = baked(&bake, Some(&bake.active));
    if world.active.iter().all(|a| *a == 1) {
        let none = baked(&bake, None);
        assert!(none.rays == figures.rays && crate::calls::bits(&none.after) == crate::calls::bits(&figures.after), "a mask of ones equals the Rust's None");
    }
    let done = Progress { next: n, rays: figures.rays.len() as u64 };
    let mut out = vec![Item::Bakes { bake: Box::new(bake.clone()), calls: vec![(Progress::default(), u64::MAX), (done, cost)] }];
    if n <= 40 {
        // interrupted, each call going on from the last; then once more at the end
        let mut calls = Vec::new();
        let mut now = bake.clone();
        let mut progress = Progress::default();
        while calls.len() < 12 {
            let allowance = if calls.len() == 11 { u64::MAX } else { cost + c.pick(&[0, 0, 1, 63, 64, 116, cost - 1, cost, 616, 2616]) };
            calls.push((progress, allowance));
            if progress.next == n {
                break;
            }
            now.progress = progress;
            now.allowance = allowance;
            progress = crate::answers::bake_call(&mut now, &figures).0;
        }
        out.push(Item::Bakes { bake: Box::new(bake.clone()), calls });
    }
    if n > 1 {
        // from the middle, over a volume that no bake wrote
        let mut middle = bake;
        middle.volume = worlds::coefficient_list(c, world);
        let start = 1 + c.below(n as usize - 1) as u64;
        let progress = Progress { next: start, rays: figures.rays_of[..start as usize].iter().sum() };
        out.push(Item::Bakes { bake: Box::new(middle), calls: vec![(progress, c.pick(&[cost, cost + 616, u64::MAX]))] });
    }
    out
}

fn lookups(c: &mut Chance, world: &World) -> Vec<Item> {
    let grid = world.grid;
    let n = voxels(&grid);
    let light = worlds::light_list(c, n);
    let volume = worlds::coefficient_list(c, world);
    let scratch = worlds::coefficient_list(c, world);
    let positions: Vec<[f32; 3]> = (0..12).map(|_| worlds::position(c, &grid)).collect();
    let mut out = vec![
        Item::LightLookups { grid, light, positions: positions.clone() },
        Item::CoefficientLookups { grid, volume: volume.clone(), positions: positions[..4].to_vec() },
    ];
    if n <= 30 {
        for choice in [false, true] {
            let index = c.below(n) as u64;
            out.push(Item::One(Call::Part { axes: grid.axes, volume: volume.clone(), scratch: scratch.clone(), index, choice }));
        }
    }
    out
}
