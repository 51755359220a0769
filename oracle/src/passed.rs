//! A search for what C-20 calls differences: triangles that the full scan meets though their own padded box is passed over, among many rays over halls and
//! seeded scenes: those that a bake and a sun pass fire, any that a caller may ask, and such as pass close beside boxes and walls, near and from far.
use crate::answers::{baked, sunned, vector};
use crate::calls::{Lists, Ray};
use crate::chance::Chance;
use crate::raytracer::{ray_triangle_intersect, RayTracer};
use crate::tree_places::grazed;
use crate::trees::{self, Bounds};
use crate::watch::{take_rays, Fired};
use crate::worlds::{self, World, FAMILIES};
use crate::{answers, trees::passed_over};
use std::fmt::Write;
use std::ops::Range;

/// Rays of each sort for a scene.
const RAYS: usize = 4000;

/// What was found of one sort of rays.
#[derive(Default)]
struct Found {
    rays: u64,
    met: u64,
    /// Rays with a triangle that is met though passed over, and such hits.
    with: u64,
    hits: u64,
    /// Rays whose nearest hit or transmittance is another through a tree.
    nearest: u64,
    transmittance: u64,
}

/// A hit of a passed-over triangle.
struct Example {
    size: f32,
    seed: u64,
    sort: &'static str,
    points: [f32; 9],
    ray: Fired,
    t: f32,
    off: f32,
}

struct Scene<'a> {
    lists: &'a Lists,
    scene: crate::scene::Scene,
    tracer: RayTracer,
    boxes: Vec<Bounds>,
}

impl<'a> Scene<'a> {
    fn new(lists: &'a Lists) -> Self {
        let scene = answers::bare(lists);
        let tracer = RayTracer::new(&scene);
        let boxes = tracer.triangles().iter().map(|triangle| trees::padded(&lists.points, triangle.uv0.x as usize)).collect();
        Scene { lists, scene, tracer, boxes }
    }

    fn try_ray(&self, ray: &Fired, sort: &'static str, seed: u64, found: &mut Found, least: &mut Option<Example>) {
        let (o, d) = ([ray.origin.x, ray.origin.y, ray.origin.z], [ray.direction.x, ray.direction.y, ray.direction.z]);
        let (mut any, mut hits) = (false, 0);
        for (triangle, own) in self.tracer.triangles().iter().zip(&self.boxes) {
            let Some((t, _, _, front)) = ray_triangle_intersect(ray.origin, ray.direction, triangle, ray.shortest, ray.longest) else {
                continue;
            };
            any = true;
            // a panel's back is absent in either scan
            let kind = triangle.uv0.y as u8;
            if !passed_over(own, o, d) || kind == crate::panels::PANEL && !front {
                continue;
            }
            hits += 1;
            let place = triangle.uv0.x as usize;
            let mut points = [0.0; 9];
            points.copy_from_slice(&self.lists.points[9 * place..9 * place + 9]);
            let size = points.iter().chain(&o).fold(0.0f32, |most, x| most.max(x.abs()));
            // how far above or below it the origin lies, on the axes for which it is passed over
            let off = (0..3).fold(0.0f32, |most, k| {
                let above = if d[k] < 0.0 { 0.0 } else { o[k] - own.high[k] };
                let below = if d[k] > 0.0 { 0.0 } else { own.low[k] - o[k] };
                most.max(above).max(below)
            });
            if least.as_ref().is_none_or(|other| size < other.size) {
                *least = Some(Example { size, seed, sort, points, ray: *ray, t, off });
            }
        }
        found.rays += 1;
        found.met += any as u64;
        found.with += (hits > 0) as u64;
        found.hits += hits;
        if hits > 0 {
            let nearest = || self.tracer.trace_nearest(ray.origin, ray.direction, ray.shortest, ray.longest).map(|hit| hit.triangle_index);
            found.nearest += (nearest() != trees::through(nearest)) as u64;
            let through = || self.tracer.trace_transmittance(ray.origin, ray.direction, &self.scene, ray.shortest, ray.longest);
            found.transmittance += (through().to_bits() != trees::through(through).to_bits()) as u64;
            take_rays();
        }
    }
}

fn fired(ray: &Ray) -> Fired {
    Fired { voxel: 0, kind: 0, origin: vector(&ray.origin), direction: vector(&ray.direction), shortest: ray.shortest, longest: ray.longest }
}

/// Along a wall: from a point of one triangle's plane or a little off it, nearly in that plane, towards anywhere in the scene.
fn along_a_wall(c: &mut Chance, lists: &Lists) -> Ray {
    let at = |c: &mut Chance| {
        let place = c.below(lists.uses.len());
        let p = &lists.points[9 * place..9 * place + 9];
        let (a, b) = (c.between(-0.5, 1.5), c.between(-0.5, 1.5));
        ([0, 1, 2].map(|k| p[k] + (p[3 + k] - p[k]) * a + (p[6 + k] - p[k]) * b), place)
    };
    let (mut origin, place) = at(c);
    let p = &lists.points[9 * place..9 * place + 9];
    let (a, b) = (c.between(-1.0, 1.0), c.between(-1.0, 1.0));
    let off = c.pick(&[0.0, 1.1e-5, -1.1e-5, 2.0e-5, -2.0e-5, 1.0e-4, -1.0e-4]);
    let tilt = c.pick(&[0.0, 0.0, 1.0e-7, -1.0e-7, 1.0e-5, -1.0e-5]);
    let mut direction = [0, 1, 2].map(|k| (p[3 + k] - p[k]) * a + (p[6 + k] - p[k]) * b);
    let most = direction.iter().fold(f32::MIN_POSITIVE, |most, x| most.max(x.abs()));
    for k in 0..3 {
        direction[k] = (direction[k] / most + c.pick(&[0.0, tilt])).clamp(-2.0, 2.0);
        origin[k] = (origin[k] + c.pick(&[0.0, off])).clamp(-65536.0, 65536.0);
    }
    Ray { origin, direction, shortest: c.pick(&[0.0, 0.0, 1.0e-4]), longest: f32::INFINITY }
}

/// From a face of a triangle's own box outward by a step or some, along that face or away from it, towards the triangle on the other axes.
fn beside_a_box(c: &mut Chance, lists: &Lists, far: f32) -> Ray {
    let place = c.below(lists.uses.len());
    let p = &lists.points[9 * place..9 * place + 9];
    let own = trees::padded(&lists.points, place);
    let (axis, high) = (c.below(3), c.one_in(2));
    let (a, b) = (c.unit(), c.unit());
    let target = [0, 1, 2].map(|k| p[k] + (p[3 + k] - p[k]) * a + (p[6 + k] - p[k]) * (1.0 - a) * b);
    let mut direction = [0, 1, 2].map(|_| c.between(-1.0, 1.0));
    let outward = if high { 1.0f32 } else { -1.0 };
    direction[axis] = outward * c.pick(&[0.0, -0.0, 1.0e-7, 1.0e-5, 1.0e-3]);
    let way = c.between(0.0, far);
    let mut origin = [0, 1, 2].map(|k| (target[k] - direction[k] * way).clamp(-65536.0, 65536.0));
    let face = if high { own.high[axis] } else { own.low[axis] };
    origin[axis] = (0..c.pick(&[0, 1, 2, 8, 64])).fold(worlds::step(face, outward as i32), |x, _| worlds::step(x, outward as i32));
    Ray { origin, direction, shortest: c.pick(&[0.0, 0.0, 1.0e-4]), longest: f32::INFINITY }
}

const SORTS: [&str; 8] = [
    "fired by the sun pass",
    "fired by the bake",
    "any that a caller may ask",
    "from a voxel's centre or a surface, any way",
    "along a wall",
    "beside a box, within the hall",
    "beside a box, from afar",
    "at one tiny triangle far off or near",
];

fn scene_of(which: u64, seed: u64) -> World {
    let hall = FAMILIES.iter().position(|name| *name == "closed hall").expect("halls");
    if which == 0 { worlds::family(hall, seed) } else { worlds::world(seed) }
}

/// Rays of every sort over a hall and a scene of each seed.
pub fn searched(seeds: Range<u64>) -> String {
    let mut out = String::new();
    for (which, name) in ["closed halls", "seeded scenes"].into_iter().enumerate() {
        let mut found: [Found; SORTS.len()] = Default::default();
        // the least example of each sort
        let mut least: [Option<Example>; SORTS.len()] = Default::default();
        let (mut scenes, mut triangles) = (0, 0);
        for seed in seeds.clone() {
            let world = scene_of(which as u64, seed);
            if world.lists.uses.is_empty() {
                continue;
            }
            scenes += 1;
            triangles += world.lists.uses.len();
            let mut chance = Chance::new(seed ^ 0xC20_5EA4);
            let c = &mut chance;
            let scene = Scene::new(&world.lists);
            let size = (0..3).fold(0.0f32, |most, k| most.max(world.grid.corners[3 + k] - world.grid.corners[k]));
            let mut one = |sort: usize, ray: &Fired| scene.try_ray(ray, SORTS[sort], seed, &mut found[sort], &mut least[sort]);
            sunned(&world.grid, &world.lists, worlds::towards(&world), Some(&world.active)).rays.iter().for_each(|ray| one(0, ray));
            let light = vec![0.5; world.active.len()];
            let bake = worlds::bake(c, &world, light);
            baked(&bake, Some(&bake.active)).rays.iter().for_each(|ray| one(1, ray));
            for _ in 0..RAYS {
                one(2, &fired(&worlds::ray(c, &world)));
                let mut ray = worlds::ray(c, &world);
                ray.direction = [0, 1, 2].map(|_| c.between(-1.0, 1.0));
                one(3, &fired(&ray));
                one(4, &fired(&along_a_wall(c, &world.lists)));
                one(5, &fired(&beside_a_box(c, &world.lists, 1.5 * size)));
                one(6, &fired(&beside_a_box(c, &world.lists, 60000.0)));
            }
            for k in 0..RAYS {
                let (points, ray) = grazed(c, k % 2 == 0);
                let single = Lists { points: points.to_vec(), uses: vec![0], kinds: vec![0], numbers: vec![0.5; 7] };
                Scene::new(&single).try_ray(&fired(&ray), SORTS[7], seed, &mut found[7], &mut least[7]);
            }
        }
        let _ = writeln!(out, "{scenes} {name}, {triangles} triangles");
        for (sort, found) in SORTS.iter().zip(&found) {
            let Found { rays, met, with, hits, nearest, transmittance } = found;
            let _ = writeln!(out, "  {rays:>9} rays {sort}: {met} meet something, {with} meet a triangle that is passed over ({hits} such hits), {nearest} another nearest hit, {transmittance} another transmittance");
        }
        for example in least.iter().flatten() {
            let hex = |l: &[f32]| l.iter().map(|x| format!("{:08x}", x.to_bits())).collect::<Vec<_>>().join(" ");
            let r = &example.ray;
            let (o, d) = ([r.origin.x, r.origin.y, r.origin.z], [r.direction.x, r.direction.y, r.direction.z]);
            let _ = writeln!(
                out,
                "  the smallest {}, seed {}, no coordinate above {}, {:e} off the box: points {} origin {} direction {} shortest {} longest {} distance {}",
                example.sort,
                example.seed,
                example.size,
                example.off,
                hex(&example.points),
                hex(&o),
                hex(&d),
                hex(&[r.shortest]),
                hex(&[r.longest]),
                hex(&[example.t])
            );
        }
    }
    out
}
