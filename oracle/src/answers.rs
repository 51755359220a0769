//! The Rust's answer to each call: the refusal by the table, else what the copies give.
use crate::calls::{bits, halves, word, Answer, Bake, Call, Grid, Lists, Progress, Ray, Scratch, Tree};
use crate::math::Vec3x4;
use crate::raytracer::{ray_triangle_intersect, RayTracer};
use crate::scene::Scene;
use crate::voxelgrid::VoxelGrid;
use crate::watch::{self, Fired};
use crate::worlds::voxels;
use crate::{gi, solid, table, trees, words};
use glam::{Vec3A, Vec4};

pub fn vector(v: &[f32]) -> Vec3A {
    Vec3A::new(v[0], v[1], v[2])
}

/// A scene of which only the rays are asked.
pub fn bare(lists: &Lists) -> Scene {
    Scene::new(&lists.points, &lists.uses, &lists.kinds, &lists.numbers, [0.0; 6], [0.0; 12], &[], &[])
}

pub fn voxel_grid(grid: &Grid) -> VoxelGrid {
    let a = grid.axes;
    VoxelGrid::new(a[0] as usize, a[1] as usize, a[2] as usize, vector(&grid.corners), vector(&grid.corners[3..]))
}

/// The voxels of a grid that are in a lent mask, as the copies take them.
pub fn flags(mask: &[u8], grid: &Grid) -> Vec<bool> {
    let words = words::lent(mask);
    (0..voxels(grid)).map(|i| words::voxel(&words, i)).collect()
}

pub fn packed(volume: &[f32]) -> Vec<[Vec4; 4]> {
    volume
        .chunks(16)
        .map(|v| [0, 1, 2, 3].map(|c| Vec4::new(v[4 * c], v[4 * c + 1], v[4 * c + 2], v[4 * c + 3])))
        .collect()
}

pub fn flat(volume: &[[Vec4; 4]]) -> Vec<f32> {
    volume.iter().flatten().flat_map(|v| [v.x, v.y, v.z, v.w]).collect()
}

/// The light as the Rust holds it, read back voxel by voxel.
pub fn light_of(grid: &VoxelGrid) -> Vec<f32> {
    let (w, h, _) = grid.dimensions();
    (0..grid.voxel_count()).map(|i| grid.get_light_intensity(i % w, i / w % h, i / (w * h))).collect()
}

/// Place in the lent list, distance, u and v of the nearest hit, and whether its front was met.
pub fn nearest(tracer: &RayTracer, ray: &Ray) -> Option<(u32, f32, f32, f32, bool)> {
    let (o, d) = (vector(&ray.origin), vector(&ray.direction));
    let hit = tracer.trace_nearest(o, d, ray.shortest, ray.longest)?;
    let triangle = tracer.triangle(hit.triangle_index);
    let (t, u, v, front) = ray_triangle_intersect(o, d, triangle, ray.shortest, ray.longest).expect("the nearest triangle is met");
    assert!(u.to_bits() == hit.bary_u.to_bits() && v.to_bits() == hit.bary_v.to_bits());
    Some((triangle.uv0.x as u32, t, u, v, front))
}

/// What the sun pass of the Rust gives: light before the blur, light after it, and the rays fired.
pub struct Sunned {
    pub before: Vec<f32>,
    pub after: Vec<f32>,
    pub rays: Vec<Fired>,
}

pub fn sunned(grid: &Grid, lists: &Lists, direction: [f32; 3], active: Option<&[u8]>) -> Sunned {
    let [x, y, z] = direction;
    let scene = Scene::new(&lists.points, &lists.uses, &lists.kinds, &lists.numbers, [x, y, z, 0.0, 0.0, 0.0], [0.0; 12], &[], &[]);
    let tracer = RayTracer::new(&scene);
    let mut voxels = voxel_grid(grid);
    if let Some(mask) = active {
        voxels.set_active_mask(flags(mask, grid));
    }
    watch::take_rays();
    watch::take_light();
    gi::compute_sun_visibility(&tracer, &scene, &mut voxels);
    let after = light_of(&voxels);
    let blurred = watch::take_light();
    let before = if blurred.is_empty() { after.clone() } else { blurred };
    Sunned { before, after, rays: watch::take_rays() }
}

/// What the bake of the Rust gives: ambient everywhere, the volume before the blur, after it, and the rays fired.
pub struct Baked {
    pub filled: Vec<f32>,
    pub before: Vec<f32>,
    pub after: Vec<f32>,
    pub rays: Vec<Fired>,
    pub rays_of: Vec<u64>,
    pub any: bool,
}

pub fn baked(bake: &Bake, active: Option<&[u8]>) -> Baked {
    let l = &bake.lists;
    let scene = Scene::new(&l.points, &l.uses, &l.kinds, &l.numbers, bake.sunlight, bake.ambient, &bake.sky, &bake.lamps);
    let tracer = RayTracer::new(&scene);
    let mut voxels = voxel_grid(&bake.grid);
    if let Some(mask) = active {
        voxels.set_active_mask(flags(mask, &bake.grid));
    }
    voxels.set_light_intensity_data(bake.light.clone());
    gi::initialize_voxel_gi_from_scene(&scene, &mut voxels, 1.0, 1.0);
    let filled = flat(voxels.gi_sh4());
    watch::take_rays();
    watch::take_volume();
    gi::bake_voxel_gi(&tracer, &scene, &mut voxels);
    let after = flat(voxels.gi_sh4());
    let blurred = watch::take_volume();
    let any = !blurred.is_empty();
    let before = if any { flat(&blurred) } else { after.clone() };
    let rays = watch::take_rays();
    let mut rays_of = vec![0; voxels.voxel_count()];
    for ray in &rays {
        rays_of[ray.voxel] += 1;
    }
    Baked { filled, before, after, rays, rays_of, any }
}

/// The same for C-22's engine: what the Rust gives, each transmittance in it held to the first hit.
pub fn solid_baked(bake: &Bake, active: Option<&[u8]>) -> Baked {
    let figures = baked(bake, active);
    solid::hold_all(&bake.lists, &figures.rays);
    figures
}

/// The same through C-20's tree: what the Rust gives over its candidates, each ray held to a walk of the tree.
pub fn tree_baked(bake: &Bake, tree: &Tree) -> Baked {
    let figures = trees::through(|| baked(bake, Some(&bake.active)));
    trees::hold_all(&bake.lists, tree, &figures.rays);
    figures
}

fn fired(kind: u32, ray: &Ray) -> Fired {
    Fired { voxel: 0, kind, origin: vector(&ray.origin), direction: vector(&ray.direction), shortest: ray.shortest, longest: ray.longest }
}

pub fn blurred_volume(grid: &Grid, volume: &[f32]) -> Vec<f32> {
    let mut voxels = voxel_grid(grid);
    voxels.set_all_gi_sh4(packed(volume));
    voxels.blur_gi_sh4();
    flat(voxels.gi_sh4())
}

/// One call of the bake, by module 7's rule over the Rust's own figures of each voxel. Answers C-16's record, whose rays have grown by
/// those of this call, and the rays of this call.
pub fn bake_call(bake: &mut Bake, figures: &Baked) -> (Progress, u64) {
    let (next, rays) = walked(bake, figures);
    (Progress { next, rays: bake.progress.rays + rays }, rays)
}

/// What a call does to the lists; answers the next voxel and the rays of this call.
fn walked(bake: &mut Bake, figures: &Baked) -> (u64, u64) {
    let active = flags(&bake.active, &bake.grid);
    let n = active.len();
    let start = bake.progress.next as usize;
    if start == n {
        return (n as u64, 0);
    }
    if start == 0 {
        bake.volume.copy_from_slice(&figures.filled);
    }
    let cost = table::cost(&bake.lamps);
    let mut rays = 0;
    let mut at = start;
    while at < n {
        if active[at] {
            if bake.allowance - rays < cost {
                return (at as u64, rays);
            }
            bake.volume[16 * at..16 * at + 16].copy_from_slice(&figures.before[16 * at..16 * at + 16]);
            assert!((64..=cost).contains(&figures.rays_of[at]), "a voxel fires between 64 rays and its cost");
            rays += figures.rays_of[at];
        }
        at += 1;
    }
    if active.contains(&true) {
        bake.scratch.copy_from_slice(&bake.volume);
        bake.volume = blurred_volume(&bake.grid, &bake.scratch);
    }
    (n as u64, rays)
}

fn low_high(x: u64) -> [u32; 2] {
    [x as u32, (x >> 32) as u32]
}

fn scratch_words(hits: &Scratch) -> [Vec<u32>; 2] {
    [bits(&hits.distances), halves(&hits.places)]
}

/// The answer to a call, and every lent list afterwards.
pub fn answer(call: &Call) -> Answer {
    let refusal = table::refusal(call);
    let good = refusal == 0;
    match call {
        Call::Triangle { points, ray } => {
            let mut words = vec![refusal, 0, 0, 0, 0, 0];
            if good {
                let lists = Lists { points: points.to_vec(), uses: vec![0], kinds: vec![0], numbers: vec![0.0; 7] };
                let tracer = RayTracer::new(&bare(&lists));
                let met = tracer.triangles().first().and_then(|triangle| {
                    ray_triangle_intersect(vector(&ray.origin), vector(&ray.direction), triangle, ray.shortest, ray.longest)
                });
                if let Some((t, u, v, front)) = met {
                    words = vec![0, 1, word(t), word(u), word(v), front as u32];
                }
            }
            Answer { words, lists: vec![] }
        }
        Call::Nearest { lists, ray } => {
            let mut words = vec![refusal, 0, 0, 0, 0, 0, 0];
            if good {
                if let Some((place, t, u, v, front)) = nearest(&RayTracer::new(&bare(lists)), ray) {
                    words = vec![0, 1, place, word(t), word(u), word(v), front as u32];
                }
            }
            Answer { words, lists: vec![] }
        }
        Call::Transmittance { lists, ray, hits } => {
            if !good {
                return Answer { words: vec![refusal, 0], lists: scratch_words(hits).to_vec() };
            }
            let scene = bare(lists);
            let value = RayTracer::new(&scene).trace_transmittance(
                vector(&ray.origin),
                vector(&ray.direction),
                &scene,
                ray.shortest,
                ray.longest,
            );
            Answer { words: vec![0, word(value)], lists: vec![] }
        }
        Call::SolidTransmittance { lists, ray } => {
            if !good {
                return Answer { words: vec![refusal, 0], lists: vec![] };
            }
            let scene = bare(lists);
            let tracer = RayTracer::new(&scene);
            let fired = fired(1, ray);
            let value = tracer.trace_transmittance(fired.origin, fired.direction, &scene, fired.shortest, fired.longest);
            solid::hold(&tracer, &fired, value);
            Answer { words: vec![0, word(value)], lists: vec![] }
        }
        Call::Masks { grid, points, occupied, active } => {
            if !good {
                return Answer { words: vec![refusal, 0, 0], lists: [occupied, active].map(|mask| words::read_back(&words::lent(mask), mask.len())).to_vec() };
            }
            let lists = Lists {
                points: points.clone(),
                uses: vec![0; points.len() / 9],
                kinds: vec![0],
                numbers: vec![0.0; 7],
            };
            let scene = bare(&lists);
            let mut voxels = voxel_grid(grid);
            gi::build_active_voxel_mask(&RayTracer::new(&scene), &scene, &mut voxels);
            let answered = [(voxels.occupied_mask(), occupied), (voxels.active_mask(), active)].map(|(mask, lent)| {
                assert!(lent.len() >= voxels.voxel_count(), "each voxel can be read back");
                let words = words::of(mask.expect("set"));
                (words::counted(&words), words::read_back(&words, lent.len()))
            });
            Answer { words: vec![0, answered[0].0, answered[1].0], lists: answered.map(|mask| mask.1).to_vec() }
        }
        Call::LightBlur { axes, light, scratch } => {
            if !good {
                return Answer { words: vec![refusal], lists: vec![bits(light), bits(scratch)] };
            }
            let mut voxels = voxel_grid(&Grid { axes: *axes, corners: [0.0, 0.0, 0.0, 1.0, 1.0, 1.0] });
            voxels.set_light_intensity_data(light.clone());
            voxels.blur_grid();
            Answer { words: vec![0], lists: vec![bits(&light_of(&voxels)), bits(light)] }
        }
        Call::CoefficientBlur { axes, volume, scratch } => {
            if !good {
                return Answer { words: vec![refusal], lists: vec![bits(volume), bits(scratch)] };
            }
            let grid = Grid { axes: *axes, corners: [0.0, 0.0, 0.0, 1.0, 1.0, 1.0] };
            Answer { words: vec![0], lists: vec![bits(&blurred_volume(&grid, volume)), bits(volume)] }
        }
        Call::Sun { grid, lists, direction, active, light, scratch, hits } => {
            if !good {
                let mut after = vec![bits(light), bits(scratch)];
                after.extend(scratch_words(hits));
                return Answer { words: vec![refusal, 0, 0], lists: after };
            }
            let s = sunned(grid, lists, *direction, Some(active));
            let count = flags(active, grid).iter().filter(|a| **a).count() as u64;
            assert!(s.rays.len() as u64 == count, "the sun pass fires a ray for each active voxel");
            let held = if count == 0 { bits(scratch) } else { bits(&s.before) };
            let mut after = vec![bits(&s.after), held];
            if count == 0 {
                after.extend(scratch_words(hits));
            }
            let [low, high] = low_high(count);
            Answer { words: vec![0, low, high], lists: after }
        }
        Call::SolidSun { grid, lists, direction, active, light, scratch } => {
            if !good {
                return Answer { words: vec![refusal, 0, 0], lists: vec![bits(light), bits(scratch)] };
            }
            let s = sunned(grid, lists, *direction, Some(active));
            let tracer = RayTracer::new(&bare(lists));
            s.rays.iter().for_each(|ray| solid::hold(&tracer, ray, s.before[ray.voxel]));
            let held = if s.rays.is_empty() { bits(scratch) } else { bits(&s.before) };
            let [low, high] = low_high(s.rays.len() as u64);
            Answer { words: vec![0, low, high], lists: vec![bits(&s.after), held] }
        }
        Call::Bake(bake) => {
            let mut after = (**bake).clone();
            let (progress, rays) = if good { bake_call(&mut after, &baked(bake, Some(&bake.active))) } else { as_handed_in(bake) };
            bake_answer(&after, refusal, progress, rays)
        }
        Call::SolidBake(bake) => {
            let mut after = (**bake).clone();
            let (progress, rays) = if good { bake_call(&mut after, &solid_baked(bake, Some(&bake.active))) } else { as_handed_in(bake) };
            solid_answer(&after, refusal, progress, rays)
        }
        Call::TreeNearest { lists, tree, ray } => {
            let mut words = [refusal, 0, 0, 0, 0, 0, 0].to_vec();
            if good {
                let tracer = RayTracer::new(&bare(lists));
                let found = trees::through(|| nearest(&tracer, ray));
                trees::hold_nearest(lists, tree, &tracer, &fired(0, ray), found);
                if let Some((place, t, u, v, front)) = found {
                    words = vec![0, 1, place, word(t), word(u), word(v), front as u32];
                }
            }
            Answer { words, lists: vec![] }
        }
        Call::TreeTransmittance { lists, tree, ray, hits } => {
            if !good {
                return Answer { words: vec![refusal, 0], lists: scratch_words(hits).to_vec() };
            }
            let scene = bare(lists);
            let tracer = RayTracer::new(&scene);
            let fired = fired(1, ray);
            let value = trees::through(|| tracer.trace_transmittance(fired.origin, fired.direction, &scene, fired.shortest, fired.longest));
            trees::hold_transmittance(lists, tree, &tracer, &fired, value);
            Answer { words: vec![0, word(value)], lists: vec![] }
        }
        Call::TreeSun { grid, lists, tree, direction, active, light, scratch, hits } => {
            if !good {
                let mut after = vec![bits(light), bits(scratch)];
                after.extend(scratch_words(hits));
                return Answer { words: vec![refusal, 0, 0], lists: after };
            }
            let s = trees::through(|| sunned(grid, lists, *direction, Some(active)));
            let count = flags(active, grid).iter().filter(|a| **a).count() as u64;
            assert!(s.rays.len() as u64 == count, "the sun pass fires a ray for each active voxel");
            trees::hold_all(lists, tree, &s.rays);
            let held = if count == 0 { bits(scratch) } else { bits(&s.before) };
            let mut after = vec![bits(&s.after), held];
            if count == 0 {
                after.extend(scratch_words(hits));
            }
            let [low, high] = low_high(count);
            Answer { words: vec![0, low, high], lists: after }
        }
        Call::TreeBake(bake, tree) => {
            let mut after = (**bake).clone();
            let (progress, rays) = if good { bake_call(&mut after, &tree_baked(bake, tree)) } else { as_handed_in(bake) };
            bake_answer(&after, refusal, progress, rays)
        }
        Call::BuildTree { points, tree } => {
            let mut words = vec![refusal, 0, 0];
            let mut after = tree.clone();
            if good {
                let own = trees::built(points);
                assert!(trees::accepted(points, &own), "the builder's trees are accepted");
                words = vec![0, own.nodes.len() as u32 / 3, own.order.len() as u32];
                after.boxes[..own.boxes.len()].copy_from_slice(&own.boxes);
                after.nodes[..own.nodes.len()].copy_from_slice(&own.nodes);
                after.order[..own.order.len()].copy_from_slice(&own.order);
            }
            Answer { words, lists: vec![bits(&after.boxes), after.nodes, after.order] }
        }
        Call::LightLookup { grid, light, position } => {
            let mut words = vec![refusal, 0];
            if good {
                let mut voxels = voxel_grid(grid);
                voxels.set_light_intensity_data(light.clone());
                let [x, y, z] = *position;
                let four = voxels.get_filtered_light_intensity_vec(Vec3x4::from_f32(x, y, z));
                assert!((1..4).all(|lane| word(four[lane]) == word(four[0])), "lanes agree");
                words[1] = word(four[0]);
            }
            Answer { words, lists: vec![] }
        }
        Call::CoefficientLookup { grid, volume, position } => {
            let mut words = vec![0; 17];
            words[0] = refusal;
            if good {
                let mut voxels = voxel_grid(grid);
                voxels.set_all_gi_sh4(packed(volume));
                let [x, y, z] = *position;
                let (rgb, w) = voxels.get_filtered_gi_sh4_packed_vec(Vec3x4::from_f32(x, y, z));
                for c in 0..4 {
                    let colour = rgb[c].extract_lane(0);
                    for (i, n) in [colour.x, colour.y, colour.z, w[c].x].into_iter().enumerate() {
                        words[1 + 4 * c + i] = word(n);
                    }
                }
            }
            Answer { words, lists: vec![] }
        }
        Call::Part { axes: _, volume, scratch, index, choice } => {
            let list = if *choice { scratch } else { volume };
            let part = if good { bits(&list[16 * *index as usize..16 * *index as usize + 16]) } else { vec![] };
            Answer { words: vec![refusal], lists: vec![part] }
        }
    }
}

/// A refused call's record and rays.
pub fn as_handed_in(bake: &Bake) -> (Progress, u64) {
    (bake.progress, 0)
}

/// The answer of a bake whose lists stand as in `after`. Hit scratch is held to what it was where no ray is traced.
pub fn bake_answer(after: &Bake, refusal: u32, progress: Progress, rays: u64) -> Answer {
    let mut words = vec![refusal];
    words.extend(low_high(progress.next));
    words.extend(low_high(progress.rays));
    words.extend(low_high(rays));
    let mut lists = vec![bits(&after.volume), bits(&after.scratch)];
    if refusal != 0 || rays == 0 {
        lists.extend(scratch_words(&after.hits));
    }
    Answer { words, lists }
}

/// The answer of C-22's bake: that of the other engine, which was lent no hit scratch to be held.
pub fn solid_answer(after: &Bake, refusal: u32, progress: Progress, rays: u64) -> Answer {
    let answer = bake_answer(after, refusal, progress, rays);
    Answer { words: answer.words, lists: answer.lists[..2].to_vec() }
}
