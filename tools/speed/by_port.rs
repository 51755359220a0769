//! The measured calls by the port.
use crate::hall::{Hall, Panes, AMBIENT, AXES, COLOUR, CORNERS, DIRECTION, MATERIALS, NUMBERS, PANE_KINDS, PANE_NUMBERS, VOXELS};
use crate::port::{self, Ambient, Axes, CoefficientsAt, Corners, Light, LightAt, Progress, Ray, RayHit, Transmitted, Triangle, Vec3};
use crate::{bits, measure, met, Lists, MET, POSITIONS, RAYS, SHORTEST};

const GRID: Axes = Axes { width: AXES[0], height: AXES[1], depth: AXES[2] };
const WORDS: usize = (VOXELS + 63) / 64;
/// The least allowance of a bake without lamps.
const LEAST: u64 = 384;

fn vec3(v: &[f32]) -> Vec3 {
    Vec3 { x: v[0], y: v[1], z: v[2] }
}

fn words(mask: &[bool]) -> Vec<u64> {
    mask.chunks(64).map(|word| word.iter().rev().fold(0, |w, marked| 2 * w + *marked as u64)).collect()
}

/// An entry a voxel.
fn entries(mask: &[u64]) -> impl Iterator<Item = u32> + '_ {
    (0..VOXELS).map(|i| (mask[i / 64] >> (i % 64)) as u32 & 1)
}

/// The builder's tree of the hall.
struct Tree {
    boxes: Vec<f32>,
    nodes: Vec<u32>,
    order: Vec<u32>,
}

impl Tree {
    fn room(triangles: usize) -> Self {
        Tree { boxes: vec![0.0; 6 * triangles], nodes: vec![0; 3 * triangles], order: vec![0; triangles] }
    }

    /// Builds it where there is room, and answers the refusal's number.
    fn fill(&mut self, points: &[f32]) -> u32 {
        let t = points.len() / 9;
        let built = unsafe {
            port::geaidnosa_build_tree(points.as_ptr(), 9 * t, self.boxes.as_mut_ptr(), self.boxes.len(), self.nodes.as_mut_ptr(), self.nodes.len(), self.order.as_mut_ptr(), self.order.len())
        };
        self.boxes.truncate(6 * built.boxes);
        self.nodes.truncate(3 * built.boxes);
        self.order.truncate(built.places);
        built.refusal
    }
}

/// How a bake is called.
#[derive(Clone, Copy, PartialEq)]
enum By {
    List,
    Solid,
    Tree,
}

/// What the calls answer and write.
struct State {
    hits: Vec<RayHit>,
    passed: Vec<Transmitted>,
    lit: Vec<LightAt>,
    coefficients: Vec<CoefficientsAt>,
    occupied: Vec<u64>,
    active: Vec<u64>,
    lights: Vec<f32>,
    lights_scratch: Vec<f32>,
    volume: Vec<f32>,
    volume_scratch: Vec<f32>,
    distances: Vec<f32>,
    places: Vec<usize>,
    tree: Tree,
    progress: Progress,
    refusal: u32,
}

impl State {
    fn new(triangles: usize) -> Self {
        State {
            hits: Vec::with_capacity(RAYS.max(MET * triangles)),
            passed: Vec::with_capacity(RAYS),
            lit: Vec::with_capacity(POSITIONS),
            coefficients: Vec::with_capacity(POSITIONS),
            occupied: vec![7; WORDS],
            active: vec![7; WORDS],
            lights: vec![0.0; VOXELS],
            lights_scratch: vec![0.0; VOXELS],
            volume: vec![0.0; 16 * VOXELS],
            volume_scratch: vec![0.0; 16 * VOXELS],
            distances: vec![0.0; triangles],
            places: vec![0; triangles],
            tree: Tree::room(triangles),
            progress: Progress { next: 0, rays: 0 },
            refusal: 0,
        }
    }

    fn refused(&self) -> bool {
        let hits = self.hits.iter().map(|x| x.refusal).chain(self.passed.iter().map(|x| x.refusal));
        let looked_up = self.lit.iter().map(|x| x.refusal).chain(self.coefficients.iter().map(|x| x.refusal));
        hits.chain(looked_up).chain([self.refusal]).any(|refusal| refusal != 0)
    }

    fn hit_words(&self) -> Vec<u32> {
        self.hits.iter().flat_map(|h| met((h.hit == 1).then_some((h.place, h.t, h.u, h.v)))).collect()
    }

    /// The bake to its end, so many rays a call.
    fn bake(&mut self, hall: &Hall, lists: &Lists, few: &[u64], corners: Corners, by: By, allowance: u64) {
        self.progress = Progress { next: 0, rays: 0 };
        while self.progress.next < VOXELS && self.refusal == 0 {
            self.bake_on(hall, lists, few, corners, by, allowance);
        }
    }

    /// One call of the bake.
    fn bake_on(&mut self, hall: &Hall, lists: &Lists, few: &[u64], corners: Corners, by: By, allowance: u64) {
        let light = Light { direction: vec3(&DIRECTION), colour: vec3(&COLOUR) };
        let ambient = Ambient { c: [0, 3, 6, 9].map(|i| vec3(&AMBIENT[i..])) };
        let (triangles, progress) = (hall.triangles(), self.progress);
        let answer = match by {
            By::List => unsafe {
                port::geaidnosa_bake(
                    GRID, corners, hall.points.as_ptr(), 9 * triangles, hall.uses.as_ptr(), triangles, hall.kinds.as_ptr(), MATERIALS, NUMBERS.as_ptr(),
                    7 * MATERIALS, light, ambient, hall.sky.as_ptr(), hall.sky.len(), hall.sky.as_ptr(), 0, few.as_ptr(), WORDS, lists.lights.as_ptr(), VOXELS,
                    self.volume.as_mut_ptr(), 16 * VOXELS, self.volume_scratch.as_mut_ptr(), 16 * VOXELS, self.distances.as_mut_ptr(), triangles,
                    self.places.as_mut_ptr(), triangles, progress, allowance,
                )
            },
            By::Solid => unsafe {
                port::geaidnosa_solid_bake(
                    GRID, corners, hall.points.as_ptr(), 9 * triangles, hall.uses.as_ptr(), triangles, hall.kinds.as_ptr(), MATERIALS, NUMBERS.as_ptr(),
                    7 * MATERIALS, light, ambient, hall.sky.as_ptr(), hall.sky.len(), hall.sky.as_ptr(), 0, few.as_ptr(), WORDS, lists.lights.as_ptr(), VOXELS,
                    self.volume.as_mut_ptr(), 16 * VOXELS, self.volume_scratch.as_mut_ptr(), 16 * VOXELS, progress, allowance,
                )
            },
            By::Tree => unsafe {
                let Tree { boxes, nodes, order } = &self.tree;
                port::geaidnosa_tree_bake(
                    GRID, corners, hall.points.as_ptr(), 9 * triangles, hall.uses.as_ptr(), triangles, hall.kinds.as_ptr(), MATERIALS, NUMBERS.as_ptr(),
                    7 * MATERIALS, boxes.as_ptr(), boxes.len(), nodes.as_ptr(), nodes.len(), order.as_ptr(), order.len(), light, ambient, hall.sky.as_ptr(),
                    hall.sky.len(), hall.sky.as_ptr(), 0, few.as_ptr(), WORDS, lists.lights.as_ptr(), VOXELS, self.volume.as_mut_ptr(), 16 * VOXELS,
                    self.volume_scratch.as_mut_ptr(), 16 * VOXELS, self.distances.as_mut_ptr(), triangles, self.places.as_mut_ptr(), triangles, progress, allowance,
                )
            },
        };
        self.refusal = answer.refusal;
        self.progress = answer.progress;
    }

    /// The sun over a mask, through the tree or not.
    fn sun(&mut self, hall: &Hall, corners: Corners, mask: &[u64], through_tree: bool) {
        let (points, uses, kinds, numbers) = (hall.points.as_ptr(), hall.uses.as_ptr(), hall.kinds.as_ptr(), NUMBERS.as_ptr());
        let count = hall.triangles();
        let (lights, scratch, distances, places) = (self.lights.as_mut_ptr(), self.lights_scratch.as_mut_ptr(), self.distances.as_mut_ptr(), self.places.as_mut_ptr());
        let Tree { boxes, nodes, order } = &self.tree;
        let sunned = if through_tree {
            unsafe {
                port::geaidnosa_tree_sun(
                    GRID, corners, points, 9 * count, uses, count, kinds, MATERIALS, numbers, 7 * MATERIALS, boxes.as_ptr(), boxes.len(), nodes.as_ptr(), nodes.len(),
                    order.as_ptr(), order.len(), vec3(&DIRECTION), mask.as_ptr(), WORDS, lights, VOXELS, scratch, VOXELS, distances, count, places, count,
                )
            }
        } else {
            unsafe {
                port::geaidnosa_sun(
                    GRID, corners, points, 9 * count, uses, count, kinds, MATERIALS, numbers, 7 * MATERIALS, vec3(&DIRECTION), mask.as_ptr(), WORDS, lights, VOXELS,
                    scratch, VOXELS, distances, count, places, count,
                )
            }
        };
        self.refusal = sunned.refusal;
    }

    fn tree_nearest(&self, hall: &Hall, ray: Ray) -> RayHit {
        let (count, Tree { boxes, nodes, order }) = (hall.triangles(), &self.tree);
        unsafe {
            port::geaidnosa_tree_nearest(
                hall.points.as_ptr(), 9 * count, hall.uses.as_ptr(), count, hall.kinds.as_ptr(), MATERIALS, NUMBERS.as_ptr(), 7 * MATERIALS, boxes.as_ptr(), boxes.len(),
                nodes.as_ptr(), nodes.len(), order.as_ptr(), order.len(), ray,
            )
        }
    }

    fn tree_transmittance(&mut self, hall: &Hall, ray: Ray) -> Transmitted {
        let (count, Tree { boxes, nodes, order }) = (hall.triangles(), &self.tree);
        unsafe {
            port::geaidnosa_tree_transmittance(
                hall.points.as_ptr(), 9 * count, hall.uses.as_ptr(), count, hall.kinds.as_ptr(), MATERIALS, NUMBERS.as_ptr(), 7 * MATERIALS, boxes.as_ptr(), boxes.len(),
                nodes.as_ptr(), nodes.len(), order.as_ptr(), order.len(), ray, self.distances.as_mut_ptr(), count, self.places.as_mut_ptr(), count,
            )
        }
    }
}

pub fn answer(call: &str, turns: Option<usize>, hall: &Hall, lists: &Lists) -> Vec<u32> {
    let corners = Corners { min: vec3(&CORNERS), max: vec3(&CORNERS[3..]) };
    let ray = |r: &crate::hall::Line| Ray { origin: vec3(&r.origin), direction: vec3(&r.direction), shortest: SHORTEST, longest: f32::INFINITY };
    let rays: Vec<Ray> = lists.lines.iter().map(ray).collect();
    let positions: Vec<Vec3> = lists.positions.iter().map(|p| vec3(p)).collect();
    let triangles: Vec<Triangle> = hall.points.chunks(9).map(|p| Triangle { p0: vec3(p), p1: vec3(&p[3..]), p2: vec3(&p[6..]) }).collect();
    let (points, uses, kinds, numbers) = (hall.points.as_ptr(), hall.uses.as_ptr(), hall.kinds.as_ptr(), NUMBERS.as_ptr());
    let mut state = State::new(hall.triangles());
    let count = hall.triangles();
    let s = &mut state;
    assert!(s.tree.fill(&hall.points) == 0, "the hall has a tree");
    let still = |_: &mut State| {};
    let with_lists = |s: &mut State| {
        s.lights.copy_from_slice(&lists.lights);
        s.volume.copy_from_slice(&lists.volume);
    };
    let (active, few) = (words(&lists.active), words(&lists.few));
    let answered = match call {
        "meet" => {
            measure(turns, s, |s| s.hits.clear(), |s| {
                for ray in &rays[..MET] {
                    for triangle in &triangles {
                        s.hits.push(unsafe { port::geaidnosa_meet(*ray, *triangle) });
                    }
                }
            });
            s.hit_words()
        }
        "nearest" => {
            measure(turns, s, |s| s.hits.clear(), |s| {
                for ray in &rays {
                    s.hits.push(unsafe { port::geaidnosa_nearest(points, 9 * count, uses, count, kinds, MATERIALS, numbers, 7 * MATERIALS, *ray) });
                }
            });
            s.hit_words()
        }
        "transmittance" => {
            measure(turns, s, |s| s.passed.clear(), |s| {
                for ray in &rays {
                    s.passed.push(unsafe {
                        port::geaidnosa_transmittance(
                            points, 9 * count, uses, count, kinds, MATERIALS, numbers, 7 * MATERIALS, *ray, s.distances.as_mut_ptr(), count,
                            s.places.as_mut_ptr(), count,
                        )
                    });
                }
            });
            s.passed.iter().map(|p| p.transmittance.to_bits()).collect()
        }
        "tree nearest" => {
            measure(turns, s, |s| s.hits.clear(), |s| {
                for ray in &rays {
                    let hit = s.tree_nearest(hall, *ray);
                    s.hits.push(hit);
                }
            });
            s.hit_words()
        }
        "tree transmittance" => {
            measure(turns, s, |s| s.passed.clear(), |s| {
                for ray in &rays {
                    let passed = s.tree_transmittance(hall, *ray);
                    s.passed.push(passed);
                }
            });
            s.passed.iter().map(|p| p.transmittance.to_bits()).collect()
        }
        "solid transmittance" => {
            measure(turns, s, |s| s.passed.clear(), |s| {
                for ray in &rays {
                    s.passed.push(unsafe { port::geaidnosa_solid_transmittance(points, 9 * count, uses, count, kinds, MATERIALS, numbers, 7 * MATERIALS, *ray) });
                }
            });
            s.passed.iter().map(|p| p.transmittance.to_bits()).collect()
        }
        "masks" => {
            measure(turns, s, still, |s| {
                s.refusal = unsafe {
                    port::geaidnosa_masks(GRID, corners, points, 9 * count, s.occupied.as_mut_ptr(), WORDS, s.active.as_mut_ptr(), WORDS).refusal
                };
            });
            entries(&s.occupied).chain(entries(&s.active)).collect()
        }
        "light blur" => {
            measure(turns, s, with_lists, |s| {
                s.refusal = unsafe { port::geaidnosa_light_blur(GRID, s.lights.as_mut_ptr(), VOXELS, s.lights_scratch.as_mut_ptr(), VOXELS) };
            });
            bits(&s.lights)
        }
        "coefficient blur" => {
            measure(turns, s, with_lists, |s| {
                s.refusal = unsafe { port::geaidnosa_coefficient_blur(GRID, s.volume.as_mut_ptr(), 16 * VOXELS, s.volume_scratch.as_mut_ptr(), 16 * VOXELS) };
            });
            bits(&s.volume)
        }
        "sun" | "tree sun" => {
            measure(turns, s, still, |s| s.sun(hall, corners, &active, call == "tree sun"));
            bits(&s.lights)
        }
        // where no voxel is active a call only tests its input
        "sun of no voxel" | "tree sun of no voxel" => {
            measure(turns, s, still, |s| s.sun(hall, corners, &[0; WORDS], call.starts_with("tree")));
            bits(&s.lights)
        }
        "solid sun" => {
            measure(turns, s, still, |s| {
                s.refusal = unsafe {
                    port::geaidnosa_solid_sun(
                        GRID, corners, points, 9 * count, uses, count, kinds, MATERIALS, numbers, 7 * MATERIALS, vec3(&DIRECTION),
                        active.as_ptr(), WORDS, s.lights.as_mut_ptr(), VOXELS, s.lights_scratch.as_mut_ptr(), VOXELS,
                    )
                    .refusal
                };
            });
            bits(&s.lights)
        }
        "bake" | "bake in parts" | "solid bake" | "tree bake" | "tree bake in parts" => {
            let by = match call.split_once(' ') {
                Some(("solid", _)) => By::Solid,
                Some(("tree", _)) => By::Tree,
                _ => By::List,
            };
            let allowance = if call.ends_with("in parts") { 2000 } else { u64::MAX };
            measure(turns, s, still, |s| s.bake(hall, lists, &few, corners, by, allowance));
            bits(&s.volume)
        }
        // under way, well inside the hall: a first call fills the volume and bakes some forty voxels
        "bake call" | "tree bake call" => {
            let by = if call == "bake call" { By::List } else { By::Tree };
            let first = |s: &mut State| {
                s.progress = Progress { next: 0, rays: 0 };
                s.bake_on(hall, lists, &few, corners, by, 40 * LEAST);
            };
            measure(turns, s, first, |s| s.bake_on(hall, lists, &few, corners, by, LEAST));
            bits(&s.volume)
        }
        "tree build" => {
            let room = |s: &mut State| s.tree = Tree::room(count);
            measure(turns, s, room, |s| s.refusal = s.tree.fill(&hall.points));
            s.tree.order.iter().chain(&s.tree.nodes).copied().chain(bits(&s.tree.boxes)).collect()
        }
        // a ray that is refused once the tree is accepted: the test of the input, and nothing else
        "tested" | "tree tested" => {
            let beyond = Ray { direction: Vec3 { x: 3.0, y: 0.0, z: 0.0 }, ..rays[0] };
            measure(turns, s, |s| s.hits.clear(), |s| {
                s.hits.push(if call == "tested" {
                    unsafe { port::geaidnosa_nearest(points, 9 * count, uses, count, kinds, MATERIALS, numbers, 7 * MATERIALS, beyond) }
                } else {
                    s.tree_nearest(hall, beyond)
                });
            });
            s.hits.drain(..).map(|h| h.refusal).collect()
        }
        "light at" => {
            measure(turns, s, |s| s.lit.clear(), |s| {
                for p in &positions {
                    s.lit.push(unsafe { port::geaidnosa_light_at(GRID, corners, lists.lights.as_ptr(), VOXELS, *p) });
                }
            });
            s.lit.iter().map(|x| x.light.to_bits()).collect()
        }
        "coefficients at" => {
            measure(turns, s, |s| s.coefficients.clear(), |s| {
                for p in &positions {
                    s.coefficients.push(unsafe { port::geaidnosa_coefficients_at(GRID, corners, lists.volume.as_ptr(), 16 * VOXELS, *p) });
                }
            });
            s.coefficients.iter().flat_map(|x| bits(&x.numbers)).collect()
        }
        _ => {
            let panes = Panes::named(call).unwrap_or_else(|| panic!("no call {call}"));
            let (rays, n) = (Panes::through().iter().map(ray).collect::<Vec<Ray>>(), panes.uses.len());
            s.distances = vec![0.0; n];
            s.places = vec![0; n];
            measure(turns, s, |s| s.passed.clear(), |s| {
                for ray in &rays {
                    s.passed.push(unsafe {
                        port::geaidnosa_transmittance(
                            panes.points.as_ptr(), 9 * n, panes.uses.as_ptr(), n, PANE_KINDS.as_ptr(), 4, PANE_NUMBERS.as_ptr(), 28, *ray,
                            s.distances.as_mut_ptr(), n, s.places.as_mut_ptr(), n,
                        )
                    });
                }
            });
            s.passed.iter().map(|p| p.transmittance.to_bits()).collect()
        }
    };
    assert!(!state.refused(), "{call} was refused");
    answered
}
