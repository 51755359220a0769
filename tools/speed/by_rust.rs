//! The measured calls by the Rust that the port comes from. Its ray tracer stands ready, as the port's lists do.
use crate::hall::{Hall, Panes, AMBIENT, AXES, CORNERS, NUMBERS, PANE_KINDS, PANE_NUMBERS, SCENE_LIGHT, VOXELS};
use crate::math::Vec3x4;
use crate::panels::counted;
use crate::raytracer::{ray_triangle_intersect, Hit, RayTracer};
use crate::scene::{recorded_directions, Scene};
use crate::voxelgrid::VoxelGrid;
use crate::{bits, gi, measure, met, Lists, MET, POSITIONS, RAYS, SHORTEST};
use glam::{Vec3A, Vec4};

fn vec3a(v: &[f32]) -> Vec3A {
    Vec3A::new(v[0], v[1], v[2])
}

/// It looks up four positions at a time.
fn four(p: &[Vec3A]) -> Vec3x4 {
    let lanes = |f: fn(&Vec3A) -> f32| Vec4::new(f(&p[0]), f(&p[1]), f(&p[2]), f(&p[3]));
    Vec3x4::new(lanes(|p| p.x), lanes(|p| p.y), lanes(|p| p.z))
}

fn scene(hall: &Hall) -> Scene {
    Scene::new(&hall.points, &hall.uses, &hall.kinds, &NUMBERS, SCENE_LIGHT, AMBIENT, &hall.sky, &[])
}

fn grid() -> VoxelGrid {
    VoxelGrid::new(AXES[0], AXES[1], AXES[2], vec3a(&CORNERS), vec3a(&CORNERS[3..]))
}

/// The hall's active mask.
pub fn active(hall: &Hall) -> Vec<bool> {
    let scene = scene(hall);
    let mut grid = grid();
    gi::build_active_voxel_mask(&RayTracer::new(&scene), &scene, &mut grid);
    grid.active_mask().expect("set").to_vec()
}

fn packed(volume: &[f32]) -> Vec<[Vec4; 4]> {
    volume.chunks(16).map(|v| [0, 1, 2, 3].map(|c| Vec4::new(v[4 * c], v[4 * c + 1], v[4 * c + 2], v[4 * c + 3]))).collect()
}

/// What the calls answer and write.
struct State {
    grid: VoxelGrid,
    hits: Vec<Option<Hit>>,
    met: Vec<Option<(f32, f32, f32)>>,
    passed: Vec<f32>,
    lit: Vec<Vec4>,
    coefficients: Vec<([Vec3x4; 4], [Vec4; 4])>,
}

impl State {
    fn new(triangles: usize) -> Self {
        State {
            grid: grid(),
            hits: Vec::with_capacity(RAYS),
            met: Vec::with_capacity(MET * triangles),
            passed: Vec::with_capacity(RAYS),
            lit: Vec::with_capacity(POSITIONS / 4),
            coefficients: Vec::with_capacity(POSITIONS / 4),
        }
    }

    fn lights(&self) -> Vec<u32> {
        let [w, h, _] = AXES;
        (0..VOXELS).map(|i| self.grid.get_light_intensity(i % w, i / w % h, i / (w * h)).to_bits()).collect()
    }

    fn volume(&self) -> Vec<u32> {
        self.grid.gi_sh4().iter().flatten().flat_map(|v| bits(&[v.x, v.y, v.z, v.w])).collect()
    }
}

pub fn answer(call: &str, turns: Option<usize>, hall: &Hall, lists: &Lists) -> Vec<u32> {
    let rays: Vec<(Vec3A, Vec3A)> = lists.lines.iter().map(|r| (vec3a(&r.origin), vec3a(&r.direction))).collect();
    let positions: Vec<Vec3A> = lists.positions.iter().map(|p| vec3a(p)).collect();
    let scene = scene(hall);
    let tracer = RayTracer::new(&scene);
    assert!(tracer.triangles().len() == hall.triangles(), "no triangle of the hall is absent, so places are indices");
    recorded_directions();
    let mut state = State::new(hall.triangles());
    let s = &mut state;
    let with_lists = |s: &mut State| {
        s.grid.set_light_intensity_data(lists.lights.clone());
        s.grid.set_all_gi_sh4(packed(&lists.volume));
    };
    // it has one way with rays, which answers the solid calls and those through a tree too
    match call.strip_prefix("solid ").or(call.strip_prefix("tree ")).unwrap_or(call) {
        "meet" => {
            measure(turns, s, |s| s.met.clear(), |s| {
                for (origin, direction) in &rays[..MET] {
                    for triangle in tracer.triangles() {
                        s.met.push(counted(triangle, ray_triangle_intersect(*origin, *direction, triangle, SHORTEST, f32::INFINITY)));
                    }
                }
            });
            s.met.iter().flat_map(|h| met(h.map(|(t, u, v)| (0, t, u, v)))).collect()
        }
        "nearest" => {
            measure(turns, s, |s| s.hits.clear(), |s| {
                for (origin, direction) in &rays {
                    s.hits.push(tracer.trace_nearest(*origin, *direction, SHORTEST, f32::INFINITY));
                }
            });
            let whole = |(hit, ray): (&Option<Hit>, &(Vec3A, Vec3A))| {
                met(hit.map(|h| {
                    let triangle = tracer.triangle(h.triangle_index);
                    let (t, _, _, _) = ray_triangle_intersect(ray.0, ray.1, triangle, SHORTEST, f32::INFINITY).expect("the nearest triangle is met");
                    (h.triangle_index, t, h.bary_u, h.bary_v)
                }))
            };
            s.hits.iter().zip(&rays).flat_map(whole).collect()
        }
        "transmittance" => {
            measure(turns, s, |s| s.passed.clear(), |s| {
                for (origin, direction) in &rays {
                    s.passed.push(tracer.trace_transmittance(*origin, *direction, &scene, SHORTEST, f32::INFINITY));
                }
            });
            bits(&s.passed)
        }
        "masks" => {
            measure(turns, s, |_| {}, |s| gi::build_active_voxel_mask(&tracer, &scene, &mut s.grid));
            let masks = [s.grid.occupied_mask(), s.grid.active_mask()];
            masks.iter().flat_map(|m| m.expect("set").iter().map(|marked| *marked as u32)).collect()
        }
        "light blur" => {
            measure(turns, s, with_lists, |s| s.grid.blur_grid());
            s.lights()
        }
        "coefficient blur" => {
            measure(turns, s, with_lists, |s| s.grid.blur_gi_sh4());
            s.volume()
        }
        "sun" => {
            measure(turns, s, |s| s.grid.set_active_mask(lists.active.clone()), |s| gi::compute_sun_visibility(&tracer, &scene, &mut s.grid));
            s.lights()
        }
        "bake" | "bake in parts" => {
            let with_mask = |s: &mut State| {
                with_lists(s);
                s.grid.set_active_mask(lists.few.clone());
            };
            measure(turns, s, with_mask, |s| gi::bake_voxel_gi(&tracer, &scene, &mut s.grid));
            s.volume()
        }
        "light at" => {
            with_lists(s);
            measure(turns, s, |s| s.lit.clear(), |s| {
                for p in positions.chunks(4) {
                    s.lit.push(s.grid.get_filtered_light_intensity_vec(four(p)));
                }
            });
            s.lit.iter().flat_map(|v| bits(&[v.x, v.y, v.z, v.w])).collect()
        }
        "coefficients at" => {
            with_lists(s);
            measure(turns, s, |s| s.coefficients.clear(), |s| {
                for p in positions.chunks(4) {
                    s.coefficients.push(s.grid.get_filtered_gi_sh4_packed_vec(four(p)));
                }
            });
            let numbers = |(rgb, w): &([Vec3x4; 4], [Vec4; 4])| {
                let mut words = vec![];
                for lane in 0..4 {
                    for c in 0..4 {
                        words.extend(bits(&[rgb[c].x[lane], rgb[c].y[lane], rgb[c].z[lane], w[c][lane]]));
                    }
                }
                words
            };
            s.coefficients.iter().flat_map(numbers).collect()
        }
        _ => {
            let panes = Panes::named(call).unwrap_or_else(|| panic!("no call {call}"));
            let scene = Scene::new(&panes.points, &panes.uses, &PANE_KINDS, &PANE_NUMBERS, SCENE_LIGHT, AMBIENT, &hall.sky, &[]);
            let tracer = RayTracer::new(&scene);
            assert!(tracer.triangles().len() == panes.uses.len(), "no pane is absent, so places are indices");
            let rays: Vec<(Vec3A, Vec3A)> = Panes::through().iter().map(|r| (vec3a(&r.origin), vec3a(&r.direction))).collect();
            measure(turns, s, |s| s.passed.clear(), |s| {
                for (origin, direction) in &rays {
                    s.passed.push(tracer.trace_transmittance(*origin, *direction, &scene, SHORTEST, f32::INFINITY));
                }
            });
            bits(&s.passed)
        }
    }
}
