//! include/geaidnosa.h for Rust, as far as it is measured.

#[repr(C)]
#[derive(Clone, Copy)]
pub struct Vec3 {
    pub x: f32,
    pub y: f32,
    pub z: f32,
}

#[repr(C)]
#[derive(Clone, Copy)]
pub struct Axes {
    pub width: usize,
    pub height: usize,
    pub depth: usize,
}

#[repr(C)]
#[derive(Clone, Copy)]
pub struct Corners {
    pub min: Vec3,
    pub max: Vec3,
}

#[repr(C)]
#[derive(Clone, Copy)]
pub struct Ray {
    pub origin: Vec3,
    pub direction: Vec3,
    pub shortest: f32,
    pub longest: f32,
}

#[repr(C)]
#[derive(Clone, Copy)]
pub struct Triangle {
    pub p0: Vec3,
    pub p1: Vec3,
    pub p2: Vec3,
}

#[repr(C)]
#[derive(Clone, Copy)]
pub struct Light {
    pub direction: Vec3,
    pub colour: Vec3,
}

#[repr(C)]
#[derive(Clone, Copy)]
pub struct Ambient {
    pub c: [Vec3; 4],
}

#[repr(C)]
#[derive(Clone, Copy)]
pub struct RayHit {
    pub refusal: u32,
    pub hit: u32,
    pub place: usize,
    pub t: f32,
    pub u: f32,
    pub v: f32,
    pub front: u32,
}

#[repr(C)]
#[derive(Clone, Copy)]
pub struct Transmitted {
    pub refusal: u32,
    pub transmittance: f32,
}

#[repr(C)]
pub struct Marked {
    pub refusal: u32,
    pub occupied: u64,
    pub active: u64,
}

#[repr(C)]
pub struct Sunned {
    pub refusal: u32,
    pub rays: u64,
}

#[repr(C)]
pub struct TreeBuilt {
    pub refusal: u32,
    pub boxes: usize,
    pub places: usize,
}

#[repr(C)]
#[derive(Clone, Copy)]
pub struct Progress {
    pub next: usize,
    pub rays: u64,
}

#[repr(C)]
pub struct BakeAnswer {
    pub refusal: u32,
    pub progress: Progress,
    pub rays: u64,
}

#[repr(C)]
#[derive(Clone, Copy)]
pub struct LightAt {
    pub refusal: u32,
    pub light: f32,
}

#[repr(C)]
#[derive(Clone, Copy)]
pub struct CoefficientsAt {
    pub refusal: u32,
    pub numbers: [f32; 16],
}

#[link(name = "geaidnosa", kind = "static")]
extern "C" {
    pub fn geaidnosa_meet(ray: Ray, triangle: Triangle) -> RayHit;
    pub fn geaidnosa_nearest(points: *const f32, points_length: usize, uses: *const u32, uses_length: usize, kinds: *const u8, kinds_length: usize, numbers: *const f32, numbers_length: usize, ray: Ray) -> RayHit;
    pub fn geaidnosa_transmittance(points: *const f32, points_length: usize, uses: *const u32, uses_length: usize, kinds: *const u8, kinds_length: usize, numbers: *const f32, numbers_length: usize, ray: Ray, distances: *mut f32, distances_length: usize, places: *mut usize, places_length: usize) -> Transmitted;
    pub fn geaidnosa_solid_transmittance(points: *const f32, points_length: usize, uses: *const u32, uses_length: usize, kinds: *const u8, kinds_length: usize, numbers: *const f32, numbers_length: usize, ray: Ray) -> Transmitted;
    pub fn geaidnosa_masks(axes: Axes, corners: Corners, points: *const f32, points_length: usize, occupied: *mut u64, occupied_length: usize, active: *mut u64, active_length: usize) -> Marked;
    pub fn geaidnosa_light_blur(axes: Axes, light: *mut f32, light_length: usize, scratch: *mut f32, scratch_length: usize) -> u32;
    pub fn geaidnosa_coefficient_blur(axes: Axes, volume: *mut f32, volume_length: usize, scratch: *mut f32, scratch_length: usize) -> u32;
    pub fn geaidnosa_sun(axes: Axes, corners: Corners, points: *const f32, points_length: usize, uses: *const u32, uses_length: usize, kinds: *const u8, kinds_length: usize, numbers: *const f32, numbers_length: usize, direction: Vec3, active: *const u64, active_length: usize, light: *mut f32, light_length: usize, scratch: *mut f32, scratch_length: usize, distances: *mut f32, distances_length: usize, places: *mut usize, places_length: usize) -> Sunned;
    pub fn geaidnosa_bake(axes: Axes, corners: Corners, points: *const f32, points_length: usize, uses: *const u32, uses_length: usize, kinds: *const u8, kinds_length: usize, numbers: *const f32, numbers_length: usize, light: Light, ambient: Ambient, sky: *const f32, sky_length: usize, lamps: *const f32, lamps_length: usize, active: *const u64, active_length: usize, lights: *const f32, lights_length: usize, volume: *mut f32, volume_length: usize, scratch: *mut f32, scratch_length: usize, distances: *mut f32, distances_length: usize, places: *mut usize, places_length: usize, progress: Progress, allowance: u64) -> BakeAnswer;
    pub fn geaidnosa_solid_sun(axes: Axes, corners: Corners, points: *const f32, points_length: usize, uses: *const u32, uses_length: usize, kinds: *const u8, kinds_length: usize, numbers: *const f32, numbers_length: usize, direction: Vec3, active: *const u64, active_length: usize, light: *mut f32, light_length: usize, scratch: *mut f32, scratch_length: usize) -> Sunned;
    pub fn geaidnosa_solid_bake(axes: Axes, corners: Corners, points: *const f32, points_length: usize, uses: *const u32, uses_length: usize, kinds: *const u8, kinds_length: usize, numbers: *const f32, numbers_length: usize, light: Light, ambient: Ambient, sky: *const f32, sky_length: usize, lamps: *const f32, lamps_length: usize, active: *const u64, active_length: usize, lights: *const f32, lights_length: usize, volume: *mut f32, volume_length: usize, scratch: *mut f32, scratch_length: usize, progress: Progress, allowance: u64) -> BakeAnswer;
    pub fn geaidnosa_build_tree(points: *const f32, points_length: usize, boxes: *mut f32, boxes_length: usize, nodes: *mut u32, nodes_length: usize, order: *mut u32, order_length: usize) -> TreeBuilt;
    pub fn geaidnosa_tree_nearest(points: *const f32, points_length: usize, uses: *const u32, uses_length: usize, kinds: *const u8, kinds_length: usize, numbers: *const f32, numbers_length: usize, boxes: *const f32, boxes_length: usize, nodes: *const u32, nodes_length: usize, order: *const u32, order_length: usize, ray: Ray) -> RayHit;
    pub fn geaidnosa_tree_transmittance(points: *const f32, points_length: usize, uses: *const u32, uses_length: usize, kinds: *const u8, kinds_length: usize, numbers: *const f32, numbers_length: usize, boxes: *const f32, boxes_length: usize, nodes: *const u32, nodes_length: usize, order: *const u32, order_length: usize, ray: Ray, distances: *mut f32, distances_length: usize, places: *mut usize, places_length: usize) -> Transmitted;
    pub fn geaidnosa_tree_sun(axes: Axes, corners: Corners, points: *const f32, points_length: usize, uses: *const u32, uses_length: usize, kinds: *const u8, kinds_length: usize, numbers: *const f32, numbers_length: usize, boxes: *const f32, boxes_length: usize, nodes: *const u32, nodes_length: usize, order: *const u32, order_length: usize, direction: Vec3, active: *const u64, active_length: usize, light: *mut f32, light_length: usize, scratch: *mut f32, scratch_length: usize, distances: *mut f32, distances_length: usize, places: *mut usize, places_length: usize) -> Sunned;
    pub fn geaidnosa_tree_bake(axes: Axes, corners: Corners, points: *const f32, points_length: usize, uses: *const u32, uses_length: usize, kinds: *const u8, kinds_length: usize, numbers: *const f32, numbers_length: usize, boxes: *const f32, boxes_length: usize, nodes: *const u32, nodes_length: usize, order: *const u32, order_length: usize, light: Light, ambient: Ambient, sky: *const f32, sky_length: usize, lamps: *const f32, lamps_length: usize, active: *const u64, active_length: usize, lights: *const f32, lights_length: usize, volume: *mut f32, volume_length: usize, scratch: *mut f32, scratch_length: usize, distances: *mut f32, distances_length: usize, places: *mut usize, places_length: usize, progress: Progress, allowance: u64) -> BakeAnswer;
    pub fn geaidnosa_light_at(axes: Axes, corners: Corners, light: *const f32, light_length: usize, position: Vec3) -> LightAt;
    pub fn geaidnosa_coefficients_at(axes: Axes, corners: Corners, volume: *const f32, volume_length: usize, position: Vec3) -> CoefficientsAt;
}
