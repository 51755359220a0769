//! The C face as include/geaidnosa.h has it, call for call.
use crate::{Ambient, Axes, Corners, Light, Progress, Ray, Triangle, Vec3};

#[repr(C)]
pub struct RayHit {
    pub refusal: u32,
    pub hit: u32,
    pub place: usize,
    pub t: f32,
    pub u: f32,
    pub v: f32,
    pub front: u32,
}

#[repr(C)]
pub struct Transmitted {
    pub refusal: u32,
    pub transmittance: f32,
}

#[repr(C)]
pub struct Marked {
    pub refusal: u32,
    pub occupied: u64,
    pub active: u64,
}

#[repr(C)]
pub struct TreeBuilt {
    pub refusal: u32,
    pub boxes: usize,
    pub places: usize,
}

#[repr(C)]
pub struct Sunned {
    pub refusal: u32,
    pub rays: u64,
}

#[repr(C)]
pub struct BakeAnswer {
    pub refusal: u32,
    pub progress: Progress,
    pub rays: u64,
}

#[repr(C)]
pub struct LightAt {
    pub refusal: u32,
    pub light: f32,
}

#[repr(C)]
pub struct CoefficientsAt {
    pub refusal: u32,
    pub numbers: [f32; 16],
}

#[repr(C)]
pub struct PartStart {
    pub refusal: u32,
    pub start: usize,
}

#[repr(C)]
pub struct FirstRefusal {
    pub refusal: u32,
    pub place: usize,
}

#[repr(C)]
pub struct Head {
    pub refusal: u32,
    pub axes: Axes,
    pub corners: Corners,
}

#[repr(C)]
pub struct Needed {
    pub refusal: u32,
    pub bytes: usize,
}

#[repr(C)]
pub struct Figures {
    pub refusal: u32,
    pub width: usize,
    pub height: usize,
    pub depth: usize,
    pub occupied: u64,
    pub active: u64,
    pub zeros: u64,
}

extern "C" {
    pub fn geaidnosa_version() -> u32;
    pub fn geaidnosa_directions(out: *mut f32, out_length: usize) -> u32;
    pub fn geaidnosa_set_of_voxel(x: usize, y: usize, z: usize) -> usize;
    pub fn geaidnosa_meet(ray: Ray, triangle: Triangle) -> RayHit;
    pub fn geaidnosa_nearest(
        points: *const f32, points_length: usize,
        uses: *const u32, uses_length: usize,
        kinds: *const u8, kinds_length: usize,
        numbers: *const f32, numbers_length: usize,
        ray: Ray,
    ) -> RayHit;
    pub fn geaidnosa_transmittance(
        points: *const f32, points_length: usize,
        uses: *const u32, uses_length: usize,
        kinds: *const u8, kinds_length: usize,
        numbers: *const f32, numbers_length: usize,
        ray: Ray,
        distances: *mut f32, distances_length: usize,
        places: *mut usize, places_length: usize,
    ) -> Transmitted;
    pub fn geaidnosa_solid_transmittance(
        points: *const f32, points_length: usize,
        uses: *const u32, uses_length: usize,
        kinds: *const u8, kinds_length: usize,
        numbers: *const f32, numbers_length: usize,
        ray: Ray,
    ) -> Transmitted;
    pub fn geaidnosa_build_tree(
        points: *const f32, points_length: usize,
        boxes: *mut f32, boxes_length: usize,
        nodes: *mut u32, nodes_length: usize,
        order: *mut u32, order_length: usize,
    ) -> TreeBuilt;
    pub fn geaidnosa_tree_nearest(
        points: *const f32, points_length: usize,
        uses: *const u32, uses_length: usize,
        kinds: *const u8, kinds_length: usize,
        numbers: *const f32, numbers_length: usize,
        boxes: *const f32, boxes_length: usize,
        nodes: *const u32, nodes_length: usize,
        order: *const u32, order_length: usize,
        ray: Ray,
    ) -> RayHit;
    pub fn geaidnosa_tree_transmittance(
        points: *const f32, points_length: usize,
        uses: *const u32, uses_length: usize,
        kinds: *const u8, kinds_length: usize,
        numbers: *const f32, numbers_length: usize,
        boxes: *const f32, boxes_length: usize,
        nodes: *const u32, nodes_length: usize,
        order: *const u32, order_length: usize,
        ray: Ray,
        distances: *mut f32, distances_length: usize,
        places: *mut usize, places_length: usize,
    ) -> Transmitted;
    pub fn geaidnosa_masks(
        axes: Axes,
        corners: Corners,
        points: *const f32, points_length: usize,
        occupied: *mut u64, occupied_length: usize,
        active: *mut u64, active_length: usize,
    ) -> Marked;
    pub fn geaidnosa_light_blur(
        axes: Axes,
        light: *mut f32, light_length: usize,
        scratch: *mut f32, scratch_length: usize,
    ) -> u32;
    pub fn geaidnosa_coefficient_blur(
        axes: Axes,
        volume: *mut f32, volume_length: usize,
        scratch: *mut f32, scratch_length: usize,
    ) -> u32;
    pub fn geaidnosa_sun(
        axes: Axes,
        corners: Corners,
        points: *const f32, points_length: usize,
        uses: *const u32, uses_length: usize,
        kinds: *const u8, kinds_length: usize,
        numbers: *const f32, numbers_length: usize,
        direction: Vec3,
        active: *const u64, active_length: usize,
        light: *mut f32, light_length: usize,
        scratch: *mut f32, scratch_length: usize,
        distances: *mut f32, distances_length: usize,
        places: *mut usize, places_length: usize,
    ) -> Sunned;
    pub fn geaidnosa_solid_sun(
        axes: Axes,
        corners: Corners,
        points: *const f32, points_length: usize,
        uses: *const u32, uses_length: usize,
        kinds: *const u8, kinds_length: usize,
        numbers: *const f32, numbers_length: usize,
        direction: Vec3,
        active: *const u64, active_length: usize,
        light: *mut f32, light_length: usize,
        scratch: *mut f32, scratch_length: usize,
    ) -> Sunned;
    pub fn geaidnosa_tree_sun(
        axes: Axes,
        corners: Corners,
        points: *const f32, points_length: usize,
        uses: *const u32, uses_length: usize,
        kinds: *const u8, kinds_length: usize,
        numbers: *const f32, numbers_length: usize,
        boxes: *const f32, boxes_length: usize,
        nodes: *const u32, nodes_length: usize,
        order: *const u32, order_length: usize,
        direction: Vec3,
        active: *const u64, active_length: usize,
        light: *mut f32, light_length: usize,
        scratch: *mut f32, scratch_length: usize,
        distances: *mut f32, distances_length: usize,
        places: *mut usize, places_length: usize,
    ) -> Sunned;
    pub fn geaidnosa_bake(
        axes: Axes,
        corners: Corners,
        points: *const f32, points_length: usize,
        uses: *const u32, uses_length: usize,
        kinds: *const u8, kinds_length: usize,
        numbers: *const f32, numbers_length: usize,
        light: Light,
        ambient: Ambient,
        sky: *const f32, sky_length: usize,
        lamps: *const f32, lamps_length: usize,
        active: *const u64, active_length: usize,
        lights: *const f32, lights_length: usize,
        volume: *mut f32, volume_length: usize,
        scratch: *mut f32, scratch_length: usize,
        distances: *mut f32, distances_length: usize,
        places: *mut usize, places_length: usize,
        progress: Progress,
        allowance: u64,
    ) -> BakeAnswer;
    pub fn geaidnosa_solid_bake(
        axes: Axes,
        corners: Corners,
        points: *const f32, points_length: usize,
        uses: *const u32, uses_length: usize,
        kinds: *const u8, kinds_length: usize,
        numbers: *const f32, numbers_length: usize,
        light: Light,
        ambient: Ambient,
        sky: *const f32, sky_length: usize,
        lamps: *const f32, lamps_length: usize,
        active: *const u64, active_length: usize,
        lights: *const f32, lights_length: usize,
        volume: *mut f32, volume_length: usize,
        scratch: *mut f32, scratch_length: usize,
        progress: Progress,
        allowance: u64,
    ) -> BakeAnswer;
    pub fn geaidnosa_tree_bake(
        axes: Axes,
        corners: Corners,
        points: *const f32, points_length: usize,
        uses: *const u32, uses_length: usize,
        kinds: *const u8, kinds_length: usize,
        numbers: *const f32, numbers_length: usize,
        boxes: *const f32, boxes_length: usize,
        nodes: *const u32, nodes_length: usize,
        order: *const u32, order_length: usize,
        light: Light,
        ambient: Ambient,
        sky: *const f32, sky_length: usize,
        lamps: *const f32, lamps_length: usize,
        active: *const u64, active_length: usize,
        lights: *const f32, lights_length: usize,
        volume: *mut f32, volume_length: usize,
        scratch: *mut f32, scratch_length: usize,
        distances: *mut f32, distances_length: usize,
        places: *mut usize, places_length: usize,
        progress: Progress,
        allowance: u64,
    ) -> BakeAnswer;
    pub fn geaidnosa_join(
        axes: Axes,
        share: *const u64, share_length: usize,
        unblurred: *const f32, unblurred_length: usize,
        joined: *mut f32, joined_length: usize,
    ) -> u32;
    pub fn geaidnosa_light_at(axes: Axes, corners: Corners, light: *const f32, light_length: usize, position: Vec3) -> LightAt;
    pub fn geaidnosa_coefficients_at(axes: Axes, corners: Corners, volume: *const f32, volume_length: usize, position: Vec3) -> CoefficientsAt;
    pub fn geaidnosa_voxel_part(
        axes: Axes,
        volume: *const f32, volume_length: usize,
        scratch: *const f32, scratch_length: usize,
        index: usize,
        unblurred: u8,
    ) -> PartStart;
    pub fn geaidnosa_voxel_refusal(
        axes: Axes,
        volume: *const f32, volume_length: usize,
        scratch: *const f32, scratch_length: usize,
        index: usize,
        unblurred: u8,
    ) -> u32;
    pub fn geaidnosa_frame_lights(
        axes: Axes,
        corners: Corners,
        light: *const f32, light_length: usize,
        positions: *const f32, positions_length: usize,
        answers: *mut f32, answers_length: usize,
    ) -> FirstRefusal;
    pub fn geaidnosa_frame_coefficients(
        axes: Axes,
        corners: Corners,
        volume: *const f32, volume_length: usize,
        positions: *const f32, positions_length: usize,
        answers: *mut f32, answers_length: usize,
    ) -> FirstRefusal;
    pub fn geaidnosa_file_axes(bytes: *const u8, bytes_length: usize) -> Head;
    pub fn geaidnosa_volume_bytes(axes: Axes) -> Needed;
    pub fn geaidnosa_read_volume(
        bytes: *const u8, bytes_length: usize,
        light: *mut f32, light_length: usize,
        volume: *mut f32, volume_length: usize,
        occupied: *mut u64, occupied_length: usize,
        active: *mut u64, active_length: usize,
    ) -> Head;
    pub fn geaidnosa_write_volume(
        axes: Axes,
        corners: Corners,
        light: *const f32, light_length: usize,
        volume: *const f32, volume_length: usize,
        occupied: *const u64, occupied_length: usize,
        active: *const u64, active_length: usize,
        bytes: *mut u8, bytes_length: usize,
    ) -> u32;
    pub fn geaidnosa_file_figures(bytes: *const u8, bytes_length: usize) -> Figures;
    pub fn geaidnosa_root_bits(bits: u32) -> u32;
    pub fn geaidnosa_floor_bits(bits: u32) -> u32;
    pub fn geaidnosa_ceiling_bits(bits: u32) -> u32;
    pub fn geaidnosa_magnitude_bits(bits: u32) -> u32;
    pub fn geaidnosa_larger_bits(first: u32, second: u32) -> u32;
    pub fn geaidnosa_smaller_bits(first: u32, second: u32) -> u32;
}
