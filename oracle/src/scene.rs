//! Stand-in for the renderer's scene: flat lists in, the fields that gi.rs and raytracer.rs read out.
//!
//! One node, one mesh, one primitive for each triangle in list order. The transform hands a point back with its bits (an arithmetic
//! identity would turn −0 into +0). No material has a texture. A triangle's place in the lent list travels in its first texture
//! coordinate, which no code here reads otherwise, since the Rust numbers only the triangles it keeps; its material's kind in the second, since
//! the Rust's nearest hit is not handed the scene.
use crate::math::Vec3x4;
use glam::{UVec4, Vec2, Vec3A, Vec4};
use std::ops::Mul;
use std::sync::OnceLock;

pub struct Scene {
    pub nodes: Vec<Node>,
    pub meshes: Vec<Mesh>,
    pub materials: Vec<Material>,
    pub light: Light,
    pub irradiance_sh: [Vec3A; 4],
    pub lamps: Vec<Lamp>,
    pub cubemap: Cubemap,
    sky: Vec<Vec3A>,
}

pub struct Node {
    pub mesh_index: Option<usize>,
    pub transform: WorldSpace,
}

pub struct Mesh {
    pub primitives: Vec<Primitive>,
}

pub struct Primitive {
    pub indices: Vec<u32>,
    pub positions: Vec<Vec4>,
    pub texcoords: Vec<Vec2>,
    pub material_index: usize,
}

pub struct Material {
    pub base_color_factor: Vec4,
    pub base_color_texture: Option<NoTexture>,
    pub emissive_factor: Vec3A,
    pub emissive_texture: Option<NoTexture>,
    pub is_translucent: bool,
    /// For watching alone.
    pub is_panel: bool,
    pub transmission: f32,
}

pub struct Light {
    pub direction: Vec3A,
    pub color: Vec3A,
}

/// One of C-12's lamps.
pub struct Lamp {
    pub position: Vec3A,
    pub color: Vec3A,
}

/// The points come in in world space.
#[derive(Clone, Copy)]
pub struct WorldSpace;

impl Mul<Vec4> for WorldSpace {
    type Output = Vec4;

    fn mul(self, point: Vec4) -> Vec4 {
        point
    }
}

/// Textured materials are left behind: there is no value of this type.
pub enum NoTexture {}

impl NoTexture {
    pub fn sample_bilinear_rgb(&self, _u: Vec4, _v: Vec4, _mip: u32, _face: UVec4) -> Vec3x4 {
        match *self {}
    }
}

/// Named by a function of gi.rs that nothing calls any more: the sky is read by set and place.
pub struct Cubemap;

impl Cubemap {
    pub fn sample_cubemap_rgb(&self, _normal: Vec3x4, _mip: UVec4) -> Vec3x4 {
        unreachable!("the sky is read by set and place")
    }
}

impl Scene {
    /// The sky's linear triple for primary direction `place` of set `set`.
    pub fn sky_at(&self, set: usize, place: usize) -> Vec3A {
        self.sky[64 * set + place]
    }

    /// A scene of lent lists that fit: nine numbers a triangle, seven a material, sky empty or 1,728 numbers, six a lamp.
    #[allow(clippy::too_many_arguments)]
    pub fn new(
        points: &[f32],
        uses: &[u32],
        kinds: &[u8],
        numbers: &[f32],
        light: [f32; 6],
        ambient: [f32; 12],
        sky: &[f32],
        lamps: &[f32],
    ) -> Self {
        let primitives = (0..uses.len())
            .map(|t| Primitive {
                indices: vec![0, 1, 2],
                positions: (0..3)
                    .map(|c| {
                        let p = &points[9 * t + 3 * c..9 * t + 3 * c + 3];
                        Vec4::new(p[0], p[1], p[2], 1.0)
                    })
                    .collect(),
                texcoords: vec![Vec2::new(t as f32, kinds[uses[t] as usize] as f32); 3],
                material_index: uses[t] as usize,
            })
            .collect();
        let materials = (0..kinds.len())
            .map(|m| {
                let n = &numbers[7 * m..7 * m + 7];
                Material {
                    base_color_factor: Vec4::new(n[0], n[1], n[2], 1.0),
                    base_color_texture: None,
                    emissive_factor: Vec3A::new(n[3], n[4], n[5]),
                    emissive_texture: None,
                    is_translucent: kinds[m] == 1,
                    is_panel: kinds[m] == crate::panels::PANEL,
                    transmission: n[6],
                }
            })
            .collect();
        let triple = |l: &[f32], i: usize| Vec3A::new(l[3 * i], l[3 * i + 1], l[3 * i + 2]);
        Self {
            nodes: vec![Node { mesh_index: Some(0), transform: WorldSpace }],
            meshes: vec![Mesh { primitives }],
            materials,
            light: Light { direction: triple(&light, 0), color: triple(&light, 1) },
            irradiance_sh: [0, 1, 2, 3].map(|c| triple(&ambient, c)),
            lamps: (0..lamps.len() / 6).map(|k| Lamp { position: triple(lamps, 2 * k), color: triple(lamps, 2 * k + 1) }).collect(),
            cubemap: Cubemap,
            sky: (0..sky.len() / 3).map(|i| triple(sky, i)).collect(),
        }
    }
}

/// The recorded table: line 64·set+i holds the bits of x, y and z.
pub fn recorded_bits() -> &'static [u32] {
    static BITS: OnceLock<Vec<u32>> = OnceLock::new();
    BITS.get_or_init(|| {
        let words: Vec<u32> = include_str!("../directions.hex")
            .split_whitespace()
            .map(|w| u32::from_str_radix(w, 16).expect("directions.hex holds hexadecimal words"))
            .collect();
        assert!(words.len() == 1728, "directions.hex holds {} words, not 1728", words.len());
        words
    })
}

/// The recorded directions, nine sets of 64.
pub fn recorded_directions() -> &'static Vec<Vec<Vec3A>> {
    static SETS: OnceLock<Vec<Vec<Vec3A>>> = OnceLock::new();
    SETS.get_or_init(|| {
        let number = |i: usize| f32::from_bits(recorded_bits()[i]);
        (0..9)
            .map(|set| {
                (0..64)
                    .map(|i| {
                        let at = 3 * (64 * set + i);
                        Vec3A::new(number(at), number(at + 1), number(at + 2))
                    })
                    .collect()
            })
            .collect()
    })
}
