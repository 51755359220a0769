//! Stand-in for glam. The orders are document 01's, module 1: dot is (xx+yy)+zz; cross is a.y·b.z−a.z·b.y and so on round;
//! normalising divides each component by the root of the dot; of two equals, max and min give the second; the blend is a·(1−t)+b·t.
//! Minus of a vector flips signs. glam's own code is not at hand: these orders rest on document 01 alone.
use std::ops::{Add, AddAssign, Div, Index, Mul, MulAssign, Sub, SubAssign};

macro_rules! by_component {
    ($kind:ident: $($field:ident)*; $trait:ident $op:ident $sign:tt) => {
        impl $trait for $kind {
            type Output = Self;

            fn $op(self, b: Self) -> Self {
                Self { $($field: self.$field $sign b.$field),* }
            }
        }

        impl $trait<f32> for $kind {
            type Output = Self;

            fn $op(self, k: f32) -> Self {
                Self { $($field: self.$field $sign k),* }
            }
        }

        impl $trait<$kind> for f32 {
            type Output = $kind;

            fn $op(self, b: $kind) -> $kind {
                $kind { $($field: self $sign b.$field),* }
            }
        }
    };
}

// A vector as three numbers, or, with the feature `packed`, in one SSE2 register as the real glam keeps it on x86-64: the same bits, for measuring.
#[cfg_attr(feature = "packed", path = "vec3a_packed.rs")]
mod vec3a;
pub use vec3a::Vec3A;

/// The larger of two; of two equals the second.
pub fn larger(a: f32, b: f32) -> f32 {
    if a > b {
        a
    } else {
        b
    }
}

/// The smaller of two; of two equals the second.
pub fn smaller(a: f32, b: f32) -> f32 {
    if a < b {
        a
    } else {
        b
    }
}

#[derive(Clone, Copy, Debug, PartialEq)]
pub struct Vec2 {
    pub x: f32,
    pub y: f32,
}

#[derive(Clone, Copy, Debug, PartialEq)]
pub struct Vec4 {
    pub x: f32,
    pub y: f32,
    pub z: f32,
    pub w: f32,
}

impl Vec2 {
    pub const fn new(x: f32, y: f32) -> Self {
        Self { x, y }
    }
}

impl Add for Vec2 {
    type Output = Self;

    fn add(self, b: Self) -> Self {
        Self::new(self.x + b.x, self.y + b.y)
    }
}

impl Mul<f32> for Vec2 {
    type Output = Self;

    fn mul(self, k: f32) -> Self {
        Self::new(self.x * k, self.y * k)
    }
}

impl Vec4 {
    pub const ZERO: Self = Self::splat(0.0);
    pub const ONE: Self = Self::splat(1.0);

    pub const fn new(x: f32, y: f32, z: f32, w: f32) -> Self {
        Self { x, y, z, w }
    }

    pub const fn splat(v: f32) -> Self {
        Self::new(v, v, v, v)
    }

    pub fn map<F: Fn(f32) -> f32>(self, f: F) -> Self {
        Self::new(f(self.x), f(self.y), f(self.z), f(self.w))
    }

    fn zip<F: Fn(f32, f32) -> f32>(self, b: Self, f: F) -> Self {
        Self::new(f(self.x, b.x), f(self.y, b.y), f(self.z, b.z), f(self.w, b.w))
    }

    pub fn floor(self) -> Self {
        self.map(f32::floor)
    }

    pub fn max(self, b: Self) -> Self {
        self.zip(b, larger)
    }

    pub fn min(self, b: Self) -> Self {
        self.zip(b, smaller)
    }

    pub fn clamp(self, low: Self, high: Self) -> Self {
        self.max(low).min(high)
    }

    pub fn select(mask: BVec4A, a: Self, b: Self) -> Self {
        let m = mask.0;
        Self::new(
            if m[0] { a.x } else { b.x },
            if m[1] { a.y } else { b.y },
            if m[2] { a.z } else { b.z },
            if m[3] { a.w } else { b.w },
        )
    }
}

impl Index<usize> for Vec4 {
    type Output = f32;

    fn index(&self, lane: usize) -> &f32 {
        match lane {
            0 => &self.x,
            1 => &self.y,
            2 => &self.z,
            3 => &self.w,
            _ => panic!("a Vec4 has four lanes"),
        }
    }
}

by_component!(Vec4: x y z w; Add add +);
by_component!(Vec4: x y z w; Sub sub -);
by_component!(Vec4: x y z w; Mul mul *);
by_component!(Vec4: x y z w; Div div /);

macro_rules! assigning {
    ($kind:ident: $($trait:ident $op:ident $by:ty, $plain:ident;)*) => { $(
        impl $trait<$by> for $kind {
            fn $op(&mut self, b: $by) {
                *self = (*self).$plain(b);
            }
        }
    )* };
}

assigning!(Vec3A: AddAssign add_assign Vec3A, add; SubAssign sub_assign Vec3A, sub; MulAssign mul_assign Vec3A, mul; MulAssign mul_assign f32, mul;);
assigning!(Vec4: AddAssign add_assign Vec4, add; SubAssign sub_assign Vec4, sub; MulAssign mul_assign Vec4, mul; MulAssign mul_assign f32, mul; AddAssign add_assign f32, add; SubAssign sub_assign f32, sub;);

// math.rs takes a Vec4 to the processor's own four lanes and back.
#[cfg(target_arch = "aarch64")]
type Lanes = std::arch::aarch64::float32x4_t;
#[cfg(target_arch = "x86_64")]
type Lanes = std::arch::x86_64::__m128;

#[cfg(any(target_arch = "aarch64", target_arch = "x86_64"))]
impl From<Vec4> for Lanes {
    fn from(v: Vec4) -> Lanes {
        unsafe { std::mem::transmute([v.x, v.y, v.z, v.w]) }
    }
}

#[cfg(any(target_arch = "aarch64", target_arch = "x86_64"))]
impl From<Lanes> for Vec4 {
    fn from(lanes: Lanes) -> Vec4 {
        let [x, y, z, w]: [f32; 4] = unsafe { std::mem::transmute(lanes) };
        Vec4::new(x, y, z, w)
    }
}

#[derive(Clone, Copy)]
pub struct UVec3 {
    pub x: u32,
    pub y: u32,
    pub z: u32,
}

impl UVec3 {
    pub const fn new(x: u32, y: u32, z: u32) -> Self {
        Self { x, y, z }
    }
}

#[derive(Clone, Copy)]
pub struct UVec4 {
    pub x: u32,
    pub y: u32,
    pub z: u32,
    pub w: u32,
}

impl UVec4 {
    pub const ZERO: Self = Self::new(0, 0, 0, 0);

    pub const fn new(x: u32, y: u32, z: u32, w: u32) -> Self {
        Self { x, y, z, w }
    }
}

#[derive(Clone, Copy)]
pub struct USizeVec4 {
    pub x: usize,
    pub y: usize,
    pub z: usize,
    pub w: usize,
}

impl USizeVec4 {
    pub const ONE: Self = Self::splat(1);

    pub const fn new(x: usize, y: usize, z: usize, w: usize) -> Self {
        Self { x, y, z, w }
    }

    pub const fn splat(v: usize) -> Self {
        Self::new(v, v, v, v)
    }

    pub fn min(self, b: Self) -> Self {
        Self::new(self.x.min(b.x), self.y.min(b.y), self.z.min(b.z), self.w.min(b.w))
    }
}

impl Add for USizeVec4 {
    type Output = Self;

    fn add(self, b: Self) -> Self {
        Self::new(self.x + b.x, self.y + b.y, self.z + b.z, self.w + b.w)
    }
}

#[derive(Clone, Copy)]
pub struct BVec4([bool; 4]);

#[derive(Clone, Copy)]
pub struct BVec4A([bool; 4]);

impl From<[bool; 4]> for BVec4 {
    fn from(b: [bool; 4]) -> Self {
        Self(b)
    }
}

impl From<[bool; 4]> for BVec4A {
    fn from(b: [bool; 4]) -> Self {
        Self(b)
    }
}

impl From<BVec4> for [bool; 4] {
    fn from(b: BVec4) -> Self {
        b.0
    }
}

impl From<BVec4A> for [bool; 4] {
    fn from(b: BVec4A) -> Self {
        b.0
    }
}

/// Four columns. Only math.rs names it, in a function that nothing here calls.
#[derive(Clone, Copy)]
pub struct Mat4([Vec4; 4]);

impl Mat4 {
    pub fn col(&self, column: usize) -> Vec4 {
        self.0[column]
    }
}
