//! A vector in one SSE2 register, as the real glam keeps it on x86-64; every operation gives the bits of vec3a.rs. The fourth lane is read by nothing.
use crate::Vec4;
use std::arch::x86_64::*;
use std::ops::{Add, Deref, Div, Mul, Neg, Sub};

#[derive(Clone, Copy)]
#[repr(transparent)]
pub struct Vec3A(__m128);

#[repr(C)]
pub struct Components {
    pub x: f32,
    pub y: f32,
    pub z: f32,
}

impl Deref for Vec3A {
    type Target = Components;

    #[inline(always)]
    fn deref(&self) -> &Components {
        // 16 bytes, aligned to 16, of which these are the first twelve
        unsafe { &*(self as *const Self).cast() }
    }
}

impl std::fmt::Debug for Vec3A {
    fn fmt(&self, f: &mut std::fmt::Formatter) -> std::fmt::Result {
        write!(f, "({}, {}, {})", self.x, self.y, self.z)
    }
}

impl PartialEq for Vec3A {
    fn eq(&self, b: &Self) -> bool {
        self.x == b.x && self.y == b.y && self.z == b.z
    }
}

/// z, x, y.
#[inline(always)]
fn turned(v: __m128) -> __m128 {
    unsafe { _mm_shuffle_ps(v, v, 0b01_01_00_10) }
}

impl Vec3A {
    pub const ZERO: Self = Self::splat(0.0);
    pub const ONE: Self = Self::splat(1.0);
    pub const X: Self = Self::new(1.0, 0.0, 0.0);
    pub const Y: Self = Self::new(0.0, 1.0, 0.0);
    pub const Z: Self = Self::new(0.0, 0.0, 1.0);

    #[inline(always)]
    pub const fn new(x: f32, y: f32, z: f32) -> Self {
        Self(unsafe { std::mem::transmute::<[f32; 4], __m128>([x, y, z, z]) })
    }

    #[inline(always)]
    pub const fn splat(v: f32) -> Self {
        Self::new(v, v, v)
    }

    #[inline(always)]
    pub fn from_vec4(v: Vec4) -> Self {
        Self::new(v.x, v.y, v.z)
    }

    /// (xx+yy)+zz, in the first lane.
    #[inline(always)]
    fn dot_lane(self, b: Self) -> __m128 {
        unsafe {
            let p = _mm_mul_ps(self.0, b.0);
            let y = _mm_shuffle_ps(p, p, 0b00_00_00_01);
            let z = _mm_shuffle_ps(p, p, 0b00_00_00_10);
            _mm_add_ss(_mm_add_ss(p, y), z)
        }
    }

    #[inline(always)]
    pub fn dot(self, b: Self) -> f32 {
        unsafe { _mm_cvtss_f32(self.dot_lane(b)) }
    }

    #[inline(always)]
    pub fn cross(self, b: Self) -> Self {
        unsafe { Self(turned(_mm_sub_ps(_mm_mul_ps(turned(self.0), b.0), _mm_mul_ps(turned(b.0), self.0)))) }
    }

    #[inline(always)]
    pub fn length_squared(self) -> f32 {
        self.dot(self)
    }

    #[inline(always)]
    pub fn length(self) -> f32 {
        unsafe { _mm_cvtss_f32(_mm_sqrt_ss(self.dot_lane(self))) }
    }

    #[inline(always)]
    pub fn normalize(self) -> Self {
        self / self.length()
    }

    /// Of two equals the second, as maxps gives it.
    #[inline(always)]
    pub fn max(self, b: Self) -> Self {
        unsafe { Self(_mm_max_ps(self.0, b.0)) }
    }

    #[inline(always)]
    pub fn min(self, b: Self) -> Self {
        unsafe { Self(_mm_min_ps(self.0, b.0)) }
    }

    #[inline(always)]
    pub fn clamp(self, low: Self, high: Self) -> Self {
        self.max(low).min(high)
    }

    #[inline(always)]
    pub fn lerp(self, b: Self, t: f32) -> Self {
        self * (1.0 - t) + b * t
    }
}

macro_rules! packed {
    ($trait:ident $op:ident $by:ident) => {
        impl $trait for Vec3A {
            type Output = Self;

            #[inline(always)]
            fn $op(self, b: Self) -> Self {
                unsafe { Self($by(self.0, b.0)) }
            }
        }

        impl $trait<f32> for Vec3A {
            type Output = Self;

            #[inline(always)]
            fn $op(self, k: f32) -> Self {
                unsafe { Self($by(self.0, _mm_set1_ps(k))) }
            }
        }

        impl $trait<Vec3A> for f32 {
            type Output = Vec3A;

            #[inline(always)]
            fn $op(self, b: Vec3A) -> Vec3A {
                unsafe { Vec3A($by(_mm_set1_ps(self), b.0)) }
            }
        }
    };
}

packed!(Add add _mm_add_ps);
packed!(Sub sub _mm_sub_ps);
packed!(Mul mul _mm_mul_ps);
packed!(Div div _mm_div_ps);

impl Neg for Vec3A {
    type Output = Self;

    #[inline(always)]
    fn neg(self) -> Self {
        unsafe { Self(_mm_xor_ps(self.0, _mm_set1_ps(-0.0))) }
    }
}
