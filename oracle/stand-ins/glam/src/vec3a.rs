//! A vector as three numbers.
use crate::{larger, smaller, Vec4};
use std::ops::{Add, Div, Mul, Neg, Sub};

#[derive(Clone, Copy, Debug, PartialEq)]
pub struct Vec3A {
    pub x: f32,
    pub y: f32,
    pub z: f32,
}

impl Vec3A {
    pub const ZERO: Self = Self::splat(0.0);
    pub const ONE: Self = Self::splat(1.0);
    pub const X: Self = Self::new(1.0, 0.0, 0.0);
    pub const Y: Self = Self::new(0.0, 1.0, 0.0);
    pub const Z: Self = Self::new(0.0, 0.0, 1.0);

    pub const fn new(x: f32, y: f32, z: f32) -> Self {
        Self { x, y, z }
    }

    pub const fn splat(v: f32) -> Self {
        Self::new(v, v, v)
    }

    pub fn from_vec4(v: Vec4) -> Self {
        Self::new(v.x, v.y, v.z)
    }

    pub fn dot(self, b: Self) -> f32 {
        (self.x * b.x + self.y * b.y) + self.z * b.z
    }

    pub fn cross(self, b: Self) -> Self {
        Self::new(
            self.y * b.z - self.z * b.y,
            self.z * b.x - self.x * b.z,
            self.x * b.y - self.y * b.x,
        )
    }

    pub fn length_squared(self) -> f32 {
        self.dot(self)
    }

    pub fn length(self) -> f32 {
        self.dot(self).sqrt()
    }

    pub fn normalize(self) -> Self {
        self / self.length()
    }

    pub fn max(self, b: Self) -> Self {
        Self::new(larger(self.x, b.x), larger(self.y, b.y), larger(self.z, b.z))
    }

    pub fn min(self, b: Self) -> Self {
        Self::new(smaller(self.x, b.x), smaller(self.y, b.y), smaller(self.z, b.z))
    }

    pub fn clamp(self, low: Self, high: Self) -> Self {
        self.max(low).min(high)
    }

    pub fn lerp(self, b: Self, t: f32) -> Self {
        self * (1.0 - t) + b * t
    }
}

by_component!(Vec3A: x y z; Add add +);
by_component!(Vec3A: x y z; Sub sub -);
by_component!(Vec3A: x y z; Mul mul *);
by_component!(Vec3A: x y z; Div div /);

impl Neg for Vec3A {
    type Output = Self;

    fn neg(self) -> Self {
        Self::new(-self.x, -self.y, -self.z)
    }
}
