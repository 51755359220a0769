//! What the oracle adds to the Rust for box trees, with none of it: every candidate counts, and what it is asked by falls away in the compiler.
use crate::raytracer::Triangle;
use glam::Vec3A;

pub fn candidates<'a, S: 'a, C: IntoIterator<Item = &'a S>>(all: C, _: impl Fn(&'a S) -> &'a Triangle, _: Vec3A, _: Vec3A) -> C {
    all
}
