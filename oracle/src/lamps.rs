//! Document 02's C-12, written from that request alone: what a surface point receives from the lamps. gi.rs calls it where it sums sun
//! and sky.
use crate::raytracer::RayTracer;
use crate::scene::Scene;
use crate::watch::{seen, seen_if, some_below, Branch};
use glam::Vec3A;

/// "with squared distance at most 1e-12, fires no ray and adds nothing"
const TOO_NEAR: f32 = 1.0e-12;

/// Sun plus sky, and to that, one by one in list order, colour·(n·l/d²)·visibility of each lamp, from left to right. `point` stands off
/// the surface by the hit bias already; `shortest` is the bake's.
pub fn added(raytracer: &RayTracer, scene: &Scene, sun_and_sky: Vec3A, point: Vec3A, normal: Vec3A, shortest: f32) -> Vec3A {
    let mut total = sun_and_sky;
    for lamp in &scene.lamps {
        let to_lamp = lamp.position - point;
        let d_squared = to_lamp.length_squared();
        if d_squared <= TOO_NEAR {
            seen(Branch::LampTooNear);
            seen_if(Branch::LampHere, d_squared == 0.0);
            seen_if(Branch::LampAtBound, d_squared == TOO_NEAR);
            continue;
        }
        let l = to_lamp.normalize();
        let n_dot_l = normal.dot(l);
        if !(n_dot_l > 0.0) {
            seen(Branch::LampBehind);
            seen_if(Branch::LampEdgewise, n_dot_l == 0.0);
            continue;
        }
        let longest = d_squared.sqrt() - shortest;
        let visibility = raytracer.trace_transmittance(point, l, scene, shortest, longest);
        crate::panels::traced(Branch::LampPastPanel, Branch::LampBehindPanel);
        seen_if(Branch::LampClose, longest < shortest);
        seen_if(Branch::LampSeen, visibility == 1.0);
        seen_if(Branch::LampDimmed, visibility > 0.0 && visibility < 1.0);
        seen_if(Branch::LampHidden, visibility == 0.0);
        total += lamp.color * (n_dot_l / d_squared) * visibility;
    }
    seen_if(Branch::LampsRaised, !scene.lamps.is_empty() && some_below(total, 0.0));
    total
}
