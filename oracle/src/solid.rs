//! Document 02's C-22, written from that request alone: "stops a transmittance ray at its first hit", and "on scenes with every material of kind 0 it
//! equals the sorted product". What is recorded of the three solid calls is the Rust's own answer, over its sorted hits. Here each transmittance
//! among it is held to a loop that stops at the first triangle met.
use crate::calls::Lists;
use crate::raytracer::{ray_triangle_intersect, RayTracer};
use crate::watch::{seen_if, Branch, Fired};
use crate::{answers, watch};

/// 1.0 where no triangle is met, 0.0 where any is.
fn to_the_first_hit(tracer: &RayTracer, ray: &Fired) -> f32 {
    for triangle in tracer.triangles() {
        if ray_triangle_intersect(ray.origin, ray.direction, triangle, ray.shortest, ray.longest).is_some() {
            return 0.0;
        }
    }
    1.0
}

/// Stops where the Rust's transmittance of a ray is another.
pub fn hold(tracer: &RayTracer, ray: &Fired, value: f32) {
    seen(tracer, ray);
    let own = to_the_first_hit(tracer, ray);
    assert!(value.to_bits() == own.to_bits(), "a solid transmittance of {value}, to the first hit {own}: {ray:?}");
}

/// The same for every transmittance that a pass has asked for, each traced once more.
pub fn hold_all(lists: &Lists, rays: &[Fired]) {
    let scene = answers::bare(lists);
    let tracer = RayTracer::new(&scene);
    for ray in rays.iter().filter(|ray| ray.kind == 1) {
        hold(&tracer, ray, tracer.trace_transmittance(ray.origin, ray.direction, &scene, ray.shortest, ray.longest));
    }
    watch::take_rays();
}

/// Watches what a ray meets, in list order.
fn seen(tracer: &RayTracer, ray: &Fired) {
    if cfg!(feature = "watch") {
        let met: Vec<f32> = tracer
            .triangles()
            .iter()
            .filter_map(|triangle| ray_triangle_intersect(ray.origin, ray.direction, triangle, ray.shortest, ray.longest).map(|hit| hit.0))
            .collect();
        seen_if(Branch::SolidFree, met.is_empty() && !tracer.triangles().is_empty());
        seen_if(Branch::SolidStopped, met.len() == 1);
        seen_if(Branch::SolidNearestFirst, met.len() > 1 && met[1..].iter().all(|t| *t > met[0]));
        seen_if(Branch::SolidNearestLast, met.len() > 1 && met[..met.len() - 1].iter().all(|t| *t > met[met.len() - 1]));
        seen_if(Branch::SolidTied, met.len() > 1 && met[1..].contains(&met[0]));
    }
}
