//! What falls on a surface: the volume's irradiance, and straight from lamps and sun by transmittance, which the volume does not have.
use crate::engine::Engine;
use crate::hall::{vec, Face};
use crate::volume::{irradiance, Volume};
use anyhow::Result;
use geaidnosa::*;

/// How far a ray starts off its surface, and how far it may end before its lamp.
const OFF: f32 = 1e-3;
const SHORTEST: f32 = 1e-4;

/// The irradiance straight from each lamp, colour·((n·l)/d²), and from the sun, colour·(n·l), each by what passes on the way there.
pub fn direct(engine: &mut Engine, point: Vec3, normal: Vec3) -> Result<[f32; 3]> {
    let hall = engine.hall;
    let from = vec::add(point, vec::scale(normal, OFF));
    let mut sum = [0.0f32; 3];
    for lamp in hall.lamps.chunks_exact(6) {
        let way = vec::sub(Vec3::new(lamp[0], lamp[1], lamp[2]), from);
        let squared = vec::dot(way, way);
        let distance = squared.sqrt();
        let facing = vec::dot(normal, vec::scale(way, 1.0 / distance));
        if squared <= 1e-12 || !(facing > 0.0) {
            continue;
        }
        let ray = Ray { origin: from, direction: vec::scale(way, 1.0 / distance), shortest: SHORTEST, longest: distance - SHORTEST };
        let passes = engine.transmittance(ray)?;
        (0..3).for_each(|c| sum[c] += lamp[3 + c] * (facing / squared) * passes);
    }
    let towards = vec::unit(hall.sun.direction);
    let facing = vec::dot(normal, towards);
    let colour: [f32; 3] = hall.sun.colour.into();
    if facing > 0.0 && colour != [0.0; 3] {
        let ray = Ray { origin: from, direction: towards, shortest: SHORTEST, longest: f32::INFINITY };
        let passes = engine.transmittance(ray)?;
        (0..3).for_each(|c| sum[c] += colour[c] * facing * passes);
    }
    Ok(sum)
}

/// The irradiance at a point: the volume's, raised to 0, and what comes straight where a hall's engine is given.
pub fn falling(volume: &Volume, straight: Option<&mut Engine>, point: Vec3, normal: Vec3) -> Result<[f32; 3]> {
    let mut sum = irradiance(&volume.coefficients(point)?, normal).map(|x| x.max(0.0));
    if let Some(engine) = straight {
        let more = direct(engine, point, normal)?;
        (0..3).for_each(|c| sum[c] += more[c]);
    }
    Ok(sum)
}

/// The colour of a face at parts 0..1 of its width and height.
pub fn paint(face: &Face, across: f32, up: f32) -> [f32; 3] {
    let from_middle = (2.0 * across - 1.0).hypot(2.0 * up - 1.0);
    if face.rings.is_empty() || from_middle >= 1.0 {
        return face.colour;
    }
    let ring = ((1.0 - from_middle) * face.rings.len() as f32) as usize;
    face.rings[ring.min(face.rings.len() - 1)]
}

/// What a matt face of this colour sends back: colour·irradiance/π.
pub fn sent(colour: [f32; 3], falling: [f32; 3]) -> [f32; 3] {
    std::array::from_fn(|c| colour[c] * falling[c] / std::f32::consts::PI)
}
