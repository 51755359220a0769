//! Masks, sun and bake of a scene, each timed by the wall clock, as the renderer makes them one after another; and what they answer, in the lines of `oracle
//! answer`. Built over the real rayon (tools/speed/beside) the two passes run on all cores; with `watch` they are slower for being watched.
use crate::answers::{flat, light_of, voxel_grid};
use crate::gi;
use crate::raytracer::RayTracer;
use crate::scene::{recorded_directions, Scene};
use crate::text::{bake_with, row, volume_text, Asked};
use crate::worlds::voxels;
use std::fmt::Write;
use std::time::Instant;

fn seconds<T>(out: &mut String, name: &str, call: impl FnOnce() -> T) -> T {
    let begun = Instant::now();
    let answer = call();
    let _ = writeln!(out, "seconds {name} {:.6}", begun.elapsed().as_secs_f64());
    answer
}

pub fn timed(asked: &Asked) -> Result<String, String> {
    let (w, l) = (&asked.world, &asked.world.lists);
    bake_with(asked, vec![0.0; voxels(&w.grid)])?;
    recorded_directions();
    let scene = Scene::new(&l.points, &l.uses, &l.kinds, &l.numbers, w.sunlight, w.ambient, &w.sky, &w.lamps);
    let mut grid = voxel_grid(&w.grid);
    let mut out = String::new();
    let tracer = seconds(&mut out, "tracer", || RayTracer::new(&scene));
    seconds(&mut out, "masks", || gi::build_active_voxel_mask(&tracer, &scene, &mut grid));
    seconds(&mut out, "sun", || gi::compute_sun_visibility(&tracer, &scene, &mut grid));
    seconds(&mut out, "bake", || gi::bake_voxel_gi(&tracer, &scene, &mut grid));
    for (name, mask) in [("occupied", grid.occupied_mask()), ("active", grid.active_mask())] {
        let mask = mask.expect("set");
        let figures: String = mask.iter().map(|m| if *m { '1' } else { '0' }).collect();
        let _ = writeln!(out, "{name} {} {figures}", mask.iter().filter(|m| **m).count());
    }
    let _ = writeln!(out, "sun-after {}", row(&light_of(&grid)));
    volume_text(&mut out, "volume-after", &flat(grid.gi_sh4()));
    Ok(out)
}
