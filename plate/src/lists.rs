//! The lists that the library is handed for a hall, as text: the form in which the oracle (oracle/src/text.rs) and a host in C (tools/host/hall.c) read them, every
//! number by its bits. Masks and light are left out: whoever reads it makes them.
use crate::hall::Hall;
use geaidnosa::Vec3;
use std::fmt::Write;

fn row(numbers: &[f32]) -> String {
    numbers.iter().map(|x| format!(" #{:08x}", x.to_bits())).collect()
}

fn vectors(list: &[Vec3]) -> String {
    list.iter().map(|v| row(&[v.x, v.y, v.z])).collect()
}

pub fn text(hall: &Hall) -> String {
    let (axes, corners, sun, ambient) = (hall.axes, hall.corners, hall.sun, hall.ambient);
    let mut out = format!("# {}\naxes {} {} {}\ncorners{}\n", hall.file.display(), axes.width, axes.height, axes.depth, vectors(&[corners.min, corners.max]));
    let mut line = |words: String| writeln!(out, "{words}").expect("a string takes every line");
    hall.kinds.iter().zip(hall.numbers.chunks(7)).for_each(|(kind, numbers)| line(format!("material {kind}{}", row(numbers))));
    hall.uses.iter().zip(hall.points.chunks(9)).for_each(|(material, points)| line(format!("triangle {material}{}", row(points))));
    line(format!("light{}", vectors(&[sun.direction, sun.colour])));
    line(format!("ambient{}", vectors(&[ambient.c0, ambient.c1, ambient.c2, ambient.c3])));
    hall.sky.chunks(3).enumerate().for_each(|(place, colour)| line(format!("sky {place}{}", row(colour))));
    hall.lamps.chunks(6).for_each(|lamp| line(format!("lamp{}", row(lamp))));
    out
}
