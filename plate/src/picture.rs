//! Pictures of linear colours: exposed, made sRGB and written as PNG.
use crate::engine::Engine;
use crate::files;
use crate::hall::{vec, Hall};
use crate::volume::Volume;
use anyhow::{Context, Result};
use geaidnosa::*;
use std::io::Cursor;
use std::path::Path;

pub struct Picture {
    pub width: usize,
    pub height: usize,
    /// Linear colours, the upper row first.
    pub pixels: Vec<[f32; 3]>,
}

impl Picture {
    /// The factor that brings the brightest hundredth of the picture to white.
    pub fn exposure(&self) -> f32 {
        let mut all: Vec<f32> = self.pixels.iter().map(|p| p[0].max(p[1]).max(p[2])).filter(|x| x.is_finite()).collect();
        all.sort_by(f32::total_cmp);
        match all.get(all.len().saturating_sub(1 + all.len() / 100)) {
            Some(bright) if *bright > 0.0 => 1.0 / bright,
            _ => 1.0,
        }
    }

    pub fn write_png(&self, path: &Path, exposure: f32) -> Result<()> {
        let bytes = self.pixels.iter().flat_map(|p| p.map(|x| srgb(x * exposure))).collect();
        let image = image::RgbImage::from_raw(self.width as u32, self.height as u32, bytes).context("a picture of its size")?;
        let mut png = Cursor::new(Vec::new());
        image.write_to(&mut png, image::ImageOutputFormat::Png)?;
        files::write_whole(path, [&png.into_inner()])
    }

    /// A line from one point to another; a dashed one has as many pixels drawn as left out, four by four.
    fn line(&mut self, (x0, y0): (f32, f32), (x1, y1): (f32, f32), colour: [f32; 3], dashed: bool) {
        let steps = ((x1 - x0).abs().max((y1 - y0).abs()).ceil() as usize).clamp(1, 8192);
        for i in (0..=steps).filter(|i| !dashed || i % 8 < 4) {
            let part = i as f32 / steps as f32;
            let (x, y) = (x0 + (x1 - x0) * part, y0 + (y1 - y0) * part);
            if x >= 0.0 && y >= 0.0 && (x as usize) < self.width && (y as usize) < self.height {
                self.pixels[y as usize * self.width + x as usize] = colour;
            }
        }
    }
}

fn srgb(x: f32) -> u8 {
    let x = x.clamp(0.0, 1.0);
    let s = if x <= 0.0031308 { 12.92 * x } else { 1.055 * x.powf(1.0 / 2.4) - 0.055 };
    (s * 255.0 + 0.5) as u8
}

/// What of a voxel a slice shows.
#[derive(Clone, Copy, Debug, PartialEq)]
pub enum Of {
    Sun,
    Sky,
    Coefficient(usize),
    Irradiance(Vec3),
}

impl std::str::FromStr for Of {
    type Err = String;
    fn from_str(text: &str) -> Result<Of, String> {
        let wrong = || format!("\"{text}\" is none of sun, sky, c0, c1, c2, c3 and E:nx,ny,nz");
        match text {
            "sun" => Ok(Of::Sun),
            "sky" => Ok(Of::Sky),
            "c0" => Ok(Of::Coefficient(0)),
            "c1" => Ok(Of::Coefficient(1)),
            "c2" => Ok(Of::Coefficient(2)),
            "c3" => Ok(Of::Coefficient(3)),
            _ => Ok(Of::Irradiance(crate::unit_vector(text.strip_prefix("E:").ok_or_else(wrong)?)?)),
        }
    }
}

impl Of {
    pub fn colour(self, volume: &Volume, index: usize) -> [f32; 3] {
        let c = volume.voxel(index);
        match self {
            Of::Sun => [volume.light[index]; 3],
            Of::Sky => [c[7]; 3],
            Of::Coefficient(k) => [c[4 * k], c[4 * k + 1], c[4 * k + 2]],
            Of::Irradiance(n) => crate::volume::irradiance(c, n).map(|x| x.max(0.0)),
        }
    }

    /// Sun and sky are parts of one, and shown as they are.
    pub fn is_part(self) -> bool {
        matches!(self, Of::Sun | Of::Sky)
    }
}

/// Where two volumes of the same axes differ: all slices across z in rows, slice 0 first, the height upwards. Red wherever a bit differs, and the brighter the more;
/// the greatest difference of a number is white. And that difference.
pub fn difference(first: &Volume, second: &Volume) -> (Picture, f32) {
    let Axes { width, height, depth } = first.axes;
    let of_voxel = |v: usize| {
        let pairs = first.voxel(v).iter().zip(second.voxel(v)).chain([(&first.light[v], &second.light[v])]);
        let marks = |volume: &Volume| (is_marked(&volume.occupied, v), is_marked(&volume.active, v));
        let masks = marks(first) != marks(second);
        pairs.fold((masks, 0.0f32), |(differs, most), (a, b)| (differs || a.to_bits() != b.to_bits(), most.max((a - b).abs())))
    };
    let all: Vec<(bool, f32)> = (0..first.axes.count()).map(of_voxel).collect();
    let most = all.iter().fold(0.0f32, |most, (_, by)| most.max(*by));
    let columns = (1..=depth).find(|c| c * c >= depth).unwrap_or(1);
    let rows = (depth + columns - 1) / columns;
    let cell = (1200 / (columns * (width + 1))).clamp(2, 40);
    // a line of pixels between the slices
    let (across, down) = (width * cell + 2, height * cell + 2);
    let mut picture = Picture { width: columns * across, height: rows * down, pixels: vec![[0.05; 3]; columns * across * rows * down] };
    for z in 0..depth {
        for (y, x) in (0..height * cell).flat_map(|y| (0..width * cell).map(move |x| (y, x))) {
            let (differs, by) = all[first.axes.index(x / cell, height - 1 - y / cell, z)];
            let part = if most > 0.0 { by / most } else { 0.0 };
            let colour = if differs { [0.2 + 0.8 * part, part, part] } else { [0.0; 3] };
            picture.pixels[(z / columns * down + y + 1) * picture.width + z % columns * across + x + 1] = colour;
        }
    }
    (picture, most)
}

/// How far before a panel's line the dashed one runs that shows its front, in pixels.
const BEFORE: f32 = 4.0;

/// One slice across an axis (0, 1 or 2), a voxel in pixels of its own shape. Across z and x the height goes up; across y it is a plan, z downwards. Where a hall
/// is given, its surfaces are drawn where the slice's middle cuts them, white at the exposure that is given or at the picture's own; before a panel's front runs a
/// dashed line.
pub fn slice(volume: &Volume, axis: usize, place: usize, of: Of, hall: Option<&Hall>, exposure: Option<f32>) -> Picture {
    let counts = [volume.axes.width, volume.axes.height, volume.axes.depth];
    let edges: [f32; 3] = crate::hall::edges(volume.axes, volume.corners).into();
    let (right, vertical, upward) = [(2, 1, true), (0, 2, false), (0, 1, true)][axis];
    let longest = (counts[right] as f32 * edges[right]).max(counts[vertical] as f32 * edges[vertical]);
    let per_metre = 960.0 / longest;
    let pixels_of = |k: usize| ((edges[k] * per_metre).round() as usize).clamp(1, 960);
    let (cell_width, cell_height) = (pixels_of(right), pixels_of(vertical));
    let (width, height) = (counts[right] * cell_width, counts[vertical] * cell_height);
    let mut picture = Picture { width, height, pixels: Vec::with_capacity(width * height) };
    for row in 0..height {
        for column in 0..width {
            let mut cell = [0; 3];
            cell[axis] = place;
            cell[right] = column / cell_width;
            cell[vertical] = if upward { counts[vertical] - 1 - row / cell_height } else { row / cell_height };
            picture.pixels.push(of.colour(volume, volume.axes.index(cell[0], cell[1], cell[2])));
        }
    }
    if let Some(hall) = hall {
        let white = if of.is_part() { [1.0, 0.2, 0.1] } else { [1.0 / exposure.unwrap_or_else(|| picture.exposure()); 3] };
        let min: [f32; 3] = volume.corners.min.into();
        let level = min[axis] + edges[axis] * (place as f32 + 0.5);
        let at = |p: [f32; 3]| {
            let x = (p[right] - min[right]) / edges[right] * cell_width as f32;
            let y = (p[vertical] - min[vertical]) / edges[vertical] * cell_height as f32;
            (x, if upward { height as f32 - y } else { y })
        };
        for place in 0..hall.triangles() {
            let triangle = crate::hall::corners_of(&hall.points, place);
            let corners: [[f32; 3]; 3] = triangle.map(Into::into);
            let cuts: Vec<[f32; 3]> = (0..3)
                .filter_map(|k| {
                    let (a, b) = (corners[k], corners[(k + 1) % 3]);
                    let (da, db) = (a[axis] - level, b[axis] - level);
                    ((da < 0.0) != (db < 0.0)).then(|| std::array::from_fn(|c| a[c] + (b[c] - a[c]) * (da / (da - db))))
                })
                .collect();
            if let [a, b] = cuts[..] {
                picture.line(at(a), at(b), white, false);
                if hall.kinds[hall.uses[place] as usize] == PANEL {
                    let front: [f32; 3] = vec::cross(vec::sub(triangle[1], triangle[0]), vec::sub(triangle[2], triangle[0])).into();
                    // as the slice shows it: to the right, and downwards
                    let (x, y) = (front[right], if upward { -front[vertical] } else { front[vertical] });
                    let far = BEFORE / x.hypot(y).max(f32::MIN_POSITIVE);
                    let before = |(px, py): (f32, f32)| (px + x * far, py + y * far);
                    picture.line(before(at(a)), before(at(b)), white, true);
                }
            }
        }
    }
    picture
}

/// A camera: where it stands, what it looks at, and how wide it sees, in degrees.
pub struct Camera {
    pub from: Vec3,
    pub to: Vec3,
    pub wide: f32,
}

/// What the camera sees of the hall: emissive, and base·irradiance/π from the volume with lamps and sun; through translucent surfaces by what they let pass, and
/// through panels wholly where it looks at their backs, which the library says are not there.
pub fn view(volume: &Volume, hall: &Hall, camera: &Camera, width: usize, height: usize) -> Result<Picture> {
    use rayon::prelude::*;
    let ahead = vec::unit(vec::sub(camera.to, camera.from));
    let right = vec::unit(vec::cross(ahead, Vec3::new(0.0, 1.0, 0.0)));
    let up = vec::cross(right, ahead);
    let reach = (camera.wide.to_radians() / 2.0).tan();
    let rows: Result<Vec<Vec<[f32; 3]>>> = (0..height)
        .into_par_iter()
        .map(|row| {
            let mut engine = Engine::new(hall);
            (0..width)
                .map(|column| {
                    let across = (2.0 * (column as f32 + 0.5) / width as f32 - 1.0) * reach;
                    let upward = (1.0 - 2.0 * (row as f32 + 0.5) / height as f32) * reach * height as f32 / width as f32;
                    let way = vec::unit(vec::add(ahead, vec::add(vec::scale(right, across), vec::scale(up, upward))));
                    seen(volume, &mut engine, camera.from, way)
                })
                .collect()
        })
        .collect();
    Ok(Picture { width, height, pixels: rows?.into_iter().flatten().collect() })
}

fn seen(volume: &Volume, engine: &mut Engine, from: Vec3, way: Vec3) -> Result<[f32; 3]> {
    let hall = engine.hall;
    let mut sum = [0.0f32; 3];
    let (mut part, mut shortest) = (1.0f32, 1e-3f32);
    for _ in 0..16 {
        let Some(hit) = nearest(hall.scene(), Ray { origin: from, direction: way, shortest, longest: f32::INFINITY })? else {
            let colour = sky_along(hall, way)?;
            (0..3).for_each(|c| sum[c] += part * colour[c]);
            break;
        };
        let [a, b, c] = crate::hall::corners_of(&hall.points, hit.place);
        let front = vec::unit(vec::cross(vec::sub(b, a), vec::sub(c, a)));
        // of the side that is seen
        let normal = if hit.front { front } else { vec::scale(front, -1.0) };
        let point = vec::add(from, vec::scale(way, hit.t));
        let material = hall.uses[hit.place] as usize;
        let numbers = &hall.numbers[7 * material..7 * material + 7];
        let falls = crate::light::falling(volume, Some(&mut *engine), point, normal)?;
        let base = hall.faces.iter().find_map(|face| on_face(face, point)).unwrap_or([numbers[0], numbers[1], numbers[2]]);
        let sends = crate::light::sent(base, falls);
        let passes = if hall.kinds[material] == TRANSLUCENT { numbers[6] } else { 0.0 };
        (0..3).for_each(|c| sum[c] += part * (1.0 - passes) * (numbers[3 + c] + sends[c]));
        part *= passes;
        shortest = hit.t + 1e-3;
        if part < 1e-3 {
            break;
        }
    }
    Ok(sum)
}

/// The sky along a direction: the mean of its colours around, the nearer the more.
fn sky_along(hall: &Hall, way: Vec3) -> Result<[f32; 3]> {
    let mut along = vec![0.0; SKY_LENGTH];
    directions(&mut along)?;
    let (mut sum, mut weights) = ([0.0; 3], 0.0);
    for (d, colour) in along.chunks_exact(3).zip(hall.sky.chunks_exact(3)) {
        let weight = (vec::dot(way, Vec3::new(d[0], d[1], d[2])) - 0.97).max(0.0);
        (0..3).for_each(|c| sum[c] += weight * colour[c]);
        weights += weight;
    }
    Ok(if weights > 0.0 { sum.map(|x| x / weights) } else { [0.0; 3] })
}

/// The face's colour where a point lies on it, within a centimetre.
fn on_face(face: &crate::hall::Face, point: Vec3) -> Option<[f32; 3]> {
    let from = vec::sub(point, face.corner);
    let along = |side: Vec3| vec::dot(from, side) / vec::dot(side, side);
    let (across, up) = (along(face.across), along(face.up));
    let on = vec::dot(from, face.normal).abs() < 0.01 && (0.0..=1.0).contains(&across) && (0.0..=1.0).contains(&up);
    on.then(|| crate::light::paint(face, across, up))
}
