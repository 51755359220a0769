//! A hall: hall.toml, its drawing and its sky, made into the lists that the library takes. Everything wrong is said in words with its place.
use crate::engine::{Engine, Scan};
use crate::faults::Found;
use crate::obj;
use geaidnosa::*;
use serde::Deserialize;
use sha2::{Digest, Sha256};
use std::collections::{BTreeMap, BTreeSet};
use std::path::{Path, PathBuf};
use toml::Spanned;

type Numbers = Spanned<Vec<f64>>;

#[derive(Deserialize)]
#[serde(deny_unknown_fields)]
struct HallFile {
    name: Option<String>,
    obj: Spanned<String>,
    unit: Option<Spanned<toml::Value>>,
    up: Option<Spanned<String>>,
    grid: GridFile,
    sun: Option<SunFile>,
    sky: Option<Spanned<SkyFile>>,
    #[serde(default)]
    materials: BTreeMap<String, Spanned<MaterialFile>>,
    #[serde(default)]
    lamps: Vec<LampFile>,
    #[serde(default)]
    faces: Vec<FaceFile>,
    bake: Option<BakeFile>,
}

#[derive(Deserialize)]
#[serde(deny_unknown_fields)]
struct BakeFile {
    scan: Option<Spanned<String>>,
}

#[derive(Deserialize)]
#[serde(deny_unknown_fields)]
struct GridFile {
    voxels: Spanned<Vec<i64>>,
    min: Numbers,
    max: Numbers,
}

#[derive(Deserialize)]
#[serde(deny_unknown_fields)]
struct SunFile {
    towards: Numbers,
    colour: Numbers,
}

#[derive(Deserialize)]
#[serde(deny_unknown_fields)]
struct SkyFile {
    uniform: Option<Numbers>,
    zenith: Option<Numbers>,
    horizon: Option<Numbers>,
    ground: Option<Numbers>,
    picture: Option<Spanned<String>>,
    brightness: Option<Spanned<f64>>,
}

#[derive(Deserialize)]
#[serde(deny_unknown_fields)]
struct MaterialFile {
    kind: Option<Spanned<String>>,
    base: Option<Numbers>,
    emissive: Option<Numbers>,
    transmission: Option<Spanned<f64>>,
}

#[derive(Deserialize)]
#[serde(deny_unknown_fields)]
struct LampFile {
    at: Numbers,
    colour: Numbers,
}

#[derive(Deserialize)]
#[serde(deny_unknown_fields)]
struct FaceFile {
    name: Spanned<String>,
    corner: Numbers,
    across: Numbers,
    up: Numbers,
    colour: Option<Numbers>,
    #[serde(default)]
    rings: Vec<Numbers>,
}

/// A target's face: a rectangle whose corner is its lower left one as an archer sees it.
#[derive(Clone, Debug)]
pub struct Face {
    pub name: String,
    pub corner: Vec3,
    pub across: Vec3,
    pub up: Vec3,
    /// Towards the archer.
    pub normal: Vec3,
    pub colour: [f32; 3],
    /// Colours of rings of one width from the rim to the middle, on the disc that the rectangle holds.
    pub rings: Vec<[f32; 3]>,
}

/// A file that the hall was made from, by its name and what it held.
#[derive(Clone, Debug, PartialEq, Eq, serde::Serialize, Deserialize)]
pub struct Input {
    pub file: String,
    pub sha256: String,
}

#[derive(Debug)]
pub struct Hall {
    pub name: String,
    pub file: PathBuf,
    pub axes: Axes,
    pub corners: Corners,
    pub points: Vec<f32>,
    pub uses: Vec<u32>,
    pub kinds: Vec<u8>,
    pub numbers: Vec<f32>,
    /// The materials' names, one for each kind.
    pub materials: Vec<String>,
    pub sun: Light,
    pub sky: Vec<f32>,
    pub ambient: Ambient,
    pub lamps: Vec<f32>,
    pub faces: Vec<Face>,
    pub inputs: Vec<Input>,
    /// How sun and bake go: as the file says, or as a command asks.
    pub scan: Scan,
    /// The box tree of the points, by the library's builder. It is not among the numbers that a part file is bound to: any accepted tree gives the same bits.
    pub tree: BoxTree,
}

pub fn sha256(bytes: &[u8]) -> String {
    sha256_of([bytes])
}

/// Of pieces, as of all of them in one.
pub fn sha256_of<Bytes: AsRef<[u8]>>(pieces: impl IntoIterator<Item = Bytes>) -> String {
    let mut all = Sha256::new();
    pieces.into_iter().for_each(|piece| all.update(piece));
    all.finalize().iter().map(|b| format!("{b:02x}")).collect()
}

pub mod vec {
    use geaidnosa::Vec3;
    pub fn add(a: Vec3, b: Vec3) -> Vec3 {
        Vec3::new(a.x + b.x, a.y + b.y, a.z + b.z)
    }
    pub fn sub(a: Vec3, b: Vec3) -> Vec3 {
        Vec3::new(a.x - b.x, a.y - b.y, a.z - b.z)
    }
    pub fn scale(a: Vec3, k: f32) -> Vec3 {
        Vec3::new(a.x * k, a.y * k, a.z * k)
    }
    pub fn dot(a: Vec3, b: Vec3) -> f32 {
        (a.x * b.x + a.y * b.y) + a.z * b.z
    }
    pub fn cross(a: Vec3, b: Vec3) -> Vec3 {
        Vec3::new(a.y * b.z - a.z * b.y, a.z * b.x - a.x * b.z, a.x * b.y - a.y * b.x)
    }
    pub fn unit(a: Vec3) -> Vec3 {
        scale(a, 1.0 / dot(a, a).sqrt())
    }
}

impl Hall {
    pub fn scene(&self) -> Scene<'_> {
        Scene { points: &self.points, uses: &self.uses, kinds: &self.kinds, numbers: &self.numbers }
    }

    pub fn input<'a>(&'a self, active: &'a [u64], lights: &'a [f32]) -> BakeInput<'a> {
        BakeInput {
            axes: self.axes,
            corners: self.corners,
            scene: self.scene(),
            light: self.sun,
            ambient: self.ambient,
            sky: &self.sky,
            lamps: &self.lamps,
            active,
            lights,
        }
    }

    pub fn triangles(&self) -> usize {
        self.uses.len()
    }

    /// Whether every material is opaque, also those that no triangle has: then the library's solid calls take the hall.
    pub fn solid(&self) -> bool {
        self.scene().is_solid()
    }

    /// How many triangles are panels.
    pub fn panels(&self) -> usize {
        self.uses.iter().filter(|m| self.kinds[**m as usize] == PANEL).count()
    }

    /// Which way the fronts of its panels are turned: each material that is a panel's by its name, and how many triangles are turned to which axis most.
    pub fn fronts(&self) -> Vec<(&str, Vec<(&'static str, usize)>)> {
        let turned_to = |place: usize| {
            let [a, b, c] = corners_of(&self.points, place);
            let n: [f32; 3] = vec::cross(vec::sub(b, a), vec::sub(c, a)).into();
            let most = (0..3).fold(0, |most, k| if n[k].abs() > n[most].abs() { k } else { most });
            2 * most + usize::from(n[most] < 0.0)
        };
        let of_material = |material: usize| {
            let mut counts = ["+x", "−x", "+y", "−y", "+z", "−z"].map(|axis| (axis, 0));
            (0..self.triangles()).filter(|place| self.uses[*place] as usize == material).for_each(|place| counts[turned_to(place)].1 += 1);
            counts.into_iter().filter(|(_, count)| *count > 0).collect::<Vec<_>>()
        };
        let panels = (0..self.kinds.len()).filter(|m| self.kinds[*m] == PANEL);
        panels.map(|m| (self.materials[m].as_str(), of_material(m))).filter(|(_, counts)| !counts.is_empty()).collect()
    }

    pub fn lamp_count(&self) -> usize {
        self.lamps.len() / 6
    }

    /// The least rays that a call must be allowed, and the most that a voxel may cost.
    pub fn voxel_cost(&self) -> u64 {
        LEAST_ALLOWANCE + LEAST_ALLOWANCE_A_LAMP * self.lamp_count() as u64
    }

    /// How long a voxel is along each axis.
    pub fn edges(&self) -> Vec3 {
        edges(self.axes, self.corners)
    }

    /// SHA-256 of every number that the library is handed, so that a part file fits only where the same bake would go on.
    pub fn numbers_sha256(&self) -> String {
        let mut all = Sha256::new();
        let mut floats = |list: &[f32]| {
            all.update((list.len() as u64).to_le_bytes());
            list.iter().for_each(|x| all.update(x.to_bits().to_le_bytes()));
        };
        let colours = |list: &[Vec3]| list.iter().flat_map(|v| [v.x, v.y, v.z]).collect::<Vec<f32>>();
        floats(&self.points);
        floats(&self.numbers);
        floats(&self.sky);
        floats(&self.lamps);
        let Ambient { c0, c1, c2, c3 } = self.ambient;
        floats(&colours(&[self.corners.min, self.corners.max, self.sun.direction, self.sun.colour, c0, c1, c2, c3]));
        self.uses.iter().for_each(|u| all.update(u.to_le_bytes()));
        all.update(&self.kinds);
        [self.axes.width, self.axes.height, self.axes.depth].iter().for_each(|a| all.update((*a as u64).to_le_bytes()));
        all.finalize().iter().map(|b| format!("{b:02x}")).collect()
    }
}

/// The corners of the triangle at a place.
pub fn corners_of(points: &[f32], place: usize) -> [Vec3; 3] {
    let p = &points[9 * place..9 * place + 9];
    [Vec3::new(p[0], p[1], p[2]), Vec3::new(p[3], p[4], p[5]), Vec3::new(p[6], p[7], p[8])]
}

pub fn edges(axes: Axes, corners: Corners) -> Vec3 {
    let Corners { min, max } = corners;
    Vec3::new((max.x - min.x) / axes.width as f32, (max.y - min.y) / axes.height as f32, (max.z - min.z) / axes.depth as f32)
}

/// The line, counted from 1, of a byte's place in a text.
fn line_of(text: &str, place: usize) -> Option<u64> {
    Some(1 + text.as_bytes().iter().take(place).filter(|b| **b == b'\n').count() as u64)
}

struct Reading<'a> {
    text: &'a str,
    file: String,
    found: &'a mut Found,
}

impl Reading<'_> {
    fn line<T>(&self, at: &Spanned<T>) -> Option<u64> {
        line_of(self.text, at.start())
    }

    fn fault<T>(&mut self, at: &Spanned<T>, words: impl Into<String>, refusal: Option<Refusal>) {
        let line = self.line(at);
        self.found.fault(&self.file, line, words, refusal);
    }

    fn warn<T>(&mut self, at: &Spanned<T>, words: impl Into<String>) {
        let line = self.line(at);
        self.found.warn(&self.file, line, words);
    }

    /// Three numbers, each finite and of at most this magnitude; where they are not, a fault, and zeros to go on with.
    fn three(&mut self, at: &Numbers, what: &str, most: f32, refusal: Refusal) -> [f32; 3] {
        let list = at.get_ref();
        if list.len() != 3 {
            self.fault(at, format!("{what}: {} numbers where three are needed", list.len()), None);
            return [0.0; 3];
        }
        let numbers = [list[0] as f32, list[1] as f32, list[2] as f32];
        if let Some(bad) = numbers.iter().find(|x| !(x.abs() <= most)) {
            self.fault(at, format!("{what}: {bad} is not a number within ±{}", thousands(most as u64)), Some(refusal));
        }
        numbers
    }
}

pub fn thousands(n: u64) -> String {
    let digits = n.to_string();
    let mut out = String::new();
    for (i, c) in digits.chars().enumerate() {
        if i > 0 && (digits.len() - i) % 3 == 0 {
            out.push(',');
        }
        out.push(c);
    }
    out
}

const FAR: f32 = 4096.0;
const BRIGHT: f32 = 65536.0;

/// Reads a hall. What is wrong is in `found`; a hall comes back exactly when nothing is.
pub fn read(path: &Path, found: &mut Found) -> Option<Hall> {
    let file = path.display().to_string();
    let bytes = match std::fs::read(path) {
        Ok(bytes) => bytes,
        Err(error) => {
            found.fault(&file, None, format!("cannot be read: {error}"), None);
            return None;
        }
    };
    let text = match String::from_utf8(bytes.clone()) {
        Ok(text) => text,
        Err(_) => {
            found.fault(&file, None, "is not a text in UTF-8", None);
            return None;
        }
    };
    let hall: HallFile = match toml::from_str(&text) {
        Ok(hall) => hall,
        Err(error) => {
            let words = error.to_string();
            let words = words.split(" at line ").next().unwrap_or(&words).to_string();
            found.fault(&file, error.line_col().map(|(line, _)| line as u64 + 1), words, None);
            return None;
        }
    };
    let folder = path.parent().unwrap_or(Path::new(""));
    let before = found.faults.len();
    let mut inputs = vec![Input { file: file_name(path), sha256: sha256(&bytes) }];
    let mut reading = Reading { text: &text, file, found };
    let (axes, corners) = grid(&mut reading, &hall.grid);
    let sun = sun_of(&mut reading, &hall.sun);
    let sky = sky_of(&mut reading, &hall.sky, folder, &mut inputs);
    let ambient = ambient_of(&sky);
    let lamps = lamps_of(&mut reading, &hall.lamps);
    let faces = faces_of(&mut reading, &hall.faces);
    let scan = scan_of(&mut reading, &hall.bake);
    let lists = drawing_of(&mut reading, &hall, folder, &mut inputs);
    if reading.found.faults.len() > before {
        return None;
    }
    let Lists { points, uses, kinds, numbers, materials } = lists?;
    let name = hall.name.unwrap_or_else(|| path.file_stem().map_or("hall".into(), |s| s.to_string_lossy().into_owned()));
    let refused = |reading: &mut Reading, refusal: Refusal| {
        reading.found.fault(&reading.file, None, format!("the library refuses the hall: {}", refusal.words()), Some(refusal));
    };
    let tree = match build_tree(&points) {
        Ok(tree) => tree,
        Err(refusal) => {
            refused(&mut reading, refusal);
            return None;
        }
    };
    let hall_read = Hall { name, file: path.into(), axes, corners, points, uses, kinds, numbers, materials, sun, sky, ambient, lamps, faces, inputs, scan, tree };
    // The library is the judge: with no ray allowed, 10 is what it answers exactly when it takes everything before.
    if let Err(refusal) = judged_by_library(&hall_read) {
        refused(&mut reading, refusal);
        return None;
    }
    for (place, lamp) in hall.lamps.iter().enumerate() {
        lamp_warnings(&mut reading, &hall_read, place, lamp);
    }
    for face in &hall.faces {
        face_warnings(&mut reading, &hall_read, face);
    }
    Some(hall_read)
}

fn file_name(path: &Path) -> String {
    path.file_name().map_or_else(|| path.display().to_string(), |name| name.to_string_lossy().into_owned())
}

fn judged_by_library(hall: &Hall) -> Result<(), Refusal> {
    let n = hall.axes.count();
    let (active, lights) = (vec![0; hall.axes.words()], vec![0.0; n]);
    let (mut volume, mut scratch) = (vec![0.0; 16 * n], vec![0.0; 16 * n]);
    match Engine::new(hall).bake(&active, &lights, &mut volume, &mut scratch, Progress::ZERO, 0) {
        Err(Refusal::Allowance) => Ok(()),
        Err(other) => Err(other),
        Ok(_) => unreachable!("an allowance of 0 is refused"),
    }
}

fn grid(reading: &mut Reading, grid: &GridFile) -> (Axes, Corners) {
    let voxels = grid.voxels.get_ref();
    let mut sizes = [1usize; 3];
    if voxels.len() != 3 {
        reading.fault(&grid.voxels, format!("grid.voxels: {} numbers where three are needed, width, height and depth", voxels.len()), None);
    } else {
        for (k, name) in ["width", "height", "depth"].iter().enumerate() {
            match usize::try_from(voxels[k]) {
                Ok(size) if (1..=AXIS_LIMIT).contains(&size) => sizes[k] = size,
                _ => reading.fault(&grid.voxels, format!("grid.voxels: {name} {} is outside 1..{AXIS_LIMIT}", voxels[k]), Some(Refusal::Axis)),
            }
        }
    }
    let axes = Axes { width: sizes[0], height: sizes[1], depth: sizes[2] };
    let faults = reading.found.faults.len();
    let min = reading.three(&grid.min, "grid.min", FAR, Refusal::Corner);
    let max = reading.three(&grid.max, "grid.max", FAR, Refusal::Corner);
    let corners = Corners { min: min.into(), max: max.into() };
    if reading.found.faults.len() == faults {
        let edge: [f32; 3] = edges(axes, corners).into();
        for k in 0..3 {
            if !(edge[k] >= 1.0 / 1024.0) {
                let words = format!("grid: along {} from {} to {} a voxel would be {} long, below 1/1024", ["x", "y", "z"][k], min[k], max[k], edge[k]);
                reading.fault(&grid.max, words, Some(Refusal::Corner));
            }
        }
    }
    (axes, corners)
}

fn scan_of(reading: &mut Reading, bake: &Option<BakeFile>) -> Scan {
    let Some(at) = bake.as_ref().and_then(|bake| bake.scan.as_ref()) else {
        return Scan::default();
    };
    Scan::of_name(at.get_ref()).unwrap_or_else(|| {
        reading.fault(at, format!("bake.scan: \"{}\" is none of \"list\" and \"tree\"", at.get_ref()), None);
        Scan::default()
    })
}

fn sun_of(reading: &mut Reading, sun: &Option<SunFile>) -> Light {
    let Some(sun) = sun else {
        return Light { direction: Vec3::new(0.0, 1.0, 0.0), colour: Vec3::default() };
    };
    let faults = reading.found.faults.len();
    let direction: Vec3 = reading.three(&sun.towards, "sun.towards", FAR, Refusal::Light).into();
    if reading.found.faults.len() == faults && !(vec::dot(direction, direction) > 1e-12) {
        reading.fault(&sun.towards, "sun.towards: a direction of no length", Some(Refusal::Light));
    }
    Light { direction, colour: reading.three(&sun.colour, "sun.colour", BRIGHT, Refusal::Light).into() }
}

/// The sky's 576 colours, at the library's directions.
fn sky_of(reading: &mut Reading, sky: &Option<Spanned<SkyFile>>, folder: &Path, inputs: &mut Vec<Input>) -> Vec<f32> {
    let mut along = vec![0.0; SKY_LENGTH];
    directions(&mut along).expect("the length is the library's");
    let Some(at) = sky else {
        return vec![0.0; SKY_LENGTH];
    };
    let sky = at.get_ref();
    let ways = [sky.uniform.is_some(), sky.zenith.is_some() || sky.horizon.is_some() || sky.ground.is_some(), sky.picture.is_some()];
    if ways.iter().filter(|w| **w).count() != 1 {
        reading.fault(at, "sky: give one of uniform, zenith with horizon, or picture", None);
        return vec![0.0; SKY_LENGTH];
    }
    let brightness = sky.brightness.as_ref().map_or(1.0, |b| *b.get_ref() as f32);
    let colour_along: Box<dyn Fn(&[f32]) -> [f32; 3]> = if let Some(uniform) = &sky.uniform {
        let colour = reading.three(uniform, "sky.uniform", BRIGHT, Refusal::Light);
        Box::new(move |_| colour)
    } else if let Some(picture) = &sky.picture {
        let Some(picture) = sky_picture(reading, picture, folder, inputs) else {
            return vec![0.0; SKY_LENGTH];
        };
        Box::new(move |d| {
            let (w, h) = picture.dimensions();
            let across = 0.5 + d[0].atan2(-d[2]) / std::f32::consts::TAU;
            let down = d[1].clamp(-1.0, 1.0).acos() / std::f32::consts::PI;
            let place = |part: f32, all: u32| ((part * all as f32) as u32).min(all - 1);
            picture.get_pixel(place(across, w), place(down, h)).0
        })
    } else {
        let (Some(zenith), Some(horizon)) = (&sky.zenith, &sky.horizon) else {
            reading.fault(at, "sky: a gradient needs zenith and horizon (ground may be left out: it is then black)", None);
            return vec![0.0; SKY_LENGTH];
        };
        let zenith = reading.three(zenith, "sky.zenith", BRIGHT, Refusal::Light);
        let horizon = reading.three(horizon, "sky.horizon", BRIGHT, Refusal::Light);
        let ground = sky.ground.as_ref().map_or([0.0; 3], |g| reading.three(g, "sky.ground", BRIGHT, Refusal::Light));
        Box::new(move |d| {
            let part = d[1].clamp(0.0, 1.0);
            std::array::from_fn(|c| if d[1] < 0.0 { ground[c] } else { horizon[c] * (1.0 - part) + zenith[c] * part })
        })
    };
    let colours: Vec<f32> = along.chunks_exact(3).flat_map(|d| colour_along(d).map(|x| x * brightness)).collect();
    if let Some(bad) = colours.iter().find(|x| !(x.abs() <= BRIGHT)) {
        reading.fault(at, format!("sky: a colour of {bad} is not a number within ±65,536"), Some(Refusal::Light));
    }
    colours
}

/// A picture of the whole sky, twice as wide as high, its middle at −z and its upper edge at +y, made small so that each of the directions meets the mean of
/// what is around it. Eight bits are taken as sRGB and made linear; an HDR's numbers are linear.
fn sky_picture(reading: &mut Reading, name: &Spanned<String>, folder: &Path, inputs: &mut Vec<Input>) -> Option<image::Rgb32FImage> {
    let path = folder.join(name.get_ref());
    let bytes = match std::fs::read(&path) {
        Ok(bytes) => bytes,
        Err(error) => {
            reading.fault(name, format!("sky.picture: {} cannot be read: {error}", path.display()), None);
            return None;
        }
    };
    inputs.push(Input { file: name.get_ref().clone(), sha256: sha256(&bytes) });
    let linear = path.extension().map_or(false, |e| e.eq_ignore_ascii_case("hdr"));
    let picture = match image::load_from_memory(&bytes) {
        Ok(picture) => picture.to_rgb32f(),
        Err(error) => {
            reading.fault(name, format!("sky.picture: {} is no picture that can be read: {error}", path.display()), None);
            return None;
        }
    };
    if picture.width() == 0 || picture.height() == 0 {
        reading.fault(name, "sky.picture: it has no pixels", None);
        return None;
    }
    let mut picture = picture;
    if !linear {
        picture.iter_mut().for_each(|x| *x = if *x <= 0.04045 { *x / 12.92 } else { ((*x + 0.055) / 1.055).powf(2.4) });
    }
    Some(image::imageops::resize(&picture, 32, 16, image::imageops::FilterType::Triangle))
}

/// The sky's irradiance over the basis 1, y, z, x: the sum over all 576 directions, which stand evenly around, each of a share 4π/576.
fn ambient_of(sky: &[f32]) -> Ambient {
    use std::f64::consts::PI;
    let mut along = vec![0.0; SKY_LENGTH];
    directions(&mut along).expect("the length is the library's");
    let share = 4.0 * PI / (SKY_LENGTH / 3) as f64;
    let (constant, linear) = (PI * 0.282095 * 0.282095 * share, 2.0 * PI / 3.0 * 0.488603 * 0.488603 * share);
    let mut sums = [[0.0f64; 3]; 4];
    for (d, colour) in along.chunks_exact(3).zip(sky.chunks_exact(3)) {
        let basis = [constant, linear * f64::from(d[1]), linear * f64::from(d[2]), linear * f64::from(d[0])];
        for (sum, b) in sums.iter_mut().zip(basis) {
            for c in 0..3 {
                sum[c] += f64::from(colour[c]) * b;
            }
        }
    }
    let [c0, c1, c2, c3] = sums.map(|s| Vec3::from(s.map(|x| x as f32)));
    Ambient { c0, c1, c2, c3 }
}

fn lamps_of(reading: &mut Reading, lamps: &[LampFile]) -> Vec<f32> {
    let mut list = Vec::new();
    for (place, lamp) in lamps.iter().enumerate() {
        if place == 8 {
            reading.fault(&lamp.at, format!("lamp 9: {} lamps, and at most eight are taken", lamps.len()), Some(Refusal::Lamp));
        }
        list.extend(reading.three(&lamp.at, &format!("lamp {}: at", place + 1), FAR, Refusal::Lamp));
        list.extend(reading.three(&lamp.colour, &format!("lamp {}: colour", place + 1), BRIGHT, Refusal::Lamp));
    }
    list
}

fn faces_of(reading: &mut Reading, faces: &[FaceFile]) -> Vec<Face> {
    let mut names = BTreeSet::new();
    let mut list = Vec::new();
    for face in faces {
        let name = face.name.get_ref();
        if !names.insert(name.clone()) {
            reading.fault(&face.name, format!("face {name}: a second face of this name"), None);
        }
        let mut point = |at: &Numbers, what: &str| Vec3::from(reading.three(at, &format!("face {name}: {what}"), FAR, Refusal::Position));
        let (corner, across, up) = (point(&face.corner, "corner"), point(&face.across, "across"), point(&face.up, "up"));
        let colour = face.colour.as_ref().map_or([0.8; 3], |c| reading.three(c, &format!("face {name}: colour"), BRIGHT, Refusal::Material));
        let rings = face.rings.iter().map(|r| reading.three(r, &format!("face {name}: a ring's colour"), BRIGHT, Refusal::Material)).collect();
        let normal = vec::cross(across, up);
        if !(vec::dot(normal, normal) > 1e-12) {
            reading.fault(&face.across, format!("face {name}: across and up span no face"), None);
            continue;
        }
        list.push(Face { name: name.clone(), corner, across, up, normal: vec::unit(normal), colour, rings });
    }
    list
}

struct Lists {
    points: Vec<f32>,
    uses: Vec<u32>,
    kinds: Vec<u8>,
    numbers: Vec<f32>,
    materials: Vec<String>,
}

fn drawing_of(reading: &mut Reading, hall: &HallFile, folder: &Path, inputs: &mut Vec<Input>) -> Option<Lists> {
    let unit = match &hall.unit {
        None => 1.0,
        Some(at) => match unit_of(at.get_ref()) {
            Some(unit) => unit,
            None => {
                reading.fault(at, "unit: one of \"m\", \"cm\", \"mm\", \"ft\", \"in\", or how many metres a unit of the drawing is", None);
                1.0
            }
        },
    };
    let z_up = match hall.up.as_ref().map(|up| (up, up.get_ref().as_str())) {
        None | Some((_, "y")) => false,
        Some((_, "z")) => true,
        Some((at, other)) => {
            reading.fault(at, format!("up: \"{other}\", where the drawing's upward axis is \"y\" or \"z\""), None);
            false
        }
    };
    let path = folder.join(hall.obj.get_ref());
    let file = path.display().to_string();
    let bytes = match std::fs::read(&path) {
        Ok(bytes) => bytes,
        Err(error) => {
            reading.fault(&hall.obj, format!("obj: {file} cannot be read: {error}"), None);
            return None;
        }
    };
    inputs.push(Input { file: hall.obj.get_ref().clone(), sha256: sha256(&bytes) });
    if bytes.starts_with(&[0xFE, 0xFF]) || bytes.starts_with(&[0xFF, 0xFE]) {
        reading.found.fault(&file, None, "is in UTF-16; save it as plain text", None);
        return None;
    }
    let drawing_folder = path.parent().unwrap_or(folder);
    let drawing = obj::read(&bytes, drawing_folder);
    for (name, bytes) in &drawing.files {
        inputs.push(Input { file: name.clone(), sha256: sha256(bytes) });
        numbers_of_lines(reading.found, &drawing_folder.join(name).display().to_string(), bytes, &[("Kd", 3), ("Ke", 3), ("d", 1), ("Tr", 1)]);
    }
    for name in &drawing.missing {
        let line = line_naming(&bytes, &["mtllib"], name);
        reading.found.fault(&file, line, format!("its material file {name} cannot be read beside the drawing"), None);
    }
    numbers_of_lines(reading.found, &file, &bytes, &[("v", 3)]);
    if let Some(error) = &drawing.error {
        for words in error.lines().filter(|l| !l.trim().is_empty()) {
            let (line, words) = line_in(words);
            reading.found.fault(&file, line, words, None);
        }
        return None;
    }
    for message in &drawing.messages {
        // what stands below is said there, with its face
        if message.contains("out of bounds") || message.contains("invalid vertex index") || message.contains("aterial file") {
            continue;
        }
        let (line, words) = line_in(message);
        let unknown = message.split('\'').nth(1).filter(|_| message.contains("not found in .mtl"));
        let line = line.or_else(|| unknown.and_then(|name| line_naming(&bytes, &["usemtl"], name)));
        reading.found.warn(&file, line, words);
    }
    let line_of_face = |face: usize| face.checked_sub(1).and_then(|place| drawing.lines.get(place)).copied();
    let placed: Vec<[f32; 3]> = drawing
        .points
        .iter()
        .map(|p| {
            let [x, y, z] = p.map(|c| c * unit);
            if z_up { [x, z, -y] } else { [x, y, z] }.map(|c| c as f32)
        })
        .collect();
    let (mut told, mut beyond) = (BTreeSet::new(), false);
    for (face, place) in &drawing.corners {
        let (line, point) = (line_of_face(*face), place.saturating_add(1));
        match usize::try_from(*place).ok().and_then(|place| placed.get(place)) {
            None => {
                beyond = true;
                let words = format!("face {face}: point {point}, and the drawing has {}", placed.len());
                reading.found.fault(&file, line, words, None);
            }
            Some([x, y, z]) if [x, y, z].iter().any(|c| !(c.abs() <= FAR)) && told.insert((face, place)) => {
                let words = format!("face {face}: point {point} at ({x}, {y}, {z}) is beyond ±4,096 metres or not finite");
                reading.found.fault(&file, line, words, Some(Refusal::Point));
            }
            Some(_) => {}
        }
    }
    if beyond {
        return None;
    }
    let count = drawing.triangles.len();
    if count > 4096 {
        let words = format!("{} triangles, and at most 4,096 are taken", thousands(count as u64));
        let line = drawing.triangles.get(4096).and_then(|t| line_of_face(t.face));
        reading.found.fault(&file, line, words, Some(Refusal::TooMany));
    }
    if count == 0 {
        reading.found.warn(&file, None, "no faces: the hall is empty");
    }
    let mut points = Vec::with_capacity(9 * count);
    let mut flat = 0;
    for triangle in &drawing.triangles {
        let [a, b, c] = triangle.points.map(|p| Vec3::from(placed[p]));
        let cross = vec::cross(vec::sub(b, a), vec::sub(c, a));
        flat += usize::from(!(vec::dot(cross, cross) > 1e-12));
        points.extend(triangle.points.iter().flat_map(|p| placed[*p]));
    }
    if flat > 0 {
        reading.found.warn(&file, None, format!("{flat} of {count} triangles have no area and are left out by every call"));
    }
    let (uses, kinds, numbers, materials) = materials_of(reading, hall, &drawing, &file, &bytes, drawing_folder);
    let lists = Lists { points, uses, kinds, numbers, materials };
    panel_warnings(reading.found, &file, &drawing, &placed, &lists);
    Some(lists)
}

/// How near to each other two panels turned opposite ways are one sheet, in metres.
const BACK_TO_BACK: f32 = 0.1;

/// Panels that do not do what a panel is for: a face that has its front on both sides, and two that stand back to back and so stop light from both sides.
fn panel_warnings(found: &mut Found, file: &str, drawing: &obj::Drawing, placed: &[[f32; 3]], lists: &Lists) {
    let panels: Vec<usize> = (0..lists.uses.len()).filter(|place| lists.kinds[lists.uses[*place] as usize] == PANEL).collect();
    if panels.is_empty() {
        return;
    }
    let face_of = |place: usize| drawing.triangles[place].face;
    let mut warn = |faces: &BTreeSet<usize>, words: &dyn Fn(usize) -> String, more: &str| {
        let Some(first) = faces.first() else { return };
        let line = first.checked_sub(1).and_then(|place| drawing.lines.get(place)).copied();
        let rest = if faces.len() > 1 { format!(" ({} more {more})", thousands(faces.len() as u64 - 1)) } else { String::new() };
        found.warn(file, line, words(*first) + &rest);
    };
    // a face's own direction, by all of its corners (Newell), beside that of each triangle it was cut into
    let mut outlines: BTreeMap<usize, Vec<Vec3>> = BTreeMap::new();
    for (face, place) in &drawing.corners {
        outlines.entry(*face).or_default().extend(usize::try_from(*place).ok().and_then(|place| placed.get(place)).map(|p| Vec3::from(*p)));
    }
    let direction = |outline: &[Vec3]| {
        let from = |k: usize| vec::sub(outline[k % outline.len()], outline[0]);
        (0..outline.len()).fold(Vec3::default(), |sum, k| vec::add(sum, vec::cross(from(k), from(k + 1))))
    };
    let cross = |place: usize| direction(&corners_of(&lists.points, place));
    let both_sides = |place: &usize| outlines.get(&face_of(*place)).map_or(false, |outline| vec::dot(direction(outline), cross(*place)) < 0.0);
    let split: BTreeSet<usize> = panels.iter().filter(|place| both_sides(place)).map(|place| face_of(*place)).collect();
    warn(&split, &|face| format!("face {face}: a panel of this outline is cut into triangles with their fronts on both sides; draw it as triangles, or as faces without a notch"), "faces");
    // the panels by themselves, each looked at from behind: what is met there is another one's front
    let points: Vec<f32> = panels.iter().flat_map(|place| lists.points[9 * place..9 * place + 9].iter().copied()).collect();
    let scene = Scene { points: &points, uses: &vec![0; panels.len()], kinds: &[PANEL], numbers: &[0.0; 7] };
    let mut doubled = BTreeMap::new();
    for place in &panels {
        let (n, [a, b, c]) = (cross(*place), corners_of(&lists.points, *place));
        if !(vec::dot(n, n) > 1e-12) {
            continue;
        }
        let (n, middle) = (vec::unit(n), vec::scale(vec::add(a, vec::add(b, c)), 1.0 / 3.0));
        let ray = Ray { origin: vec::sub(middle, vec::scale(n, BACK_TO_BACK)), direction: n, shortest: 0.0, longest: 2.0 * BACK_TO_BACK };
        if let Ok(Some(hit)) = nearest(scene, ray) {
            let other = panels[hit.place];
            if vec::dot(vec::unit(cross(other)), n) < -0.9 {
                let (first, second) = (face_of(*place).min(face_of(other)), face_of(*place).max(face_of(other)));
                doubled.entry(second).or_insert(first);
            }
        }
    }
    let seconds = doubled.keys().copied().collect();
    warn(&seconds, &|face| format!("face {face}: a panel back to back with face {}, within {} cm: together they stop light from both sides, as one opaque surface does; leave one of them out",
        doubled[&face], 100.0 * BACK_TO_BACK), "such faces");
}

fn unit_of(value: &toml::Value) -> Option<f64> {
    match value {
        toml::Value::String(name) => match name.as_str() {
            "m" => Some(1.0),
            "cm" => Some(0.01),
            "mm" => Some(0.001),
            "ft" => Some(0.3048),
            "in" => Some(0.0254),
            _ => None,
        },
        toml::Value::Float(metres) => (metres.is_finite() && *metres > 0.0).then_some(*metres),
        toml::Value::Integer(metres) => (*metres > 0).then_some(*metres as f64),
        _ => None,
    }
}

type Materials = (Vec<u32>, Vec<u8>, Vec<f32>, Vec<String>);

fn materials_of(reading: &mut Reading, hall: &HallFile, drawing: &obj::Drawing, file: &str, bytes: &[u8], folder: &Path) -> Materials {
    let mut kinds = Vec::new();
    let mut numbers = Vec::new();
    let names: Vec<&str> = drawing.materials.iter().map(|m| m.name.as_str()).collect();
    for material in &drawing.materials {
        let place = drawing.files.iter().find_map(|(name, bytes)| line_naming(bytes, &["newmtl"], &material.name).map(|line| (name, line)));
        let (mtl, line) = place.map_or((file.to_string(), None), |(name, line)| (folder.join(name).display().to_string(), Some(line)));
        let over = hall.materials.get(&material.name);
        let mut colour = |over: Option<&Numbers>, given: [f64; 3], what: &str| match over {
            Some(at) => reading.three(at, &format!("materials.{}: {what}", material.name), BRIGHT, Refusal::Material),
            None => {
                let given = given.map(|x| x as f32);
                if let Some(bad) = given.iter().find(|x| !(x.abs() <= BRIGHT)) {
                    let words = format!("material {}: {what} {bad} is not a number within ±65,536", material.name);
                    reading.found.fault(&mtl, line, words, Some(Refusal::Material));
                }
                given
            }
        };
        let base = colour(over.and_then(|o| o.get_ref().base.as_ref()), material.base, "base");
        let emissive = colour(over.and_then(|o| o.get_ref().emissive.as_ref()), material.emissive, "emissive");
        let mut transmission = (1.0 - material.dissolve) as f32;
        let mut kind = if transmission > 0.0 { TRANSLUCENT } else { OPAQUE };
        let over_transmission = over.and_then(|o| o.get_ref().transmission.as_ref());
        if let Some(at) = over_transmission {
            transmission = *at.get_ref() as f32;
            kind = TRANSLUCENT;
            if !(0.0..=1.0).contains(&transmission) {
                reading.fault(at, format!("materials.{}: transmission {transmission} is outside 0..1", material.name), Some(Refusal::Material));
            }
        } else if !(0.0..=1.0).contains(&transmission) {
            let words = format!("material {}: d {} gives a transmission outside 0..1", material.name, material.dissolve);
            reading.found.fault(&mtl, line, words, Some(Refusal::Material));
        }
        if let Some(at) = over.and_then(|o| o.get_ref().kind.as_ref()) {
            match at.get_ref().as_str() {
                "opaque" => kind = OPAQUE,
                "translucent" => kind = TRANSLUCENT,
                "panel" => kind = PANEL,
                other => reading.fault(at, format!("materials.{}: kind \"{other}\", where \"opaque\", \"translucent\" and \"panel\" are", material.name), Some(Refusal::Material)),
            }
        }
        if let (PANEL, Some(at)) = (kind, over_transmission) {
            let words = format!("materials.{}: transmission is never read of a panel, which lets nothing pass from its front and everything from behind", material.name);
            reading.warn(at, words);
        }
        kinds.push(kind);
        numbers.extend(base.into_iter().chain(emissive).chain([transmission]));
    }
    for (name, at) in &hall.materials {
        if !names.contains(&name.as_str()) {
            reading.warn(at, format!("materials.{name}: no material of this name is in the drawing's material files"));
        }
    }
    let nameless = drawing.triangles.iter().filter(|t| t.material.map_or(true, |m| m >= names.len())).count();
    let grey = kinds.len() as u32;
    if nameless > 0 {
        let first = drawing.triangles.iter().find(|t| t.material.map_or(true, |m| m >= names.len())).map(|t| t.face).unwrap_or(0);
        let line = first.checked_sub(1).and_then(|place| drawing.lines.get(place)).copied();
        let words = format!("face {first}: no material that a material file has; this and {} more triangles are taken as grey", nameless - 1);
        reading.found.warn(file, line, words);
        kinds.push(OPAQUE);
        numbers.extend([0.5, 0.5, 0.5, 0.0, 0.0, 0.0, 0.0]);
    }
    let mut materials: Vec<String> = names.iter().map(|name| name.to_string()).collect();
    materials.resize(kinds.len(), "grey".into());
    if kinds.len() > 256 {
        let line = line_naming(bytes, &["mtllib"], "");
        reading.found.fault(file, line, format!("{} materials, and at most 256 are taken", kinds.len()), Some(Refusal::TooMany));
    }
    let uses = drawing.triangles.iter().map(|t| t.material.filter(|m| *m < names.len()).map_or(grey, |m| m as u32)).collect();
    (uses, kinds, numbers, materials)
}

/// The loader takes what is no number as 0: here such lines are faults.
fn numbers_of_lines(found: &mut Found, file: &str, bytes: &[u8], keys: &[(&str, usize)]) {
    for (place, line) in lines_of(bytes).enumerate() {
        let text = String::from_utf8_lossy(line);
        let mut words = text.split_whitespace();
        let Some(key) = words.next() else { continue };
        let Some((_, count)) = keys.iter().find(|(k, _)| *k == key) else { continue };
        let numbers: Vec<&str> = words.take(*count).collect();
        let bad = numbers.iter().find(|w| w.parse::<f64>().map_or(true, |x| !x.is_finite()));
        if let Some(word) = bad {
            found.fault(file, Some(place as u64 + 1), format!("{key}: \"{word}\" is no finite number"), None);
        } else if numbers.len() < *count && !(key.starts_with('K') && !numbers.is_empty()) {
            found.fault(file, Some(place as u64 + 1), format!("{key}: {} numbers where {count} are needed", numbers.len()), None);
        }
    }
}

/// Lines as the loader counts them: ended by a line feed, a carriage return, or both.
fn lines_of(bytes: &[u8]) -> impl Iterator<Item = &[u8]> {
    let mut rest = Some(bytes);
    std::iter::from_fn(move || {
        let text = rest.take()?;
        let end = text.iter().position(|b| *b == b'\n' || *b == b'\r');
        let Some(end) = end else { return Some(text) };
        let two = text[end] == b'\r' && text.get(end + 1) == Some(&b'\n');
        rest = Some(&text[end + 1 + usize::from(two)..]);
        Some(&text[..end])
    })
}

/// The first line that starts with one of the keys and has the name after it.
fn line_naming(bytes: &[u8], keys: &[&str], name: &str) -> Option<u64> {
    lines_of(bytes)
        .position(|line| {
            let text = String::from_utf8_lossy(line);
            let mut words = text.split_whitespace();
            words.next().map_or(false, |key| keys.contains(&key)) && (name.is_empty() || words.any(|w| w == name))
        })
        .map(|place| place as u64 + 1)
}

/// The line that a message of the loader names, and the message without it.
fn line_in(message: &str) -> (Option<u64>, String) {
    let line = message.split("line ").nth(1).and_then(|rest| rest.split(|c: char| !c.is_ascii_digit()).next()).and_then(|n| n.parse().ok());
    (line, message.trim().trim_end_matches('.').to_string())
}

/// Whether a surface stands on a way of this length, seen from either end of it: a panel is there from one of them alone.
fn stands_within(hall: &Hall, from: Vec3, way: Vec3, length: f32) -> bool {
    let met = |origin: Vec3, direction: Vec3| matches!(nearest(hall.scene(), Ray { origin, direction, shortest: 0.0, longest: length }), Ok(Some(_)));
    met(from, way) || met(vec::add(from, vec::scale(way, length)), vec::scale(way, -1.0))
}

fn lamp_warnings(reading: &mut Reading, hall: &Hall, place: usize, lamp: &LampFile) {
    let at = Vec3::new(hall.lamps[6 * place], hall.lamps[6 * place + 1], hall.lamps[6 * place + 2]);
    let Corners { min, max } = hall.corners;
    let inside = at.x >= min.x && at.x <= max.x && at.y >= min.y && at.y <= max.y && at.z >= min.z && at.z <= max.z;
    if !inside {
        reading.warn(&lamp.at, format!("lamp {}: stands outside the grid", place + 1));
    }
    let mut along = vec![0.0; SKY_LENGTH];
    directions(&mut along).expect("the length is the library's");
    let near = along.chunks_exact(3).take(64).any(|d| stands_within(hall, at, Vec3::new(d[0], d[1], d[2]), 0.01));
    if near {
        reading.warn(&lamp.at, format!("lamp {}: a surface stands within a centimetre of it; is it inside a wall?", place + 1));
    }
}

fn face_warnings(reading: &mut Reading, hall: &Hall, face: &FaceFile) {
    let Some(read) = hall.faces.iter().find(|f| f.name == *face.name.get_ref()) else { return };
    for (axis, component) in [("x", read.normal.x), ("y", read.normal.y), ("z", read.normal.z)] {
        if component < -0.1 {
            let words = format!("face {}: turned to −{axis}, where a volume has no linear part of the light: it reads darker than its mirror would", read.name);
            reading.warn(&face.name, words);
        }
    }
    let middle = vec::add(read.corner, vec::scale(vec::add(read.across, read.up), 0.5));
    if stands_within(hall, vec::add(middle, vec::scale(read.normal, 0.001)), read.normal, 0.05) {
        reading.warn(&face.name, format!("face {}: a surface stands within 5 cm before its middle; is it inside its mat?", read.name));
    }
}
