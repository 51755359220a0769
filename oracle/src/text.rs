//! A scene as text, read and written, and the answers for it.
//!
//! One statement a line, '#' to the line's end a comment. A number is a decimal or, as #3f800000, its bits.
//!   axes W H D
//!   corners MINX MINY MINZ MAXX MAXY MAXZ
//!   material KIND R G B ER EG EB TRANSMISSION    KIND 0 opaque, 1 translucent, 2 one of C-19's panels
//!   triangle MATERIAL P0X .. P2Z
//!   light DX DY DZ R G B
//!   ambient (twelve numbers, coefficient by coefficient)
//!   sky R G B            every direction alike; or: sky PLACE R G B, PLACE = 64·set+i
//!   lamp X Y Z R G B     one of C-12's, in list order
//!   active 0110..        one figure a voxel; left out, the masks' own
//!   lit (a number a voxel)   the light lent to the bake; left out, the sun pass's own
//!   ray OX OY OZ DX DY DZ SHORTEST LONGEST
//!   lookup X Y Z         in the baked volume and the sun pass's light
//!   allowances A B ..    an interrupted bake, call by call, until it ends
use crate::answers::{answer, bake_call, baked, sunned};
use crate::calls::{bits, Bake, Call, Grid, Lists, Progress, Ray, Scratch};
use crate::table;
use crate::worlds::{active_of, voxels, World};
use std::fmt::Write;

pub struct Asked {
    pub world: World,
    pub lit: Option<Vec<f32>>,
    pub rays: Vec<Ray>,
    pub lookups: Vec<[f32; 3]>,
    pub allowances: Vec<u64>,
}

fn shown(x: f32) -> String {
    format!("#{:08x}", x.to_bits())
}

pub fn row(l: &[f32]) -> String {
    l.iter().map(|x| shown(*x)).collect::<Vec<_>>().join(" ")
}

pub fn written(w: &World) -> String {
    let mut out = format!("# {}\naxes {} {} {}\ncorners {}\n", w.family, w.grid.axes[0], w.grid.axes[1], w.grid.axes[2], row(&w.grid.corners));
    for (m, n) in w.lists.numbers.chunks(7).enumerate() {
        let _ = writeln!(out, "material {} {}", w.lists.kinds[m], row(n));
    }
    for (t, p) in w.lists.points.chunks(9).enumerate() {
        let _ = writeln!(out, "triangle {} {}", w.lists.uses[t], row(p));
    }
    let _ = writeln!(out, "light {}\nambient {}", row(&w.sunlight), row(&w.ambient));
    let same = w.sky.iter().enumerate().all(|(i, x)| x.to_bits() == w.sky[i % 3].to_bits());
    if same && !w.sky.is_empty() {
        let _ = writeln!(out, "sky {}", row(&w.sky[..3]));
    } else {
        for (i, t) in w.sky.chunks(3).enumerate() {
            let _ = writeln!(out, "sky {i} {}", row(t));
        }
    }
    for lamp in w.lamps.chunks(6) {
        let _ = writeln!(out, "lamp {}", row(lamp));
    }
    let _ = writeln!(out, "active {}", w.active.iter().map(|a| a.to_string()).collect::<String>());
    out
}

fn float(word: &str) -> Result<f32, String> {
    if let Some(hex) = word.strip_prefix('#') {
        return u32::from_str_radix(hex, 16).map(f32::from_bits).map_err(|_| format!("'{word}' is no bit pattern"));
    }
    word.parse().map_err(|_| format!("'{word}' is no number"))
}

fn floats<const N: usize>(words: &[&str]) -> Result<[f32; N], String> {
    if words.len() != N {
        return Err(format!("{N} numbers are asked, {} stand here", words.len()));
    }
    let mut out = [0.0; N];
    for (x, word) in out.iter_mut().zip(words) {
        *x = float(word)?;
    }
    Ok(out)
}

fn whole<T: std::str::FromStr>(word: &str) -> Result<T, String> {
    word.parse().map_err(|_| format!("'{word}' is no whole number that fits"))
}

/// Reads a scene; the text of a failure names the line.
pub fn parsed(text: &str) -> Result<Asked, String> {
    let mut grid = None;
    let mut corners = None;
    let mut world = World {
        family: "read",
        grid: Grid { axes: [0; 3], corners: [0.0; 6] },
        lists: Lists::default(),
        sunlight: [0.0, 0.0, 1.0, 0.0, 0.0, 0.0],
        ambient: [0.0; 12],
        sky: vec![0.0; 1728],
        lamps: vec![],
        active: vec![],
    };
    let mut active: Option<Vec<u8>> = None;
    let mut asked = Asked { world: world.clone(), lit: None, rays: vec![], lookups: vec![], allowances: vec![] };
    for (at, line) in text.lines().enumerate() {
        let words: Vec<&str> = comment_free(line).split_whitespace().collect();
        let Some((name, rest)) = words.split_first() else { continue };
        let mut take = || -> Result<(), String> {
            match *name {
                "axes" => {
                    if rest.len() != 3 {
                        return Err("axes takes three whole numbers".into());
                    }
                    grid = Some([whole(rest[0])?, whole(rest[1])?, whole(rest[2])?]);
                }
                "corners" => corners = Some(floats::<6>(rest)?),
                "material" => {
                    world.lists.kinds.push(whole(rest.first().ok_or("a material has a kind")?)?);
                    world.lists.numbers.extend(floats::<7>(&rest[1..])?);
                }
                "triangle" => {
                    world.lists.uses.push(whole(rest.first().ok_or("a triangle has a material")?)?);
                    world.lists.points.extend(floats::<9>(&rest[1..])?);
                }
                "light" => world.sunlight = floats(rest)?,
                "ambient" => world.ambient = floats(rest)?,
                "sky" if rest.len() == 4 => {
                    let place: usize = whole(rest[0])?;
                    if place >= 576 {
                        return Err(format!("sky place {place} is past 575"));
                    }
                    world.sky[3 * place..3 * place + 3].copy_from_slice(&floats::<3>(&rest[1..])?);
                }
                "sky" => {
                    let t = floats::<3>(rest)?;
                    world.sky = (0..1728).map(|i| t[i % 3]).collect();
                }
                "lamp" => world.lamps.extend(floats::<6>(rest)?),
                "active" => {
                    let all: String = rest.concat();
                    if let Some(c) = all.chars().find(|c| *c != '0' && *c != '1') {
                        return Err(format!("a mask has 0 and 1, not '{c}'"));
                    }
                    active = Some(all.bytes().map(|b| b - b'0').collect());
                }
                "lit" => asked.lit = Some(rest.iter().map(|w| float(w)).collect::<Result<_, _>>()?),
                "ray" => {
                    let r = floats::<8>(rest)?;
                    asked.rays.push(Ray { origin: [r[0], r[1], r[2]], direction: [r[3], r[4], r[5]], shortest: r[6], longest: r[7] });
                }
                "lookup" => asked.lookups.push(floats(rest)?),
                "allowances" => {
                    for word in rest {
                        asked.allowances.push(whole(word)?);
                    }
                }
                _ => return Err(format!("no statement '{name}'")),
            }
            Ok(())
        };
        take().map_err(|e| format!("line {}: {e}", at + 1))?;
    }
    world.grid = Grid { axes: grid.ok_or("the scene has no axes")?, corners: corners.ok_or("the scene has no corners")? };
    let judged = table::refusal(&Call::Masks { grid: world.grid, points: vec![], occupied: vec![], active: vec![] });
    if judged == 1 || judged == 2 {
        return Err(format!("the grid is refused: {judged}"));
    }
    let n = voxels(&world.grid);
    let fits = table::refusal(&Call::Nearest { lists: world.lists.clone(), ray: Ray { origin: [0.0; 3], direction: [0.0; 3], shortest: 0.0, longest: 0.0 } });
    if fits != 0 {
        return Err(format!("the triangles and materials are refused: {fits}"));
    }
    world.active = match active {
        Some(mask) if mask.len() == n => mask,
        Some(mask) => return Err(format!("the mask has {} figures for {n} voxels", mask.len())),
        None => active_of(&world.grid, &world.lists.points),
    };
    if let Some(lit) = &asked.lit {
        if lit.len() != n {
            return Err(format!("lit has {} numbers for {n} voxels", lit.len()));
        }
    }
    asked.world = world;
    Ok(asked)
}

/// A comment starts at a '#' that begins a word and is not followed by eight hexadecimal digits.
fn comment_free(line: &str) -> &str {
    let mut from = 0;
    while let Some(at) = line[from..].find('#') {
        let at = from + at;
        let word: &str = line[at + 1..].split_whitespace().next().unwrap_or("");
        let bits = line[at + 1..].starts_with(word) && word.len() == 8 && word.bytes().all(|b| b.is_ascii_hexdigit());
        if !bits {
            return &line[..at];
        }
        from = at + 1;
    }
    line
}

fn bake_of(asked: &Asked) -> Result<Bake, String> {
    let w = &asked.world;
    let n = voxels(&w.grid);
    let t = w.lists.uses.len();
    let sun = Call::Sun {
        grid: w.grid,
        lists: w.lists.clone(),
        direction: [w.sunlight[0], w.sunlight[1], w.sunlight[2]],
        active: w.active.clone(),
        light: vec![0.0; n],
        scratch: vec![0.0; n],
        hits: Scratch { distances: vec![0.0; t], places: vec![0; t] },
    };
    let refusal = table::refusal(&sun);
    if refusal != 0 {
        return Err(format!("the sun pass refuses the scene: {refusal}"));
    }
    let light = match &asked.lit {
        Some(l) => l.clone(),
        None => sunned(&w.grid, &w.lists, [w.sunlight[0], w.sunlight[1], w.sunlight[2]], Some(&w.active)).after,
    };
    bake_with(asked, light)
}

/// The unbroken bake of a scene with this light, unless it is refused.
pub fn bake_with(asked: &Asked, light: Vec<f32>) -> Result<Bake, String> {
    let w = &asked.world;
    let n = voxels(&w.grid);
    let t = w.lists.uses.len();
    let bake = Bake {
        grid: w.grid,
        lists: w.lists.clone(),
        sunlight: w.sunlight,
        ambient: w.ambient,
        sky: w.sky.clone(),
        lamps: w.lamps.clone(),
        active: w.active.clone(),
        light,
        volume: vec![0.0; 16 * n],
        scratch: vec![0.0; 16 * n],
        hits: Scratch { distances: vec![0.0; t], places: vec![0; t] },
        progress: Progress::default(),
        allowance: u64::MAX,
    };
    let refusal = table::refusal(&Call::Bake(Box::new(bake.clone())));
    if refusal != 0 {
        return Err(format!("the bake refuses the scene: {refusal}"));
    }
    Ok(bake)
}

fn figures(l: &[u32]) -> String {
    l.iter().map(|x| x.to_string()).collect()
}

pub fn volume_text(out: &mut String, name: &str, volume: &[f32]) {
    for (i, v) in volume.chunks(16).enumerate() {
        let _ = writeln!(out, "{name} {i} {}", row(v));
    }
}

/// Every answer for a scene.
pub fn answers(asked: &Asked) -> Result<String, String> {
    let w = &asked.world;
    let n = voxels(&w.grid);
    let mut out = String::new();
    let masks = answer(&Call::Masks { grid: w.grid, points: w.lists.points.clone(), occupied: vec![0; n], active: vec![0; n] });
    let _ = writeln!(out, "occupied {} {}\nactive {} {}", masks.words[1], figures(&masks.lists[0]), masks.words[2], figures(&masks.lists[1]));
    let bake = bake_of(asked)?;
    let s = sunned(&w.grid, &w.lists, [w.sunlight[0], w.sunlight[1], w.sunlight[2]], Some(&w.active));
    let _ = writeln!(out, "sun-rays {}\nsun-before {}\nsun-after {}", s.rays.len(), row(&s.before), row(&s.after));
    let b = baked(&bake, Some(&bake.active));
    let _ = writeln!(out, "bake-rays {} of voxels {}", b.rays.len(), b.rays_of.iter().map(|r| r.to_string()).collect::<Vec<_>>().join(" "));
    volume_text(&mut out, "volume-before", &b.before);
    volume_text(&mut out, "volume-after", &b.after);
    for ray in &asked.rays {
        let hit = answer(&Call::Nearest { lists: w.lists.clone(), ray: *ray }).words;
        let through = answer(&Call::Transmittance { lists: w.lists.clone(), ray: *ray, hits: bake.hits.clone() }).words;
        let _ = writeln!(out, "ray refusal {} hit {} place {} t #{:08x} u #{:08x} v #{:08x} front {} transmittance #{:08x}", hit[0], hit[1], hit[2], hit[3], hit[4], hit[5], hit[6], through[1]);
    }
    for p in &asked.lookups {
        let light = answer(&Call::LightLookup { grid: w.grid, light: s.after.clone(), position: *p }).words;
        let volume = answer(&Call::CoefficientLookup { grid: w.grid, volume: b.after.clone(), position: *p }).words;
        let sixteen = volume[1..].iter().map(|x| format!("#{x:08x}")).collect::<Vec<_>>().join(" ");
        let _ = writeln!(out, "lookup light {} #{:08x} coefficients {} {sixteen}", light[0], light[1], volume[0]);
    }
    let mut now = bake.clone();
    for allowance in &asked.allowances {
        now.allowance = *allowance;
        if *allowance < table::cost(&w.lamps) {
            let _ = writeln!(out, "call allowance {allowance} refused 10");
            continue;
        }
        let (progress, rays) = bake_call(&mut now, &b);
        let _ = writeln!(out, "call allowance {allowance} progress {} rays {rays} so far {}", progress.next, progress.rays);
        volume_text(&mut out, "volume-now", &now.volume);
        now.progress = progress;
    }
    if progress_done(&now) && !asked.allowances.is_empty() {
        if bits(&now.volume) != bits(&b.after) {
            return Err("the interrupted bake ends elsewhere than the unbroken one".into());
        }
        if now.progress.rays != b.rays.len() as u64 {
            return Err("the interrupted bake's record has not the rays of the unbroken one".into());
        }
    }
    Ok(out)
}

fn progress_done(now: &Bake) -> bool {
    now.progress.next == now.active.len() as u64
}

/// Every ray of the sun pass and of the bake.
pub fn fired(asked: &Asked) -> Result<String, String> {
    let w = &asked.world;
    let bake = bake_of(asked)?;
    let mut out = String::new();
    let s = sunned(&w.grid, &w.lists, [w.sunlight[0], w.sunlight[1], w.sunlight[2]], Some(&w.active));
    for (pass, rays) in [("sun", s.rays), ("bake", baked(&bake, Some(&bake.active)).rays)] {
        for r in rays {
            let kind = ["nearest", "transmittance"][r.kind as usize];
            let _ = writeln!(
                out,
                "{pass} voxel {} {kind} {}",
                r.voxel,
                row(&[r.origin.x, r.origin.y, r.origin.z, r.direction.x, r.direction.y, r.direction.z, r.shortest, r.longest])
            );
        }
    }
    Ok(out)
}
