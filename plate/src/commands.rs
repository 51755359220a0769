//! The commands, one function each; each answers its exit code, or an error in words.
use crate::baking::{self, Asked, Outcome, Prepared, Told};
use crate::engine::{Engine, Scan};
use crate::faults::Found;
use crate::hall::{self, thousands, vec, Hall};
use crate::part::{self, Only, Part};
use crate::picture::{self, Camera, Of, Picture};
use crate::volume::{irradiance, Volume};
use crate::{files, light, lists, Bake, Demo, FaceArgs, Look, Plan, Slice, ViewArgs, DIFFERS, GOOD, REFUSED, SAVED};
use anyhow::{bail, ensure, Context, Result};
use geaidnosa::{is_marked, mark, marked_count, marked_voxels, Progress, Refusal, Vec3, LEAST_RAYS};
use indicatif::{ProgressBar, ProgressDrawTarget, ProgressStyle};
use std::path::{Path, PathBuf};
use std::sync::atomic::{AtomicBool, Ordering::SeqCst};
use std::time::{Duration, Instant};

/// Reads a hall; its warnings go to standard error, and its faults are the error.
fn read_hall(path: &Path, warn: bool) -> Result<Hall> {
    let mut found = Found::default();
    let hall = hall::read(path, &mut found);
    if warn {
        found.warnings.iter().for_each(|w| eprintln!("warning: {w}"));
    }
    found.judged()?;
    hall.context("the hall cannot be read")
}

/// The same, to be baked: by the scan that a command asks for, else by the hall's own.
fn read_for_bake(path: &Path, warn: bool, scan: Option<Scan>) -> Result<Hall> {
    let hall = read_hall(path, warn)?;
    Ok(Hall { scan: scan.unwrap_or(hall.scan), ..hall })
}

fn cores() -> usize {
    std::thread::available_parallelism().map_or(1, |n| n.get())
}

/// Bytes in words.
fn sized(bytes: u64) -> String {
    match bytes as f64 / 1e6 {
        small if small < 1000.0 => format!("{small:.1} MB"),
        large => format!("{:.1} GB", large / 1000.0),
    }
}

fn lasting(seconds: f64) -> String {
    match seconds as u64 {
        s if s < 10 => format!("{seconds:.1} s"),
        s if s < 120 => format!("{s} s"),
        s if s < 7200 => format!("{} min", s / 60),
        s => format!("{:.1} h", s as f64 / 3600.0),
    }
}

/// Said of a hall whose every material is opaque.
const SOLID: &str = "solid walls: rays to the sun, the sky and the lamps end at their first hit";

/// How many boxes its tree has, said of a hall that is baked through it.
fn boxed(hall: &Hall) -> String {
    format!("box tree: a ray of sun and bake looks into those of {} boxes that lie on its way", thousands(hall.tree.boxes.len() as u64 / 6))
}

pub fn check(paths: &[PathBuf], json: bool) -> Result<u8> {
    let mut code = GOOD;
    for path in paths {
        let mut found = Found::default();
        let hall = hall::read(path, &mut found);
        if !found.faults.is_empty() {
            code = REFUSED;
        }
        if json {
            let (panels, solid, scan) = (hall.as_ref().map(Hall::panels), hall.as_ref().map(Hall::solid), hall.as_ref().map(|hall| hall.scan.name()));
            let line = serde_json::json!({ "hall": path.display().to_string(), "faults": found.faults, "warnings": found.warnings, "panels": panels, "solid": solid, "scan": scan });
            println!("{line}");
            continue;
        }
        found.faults.iter().for_each(|f| println!("{f}"));
        found.warnings.iter().for_each(|w| println!("warning: {w}"));
        match hall {
            Some(hall) => {
                let edge = hall.edges();
                let off = 3.0 * vec::dot(edge, edge).sqrt();
                println!("{}: {} is good: {} triangles, {} materials, {} lamps, {} faces, {} × {} × {} voxels of {:.3} × {:.3} × {:.3} m", path.display(),
                    hall.name, thousands(hall.triangles() as u64), hall.kinds.len(), hall.lamp_count(), hall.faces.len(),
                    hall.axes.width, hall.axes.height, hall.axes.depth, edge.x, edge.y, edge.z);
                if hall.panels() > 0 {
                    let turned = |counts: &[(&str, usize)]| counts.iter().map(|(axis, count)| format!("{} to {axis}", thousands(*count as u64))).collect::<Vec<_>>().join(", ");
                    let fronts: Vec<String> = hall.fronts().iter().map(|(name, counts)| format!("{name} {}", turned(counts))).collect();
                    println!("note: {} of {} triangles are panels, opaque from the front and not there from behind. A front is the side from which the corners run counter-clockwise. \
                        Fronts are turned: {}", thousands(hall.panels() as u64), thousands(hall.triangles() as u64), fronts.join("; "));
                }
                if hall.triangles() > 0 && hall.solid() {
                    println!("note: {SOLID}");
                }
                if hall.scan == Scan::Tree {
                    println!("note: {}", boxed(&hall));
                }
                let marked = baking::marked_of(&hall)?;
                let idle = hall.axes.count() as u64 - marked.active;
                if idle > 0 {
                    println!("note: {} of {} voxels lie more than two voxels from every surface. They are not baked but hold the open sky's light, and their neighbours some of it by the mean: \
                        in a closed hall take larger voxels, so that there are none", thousands(idle), thousands(hall.axes.count() as u64));
                }
                if hall.sun.colour != Vec3::default() {
                    println!("note: a voxel's look at the sun starts {off:.2} m away, so what stands nearer casts no shadow on its sun number");
                }
            }
            None => println!("{}: {} faults", path.display(), found.faults.len()),
        }
    }
    Ok(code)
}

/// The next moment at which the clock shows HH:MM.
fn moment(text: &str) -> Result<Instant> {
    let time = chrono::NaiveTime::parse_from_str(text, "%H:%M").with_context(|| format!("--until {text}: a time of the day as HH:MM is needed"))?;
    let now = chrono::Local::now().naive_local();
    let mut then = now.date().and_time(time);
    if then <= now {
        then += chrono::Duration::days(1);
    }
    Ok(Instant::now() + (then - now).to_std()?)
}

fn threads_of(asked: Option<usize>) -> Result<usize> {
    let threads = asked.unwrap_or_else(cores);
    ensure!((1..=1024).contains(&threads), "--threads {threads}: from 1 to 1,024");
    Ok(threads)
}

/// Set by Ctrl-C or a request to end.
static STOP: AtomicBool = AtomicBool::new(false);

/// The first time what is under way is brought to a stop and saved; the second time the program ends at once.
fn watch_stop() -> Result<()> {
    let asked = || {
        if STOP.swap(true, SeqCst) {
            std::process::exit(130);
        }
    };
    ctrlc::set_handler(asked).context("Ctrl-C cannot be watched")
}

pub fn bake(args: &Bake) -> Result<u8> {
    ensure!(args.out.is_none() || args.halls.len() == 1, "--out names one volume, and {} halls are given", args.halls.len());
    if let Some(seconds) = args.save_every {
        ensure!((0.0..=86_400.0).contains(&seconds), "--save-every {seconds}: seconds from 0 to 86,400");
    }
    let threads = threads_of(args.threads)?;
    let shares = args.shares.unwrap_or(threads);
    ensure!((1..=1024).contains(&shares), "--shares {shares}: from 1 to 1,024");
    let until = args.until.as_deref().map(moment).transpose()?;
    watch_stop()?;
    // all halls are judged before the first is baked
    let halls = args.halls.iter().map(|path| read_for_bake(path, true, args.scan)).collect::<Result<Vec<Hall>>>()?;
    for hall in &halls {
        let least = hall.voxel_cost();
        ensure!(args.allowance >= least, "--allowance {}: {} lamps need at least {least} rays a call (refusal 10)", args.allowance, hall.lamp_count());
    }
    let mut code = GOOD;
    for hall in &halls {
        let ending = args.share.map_or("vgrd".into(), |o| format!("share{}of{}", o.share, o.of));
        let out = args.out.clone().unwrap_or_else(|| hall.file.with_extension(ending));
        let asked = Baking { threads, shares, share: args.share, allowance: args.allowance, until, save_every: args.save_every, resume: args.resume, fresh: args.fresh, json: args.json };
        code = bake_one(hall, &out, &asked, &STOP)?;
        if code == SAVED {
            break;
        }
    }
    Ok(code)
}

struct Baking {
    threads: usize,
    shares: usize,
    share: Option<Only>,
    allowance: u64,
    until: Option<Instant>,
    save_every: Option<f64>,
    resume: bool,
    fresh: bool,
    json: bool,
}

fn removed(path: &Path) -> Result<()> {
    std::fs::remove_file(path).with_context(|| path.display().to_string())
}

fn bake_one(hall: &Hall, out: &Path, asked: &Baking, stop: &AtomicBool) -> Result<u8> {
    let part_path = part::path_of(out);
    let read = |path: &Path| Part::read(path, hall, &baking::active_of(hall)?, asked.share);
    files::clear_temporaries(out);
    files::clear_temporaries(&part_path);
    // a share that is done stays: a job that is run again costs nothing
    if asked.share.is_some() && out.exists() && !asked.fresh {
        let part = read(out)?;
        ensure!(part.finished(hall), "{} is the part of an unfinished bake", out.display());
        // a kill between the end and the part's removal left it; that of another share is not touched
        if part_path.exists() && read(&part_path).is_ok() {
            removed(&part_path)?;
        }
        let rays = part.rays();
        match asked.json {
            true => println!("{}", serde_json::json!({ "event": "done", "hall": hall.name, "volume": out.display().to_string(), "rays": rays, "seconds": part.seconds })),
            false => println!("{}: {} is there and done, {} rays in all (--fresh bakes it anew)", hall.name, out.display(), thousands(rays)),
        }
        return Ok(GOOD);
    }
    let from = match part_path.exists() && !asked.fresh {
        true => Some(read(&part_path)?),
        false if asked.resume => bail!("{}: there is no part file to go on from", part_path.display()),
        false => None,
    };
    let prepared = baking::prepare(hall)?;
    let prepared = match asked.share {
        Some(only) => prepared.share(only),
        None => prepared,
    };
    if asked.json {
        println!("{}", serde_json::json!({ "event": "prepared", "hall": hall.name, "scan": hall.scan.name(), "masks_seconds": prepared.masks_seconds, "sun_seconds": prepared.sun_seconds }));
    }
    let bar = ProgressBar::with_draw_target(Some(prepared.marked.active), if asked.json { ProgressDrawTarget::hidden() } else { ProgressDrawTarget::stderr() });
    bar.set_style(ProgressStyle::with_template("{prefix} [{bar:32}] {pos}/{len} voxels, {msg}, {eta} left")?.progress_chars("=> "));
    bar.set_prefix(hall.name.clone());
    if let Some(part) = &from {
        let rays = part.rays();
        if !asked.json {
            eprintln!("{}: going on from {}, {} rays so far", hall.name, part_path.display(), thousands(rays));
        }
    }
    let (begun, before) = (Instant::now(), from.as_ref().map_or(0.0, |part| part.seconds));
    // when the last line of JSON was written, and how many voxels were done at the start
    let last_line = std::sync::Mutex::new((None::<Instant>, None::<u64>));
    let tell = |told: Told| {
        let mut last = last_line.lock().unwrap();
        if last.1.is_none() {
            bar.set_position(told.voxels);
            bar.reset_eta();
            last.1 = Some(told.voxels);
        }
        bar.set_position(told.voxels);
        bar.set_message(format!("{} rays", thousands(told.rays)));
        if asked.json && last.0.map_or(true, |at| at.elapsed() >= Duration::from_secs(1)) {
            last.0 = Some(Instant::now());
            let line = serde_json::json!({ "event": "progress", "hall": hall.name, "voxels": told.voxels, "of": prepared.marked.active,
                "rays": told.rays, "calls": told.calls, "seconds": before + begun.elapsed().as_secs_f64() });
            println!("{line}");
        }
    };
    let save = |part: &Part| part.write(&part_path, hall);
    let save_every = Duration::from_secs_f64(asked.save_every.unwrap_or_else(|| baking::save_every(hall.axes)));
    let run = Asked { shares: asked.shares, threads: asked.threads, allowance: asked.allowance, save_every, stop, until: asked.until, tell: &tell, save: &save };
    let outcome = baking::run(hall, &prepared, from, &run)?;
    bar.finish_and_clear();
    let said = |words: String, line: serde_json::Value| if asked.json { println!("{line}") } else { println!("{words}") };
    let done = |rays: u64, seconds: f64| -> Result<u8> {
        if part_path.exists() {
            removed(&part_path)?;
        }
        let (active, time) = (prepared.marked.active, lasting(seconds));
        let through = if hall.scan == Scan::Tree { ", through a box tree" } else { "" };
        said(
            format!("{}: {}, {} of {} voxels active, {} rays in all, {time}{through}", hall.name, out.display(), thousands(active), thousands(hall.axes.count() as u64), thousands(rays)),
            serde_json::json!({ "event": "done", "hall": hall.name, "volume": out.display().to_string(), "scan": hall.scan.name(), "voxels": active, "rays": rays, "seconds": seconds }),
        );
        Ok(GOOD)
    };
    match outcome {
        Outcome::Done { volume, rays, seconds } => {
            volume.write(out)?;
            done(rays, seconds)
        }
        Outcome::Share { part } => {
            part.write(out, hall)?;
            done(part.rays(), part.seconds)
        }
        Outcome::Stopped { part, done } => {
            part.write(&part_path, hall)?;
            let (of, rays) = (prepared.marked.active, part.rays());
            said(
                format!("{}: stopped at {} of {} voxels, {} rays so far, and saved in {}; the same command goes on from there", hall.name, thousands(done), thousands(of),
                    thousands(rays), part_path.display()),
                serde_json::json!({ "event": "saved", "hall": hall.name, "part": part_path.display().to_string(), "voxels": done, "of": of, "rays": rays }),
            );
            Ok(SAVED)
        }
    }
}

/// All shares of a bake, each once, joined as they are read; every fault in words.
struct Shares {
    /// Unblurred.
    volume: Vec<f32>,
    count: usize,
    rays: u64,
    seconds: f64,
}

fn all_shares(hall: &Hall, prepared: &Prepared, paths: &[PathBuf]) -> Result<Shares> {
    let mut all = Shares { volume: baking::ambient_of(hall, &prepared.light)?, count: 0, rays: 0, seconds: 0.0 };
    let mut faults = Vec::new();
    let mut read: Vec<(Only, &PathBuf)> = Vec::new();
    for path in paths {
        let mut fault = |words: String| faults.push(format!("{}: {words}", path.display()));
        let part = match std::fs::read(path).map_err(anyhow::Error::from).and_then(|bytes| Part::of_bytes(&bytes, hall, &prepared.active)) {
            Ok(part) => part,
            Err(error) => {
                fault(format!("{error:#}"));
                continue;
            }
        };
        let (first, twice) = (read.first(), |only: Only| read.iter().find(|(other, _)| *other == only));
        match (part.only, first) {
            (None, _) => fault("it is the part of a whole bake, and no share".into()),
            (Some(only), _) if !part.finished(hall) => fault(format!("share {only} is not at its end: {} rays so far", thousands(part.rays()))),
            (Some(only), Some((first, other))) if first.of != only.of => fault(format!("share {only}, where {} is one of {}", other.display(), first.of)),
            (Some(only), _) => match twice(only) {
                Some((_, other)) => fault(format!("share {only} is given twice, {} is it too", other.display())),
                None => {
                    let joined = geaidnosa::join(hall.axes, &baking::mask_of(&prepared.active, Some(only)), &part.volume, &mut all.volume);
                    joined.unwrap_or_else(|refusal| fault(refusal.to_string()));
                    (all.rays, all.seconds) = (all.rays + part.rays(), all.seconds + part.seconds);
                    read.push((only, path));
                }
            },
        }
    }
    all.count = read.len();
    if faults.is_empty() {
        let of = read.first().map_or(0, |(only, _)| only.of);
        let missing: Vec<String> = (1..=of).filter(|s| read.iter().all(|(only, _)| only.share != *s)).map(|share| Only { share, of }.to_string()).collect();
        if !missing.is_empty() {
            faults.push(format!("missing: share {}", missing.join(", ")));
        }
    }
    ensure!(faults.is_empty(), "{}", faults.join("\n"));
    Ok(all)
}

pub fn join(hall: &Path, paths: &[PathBuf], out: Option<&Path>, scan: Option<Scan>) -> Result<u8> {
    let hall = read_for_bake(hall, true, scan)?;
    let out = out.map_or_else(|| hall.file.with_extension("vgrd"), Path::to_path_buf);
    files::clear_temporaries(&out);
    let prepared = baking::prepare(&hall)?;
    let Shares { volume, count, rays, seconds } = all_shares(&hall, &prepared, paths)?;
    prepared.meant(&hall, volume)?.write(&out)?;
    println!("{}: {} of {count} shares, {} of {} voxels active, {} rays in all, {} over the shares", hall.name, out.display(),
        thousands(prepared.marked.active), thousands(hall.axes.count() as u64), thousands(rays), lasting(seconds));
    Ok(GOOD)
}

pub fn lists(hall: &Path) -> Result<u8> {
    print!("{}", lists::text(&read_hall(hall, true)?));
    Ok(GOOD)
}

/// Says how far an unfinished bake of a hall is, or why it cannot be gone on with.
fn under_way(hall: &Hall, active: &[u64], of: u64) {
    let path = part::path_of(&hall.file.with_extension("vgrd"));
    if !path.exists() {
        return;
    }
    match Part::read(&path, hall, active, None) {
        Ok(part) => println!("  so far in {}: {} of {} voxels, {} rays, {}", path.display(), thousands(part.voxels(active)), thousands(of), thousands(part.rays()), lasting(part.seconds)),
        Err(error) => println!("  {error:#}"),
    }
}

/// What a plan finds of a bake by one scan: rays and calls of the whole, seconds that the sample took and that the whole will.
struct Foretold {
    rays: f64,
    calls: f64,
    seconds: f64,
    whole: f64,
}

/// The most voxels that a plan bakes where nobody says how many: some seconds' work.
const MOST_SAMPLED: usize = 1024;

pub fn plan(args: &Plan) -> Result<u8> {
    ensure!(args.sample != Some(0), "--sample 0: one voxel in at least one");
    let threads = threads_of(args.threads)?;
    let mut all = 0.0;
    for path in &args.halls {
        let hall = read_for_bake(path, true, args.scan)?;
        let cost = hall.voxel_cost();
        ensure!(args.allowance >= cost, "--allowance {}: {} lamps need at least {cost} rays a call (refusal 10)", args.allowance, hall.lamp_count());
        let Prepared { active, light, marked, .. } = baking::prepare(&hall)?;
        let n = hall.axes.count();
        println!("{}: {} of {} voxels active, {} triangles, {} lamps", hall.name, thousands(marked.active), thousands(n as u64), hall.triangles(), hall.lamp_count());
        if marked.active == 0 {
            println!("  nothing to bake: no surface is near the grid");
            continue;
        }
        if hall.solid() {
            println!("  {SOLID}");
        }
        if hall.scan == Scan::Tree {
            println!("  {}", boxed(&hall));
        }
        println!("  sure: from {} to {} rays ({LEAST_RAYS} to {cost} a voxel)", thousands(LEAST_RAYS * marked.active), thousands(cost * marked.active));
        let at_once = threads.min(marked.active as usize);
        println!("  memory: {} at most with {threads} threads; the volume file has {}, the part file {}", sized(baking::most_bytes(hall.axes, at_once)),
            sized(geaidnosa::volume_bytes(hall.axes)? as u64), sized(64 * n as u64));
        under_way(&hall, &active, marked.active);
        let sample = args.sample.unwrap_or((marked.active as usize / MOST_SAMPLED).max(8));
        let first = sample.min(marked.active as usize) / 2;
        let voxels: Vec<usize> = marked_voxels(&active).skip(first).step_by(sample).collect();
        let (mut volume, mut scratch) = (vec![0.0; 16 * n], vec![0.0; 16 * n]);
        let mut foretold = |scan: Scan| -> Result<Foretold> {
            let mut engine = Engine::by(&hall, scan);
            // what is fired from a progress on, the progress then, and the time
            let mut timed = |voxels: &[usize], progress: Progress| -> Result<(u64, Progress, f64)> {
                let mut mask = vec![0; hall.axes.words()];
                voxels.iter().for_each(|voxel| mark(&mut mask, *voxel));
                let begun = Instant::now();
                let baked = engine.bake(&mask, &light, &mut volume, &mut scratch, progress, u64::MAX)?;
                Ok((baked.rays, baked.progress, begun.elapsed().as_secs_f64()))
            };
            // A bake of one voxel shows what the grid costs by itself, and a call of a finished bake what each call does: in a large hall both are more than a voxel.
            let (_, _, grid) = timed(&voxels[..1], Progress::ZERO)?;
            let (fired, end, seconds) = timed(&voxels, Progress::ZERO)?;
            let (_, _, call) = timed(&voxels, end)?;
            let rays = fired as f64 * marked.active as f64 / voxels.len() as f64;
            let calls = (rays / args.allowance as f64).ceil();
            let a_voxel = if voxels.len() > 1 { (seconds - grid).max(0.0) / (voxels.len() - 1) as f64 } else { seconds };
            let whole = grid + (a_voxel * marked.active as f64 + calls * call) / threads as f64;
            Ok(Foretold { rays, calls, seconds, whole })
        };
        let (by_list, by_tree) = (foretold(Scan::List)?, foretold(Scan::Tree)?);
        let Foretold { rays, calls, seconds, whole } = if hall.scan == Scan::Tree { &by_tree } else { &by_list };
        all += whole;
        println!("  foretold from {} voxels baked in {}: some {} rays, {} calls at {} rays, {} with {threads} threads", thousands(voxels.len() as u64), lasting(*seconds),
            thousands(*rays as u64), thousands(*calls as u64), thousands(args.allowance), lasting(*whole));
        let quicker = if by_tree.whole < by_list.whole { Scan::Tree } else { Scan::List };
        println!("  by the list {}, through a box tree {}: scan \"{}\" is quicker", lasting(by_list.whole), lasting(by_tree.whole), quicker.name());
    }
    if args.halls.len() > 1 {
        println!("all {} halls: {}", args.halls.len(), lasting(all));
    }
    Ok(GOOD)
}

fn exposed(picture: &Picture, asked: Option<f32>, png: &Path) -> Result<f32> {
    let exposure = asked.unwrap_or_else(|| picture.exposure());
    ensure!(exposure.is_finite() && exposure > 0.0, "--exposure {exposure}: a number above 0");
    picture.write_png(png, exposure)?;
    Ok(exposure)
}

fn same_grid(volume: &Volume, hall: &Hall) -> Result<()> {
    ensure!((hall.axes, hall.corners) == (volume.axes, volume.corners), "{} has another grid than the volume", hall.file.display());
    Ok(())
}

pub fn slice(args: &Slice) -> Result<u8> {
    let volume = Volume::read(&args.volume)?;
    let counts = [volume.axes.width, volume.axes.height, volume.axes.depth];
    let names = ["x", "y", "z"];
    let (axis, place) = match (args.x, args.y, args.z) {
        (Some(x), _, _) => (0, Some(x)),
        (_, Some(y), _) => (1, Some(y)),
        (_, _, Some(z)) => (2, Some(z)),
        _ => (names.iter().position(|n| *n == args.across).context("--across: one of x, y and z")?, None),
    };
    let name = names[axis];
    ensure!(place.map_or(true, |p| p < counts[axis]), "--{name} {place}: the volume has {name} from 0 to {} (refusal 11)", counts[axis] - 1, place = place.unwrap_or(0));
    let hall = args.hall.as_deref().map(|path| read_hall(path, false)).transpose()?;
    if let Some(hall) = &hall {
        same_grid(&volume, hall)?;
    }
    let asked = args.exposure.or(args.of.is_part().then_some(1.0));
    if let (Some(place), Some(png)) = (place, &args.png) {
        let shown = picture::slice(&volume, axis, place, args.of, hall.as_ref(), asked);
        let exposure = exposed(&shown, asked, png)?;
        println!("{}: slice {name} = {place}, {} × {} pixels, white is {:.4}", png.display(), shown.width, shown.height, 1.0 / exposure);
        return Ok(GOOD);
    }
    // all slices at one exposure, so that they can be held beside each other
    let dir = args.all.as_ref().context("--png or --all is needed")?;
    std::fs::create_dir_all(dir).with_context(|| dir.display().to_string())?;
    let plain = (0..volume.axes.count()).map(|v| args.of.colour(&volume, v)).collect();
    let exposure = asked.unwrap_or_else(|| Picture { width: volume.axes.count(), height: 1, pixels: plain }.exposure());
    // as many digits as sort by name
    let digits = if counts[axis] > 100 { 3 } else { 2 };
    let file = |place: usize| format!("{name}{place:0digits$}.png");
    for place in 0..counts[axis] {
        exposed(&picture::slice(&volume, axis, place, args.of, hall.as_ref(), Some(exposure)), Some(exposure), &dir.join(file(place)))?;
    }
    println!("{}: {} slices across {name}, {} to {}, white is {:.4}", dir.display(), counts[axis], file(0), file(counts[axis] - 1), 1.0 / exposure);
    Ok(GOOD)
}

/// A face's picture, linear.
fn face_picture(volume: &Volume, hall: &Hall, name: &str, direct: bool, size: usize) -> Result<Picture> {
    use rayon::prelude::*;
    let names = || hall.faces.iter().map(|f| f.name.as_str()).collect::<Vec<_>>().join(", ");
    let face = hall.faces.iter().find(|f| f.name == name).with_context(|| format!("{}: no face {name}; it has {}", hall.file.display(), names()))?;
    let (across, up) = (vec::dot(face.across, face.across).sqrt(), vec::dot(face.up, face.up).sqrt());
    let longer = across.max(up);
    let pixels = |side: f32| ((size as f32 * side / longer).round() as usize).max(1);
    let (width, height) = (pixels(across), pixels(up));
    let rows: Result<Vec<Vec<[f32; 3]>>> = (0..height)
        .into_par_iter()
        .map(|row| {
            let mut engine = direct.then(|| Engine::new(hall));
            (0..width)
                .map(|column| {
                    let (right, upward) = ((column as f32 + 0.5) / width as f32, 1.0 - (row as f32 + 0.5) / height as f32);
                    let point = vec::add(face.corner, vec::add(vec::scale(face.across, right), vec::scale(face.up, upward)));
                    let falls = light::falling(volume, engine.as_mut(), point, face.normal)?;
                    Ok(light::sent(light::paint(face, right, upward), falls))
                })
                .collect()
        })
        .collect();
    Ok(Picture { width, height, pixels: rows?.into_iter().flatten().collect() })
}

pub fn face(args: &FaceArgs) -> Result<u8> {
    let volume = Volume::read(&args.volume)?;
    let hall = read_hall(&args.hall, false)?;
    same_grid(&volume, &hall)?;
    let shown = face_picture(&volume, &hall, &args.name, args.direct, args.size as usize)?;
    let exposure = exposed(&shown, args.exposure, &args.png)?;
    println!("{}: face {}, {} × {} pixels, white is {:.4}", args.png.display(), args.name, shown.width, shown.height, 1.0 / exposure);
    Ok(GOOD)
}

pub fn view(args: &ViewArgs) -> Result<u8> {
    ensure!(args.wide > 1.0 && args.wide < 170.0, "--wide {}: degrees between 1 and 170", args.wide);
    let way = vec::sub(args.to, args.from);
    ensure!(way.x.hypot(way.z) > 1e-6, "--from and --to: the camera looks straight up or down, or nowhere");
    let volume = Volume::read(&args.volume)?;
    let hall = read_hall(&args.hall, false)?;
    same_grid(&volume, &hall)?;
    let size = args.size as usize;
    let shown = picture::view(&volume, &hall, &Camera { from: args.from, to: args.to, wide: args.wide }, size, size * 9 / 16)?;
    let exposure = exposed(&shown, args.exposure, &args.png)?;
    println!("{}: {} × {} pixels, white is {:.4}", args.png.display(), shown.width, shown.height, 1.0 / exposure);
    Ok(GOOD)
}

#[derive(serde::Deserialize)]
struct Position {
    x: f32,
    y: f32,
    z: f32,
    nx: Option<f32>,
    ny: Option<f32>,
    nz: Option<f32>,
}

pub fn look(args: &Look) -> Result<u8> {
    let volume = Volume::read(&args.volume)?;
    let hall = args.direct.as_deref().map(|path| read_hall(path, false)).transpose()?;
    hall.as_ref().map_or(Ok(()), |hall| same_grid(&volume, hall))?;
    let input: Box<dyn std::io::Read> = match args.positions.to_str() {
        Some("-") => Box::new(std::io::stdin()),
        _ => Box::new(std::fs::File::open(&args.positions).with_context(|| args.positions.display().to_string())?),
    };
    let mut rows = csv::ReaderBuilder::new().trim(csv::Trim::All).from_reader(input);
    let positions = rows.deserialize().collect::<Result<Vec<Position>, _>>().with_context(|| args.positions.display().to_string())?;
    // a frame is judged whole before anything is answered
    let list: Vec<f32> = positions.iter().flat_map(|p| [p.x, p.y, p.z]).collect();
    let (mut lights, mut coefficients) = (vec![0.0; positions.len()], vec![0.0; 16 * positions.len()]);
    let place = |refused: geaidnosa::FirstRefused| match refused.refusal {
        Refusal::Position | Refusal::Contents => anyhow::anyhow!("{}: position {} (counted from 1): {}", args.positions.display(), refused.place + 1, refused.refusal),
        other => anyhow::anyhow!("{other}"),
    };
    geaidnosa::frame_lights(volume.axes, volume.corners, &volume.light, &list, &mut lights).map_err(place)?;
    geaidnosa::frame_coefficients(volume.axes, volume.corners, &volume.volume, &list, &mut coefficients).map_err(place)?;
    let mut out = csv::Writer::from_writer(std::io::stdout());
    let mut head: Vec<String> = ["x", "y", "z", "nx", "ny", "nz", "sun", "sky", "Er", "Eg", "Eb"].map(String::from).to_vec();
    head.extend((0..4).flat_map(|k| ["r", "g", "b"].map(|c| format!("c{k}{c}"))));
    out.write_record(&head)?;
    let mut engine = hall.as_ref().map(Engine::new);
    for (row, p) in positions.iter().enumerate() {
        let c = &coefficients[16 * row..16 * row + 16];
        let normal = match (p.nx, p.ny, p.nz) {
            (Some(x), Some(y), Some(z)) => {
                let n = Vec3::new(x, y, z);
                let squared = vec::dot(n, n);
                ensure!(squared > 1e-12 && squared.is_finite(), "position {} (counted from 1): its normal is no direction", row + 1);
                Some(vec::unit(n))
            }
            (None, None, None) => None,
            _ => bail!("position {} (counted from 1): a normal has three numbers", row + 1),
        };
        ensure!(hall.is_none() || normal.is_some(), "position {} (counted from 1): --direct needs a normal", row + 1);
        let mut fields: Vec<String> = [p.x, p.y, p.z].map(|x| x.to_string()).to_vec();
        match normal {
            Some(n) => {
                let mut falls = irradiance(c, n).map(|x| x.max(0.0));
                if let Some(engine) = &mut engine {
                    let more = light::direct(engine, Vec3::new(p.x, p.y, p.z), n)?;
                    (0..3).for_each(|k| falls[k] += more[k]);
                }
                fields.extend([n.x, n.y, n.z, lights[row], c[7]].map(|x| x.to_string()));
                fields.extend(falls.map(|x| x.to_string()));
            }
            None => {
                fields.extend(["", "", ""].map(String::from));
                fields.extend([lights[row], c[7]].map(|x| x.to_string()));
                fields.extend(["", "", ""].map(String::from));
            }
        }
        fields.extend((0..4).flat_map(|k| (0..3).map(move |j| c[4 * k + j].to_string())));
        out.write_record(&fields)?;
    }
    out.flush()?;
    Ok(GOOD)
}

pub fn stats(paths: &[PathBuf]) -> Result<u8> {
    for path in paths {
        let volume = Volume::read(path)?;
        let n = volume.axes.count();
        let count = |mask: &[u64]| thousands(marked_count(mask));
        let (min, max, edge) = (volume.corners.min, volume.corners.max, hall::edges(volume.axes, volume.corners));
        println!("{}: {} × {} × {} voxels of {:.3} × {:.3} × {:.3} m", path.display(), volume.axes.width, volume.axes.height, volume.axes.depth, edge.x, edge.y, edge.z);
        println!("  from ({}, {}, {}) to ({}, {}, {})", min.x, min.y, min.z, max.x, max.y, max.z);
        println!("  {} voxels, {} occupied, {} active, {} with sun 0", thousands(n as u64), count(&volume.occupied), count(&volume.active),
            thousands(volume.light.iter().filter(|x| **x == 0.0).count() as u64));
        let active: Vec<usize> = marked_voxels(&volume.active).collect();
        if active.is_empty() {
            continue;
        }
        let row = |name: &str, of: &dyn Fn(usize) -> f32| {
            let (mut least, mut most, mut sum) = (f32::INFINITY, f32::NEG_INFINITY, 0.0f64);
            for v in &active {
                let x = of(*v);
                (least, most, sum) = (least.min(x), most.max(x), sum + f64::from(x));
            }
            println!("  {name:<30} least {least:<10.4} mean {:<10.4} most {most:.4}", sum / active.len() as f64);
        };
        row("sun seen", &|v| volume.light[v]);
        row("sky seen", &|v| volume.voxel(v)[7]);
        for (name, n) in [("up +y", Vec3::new(0.0, 1.0, 0.0)), ("+z", Vec3::new(0.0, 0.0, 1.0)), ("+x", Vec3::new(1.0, 0.0, 0.0))] {
            row(&format!("irradiance facing {name}"), &|v| {
                let e = irradiance(volume.voxel(v), n);
                0.2126 * e[0] + 0.7152 * e[1] + 0.0722 * e[2]
            });
        }
    }
    Ok(GOOD)
}

/// How two lists of one length differ, in words.
fn compared(what: &str, first: &[f32], second: &[f32], a_voxel: usize, axes: geaidnosa::Axes) -> Option<String> {
    let differ: Vec<usize> = (0..first.len()).filter(|i| first[*i].to_bits() != second[*i].to_bits()).collect();
    let most = differ.iter().copied().max_by(|a, b| (first[*a] - second[*a]).abs().total_cmp(&(first[*b] - second[*b]).abs()))?;
    let voxels = differ.iter().map(|i| i / a_voxel).collect::<std::collections::BTreeSet<_>>().len();
    let v = most / a_voxel;
    let (x, y, z) = (v % axes.width, v / axes.width % axes.height, v / axes.width / axes.height);
    Some(format!("{what}: {} numbers in {} voxels differ, most at voxel ({x}, {y}, {z}): {} and {}", thousands(differ.len() as u64), thousands(voxels as u64), first[most], second[most]))
}

/// Every difference of two volumes, in words.
fn differences(first: &Volume, second: &Volume) -> Vec<String> {
    if first.axes != second.axes {
        let size = |v: &Volume| format!("{} × {} × {}", v.axes.width, v.axes.height, v.axes.depth);
        return vec![format!("axes: {} and {}", size(first), size(second))];
    }
    let corner = |v: &Volume| [<[f32; 3]>::from(v.corners.min), v.corners.max.into()].concat();
    let mut words = Vec::new();
    if corner(first).iter().zip(corner(second)).any(|(a, b)| a.to_bits() != b.to_bits()) {
        words.push(format!("corners: {:?} and {:?}", corner(first), corner(second)));
    }
    words.extend(compared("sun", &first.light, &second.light, 1, first.axes));
    words.extend(compared("coefficients", &first.volume, &second.volume, 16, first.axes));
    for (what, a, b) in [("occupied", &first.occupied, &second.occupied), ("active", &first.active, &second.active)] {
        let apart: Vec<u64> = a.iter().zip(b).map(|(x, y)| x ^ y).collect();
        let count = marked_count(&apart);
        if count > 0 {
            words.push(format!("{what}: {count} voxels differ"));
        }
    }
    words
}

pub fn diff(first: &Path, second: &Path, png: Option<&Path>) -> Result<u8> {
    let (first, second) = (Volume::read(first)?, Volume::read(second)?);
    let words = differences(&first, &second);
    match png {
        Some(png) if first.axes == second.axes => {
            let (shown, most) = picture::difference(&first, &second);
            shown.write_png(png, 1.0)?;
            println!("{}: the slices across z in rows, red where a bit differs, white is {most}", png.display());
        }
        Some(png) => println!("{}: no picture of volumes of other axes", png.display()),
        None => (),
    }
    if words.is_empty() {
        println!("the same, bit for bit");
        return Ok(GOOD);
    }
    words.iter().for_each(|w| println!("{w}"));
    Ok(DIFFERS)
}

pub fn verify(volume_path: &Path, hall_path: &Path, sample: usize, scan: Option<Scan>) -> Result<u8> {
    let volume = Volume::read(volume_path)?;
    let hall = read_for_bake(hall_path, false, scan)?;
    ensure!(sample >= 1, "--sample {sample}: at least one voxel");
    let mut words = Vec::new();
    if (hall.axes, hall.corners) != (volume.axes, volume.corners) {
        println!("the hall's grid is not the volume's");
        return Ok(DIFFERS);
    }
    let n = hall.axes.count();
    let Prepared { occupied, active, light, marked, .. } = baking::prepare(&hall)?;
    if occupied != volume.occupied || active != volume.active {
        words.push("the masks are not the hall's".to_string());
    }
    words.extend(compared("sun (file, then again)", &volume.light, &light, 1, hall.axes));
    // A finished voxel is the mean of its 3×3×3 unblurred ones: bake those that are active, and the mean at the voxel is the whole bake's.
    let voxels: Vec<usize> = marked_voxels(&active).collect();
    let step = voxels.len().div_ceil(sample).max(1);
    let chosen: Vec<usize> = voxels.iter().copied().skip(step / 2).step_by(step).collect();
    let mut mask = vec![0; hall.axes.words()];
    let (w, h, d) = (hall.axes.width, hall.axes.height, hall.axes.depth);
    let near = |at: usize, most: usize| at.saturating_sub(1)..(at + 2).min(most);
    for v in &chosen {
        let (x, y, z) = (v % w, v / w % h, v / w / h);
        for (z, y, x) in near(z, d).flat_map(|z| near(y, h).flat_map(move |y| near(x, w).map(move |x| (z, y, x)))) {
            let at = hall.axes.index(x, y, z);
            if is_marked(&active, at) {
                mark(&mut mask, at);
            }
        }
    }
    let (mut again, mut scratch) = (vec![0.0; 16 * n], vec![0.0; 16 * n]);
    let baked = Engine::new(&hall).bake(&mask, &light, &mut again, &mut scratch, Progress::ZERO, u64::MAX)?;
    let wrong = chosen.iter().filter(|v| !volume.voxel(**v).iter().zip(&again[16 * **v..16 * **v + 16]).all(|(a, b)| a.to_bits() == b.to_bits())).count();
    if wrong > 0 {
        words.push(format!("{wrong} of {} voxels baked again come out differently", chosen.len()));
    }
    if words.is_empty() {
        println!("good: masks and sun again, and {} of {} active voxels baked again ({} rays), bit for bit", chosen.len(), marked.active, thousands(baked.rays));
        return Ok(GOOD);
    }
    words.iter().for_each(|w| println!("{w}"));
    Ok(DIFFERS)
}

pub fn explain(number: u32) -> Result<u8> {
    let Some(refusal) = Refusal::of_number(number) else {
        let numbers: Vec<String> = Refusal::ALL.iter().map(|r| r.number().to_string()).collect();
        bail!("{number}: no refusal has this number; there are {}", numbers.join(", "));
    };
    println!("refusal {number}: {}", refusal.words());
    println!("{}", match refusal {
        Refusal::Axis => "In hall.toml, grid.voxels: width, height and depth are whole numbers within these.",
        Refusal::Corner => "In hall.toml, grid.min and grid.max: min below max on every axis, all within 4,096 metres. Is unit right?",
        Refusal::Length => "A list handed to the library has not the length that the grid or the triangles ask for. The program sees to this; a program of your own must.",
        Refusal::TooMany => "Leave out what casts no light worth baking: chairs, screws, what is outside. A drawing has at most 4,096 triangles and 256 materials.",
        Refusal::Point => "A point of the drawing is too far off or not finite. Is unit right? `plate check` names the face and its line.",
        Refusal::Material => "A material's colour or transmission is out of range, in the material file or in hall.toml, or its kind there is none of \"opaque\" (0), \"translucent\" (1) and \
            \"panel\" (2), which is opaque from the front and not there from behind. `plate check` names it. The solid calls take opaque materials alone; the program makes \
            them only of a hall that has no other, a program of your own must.",
        Refusal::Light => "In hall.toml, sun and sky: sun.towards has a length, and every number is finite and at most 65,536.",
        Refusal::Ray => "Only programs that trace rays of their own meet this one.",
        Refusal::Progress => "A bake was asked to go on from past its end, or with rays that the voxels passed cannot have fired. Hand on what the last call answered, both numbers of it, with \
            the same mask and lamps. The program does; a part file that says otherwise was changed: `plate bake --fresh` begins anew.",
        Refusal::Allowance => "Give --allowance at least 384 rays, and 64 more for each lamp.",
        Refusal::Position => "A position looked up lies beyond 4,096 metres, or a slice past the grid.",
        Refusal::File => "The volume file is not whole, not a volume, changed since it was written, or of a newer version with larger axes. Bake it again.",
        Refusal::Contents => "A list holds a number that no bake writes. Bake the volume again.",
        Refusal::TooLong => "`volstat` reads files of at most 65,536 bytes; `plate stats` reads all of them.",
        Refusal::Tree => "A box tree handed to the library does not hold every present triangle once, has a box that does not lie inside the one above it, or is otherwise not the tree of these \
            triangles; include/geaidnosa.h says under \"Trees\" what is accepted. The program takes the library's own trees, which are; a program of your own may, by build_tree.",
        Refusal::Lamp => "In hall.toml, lamps: at most eight, each within 4,096 metres and of a colour of at most 65,536.",
    });
    Ok(GOOD)
}

const SAMPLE: [(&str, &str); 3] = [
    ("hall.toml", include_str!("../demo/hall.toml")),
    ("hall.obj", include_str!("../demo/hall.obj")),
    ("hall.mtl", include_str!("../demo/hall.mtl")),
];

const BEGUN: [(&str, &str); 3] = [
    ("hall.toml", include_str!("../new/hall.toml")),
    ("hall.obj", include_str!("../new/hall.obj")),
    ("hall.mtl", include_str!("../new/hall.mtl")),
];

/// Writes files into a folder, and none over another one.
fn laid_out(dir: &Path, list: &[(&str, &str)]) -> Result<()> {
    std::fs::create_dir_all(dir).with_context(|| dir.display().to_string())?;
    for (name, text) in list {
        let path = dir.join(name);
        let there = std::fs::read(&path).ok();
        ensure!(there.is_none() || there.as_deref() == Some(text.as_bytes()), "{} is there and is another file", path.display());
    }
    list.iter().try_for_each(|(name, text)| files::write_whole(&dir.join(name), [text.as_bytes()]))
}

pub fn new(dir: &Path) -> Result<u8> {
    laid_out(dir, &BEGUN)?;
    println!("{}: a hall to begin with. Put your drawing in the place of hall.obj, then `plate check {0}`.", dir.join("hall.toml").display());
    Ok(GOOD)
}

pub fn demo(args: &Demo) -> Result<u8> {
    let begun = Instant::now();
    let threads = threads_of(args.threads)?;
    let dir = &args.dir;
    laid_out(dir, &SAMPLE)?;
    let hall = read_for_bake(&dir.join("hall.toml"), true, args.scan)?;
    println!("{}: a sample archery hall of {} triangles with {} lamps", dir.join("hall.toml").display(), hall.triangles(), hall.lamp_count());
    let out = dir.join("hall.vgrd");
    let asked = Baking { threads, shares: threads, share: None, allowance: 100_000, until: None, save_every: None, resume: false, fresh: false, json: false };
    watch_stop()?;
    if bake_one(&hall, &out, &asked, &STOP)? == SAVED {
        return Ok(SAVED);
    }
    let volume = Volume::read(&out)?;
    let show = |name: &str, picture: Picture, exposure: Option<f32>, words: &str| -> Result<()> {
        let path = dir.join(name);
        ensure!(!STOP.load(SeqCst), "stopped before {}; {} is there", path.display(), out.display());
        exposed(&picture, exposure, &path)?;
        println!("{}\n    {words}", path.display());
        Ok(())
    };
    let edge = hall.edges();
    let level = |at: f32, min: f32, edge: f32, count: usize| (((at - min) / edge) as usize).min(count - 1);
    let y = level(1.3, hall.corners.min.y, edge.y, hall.axes.height);
    let z = level(1.5, hall.corners.min.z, edge.z, hall.axes.depth);
    let camera = Camera { from: Vec3::new(6.2, 1.75, 14.5), to: Vec3::new(5.6, 1.35, 0.0), wide: 64.0 };
    show("view.png", picture::view(&volume, &hall, &camera, 640, 360)?, None,
        "The hall as an archer sees it: three mats with their faces under hoods, a net behind them, lamps below the ceiling, windows to the right and the sun's patches on \
         the floor. What falls straight from lamps and sun is added here; the light in the shadows is the volume's. The ceiling is turned to −y, where a volume reads too \
         dark: hence its dark spots.")?;
    show("plan.png", picture::slice(&volume, 1, y, Of::Irradiance(Vec3::new(0.0, 1.0, 0.0)), Some(&hall), None), None,
        "The volume from above at a height of 1.3 m, the archers' end below: light on a surface turned up. A bright spot below each of the six lamps, which is what ceiling \
         and tube send down, not the lamp itself; bluish along the windows on the right; dark behind the mats. White lines are the surfaces cut.")?;
    show("slice.png", picture::slice(&volume, 2, z, Of::Irradiance(Vec3::new(0.0, 0.0, 1.0)), Some(&hall), None), None,
        "A slice across the hall just before the mats, light on a face turned to the archers; the white lines are the hoods.")?;
    let face = hall.faces.first().map(|f| f.name.clone()).context("the sample hall has faces")?;
    let straight = face_picture(&volume, &hall, &face, true, 400)?;
    let exposure = straight.exposure();
    show("face.png", straight, Some(exposure),
        "A target's face with lamps and sun: the hood's shadow lies over the upper rim, an edge for each of the lamps before it.")?;
    show("face-volume.png", face_picture(&volume, &hall, &face, false, 400)?, Some(exposure),
        "The same face at the same exposure by the volume alone: the light that is left in that shadow, without its edges.")?;
    println!("done in {}", lasting(begun.elapsed().as_secs_f64()));
    Ok(GOOD)
}
