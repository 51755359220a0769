//! A bake by shares, in calls of an allowance, that can be stopped and gone on with.
//!
//! One share is the library's own bake, and that a bake spread over calls ends as the unbroken one is proved of it. More shares divide the active voxels, each
//! into one; every share is a bake of its own mask, its unblurred volume is joined by the library's `join` onto that of a first share without a voxel, ambient
//! everywhere, and its blur of coefficients takes the mean last. That calls made so end in the bits of the unbroken bake is proved (`demand-of-shares` of crate shared_bake); that they are made so is
//! what stands here, and is tested (tests/).
use crate::engine::Engine;
use crate::hall::Hall;
use crate::part::{Only, Part};
use crate::volume::Volume;
use anyhow::Result;
use geaidnosa::*;
use std::sync::atomic::{AtomicBool, AtomicU64, AtomicUsize, Ordering::SeqCst};
use std::sync::Mutex;
use std::time::{Duration, Instant};

/// What comes before a bake: masks and the sun.
pub struct Prepared {
    pub occupied: Vec<u64>,
    pub active: Vec<u64>,
    pub light: Vec<f32>,
    pub marked: Marked,
    pub masks_seconds: f64,
    pub sun_seconds: f64,
    /// Where one machine bakes a share of the active voxels: which one; `active` is then its mask.
    pub only: Option<Only>,
}

impl Prepared {
    /// What one machine bakes of it.
    pub fn share(self, only: Only) -> Prepared {
        let active = mask_of(&self.active, Some(only));
        let marked = Marked { active: marked_count(&active), ..self.marked };
        Prepared { active, marked, only: Some(only), ..self }
    }

    fn volume(&self, hall: &Hall, volume: Vec<f32>) -> Volume {
        let (light, occupied, active) = (self.light.clone(), self.occupied.clone(), self.active.clone());
        Volume { axes: hall.axes, corners: hall.corners, light, volume, occupied, active }
    }

    /// The volume of unblurred numbers: their mean, unless nothing is active.
    pub fn meant(&self, hall: &Hall, mut unblurred: Vec<f32>) -> Result<Volume> {
        if self.marked.active > 0 {
            coefficient_blur(hall.axes, &mut unblurred, &mut vec![0.0; 16 * hall.axes.count()])?;
        }
        Ok(self.volume(hall, unblurred))
    }
}

/// Ambient everywhere: the volume of a share without a voxel, onto which the others are joined.
pub fn ambient_of(hall: &Hall, light: &[f32]) -> Result<Vec<f32>> {
    let (mut volume, mut scratch) = (vec![0.0; 16 * hall.axes.count()], vec![0.0; 16 * hall.axes.count()]);
    let none = vec![0; hall.axes.words()];
    Engine::new(hall).bake(&none, light, &mut volume, &mut scratch, Progress::ZERO, u64::MAX)?;
    Ok(volume)
}

/// Both masks, occupied and active, and their counts.
fn masked(hall: &Hall) -> Result<(Vec<u64>, Vec<u64>, Marked)> {
    let (mut occupied, mut active) = (vec![0; hall.axes.words()], vec![0; hall.axes.words()]);
    let marked = masks(hall.axes, hall.corners, &hall.points, &mut occupied, &mut active)?;
    Ok((occupied, active, marked))
}

/// The hall's whole mask of active voxels.
pub fn active_of(hall: &Hall) -> Result<Vec<u64>> {
    Ok(masked(hall)?.1)
}

/// How many voxels are occupied and active.
pub fn marked_of(hall: &Hall) -> Result<Marked> {
    Ok(masked(hall)?.2)
}

/// How many bytes a bake by so many shares at a time holds at most: what is saved, a copy of it, and each share's volume and scratch. The lists of a number or less
/// a voxel are small beside.
pub fn most_bytes(axes: Axes, shares: usize) -> u64 {
    4 * VOXEL_LENGTH as u64 * axes.count() as u64 * (2 + 2 * shares as u64)
}

/// How often a bake is saved where nobody says it, in seconds: every ten, and in a large hall a second for each megabyte that is written.
pub fn save_every(axes: Axes) -> f64 {
    (4.0 * VOXEL_LENGTH as f64 * axes.count() as f64 / 1e6).max(10.0)
}

pub fn prepare(hall: &Hall) -> Result<Prepared> {
    let n = hall.axes.count();
    let (mut light, mut scratch) = (vec![0.0; n], vec![0.0; n]);
    let begun = Instant::now();
    let (occupied, active, marked) = masked(hall)?;
    let masks_seconds = begun.elapsed().as_secs_f64();
    Engine::new(hall).sun(&active, &mut light, &mut scratch)?;
    let sun_seconds = begun.elapsed().as_secs_f64() - masks_seconds;
    Ok(Prepared { occupied, active, light, marked, masks_seconds, sun_seconds, only: None })
}

/// The masks of the shares: active voxel number j goes to share j mod count.
pub fn shares_of(active: &[u64], count: usize) -> Vec<Vec<u64>> {
    let mut masks = vec![vec![0; active.len()]; count];
    marked_voxels(active).enumerate().for_each(|(j, voxel)| mark(&mut masks[j % count], voxel));
    masks
}

/// What is baked of a hall's active voxels: all, or one machine's share.
pub fn mask_of(active: &[u64], only: Option<Only>) -> Vec<u64> {
    let Some(only) = only else { return active.to_vec() };
    let mut own = vec![0; active.len()];
    marked_voxels(active).skip(only.share - 1).step_by(only.of).for_each(|voxel| mark(&mut own, voxel));
    own
}

/// The voxels of a mask that a bake of it has passed.
pub fn passed(mask: &[u64], next: usize) -> Vec<u64> {
    // the bits of a word that stand for voxels below next
    let below = |place: usize| match next.saturating_sub(64 * place) {
        0 => 0,
        bits @ 1..=63 => (1 << bits) - 1,
        _ => !0,
    };
    mask.iter().enumerate().map(|(place, word)| word & below(place)).collect()
}

/// How many they are.
pub fn passed_count(mask: &[u64], next: usize) -> u64 {
    marked_count(&passed(mask, next))
}

/// What is asked of a bake.
pub struct Asked<'a> {
    pub shares: usize,
    pub threads: usize,
    pub allowance: u64,
    pub save_every: Duration,
    /// Set from outside to stop after the calls under way.
    pub stop: &'a AtomicBool,
    pub until: Option<Instant>,
    /// Called after each call and now and then with what is done so far, from any thread.
    pub tell: &'a (dyn Fn(Told) + Sync),
    /// Called now and then with what there is to save: no sooner than `save_every` after the last time was done.
    pub save: &'a (dyn Fn(&Part) -> Result<()> + Sync),
}

/// Voxels and rays of the whole bake so far, also of runs before this one; calls of this run.
#[derive(Clone, Copy, Debug)]
pub struct Told {
    pub voxels: u64,
    pub rays: u64,
    pub calls: u64,
}

pub enum Outcome {
    /// The whole bake, its mean taken.
    Done { volume: Volume, rays: u64, seconds: f64 },
    /// One machine's share at its end, unblurred.
    Share { part: Part },
    Stopped { part: Part, done: u64 },
}

/// What is saved: each share's progress after some call of it, and one volume for all of them, unblurred, with what each had passed then and ambient elsewhere.
struct Kept {
    shares: Vec<Progress>,
    volume: Vec<f32>,
}

/// Of a bake that begins, or of what was saved of one.
fn kept_of(hall: &Hall, prepared: &Prepared, masks: &[Vec<u64>], from: Option<Part>) -> Result<Kept> {
    let mut volume = ambient_of(hall, &prepared.light)?;
    let Some(part) = from else { return Ok(Kept { shares: vec![Progress::ZERO; masks.len()], volume }) };
    let mut all = vec![0; hall.axes.words()];
    for (mask, progress) in masks.iter().zip(&part.shares) {
        all.iter_mut().zip(passed(mask, progress.next)).for_each(|(word, own)| *word |= own);
    }
    join(hall.axes, &all, &part.volume, &mut volume)?;
    Ok(Kept { shares: part.shares, volume })
}

pub fn run(hall: &Hall, prepared: &Prepared, from: Option<Part>, asked: &Asked) -> Result<Outcome> {
    let n = hall.axes.count();
    let begun = Instant::now();
    let count = from.as_ref().map_or(asked.shares, |p| p.shares.len()).clamp(1, (prepared.marked.active as usize).max(1));
    let masks = shares_of(&prepared.active, count);
    let before = from.as_ref().map_or(0.0, |p| p.seconds);
    let kept = kept_of(hall, prepared, &masks, from)?;
    let voxels = AtomicU64::new(kept.shares.iter().zip(&masks).map(|(p, mask)| passed_count(mask, p.next)).sum());
    let rays = AtomicU64::new(kept.shares.iter().map(|p| p.rays).sum());
    let kept = Mutex::new(kept);
    let calls = AtomicU64::new(0);
    let running = AtomicUsize::new(count);
    let halted = || asked.stop.load(SeqCst) || asked.until.map_or(false, |end| Instant::now() >= end);
    let failed = AtomicBool::new(false);
    // the library's own blurred volume, where one share is the whole bake
    let blurred: Mutex<Option<Vec<f32>>> = Mutex::new(None);

    let told = || Told { voxels: voxels.load(SeqCst), rays: rays.load(SeqCst), calls: calls.load(SeqCst) };
    let seconds = || before + begun.elapsed().as_secs_f64();

    // Joins what a share has passed onto what is kept of all.
    let keep = |s: usize, progress: Progress, unblurred: &[f32]| -> Result<()> {
        let mut kept = kept.lock().unwrap();
        join(hall.axes, &passed(&masks[s], progress.next), unblurred, &mut kept.volume)?;
        kept.shares[s] = progress;
        Ok(())
    };
    // A share as its last call left it: its progress, and ambient everywhere but for what it has passed of its own.
    let state_of = |s: usize| -> Result<(Progress, Vec<f32>)> {
        let progress = kept.lock().unwrap().shares[s];
        if progress == Progress::ZERO {
            return Ok((progress, vec![0.0; 16 * n]));
        }
        let mut volume = ambient_of(hall, &prepared.light)?;
        join(hall.axes, &passed(&masks[s], progress.next), &kept.lock().unwrap().volume, &mut volume)?;
        Ok((progress, volume))
    };
    // One share to its end or to the stop. Its volume and scratch are held while it runs, so that shares that wait cost nothing.
    let work = |s: usize| -> Result<()> {
        let may_go_on = || !halted() && !failed.load(SeqCst);
        if kept.lock().unwrap().shares[s].next == n || !may_go_on() {
            return Ok(());
        }
        let mask = &masks[s];
        let (mut progress, mut volume) = state_of(s)?;
        let mut scratch = vec![0.0; 16 * n];
        let mut engine = Engine::new(hall);
        let mut saved = Instant::now();
        while progress.next < n && may_go_on() {
            let was = progress;
            let baked = engine.bake(mask, &prepared.light, &mut volume, &mut scratch, was, asked.allowance)?;
            progress = baked.progress;
            voxels.fetch_add(passed_count(mask, progress.next) - passed_count(mask, was.next), SeqCst);
            rays.fetch_add(baked.rays, SeqCst);
            calls.fetch_add(1, SeqCst);
            (asked.tell)(told());
            if progress.next < n && saved.elapsed() >= asked.save_every {
                keep(s, progress, &volume)?;
                saved = Instant::now();
            }
        }
        // the last call blurs the volume, unless nothing is active; what is kept is the unblurred one
        let blurs = progress.next == n && marked_count(mask) > 0;
        keep(s, progress, if blurs { &scratch } else { &volume })?;
        if progress.next == n && count == 1 {
            *blurred.lock().unwrap() = Some(volume);
        }
        Ok(())
    };

    // What there is to save; none where no share has begun.
    let so_far = || -> Option<Part> {
        let kept = kept.lock().unwrap();
        let begun = kept.shares.iter().any(|p| p.next > 0);
        begun.then(|| Part { shares: kept.shares.clone(), only: prepared.only, seconds: seconds(), volume: kept.volume.clone() })
    };
    let pool = rayon::ThreadPoolBuilder::new().num_threads(asked.threads.clamp(1, count)).build()?;
    let results: Mutex<Vec<anyhow::Error>> = Mutex::new(Vec::new());
    std::thread::scope(|scope| {
        scope.spawn(|| {
            pool.scope(|inner| {
                for s in 0..count {
                    let (work, running, failed, results) = (&work, &running, &failed, &results);
                    inner.spawn(move |_| {
                        if let Err(error) = work(s) {
                            failed.store(true, SeqCst);
                            results.lock().unwrap().push(error);
                        }
                        running.fetch_sub(1, SeqCst);
                    });
                }
            });
        });
        let mut saved = Instant::now();
        while running.load(SeqCst) > 0 {
            std::thread::sleep(Duration::from_millis(20));
            (asked.tell)(told());
            if saved.elapsed() >= asked.save_every && running.load(SeqCst) > 0 {
                if let Err(error) = so_far().map_or(Ok(()), |part| (asked.save)(&part)) {
                    failed.store(true, SeqCst);
                    results.lock().unwrap().push(error);
                }
                saved = Instant::now();
            }
        }
    });
    if let Some(error) = results.into_inner().unwrap().into_iter().next() {
        return Err(error);
    }
    (asked.tell)(told());
    let (seconds, rays, done) = (seconds(), rays.into_inner(), voxels.into_inner());
    let Kept { shares, volume } = kept.into_inner().unwrap();
    let finished = shares.iter().all(|p| p.next == n);
    if !finished || prepared.only.is_some() {
        let part = Part { shares, only: prepared.only, seconds, volume };
        return Ok(if finished { Outcome::Share { part } } else { Outcome::Stopped { part, done } });
    }
    let volume = match blurred.into_inner().unwrap() {
        Some(volume) => prepared.volume(hall, volume),
        None => prepared.meant(hall, volume)?,
    };
    Ok(Outcome::Done { volume, rays, seconds })
}
