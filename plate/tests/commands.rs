//! Every command with good and bad input, through the program itself; and the numbers it writes held to the library's own bake.
use geaidnosa::*;
use plate::{baking, engine::Engine, engine::Scan, faults::Found, hall, part::Only, part::Part, volume::Volume};
use std::path::{Path, PathBuf};
use std::process::{Command, Output};
use std::sync::atomic::AtomicBool;
use std::time::Duration;

/// On another processor `PLATE_EMULATE` names what runs the program.
fn program() -> Command {
    match std::env::var("PLATE_EMULATE").ok().filter(|e| !e.is_empty()) {
        Some(emulate) => {
            let mut command = Command::new(emulate);
            command.arg(env!("CARGO_BIN_EXE_plate"));
            command
        }
        None => Command::new(env!("CARGO_BIN_EXE_plate")),
    }
}

fn plate(dir: &Path, args: &[&str]) -> Output {
    program().args(args).current_dir(dir).output().expect("the program runs")
}

fn words(output: &Output) -> String {
    String::from_utf8_lossy(&output.stdout).into_owned() + &String::from_utf8_lossy(&output.stderr)
}

/// Runs it, and holds the exit code and that the words are said; a panic is never good.
fn says(dir: &Path, args: &[&str], code: i32, said: &[&str]) -> String {
    let output = plate(dir, args);
    let all = words(&output);
    assert_eq!(output.status.code(), Some(code), "{args:?}: {all}");
    assert!(!all.contains("panicked"), "{args:?}: {all}");
    for word in said {
        assert!(all.contains(word), "{args:?} does not say \"{word}\": {all}");
    }
    all
}

/// A small hall in a folder of its own.
fn small() -> (tempfile::TempDir, PathBuf) {
    let dir = tempfile::tempdir().unwrap();
    says(dir.path(), &["new", "."], 0, &["hall.toml", "plate check"]);
    let path = dir.path().join("hall.toml");
    (dir, path)
}

fn edit(path: &Path, from: &str, to: &str) {
    let text = std::fs::read_to_string(path).unwrap();
    assert!(text.contains(from), "{from}");
    std::fs::write(path, text.replacen(from, to, 1)).unwrap();
}

fn read(path: &Path) -> hall::Hall {
    let mut found = Found::default();
    let hall = hall::read(path, &mut found);
    assert!(found.faults.is_empty(), "{:?}", found.faults);
    hall.unwrap()
}

/// The bake as a program of one's own would do it: one call, no share, no part. By the calls that take every hall, of solid walls too.
fn unbroken(hall: &hall::Hall) -> (Volume, u64) {
    let (n, t) = (hall.axes.count(), hall.triangles());
    let (mut occupied, mut active) = (vec![0; hall.axes.words()], vec![0; hall.axes.words()]);
    let (mut light, mut kept) = (vec![0.0; n], vec![0.0; n]);
    let (mut volume, mut scratch, mut distances, mut places) = (vec![0.0; 16 * n], vec![0.0; 16 * n], vec![0.0; t], vec![0; t]);
    masks(hall.axes, hall.corners, &hall.points, &mut occupied, &mut active).unwrap();
    let hits = HitScratch { distances: &mut distances, places: &mut places };
    sun(hall.axes, hall.corners, hall.scene(), hall.sun.direction, &active, &mut light, &mut kept, hits).unwrap();
    let hits = HitScratch { distances: &mut distances, places: &mut places };
    let baked = bake(hall.input(&active, &light), &mut volume, &mut scratch, hits, Progress::ZERO, u64::MAX).unwrap();
    assert_eq!(baked.progress, Progress { next: n, rays: baked.rays });
    (Volume { axes: hall.axes, corners: hall.corners, light, volume, occupied, active }, baked.rays)
}

#[test]
fn a_volume_is_the_unbroken_bakes_bit_for_bit() {
    let (dir, path) = small();
    let (volume, rays) = unbroken(&read(&path));
    let bytes = volume.bytes().unwrap();
    for (shares, allowance) in [("1", "448"), ("1", "1000000"), ("2", "5000"), ("3", "5000"), ("8", "20000")] {
        let out = format!("by-{shares}-{allowance}.vgrd");
        let said = says(dir.path(), &["bake", "hall.toml", "-o", &out, "--shares", shares, "--threads", "2", "--allowance", allowance], 0, &["my hall"]);
        assert!(said.contains(&hall::thousands(rays)), "{said}");
        assert_eq!(std::fs::read(dir.path().join(&out)).unwrap(), bytes, "{shares} shares");
        assert!(!dir.path().join(format!("{out}.part")).exists());
    }
    says(dir.path(), &["bake", "hall.toml", "--json"], 0, &["\"event\":\"prepared\"", "\"sun_seconds\":", "\"event\":\"done\"", &format!("\"rays\":{rays}")]);
    assert_eq!(std::fs::read(dir.path().join("hall.vgrd")).unwrap(), bytes);
}

/// A bake in the test's own process: from a part, if there is one, for so many calls.
fn baked(hall: &hall::Hall, from: Option<Part>, shares: usize, threads: usize, calls: u64) -> baking::Outcome {
    baked_of(hall, &baking::prepare(hall).unwrap(), from, shares, threads, calls)
}

fn baked_of(hall: &hall::Hall, prepared: &baking::Prepared, from: Option<Part>, shares: usize, threads: usize, calls: u64) -> baking::Outcome {
    let stop = AtomicBool::new(false);
    let told = |told: baking::Told| stop.fetch_or(told.calls >= calls, std::sync::atomic::Ordering::SeqCst);
    let asked = baking::Asked {
        shares,
        threads,
        allowance: hall.voxel_cost() * 40,
        save_every: Duration::from_millis(1),
        stop: &stop,
        until: None,
        tell: &|t| {
            told(t);
        },
        save: &|_| Ok(()),
    };
    baking::run(hall, prepared, from, &asked).unwrap()
}

#[test]
fn shares_give_the_same_bits() {
    let (_dir, path) = small();
    // open to a sky on all sides, all of it coloured, and with no surface near some voxels
    edit(&path, "voxels = [12, 6, 16]", "voxels = [9, 8, 11]");
    edit(&path, "max = [6.1, 3.1, 8.1]", "max = [6.1, 7.1, 8.1]");
    edit(&path, "colour = [0.0, 0.0, 0.0]", "colour = [2.0, 1.5, 1.0]");
    let hall = read(&path);
    let (volume, rays) = unbroken(&hall);
    assert!((1..hall.axes.count() as u64).contains(&marked_count(&volume.active)));
    for shares in [1, 2, 3, 8, 500] {
        // stopped after one call, gone on with through a part file, stopped again ..
        let mut from = None;
        let (mut stops, mut so_far) = (0, 0);
        let done = loop {
            match baked(&hall, from.take(), shares, 2, 1) {
                baking::Outcome::Done { volume, rays, .. } => break (volume, rays),
                baking::Outcome::Share { .. } => panic!("no share was asked"),
                baking::Outcome::Stopped { part, .. } => {
                    let file = path.with_extension("part");
                    part.write(&file, &hall).unwrap();
                    from = Some(Part::read(&file, &hall, &volume.active, None).unwrap());
                    let read = from.as_ref().unwrap();
                    assert_eq!((&read.shares, &read.volume), (&part.shares, &part.volume));
                    assert!(part.rays() > so_far);
                    so_far = part.rays();
                    stops += 1;
                }
            }
        };
        assert!(stops > 0, "{shares} shares were not stopped once");
        assert_eq!(done.1, rays, "{shares} shares");
        assert_eq!(done.0.bytes().unwrap(), volume.bytes().unwrap(), "{shares} shares");
    }
}

#[test]
fn an_axis_at_the_limit() {
    let (dir, path) = small();
    let at = dir.path();
    for voxels in ["[128, 2, 1]", "[1, 2, 128]", "[2, 128, 1]"] {
        let text = std::fs::read_to_string(&path).unwrap();
        let was = text.lines().find(|line| line.starts_with("voxels")).unwrap();
        edit(&path, was, &format!("voxels = {voxels}"));
        let (volume, rays) = unbroken(&read(&path));
        for (shares, name) in [("1", "one.vgrd"), ("3", "three.vgrd")] {
            let said = says(at, &["bake", "hall.toml", "--shares", shares, "--threads", "2", "--allowance", "5000", "-o", name], 0, &[]);
            assert_eq!(rays_said(&said), rays, "{voxels}");
            assert!(std::fs::read(at.join(name)).unwrap() == volume.bytes().unwrap(), "{voxels} by {shares} shares");
        }
        says(at, &["verify", "three.vgrd", "hall.toml"], 0, &["good"]);
    }
    // what a large hall takes is said; nothing of it is taken here
    let large = Axes { width: AXIS_LIMIT, height: AXIS_LIMIT, depth: AXIS_LIMIT };
    assert_eq!((baking::most_bytes(large, 1), baking::most_bytes(large, 8)), (4 * 134_217_728, 18 * 134_217_728));
    let small = Axes { width: 24, height: 6, depth: 32 };
    assert_eq!((baking::save_every(small), baking::save_every(large).round()), (10.0, 134.0));
}

#[test]
fn masks_of_shares_and_of_what_they_have_passed() {
    let active = [0x8000_0000_0000_0001, 0, !0, 0x0123_4567_89ab_cdef, 1 << 63];
    for of in [1, 2, 3, 7, 300] {
        let masks = baking::shares_of(&active, of);
        for (k, mask) in masks.iter().enumerate() {
            assert_eq!(baking::mask_of(&active, Some(Only { share: k + 1, of })), *mask, "{} of {of}", k + 1);
        }
    }
    assert_eq!(baking::mask_of(&active, None), active);
    for next in (0..=330).chain([usize::MAX]) {
        let passed = baking::passed(&active, next);
        assert!((0..320).all(|voxel| is_marked(&passed, voxel) == (is_marked(&active, voxel) && voxel < next)), "{next}");
        assert_eq!(baking::passed_count(&active, next), marked_voxels(&active).take_while(|voxel| *voxel < next).count() as u64);
    }
}

/// The rays that a command says.
fn rays_said(said: &str) -> u64 {
    let before = said.split(" rays").next().unwrap();
    before.rsplit(' ').next().unwrap().replace(',', "").parse().unwrap()
}

#[test]
fn shares_of_machines_join_to_the_same_bits() {
    let (dir, path) = small();
    let at = dir.path();
    // some voxels are not active
    edit(&path, "voxels = [12, 6, 16]", "voxels = [9, 8, 11]");
    edit(&path, "max = [6.1, 3.1, 8.1]", "max = [6.1, 7.1, 8.1]");
    let all = rays_said(&says(at, &["bake", "hall.toml", "--threads", "1", "-o", "whole.vgrd"], 0, &[]));
    let whole = std::fs::read(at.join("whole.vgrd")).unwrap();
    for of in [1, 2, 3, 8] {
        let names: Vec<String> = (1..=of).map(|share| format!("x.share{share}of{of}")).collect();
        let mut rays = 0;
        for (k, name) in names.iter().enumerate() {
            let share = format!("{}/{of}", k + 1);
            rays += rays_said(&says(at, &["bake", "hall.toml", "--share", &share, "-o", name, "--threads", ["1", "2"][k % 2], "--allowance", "5000"], 0, &[name]));
        }
        assert_eq!(rays, all, "{of} shares");
        // in whatever order they come
        let mut args = vec!["join", "hall.toml", "-o", "joined.vgrd"];
        args.extend(names.iter().rev().map(String::as_str));
        assert_eq!(rays_said(&says(at, &args, 0, &[&format!("joined.vgrd of {of} shares")])), all);
        assert_eq!(std::fs::read(at.join("joined.vgrd")).unwrap(), whole, "{of} shares");
    }
    // faults, in words
    let _ = std::fs::remove_file(at.join("joined.vgrd"));
    let refused = |shares: &[&str], said: &[&str]| {
        says(at, &[&["join", "hall.toml", "-o", "joined.vgrd"], shares].concat(), 3, said);
        assert!(!at.join("joined.vgrd").exists());
    };
    refused(&["x.share1of3", "x.share3of3"], &["missing: share 2/3"]);
    refused(&["x.share4of8"], &["missing: share 1/8, 2/8, 3/8, 5/8, 6/8, 7/8, 8/8"]);
    std::fs::copy(at.join("x.share1of3"), at.join("copy")).unwrap();
    refused(&["x.share1of3", "x.share2of3", "x.share3of3", "copy"], &["copy: share 1/3 is given twice, x.share1of3 is it too"]);
    refused(&["x.share1of2", "x.share2of3"], &["x.share2of3: share 2/3, where x.share1of2 is one of 2"]);
    refused(&["x.share1of2", "whole.vgrd"], &["whole.vgrd: it is no part file of this program"]);
    refused(&["x.share1of2", "none"], &["none: No such file"]);
    let mut bad = std::fs::read(at.join("x.share2of2")).unwrap();
    let middle = bad.len() / 2;
    bad[middle] ^= 1;
    std::fs::write(at.join("copy"), bad).unwrap();
    refused(&["x.share1of2", "copy"], &["copy: it is damaged"]);
    // a number that no bake writes, under a right sum
    let active = baking::active_of(&read(&path)).unwrap();
    let good = Part::of_bytes(&std::fs::read(at.join("x.share2of2")).unwrap(), &read(&path), &active).unwrap();
    // rays that the share's voxels did not fire
    let voxels = marked_count(&baking::mask_of(&active, good.only));
    for rays in [0, LEAST_RAYS * voxels - 1, read(&path).voxel_cost() * voxels + 1, u64::MAX] {
        let part = Part { shares: vec![Progress { rays, ..good.shares[0] }], ..good.clone() };
        part.write(&at.join("copy"), &read(&path)).unwrap();
        refused(&["x.share1of2", "copy"], &["copy: its rays so far do not fit the voxels that it has passed", "refusal 9"]);
        says(at, &["bake", "hall.toml", "--share", "2/2", "-o", "copy"], 3, &["copy is not gone on with", "do not fit", "--fresh"]);
    }
    let mut part = good.clone();
    part.volume[5] = f32::NAN;
    part.write(&at.join("copy"), &read(&path)).unwrap();
    refused(&["x.share1of2", "copy"], &["a coefficient not finite", "refusal 13"]);
    // the numbers of a share, under way in a whole bake
    part.only = None;
    part.shares = vec![Progress { next: 1, rays: LEAST_RAYS }];
    part.write(&at.join("y.vgrd.part"), &read(&path)).unwrap();
    says(at, &["bake", "hall.toml", "-o", "y.vgrd"], 3, &["a coefficient not finite", "refusal 13"]);
    // what is done stays; another share's file is not gone on with
    says(at, &["bake", "hall.toml", "--share", "1/2", "-o", "x.share1of2"], 0, &["is there and done"]);
    says(at, &["bake", "hall.toml", "--share", "2/2", "-o", "x.share1of2"], 3, &["it is of share 1/2, and share 2/2 is asked", "--fresh"]);
    // a part that a kill left beside it goes, another share's stays
    for (left, stays) in [("x.share1of2", false), ("x.share2of2", true)] {
        std::fs::copy(at.join(left), at.join("x.share1of2.part")).unwrap();
        says(at, &["bake", "hall.toml", "--share", "1/2", "-o", "x.share1of2"], 0, &["is there and done"]);
        assert_eq!(at.join("x.share1of2.part").exists(), stays, "{left}");
    }
    std::fs::remove_file(at.join("x.share1of2.part")).unwrap();
    std::fs::copy(at.join("x.share1of2"), at.join("y.vgrd.part")).unwrap();
    says(at, &["bake", "hall.toml", "-o", "y.vgrd"], 3, &["it is of share 1/2, and the whole bake is asked"]);
    for share in ["0/8", "9/8", "3", "a/b", "1/0", "1/1025"] {
        says(at, &["bake", "hall.toml", "--share", share], 2, &["is no share"]);
    }
    // a share that was stopped goes on to the same file's numbers
    let hall = read(&path);
    let (share, n) = (Only { share: 2, of: 3 }, hall.axes.count());
    let prepared = baking::prepare(&hall).unwrap().share(share);
    let (mut volume, mut scratch) = (vec![0.0; 16 * n], vec![0.0; 16 * n]);
    let begun = Engine::new(&hall).bake(&prepared.active, &prepared.light, &mut volume, &mut scratch, Progress::ZERO, hall.voxel_cost() * 40).unwrap();
    assert!(begun.progress.next > 0 && begun.progress.next < n);
    let part = Part { shares: vec![begun.progress], only: Some(share), seconds: 0.0, volume };
    part.write(&at.join("z.part"), &hall).unwrap();
    refused(&["x.share1of3", "z.part", "x.share3of3"], &["z.part: share 2/3 is not at its end"]);
    let so_far = format!("going on from z.part, {} rays so far", hall::thousands(begun.rays));
    let said = says(at, &["bake", "hall.toml", "--share", "2/3", "-o", "z", "--resume"], 0, &[&so_far, "rays in all"]);
    let whole_share = Part::of_bytes(&std::fs::read(at.join("x.share2of3")).unwrap(), &hall, &active).unwrap();
    assert_eq!(rays_said(&said), whole_share.rays());
    assert!(!at.join("z.part").exists());
    says(at, &["join", "hall.toml", "-o", "joined.vgrd", "x.share1of3", "z", "x.share3of3"], 0, &[]);
    assert_eq!(std::fs::read(at.join("joined.vgrd")).unwrap(), whole);
    std::fs::remove_file(at.join("joined.vgrd")).unwrap();
    // a share of another light
    edit(&path, "colour = [6.0, 5.5, 5.0]", "colour = [6.0, 5.5, 5.1]");
    says(at, &["bake", "hall.toml", "--share", "1/2"], 0, &["hall.share1of2"]);
    refused(&["hall.share1of2", "x.share2of2"], &["x.share2of2: since it was saved hall.toml has changed"]);
    says(at, &["bake", "hall.toml", "--share", "2/2", "-o", "x.share2of2"], 3, &["hall.toml has changed", "--fresh"]);
}

#[test]
fn shares_of_machines_without_a_voxel() {
    let (dir, path) = small();
    let at = dir.path();
    edit(&path, "voxels = [12, 6, 16]", "voxels = [1, 2, 2]");
    for empty in [false, true] {
        if empty {
            std::fs::write(at.join("hall.obj"), "# nothing\n").unwrap();
        }
        let all = rays_said(&says(at, &["bake", "hall.toml", "--threads", "1"], 0, &[]));
        let mut rays = 0;
        let mut args = vec!["join".into(), "hall.toml".into(), "-o".into(), "joined.vgrd".into()];
        for share in 1..=5 {
            rays += rays_said(&says(at, &["bake", "hall.toml", "--share", &format!("{share}/5"), "--fresh"], 0, &[]));
            args.push(format!("hall.share{share}of5"));
        }
        assert_eq!((rays, all == 0), (all, empty));
        says(at, &args.iter().map(String::as_str).collect::<Vec<_>>(), 0, &[]);
        assert_eq!(std::fs::read(at.join("joined.vgrd")).unwrap(), std::fs::read(at.join("hall.vgrd")).unwrap());
    }
}

#[test]
fn a_bake_stops_at_its_time() {
    let (_dir, path) = small();
    edit(&path, "voxels = [12, 6, 16]", "voxels = [32, 16, 32]");
    let hall = read(&path);
    let prepared = baking::prepare(&hall).unwrap();
    let stop = AtomicBool::new(false);
    let begun = std::time::Instant::now();
    let asked = baking::Asked {
        shares: 2,
        threads: 2,
        allowance: 2000,
        save_every: Duration::from_secs(10),
        stop: &stop,
        until: Some(begun + Duration::from_millis(300)),
        tell: &|_| (),
        save: &|_| Ok(()),
    };
    let outcome = baking::run(&hall, &prepared, None, &asked).unwrap();
    assert!(matches!(outcome, baking::Outcome::Stopped { done, .. } if done > 0 && done < prepared.marked.active));
    assert!(begun.elapsed() < Duration::from_secs(5));
}

#[test]
fn drawings_that_nobody_here_made() {
    // Debian's package assimp-testmodels, where it is installed: each is read or refused in words
    let Ok(list) = std::fs::read_dir("/usr/share/assimp/models/OBJ") else { return };
    let (dir, _) = small();
    for entry in list.flatten().filter(|e| e.path().extension().map_or(false, |x| x == "obj")) {
        let text = format!("obj = {:?}\n[grid]\nvoxels = [8, 8, 8]\nmin = [-2, -2, -2]\nmax = [2, 2, 2]\n", entry.path().display().to_string());
        std::fs::write(dir.path().join("other.toml"), text).unwrap();
        let output = plate(dir.path(), &["check", "other.toml"]);
        let all = words(&output);
        assert!(matches!(output.status.code(), Some(0 | 3)) && !all.contains("panicked") && !all.is_empty(), "{:?}: {all}", entry.path());
    }
}

#[test]
fn a_hall_without_surfaces_is_all_ambient() {
    let (dir, path) = small();
    std::fs::write(dir.path().join("hall.obj"), "# nothing\n").unwrap();
    let (volume, rays) = unbroken(&read(&path));
    assert_eq!(rays, 0);
    says(dir.path(), &["check", "hall.toml"], 0, &["the hall is empty"]);
    says(dir.path(), &["plan", "hall.toml"], 0, &["nothing to bake"]);
    says(dir.path(), &["bake", "hall.toml"], 0, &["0 rays"]);
    assert_eq!(std::fs::read(dir.path().join("hall.vgrd")).unwrap(), volume.bytes().unwrap());
}

#[test]
fn killed_bakes_go_on_to_the_same_bits() {
    let (dir, path) = small();
    edit(&path, "voxels = [12, 6, 16]", "voxels = [20, 10, 24]");
    let hall = read(&path);
    let (volume, rays) = unbroken(&hall);
    let (bytes, active) = (volume.bytes().unwrap(), volume.active);
    let halves = [1, 2].map(|share| match baked_of(&hall, &baking::prepare(&hall).unwrap().share(Only { share, of: 2 }), None, 1, 1, u64::MAX) {
        baking::Outcome::Share { part } => part,
        _ => panic!("share {share} was stopped, or taken as a whole bake"),
    });
    // the whole volume, or the file of a share
    let as_it_should = |half: Option<&Part>, found: &[u8]| match half {
        None => found == bytes,
        Some(half) => {
            let part = Part::of_bytes(found, &hall, &active).unwrap();
            let same = part.volume.iter().map(|x| x.to_bits()).eq(half.volume.iter().map(|x| x.to_bits()));
            part.finished(&hall) && same && (part.only, part.rays()) == (half.only, half.rays())
        }
    };
    // a seed of this run's own; what fails is printed with it
    let mut seed = std::time::SystemTime::now().duration_since(std::time::UNIX_EPOCH).unwrap().as_nanos() as u64 | 1;
    let mut next = |below: u64| {
        seed ^= seed << 13;
        seed ^= seed >> 7;
        seed ^= seed << 17;
        seed % below
    };
    let kills: usize = std::env::var("PLATE_KILLS").ok().and_then(|k| k.parse().ok()).unwrap_or(20);
    let (mut killed, mut saved, mut round) = (0, 0, 0);
    while killed < kills {
        round += 1;
        let shares = ["1", "2", "3"][next(3) as usize];
        let half = [None, halves.first(), halves.last()][next(3) as usize];
        let share = half.and_then(|h| h.only).map(|o| vec!["--share".into(), o.to_string()]).unwrap_or_default();
        let _ = std::fs::remove_file(dir.path().join("hall.vgrd"));
        loop {
            let mut child = program()
                .args(["bake", "hall.toml", "-o", "hall.vgrd", "--shares", shares, "--threads", "2", "--allowance", "3000", "--save-every", "0", "--json"])
                .args(&share)
                .current_dir(dir.path())
                .stdout(std::process::Stdio::piped())
                .stderr(std::process::Stdio::piped())
                .spawn()
                .unwrap();
            let begun = std::time::Instant::now();
            let wait = Duration::from_millis(next(400));
            let ended = loop {
                if let Some(status) = child.try_wait().unwrap() {
                    break Some(status);
                }
                if begun.elapsed() >= wait && killed < kills {
                    break None;
                }
                std::thread::sleep(Duration::from_millis(2));
            };
            match ended {
                Some(status) => {
                    let output = child.wait_with_output().unwrap();
                    assert!(status.success(), "round {round}, {shares} shares: {}", words(&output));
                    // the rays of the whole bake, not of the run that ended it
                    let done = words(&output).lines().find(|line| line.contains("\"done\"")).unwrap().to_string();
                    assert!(done.contains(&format!("\"rays\":{},", half.map_or(rays, Part::rays))), "round {round}, {shares} shares: {done}");
                    break;
                }
                None => {
                    child.kill().unwrap();
                    child.wait().unwrap();
                    killed += 1;
                    // what stands under the names is whole
                    if let Ok(part) = std::fs::read(dir.path().join("hall.vgrd.part")) {
                        Part::of_bytes(&part, &hall, &active).unwrap();
                        saved += 1;
                    }
                    if let Ok(volume) = std::fs::read(dir.path().join("hall.vgrd")) {
                        assert!(as_it_should(half, &volume));
                    }
                }
            }
        }
        assert!(as_it_should(half, &std::fs::read(dir.path().join("hall.vgrd")).unwrap()), "round {round}, {shares} shares, {share:?}");
        let left: Vec<_> = std::fs::read_dir(dir.path()).unwrap().map(|e| e.unwrap().file_name()).collect();
        assert!(left.iter().all(|n| !n.to_string_lossy().ends_with(".tmp") && !n.to_string_lossy().ends_with(".part")), "{left:?}");
    }
    println!("{killed} kills in {round} bakes, {saved} with a part file");
}

/// A part file as this library would have written it under another version's number.
fn of_library(part: &[u8], library: u32) -> Vec<u8> {
    let (now, then) = (format!("{{\"library\":{VERSION_NUMBER},"), format!("{{\"library\":{library},"));
    let body = &part[part.iter().position(|b| *b == b'\n').unwrap() + 1..];
    assert!(body.starts_with(now.as_bytes()));
    let body = [then.as_bytes(), &body[now.len()..]].concat();
    [format!("plate-part-2 {}\n", hall::sha256(&body)).as_bytes(), &body].concat()
}

#[test]
fn stops_are_saved_and_changed_inputs_are_refused() {
    let (dir, path) = small();
    let at = dir.path();
    edit(&path, "voxels = [12, 6, 16]", "voxels = [32, 32, 32]");
    let mut command = program();
    command.args(["bake", "hall.toml", "--threads", "1", "--allowance", "2000", "--save-every", "0"]).current_dir(at);
    let child = command.stdout(std::process::Stdio::piped()).spawn().unwrap();
    let begun = std::time::Instant::now();
    while !at.join("hall.vgrd.part").exists() && begun.elapsed() < Duration::from_secs(60) {
        std::thread::sleep(Duration::from_millis(1));
    }
    assert!(Command::new("kill").args(["-INT", &child.id().to_string()]).status().unwrap().success());
    let output = child.wait_with_output().unwrap();
    assert_eq!(output.status.code(), Some(130), "{}", words(&output));
    assert!(words(&output).contains("saved in hall.vgrd.part"), "{}", words(&output));
    // the running total where one would look for it
    let hall = read(&path);
    let active = baking::active_of(&hall).unwrap();
    let begun = Part::read(&at.join("hall.vgrd.part"), &hall, &active, None).unwrap();
    let (voxels, rays) = (begun.voxels(&active), begun.rays());
    assert!(voxels > 0 && rays >= LEAST_RAYS * voxels);
    let counted = format!("{} of {} voxels, {} rays", hall::thousands(voxels), hall::thousands(marked_count(&active)), hall::thousands(rays));
    assert!(words(&output).contains(&format!("stopped at {counted} so far")), "{}", words(&output));
    says(at, &["plan", "hall.toml", "--sample", "5000"], 0, &[&format!("so far in hall.vgrd.part: {counted}")]);
    says(at, &["stats", "hall.vgrd.part"], 3, &["hall.vgrd.part is the part of a bake", "plate plan"]);
    // a record that is no bake's: one ray too few, one too many, a voxel more or less, past the grid, near 2^64
    let (at_next, cost) = (begun.shares[0].next, hall.voxel_cost());
    let first = marked_voxels(&active).next().unwrap();
    let wrong = [
        (at_next, LEAST_RAYS * voxels - 1),
        (at_next, cost * voxels + 1),
        (at_next, 0),
        (at_next, u64::MAX),
        (0, 1),
        (first, 1),
        (first + 1, LEAST_RAYS - 1),
        (first + 1, cost + 1),
        (hall.axes.count(), rays),
    ];
    for (next, rays) in wrong {
        let part = Part { shares: vec![Progress { next, rays }], ..begun.clone() };
        part.write(&at.join("hall.vgrd.part"), &hall).unwrap();
        let why = "hall.vgrd.part is not gone on with (--fresh begins anew): its rays so far do not fit the voxels that it has passed";
        says(at, &["bake", "hall.toml"], 3, &[why, &format!(": {} rays, where", hall::thousands(rays))]);
        says(at, &["plan", "hall.toml", "--sample", "5000"], 0, &[why]);
    }
    let part = Part { shares: vec![Progress { next: hall.axes.count() + 1, rays }], ..begun.clone() };
    part.write(&at.join("hall.vgrd.part"), &hall).unwrap();
    says(at, &["bake", "hall.toml"], 3, &["hall.vgrd.part is not gone on with", "progress is past the grid"]);
    begun.write(&at.join("hall.vgrd.part"), &hall).unwrap();
    for (file, from, to) in [("hall.toml", "6.0, 5.5, 5.0", "6.0, 5.5, 5.1"), ("hall.obj", "v 6 3 0", "v 6 3 0.0"), ("hall.mtl", "0.65", "0.66")] {
        let was = std::fs::read(at.join(file)).unwrap();
        edit(&at.join(file), from, to);
        says(at, &["bake", "hall.toml"], 3, &[&format!("{file} has changed"), "--fresh"]);
        std::fs::write(at.join(file), was).unwrap();
    }
    let part = at.join("hall.vgrd.part");
    let good = std::fs::read(&part).unwrap();
    let mut bad = good.clone();
    let middle = bad.len() / 2;
    bad[middle] ^= 1;
    std::fs::write(&part, &bad).unwrap();
    says(at, &["bake", "hall.toml"], 3, &["damaged"]);
    std::fs::write(&part, &good[..good.len() - 1]).unwrap();
    says(at, &["bake", "hall.toml"], 3, &["damaged"]);
    std::fs::write(&part, "").unwrap();
    says(at, &["bake", "hall.toml"], 3, &["no first line"]);
    // sound, but of a library that this one is not known to bake as, the last of them before masks were words
    let mut old = Vec::new();
    for library in [8000, 4000, 1000] {
        old = of_library(&good, library);
        std::fs::write(&part, &old).unwrap();
        says(at, &["bake", "hall.toml"], 3, &["another version of the library", "--fresh"]);
    }
    let old = &old[old.iter().position(|b| *b == b'\n').unwrap() + 1..];
    // as the program wrote it before, and that under the mark of today
    let old = String::from_utf8_lossy(&old[..old.iter().position(|b| *b == b'\n').unwrap() + 1]).replace("\"next\":", "\"progress\":").into_bytes();
    for (mark, why) in [("plate-part-1", "begun by an earlier version of this program"), ("plate-part-2", "its head cannot be read")] {
        std::fs::write(&part, [format!("{mark} {}\n", hall::sha256(&old)).as_bytes(), &old].concat()).unwrap();
        says(at, &["bake", "hall.toml"], 3, &[why, "--fresh"]);
        says(at, &["join", "hall.toml", "hall.vgrd.part"], 3, &[why]);
    }
    std::fs::remove_file(&part).unwrap();
    says(at, &["bake", "hall.toml", "--resume"], 3, &["no part file"]);
    says(at, &["bake", "hall.toml", "--resume", "--fresh"], 2, &["cannot be used with"]);
    says(at, &["bake", "hall.toml", "--until", "25:99"], 3, &["HH:MM"]);
    says(at, &["bake", "hall.toml", "--allowance", "447"], 3, &["at least 448", "refusal 10"]);
    says(at, &["bake", "hall.toml", "hall.toml", "-o", "x.vgrd"], 3, &["one volume"]);
    says(at, &["bake"], 2, &[]);
    says(at, &["bake", "no.toml"], 3, &["no.toml", "cannot be read"]);
    assert!(!at.join("hall.vgrd").exists());
}

#[test]
fn check_says_every_fault_with_its_place() {
    let (dir, path) = small();
    let at = dir.path();
    says(at, &["check", "hall.toml"], 0, &["my hall is good", "16 triangles", "1 lamps"]);
    says(at, &["check", "hall.toml", "--json"], 0, &["\"faults\":[]"]);
    edit(&path, "voxels = [12, 6, 16]", "voxels = [128, 1, 128]");
    says(at, &["check", "hall.toml"], 0, &["128 × 1 × 128 voxels"]);
    edit(&path, "voxels = [128, 1, 128]", "voxels = [-1, 0, 129]");
    edit(&path, "min = [-0.1, -0.1, -0.1]", "min = [-0.1, -5000.0, -0.1]");
    edit(&path, "towards = [0.5, 0.7, 0.5]", "towards = [0.0, 0.0, 0.0]");
    edit(&path, "horizon = [0.6, 0.6, 0.6]", "horizon = [0.6, 70000.0, 0.6]");
    edit(&path, "transmission = 0.6", "transmission = 1.5");
    edit(&path, "at = [3.0, 2.7, 4.0]", "at = [3.0, 2.7]");
    edit(&path, "colour = [6.0, 5.5, 5.0]", "colour = [6.0, 5.5, nan]");
    edit(&path, "across = [0.8, 0.0, 0.0]", "across = [0.0, 0.8, 0.0]");
    let said = says(
        at,
        &["check", "hall.toml"],
        3,
        &[
            "hall.toml:", "width -1 is outside 1..128 (refusal 1)", "height 0 is outside 1..128 (refusal 1)", "depth 129 is outside 1..128 (refusal 1)", "grid.min: -5000 is not a number within ±4,096 (refusal 2)",
            "sun.towards: a direction of no length (refusal 7)", "sky.horizon: 70000", "transmission 1.5 is outside 0..1 (refusal 6)", "lamp 1: at: 2 numbers where three",
            "lamp 1: colour: NaN", "(refusal 19)", "across and up span no face",
        ],
    );
    let line = std::fs::read_to_string(&path).unwrap().lines().position(|l| l.starts_with("voxels")).unwrap() + 1;
    assert!(said.contains(&format!("hall.toml:{line}: grid.voxels: height 0")), "{said}");
    says(at, &["check", "hall.toml", "--json"], 3, &["\"refusal\":19"]);
}

#[test]
fn check_names_the_drawings_lines_and_faces() {
    let (dir, path) = small();
    let (at, obj) = (dir.path(), dir.path().join("hall.obj"));
    let good = std::fs::read_to_string(&obj).unwrap();
    let line_of = |text: &str, start: &str| text.lines().position(|l| l.starts_with(start)).unwrap() + 1;
    let with = |from: &str, to: &str| {
        let text = good.replacen(from, to, 1);
        assert_ne!(text, good);
        std::fs::write(&obj, &text).unwrap();
        text
    };
    let text = with("v 0 3 8", "v 0 5000 8");
    says(at, &["check", "hall.toml"], 3, &[&format!("hall.obj:{}: face 3: point 8 at (0, 5000, 8)", line_of(&text, "f 1 4 8 5")), "(refusal 5)"]);
    let text = with("v 6 3 0", "v 6 x3 0");
    says(at, &["check", "hall.toml"], 3, &[&format!("hall.obj:{}: v: \"x3\" is no finite number", line_of(&text, "v 6 x3 0"))]);
    let text = with("f 9 10 11 12", "f 9 10 11 99");
    says(at, &["check", "hall.toml"], 3, &[&format!("hall.obj:{}: face 7: point 99, and the drawing has 18", line_of(&text, "f 9 10 11 99"))]);
    // both faults of one drawing, and the file's name as a reader would write it
    std::fs::write(&obj, text.replacen("v 0 3 8", "v 0 5000 8", 1)).unwrap();
    let said = says(at, &["check", "hall.toml"], 3, &["face 7: point 99", "face 3: point 8 at (0, 5000, 8)", "hall.toml: 3 faults"]);
    assert!(said.starts_with("hall.obj:"), "{said}");
    let text = with("f 13 14 15 16", "f 13 0 15 16");
    says(at, &["check", "hall.toml"], 3, &[&format!("hall.obj:{}:", line_of(&text, "f 13 0"))]);
    let text = with("usemtl mat", "usemtl mast");
    let named = format!("hall.obj:{}: material [ 'mast' ] not found", line_of(&text, "usemtl mast"));
    says(at, &["check", "hall.toml"], 0, &[&named, &format!("hall.obj:{}: face 8: no material", line_of(&text, "f 13 14")), "grey"]);
    std::fs::write(&obj, [0xFE, 0xFF, 0, b'v']).unwrap();
    says(at, &["check", "hall.toml"], 3, &["is in UTF-16"]);
    with("mtllib hall.mtl", "mtllib other.mtl");
    says(at, &["check", "hall.toml"], 3, &["hall.obj:2: its material file other.mtl cannot be read"]);
    // carriage returns, and a drawing in millimetres with z up, are the same hall
    std::fs::write(&obj, good.replace('\n', "\r\n")).unwrap();
    assert_eq!(read(&path).points.len(), 16 * 9);
    let text = with("v 0 3 8", "v 0 5000 8").replace('\n', "\r\n");
    std::fs::write(&obj, text).unwrap();
    says(at, &["check", "hall.toml"], 3, &["face 3: point 8"]);
    std::fs::write(&obj, &good).unwrap();
    let before = read(&path).points;
    let turned: String = good.lines().map(|l| match l.strip_prefix("v ") {
        Some(p) => {
            let p: Vec<f64> = p.split(' ').map(|x| x.parse::<f64>().unwrap() * 1000.0).collect();
            format!("v {} {} {}\n", p[0], -p[2], p[1])
        }
        None => format!("{l}\n"),
    }).collect();
    std::fs::write(&obj, turned).unwrap();
    edit(&path, "unit = \"m\"", "unit = \"mm\"");
    edit(&path, "up = \"y\"", "up = \"z\"");
    assert!(before.iter().zip(&read(&path).points).all(|(a, b)| (a - b).abs() < 1e-5));
    // too many triangles
    std::fs::write(&obj, good + &"f 1 2 3\n".repeat(4096)).unwrap();
    says(at, &["check", "hall.toml"], 3, &["4,112 triangles, and at most 4,096 are taken (refusal 4)"]);
    // eight lamps are taken, nine are not
    let (_dir, path) = small();
    let lamps = "[[lamps]]\nat = [1.0, 1.0, 1.0]\ncolour = [1.0, 1.0, 1.0]\n".repeat(8);
    std::fs::write(&path, std::fs::read_to_string(&path).unwrap() + &lamps).unwrap();
    says(path.parent().unwrap(), &["check", "hall.toml"], 3, &["lamp 9: 9 lamps", "(refusal 19)"]);
}

#[test]
fn check_warns() {
    let (dir, path) = small();
    edit(&path, "across = [0.8, 0.0, 0.0]\n", "across = [-0.8, 0.0, 0.0]\n");
    edit(&path, "at = [3.0, 2.7, 4.0]", "at = [3.0, 3.0, 4.0]");
    edit(&path, "[materials.net]", "[materials.nett]");
    edit(&path, "colour = [0.0, 0.0, 0.0]", "colour = [1.0, 1.0, 1.0]");
    says(dir.path(), &["check", "hall.toml"], 0, &["turned to −z", "is it inside a wall?", "materials.nett: no material of this name", "note: a voxel's look at the sun starts"]);
    edit(&path, "at = [3.0, 3.0, 4.0]", "at = [3.0, 30.0, 4.0]");
    edit(&path, "voxels = [12, 6, 16]", "voxels = [12, 12, 32]");
    says(dir.path(), &["check", "hall.toml"], 0, &["outside the grid", "hold the open sky's light"]);
    edit(&path, "name = \"my hall\"", "nime = \"my hall\"");
    says(dir.path(), &["check", "hall.toml"], 3, &["hall.toml:", "nime"]);
    edit(&path, "nime = \"my hall\"", "name = my hall");
    says(dir.path(), &["check", "hall.toml"], 3, &["hall.toml:2:"]);
}

#[test]
fn lists_as_text() {
    let (dir, path) = small();
    let hall = read(&path);
    let text = says(dir.path(), &["lists", "hall.toml"], 0, &["axes 12 6 16\n"]);
    let bits = |name: &str, skipped: usize| -> Vec<u32> {
        let numbers = |line: &str| line.split(' ').skip(1 + skipped).map(|word| u32::from_str_radix(&word[1..], 16).unwrap()).collect::<Vec<_>>();
        text.lines().filter(|line| line.starts_with(&format!("{name} "))).flat_map(numbers).collect()
    };
    let same = |name: &str, skipped: usize, list: &[f32]| assert_eq!(bits(name, skipped), list.iter().map(|x| x.to_bits()).collect::<Vec<_>>(), "{name}");
    let Corners { min, max } = hall.corners;
    same("corners", 0, &[min.x, min.y, min.z, max.x, max.y, max.z]);
    same("material", 1, &hall.numbers);
    same("triangle", 1, &hall.points);
    same("sky", 1, &hall.sky);
    same("lamp", 0, &hall.lamps);
    let uses: Vec<u32> = text.lines().filter_map(|line| line.strip_prefix("triangle ")).map(|line| line.split(' ').next().unwrap().parse().unwrap()).collect();
    assert_eq!(uses, hall.uses);
    assert_eq!((bits("light", 0).len(), bits("ambient", 0).len()), (6, 12));
    says(dir.path(), &["lists", "no.toml"], 3, &["no.toml"]);
}

/// The small hall with its net closed, in the sun: solid walls, and the transmission that the net still has is never read. And the same with a clear pane
/// of a metre, five kilometres off, where no ray comes: hall.toml and paned.toml.
fn walled() -> (tempfile::TempDir, [PathBuf; 2]) {
    let (dir, path) = small();
    edit(&path, "kind = \"translucent\"", "kind = \"opaque\"");
    edit(&path, "colour = [0.0, 0.0, 0.0]", "colour = [2.0, 1.5, 1.0]");
    let at = |name: &str| dir.path().join(name);
    let text = |name: &str| std::fs::read_to_string(at(name)).unwrap();
    std::fs::write(at("paned.mtl"), text("hall.mtl") + "newmtl pane\nKd 0.9 0.9 0.9\nd 0\n").unwrap();
    let pane = "v -3000 -3000 -3000\nv -2999 -3000 -3000\nv -2999 -2999 -3000\nv -3000 -2999 -3000\nusemtl pane\nf 19 20 21 22\n";
    std::fs::write(at("paned.obj"), text("hall.obj").replacen("mtllib hall.mtl", "mtllib paned.mtl", 1) + pane).unwrap();
    std::fs::write(at("paned.toml"), text("hall.toml").replacen("obj = \"hall.obj\"", "obj = \"paned.obj\"", 1)).unwrap();
    let paths = [path, at("paned.toml")];
    (dir, paths)
}

#[test]
fn solid_walls_are_the_other_calls_bits() {
    let (dir, [path, paned_path]) = walled();
    let at = dir.path();
    let (hall, paned) = (read(&path), read(&paned_path));
    assert!(hall.solid() && !paned.solid() && paned.triangles() == hall.triangles() + 2);
    // by the calls that take every hall, with the pane and without
    let (volume, rays) = unbroken(&hall);
    let bytes = volume.bytes().unwrap();
    let (other, others_rays) = unbroken(&paned);
    assert_eq!((hall::sha256(&other.bytes().unwrap()), others_rays), (hall::sha256(&bytes), rays));
    // by the solid ones alone
    let n = hall.axes.count();
    let (mut light, mut kept, mut solid, mut scratch) = (vec![0.0; n], vec![0.0; n], vec![0.0; 16 * n], vec![0.0; 16 * n]);
    solid_sun(hall.axes, hall.corners, hall.scene(), hall.sun.direction, &volume.active, &mut light, &mut kept).unwrap();
    let baked_solid = solid_bake(hall.input(&volume.active, &light), &mut solid, &mut scratch, Progress::ZERO, u64::MAX).unwrap();
    let again = Volume { light, volume: solid, ..volume.clone() };
    assert_eq!((hall::sha256(&again.bytes().unwrap()), baked_solid.rays), (hall::sha256(&bytes), rays));
    // by the program, which takes the solid ones for the first hall and the others for the second
    for (name, shares) in [("hall", "1"), ("hall", "3"), ("paned", "1"), ("paned", "2")] {
        let (toml, out) = (format!("{name}.toml"), format!("{name}{shares}.vgrd"));
        let said = says(at, &["bake", &toml, "-o", &out, "--shares", shares, "--threads", "2", "--allowance", "5000"], 0, &[]);
        assert_eq!(rays_said(&said), rays, "{out}");
        assert_eq!(hall::sha256(&std::fs::read(at.join(&out)).unwrap()), hall::sha256(&bytes), "{out}");
    }
    says(at, &["verify", "paned1.vgrd", "hall.toml"], 0, &["good"]);
    says(at, &["verify", "hall1.vgrd", "paned.toml"], 0, &["good"]);
    // what falls straight, in numbers and in pictures
    std::fs::write(at.join("p.csv"), "x,y,z,nx,ny,nz\n3,1.5,4,0,1,0\n3,1.3,0.4,0,0,1\n3,1.3,0.1,0,0,1\n5.9,2.9,7.9,0,1,0\n3,1,7.9,0,0.5,1\n").unwrap();
    let looked = |toml: &str| says(at, &["look", "hall1.vgrd", "p.csv", "--direct", toml], 0, &[]);
    assert_eq!(looked("hall.toml"), looked("paned.toml"));
    let pictured = |toml: &str| {
        says(at, &["face", "hall1.vgrd", toml, "a", "--direct", "--size", "9", "--png", "f.png"], 0, &[]);
        says(at, &["view", "hall1.vgrd", toml, "--from", "3,1.6,7", "--to", "3,1.3,0", "--size", "24", "--png", "v.png"], 0, &[]);
        ["f.png", "v.png"].map(|name| std::fs::read(at.join(name)).unwrap())
    };
    assert_eq!(pictured("hall.toml"), pictured("paned.toml"));
    // which it is stands in the summaries; a material counts though no face has it
    let phrase = "solid walls: rays to the sun, the sky and the lamps end at their first hit";
    says(at, &["check", "hall.toml"], 0, &[&format!("note: {phrase}")]);
    says(at, &["plan", "hall.toml"], 0, &[&format!("  {phrase}\n")]);
    says(at, &["check", "hall.toml", "--json"], 0, &["\"solid\":true"]);
    says(at, &["check", "paned.toml", "--json"], 0, &["\"solid\":false"]);
    for command in ["check", "plan"] {
        assert!(!says(at, &[command, "paned.toml"], 0, &[]).contains("solid"), "{command}");
    }
    let text = std::fs::read_to_string(at.join("paned.obj")).unwrap();
    std::fs::write(at.join("paned.obj"), text.replacen("\nusemtl pane\nf 19 20 21 22\n", "\n", 1)).unwrap();
    let unused = read(&paned_path);
    assert!(!unused.solid() && unused.triangles() == hall.triangles());
    says(at, &["bake", "paned.toml", "-o", "unused.vgrd"], 0, &[]);
    assert_eq!(std::fs::read(at.join("unused.vgrd")).unwrap(), bytes);
    says(at, &["explain", "6"], 0, &["in a solid call above 0", "The solid calls take opaque materials alone"]);
}

#[test]
fn a_part_of_solid_walls_says_nothing_of_its_calls() {
    let (dir, [path, _]) = walled();
    let (at, hall) = (dir.path(), read(&path));
    let (volume, rays) = unbroken(&hall);
    let (n, t, bytes) = (hall.axes.count(), hall.triangles(), volume.bytes().unwrap());
    // one call of the same allowance, by the program's own way, which is the solid one, and by the other call
    let baking::Outcome::Stopped { part, .. } = baked(&hall, None, 1, 1, 1) else { panic!("one call bakes all of it") };
    let (mut other, mut scratch, mut distances, mut places) = (vec![0.0; 16 * n], vec![0.0; 16 * n], vec![0.0; t], vec![0; t]);
    let mut by_hits = |volume_so_far: &mut [f32], progress: Progress, allowance: u64| {
        let hits = HitScratch { distances: &mut distances, places: &mut places };
        bake(hall.input(&volume.active, &volume.light), volume_so_far, &mut scratch, hits, progress, allowance).unwrap()
    };
    let begun = by_hits(&mut other, Progress::ZERO, hall.voxel_cost() * 40);
    let [first, second] = [part.volume.clone(), other].map(|volume| Part { shares: vec![begun.progress], only: None, seconds: 0.0, volume });
    assert_eq!(part.shares, [begun.progress]);
    let files = [&first, &second].map(|part| {
        part.write(&at.join("hall.vgrd.part"), &hall).unwrap();
        std::fs::read(at.join("hall.vgrd.part")).unwrap()
    });
    assert!(files[0] == files[1]);
    // begun by the other call, and also by the libraries before there were solid ones and trees: gone on with by the program
    for file in [files[1].clone(), of_library(&files[1], 5000), of_library(&files[1], 6000)] {
        std::fs::write(at.join("hall.vgrd.part"), file).unwrap();
        let said = says(at, &["bake", "hall.toml", "--resume", "--threads", "1"], 0, &["going on from hall.vgrd.part"]);
        let counted = said.lines().find(|line| line.contains("rays in all")).unwrap();
        assert_eq!(rays_said(counted), rays);
        assert!(std::fs::read(at.join("hall.vgrd")).unwrap() == bytes);
        std::fs::remove_file(at.join("hall.vgrd")).unwrap();
    }
    // begun by the solid call, gone on with by the other one
    let mut gone_on = first.volume.clone();
    let ended = by_hits(&mut gone_on, first.shares[0], u64::MAX);
    assert_eq!(ended.progress, Progress { next: n, rays });
    assert!(gone_on.iter().map(|x| x.to_bits()).eq(volume.volume.iter().map(|x| x.to_bits())));
}

/// The bake through a box tree as a program of one's own would do it, in one call.
fn unbroken_through_a_tree(hall: &hall::Hall) -> (Volume, u64) {
    let (n, t) = (hall.axes.count(), hall.triangles());
    let tree = build_tree(&hall.points).unwrap();
    let (mut occupied, mut active) = (vec![0; hall.axes.words()], vec![0; hall.axes.words()]);
    let (mut light, mut kept) = (vec![0.0; n], vec![0.0; n]);
    let (mut volume, mut scratch, mut distances, mut places) = (vec![0.0; 16 * n], vec![0.0; 16 * n], vec![0.0; t], vec![0; t]);
    masks(hall.axes, hall.corners, &hall.points, &mut occupied, &mut active).unwrap();
    let hits = HitScratch { distances: &mut distances, places: &mut places };
    tree_sun(hall.axes, hall.corners, hall.scene(), tree.lent(), hall.sun.direction, &active, &mut light, &mut kept, hits).unwrap();
    let hits = HitScratch { distances: &mut distances, places: &mut places };
    let baked = tree_bake(hall.input(&active, &light), tree.lent(), &mut volume, &mut scratch, hits, Progress::ZERO, u64::MAX).unwrap();
    assert_eq!(baked.progress, Progress { next: n, rays: baked.rays });
    (Volume { axes: hall.axes, corners: hall.corners, light, volume, occupied, active }, baked.rays)
}

/// Whether a part file's head names a scan.
fn names_a_scan(path: &Path) -> bool {
    let bytes = std::fs::read(path).unwrap();
    let head = bytes.split(|b| *b == b'\n').nth(1).unwrap();
    String::from_utf8_lossy(head).contains("\"scan\"")
}

#[test]
fn bakes_through_a_tree() {
    let (dir, path) = small();
    let at = dir.path();
    edit(&path, "colour = [0.0, 0.0, 0.0]", "colour = [2.0, 1.5, 1.0]");
    let hall = read(&path);
    assert!(hall.scan == Scan::List && !hall.solid());
    let (volume, rays) = unbroken_through_a_tree(&hall);
    let bytes = volume.bytes().unwrap();
    // in this hall no hit lies off its triangle's box, so that the list bakes the same
    assert_eq!(hall::sha256(&unbroken(&hall).0.bytes().unwrap()), hall::sha256(&bytes));
    for (shares, scan) in [("1", "tree"), ("3", "tree"), ("2", "list")] {
        let out = format!("{scan}{shares}.vgrd");
        let said = says(at, &["bake", "hall.toml", "--scan", scan, "-o", &out, "--shares", shares, "--threads", "2", "--allowance", "5000"], 0, &[]);
        assert_eq!((rays_said(&said), said.contains("through a box tree")), (rays, scan == "tree"), "{out}: {said}");
        assert_eq!(hall::sha256(&std::fs::read(at.join(&out)).unwrap()), hall::sha256(&bytes), "{out}");
    }
    says(at, &["verify", "tree1.vgrd", "hall.toml", "--scan", "tree"], 0, &["good"]);
    // which is quicker is measured, whatever is asked
    for scan in ["list", "tree"] {
        let said = says(at, &["plan", "hall.toml", "--scan", scan, "--sample", "100"], 0, &["  by the list ", ", through a box tree ", " is quicker"]);
        assert_eq!(said.contains("box tree: a ray of sun and bake looks into those of 7 boxes"), scan == "tree", "{said}");
    }
    // a part names its scan where it is the tree, and is not gone on with by the other
    let boxed = hall::Hall { scan: Scan::Tree, ..read(&path) };
    let active = baking::active_of(&hall).unwrap();
    let part_path = at.join("hall.vgrd.part");
    for (own, other, name, others_name) in [(&hall, &boxed, "list", "tree"), (&boxed, &hall, "tree", "list")] {
        let baking::Outcome::Stopped { part, .. } = baked(own, None, 1, 1, 1) else { panic!("one call bakes all of it") };
        part.write(&part_path, own).unwrap();
        assert_eq!(names_a_scan(&part_path), name == "tree");
        assert_eq!(Part::read(&part_path, own, &active, None).unwrap(), part);
        let why = format!("it was begun by scan \"{name}\", and \"{others_name}\" is asked");
        assert!(format!("{:#}", Part::read(&part_path, other, &active, None).unwrap_err()).contains(&why));
        says(at, &["bake", "hall.toml", "--scan", others_name], 3, &["hall.vgrd.part is not gone on with (--fresh begins anew)", &why]);
        says(at, &["plan", "hall.toml", "--scan", others_name, "--sample", "5000"], 0, &[&why]);
        says(at, &["bake", "hall.toml", "--scan", name, "--resume", "--threads", "1"], 0, &["going on from hall.vgrd.part"]);
        assert_eq!(std::fs::read(at.join("hall.vgrd")).unwrap(), bytes);
        std::fs::remove_file(at.join("hall.vgrd")).unwrap();
    }
    // shares of machines: joined by the scan that they were baked by
    for share in ["1/2", "2/2"] {
        says(at, &["bake", "hall.toml", "--scan", "tree", "--share", share], 0, &[]);
    }
    says(at, &["join", "hall.toml", "hall.share1of2", "hall.share2of2"], 3, &["hall.share1of2: it was begun by scan \"tree\", and \"list\" is asked", "hall.share2of2: it was"]);
    says(at, &["join", "hall.toml", "hall.share1of2", "hall.share2of2", "--scan", "tree"], 0, &["2 shares"]);
    assert_eq!(std::fs::read(at.join("hall.vgrd")).unwrap(), bytes);
    // as the hall's file says, unless a command asks for the other
    assert!(!says(at, &["check", "hall.toml"], 0, &[]).contains("box tree"));
    says(at, &["check", "hall.toml", "--json"], 0, &["\"scan\":\"list\""]);
    let text = std::fs::read_to_string(&path).unwrap();
    std::fs::write(&path, format!("{text}\n[bake]\nscan = \"tree\"\n")).unwrap();
    assert_eq!(read(&path).scan, Scan::Tree);
    says(at, &["check", "hall.toml"], 0, &["note: box tree: a ray of sun and bake looks into those of 7 boxes that lie on its way"]);
    says(at, &["check", "hall.toml", "--json"], 0, &["\"scan\":\"tree\""]);
    says(at, &["bake", "hall.toml", "-o", "said.vgrd", "--json"], 0, &["\"scan\":\"tree\""]);
    assert_eq!(std::fs::read(at.join("said.vgrd")).unwrap(), bytes);
    says(at, &["verify", "said.vgrd", "hall.toml", "--sample", "2"], 0, &["good"]);
    std::fs::write(&path, format!("{text}\n[bake]\nscan = \"octree\"\n")).unwrap();
    let line = text.lines().count() + 3;
    says(at, &["check", "hall.toml"], 3, &[&format!("hall.toml:{line}: bake.scan: \"octree\" is none of \"list\" and \"tree\"")]);
    std::fs::write(&path, format!("{text}\n[bake]\ntree = true\n")).unwrap();
    says(at, &["check", "hall.toml"], 3, &["unknown field `tree`"]);
    std::fs::write(&path, &text).unwrap();
    says(at, &["bake", "hall.toml", "--scan", "octree"], 2, &["octree", "list", "tree"]);
    says(at, &["explain", "16"], 0, &["a box tree that is not accepted", "build_tree"]);
    // a hall without a surface has the empty tree
    std::fs::write(at.join("hall.obj"), "mtllib hall.mtl\n").unwrap();
    says(at, &["bake", "hall.toml", "--scan", "tree", "-o", "empty-tree.vgrd"], 0, &[]);
    says(at, &["bake", "hall.toml", "-o", "empty.vgrd"], 0, &[]);
    says(at, &["diff", "empty.vgrd", "empty-tree.vgrd"], 0, &["bit for bit"]);
}

/// A floor with a curtain across its middle, at z = 3, that sends out blue and lets some light pass by its d; a red lamp behind it, at z = 1, and a green one before.
/// The curtain's front is turned to +z.
fn curtained() -> (tempfile::TempDir, PathBuf) {
    let dir = tempfile::tempdir().unwrap();
    let write = |name: &str, text: &str| std::fs::write(dir.path().join(name), text).unwrap();
    write("hall.mtl", "newmtl floor\nKd 0.6 0.6 0.6\nnewmtl curtain\nKd 0.2 0.2 0.2\nKe 0 0 1\nd 0.4\n");
    write("hall.obj", "mtllib hall.mtl\nv 0 0 0\nv 0 0 6\nv 6 0 6\nv 6 0 0\nv 0 0 3\nv 6 0 3\nv 6 3 3\nv 0 3 3\nusemtl floor\nf 1 2 3 4\nusemtl curtain\nf 5 6 7 8\n");
    write("hall.toml", "name = \"curtained\"\nobj = \"hall.obj\"\n[grid]\nvoxels = [6, 3, 12]\nmin = [-0.1, -0.1, -0.1]\nmax = [6.1, 3.1, 6.1]\n\
        [materials.curtain]\nkind = \"panel\"\n\
        [[lamps]]\nat = [3.0, 2.0, 1.0]\ncolour = [8.0, 0.0, 0.0]\n[[lamps]]\nat = [3.0, 2.0, 5.0]\ncolour = [0.0, 8.0, 0.0]\n\
        [[faces]]\nname = \"behind\"\ncorner = [2.5, 1.0, 1.2]\nacross = [1.0, 0.0, 0.0]\nup = [0.0, 1.0, 0.0]\n");
    let path = dir.path().join("hall.toml");
    (dir, path)
}

/// E of each row that `look` says, red, green and blue.
fn falls(said: &str) -> Vec<[f32; 3]> {
    let row = |line: &str| line.split(',').skip(8).take(3).map(|x| x.parse().unwrap()).collect::<Vec<f32>>();
    said.lines().skip(1).map(|line| row(line).try_into().unwrap()).collect()
}

/// The pixel in a picture's middle.
fn middle(path: &Path) -> [u8; 3] {
    let shown = image::open(path).unwrap().to_rgb8();
    shown.get_pixel(shown.width() / 2, shown.height() / 2).0
}

#[test]
fn panels_from_both_sides() {
    let (dir, path) = curtained();
    let at = dir.path();
    // before the curtain and behind it, both turned up and far enough from it that the mean does not reach across
    std::fs::write(at.join("p.csv"), "x,y,z,nx,ny,nz\n3,0.6,5,0,1,0\n3,0.6,1,0,1,0\n").unwrap();
    let look = |volume: &str, more: &[&str]| falls(&says(at, &[&["look", volume, "p.csv"], more].concat(), 0, &[]));
    let baked = |volume: &str| {
        says(at, &["bake", "hall.toml", "-o", volume, "--threads", "2"], 0, &["curtained"]);
        says(at, &["verify", volume, "hall.toml"], 0, &["good"]);
        look(volume, &[])
    };
    says(at, &["check", "hall.toml"], 0, &["curtained is good: 4 triangles", "note: 2 of 4 triangles are panels", "counter-clockwise", "curtain 2 to +z"]);
    let panel = baked("panel.vgrd");
    // Before it there is next to nothing of the red lamp behind (a lamp's ray starts a little off the floor, as beside a wall), and the curtain's own blue. Behind it
    // there is the light of both lamps, and nothing of the curtain.
    let none = |dark: f32, bright: f32| bright > 0.0 && dark < 0.01 * bright;
    assert!(none(panel[0][0], panel[0][1]) && panel[0][2] > 0.0, "{panel:?}");
    assert!(panel[1][0] > 0.0 && panel[1][1] > 0.1 * panel[1][0] && panel[1][2] == 0.0, "{panel:?}");
    // straight from the lamps: from behind the green one is seen as if nothing stood between, from before the red one is not
    let straight = look("panel.vgrd", &["--direct", "hall.toml"]);
    let (up, along) = (2.0f32 - 0.6, 4.0f32);
    let lamp = 8.0 * up / (up * up + along * along).powf(1.5);
    assert_eq!(straight[0][0], panel[0][0]);
    assert!((straight[1][1] - panel[1][1] - lamp).abs() < 0.01 * lamp, "{straight:?} {panel:?} {lamp}");
    // a picture: from before the curtain's blue, from behind the dark beyond it; and a face behind it has the green lamp's light
    let shown = |volume: &str| {
        let view = |from: &str, to: &str| says(at, &["view", volume, "hall.toml", "--from", from, "--to", to, "--size", "16", "--exposure", "1", "--png", "v.png"], 0, &["16 × 9"]);
        view("3,1.5,5.5", "3,1.5,0");
        let before = middle(&at.join("v.png"));
        view("3,1.5,0.5", "3,1.5,6");
        let behind = middle(&at.join("v.png"));
        says(at, &["face", volume, "hall.toml", "behind", "--direct", "--size", "9", "--exposure", "1", "--png", "f.png"], 0, &["9 × 9"]);
        (before, behind, middle(&at.join("f.png")))
    };
    let (before, behind, face) = shown("panel.vgrd");
    assert!(before[0] < 10 && before[2] > 200 && behind == [0; 3] && face[1] > 50, "{before:?} {behind:?} {face:?}");
    // a slice draws its line, and before its front a dashed one
    says(at, &["slice", "panel.vgrd", "--x", "2", "--of", "sun", "--hall", "hall.toml", "--png", "s.png"], 0, &[]);
    let slice = image::open(at.join("s.png")).unwrap().to_rgb8();
    let (line, across) = (slice.width() / 2, slice.height() / 2..slice.height() / 2 + 80);
    // how many of eighty pixels downwards are drawn in the columns
    let drawn = |columns: std::ops::RangeInclusive<u32>| across.clone().filter(|y| columns.clone().any(|x| slice.get_pixel(x, *y).0 != slice.get_pixel(5, *y).0)).count();
    let (whole, dashed, none_behind) = (drawn(line - 1..=line + 1), drawn(line + 3..=line + 5), drawn(line - 6..=line - 3));
    assert!(whole == 80 && (30..=50).contains(&dashed) && none_behind == 0, "{whole} {dashed} {none_behind}");
    // the sun: on the side of the front, it falls through onto what stands behind; on the other side, not onto what stands before
    for (towards, lit) in [("[0.0, 0.4, 1.0]", [true, true]), ("[0.0, 0.4, -1.0]", [false, true])] {
        std::fs::write(at.join("sunny.toml"), std::fs::read_to_string(&path).unwrap() + &format!("[sun]\ntowards = {towards}\ncolour = [1.0, 2.0, 4.0]\n")).unwrap();
        let sunny = look("panel.vgrd", &["--direct", "sunny.toml"]);
        let sun = 4.0 * 0.4 / 1.16f32.sqrt();
        (0..2).for_each(|k| assert!((sunny[k][2] - straight[k][2] - if lit[k] { sun } else { 0.0 }).abs() < 1e-4, "{towards}: {sunny:?} {straight:?}"));
    }
    // what its d says does not matter, nor a transmission
    let bytes = std::fs::read(at.join("panel.vgrd")).unwrap();
    edit(&at.join("hall.mtl"), "d 0.4", "d 1");
    baked("again.vgrd");
    assert_eq!(std::fs::read(at.join("again.vgrd")).unwrap(), bytes);
    edit(&path, "kind = \"panel\"", "kind = \"panel\"\ntransmission = 1.0");
    says(at, &["check", "hall.toml"], 0, &["hall.toml:9: materials.curtain: transmission is never read of a panel"]);
    baked("again.vgrd");
    assert_eq!(std::fs::read(at.join("again.vgrd")).unwrap(), bytes);
    // an opaque curtain: before it the same numbers, behind it its blue and no green
    edit(&path, "kind = \"panel\"", "kind = \"opaque\"");
    let said = says(at, &["check", "hall.toml"], 0, &["4 triangles"]);
    assert!(!said.contains("panels") && !said.contains("never read"), "{said}");
    let opaque = baked("opaque.vgrd");
    assert_eq!(opaque[0], panel[0]);
    assert!(none(opaque[1][1], opaque[1][0]) && opaque[1][2] > 0.0, "{opaque:?}");
    let (before, behind, face) = shown("opaque.vgrd");
    assert!(before[2] > 200 && behind[2] > 200 && face[1] < 10, "{before:?} {behind:?} {face:?}");
    // both masks are the same: they ask for no material
    let [first, second] = ["panel.vgrd", "opaque.vgrd"].map(|name| Volume::read(&at.join(name)).unwrap());
    assert_eq!((first.occupied, first.active), (second.occupied, second.active));
    // the panel turned round, by the order of its corners: both sides have changed places
    edit(&path, "kind = \"opaque\"", "kind = \"panel\"");
    edit(&at.join("hall.obj"), "f 5 6 7 8", "f 8 7 6 5");
    says(at, &["check", "hall.toml"], 0, &["curtain 2 to −z"]);
    let turned = baked("turned.vgrd");
    assert_eq!(turned[1], opaque[1]);
    assert!(turned[0][0] > 0.1 * turned[0][1] && turned[0][1] > 0.0 && turned[0][2] == 0.0, "{turned:?}");
    let (before, behind, _) = shown("turned.vgrd");
    assert!(before == [0; 3] && behind[2] > 200, "{before:?} {behind:?}");
    // and a net has no side
    edit(&path, "kind = \"panel\"", "kind = \"translucent\"");
    let net = look("opaque.vgrd", &["--direct", "hall.toml"]);
    assert!(net[0][0] > 0.0 && net[1][1] > 0.0, "{net:?}");
}

#[test]
fn panels_in_words() {
    let (dir, path) = curtained();
    let (at, obj) = (dir.path(), dir.path().join("hall.obj"));
    let drawn = std::fs::read_to_string(&obj).unwrap();
    // a kind that there is not, with its place
    for wrong in ["pannel", "Panel", "2", ""] {
        edit(&path, "kind = \"panel\"", &format!("kind = \"{wrong}\""));
        let place = format!("hall.toml:8: materials.curtain: kind \"{wrong}\", where \"opaque\", \"translucent\" and \"panel\" are (refusal 6)");
        says(at, &["check", "hall.toml"], 3, &[&place, "1 faults"]);
        says(at, &["bake", "hall.toml"], 3, &[&place]);
        edit(&path, &format!("kind = \"{wrong}\""), "kind = \"panel\"");
    }
    edit(&path, "kind = \"panel\"", "kind = 2");
    says(at, &["check", "hall.toml"], 3, &["hall.toml:", "kind"]);
    edit(&path, "kind = 2", "kind = \"panel\"\ntransmission = 1.5");
    says(at, &["check", "hall.toml"], 3, &["hall.toml:9: materials.curtain: transmission 1.5 is outside 0..1 (refusal 6)"]);
    edit(&path, "transmission = 1.5\n", "");
    // how many there are, and what they are
    says(at, &["check", "hall.toml", "--json"], 0, &["\"panels\":2", "\"warnings\":[]"]);
    says(at, &["lists", "hall.toml"], 0, &["\nmaterial 0 #", "\nmaterial 2 #", "\ntriangle 1 #"]);
    says(at, &["explain", "6"], 0, &["a kind above 2", "\"panel\" (2)", "not there from behind"]);
    says(at, &["man"], 0, &[".SH MATERIALS", "translucent", "panel", "counter\\-clockwise"]);
    says(at, &["new", "begun"], 0, &[]);
    assert!(std::fs::read_to_string(at.join("begun/hall.toml")).unwrap().contains("kind = \"panel\""));
    // drawn twice back to back, whichever diagonal the loader cuts along, and as a thin box; farther apart it is meant so
    let line = drawn.lines().count() + 1;
    let twice = format!("hall.obj:{line}: face 3: a panel back to back with face 2, within 10 cm: together they stop light from both sides");
    for second in ["8 7 6 5", "7 6 5 8", "5 8 7", "6 5 7"] {
        std::fs::write(&obj, format!("{drawn}f {second}\n")).unwrap();
        says(at, &["check", "hall.toml"], 0, &[&twice]);
    }
    let beside = |z: f32| drawn.replacen("usemtl floor", &format!("v 0 0 {z}\nv 6 0 {z}\nv 6 3 {z}\nv 0 3 {z}\nusemtl floor"), 1);
    for (z, second, warned) in [(2.95, "12 11 10 9", true), (3.05, "12 11 10 9", true), (2.95, "9 10 11 12", false), (2.8, "12 11 10 9", false), (3.2, "12 11 10 9", false)] {
        std::fs::write(&obj, format!("{}f {second}\n", beside(z))).unwrap();
        let said = says(at, &["check", "hall.toml"], 0, &["4 of 6 triangles are panels"]);
        assert_eq!(said.contains("back to back"), warned, "{z} {second}: {said}");
    }
    std::fs::write(&obj, format!("{drawn}f 8 7 6 5\nf 8 7 6 5\nf 5 6 7 8\n")).unwrap();
    says(at, &["check", "hall.toml"], 0, &["face 4: a panel back to back with face 2", "(1 more such faces)"]);
    // a face with a notch, cut so that a triangle lies the other way round; a smooth outline is not
    let notched = drawn.replacen("usemtl floor", "v 3 2.8 4\nv 2.6 0.4 4\nv 3 0.7 4\nv 3.4 0.4 4\nusemtl floor", 1) + "f 9 10 11 12\n";
    std::fs::write(&obj, &notched).unwrap();
    says(at, &["check", "hall.toml"], 0, &[&format!("hall.obj:{}: face 3: a panel of this outline is cut into triangles with their fronts on both sides", notched.lines().count())]);
    edit(&path, "kind = \"panel\"", "kind = \"opaque\"");
    assert!(!says(at, &["check", "hall.toml"], 0, &[]).contains("on both sides"));
    edit(&path, "kind = \"opaque\"", "kind = \"panel\"");
    let ring: Vec<(f32, f32)> = (0..24).map(|k| (k as f32 * std::f32::consts::TAU / 24.0).sin_cos()).collect();
    for corners in [5, 6, 8, 12, 24] {
        let points: String = ring.iter().step_by(24 / corners).take(corners).map(|(y, x)| format!("v {} {} 4\n", 3.0 + x, 1.5 + y)).collect();
        let places: Vec<String> = (9..9 + corners).map(|place| place.to_string()).collect();
        let text = drawn.replacen("usemtl floor", &format!("{points}usemtl floor"), 1) + &format!("f {}\n", places.join(" "));
        std::fs::write(&obj, text).unwrap();
        let said = says(at, &["check", "hall.toml"], 0, &[" to +z\n"]);
        assert!(!said.contains("on both sides") && !said.contains("to −z"), "{corners}: {said}");
    }
    std::fs::write(&obj, &drawn).unwrap();
    // a drawing with z up is turned and not mirrored: the same side is the front
    let upright = read(&path);
    let turned: String = drawn.lines().map(|l| match l.strip_prefix("v ").map(|p| p.split(' ').map(|x| x.parse::<f64>().unwrap()).collect::<Vec<_>>()) {
        Some(p) => format!("v {} {} {}\n", p[0], -p[2], p[1]),
        None => format!("{l}\n"),
    }).collect();
    std::fs::write(&obj, turned).unwrap();
    edit(&path, "obj = \"hall.obj\"", "obj = \"hall.obj\"\nup = \"z\"");
    assert_eq!(read(&path).points, upright.points);
    assert_eq!(read(&path).fronts(), [("curtain", vec![("+z", 2)])]);
    edit(&path, "\nup = \"z\"", "");
    std::fs::write(&obj, &drawn).unwrap();
    // a face and a lamp just behind a panel: seen from the panel's front alone, and warned of
    let text = std::fs::read_to_string(&path).unwrap();
    edit(&path, "corner = [2.5, 1.0, 1.2]", "corner = [2.5, 1.0, 2.98]");
    edit(&path, "at = [3.0, 2.0, 1.0]", "at = [3.0, 2.0, 2.995]");
    says(at, &["check", "hall.toml"], 0, &["lamp 1: a surface stands within a centimetre", "face behind: a surface stands within 5 cm before its middle"]);
    std::fs::write(&path, &text).unwrap();
    // a part file is bound to the kinds: by the files, and by the numbers made of them
    let hall = read(&path);
    let sums: std::collections::BTreeSet<String> = [OPAQUE, TRANSLUCENT, PANEL].into_iter().map(|kind| {
        edit(&path, "kind = \"panel\"", &format!("kind = \"{}\"", ["opaque", "translucent", "panel"][kind as usize]));
        let read = read(&path);
        assert_eq!((&read.kinds[..], &read.points, &read.numbers), (&[OPAQUE, kind][..], &hall.points, &hall.numbers));
        std::fs::write(&path, &text).unwrap();
        read.numbers_sha256()
    }).collect();
    assert_eq!(sums.len(), 3);
    let baking::Outcome::Stopped { part, .. } = baked(&hall, None, 1, 1, 1) else { panic!("one call bakes all of it") };
    part.write(&at.join("hall.vgrd.part"), &hall).unwrap();
    edit(&path, "kind = \"panel\"", "kind = \"opaque\"");
    says(at, &["bake", "hall.toml"], 3, &["hall.vgrd.part is not gone on with", "hall.toml has changed", "--fresh"]);
    std::fs::write(&path, &text).unwrap();
    let (volume, rays) = unbroken(&hall);
    assert_eq!(rays_said(&says(at, &["bake", "hall.toml", "--resume"], 0, &["going on from hall.vgrd.part"])), rays);
    assert_eq!(std::fs::read(at.join("hall.vgrd")).unwrap(), volume.bytes().unwrap());
}

#[test]
fn panels_by_shares_are_the_unbroken_bakes_bits() {
    let dir = tempfile::tempdir().unwrap();
    for (name, text) in [("hall.toml", include_str!("panels/hall.toml")), ("hall.obj", include_str!("panels/hall.obj")), ("hall.mtl", include_str!("panels/hall.mtl"))] {
        std::fs::write(dir.path().join(name), text).unwrap();
    }
    let path = dir.path().join("hall.toml");
    let hall = read(&path);
    assert_eq!(hall.fronts().iter().map(|(name, _)| *name).collect::<Vec<_>>(), ["net", "shade", "hood", "screen", "pennant"]);
    says(dir.path(), &["check", "hall.toml"], 0, &["net 2 to +z; shade 2 to +z, 2 to −z; hood 2 to −y; screen 2 to −x; pennant"]);
    let (volume, rays) = unbroken(&hall);
    for shares in ["1", "3"] {
        let said = says(dir.path(), &["bake", "hall.toml", "--shares", shares, "--threads", "2", "--allowance", "5000", "-o", "hall.vgrd"], 0, &[]);
        assert_eq!(rays_said(&said), rays);
        assert!(std::fs::read(dir.path().join("hall.vgrd")).unwrap() == volume.bytes().unwrap(), "{shares} shares");
    }
    says(dir.path(), &["verify", "hall.vgrd", "hall.toml"], 0, &["good"]);
    // turned into walls it is another light
    edit(&path, "[materials.net]\nkind = \"panel\"", "[materials.net]\nkind = \"opaque\"");
    says(dir.path(), &["verify", "hall.vgrd", "hall.toml", "--sample", "100000"], 1, &["come out differently"]);
}

#[test]
fn skies() {
    let (dir, path) = small();
    let sky = "zenith = [0.3, 0.5, 0.9]\nhorizon = [0.6, 0.6, 0.6]";
    edit(&path, sky, "uniform = [2.0, 1.0, 0.5]");
    let hall = read(&path);
    // the irradiance of a uniform sky of 1 is π, whichever way a surface is turned
    assert!((hall.ambient.c0.y - std::f32::consts::PI).abs() < 1e-3 && hall.ambient.c1.y.abs() < 2e-2, "{:?}", hall.ambient);
    // a picture whose upper half is bright
    let picture = image::RgbImage::from_fn(64, 32, |_, y| image::Rgb(if y < 16 { [255; 3] } else { [0; 3] }));
    picture.save(dir.path().join("sky.png")).unwrap();
    edit(&path, "uniform = [2.0, 1.0, 0.5]", "picture = \"sky.png\"\nbrightness = 2.0");
    let hall = read(&path);
    assert!(hall.inputs.iter().any(|i| i.file == "sky.png"));
    let mut along = vec![0.0; SKY_LENGTH];
    directions(&mut along).unwrap();
    for (d, colour) in along.chunks(3).zip(hall.sky.chunks(3)) {
        assert!(d[1].abs() < 0.25 || (colour[0] - if d[1] > 0.0 { 2.0 } else { 0.0 }).abs() < 1e-3, "{d:?} {colour:?}");
    }
    std::fs::write(dir.path().join("sky.png"), "no picture").unwrap();
    says(dir.path(), &["check", "hall.toml"], 3, &["sky.picture", "no picture that can be read"]);
    edit(&path, "picture = \"sky.png\"", "picture = \"sky.png\"\nuniform = [1.0, 1.0, 1.0]");
    says(dir.path(), &["check", "hall.toml"], 3, &["sky: give one of"]);
}

#[test]
fn pictures_and_numbers() {
    let (dir, path) = small();
    let at = dir.path();
    says(at, &["bake", "hall.toml"], 0, &[]);
    let hall = read(&path);
    let volume = Volume::read(&at.join("hall.vgrd")).unwrap();
    for of in ["sun", "sky", "c0", "c3", "E:0,0,1", "E:-1,0,0"] {
        says(at, &["slice", "hall.vgrd", "--z", "3", "--of", of, "--png", "s.png", "--hall", "hall.toml"], 0, &["s.png: slice z = 3"]);
    }
    let slice = image::open(at.join("s.png")).unwrap();
    assert!(slice.width() > 300 && slice.height() > 100);
    says(at, &["slice", "hall.vgrd", "--y", "2", "--png", "s.png", "--exposure", "1"], 0, &["white is 1.0000"]);
    // a pixel is its voxel: the upper left one of a plan is voxel (0, y, 0)
    let shown = image::open(at.join("s.png")).unwrap().to_rgb8();
    let e = plate::volume::irradiance(volume.voxel(volume.axes.index(0, 2, 0)), Vec3::new(0.0, 1.0, 0.0));
    let expected = |x: f32| if x <= 0.0031308 { 12.92 * x } else { 1.055 * x.min(1.0).powf(1.0 / 2.4) - 0.055 };
    (0..3).for_each(|c| assert!((f32::from(shown.get_pixel(0, 0).0[c]) / 255.0 - expected(e[c])).abs() < 0.01));
    says(at, &["slice", "hall.vgrd", "--z", "16", "--png", "s.png"], 3, &["z from 0 to 15", "refusal 11"]);
    says(at, &["slice", "hall.vgrd", "--png", "s.png"], 2, &[]);
    says(at, &["slice", "hall.vgrd", "--z", "1"], 2, &["--png"]);
    says(at, &["slice", "hall.vgrd", "--all", "all", "--png", "s.png"], 2, &["cannot be used with"]);
    says(at, &["slice", "hall.vgrd", "--all", "all", "--across", "w"], 2, &[]);
    says(at, &["slice", "hall.vgrd", "--all", "all", "--hall", "hall.toml"], 0, &["all: 16 slices across z, z00.png to z15.png"]);
    says(at, &["slice", "hall.vgrd", "--all", "all", "--across", "y", "--exposure", "1"], 0, &["6 slices across y", "white is 1.0000"]);
    assert_eq!(std::fs::read_dir(at.join("all")).unwrap().count(), 16 + 6);
    // each is the slice alone at the same exposure
    assert_eq!(std::fs::read(at.join("all/y02.png")).unwrap(), std::fs::read(at.join("s.png")).unwrap());
    says(at, &["slice", "hall.vgrd", "--z", "1", "--x", "1", "--png", "s.png"], 2, &[]);
    says(at, &["slice", "hall.vgrd", "--z", "1", "--of", "E:0,0,0", "--png", "s.png"], 2, &["no direction"]);
    says(at, &["slice", "hall.obj", "--z", "1", "--png", "s.png"], 3, &["hall.obj", "refusal 12"]);
    says(at, &["slice", "hall.vgrd", "--z", "1", "--png", "none/s.png"], 3, &["cannot be written"]);
    says(at, &["face", "hall.vgrd", "hall.toml", "a", "--size", "64", "--png", "f.png"], 0, &["64 × 64"]);
    says(at, &["face", "hall.vgrd", "hall.toml", "a", "--size", "64", "--direct", "--png", "g.png", "--exposure", "1"], 0, &["64 × 64"]);
    says(at, &["face", "hall.vgrd", "hall.toml", "b", "--png", "f.png"], 3, &["no face b; it has a"]);
    says(at, &["view", "hall.vgrd", "hall.toml", "--from", "3,1.6,7", "--to", "3,1.3,0", "--size", "64", "--png", "v.png"], 0, &["64 × 36"]);
    says(at, &["view", "hall.vgrd", "hall.toml", "--from", "3,1.6,7", "--to", "3,0,7", "--png", "v.png"], 3, &["straight up or down"]);
    says(at, &["view", "hall.vgrd", "hall.toml", "--from", "3,1.6", "--to", "3,0,7", "--png", "v.png"], 2, &["three numbers"]);
    // looking up: the numbers are the library's
    std::fs::write(at.join("p.csv"), "x,y,z,nx,ny,nz\n3,1.5,4,0,1,0\n3,1.3,0.4,0,0,2\n").unwrap();
    let said = says(at, &["look", "hall.vgrd", "p.csv"], 0, &["x,y,z,nx,ny,nz,sun,sky,Er"]);
    let c = volume.coefficients(Vec3::new(3.0, 1.5, 4.0)).unwrap();
    let e = plate::volume::irradiance(&c, Vec3::new(0.0, 1.0, 0.0));
    assert!(said.lines().nth(1).unwrap().contains(&format!(",{},{},{},", e[0], e[1], e[2])), "{said}");
    let straight = says(at, &["look", "hall.vgrd", "p.csv", "--direct", "hall.toml"], 0, &[]);
    let number = |text: &str| text.lines().nth(1).unwrap().split(',').nth(8).unwrap().parse::<f32>().unwrap();
    // the lamp stands 1.2 m above the first position and nothing between: colour/d²
    let lamp = hall.lamps[3] / (1.2f32 * 1.2);
    assert!((number(&straight) - number(&said) - lamp).abs() < 0.02 * lamp, "{straight} {said}");
    std::fs::write(at.join("q.csv"), "x,y,z\n3,1.5,4\n3,5000,4\n").unwrap();
    says(at, &["look", "hall.vgrd", "q.csv"], 3, &["position 2 (counted from 1)", "refusal 11"]);
    says(at, &["look", "hall.vgrd", "p.csv", "--direct", "no.toml"], 3, &["no.toml"]);
    std::fs::write(at.join("q.csv"), "x,y\n3,1.5\n").unwrap();
    says(at, &["look", "hall.vgrd", "q.csv"], 3, &["q.csv", "missing field"]);
    std::fs::write(at.join("q.csv"), "x,y,z\n3,1.5,4\n").unwrap();
    says(at, &["look", "hall.vgrd", "q.csv", "--direct", "hall.toml"], 3, &["needs a normal"]);
    says(at, &["stats", "hall.vgrd"], 0, &["12 × 6 × 16 voxels", "irradiance facing +z"]);
    says(at, &["stats", "hall.toml"], 3, &["refusal 12"]);
    says(at, &["plan", "hall.toml", "--threads", "3"], 0, &["sure: from", "memory: 0.6 MB at most with 3 threads; the volume file has 0.1 MB, the part file 0.1 MB", "foretold"]);
    says(at, &["plan", "hall.toml", "--sample", "100000"], 0, &["foretold from 1 voxels"]);
    says(at, &["plan", "hall.toml", "hall.toml", "--sample", "1"], 0, &["all 2 halls"]);
    says(at, &["plan", "hall.toml", "--sample", "0"], 3, &["--sample 0"]);
    // differing and verifying
    says(at, &["diff", "hall.vgrd", "hall.vgrd"], 0, &["the same, bit for bit"]);
    says(at, &["verify", "hall.vgrd", "hall.toml"], 0, &["good: masks and sun again, and 16 of"]);
    says(at, &["verify", "hall.vgrd", "hall.toml", "--sample", "100000"], 0, &["good"]);
    let mut other = volume.clone();
    let place = marked_voxels(&volume.active).next().unwrap();
    other.volume[16 * place + 2] = f32::from_bits(other.volume[16 * place + 2].to_bits() ^ 1);
    other.write(&at.join("other.vgrd")).unwrap();
    says(at, &["diff", "hall.vgrd", "other.vgrd"], 1, &["coefficients: 1 numbers in 1 voxels differ"]);
    // one voxel is not black: the 4 × 4 slices of 12 × 6 voxels
    says(at, &["diff", "hall.vgrd", "other.vgrd", "--png", "d.png"], 1, &["d.png", "coefficients: 1 numbers"]);
    let shown = image::open(at.join("d.png")).unwrap().to_rgb8();
    let cell = (shown.width() / 4 - 2) / 12;
    assert_eq!((shown.width(), shown.height()), (4 * (12 * cell + 2), 4 * (6 * cell + 2)));
    assert_eq!(shown.pixels().filter(|p| p.0 == [255; 3]).count() as u32, cell * cell);
    says(at, &["diff", "hall.vgrd", "hall.vgrd", "--png", "d.png"], 0, &["the same, bit for bit"]);
    assert!(image::open(at.join("d.png")).unwrap().to_rgb8().pixels().all(|p| p.0[0] == p.0[1]));
    says(at, &["verify", "other.vgrd", "hall.toml", "--sample", "100000"], 1, &["1 of"]);
    let mut other = volume.clone();
    (other.occupied[0], other.active[17], other.active[2]) = (other.occupied[0] ^ 1, other.active[17] ^ 1 << 63, other.active[2] ^ 6);
    other.write(&at.join("other.vgrd")).unwrap();
    says(at, &["diff", "hall.vgrd", "other.vgrd"], 1, &["occupied: 1 voxels differ", "active: 3 voxels differ"]);
    says(at, &["diff", "hall.vgrd", "other.vgrd", "--png", "d.png"], 1, &["d.png"]);
    let shown = image::open(at.join("d.png")).unwrap().to_rgb8();
    assert_eq!(shown.pixels().filter(|p| p.0[0] != p.0[1]).count() as u32, 4 * cell * cell);
    says(at, &["verify", "other.vgrd", "hall.toml"], 1, &["the masks are not the hall's"]);
    edit(&path, "colour = [6.0, 5.5, 5.0]", "colour = [6.1, 5.5, 5.0]");
    says(at, &["verify", "hall.vgrd", "hall.toml"], 1, &["come out differently"]);
    edit(&path, "max = [6.1, 3.1, 8.1]", "max = [6.1, 3.1, 8.2]");
    says(at, &["verify", "hall.vgrd", "hall.toml"], 1, &["grid is not the volume's"]);
    says(at, &["slice", "hall.vgrd", "--z", "3", "--png", "s.png", "--hall", "hall.toml"], 3, &["another grid"]);
    says(at, &["face", "hall.vgrd", "hall.toml", "a", "--png", "f.png"], 3, &["another grid"]);
    says(at, &["view", "hall.vgrd", "hall.toml", "--from", "3,1.6,7", "--to", "3,1.3,0", "--png", "v.png"], 3, &["another grid"]);
    says(at, &["look", "hall.vgrd", "p.csv", "--direct", "hall.toml"], 3, &["another grid"]);
}

#[test]
fn words_and_shells() {
    let dir = tempfile::tempdir().unwrap();
    for row in Refusal::ALL {
        says(dir.path(), &["explain", &row.number().to_string()], 0, &[row.words()]);
    }
    says(dir.path(), &["explain", "15"], 3, &["no refusal has this number"]);
    for shell in ["bash", "zsh", "fish"] {
        says(dir.path(), &["completions", shell], 0, &["plate"]);
    }
    says(dir.path(), &["completions", "tcsh"], 2, &[]);
    let ended = Command::new("sh").arg("-c").arg(format!("{} completions bash | head -n 1", env!("CARGO_BIN_EXE_plate"))).output().unwrap();
    assert!(std::env::var("PLATE_EMULATE").is_ok() || !words(&ended).contains("panicked"), "{}", words(&ended));
    // the manual page names every command, and where groff is installed it finds nothing to warn of
    let page = says(dir.path(), &["man"], 0, &[".TH PLATE 1", ".SH NAME", "\\-\\-share"]);
    for command in ["demo", "new", "check", "plan", "bake", "join", "slice", "face", "view", "look", "stats", "diff", "verify", "explain", "lists", "completions", "man"] {
        assert!(page.contains(&format!(".SS {command}\n")), "{command}: {page}");
    }
    std::fs::write(dir.path().join("plate.1"), &page).unwrap();
    if let Ok(warned) = Command::new("groff").args(["-man", "-Tutf8", "-Kutf8", "-ww", "-z", "plate.1"]).current_dir(dir.path()).output() {
        assert!(warned.status.success() && words(&warned).is_empty(), "{}", words(&warned));
    }
    says(dir.path(), &["--version"], 0, &["plate 0.1.0"]);
    says(dir.path(), &[], 2, &["Usage"]);
    // nothing is written over another file
    std::fs::write(dir.path().join("hall.obj"), "mine").unwrap();
    says(dir.path(), &["new", "."], 3, &["hall.obj", "is another file"]);
    assert_eq!(std::fs::read(dir.path().join("hall.obj")).unwrap(), b"mine");
}

#[test]
fn the_demo_shows_what_it_says() {
    let dir = tempfile::tempdir().unwrap();
    says(dir.path(), &["demo", "d"], 0, &["534 triangles", "view.png", "plan.png", "slice.png", "face.png", "face-volume.png", "done in"]);
    let at = dir.path().join("d");
    says(&at, &["verify", "hall.vgrd", "hall.toml", "--sample", "8"], 0, &["good"]);
    // the white of the face is darker at its upper rim, in the hood's shadow, than at its sides
    let rim = |name: &str| {
        let face = image::open(at.join(name)).unwrap().to_luma8();
        let (w, h) = face.dimensions();
        [(w / 2, h / 40), (w / 40, h / 2), (w - 1 - w / 40, h / 2)].map(|(x, y)| i32::from(face.get_pixel(x, y).0[0]))
    };
    let [above, left, right] = rim("face.png");
    assert!(above + 30 < left && above + 30 < right, "{above} {left} {right}");
    // and by the volume alone there is no such shadow
    let [above, left, right] = rim("face-volume.png");
    assert!((above - left).abs() < 30 && (above - right).abs() < 30, "{above} {left} {right}");
}
