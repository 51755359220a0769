//! The commands. Everything that can be wrong with their words or files is said in one line and ends with status 2.
use crate::gi;
use crate::items::{self, Item, MODULES};
use crate::panel_places;
use crate::progress_places;
use crate::records::Record;
use crate::solid_places;
use crate::scene::recorded_bits;
use crate::tree_places;
use crate::watch;
use crate::wide_places;
use crate::word_places;
use crate::worlds::{world, FAMILIES};
use std::fs;
use std::io::{self, Write};
use std::ops::Range;
use std::process::ExitCode;
use std::time::Instant;

const USAGE: &str = "usage: oracle COMMAND ..
  directions                    the table as the Rust's own function gives it here, against the recorded one
  families                      the corners that a seed reaches (seed modulo their number)
  scene SEED                    the seeded scene, as text
  answer FILE                   every answer for a scene of that text ('-': standard input)
  timed FILE                    masks, sun and bake of such a scene, how long each took, and what they answer
  rays FILE                     every ray that the sun pass and the bake fire, one a line
  coverage COUNT                runs seeds 0..COUNT through every module; fails where a branch is never reached or a scene is refused
  stream MODULE FIRST COUNT     the records of seeds FIRST.. for a module's program, on standard output
  bad MODULE FIRST COUNT        the same for bad inputs
  every MODULE SEED [PLACE]     the same for bad inputs with each number broken at every place of its list; PLACE: what that one record holds
  record FOLDER                 writes each program's recorded answers to FOLDER/replay_PROGRAM/stdin, and to stdout beside it
                                how many records and comparisons its program then says
  compare FOLDER                makes them again and compares
  passed COUNT FIRST            rays over halls and scenes of those seeds, and what the full scan meets of triangles whose own padded box is passed over
  count FIRST COUNT             how many scenes, triangles, lamps and voxels those seeds hold
  time SEED                     bakes a seeded scene and says how fast
  one MODULE SEED PLACE         a single record of a stream, by its place, with what it holds as text
  shrink MODULE SEED PLACE CMD..  the smallest record that CMD still answers otherwise than the oracle
MODULE is rays, masks, blurs, sun, bake, lookup or fired.";

const COMMANDS: [&str; 17] = [
    "directions", "families", "scene", "answer", "timed", "rays", "coverage", "stream", "bad", "every", "record", "compare", "passed", "count", "time", "one", "shrink",
];

pub fn main() -> ExitCode {
    let words: Vec<String> = std::env::args().skip(1).collect();
    match run(&words) {
        Ok(good) => {
            if good {
                ExitCode::SUCCESS
            } else {
                ExitCode::FAILURE
            }
        }
        Err(text) => {
            // whoever closes standard error early still gets the status
            let _ = writeln!(io::stderr(), "oracle: {text}");
            ExitCode::from(2)
        }
    }
}

fn number(text: &str, what: &str) -> Result<u64, String> {
    text.parse().map_err(|_| format!("{what} is to be a whole number, not '{text}'"))
}

/// COUNT seeds from FIRST on, at least one.
fn seeds(first: &str, count: &str) -> Result<Range<u64>, String> {
    let (low, count) = (number(first, "FIRST")?, number(count, "COUNT")?);
    if count == 0 {
        return Err("COUNT is to be at least 1".into());
    }
    let high = low.checked_add(count).ok_or_else(|| format!("no {count} seeds from {first} on: the last is {}", u64::MAX - 1))?;
    Ok(low..high)
}

fn module(text: &str) -> Result<&str, String> {
    if MODULES.contains(&text) {
        Ok(text)
    } else {
        Err(format!("no module '{text}': it is one of {}", MODULES.join(", ")))
    }
}

fn say(text: &str) -> Result<(), String> {
    put(text.as_bytes())
}

fn put(bytes: &[u8]) -> Result<(), String> {
    io::stdout().write_all(bytes).map_err(|e| format!("cannot write: {e}"))
}

fn read(path: &str) -> Result<String, String> {
    if path == "-" {
        io::read_to_string(io::stdin()).map_err(|e| format!("standard input: {e}"))
    } else {
        fs::read_to_string(path).map_err(|e| format!("{path}: {e}"))
    }
}

fn run(words: &[String]) -> Result<bool, String> {
    let words: Vec<&str> = words.iter().map(String::as_str).collect();
    match words[..] {
        ["directions"] => directions(),
        ["families"] => {
            for (i, name) in FAMILIES.iter().enumerate() {
                say(&format!("{i} {name}\n"))?;
            }
            Ok(true)
        }
        ["scene", seed] => {
            say(&crate::text::written(&world(number(seed, "SEED")?)))?;
            Ok(true)
        }
        ["answer", path] => {
            say(&crate::text::answers(&crate::text::parsed(&read(path)?)?)?)?;
            Ok(true)
        }
        ["timed", path] => {
            say(&crate::timed::timed(&crate::text::parsed(&read(path)?)?)?)?;
            Ok(true)
        }
        ["rays", path] => {
            say(&crate::text::fired(&crate::text::parsed(&read(path)?)?)?)?;
            Ok(true)
        }
        ["coverage", count] => coverage(seeds("0", count)?),
        ["stream", name, first, count] => {
            let name = module(name)?;
            for seed in seeds(first, count)? {
                for item in items::seeded(name, seed) {
                    put(&item.bytes())?;
                }
            }
            Ok(true)
        }
        ["bad", name, first, count] => {
            let name = module(name)?;
            for seed in seeds(first, count)? {
                for item in items::all_bad(name, seed, true, 60) {
                    put(&item.bytes())?;
                }
            }
            Ok(true)
        }
        ["every", name, seed] => {
            for item in items::all_bad(module(name)?, number(seed, "SEED")?, false, 0) {
                put(&item.bytes())?;
            }
            Ok(true)
        }
        ["every", name, seed, place] => {
            let (all, at) = (items::all_bad(module(name)?, number(seed, "SEED")?, false, 0), number(place, "PLACE")?);
            let item = all.get(at as usize).ok_or_else(|| format!("there are {} records, none at {at}", all.len()))?;
            say(&format!("{item:?}\n"))?;
            Ok(true)
        }
        ["record", folder] => record(folder, false),
        ["compare", folder] => record(folder, true),
        ["passed", count, first] => {
            say(&crate::passed::searched(seeds(first, count)?))?;
            Ok(true)
        }
        ["count", first, count] => tally(seeds(first, count)?),
        ["time", seed] => time(number(seed, "SEED")?),
        ["one", name, seed, place] => crate::shrink::one(module(name)?, number(seed, "SEED")?, number(place, "PLACE")? as usize),
        ["shrink", name, seed, place, ref command @ ..] if !command.is_empty() => {
            crate::shrink::shrink(module(name)?, number(seed, "SEED")?, number(place, "PLACE")? as usize, command)
        }
        [] => Err(USAGE.into()),
        [name, ..] if COMMANDS.contains(&name) => Err(format!("{name} does not take the words '{}'\n{USAGE}", words[1..].join(" "))),
        [name, ..] => Err(format!("no command '{name}'\n{USAGE}")),
    }
}

/// The Rust's own directions on this machine beside the recorded ones.
fn directions() -> Result<bool, String> {
    let own: Vec<u32> = gi::build_direction_sets(64, 9).iter().flatten().flat_map(|d| [d.x.to_bits(), d.y.to_bits(), d.z.to_bits()]).collect();
    for line in own.chunks(3) {
        say(&format!("{:08x} {:08x} {:08x}\n", line[0], line[1], line[2]))?;
    }
    let other = own.iter().zip(recorded_bits()).filter(|(a, b)| a != b).count();
    eprintln!("{other} of 1728 numbers differ from the recorded table");
    Ok(other == 0)
}

/// Every seeded scene is inside the limits, and together they reach every branch that can be reached.
fn coverage(seeds: Range<u64>) -> Result<bool, String> {
    let mut good = true;
    let mut both = [0; MODULES.len()];
    for seed in seeds {
        for (which, name) in MODULES.into_iter().enumerate() {
            let inside = items::inside(name, seed);
            for (place, item) in inside.iter().enumerate() {
                let made = item.record();
                both[which] += made.both as u64;
                good &= accepted(&made, &format!("{name}: record {place} of seed {seed}"))?;
            }
            for (number, why, items) in [(6, "a kind other than 0 stands in its list", solid_places::refused(name, seed)), (16, "its tree is not accepted", tree_places::refused(name, seed))] {
                for (place, item) in items.iter().enumerate() {
                    good &= refused_by(&item.record(), number, why, &format!("{name}: refused record {place} of seed {seed}"))?;
                }
            }
        }
    }
    for (name, count) in MODULES.iter().zip(both).filter(|(_, count)| *count > 0) {
        say(&format!("{count:>12} records of {name} through both engines\n"))?;
    }
    Ok(good & report()?)
}

/// Whether no answer of a record is a refusal; says which is.
fn accepted(record: &Record, what: &str) -> Result<bool, String> {
    match record.refusals.iter().find(|r| **r != 0) {
        Some(number) => {
            say(&format!("{what}: REFUSED {number}, though inside the limits\n"))?;
            Ok(false)
        }
        None => Ok(true),
    }
}

/// Whether every answer of a record is this refusal; says which is not.
fn refused_by(record: &Record, number: u32, why: &str, what: &str) -> Result<bool, String> {
    match record.refusals.iter().find(|r| **r != number) {
        Some(other) => {
            say(&format!("{what}: answered {other}, though {why}\n"))?;
            Ok(false)
        }
        None => Ok(true),
    }
}

/// Prints how often each branch was taken; false where a reachable one never was, or an unreachable one was.
fn report() -> Result<bool, String> {
    let mut good = true;
    for ((name, reachable, text), count) in watch::TABLE.iter().zip(watch::counts()) {
        let verdict = match (*reachable, count > 0) {
            (true, true) | (false, false) => "",
            (true, false) => "   NEVER REACHED",
            (false, true) => "   REACHED, THOUGH SAID NOT TO BE",
        };
        good &= verdict.is_empty();
        say(&format!("{count:>12} {name}: {text}{verdict}\n"))?;
    }
    Ok(good)
}

/// The recorded answers: which seeds each module's program replays. First those inside the limits, without panels, then the bad inputs; then
/// the same of grids that C-21 lets in, and of C-19's panels. Each stretch says whether all of it is inside the limits.
fn recorded(name: &str) -> [(bool, Vec<Item>); 6] {
    let (seeds, bases): (u64, u64) = match name {
        "rays" => (60, 2),
        "masks" => (100, 3),
        "blurs" => (40, 2),
        "sun" => (80, 2),
        "bake" => (20, 1),
        "lookup" => (60, 2),
        "fired" => (20, 0),
        _ => (0, 0),
    };
    let mut out = Vec::new();
    for seed in 0..seeds {
        out.extend(items::before_panels(name, seed));
    }
    out.extend(items::made(name));
    // black and faint surfaces
    let faint: &[u64] = match name {
        "bake" => &[32, 52, 72],
        "fired" => &[32],
        _ => &[],
    };
    for &seed in faint {
        out.extend(items::before_panels(name, seed));
    }
    out.extend(word_places::made(name));
    out.extend(progress_places::made(name));
    let mut bad: Vec<Item> = (0..bases).flat_map(|seed| items::bad(name, seed, true, 10)).collect();
    bad.extend(word_places::bad(name, 0));
    bad.extend(progress_places::bad(name, 0));
    [(true, out), (false, bad), (true, wide_places::made(name)), (false, wide_places::bad(name, 0)), (true, panel_places::made(name)), (false, panel_places::bad(name, 0))]
}

/// The records of C-22's calls, which stand after all of before it of a program: those inside the limits, then the bad inputs.
fn recorded_solid(name: &str) -> [(bool, Vec<Item>); 2] {
    [(true, solid_places::made(name)), (false, solid_places::bad(name, 0))]
}

/// The records of C-20's calls, which stand after those: likewise.
fn recorded_trees(name: &str) -> [(bool, Vec<Item>); 2] {
    [(true, tree_places::made(name)), (false, tree_places::bad(name, 0))]
}

/// The program that replays a module's records: the bake's also has the rays that it fires.
fn program(module: &str) -> &str {
    if module == "fired" { "bake" } else { module }
}

/// Writes or compares each program's records and what it says of them.
fn record(folder: &str, compare: bool) -> Result<bool, String> {
    let mut good = true;
    for name in MODULES.into_iter().filter(|name| program(name) == *name) {
        let parent = format!("{folder}/replay_{name}");
        let (mut bytes, mut records, mut comparisons, mut both) = (Vec::new(), 0, 0, 0);
        let modules = || MODULES.into_iter().filter(|module| program(module) == name);
        let mut stretches: Vec<(&str, bool, Vec<Item>)> = Vec::new();
        for module in modules() {
            stretches.extend(recorded(module).map(|(inside, items)| (module, inside, items)));
        }
        for module in modules() {
            stretches.extend(recorded_solid(module).map(|(inside, items)| (module, inside, items)));
        }
        for module in modules() {
            stretches.extend(recorded_trees(module).map(|(inside, items)| (module, inside, items)));
        }
        for (module, inside, items) in &stretches {
            for item in items {
                let record = item.record();
                if *inside {
                    good &= accepted(&record, &format!("{module}: record {records}"))?;
                }
                bytes.extend(record.bytes);
                records += 1;
                comparisons += record.comparisons;
                both += record.both as u64;
            }
        }
        let said = format!("{records} records, {comparisons} comparisons, all the same\n");
        if !compare {
            fs::create_dir_all(&parent).map_err(|e| format!("{parent}: {e}"))?;
        }
        for (file, made) in [("stdin", &bytes[..]), ("stdout", said.as_bytes())] {
            let path = format!("{parent}/{file}");
            let mut verdict = "";
            if compare {
                let held = fs::read(&path).map_err(|e| format!("{path}: {e}"))?;
                verdict = if held == made { ", the same" } else { ", DIFFERENT" };
                good &= held == made;
            } else {
                fs::write(&path, made).map_err(|e| format!("{path}: {e}"))?;
            }
            say(&format!("{path}: {} bytes{verdict}\n", made.len()))?;
        }
        say(&format!("  {said}"))?;
        if both > 0 {
            say(&format!("  {both} of them through both engines\n"))?;
        }
    }
    Ok(good & report()?)
}

fn tally(seeds: Range<u64>) -> Result<bool, String> {
    let count = seeds.end - seeds.start;
    let (mut triangles, mut voxels, mut halls, mut lamps, mut dark, mut panels) = (0, 0, 0, 0, 0, 0);
    for seed in seeds {
        let w = world(seed);
        triangles += w.lists.uses.len();
        voxels += w.active.len();
        halls += (w.family == "closed hall") as usize;
        lamps += w.lamps.len() / 6;
        dark += w.lamps.is_empty() as usize;
        panels += w.lists.kinds.contains(&2) as usize;
    }
    say(&format!("{count} scenes, {halls} of them halls, {dark} without lamps, {panels} with panels, {triangles} triangles, {lamps} lamps, {voxels} voxels\n"))?;
    Ok(true)
}

fn time(seed: u64) -> Result<bool, String> {
    let w = world(seed);
    let mut c = crate::chance::Chance::new(seed);
    let bake = crate::worlds::bake(&mut c, &w, vec![1.0; w.active.len()]);
    let start = Instant::now();
    let figures = crate::answers::baked(&bake, Some(&bake.active));
    let seconds = start.elapsed().as_secs_f64();
    say(&format!("{}: {} triangles, {} voxels, {} rays listed, {seconds:.3} s\n", w.family, w.lists.uses.len(), w.active.len(), figures.rays.len()))?;
    Ok(true)
}
