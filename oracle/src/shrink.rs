//! From a record that the port answers otherwise to the smallest one that still shows it.
use crate::calls::{Bake, Call, Lists, Scratch, Tree};
use crate::items::{self, Item};
use crate::progress_places::fitted;
use crate::trees;
use std::io::Write;
use std::process::{Command, Stdio};

/// Record `place` of a seed: its good records first, then its bad ones.
fn found(module: &str, seed: u64, place: usize) -> Result<Item, String> {
    let mut all = items::seeded(module, seed);
    all.extend(items::all_bad(module, seed, true, 60));
    let count = all.len();
    all.into_iter().nth(place).ok_or_else(|| format!("seed {seed} has {count} records for {module}, none at {place}"))
}

pub fn one(module: &str, seed: u64, place: usize) -> Result<bool, String> {
    let item = found(module, seed, place)?;
    std::io::stdout().write_all(&item.bytes()).map_err(|e| format!("cannot write: {e}"))?;
    eprintln!("{item:?}");
    Ok(true)
}

/// Whether the command, fed the record, reports a difference: a line that begins with `differs`.
fn differs(item: &Item, command: &[&str]) -> Result<bool, String> {
    let mut child = Command::new(command[0])
        .args(&command[1..])
        .stdin(Stdio::piped())
        .stdout(Stdio::piped())
        .spawn()
        .map_err(|e| format!("{}: {e}", command[0]))?;
    let bytes = item.bytes();
    if let Some(mut input) = child.stdin.take() {
        // a program that stops at the first difference reads no further
        let _ = input.write_all(&bytes);
    }
    let out = child.wait_with_output().map_err(|e| format!("{}: {e}", command[0]))?;
    Ok(String::from_utf8_lossy(&out.stdout).contains("differs"))
}

/// A bake with one lamp less.
fn fewer_lamps(bake: &Bake) -> Vec<Box<Bake>> {
    let count = bake.lamps.len() / 6;
    (0..count)
        .map(|gone| {
            let mut b = Box::new(bake.clone());
            b.lamps.drain(6 * gone..6 * gone + 6);
            b
        })
        .collect()
}

fn fewer_triangles(l: &Lists, h: Option<&Scratch>) -> Vec<(Lists, Option<Scratch>)> {
    let t = l.uses.len();
    let mut out = Vec::new();
    let mut keep = |range: &dyn Fn(usize) -> bool| {
        let mut s = l.clone();
        s.points = (0..t).filter(|i| range(*i)).flat_map(|i| l.points[9 * i..9 * i + 9].to_vec()).collect();
        s.uses = (0..t).filter(|i| range(*i)).map(|i| l.uses[i]).collect();
        out.push((s, h.cloned()));
    };
    if l.points.len() == 9 * t {
        if t > 1 {
            keep(&|i| i < t / 2);
            keep(&|i| i >= t / 2);
        }
        if t <= 64 {
            for gone in 0..t {
                keep(&|i| i != gone);
            }
        }
    }
    out
}

/// The tree of what is left of a scene: the same while no triangle is gone, then the builder's.
fn tree_of(before: &Lists, tree: &Tree, left: &Lists) -> Tree {
    if left.uses.len() == before.uses.len() { tree.clone() } else { trees::built(&left.points) }
}

/// Records that hold a little less.
fn smaller(item: &Item) -> Vec<Item> {
    let mut out = Vec::new();
    match item {
        Item::Rays { lists, hits, asked } => {
            for k in 0..asked.len() {
                if asked.len() > 1 {
                    out.push(Item::Rays { lists: lists.clone(), hits: hits.clone(), asked: vec![asked[k]] });
                }
            }
            for (l, _) in fewer_triangles(lists, None) {
                out.push(Item::Rays { lists: l, hits: hits.clone(), asked: asked.clone() });
            }
        }
        Item::Bakes { bake, calls } => {
            if calls.len() > 1 {
                out.push(Item::Bakes { bake: bake.clone(), calls: calls[..calls.len() - 1].to_vec() });
            }
            if calls.len() > 1 {
                out.push(Item::Bakes { bake: bake.clone(), calls: calls[calls.len() - 1..].to_vec() });
            }
            for (l, _) in fewer_triangles(&bake.lists, None) {
                let mut b = bake.clone();
                b.lists = l;
                out.push(Item::Bakes { bake: b, calls: calls.clone() });
            }
            for b in fewer_lamps(bake) {
                // with a record as it was, and with one that still keeps the rule
                let fit = calls.iter().map(|(p, allowance)| (fitted(&b, *p), *allowance)).collect();
                out.push(Item::Bakes { bake: b.clone(), calls: calls.clone() });
                out.push(Item::Bakes { bake: b, calls: fit });
            }
            let on: Vec<usize> = (0..bake.active.len()).filter(|i| bake.active[*i] == 1).collect();
            if on.len() > 1 && calls.len() == 1 {
                for i in on {
                    let mut b = bake.clone();
                    b.active[i] = 0;
                    let fit = calls.iter().map(|(p, allowance)| (fitted(&b, *p), *allowance)).collect();
                    out.push(Item::Bakes { bake: b.clone(), calls: calls.clone() });
                    out.push(Item::Bakes { bake: b, calls: fit });
                }
            }
        }
        // what is left of the same bake by the other engine
        Item::SolidBakes { bake, calls } => {
            for less in smaller(&Item::Bakes { bake: bake.clone(), calls: calls.clone() }) {
                if let Item::Bakes { bake, calls } = less {
                    out.push(Item::SolidBakes { bake, calls });
                }
            }
        }
        Item::TreeRays { lists, tree, hits, asked } => {
            for less in smaller(&Item::Rays { lists: lists.clone(), hits: hits.clone(), asked: asked.clone() }) {
                if let Item::Rays { lists: left, hits, asked } = less {
                    out.push(Item::TreeRays { tree: tree_of(lists, tree, &left), lists: left, hits, asked });
                }
            }
        }
        Item::TreeBakes { bake, tree, calls } => {
            for less in smaller(&Item::Bakes { bake: bake.clone(), calls: calls.clone() }) {
                if let Item::Bakes { bake: left, calls } = less {
                    out.push(Item::TreeBakes { tree: tree_of(&bake.lists, tree, &left.lists), bake: left, calls });
                }
            }
        }
        Item::One(Call::TreeSun { lists, .. }) => {
            for (l, _) in fewer_triangles(lists, None) {
                let mut call = item.clone();
                if let Item::One(Call::TreeSun { lists, tree, .. }) = &mut call {
                    *tree = trees::built(&l.points);
                    *lists = l;
                }
                out.push(call);
            }
        }
        Item::Fired(bake) => {
            for (l, _) in fewer_triangles(&bake.lists, None) {
                let mut b = bake.clone();
                b.lists = l;
                out.push(Item::Fired(b));
            }
            for b in fewer_lamps(bake) {
                out.push(Item::Fired(b));
            }
            let on: Vec<usize> = (0..bake.active.len()).filter(|i| bake.active[*i] == 1).collect();
            if on.len() > 1 {
                for i in on {
                    let mut b = bake.clone();
                    b.active[i] = 0;
                    out.push(Item::Fired(b));
                }
            }
        }
        Item::LightLookups { grid, light, positions } if positions.len() > 1 => {
            for p in positions {
                out.push(Item::LightLookups { grid: *grid, light: light.clone(), positions: vec![*p] });
            }
        }
        Item::CoefficientLookups { grid, volume, positions } if positions.len() > 1 => {
            for p in positions {
                out.push(Item::CoefficientLookups { grid: *grid, volume: volume.clone(), positions: vec![*p] });
            }
        }
        Item::One(Call::Sun { lists, .. } | Call::SolidSun { lists, .. }) => {
            for (l, _) in fewer_triangles(lists, None) {
                let mut call = item.clone();
                if let Item::One(Call::Sun { lists, .. } | Call::SolidSun { lists, .. }) = &mut call {
                    *lists = l;
                }
                out.push(call);
            }
        }
        Item::One(Call::Masks { points, .. }) if points.len() % 9 == 0 => {
            for k in 0..points.len() / 9 {
                let mut call = item.clone();
                if let Item::One(Call::Masks { points, .. }) = &mut call {
                    points.drain(9 * k..9 * k + 9);
                }
                out.push(call);
            }
        }
        _ => {}
    }
    out
}

pub fn shrink(module: &str, seed: u64, place: usize, command: &[&str]) -> Result<bool, String> {
    let mut item = found(module, seed, place)?;
    if !differs(&item, command)? {
        return Err(format!("record {place} of seed {seed} shows no difference"));
    }
    'on: loop {
        for less in smaller(&item) {
            if differs(&less, command)? {
                item = less;
                continue 'on;
            }
        }
        break;
    }
    std::io::stdout().write_all(format!("{item:?}\n").as_bytes()).map_err(|e| format!("cannot write: {e}"))?;
    Ok(true)
}
