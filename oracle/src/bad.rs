//! Calls that break each accepted number in turn, by the least step and in both directions, several at once, lengths one off either
//! way, of masks in words, 4,097 triangles, 257 materials, nine lamps, unused bits, a bake's record, NaN and infinities; and beside each the
//! accepted number next to it.
use crate::calls::{Bake, Call, Grid, Lists, Progress, Ray, Scratch, Tree};
use crate::chance::Chance;
use crate::progress_places;
use crate::table::{self, AXIS};
use crate::tree_places;
use crate::words;
use crate::worlds::{self, step, voxels, World};
use std::rc::Rc;

/// One change of a good call: what it is, the number that it alone must give (None: whatever the table says), and the change. Rays so far are
/// made to fit what is changed, unless they are what is changed.
#[derive(Clone)]
pub struct Change {
    pub name: String,
    pub number: Option<u32>,
    pub sets_rays: bool,
    pub make: Rc<dyn Fn(&mut Call)>,
}

pub fn change(name: impl Into<String>, number: Option<u32>, make: impl Fn(&mut Call) + 'static) -> Change {
    Change { name: name.into(), number, sets_rays: false, make: Rc::new(make) }
}

/// Stops where an input is not answered with the number that it was made for.
pub fn meant(given: u32, number: u32, what: &str) {
    assert!(given == number, "{what} gives {given}, meant was {number}");
}

type Visit<'a> = &'a mut dyn FnMut(&mut f32, &str, f32, f32, u32);

fn each(l: &mut [f32], name: &str, low: f32, high: f32, number: u32, visit: Visit) {
    for x in l {
        visit(x, name, low, high, number);
    }
}

fn material_slots(lists: &mut Lists, visit: Visit) {
    for m in lists.numbers.chunks_mut(7) {
        if m.len() == 7 {
            each(&mut m[..6], "colour", -65536.0, 65536.0, 6, visit);
            visit(&mut m[6], "transmission", 0.0, 1.0, 6);
        }
    }
}

fn ray_slots(ray: &mut Ray, visit: Visit) {
    each(&mut ray.origin, "origin", -65536.0, 65536.0, 8, visit);
    each(&mut ray.direction, "ray direction", -2.0, 2.0, 8, visit);
    visit(&mut ray.shortest, "shortest", 0.0, 65536.0, 8);
    visit(&mut ray.longest, "longest", f32::NEG_INFINITY, f32::INFINITY, 8);
}

/// Every number that a call tests on its own: its least and greatest accepted value and the refusal.
fn slots(call: &mut Call, visit: Visit) {
    let (light_bound, coefficient_bound) = (18446744073709551616.0, 79228162514264337593543950336.0);
    match call {
        Call::Triangle { points, ray } => {
            each(points, "point", -4096.0, 4096.0, 5, visit);
            ray_slots(ray, visit);
        }
        Call::Nearest { lists, ray }
        | Call::Transmittance { lists, ray, .. }
        | Call::SolidTransmittance { lists, ray }
        | Call::TreeNearest { lists, ray, .. }
        | Call::TreeTransmittance { lists, ray, .. } => {
            each(&mut lists.points, "point", -4096.0, 4096.0, 5, visit);
            material_slots(lists, visit);
            ray_slots(ray, visit);
        }
        Call::Masks { grid, points, .. } => {
            each(&mut grid.corners, "corner", -4096.0, 4096.0, 2, visit);
            each(points, "point", -4096.0, 4096.0, 5, visit);
        }
        Call::LightBlur { light, .. } => each(light, "light", -light_bound, light_bound, 13, visit),
        Call::CoefficientBlur { volume, .. } => each(volume, "coefficient", -coefficient_bound, coefficient_bound, 13, visit),
        Call::Sun { grid, lists, direction, .. } | Call::SolidSun { grid, lists, direction, .. } | Call::TreeSun { grid, lists, direction, .. } => {
            each(&mut grid.corners, "corner", -4096.0, 4096.0, 2, visit);
            each(&mut lists.points, "point", -4096.0, 4096.0, 5, visit);
            material_slots(lists, visit);
            each(direction, "light direction", -4096.0, 4096.0, 7, visit);
        }
        Call::Bake(b) | Call::SolidBake(b) | Call::TreeBake(b, _) => {
            each(&mut b.grid.corners, "corner", -4096.0, 4096.0, 2, visit);
            each(&mut b.lists.points, "point", -4096.0, 4096.0, 5, visit);
            material_slots(&mut b.lists, visit);
            each(&mut b.sunlight[..3], "light direction", -4096.0, 4096.0, 7, visit);
            each(&mut b.sunlight[3..], "light colour", -65536.0, 65536.0, 7, visit);
            each(&mut b.ambient, "ambient", -65536.0, 65536.0, 7, visit);
            each(&mut b.sky, "sky", -65536.0, 65536.0, 7, visit);
            for lamp in b.lamps.chunks_mut(6) {
                if lamp.len() == 6 {
                    for (i, name) in ["lamp x", "lamp y", "lamp z"].into_iter().enumerate() {
                        visit(&mut lamp[i], name, -4096.0, 4096.0, 19);
                    }
                    for (i, name) in ["lamp red", "lamp green", "lamp blue"].into_iter().enumerate() {
                        visit(&mut lamp[3 + i], name, -65536.0, 65536.0, 19);
                    }
                }
            }
            each(&mut b.light, "light", -light_bound, light_bound, 13, visit);
            if 0 < b.progress.next && b.progress.next < b.active.len() as u64 {
                each(&mut b.volume, "coefficient", -coefficient_bound, coefficient_bound, 13, visit);
            }
        }
        Call::LightLookup { grid, light, position } => {
            each(&mut grid.corners, "corner", -4096.0, 4096.0, 2, visit);
            each(position, "position", -4096.0, 4096.0, 11, visit);
            each(light, "light read or not", -light_bound, light_bound, 0, visit);
        }
        Call::CoefficientLookup { grid, volume, position } => {
            each(&mut grid.corners, "corner", -4096.0, 4096.0, 2, visit);
            each(position, "position", -4096.0, 4096.0, 11, visit);
            each(volume, "coefficient read or not", -coefficient_bound, coefficient_bound, 0, visit);
        }
        Call::Part { .. } => {}
        Call::BuildTree { points, .. } => each(points, "point", -4096.0, 4096.0, 5, visit),
    }
}

fn lists_of(call: &mut Call) -> Option<&mut Lists> {
    match call {
        Call::Nearest { lists, .. } | Call::Transmittance { lists, .. } | Call::Sun { lists, .. } => Some(lists),
        Call::SolidTransmittance { lists, .. } | Call::SolidSun { lists, .. } => Some(lists),
        Call::TreeNearest { lists, .. } | Call::TreeTransmittance { lists, .. } | Call::TreeSun { lists, .. } => Some(lists),
        Call::Bake(b) | Call::SolidBake(b) | Call::TreeBake(b, _) => Some(&mut b.lists),
        _ => None,
    }
}

/// The tree that a call is lent to read.
pub fn tree_of(call: &mut Call) -> Option<&mut Tree> {
    match call {
        Call::TreeNearest { tree, .. } | Call::TreeTransmittance { tree, .. } | Call::TreeSun { tree, .. } | Call::TreeBake(_, tree) => Some(tree),
        _ => None,
    }
}

fn hits_of(call: &mut Call) -> Option<&mut Scratch> {
    match call {
        Call::Transmittance { hits, .. } | Call::Sun { hits, .. } | Call::TreeTransmittance { hits, .. } | Call::TreeSun { hits, .. } => Some(hits),
        Call::Bake(b) | Call::TreeBake(b, _) => Some(&mut b.hits),
        _ => None,
    }
}

pub fn axes_of(call: &mut Call) -> Option<&mut [u64; 3]> {
    match call {
        Call::Masks { grid, .. } | Call::Sun { grid, .. } | Call::LightLookup { grid, .. } | Call::CoefficientLookup { grid, .. } => Some(&mut grid.axes),
        Call::LightBlur { axes, .. } | Call::CoefficientBlur { axes, .. } | Call::Part { axes, .. } => Some(axes),
        Call::SolidSun { grid, .. } | Call::TreeSun { grid, .. } => Some(&mut grid.axes),
        Call::Bake(b) | Call::SolidBake(b) | Call::TreeBake(b, _) => Some(&mut b.grid.axes),
        _ => None,
    }
}

fn grid_of(call: &mut Call) -> Option<&mut Grid> {
    match call {
        Call::Masks { grid, .. } | Call::Sun { grid, .. } | Call::LightLookup { grid, .. } | Call::CoefficientLookup { grid, .. } => Some(grid),
        Call::SolidSun { grid, .. } | Call::TreeSun { grid, .. } => Some(grid),
        Call::Bake(b) | Call::SolidBake(b) | Call::TreeBake(b, _) => Some(&mut b.grid),
        _ => None,
    }
}

fn direction_of(call: &mut Call) -> Option<&mut [f32]> {
    match call {
        Call::Sun { direction, .. } | Call::SolidSun { direction, .. } | Call::TreeSun { direction, .. } => Some(direction),
        Call::Bake(b) | Call::SolidBake(b) | Call::TreeBake(b, _) => Some(&mut b.sunlight[..3]),
        _ => None,
    }
}

fn mask_of(call: &mut Call) -> Option<&mut Vec<u8>> {
    match call {
        Call::Sun { active, .. } | Call::SolidSun { active, .. } | Call::TreeSun { active, .. } => Some(active),
        Call::Bake(b) | Call::SolidBake(b) | Call::TreeBake(b, _) => Some(&mut b.active),
        _ => None,
    }
}

/// Sets the bit of a mask that would be voxel `bit`'s, in a list as long as it takes.
pub fn set_bit(mask: &mut Vec<u8>, bit: usize) {
    mask.resize(mask.len().max(bit + 1), 0);
    mask[bit] = 1;
}

/// The bits of a mask's words that stand for none of its voxels.
pub fn unused(voxels: usize) -> std::ops::Range<usize> {
    voxels..64 * words::needed(voxels)
}

/// The lists whose length must be exact, each made `by` longer (shorter where negative), a mask by so many words.
fn resized(call: &mut Call, which: usize, by: i64) -> Option<&'static str> {
    fn fit<T: Clone + Default>(l: &mut Vec<T>, by: i64) {
        let n = (l.len() as i64 + by).max(0) as usize;
        let last = l.last().cloned().unwrap_or_default();
        l.resize(n, last);
    }
    let mut k = which;
    let mut here = || {
        k = k.wrapping_sub(1);
        k == usize::MAX
    };
    macro_rules! lists { ($($l:expr => $name:literal),*) => { { $( if here() { fit($l, by); return Some($name); } )* } }; }
    macro_rules! masks { ($($l:expr => $name:literal),*) => { { $( if here() { fit($l, 64 * by); return Some(concat!($name, " by words")); } )* } }; }
    if let Some(l) = lists_of(call) {
        lists!(&mut l.points => "points", &mut l.uses => "uses", &mut l.kinds => "kinds", &mut l.numbers => "material numbers");
    }
    match call {
        Call::Masks { points, occupied, active, .. } => {
            lists!(points => "points");
            masks!(occupied => "occupied", active => "active");
        }
        Call::LightBlur { light, scratch, .. } => lists!(light => "light", scratch => "light scratch"),
        Call::CoefficientBlur { volume, scratch, .. } => lists!(volume => "volume", scratch => "scratch"),
        Call::Sun { active, light, scratch, .. } | Call::SolidSun { active, light, scratch, .. } | Call::TreeSun { active, light, scratch, .. } => {
            masks!(active => "active");
            lists!(light => "light", scratch => "light scratch");
        }
        Call::Bake(b) | Call::SolidBake(b) | Call::TreeBake(b, _) => {
            lists!(&mut b.sky => "sky", &mut b.lamps => "lamps");
            masks!(&mut b.active => "active");
            lists!(&mut b.light => "light", &mut b.volume => "volume", &mut b.scratch => "scratch");
        }
        Call::LightLookup { light, .. } => lists!(light => "light"),
        Call::CoefficientLookup { volume, .. } => lists!(volume => "volume"),
        Call::Part { volume, scratch, .. } => lists!(volume => "volume", scratch => "scratch"),
        _ => {}
    }
    None
}

fn grow(l: &mut Lists, triangles: usize) {
    while l.uses.len() < triangles {
        let k = l.uses.len() % l.uses.len().min(2);
        let p = l.points[9 * k..9 * k + 9].to_vec();
        l.points.extend(p);
        l.uses.push(l.uses[k]);
    }
}

fn more_materials(l: &mut Lists, count: usize) {
    while l.kinds.len() < count {
        l.kinds.push(l.kinds.first().copied().unwrap_or(0));
        let m = l.numbers.get(..7).map_or(vec![0.5; 7], <[f32]>::to_vec);
        l.numbers.extend(m);
    }
}

pub fn lamps_to(lamps: &mut Vec<f32>, count: usize) {
    lamps.truncate(lamps.len() / 6 * 6);
    while lamps.len() < 6 * count {
        let k = (lamps.len() / 6) as f32;
        lamps.extend([0.25 * k - 0.5, 0.5, 0.125, 1.0, 0.5 * k, -0.25]);
    }
    lamps.truncate(6 * count);
}

fn room(hits: &mut Scratch, n: usize) {
    hits.distances.resize(n.max(hits.distances.len()), 1.5);
    hits.places.resize(n.max(hits.places.len()), 5);
}

/// All single changes of a good call. `few` keeps the first, a middle and the last number of each list only.
pub fn changes(call: &Call, few: bool) -> Vec<Change> {
    let mut out = Vec::new();
    // numbers
    let mut seen: Vec<(String, f32, f32, u32)> = Vec::new();
    slots(&mut call.clone(), &mut |_, name, low, high, number| seen.push((name.into(), low, high, number)));
    for (j, (name, low, high, number)) in seen.iter().cloned().enumerate() {
        let first = seen.iter().position(|s| s.0 == name).unwrap_or(0);
        let last = seen.iter().rposition(|s| s.0 == name).unwrap_or(0);
        if few && j != first && j != last && j != (first + last) / 2 {
            continue;
        }
        let mut values = vec![(f32::NAN, true)];
        if low.is_finite() {
            values.extend([(step(high, 1), true), (step(low, -1), true), (high, false), (low, false), (f32::INFINITY, true), (f32::NEG_INFINITY, true)]);
        } else {
            values.extend([(f32::INFINITY, false), (f32::NEG_INFINITY, false)]);
        }
        if name.starts_with("coefficient") {
            // what a coefficient could not be before there were lamps
            values.extend([(step(18446744073709551616.0, 1), false), (step(-18446744073709551616.0, -1), false)]);
        }
        for (value, breaks) in values {
            let number = if breaks && number != 0 { Some(number) } else { None };
            out.push(change(format!("{name} {} := {value:e}", j - first), number, move |call| {
                let mut at = 0;
                slots(call, &mut |x, _, _, _, _| {
                    if at == j {
                        *x = value;
                    }
                    at += 1;
                });
            }));
        }
    }
    // lengths
    let mut which = 0;
    while let Some(name) = resized(&mut call.clone(), which, 0) {
        for by in [-1i64, 1, 8, -9, 9] {
            let mut tried = call.clone();
            resized(&mut tried, which, by);
            if matches!(call, Call::Masks { .. }) && name == "points" && by % 9 == 0 {
                continue;
            }
            if table::refusal(&tried) != 3 && by.abs() == 1 {
                // a list that is empty already cannot be shortened
                continue;
            }
            out.push(change(format!("{name} {by:+} long"), if by.abs() == 1 { Some(3) } else { None }, move |call| {
                resized(call, which, by);
            }));
        }
        which += 1;
    }
    if hits_of(&mut call.clone()).is_some() && lists_of(&mut call.clone()).map(|l| l.uses.len()).unwrap_or(0) > 0 {
        for list in 0..2 {
            for by in [-1i64, 0, 1] {
                let number = if by < 0 { Some(3) } else { None };
                out.push(change(format!("hit scratch {list} {by:+} long"), number, move |call| {
                    let t = lists_of(call).expect("lists").uses.len() as i64 + by;
                    let hits = hits_of(call).expect("hit scratch");
                    if list == 0 {
                        hits.distances.resize(t.max(0) as usize, 2.5);
                    } else {
                        hits.places.resize(t.max(0) as usize, 7);
                    }
                }));
            }
        }
    }
    // axes
    if axes_of(&mut call.clone()).is_some() {
        for i in 0..3 {
            for (value, number) in [(0, Some(1)), (AXIS + 1, Some(1)), (u64::MAX, Some(1)), (1 << 32, Some(1)), ((1 << 32) + 1, Some(1)), (32, None)] {
                out.push(change(format!("axis {i} := {value}"), number, move |call| axes_of(call).expect("axes")[i] = value));
            }
        }
    }
    // edges: the least accepted far corner and the float below it
    if grid_of(&mut call.clone()).is_some() {
        for i in 0..3 {
            for down in [false, true] {
                out.push(change(format!("edge {i} at 1/1024{}", if down { " less a step" } else { "" }), if down { Some(2) } else { None }, move |call| {
                    let grid = grid_of(call).expect("grid");
                    let low = grid.corners[i];
                    if !(low.abs() <= 4096.0) || grid.axes[i] < 1 || grid.axes[i] > AXIS {
                        return;
                    }
                    let mut high = low + grid.axes[i] as f32 / 1024.0;
                    let good = |h: f32| (h - low) / grid.axes[i] as f32 >= 1.0 / 1024.0;
                    while good(high) {
                        high = high.next_down();
                    }
                    while !good(high) {
                        high = high.next_up();
                    }
                    grid.corners[3 + i] = if down { high.next_down() } else { high };
                }));
            }
            out.push(change(format!("corners {i} swapped"), Some(2), move |call| {
                let grid = grid_of(call).expect("grid");
                grid.corners.swap(i, 3 + i);
            }));
        }
    }
    // light direction: the least accepted and the step below it
    if direction_of(&mut call.clone()).is_some() {
        for axis in 0..3 {
            for down in [false, true] {
                out.push(change(format!("light {axis} at 1e-12{}", if down { " less a step" } else { "" }), if down { Some(7) } else { None }, move |call| {
                    let mut x = 1e-6f32;
                    while x * x > 1.0e-12 {
                        x = x.next_down();
                    }
                    while !(x * x > 1.0e-12) {
                        x = x.next_up();
                    }
                    let d = direction_of(call).expect("direction");
                    d.fill(0.0);
                    d[axis] = if down { x.next_down() } else { x };
                }));
            }
        }
        out.push(change("light all zero", Some(7), |call| direction_of(call).expect("direction").fill(-0.0)));
    }
    // triangles and materials
    if lists_of(&mut call.clone()).map(|l| l.uses.len()).unwrap_or(0) >= 2 {
        let counts: &[(usize, Option<u32>)] = if matches!(call, Call::Bake(_) | Call::SolidBake(_) | Call::TreeBake(..)) { &[(4097, Some(4))] } else { &[(4097, Some(4)), (4096, None)] };
        for (count, number) in counts.iter().cloned() {
            out.push(change(format!("{count} triangles"), number, move |call| {
                grow(lists_of(call).expect("lists"), count);
                if let Some(hits) = hits_of(call) {
                    room(hits, count);
                }
            }));
        }
        for (count, number) in [(257, Some(4)), (256, None)] {
            out.push(change(format!("{count} materials"), number, move |call| more_materials(lists_of(call).expect("lists"), count)));
        }
        for (kind, number) in [(3u8, Some(6)), (255, Some(6)), (1, None), (0, None)] {
            for last in [false, true] {
                out.push(change(format!("kind := {kind}"), number, move |call| {
                    let l = lists_of(call).expect("lists");
                    let entry = if last { l.kinds.last_mut() } else { l.kinds.first_mut() };
                    if let Some(k) = entry {
                        *k = kind;
                    }
                }));
            }
        }
        for last in [false, true] {
            for past in [0u32, 1, u32::MAX] {
                out.push(change(format!("use past the list by {past}"), Some(6), move |call| {
                    let l = lists_of(call).expect("lists");
                    let value = if past == u32::MAX { past } else { l.kinds.len() as u32 + past };
                    let entry = if last { l.uses.last_mut() } else { l.uses.first_mut() };
                    if let Some(u) = entry {
                        *u = value;
                    }
                }));
            }
        }
        out.push(change("no material at all", Some(6), |call| {
            let l = lists_of(call).expect("lists");
            // lengths that another change made not to fit still do not
            let misfit = l.numbers.len() != 7 * l.kinds.len();
            l.kinds.clear();
            l.numbers = vec![0.5; misfit as usize];
        }));
        out.push(change("a use past the list, of an absent triangle", Some(6), |call| {
            let l = lists_of(call).expect("lists");
            for i in 3..l.points.len().min(9) {
                l.points[i] = l.points[i % 3];
            }
            let past = l.kinds.len() as u32;
            if let Some(u) = l.uses.first_mut() {
                *u = past;
            }
        }));
    }
    if matches!(call, Call::Masks { .. }) {
        for (count, number) in [(4097usize, Some(4)), (4096, None)] {
            out.push(change(format!("{count} triangles"), number, move |call| {
                if let Call::Masks { points, .. } = call {
                    let one = [0.5, 0.25, 0.125, 0.75, 0.25, 0.125, 0.5, 0.5, 0.125];
                    *points = one.iter().cycle().take(9 * count).cloned().collect();
                }
            }));
        }
    }
    // masks
    if let Some(mask) = mask_of(&mut call.clone()) {
        let bits = unused(mask.len());
        if !bits.is_empty() {
            for bit in [bits.start, (bits.start + bits.end) / 2, bits.end - 1] {
                for (voxels, name) in [(None, ""), (Some(0), " and no voxel's"), (Some(1), " and every voxel's")] {
                    out.push(change(format!("unused bit {bit} set{name}"), Some(13), move |call| {
                        let mask = mask_of(call).expect("mask");
                        if let Some(entry) = voxels {
                            mask.fill(entry);
                        }
                        set_bit(mask, bit);
                    }));
                }
            }
        }
    }
    // the bake's own
    if let Call::Bake(b) | Call::SolidBake(b) | Call::TreeBake(b, _) = call {
        let n = b.active.len() as u64;
        for (progress, number) in [(n + 1, Some(9)), (u64::MAX, Some(9)), (n, None), (n - 1, None)] {
            out.push(change(format!("progress := {progress}"), number, move |call| {
                if let Call::Bake(b) | Call::SolidBake(b) | Call::TreeBake(b, _) = call {
                    b.progress.next = progress;
                    if !b.volume.iter().all(|x| x.is_finite()) {
                        b.volume.fill(0.25);
                    }
                }
            }));
        }
        let cost = table::cost(&b.lamps);
        for (allowance, number) in [(cost - 1, Some(10)), (0, Some(10)), (cost, None), (u64::MAX, None)] {
            out.push(change(format!("allowance := {allowance}"), number, move |call| {
                if let Call::Bake(b) | Call::SolidBake(b) | Call::TreeBake(b, _) = call {
                    b.allowance = allowance;
                }
            }));
        }
        for progress in [0, n] {
            out.push(change(format!("NaN in the volume at progress {progress}"), None, move |call| {
                if let Call::Bake(b) | Call::SolidBake(b) | Call::TreeBake(b, _) = call {
                    b.progress.next = progress;
                    b.volume.fill(f32::NAN);
                    b.scratch.fill(f32::INFINITY);
                }
            }));
        }
        out.push(change("allowance one short at the end", Some(10), move |call| {
            if let Call::Bake(b) | Call::SolidBake(b) | Call::TreeBake(b, _) = call {
                b.progress.next = n;
                b.allowance = cost - 1;
            }
        }));
        lamp_changes(&mut out);
    }
    out.extend(tree_places::changes(call, few));
    if let Call::Part { axes, .. } = call {
        let n = axes[0] * axes[1] * axes[2];
        for (index, number) in [(n, Some(11)), (n + 1, Some(11)), (u64::MAX, Some(11)), (1 << 60, Some(11)), (n - 1, None), (0, None)] {
            out.push(change(format!("index := {index}"), number, move |call| {
                if let Call::Part { index: i, .. } = call {
                    *i = index;
                }
            }));
        }
    }
    out
}

/// A bake's record: its rays at both bounds and one beside them, and far above; its next voxel one off. `few` leaves out the next voxels
/// between.
fn record_changes(bake: &Bake, few: bool) -> Vec<Change> {
    let n = bake.active.len() as u64;
    let here = bake.progress;
    let mut records = Vec::new();
    for next in (0..=n).filter(|next| !few || [0, here.next, n].contains(next)) {
        let (least, most) = progress_places::least_and_most(bake, next);
        records.extend([least.wrapping_sub(1), least, most, most + 1].map(|rays| (next, rays)));
    }
    records.extend(progress_places::far(bake, here.next).into_iter().map(|rays| (here.next, rays)));
    records.extend([here.next.wrapping_sub(1), here.next + 1].map(|next| (next, here.rays)));
    records.dedup();
    records
        .into_iter()
        .map(|(next, rays)| {
            let (least, most) = progress_places::least_and_most(bake, next);
            let number = if next > n || rays < least || rays > most { Some(9) } else { None };
            let made = change(format!("record := {next}, {rays}"), number, move |call| {
                if let Call::Bake(b) | Call::SolidBake(b) | Call::TreeBake(b, _) = call {
                    b.progress = Progress { next, rays };
                    if !b.volume.iter().all(|x| x.is_finite()) {
                        b.volume.fill(0.25);
                    }
                }
            });
            Change { sets_rays: true, ..made }
        })
        .collect()
}

/// The changes of a bake's record, each alone, and beside one of every other row.
fn of_records(bake: &Bake, base: &Call, others: &[Change], few: bool) -> Vec<Bad> {
    // numbers of their own, so that the calls without them stay what they were
    let mut c = Chance::new(0xC16 ^ bake.light[0].to_bits() as u64 ^ bake.lamps.len() as u64);
    let all = record_changes(bake, few);
    let mut out: Vec<Bad> = all.iter().map(|change| applied(base, &[change])).collect();
    let rows = [1, 2, 3, 4, 5, 6, 7, 19, 16, 9, 10, 13];
    for (place, row) in rows.into_iter().enumerate() {
        let fit: Vec<&Change> = others.iter().filter(|change| change.number == Some(row) && !change.name.contains("triangles")).collect();
        if row == 9 || fit.is_empty() {
            continue;
        }
        let other = fit[c.below(fit.len())];
        let wrong: Vec<Bad> = all
            .iter()
            .map(|record| applied(base, &[other, record]))
            // axes and lengths come first, and without good ones there is nothing to count
            .filter(|both| row < 4 || matches!(&both.call, Call::Bake(b) | Call::SolidBake(b) | Call::TreeBake(b, _) if !progress_places::keeps(b)))
            .collect();
        let k = c.below(wrong.len());
        let both = wrong.into_iter().nth(k).expect("a record that breaks the rule");
        meant(table::refusal(&both.call), if place < 9 { row } else { 9 }, &both.what);
        out.push(both);
    }
    out
}

/// Lamps of a bake: how many, with which allowance, and beside a fault of each row before and after 19.
fn lamp_changes(out: &mut Vec<Change>) {
    let mut lamps = |name: &str, number: Option<u32>, make: fn(&mut Bake)| {
        out.push(change(format!("lamps: {name}"), number, move |call| {
            if let Call::Bake(b) | Call::SolidBake(b) | Call::TreeBake(b, _) = call {
                make(b);
            }
        }))
    };
    fn allowed(b: &mut Bake, count: usize, less: u64) {
        lamps_to(&mut b.lamps, count);
        b.allowance = 384 + 64 * count as u64 - less;
    }
    lamps("none", None, |b| allowed(b, 0, 0));
    lamps("none, a ray too few", Some(10), |b| allowed(b, 0, 1));
    lamps("one", None, |b| allowed(b, 1, 0));
    lamps("one, a ray too few", Some(10), |b| allowed(b, 1, 1));
    lamps("one, the allowance of none", Some(10), |b| allowed(b, 1, 64));
    lamps("eight", None, |b| allowed(b, 8, 0));
    lamps("eight, a ray too few", Some(10), |b| allowed(b, 8, 1));
    lamps("eight, the allowance of seven", Some(10), |b| allowed(b, 8, 64));
    lamps("nine", Some(19), |b| allowed(b, 9, 0));
    lamps("nine, whatever they cost", Some(19), |b| {
        allowed(b, 9, 0);
        b.allowance = u64::MAX;
    });
    lamps("ten", Some(19), |b| allowed(b, 10, 0));
    lamps("nine less a number", Some(3), |b| {
        allowed(b, 9, 0);
        b.lamps.pop();
    });
    lamps("eight and half a lamp", Some(3), |b| {
        allowed(b, 8, 0);
        b.lamps.extend([0.5; 3]);
    });
    lamps("a list one long with a NaN", Some(3), |b| {
        allowed(b, 0, 0);
        b.lamps = vec![f32::NAN];
    });
    lamps("a bad one among nine", Some(19), |b| {
        allowed(b, 9, 0);
        b.lamps[50] = f32::INFINITY;
    });
    lamps("a bad number in the eighth only", Some(19), |b| {
        allowed(b, 8, 0);
        b.lamps[47] = step(65536.0, 1);
    });
    lamps("all numbers at their bounds", None, |b| {
        allowed(b, 8, 0);
        for (i, x) in b.lamps.iter_mut().enumerate() {
            *x = (if i % 6 < 3 { 4096.0 } else { 65536.0 }) * (if i % 2 == 0 { 1.0 } else { -1.0 });
        }
    });
    // a position's bound is not a colour's
    lamps("a position that a colour could be", Some(19), |b| {
        allowed(b, 2, 0);
        b.lamps[8] = 5000.0;
    });
    lamps("a colour that no position could be", None, |b| {
        allowed(b, 2, 0);
        b.lamps[9] = -5000.0;
    });
    lamps("a bad one and a bad sky", Some(7), |b| {
        allowed(b, 2, 0);
        b.lamps[0] = f32::NAN;
        // another change may have shortened the list
        b.sky.get_mut(1727).into_iter().for_each(|x| *x = f32::NAN);
    });
    lamps("a bad one and a bad material", Some(6), |b| {
        allowed(b, 2, 0);
        b.lamps[0] = f32::NAN;
        b.lists.kinds.first_mut().into_iter().for_each(|kind| *kind = 3);
    });
    lamps("a bad one and too much progress", Some(19), |b| {
        allowed(b, 2, 0);
        b.lamps[11] = f32::NEG_INFINITY;
        b.progress.next = b.active.len() as u64 + 1;
    });
    lamps("nine and no allowance", Some(19), |b| {
        allowed(b, 9, 0);
        b.allowance = 0;
    });
    lamps("too much progress and a ray too few", Some(9), |b| {
        allowed(b, 3, 1);
        b.progress.next = b.active.len() as u64 + 1;
    });
    lamps("a bad one and a bad mask", Some(19), |b| {
        allowed(b, 2, 0);
        b.lamps[2] = step(-4096.0, -1);
        b.active.push(1);
    });
    lamps("a ray too few and a bad mask", Some(10), |b| {
        allowed(b, 5, 1);
        b.active.push(1);
    });
    lamps("a bad one at the end", Some(19), |b| {
        allowed(b, 2, 0);
        b.lamps[7] = f32::NAN;
        b.progress.next = b.active.len() as u64;
    });
}

/// Good calls of every kind over a small world, to be broken.
pub fn bases(c: &mut Chance, world: &World) -> Vec<Call> {
    let n = voxels(&world.grid);
    let axes = world.grid.axes;
    let ray = Ray { origin: [0.25, 0.25, 1.0], direction: [0.0, 0.5, -1.0], shortest: 0.0, longest: f32::INFINITY };
    let mut p = [0.0; 9];
    p.copy_from_slice(&world.lists.points[..9]);
    let unit = |c: &mut Chance, n: usize| (0..n).map(|_| c.unit()).collect::<Vec<f32>>();
    let light = unit(c, n);
    let mut bake = worlds::bake(c, world, light);
    let whole = bake.clone();
    bake.progress = progress_places::chosen(&bake, 1);
    bake.allowance = 500;
    bake.volume = unit(c, 16 * n);
    let mut lamped = bake.clone();
    lamps_to(&mut lamped.lamps, 3);
    lamped.progress = progress_places::chosen(&lamped, 1);
    lamped.allowance += 3 * 64;
    let position = [0, 1, 2].map(|i| c.between(world.grid.corners[i], world.grid.corners[3 + i]));
    vec![
        Call::Triangle { points: p, ray },
        Call::Nearest { lists: world.lists.clone(), ray },
        Call::Transmittance { lists: world.lists.clone(), ray, hits: worlds::hits(c, &world.lists) },
        Call::Masks { grid: world.grid, points: world.lists.points.clone(), occupied: (0..n).map(|i| (i % 2) as u8).collect(), active: (0..n).map(|i| (i % 3 == 0) as u8).collect() },
        Call::LightBlur { axes, light: unit(c, n), scratch: vec![f32::NAN; n] },
        Call::CoefficientBlur { axes, volume: unit(c, 16 * n), scratch: vec![f32::INFINITY; 16 * n] },
        Call::Sun {
            grid: world.grid,
            lists: world.lists.clone(),
            direction: worlds::towards(world),
            active: world.active.clone(),
            light: vec![f32::NAN; n],
            scratch: vec![-3.0; n],
            hits: worlds::hits(c, &world.lists),
        },
        Call::Bake(Box::new(whole)),
        Call::Bake(Box::new(bake)),
        Call::LightLookup { grid: world.grid, light: unit(c, n), position },
        Call::CoefficientLookup { grid: world.grid, volume: unit(c, 16 * n), position },
        Call::Part { axes, volume: unit(c, 16 * n), scratch: unit(c, 16 * n), index: c.below(n) as u64, choice: c.one_in(2) },
        Call::Bake(Box::new(lamped)),
    ]
}

/// A bad call: a base with some changes, and what they were.
pub struct Bad {
    pub what: String,
    pub call: Call,
}

/// Lists that a mask call fills can be too short for their voxels and still be of the right words; they are made as long as the grid.
fn readable(call: &mut Call) {
    if table::refusal(call) == 0 {
        if let Call::Masks { grid, occupied, active, .. } = call {
            for mask in [occupied, active] {
                mask.resize(mask.len().max(voxels(grid)), 0);
            }
        }
    }
}

pub fn applied(base: &Call, changes: &[&Change]) -> Bad {
    let mut call = base.clone();
    for change in changes {
        (change.make)(&mut call);
    }
    if !changes.iter().any(|change| change.sets_rays) {
        progress_places::choose(&mut call);
    }
    readable(&mut call);
    let what = changes.iter().map(|c| c.name.clone()).collect::<Vec<_>>().join("; ");
    let number = table::refusal(&call);
    if let [one] = changes {
        if let Some(other) = one.number {
            meant(number, other, &what);
        }
    }
    Bad { what, call }
}

/// Every single change of a base; for every two numbers that it can be refused with one call that earns both, of which the one is given
/// whose row comes first: 19 stands after 7, else the lower; `several` random sets of two to four; and the changes of a bake's record.
pub fn of(c: &mut Chance, base: &Call, few: bool, several: usize) -> Vec<Bad> {
    meant(table::refusal(base), 0, "a base");
    let mut all = changes(base, few);
    if few && matches!(base, Call::Bake(b) | Call::SolidBake(b) | Call::TreeBake(b, _) if !b.lamps.is_empty()) {
        // beside what concerns the lamps, a fault of each row that they stand among
        let beside = ["lamp", "allowance", "progress", "sky", "coefficient", "unused bit", "NaN in the volume", "hit scratch", "kind :=", "tree"];
        all.retain(|change| beside.iter().any(|name| change.name.starts_with(name)));
    }
    let mut out: Vec<Bad> = all.iter().map(|change| applied(base, &[change])).collect();
    let one_of = |c: &mut Chance, number: u32| {
        let fit: Vec<&Change> = all.iter().filter(|change| change.number == Some(number) && !change.name.contains("triangles") && !change.name.starts_with("lamps:")).collect();
        fit.get(c.below(fit.len().max(1))).copied()
    };
    let mut rows: Vec<u32> = (1..14).collect();
    if all.iter().any(|change| change.number == Some(19)) {
        rows.insert(7, 19);
    }
    if all.iter().any(|change| change.number == Some(16)) {
        let after = rows.iter().position(|row| *row == 8).expect("row 8");
        rows.insert(after, 16);
    }
    for (place, first) in rows.iter().cloned().enumerate() {
        for later in rows[place + 1..].iter().cloned() {
            if let (Some(a), Some(b)) = (one_of(c, first), one_of(c, later)) {
                let mut both = applied(base, &[a, b]);
                if table::refusal(&both.call) != first {
                    // the second change undid the first
                    both = applied(base, &[b, a]);
                }
                meant(table::refusal(&both.call), first, &both.what);
                out.push(both);
            }
        }
    }
    for _ in 0..several {
        let set: Vec<&Change> = (0..c.from(2, 4)).map(|_| &all[c.below(all.len())]).collect();
        // thousands of triangles are tried alone
        if set.iter().all(|s| !s.name.contains("triangles")) {
            out.push(applied(base, &set));
        }
    }
    if let Call::Bake(bake) | Call::SolidBake(bake) | Call::TreeBake(bake, _) = base {
        out.extend(of_records(bake, base, &all, few));
    }
    out
}

/// A small world with triangles, good for bases: corners within reach, at least two voxels, two triangles, two materials.
pub fn base_world(seed: u64) -> World {
    let mut c = Chance::new(seed ^ 0xBAD);
    let mut w = worlds::family(FAMILY_ANYTHING, seed);
    w.grid = Grid { axes: [2, 1, 2], corners: [-0.5, 0.0, -1.0, 1.5, 1.25, 1.0] };
    let n = voxels(&w.grid);
    w.active = (0..n).map(|i| (i % 2 == 0) as u8).collect();
    w.sky = (0..1728).map(|i| [0.5, 0.25, 0.125][i % 3]).collect();
    w.lamps.clear();
    while w.lists.uses.len() > 4 {
        w.lists.uses.pop();
        w.lists.points.truncate(9 * w.lists.uses.len());
    }
    grow(&mut w.lists, 2);
    more_materials(&mut w.lists, 2);
    w.sunlight[0] = c.between(-0.5, 0.5);
    w.sunlight[1] = c.between(0.1, 0.5);
    w.sunlight[2] = c.between(0.1, 0.5);
    w
}

pub const FAMILY_ANYTHING: usize = 19;
