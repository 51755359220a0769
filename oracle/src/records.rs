//! The records that a replay program reads: little-endian words, each record led by its length in bytes.
//!
//! A list is: its length, the length k of a pattern, the pattern's k words (entry i is word i mod k), the count of exceptions, and for
//! each its place and its word. A list of u64 has two words an entry, low first, and its length counts words. The first word of a
//! record is its kind; then stand the numbers passed by value, the lists in the order of the call's arguments, and the answer. A mask is a
//! list of entries, and `words.rs` says which words it stands for.
//!
//! Beside its bytes a record says how many comparisons its program makes of it, counted here from what was recorded: one that the lists fit
//! (not for a triangle, which has none), one for each word or group of words held to the answer, one for each list, and one where hit scratch
//! must stand as it was. A record that `through_both` lets pass is put through C-22's call as well, and each of its answers is held once more,
//! of the rays that a bake fires their count, but not that the lists fit, and no hit scratch. The records of the solid calls are laid out as the others, with no hit scratch in them.
use crate::answers::{self, as_handed_in, bake_answer, bake_call, baked, solid_answer, solid_baked, tree_baked};
use crate::calls::{bits, bytes, halves, Answer, Bake, Call, Grid, Lists, Progress, Ray, RayCall, Scratch, Tree};
use crate::table::{self, AXIS};

/// A record, led by its length; the comparisons that its program makes of it; the refusals among its answers, 0 for none; and whether calls of it
/// are put through both engines.
#[derive(Default)]
pub struct Record {
    pub bytes: Vec<u8>,
    pub comparisons: u64,
    pub refusals: Vec<u32>,
    pub both: bool,
}

/// Whether a transmittance, a sun pass or a bake over these lists is put through C-22's call as well: every kind is 0, none at all among it, and each
/// hit list is at least as long as the list of uses. Then no row tells the two calls apart, and both are held to one answer.
fn through_both(lists: &Lists, hits: &Scratch) -> bool {
    let long = |list: usize| list >= lists.uses.len();
    lists.kinds.iter().all(|kind| *kind == 0) && long(hits.distances.len()) && long(hits.places.len())
}

/// The limit before C-21. Lists of a grid with an axis above it are held to more patterns and may differ from them more often; the others
/// stand as they were recorded then.
const AXIS_BEFORE: u64 = 32;

/// What a program has room for.
const MOST_WORDS: usize = 262_144;

#[derive(Default)]
struct Writer {
    words: Vec<u32>,
    wide_grid: bool,
    comparisons: u64,
    refusals: Vec<u32>,
    both: bool,
}

impl Writer {
    fn word(&mut self, w: u32) {
        self.words.push(w);
    }

    fn wide(&mut self, w: u64) {
        self.words.extend([w as u32, (w >> 32) as u32]);
    }

    fn floats(&mut self, l: &[f32]) {
        self.words.extend(bits(l));
    }

    /// Of the patterns tried, the one that makes the list shortest: its first words repeated, its last ones, in a wide grid those a third on, or
    /// the list itself.
    fn list(&mut self, l: &[u32]) {
        let n = l.len();
        // up to so many places where a list is not its pattern
        let apart = |pattern: &[u32], most: usize| {
            let rows = l.chunks(pattern.len()).enumerate();
            let odd = rows.flat_map(|(row, part)| (0..part.len()).filter(|j| part[*j] != pattern[*j]).map(move |j| row * pattern.len() + j));
            odd.take(most + 1).collect::<Vec<usize>>()
        };
        let lengths: &[usize] = if self.wide_grid { &[1, 2, 3, 7, 9, 16, 18, 192, 112, 128, 256, 2048] } else { &[1, 2, 3, 7, 9, 16, 18, 192] };
        let most = if self.wide_grid { 4000 } else { 40 };
        let mut best = (l.to_vec(), Vec::new());
        for k in lengths.iter().cloned() {
            if k < n {
                // entry i of the last k stands at place i mod k
                let last: Vec<u32> = (0..k).map(|j| l[n - 1 - (n - 1 - j) % k]).collect();
                let mut patterns = vec![l[..k].to_vec(), last];
                if self.wide_grid {
                    let on = n / k / 3 * k;
                    patterns.push(l[on..on + k].to_vec());
                }
                for pattern in patterns {
                    let shorter = best.0.len() + 2 * best.1.len();
                    // no pattern can be shorter, or in a wide grid this one will do
                    if k >= shorter || self.wide_grid && 1000 * shorter < n {
                        continue;
                    }
                    let odd = apart(&pattern, most.min(shorter / 2));
                    if odd.len() <= most && k + 2 * odd.len() < shorter {
                        best = (pattern, odd);
                    }
                }
            }
        }
        let (pattern, odd) = best;
        self.word(n as u32);
        self.word(pattern.len() as u32);
        self.words.extend(pattern);
        self.word(odd.len() as u32);
        for i in odd {
            self.word(i as u32);
            self.word(l[i]);
        }
    }

    fn lists(&mut self, l: &Lists) {
        self.list(&bits(&l.points));
        self.list(&l.uses);
        self.list(&bytes(&l.kinds));
        self.list(&bits(&l.numbers));
    }

    fn hits(&mut self, h: &Scratch) {
        self.list(&bits(&h.distances));
        self.list(&halves(&h.places));
    }

    fn tree(&mut self, t: &Tree) {
        self.list(&bits(&t.boxes));
        self.list(&t.nodes);
        self.list(&t.order);
    }

    fn axes(&mut self, axes: [u64; 3]) {
        self.wide_grid = axes.iter().all(|a| (1..=AXIS).contains(a)) && axes.iter().any(|a| *a > AXIS_BEFORE);
        for a in axes {
            self.wide(a);
        }
    }

    fn grid(&mut self, g: &Grid) {
        self.axes(g.axes);
        self.floats(&g.corners);
    }

    fn ray(&mut self, r: &Ray) {
        self.floats(&r.origin);
        self.floats(&r.direction);
        self.floats(&[r.shortest, r.longest]);
    }

    fn answer(&mut self, a: &Answer) {
        self.words.extend(&a.words);
        for l in &a.lists {
            self.list(l);
        }
    }

    /// An answer that is held to the record by so many comparisons.
    fn held(&mut self, comparisons: u64, refusal: u32) {
        self.comparisons += comparisons;
        self.refusals.push(refusal);
    }

    fn record(self) -> Record {
        assert!(self.words.len() <= MOST_WORDS, "a record of {} words", self.words.len());
        let mut bytes = (4 * self.words.len() as u32).to_le_bytes().to_vec();
        for w in &self.words {
            bytes.extend(w.to_le_bytes());
        }
        Record { bytes, comparisons: self.comparisons, refusals: self.refusals, both: self.both }
    }
}

pub const TRIANGLE: u32 = 1;
pub const RAYS: u32 = 2;
pub const MASKS: u32 = 3;
pub const LIGHT_BLUR: u32 = 4;
pub const COEFFICIENT_BLUR: u32 = 5;
pub const SUN: u32 = 6;
pub const BAKE: u32 = 7;
pub const LIGHT_LOOKUP: u32 = 8;
pub const COEFFICIENT_LOOKUP: u32 = 9;
pub const PART: u32 = 10;
pub const FIRED: u32 = 11;
pub const SOLID_SUN: u32 = 12;
pub const SOLID_BAKE: u32 = 13;
pub const TREE_RAYS: u32 = 14;
pub const TREE_SUN: u32 = 15;
pub const TREE_BAKE: u32 = 16;
pub const BUILD_TREE: u32 = 17;

/// A record of one call and the oracle's answer.
pub fn record(call: &Call) -> Record {
    match call {
        Call::Nearest { lists, ray } => rays(lists, &Scratch::default(), &[(RayCall::Nearest, *ray)]),
        Call::Transmittance { lists, ray, hits } => rays(lists, hits, &[(RayCall::Transmittance, *ray)]),
        Call::SolidTransmittance { lists, ray } => rays(lists, &Scratch::default(), &[(RayCall::SolidTransmittance, *ray)]),
        Call::LightLookup { grid, light, position } => light_lookups(grid, light, &[*position]),
        Call::CoefficientLookup { grid, volume, position } => coefficient_lookups(grid, volume, &[*position]),
        Call::Bake(bake) => bakes(bake, &[(bake.progress, bake.allowance)]),
        Call::SolidBake(bake) => solid_bakes(bake, &[(bake.progress, bake.allowance)]),
        Call::TreeNearest { lists, tree, ray } => tree_rays(lists, tree, &Scratch::default(), &[(RayCall::Nearest, *ray)]),
        Call::TreeTransmittance { lists, tree, ray, hits } => tree_rays(lists, tree, hits, &[(RayCall::Transmittance, *ray)]),
        Call::TreeBake(bake, tree) => tree_bakes(bake, tree, &[(bake.progress, bake.allowance)]),
        Call::BuildTree { points, tree } => build_tree(points, tree),
        _ => plain(call),
    }
}

fn plain(call: &Call) -> Record {
    let mut w = Writer::default();
    let answer = answers::answer(call);
    match call {
        Call::Triangle { points, ray } => {
            w.word(TRIANGLE);
            w.floats(points);
            w.ray(ray);
        }
        Call::Masks { grid, points, occupied, active } => {
            w.word(MASKS);
            w.grid(grid);
            w.list(&bits(points));
            w.list(&bytes(occupied));
            w.list(&bytes(active));
        }
        Call::LightBlur { axes, light, scratch } => {
            w.word(LIGHT_BLUR);
            w.axes(*axes);
            w.list(&bits(light));
            w.list(&bits(scratch));
        }
        Call::CoefficientBlur { axes, volume, scratch } => {
            w.word(COEFFICIENT_BLUR);
            w.axes(*axes);
            w.list(&bits(volume));
            w.list(&bits(scratch));
        }
        Call::Sun { grid, lists, direction, active, light, scratch, hits } => {
            w.word(SUN);
            w.grid(grid);
            w.floats(direction);
            w.lists(lists);
            w.list(&bytes(active));
            w.list(&bits(light));
            w.list(&bits(scratch));
            w.hits(hits);
            w.word((answer.lists.len() > 2) as u32);
            w.both = through_both(lists, hits);
        }
        Call::SolidSun { grid, lists, direction, active, light, scratch } => {
            w.word(SOLID_SUN);
            w.grid(grid);
            w.floats(direction);
            w.lists(lists);
            w.list(&bytes(active));
            w.list(&bits(light));
            w.list(&bits(scratch));
            w.hits(&Scratch::default());
            w.word(0);
        }
        Call::TreeSun { grid, lists, tree, direction, active, light, scratch, hits } => {
            w.word(TREE_SUN);
            w.grid(grid);
            w.floats(direction);
            w.lists(lists);
            w.list(&bytes(active));
            w.list(&bits(light));
            w.list(&bits(scratch));
            w.hits(hits);
            w.tree(tree);
            w.word((answer.lists.len() > 2) as u32);
        }
        Call::Part { axes, volume, scratch, index, choice } => {
            w.word(PART);
            w.axes(*axes);
            w.list(&bits(volume));
            w.list(&bits(scratch));
            w.wide(*index);
            w.word(*choice as u32);
        }
        _ => unreachable!("recorded in a batch"),
    }
    // hit scratch that must stand as it was is in the record already
    let keep = Answer { words: answer.words.clone(), lists: answer.lists[..answer.lists.len().min(2)].to_vec() };
    if w.both {
        assert!(call.solid().is_some_and(|solid| answers::answer(&solid) == keep), "both engines give one answer");
    }
    w.answer(&keep);
    let comparisons = match call {
        Call::Triangle { .. } => 1,
        Call::Masks { .. } => 6,
        // refusal, rays, light and scratch once more by the other engine
        Call::Sun { .. } => 5 + (answer.lists.len() > 2) as u64 + 4 * w.both as u64,
        Call::SolidSun { .. } => 5,
        Call::TreeSun { .. } => 5 + (answer.lists.len() > 2) as u64,
        Call::Part { .. } => 3,
        _ => 4,
    };
    w.held(comparisons, answer.words[0]);
    w.record()
}

/// Rays over one scene: each the nearest hit, the transmittance or the solid one, which reads no hit scratch. A ray stands as sixteen words: which of the
/// three, its eight numbers, and the answer's seven: refusal, hit, place, distance, u, v and front, or refusal and transmittance.
pub fn rays(lists: &Lists, hits: &Scratch, asked: &[(RayCall, Ray)]) -> Record {
    let mut w = Writer::default();
    w.word(RAYS);
    w.lists(lists);
    w.hits(hits);
    w.word(asked.len() as u32);
    w.comparisons = 1;
    for (which, ray) in asked {
        w.word(*which as u32);
        w.ray(ray);
        let call = match which {
            RayCall::Nearest => Call::Nearest { lists: lists.clone(), ray: *ray },
            RayCall::Transmittance => Call::Transmittance { lists: lists.clone(), ray: *ray, hits: hits.clone() },
            RayCall::SolidTransmittance => Call::SolidTransmittance { lists: lists.clone(), ray: *ray },
        };
        let mut words = answers::answer(&call).words;
        let through = *which == RayCall::Transmittance;
        let both = through && through_both(lists, hits);
        if both {
            assert!(call.solid().is_some_and(|solid| answers::answer(&solid).words == words), "both engines give one answer");
        }
        w.both |= both;
        words.resize(7, 0);
        w.held(1 + (through && words[0] != 0) as u64 + both as u64, words[0]);
        w.words.extend(words);
    }
    w.record()
}

/// The same through C-20's tree, whose three lists stand behind hit scratch; a ray is the nearest hit or the transmittance.
pub fn tree_rays(lists: &Lists, tree: &Tree, hits: &Scratch, asked: &[(RayCall, Ray)]) -> Record {
    let mut w = Writer::default();
    w.word(TREE_RAYS);
    w.lists(lists);
    w.hits(hits);
    w.tree(tree);
    w.word(asked.len() as u32);
    w.comparisons = 1;
    for (which, ray) in asked {
        w.word(*which as u32);
        w.ray(ray);
        let (lists, tree, ray) = (lists.clone(), tree.clone(), *ray);
        let call = match which {
            RayCall::Nearest => Call::TreeNearest { lists, tree, ray },
            RayCall::Transmittance => Call::TreeTransmittance { lists, tree, ray, hits: hits.clone() },
            RayCall::SolidTransmittance => unreachable!("no solid call takes a tree"),
        };
        let mut words = answers::answer(&call).words;
        words.resize(7, 0);
        w.held(1 + (*which == RayCall::Transmittance && words[0] != 0) as u64, words[0]);
        w.words.extend(words);
    }
    w.record()
}

/// C-20's builder: points, the three lists as they are lent, then refusal, boxes and places, and the three lists afterwards.
pub fn build_tree(points: &[f32], tree: &Tree) -> Record {
    let mut w = Writer::default();
    w.word(BUILD_TREE);
    w.list(&bits(points));
    w.tree(tree);
    let answer = answers::answer(&Call::BuildTree { points: points.to_vec(), tree: tree.clone() });
    w.held(7, answer.words[0]);
    w.answer(&answer);
    w.record()
}

pub fn light_lookups(grid: &Grid, light: &[f32], positions: &[[f32; 3]]) -> Record {
    let mut w = Writer::default();
    w.word(LIGHT_LOOKUP);
    w.grid(grid);
    w.list(&bits(light));
    w.word(positions.len() as u32);
    w.comparisons = 1;
    for p in positions {
        w.floats(p);
        let answer = answers::answer(&Call::LightLookup { grid: *grid, light: light.to_vec(), position: *p });
        w.held(1, answer.words[0]);
        w.answer(&answer);
    }
    w.record()
}

pub fn coefficient_lookups(grid: &Grid, volume: &[f32], positions: &[[f32; 3]]) -> Record {
    let mut w = Writer::default();
    w.word(COEFFICIENT_LOOKUP);
    w.grid(grid);
    w.list(&bits(volume));
    w.word(positions.len() as u32);
    w.comparisons = 1;
    for p in positions {
        w.floats(p);
        let answer = answers::answer(&Call::CoefficientLookup { grid: *grid, volume: volume.to_vec(), position: *p });
        w.held(1, answer.words[0]);
        w.answer(&answer);
    }
    w.record()
}

fn bake_arguments(w: &mut Writer, b: &Bake) {
    w.grid(&b.grid);
    w.floats(&b.sunlight);
    w.floats(&b.ambient);
    w.lists(&b.lists);
    w.list(&bits(&b.sky));
    w.list(&bits(&b.lamps));
    w.list(&bytes(&b.active));
    w.list(&bits(&b.light));
    w.list(&bits(&b.volume));
    w.list(&bits(&b.scratch));
    w.hits(&b.hits);
}

/// Calls of the bake one after another over the same lists, each with its record and allowance. A call stands as fourteen words, a u64 as
/// two of them: next voxel, rays so far and allowance handed in, whether hit scratch is held, the refusal, next voxel and rays so far answered,
/// and the rays of this call; then volume and scratch.
pub fn bakes(bake: &Bake, calls: &[(Progress, u64)]) -> Record {
    calls_of(bake, calls, &Engine::Lent)
}

/// The same by C-22's engine. No hit scratch is lent.
pub fn solid_bakes(bake: &Bake, calls: &[(Progress, u64)]) -> Record {
    calls_of(&bake.without_hits(), calls, &Engine::Solid)
}

/// The same through C-20's tree, whose three lists stand behind hit scratch.
pub fn tree_bakes(bake: &Bake, tree: &Tree, calls: &[(Progress, u64)]) -> Record {
    calls_of(bake, calls, &Engine::Tree(tree))
}

/// By which call a bake is made.
#[derive(PartialEq)]
enum Engine<'a> {
    Lent,
    Solid,
    Tree(&'a Tree),
}

fn calls_of(bake: &Bake, calls: &[(Progress, u64)], engine: &Engine) -> Record {
    let solid = *engine == Engine::Solid;
    let mut w = Writer::default();
    w.word(match engine {
        Engine::Lent => BAKE,
        Engine::Solid => SOLID_BAKE,
        Engine::Tree(_) => TREE_BAKE,
    });
    bake_arguments(&mut w, bake);
    if let Engine::Tree(tree) = engine {
        w.tree(tree);
    }
    w.word(calls.len() as u32);
    w.comparisons = 1;
    w.both = *engine == Engine::Lent && !calls.is_empty() && through_both(&bake.lists, &bake.hits);
    let figured = |bake: &Bake, both: bool| match engine {
        Engine::Tree(tree) => tree_baked(bake, tree),
        _ if solid || both => solid_baked(bake, Some(&bake.active)),
        _ => baked(bake, Some(&bake.active)),
    };
    let mut now = bake.clone();
    let mut figures = None;
    for (progress, allowance) in calls {
        now.progress = *progress;
        now.allowance = *allowance;
        let call = Call::Bake(Box::new(now.clone()));
        let by_solid = call.solid().map(|solid| table::refusal(&solid));
        let refusal = match engine {
            Engine::Lent => table::refusal(&call),
            Engine::Solid => by_solid.expect("a bake"),
            Engine::Tree(tree) => table::refusal(&Call::TreeBake(Box::new(now.clone()), (*tree).clone())),
        };
        assert!(!w.both || by_solid == Some(refusal), "both engines give one answer");
        let (answered, rays) = if refusal == 0 {
            let figures = figures.get_or_insert_with(|| figured(bake, w.both));
            bake_call(&mut now, figures)
        } else {
            as_handed_in(&now)
        };
        w.wide(progress.next);
        w.wide(progress.rays);
        w.wide(*allowance);
        let answer = (if solid { solid_answer } else { bake_answer })(&now, refusal, answered, rays);
        w.word((answer.lists.len() > 2) as u32);
        // refusal, next voxel, rays so far, rays of this call, volume, scratch; the same once more by the other engine
        w.held(6 + (answer.lists.len() > 2) as u64 + 6 * w.both as u64, refusal);
        w.answer(&Answer { words: answer.words, lists: answer.lists[..2].to_vec() });
    }
    w.record()
}

/// A bake in one call from progress 0 and every ray it fires: kind, origin, direction, shortest and longest.
pub fn fired(bake: &Bake) -> Record {
    let mut w = Writer::default();
    w.word(FIRED);
    bake_arguments(&mut w, bake);
    let figures = baked(bake, Some(&bake.active));
    w.word(figures.rays.len() as u32);
    for ray in &figures.rays {
        w.word(ray.voxel as u32);
        w.word(ray.kind);
        w.floats(&[ray.origin.x, ray.origin.y, ray.origin.z, ray.direction.x, ray.direction.y, ray.direction.z, ray.shortest, ray.longest]);
    }
    w.both = through_both(&bake.lists, &bake.hits);
    // that the lists fit, each ray, their number, and the count that the bake reports; that count once more by the other engine
    w.held(3 + figures.rays.len() as u64 + w.both as u64, table::refusal(&Call::Bake(Box::new(bake.clone()))));
    w.record()
}
