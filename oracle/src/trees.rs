//! Document 02's C-20, written from that request alone: which trees are accepted, which boxes a ray passes over, the plain scan over the triangles that are
//! left, and the builder.
//!
//! What is recorded of the tree calls is the Rust's own answer over the candidates that this file leaves it: the triangles, in list order, whose own padded
//! box is not passed over. No tree is read for that. Each ray of it is then held to a walk of the lent tree, box by box, and where the two differ the
//! oracle stops.
use crate::answers;
use crate::calls::{Lists, Tree};
use crate::raytracer::{ray_triangle_intersect, RayTracer, Triangle};
use crate::watch::{self, seen, seen_if, Branch, Fired};
use glam::Vec3A;
use std::cell::Cell;

/// "each triangle's box padded by 1e-5"
const PAD: f32 = 1.0e-5;
/// "depth is at most 24"; the first box's is 0.
const DEEPEST: usize = 24;
/// "halves a run of triangles until four or fewer remain"
const FEW: usize = 4;
/// Document 01: "A triangle whose cross has squared length at most 1e-12 is absent everywhere."
const THIN: f32 = 1.0e-12;

/// A box: its low corner and its high one.
#[derive(Clone, Copy, Debug, PartialEq)]
pub struct Bounds {
    pub low: [f32; 3],
    pub high: [f32; 3],
}

impl Bounds {
    fn of(tree: &Tree, i: usize) -> Bounds {
        let at = |k: usize| tree.boxes[6 * i + k];
        Bounds { low: [at(0), at(1), at(2)], high: [at(3), at(4), at(5)] }
    }

    /// Faces that touch included; a bound that is no number is inside nothing and holds nothing.
    fn inside(&self, other: &Bounds) -> bool {
        (0..3).all(|k| other.low[k] <= self.low[k] && self.high[k] <= other.high[k])
    }

    fn touches(&self, other: &Bounds) -> bool {
        (0..3).any(|k| other.low[k] == self.low[k] || self.high[k] == other.high[k])
    }

    pub fn numbers(&self) -> [f32; 6] {
        [self.low[0], self.low[1], self.low[2], self.high[0], self.high[1], self.high[2]]
    }
}

fn least(a: f32, b: f32) -> f32 {
    if b < a { b } else { a }
}

fn most(a: f32, b: f32) -> f32 {
    if b > a { b } else { a }
}

/// A triangle's box, each bound padded by one f32 operation.
fn padded_of(p: [[f32; 3]; 3]) -> Bounds {
    Bounds {
        low: [0, 1, 2].map(|k| least(least(p[0][k], p[1][k]), p[2][k]) - PAD),
        high: [0, 1, 2].map(|k| most(most(p[0][k], p[1][k]), p[2][k]) + PAD),
    }
}

fn corners(points: &[f32], place: usize) -> [[f32; 3]; 3] {
    [0, 1, 2].map(|c| [0, 1, 2].map(|k| points[9 * place + 3 * c + k]))
}

pub fn padded(points: &[f32], place: usize) -> Bounds {
    padded_of(corners(points, place))
}

pub fn present(points: &[f32], place: usize) -> bool {
    let [p0, p1, p2] = corners(points, place);
    let (a, b) = ([0, 1, 2].map(|k| p1[k] - p0[k]), [0, 1, 2].map(|k| p2[k] - p0[k]));
    let cross = [a[1] * b[2] - a[2] * b[1], a[2] * b[0] - a[0] * b[2], a[0] * b[1] - a[1] * b[0]];
    !((cross[0] * cross[0] + cross[1] * cross[1]) + cross[2] * cross[2] <= THIN)
}

/// A node: an inner box and its two halves, or a leaf and its run of the order.
enum Node {
    Inner([usize; 2]),
    Leaf { first: usize, count: usize },
}

fn node(tree: &Tree, i: usize) -> Node {
    let at = |k: usize| tree.nodes[3 * i + k] as usize;
    if at(0) == 0 {
        Node::Inner([at(1), at(2)])
    } else {
        Node::Leaf { first: at(1), count: at(0) }
    }
}

/// Whether a tree is accepted for triangles that are good; watches why not.
pub fn accepted(points: &[f32], tree: &Tree) -> bool {
    match fault(points, tree) {
        Some(branch) => {
            seen(branch);
            false
        }
        None => {
            watched(tree);
            true
        }
    }
}

/// The first cause for which a tree is not accepted.
pub fn fault(points: &[f32], tree: &Tree) -> Option<Branch> {
    let triangles = points.len() / 9;
    let count = tree.nodes.len() / 3;
    if tree.nodes.len() % 3 != 0 {
        return Some(Branch::TreeNodesMisfit);
    }
    if tree.boxes.len() != 6 * count {
        return Some(Branch::TreeBoxesMisfit);
    }
    if tree.order.len() > triangles {
        return Some(Branch::TreeOrderLong);
    }
    if count == 0 {
        // "A scene with no present triangle has the empty tree, accepted there only."
        return (0..triangles).any(|place| present(points, place)).then_some(Branch::TreeEmpty);
    }
    // "each box but the first has exactly one parent", "children follow their parent"
    let mut parents = vec![0; count];
    for i in 0..count {
        match node(tree, i) {
            Node::Inner(halves) => {
                for half in halves {
                    if half >= count {
                        return Some(Branch::TreeHalfPast);
                    }
                    if half <= i {
                        return Some(Branch::TreeHalfBefore);
                    }
                    parents[half] += 1;
                }
            }
            Node::Leaf { first, count } => {
                if first + count > tree.order.len() {
                    return Some(Branch::TreeRunPast);
                }
            }
        }
    }
    if parents[1..].contains(&0) {
        return Some(Branch::TreeNoParent);
    }
    if parents[1..].iter().any(|parents| *parents > 1) {
        return Some(Branch::TreeTwoParents);
    }
    // "each box inside the one above", "depth is at most 24"
    let mut depth = vec![0; count];
    for i in 0..count {
        if depth[i] > DEEPEST {
            return Some(Branch::TreeDeep);
        }
        if let Node::Inner(halves) = node(tree, i) {
            for half in halves {
                depth[half] = depth[i] + 1;
                if !Bounds::of(tree, half).inside(&Bounds::of(tree, i)) {
                    return Some(Branch::TreeHalfOutside);
                }
            }
        }
    }
    // "every present triangle stands once, in a single leaf, each triangle's box padded by 1e-5 lies inside its leaf's"
    let mut stands = vec![0; triangles];
    for i in 0..count {
        if let Node::Leaf { first, count } = node(tree, i) {
            for place in &tree.order[first..first + count] {
                let place = *place as usize;
                if place >= triangles {
                    return Some(Branch::TreePlacePast);
                }
                if !present(points, place) {
                    return Some(Branch::TreeAbsentListed);
                }
                if !padded(points, place).inside(&Bounds::of(tree, i)) {
                    return Some(Branch::TreeTriangleOutside);
                }
                stands[place] += 1;
            }
        }
    }
    if (0..triangles).any(|place| stands[place] == 0 && present(points, place)) {
        return Some(Branch::TreeMissing);
    }
    stands.iter().any(|times| *times > 1).then_some(Branch::TreeTwice)
}

/// Watches what an accepted tree is like.
fn watched(tree: &Tree) {
    if cfg!(feature = "watch") {
        let count = tree.nodes.len() / 3;
        let mut depth = vec![0; count];
        seen_if(Branch::TreeBare, count == 0);
        seen_if(Branch::TreeUnbounded, tree.boxes.iter().any(|bound| !bound.is_finite()));
        for i in 0..count {
            seen_if(Branch::TreeDeepest, depth[i] == DEEPEST);
            match node(tree, i) {
                Node::Inner(halves) => {
                    for half in halves {
                        depth[half] = depth[i] + 1;
                        seen_if(Branch::TreeTouching, Bounds::of(tree, half).touches(&Bounds::of(tree, i)));
                    }
                }
                Node::Leaf { count, .. } => seen_if(Branch::TreeLoose, count > FEW),
            }
        }
    }
}

/// "A box is passed over when on some axis the origin lies above it and the direction is not negative, or below it and the direction is not positive."
pub fn passed_over(bounds: &Bounds, origin: [f32; 3], direction: [f32; 3]) -> bool {
    (0..3).any(|k| {
        origin[k] > bounds.high[k] && !(direction[k] < 0.0) || origin[k] < bounds.low[k] && !(direction[k] > 0.0)
    })
}

fn three(v: Vec3A) -> [f32; 3] {
    [v.x, v.y, v.z]
}

fn own_box(triangle: &Triangle) -> Bounds {
    padded_of([three(triangle.p0), three(triangle.p1), three(triangle.p2)])
}

thread_local! {
    /// Whether the call that is answered goes through a tree.
    static THROUGH: Cell<bool> = const { Cell::new(false) };
}

/// Ends with the call, also where a test within stops it.
struct Through;

impl Drop for Through {
    fn drop(&mut self) {
        THROUGH.set(false);
    }
}

/// What the Rust gives through a tree.
pub fn through<T>(call: impl FnOnce() -> T) -> T {
    THROUGH.set(true);
    let _ends = Through;
    call()
}

/// The Rust's candidates: all of them, or through a tree those whose own padded box is not passed over, in list order either way.
pub fn candidates<'a, S: 'a>(
    all: impl IntoIterator<Item = &'a S>,
    triangle: impl Fn(&'a S) -> &'a Triangle,
    origin: Vec3A,
    direction: Vec3A,
) -> impl Iterator<Item = &'a S> {
    let through = THROUGH.get();
    all.into_iter().filter(move |shape| !through || !passed_over(&own_box(triangle(shape)), three(origin), three(direction)))
}

/// What a walk of the tree finds: place, distance, u, v and front of each triangle that is met and counts.
type Hit = (usize, f32, f32, f32, bool);

/// A lent tree over a scene's triangles, to be walked.
struct Walk<'a> {
    lists: &'a Lists,
    tree: &'a Tree,
    /// The Rust's triangle of each place, none for an absent one.
    triangles: Vec<Option<Triangle>>,
}

impl<'a> Walk<'a> {
    fn new(lists: &'a Lists, tree: &'a Tree, tracer: &RayTracer) -> Self {
        let mut triangles = vec![None; lists.uses.len()];
        for triangle in tracer.triangles() {
            triangles[triangle.uv0.x as usize] = Some(triangle.clone());
        }
        (0..triangles.len()).for_each(|place| assert!(triangles[place].is_some() == present(&lists.points, place), "the Rust's own absent triangles"));
        Walk { lists, tree, triangles }
    }

    /// Distance, u, v and front where a triangle is met and counts.
    fn met(&self, place: usize, ray: &Fired) -> Option<(f32, f32, f32, bool)> {
        let met = ray_triangle_intersect(ray.origin, ray.direction, self.triangles[place].as_ref()?, ray.shortest, ray.longest)?;
        // kind 2 is absent from the back
        (self.kind(place) != 2 || met.3).then_some(met)
    }

    fn kind(&self, place: usize) -> u8 {
        self.lists.kinds[self.lists.uses[place] as usize]
    }

    /// A box, with so many that may still stand in it one in another.
    fn visit(&self, i: usize, left: usize, ray: &Fired, found: &mut Vec<Hit>) {
        let bounds = Bounds::of(self.tree, i);
        let passed = passed_over(&bounds, three(ray.origin), three(ray.direction));
        match node(self.tree, i) {
            Node::Inner(_) if passed => seen(Branch::TreeInnerPassed),
            Node::Inner(halves) => self.visit_halves(halves, left.checked_sub(1).expect("a tree no deeper than may be"), ray, found),
            Node::Leaf { .. } if passed => seen(Branch::TreeLeafPassed),
            Node::Leaf { first, count } => {
                for place in self.tree.order[first..first + count].iter().map(|place| *place as usize) {
                    if passed_over(&padded(&self.lists.points, place), three(ray.origin), three(ray.direction)) {
                        seen(Branch::TreeTrianglePassed);
                        continue;
                    }
                    seen(Branch::TreeTaken);
                    if let Some((t, u, v, front)) = self.met(place, ray) {
                        seen(Branch::TreeHit);
                        found.push((place, t, u, v, front));
                    }
                }
            }
        }
    }

    fn visit_halves(&self, halves: [usize; 2], left: usize, ray: &Fired, found: &mut Vec<Hit>) {
        halves.into_iter().for_each(|half| self.visit(half, left, ray, found));
    }

    /// What is met, in no order of its own.
    fn found(&self, ray: &Fired) -> Vec<Hit> {
        let mut found = Vec::new();
        if !self.tree.nodes.is_empty() {
            self.visit(0, DEEPEST, ray, &mut found);
        }
        self.seen(ray, &found);
        found
    }

    /// The smallest distance; among equal ones the highest place.
    fn nearest(&self, ray: &Fired) -> Option<Hit> {
        let mut found = self.found(ray);
        found.sort_by(|a, b| a.1.partial_cmp(&b.1).expect("a number").then(b.0.cmp(&a.0)));
        found.first().copied()
    }

    /// From 1.0, hits by distance, then by place; opaque gives 0, a product at most 0.0001 gives 0.
    fn transmittance(&self, ray: &Fired) -> f32 {
        let mut found = self.found(ray);
        found.sort_by(|a, b| a.1.partial_cmp(&b.1).expect("a number").then(a.0.cmp(&b.0)));
        let mut product = 1.0;
        for (place, ..) in found {
            if self.kind(place) != 1 {
                return 0.0;
            }
            product *= self.lists.numbers[7 * self.lists.uses[place] as usize + 6];
            if product <= 0.0001 {
                return 0.0;
            }
        }
        product
    }

    /// Watches every triangle that is there.
    fn seen(&self, ray: &Fired, found: &[Hit]) {
        if cfg!(feature = "watch") {
            let (origin, direction) = (three(ray.origin), three(ray.direction));
            for place in (0..self.triangles.len()).filter(|place| self.triangles[*place].is_some()) {
                let own = padded(&self.lists.points, place);
                for k in 0..3 {
                    let (above, below) = (origin[k] > own.high[k], origin[k] < own.low[k]);
                    seen_if(Branch::TreeAboveFlat, above && direction[k] == 0.0);
                    seen_if(Branch::TreeBelowFlat, below && direction[k] == 0.0);
                    seen_if(Branch::TreeAboveAway, above && direction[k] > 0.0);
                    seen_if(Branch::TreeBelowAway, below && direction[k] < 0.0);
                    seen_if(Branch::TreeOnFace, origin[k] == own.high[k] && !(direction[k] < 0.0) || origin[k] == own.low[k] && !(direction[k] > 0.0));
                }
                seen_if(Branch::TreePassedHit, passed_over(&own, origin, direction) && self.met(place, ray).is_some());
            }
            found.iter().for_each(|hit| assert!(self.triangles[hit.0].is_some()));
        }
    }
}

/// Stops where the Rust's nearest hit over its candidates is another than a walk of the tree finds.
pub fn hold_nearest(lists: &Lists, tree: &Tree, tracer: &RayTracer, ray: &Fired, answered: Option<(u32, f32, f32, f32, bool)>) {
    let own = Walk::new(lists, tree, tracer).nearest(ray);
    let same = match (answered, own) {
        (Some(a), Some(b)) => a.0 as usize == b.0 && [a.1, a.2, a.3].map(f32::to_bits) == [b.1, b.2, b.3].map(f32::to_bits) && a.4 == b.4,
        (a, b) => a.is_none() && b.is_none(),
    };
    assert!(same, "a nearest hit {answered:?}, through the tree {own:?}: {ray:?}");
}

/// The same of a transmittance.
pub fn hold_transmittance(lists: &Lists, tree: &Tree, tracer: &RayTracer, ray: &Fired, answered: f32) {
    let own = Walk::new(lists, tree, tracer).transmittance(ray);
    assert!(answered.to_bits() == own.to_bits(), "a transmittance of {answered}, through the tree {own}: {ray:?}");
}

/// The same for every ray that a pass has fired, each traced once more.
pub fn hold_all(lists: &Lists, tree: &Tree, rays: &[Fired]) {
    let scene = answers::bare(lists);
    let tracer = RayTracer::new(&scene);
    let walk = Walk::new(lists, tree, &tracer);
    for ray in rays {
        if ray.kind == 0 {
            let answered = through(|| tracer.trace_nearest(ray.origin, ray.direction, ray.shortest, ray.longest));
            let own = walk.nearest(ray);
            let same = match (&answered, own) {
                (Some(hit), Some((place, _, u, v, _))) => {
                    tracer.triangle(hit.triangle_index).uv0.x as usize == place && hit.bary_u.to_bits() == u.to_bits() && hit.bary_v.to_bits() == v.to_bits()
                }
                (answered, own) => answered.is_none() && own.is_none(),
            };
            assert!(same, "another nearest hit through the tree, {own:?}: {ray:?}");
        } else {
            let answered = through(|| tracer.trace_transmittance(ray.origin, ray.direction, &scene, ray.shortest, ray.longest));
            let own = walk.transmittance(ray);
            assert!(answered.to_bits() == own.to_bits(), "a transmittance of {answered}, through the tree {own}: {ray:?}");
        }
    }
    watch::take_rays();
}

/// C-20's builder: the tree of these triangles, as much of the lists as it writes.
pub fn built(points: &[f32]) -> Tree {
    let run: Vec<u32> = (0..points.len() / 9).filter(|place| present(points, *place)).map(|place| place as u32).collect();
    let mut tree = Tree::default();
    if !run.is_empty() {
        halved(points, &mut tree, run);
    }
    tree
}

/// A box over a run, then its left half's boxes, then its right half's.
fn halved(points: &[f32], tree: &mut Tree, mut run: Vec<u32>) {
    let boxes: Vec<Bounds> = run.iter().map(|place| padded(points, *place as usize)).collect();
    let whole = boxes[1..].iter().fold(boxes[0], |a, b| Bounds { low: [0, 1, 2].map(|k| least(a.low[k], b.low[k])), high: [0, 1, 2].map(|k| most(a.high[k], b.high[k])) });
    let here = tree.nodes.len() / 3;
    tree.boxes.extend(whole.numbers());
    if run.len() <= FEW {
        seen(Branch::TreeBuiltLeaf);
        tree.nodes.extend([run.len() as u32, tree.order.len() as u32, 0]);
        tree.order.extend(run);
        return;
    }
    seen(Branch::TreeBuilt);
    let axis = widest(points, &run);
    seen([Branch::TreeBuiltByX, Branch::TreeBuiltByY, Branch::TreeBuiltByZ][axis]);
    run.sort_by(|a, b| key(points, *a, axis).partial_cmp(&key(points, *b, axis)).expect("good points"));
    let right = run.split_off(run.len() / 2);
    seen_if(Branch::TreeBuiltOfEquals, key(points, run[run.len() - 1], axis) == key(points, right[0], axis));
    tree.nodes.extend([0, here as u32 + 1, 0]);
    halved(points, tree, run);
    tree.nodes[3 * here + 2] = tree.nodes.len() as u32 / 3;
    halved(points, tree, right);
}

/// A triangle's key on an axis: the sum of its three points.
fn key(points: &[f32], place: u32, axis: usize) -> f32 {
    let [p0, p1, p2] = corners(points, place as usize);
    (p0[axis] + p1[axis]) + p2[axis]
}

/// The axis along which the keys spread most.
fn widest(points: &[f32], run: &[u32]) -> usize {
    let [x, y, z] = [0, 1, 2].map(|axis| {
        let keys = || run.iter().map(|place| key(points, *place, axis));
        keys().fold(f32::NEG_INFINITY, most) - keys().fold(f32::INFINITY, least)
    });
    if x < y {
        if y < z { 2 } else { 1 }
    } else if x < z {
        2
    } else {
        0
    }
}
