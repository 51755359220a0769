//! A tree of boxes, for measuring alone: shapes are halved at the median along the widest axis of their boxes' middles until four or fewer remain, and a
//! ray's candidates are the shapes of the leaves whose boxes it meets, nodes from the left. The real bvh's candidates and their order are not at hand.
use crate::aabb::Aabb;
use crate::bounding_hierarchy::BHShape;
use crate::ray::Ray;

type Bounds = [[f32; 3]; 2];

struct Node {
    bounds: Bounds,
    /// the first of a leaf's shapes, or the node on the right; the one on the left follows
    at: usize,
    /// how many shapes a leaf has, 0 of an inner node
    shapes: usize,
}

pub struct Bvh<T, const D: usize> {
    nodes: Vec<Node>,
    order: Vec<usize>,
    kept: std::marker::PhantomData<T>,
}

fn bounds(b: &Aabb<f32, 3>) -> Bounds {
    [[b.min.x, b.min.y, b.min.z], [b.max.x, b.max.y, b.max.z]]
}

fn joined(all: &[Bounds], order: &[usize]) -> Bounds {
    let mut b = [[f32::INFINITY; 3], [f32::NEG_INFINITY; 3]];
    for i in order {
        for axis in 0..3 {
            b[0][axis] = b[0][axis].min(all[*i][0][axis]);
            b[1][axis] = b[1][axis].max(all[*i][1][axis]);
        }
    }
    b
}

impl Bvh<f32, 3> {
    pub fn build<S: BHShape<f32, 3>>(shapes: &mut [S]) -> Self {
        let all: Vec<Bounds> = shapes.iter().map(|s| bounds(&s.aabb())).collect();
        let mut tree = Self { nodes: vec![], order: (0..all.len()).collect(), kept: std::marker::PhantomData };
        if !all.is_empty() {
            tree.split(&all, 0, all.len());
        }
        tree
    }

    fn split(&mut self, all: &[Bounds], from: usize, to: usize) {
        let node = self.nodes.len();
        self.nodes.push(Node { bounds: joined(all, &self.order[from..to]), at: from, shapes: to - from });
        if to - from <= 4 {
            return;
        }
        let middle = |i: usize, axis: usize| all[i][0][axis] + all[i][1][axis];
        let width = |axis: usize| {
            let m = self.order[from..to].iter().map(|i| middle(*i, axis));
            m.clone().fold(f32::NEG_INFINITY, f32::max) - m.fold(f32::INFINITY, f32::min)
        };
        let axis = (0..3).max_by(|a, b| width(*a).total_cmp(&width(*b))).expect("three axes");
        self.order[from..to].sort_by(|a, b| middle(*a, axis).total_cmp(&middle(*b, axis)));
        let half = from + (to - from) / 2;
        self.split(all, from, half);
        self.nodes[node] = Node { at: self.nodes.len(), shapes: 0, ..std::mem::replace(&mut self.nodes[node], Node { bounds: [[0.0; 3]; 2], at: 0, shapes: 0 }) };
        self.split(all, half, to);
    }

    pub fn traverse<'a, S: BHShape<f32, 3>>(&self, ray: &Ray<f32, 3>, shapes: &'a [S]) -> Vec<&'a S> {
        let origin = [ray.origin.x, ray.origin.y, ray.origin.z];
        let inverse = [1.0 / ray.direction.x, 1.0 / ray.direction.y, 1.0 / ray.direction.z];
        let mut candidates = Vec::new();
        let mut waiting = [0; 64];
        let mut left = usize::from(!self.nodes.is_empty());
        while left > 0 {
            left -= 1;
            let node = &self.nodes[waiting[left]];
            let (mut near, mut far) = (0.0f32, f32::INFINITY);
            for axis in 0..3 {
                let a = (node.bounds[0][axis] - origin[axis]) * inverse[axis];
                let b = (node.bounds[1][axis] - origin[axis]) * inverse[axis];
                near = near.max(a.min(b));
                far = far.min(a.max(b));
            }
            if near > far {
                continue;
            }
            if node.shapes > 0 {
                candidates.extend(self.order[node.at..node.at + node.shapes].iter().map(|i| &shapes[*i]));
            } else {
                let first = waiting[left];
                waiting[left] = node.at;
                waiting[left + 1] = first + 1;
                left += 2;
            }
        }
        candidates
    }
}
