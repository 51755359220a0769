//! The proved light bake for Rust: a safe call for each of include/geaidnosa.h.
//!
//! Every list is lent as a slice, so its length goes with it, and a list that a call writes is lent alone: the overlap that C forbids in words, borrowing
//! shuts out. Each call tests its input itself; where it refuses, it answers the [`Refusal`] and has written nothing. Calls have no state of their own, so
//! they may run side by side. What the numbers of a volume mean stands in docs/USE.md.
//!
//! N is the voxel count, width·height·depth; voxel (x,y,z) has the index x + width·(y + height·z). T is the triangle count. A mask is a list of (N+63)/64
//! words, [`Axes::words`]: voxel i is bit i%64 of word i/64, the lowest bit first, and bits past the last voxel are 0. [`is_marked`],
//! [`marked_voxels`] and [`marked_count`] read one, [`mark`] changes it.
//!
//! A triangle's front is the side from which its corners p0, p1, p2 run counter-clockwise: a ray meets it there where it runs against the cross product
//! (p1−p0)×(p2−p0), exactly where det, (p1−p0)·(direction×(p2−p0)), is above zero. [`Hit::front`] says which side was met, and a [`PANEL`] is met from the
//! front alone.
//!
//! Most halls have solid walls alone. Where [`Scene::is_solid`] says so, [`solid_transmittance`], [`solid_sun`] and [`solid_bake`] answer and write what
//! [`transmittance`], [`sun`] and [`bake`] do, bit for bit, without hit scratch: a ray to the sun, the sky or a lamp ends at the first hit that is found. A bake
//! may be begun by one of the two and gone on with by the other.
//!
//! A scene may come with a tree of boxes, a [`Tree`]: [`build_tree`] makes one, and [`tree_nearest`], [`tree_transmittance`], [`tree_sun`] and [`tree_bake`] look
//! only into boxes on a ray's way. Any accepted tree of a scene gives the same bits; they are those of the calls without a tree wherever no hit of those lies off
//! the triangle's own padded box, which docs/DIFFERENCES.md speaks of. So a bake that was begun through a tree is gone on with through one. A call tests its tree once, and
//! takes about half a megabyte of stack.
use std::fmt;

mod face;

/// The version of the C face that this crate was written to.
pub const VERSION_NUMBER: u32 = 7_000;
/// The number itself, so that the words of [`Refusal::Axis`] are made of it too.
macro_rules! axis_limit {
    () => {
        128
    };
}
/// The most voxels along an axis: each of a grid's three is from 1 to this. A volume at the limit has 2,097,152 voxels and takes 134,217,728 bytes.
pub const AXIS_LIMIT: usize = axis_limit!();
/// How many numbers a sky and the list of directions have: nine sets of 64 triples.
pub const SKY_LENGTH: usize = 1_728;
/// How many numbers a voxel has: four coefficients of red, green, blue and a fourth number.
pub const VOXEL_LENGTH: usize = 16;
/// The least rays that a bake's call may be allowed, without lamps and for each lamp more.
pub const LEAST_ALLOWANCE: u64 = 384;
pub const LEAST_ALLOWANCE_A_LAMP: u64 = 64;
/// The least rays that a bake fires for an active voxel; the most is the least allowance.
pub const LEAST_RAYS: u64 = 64;
/// The kind of a material that ends every ray, from both sides.
pub const OPAQUE: u8 = 0;
/// The kind of a material that lets its transmission of the light pass, from both sides, on the way to the sun, the sky and the lamps; a voxel's ray ends at it.
pub const TRANSLUCENT: u8 = 1;
/// The kind of a material that is opaque from the front and absent from the back, for [`nearest`] and [`transmittance`] and so for sun, sky, lamps and bake.
/// Its transmission is tested like any other and never read. A ray looks against the light: so a panel stops the light that comes from behind it, and what
/// falls on its front goes on through it. [`masks`] asks for no material: a panel occupies voxels whichever way it is turned.
pub const PANEL: u8 = 2;

#[repr(C)]
#[derive(Clone, Copy, Debug, Default, PartialEq)]
pub struct Vec3 {
    pub x: f32,
    pub y: f32,
    pub z: f32,
}

impl Vec3 {
    pub const fn new(x: f32, y: f32, z: f32) -> Vec3 {
        Vec3 { x, y, z }
    }
}

impl From<[f32; 3]> for Vec3 {
    fn from([x, y, z]: [f32; 3]) -> Vec3 {
        Vec3 { x, y, z }
    }
}

impl From<Vec3> for [f32; 3] {
    fn from(v: Vec3) -> [f32; 3] {
        [v.x, v.y, v.z]
    }
}

/// How many voxels stand along each axis, 1 to [`AXIS_LIMIT`].
#[repr(C)]
#[derive(Clone, Copy, Debug, Default, PartialEq, Eq)]
pub struct Axes {
    pub width: usize,
    pub height: usize,
    pub depth: usize,
}

impl Axes {
    /// How many voxels there are, N; for axes that [`Refusal::Axis`] would refuse, the largest number where the product is too large.
    pub fn count(self) -> usize {
        self.width.saturating_mul(self.height).saturating_mul(self.depth)
    }

    /// How many words a mask has, (N+63)/64.
    pub fn words(self) -> usize {
        self.count().div_ceil(64)
    }

    /// The index of a voxel.
    pub fn index(self, x: usize, y: usize, z: usize) -> usize {
        x + self.width * (y + self.height * z)
    }
}

/// The box that the voxels fill.
#[repr(C)]
#[derive(Clone, Copy, Debug, Default, PartialEq)]
pub struct Corners {
    pub min: Vec3,
    pub max: Vec3,
}

/// From origin along direction, between the distances shortest and longest, both counted in.
#[repr(C)]
#[derive(Clone, Copy, Debug, PartialEq)]
pub struct Ray {
    pub origin: Vec3,
    pub direction: Vec3,
    pub shortest: f32,
    pub longest: f32,
}

/// Its front is the side from which p0, p1, p2 run counter-clockwise.
#[repr(C)]
#[derive(Clone, Copy, Debug, PartialEq)]
pub struct Triangle {
    pub p0: Vec3,
    pub p1: Vec3,
    pub p2: Vec3,
}

/// The sun: the direction towards it, which need not be a unit vector, and its colour.
#[repr(C)]
#[derive(Clone, Copy, Debug, PartialEq)]
pub struct Light {
    pub direction: Vec3,
    pub colour: Vec3,
}

/// Four coefficients over the basis 1, y, z, x, each a colour: the irradiance of the whole sky.
#[repr(C)]
#[derive(Clone, Copy, Debug, Default, PartialEq)]
pub struct Ambient {
    pub c0: Vec3,
    pub c1: Vec3,
    pub c2: Vec3,
    pub c3: Vec3,
}

/// The triangles of a hall and their materials.
#[derive(Clone, Copy, Debug)]
pub struct Scene<'a> {
    /// 9·T: p0 x y z, p1 x y z, p2 x y z of each triangle.
    pub points: &'a [f32],
    /// T: the material of each triangle.
    pub uses: &'a [u32],
    /// One a material: [`OPAQUE`], [`TRANSLUCENT`] or [`PANEL`].
    pub kinds: &'a [u8],
    /// 7 a material: base RGB, emissive RGB, transmission.
    pub numbers: &'a [f32],
}

impl Scene<'_> {
    /// Whether every material is [`OPAQUE`], used or not: what the solid calls take. They refuse 6 where it is not.
    pub fn is_solid(self) -> bool {
        self.kinds.iter().all(|kind| *kind == OPAQUE)
    }
}

/// A tree of boxes over a scene's triangles, which [`build_tree`] or a drawing tool has made. It is accepted exactly when the lists fit each other; each box but
/// the first is a half of exactly one box, once; halves stand behind their box in the list; every present triangle stands once, in a single leaf, and nothing
/// else stands in one; each triangle's box, padded by 1e-5, lies inside its leaf's and each box inside the one above it, where sides may touch; and no box has more
/// than 24 above it. A triangle is present unless the cross product (p1−p0)×(p2−p0) has a squared length of 1e-12 or less. Where none is, [`Tree::EMPTY`] is
/// accepted, and there alone.
#[derive(Clone, Copy, Debug)]
pub struct Tree<'a> {
    /// 6 a box: its low corner x y z, then its high one. Box 0 is the root.
    pub boxes: &'a [f32],
    /// 3 a box: 0, and which two boxes are its halves; or, of a leaf, how many triangles stand in it, and where their run begins in the order, the third not read.
    pub nodes: &'a [u32],
    /// Places of triangles in the scene's list, at most T of them.
    pub order: &'a [u32],
}

impl Tree<'_> {
    /// The tree of no box, of a scene in which no triangle is present.
    pub const EMPTY: Tree<'static> = Tree { boxes: &[], nodes: &[], order: &[] };
}

/// A tree that holds its lists, as [`build_tree`] makes it; [`BoxTree::lent`] lends it to a call.
#[derive(Clone, Debug, Default, PartialEq)]
pub struct BoxTree {
    pub boxes: Vec<f32>,
    pub nodes: Vec<u32>,
    pub order: Vec<u32>,
}

impl BoxTree {
    pub fn lent(&self) -> Tree<'_> {
        Tree { boxes: &self.boxes, nodes: &self.nodes, order: &self.order }
    }
}

/// Two lists of at least T, which a call that traces rays writes as it likes. The solid calls need none.
#[derive(Debug)]
pub struct HitScratch<'a> {
    pub distances: &'a mut [f32],
    pub places: &'a mut [usize],
}

/// Why a call refuses: a row of the table, whose number [`Refusal::number`] gives and whose words are its `Display`.
#[derive(Clone, Copy, Debug, PartialEq, Eq, Hash)]
#[repr(u32)]
pub enum Refusal {
    Axis = 1,
    Corner = 2,
    Length = 3,
    TooMany = 4,
    Point = 5,
    Material = 6,
    Light = 7,
    Ray = 8,
    Progress = 9,
    Allowance = 10,
    Position = 11,
    File = 12,
    Contents = 13,
    TooLong = 14,
    Tree = 16,
    Lamp = 19,
}

impl Refusal {
    /// Every row, in the table's order.
    pub const ALL: [Refusal; 16] = [
        Refusal::Axis,
        Refusal::Corner,
        Refusal::Length,
        Refusal::TooMany,
        Refusal::Point,
        Refusal::Material,
        Refusal::Light,
        Refusal::Ray,
        Refusal::Progress,
        Refusal::Allowance,
        Refusal::Position,
        Refusal::File,
        Refusal::Contents,
        Refusal::TooLong,
        Refusal::Tree,
        Refusal::Lamp,
    ];

    pub fn number(self) -> u32 {
        self as u32
    }

    /// The row of this number, if the table has it.
    pub fn of_number(number: u32) -> Option<Refusal> {
        Refusal::ALL.into_iter().find(|row| row.number() == number)
    }

    /// The table's words.
    pub fn words(self) -> &'static str {
        match self {
            Refusal::Axis => concat!("an axis outside 1..", axis_limit!()),
            Refusal::Corner => "a corner not finite or beyond 4,096 in magnitude, or a voxel edge below 1/1024",
            Refusal::Length => "a lent list of the wrong length",
            Refusal::TooMany => "more than 4,096 triangles or 256 materials",
            Refusal::Point => "a triangle's point not finite or beyond 4,096 in magnitude",
            Refusal::Material => "a kind above 2 (in a solid call above 0), a material's colour not finite or beyond 65,536 in magnitude, a transmission outside 0..1, an index past the materials",
            Refusal::Light => "a light direction with a component beyond 4,096 or of squared length 1e-12 or less; a light, ambient or sky number not finite or beyond 65,536",
            Refusal::Ray => "a ray's origin beyond 65,536, direction beyond 2, shortest distance outside 0..65,536, or longest distance NaN",
            Refusal::Progress => "progress with next above the voxel count, or with rays below 64 or above 384 + 64·lamps for each active voxel below next",
            Refusal::Allowance => "an allowance below 384 + 64·lamps",
            Refusal::Position => "a position not finite or beyond 4,096, or a voxel index past the grid",
            Refusal::File => "any fault in a volume file",
            Refusal::Contents => "an unused bit of a mask set; a light not finite or beyond 2^64 in magnitude; a coefficient not finite or beyond 2^96",
            Refusal::TooLong => "more than 65,536 bytes",
            Refusal::Tree => "a box tree that is not accepted",
            Refusal::Lamp => "more than eight lamps, a lamp's position not finite or beyond 4,096 in magnitude, or its colour not finite or beyond 65,536",
        }
    }

    fn good(number: u32) -> Result<(), Refusal> {
        match number {
            0 => Ok(()),
            // every call's contract names its rows, all of them above
            n => Err(Refusal::of_number(n).unwrap_or_else(|| unreachable!("a refusal {n} that the table does not have"))),
        }
    }
}

impl fmt::Display for Refusal {
    fn fmt(&self, f: &mut fmt::Formatter) -> fmt::Result {
        write!(f, "{} (refusal {})", self.words(), self.number())
    }
}

impl std::error::Error for Refusal {}

/// A frame's refusal: the first position that the single lookup would refuse, counted from 0; 0 too where no position causes it.
#[derive(Clone, Copy, Debug, PartialEq, Eq)]
pub struct FirstRefused {
    pub refusal: Refusal,
    pub place: usize,
}

impl fmt::Display for FirstRefused {
    fn fmt(&self, f: &mut fmt::Formatter) -> fmt::Result {
        match self.refusal {
            Refusal::Position | Refusal::Contents => write!(f, "position {}: {}", self.place, self.refusal),
            other => other.fmt(f),
        }
    }
}

impl std::error::Error for FirstRefused {}

/// Where a ray meets a triangle.
#[derive(Clone, Copy, Debug, PartialEq)]
pub struct Hit {
    /// The triangle's place in the lent list; 0 from [`meet`].
    pub place: usize,
    pub t: f32,
    pub u: f32,
    pub v: f32,
    /// Whether the triangle's front was met, and not its back.
    pub front: bool,
}

/// How many voxels are occupied, and how many active.
#[derive(Clone, Copy, Debug, PartialEq, Eq)]
pub struct Marked {
    pub occupied: u64,
    pub active: u64,
}

/// How far a bake is. It begins at [`Progress::ZERO`], and each call is handed what the last one answered. Kept with the volume, say in a file, it is all that
/// is needed to go on elsewhere: the rays so far are those of the whole bake, whichever program or machine fired them.
#[repr(C)]
#[derive(Clone, Copy, Debug, Default, PartialEq, Eq, Hash)]
pub struct Progress {
    /// The index of the next voxel; N when the bake is done.
    pub next: usize,
    /// The rays fired so far, by all calls since the beginning.
    pub rays: u64,
}

impl Progress {
    /// A bake that has not begun: voxel 0 next, no rays. The default too.
    pub const ZERO: Progress = Progress { next: 0, rays: 0 };
}

/// What one call of a bake did: the progress to hand to the next call, and the rays that this call fired.
#[derive(Clone, Copy, Debug, PartialEq, Eq)]
pub struct Baked {
    pub progress: Progress,
    pub rays: u64,
}

/// What a volume file says of its grid.
#[derive(Clone, Copy, Debug, PartialEq)]
pub struct Head {
    pub axes: Axes,
    pub corners: Corners,
}

/// What `volstat` prints of a file.
#[derive(Clone, Copy, Debug, PartialEq, Eq)]
pub struct Figures {
    pub axes: Axes,
    pub occupied: u64,
    pub active: u64,
    pub zeros: u64,
}

/// Whether a mask marks a voxel. Panics where the mask has no word for it.
pub fn is_marked(mask: &[u64], voxel: usize) -> bool {
    (mask[voxel / 64] >> (voxel % 64)) & 1 == 1
}

/// Marks a voxel. Panics where the mask has no word for it; a bit past the last voxel is one that every call refuses that reads a mask.
pub fn mark(mask: &mut [u64], voxel: usize) {
    mask[voxel / 64] |= 1 << (voxel % 64);
}

/// The voxels that a mask marks, the lowest first.
pub fn marked_voxels(mask: &[u64]) -> impl Iterator<Item = usize> + '_ {
    let marked = mask.iter().enumerate().filter(|(_, word)| **word != 0);
    marked.flat_map(|(place, word)| (0..64).filter(move |bit| (word >> bit) & 1 == 1).map(move |bit| 64 * place + bit))
}

/// How many voxels a mask marks.
pub fn marked_count(mask: &[u64]) -> u64 {
    mask.iter().map(|word| u64::from(word.count_ones())).sum()
}

fn hit_of(answer: face::RayHit) -> Result<Option<Hit>, Refusal> {
    Refusal::good(answer.refusal)?;
    Ok((answer.hit == 1).then(|| Hit {
        place: answer.place,
        t: answer.t,
        u: answer.u,
        v: answer.v,
        front: answer.front == 1,
    }))
}

// Every call below hands pointers of slices, non-null, aligned and of the length that is passed, for the one call; what is written is lent as &mut.

/// The archive's version: [`VERSION_NUMBER`] where this crate and the archive are of one version. Refuses nothing.
pub fn version() -> u32 {
    unsafe { face::geaidnosa_version() }
}

/// Writes the directions, x, y and z of each, over a list of [`SKY_LENGTH`] numbers: direction i of set s is triple 64·s + i. Refuses 3.
pub fn directions(out: &mut [f32]) -> Result<(), Refusal> {
    Refusal::good(unsafe { face::geaidnosa_directions(out.as_mut_ptr(), out.len()) })
}

/// Which of the nine sets of directions a voxel uses, 0 to 8. Refuses nothing.
pub fn set_of_voxel(x: usize, y: usize, z: usize) -> usize {
    unsafe { face::geaidnosa_set_of_voxel(x, y, z) }
}

/// Where a ray meets one triangle, or none for a miss; it has no material here, so both sides are met. Refuses 5, 8.
pub fn meet(ray: Ray, triangle: Triangle) -> Result<Option<Hit>, Refusal> {
    hit_of(unsafe { face::geaidnosa_meet(ray, triangle) })
}

/// The nearest hit among all triangles, and among equal distances the one of the highest place; a panel met from behind is no hit. Refuses 3, 4, 5, 6, 8.
pub fn nearest(scene: Scene, ray: Ray) -> Result<Option<Hit>, Refusal> {
    let Scene { points, uses, kinds, numbers } = scene;
    hit_of(unsafe {
        face::geaidnosa_nearest(
            points.as_ptr(), points.len(), uses.as_ptr(), uses.len(), kinds.as_ptr(), kinds.len(), numbers.as_ptr(), numbers.len(), ray,
        )
    })
}

/// How much light passes along a ray, from 1 down to 0: nothing past an opaque triangle or a panel's front, everything past a panel's back. Writes hit scratch
/// alone. Refuses 3, 4, 5, 6, 8.
pub fn transmittance(scene: Scene, ray: Ray, hits: HitScratch) -> Result<f32, Refusal> {
    let Scene { points, uses, kinds, numbers } = scene;
    let answer = unsafe {
        face::geaidnosa_transmittance(
            points.as_ptr(), points.len(), uses.as_ptr(), uses.len(), kinds.as_ptr(), kinds.len(), numbers.as_ptr(), numbers.len(), ray,
            hits.distances.as_mut_ptr(), hits.distances.len(), hits.places.as_mut_ptr(), hits.places.len(),
        )
    };
    Refusal::good(answer.refusal)?;
    Ok(answer.transmittance)
}

/// What [`transmittance`] answers where every material is [`OPAQUE`], without hit scratch: 0 where the ray meets a triangle, else 1. Refuses 3, 4, 5, 6
/// (any other kind too), 8.
pub fn solid_transmittance(scene: Scene, ray: Ray) -> Result<f32, Refusal> {
    let Scene { points, uses, kinds, numbers } = scene;
    let answer = unsafe {
        face::geaidnosa_solid_transmittance(
            points.as_ptr(), points.len(), uses.as_ptr(), uses.len(), kinds.as_ptr(), kinds.len(), numbers.as_ptr(), numbers.len(), ray,
        )
    };
    Refusal::good(answer.refusal)?;
    Ok(answer.transmittance)
}

/// The tree of a scene of these points, which is accepted for it: a run of triangles is halved at the median along its widest axis until four or fewer remain.
/// Refuses 3 (points in no multiple of nine), 4, 5.
pub fn build_tree(points: &[f32]) -> Result<BoxTree, Refusal> {
    let t = points.len() / 9;
    let mut tree = BoxTree { boxes: vec![0.0; 6 * t], nodes: vec![0; 3 * t], order: vec![0; t] };
    let answer = unsafe {
        face::geaidnosa_build_tree(
            points.as_ptr(), points.len(), tree.boxes.as_mut_ptr(), tree.boxes.len(), tree.nodes.as_mut_ptr(), tree.nodes.len(),
            tree.order.as_mut_ptr(), tree.order.len(),
        )
    };
    Refusal::good(answer.refusal)?;
    tree.boxes.truncate(6 * answer.boxes);
    tree.nodes.truncate(3 * answer.boxes);
    tree.order.truncate(answer.places);
    Ok(tree)
}

/// What [`nearest`] answers, through a tree: among the triangles whose own padded box is not passed over. Refuses 3, 4, 5, 6, 16, 8.
pub fn tree_nearest(scene: Scene, tree: Tree, ray: Ray) -> Result<Option<Hit>, Refusal> {
    let Scene { points, uses, kinds, numbers } = scene;
    let Tree { boxes, nodes, order } = tree;
    hit_of(unsafe {
        face::geaidnosa_tree_nearest(
            points.as_ptr(), points.len(), uses.as_ptr(), uses.len(), kinds.as_ptr(), kinds.len(), numbers.as_ptr(), numbers.len(),
            boxes.as_ptr(), boxes.len(), nodes.as_ptr(), nodes.len(), order.as_ptr(), order.len(), ray,
        )
    })
}

/// What [`transmittance`] answers, through a tree. Writes hit scratch alone. Refuses 3, 4, 5, 6, 16, 8.
pub fn tree_transmittance(scene: Scene, tree: Tree, ray: Ray, hits: HitScratch) -> Result<f32, Refusal> {
    let Scene { points, uses, kinds, numbers } = scene;
    let Tree { boxes, nodes, order } = tree;
    let answer = unsafe {
        face::geaidnosa_tree_transmittance(
            points.as_ptr(), points.len(), uses.as_ptr(), uses.len(), kinds.as_ptr(), kinds.len(), numbers.as_ptr(), numbers.len(),
            boxes.as_ptr(), boxes.len(), nodes.as_ptr(), nodes.len(), order.as_ptr(), order.len(), ray,
            hits.distances.as_mut_ptr(), hits.distances.len(), hits.places.as_mut_ptr(), hits.places.len(),
        )
    };
    Refusal::good(answer.refusal)?;
    Ok(answer.transmittance)
}

/// Fills both masks, [`Axes::words`] each, whatever stood there: occupied where a triangle's sample lies in the voxel, whatever its material and side, active
/// within two voxels of that on every axis. Refuses 1, 2, 3 (points in no multiple of nine too), 4, 5.
pub fn masks(axes: Axes, corners: Corners, points: &[f32], occupied: &mut [u64], active: &mut [u64]) -> Result<Marked, Refusal> {
    let answer = unsafe {
        face::geaidnosa_masks(
            axes, corners, points.as_ptr(), points.len(), occupied.as_mut_ptr(), occupied.len(), active.as_mut_ptr(), active.len(),
        )
    };
    Refusal::good(answer.refusal)?;
    Ok(Marked { occupied: answer.occupied, active: answer.active })
}

/// Scratch gets the light as it was, and the light the square of its 3×3×3 mean; N numbers each. Refuses 1, 3, 13.
pub fn light_blur(axes: Axes, light: &mut [f32], scratch: &mut [f32]) -> Result<(), Refusal> {
    Refusal::good(unsafe { face::geaidnosa_light_blur(axes, light.as_mut_ptr(), light.len(), scratch.as_mut_ptr(), scratch.len()) })
}

/// Scratch gets the volume as it was, and the volume its 3×3×3 mean; 16·N numbers each. Refuses 1, 3, 13.
pub fn coefficient_blur(axes: Axes, volume: &mut [f32], scratch: &mut [f32]) -> Result<(), Refusal> {
    Refusal::good(unsafe { face::geaidnosa_coefficient_blur(axes, volume.as_mut_ptr(), volume.len(), scratch.as_mut_ptr(), scratch.len()) })
}

/// Fills the light, N numbers, with what each voxel sees of the sun, blurred, and scratch with the same before the blur; where no voxel is active the light is
/// all 1.0 and scratch stays as it was. The mask has [`Axes::words`]. Answers the rays fired, one for each active voxel. Refuses 1, 2, 3, 4, 5, 6, 7, 13.
pub fn sun(
    axes: Axes, corners: Corners, scene: Scene, direction: Vec3, active: &[u64], light: &mut [f32], scratch: &mut [f32], hits: HitScratch,
) -> Result<u64, Refusal> {
    let Scene { points, uses, kinds, numbers } = scene;
    let answer = unsafe {
        face::geaidnosa_sun(
            axes, corners, points.as_ptr(), points.len(), uses.as_ptr(), uses.len(), kinds.as_ptr(), kinds.len(), numbers.as_ptr(), numbers.len(),
            direction, active.as_ptr(), active.len(), light.as_mut_ptr(), light.len(), scratch.as_mut_ptr(), scratch.len(),
            hits.distances.as_mut_ptr(), hits.distances.len(), hits.places.as_mut_ptr(), hits.places.len(),
        )
    };
    Refusal::good(answer.refusal)?;
    Ok(answer.rays)
}

/// What [`sun`] does where every material is [`OPAQUE`], without hit scratch: the same light, scratch and rays. Refuses 1, 2, 3, 4, 5, 6 (any other kind too),
/// 7, 13.
pub fn solid_sun(axes: Axes, corners: Corners, scene: Scene, direction: Vec3, active: &[u64], light: &mut [f32], scratch: &mut [f32]) -> Result<u64, Refusal> {
    let Scene { points, uses, kinds, numbers } = scene;
    let answer = unsafe {
        face::geaidnosa_solid_sun(
            axes, corners, points.as_ptr(), points.len(), uses.as_ptr(), uses.len(), kinds.as_ptr(), kinds.len(), numbers.as_ptr(), numbers.len(),
            direction, active.as_ptr(), active.len(), light.as_mut_ptr(), light.len(), scratch.as_mut_ptr(), scratch.len(),
        )
    };
    Refusal::good(answer.refusal)?;
    Ok(answer.rays)
}

/// What [`sun`] does, through a tree, with hit scratch. Refuses 1, 2, 3, 4, 5, 6, 7, 16, 13.
pub fn tree_sun(
    axes: Axes, corners: Corners, scene: Scene, tree: Tree, direction: Vec3, active: &[u64], light: &mut [f32], scratch: &mut [f32], hits: HitScratch,
) -> Result<u64, Refusal> {
    let Scene { points, uses, kinds, numbers } = scene;
    let Tree { boxes, nodes, order } = tree;
    let answer = unsafe {
        face::geaidnosa_tree_sun(
            axes, corners, points.as_ptr(), points.len(), uses.as_ptr(), uses.len(), kinds.as_ptr(), kinds.len(), numbers.as_ptr(), numbers.len(),
            boxes.as_ptr(), boxes.len(), nodes.as_ptr(), nodes.len(), order.as_ptr(), order.len(),
            direction, active.as_ptr(), active.len(), light.as_mut_ptr(), light.len(), scratch.as_mut_ptr(), scratch.len(),
            hits.distances.as_mut_ptr(), hits.distances.len(), hits.places.as_mut_ptr(), hits.places.len(),
        )
    };
    Refusal::good(answer.refusal)?;
    Ok(answer.rays)
}

/// What a bake reads and never writes.
#[derive(Clone, Copy, Debug)]
pub struct BakeInput<'a> {
    pub axes: Axes,
    pub corners: Corners,
    pub scene: Scene<'a>,
    /// The sun.
    pub light: Light,
    pub ambient: Ambient,
    /// [`SKY_LENGTH`] numbers: the colour seen along direction i of set s is triple 64·s + i.
    pub sky: &'a [f32],
    /// 6 a lamp, none to eight: position x y z, colour RGB.
    pub lamps: &'a [f32],
    /// The mask of the voxels to bake, [`Axes::words`].
    pub active: &'a [u64],
    /// What [`sun`] wrote, N.
    pub lights: &'a [f32],
}

/// Bakes the volume, 16·N numbers, from progress on: an active voxel is taken while at least 384 + 64·lamps rays of the allowance remain. Begin at
/// [`Progress::ZERO`], and call again with the progress answered and the same lists until its next is N: its rays are then those of all calls together.
/// At next 0 the volume's contents do not matter; scratch's never do. The last call leaves the volume before its 3×3×3 mean in scratch and the mean in the
/// volume; the others do not touch scratch, and where no voxel is active no call writes it.
/// A progress whose rays lie outside what the active voxels below next may cost is refused 9, not repaired; inside that they are taken as they are. A refusal answers the row alone, since the progress handed in,
/// which C answers then, is a copy: the caller's own stands as it was, and so do the lists. Refuses 1, 2, 3, 4, 5, 6, 7, 19, 9, 10, 13.
pub fn bake(input: BakeInput, volume: &mut [f32], scratch: &mut [f32], hits: HitScratch, progress: Progress, allowance: u64) -> Result<Baked, Refusal> {
    let BakeInput { axes, corners, scene, light, ambient, sky, lamps, active, lights } = input;
    let Scene { points, uses, kinds, numbers } = scene;
    let answer = unsafe {
        face::geaidnosa_bake(
            axes, corners, points.as_ptr(), points.len(), uses.as_ptr(), uses.len(), kinds.as_ptr(), kinds.len(), numbers.as_ptr(), numbers.len(),
            light, ambient, sky.as_ptr(), sky.len(), lamps.as_ptr(), lamps.len(), active.as_ptr(), active.len(), lights.as_ptr(), lights.len(),
            volume.as_mut_ptr(), volume.len(), scratch.as_mut_ptr(), scratch.len(),
            hits.distances.as_mut_ptr(), hits.distances.len(), hits.places.as_mut_ptr(), hits.places.len(), progress, allowance,
        )
    };
    Refusal::good(answer.refusal)?;
    Ok(Baked { progress: answer.progress, rays: answer.rays })
}

/// What [`bake`] does where every material is [`OPAQUE`], without hit scratch: the same volume, scratch, progress and rays, call for call. A progress that either
/// has answered is good for both. Refuses 1, 2, 3, 4, 5, 6 (any other kind too), 7, 19, 9, 10, 13.
pub fn solid_bake(input: BakeInput, volume: &mut [f32], scratch: &mut [f32], progress: Progress, allowance: u64) -> Result<Baked, Refusal> {
    let BakeInput { axes, corners, scene, light, ambient, sky, lamps, active, lights } = input;
    let Scene { points, uses, kinds, numbers } = scene;
    let answer = unsafe {
        face::geaidnosa_solid_bake(
            axes, corners, points.as_ptr(), points.len(), uses.as_ptr(), uses.len(), kinds.as_ptr(), kinds.len(), numbers.as_ptr(), numbers.len(),
            light, ambient, sky.as_ptr(), sky.len(), lamps.as_ptr(), lamps.len(), active.as_ptr(), active.len(), lights.as_ptr(), lights.len(),
            volume.as_mut_ptr(), volume.len(), scratch.as_mut_ptr(), scratch.len(), progress, allowance,
        )
    };
    Refusal::good(answer.refusal)?;
    Ok(Baked { progress: answer.progress, rays: answer.rays })
}

/// What [`bake`] does, through a tree, with hit scratch: the lights are those of [`tree_sun`]. Each call is handed a tree of the same scene, whichever; a bake that
/// was begun without one is gone on with without one. Refuses 1, 2, 3, 4, 5, 6, 7, 19, 16, 9, 10, 13.
pub fn tree_bake(
    input: BakeInput, tree: Tree, volume: &mut [f32], scratch: &mut [f32], hits: HitScratch, progress: Progress, allowance: u64,
) -> Result<Baked, Refusal> {
    let BakeInput { axes, corners, scene, light, ambient, sky, lamps, active, lights } = input;
    let Scene { points, uses, kinds, numbers } = scene;
    let Tree { boxes, nodes, order } = tree;
    let answer = unsafe {
        face::geaidnosa_tree_bake(
            axes, corners, points.as_ptr(), points.len(), uses.as_ptr(), uses.len(), kinds.as_ptr(), kinds.len(), numbers.as_ptr(), numbers.len(),
            boxes.as_ptr(), boxes.len(), nodes.as_ptr(), nodes.len(), order.as_ptr(), order.len(),
            light, ambient, sky.as_ptr(), sky.len(), lamps.as_ptr(), lamps.len(), active.as_ptr(), active.len(), lights.as_ptr(), lights.len(),
            volume.as_mut_ptr(), volume.len(), scratch.as_mut_ptr(), scratch.len(),
            hits.distances.as_mut_ptr(), hits.distances.len(), hits.places.as_mut_ptr(), hits.places.len(), progress, allowance,
        )
    };
    Refusal::good(answer.refusal)?;
    Ok(Baked { progress: answer.progress, rays: answer.rays })
}

/// Copies the sixteen numbers of each voxel of the share's mask, [`Axes::words`], from unblurred to joined, 16·N numbers each, and leaves the other voxels of
/// joined as they are. So a bake is spread over threads or machines: masks of which each active voxel stands in exactly one, and no other voxel in any, are
/// baked to the end, each with lists of its own and all else alike, the lights of the whole mask's sun pass too. A share's unblurred volume is its scratch, or its volume where its mask has no voxel. The other shares are joined one
/// after another onto the first one's, and then [`coefficient_blur`] takes the mean, unless no voxel at all is active: bit for bit the volume of the unbroken
/// bake, and the rays add up. What joined holds is not tested. Refuses 1, 3, 13.
pub fn join(axes: Axes, share: &[u64], unblurred: &[f32], joined: &mut [f32]) -> Result<(), Refusal> {
    Refusal::good(unsafe {
        face::geaidnosa_join(axes, share.as_ptr(), share.len(), unblurred.as_ptr(), unblurred.len(), joined.as_mut_ptr(), joined.len())
    })
}

/// The light at a position. Refuses 1, 2, 3, 11, and 13 among the eight cells read.
pub fn light_at(axes: Axes, corners: Corners, light: &[f32], position: Vec3) -> Result<f32, Refusal> {
    let answer = unsafe { face::geaidnosa_light_at(axes, corners, light.as_ptr(), light.len(), position) };
    Refusal::good(answer.refusal)?;
    Ok(answer.light)
}

/// The four coefficients at a position. Refuses 1, 2, 3, 11, and 13 among the eight cells read.
pub fn coefficients_at(axes: Axes, corners: Corners, volume: &[f32], position: Vec3) -> Result<[f32; VOXEL_LENGTH], Refusal> {
    let answer = unsafe { face::geaidnosa_coefficients_at(axes, corners, volume.as_ptr(), volume.len(), position) };
    Refusal::good(answer.refusal)?;
    Ok(answer.numbers)
}

/// One voxel's sixteen numbers, as a part of the volume or, where unblurred is asked, of scratch; no copy is made. Refuses 1, 3 (either list), 11.
pub fn voxel_part<'a>(axes: Axes, volume: &'a [f32], scratch: &'a [f32], index: usize, unblurred: bool) -> Result<&'a [f32], Refusal> {
    let answer = unsafe {
        face::geaidnosa_voxel_part(axes, volume.as_ptr(), volume.len(), scratch.as_ptr(), scratch.len(), index, u8::from(unblurred))
    };
    Refusal::good(answer.refusal)?;
    let list = if unblurred { scratch } else { volume };
    Ok(&list[answer.start..answer.start + VOXEL_LENGTH])
}

/// The refusal of [`voxel_part`] on the same arguments: 1, 3 or 11.
pub fn voxel_refusal(axes: Axes, volume: &[f32], scratch: &[f32], index: usize, unblurred: bool) -> Result<(), Refusal> {
    Refusal::good(unsafe {
        face::geaidnosa_voxel_refusal(axes, volume.as_ptr(), volume.len(), scratch.as_ptr(), scratch.len(), index, u8::from(unblurred))
    })
}

fn first_refused(answer: face::FirstRefusal) -> Result<(), FirstRefused> {
    Refusal::good(answer.refusal).map_err(|refusal| FirstRefused { refusal, place: answer.place })
}

/// The light at each of a list of positions, x y z of each, in answers, one number a position: each what [`light_at`] gives there.
/// Refuses 1, 2, 3, and the first of what that call refuses at a position (11, 13), with its place.
pub fn frame_lights(axes: Axes, corners: Corners, light: &[f32], positions: &[f32], answers: &mut [f32]) -> Result<(), FirstRefused> {
    first_refused(unsafe {
        face::geaidnosa_frame_lights(
            axes, corners, light.as_ptr(), light.len(), positions.as_ptr(), positions.len(), answers.as_mut_ptr(), answers.len(),
        )
    })
}

/// The four coefficients at each of a list of positions, x y z of each, in answers, sixteen numbers a position: those of [`coefficients_at`] there.
/// Refuses 1, 2, 3, and the first of what that call refuses at a position (11, 13), with its place.
pub fn frame_coefficients(axes: Axes, corners: Corners, volume: &[f32], positions: &[f32], answers: &mut [f32]) -> Result<(), FirstRefused> {
    first_refused(unsafe {
        face::geaidnosa_frame_coefficients(
            axes, corners, volume.as_ptr(), volume.len(), positions.as_ptr(), positions.len(), answers.as_mut_ptr(), answers.len(),
        )
    })
}

/// A file's axes and corners, from which its lists' lengths follow. Refuses 12.
pub fn file_axes(bytes: &[u8]) -> Result<Head, Refusal> {
    let answer = unsafe { face::geaidnosa_file_axes(bytes.as_ptr(), bytes.len()) };
    Refusal::good(answer.refusal)?;
    Ok(Head { axes: answer.axes, corners: answer.corners })
}

/// How many bytes a file of these axes has: 96 + 70·N. Refuses 1.
pub fn volume_bytes(axes: Axes) -> Result<usize, Refusal> {
    let answer = unsafe { face::geaidnosa_volume_bytes(axes) };
    Refusal::good(answer.refusal)?;
    Ok(answer.bytes)
}

/// Reads a file into the four lists, N and 16·N numbers and [`Axes::words`] of each mask, and answers its axes and corners; foreign bodies are skipped.
/// Refuses 12, then 3.
pub fn read_volume(bytes: &[u8], light: &mut [f32], volume: &mut [f32], occupied: &mut [u64], active: &mut [u64]) -> Result<Head, Refusal> {
    let answer = unsafe {
        face::geaidnosa_read_volume(
            bytes.as_ptr(), bytes.len(), light.as_mut_ptr(), light.len(), volume.as_mut_ptr(), volume.len(),
            occupied.as_mut_ptr(), occupied.len(), active.as_mut_ptr(), active.len(),
        )
    };
    Refusal::good(answer.refusal)?;
    Ok(Head { axes: answer.axes, corners: answer.corners })
}

/// Writes a file over bytes, which has exactly as many as [`volume_bytes`] answers. Refuses 1, 2, 3, 13.
pub fn write_volume(
    axes: Axes, corners: Corners, light: &[f32], volume: &[f32], occupied: &[u64], active: &[u64], bytes: &mut [u8],
) -> Result<(), Refusal> {
    Refusal::good(unsafe {
        face::geaidnosa_write_volume(
            axes, corners, light.as_ptr(), light.len(), volume.as_ptr(), volume.len(), occupied.as_ptr(), occupied.len(),
            active.as_ptr(), active.len(), bytes.as_mut_ptr(), bytes.len(),
        )
    })
}

/// What `volstat` prints of a file: axes, occupied and active counts, and how many lights are zero. Refuses 14, then 12.
pub fn file_figures(bytes: &[u8]) -> Result<Figures, Refusal> {
    let answer = unsafe { face::geaidnosa_file_figures(bytes.as_ptr(), bytes.len()) };
    Refusal::good(answer.refusal)?;
    Ok(Figures {
        axes: Axes { width: answer.width, height: answer.height, depth: answer.depth },
        occupied: answer.occupied,
        active: answer.active,
        zeros: answer.zeros,
    })
}

/// The square root, rounded to the nearest; of a number below 0 (but −0) NaN. On bit patterns of f32; whatever is NaN answers 0x7FC00000. Refuses nothing.
pub fn root_bits(bits: u32) -> u32 {
    unsafe { face::geaidnosa_root_bits(bits) }
}

/// The largest whole number not above, on bit patterns of f32. Refuses nothing.
pub fn floor_bits(bits: u32) -> u32 {
    unsafe { face::geaidnosa_floor_bits(bits) }
}

/// The least whole number not below, on bit patterns of f32. Refuses nothing.
pub fn ceiling_bits(bits: u32) -> u32 {
    unsafe { face::geaidnosa_ceiling_bits(bits) }
}

/// The number without its sign, on bit patterns of f32. Refuses nothing.
pub fn magnitude_bits(bits: u32) -> u32 {
    unsafe { face::geaidnosa_magnitude_bits(bits) }
}

/// The larger of two, of two equals the second, NaN if either is; on bit patterns of f32. Refuses nothing.
pub fn larger_bits(first: u32, second: u32) -> u32 {
    unsafe { face::geaidnosa_larger_bits(first, second) }
}

/// The smaller of two, of two equals the second, NaN if either is; on bit patterns of f32. Refuses nothing.
pub fn smaller_bits(first: u32, second: u32) -> u32 {
    unsafe { face::geaidnosa_smaller_bits(first, second) }
}
