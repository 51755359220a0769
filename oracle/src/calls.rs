//! The port's public calls as data: one variant a call, every argument as it would be lent, a mask as the entries that its words stand for
//! (`words.rs`).

#[derive(Clone, Debug, Default)]
pub struct Lists {
    pub points: Vec<f32>,
    pub uses: Vec<u32>,
    pub kinds: Vec<u8>,
    pub numbers: Vec<f32>,
}

/// The two hit scratch lists.
#[derive(Clone, Debug, Default)]
pub struct Scratch {
    pub distances: Vec<f32>,
    pub places: Vec<u64>,
}

/// C-20's tree of boxes as it is lent: six numbers a box, three words a node, and places of triangles.
#[derive(Clone, Debug, Default, PartialEq)]
pub struct Tree {
    pub boxes: Vec<f32>,
    pub nodes: Vec<u32>,
    pub order: Vec<u32>,
}

#[derive(Clone, Copy, Debug)]
pub struct Ray {
    pub origin: [f32; 3],
    pub direction: [f32; 3],
    pub shortest: f32,
    pub longest: f32,
}

/// Axes and corners: min x y z, max x y z.
#[derive(Clone, Copy, Debug)]
pub struct Grid {
    pub axes: [u64; 3],
    pub corners: [f32; 6],
}

#[derive(Clone, Debug)]
pub enum Call {
    Triangle { points: [f32; 9], ray: Ray },
    Nearest { lists: Lists, ray: Ray },
    Transmittance { lists: Lists, ray: Ray, hits: Scratch },
    Masks { grid: Grid, points: Vec<f32>, occupied: Vec<u8>, active: Vec<u8> },
    LightBlur { axes: [u64; 3], light: Vec<f32>, scratch: Vec<f32> },
    CoefficientBlur { axes: [u64; 3], volume: Vec<f32>, scratch: Vec<f32> },
    Sun { grid: Grid, lists: Lists, direction: [f32; 3], active: Vec<u8>, light: Vec<f32>, scratch: Vec<f32>, hits: Scratch },
    Bake(Box<Bake>),
    LightLookup { grid: Grid, light: Vec<f32>, position: [f32; 3] },
    CoefficientLookup { grid: Grid, volume: Vec<f32>, position: [f32; 3] },
    Part { axes: [u64; 3], volume: Vec<f32>, scratch: Vec<f32>, index: u64, choice: bool },
    SolidTransmittance { lists: Lists, ray: Ray },
    SolidSun { grid: Grid, lists: Lists, direction: [f32; 3], active: Vec<u8>, light: Vec<f32>, scratch: Vec<f32> },
    /// Hit scratch is not lent; the list of it is empty.
    SolidBake(Box<Bake>),
    TreeNearest { lists: Lists, tree: Tree, ray: Ray },
    TreeTransmittance { lists: Lists, tree: Tree, ray: Ray, hits: Scratch },
    TreeSun { grid: Grid, lists: Lists, tree: Tree, direction: [f32; 3], active: Vec<u8>, light: Vec<f32>, scratch: Vec<f32>, hits: Scratch },
    TreeBake(Box<Bake>, Tree),
    /// C-20's builder over lists that are lent to it.
    BuildTree { points: Vec<f32>, tree: Tree },
}

impl Call {
    /// C-22's call with the same arguments but hit scratch, if there is one.
    pub fn solid(&self) -> Option<Call> {
        match self.clone() {
            Call::Transmittance { lists, ray, hits: _ } => Some(Call::SolidTransmittance { lists, ray }),
            Call::Sun { grid, lists, direction, active, light, scratch, hits: _ } => Some(Call::SolidSun { grid, lists, direction, active, light, scratch }),
            Call::Bake(bake) => Some(Call::SolidBake(Box::new(bake.without_hits()))),
            _ => None,
        }
    }

    /// C-20's call with the same arguments and this tree, if there is one.
    pub fn through(&self, tree: &Tree) -> Option<Call> {
        let tree = tree.clone();
        match self.clone() {
            Call::Nearest { lists, ray } => Some(Call::TreeNearest { lists, tree, ray }),
            Call::Transmittance { lists, ray, hits } => Some(Call::TreeTransmittance { lists, tree, ray, hits }),
            Call::Sun { grid, lists, direction, active, light, scratch, hits } => Some(Call::TreeSun { grid, lists, tree, direction, active, light, scratch, hits }),
            Call::Bake(bake) => Some(Call::TreeBake(bake, tree)),
            _ => None,
        }
    }
}

/// Which of the calls is made with a ray over a scene. Its number leads the ray in a record.
#[derive(Clone, Copy, Debug, PartialEq)]
pub enum RayCall {
    Nearest = 0,
    Transmittance = 1,
    SolidTransmittance = 2,
}

/// C-16's record: the next voxel, and the rays of all calls so far.
#[derive(Clone, Copy, Debug, Default, PartialEq)]
pub struct Progress {
    pub next: u64,
    pub rays: u64,
}

#[derive(Clone, Debug)]
pub struct Bake {
    pub grid: Grid,
    pub lists: Lists,
    /// Direction, then colour.
    pub sunlight: [f32; 6],
    /// Coefficient by coefficient, RGB.
    pub ambient: [f32; 12],
    pub sky: Vec<f32>,
    /// Six numbers a lamp: position, then colour.
    pub lamps: Vec<f32>,
    pub active: Vec<u8>,
    pub light: Vec<f32>,
    pub volume: Vec<f32>,
    pub scratch: Vec<f32>,
    pub hits: Scratch,
    pub progress: Progress,
    pub allowance: u64,
}

impl Bake {
    /// The same bake as C-22's call takes it.
    pub fn without_hits(&self) -> Bake {
        Bake { hits: Scratch::default(), ..self.clone() }
    }
}

/// What a call answers: its numbers as words, the refusal first, and every lent list afterwards, as words, in the order in which the
/// call takes them. Hit scratch is there only where it must be left alone.
#[derive(Clone, Debug, PartialEq)]
pub struct Answer {
    pub words: Vec<u32>,
    pub lists: Vec<Vec<u32>>,
}

pub fn bits(l: &[f32]) -> Vec<u32> {
    l.iter().map(|x| word(*x)).collect()
}

/// A number's bits; the port has one NaN.
pub fn word(x: f32) -> u32 {
    if x.is_nan() {
        0x7FC0_0000
    } else {
        x.to_bits()
    }
}

pub fn bytes(l: &[u8]) -> Vec<u32> {
    l.iter().map(|b| *b as u32).collect()
}

pub fn halves(l: &[u64]) -> Vec<u32> {
    l.iter().flat_map(|x| [*x as u32, (*x >> 32) as u32]).collect()
}
