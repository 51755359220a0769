//! The library's calls that trace rays to the sun, the sky and the lamps. Where every material of a hall is opaque they are the solid ones, whose rays end at the
//! first hit that is found; else those that keep what a ray passes through, in two lists of a number a triangle each. The library answers and writes the same bits
//! by both, so nothing that is saved depends on which it was. Sun and bake may also go through a box tree of the hall, where that is asked for: then a hit off a triangle's
//! own box is left out, so that the bits may be others, and what is saved names it.
use crate::hall::Hall;
use geaidnosa::*;

/// What a ray of sun and bake is tested against.
#[derive(Clone, Copy, Debug, Default, PartialEq, Eq, clap::ValueEnum)]
pub enum Scan {
    /// every triangle of the list
    #[default]
    List,
    /// the triangles in those boxes of a tree that lie on its way: quicker in halls of many triangles
    Tree,
}

impl Scan {
    pub fn name(self) -> &'static str {
        match self {
            Scan::List => "list",
            Scan::Tree => "tree",
        }
    }

    pub fn of_name(name: &str) -> Option<Scan> {
        [Scan::List, Scan::Tree].into_iter().find(|scan| scan.name() == name)
    }
}

/// One thread's calls of a hall.
pub struct Engine<'a> {
    pub hall: &'a Hall,
    scan: Scan,
    hits: Option<Hits>,
}

struct Hits {
    distances: Vec<f32>,
    places: Vec<usize>,
}

impl Hits {
    fn lent(&mut self) -> HitScratch<'_> {
        HitScratch { distances: &mut self.distances, places: &mut self.places }
    }
}

impl<'a> Engine<'a> {
    /// By the hall's own scan.
    pub fn new(hall: &'a Hall) -> Engine<'a> {
        Engine::by(hall, hall.scan)
    }

    pub fn by(hall: &'a Hall, scan: Scan) -> Engine<'a> {
        let count = hall.triangles();
        let hits = (scan == Scan::Tree || !hall.solid()).then(|| Hits { distances: vec![0.0; count], places: vec![0; count] });
        Engine { hall, scan, hits }
    }

    /// How much light passes along a ray. By the list whatever the scan: a call of one ray through a tree would test the tree for it.
    pub fn transmittance(&mut self, ray: Ray) -> Result<f32, Refusal> {
        match &mut self.hits {
            None => solid_transmittance(self.hall.scene(), ray),
            Some(hits) => transmittance(self.hall.scene(), ray, hits.lent()),
        }
    }

    /// What each voxel of a mask sees of the sun.
    pub fn sun(&mut self, active: &[u64], light: &mut [f32], scratch: &mut [f32]) -> Result<u64, Refusal> {
        let (axes, corners, towards) = (self.hall.axes, self.hall.corners, self.hall.sun.direction);
        match &mut self.hits {
            None => solid_sun(axes, corners, self.hall.scene(), towards, active, light, scratch),
            Some(hits) if self.scan == Scan::Tree => tree_sun(axes, corners, self.hall.scene(), self.hall.tree.lent(), towards, active, light, scratch, hits.lent()),
            Some(hits) => sun(axes, corners, self.hall.scene(), towards, active, light, scratch, hits.lent()),
        }
    }

    /// One call of the bake of a mask, from a progress on.
    pub fn bake(&mut self, active: &[u64], lights: &[f32], volume: &mut [f32], scratch: &mut [f32], progress: Progress, allowance: u64) -> Result<Baked, Refusal> {
        let input = self.hall.input(active, lights);
        match &mut self.hits {
            None => solid_bake(input, volume, scratch, progress, allowance),
            Some(hits) if self.scan == Scan::Tree => tree_bake(input, self.hall.tree.lent(), volume, scratch, hits.lent(), progress, allowance),
            Some(hits) => bake(input, volume, scratch, hits.lent(), progress, allowance),
        }
    }
}
