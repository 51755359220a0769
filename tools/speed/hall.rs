//! The scene that both sides are measured on: a closed hall of 12·n·n + 12·b triangles in 16×16×16 voxels, with rays and positions in it. The environment's
//! SPEED_SPLIT is n, 6 where it is not set, and SPEED_BOXES is b, 5 where it is not set: 492 triangles. Where SPEED_SOLID is set, and not empty, its glass is
//! plaster and every material is opaque. Where SPEED_SHUFFLED is, the list has the triangles in no order, as a drawing may have them.

pub const AXES: [usize; 3] = [16, 16, 16];
pub const VOXELS: usize = 16 * 16 * 16;
pub const CORNERS: [f32; 6] = [0.0, 0.0, 0.0, 16.0, 12.0, 8.0];
pub const MATERIALS: usize = 4;
/// Base colour, emissive and transmission: plaster, glass, lamp, soot.
pub const NUMBERS: [f32; 7 * MATERIALS] = [
    0.8, 0.7, 0.6, 0.0, 0.0, 0.0, 0.0, //
    0.9, 0.9, 0.9, 0.0, 0.0, 0.0, 0.5, //
    0.1, 0.1, 0.1, 4.0, 3.0, 1.0, 0.0, //
    0.0, 0.0, 0.0, 0.0, 0.0, 0.0, 0.0,
];
pub const DIRECTION: [f32; 3] = [0.3, 0.2, 0.9];
pub const COLOUR: [f32; 3] = [3.0, 2.5, 2.0];
pub const SCENE_LIGHT: [f32; 6] = [DIRECTION[0], DIRECTION[1], DIRECTION[2], COLOUR[0], COLOUR[1], COLOUR[2]];
pub const AMBIENT: [f32; 12] = [0.2, 0.25, 0.3, 0.01, 0.02, 0.03, 0.05, 0.05, 0.05, -0.01, 0.0, 0.01];

pub struct Hall {
    pub points: Vec<f32>,
    pub uses: Vec<u32>,
    pub kinds: [u8; MATERIALS],
    pub sky: Vec<f32>,
}

/// As many boxes stand in the hall, or hang below its roof, as there is room for.
const MOST_BOXES: usize = 22;

/// A whole number of the environment.
fn number(name: &str, else_this: usize) -> usize {
    std::env::var(name).map_or(else_this, |n| n.parse().unwrap_or_else(|_| panic!("{name} is a whole number")))
}

pub struct Line {
    pub origin: [f32; 3],
    pub direction: [f32; 3],
}

/// Numbers that look like chance and are the same in every run.
pub struct Chance(u64);

impl Chance {
    pub fn new(seed: u64) -> Self {
        Chance(seed)
    }

    /// From low up to high.
    pub fn between(&mut self, low: f32, high: f32) -> f32 {
        self.0 = self.0.wrapping_mul(6364136223846793005).wrapping_add(1442695040888963407);
        low + (high - low) * ((self.0 >> 40) as f32 / 16777216.0)
    }
}

impl Hall {
    /// Six sides of n×n quads, every fifth of the roof's of glass; five boxes in the room, one of them a lamp and one black, and above them in rows of six those
    /// past the fifth, every fourth black.
    pub fn new() -> Self {
        let (n, boxes) = (number("SPEED_SPLIT", 6), number("SPEED_BOXES", 5));
        let asked = |name: &str| std::env::var(name).map_or(false, |word| !word.is_empty());
        let solid = asked("SPEED_SOLID");
        assert!(boxes <= MOST_BOXES, "SPEED_BOXES is {boxes}, and {MOST_BOXES} have room");
        let (glass, kinds) = if solid { (0, [0; MATERIALS]) } else { (1, [0, 1, 0, 0]) };
        let mut hall = Hall { points: vec![], uses: vec![], kinds, sky: (0..1728).map(|i| 0.5 + (i % 7) as f32 * 0.125).collect() };
        hall.cuboid([0.6, 0.5, 0.4], [15.3, 11.4, 7.6], n, |side, quad| if side == 5 && quad % 5 == 2 { glass } else { 0 });
        for (place, material) in [0, 0, 2, 3, 0].into_iter().enumerate().take(boxes) {
            let x = 1.7 + 2.6 * place as f32;
            let y = 2.0 + 1.3 * place as f32;
            hall.cuboid([x, y, 0.9], [x + 1.1, y + 1.4, 2.1 + 0.6 * place as f32], 1, |_, _| material);
        }
        for place in 0..boxes.saturating_sub(5) {
            let (x, y) = (1.6 + 2.2 * (place % 6) as f32, 1.3 + 3.4 * (place / 6) as f32);
            let z = 4.9 + 0.3 * (place % 5) as f32;
            hall.cuboid([x, y, z], [x + 1.2, y + 1.5, z + 0.8], 1, |_, _| if place % 4 == 3 { 3 } else { 0 });
        }
        assert!(hall.triangles() == 12 * n * n + 12 * boxes && hall.points.len() == 9 * hall.triangles());
        if asked("SPEED_SHUFFLED") {
            let mut chance = Chance::new(3);
            for i in (1..hall.triangles()).rev() {
                hall.swap(i, chance.between(0.0, (i + 1) as f32) as usize);
            }
        }
        hall
    }

    /// Two triangles change places.
    fn swap(&mut self, i: usize, j: usize) {
        self.uses.swap(i, j);
        for k in 0..9 {
            self.points.swap(9 * i + k, 9 * j + k);
        }
    }

    pub fn triangles(&self) -> usize {
        self.uses.len()
    }

    /// Each side split in n×n quads; side 5 is the top.
    fn cuboid(&mut self, low: [f32; 3], high: [f32; 3], n: usize, material: impl Fn(usize, usize) -> u32) {
        for side in 0..6 {
            let (axis, far) = (side / 2, side % 2 == 1);
            let (a, b) = ((axis + 1) % 3, (axis + 2) % 3);
            let corner = |i: usize, j: usize| {
                let mut p = if far { high } else { low };
                p[a] = low[a] + (high[a] - low[a]) * (i as f32 / n as f32);
                p[b] = low[b] + (high[b] - low[b]) * (j as f32 / n as f32);
                p
            };
            for quad in 0..n * n {
                let (i, j) = (quad % n, quad / n);
                let [p, q, r, s] = [corner(i, j), corner(i + 1, j), corner(i + 1, j + 1), corner(i, j + 1)];
                for point in [p, q, r, p, r, s] {
                    self.points.extend(point);
                }
                self.uses.extend([material(side, quad); 2]);
            }
        }
    }
}

/// Panes one behind the other, each a triangle that every ray passes, of four clear materials whose product depends on the order.
pub struct Panes {
    pub points: Vec<f32>,
    pub uses: Vec<u32>,
}

pub const PANE_KINDS: [u8; 4] = [1; 4];
pub const PANE_NUMBERS: [f32; 28] = [
    0.9, 0.9, 0.9, 0.0, 0.0, 0.0, 1.0, //
    0.9, 0.9, 0.9, 0.0, 0.0, 0.0, 0.9999, //
    0.9, 0.9, 0.9, 0.0, 0.0, 0.0, 0.9997, //
    0.9, 0.9, 0.9, 0.0, 0.0, 0.0, 0.9995,
];
/// Rays through the panes.
pub const PANE_RAYS: usize = 8;

impl Panes {
    /// "N panes near first", "N panes far first" or "N panes mixed": in which order the list has them.
    pub fn named(call: &str) -> Option<Self> {
        let (count, order) = call.split_once(" panes ")?;
        let count: usize = count.parse().ok()?;
        let mut depths: Vec<usize> = (0..count).collect();
        match order {
            "near first" => {}
            "far first" => depths.reverse(),
            "mixed" => {
                let mut chance = Chance::new(2);
                for i in (1..count).rev() {
                    depths.swap(i, chance.between(0.0, i as f32) as usize);
                }
            }
            _ => return None,
        }
        let mut panes = Panes { points: vec![], uses: vec![] };
        for depth in depths {
            let z = 1.0 + depth as f32 * 0.25;
            panes.points.extend([-4000.0, -4000.0, z, 4000.0, -4000.0, z, 0.0, 4000.0, z]);
            panes.uses.push(depth as u32 * 7 % 4);
        }
        Some(panes)
    }

    pub fn through() -> Vec<Line> {
        (0..PANE_RAYS).map(|i| Line { origin: [i as f32, 1.0, 0.0], direction: [0.01 * i as f32, 0.02, 1.0] }).collect()
    }
}

/// A position in the hall or a little outside.
pub fn position(chance: &mut Chance) -> [f32; 3] {
    [chance.between(-0.5, 16.5), chance.between(-0.5, 12.5), chance.between(-0.5, 8.5)]
}

/// From inside the hall to anywhere.
pub fn line(chance: &mut Chance) -> Line {
    let origin = [chance.between(1.0, 15.0), chance.between(1.0, 11.0), chance.between(0.5, 7.5)];
    let direction = [chance.between(-1.0, 1.0), chance.between(-1.0, 1.0), chance.between(-1.0, 1.0)];
    Line { origin, direction }
}
