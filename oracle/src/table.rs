//! Document 01's table of refusals with what document 02's C-12, C-16, C-18, C-19, C-20, C-21 and C-22 make of it, and the order in which each call tests them,
//! written from these and the open points alone: which numbers are accepted, and for each call the first number whose condition holds, 0 if none.
use crate::calls::{Bake, Call, Grid, Lists, Progress, Ray, Scratch, Tree};
use crate::{trees, words};

/// "Axes rise to 1..128."
pub const AXIS: u64 = 128;
const POINT: f32 = 4096.0;
const EDGE: f32 = 1.0 / 1024.0;
const TRIANGLES: usize = 4096;
const MATERIALS: usize = 256;
/// "6 now from kind 3 up"
const FIRST_BAD_KIND: u8 = 3;
/// "6 if another kind stands in the list"
const SOLID: u8 = 0;
const COLOUR: f32 = 65536.0;
const ORIGIN: f32 = 65536.0;
const DIRECTION: f32 = 2.0;
const DISTANCE: f32 = 65536.0;
const THIN: f32 = 1.0e-12;
/// 2^64
const LIGHT: f32 = 18446744073709551616.0;
/// 2^96
const COEFFICIENT: f32 = 79228162514264337593543950336.0;
const SKY: usize = 1728;
const LAMPS: usize = 8;
/// The fewest rays that an active voxel costs.
const LEAST: u64 = 64;

/// The most rays that a voxel may cost, which is the least allowance: "With L lamps a voxel may cost 384+64L rays".
pub fn cost(lamps: &[f32]) -> u64 {
    384 + 64 * (lamps.len() / 6) as u64
}

/// The refusal's number for a call, 0 for none.
pub fn refusal(call: &Call) -> u32 {
    match call {
        Call::Triangle { points, ray } => first(&[(5, &|| bad_points(points)), (8, &|| bad_ray(ray))]),
        Call::Nearest { lists, ray } => first(&[
            (3, &|| misfit(lists)),
            (4, &|| too_many(lists)),
            (5, &|| bad_points(&lists.points)),
            (6, &|| bad_materials(lists)),
            (8, &|| bad_ray(ray)),
        ]),
        Call::Transmittance { lists, ray, hits } => first(&[
            (3, &|| misfit(lists) || too_short(hits, lists)),
            (4, &|| too_many(lists)),
            (5, &|| bad_points(&lists.points)),
            (6, &|| bad_materials(lists)),
            (8, &|| bad_ray(ray)),
        ]),
        Call::Masks { grid, points, occupied, active } => first(&[
            (1, &|| bad_axes(grid.axes)),
            (2, &|| bad_corners(grid)),
            (3, &|| points.len() % 9 != 0 || misfit_mask(occupied, grid) || misfit_mask(active, grid)),
            (4, &|| points.len() / 9 > TRIANGLES),
            (5, &|| bad_points(points)),
        ]),
        Call::LightBlur { axes, light, scratch } => first(&[
            (1, &|| bad_axes(*axes)),
            (3, &|| light.len() != count(*axes) || scratch.len() != count(*axes)),
            (13, &|| beyond(light, LIGHT)),
        ]),
        Call::CoefficientBlur { axes, volume, scratch } => first(&[
            (1, &|| bad_axes(*axes)),
            (3, &|| volume.len() != 16 * count(*axes) || scratch.len() != 16 * count(*axes)),
            (13, &|| beyond(volume, COEFFICIENT)),
        ]),
        Call::Sun { grid, lists, direction, active, light, scratch, hits } => first(&[
            (1, &|| bad_axes(grid.axes)),
            (2, &|| bad_corners(grid)),
            (3, &|| {
                let n = count(grid.axes);
                misfit(lists) || misfit_mask(active, grid) || light.len() != n || scratch.len() != n || too_short(hits, lists)
            }),
            (4, &|| too_many(lists)),
            (5, &|| bad_points(&lists.points)),
            (6, &|| bad_materials(lists)),
            (7, &|| bad_direction(*direction)),
            (13, &|| bad_mask(active, grid)),
        ]),
        Call::Bake(bake) => bake_refusal(bake, false, None),
        Call::LightLookup { grid, light, position } => first(&[
            (1, &|| bad_axes(grid.axes)),
            (2, &|| bad_corners(grid)),
            (3, &|| light.len() != count(grid.axes)),
            (11, &|| bad_position(*position)),
            (13, &|| cells(grid, *position).iter().any(|c| beyond(&light[*c..c + 1], LIGHT))),
        ]),
        Call::CoefficientLookup { grid, volume, position } => first(&[
            (1, &|| bad_axes(grid.axes)),
            (2, &|| bad_corners(grid)),
            (3, &|| volume.len() != 16 * count(grid.axes)),
            (11, &|| bad_position(*position)),
            (13, &|| cells(grid, *position).iter().any(|c| beyond(&volume[16 * c..16 * c + 16], COEFFICIENT))),
        ]),
        Call::Part { axes, volume, scratch, index, choice: _ } => first(&[
            (1, &|| bad_axes(*axes)),
            (3, &|| volume.len() != 16 * count(*axes) || scratch.len() != 16 * count(*axes)),
            (11, &|| *index >= count(*axes) as u64),
        ]),
        // C-22's calls: the rows of the other engine, in their order; hit scratch is not lent
        Call::SolidTransmittance { lists, ray } => first(&[
            (3, &|| misfit(lists)),
            (4, &|| too_many(lists)),
            (5, &|| bad_points(&lists.points)),
            (6, &|| bad_materials(lists) || another_kind(lists)),
            (8, &|| bad_ray(ray)),
        ]),
        Call::SolidSun { grid, lists, direction, active, light, scratch } => first(&[
            (1, &|| bad_axes(grid.axes)),
            (2, &|| bad_corners(grid)),
            (3, &|| misfit(lists) || misfit_mask(active, grid) || [light, scratch].iter().any(|list| list.len() != count(grid.axes))),
            (4, &|| too_many(lists)),
            (5, &|| bad_points(&lists.points)),
            (6, &|| bad_materials(lists) || another_kind(lists)),
            (7, &|| bad_direction(*direction)),
            (13, &|| bad_mask(active, grid)),
        ]),
        Call::SolidBake(bake) => bake_refusal(bake, true, None),
        // C-20's calls: the rows of the call without a tree, and 16 "after 7 and 19"
        Call::TreeNearest { lists, tree, ray } => first(&[
            (3, &|| misfit(lists)),
            (4, &|| too_many(lists)),
            (5, &|| bad_points(&lists.points)),
            (6, &|| bad_materials(lists)),
            (16, &|| bad_tree(lists, tree)),
            (8, &|| bad_ray(ray)),
        ]),
        Call::TreeTransmittance { lists, tree, ray, hits } => first(&[
            (3, &|| misfit(lists) || too_short(hits, lists)),
            (4, &|| too_many(lists)),
            (5, &|| bad_points(&lists.points)),
            (6, &|| bad_materials(lists)),
            (16, &|| bad_tree(lists, tree)),
            (8, &|| bad_ray(ray)),
        ]),
        Call::TreeSun { grid, lists, tree, direction, active, light, scratch, hits } => first(&[
            (1, &|| bad_axes(grid.axes)),
            (2, &|| bad_corners(grid)),
            (3, &|| {
                let n = count(grid.axes);
                misfit(lists) || misfit_mask(active, grid) || [light, scratch].iter().any(|list| list.len() != n) || too_short(hits, lists)
            }),
            (4, &|| too_many(lists)),
            (5, &|| bad_points(&lists.points)),
            (6, &|| bad_materials(lists)),
            (7, &|| bad_direction(*direction)),
            (16, &|| bad_tree(lists, tree)),
            (13, &|| bad_mask(active, grid)),
        ]),
        Call::TreeBake(bake, tree) => bake_refusal(bake, false, Some(tree)),
        Call::BuildTree { points, tree } => first(&[
            (3, &|| {
                let triangles = points.len() / 9;
                points.len() % 9 != 0 || tree.boxes.len() < 6 * triangles || tree.nodes.len() < 3 * triangles || tree.order.len() < triangles
            }),
            (4, &|| points.len() / 9 > TRIANGLES),
            (5, &|| bad_points(points)),
        ]),
    }
}

/// "16, tree not accepted".
fn bad_tree(lists: &Lists, tree: &Tree) -> bool {
    !trees::accepted(&lists.points, tree)
}

/// The rows of a bake, by C-22's engine where `solid`, through C-20's tree where there is one.
fn bake_refusal(bake: &Bake, solid: bool, tree: Option<&Tree>) -> u32 {
    let grid = &bake.grid;
    let lists = &bake.lists;
    let s = bake.sunlight;
    first(&[
        (1, &|| bad_axes(grid.axes)),
        (2, &|| bad_corners(grid)),
        (3, &|| {
            let n = count(grid.axes);
            misfit(lists)
                || bake.sky.len() != SKY
                || bake.lamps.len() % 6 != 0
                || misfit_mask(&bake.active, grid)
                || bake.light.len() != n
                || bake.volume.len() != 16 * n
                || bake.scratch.len() != 16 * n
                || !solid && too_short(&bake.hits, lists)
        }),
        (4, &|| too_many(lists)),
        (5, &|| bad_points(&lists.points)),
        (6, &|| bad_materials(lists) || solid && another_kind(lists)),
        (7, &|| {
            bad_direction([s[0], s[1], s[2]])
                || beyond(&s[3..], COLOUR)
                || beyond(&bake.ambient, COLOUR)
                || beyond(&bake.sky, COLOUR)
        }),
        (19, &|| bad_lamps(&bake.lamps)),
        (16, &|| tree.is_some_and(|tree| bad_tree(lists, tree))),
        (9, &|| bad_progress(bake)),
        (10, &|| bake.allowance < cost(&bake.lamps)),
        (13, &|| {
            bad_mask(&bake.active, grid)
                || beyond(&bake.light, LIGHT)
                || 0 < bake.progress.next && bake.progress.next < count(grid.axes) as u64 && beyond(&bake.volume, COEFFICIENT)
        }),
    ])
}

/// The first row whose condition holds; a later row is not looked at.
fn first(rows: &[(u32, &dyn Fn() -> bool)]) -> u32 {
    rows.iter().find(|row| row.1()).map_or(0, |row| row.0)
}

/// The voxel count, once the axes are known to be good.
fn count(axes: [u64; 3]) -> usize {
    (axes[0] * axes[1] * axes[2]) as usize
}

/// A number beyond a bound in magnitude, or none at all.
fn beyond(numbers: &[f32], bound: f32) -> bool {
    numbers.iter().any(|x| !(x.abs() <= bound))
}

fn outside(x: f32, low: f32, high: f32) -> bool {
    !(low <= x && x <= high)
}

fn bad_axes(axes: [u64; 3]) -> bool {
    axes.iter().any(|a| *a < 1 || *a > AXIS)
}

fn bad_corners(grid: &Grid) -> bool {
    beyond(&grid.corners, POINT) || edges(grid).iter().any(|e| !(*e >= EDGE))
}

fn edges(grid: &Grid) -> [f32; 3] {
    [0, 1, 2].map(|i| (grid.corners[3 + i] - grid.corners[i]) / grid.axes[i] as f32)
}

/// Nine numbers a triangle, seven a material.
fn misfit(lists: &Lists) -> bool {
    lists.points.len() != 9 * lists.uses.len() || lists.numbers.len() != 7 * lists.kinds.len()
}

fn too_short(hits: &Scratch, lists: &Lists) -> bool {
    hits.distances.len() < lists.uses.len() || hits.places.len() < lists.uses.len()
}

fn too_many(lists: &Lists) -> bool {
    lists.uses.len() > TRIANGLES || lists.kinds.len() > MATERIALS
}

fn bad_points(points: &[f32]) -> bool {
    beyond(points, POINT)
}

fn bad_materials(lists: &Lists) -> bool {
    lists.kinds.iter().any(|k| *k >= FIRST_BAD_KIND)
        || lists.numbers.chunks(7).any(|m| beyond(&m[..6], COLOUR) || outside(m[6], 0.0, 1.0))
        || lists.uses.iter().any(|u| *u as usize >= lists.kinds.len())
}

/// Whether a kind other than the solid one stands in the list, used by a triangle or not.
fn another_kind(lists: &Lists) -> bool {
    lists.kinds.iter().any(|k| *k != SOLID)
}

fn bad_direction(d: [f32; 3]) -> bool {
    beyond(&d, POINT) || !((d[0] * d[0] + d[1] * d[1]) + d[2] * d[2] > THIN)
}

fn bad_ray(ray: &Ray) -> bool {
    beyond(&ray.origin, ORIGIN)
        || beyond(&ray.direction, DIRECTION)
        || outside(ray.shortest, 0.0, DISTANCE)
        || ray.longest.is_nan()
}

fn bad_position(position: [f32; 3]) -> bool {
    beyond(&position, POINT)
}

/// "not exactly" the words that the voxels need.
fn misfit_mask(mask: &[u8], grid: &Grid) -> bool {
    words::lent(mask).len() != words::needed(count(grid.axes))
}

/// "13 for a set unused bit".
fn bad_mask(mask: &[u8], grid: &Grid) -> bool {
    words::unused_set(&words::lent(mask), count(grid.axes))
}

fn bad_lamps(lamps: &[f32]) -> bool {
    lamps.len() / 6 > LAMPS || lamps.chunks(6).any(|lamp| beyond(&lamp[..3], POINT) || beyond(&lamp[3..], COLOUR))
}

/// "9 also when the record breaks that rule": rays so far lies "between 64 and W for each mask entry 1 below next, and is zero at zero", where
/// no entry is. No product comes near 2^64.
fn bad_progress(bake: &Bake) -> bool {
    let Progress { next, rays } = bake.progress;
    if next > count(bake.grid.axes) as u64 {
        return true;
    }
    let taken = words::counted_below(&words::lent(&bake.active), next as usize);
    rays < LEAST * taken || rays > cost(&bake.lamps) * taken
}

/// The eight cells that a lookup reads: on each axis the floored cell clamped to the grid, and the one after it, clamped too.
fn cells(grid: &Grid, position: [f32; 3]) -> Vec<usize> {
    let edge = edges(grid);
    let pair = |i: usize| {
        let last = grid.axes[i] as i64 - 1;
        let low = (((position[i] - grid.corners[i]) / edge[i]).floor() as i64).clamp(0, last);
        [low, (low + 1).min(last)]
    };
    let mut out = Vec::new();
    for x in pair(0) {
        for y in pair(1) {
            for z in pair(2) {
                out.push((x + grid.axes[0] as i64 * (y + grid.axes[1] as i64 * z)) as usize);
            }
        }
    }
    out
}
