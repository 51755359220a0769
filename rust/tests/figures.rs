//! The figures of the rules through the wrapper, every call once, and a refusal of each row that a call can give.
use geaidnosa::*;

const ONE: Axes = Axes { width: 1, height: 1, depth: 1 };

fn unit_box(x: f32) -> Corners {
    Corners { min: Vec3::new(0.0, 0.0, 0.0), max: Vec3::new(x, 1.0, 1.0) }
}

fn down(x: f32, y: f32, z: f32) -> Ray {
    Ray { origin: Vec3::new(x, y, z), direction: Vec3::new(0.0, 0.0, -1.0), shortest: 0.0, longest: f32::INFINITY }
}

fn up(x: f32, y: f32, z: f32) -> Ray {
    Ray { direction: Vec3::new(0.0, 0.0, 1.0), ..down(x, y, z) }
}

const Q: Triangle = Triangle { p0: Vec3::new(0.0, 0.0, 0.0), p1: Vec3::new(1.0, 0.0, 0.0), p2: Vec3::new(0.0, 1.0, 0.0) };
const Q_POINTS: [f32; 9] = [0.0, 0.0, 0.0, 1.0, 0.0, 0.0, 0.0, 1.0, 0.0];
const SHEET: [f32; 7] = [0.5, 0.5, 0.5, 0.0, 0.0, 0.0, 0.5];

#[test]
fn the_archive_is_of_this_version() {
    assert_eq!(version(), VERSION_NUMBER);
    let header = include_str!("../../include/geaidnosa.h");
    assert!(header.contains(&format!("GEAIDNOSA_VERSION_NUMBER {VERSION_NUMBER} ")));
    assert!(header.contains(&format!("#define GEAIDNOSA_AXIS_LIMIT {AXIS_LIMIT}\n")));
    assert!(Refusal::Axis.words().ends_with(&format!(" 1..{AXIS_LIMIT}")));
    // the words of the table are the header's
    for row in Refusal::ALL {
        assert!(header.contains(&format!("{:>5}  {}\n", row.number(), row.words())), "{row}");
        assert_eq!(Refusal::of_number(row.number()), Some(row));
    }
    assert_eq!(Refusal::of_number(15), None);
}

#[test]
fn rays() {
    assert_eq!(meet(down(0.25, 0.25, 1.0), Q), Ok(Some(Hit { place: 0, t: 1.0, u: 0.25, v: 0.25, front: true })));
    assert!(meet(down(0.5, 0.5, 1.0), Q).unwrap().is_some());
    assert_eq!(meet(down(0.5, 0.75, 1.0), Q), Ok(None));
    assert_eq!(meet(down(f32::NAN, 0.75, 1.0), Q), Err(Refusal::Ray));
    assert_eq!(meet(down(0.0, 0.0, 1.0), Triangle { p0: Vec3::new(5000.0, 0.0, 0.0), ..Q }), Err(Refusal::Point));
    for (sheets, passes) in [(0, 1.0), (13, 0.5f32.powi(13)), (14, 0.0)] {
        let points = Q_POINTS.repeat(sheets);
        let uses = vec![0; sheets];
        let scene = Scene { points: &points, uses: &uses, kinds: &[1], numbers: &SHEET };
        let (mut distances, mut places) = (vec![0.0; sheets], vec![0; sheets]);
        let hits = HitScratch { distances: &mut distances, places: &mut places };
        assert_eq!(transmittance(scene, down(0.25, 0.25, 1.0), hits), Ok(passes));
        // the highest place among equal distances
        assert_eq!(nearest(scene, down(0.25, 0.25, 1.0)).unwrap().map(|hit| hit.place + 1), (sheets > 0).then_some(sheets));
    }
    let scene = Scene { points: &Q_POINTS, uses: &[1], kinds: &[1], numbers: &SHEET };
    assert_eq!(nearest(scene, down(0.25, 0.25, 1.0)), Err(Refusal::Material));
    let hits = HitScratch { distances: &mut [], places: &mut [] };
    assert_eq!(transmittance(scene, down(0.25, 0.25, 1.0), hits), Err(Refusal::Length));
    let many = Scene { points: &vec![0.0; 9 * 4097], uses: &vec![0; 4097], kinds: &[1], numbers: &SHEET };
    assert_eq!(nearest(many, down(0.25, 0.25, 1.0)), Err(Refusal::TooMany));
}

/// How much passes along a ray, with scratch of its own.
fn passes(scene: Scene, ray: Ray) -> Result<f32, Refusal> {
    let (mut distances, mut places) = (vec![0.0; scene.uses.len()], vec![0; scene.uses.len()]);
    transmittance(scene, ray, HitScratch { distances: &mut distances, places: &mut places })
}

#[test]
fn sides() {
    // the same sheet from both sides: Q's corners run counter-clockwise as seen from above
    let hit = |front| Hit { place: 0, t: 1.0, u: 0.25, v: 0.25, front };
    assert_eq!(meet(down(0.25, 0.25, 1.0), Q), Ok(Some(hit(true))));
    assert_eq!(meet(up(0.25, 0.25, -1.0), Q), Ok(Some(hit(false))));
    // two corners swapped swap the sides; three moved on in a ring do not
    let (swapped, moved) = (Triangle { p1: Q.p2, p2: Q.p1, ..Q }, Triangle { p0: Q.p1, p1: Q.p2, p2: Q.p0 });
    for (triangle, from_above) in [(swapped, false), (moved, true)] {
        assert_eq!(meet(down(0.25, 0.25, 1.0), triangle).unwrap().map(|h| h.front), Some(from_above));
        assert_eq!(meet(up(0.25, 0.25, -1.0), triangle).unwrap().map(|h| h.front), Some(!from_above));
    }
    // along the sheet there is no hit, and so no side
    let along = Ray { origin: Vec3::new(-1.0, 0.25, 0.0), direction: Vec3::new(1.0, 0.0, 0.0), shortest: 0.0, longest: f32::INFINITY };
    assert_eq!(meet(along, Q), Ok(None));
    // of each kind: what is met from above and from below, and what passes; a panel's transmission is never read
    for transmission in [0.0, 0.25, 1.0] {
        let numbers = [0.5, 0.5, 0.5, 0.0, 0.0, 0.0, transmission];
        for (kind, above, below, passes_down, passes_up) in [
            (OPAQUE, Some(hit(true)), Some(hit(false)), 0.0, 0.0),
            (TRANSLUCENT, Some(hit(true)), Some(hit(false)), transmission, transmission),
            (PANEL, Some(hit(true)), None, 0.0, 1.0),
        ] {
            let scene = Scene { points: &Q_POINTS, uses: &[0], kinds: &[kind], numbers: &numbers };
            assert_eq!((nearest(scene, down(0.25, 0.25, 1.0)), nearest(scene, up(0.25, 0.25, -1.0))), (Ok(above), Ok(below)), "kind {kind}");
            assert_eq!((passes(scene, down(0.25, 0.25, 1.0)), passes(scene, up(0.25, 0.25, -1.0))), (Ok(passes_down), Ok(passes_up)), "kind {kind}");
        }
    }
    // at one distance a panel, a sheet and a wall, in each order: from above the highest place, from below the highest that is no panel
    let numbers = SHEET.repeat(3);
    let points = Q_POINTS.repeat(3);
    for kinds in [[PANEL, TRANSLUCENT, OPAQUE], [OPAQUE, PANEL, TRANSLUCENT], [TRANSLUCENT, OPAQUE, PANEL], [PANEL, PANEL, TRANSLUCENT], [TRANSLUCENT, PANEL, PANEL]] {
        let scene = Scene { points: &points, uses: &[0, 1, 2], kinds: &kinds, numbers: &numbers };
        assert_eq!(nearest(scene, down(0.25, 0.25, 1.0)), Ok(Some(Hit { place: 2, ..hit(true) })), "{kinds:?}");
        let place = (0..3).rev().find(|place| kinds[*place] != PANEL).unwrap();
        assert_eq!(nearest(scene, up(0.25, 0.25, -1.0)), Ok(Some(Hit { place, ..hit(false) })), "{kinds:?}");
        let walls = kinds.contains(&OPAQUE);
        assert_eq!((passes(scene, down(0.25, 0.25, 1.0)), passes(scene, up(0.25, 0.25, -1.0))), (Ok(0.0), Ok(if walls { 0.0 } else { 0.5 })), "{kinds:?}");
    }
    // a panel before a wall: seen from its front it hides the wall, from behind nothing hides it; back to back with a second one it is opaque
    let lifted: Vec<f32> = Q_POINTS.chunks(3).flat_map(|p| [p[0], p[1], p[2] + 0.5]).collect();
    let turned: Vec<f32> = [&Q_POINTS[..3], &Q_POINTS[6..], &Q_POINTS[3..6]].concat();
    let points = [&lifted[..], &Q_POINTS].concat();
    let scene = Scene { points: &points, uses: &[1, 0], kinds: &[OPAQUE, PANEL], numbers: &numbers[..14] };
    assert_eq!(nearest(scene, down(0.25, 0.25, 1.0)).unwrap().map(|h| (h.place, h.t)), Some((0, 0.5)));
    assert_eq!(nearest(scene, up(0.25, 0.25, 0.25)), Ok(None));
    assert_eq!(nearest(scene, up(0.25, 0.25, -1.0)).unwrap().map(|h| (h.place, h.t)), Some((1, 1.0)));
    let points = [&turned[..], &Q_POINTS].concat();
    let scene = Scene { points: &points, uses: &[0, 0], kinds: &[PANEL], numbers: &SHEET };
    assert_eq!((passes(scene, down(0.25, 0.25, 1.0)), passes(scene, up(0.25, 0.25, -1.0))), (Ok(0.0), Ok(0.0)));
    assert_eq!(nearest(scene, down(0.25, 0.25, 1.0)).unwrap().map(|h| (h.place, h.front)), Some((1, true)));
    assert_eq!(nearest(scene, up(0.25, 0.25, -1.0)).unwrap().map(|h| (h.place, h.front)), Some((0, true)));
    // row 6: every kind above 2, and a panel's transmission like any other
    for kind in 3..=255 {
        let scene = Scene { points: &Q_POINTS, uses: &[0], kinds: &[kind], numbers: &SHEET };
        assert_eq!((nearest(scene, down(0.25, 0.25, 1.0)), passes(scene, down(0.25, 0.25, 1.0))), (Err(Refusal::Material), Err(Refusal::Material)), "kind {kind}");
    }
    for transmission in [-0.25, 1.5, f32::NAN] {
        let scene = Scene { points: &Q_POINTS, uses: &[0], kinds: &[PANEL], numbers: &[0.5, 0.5, 0.5, 0.0, 0.0, 0.0, transmission] };
        assert_eq!((nearest(scene, up(0.25, 0.25, -1.0)), passes(scene, up(0.25, 0.25, -1.0))), (Err(Refusal::Material), Err(Refusal::Material)));
    }
}

/// One voxel over a floor, under a sky, a sun and a lamp, with a large sheet of this kind between, its front up or down; none where no kind is given.
fn under_a_sheet(kind: Option<u8>, front_up: bool) -> (f32, [f32; 16], u64) {
    let mut points = vec![-20.0, -20.0, -1.0, 20.0, -20.0, -1.0, 0.0, 20.0, -1.0];
    let mut corners = [[-60.0, -60.0, 10.0], [60.0, -60.0, 10.0], [0.0, 60.0, 10.0]];
    if !front_up {
        corners.swap(1, 2);
    }
    points.extend(kind.iter().flat_map(|_| corners.concat()));
    let (uses, kinds) = (&[0, 1][..points.len() / 9], [OPAQUE, kind.unwrap_or(OPAQUE)]);
    let numbers = [0.8, 0.7, 0.6, 0.0, 0.0, 0.0, 0.0, 0.3, 0.2, 0.1, 0.5, 0.0, 0.25, 0.5];
    let scene = Scene { points: &points, uses, kinds: &kinds, numbers: &numbers };
    let (mut distances, mut places, mut lights, mut volume) = ([0.0; 2], [0; 2], [0.0], [0.0; 16]);
    let light = Light { direction: Vec3::new(0.0, 0.0, 1.0), colour: Vec3::new(3.0, 2.0, 1.0) };
    let hits = HitScratch { distances: &mut distances, places: &mut places };
    assert_eq!(sun(ONE, unit_box(1.0), scene, light.direction, &[1], &mut lights, &mut [0.0], hits), Ok(1));
    let (ambient, sky) = (Ambient::default(), [0.5; SKY_LENGTH]);
    let input = BakeInput { axes: ONE, corners: unit_box(1.0), scene, light, ambient, sky: &sky, lamps: &[0.5, 0.5, 12.0, 90.0, 80.0, 70.0], active: &[1], lights: &lights };
    let hits = HitScratch { distances: &mut distances, places: &mut places };
    let baked = bake(input, &mut volume, &mut [0.0; 16], hits, Progress::ZERO, u64::MAX).unwrap();
    (lights[0], volume, baked.rays)
}

#[test]
fn panels_in_sun_and_bake() {
    // from behind a panel is not there: light, numbers and rays are those of the hall without it, bit for bit
    let bits = |(light, volume, rays): (f32, [f32; 16], u64)| (light.to_bits(), volume.map(f32::to_bits), rays);
    let open = under_a_sheet(None, true);
    assert_eq!(open.0, 1.0);
    assert_eq!(bits(under_a_sheet(Some(PANEL), true)), bits(open));
    // from the front it is opaque
    let closed = under_a_sheet(Some(OPAQUE), false);
    assert_eq!(closed.0, 0.0);
    assert_eq!(bits(under_a_sheet(Some(PANEL), false)), bits(closed));
    assert_ne!(bits(open), bits(closed));
    // a sheet that lets half pass has no side
    let half = [true, false].map(|front_up| under_a_sheet(Some(TRANSLUCENT), front_up).0);
    assert_eq!(half, [0.25; 2]);
    // and a panel occupies voxels whichever way it is turned: the call has no material to ask for
    let axes = Axes { width: 6, height: 1, depth: 1 };
    let points: Vec<f32> = Q_POINTS.iter().map(|x| x * 0.5).collect();
    let swapped = [&points[..3], &points[6..], &points[3..6]].concat();
    let both = [&points, &swapped].map(|points| {
        let (mut occupied, mut active) = ([0], [0]);
        (masks(axes, unit_box(6.0), points, &mut occupied, &mut active).unwrap(), occupied, active)
    });
    assert!(both[0].0.occupied > 0 && both[0] == both[1]);
}

/// A small hall of solid walls: a floor, a wall beside, a roof high over half of it and a lit box in the middle. Its axes, corners, points, uses and numbers.
fn walled() -> (Axes, Corners, Vec<f32>, Vec<u32>, [f32; 21]) {
    let axes = Axes { width: 4, height: 5, depth: 12 };
    let corners = Corners { min: Vec3::default(), max: Vec3::new(4.0, 5.0, 12.0) };
    let mut points = Vec::new();
    let mut uses = Vec::new();
    let mut quad = |material: u32, [a, b, c, d]: [[f32; 3]; 4]| {
        [a, b, c, a, c, d].into_iter().for_each(|p| points.extend(p));
        uses.extend([material; 2]);
    };
    quad(0, [[0.1, 0.1, 0.2], [3.9, 0.1, 0.2], [3.9, 4.9, 0.2], [0.1, 4.9, 0.2]]);
    quad(0, [[0.2, 0.1, 0.2], [0.2, 4.9, 0.2], [0.2, 4.9, 3.4], [0.2, 0.1, 3.4]]);
    quad(1, [[0.1, 0.1, 11.6], [2.1, 0.1, 11.6], [2.1, 4.9, 11.6], [0.1, 4.9, 11.6]]);
    quad(2, [[1.1, 2.1, 1.2], [2.3, 2.1, 1.2], [2.3, 3.2, 1.2], [1.1, 3.2, 1.2]]);
    quad(0, [[1.1, 2.1, 0.3], [2.3, 2.1, 0.3], [2.3, 2.1, 1.2], [1.1, 2.1, 1.2]]);
    // the transmission of a wall is never read
    let numbers = [0.8, 0.7, 0.6, 0.0, 0.0, 0.0, 0.0, 0.3, 0.4, 0.5, 0.0, 0.0, 0.0, 1.0, 0.1, 0.1, 0.1, 4.0, 3.0, 1.0, 0.5];
    (axes, corners, points, uses, numbers)
}

#[test]
fn solid_walls() {
    let bits = |list: &[f32]| list.iter().map(|x| x.to_bits()).collect::<Vec<u32>>();
    let (axes, corners, points, uses, numbers) = walled();
    let (n, t) = (axes.count(), uses.len());
    let kinds = [OPAQUE; 3];
    let scene = Scene { points: &points, uses: &uses, kinds: &kinds, numbers: &numbers };
    assert!(scene.is_solid() && Scene { kinds: &[], ..scene }.is_solid());
    // rays from everywhere to everywhere, some of them met more than once, some of them short
    let mut seen = [0; 2];
    for k in 0..4096u32 {
        let part = |shift: u32| (k.wrapping_mul(2_654_435_761) >> shift & 63) as f32 / 64.0;
        let origin = Vec3::new(4.0 * part(0), 5.0 * part(6), 12.0 * part(12));
        let direction = Vec3::new(2.0 * part(18) - 1.0, 2.0 * part(24) - 1.0, if k % 2 == 0 { 1.0 } else { -1.0 });
        let ray = Ray { origin, direction, shortest: 1e-4, longest: [f32::INFINITY, f32::INFINITY, 1.5, -1.0][k as usize / 2 % 4] };
        let through = solid_transmittance(scene, ray).unwrap();
        assert_eq!(Ok(through.to_bits()), passes(scene, ray).map(f32::to_bits), "{ray:?}");
        seen[through as usize] += 1;
    }
    assert!(seen.iter().all(|count| *count > 500), "{seen:?}");
    // the sun: light, scratch and rays
    let (mut occupied, mut active) = (vec![0; axes.words()], vec![0; axes.words()]);
    let count = masks(axes, corners, &points, &mut occupied, &mut active).unwrap().active;
    assert!(0 < count && count < n as u64);
    let towards = Vec3::new(0.1, -0.05, 0.9);
    let (mut distances, mut places) = (vec![0.0; t], vec![0; t]);
    let (mut lights, mut before, mut solid_lights, mut solid_before) = (vec![5.0; n], vec![6.0; n], vec![7.0; n], vec![8.0; n]);
    assert_eq!(sun(axes, corners, scene, towards, &active, &mut lights, &mut before, HitScratch { distances: &mut distances, places: &mut places }), Ok(count));
    assert_eq!(solid_sun(axes, corners, scene, towards, &active, &mut solid_lights, &mut solid_before), Ok(count));
    assert_eq!((bits(&solid_lights), bits(&solid_before)), (bits(&lights), bits(&before)));
    assert!(before.contains(&0.0) && before.contains(&1.0));
    // the bake: by either, and by both in turn in the calls of one, which answer alike at every step
    let lamps = [2.0, 2.0, 2.5, 6.0, 5.0, 4.0, 1.0, 1.0, 8.0, 2.0, 3.0, 4.0];
    let sky: Vec<f32> = (0..SKY_LENGTH).map(|i| 0.5 + (i % 7) as f32 * 0.125).collect();
    for lamps in [&[][..], &lamps] {
        let ambient = Ambient { c0: Vec3::new(0.2, 0.25, 0.3), ..Ambient::default() };
        let light = Light { direction: towards, colour: Vec3::new(3.0, 2.5, 2.0) };
        let input = BakeInput { axes, corners, scene, light, ambient, sky: &sky, lamps, active: &active, lights: &lights };
        let mut by = |solid: bool, volume: &mut [f32], scratch: &mut [f32], progress: Progress, allowance: u64| match solid {
            true => solid_bake(input, volume, scratch, progress, allowance),
            false => bake(input, volume, scratch, HitScratch { distances: &mut distances, places: &mut places }, progress, allowance),
        };
        let (mut whole, mut unblurred) = (vec![0.0; 16 * n], vec![0.0; 16 * n]);
        let unbroken = by(false, &mut whole, &mut unblurred, Progress::ZERO, u64::MAX).unwrap();
        for turns in [[true, true], [true, false], [false, true]] {
            let (mut volume, mut scratch, mut other, mut kept) = (vec![0.0; 16 * n], vec![3.0; 16 * n], vec![0.0; 16 * n], vec![3.0; 16 * n]);
            let (mut progress, mut calls) = (Progress::ZERO, 0);
            while progress.next < n {
                let answers = [by(turns[calls % 2], &mut volume, &mut scratch, progress, 2000), by(false, &mut other, &mut kept, progress, 2000)];
                assert_eq!(answers[0], answers[1]);
                assert_eq!((bits(&volume), bits(&scratch)), (bits(&other), bits(&kept)), "call {calls}");
                progress = answers[0].unwrap().progress;
                calls += 1;
            }
            assert!(calls > 2 && progress == unbroken.progress);
            assert_eq!((bits(&volume), bits(&scratch)), (bits(&whole), bits(&unblurred)));
        }
        let (mut volume, mut scratch) = (vec![0.0; 16 * n], vec![0.0; 16 * n]);
        assert_eq!(by(true, &mut volume, &mut scratch, Progress::ZERO, u64::MAX), Ok(unbroken));
        assert_eq!((bits(&volume), bits(&scratch)), (bits(&whole), bits(&unblurred)));
        // a finished bake stays so, and what the other call refuses this one does
        assert_eq!(by(true, &mut volume, &mut scratch, unbroken.progress, 2000), Ok(Baked { progress: unbroken.progress, rays: 0 }));
        for (progress, allowance) in [(Progress { next: n + 1, ..unbroken.progress }, 2000), (Progress { rays: 0, ..unbroken.progress }, 2000), (Progress::ZERO, 383)] {
            let refused = by(false, &mut volume, &mut scratch, progress, allowance);
            assert!(refused.is_err());
            assert_eq!(by(true, &mut volume, &mut scratch, progress, allowance), refused);
        }
        assert_eq!((bits(&volume), bits(&scratch)), (bits(&whole), bits(&unblurred)));
    }
    // any other kind, first or last, used or not: 6, and nothing is written
    let input = BakeInput {
        axes,
        corners,
        scene,
        light: Light { direction: towards, colour: Vec3::default() },
        ambient: Ambient::default(),
        sky: &sky,
        lamps: &[],
        active: &active,
        lights: &lights,
    };
    let ray = down(2.0, 2.5, 8.0);
    for kind in 1..=255 {
        for place in [0, 3] {
            // a material more than the triangles use
            let mut kinds = [OPAQUE; 4];
            kinds[place] = kind;
            let scene = Scene { kinds: &kinds, numbers: &[&numbers[..], &[0.0; 7]].concat(), ..scene };
            assert!(!scene.is_solid());
            assert_eq!(solid_transmittance(scene, ray), Err(Refusal::Material), "kind {kind}");
            let (mut light, mut scratch, mut volume, mut kept) = (vec![5.0; n], vec![6.0; n], vec![7.0; 16 * n], vec![8.0; 16 * n]);
            assert_eq!(solid_sun(axes, corners, scene, towards, &active, &mut light, &mut scratch), Err(Refusal::Material), "kind {kind}");
            assert_eq!(solid_bake(BakeInput { scene, ..input }, &mut volume, &mut kept, Progress::ZERO, u64::MAX), Err(Refusal::Material), "kind {kind}");
            assert_eq!((light, scratch, volume, kept), (vec![5.0; n], vec![6.0; n], vec![7.0; 16 * n], vec![8.0; 16 * n]));
        }
    }
    // in its row: after 5, before 7 and 8
    let glass = Scene { kinds: &[OPAQUE, TRANSLUCENT, OPAQUE], ..scene };
    let far: Vec<f32> = points.iter().map(|x| x + 5000.0).collect();
    let nowhere = Vec3::default();
    assert_eq!(solid_transmittance(Scene { points: &far, ..glass }, ray), Err(Refusal::Point));
    assert_eq!(solid_transmittance(glass, Ray { shortest: -1.0, ..ray }), Err(Refusal::Material));
    assert_eq!(solid_transmittance(scene, Ray { shortest: -1.0, ..ray }), Err(Refusal::Ray));
    let (mut light, mut scratch) = (vec![5.0; n], vec![6.0; n]);
    assert_eq!(solid_sun(axes, corners, Scene { points: &far, ..glass }, nowhere, &active, &mut light, &mut scratch), Err(Refusal::Point));
    assert_eq!(solid_sun(axes, corners, glass, nowhere, &active, &mut light, &mut scratch), Err(Refusal::Material));
    assert_eq!(solid_sun(axes, corners, scene, nowhere, &active, &mut light, &mut scratch), Err(Refusal::Light));
    // 3 asks for the lists that there are
    let short = Scene { points: &points[1..], ..scene };
    assert_eq!(solid_transmittance(short, ray), Err(Refusal::Length));
    assert_eq!(solid_sun(axes, corners, short, towards, &active, &mut light, &mut scratch), Err(Refusal::Length));
    assert_eq!(solid_sun(axes, corners, scene, towards, &active, &mut light, &mut scratch[1..]), Err(Refusal::Length));
    assert_eq!(solid_bake(input, &mut vec![7.0; 16 * n - 1], &mut vec![8.0; 16 * n], Progress::ZERO, u64::MAX), Err(Refusal::Length));
    assert_eq!((light, scratch), (vec![5.0; n], vec![6.0; n]));
    // no triangle: everything passes
    let empty = Scene { points: &[], uses: &[], kinds: &[], numbers: &[] };
    assert_eq!(solid_transmittance(empty, ray), Ok(1.0));
}

/// The tree of one leaf that holds every triangle, in a box as large as this.
fn one_leaf(t: usize, reach: f32) -> BoxTree {
    BoxTree { boxes: vec![-reach, -reach, -reach, reach, reach, reach], nodes: vec![t as u32, 0, 7], order: (0..t as u32).collect() }
}

/// The boxes of a chain: each but the last has a leaf of one triangle as its left half, and all else as its right.
fn chain(t: usize) -> BoxTree {
    let (mut nodes, order) = (Vec::new(), (0..t as u32).rev().collect());
    for k in 0..t as u32 - 1 {
        nodes.extend([0, 2 * k + 1, 2 * k + 2, 1, k, 0]);
    }
    nodes.extend([1, t as u32 - 1, 0]);
    BoxTree { boxes: [-99.0, -99.0, -99.0, 99.0, 99.0, 99.0].repeat(nodes.len() / 3), nodes, order }
}

#[test]
fn trees() {
    let bits = |list: &[f32]| list.iter().map(|x| x.to_bits()).collect::<Vec<u32>>();
    let (axes, corners, points, uses, numbers) = walled();
    let (n, t) = (axes.count(), uses.len());
    let scene = Scene { points: &points, uses: &uses, kinds: &[OPAQUE, TRANSLUCENT, PANEL], numbers: &numbers };
    // the builder's: ten triangles in leaves of two and three, each triangle in one, every box inside the one above it
    let built = build_tree(&points).unwrap();
    assert_eq!((built.boxes.len(), built.nodes.len(), built.order.len()), (42, 21, t));
    let mut order = built.order.clone();
    order.sort_unstable();
    assert_eq!(order, (0..t as u32).collect::<Vec<u32>>());
    assert_eq!(built.nodes.chunks(3).map(|node| node[0]).collect::<Vec<u32>>(), [0, 0, 2, 3, 0, 2, 3]);
    let inside = |low: usize, high: usize| (0..3).all(|a| built.boxes[6 * high + a] <= built.boxes[6 * low + a] && built.boxes[6 * low + 3 + a] <= built.boxes[6 * high + 3 + a]);
    for (k, node) in built.nodes.chunks(3).enumerate().filter(|(_, node)| node[0] == 0) {
        assert!(node[1..].iter().all(|half| *half as usize > k && inside(*half as usize, k)));
    }
    let others = [one_leaf(t, 50.0), one_leaf(t, f32::INFINITY), chain(t)];
    let trees: Vec<Tree> = [&built].into_iter().chain(&others).map(BoxTree::lent).collect();
    // rays from everywhere to everywhere: each tree's answers are those without one
    let (mut distances, mut places) = (vec![0.0; t], vec![0; t]);
    let mut hit = 0;
    for k in 0..4096u32 {
        let part = |shift: u32| (k.wrapping_mul(2_654_435_761) >> shift & 63) as f32 / 64.0;
        let origin = Vec3::new(4.0 * part(0), 5.0 * part(6), 12.0 * part(12));
        let direction = Vec3::new(2.0 * part(18) - 1.0, 2.0 * part(24) - 1.0, if k % 2 == 0 { 1.0 } else { -1.0 });
        let ray = Ray { origin, direction, shortest: 1e-4, longest: [f32::INFINITY, f32::INFINITY, 1.5, -1.0][k as usize / 2 % 4] };
        let (first, through) = (nearest(scene, ray).unwrap(), passes(scene, ray).unwrap().to_bits());
        hit += u32::from(first.is_some());
        for tree in &trees {
            assert_eq!(tree_nearest(scene, *tree, ray), Ok(first), "{ray:?}");
            let hits = HitScratch { distances: &mut distances, places: &mut places };
            assert_eq!(tree_transmittance(scene, *tree, ray, hits).map(f32::to_bits), Ok(through), "{ray:?}");
        }
    }
    assert!(500 < hit && hit < 3500, "{hit}");
    // sun and bake: the same bits and rays, whichever tree a call is handed
    let (mut occupied, mut active) = (vec![0; axes.words()], vec![0; axes.words()]);
    let count = masks(axes, corners, &points, &mut occupied, &mut active).unwrap().active;
    let towards = Vec3::new(0.1, -0.05, 0.9);
    let (mut lights, mut before) = (vec![5.0; n], vec![6.0; n]);
    assert_eq!(sun(axes, corners, scene, towards, &active, &mut lights, &mut before, HitScratch { distances: &mut distances, places: &mut places }), Ok(count));
    for tree in &trees {
        let (mut light, mut scratch) = (vec![7.0; n], vec![8.0; n]);
        let hits = HitScratch { distances: &mut distances, places: &mut places };
        assert_eq!(tree_sun(axes, corners, scene, *tree, towards, &active, &mut light, &mut scratch, hits), Ok(count));
        assert_eq!((bits(&light), bits(&scratch)), (bits(&lights), bits(&before)));
    }
    let sky: Vec<f32> = (0..SKY_LENGTH).map(|i| 0.5 + (i % 7) as f32 * 0.125).collect();
    let light = Light { direction: towards, colour: Vec3::new(3.0, 2.5, 2.0) };
    let ambient = Ambient { c0: Vec3::new(0.2, 0.25, 0.3), ..Ambient::default() };
    let lamps = [2.0, 2.0, 2.5, 6.0, 5.0, 4.0];
    let input = BakeInput { axes, corners, scene, light, ambient, sky: &sky, lamps: &lamps, active: &active, lights: &lights };
    let mut by = |tree: Option<Tree>, input: BakeInput, volume: &mut [f32], scratch: &mut [f32], progress: Progress, allowance: u64| {
        let hits = HitScratch { distances: &mut distances, places: &mut places };
        match tree {
            Some(tree) => tree_bake(input, tree, volume, scratch, hits, progress, allowance),
            None => bake(input, volume, scratch, hits, progress, allowance),
        }
    };
    let (mut whole, mut unblurred) = (vec![0.0; 16 * n], vec![0.0; 16 * n]);
    let unbroken = by(None, input, &mut whole, &mut unblurred, Progress::ZERO, u64::MAX).unwrap();
    for tree in &trees {
        let (mut volume, mut scratch) = (vec![0.0; 16 * n], vec![0.0; 16 * n]);
        assert_eq!(by(Some(*tree), input, &mut volume, &mut scratch, Progress::ZERO, u64::MAX), Ok(unbroken));
        assert_eq!((bits(&volume), bits(&scratch)), (bits(&whole), bits(&unblurred)));
    }
    // one bake, each call through the next of the trees
    let (mut volume, mut scratch, mut progress, mut calls) = (vec![0.0; 16 * n], vec![0.0; 16 * n], Progress::ZERO, 0);
    while progress.next < n {
        progress = by(Some(trees[calls % trees.len()]), input, &mut volume, &mut scratch, progress, 2000).unwrap().progress;
        calls += 1;
    }
    assert!(calls > trees.len() && progress == unbroken.progress);
    assert_eq!((bits(&volume), bits(&scratch)), (bits(&whole), bits(&unblurred)));
    // a tree that is not accepted: 16 of every call, and nothing is written
    let mut bad = Vec::new();
    let mut broken = |tree: &BoxTree, what: &'static str, change: &dyn Fn(&mut BoxTree)| {
        let mut tree = tree.clone();
        change(&mut tree);
        bad.push((what, tree));
    };
    broken(&built, "a box more", &|tree| tree.boxes.extend([0.0; 6]));
    broken(&built, "a number less", &|tree| tree.boxes.truncate(tree.boxes.len() - 1));
    broken(&built, "a whole number less", &|tree| tree.nodes.truncate(tree.nodes.len() - 1));
    broken(&built, "a place more", &|tree| tree.order.push(0));
    broken(&built, "a place less", &|tree| tree.order.truncate(tree.order.len() - 1));
    broken(&built, "no box", &|tree| *tree = BoxTree::default());
    broken(&built, "a leaf as both halves", &|tree| tree.nodes[5] = 2);
    broken(&built, "a half past the boxes", &|tree| tree.nodes[2] = 7);
    broken(&built, "a half before its box", &|tree| tree.nodes[4] = 1);
    broken(&built, "a triangle twice", &|tree| tree.order[1] = tree.order[0]);
    broken(&built, "a place past the list", &|tree| tree.order[0] = t as u32);
    broken(&built, "a leaf without triangles", &|tree| tree.nodes[6] = 0);
    broken(&built, "a run past the order", &|tree| tree.nodes[18] = 4);
    broken(&built, "a box the least bit small", &|tree| tree.boxes[3] = f32::from_bits(tree.boxes[3].to_bits() - 1));
    broken(&built, "a box with a NaN", &|tree| tree.boxes[41] = f32::NAN);
    broken(&one_leaf(t, 50.0), "a leaf short of one triangle", &|tree| tree.nodes[0] -= 1);
    for (what, tree) in &bad {
        let tree = tree.lent();
        assert_eq!(tree_nearest(scene, tree, down(2.0, 2.5, 8.0)), Err(Refusal::Tree), "{what}");
        let (mut d, mut p, mut light, mut scratch) = (vec![1.0; t], vec![2; t], vec![5.0; n], vec![6.0; n]);
        assert_eq!(tree_transmittance(scene, tree, down(2.0, 2.5, 8.0), HitScratch { distances: &mut d, places: &mut p }), Err(Refusal::Tree), "{what}");
        let hits = HitScratch { distances: &mut d, places: &mut p };
        assert_eq!(tree_sun(axes, corners, scene, tree, towards, &active, &mut light, &mut scratch, hits), Err(Refusal::Tree), "{what}");
        assert_eq!((light, scratch, d, p), (vec![5.0; n], vec![6.0; n], vec![1.0; t], vec![2; t]));
        assert_eq!(by(Some(tree), input, &mut volume, &mut unblurred.clone(), Progress::ZERO, u64::MAX), Err(Refusal::Tree), "{what}");
        assert_eq!(bits(&volume), bits(&whole), "{what}");
    }
    // 24 boxes above a box are accepted, 25 are not
    let sheets = Q_POINTS.repeat(26);
    let stack = Scene { points: &sheets[..225], uses: &[0; 25], kinds: &[OPAQUE], numbers: &SHEET };
    assert_eq!(tree_nearest(stack, chain(25).lent(), down(0.25, 0.25, 1.0)).unwrap().map(|h| h.place), Some(24));
    let stack = Scene { points: &sheets, uses: &[0; 26], ..stack };
    assert_eq!(tree_nearest(stack, chain(26).lent(), down(0.25, 0.25, 1.0)), Err(Refusal::Tree));
    // in its row: after 6, 7 and 19, before 8, 9, 10 and 13
    let wrong = one_leaf(t, 1.0);
    let (tree, wrong) = (built.lent(), wrong.lent());
    let ray = Ray { shortest: -1.0, ..down(2.0, 2.5, 8.0) };
    let odd = Scene { kinds: &[OPAQUE, TRANSLUCENT, 3], ..scene };
    assert_eq!((tree_nearest(odd, wrong, ray), tree_nearest(scene, wrong, ray), tree_nearest(scene, tree, ray)), (Err(Refusal::Material), Err(Refusal::Tree), Err(Refusal::Ray)));
    let untidy: Vec<u64> = active.iter().enumerate().map(|(k, word)| if k + 1 == active.len() { word | 1 << 63 } else { *word }).collect();
    assert!(n % 64 != 0);
    let (mut d, mut p, mut lit, mut kept) = (vec![0.0; t], vec![0; t], vec![5.0; n], vec![6.0; n]);
    for (tree, direction, row) in [(wrong, Vec3::default(), Refusal::Light), (wrong, towards, Refusal::Tree), (tree, towards, Refusal::Contents)] {
        let hits = HitScratch { distances: &mut d, places: &mut p };
        assert_eq!(tree_sun(axes, corners, scene, tree, direction, &untidy, &mut lit, &mut kept, hits), Err(row));
    }
    assert_eq!((lit, kept), (vec![5.0; n], vec![6.0; n]));
    let far = [1e9, 0.0, 0.0, 0.0, 0.0, 0.0];
    let rows = [
        (wrong, Vec3::default(), &far, Progress { next: n + 1, rays: 0 }, 0, Refusal::Light),
        (wrong, towards, &far, Progress { next: n + 1, rays: 0 }, 0, Refusal::Lamp),
        (wrong, towards, &lamps, Progress { next: n + 1, rays: 0 }, 0, Refusal::Tree),
        (tree, towards, &lamps, Progress { next: n + 1, rays: 0 }, 0, Refusal::Progress),
        (tree, towards, &lamps, Progress::ZERO, 447, Refusal::Allowance),
        (tree, towards, &lamps, Progress::ZERO, 448, Refusal::Contents),
    ];
    for (tree, direction, lamps, progress, allowance, row) in rows {
        let input = BakeInput { light: Light { direction, ..light }, lamps, active: &untidy, ..input };
        assert_eq!(by(Some(tree), input, &mut volume, &mut scratch, progress, allowance), Err(row));
    }
    assert_eq!((bits(&volume), bits(&scratch)), (bits(&whole), bits(&unblurred)));
    // no triangle, or none that is present: the empty tree, and that one alone
    let empty = Scene { points: &[], uses: &[], kinds: &[], numbers: &[] };
    let absent = Scene { points: &[1.0; 18], uses: &[0; 2], kinds: &[OPAQUE], numbers: &SHEET };
    for scene in [empty, absent] {
        assert_eq!(build_tree(scene.points), Ok(BoxTree::default()));
        assert_eq!(tree_nearest(scene, Tree::EMPTY, down(0.25, 0.25, 1.0)), Ok(None));
        let hits = HitScratch { distances: &mut d, places: &mut p };
        assert_eq!(tree_transmittance(scene, Tree::EMPTY, down(0.25, 0.25, 1.0), hits), Ok(1.0));
        assert_eq!(tree_nearest(scene, one_leaf(scene.uses.len(), 50.0).lent(), down(0.25, 0.25, 1.0)), Err(Refusal::Tree));
    }
    // the builder's refusals: 3 before 4 before 5
    assert_eq!(build_tree(&vec![f32::NAN; 9 * 4097 + 1]), Err(Refusal::Length));
    assert_eq!(build_tree(&vec![f32::NAN; 9 * 4097]), Err(Refusal::TooMany));
    assert_eq!(build_tree(&vec![f32::NAN; 9 * 4096]), Err(Refusal::Point));
    assert_eq!(build_tree(&Q_POINTS).map(|tree| (tree.nodes, tree.order)), Ok((vec![1, 0, 0], vec![0])));
}

/// The smallest hit that was found of those that a tree leaves out: it lies off its own triangle's padded box. docs/DIFFERENCES.md has it.
#[test]
fn what_a_tree_leaves_out() {
    let points = [0x3ec7ae15u32, 0x3e55b37e, 0x3ece762a, 0xbd79ecde, 0x3e99999a, 0, 0x3ec7ae15, 0xbd30048c, 0x3e367474].map(f32::from_bits);
    let [x, y, z, dx, dy, dz] = [0x3ecb0429u32, 0xba486500, 0x3e64483b, 0x3f563f9f, 0x3de57e3c, 0x3f800000].map(f32::from_bits);
    let ray = Ray { origin: Vec3::new(x, y, z), direction: Vec3::new(dx, dy, dz), shortest: 0.0, longest: f32::INFINITY };
    let tree = build_tree(&points).unwrap();
    for kind in [OPAQUE, TRANSLUCENT] {
        let scene = Scene { points: &points, uses: &[0], kinds: &[kind], numbers: &SHEET };
        assert_eq!(nearest(scene, ray).unwrap().map(|hit| hit.t.to_bits()), Some(0x3d800000));
        assert!(passes(scene, ray).unwrap() < 1.0);
        assert_eq!(tree_nearest(scene, tree.lent(), ray), Ok(None));
        assert_eq!(tree_nearest(scene, one_leaf(1, 50.0).lent(), ray), Ok(None));
        let hits = HitScratch { distances: &mut [0.0], places: &mut [0] };
        assert_eq!(tree_transmittance(scene, tree.lent(), ray, hits), Ok(1.0));
    }
}

#[test]
fn grids() {
    let (mut occupied, mut active) = ([9], [!9]);
    let axes = Axes { width: 6, height: 1, depth: 1 };
    let points: Vec<f32> = Q_POINTS.iter().map(|x| x * 0.5).collect();
    assert_eq!(masks(axes, unit_box(6.0), &points, &mut occupied, &mut active), Ok(Marked { occupied: 1, active: 3 }));
    assert_eq!((occupied, active), ([0b1], [0b111]));
    assert_eq!(masks(Axes { width: AXIS_LIMIT + 1, ..axes }, unit_box(6.0), &points, &mut occupied, &mut active), Err(Refusal::Axis));
    assert_eq!(masks(axes, unit_box(f32::NAN), &points, &mut occupied, &mut active), Err(Refusal::Corner));
    for words in [0, 2] {
        assert_eq!(masks(axes, unit_box(6.0), &points, &mut vec![0; words], &mut active), Err(Refusal::Length));
        assert_eq!(masks(axes, unit_box(6.0), &points, &mut occupied, &mut vec![0; words]), Err(Refusal::Length));
    }
    assert_eq!((occupied, active), ([0b1], [0b111]));
    let (mut light, mut scratch) = ([1.0, 0.0], [0.0; 2]);
    light_blur(Axes { width: 2, ..ONE }, &mut light, &mut scratch).unwrap();
    assert_eq!((light, scratch), ([0.25, 0.25], [1.0, 0.0]));
    let (mut volume, mut kept) = ([3.0; 16], [0.0; 16]);
    coefficient_blur(ONE, &mut volume, &mut kept).unwrap();
    assert_eq!((volume, kept), ([3.0; 16], [3.0; 16]));
    volume[3] = f32::NAN;
    assert_eq!(coefficient_blur(ONE, &mut volume, &mut kept), Err(Refusal::Contents));
    assert_eq!(set_of_voxel(2, 2, 2), 1);
    let mut table = [0.0; SKY_LENGTH];
    directions(&mut table).unwrap();
    assert!(table.chunks(3).all(|d| (d.iter().map(|x| x * x).sum::<f32>() - 1.0).abs() < 1e-5));
    assert_eq!(directions(&mut [0.0; 3]), Err(Refusal::Length));
}

/// Axes of which one is this number, and the others 1.
fn along(axis: usize, number: usize) -> Axes {
    let at = |k| if k == axis { number } else { 1 };
    Axes { width: at(0), height: at(1), depth: at(2) }
}

/// Every call that takes axes, from masks to file and back, over lists of a grid's lengths; the first refusal.
fn every_call(axes: Axes) -> [Result<(), Refusal>; 16] {
    let (n, words) = (axes.count().min(1 << 10), axes.words().min(1 << 4));
    let max = |axis: usize| axis.min(1 << 10) as f32 / 64.0;
    let corners = Corners { min: Vec3::default(), max: Vec3::new(max(axes.width), max(axes.height), max(axes.depth)) };
    let scene = Scene { points: &Q_POINTS, uses: &[0], kinds: &[1], numbers: &SHEET };
    let (mut occupied, mut active, mut light, mut scratch) = (vec![0; words], vec![0; words], vec![0.5; n], vec![0.0; n]);
    let (mut volume, mut kept, mut bytes) = (vec![0.5; 16 * n], vec![0.0; 16 * n], vec![0; 96 + 70 * n]);
    let (mut distances, mut places, up) = ([0.0], [0], Vec3::new(0.0, 0.0, 1.0));
    let masked = masks(axes, corners, &Q_POINTS, &mut occupied, &mut active).map(drop);
    let sunned = sun(axes, corners, scene, up, &active, &mut light, &mut scratch, HitScratch { distances: &mut distances, places: &mut places }).map(drop);
    let light_of_sun = Light { direction: up, colour: up };
    let input = BakeInput { axes, corners, scene, light: light_of_sun, ambient: Ambient::default(), sky: &[1.0; SKY_LENGTH], lamps: &[], active: &active, lights: &light };
    let baked = bake(input, &mut volume, &mut kept, HitScratch { distances: &mut distances, places: &mut places }, Progress::ZERO, u64::MAX).map(drop);
    let walls = Scene { kinds: &[OPAQUE], ..scene };
    let solid_sunned = solid_sun(axes, corners, walls, up, &active, &mut vec![0.0; n], &mut scratch).map(drop);
    let solid_baked = solid_bake(BakeInput { scene: walls, ..input }, &mut volume, &mut kept, Progress::ZERO, u64::MAX).map(drop);
    let one = |refused: FirstRefused| refused.refusal;
    let middle = Vec3::new(corners.max.x / 2.0, corners.max.y / 2.0, corners.max.z / 2.0);
    let middles = [middle.x, middle.y, middle.z];
    [
        masked,
        sunned,
        baked,
        solid_sunned,
        solid_baked,
        join(axes, &active, &kept, &mut volume),
        light_blur(axes, &mut light, &mut scratch),
        coefficient_blur(axes, &mut volume, &mut kept),
        light_at(axes, corners, &light, middle).map(drop),
        coefficients_at(axes, corners, &volume, middle).map(drop),
        frame_lights(axes, corners, &light, &middles, &mut [0.0]).map_err(one),
        frame_coefficients(axes, corners, &volume, &middles, &mut [0.0; 16]).map_err(one),
        voxel_part(axes, &volume, &kept, n - n.min(1), false).map(drop),
        voxel_refusal(axes, &volume, &kept, n - n.min(1), true),
        volume_bytes(axes).map(drop),
        write_volume(axes, corners, &light, &volume, &occupied, &active, &mut bytes),
    ]
}

#[test]
fn axes_to_the_limit() {
    for axis in 0..3 {
        for good in [1, 32, 33, AXIS_LIMIT] {
            assert_eq!(every_call(along(axis, good)), [Ok(()); 16], "{good} on axis {axis}");
        }
        for bad in [0, AXIS_LIMIT + 1, (1 << 16) + 1, (1 << 32) + 1, usize::MAX] {
            assert_eq!(every_call(along(axis, bad)), [Err(Refusal::Axis); 16], "{bad} on axis {axis}");
        }
        // a file says its axis in two bytes: the limit comes back bit for bit, one more is refused and writes nothing
        let axes = along(axis, AXIS_LIMIT);
        let (light, volume) = (vec![0.25; AXIS_LIMIT], (0..16 * AXIS_LIMIT).map(|i| i as f32).collect::<Vec<f32>>());
        let mut bytes = vec![0; volume_bytes(axes).unwrap()];
        assert_eq!(bytes.len(), 96 + 70 * AXIS_LIMIT);
        write_volume(axes, unit_box(1.0), &light, &volume, &[1, 1 << 63], &[!0, !0], &mut bytes).unwrap();
        assert_eq!(file_axes(&bytes), Ok(Head { axes, corners: unit_box(1.0) }));
        assert_eq!(file_figures(&bytes), Ok(Figures { axes, occupied: 2, active: 128, zeros: 0 }));
        let (mut l, mut v, mut o, mut a) = (vec![7.0; AXIS_LIMIT], vec![7.0; 16 * AXIS_LIMIT], [7; 2], [7; 2]);
        for wrong in [0, AXIS_LIMIT + 1, 65_535] {
            let mut other = bytes.clone();
            other[4 + 2 * axis..6 + 2 * axis].copy_from_slice(&(wrong as u16).to_le_bytes());
            assert_eq!(read_volume(&other, &mut l, &mut v, &mut o, &mut a), Err(Refusal::File));
            assert_eq!((file_axes(&other), file_figures(&other)), (Err(Refusal::File), Err(Refusal::File)));
        }
        assert!(l.iter().chain(&v).all(|x| *x == 7.0) && (o, a) == ([7; 2], [7; 2]));
        assert_eq!(read_volume(&bytes, &mut l, &mut v, &mut o, &mut a), Ok(Head { axes, corners: unit_box(1.0) }));
        assert_eq!((l, v, o, a), (light, volume, [1, 1 << 63], [!0, !0]));
    }
}

#[test]
fn masks_in_words() {
    // voxel (0,3,0) is number 93, bit 29 of word 1; three of three rows lie within two of it
    let axes = Axes { width: 31, height: 4, depth: 1 };
    assert_eq!((axes.count(), axes.words(), ONE.words(), Axes { width: 64, ..ONE }.words(), Axes::default().words()), (124, 2, 1, 1, 0));
    let corners = Corners { min: Vec3::new(0.0, 0.0, 0.0), max: Vec3::new(31.0, 4.0, 1.0) };
    let points: Vec<f32> = Q_POINTS.chunks(3).flat_map(|p| [0.25 + p[0] / 4.0, 3.25 + p[1] / 4.0, 0.5]).collect();
    let (mut occupied, mut active) = ([!0; 2], [!0; 2]);
    let near: Vec<usize> = (1..4).flat_map(|y| (0..3).map(move |x| axes.index(x, y, 0))).collect();
    assert_eq!(masks(axes, corners, &points, &mut occupied, &mut active), Ok(Marked { occupied: 1, active: 9 }));
    assert_eq!(occupied, [0, 1 << 29]);
    assert_eq!(marked_voxels(&occupied).collect::<Vec<_>>(), [93]);
    assert_eq!(marked_voxels(&active).collect::<Vec<_>>(), near);
    assert_eq!((marked_count(&occupied), marked_count(&active), marked_count(&[!0; 2])), (1, 9, 128));
    let mut again = [0; 2];
    near.iter().for_each(|voxel| mark(&mut again, *voxel));
    near.iter().for_each(|voxel| mark(&mut again, *voxel));
    assert_eq!(again, active);
    assert!((0..axes.count()).all(|voxel| is_marked(&active, voxel) == near.contains(&voxel)));
}

#[test]
fn bakes() {
    let axes = Axes { width: 3, height: 1, depth: 1 };
    let empty = Scene { points: &[], uses: &[], kinds: &[], numbers: &[] };
    let mut lights = [0.0; 3];
    let rays = sun(axes, unit_box(3.0), empty, Vec3::new(0.0, 1.0, 0.0), &[0b111], &mut lights, &mut [0.0; 3], HitScratch { distances: &mut [], places: &mut [] });
    assert_eq!((rays, lights), (Ok(3), [1.0; 3]));
    let input = BakeInput {
        axes,
        corners: unit_box(3.0),
        scene: empty,
        light: Light { direction: Vec3::new(0.0, 1.0, 0.0), colour: Vec3::default() },
        ambient: Ambient::default(),
        sky: &[1.0; SKY_LENGTH],
        lamps: &[],
        active: &[0b111],
        lights: &lights,
    };
    let run = |input: BakeInput, progress: Progress, allowance: u64| {
        let (mut volume, mut scratch) = ([0.0; 48], [0.0; 48]);
        bake(input, &mut volume, &mut scratch, HitScratch { distances: &mut [], places: &mut [] }, progress, allowance)
    };
    assert_eq!(run(input, Progress::ZERO, 384), Ok(Baked { progress: Progress { next: 1, rays: 64 }, rays: 64 }));
    assert_eq!(run(input, Progress::ZERO, 448), Ok(Baked { progress: Progress { next: 2, rays: 128 }, rays: 128 }));
    assert_eq!(run(input, Progress::ZERO, 383), Err(Refusal::Allowance));
    assert_eq!(run(input, Progress { next: 4, rays: 192 }, 383), Err(Refusal::Progress));
    assert_eq!(run(BakeInput { lamps: &[0.0; 54], ..input }, Progress { next: 4, rays: 192 }, 999_999), Err(Refusal::Lamp));
    assert_eq!(run(BakeInput { sky: &[f32::NAN; SKY_LENGTH], ..input }, Progress::ZERO, 999_999), Err(Refusal::Light));
    for words in [&[][..], &[0b111, 0]] {
        assert_eq!(run(BakeInput { active: words, ..input }, Progress::ZERO, 384), Err(Refusal::Length));
        let answer = sun(axes, unit_box(3.0), empty, Vec3::new(0.0, 1.0, 0.0), words, &mut [0.0; 3], &mut [0.0; 3], HitScratch { distances: &mut [], places: &mut [] });
        assert_eq!(answer, Err(Refusal::Length));
    }
    // each bit past the three voxels, and every list as it was
    for bit in 3..64 {
        let (mut light, mut scratch, mut volume, mut kept) = ([5.0; 3], [6.0; 3], [7.0; 48], [8.0; 48]);
        let mask = [0b101 | 1 << bit];
        let hits = || HitScratch { distances: &mut [], places: &mut [] };
        assert_eq!(sun(axes, unit_box(3.0), empty, Vec3::new(0.0, 1.0, 0.0), &mask, &mut light, &mut scratch, hits()), Err(Refusal::Contents));
        assert_eq!(bake(BakeInput { active: &mask, ..input }, &mut volume, &mut kept, hits(), Progress::ZERO, u64::MAX), Err(Refusal::Contents));
        assert_eq!((light, scratch, volume, kept), ([5.0; 3], [6.0; 3], [7.0; 48], [8.0; 48]));
    }
    let part = voxel_part(ONE, &[1.0; 16], &[2.0; 16], 0, true).unwrap();
    assert_eq!(part, [2.0; 16]);
    assert_eq!(voxel_refusal(ONE, &[1.0; 16], &[2.0; 16], 1, true), Err(Refusal::Position));
}

#[test]
fn progress_knows_its_rays() {
    // a white wall and a black one in the lower half, and voxels above that are not active
    let axes = Axes { width: 3, height: 9, depth: 3 };
    let corners = Corners { min: Vec3::default(), max: Vec3::new(3.0, 9.0, 3.0) };
    let points = [0.2, 0.2, 0.2, 2.8, 0.2, 0.2, 0.2, 3.8, 0.2, 0.2, 0.2, 2.8, 2.8, 0.2, 2.8, 0.2, 3.8, 2.8];
    let scene = Scene { points: &points, uses: &[0, 1], kinds: &[0, 0], numbers: &[0.8, 0.8, 0.8, 0.0, 0.0, 0.0, 0.0, 0.0, 0.0, 0.0, 0.0, 0.0, 0.0, 0.0] };
    let n = axes.count();
    let (mut occupied, mut active) = (vec![0; axes.words()], vec![0; axes.words()]);
    let count = masks(axes, corners, &points, &mut occupied, &mut active).unwrap().active;
    assert!(0 < count && count < n as u64);
    let lamps = [1.5, 2.0, 1.5, 4.0, 4.0, 4.0, 1.0, 7.0, 1.0, 2.0, 3.0, 4.0];
    for lamps in [&[][..], &lamps] {
        let input = BakeInput {
            axes,
            corners,
            scene,
            light: Light { direction: Vec3::new(0.1, 0.9, 0.3), colour: Vec3::new(3.0, 3.0, 3.0) },
            ambient: Ambient::default(),
            sky: &[1.0; SKY_LENGTH],
            lamps,
            active: &active,
            lights: &vec![1.0; n],
        };
        let cost = LEAST_ALLOWANCE + LEAST_ALLOWANCE_A_LAMP * (lamps.len() / 6) as u64;
        let run = |input: BakeInput, volume: &mut [f32], scratch: &mut [f32], progress: Progress, allowance: u64| {
            bake(input, volume, scratch, HitScratch { distances: &mut [0.0; 2], places: &mut [0; 2] }, progress, allowance)
        };
        let (mut whole, mut unblurred) = (vec![0.0; 16 * n], vec![0.0; 16 * n]);
        let unbroken = run(input, &mut whole, &mut unblurred, Progress::ZERO, u64::MAX).unwrap();
        assert_eq!(unbroken.progress, Progress { next: n, rays: unbroken.rays });
        assert!((LEAST_RAYS * count + 1..cost * count).contains(&unbroken.rays));
        let (mut volume, mut scratch) = (vec![f32::NAN; 16 * n], vec![0.0; 16 * n]);
        let (mut progress, mut total, mut calls) = (Progress::default(), 0, 0);
        loop {
            // what the voxels passed can have fired, and no more: one ray too few or too many, a voxel more or less passed, next past the grid
            let below = |next: usize| marked_voxels(&active).take_while(|voxel| *voxel < next).count() as u64;
            let passed = below(progress.next);
            let (least, most) = (LEAST_RAYS * passed, cost * passed);
            assert!((least..=most).contains(&progress.rays));
            let mut wrong = vec![(progress.next, most + 1), (progress.next, u64::MAX), (n + 1, progress.rays), (usize::MAX, progress.rays), (n + 1, 0), (usize::MAX, u64::MAX)];
            wrong.extend(least.checked_sub(1).map(|rays| (progress.next, rays)));
            // near 2^64, were a product or a difference to wrap
            wrong.extend((1..=4).map(|k| (progress.next, u64::MAX - k * LEAST_RAYS + 1)));
            if below(progress.next + 1) > passed {
                wrong.push((progress.next + 1, least));
            }
            if progress.next > 0 && below(progress.next - 1) < passed {
                wrong.push((progress.next - 1, most));
            }
            let (before, kept) = (volume.iter().map(|x| x.to_bits()).collect::<Vec<_>>(), scratch.clone());
            for (next, rays) in wrong {
                // 9 stands before 10
                for allowance in [0, cost, u64::MAX] {
                    assert_eq!(run(input, &mut volume, &mut scratch, Progress { next, rays }, allowance), Err(Refusal::Progress), "{next} {rays}");
                }
                assert!(volume.iter().map(|x| x.to_bits()).eq(before.iter().copied()) && scratch == kept);
            }
            // both ends are good, and the call's rays are added to what it is handed
            for rays in [least, most] {
                let answer = run(input, &mut volume.clone(), &mut scratch.clone(), Progress { next: progress.next, rays }, cost).unwrap();
                assert_eq!(answer.progress.rays, rays + answer.rays);
            }
            if progress.next == n {
                break;
            }
            let baked = run(input, &mut volume, &mut scratch, progress, 2 * cost).unwrap();
            total += baked.rays;
            calls += 1;
            assert!(baked.progress.next > progress.next);
            assert_eq!(baked.progress.rays, total);
            progress = baked.progress;
        }
        assert!(calls > 2);
        assert_eq!((progress, &volume, &scratch), (unbroken.progress, &whole, &unblurred));
        assert_eq!(run(input, &mut volume, &mut scratch, progress, cost), Ok(Baked { progress, rays: 0 }));
        // bits past the last voxel count for nothing: 13 is their row, after 9
        let mut untidy = active.clone();
        untidy[n / 64] |= !0 << (n % 64);
        let input = BakeInput { active: &untidy, ..input };
        assert_eq!(run(input, &mut volume, &mut scratch, Progress { next: n, rays: LEAST_RAYS * count }, cost), Err(Refusal::Contents));
        assert_eq!(run(input, &mut volume, &mut scratch, Progress { next: n, rays: LEAST_RAYS * count - 1 }, cost), Err(Refusal::Progress));
    }
}

#[test]
fn joins() {
    let axes = Axes { width: 3, height: 1, depth: 1 };
    let unblurred: Vec<f32> = (0..48).map(|i| i as f32).collect();
    for share in 0..8 {
        let mut joined = [-1.0; 48];
        assert_eq!(join(axes, &[share], &unblurred, &mut joined), Ok(()));
        assert!((0..48).all(|i| joined[i] == if is_marked(&[share], i / 16) { unblurred[i] } else { -1.0 }), "{share:b}");
    }
    // voxels 64 to 129 of three words
    let wide = Axes { width: 13, height: 10, depth: 1 };
    let mut joined = vec![0.0; 16 * 130];
    assert_eq!(join(wide, &[0, !0, 0b11], &vec![1.0; 16 * 130], &mut joined), Ok(()));
    assert!(joined.iter().enumerate().all(|(i, x)| *x == if i < 16 * 64 { 0.0 } else { 1.0 }));
    // refused, and nothing written
    let most = 2f32.powi(96);
    let refused = |axes: Axes, share: &[u64], unblurred: &[f32], length: usize, why: Refusal| {
        let mut joined = vec![5.0; length];
        assert_eq!(join(axes, share, unblurred, &mut joined), Err(why));
        assert!(joined.iter().all(|x| *x == 5.0));
    };
    refused(Axes { width: 0, ..axes }, &[1], &unblurred, 48, Refusal::Axis);
    refused(Axes { depth: AXIS_LIMIT + 1, ..axes }, &[1], &unblurred, 48, Refusal::Axis);
    refused(axes, &[], &unblurred, 48, Refusal::Length);
    refused(axes, &[1, 0], &unblurred, 48, Refusal::Length);
    refused(axes, &[1], &unblurred[..47], 48, Refusal::Length);
    refused(axes, &[1], &unblurred, 49, Refusal::Length);
    for bit in 3..64 {
        refused(axes, &[0b101 | 1 << bit], &unblurred, 48, Refusal::Contents);
    }
    // a number beyond is refused wherever it stands, one at the bound and what stood in joined are not
    for bad in [f32::NAN, f32::INFINITY, f32::NEG_INFINITY, f32::from_bits(most.to_bits() + 1), -f32::from_bits(most.to_bits() + 1)] {
        refused(axes, &[0], &[&unblurred[..47], &[bad]].concat(), 48, Refusal::Contents);
        let mut joined = [bad; 48];
        assert_eq!(join(axes, &[0b111], &[most; 48], &mut joined), Ok(()));
        assert_eq!(joined, [most; 48]);
    }
}

#[test]
fn lookups_and_files() {
    let axes = Axes { width: 2, height: 1, depth: 1 };
    for (x, light) in [(-0.25, 0.75), (0.5, 0.5), (1.75, 1.0)] {
        assert_eq!(light_at(axes, unit_box(2.0), &[0.0, 1.0], Vec3::new(x, 0.0, 0.0)), Ok(light));
    }
    let mut answers = [0.0; 2];
    frame_lights(axes, unit_box(2.0), &[0.0, 1.0], &[0.5, 0.0, 0.0, 1.75, 0.0, 0.0], &mut answers).unwrap();
    assert_eq!(answers, [0.5, 1.0]);
    let refused = frame_lights(axes, unit_box(2.0), &[0.0, 1.0], &[0.5, 0.0, 0.0, f32::NAN, 0.0, 0.0], &mut answers);
    assert_eq!(refused, Err(FirstRefused { refusal: Refusal::Position, place: 1 }));
    let mut sixteen = [0.0; 16];
    frame_coefficients(ONE, unit_box(1.0), &[4.0; 16], &[0.5, 0.0, 0.0], &mut sixteen).unwrap();
    assert_eq!(coefficients_at(ONE, unit_box(1.0), &[4.0; 16], Vec3::new(0.5, 0.0, 0.0)), Ok(sixteen));
    let mut bytes = vec![0; volume_bytes(ONE).unwrap()];
    assert_eq!(bytes.len(), 166);
    write_volume(ONE, unit_box(1.0), &[0.25], &[0.0; 16], &[1], &[1], &mut bytes).unwrap();
    assert_eq!(file_axes(&bytes), Ok(Head { axes: ONE, corners: unit_box(1.0) }));
    assert_eq!(file_figures(&bytes), Ok(Figures { axes: ONE, occupied: 1, active: 1, zeros: 0 }));
    let (mut light, mut volume, mut occupied, mut active) = ([0.0], [1.0; 16], [0], [0]);
    read_volume(&bytes, &mut light, &mut volume, &mut occupied, &mut active).unwrap();
    assert_eq!((light, volume, occupied, active), ([0.25], [0.0; 16], [1], [1]));
    for (occupied, active) in [(&[][..], &[1][..]), (&[1, 0], &[1]), (&[1], &[]), (&[1], &[1, 0])] {
        assert_eq!(write_volume(ONE, unit_box(1.0), &[0.25], &[0.0; 16], occupied, active, &mut bytes.clone()), Err(Refusal::Length));
        assert_eq!(read_volume(&bytes, &mut light, &mut volume, &mut occupied.to_vec(), &mut active.to_vec()), Err(Refusal::Length));
    }
    for bit in 1..64 {
        for (occupied, active) in [(1 << bit, 1), (1, 1 << bit)] {
            let mut kept = bytes.clone();
            assert_eq!(write_volume(ONE, unit_box(1.0), &[0.5], &[0.0; 16], &[occupied], &[active], &mut kept), Err(Refusal::Contents));
            assert_eq!(kept, bytes);
        }
    }
    assert_eq!(file_axes(&[]), Err(Refusal::File));
    assert_eq!(file_figures(&[0; 65_537]), Err(Refusal::TooLong));
    assert_eq!(root_bits(4f32.to_bits()), 2f32.to_bits());
    assert_eq!(floor_bits(1.5f32.to_bits()), 1f32.to_bits());
    assert_eq!(ceiling_bits(1.5f32.to_bits()), 2f32.to_bits());
    assert_eq!(magnitude_bits((-1.5f32).to_bits()), 1.5f32.to_bits());
    assert_eq!(larger_bits((-0f32).to_bits(), 0), 0);
    assert_eq!(smaller_bits(0, (-0f32).to_bits()), (-0f32).to_bits());
}
