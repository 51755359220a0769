//! What the copies are watched for: every ray fired, every branch taken, and the lists as they stand before a blur.
//! Without the feature `watch` all of it is empty, for timing.
use glam::{Vec3A, Vec4};
use std::cell::{Cell, RefCell};

/// A ray as it was fired. `kind` 0 asks for the nearest hit, 1 for the transmittance.
#[derive(Clone, Copy, PartialEq, Debug)]
pub struct Fired {
    pub voxel: usize,
    pub kind: u32,
    pub origin: Vec3A,
    pub direction: Vec3A,
    pub shortest: f32,
    pub longest: f32,
}

thread_local! {
    static RAYS: RefCell<Vec<Fired>> = const { RefCell::new(Vec::new()) };
    static LIGHT: RefCell<Vec<f32>> = const { RefCell::new(Vec::new()) };
    static VOLUME: RefCell<Vec<[Vec4; 4]>> = const { RefCell::new(Vec::new()) };
    static COUNTS: [Cell<u64>; BRANCHES] = const { [const { Cell::new(0) }; BRANCHES] };
}

macro_rules! branches {
    ($($name:ident $reachable:literal $text:literal;)*) => {
        #[derive(Clone, Copy)]
        pub enum Branch { $($name),* }

        const BRANCHES: usize = [$(Branch::$name),*].len();

        /// Each branch: its name, whether an accepted input reaches it, and what it is.
        pub const TABLE: [(&str, bool, &str); BRANCHES] = [$((stringify!($name), $reachable, $text)),*];
    };
}

branches! {
    Absent true "a triangle whose cross has squared length at most 1e-12 is left out";
    Edgewise true "|det| at most 1e-8";
    UBelow true "u below 0";
    UAbove true "u above 1";
    VBelow true "v below 0";
    UvAbove true "u+v above 1";
    TBelow true "t below the shortest distance";
    TAbove true "t above the longest distance";
    Met true "a hit";
    MetAtShortest true "a hit at the shortest distance itself";
    MetAtLongest true "a hit at the longest distance itself";
    MetAtMinusZero true "a hit at distance -0";
    UMinusZero true "a hit with u = -0";
    TNotFinite false "a distance that is not finite: |t| stays below 3e21 within the limits";
    Tie true "nearest: an equal distance at a later place";
    HitsTied true "transmittance: two hits at one distance";
    Opaque true "transmittance: an opaque hit";
    Faint true "transmittance: a product of at most 0.0001";
    Through true "transmittance: something let through";
    PanelFront true "nearest: a panel met on its front";
    PanelBack true "nearest: a panel met on its back";
    PanelBackNearer true "nearest: a panel's back before the triangle that is answered";
    PanelBackAlone true "nearest: a panel's back met and nothing answered";
    PanelTiesOpaque true "nearest: a panel's front and an opaque triangle at the distance that is answered";
    PanelTiesTranslucent true "nearest: a panel's front and a translucent triangle at the distance that is answered";
    PanelBackTies true "nearest: a panel's back at the distance that is answered";
    PanelHit true "transmittance: a panel met on its front";
    PanelPassed true "transmittance: a panel met on its back";
    PanelEnds true "transmittance: a panel's front is the opaque hit";
    PanelPassedThenEnded true "transmittance: a panel's back passed before an opaque hit";
    PanelPassedThrough true "transmittance: a panel's back passed and light let through";
    PanelHitTiesOpaque true "transmittance: a panel's front and an opaque triangle at one distance";
    PanelHitTiesTranslucent true "transmittance: a panel's front and a translucent triangle at one distance";
    PanelPassedTies true "transmittance: a panel's back at the distance of a hit";
    SamplesRaised false "a target of no samples: a kept triangle's area is above 0 and its quotient does not vanish";
    SamplesLowered true "a target above 4096 samples";
    SampleSkipped true "a sample with w below 0";
    SampleBelow true "a sample below the grid";
    SamplePast true "a sample past the grid";
    SampleInside true "a sample in the grid";
    NotOccupied true "a voxel that is not occupied";
    WindowCutBelow true "the window of 5 cut at the low side";
    WindowCutAbove true "the window of 5 cut at the high side";
    WindowWhole true "a window of 5x5x5";
    SunNoneActive true "sun: no voxel active";
    SunInactive true "sun: an inactive voxel";
    SunTraced true "sun: an active voxel";
    SunPastPanel true "sun: a ray past a panel's back that no opaque hit ends";
    SunBehindPanel true "sun: a ray that a panel's front ends";
    EdgeFloor false "smallest edge at most 1e-6: an accepted edge is at least 1/1024";
    PrimaryBiasFloor false "primary bias at its floor: the diagonal is at least sqrt(3)/1024";
    HitBiasFloor true "hit bias at its floor";
    ShortestFloor false "shortest distance at its floor: .15/1024 is above 1e-4";
    BakeNoneActive true "bake: no voxel active";
    BakeInactive true "bake: an inactive voxel";
    SkySeen true "a primary ray that meets nothing";
    RadianceSkipped true "radiance with squared length at most 0";
    RadianceAdded true "radiance that is added";
    IrradianceRaised true "irradiance raised to 0";
    NormalTurned true "the normal turned";
    EmissiveRaised true "emissive raised to 0";
    AlbedoRaised true "albedo raised to 0";
    AlbedoLowered true "albedo lowered to 1";
    Black true "a black surface";
    BlackBySquare true "a surface that is black by its square only";
    OnlyEmissive true "a black albedo with an emissive that is not";
    TowardsLight true "n.l above 0";
    AwayFromLight true "n.l at most 0";
    LightPastPanel true "a surface's ray to the light past a panel's back that no opaque hit ends";
    LightBehindPanel true "a surface's ray to the light that a panel's front ends";
    SkyPastPanel true "a surface's ray to the sky past a panel's back that no opaque hit ends";
    SkyBehindPanel true "a surface's ray to the sky that a panel's front ends";
    AmbientRaised true "ambient at the normal raised to 0";
    TotalRaised true "sun and sky together below 0";
    LampTooNear true "a lamp with squared distance at most 1e-12";
    LampHere true "a lamp at the point itself";
    LampAtBound true "a lamp with a squared distance of 1e-12 itself";
    LampBehind true "a lamp with n.l not above 0";
    LampEdgewise true "a lamp with n.l = 0";
    LampClose true "a lamp whose longest distance is below the shortest";
    LampSeen true "a lamp with nothing before it";
    LampDimmed true "a lamp behind something that lets light through";
    LampHidden true "a lamp behind something that lets none through";
    LampPastPanel true "a lamp's ray past a panel's back that no opaque hit ends";
    LampBehindPanel true "a lamp's ray that a panel's front ends";
    LampsRaised true "sun, sky and lamps together raised to 0";
    Bounced true "light bounced";
    NoBounce true "no light to bounce";
    NoBounceBySquare true "no light to bounce, by its square only";
    UpIsZ true "up is Z";
    UpIsX true "up is X";
    NoFloor true "no brightness floor";
    AboveFloor true "brighter than the floor";
    Floored true "darker than the floor";
    BlendPartly true "a blend of less than the whole";
    BlendRaised false "blend below 0: the floor is above the current luminance here";
    BlendLowered false "blend above 1: irradiance was raised to 0, so its luminance is not below 0";
    CellBelow true "lookup: a cell below the grid";
    CellPast true "lookup: a cell past the grid";
    NextClamped true "lookup: the last cell, whose next is itself";
    NextInside true "lookup: a cell with a next one";
    FractionZero true "lookup: a fraction of 0";
    FractionOne true "lookup: a fraction that rounds to 1";
    FractionBetween true "lookup: a fraction between 0 and 1";
    SolidFree true "solid: a ray that meets no wall where there are some";
    SolidStopped true "solid: a ray that meets one wall";
    SolidNearestFirst true "solid: of several walls the nearest stands first in the list";
    SolidNearestLast true "solid: of several walls the nearest stands last in the list";
    SolidTied true "solid: another wall at the distance of the first in the list";
    TreeNodesMisfit true "tree: nodes whose number is no multiple of 3";
    TreeBoxesMisfit true "tree: boxes that are not six numbers a node";
    TreeOrderLong true "tree: an order longer than the triangles are many";
    TreeEmpty true "tree: empty, and a triangle is present";
    TreeHalfPast true "tree: a half past the list";
    TreeHalfBefore true "tree: a half that does not follow its box";
    TreeRunPast true "tree: a leaf's run past the order's end";
    TreeNoParent true "tree: a box that no box has as a half";
    TreeTwoParents true "tree: a box that is a half twice";
    TreeDeep true "tree: a box deeper than 24";
    TreeHalfOutside true "tree: a half that does not lie in its box";
    TreePlacePast true "tree: a leaf with a place past the triangles";
    TreeAbsentListed true "tree: a leaf with an absent triangle";
    TreeTriangleOutside true "tree: a triangle that does not lie in its leaf";
    TreeMissing true "tree: a present triangle in no leaf";
    TreeTwice true "tree: a triangle that stands twice";
    TreeBare true "tree: the empty one, accepted";
    TreeDeepest true "tree: accepted with a box 24 deep";
    TreeTouching true "tree: accepted with a face of a box on that of the one above";
    TreeUnbounded true "tree: accepted with a bound that is not finite";
    TreeLoose true "tree: accepted with a leaf of more than four";
    TreeBuilt true "builder: an inner box";
    TreeBuiltLeaf true "builder: a leaf";
    TreeBuiltByX true "builder: halved along x";
    TreeBuiltByY true "builder: halved along y";
    TreeBuiltByZ true "builder: halved along z";
    TreeBuiltOfEquals true "builder: a first of the right half whose key is the last of the left half's";
    TreeInnerPassed true "tree: an inner box passed over";
    TreeLeafPassed true "tree: a leaf passed over";
    TreeTrianglePassed true "tree: a triangle's own box passed over in a leaf that is not";
    TreeTaken true "tree: a triangle that is tested";
    TreeAboveFlat true "tree: passed over for an origin above and a direction of 0";
    TreeBelowFlat true "tree: passed over for an origin below and a direction of 0";
    TreeAboveAway true "tree: passed over for an origin above and a direction above 0";
    TreeBelowAway true "tree: passed over for an origin below and a direction below 0";
    TreeOnFace true "tree: an origin on a face of a triangle's own box, with a direction away from it or along it";
    TreeHit true "tree: a ray that meets a triangle";
    TreePassedHit true "tree: a triangle that the full scan would meet, passed over";
}

#[inline(always)]
pub fn seen(branch: Branch) {
    if cfg!(feature = "watch") {
        COUNTS.with(|counts| {
            let count = &counts[branch as usize];
            count.set(count.get() + 1);
        });
    }
}

#[inline(always)]
pub fn seen_if(branch: Branch, holds: bool) {
    if cfg!(feature = "watch") && holds {
        seen(branch);
    }
}

pub fn some_below(v: Vec3A, bound: f32) -> bool {
    v.x < bound || v.y < bound || v.z < bound
}

#[inline(always)]
pub fn fired(kind: u32, origin: Vec3A, direction: Vec3A, shortest: f32, longest: f32) {
    if cfg!(feature = "watch") {
        let voxel = rayon::CURRENT.load(std::sync::atomic::Ordering::Relaxed);
        RAYS.with(|rays| {
            rays.borrow_mut().push(Fired { voxel, kind, origin, direction, shortest, longest })
        });
    }
}

/// Document 01 takes `powf(2.0)` as x·x.
pub fn square(x: f32) -> f32 {
    x * x
}

pub fn light_before_blur(light: &[f32]) {
    if cfg!(feature = "watch") {
        LIGHT.with(|kept| *kept.borrow_mut() = light.to_vec());
    }
}

pub fn volume_before_blur(volume: &[[Vec4; 4]]) {
    if cfg!(feature = "watch") {
        VOLUME.with(|kept| *kept.borrow_mut() = volume.to_vec());
    }
}

pub fn cell_looked_up(floor: [f32; 3], axes: [usize; 3], fraction: [f32; 3]) {
    for i in 0..3 {
        seen_if(Branch::CellBelow, floor[i] < 0.0);
        seen_if(Branch::CellPast, floor[i] >= axes[i] as f32);
        seen_if(Branch::NextClamped, floor[i] + 1.0 >= axes[i] as f32);
        seen_if(Branch::NextInside, floor[i] + 1.0 < axes[i] as f32);
        seen_if(Branch::FractionZero, fraction[i] == 0.0);
        seen_if(Branch::FractionOne, fraction[i] == 1.0);
        seen_if(Branch::FractionBetween, fraction[i] > 0.0 && fraction[i] < 1.0);
    }
}

/// The rays fired since the last call.
pub fn take_rays() -> Vec<Fired> {
    RAYS.with(|rays| std::mem::take(&mut *rays.borrow_mut()))
}

/// The light list as it stood when the last light blur began.
pub fn take_light() -> Vec<f32> {
    LIGHT.with(|kept| std::mem::take(&mut *kept.borrow_mut()))
}

/// The volume as it stood when the last coefficient blur began.
pub fn take_volume() -> Vec<[Vec4; 4]> {
    VOLUME.with(|kept| std::mem::take(&mut *kept.borrow_mut()))
}

/// How often each branch was taken so far.
pub fn counts() -> Vec<u64> {
    COUNTS.with(|counts| counts.iter().map(Cell::get).collect())
}
