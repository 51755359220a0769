//! Document 02's C-19, written from that request alone: which triangles a ray meets, by their material's kind and the side. The test of one
//! triangle says the side; both of the tracer's scans ask here, and what does not count is a miss to them.
//!
//! The rest only watches: what the last scan met, and what came of it.
use crate::raytracer::Triangle;
use crate::scene::Material;
use crate::watch::{seen_if, Branch};
use std::cell::{Cell, RefCell};

/// "Material kind 2 is opaque from the front and absent from the back, for nearest hits as for transmittance."
pub const PANEL: u8 = 2;

/// A hit: distance, u, v, and whether it is the front, "exactly when det is above zero".
pub type Met = (f32, f32, f32, bool);

fn counts(kind: u8, front: bool) -> bool {
    kind != PANEL || front
}

/// Distance, u and v of a triangle that was met and counts.
pub fn counted(triangle: &Triangle, met: Option<Met>) -> Option<(f32, f32, f32)> {
    let (t, u, v, front) = met?;
    let kind = triangle.uv0.y as u8;
    if cfg!(feature = "watch") {
        MET.with(|all| all.borrow_mut().push(Side { t, kind, front }));
    }
    counts(kind, front).then_some((t, u, v))
}

#[derive(Clone, Copy)]
struct Side {
    t: f32,
    kind: u8,
    front: bool,
}

impl Side {
    fn panel_front(&self) -> bool {
        self.kind == PANEL && self.front
    }

    fn panel_back(&self) -> bool {
        self.kind == PANEL && !self.front
    }
}

thread_local! {
    /// What the last scan met, in list order, a nearest one within the distance that it had come down to.
    static MET: RefCell<Vec<Side>> = const { RefCell::new(Vec::new()) };
    /// Whether an opaque hit ended the last transmittance that met a panel, and whether that hit was one.
    static ENDED: Cell<Option<bool>> = const { Cell::new(None) };
}

pub fn scan_begins() {
    if cfg!(feature = "watch") {
        MET.with(|all| all.borrow_mut().clear());
        ENDED.set(None);
    }
}

/// What the last scan met, if a panel is among it.
fn with_panels(watch: impl Fn(&[Side])) {
    if cfg!(feature = "watch") {
        MET.with(|all| {
            let all = all.borrow();
            if all.iter().any(|side| side.kind == PANEL) {
                watch(&all);
            }
        });
    }
}

/// Whether one of each of two sorts was met at one distance.
fn tied(all: &[Side], one: impl Fn(&Side) -> bool, other: impl Fn(&Side) -> bool) -> bool {
    all.iter().filter(|side| one(side)).any(|a| all.iter().any(|b| other(b) && a.t == b.t))
}

pub fn nearest_found(any: bool, best: f32) {
    with_panels(|all| {
        seen_if(Branch::PanelFront, all.iter().any(Side::panel_front));
        seen_if(Branch::PanelBack, all.iter().any(Side::panel_back));
        seen_if(Branch::PanelBackAlone, !any);
        seen_if(Branch::PanelBackNearer, any && all.iter().any(|side| side.panel_back() && side.t < best));
        let last: Vec<Side> = all.iter().copied().filter(|side| any && side.t == best).collect();
        seen_if(Branch::PanelTiesOpaque, tied(&last, Side::panel_front, |side| side.kind == 0));
        seen_if(Branch::PanelTiesTranslucent, tied(&last, Side::panel_front, |side| side.kind == 1));
        seen_if(Branch::PanelBackTies, last.iter().any(Side::panel_back));
    });
}

pub fn hits_found() {
    with_panels(|all| {
        seen_if(Branch::PanelHit, all.iter().any(Side::panel_front));
        seen_if(Branch::PanelPassed, all.iter().any(Side::panel_back));
        seen_if(Branch::PanelHitTiesOpaque, tied(all, Side::panel_front, |side| side.kind == 0));
        seen_if(Branch::PanelHitTiesTranslucent, tied(all, Side::panel_front, |side| side.kind == 1));
        seen_if(Branch::PanelPassedTies, tied(all, Side::panel_back, |side| !side.panel_back()));
    });
}

pub fn ended_by(material: &Material) {
    with_panels(|all| {
        ENDED.set(Some(material.is_panel));
        seen_if(Branch::PanelEnds, material.is_panel);
        let first = all.iter().filter(|side| side.kind == 0 || side.panel_front()).fold(f32::INFINITY, |least, side| least.min(side.t));
        seen_if(Branch::PanelPassedThenEnded, all.iter().any(|side| side.panel_back() && side.t < first));
    });
}

pub fn let_through() {
    with_panels(|all| seen_if(Branch::PanelPassedThrough, all.iter().any(Side::panel_back)));
}

/// What became of a ray that a pass fired, by the last transmittance.
pub fn traced(past: Branch, behind: Branch) {
    with_panels(|all| {
        seen_if(past, ENDED.get().is_none() && all.iter().any(Side::panel_back));
        seen_if(behind, ENDED.get() == Some(true));
    });
}
