//! Built tanks against a moody sludge: the sludge picks an index of a span, then
//! the operator a return ratio.

use crate::examine::{design, most_return, Candidate};
use crate::plant::Plant;
use crate::reading::{accept, Reading};
use crate::refusal;
use crate::settling::cube_root;

/// Indices that a span may hold.
pub const LEAST_INDEX: u32 = 50;
pub const MOST_INDEX: u32 = 180;

/// What stands, and how it is run.
#[derive(Clone, Copy, Debug, PartialEq, Eq)]
pub struct Existing {
    /// Reactor volume, m3
    pub reactor: u32,
    /// Settling surface, m2
    pub surface: u32,
    /// Settling depth, mm
    pub depth: u32,
    /// f, denitrification fraction, thousandths
    pub fraction: u32,
    /// h, thickening time, tenths of an hour
    pub thickening: u32,
}

impl Existing {
    fn lacks_a_size(&self) -> bool {
        self.reactor == 0 || self.surface == 0 || self.depth == 0
    }

    /// Whether f and h are on the grid.
    fn on_grid(&self) -> bool {
        (200..=500).contains(&self.fraction) && (20..=25).contains(&self.thickening)
    }
}

/// The sludge volume indices that the sludge may pick, l/kg, both ends included.
#[derive(Clone, Copy, Debug, PartialEq, Eq)]
pub struct Span {
    pub least: u32,
    pub most: u32,
}

impl Span {
    fn is_valid(&self) -> bool {
        LEAST_INDEX <= self.least && self.least <= self.most && self.most <= MOST_INDEX
    }
}

/// Whether a return ratio wins an index, on accepted concentrations: the
/// candidate is permitted there and needs no more than is built.
pub fn wins(
    plant: &Plant,
    accepted: &[u64; 5],
    existing: &Existing,
    index: u32,
    return_ratio: u32,
) -> bool {
    let picked = Plant {
        sludge_volume_index: index,
        ..*plant
    };
    let candidate = Candidate {
        fraction: existing.fraction,
        return_ratio,
        thickening: existing.thickening,
    };
    let root = cube_root(u64::from(existing.thickening));
    match design(&picked, accepted, candidate, root) {
        Err(_) => false,
        Ok(sheet) => {
            sheet.reactor_volume <= u64::from(existing.reactor)
                && sheet.settling_surface <= u64::from(existing.surface)
                && sheet.settling_depth <= u64::from(existing.depth)
        }
    }
}

/// Whether some return ratio of the grid wins an index.
pub fn is_won(plant: &Plant, accepted: &[u64; 5], existing: &Existing, index: u32) -> bool {
    let mut ratios = 30..=most_return(plant.tank_flow);
    ratios.any(|ratio| wins(plant, accepted, existing, index, ratio))
}

/// The smallest index of the span that cannot be won, none where the tanks hold
/// against each, or 20, 21, a refusal of the data, or 6.
pub fn built(
    plant: &Plant,
    readings: &[Reading; 5],
    existing: &Existing,
    span: &Span,
) -> Result<Option<u32>, u8> {
    if !span.is_valid() {
        return Err(refusal::SPAN);
    }
    if existing.lacks_a_size() {
        return Err(refusal::BUILT_SIZE);
    }
    let accepted = accept(plant, readings)?;
    if !existing.on_grid() {
        return Err(refusal::OFF_GRID);
    }
    let mut indices = span.least..=span.most;
    Ok(indices.find(|index| !is_won(plant, &accepted, existing, *index)))
}
