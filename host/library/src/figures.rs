//! The page of `explain`: 29 64-bit numbers, little-endian, nine of the
//! candidate and five of each of the four entries for terms.

use crate::page::{number, NUMBER};
use crate::terms::MOST_TERMS;

/// Figures of the candidate, the verdict among them.
const OF_CANDIDATE: usize = 9;
/// Figures of a term.
const OF_TERM: usize = 5;
/// Bytes that `explain` writes.
pub const FIGURES_LENGTH: usize = NUMBER * (OF_CANDIDATE + OF_TERM * MOST_TERMS);

/// The figures that a candidate is judged by.
#[derive(Clone, Copy, Debug, PartialEq, Eq)]
pub struct Figures {
    /// Nitrate to be removed, mg/m3
    pub nitrate_to_remove: u64,
    /// Nitrate that the tank's BOD removes, mg/m3; where the request removes
    /// by COD, what the tank's own carbon removes, reckoned from the COD
    pub removed_by_bod: u64,
    /// Nitrate that the dose removes, mg/m3
    pub removed_by_dose: u64,
    /// Nitrate that the tank can remove, the sum of the two, mg/m3
    pub nitrate_removable: u64,
    /// Solids, g/m3
    pub solids: u64,
    /// Diluted sludge volume, l/m3
    pub sludge_volume: u64,
    /// Settling surface, m2
    pub surface: u64,
    /// Settling depth, mm
    pub depth: u64,
    /// The number of the first of the rules 7, 15, 16 and 8 to 10 that is
    /// broken, or 0
    pub verdict: u64,
    /// The terms of the consent; zeros after them
    pub terms: [TermFigures; MOST_TERMS],
}

/// The figures that a candidate is judged by in a term.
#[derive(Clone, Copy, Debug, Default, PartialEq, Eq)]
pub struct TermFigures {
    /// Part of the sludge age that nitrification takes, thousandths
    pub aerobic_share: u64,
    /// Denitrification fraction, thousandths
    pub fraction: u64,
    /// Nitrate to be removed, mg/m3
    pub nitrate_to_remove: u64,
    /// Nitrate that the tank's BOD removes, or its COD as in the design, mg/m3
    pub removed_by_bod: u64,
    /// Nitrate that the tank can remove, with what the dose removes, mg/m3
    pub nitrate_removable: u64,
}

impl Figures {
    /// Reads the page of `explain`.
    pub fn from_page(page: &[u8; FIGURES_LENGTH]) -> Figures {
        let figure = |place: usize| number(page, place);
        let of_term = |term: usize| {
            let first = OF_CANDIDATE + OF_TERM * term;
            TermFigures {
                aerobic_share: figure(first),
                fraction: figure(first + 1),
                nitrate_to_remove: figure(first + 2),
                removed_by_bod: figure(first + 3),
                nitrate_removable: figure(first + 4),
            }
        };
        Figures {
            nitrate_to_remove: figure(0),
            removed_by_bod: figure(1),
            removed_by_dose: figure(2),
            nitrate_removable: figure(3),
            solids: figure(4),
            sludge_volume: figure(5),
            surface: figure(6),
            depth: figure(7),
            verdict: figure(8),
            terms: std::array::from_fn(of_term),
        }
    }
}
