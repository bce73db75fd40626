//! The page of `census`: 32 64-bit numbers, little-endian, a count for each
//! number that a candidate can be answered with.

use crate::number::{DEPTH, NITRATE, NITRIFICATION, SHEET, SOLIDS, SURFACE, TERM_NITRATE};
use crate::page::{number, NUMBER};

/// Counts of a census, by number.
const COUNTS: usize = 32;
/// Bytes that `census` writes.
pub const CENSUS_LENGTH: usize = NUMBER * COUNTS;

/// The numbers that a candidate of the grid is answered with: 0 where it is
/// permitted, else that of the first rule that it breaks, in this order.
pub const COUNTED: [u32; 7] = [
    SHEET,
    NITRATE,
    NITRIFICATION,
    TERM_NITRATE,
    SOLIDS,
    SURFACE,
    DEPTH,
];

/// How many candidates of the grid are answered with each number.
#[derive(Clone, Copy, Debug, PartialEq, Eq)]
pub struct Census([u64; COUNTS]);

impl Census {
    /// Reads the page of `census`.
    pub fn from_page(page: &[u8; CENSUS_LENGTH]) -> Census {
        Census(std::array::from_fn(|place| number(page, place)))
    }

    /// The candidates that are answered with this number.
    pub fn count(&self, number: u32) -> u64 {
        self.0.get(number as usize).copied().unwrap_or(0)
    }

    /// The candidates that are permitted.
    pub fn permitted(&self) -> u64 {
        self.count(SHEET)
    }

    /// All candidates that were counted.
    pub fn total(&self) -> u64 {
        self.0.iter().sum()
    }
}
