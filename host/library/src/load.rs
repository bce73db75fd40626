//! The bytes of a day log, and the page of `load`: two 64-bit numbers,
//! little-endian.

use crate::page::number;

/// Bytes that `load` writes, and the least length of its page.
pub const LOAD_PAGE: usize = 16;

/// Fewest days of a log.
pub const LEAST_DAYS: u32 = 14;
/// Most days of a log.
pub const MOST_DAYS: u32 = 3_660;
/// Largest flow of a day, m3/d.
pub const MOST_FLOW: u32 = 200_000;
/// Largest BOD of a day, mg/l.
pub const MOST_BOD: u32 = 2_000;

/// A day of the log. The f32s are held by their bits, so that every pattern
/// goes through unchanged.
#[derive(Clone, Copy, Debug, PartialEq, Eq)]
pub struct Day {
    /// Bits of the flow in m3/d
    pub flow: u32,
    /// Bits of the BOD in mg/l
    pub bod: u32,
}

/// The bytes of a log: the count of days, the flows, the BOD values.
pub fn day_log(days: &[Day]) -> Vec<u8> {
    // a count that does not fit is out of range, whatever stands for it
    let count = u32::try_from(days.len()).unwrap_or(u32::MAX);
    let flows = days.iter().map(|day| day.flow);
    let bods = days.iter().map(|day| day.bod);
    let words = [count].into_iter().chain(flows).chain(bods);
    words.flat_map(u32::to_le_bytes).collect()
}

/// The highest load over 14 consecutive days.
#[derive(Clone, Copy, Debug, PartialEq, Eq)]
pub struct Load {
    /// Of 14 daily loads, in millionths of g/d
    pub sum: u64,
    /// First day, counted from 1, on which such days start
    pub day: u64,
}

impl Load {
    /// Reads the page of `load`.
    pub fn from_page(page: &[u8; LOAD_PAGE]) -> Load {
        Load {
            sum: number(page, 0),
            day: number(page, 1),
        }
    }
}
