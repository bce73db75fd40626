//! Existing tanks against a span of sludge volume indices: what stands, the
//! span, and the page of `built`, one 64-bit number, little-endian.

use crate::number::SHEET;

/// Bytes that `built` writes, and the least length of its page.
pub const BUILT_PAGE: usize = 8;

/// Least sludge volume index, of a plant and of a span, l/kg.
pub const LEAST_INDEX: u32 = 50;
/// Largest one that is not bulking sludge, l/kg.
pub const MOST_INDEX: u32 = 180;
/// Least size of an existing tank, whatever its unit.
pub const LEAST_SIZE: u32 = 1;

/// Words of the existing tanks: three sizes and how they are run.
const EXISTING_WORDS: usize = 5;
/// Words of a span.
const SPAN_WORDS: usize = 2;
/// Words that come after the data.
pub(crate) const BUILT_WORDS: usize = EXISTING_WORDS + SPAN_WORDS;

/// The tanks that stand, and the two numbers of a candidate that stay as they
/// are; the operator picks the return ratio.
#[derive(Clone, Copy, Debug, Default, PartialEq, Eq)]
pub struct Existing {
    /// Reactor volume, m3
    pub reactor: u32,
    /// Settling surface, m2
    pub surface: u32,
    /// Settling depth, mm
    pub depth: u32,
    /// Denitrification fraction, thousandths
    pub fraction: u32,
    /// Thickening time, tenths of an hour
    pub thickening: u32,
}

/// A span of sludge volume indices, both ends included.
#[derive(Clone, Copy, Debug, Default, PartialEq, Eq)]
pub struct Span {
    /// l/kg
    pub least: u32,
    /// l/kg
    pub most: u32,
}

/// The words after the data, in their order.
pub(crate) fn words(existing: &Existing, span: &Span) -> [u32; BUILT_WORDS] {
    [
        existing.reactor,
        existing.surface,
        existing.depth,
        existing.fraction,
        existing.thickening,
        span.least,
        span.most,
    ]
}

/// What existing tanks are answered with.
#[derive(Clone, Copy, Debug, PartialEq, Eq)]
pub enum Built {
    /// Every index of the span can be held
    Held,
    /// The smallest index of the span that cannot
    Lost(u64),
    /// The number of a refusal, of a short page or of malformed bytes
    Refused(u32),
}

impl Built {
    /// By the number that `built` gives and its page.
    pub fn from_page(number: u32, page: &[u8; BUILT_PAGE]) -> Built {
        match (number, u64::from_le_bytes(*page)) {
            (SHEET, 0) => Built::Held,
            (SHEET, index) => Built::Lost(index),
            (number, _) => Built::Refused(number),
        }
    }
}
