//! Works in several lines: how they are split, and the page of `works`, eight
//! sums and then the fifteen figures of each of eight lines.

use crate::page::{number, NUMBER};
use crate::sheet::LINES;
use std::array::from_fn;

/// Fewest lines of a works.
pub const LEAST_LINES: usize = 2;
/// Most lines of a works.
pub const MOST_LINES: usize = 8;
/// Least share of a line, thousandths.
pub const LEAST_SHARE: u32 = 1;
/// What the shares add up to, thousandths.
pub const WHOLE: u32 = 1_000;
/// Words of a split: the number of lines, then eight shares.
pub(crate) const SPLIT_WORDS: usize = 1 + MOST_LINES;

/// The figures of a sheet that are added up over the lines, by their labels,
/// in the order of the page.
pub const SUMS: [&str; 8] = [
    "sludge", "mass", "surface", "reactor", "settling", "total", "oxygen", "transfer",
];

/// Bytes that `works` writes, and the least length of its page.
pub const WORKS_PAGE: usize = NUMBER * (SUMS.len() + MOST_LINES * LINES.len());

/// The lines of a works, as many as `count` says, and their shares in
/// thousandths; the entries after them are not looked at.
#[derive(Clone, Copy, Debug, Default, PartialEq, Eq)]
pub struct Split {
    pub count: u32,
    pub shares: [u32; MOST_LINES],
}

impl Split {
    /// The split of these shares. All are counted; the first eight have
    /// entries.
    pub fn of(shares: &[u32]) -> Split {
        // a count that does not fit is out of range, whatever stands for it
        let count = u32::try_from(shares.len()).unwrap_or(u32::MAX);
        let entry = |place: usize| shares.get(place).copied().unwrap_or(0);
        Split {
            count,
            shares: from_fn(entry),
        }
    }

    /// The shares that count, in their order.
    pub fn named(&self) -> &[u32] {
        &self.shares[..MOST_LINES.min(self.count as usize)]
    }

    /// The number of lines, and the words of the eight shares.
    pub(crate) fn words(&self) -> [u32; SPLIT_WORDS] {
        let mut words = [self.count; SPLIT_WORDS];
        words[1..].copy_from_slice(&self.shares);
        words
    }
}

/// What a works comes to.
#[derive(Clone, Copy, Debug, PartialEq, Eq)]
pub struct Works {
    /// In the order of `SUMS`
    pub sums: [u64; SUMS.len()],
    /// The sheet of each line, its figures in the order of the listing; zeros
    /// past the number of lines
    pub sheets: [[u64; LINES.len()]; MOST_LINES],
}

impl Works {
    /// Reads the page of `works`.
    pub fn from_page(page: &[u8; WORKS_PAGE]) -> Works {
        let of_line = |line: usize| SUMS.len() + line * LINES.len();
        Works {
            sums: from_fn(|place| number(page, place)),
            sheets: from_fn(|line| from_fn(|place| number(page, of_line(line) + place))),
        }
    }
}
