//! The terms of the consent, and the call that is given them and a date: its
//! bytes, and its page of one 64-bit number, little-endian.

use crate::request::{put, VERSION};

/// Most terms of a consent.
pub const MOST_TERMS: usize = 4;
/// Words of a term.
const TERM_WORDS: usize = 6;
/// Words of the terms: their number, then four of them.
pub(crate) const TERMS_WORDS: usize = 1 + MOST_TERMS * TERM_WORDS;
/// Bytes of a request for a target: version, terms and the date asked for.
pub const TARGET_LENGTH: usize = 4 * (1 + TERMS_WORDS + 2);
/// Bytes that `target` writes, and the least length of its page.
pub const TARGET_PAGE: usize = 8;

/// A day of the year, or any other two numbers.
#[derive(Clone, Copy, Debug, Default, PartialEq, Eq)]
pub struct Date {
    pub month: u32,
    pub day: u32,
}

/// A term of the consent. One whose last day comes before its first runs over
/// the new year.
#[derive(Clone, Copy, Debug, Default, PartialEq, Eq)]
pub struct Term {
    pub first: Date,
    pub last: Date,
    /// Lowest temperature, degrees Celsius
    pub temperature: u32,
    /// Nitrate target, mg/m3
    pub target: u32,
}

impl Term {
    fn words(&self) -> [u32; TERM_WORDS] {
        let Term {
            first,
            last,
            temperature,
            target,
        } = *self;
        [
            first.month,
            first.day,
            last.month,
            last.day,
            temperature,
            target,
        ]
    }
}

/// The terms of a consent, as many as `count` says; the entries after them are
/// not looked at.
#[derive(Clone, Copy, Debug, Default, PartialEq, Eq)]
pub struct Terms {
    pub count: u32,
    pub entries: [Term; MOST_TERMS],
}

impl Terms {
    /// One term more. A fifth one is counted, and has no entry.
    pub fn push(&mut self, term: Term) {
        if let Some(entry) = self.entries.get_mut(self.count as usize) {
            *entry = term;
        }
        self.count = self.count.saturating_add(1);
    }

    /// The entries that count, in their order.
    pub fn named(&self) -> &[Term] {
        &self.entries[..MOST_TERMS.min(self.count as usize)]
    }

    /// Their number, and the words of the four entries.
    pub(crate) fn words(&self) -> [u32; TERMS_WORDS] {
        let mut words = [self.count; TERMS_WORDS];
        let entries = words[1..].chunks_exact_mut(TERM_WORDS);
        for (place, term) in entries.zip(self.entries) {
            place.copy_from_slice(&term.words());
        }
        words
    }

    /// The bytes of a request for the target in force on a date.
    pub fn to_target(&self, date: Date) -> [u8; TARGET_LENGTH] {
        let mut bytes = [0; TARGET_LENGTH];
        let (version, rest) = bytes.split_at_mut(4);
        let (terms, asked) = rest.split_at_mut(4 * TERMS_WORDS);
        put(version, &[VERSION]);
        put(terms, &self.words());
        put(asked, &[date.month, date.day]);
        bytes
    }
}

/// Reads the page of `target`: the lowest target in force, mg/m3, or 0.
pub fn target_from_page(page: &[u8; TARGET_PAGE]) -> u64 {
    u64::from_le_bytes(*page)
}
