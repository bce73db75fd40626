//! The price of the concrete: the tariff, and the page of `price_choose` and
//! `price_examine`, the fifteen figures of a sheet and then the price.

use crate::page::{number, NUMBER};
use crate::sheet::LINES;
use std::array::from_fn;

/// Fewest bands of a tariff.
pub const LEAST_BANDS: usize = 1;
/// Most bands of a tariff.
pub const MOST_BANDS: usize = 6;
/// Least limit of a band, m3.
pub const LEAST_LIMIT: u32 = 1;
/// Largest price of a band, cents per m3.
pub const MOST_PRICE: u32 = 1_000_000;
/// Largest surcharge, thousandths.
pub const MOST_SURCHARGE: u32 = 500;
/// Words of a tariff: the number of bands, six limits, six prices and the
/// surcharge.
pub(crate) const TARIFF_WORDS: usize = 1 + MOST_BANDS + MOST_BANDS + 1;

/// Bytes that `price_choose` and `price_examine` write, and the least length
/// of their page.
pub const PRICE_PAGE: usize = NUMBER * (LINES.len() + 1);

/// The bands of a tariff, as many as `count` says, and the surcharge. The
/// entries after them are not looked at, nor is the limit of the last band,
/// which has none.
#[derive(Clone, Copy, Debug, Default, PartialEq, Eq)]
pub struct Tariff {
    pub count: u32,
    /// Upper limits, m3
    pub limits: [u32; MOST_BANDS],
    /// Cents per m3
    pub prices: [u32; MOST_BANDS],
    /// Thousandths of the sum
    pub surcharge: u32,
}

impl Tariff {
    /// One band more, with its limit in m3 and its price in cents per m3. A
    /// seventh one is counted, and has no entry.
    pub fn push(&mut self, limit: u32, price: u32) {
        let place = self.count as usize;
        if place < MOST_BANDS {
            self.limits[place] = limit;
            self.prices[place] = price;
        }
        self.count = self.count.saturating_add(1);
    }

    /// The number of bands, the words of the six limits and of the six prices,
    /// and the surcharge.
    pub(crate) fn words(&self) -> [u32; TARIFF_WORDS] {
        let mut words = [self.surcharge; TARIFF_WORDS];
        let (count, rest) = words.split_at_mut(1);
        count[0] = self.count;
        rest[..MOST_BANDS].copy_from_slice(&self.limits);
        rest[MOST_BANDS..2 * MOST_BANDS].copy_from_slice(&self.prices);
        words
    }
}

/// A sheet and what its concrete costs.
#[derive(Clone, Copy, Debug, Default, PartialEq, Eq)]
pub struct Price {
    /// Its figures in the order of the listing
    pub sheet: [u64; LINES.len()],
    /// Cents
    pub price: u64,
}

impl Price {
    /// Reads the page of `price_choose` or `price_examine`.
    pub fn from_page(page: &[u8; PRICE_PAGE]) -> Price {
        Price {
            sheet: from_fn(|place| number(page, place)),
            price: number(page, LINES.len()),
        }
    }
}
