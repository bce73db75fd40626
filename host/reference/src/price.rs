//! Price of the concrete: every cubic metre of the reactor and of the settling
//! tank by itself, then a surcharge on the sum of both.

use crate::choose::choose;
use crate::examine::{examine, Candidate};
use crate::plant::Plant;
use crate::reading::Reading;
use crate::refusal;
use crate::rounding::up;
use crate::sheet::{Answer, Sheet};

/// Bands that a tariff may have.
pub const LEAST_BANDS: u32 = 1;
pub const MOST_BANDS: usize = 6;
/// Least upper limit of a band, m3.
pub const LEAST_LIMIT: u32 = 1;
/// Largest price of a band, cents per m3.
pub const MOST_PRICE: u32 = 1_000_000;
/// Largest surcharge, thousandths of the sum.
pub const MOST_SURCHARGE: u32 = 500;

/// The first `count` bands; the others are not looked at, nor is the limit of the
/// last one that counts.
#[derive(Clone, Copy, Debug, PartialEq, Eq)]
pub struct Tariff {
    pub count: u32,
    /// Upper limits, m3
    pub limits: [u32; MOST_BANDS],
    /// Cents per m3
    pub prices: [u32; MOST_BANDS],
    /// Thousandths of the sum
    pub surcharge: u32,
}

/// A band; the last of a tariff has no limit.
#[derive(Clone, Copy, Debug, PartialEq, Eq)]
pub struct Band {
    pub limit: Option<u32>,
    pub price: u32,
}

impl Band {
    /// Whether the limit is at least cubic metre n.
    fn reaches(&self, metre: u64) -> bool {
        self.limit.is_none_or(|limit| u64::from(limit) >= metre)
    }
}

impl Tariff {
    /// The bands in their order, or 22.
    pub fn bands(&self) -> Result<Vec<Band>, u8> {
        if !(LEAST_BANDS..=MOST_BANDS as u32).contains(&self.count) {
            return Err(refusal::TARIFF);
        }
        let last = self.count as usize - 1;
        let band = |place: usize| Band {
            limit: (place < last).then_some(self.limits[place]),
            price: self.prices[place],
        };
        let bands: Vec<Band> = (0..=last).map(band).collect();
        let limits: Vec<u32> = bands.iter().filter_map(|band| band.limit).collect();
        let positive = limits.iter().all(|limit| *limit >= LEAST_LIMIT);
        let rising = limits.windows(2).all(|pair| pair[0] < pair[1]);
        let priced = bands.iter().all(|band| band.price <= MOST_PRICE);
        if positive && rising && priced && self.surcharge <= MOST_SURCHARGE {
            Ok(bands)
        } else {
            Err(refusal::TARIFF)
        }
    }
}

/// Cents for cubic metre n: the price of the first band whose limit is at least n.
pub fn metre(bands: &[Band], n: u64) -> u64 {
    let band = bands.iter().find(|band| band.reaches(n));
    u64::from(band.expect("the last band has no limit").price)
}

/// Cents for one tank: the sum over its single cubic metres, from the first on.
pub fn tank(bands: &[Band], volume: u64) -> u64 {
    (1..=volume).map(|n| metre(bands, n)).sum()
}

/// Cents for a sheet before the surcharge.
pub fn sum(bands: &[Band], sheet: &Sheet) -> u64 {
    tank(bands, sheet.reactor_volume) + tank(bands, sheet.settling_volume)
}

/// Cents with the surcharge on the sum, which is rounded up once.
pub fn with_surcharge(sum: u64, surcharge: u32) -> u64 {
    sum + up(sum * u64::from(surcharge), 1000)
}

/// An answer and its price in cents, 0 with a refusal.
#[derive(Clone, Copy, Debug, PartialEq, Eq)]
pub struct Priced {
    pub answer: Answer,
    pub price: u64,
}

/// A sheet with its price, its own refusal, or 22.
pub fn priced(answer: Answer, tariff: &Tariff) -> Priced {
    let refused = |number: u8| Priced {
        answer: Answer::Refused(number),
        price: 0,
    };
    match (answer, tariff.bands()) {
        (Answer::Refused(number), _) => refused(number),
        (Answer::Sheet(_), Err(number)) => refused(number),
        (Answer::Sheet(sheet), Ok(bands)) => Priced {
            answer,
            price: with_surcharge(sum(&bands, &sheet), tariff.surcharge),
        },
    }
}

/// The choice, which goes by volume whatever the tariff, and its price.
pub fn price_choose(plant: &Plant, readings: &[Reading; 5], tariff: &Tariff) -> Priced {
    priced(choose(plant, readings), tariff)
}

/// The candidate examined, and its price.
pub fn price_examine(
    plant: &Plant,
    readings: &[Reading; 5],
    candidate: Candidate,
    tariff: &Tariff,
) -> Priced {
    priced(examine(plant, readings, candidate), tariff)
}
