//! Prices: plants and their volumes, tariffs, and random ones about these.

use crate::model::{self, Outcome};
use crate::random::Random;
use crate::request::*;
use reference::price::{priced, LEAST_LIMIT, MOST_BANDS, MOST_PRICE, MOST_SURCHARGE};
use reference::{Answer, Tariff};
use std::array::from_fn;

/// Reactor and settling tank, m3.
pub type Volumes = [u32; 2];

/// A tank of more is mostly left out: adding up its single cubic metres takes long.
const MODERATE: u32 = 200_000;

/// The answer for a request's candidate; none where the request is malformed.
fn examined(plant: &Request) -> Option<Answer> {
    let data = plant.decoded().ok()?;
    let answer = reference::examine(&data.plant, &data.readings, data.candidate);
    Some(answer)
}

fn volumes_of(answer: &Answer) -> Volumes {
    let sheet = answer.sheet();
    [sheet.reactor_volume, sheet.settling_volume].map(|volume| volume as u32)
}

/// The volumes of a request's candidate, zeros where it has no sheet.
pub fn volumes(plant: &Request) -> Volumes {
    examined(plant).map_or([0; 2], |answer| volumes_of(&answer))
}

/// A plant with its candidate, and the reference's answers for both calls. With
/// them a plant is chosen for once, for all its tariffs.
#[derive(Clone, Copy, Debug)]
pub struct Subject {
    pub plant: Request,
    pub chosen: Answer,
    pub examined: Answer,
}

impl Subject {
    /// None where the request is malformed.
    pub fn of(plant: Request) -> Option<Subject> {
        let data = plant.decoded().ok()?;
        Some(Subject {
            plant,
            chosen: reference::choose(&data.plant, &data.readings),
            examined: examined(&plant)?,
        })
    }

    /// The plant with the chosen candidate: both calls price the same sheet. None
    /// where nothing is chosen.
    pub fn at_choice(self) -> Option<Subject> {
        let Answer::Sheet(sheet) = self.chosen else {
            return None;
        };
        let place = [sheet.fraction, sheet.return_ratio, sheet.thickening];
        let [fraction, ratio, time] = place.map(|figure| figure as u32);
        let plant = self.plant.with_candidate(fraction, ratio, time);
        Some(Subject {
            plant,
            chosen: self.chosen,
            examined: examined(&plant)?,
        })
    }

    /// The volumes of the candidate, zeros where it is refused.
    pub fn volumes(&self) -> Volumes {
        volumes_of(&self.examined)
    }
}

/// A plant and a tariff, for either call.
#[derive(Clone, Copy, Debug)]
pub struct Asked {
    pub subject: Subject,
    pub tariff: Tariff,
}

impl Asked {
    pub fn choose_bytes(&self) -> Vec<u8> {
        self.subject.plant.price_choose_bytes(&self.tariff)
    }

    pub fn examine_bytes(&self) -> Vec<u8> {
        self.subject.plant.price_examine_bytes(&self.tariff)
    }

    /// What pricing the choice answers, on a page that is long enough.
    pub fn chosen(&self) -> Outcome {
        model::price_page(&priced(self.subject.chosen, &self.tariff))
    }

    /// What pricing the candidate answers.
    pub fn examined(&self) -> Outcome {
        model::price_page(&priced(self.subject.examined, &self.tariff))
    }
}

/// Bands by limit and price; the entries past them are zeros.
pub fn tariff(bands: &[(u32, u32)], surcharge: u32) -> Tariff {
    let entry = |place: usize| bands.get(place).copied().unwrap_or((0, 0));
    Tariff {
        count: bands.len() as u32,
        limits: from_fn(|place| entry(place).0),
        prices: from_fn(|place| entry(place).1),
        surcharge,
    }
}

/// What may stand in an entry that is not looked at.
pub const RUBBISH: [u32; 8] = [0, 1, 3, 1_000_000, 1_000_001, 1 << 16, 1 << 31, u32::MAX];

/// The same bands with something else in every entry that is not looked at.
pub fn with_rubbish(mut tariff: Tariff, limit: u32, price: u32) -> Tariff {
    let count = tariff.count as usize;
    tariff.limits[count - 1..].fill(limit);
    tariff.prices[count..].fill(price);
    tariff
}

/// A limit about one of the volumes, about both together, or any.
fn limit_about(random: &mut Random, [reactor, settling]: Volumes) -> u32 {
    let both = reactor + settling;
    let about = random.pick(&[reactor, reactor, settling, settling, both]);
    let limit = match random.within(0, 9) {
        0..=4 => (about + random.within(0, 2)).saturating_sub(1),
        5 => random.within(1, 3),
        6 => random.within(0, about),
        7 | 8 => random.spread(1, 2 * both + 1),
        _ => random.pick(&[1 << 16, 1 << 31, u32::MAX]),
    };
    limit.max(LEAST_LIMIT)
}

/// Prices of about one size, now and then the least and the most of these.
fn prices(random: &mut Random) -> [u32; MOST_BANDS] {
    let most = random.pick(&[1, 9, 1_000, 60_000, MOST_PRICE]);
    from_fn(|_| match random.within(0, 7) {
        0 => 0,
        1 => most,
        _ => random.within(0, most),
    })
}

/// A right tariff with limits about the volumes.
pub fn sound(random: &mut Random, volumes: Volumes) -> Tariff {
    let wanted = random.within(0, MOST_BANDS as u32 - 1);
    let mut limits: Vec<u32> = (0..wanted).map(|_| limit_about(random, volumes)).collect();
    limits.sort_unstable();
    limits.dedup();
    limits.push(random.pick(&RUBBISH));
    let prices = prices(random);
    let bands: Vec<(u32, u32)> = limits.into_iter().zip(prices).collect();
    let surcharge = match random.within(0, 3) {
        0 => random.pick(&[0, 1, 499, MOST_SURCHARGE]),
        _ => random.within(0, MOST_SURCHARGE),
    };
    let tariff = tariff(&bands, surcharge);
    match random.one_in(2) {
        true => with_rubbish(tariff, random.pick(&RUBBISH), random.pick(&RUBBISH)),
        false => tariff,
    }
}

/// The same tariff with another limit, price or number of bands.
pub fn with_limit(mut tariff: Tariff, place: usize, limit: u32) -> Tariff {
    tariff.limits[place] = limit;
    tariff
}

pub fn with_price(mut tariff: Tariff, place: usize, price: u32) -> Tariff {
    tariff.prices[place] = price;
    tariff
}

pub fn with_count(tariff: Tariff, count: u32) -> Tariff {
    Tariff { count, ..tariff }
}

/// A limit that is 0, as large as the one before, or smaller, or any.
fn with_wrong_limit(random: &mut Random, tariff: Tariff) -> Tariff {
    let place = match tariff.count {
        1 | 2 => 0,
        count => random.within(1, count - 2) as usize,
    };
    let before = tariff.limits[place.saturating_sub(1)];
    let wrong = [0, before, before - before.min(1), random.bits() as u32];
    with_limit(tariff, place, random.pick(&wrong))
}

/// A right tariff of which a word may be wrong: the number of bands, a limit, a
/// price, or the surcharge.
fn wrong(random: &mut Random, tariff: Tariff) -> Tariff {
    let bits = random.bits() as u32;
    let place = random.within(0, tariff.count - 1) as usize;
    match random.within(0, 3) {
        0 => {
            let counts = [0, 6, 7, 8, tariff.count + (1 << 8), 1 << 31, u32::MAX, bits];
            with_count(tariff, random.pick(&counts))
        }
        1 => with_wrong_limit(random, tariff),
        2 => {
            let prices = [MOST_PRICE + 1, 1 << 20, 1 << 31, u32::MAX, bits];
            with_price(tariff, place, random.pick(&prices))
        }
        _ => Tariff {
            surcharge: random.pick(&[501, 502, 1_000, 1 << 16, 1 << 31, u32::MAX, bits]),
            ..tariff
        },
    }
}

/// A random tariff for a request's candidate, now and then a wrong one.
pub fn random(random: &mut Random, plant: &Request) -> Tariff {
    let tariff = sound(random, volumes(plant));
    match random.one_in(8) {
        true => wrong(random, tariff),
        false => tariff,
    }
}

/// The plant, or one of smaller flows where its tanks are large; now and then the
/// large one all the same.
pub fn moderate(random: &mut Random, plant: Request) -> Request {
    let large = volumes(&plant).iter().any(|volume| *volume > MODERATE);
    if !large || random.one_in(8) {
        return plant;
    }
    let less = |place: usize| plant.get(place) / 64 + 1;
    plant
        .with(FLOW, less(FLOW))
        .with(WET_WEATHER_FLOW, less(WET_WEATHER_FLOW))
}
