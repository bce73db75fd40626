//! Tariffs that just meet or just miss a rule, for plants of every kind; found with
//! the reference alone.

use crate::lines::{on_cover, with_dose, with_random_terms};
use crate::plants::{self, case_a};
use crate::price::*;
use crate::price_orders as orders;
use crate::random::Random;
use crate::request::*;
use reference::price::{MOST_BANDS, MOST_PRICE, MOST_SURCHARGE};
use reference::Tariff;

/// Cases of one kind.
pub type Group = (&'static str, Vec<Asked>);

/// Seed of every search.
const SEED: u64 = 1_011;
/// Plants of each process, tank flow and way.
const EACH: u32 = 2;
/// Random plants that are tried for one of them.
const TRIES: usize = 400;
/// The most that both tanks of them have together, m3.
const MOST_TOTAL: u64 = 30_000;

/// A plant of this process, tank flow and way with a permitted candidate, with terms
/// or without.
pub fn plant_of(random: &mut Random, kinds: [u32; 3], terms: bool) -> Option<Request> {
    let [process, flow, way] = kinds;
    for _ in 0..TRIES {
        let plant = plants::plausible(random)
            .with(PROCESS, process)
            .with(TANK_FLOW, flow)
            .with(WAY, way)
            .with(SITE_SURFACE, 100_000)
            .with(SITE_DEPTH, 10_000);
        let plant = plants::with_candidate(random, plant);
        let plant = with_dose(random, plant);
        let Some(plant) = on_cover(plant, 0) else {
            continue;
        };
        let plant = with_random_terms(random, plant);
        let total: u64 = volumes(&plant).iter().map(|v| u64::from(*v)).sum();
        let seasons = plant.get(TERM_COUNT) > 0;
        if seasons == terms && (1..=MOST_TOTAL).contains(&total) {
            return Some(plant);
        }
    }
    None
}

/// Plants of every process, tank flow and way, some with a dose and some with terms,
/// at the candidate that is chosen and at another; and Case A.
pub fn subjects() -> Vec<Subject> {
    let mut random = Random::new(SEED);
    let mut found = case_a_subjects();
    for process in 0..=4 {
        for flow in 0..=1 {
            for way in [BY_BOD, BY_COD] {
                for turn in 0..EACH {
                    let terms = (process + flow + way + turn) % 2 == 0;
                    let plant = plant_of(&mut random, [process, flow, way], terms);
                    let own = plant.and_then(Subject::of);
                    found.extend(match turn {
                        0 => own,
                        _ => own.and_then(Subject::at_choice),
                    });
                }
            }
        }
    }
    found
}

/// Case A at its candidate, and at the one that is chosen.
pub fn case_a_subjects() -> Vec<Subject> {
    let own = Subject::of(case_a());
    [own, own.and_then(Subject::at_choice)]
        .into_iter()
        .flatten()
        .collect()
}

/// Each of these tariffs for each of these plants.
pub fn each(subjects: &[Subject], tariffs: &[Tariff]) -> Vec<Asked> {
    let mut cases = Vec::new();
    for subject in subjects {
        cases.extend(tariffs.iter().map(|tariff| Asked {
            subject: *subject,
            tariff: *tariff,
        }));
    }
    cases
}

/// Each plant with tariffs about its volumes.
fn about_volumes(subjects: &[Subject], tariffs: impl Fn(Volumes) -> Vec<Tariff>) -> Vec<Asked> {
    let of = |subject: &Subject| each(&[*subject], &tariffs(subject.volumes()));
    subjects.iter().flat_map(of).collect()
}

/// One less, just that, and one more.
pub fn about(volume: u32) -> [u32; 3] {
    [volume.saturating_sub(1), volume, volume + 1]
}

/// Falling prices, rising ones, and ones that differ by a cent.
const PAIRS: [(u32, u32); 5] = [(7, 3), (3, 7), (1, 0), (0, 1), (999_999, MOST_PRICE)];
/// The prices of six bands.
pub const SIX: [u32; MOST_BANDS] = [31, 2, 97, 0, 13, 5];

/// Six bands with this limit in a place; the limits before it count up from 1, the
/// ones after it follow at once.
pub fn six_with(limit: u32, place: usize) -> Tariff {
    let mut six = tariff(&SIX.map(|price| (0, price)), 1);
    for other in 0..MOST_BANDS {
        six.limits[other] = match other < place {
            true => other as u32 + 1,
            false => limit + (other - place) as u32,
        };
    }
    six
}

/// A limit at the volume of a tank, one less and one more: of two bands, and in each
/// place of six.
fn limits_about_volumes(subjects: &[Subject]) -> Vec<Asked> {
    about_volumes(subjects, |volumes| {
        let mut tariffs = Vec::new();
        for limit in volumes.into_iter().flat_map(about) {
            tariffs.extend(PAIRS.map(|(first, then)| tariff(&[(limit, first), (0, then)], 0)));
            tariffs.extend((0..MOST_BANDS).map(|place| six_with(limit, place)));
        }
        tariffs
    })
}

/// Limits at both tanks' volumes and at what they have together, one less and one
/// more: each tank starts with its first cubic metre.
fn two_limits(subjects: &[Subject]) -> Vec<Asked> {
    about_volumes(subjects, |[reactor, settling]| {
        let mut tariffs = Vec::new();
        let both = reactor + settling;
        for (one, other) in [(reactor, settling), (reactor, both), (settling, both)] {
            for first in about(one.min(other)) {
                for second in about(one.max(other)) {
                    tariffs.push(tariff(&[(first, 11), (second, 5), (0, 2)], 0));
                    tariffs.push(tariff(&[(first, 2), (second, 0), (0, 11)], 3));
                }
            }
        }
        tariffs
    })
}

/// Limits from the first cubic metre on.
fn first_metres(subjects: &[Subject]) -> Vec<Asked> {
    let mut tariffs = Vec::new();
    for count in 1..=MOST_BANDS {
        let bands: Vec<(u32, u32)> = (1..).zip(SIX).take(count).collect();
        tariffs.push(tariff(&bands, 0));
        tariffs.push(tariff(&bands, 7));
    }
    for limit in 1..=6 {
        tariffs.extend(PAIRS.map(|(first, then)| tariff(&[(limit, first), (0, then)], 0)));
    }
    each(subjects, &tariffs)
}

/// Neighbouring limits that rise by one, are equal, fall and are 0, in each place;
/// and every choice of three limits out of some.
fn order_of_limits(subjects: &[Subject]) -> Vec<Asked> {
    let six = six_with(1_000, 2);
    let mut tariffs = vec![six];
    for place in 0..MOST_BANDS {
        let before = six.limits[place.saturating_sub(1)];
        for limit in [0, 1, before - 1, before, before + 1, 1 << 16, u32::MAX] {
            tariffs.push(with_limit(six, place, limit));
        }
    }
    let some = [0, 1, 2, 2_060, 3_105, 1 << 31, u32::MAX];
    for first in some {
        for second in some {
            for third in some {
                let limits = [first, second, third, 0].into_iter();
                let bands: Vec<(u32, u32)> = limits.zip(SIX).collect();
                tariffs.push(tariff(&bands, 0));
            }
        }
    }
    each(&subjects[..2], &tariffs)
}

/// Numbers of bands from 0 on, and right ones in fewer bits, with bands past them
/// that would be right and wrong.
fn numbers_of_bands(subjects: &[Subject]) -> Vec<Asked> {
    let six = six_with(2_060, 3);
    let mut tariffs = Vec::new();
    let right = 1..=MOST_BANDS as u32;
    let wider = right.flat_map(|count| [8, 16, 31].map(|bit| count + (1 << bit)));
    for count in (0..=12).chain(wider).chain([u32::MAX - 1, u32::MAX]) {
        for base in [
            six,
            with_limit(six, 5, u32::MAX),
            with_price(six, 5, 1_000_001),
        ] {
            tariffs.push(with_count(base, count));
        }
    }
    each(&subjects[..4], &tariffs)
}

/// Prices at the edges of their range in each place, of bands that count and of
/// bands past the count.
fn edges_of_prices(subjects: &[Subject]) -> Vec<Asked> {
    let edges = [
        0,
        1,
        999_999,
        MOST_PRICE,
        MOST_PRICE + 1,
        1 << 20,
        (1 << 24) + 5,
        (1 << 31) + 5,
        u32::MAX,
    ];
    let mut tariffs = Vec::new();
    for count in 1..=MOST_BANDS as u32 {
        for place in 0..MOST_BANDS {
            let base = with_count(six_with(500, 2), count);
            tariffs.extend(edges.map(|price| with_price(base, place, price)));
        }
    }
    each(&subjects[..2], &tariffs)
}

/// Anything in the entries that are not looked at: the last band's limit, and all
/// bands past the count.
fn not_looked_at(subjects: &[Subject]) -> Vec<Asked> {
    about_volumes(&subjects[..12], |[reactor, settling]| {
        let mut tariffs = Vec::new();
        let first = [(1, 31), (reactor.min(settling), 2), (reactor, 97)];
        for count in 1..=3 {
            let plain = tariff(&first[..count], 9);
            let limits = RUBBISH.into_iter().chain([settling, reactor, reactor - 1]);
            tariffs.extend(limits.map(|limit| with_rubbish(plain, limit, limit)));
        }
        tariffs
    })
}

/// Surcharges at the edges of their range and past them.
fn edges_of_surcharge(subjects: &[Subject]) -> Vec<Asked> {
    let edges = [
        0,
        1,
        2,
        10,
        100,
        499,
        MOST_SURCHARGE,
        MOST_SURCHARGE + 1,
        502,
        1_000,
        500 + (1 << 16),
        1 << 31,
        u32::MAX,
    ];
    let mut tariffs = Vec::new();
    for surcharge in edges {
        for price in [0, 1, 1_000, MOST_PRICE] {
            tariffs.push(tariff(&[(0, price)], surcharge));
        }
        tariffs.push(tariff(&[(100, 7), (0, 3)], surcharge));
    }
    each(subjects, &tariffs)
}

/// Thousandths of a cent that the surcharge has over whole cents.
const OVER: [u64; 8] = [0, 1, 2, 499, 500, 501, 998, 999];

/// A tariff by which a surcharge is so many thousandths over whole cents: the price of
/// the larger tank's last cubic metre is set so.
pub fn over_whole_cents(
    [reactor, settling]: Volumes,
    surcharge: u32,
    price: u32,
    over: u64,
) -> Option<Tariff> {
    let larger = reactor.max(settling);
    let others = u64::from(reactor + settling - 1);
    let sum = |last: u64| others * u64::from(price) + last;
    let fits = |last: &u64| sum(*last) * u64::from(surcharge) % 1_000 == over;
    let last = (1..=1_000).find(fits)?;
    let bands = [(larger - 1, price), (0, last as u32)];
    Some(tariff(&bands, surcharge))
}

/// Surcharges that are whole cents, or so many thousandths over.
fn whole_cents(subjects: &[Subject]) -> Vec<Asked> {
    about_volumes(subjects, |volumes| {
        let mut tariffs = Vec::new();
        for surcharge in [1, 3, 125, 333, 499, 500] {
            for price in [0, 1, 12_345] {
                let of = |over: u64| over_whole_cents(volumes, surcharge, price, over);
                tariffs.extend(OVER.into_iter().filter_map(of));
            }
        }
        tariffs
    })
}

/// Tariffs by which another candidate of a plant may be cheaper than the one of the
/// least volume: some metres cost nothing.
pub fn steep(subjects: &[Subject]) -> Vec<Asked> {
    about_volumes(subjects, |[reactor, settling]| {
        let mut tariffs = Vec::new();
        for volume in [reactor, settling] {
            for limit in [volume / 2, volume - volume / 10, volume + volume / 10] {
                let limit = limit.max(1);
                tariffs.push(tariff(&[(limit, 10), (0, 0)], 0));
                tariffs.push(tariff(&[(limit, 0), (0, 10)], 0));
            }
        }
        tariffs
    })
}

/// Tanks of a few cubic metres, with limits at each of them.
fn small_tanks() -> Vec<Asked> {
    let quick = orders::quick().with(SITE_DEPTH, 10_000);
    let mut subjects = Vec::new();
    for flow in [1, 2, 3, 5, 9] {
        let plant = quick.with(FLOW, flow).with(WET_WEATHER_FLOW, 1);
        subjects.extend(Subject::of(plant));
        subjects.extend(Subject::of(plant).and_then(Subject::at_choice));
    }
    let cases = [first_metres(&subjects), limits_about_volumes(&subjects)];
    cases.concat()
}

/// Tanks of millions of cubic metres.
fn large_tanks() -> Vec<Asked> {
    let plant = case_a()
        .with(LOAD, 1)
        .with(FLOW, 200_000)
        .with(WET_WEATHER_FLOW, 50_000)
        .with(DESIGN_TEMPERATURE, 10)
        .with(SLUDGE_VOLUME_INDEX, 180)
        .with(REMOVAL, 1)
        .with(SITE_SURFACE, 100_000)
        .with(SITE_DEPTH, 10_000)
        .with_measured(BOD, 2_000_000)
        .with_measured(COD, 4_400_000)
        .with_measured(SOLIDS, 2_000_000)
        .with_measured(PHOSPHORUS, 100_000)
        .with_candidate(500, 41, 20);
    let ways = [BY_BOD, BY_COD].map(|way| Subject::of(plant.with(WAY, way)));
    let subjects: Vec<Subject> = ways.into_iter().flatten().collect();
    about_volumes(&subjects, |[reactor, settling]| {
        vec![
            tariff(&[(0, MOST_PRICE)], MOST_SURCHARGE),
            tariff(&[(settling, 999_999), (0, MOST_PRICE)], 499),
            tariff(&[(reactor - 1, 1), (0, MOST_PRICE)], 1),
            tariff(&[(1, MOST_PRICE), (settling, 7), (reactor, 3), (0, 1)], 333),
        ]
    })
}

/// Tariffs that just meet or just miss each rule, by what they are about.
pub fn made_to_measure() -> Vec<Group> {
    let subjects = subjects();
    let subjects = &subjects[..];
    vec![
        ("limits about the volumes", limits_about_volumes(subjects)),
        ("two limits", two_limits(subjects)),
        ("first metres", first_metres(subjects)),
        ("order of limits", order_of_limits(subjects)),
        ("numbers of bands", numbers_of_bands(subjects)),
        ("edges of prices", edges_of_prices(subjects)),
        ("not looked at", not_looked_at(subjects)),
        ("edges of the surcharge", edges_of_surcharge(subjects)),
        ("whole cents", whole_cents(subjects)),
        ("cheaper rivals", steep(subjects)),
        ("small tanks", small_tanks()),
        ("large tanks", large_tanks()),
        ("refusals of the data", orders::of_data()),
        ("refusals of the candidate", orders::of_candidate()),
        ("no design", orders::no_design()),
    ]
}
