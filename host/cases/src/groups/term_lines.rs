//! Terms on the lines of 15 and 16: just covered and just missed, a fraction
//! of 200, a difference of 0, and doses that decide.

use super::terms::{searched, winter, with_temperatures};
use crate::collection::{examined, Collection};
use crate::figures;
use crate::lines::{on_cover, on_term_cover, on_term_dose};
use crate::random::Random;
use crate::request::*;
use reference::age::*;
use reference::nitrogen::capacity_in_term;
use reference::stages::InTerm;

/// K of the term with figures that are not the term's.
fn capacity_with(request: &Request, fraction: u64, by_design: bool) -> u64 {
    let data = request.decoded().ok().unwrap();
    let age = figures::of_request(request).unwrap().nitrate.age;
    let temperature = if by_design {
        request.get(DESIGN_TEMPERATURE)
    } else {
        request.get(term_word(0, TERM_TEMPERATURE))
    };
    let temperature = u64::from(temperature);
    let weighted_age = weighted_sludge_age(age, decay(temperature));
    capacity_in_term(data.plant.process, fraction, temperature, weighted_age)
}

/// Whether the design's temperature gives another capacity.
fn differs_by_temperature(request: &Request, term: &InTerm) -> bool {
    capacity_with(request, term.fraction, true) != term.capacity
}

/// Whether the term's fraction is less than f, and one more gives another
/// capacity.
fn differs_by_fraction(request: &Request, term: &InTerm) -> bool {
    term.fraction < u64::from(request.get(FRACTION))
        && capacity_with(request, term.fraction + 1, false) != term.capacity
        && term.capacity > 0
}

/// Whether f is less than what the term leaves, and that gives another
/// capacity.
fn held_by_fraction(request: &Request, term: &InTerm) -> bool {
    let temperature = request.get(term_word(0, TERM_TEMPERATURE));
    let left = left(request, temperature, request.get(FRACTION)).unwrap();
    left > term.fraction && capacity_with(request, left.min(500), false) != term.capacity
}

/// Ranges of the term's temperature and of the design's, and what must show.
type Line = ((u32, u32), (u32, u32), fn(&Request, &InTerm) -> bool);

const LINES: [Line; 7] = [
    ((4, 4), (10, 10), |_, term| term.capacity == 0),
    ((6, 8), (10, 11), differs_by_fraction),
    ((9, 11), (10, 14), differs_by_fraction),
    ((12, 12), (10, 14), differs_by_temperature),
    ((13, 13), (10, 16), differs_by_temperature),
    ((14, 19), (10, 16), held_by_fraction),
    ((20, 20), (10, 19), differs_by_temperature),
];

/// For each process and range of temperatures a term just covered, and the
/// same with a target lower by one.
pub fn cover(cases: &mut Collection, random: &mut Random) {
    for process in 0..=4 {
        for (term, design, wanted) in LINES {
            let moved = |random: &mut Random, plant: Request| {
                let plant = match term.0 {
                    4 => plant.with(FRACTION, random.within(445, 500)),
                    _ => plant,
                };
                on_term_cover(with_temperatures(random, plant, term, design), 0, 0)
            };
            let met = searched(random, process, moved, wanted);
            cases.examine("term just covered", met);
            if let Some(missed) = on_term_cover(met, 0, 1) {
                cases.examine("term just missed", missed);
            }
        }
    }
}

/// What a term's temperature leaves to denitrification at a fraction.
fn left(request: &Request, temperature: u32, fraction: u32) -> Option<u64> {
    let factor = safety_factor(u64::from(request.get(LOAD)));
    let aerobic = |degrees: u32| aerobic_sludge_age(factor, growth(u64::from(degrees)));
    let design = aerobic(request.get(DESIGN_TEMPERATURE));
    fraction_left(
        aerobic(temperature),
        sludge_age(design, u64::from(fraction)),
    )
}

/// The candidate moved to a fraction at which the term leaves the one, and at
/// the fraction before the other.
pub fn on_left(request: Request, here: Option<u64>, before: Option<u64>) -> Option<Request> {
    let temperature = request.get(term_word(0, TERM_TEMPERATURE));
    let at = |fraction| left(&request, temperature, fraction);
    let fraction = (201..=500).find(|f| at(*f) == here && at(*f - 1) == before)?;
    Some(request.with(FRACTION, fraction))
}

/// The candidate at the fraction before.
pub fn one_before(request: Request) -> Request {
    request.with(FRACTION, request.get(FRACTION) - 1)
}

/// For each process a term whose fraction is 200, just covered and just
/// missed, and the same candidate with 199, where the BOD removes nothing.
pub fn fraction_200(cases: &mut Collection, random: &mut Random) {
    for process in 0..=4 {
        let moved = |random: &mut Random, plant: Request| {
            let plant = with_temperatures(random, plant, (6, 13), (10, 16));
            on_term_cover(on_left(plant, Some(200), Some(199))?, 0, 0)
        };
        let by_bod = |request: &Request, term: &InTerm| {
            let before = on_term_cover(one_before(*request), 0, 0);
            term.by_bod > 0 && before.is_some_and(|met| examined(&met) == 0)
        };
        let met = searched(random, process, moved, by_bod);
        cases.examine("term's fraction 200, covered", met);
        if let Some(missed) = on_term_cover(met, 0, 1) {
            cases.examine("term's fraction 200, missed", missed);
        }
        cases.examine("term's fraction 199, missed", one_before(met));
        let alone = on_term_cover(one_before(met), 0, 0).unwrap();
        cases.examine("term's fraction 199, covered", alone);
        if let Some(missed) = on_term_cover(alone, 0, 1) {
            cases.examine("term's fraction 199, missed", missed);
        }
    }
}

/// For each process a difference of just 0, where D must be 0 beside the dose,
/// and the fraction before, where it would be below.
pub fn nitrification(cases: &mut Collection, random: &mut Random) {
    for process in 0..=4 {
        for term in [(4, 6), (7, 12)] {
            let moved = |random: &mut Random, plant: Request| {
                let plant = with_temperatures(random, plant, term, (10, 16));
                on_term_cover(on_left(plant, Some(0), None)?, 0, 0)
            };
            let met = searched(random, process, moved, |_, _| true);
            cases.examine("difference of 0", met);
            if let Some(missed) = on_term_cover(met, 0, 1) {
                cases.examine("difference of 0, missed", missed);
            }
            cases.examine("difference below 0", one_before(met));
        }
    }
}

/// Whether one less would cover if a fifth of the dose were not rounded down,
/// or the BOD removes nothing; and that one less gets 16.
fn decided_by_dose(request: &Request, term: &InTerm) -> bool {
    let dose = request.get(DOSE);
    let by_rounding = term.by_sewage % 1000 >= 200;
    dose > 0 && (term.capacity == 0 || by_rounding) && examined(&request.with(DOSE, dose - 1)) == 16
}

/// For each process a dose that just covers a term, and one less; with and
/// without nitrate that the BOD removes there.
pub fn dose(cases: &mut Collection, random: &mut Random) {
    for process in 0..=4 {
        for by_bod in [true, false] {
            let moved = |random: &mut Random, plant: Request| {
                let plant = with_temperatures(random, plant, (4, 20), (10, 20));
                let target = random.within(1_000, 50_000);
                on_term_dose(plant.with(term_word(0, TERM_TARGET), target), 0, 0)
            };
            let wanted = |request: &Request, term: &InTerm| {
                (term.capacity > 0) == by_bod && decided_by_dose(request, term)
            };
            let met = searched(random, process, moved, wanted);
            let dose = met.get(DOSE);
            cases.examine("dose covers a term", met);
            cases.examine("dose misses a term", met.with(DOSE, dose - 1));
        }
    }
}

/// For each process a candidate just covered, with terms at the design's
/// temperature and target: the sheet is the same as without them.
pub fn as_design(cases: &mut Collection, random: &mut Random) {
    for process in 0..=4 {
        let moved = |_: &mut Random, plant: Request| {
            let met = on_cover(plant, 0)?;
            let same = winter(met.get(DESIGN_TEMPERATURE), met.get(NITRATE_TARGET));
            Some(met.with_terms(&[same; 2]))
        };
        let met = searched(random, process, moved, |_, _| true);
        cases.examine("term as the design", met);
        if process < 2 {
            cases.choose("term as the design", met);
        }
    }
}
