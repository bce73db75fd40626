//! Cover by the oxygen from the COD: just met and just missed, in the design and
//! in a term, and fractions that are not covered above ones that are.

use super::cod::case_a_by_cod;
use super::term_lines::{on_left, one_before};
use super::terms::{searched, with_temperatures};
use crate::cod_lines::{in_cod_way, on_degradable};
use crate::collection::{chosen, examined, Collection};
use crate::figures;
use crate::lines::{accepted, on_cover, on_term_cover};
use crate::plants;
use crate::random::Random;
use crate::request::*;
use reference::cod::Chain;
use reference::stages::{self, InTerm};

/// Kinds of the simultaneous and the intermittent process: met and missed.
const DESIGN: [[&str; 2]; 2] = [
    [
        "COD way, cover met, simultaneous",
        "COD way, cover missed, simultaneous",
    ],
    [
        "COD way, cover met, intermittent",
        "COD way, cover missed, intermittent",
    ],
];

/// Nitrate that the sewage removes at a fraction.
fn removed_at(request: &Request, fraction: u32) -> u64 {
    let request = request.with(FRACTION, fraction);
    figures::of_request(&request).map_or(0, |stages| stages.by_bod)
}

/// For both processes below, at and above 12 degrees a candidate just covered,
/// and the same with one thousandth more nitrogen: of one K x C would cover less,
/// of one more. Of the first also the fraction before, and the choice.
pub fn design(cases: &mut Collection, random: &mut Random) {
    for process in 1..=2 {
        let kinds = DESIGN[process as usize - 1];
        for range in [(10, 11), (12, 12), (13, 20)] {
            for more_by_cod in [true, false] {
                let temperature = random.within(range.0, range.1);
                let met = just_covered(random, process, temperature, more_by_cod);
                cases.examine(kinds[0], met);
                cases.examine(kinds[1], on_cover(met, 1).unwrap());
                if more_by_cod {
                    cases.examine(kinds[1], one_before(met));
                    cases.choose("COD way, cover met, choose", met);
                }
            }
        }
    }
}

/// A random plant just covered at its candidate and not at the fraction before,
/// by more, or by less, than by its BOD.
fn just_covered(random: &mut Random, process: u32, temperature: u32, more: bool) -> Request {
    loop {
        let plant = plants::plausible(random)
            .with(PROCESS, process)
            .with(DESIGN_TEMPERATURE, temperature);
        let plant = in_cod_way(random, plant);
        let Some(met) = on_cover(plant, 0) else {
            continue;
        };
        let fraction = met.get(FRACTION);
        if fraction == 200 || examined(&met) != 0 || on_cover(met, 1).is_none() {
            continue;
        }
        let nitrate = figures::of_request(&met).unwrap().nitrate;
        let by_bod = nitrate.capacity * accepted(&met).unwrap()[0];
        let steps = removed_at(&met, fraction - 1) < removed_at(&met, fraction);
        if steps && (nitrate.by_sewage > by_bod) == more {
            return met;
        }
    }
}

/// For both processes and ranges of temperatures a term just covered, and the
/// same with a target lower by one.
pub fn terms(cases: &mut Collection, random: &mut Random) {
    for process in 1..=2 {
        for (term, design) in [
            ((4, 4), (10, 10)),
            ((7, 9), (10, 12)),
            ((9, 11), (10, 14)),
            ((12, 12), (10, 14)),
            ((13, 16), (10, 12)),
            ((17, 20), (10, 16)),
        ] {
            let cold = term.0 == 4;
            let moved = |random: &mut Random, plant: Request| {
                let plant = match cold {
                    true => plant.with(FRACTION, random.within(445, 500)),
                    false => plant,
                };
                let plant = in_cod_way(random, plant);
                on_term_cover(with_temperatures(random, plant, term, design), 0, 0)
            };
            let wanted = |request: &Request, term: &InTerm| {
                let missed = on_term_cover(*request, 0, 1).is_some();
                missed && (cold || (term.by_bod > 0 && shows(request, term)))
            };
            let met = searched(random, process, moved, wanted);
            cases.examine("COD way, term just covered", met);
            let missed = on_term_cover(met, 0, 1).unwrap();
            cases.examine("COD way, term just missed", missed);
        }
    }
}

/// Whether the oxygen at the design's temperature would remove another amount at
/// the term's fraction.
fn shows(request: &Request, term: &InTerm) -> bool {
    let fraction = u64::from(request.get(FRACTION));
    let design = figures::of_request(request).unwrap().by_bod;
    let by_design = design * term.fraction / fraction;
    by_design.abs_diff(term.by_bod) > 1
}

/// For three processes a term whose fraction is 200, just covered and just
/// missed, and the same candidate with 199, where the sewage removes nothing: at
/// the same target, at the lowest that is covered then, and at one lower.
pub fn fraction_200(cases: &mut Collection, random: &mut Random) {
    for process in 0..=2 {
        let moved = |random: &mut Random, plant: Request| {
            let plant = in_cod_way(random, plant);
            let plant = with_temperatures(random, plant, (6, 13), (10, 16));
            on_term_cover(on_left(plant, Some(200), Some(199))?, 0, 0)
        };
        let by_sewage = |request: &Request, term: &InTerm| {
            let before = one_before(*request);
            let alone = on_term_cover(before, 0, 0);
            term.by_bod > 0
                && alone.is_some_and(|met| examined(&met) == 0)
                && on_term_cover(before, 0, 1).is_some()
                && on_term_cover(*request, 0, 1).is_some()
        };
        let met = searched(random, process, moved, by_sewage);
        cases.examine("COD way, term's fraction 200, covered", met);
        let missed = on_term_cover(met, 0, 1).unwrap();
        cases.examine("COD way, term's fraction 200, missed", missed);
        let before = one_before(met);
        cases.examine("COD way, term's fraction 199, missed", before);
        let alone = on_term_cover(before, 0, 0).unwrap();
        cases.examine("COD way, term's fraction 199, covered", alone);
        let missed = on_term_cover(before, 0, 1).unwrap();
        cases.examine("COD way, term's fraction 199, missed", missed);
    }
}

/// A covered fraction below one that is not: the known example, then searched
/// ones, and ones of which the last fraction is not covered.
pub fn not_upward(cases: &mut Collection, random: &mut Random) {
    let plant = case_a_by_cod()
        .with(PROCESS, 1)
        .with_measured(BOD, 20_000)
        .with_measured(COD, 20_000)
        .with_measured(SOLIDS, 53_351)
        .with_measured(NITROGEN, 12_803);
    pair(cases, plant.with(FRACTION, 376));
    for process in 1..=2 {
        for last in [None, Some(499)] {
            pair(cases, dropping(random, process, last));
        }
    }
}

/// A candidate that is covered, the next that is not, and the choice.
fn pair(cases: &mut Collection, covered: Request) {
    let next = covered.with(FRACTION, covered.get(FRACTION) + 1);
    cases.examine("COD way, covered below a gap", covered);
    cases.examine("COD way, not covered above", next);
    cases.choose("COD way, choice at a gap", covered);
}

/// A random plant with little degradable COD, just covered at its candidate, and
/// not at the next fraction: at the given fraction, or at the first such.
fn dropping(random: &mut Random, process: u32, last: Option<u32>) -> Request {
    loop {
        let plant = plants::plausible(random)
            .with(WAY, BY_COD)
            .with(PROCESS, process)
            .with_measured(COD, u64::from(random.within(20_000, 400_000)));
        let left = i64::from(random.within(3, 600));
        let Some(plant) = on_degradable(plant, Chain::Cover, left) else {
            continue;
        };
        let fraction = match last {
            Some(fraction) => Some(fraction),
            None => first_drop(&plant),
        };
        let Some(fraction) = fraction else {
            continue;
        };
        let Some(met) = on_cover(plant.with(FRACTION, fraction), 0) else {
            continue;
        };
        let missed = examined(&met.with(FRACTION, fraction + 1)) == 7;
        if missed && examined(&met) == 0 && chosen(&met) == 0 {
            return met;
        }
    }
}

/// The first fraction that removes more than the next.
fn first_drop(request: &Request) -> Option<u32> {
    let accepted = accepted(request)?;
    let plant = request.decoded().ok()?.plant;
    let removed = |fraction: u32| {
        let fraction = u64::from(fraction);
        stages::nitrate(&plant, &accepted, fraction).by_sewage
    };
    (200..500).find(|fraction| removed(*fraction) > removed(*fraction + 1))
}
