//! Cover just met and just missed.

use crate::collection::{examined, Collection};
use crate::lines::{at_capacity_step, capacity_by_rounding, on_cover};
use crate::plants;
use crate::random::Random;
use crate::request::*;

/// A random plant with a sheet at its candidate, just covered, that has the
/// wanted property.
fn just_covered(
    random: &mut Random,
    process: u32,
    temperature: u32,
    wanted: fn(&Request) -> bool,
) -> Option<Request> {
    for _ in 0..20_000 {
        let plant = plants::plausible(random)
            .with(PROCESS, process)
            .with(DESIGN_TEMPERATURE, temperature);
        if !wanted(&plant) {
            continue;
        }
        let Some(met) = on_cover(plant, 0) else {
            continue;
        };
        if examined(&met) == 0 {
            return Some(met);
        }
    }
    None
}

/// For each process below, at and above 12 degrees: a candidate just covered,
/// the same with one thousandth more nitrogen, and the fraction before.
fn steps(cases: &mut Collection, random: &mut Random, process: u32, temperature: u32) {
    let Some(met) = just_covered(random, process, temperature, at_capacity_step) else {
        return;
    };
    cases.examine(STEPS[process as usize][0], met);
    if let Some(missed) = on_cover(met, 1) {
        cases.examine(STEPS[process as usize][1], missed);
    }
    let before = met.with(FRACTION, met.get(FRACTION) - 1);
    cases.examine(STEPS[process as usize][1], before);
    cases.choose("cover met, choose", met);
}

/// Kinds of each process: met and missed.
const STEPS: [[&str; 2]; 5] = [
    ["cover met, pre-anoxic", "cover missed, pre-anoxic"],
    ["cover met, simultaneous", "cover missed, simultaneous"],
    ["cover met, intermittent", "cover missed, intermittent"],
    ["cover met, step-feed two", "cover missed, step-feed two"],
    [
        "cover met, step-feed three",
        "cover missed, step-feed three",
    ],
];

/// Candidates whose capacity would differ by another rounding of its parts.
fn roundings(cases: &mut Collection, random: &mut Random, process: u32, temperature: u32) {
    let found = just_covered(random, process, temperature, capacity_by_rounding);
    if let Some(met) = found {
        cases.examine("cover by rounding, met", met);
        if let Some(missed) = on_cover(met, 1) {
            cases.examine("cover by rounding, missed", missed);
        }
    }
}

pub fn cover(cases: &mut Collection, random: &mut Random) {
    for process in 0..=4 {
        for range in [(10, 11), (12, 12), (13, 20)] {
            let temperature = random.within(range.0, range.1);
            steps(cases, random, process, temperature);
            let has_rise = temperature > 12;
            let by_uptake = process == 1 || process == 2;
            if has_rise || by_uptake {
                roundings(cases, random, process, temperature);
            }
        }
    }
}
