//! Terms at which a wrong rounding of growth, of decay or of a/t shows.

use super::degrees::{decay_rounded_up, growth_rounded_up};
use super::terms::winter;
use crate::collection::Collection;
use crate::lines::on_term_cover;
use crate::plants::roomy;
use crate::request::*;
use reference::age::*;
use reference::nitrogen::capacity_in_term;
use reference::Process;

/// For each temperature the first plant at which a/t is less than a thousandth
/// above 1, and the highest target.
pub fn just_lost(cases: &mut Collection) {
    for temperature in 4..=12 {
        let found = each_age(temperature, |_, factor, age| {
            let aerobic = aerobic_sludge_age(factor, growth(u64::from(temperature)));
            aerobic > age && 1000 * aerobic < 1001 * age
        });
        if let Some(request) = found {
            let lost = request.with(term_word(0, TERM_TARGET), 50_000);
            cases.examine("a just above t", lost);
        }
    }
}

/// The first plant, of every safety factor, design temperature and fraction,
/// that is wanted by its safety factor and sludge age, with a term at this
/// temperature.
fn each_age(temperature: u32, wanted: impl Fn(&Request, u64, u64) -> bool) -> Option<Request> {
    let mut last = 0;
    for load in 1_200..=6_000 {
        let factor = safety_factor(u64::from(load));
        if factor == last {
            continue;
        }
        last = factor;
        for design in 10..=20 {
            let aerobic = aerobic_sludge_age(factor, growth(u64::from(design)));
            let plant = roomy()
                .with_measured(NITROGEN, 46_000)
                .with(NITRATE_TARGET, 30_000)
                .with(LOAD, load)
                .with(DESIGN_TEMPERATURE, design)
                .with_terms(&[winter(temperature, 20_000)]);
            for fraction in 200..=500 {
                let request = plant.with(FRACTION, fraction);
                if wanted(&request, factor, sludge_age(aerobic, u64::from(fraction))) {
                    return Some(request);
                }
            }
        }
    }
    None
}

/// K of a term by factors of growth and decay of its temperature.
fn capacity_by(process: Process, request: &Request, ages: (u64, u64), factors: (u64, u64)) -> u64 {
    let (safety, age) = ages;
    let aerobic = aerobic_sludge_age(safety, factors.0);
    let left = fraction_left(aerobic, age).unwrap_or(0);
    let fraction = left.min(u64::from(request.get(FRACTION)));
    let temperature = u64::from(request.get(term_word(0, TERM_TEMPERATURE)));
    let weighted_age = weighted_sludge_age(age, factors.1);
    capacity_in_term(process, fraction, temperature, weighted_age)
}

/// Growth below 15 degrees, rounded once.
fn growth_rounded_once(temperature: u64) -> u64 {
    let degrees = 15 - temperature as u32;
    (1103u128.pow(degrees) * 1000 / 1000u128.pow(degrees - 1)) as u64
}

/// Decay below 15 degrees, rounded once; 1000 : 1072 is 125 : 134.
fn decay_rounded_once(temperature: u64) -> u64 {
    let degrees = 15 - temperature as u32;
    (1_000_000 * 125u128.pow(degrees) / 134u128.pow(degrees)) as u64
}

/// The first plant whose term has another capacity by other factors of growth
/// and decay.
fn shown_by(process: u32, temperature: u32, other: (u64, u64)) -> Option<Request> {
    let kind = [Process::PreAnoxic, Process::Simultaneous][process as usize];
    let degrees = u64::from(temperature);
    let factors = (growth(degrees), decay(degrees));
    let found = each_age(temperature, |request, factor, age| {
        let by = |factors| capacity_by(kind, request, (factor, age), factors);
        by(factors) != by(other)
    });
    found.map(|request| request.with(PROCESS, process))
}

/// For each temperature of a term below 15 degrees: terms just covered that
/// would not be with another rounding of growth, and terms just missed that
/// would be covered with another rounding of decay.
pub fn degrees(cases: &mut Collection) {
    for temperature in 4..=14 {
        let degrees = u64::from(temperature);
        let mut stored = Vec::new();
        let mut store = |kind: &'static str, found: Option<Request>| {
            let Some(request) = found else {
                return;
            };
            if !stored.contains(&request) {
                stored.push(request);
                cases.examine(kind, request);
            }
        };
        for other in [growth_rounded_up, growth_rounded_once] {
            let other = (other(degrees), decay(degrees));
            for process in [0, 1] {
                let found = shown_by(process, temperature, other);
                let met = found.and_then(|request| on_term_cover(request, 0, 0));
                store("growth in a term, covered", met);
            }
        }
        for other in [decay_rounded_up, decay_rounded_once] {
            let other = (growth(degrees), other(degrees));
            let found = shown_by(1, temperature, other);
            let missed = found.and_then(|request| on_term_cover(request, 0, 1));
            store("decay in a term, missed", missed);
        }
    }
}
