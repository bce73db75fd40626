//! Requests moved on to the lines where two answers meet.

use crate::cod_lines::{dose_about_the_least, on_degradable, on_saved, with_random_way};
use crate::figures;
use crate::plants;
use crate::random::Random;
use crate::request::*;
use crate::tanks::OnLines;
use reference::cod::Chain;
use reference::nitrogen::*;
use reference::reading::{result_range, Determinand, ORDER};
use reference::stages::Stages;
use reference::{accept, Process};

/// The accepted concentrations of a request, if none of 1, 17, 2 to 4 and 14 is due.
pub fn accepted(request: &Request) -> Option<[u64; 5]> {
    let decoded = request.decoded().ok()?;
    accept(&decoded.plant, &decoded.readings).ok()
}

/// Nitrogen changed so that the nitrate to be removed is what the candidate
/// can remove and so much over.
pub fn on_cover(request: Request, over: u64) -> Option<Request> {
    let bod = accepted(&request)?[0];
    let stages = figures::of_request(&request)?;
    let target = u64::from(request.get(NITRATE_TARGET));
    let nitrogen = stages.removable + over + target + 2_000 + 4 * bod / 100;
    if nitrogen > 500_000 {
        return None;
    }
    Some(request.with_measured(NITROGEN, nitrogen))
}

/// The least dose that removes so much nitrate, less so much.
fn with_dose_for(request: Request, nitrate: u64, less: u32) -> Option<Request> {
    let dose = (5 * nitrate as u32).checked_sub(less)?;
    (dose <= MOST_DOSE).then(|| request.with(DOSE, dose))
}

/// The dose set to the least that covers the candidate, less so much.
pub fn on_dose(request: Request, less: u32) -> Option<Request> {
    let stages = figures::of_request(&request)?;
    let missing = stages.nitrate.to_denitrify.checked_sub(stages.by_bod)?;
    with_dose_for(request, missing, less)
}

/// The dose set to the least that leaves no nitrate to the BOD, less so much.
pub fn on_whole_dose(request: Request, less: u32) -> Option<Request> {
    let stages = figures::of_request(&request)?;
    with_dose_for(request, stages.nitrate.to_denitrify, less)
}

/// A random dose: none, about what leaves no nitrate to the BOD, about the least
/// that makes sludge, or any.
pub fn with_dose(random: &mut Random, request: Request) -> Request {
    let about = |whole: Request, more: u32| (whole.get(DOSE) + more).saturating_sub(5);
    let dose = match random.within(0, 8) {
        0..=3 => 0,
        4 | 5 => on_whole_dose(request, 0).map_or(0, |whole| about(whole, random.within(0, 10))),
        6 => dose_about_the_least(random),
        _ => random.spread(1, MOST_DOSE),
    };
    request.with(DOSE, dose)
}

/// A term's target set to the lowest that the candidate covers in it, less so
/// much.
pub fn on_term_cover(request: Request, place: usize, less: u64) -> Option<Request> {
    let stages = figures::of_request(&request)?;
    let removable = stages.terms[place]?.removable;
    let target = stages.nitrate.to_nitrify.checked_sub(removable + less)?;
    let inside = (1_000..=50_000).contains(&target);
    inside.then(|| request.with(term_word(place, TERM_TARGET), target as u32))
}

/// The dose set to the least that covers a term, less so much.
pub fn on_term_dose(request: Request, place: usize, less: u32) -> Option<Request> {
    let term = figures::of_request(&request)?.terms[place]?;
    let missing = term.to_denitrify.checked_sub(term.by_bod)?;
    with_dose_for(request, missing, less)
}

fn date(random: &mut Random) -> (u32, u32) {
    let month = random.within(1, 12);
    let days = DAYS[month as usize - 1];
    let any = random.within(1, days);
    (month, random.pick(&[1, any, any, days]))
}

/// A random term, mostly near the design's temperature and not stricter.
pub fn random_term(random: &mut Random, request: &Request) -> TermWords {
    let design = request.get(DESIGN_TEMPERATURE);
    let temperature = match random.within(0, 7) {
        0 => random.within(4, 20),
        1 => random.pick(&[4, 12, 13, 20]),
        _ => random.within(design - 3, (design + 3).min(20)),
    };
    let design = request.get(NITRATE_TARGET);
    let target = match random.within(0, 3) {
        0 => random.spread(1_000, 50_000),
        1 => design,
        _ => random.within(design, 50_000),
    };
    let (first, last) = (date(random), date(random));
    [first.0, first.1, last.0, last.1, temperature, target]
}

/// Random terms: none in half of the plants; now and then one word of the
/// consent is odd, past the count or not.
pub fn with_random_terms(random: &mut Random, request: Request) -> Request {
    if random.one_in(2) {
        return request;
    }
    let terms = [(); MOST_TERMS].map(|()| random_term(random, &request));
    let count = random.within(0, MOST_TERMS as u32) as usize;
    let changed = request.with_terms(&terms[..count]);
    if random.one_in(8) {
        let word = random.within(TERM_COUNT as u32, WAY as u32 - 1);
        let odd = [0, 3, 5, 13, 21, 30, 31, 32, 999, 50_001, 1 << 31, u32::MAX];
        changed.with(word as usize, random.pick(&odd))
    } else {
        changed
    }
}

/// One of the terms moved on to its cover, by its target or by the dose.
fn on_some_term(random: &mut Random, request: Request, past: u32) -> Option<Request> {
    let count = request.get(TERM_COUNT).clamp(1, MOST_TERMS as u32);
    let place = random.within(0, count - 1) as usize;
    if random.one_in(2) {
        on_term_cover(request, place, u64::from(past))
    } else {
        on_term_dose(request, place, past)
    }
}

/// The site's surface set to the candidate's, less so much.
pub fn on_surface(request: Request, less: u32) -> Option<Request> {
    let settling = figures::of_request(&request)?.settling;
    let surface = (settling.surface as u32).checked_sub(less)?;
    let inside = (1..=100_000).contains(&surface);
    inside.then(|| request.with(SITE_SURFACE, surface))
}

/// The site's depth set to the candidate's, less so much.
pub fn on_depth(request: Request, less: u32) -> Option<Request> {
    let settling = figures::of_request(&request)?.settling;
    let depth = (settling.depth as u32).checked_sub(less)?;
    let inside = (3_000..=10_000).contains(&depth);
    inside.then(|| request.with(SITE_DEPTH, depth))
}

/// COD set to the largest allowed beside the BOD, and so much over.
pub fn on_cod_ratio(request: Request, over: u64) -> Option<Request> {
    let bod = accepted(&request)?[0];
    let cod = 11 * bod / 5 + over;
    (cod <= 4_400_000).then(|| request.with_measured(COD, cod))
}

/// One reading set to an edge of its range, or one thousandth past it.
pub fn on_reading_edge(random: &mut Random, request: Request) -> Request {
    let place = random.within(0, 4) as usize;
    let (least, most) = result_range(ORDER[place]);
    let edges = [least.max(1) - 1, least, most, most + 1];
    let value = random.pick(&edges) as u64;
    if random.one_in(2) {
        request.with_measured(READINGS[place], value)
    } else {
        request.with_reading(READINGS[place], BELOW, below_bits(value))
    }
}

/// Inhabitants and a flow that come to just this concentration.
pub fn heads_for(
    random: &mut Random,
    determinand: Determinand,
    thousandths: u64,
) -> Option<(u32, u32)> {
    use reference::reading::{from_heads, load_per_head};
    let load = load_per_head(determinand, reference::PrimarySettling::None);
    for _ in 0..10_000 {
        let flow = random.within(1, 200_000);
        let heads = (thousandths * u64::from(flow) / (load * 100)) as u32;
        if from_heads(heads, load, flow) == Ok(u128::from(thousandths)) {
            return Some((heads, flow));
        }
    }
    None
}

fn capacity_of(request: &Request) -> u64 {
    figures::of_request(request).map_or(0, |stages| stages.nitrate.capacity)
}

/// Whether the capacity is lower at the fraction before the candidate's.
pub fn at_capacity_step(request: &Request) -> bool {
    let fraction = request.get(FRACTION);
    fraction > 200 && capacity_of(&request.with(FRACTION, fraction - 1)) < capacity_of(request)
}

/// Table 3 with one rounding for interpolation and rise.
fn capacity_rounded_once(fraction: u64, temperature: u64) -> u64 {
    let hundredfold = match fraction {
        ..=300 => 11_000 + 20 * (fraction - 200),
        301..=400 => 13_000 + 10 * (fraction - 300),
        _ => 14_000 + 10 * (fraction - 400),
    };
    hundredfold * (100 + temperature.saturating_sub(12)) / 10_000
}

/// Whether another rounding of the capacity's parts gives another capacity.
pub fn capacity_by_rounding(request: &Request) -> bool {
    let Ok(decoded) = request.decoded() else {
        return false;
    };
    let Some(Stages { nitrate, .. }) = figures::of_request(request) else {
        return false;
    };
    let fraction = u64::from(decoded.candidate.fraction);
    let temperature = u64::from(decoded.plant.design_temperature);
    let other = match decoded.plant.process {
        Process::PreAnoxic | Process::StepFeed(_) => capacity_rounded_once(fraction, temperature),
        Process::Simultaneous | Process::Intermittent => {
            capacity_by_uptake(fraction, uptake_for_capacity(nitrate.weighted_age) + 1)
        }
    };
    other != nitrate.capacity
}

/// A plant in the COD way whose degradable COD is about 0, mostly just covered
/// then; or whose saved oxygen is about carbon's.
fn on_cod_line(random: &mut Random, plant: Request, past: u32) -> Option<Request> {
    if random.one_in(3) {
        return on_saved(plant, u64::from(past));
    }
    let chain = random.pick(&[Chain::Sludge, Chain::Aeration, Chain::Cover]);
    let left = match random.within(0, 2) {
        0 => i64::from(random.within(0, 6)) - 3,
        _ => i64::from(random.within(3, 600)),
    };
    let plant = on_degradable(plant, chain, left)?;
    match random.within(0, 3) {
        0 => Some(plant),
        _ => on_cover(plant, u64::from(past)),
    }
}

/// A random plant on one of the lines, or one past it.
pub fn random_on_line(random: &mut Random, tanks: &OnLines) -> Request {
    let mut plant = if random.one_in(2) {
        plants::plausible(random)
    } else {
        plants::anything(random)
    };
    if random.one_in(2) {
        let (tank, flow) = tanks.any(random);
        plant = tank.put_in(plant, flow);
    }
    let plant = with_random_way(random, plant);
    let plant = with_dose(random, plant);
    let plant = with_random_terms(random, plant);
    let past = random.within(0, 1);
    if plant.get(WAY) == BY_COD && random.one_in(4) {
        return on_cod_line(random, plant, past).unwrap_or(plant);
    }
    if plant.get(TERM_COUNT) > 0 && random.one_in(2) {
        return on_some_term(random, plant, past).unwrap_or(plant);
    }
    let moved = match random.within(0, 7) {
        0 | 1 => on_cover(plant, u64::from(past)),
        2 => on_dose(plant, past),
        3 => on_whole_dose(plant, past),
        4 => on_surface(plant, past),
        5 => on_depth(plant, past),
        6 => on_cod_ratio(plant, u64::from(past)),
        _ => Some(on_reading_edge(random, plant)),
    };
    moved.unwrap_or(plant)
}
