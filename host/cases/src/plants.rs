//! Plants: Case A, a plant with room on every side, and random ones.

use crate::random::Random;
use crate::request::*;

/// Case A at its candidate.
pub fn case_a() -> Request {
    let mut words = [0; WORDS];
    words[VERSION] = NEWEST_VERSION;
    let figures = [
        1_200, 5_000, 600, 12, 20, 100, 10_000, 1_000, 120, 200, 9_000, 1_000, 5_000,
    ];
    words[LOAD..=SITE_DEPTH].copy_from_slice(&figures);
    let readings = [200_000, 400_000, 150_000, 46_000, 8_000];
    let mut request = Request(words).with_candidate(300, 75, 20);
    for (place, thousandths) in READINGS.into_iter().zip(readings) {
        request = request.with_measured(place, thousandths);
    }
    request
}

/// Case A with less nitrogen and the largest site: a sheet at most candidates.
pub fn roomy() -> Request {
    case_a()
        .with_measured(NITROGEN, 30_000)
        .with(SITE_SURFACE, 100_000)
        .with(SITE_DEPTH, 10_000)
        .with_candidate(310, 60, 20)
}

/// Random kinds of the plant.
fn with_kinds(random: &mut Random, request: Request) -> Request {
    let mut changed = request;
    for (place, last) in &KIND_WORDS[..5] {
        changed = changed.with(*place, random.within(0, *last));
    }
    changed
}

/// A random candidate of the grid, now and then at an edge.
pub fn with_candidate(random: &mut Random, request: Request) -> Request {
    let last = if request.get(TANK_FLOW) == 0 { 75 } else { 100 };
    let mut place = |least: u32, most: u32| match random.within(0, 15) {
        0 => least,
        1 => most,
        _ => random.within(least, most),
    };
    let (fraction, ratio, time) = (place(200, 500), place(30, last), place(20, 25));
    request.with_candidate(fraction, ratio, time)
}

/// Site limits: mostly the largest, else anything.
fn with_site(random: &mut Random, request: Request) -> Request {
    if random.one_in(3) {
        let surface = random.spread(1, 100_000);
        let depth = random.within(3_000, 10_000);
        request.with(SITE_SURFACE, surface).with(SITE_DEPTH, depth)
    } else {
        request.with(SITE_SURFACE, 100_000).with(SITE_DEPTH, 10_000)
    }
}

/// A reading of about so many thousandths, of any kind.
pub fn with_near(random: &mut Random, request: Request, place: usize, about: u64) -> Request {
    let value = (about as f64 / 1000.0) as f32;
    let blur = random.within(0, 255);
    match random.within(0, 7) {
        0 => request.with_reading(place, BELOW, (2.0 * value).to_bits() ^ blur),
        1 => request.with_measured(place, about),
        _ => request.with_reading(place, MEASURED, value.to_bits() ^ blur),
    }
}

/// All readings from one head count.
fn with_heads(request: Request, heads: u32) -> Request {
    READINGS.into_iter().fold(request, |changed, place| {
        changed.with_reading(place, HEADS, heads)
    })
}

/// Readings as in domestic sewage, or head counts.
fn with_sewage(random: &mut Random, request: Request, bod: u32) -> Request {
    let flow = u64::from(request.get(FLOW));
    if random.one_in(6) {
        let heads = (u64::from(bod) * flow / 60_000).clamp(1, 2_000_000);
        return with_heads(request, heads as u32);
    }
    let bod = u64::from(bod);
    let share = u64::from(random.within(120, 219));
    let solids = u64::from(random.within(0, 500_000));
    let nitrogen = bod * u64::from(random.within(8, 30)) / 100;
    let phosphorus = u64::from(random.within(0, 20_000));
    let rest = [bod * share / 100, solids, nitrogen.min(499_900), phosphorus];
    let mut changed = with_near(random, request, BOD, bod);
    for (place, about) in READINGS[1..].iter().zip(rest) {
        changed = with_near(random, changed, *place, about);
    }
    changed
}

/// A plant as it might be planned.
pub fn plausible(random: &mut Random) -> Request {
    let bod = random.within(80_000, 500_000);
    let flow = random.spread(20, 200_000);
    let load = (u64::from(bod) * u64::from(flow) / 1_000_000).clamp(1, 100_000);
    let wet = (flow / 24 * random.within(2, 5) + 1).min(50_000);
    let design = random.within(10, 20);
    let plant = case_a()
        .with(LOAD, load as u32)
        .with(FLOW, flow)
        .with(WET_WEATHER_FLOW, wet)
        .with(DESIGN_TEMPERATURE, design)
        .with(AERATION_TEMPERATURE, random.within(design, 20))
        .with(SLUDGE_VOLUME_INDEX, random.within(70, 180))
        .with(NITRATE_TARGET, random.within(5_000, 20_000))
        .with(PHOSPHORUS_TARGET, random.within(200, 3_000))
        .with(CARBON_PEAK, random.within(105, 140))
        .with(NITROGEN_PEAK, random.within(140, 260))
        .with(OXYGEN_SATURATION, random.within(8_000, 11_500));
    let plant = with_kinds(random, plant);
    let plant = with_site(random, plant);
    let plant = with_sewage(random, plant, bod);
    with_candidate(random, plant)
}

/// A plant from anywhere in the ranges, now and then at an edge.
pub fn anything(random: &mut Random) -> Request {
    let mut plant = case_a();
    for (place, least, most) in PLANT_RANGES {
        let most = largest_accepted(place, most);
        let value = match random.within(0, 23) {
            0 => least,
            1 => most,
            2..=12 => random.spread(least.max(1), most),
            _ => random.within(least, most),
        };
        plant = plant.with(place, value);
    }
    let plant = with_kinds(random, plant);
    let plant = with_site(random, plant);
    let bod = random.spread(20_000, 2_000_000);
    let plant = with_sewage(random, plant, bod);
    with_candidate(random, plant)
}
