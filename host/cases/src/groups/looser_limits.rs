//! Pairs of plants alike but for a limit, a temperature or an index: the data on which
//! it is shown what a looser limit does and does not do.

use crate::collection::Collection;
use crate::plants::case_a;
use crate::request::*;

/// Case A as a simultaneous plant on the largest site, with a target of 6 mg/l.
fn at_degrees(temperature: u32) -> Request {
    on_largest_site()
        .with(PROCESS, 1)
        .with(DESIGN_TEMPERATURE, temperature)
}

/// A small works with much storm water, in vertical flow with suction.
fn at_index(index: u32) -> Request {
    on_largest_site()
        .with(LOAD, 18)
        .with(FLOW, 35)
        .with(WET_WEATHER_FLOW, 2_978)
        .with(TANK_FLOW, 1)
        .with(REMOVAL, 1)
        .with(SLUDGE_VOLUME_INDEX, index)
}

fn on_largest_site() -> Request {
    case_a()
        .with(NITRATE_TARGET, 6_000)
        .with(SITE_SURFACE, 100_000)
        .with(SITE_DEPTH, 10_000)
}

/// The plant with each of two values of a word.
fn pair(cases: &mut Collection, kind: &'static str, plant: Request, place: usize, two: [u32; 2]) {
    for value in two {
        cases.choose(kind, plant.with(place, value));
    }
}

pub fn pairs(cases: &mut Collection) {
    let surface = case_a().with(SITE_DEPTH, 4_600);
    pair(
        cases,
        "looser target",
        case_a(),
        NITRATE_TARGET,
        [6_000, 6_200],
    );
    pair(
        cases,
        "looser target",
        case_a(),
        NITRATE_TARGET,
        [49_999, 50_000],
    );
    pair(
        cases,
        "looser target",
        case_a(),
        NITRATE_TARGET,
        [9_999, 10_000],
    );
    pair(cases, "looser surface", surface, SITE_SURFACE, [400, 401]);
    pair(cases, "looser depth", case_a(), SITE_DEPTH, [4_533, 4_534]);
    for temperature in [14, 15] {
        cases.choose("warmer", at_degrees(temperature));
    }
    for index in [170, 169] {
        cases.choose("lower index", at_index(index));
    }
}
