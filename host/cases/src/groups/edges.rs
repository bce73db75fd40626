//! The worked cases, ranges of the plant and of the grid, malformed requests.

use crate::collection::Collection;
use crate::plants::{case_a, roomy};
use crate::request::*;

/// Case A, examined and chosen for, and its neighbours in the paper.
pub fn worked(cases: &mut Collection) {
    let tall = case_a().with(TANK_FLOW, 1).with(REMOVAL, 2);
    cases.examine("worked case", case_a());
    cases.choose("worked case", case_a());
    cases.examine("worked case", case_a().with(FRACTION, 299));
    cases.examine("worked case", tall.with_candidate(300, 91, 20));
    cases.examine("worked case", tall.with_candidate(300, 92, 20));
    cases.choose("worked case", tall);
    cases.examine("worked case", case_a().with_measured(COD, 440_000));
    cases.examine("worked case", case_a().with_measured(COD, 440_100));
    for load in [1_200, 1_201, 3_600, 5_999, 6_000] {
        cases.examine("worked case", case_a().with(LOAD, load));
    }
}

/// Each plant and site figure at both edges and one past.
pub fn plant_ranges(cases: &mut Collection) {
    for (place, least, most) in PLANT_RANGES {
        let plant = match place {
            SITE_SURFACE => roomy().with(WET_WEATHER_FLOW, 1),
            _ => roomy(),
        };
        let kind = match place {
            SITE_DEPTH => "site depth edge",
            _ => "plant edge",
        };
        cases.examine(kind, plant.with(place, least));
        cases.examine(kind, plant.with(place, largest_accepted(place, most)));
        cases.examine("plant past edge", plant.with(place, most + 1));
        if place % 2 == 1 {
            cases.choose("plant past edge, choose", plant.with(place, most + 1));
        }
        if least > 0 {
            cases.examine("plant past edge", plant.with(place, least - 1));
        }
    }
    for place in [LOAD, FLOW, SITE_DEPTH, DOSE] {
        cases.examine("plant past edge", roomy().with(place, u32::MAX));
    }
}

/// Each part of the candidate at both edges and one past.
pub fn grid(cases: &mut Collection) {
    let plant = roomy().with(REMOVAL, 1);
    let vertical = plant.with(TANK_FLOW, 1);
    for (f, r, h) in [(200, 50, 20), (500, 50, 20), (310, 75, 20), (310, 50, 25)] {
        cases.examine("grid edge", plant.with_candidate(f, r, h));
    }
    for (f, r, h) in [
        (199, 50, 20),
        (501, 50, 20),
        (310, 29, 20),
        (310, 76, 20),
        (310, 50, 19),
        (310, 50, 26),
    ] {
        cases.examine("off grid", plant.with_candidate(f, r, h));
    }
    cases.examine("grid edge", vertical.with_candidate(310, 76, 20));
    cases.examine("grid edge", vertical.with_candidate(310, 100, 20));
    cases.examine("off grid", vertical.with_candidate(310, 101, 20));
    cases.examine("off grid", vertical.with_candidate(310, 29, 20));
    cases.examine("grid edge", roomy().with_candidate(310, 30, 20));
    for (f, r, h) in [(1_000, 50, 20), (0, 0, 0), (310, u32::MAX - 99, 20)] {
        cases.examine("off grid", roomy().with_candidate(f, r, h));
    }
    cases.examine("off grid", roomy().with_candidate(310, 50, u32::MAX));
    cases.examine("off grid", roomy().with_candidate(u32::MAX, 50, 20));
}

/// Wrong versions and unknown kinds.
pub fn malformed(cases: &mut Collection) {
    for version in [0, 1, EARLIER_VERSION, LATER_VERSION, 256, 0x0100_0000] {
        cases.examine("wrong version", case_a().with(VERSION, version));
    }
    for version in [EARLIER_VERSION, LATER_VERSION] {
        cases.choose("wrong version", case_a().with(VERSION, version));
    }
    let later = case_a().with(VERSION, LATER_VERSION);
    cases.examine("wrong version", later.with(PROCESS, 5));
    for (place, last) in KIND_WORDS {
        cases.examine("unknown kind", case_a().with(place, last + 1));
        if place % 4 == 3 {
            cases.choose("unknown kind", case_a().with(place, u32::MAX));
        }
    }
    cases.examine("unknown kind", case_a().with(TANK_FLOW, 256));
    cases.examine("unknown kind", case_a().with(LOAD, 0).with(PHOSPHORUS, 3));
}
