//! Bulking sludge: the last index that passes, the first and the last that are
//! refused with 17, and 17 among the other refusals.

use crate::collection::Collection;
use crate::plants::{case_a, roomy};
use crate::request::*;

/// For each process, in either flow, at 180, 181 and 200.
pub fn index(cases: &mut Collection) {
    for process in 0..=4 {
        let plant = roomy().with(PROCESS, process).with(TANK_FLOW, process % 2);
        let last = plant.with(SLUDGE_VOLUME_INDEX, MOST_INDEX);
        cases.examine("index of 180", last);
        cases.choose("index of 180", last);
        for index in [MOST_INDEX + 1, 200] {
            let bulking = plant.with(SLUDGE_VOLUME_INDEX, index);
            cases.examine("bulking sludge", bulking);
            cases.choose("bulking sludge", bulking);
        }
    }
}

/// After 1, of every figure and of the index itself; before every other.
pub fn order(cases: &mut Collection) {
    const NAN: u32 = 0x7fc0_0000;
    let bulking = case_a().with(SLUDGE_VOLUME_INDEX, MOST_INDEX + 1);
    for (place, _, most) in PLANT_RANGES {
        cases.examine("1 before 17", bulking.with(place, most + 1));
    }
    for index in [0, 49, 201, u32::MAX] {
        let outside = case_a().with(SLUDGE_VOLUME_INDEX, index);
        cases.examine("1 before 17", outside.with_reading(BOD, MEASURED, NAN));
    }
    for place in [LOAD, FLOW, DOSE] {
        cases.choose("1 before 17", bulking.with(place, u32::MAX));
    }
    for request in [
        bulking.with_reading(BOD, MEASURED, NAN),
        bulking.with_reading(PHOSPHORUS, BELOW, NAN),
        bulking.with_measured(BOD, 5_000_000),
        bulking.with_reading(BOD, HEADS, 0),
        bulking.with_measured(COD, 440_001),
        bulking.with(TERM_COUNT, 5),
    ] {
        cases.examine("17 before every other", request);
        cases.choose("17 before every other", request);
    }
    for request in [
        bulking.with(FRACTION, 501),
        bulking.with(FRACTION, 299),
        bulking.with_candidate(300, 30, 20),
        bulking.with(SITE_SURFACE, 1),
        bulking.with(SITE_DEPTH, 3_000),
        bulking.with(PROCESS, 1).with(FRACTION, 500),
    ] {
        cases.examine("17 before every other", request);
    }
}
