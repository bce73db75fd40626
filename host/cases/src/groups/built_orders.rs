//! Built tanks that are refused: the order of the refusals, edges of the grid, short
//! pages and malformed requests.

use super::built_tanks::NOT_AT_100;
use crate::built::{Asked, AMPLE};
use crate::built_lines as lines;
use crate::collection::{Collection, Operation, WHOLE_PAGE};
use crate::plants::{case_a, roomy};
use crate::request::*;

/// Faults besides the span's, in the order of their refusals: 21, 1, 17, 2, 3, 4, 14,
/// and 6 for the fraction and for the time.
const FAULTS: usize = 9;
/// The one that is none by COD.
const COD_RATIO: usize = 5;

/// Each refusal alone, and with all that come after it.
pub fn order(cases: &mut Collection) {
    let all = lines::orders();
    // for each set of faults both ways, and for each way a right span and three wrong
    let of = |set: usize, way: usize, span: usize| &all[8 * set + 4 * way + span];
    let from = |fault: usize| (1 << FAULTS) - (1 << fault);
    for fault in 0..FAULTS {
        cases.built("built, one refusal", of(1 << fault, 0, 0));
    }
    for fault in 0..FAULTS - 1 {
        cases.built("built, first of the refusals", of(from(fault), 0, 0));
    }
    for set in [1 << COD_RATIO, from(COD_RATIO)] {
        cases.built("built, 4 not due by COD", of(set, 1, 0));
    }
    for span in 1..=3 {
        cases.built("built, 20 before every other", of(from(0), 0, span));
        cases.built("built, 20 before every other", of(1 << span, 1, span));
    }
}

/// Fraction and thickening time.
const ON_GRID: [(u32, u32); 4] = [(200, 20), (200, 25), (500, 20), (500, 25)];
const OFF_GRID: [(u32, u32); 7] = [
    (199, 20),
    (501, 25),
    (300, 19),
    (300, 26),
    (300, 20 + (1 << 8)),
    (300 + (1 << 16), 20),
    (u32::MAX, u32::MAX),
];

/// Fractions and times at the edges of the grid and past them, in both flows.
pub fn grid(cases: &mut Collection) {
    for (kind, places) in [
        ("built, grid edge", &ON_GRID[..]),
        ("built, off grid", &OFF_GRID),
    ] {
        for (flow, (fraction, time)) in [0, 1].into_iter().cycle().zip(places) {
            let plant = roomy().with(TANK_FLOW, flow);
            let run_so = plant.with_candidate(*fraction, 30, *time);
            cases.built(kind, &Asked::of(run_so, AMPLE, 100, 102));
        }
    }
}

/// Held, lost and refused on pages that are exact, one byte short and of no bytes.
pub fn pages(cases: &mut Collection) {
    for (least, most) in [(99, 99), (99, 101), (101, 100)] {
        let bytes = Asked::of(case_a(), NOT_AT_100, least, most).bytes();
        cases.on_page("built, exact page", Operation::Built, &bytes, 8);
        cases.on_page("built, short page", Operation::Built, &bytes, 7);
    }
    let refused = Asked::of(case_a().with(LOAD, 0), AMPLE, 100, 100).bytes();
    cases.on_page("built, short page", Operation::Built, &refused, 0);
}

/// Wrong lengths, versions and kinds, before every refusal and before a short page.
pub fn malformed(cases: &mut Collection) {
    let of = |plant: Request| Asked::of(plant, [0; 3], 101, 100).bytes();
    let bytes = of(case_a());
    let longer = [&bytes[..], &[0]].concat();
    let later = of(case_a().with(VERSION, LATER_VERSION));
    let mut add = |kind: &'static str, request: &[u8], page_length: u32| {
        cases.on_page(kind, Operation::Built, request, page_length);
    };
    for length in [0, 3, 4, CHOOSE_LENGTH, BUILT_LENGTH - 1] {
        add("built, wrong length", &bytes[..length], WHOLE_PAGE);
    }
    add("built, wrong length", &longer, 0);
    for version in [EARLIER_VERSION, NEWEST_VERSION << 24] {
        let other = of(case_a().with(VERSION, version));
        add("built, wrong version", &other, WHOLE_PAGE);
    }
    add("built, wrong version", &later, 0);
    add("built, wrong version", &later[..4], WHOLE_PAGE);
    for (place, kind) in [(PROCESS, 5), (PHOSPHORUS, 3), (WAY, 2)] {
        let unknown = of(case_a().with(place, kind));
        add("built, unknown kind", &unknown, WHOLE_PAGE);
    }
    let unknown = of(case_a().with(REMOVAL, u32::MAX));
    add("built, unknown kind", &unknown, 0);
}
