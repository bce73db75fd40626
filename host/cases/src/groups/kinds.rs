//! All 180 combinations of the kinds.

use crate::collection::Collection;
use crate::plants::roomy;
use crate::request::*;

/// Case A's plant with head counts, for which primary settling matters.
fn with_heads() -> Request {
    let plant = roomy().with(NITRATE_TARGET, 30_000).with(FLOW, 4_001);
    READINGS.into_iter().fold(plant, |changed, place| {
        changed.with_reading(place, HEADS, 17_003)
    })
}

/// Each combination examined, every seventh also chosen for.
pub fn combinations(cases: &mut Collection) {
    let mut turn = 0;
    for process in 0..=4 {
        for rest in 0..36 {
            let plant = with_heads()
                .with(PROCESS, process)
                .with(PRECIPITANT, rest % 2)
                .with(TANK_FLOW, rest / 2 % 2)
                .with(REMOVAL, rest / 4 % 3)
                .with(PRIMARY_SETTLING, rest / 12)
                .with_candidate(300 + turn, 40 + turn % 31, 20 + turn % 6);
            cases.examine("combination", plant);
            if turn % 7 == process {
                cases.choose("combination, choose", plant);
            }
            turn += 1;
        }
    }
}
