//! Pauses in aeration: transfers of intermittent plants that show the one
//! rounding and the candidate's own fraction, and other processes beside them.

use crate::collection::{chosen, Collection};
use crate::plants::{self, roomy};
use crate::random::Random;
use crate::request::*;
use reference::{Answer, Sheet};

const INTERMITTENT: u32 = 2;

/// The sheet of a request's candidate.
fn sheet(request: &Request) -> Option<Sheet> {
    let data = request.decoded().ok()?;
    match reference::examine(&data.plant, &data.readings, data.candidate) {
        Answer::Sheet(sheet) => Some(sheet),
        Answer::Refused(_) => None,
    }
}

/// The transfer rounded without pauses, then divided and rounded again.
fn rounded_twice(request: &Request, hourly: u64) -> u64 {
    let saturation = u64::from(request.get(OXYGEN_SATURATION));
    let running = 1000 - u64::from(request.get(FRACTION));
    let transfer = (saturation * hourly).div_ceil(saturation - 2_000);
    (1000 * transfer).div_ceil(running)
}

/// Random plants whose transfer shows that it is rounded once.
pub fn one_rounding(cases: &mut Collection, random: &mut Random) {
    let mut found = 0;
    while found < 8 {
        let plant = plants::plausible(random).with(PROCESS, INTERMITTENT);
        let shows = sheet(&plant).is_some_and(|sheet| {
            rounded_twice(&plant, sheet.hourly_oxygen) != sheet.oxygen_transfer
        });
        if shows {
            cases.examine("pauses, one rounding", plant);
            found += 1;
        }
    }
}

/// Both ends of the fraction and of the saturation for each process, and a
/// quotient that needs no rounding.
pub fn ends(cases: &mut Collection) {
    let plant = roomy().with(NITRATE_TARGET, 30_000);
    for process in 0..=4 {
        let kind = match process {
            INTERMITTENT => "pauses, ends",
            _ => "no pauses, ends",
        };
        for (fraction, saturation) in [(200, 15_000), (500, 6_000)] {
            let plant = plant
                .with(PROCESS, process)
                .with(FRACTION, fraction)
                .with(OXYGEN_SATURATION, saturation);
            cases.examine(kind, plant);
        }
    }
    let whole = plant
        .with(PROCESS, INTERMITTENT)
        .with(FRACTION, 400)
        .with(OXYGEN_SATURATION, 12_000);
    cases.examine("pauses, ends", whole);
}

/// Choices for intermittent plants.
pub fn choices(cases: &mut Collection, random: &mut Random) {
    let mut found = 0;
    while found < 5 {
        let plant = plants::plausible(random).with(PROCESS, INTERMITTENT);
        if chosen(&plant) == 0 {
            cases.choose("pauses, choose", plant);
            found += 1;
        }
    }
}
