//! External carbon: doses that just cover and just miss, the oxygen that they
//! leave to be saved, designs by a dose alone, and a dose past its range.

use super::choices::fractions;
use crate::collection::{chosen, examined, Collection};
use crate::figures;
use crate::lines::{on_cover, on_dose, on_whole_dose};
use crate::plants::{self, case_a, roomy};
use crate::random::Random;
use crate::request::*;

/// Past its range, before every other refusal; also where only the highest
/// bit is set.
pub fn order(cases: &mut Collection) {
    let past = case_a().with(DOSE, MOST_DOSE + 1);
    let no_number = past.with_reading(BOD, MEASURED, 0x7fc0_0000);
    for request in [
        no_number,
        past.with_measured(BOD, 5_000_000),
        past.with_measured(COD, 440_001),
        past.with(FRACTION, 501),
        past.with(DOSE, 1 << 31),
    ] {
        cases.examine("dose past its range", request);
    }
    cases.choose("dose past its range", no_number);
}

/// A random plant, moved on, that gets a sheet at its candidate by the least
/// dose which covers that, and has the wanted property then.
fn just_covered(
    random: &mut Random,
    process: u32,
    moved: fn(Request) -> Option<Request>,
    wanted: fn(&Request) -> bool,
) -> Request {
    loop {
        let plant = plants::plausible(random).with(PROCESS, process);
        let Some(met) = moved(plant).and_then(|short| on_dose(short, 0)) else {
            continue;
        };
        if met.get(DOSE) > 0 && examined(&met) == 0 && wanted(&met) {
            return met;
        }
    }
}

/// Whether one less would cover if a fifth of the dose were not rounded down:
/// K x C is 200 or more above a multiple of 1000.
fn by_rounding(request: &Request) -> bool {
    let stages = figures::of_request(request).unwrap();
    stages.nitrate.by_sewage % 1000 >= 200
}

/// For each process a dose of 5 n that just covers, 5 n - 1, and 5 n + 4 with
/// one thousandth more nitrogen; then one mg/m3 that takes a dose of 5.
pub fn cover(cases: &mut Collection, random: &mut Random) {
    for process in 0..=4 {
        let met = just_covered(random, process, Some, by_rounding);
        let dose = met.get(DOSE);
        cases.examine("dose just covers", met);
        cases.choose("dose just covers, choose", met);
        cases.examine("dose just misses", met.with(DOSE, dose - 1));
        let over = on_cover(met, 1).unwrap().with(DOSE, dose + 4);
        cases.examine("dose just misses", over);
    }
    for process in [0, 1, 3] {
        let five = just_covered(random, process, |plant| on_cover(plant, 1), |_| true);
        cases.examine("dose of 5", five);
        cases.examine("dose of 4", five.with(DOSE, 4));
    }
}

/// At a flow where one mg/m3 shows in the oxygen: a dose that removes nothing,
/// one mg/m3, all but one, all, and more nitrate than there is.
pub fn saved_oxygen(cases: &mut Collection) {
    for process in [0, 2] {
        let plant = roomy()
            .with(FLOW, 200_000)
            .with(PROCESS, process)
            .with(FRACTION, 400);
        let whole = on_whole_dose(plant, 0).unwrap().get(DOSE);
        for dose in [4, 5, whole - 1, whole, MOST_DOSE] {
            cases.examine("dose and saved oxygen", plant.with(DOSE, dose));
        }
    }
}

fn needs_dose(request: &Request) -> bool {
    chosen(&request.with(DOSE, 0)) == 5
}

/// For each process a plant without a design whose last fraction is just
/// covered by a dose, and the same with a dose of one less.
pub fn designs(cases: &mut Collection, random: &mut Random) {
    let last = |plant: Request| Some(plant.with(FRACTION, 500));
    for process in 0..=4 {
        let met = just_covered(random, process, last, needs_dose);
        cases.choose("design by a dose alone", met);
        let missed = met.with(DOSE, met.get(DOSE) - 1);
        cases.choose("no design: dose", missed);
    }
}

/// Whether the dose moves the chosen fraction, but not down to the first.
fn lowers_fraction(request: &Request) -> bool {
    let without = fractions(&request.with(DOSE, 0));
    match (without, fractions(request)) {
        (Some((plain, _)), Some((dosed, _))) => 200 < dosed && dosed < plain,
        _ => false,
    }
}

pub fn lower_fractions(cases: &mut Collection, random: &mut Random) {
    for process in [0, 1, 3] {
        let dosed = just_covered(random, process, Some, lowers_fraction);
        cases.choose("dose lowers the fraction", dosed);
    }
}
