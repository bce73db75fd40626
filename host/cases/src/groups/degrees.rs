//! Plants at which growth and decay, rounded up at each degree instead of
//! down, come to another sheet.

use crate::collection::{examined, Collection};
use crate::figures;
use crate::plants::{self, roomy};
use crate::random::Random;
use crate::request::*;
use reference::aeration::uptake_for_aeration;
use reference::age::*;
use reference::rounding::up;
use reference::sludge::endogenous_loss;

/// The factor of a temperature, rounded up at each degree.
fn rounded_up(temperature: u64, below: (u64, u64), above: (u64, u64)) -> u64 {
    let mut factor = 1_000_000;
    for _ in temperature..15 {
        factor = up(factor * below.0, below.1);
    }
    for _ in 15..temperature {
        factor = up(factor * above.0, above.1);
    }
    factor
}

pub fn growth_rounded_up(temperature: u64) -> u64 {
    rounded_up(temperature, (1103, 1000), (1000, 1103))
}

pub fn decay_rounded_up(temperature: u64) -> u64 {
    rounded_up(temperature, (1000, 1072), (1072, 1000))
}

/// The first load of each safety factor and temperature at which the aerobic
/// sludge age differs.
pub fn growth_steps(cases: &mut Collection) {
    for temperature in 10..=20 {
        let mut last = 0;
        for load in 1_200..=6_000 {
            let factor = safety_factor(load);
            let age = aerobic_sludge_age(factor, growth(temperature));
            let other = aerobic_sludge_age(factor, growth_rounded_up(temperature));
            if age != other && factor != last {
                last = factor;
                let plant = roomy().with(LOAD, load as u32);
                let warm = plant.with(DESIGN_TEMPERATURE, temperature as u32);
                cases.examine("growth at each degree", warm);
            }
        }
    }
}

/// Whether a result of the weighted sludge age differs at a temperature.
fn decay_shows(age: u64, temperature: u32, result: fn(u64) -> u64) -> bool {
    let temperature = u64::from(temperature);
    let weighted = weighted_sludge_age(age, decay(temperature));
    let other = weighted_sludge_age(age, decay_rounded_up(temperature));
    result(weighted) != result(other)
}

/// Below and above 15 degrees, a plant whose sludge differs and one whose
/// oxygen differs.
pub fn decay_steps(cases: &mut Collection, random: &mut Random) {
    for (least, most) in [(10, 14), (16, 20)] {
        let mut left = [1, 1];
        while left != [0, 0] {
            let (design, aeration) = (random.within(least, most), random.within(least, most));
            let plant = plants::plausible(random)
                .with(DESIGN_TEMPERATURE, design)
                .with(AERATION_TEMPERATURE, aeration);
            let Some(stages) = figures::of_request(&plant) else {
                continue;
            };
            let shows = [
                decay_shows(stages.nitrate.age, design, endogenous_loss),
                decay_shows(stages.nitrate.age, aeration, uptake_for_aeration),
            ];
            for place in 0..2 {
                if left[place] > 0 && shows[place] && examined(&plant) == 0 {
                    left[place] -= 1;
                    cases.examine("decay at each degree", plant);
                }
            }
        }
    }
}
