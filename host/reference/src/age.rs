//! Sludge age.

use crate::rounding::{down, up};

/// SF: safety factor of nitrification, hundredths, from the BOD load in kg/d.
pub fn safety_factor(bod_load: u64) -> u64 {
    if bod_load <= 1_200 {
        180
    } else if bod_load >= 6_000 {
        145
    } else {
        180 - down(35 * (bod_load - 1_200), 4_800)
    }
}

/// G: temperature factor of growth, millionths; larger when colder.
pub fn growth(temperature: u64) -> u64 {
    let mut factor = 1_000_000;
    for _ in temperature..15 {
        factor = down(factor * 1103, 1000);
    }
    for _ in 15..temperature {
        factor = down(factor * 1000, 1103);
    }
    factor
}

/// F: temperature factor of decay, millionths; larger when warmer.
pub fn decay(temperature: u64) -> u64 {
    let mut factor = 1_000_000;
    for _ in temperature..15 {
        factor = down(factor * 1000, 1072);
    }
    for _ in 15..temperature {
        factor = down(factor * 1072, 1000);
    }
    factor
}

/// a: aerobic sludge age.
pub fn aerobic_sludge_age(safety_factor: u64, growth: u64) -> u64 {
    up(safety_factor * 34 * growth, 1_000_000)
}

/// t: sludge age, with the denitrification fraction in thousandths.
pub fn sludge_age(aerobic_age: u64, fraction: u64) -> u64 {
    up(1000 * aerobic_age, 1000 - fraction)
}

/// The part of the sludge age that an aerobic sludge age takes, thousandths;
/// above 1000 where it is the longer one.
pub fn aerobic_share(aerobic_age: u64, sludge_age: u64) -> u64 {
    up(1000 * aerobic_age, sludge_age)
}

/// What an aerobic sludge age leaves of the sludge age, thousandths; none
/// below zero.
pub fn fraction_left(aerobic_age: u64, sludge_age: u64) -> Option<u64> {
    1000u64.checked_sub(aerobic_share(aerobic_age, sludge_age))
}

/// U: sludge age multiplied by the temperature factor of decay.
pub fn weighted_sludge_age(sludge_age: u64, decay: u64) -> u64 {
    down(sludge_age * decay, 1_000_000)
}
