//! Nitrogen balance, denitrification capacity and external carbon.

use crate::plant::Process;
use crate::rounding::down;

/// W: nitrogen to be nitrified.
pub fn nitrogen_to_nitrify(nitrogen: u64, bod: u64) -> u64 {
    let organic_and_sludge = 2_000 + down(4 * bod, 100);
    nitrogen.saturating_sub(organic_and_sludge)
}

/// D: nitrate nitrogen to be denitrified.
pub fn nitrate_to_denitrify(to_nitrify: u64, nitrate_target: u64) -> u64 {
    to_nitrify.saturating_sub(nitrate_target)
}

/// K of pre-anoxic zone and step-feed up to 12 degrees: linear between the
/// tabulated fractions.
pub fn tabulated_capacity(fraction: u64) -> u64 {
    if fraction <= 300 {
        110 + down(20 * (fraction - 200), 100)
    } else if fraction <= 400 {
        130 + down(10 * (fraction - 300), 100)
    } else {
        140 + down(10 * (fraction - 400), 100)
    }
}

/// Capacity raised by one hundredth for each degree above 12.
pub fn capacity_at_temperature(capacity: u64, temperature: u64) -> u64 {
    if temperature > 12 {
        down(capacity * (100 + temperature - 12), 100)
    } else {
        capacity
    }
}

/// o: specific oxygen uptake for denitrification, g/kg, rounded down.
pub fn uptake_for_capacity(weighted_age: u64) -> u64 {
    560 + down(15000 * weighted_age, 100000 + 17 * weighted_age)
}

/// K of simultaneous and intermittent denitrification.
pub fn capacity_by_uptake(fraction: u64, uptake: u64) -> u64 {
    down(75 * fraction * uptake, 290_000)
}

/// K: denitrification capacity, g nitrate nitrogen per kg BOD.
pub fn denitrification_capacity(
    process: Process,
    fraction: u64,
    temperature: u64,
    weighted_age: u64,
) -> u64 {
    match process {
        Process::PreAnoxic | Process::StepFeed(_) => {
            capacity_at_temperature(tabulated_capacity(fraction), temperature)
        }
        Process::Simultaneous | Process::Intermittent => {
            capacity_by_uptake(fraction, uptake_for_capacity(weighted_age))
        }
    }
}

/// K in a term of the consent: none at a fraction below those of the table.
pub fn capacity_in_term(
    process: Process,
    fraction: u64,
    temperature: u64,
    weighted_age: u64,
) -> u64 {
    if fraction < 200 {
        0
    } else {
        denitrification_capacity(process, fraction, temperature, weighted_age)
    }
}

/// Nitrate that the dose of external carbon removes: one part for five of COD.
pub fn removed_by_dose(dose: u64) -> u64 {
    down(dose, 5)
}

/// Nitrate that the sewage removes, mg/m3: K x C, or what stands for it, is in
/// thousandths of that.
pub fn removed_by_bod(by_sewage: u64) -> u64 {
    down(by_sewage, 1000)
}

/// Whether the sewage and the dose cover the nitrate to be denitrified.
pub fn is_covered(by_sewage: u64, by_dose: u64, to_denitrify: u64) -> bool {
    by_sewage + 1000 * by_dose >= 1000 * to_denitrify
}

/// Nitrate that the dose leaves to the BOD; this alone saves oxygen.
pub fn left_to_bod(to_denitrify: u64, by_dose: u64) -> u64 {
    to_denitrify.saturating_sub(by_dose)
}
