//! The errors to shut out: for each a datum where the wrong way differs.

use crate::common::*;
use reference::*;

/// 20.0025 as an f32 is 20.002500534...; the float product is a tie.
#[test]
fn product_in_floats() {
    let value = 20.0025_f32;
    assert_eq!((value * 1000.0).round_ties_even() as u128, 20_002);
    assert_eq!(reading::measured(value), Ok(20_003));
    let other = 20.0035_f32;
    assert_eq!((other * 1000.0).round_ties_even() as u128, 20_004);
    assert_eq!(reading::measured(other), Ok(20_003));
}

/// One weighted age, two roundings of the specific uptake.
#[test]
fn uptake_rounded_up_for_aeration() {
    let mut plant = plant_a();
    plant.aeration_temperature = plant.design_temperature;
    let found = sheet(examine(&plant, &readings_a(), candidate_a()));
    let weighted = age::weighted_sludge_age(11_733, age::decay(12));
    let aeration_uptake = aeration::uptake_for_aeration(weighted);
    let capacity_uptake = nitrogen::uptake_for_capacity(weighted);
    assert_eq!(aeration_uptake, capacity_uptake + 1);

    let hourly = |uptake| {
        let carbon = aeration::carbon_oxygen(5_000, 200_000, uptake);
        let saved = aeration::saved_oxygen(5_000, 26_000);
        let nitrification = aeration::nitrification_oxygen(5_000, 36_000);
        aeration::hourly_oxygen(carbon - saved, nitrification, 120, 200)
    };
    assert_eq!(found.hourly_oxygen, hourly(aeration_uptake));
    assert_ne!(found.hourly_oxygen, hourly(capacity_uptake));
}

/// The uptake rounded up would cover the nitrate.
#[test]
fn uptake_rounded_down_for_capacity() {
    let weighted = age::weighted_sludge_age(age::sludge_age(8_213, 304), age::decay(12));
    let uptake = nitrogen::uptake_for_capacity(weighted);
    let wrong_uptake = aeration::uptake_for_aeration(weighted);
    assert_eq!(nitrogen::capacity_by_uptake(304, uptake), 86);
    assert_eq!(nitrogen::capacity_by_uptake(304, wrong_uptake), 87);

    let mut plant = plant_a();
    plant.process = Process::Simultaneous;
    plant.aeration_temperature = plant.design_temperature;
    let with_nitrogen = |nitrogen| {
        let readings = measured([200.0, 400.0, 150.0, nitrogen, 8.0]);
        examine(&plant, &readings, candidate(304, 75, 20)).number()
    };
    // D is 17,400: 87 x 200.
    assert!(nitrogen::is_covered(87 * 200_000, 0, 17_400));
    assert_eq!(with_nitrogen(37.4), 7);
    // D is 17,200: 86 x 200.
    assert_eq!(with_nitrogen(37.2), 0);
}

/// With the overflow rate at its limit the sludge volume loading is below 500.
#[test]
fn loading_after_the_overflow_rate_limit() {
    let mut plant = plant_a();
    plant.sludge_volume_index = 50;
    let found = sheet(examine(&plant, &readings_a(), candidate(300, 50, 20)));
    let volume = settling::diluted_sludge_volume(found.solids, 50);
    assert_eq!(
        settling::surface_overflow_rate(TankFlow::Horizontal, volume),
        1_600
    );
    let storage = settling::storage_depth(1_600, 50, volume);
    let wrong_storage: u64 = 9 * 500 * 150 / 1000;
    assert!(storage < wrong_storage);
    let depth = 500
        + settling::separation_depth(1_600, 50, volume)
        + settling::thickening_depth(found.solids, 1_600, 50, 20, 25_198);
    assert_eq!(found.settling_depth, depth + storage);
    assert!(found.settling_depth > 3_000);
}

/// Least covered fraction 300; the least total is at 301.
#[test]
fn stopping_at_the_least_covered_fraction() {
    let readings = measured([200.0, 400.0, 0.0, 46.0, 0.0]);
    let found = sheet(choose(&plant_a(), &readings));
    assert_eq!(found.fraction, 301);
    let mut least = u64::MAX;
    for ratio in 30..=75 {
        for time in 20..=25 {
            let earlier = examine(&plant_a(), &readings, candidate(299, ratio, time));
            assert_eq!(earlier, Answer::Refused(7));
            let at_300 = examine(&plant_a(), &readings, candidate(300, ratio, time));
            if let Answer::Sheet(other) = at_300 {
                least = least.min(other.total_volume);
            }
        }
    }
    assert!(least != u64::MAX && least > found.total_volume);
}
