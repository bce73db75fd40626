//! The census of the grid.

use crate::common::*;
use reference::examine::most_return;
use reference::*;

/// Every candidate of the grid examined by itself.
fn examined_one_by_one(plant: &Plant, readings: &[Reading; 5]) -> [u64; 32] {
    let mut counts = [0; 32];
    for fraction in 200..=500 {
        for ratio in 30..=most_return(plant.tank_flow) {
            for time in 20..=25 {
                let answer = examine(plant, readings, candidate(fraction, ratio, time));
                counts[usize::from(answer.number())] += 1;
            }
        }
    }
    counts
}

#[test]
fn case_a() {
    let mut counts = [0; 32];
    counts[0] = 55_476;
    counts[7] = 27_600;
    assert_eq!(census(&plant_a(), &readings_a()), Ok(counts));
    assert_eq!(examined_one_by_one(&plant_a(), &readings_a()), counts);
}

/// A plant at which each of the rules 7 to 10 stops some candidates.
#[test]
fn every_rule_counts() {
    let plant = Plant {
        tank_flow: TankFlow::Vertical,
        removal: Removal::Hopper,
        site_surface: 500,
        ..plant_a()
    };
    let counts = census(&plant, &readings_a()).unwrap();
    for number in [0, 7, 8, 9, 10] {
        assert!(counts[number] > 0, "{number}: {counts:?}");
    }
    assert_eq!(counts.iter().sum::<u64>(), 128_226);
    assert_eq!(examined_one_by_one(&plant, &readings_a()), counts);
}

/// Case A with a term that is not nitrified below 325, and then one that is
/// not covered below 302.
#[test]
fn terms_count() {
    let mut plant = plant_a();
    plant.consent = consent(&[term(8, 36_000)]);
    let mut counts = [0; 32];
    counts[7] = 27_600;
    counts[15] = 25 * 276;
    counts[0] = 176 * 276;
    assert_eq!(census(&plant, &readings_a()), Ok(counts));
    assert_eq!(examined_one_by_one(&plant, &readings_a()), counts);
    plant.consent = consent(&[term(11, 12_999)]);
    counts[15] = 0;
    counts[16] = 2 * 276;
    counts[0] = 199 * 276;
    assert_eq!(census(&plant, &readings_a()), Ok(counts));
    assert_eq!(examined_one_by_one(&plant, &readings_a()), counts);
    plant.consent = consent(&[term(11, 999)]);
    assert_eq!(census(&plant, &readings_a()), Err(14));
}

#[test]
fn refused_data_are_not_counted() {
    let plant = Plant {
        bod_load: 0,
        ..plant_a()
    };
    assert_eq!(census(&plant, &readings_a()), Err(1));
    let readings = measured([200.0, 440.1, 150.0, 46.0, 8.0]);
    assert_eq!(census(&plant_a(), &readings), Err(4));
}
