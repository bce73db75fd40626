//! Conversion of readings.

use crate::common::*;
use reference::reading::{load_per_head, ORDER};
use reference::*;

const SETTLINGS: [PrimarySettling; 3] = [
    PrimarySettling::None,
    PrimarySettling::Short,
    PrimarySettling::Long,
];

#[test]
fn table_of_loads_per_head() {
    let expected = [
        [600, 450, 400],
        [1200, 900, 800],
        [700, 350, 250],
        [110, 100, 100],
        [18, 16, 16],
    ];
    for (row, determinand) in ORDER.iter().enumerate() {
        for (column, settling) in SETTLINGS.iter().enumerate() {
            let load = load_per_head(*determinand, *settling);
            assert_eq!(load, expected[row][column]);
        }
    }
}

#[test]
fn heads_round_up() {
    assert_eq!(reading::from_heads(1, 18, 5_000), Ok(1));
    assert_eq!(reading::from_heads(25, 18, 5_000), Ok(9));
    assert_eq!(reading::from_heads(26, 18, 5_000), Ok(10));
    assert_eq!(
        reading::from_heads(2_000_000, 1_200, 1),
        Ok(240_000_000_000)
    );
}

#[test]
fn heads_for_every_reading() {
    let heads = [Reading::Heads(20_000); 5];
    let mut plant = plant_a();
    let expected = [
        [240_000, 480_000, 280_000, 44_000, 7_200],
        [180_000, 360_000, 140_000, 40_000, 6_400],
        [160_000, 320_000, 100_000, 40_000, 6_400],
    ];
    for (settling, results) in SETTLINGS.iter().zip(expected) {
        plant.primary_settling = *settling;
        assert_eq!(accept(&plant, &heads), Ok(results));
    }
}

#[test]
fn special_values() {
    for value in [f32::NAN, -f32::NAN, f32::INFINITY, f32::NEG_INFINITY] {
        assert_eq!(reading::measured(value), Err(2));
        assert_eq!(reading::below(value), Err(2));
    }
    for value in [
        -1.0,
        -0.0001,
        -f32::MIN_POSITIVE,
        -f32::from_bits(1),
        f32::MIN,
    ] {
        assert_eq!(reading::measured(value), Err(2));
        assert_eq!(reading::below(value), Err(2));
    }
    for value in [0.0, -0.0, f32::MIN_POSITIVE, f32::from_bits(1)] {
        assert_eq!(reading::measured(value), Ok(0));
        assert_eq!(reading::below(value), Ok(0));
    }
}

#[test]
fn huge_values_are_out_of_range() {
    for exponent in 12..=127 {
        let value = f32::from_bits((exponent + 127) << 23);
        for reading in [Reading::Measured(value), Reading::Below(value)] {
            let mut readings = readings_a();
            readings[4] = reading;
            assert_eq!(accept(&plant_a(), &readings), Err(3));
        }
    }
    let mut readings = readings_a();
    readings[0] = Reading::Below(f32::MAX);
    assert_eq!(accept(&plant_a(), &readings), Err(3));
}

#[test]
fn ties_go_to_even() {
    assert_eq!(reading::measured(0.3125), Ok(312));
    assert_eq!(reading::measured(0.4375), Ok(438));
    assert_eq!(reading::measured(0.0004882813), Ok(0));
    assert_eq!(reading::measured(f32::from_bits(0x3a03_1270)), Ok(1));
    assert_eq!(reading::below(0.875), Ok(438));
    assert_eq!(reading::below(0.625), Ok(312));
}

#[test]
fn limit_is_rounded_after_halving() {
    // 62.6 thousandths: half is 31.3; half of 63 would be 31.5, to 32.
    assert_eq!(reading::measured(0.0626), Ok(63));
    assert_eq!(reading::below(0.0626), Ok(31));
}

/// A product of 24 and 10 bits is exact in an f64.
#[test]
fn conversion_agrees_with_wider_floats() {
    let mut generator = Generator::new(0x5eed_0001);
    for _ in 0..200_000 {
        let exponent = generator.within(100, 144);
        let value = f32::from_bits((exponent << 23) | (generator.bits() >> 9));
        let whole = (f64::from(value) * 1000.0).round_ties_even() as u128;
        assert_eq!(reading::measured(value), Ok(whole));
        let half = (f64::from(value) * 500.0).round_ties_even() as u128;
        assert_eq!(reading::below(value), Ok(half));
    }
}
