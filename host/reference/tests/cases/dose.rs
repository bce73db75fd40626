//! External carbon, worked by hand on Case A: D is 26,000, and K is 129 at
//! 299, which removes 25,800, and 130 at 300, which removes 26,000.

use crate::common::*;
use reference::*;

fn dosed(dose: u32) -> Plant {
    Plant { dose, ..plant_a() }
}

#[test]
fn five_parts_of_cod_remove_one_of_nitrate() {
    for (dose, removed) in [(0, 0), (4, 0), (5, 1), (9, 1), (500_000, 100_000)] {
        assert_eq!(nitrogen::removed_by_dose(dose), removed);
    }
    assert_eq!(nitrogen::left_to_bod(26_000, 199), 25_801);
    assert_eq!(nitrogen::left_to_bod(26_000, 26_000), 0);
    assert_eq!(nitrogen::left_to_bod(26_000, 100_000), 0);
}

/// 200 are missing at 299, 4,000 at 200, where K is 110.
#[test]
fn least_dose_that_covers() {
    let at = |fraction, dose| {
        let place = candidate(fraction, 75, 20);
        examine(&dosed(dose), &readings_a(), place).number()
    };
    for (fraction, least) in [(299, 1_000), (200, 20_000)] {
        assert_eq!(at(fraction, least - 1), 7);
        assert_eq!(at(fraction, least), 0);
        assert_eq!(at(fraction, least + 4), 0);
    }
}

/// With a BOD of 200.002, 129 x C is 25,800,258: 200 x 999 more would be
/// enough, 1000 x 199 are not.
#[test]
fn dose_is_rounded_before_the_sum() {
    let readings = measured([200.002, 400.0, 150.0, 46.0, 8.0]);
    let at = |dose| examine(&dosed(dose), &readings, candidate(299, 75, 20)).number();
    assert_eq!(at(999), 7);
    assert_eq!(at(1_000), 0);
}

/// Case A's oxygen is 1,212,000 g/d for carbon and 774,000 for nitrification;
/// 14.5 are saved for each mg/m3 that is left to the BOD. So 376,985 are saved
/// with a dose of 5, 374,100 with 1,000 and 0 from 130,000 on. Nothing else on
/// the sheet moves.
#[test]
fn oxygen_of_case_a() {
    let plain = sheet(examine(&plant_a(), &readings_a(), candidate_a()));
    for (dose, hourly_oxygen, oxygen_transfer) in [
        (0, 99_292, 127_662),
        (4, 99_292, 127_662),
        (5, 99_293, 127_663),
        (1_000, 99_413, 127_817),
        (130_000, 115_000, 147_858),
        (500_000, 115_000, 147_858),
    ] {
        let found = examine(&dosed(dose), &readings_a(), candidate_a());
        let expected = Sheet {
            hourly_oxygen,
            oxygen_transfer,
            ..plain
        };
        assert_eq!(found, Answer::Sheet(expected), "dose {dose}");
    }
}

#[test]
fn nitrate_explained() {
    let of = |dose| {
        let place = candidate(299, 75, 20);
        let stages = explain(&dosed(dose), &readings_a(), place).unwrap();
        let nitrate = stages.nitrate;
        let removed = (stages.by_bod, nitrate.by_dose, stages.removable);
        assert_eq!(nitrate.to_denitrify, 26_000);
        removed
    };
    assert_eq!(of(0), (25_800, 0, 25_800));
    assert_eq!(of(999), (25_800, 199, 25_999));
    assert_eq!(of(500_000), (25_800, 100_000, 125_800));
}

/// D is 80,000, of which 50,000 are missing at 500 and 50,200 at 499.
#[test]
fn no_design_without_a_dose() {
    let readings = measured([200.0, 400.0, 150.0, 100.0, 8.0]);
    let at = |dose| choose(&dosed(dose), &readings);
    assert_eq!(at(0), Answer::Refused(5));
    assert_eq!(at(249_999), Answer::Refused(5));
    assert_eq!(sheet(at(250_000)).fraction, 500);
    let counts = census(&dosed(250_000), &readings).unwrap();
    assert_eq!(counts[7], 300 * 46 * 6);
}

/// Out of its range before any reading is looked at.
#[test]
fn dose_out_of_range_comes_first() {
    for dose in [500_001, u32::MAX] {
        for reading in [f32::NAN, 1e30, 440.1] {
            let readings = measured([200.0, reading, 150.0, 46.0, 8.0]);
            let number = examine(&dosed(dose), &readings, candidate(0, 0, 0)).number();
            assert_eq!(number, 1);
            assert_ne!(accept(&plant_a(), &readings).err(), None);
        }
    }
}
