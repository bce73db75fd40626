//! Seasons of the consent, worked by hand on Case A: C is 200,000, W is
//! 36,000, a is 8,213 and t at 300 is 11,733. At 8, 9, 10, 11 and 13 degrees a
//! is 12,156, 11,021, 9,992, 9,059 and 7,446.

use crate::common::*;
use reference::stages::InTerm;
use reference::*;

fn with_terms(terms: &[Term]) -> Plant {
    Plant {
        consent: consent(terms),
        ..plant_a()
    }
}

fn at(plant: &Plant, fraction: u32) -> u8 {
    examine(plant, &readings_a(), candidate(fraction, 75, 20)).number()
}

/// The first term of Case A's candidate with another fraction.
fn explained(plant: &Plant, fraction: u32) -> InTerm {
    let place = candidate(fraction, 75, 20);
    let stages = explain(plant, &readings_a(), place).unwrap();
    stages.terms[0].unwrap()
}

#[test]
fn aerobic_ages_of_case_a() {
    for (temperature, age) in [
        (4, 17_993),
        (8, 12_156),
        (9, 11_021),
        (10, 9_992),
        (11, 9_059),
        (13, 7_446),
    ] {
        let growth = age::growth(temperature);
        assert_eq!(age::aerobic_sludge_age(180, growth), age);
    }
}

/// 9,059,000 / 11,733 = 772.1, 11,021,000 / 11,733 = 939.3,
/// 17,993,000 / 10,267 = 1752.5.
#[test]
fn fraction_left_by_the_aerobic_age() {
    for (aerobic_age, sludge_age, share, left) in [
        (9_059, 11_733, 773, Some(227)),
        (11_021, 11_733, 940, Some(60)),
        (11_732, 11_733, 1_000, Some(0)),
        (11_733, 11_733, 1_000, Some(0)),
        (11_734, 11_733, 1_001, None),
        (17_993, 10_267, 1_753, None),
    ] {
        assert_eq!(age::aerobic_share(aerobic_age, sludge_age), share);
        assert_eq!(age::fraction_left(aerobic_age, sludge_age), left);
    }
}

/// At 300. Table 3: 110 + 20 x 27 / 100 = 115.4 at 11 degrees, where 227 are
/// left, and 130 at 300, raised from 13 degrees on.
#[test]
fn cover_of_each_temperature() {
    for (temperature, capacity) in [(9, 0), (10, 0), (11, 115), (12, 130), (13, 131), (20, 140)] {
        let least = 36_000 - 200 * capacity;
        assert_eq!(at(&with_terms(&[term(temperature, least)]), 300), 0);
        assert_eq!(at(&with_terms(&[term(temperature, least - 1)]), 300), 16);
    }
    assert_eq!(at(&with_terms(&[term(8, 50_000)]), 300), 15);
    assert_eq!(at(&with_terms(&[term(4, 50_000)]), 300), 15);
}

/// At 300 and a design target of 20,000. F(11) is 757,216, so U is 8,884, o
/// 560 + 530 and K 75 x 227 x 1,090 / 290,000 = 63.99; F(20) is 1,415,707, so
/// U is 16,610, o 560 + 651 and K 75 x 300 x 1,211 / 290,000 = 93.96.
#[test]
fn cover_by_uptake() {
    for process in [Process::Simultaneous, Process::Intermittent] {
        for (temperature, least) in [(10, 36_000), (11, 23_400), (20, 17_400)] {
            let mut plant = with_terms(&[term(temperature, least)]);
            plant.process = process;
            plant.nitrate_target = 20_000;
            assert_eq!(at(&plant, 300), 0);
            plant.consent.terms[0].nitrate_target -= 1;
            assert_eq!(at(&plant, 300), 16);
        }
    }
}

/// Table 3 is raised by the term's temperature, not by the design's: at a
/// design of 13 degrees t is 12,410 at 400. A term at 12 leaves 338 of it
/// (8,213,000 / 12,410 = 661.8), a term at 13 all 400.
#[test]
fn raised_by_the_terms_temperature() {
    let mut plant = with_terms(&[term(12, 10_000)]);
    plant.design_temperature = 13;
    let found = explained(&plant, 400);
    assert_eq!((found.fraction, found.capacity), (338, 133));
    plant.consent = consent(&[term(13, 10_000)]);
    let found = explained(&plant, 400);
    assert_eq!((found.fraction, found.capacity), (400, 141));
}

/// 12,156,000 / 12,168 = 999.01 at 325 and 12,156,000 / 12,150 = 1000.5 at
/// 324: nothing is left, and K is 0, so D must be 0.
#[test]
fn difference_of_just_zero() {
    let plant = with_terms(&[term(8, 36_000)]);
    assert_eq!(at(&plant, 325), 0);
    assert_eq!(at(&plant, 324), 15);
    assert_eq!(at(&with_terms(&[term(8, 35_999)]), 325), 16);
    assert_eq!(explained(&plant, 325).fraction, 0);
    assert_eq!(explained(&plant, 325).aerobic_share, 1_000);
    assert_eq!(explained(&plant, 324).aerobic_share, 1_001);
}

/// At 4 degrees beside a design at 10: t is 18,004 at 445 and 17,972 at 444.
#[test]
fn coldest_term() {
    let mut plant = with_terms(&[term(4, 36_000)]);
    plant.design_temperature = 10;
    assert_eq!(at(&plant, 445), 0);
    assert_eq!(at(&plant, 444), 15);
    assert_eq!(sheet(choose(&plant, &readings_a())).fraction, 445);
    plant.consent.terms[0].nitrate_target = 35_999;
    assert_eq!(choose(&plant, &readings_a()), Answer::Refused(5));
}

/// 9,059,000 / 11,329 = 799.6 at 275 and 9,059,000 / 11,313 = 800.8 at 274.
#[test]
fn no_capacity_under_200() {
    let with = |target| {
        let mut plant = with_terms(&[term(11, target)]);
        plant.nitrate_target = 12_000;
        plant
    };
    assert_eq!(explained(&with(14_000), 275).fraction, 200);
    assert_eq!(explained(&with(14_000), 274).fraction, 199);
    assert_eq!(at(&with(14_000), 275), 0);
    assert_eq!(at(&with(13_999), 275), 16);
    assert_eq!(at(&with(36_000), 274), 0);
    assert_eq!(at(&with(35_999), 274), 16);
    for process in [Process::Simultaneous, Process::StepFeed(Steps::Two)] {
        assert_eq!(nitrogen::capacity_in_term(process, 199, 20, 9_524), 0);
        assert_ne!(nitrogen::capacity_in_term(process, 200, 4, 9_524), 0);
    }
}

/// At 10 degrees and 300 the BOD removes nothing: 6,000 are left to the dose.
#[test]
fn dose_counts_in_a_term() {
    let mut plant = with_terms(&[term(10, 30_000)]);
    for (dose, due) in [(0, 16), (29_999, 16), (30_000, 0), (500_000, 0)] {
        plant.dose = dose;
        assert_eq!(at(&plant, 300), due);
    }
}

#[test]
fn nitrification_of_all_before_cover_of_any() {
    let lost = term(8, 50_000);
    let short = term(11, 12_999);
    let fine = term(12, 10_000);
    for (terms, due) in [
        (&[short, lost][..], 15),
        (&[lost, short], 15),
        (&[short, fine, fine, lost], 15),
        (&[fine, fine, fine, short], 16),
        (&[short, fine], 16),
        (&[fine, fine, fine, lost], 15),
        (&[fine; 4], 0),
    ] {
        assert_eq!(at(&with_terms(terms), 300), due);
    }
}

/// The dates do not matter to a candidate.
#[test]
fn dates_do_not_matter_to_a_candidate() {
    for (first, last) in [((1, 1), (1, 1)), ((2, 29), (2, 28)), ((12, 31), (12, 30))] {
        assert_eq!(at(&with_terms(&[dated(first, last, 11, 13_000)]), 300), 0);
        assert_eq!(at(&with_terms(&[dated(first, last, 11, 12_999)]), 300), 16);
    }
}

#[test]
fn sheet_of_case_a_with_terms() {
    let plain = examine(&plant_a(), &readings_a(), candidate_a());
    let plant = with_terms(&[term(11, 13_000), term(12, 10_000), term(20, 8_000)]);
    assert_eq!(examine(&plant, &readings_a(), candidate_a()), plain);
}

/// K is 116 from 230 on: 9,059,000 / 11,767 = 769.9 at 302. A term at 8 degrees
/// asks for 325. It leaves 200, so that the BOD removes 22,000, from 460 on
/// (12,156,000 / 15,210 = 799.2), 255 and 24,200 from 497 on, and 259 at 500.
#[test]
fn chosen_with_terms() {
    let fraction = |terms: &[Term]| sheet(choose(&with_terms(terms), &readings_a())).fraction;
    assert_eq!(fraction(&[]), 300);
    assert_eq!(fraction(&[term(11, 13_000)]), 300);
    assert_eq!(fraction(&[term(11, 12_999)]), 302);
    assert_eq!(fraction(&[term(11, 12_999), term(8, 36_000)]), 325);
    assert_eq!(fraction(&[term(8, 36_000), term(11, 12_999)]), 325);
    let none = |terms: &[Term]| choose(&with_terms(terms), &readings_a());
    assert_eq!(fraction(&[term(8, 35_999)]), 460);
    assert_eq!(fraction(&[term(8, 11_800)]), 497);
    assert_eq!(none(&[term(8, 11_799)]), Answer::Refused(5));
    assert_eq!(none(&[term(4, 50_000)]), Answer::Refused(5));
}

/// 12,156,000 / 11,733 = 1036.1; at 20 degrees a is 3,749, and 3,749,000 /
/// 11,733 = 319.5.
#[test]
fn terms_explained() {
    let mut plant = with_terms(&[term(11, 12_999), term(8, 30_000), term(20, 40_000)]);
    plant.dose = 999;
    let stages = explain(&plant, &readings_a(), candidate_a()).unwrap();
    let cold = InTerm {
        aerobic_share: 773,
        fraction: 227,
        to_denitrify: 23_001,
        capacity: 115,
        by_sewage: 23_000_000,
        by_bod: 23_000,
        removable: 23_199,
        is_covered: true,
    };
    let lost = InTerm {
        aerobic_share: 1_037,
        fraction: 0,
        to_denitrify: 6_000,
        capacity: 0,
        by_sewage: 0,
        by_bod: 0,
        removable: 199,
        is_covered: false,
    };
    let warm = InTerm {
        aerobic_share: 320,
        fraction: 300,
        to_denitrify: 0,
        capacity: 140,
        by_sewage: 28_000_000,
        by_bod: 28_000,
        removable: 28_199,
        is_covered: true,
    };
    assert_eq!(stages.terms, [Some(cold), Some(lost), Some(warm), None]);
    plant.consent.count = 5;
    let refused = explain(&plant, &readings_a(), candidate(0, 0, 0));
    assert_eq!(refused.err(), Some(14));
    let plain = explain(&plant_a(), &readings_a(), candidate_a()).unwrap();
    assert_eq!(plain.terms, [None; 4]);
}

/// Dates on which a lone term runs, of those given.
fn running(first: (u32, u32), last: (u32, u32), dates: &[(u32, u32)]) -> Vec<bool> {
    let consent = consent(&[dated(first, last, 12, 7_000)]);
    let runs = |(month, day): &(u32, u32)| match target_in_force(&consent, *month, *day) {
        Ok(Some(7_000)) => true,
        Ok(None) => false,
        other => panic!("{other:?}"),
    };
    dates.iter().map(runs).collect()
}

#[test]
fn both_ends_are_included() {
    let dates = [(4, 30), (5, 1), (5, 2), (9, 29), (9, 30), (10, 1)];
    let found = running((5, 1), (9, 30), &dates);
    assert_eq!(found, [false, true, true, true, true, false]);
}

#[test]
fn over_the_new_year() {
    let dates = [
        (10, 31),
        (11, 1),
        (12, 31),
        (1, 1),
        (2, 29),
        (3, 31),
        (4, 1),
        (7, 1),
    ];
    let found = running((11, 1), (3, 31), &dates);
    assert_eq!(found, [false, true, true, true, true, true, false, false]);
    // within one month: all but the days between
    let dates = [(6, 9), (6, 10), (6, 11), (6, 19), (6, 20), (12, 31)];
    let found = running((6, 20), (6, 10), &dates);
    assert_eq!(found, [true, true, false, false, true, true]);
}

#[test]
fn equal_days_are_one_day() {
    let dates = [(2, 28), (2, 29), (3, 1), (12, 31), (1, 1)];
    let found = running((2, 29), (2, 29), &dates);
    assert_eq!(found, [false, true, false, false, false]);
    // from a day to the day before: the whole year
    assert_eq!(running((3, 1), (2, 29), &dates), [true; 5]);
    assert_eq!(running((1, 1), (12, 31), &dates), [true; 5]);
}

#[test]
fn lowest_target_in_force() {
    let consent = consent(&[
        dated((5, 1), (9, 30), 15, 9_000),
        dated((10, 1), (4, 30), 8, 20_000),
        dated((12, 1), (1, 31), 6, 30_000),
        dated((7, 1), (7, 31), 18, 5_000),
    ]);
    for (date, target) in [
        ((5, 1), 9_000),
        ((7, 15), 5_000),
        ((8, 1), 9_000),
        ((12, 24), 20_000),
        ((4, 30), 20_000),
    ] {
        assert_eq!(target_in_force(&consent, date.0, date.1), Ok(Some(target)));
    }
}

#[test]
fn no_term_runs() {
    assert_eq!(target_in_force(&Consent::none(), 7, 1), Ok(None));
    let summer = consent(&[dated((5, 1), (9, 30), 15, 9_000); 4]);
    assert_eq!(target_in_force(&summer, 10, 1), Ok(None));
}

#[test]
fn refused_dates_and_consents() {
    let mut winter = consent(&[term(8, 9_000)]);
    for (month, day) in [(0, 1), (13, 1), (1, 0), (2, 30), (4, 31), (1, 32), (0, 0)] {
        assert_eq!(target_in_force(&winter, month, day), Err(14));
        assert_eq!(target_in_force(&Consent::none(), month, day), Err(14));
    }
    assert_eq!(target_in_force(&winter, u32::MAX, u32::MAX), Err(14));
    assert_eq!(target_in_force(&winter, 2, 29), Ok(Some(9_000)));
    // an invalid term counts even where it would not run
    for wrong in [
        term(3, 9_000),
        term(8, 999),
        dated((2, 30), (3, 1), 8, 9_000),
    ] {
        let both = consent(&[term(8, 9_000), wrong]);
        assert_eq!(target_in_force(&both, 1, 1), Err(14));
        assert_eq!(target_in_force(&both, 7, 1), Err(14));
    }
    for count in [2, 5, u32::MAX] {
        winter.count = count;
        assert_eq!(target_in_force(&winter, 1, 1), Err(14));
    }
}
