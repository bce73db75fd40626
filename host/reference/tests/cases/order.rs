//! Order of the refusals.

use crate::common::*;
use reference::*;

const NAN: Reading = Reading::Measured(f32::NAN);
const HUGE: Reading = Reading::Measured(1e30);

fn number(plant: &Plant, readings: &[Reading; 5], candidate: Candidate) -> u8 {
    let examined = examine(plant, readings, candidate);
    if let number @ (1..=4 | 14 | 17) = examined.number() {
        assert_eq!(choose(plant, readings), examined);
        assert_eq!(accept(plant, readings), Err(number));
    }
    examined.number()
}

#[test]
fn plant_data_before_readings() {
    let mut plant = plant_a();
    plant.site_depth = 2_999;
    assert_eq!(number(&plant, &[NAN; 5], candidate(0, 0, 0)), 1);
    assert_eq!(number(&plant, &[HUGE; 5], candidate(0, 0, 0)), 1);
}

/// Every other fault beside a bulking sludge: 17 after 1, before the rest.
#[test]
fn bulking_between_plant_data_and_readings() {
    let mut plant = plant_a();
    plant.sludge_volume_index = 181;
    plant.consent.count = 5;
    let off = candidate(0, 0, 0);
    let high = measured([200.0, 450.0, 150.0, 46.0, 8.0]);
    for readings in [[NAN; 5], [HUGE; 5], high, readings_a()] {
        assert_eq!(number(&plant, &readings, off), 17);
    }
    plant.site_depth = 2_999;
    for readings in [[NAN; 5], [HUGE; 5], high, readings_a()] {
        assert_eq!(number(&plant, &readings, off), 1);
    }
}

#[test]
fn readings_in_turn() {
    for first in 0..5 {
        for second in first + 1..5 {
            let mut readings = readings_a();
            readings[first] = HUGE;
            readings[second] = NAN;
            assert_eq!(number(&plant_a(), &readings, candidate_a()), 3);
            readings[first] = Reading::Heads(0);
            assert_eq!(number(&plant_a(), &readings, candidate_a()), 3);
            readings[first] = Reading::Below(-1.0);
            readings[second] = HUGE;
            assert_eq!(number(&plant_a(), &readings, candidate_a()), 2);
        }
    }
}

#[test]
fn readings_before_cod_ratio() {
    let mut readings = measured([200.0, 450.0, 150.0, 46.0, 8.0]);
    assert_eq!(number(&plant_a(), &readings, candidate(0, 0, 0)), 4);
    readings[4] = HUGE;
    assert_eq!(number(&plant_a(), &readings, candidate(0, 0, 0)), 3);
    readings[4] = NAN;
    assert_eq!(number(&plant_a(), &readings, candidate(0, 0, 0)), 2);
}

/// A consent of five terms with every reading's fault, then none of them.
#[test]
fn readings_and_cod_ratio_before_the_consent() {
    let mut plant = plant_a();
    plant.consent.count = 5;
    let off = candidate(0, 0, 0);
    let high = measured([200.0, 450.0, 150.0, 46.0, 8.0]);
    for place in 0..5 {
        for (reading, due) in [(HUGE, 3), (NAN, 2)] {
            let mut readings = high;
            readings[place] = reading;
            assert_eq!(number(&plant, &readings, off), due);
        }
    }
    assert_eq!(number(&plant, &high, off), 4);
    assert_eq!(number(&plant, &readings_a(), off), 14);
    plant.dose = 500_001;
    assert_eq!(number(&plant, &readings_a(), off), 1);
}

/// Without a design by the rules 7 to 10, an invalid consent still gets 14.
#[test]
fn consent_before_no_design() {
    let mut plant = plant_a();
    plant.site_surface = 1;
    assert_eq!(choose(&plant, &readings_a()), Answer::Refused(5));
    plant.consent = consent(&[term(3, 10_000)]);
    assert_eq!(choose(&plant, &readings_a()), Answer::Refused(14));
}

/// Faults 6 to 10, 15 and 16 together, then taken away one by one. Case A at
/// 300 is not covered at 11 degrees and a target of 12,999, and does not
/// nitrify at 8; the term that is not covered comes first.
#[test]
fn examining() {
    let mut plant = plant_a();
    plant.tank_flow = TankFlow::Vertical;
    plant.removal = Removal::Hopper;
    plant.site_surface = 1;
    plant.site_depth = 3_000;
    let readings = readings_a();
    let of = |plant: &Plant, candidate| number(plant, &readings, candidate);
    plant.consent = consent(&[term(11, 12_999), term(8, 50_000)]);
    assert_eq!(of(&plant, candidate(199, 92, 20)), 6);
    assert_eq!(of(&plant, candidate(299, 92, 20)), 7);
    assert_eq!(of(&plant, candidate(300, 92, 20)), 15);
    plant.consent.count = 1;
    assert_eq!(of(&plant, candidate(300, 92, 20)), 16);
    plant.consent = consent(&[term(11, 13_000)]);
    assert_eq!(of(&plant, candidate(300, 92, 20)), 8);
    assert_eq!(of(&plant, candidate(300, 91, 20)), 8);
    assert_eq!(of(&plant, candidate(300, 90, 20)), 9);
    plant.site_surface = 1_000;
    assert_eq!(of(&plant, candidate(300, 90, 20)), 10);
    plant.site_depth = 10_000;
    assert_eq!(of(&plant, candidate(300, 90, 20)), 0);
}

#[test]
fn site_limits_are_inclusive() {
    let at = |surface, depth| {
        let mut plant = plant_a();
        plant.site_surface = surface;
        plant.site_depth = depth;
        number(&plant, &readings_a(), candidate_a())
    };
    assert_eq!(at(454, 4_536), 0);
    assert_eq!(at(453, 4_536), 9);
    assert_eq!(at(454, 4_535), 10);
}

#[test]
fn limits_of_solids() {
    assert!(settling::solids_allowed(1_000, 600));
    assert!(!settling::solids_allowed(999, 600));
    assert!(!settling::solids_allowed(1_000, 601));
    let mut plant = plant_a();
    plant.sludge_volume_index = 180;
    plant.removal = Removal::Suction;
    // R is 3,499: E is 999 at 40 and 1,017 at 41.
    assert_eq!(number(&plant, &readings_a(), candidate(300, 40, 20)), 8);
    assert_eq!(number(&plant, &readings_a(), candidate(300, 41, 20)), 0);
}

#[test]
fn nothing_permitted() {
    let mut plant = plant_a();
    let much_nitrogen = measured([200.0, 400.0, 150.0, 100.0, 8.0]);
    assert_eq!(choose(&plant, &much_nitrogen), Answer::Refused(5));
    // The least surface is 375 m2, at 1,600 mm/h.
    let at = |plant: &Plant| choose(plant, &readings_a()).number();
    plant.site_surface = 375;
    assert_eq!(at(&plant), 0);
    plant.site_surface = 374;
    assert_eq!(at(&plant), 5);
    // The least depth with E from 1,000 on is 3,508 mm, at 37 and 24: E is
    // 1,004, V 181 and q 2,000; 500 + 1,673 + 447 + 888.
    let mut plant = plant_a();
    plant.sludge_volume_index = 180;
    plant.tank_flow = TankFlow::Vertical;
    plant.removal = Removal::Suction;
    plant.site_depth = 3_508;
    assert_eq!(at(&plant), 0);
    plant.site_depth = 3_507;
    assert_eq!(at(&plant), 5);
}
