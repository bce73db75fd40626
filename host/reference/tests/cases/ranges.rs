//! Both edges of every range.

use crate::common::*;
use reference::*;

pub type Field = fn(&mut Plant) -> &mut u32;

/// All but the sludge volume index, which bulks before its range ends.
pub const FIELDS: [(Field, u32, u32); 13] = [
    (|plant| &mut plant.bod_load, 1, 100_000),
    (|plant| &mut plant.daily_flow, 1, 200_000),
    (|plant| &mut plant.wet_weather_flow, 1, 50_000),
    (|plant| &mut plant.design_temperature, 10, 20),
    (|plant| &mut plant.aeration_temperature, 10, 20),
    (|plant| &mut plant.nitrate_target, 1_000, 50_000),
    (|plant| &mut plant.phosphorus_target, 0, 100_000),
    (|plant| &mut plant.carbon_peak_factor, 100, 300),
    (|plant| &mut plant.nitrogen_peak_factor, 100, 300),
    (|plant| &mut plant.oxygen_saturation, 6_000, 15_000),
    (|plant| &mut plant.site_surface, 1, 100_000),
    (|plant| &mut plant.site_depth, 3_000, 10_000),
    (|plant| &mut plant.dose, 0, 500_000),
];

fn refusal_of(plant: &Plant) -> Option<u8> {
    accept(plant, &readings_a()).err()
}

#[test]
fn plant_and_site() {
    for (field, least, most) in FIELDS {
        let mut plant = plant_a();
        for value in [least, most] {
            *field(&mut plant) = value;
            assert_eq!(refusal_of(&plant), None);
        }
        for value in [most + 1, u32::MAX] {
            *field(&mut plant) = value;
            assert_eq!(refusal_of(&plant), Some(1));
        }
        if least > 0 {
            for value in [0, least - 1] {
                *field(&mut plant) = value;
                assert_eq!(refusal_of(&plant), Some(1));
                assert_eq!(choose(&plant, &readings_a()), Answer::Refused(1));
            }
        }
    }
}

type TermField = fn(&mut Term) -> &mut u32;

/// On a term from the first to the first of January.
const TERM_FIELDS: [(TermField, u32, u32); 6] = [
    (|term| &mut term.first_month, 1, 12),
    (|term| &mut term.first_day, 1, 31),
    (|term| &mut term.last_month, 1, 12),
    (|term| &mut term.last_day, 1, 31),
    (|term| &mut term.temperature, 4, 20),
    (|term| &mut term.nitrate_target, 1_000, 50_000),
];

/// Refusal of a consent of so many terms, one of which has this figure.
fn refusal_of_term(count: u32, place: usize, field: TermField, value: u32) -> Option<u8> {
    let mut plant = plant_a();
    plant.consent.terms = [dated((1, 1), (1, 1), 12, 10_000); 4];
    plant.consent.count = count;
    *field(&mut plant.consent.terms[place]) = value;
    let target = target_in_force(&plant.consent, 2, 1);
    assert_eq!(target.err(), refusal_of(&plant));
    refusal_of(&plant)
}

/// Both edges of each figure, in each term of each count.
#[test]
fn terms_of_the_consent() {
    for (field, least, most) in TERM_FIELDS {
        for count in 0..=4 {
            for place in 0..4 {
                let with = |value| refusal_of_term(count, place, field, value);
                assert_eq!(with(least), None);
                assert_eq!(with(most), None);
                let due = (place < count as usize).then_some(14);
                for value in [0, least - 1, most + 1, u32::MAX] {
                    assert_eq!(with(value), due);
                }
            }
        }
    }
}

#[test]
fn number_of_terms() {
    let mut plant = plant_a();
    plant.consent.terms = [dated((1, 1), (1, 1), 12, 10_000); 4];
    for (count, due) in [(4, None), (5, Some(14)), (u32::MAX, Some(14))] {
        plant.consent.count = count;
        assert_eq!(refusal_of(&plant), due);
    }
}

/// The last day of each month and the day after it, first and last.
#[test]
fn days_of_each_month() {
    let days = [31, 29, 31, 30, 31, 30, 31, 31, 30, 31, 30, 31];
    let winter = consent(&[term(12, 10_000)]);
    for (month, last) in (1..).zip(days) {
        for (day, due) in [(0, Some(14)), (1, None), (last, None), (last + 1, Some(14))] {
            for given in [
                dated((month, day), (7, 1), 12, 10_000),
                dated((7, 1), (month, day), 12, 10_000),
            ] {
                let mut plant = plant_a();
                plant.consent = consent(&[given]);
                assert_eq!(refusal_of(&plant), due, "{month}-{day}");
            }
            assert_eq!(target_in_force(&winter, month, day).err(), due);
        }
    }
}

fn refusal_with(place: usize, reading: Reading) -> Option<u8> {
    let mut readings = measured([2_000.0, 4_400.0, 150.0, 46.0, 8.0]);
    if place == 0 {
        readings[1] = Reading::Measured(20.0);
    }
    readings[place] = reading;
    accept(&plant_a(), &readings).err()
}

#[test]
fn results_at_the_upper_edge() {
    let edges = [2_000.0, 4_400.0, 2_000.0, 500.0, 100.0];
    for (place, edge) in edges.into_iter().enumerate() {
        let at = |value| refusal_with(place, Reading::Measured(value));
        assert_eq!(at(edge), None);
        assert_eq!(at(edge + 0.001), Some(3));
        assert_eq!(refusal_with(place, Reading::Below(2.0 * edge)), None);
        let over = Reading::Below(2.0 * edge + 0.002);
        assert_eq!(refusal_with(place, over), Some(3));
    }
}

#[test]
fn results_at_the_lower_edge() {
    for place in 0..2 {
        let at = |value| refusal_with(place, Reading::Measured(value));
        assert_eq!(at(20.0), None);
        assert_eq!(at(19.9996), None);
        assert_eq!(at(19.9994), Some(3));
        assert_eq!(at(0.0), Some(3));
        assert_eq!(refusal_with(place, Reading::Below(40.0)), None);
        assert_eq!(refusal_with(place, Reading::Below(39.998)), Some(3));
    }
    for place in 2..5 {
        assert_eq!(refusal_with(place, Reading::Measured(0.0)), None);
        assert_eq!(refusal_with(place, Reading::Measured(-0.0)), None);
    }
}

#[test]
fn results_are_rounded_before_the_range() {
    // 2,000,000.488 thousandths.
    let reading = Reading::Measured(2_000.000_5);
    assert_eq!(refusal_with(2, reading), None);
}

#[test]
fn head_count() {
    let mut plant = plant_a();
    plant.daily_flow = 200_000;
    let with = |heads| {
        let mut readings = readings_a();
        readings[2] = Reading::Heads(heads);
        accept(&plant, &readings)
    };
    assert_eq!(with(1).map(|results| results[2]), Ok(1));
    assert_eq!(with(2_000_000).map(|results| results[2]), Ok(700_000));
    for heads in [0, 2_000_001, u32::MAX] {
        assert_eq!(with(heads), Err(3));
    }
}

#[test]
fn result_of_a_head_count() {
    // 12 mg/m3 of BOD for each inhabitant.
    let with = |heads| refusal_with(0, Reading::Heads(heads));
    assert_eq!(with(1_666), Some(3));
    assert_eq!(with(1_667), None);
    assert_eq!(with(166_666), None);
    assert_eq!(with(166_667), Some(3));
}

#[test]
fn cod_ratio() {
    // 22.727 x 11 = 249.997; 49.999 x 5 = 249.995; 50 x 5 = 250.
    let with = |cod| {
        let readings = measured([22.727, cod, 150.0, 46.0, 8.0]);
        accept(&plant_a(), &readings).err()
    };
    assert_eq!(with(49.999), None);
    assert_eq!(with(50.0), Some(4));
}

#[test]
fn grid() {
    let at = |plant: &Plant, candidate| {
        examine(plant, &measured([200.0, 400.0, 0.0, 20.0, 8.0]), candidate).number()
    };
    let mut plant = plant_a();
    plant.site_depth = 10_000;
    for on in [(200, 30, 20), (500, 75, 25), (200, 75, 20), (500, 30, 25)] {
        assert_eq!(at(&plant, candidate(on.0, on.1, on.2)), 0);
    }
    for off in [
        (199, 30, 20),
        (501, 30, 20),
        (200, 29, 20),
        (200, 76, 20),
        (200, 30, 19),
        (200, 30, 26),
        (0, 30, 20),
        (200, 0, 20),
        (200, 30, 0),
        (1_000, 30, 20),
        (u32::MAX, 30, 20),
        (200, u32::MAX, 20),
        (200, 30, u32::MAX),
    ] {
        assert_eq!(at(&plant, candidate(off.0, off.1, off.2)), 6);
    }
    plant.tank_flow = TankFlow::Vertical;
    assert_eq!(at(&plant, candidate(200, 100, 20)), 0);
    assert_eq!(at(&plant, candidate(200, 101, 20)), 6);
}
