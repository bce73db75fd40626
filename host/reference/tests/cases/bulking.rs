//! Bulking sludge: an index of 181 to 200 is refused with 17.

use crate::common::*;
use crate::ranges::FIELDS;
use reference::*;

fn with_index(sludge_volume_index: u32) -> Plant {
    Plant {
        sludge_volume_index,
        ..plant_a()
    }
}

/// The refusal that every call gives; none where the data are accepted.
fn refusal_of(plant: &Plant, readings: &[Reading; 5]) -> Option<u8> {
    let due = accept(plant, readings).err();
    let off = candidate(0, 0, 0);
    assert_eq!(explain(plant, readings, candidate_a()).err(), due);
    assert_eq!(explain(plant, readings, off).err(), due.or(Some(6)));
    assert_eq!(census(plant, readings).err(), due);
    if let Some(number) = due {
        let refused = Answer::Refused(number);
        assert_eq!(examine(plant, readings, candidate_a()), refused);
        assert_eq!(examine(plant, readings, off), refused);
        assert_eq!(choose(plant, readings), refused);
        assert_eq!(refused.sheet().figures(), [0; 15]);
    } else {
        assert_eq!(choose(plant, readings).number(), 0);
        assert_eq!(examine(plant, readings, candidate_a()).number(), 0);
    }
    due
}

#[test]
fn index_of_the_sludge() {
    for (index, due) in [
        (0, Some(1)),
        (49, Some(1)),
        (50, None),
        (179, None),
        (180, None),
        (181, Some(17)),
        (182, Some(17)),
        (199, Some(17)),
        (200, Some(17)),
        (201, Some(1)),
        (u32::MAX, Some(1)),
    ] {
        let found = refusal_of(&with_index(index), &readings_a());
        assert_eq!(found, due, "{index}");
    }
}

/// Any other figure outside its range comes first.
#[test]
fn after_plant_data() {
    for index in [181, 200] {
        let mut plant = with_index(index);
        plant.daily_flow = 0;
        assert_eq!(refusal_of(&plant, &readings_a()), Some(1));
        for (field, least, most) in FIELDS {
            let mut plant = with_index(index);
            for value in [least, most] {
                *field(&mut plant) = value;
                assert_eq!(refusal_of(&plant, &readings_a()), Some(17));
            }
            *field(&mut plant) = most + 1;
            assert_eq!(refusal_of(&plant, &readings_a()), Some(1));
        }
    }
}

#[test]
fn before_every_reading() {
    for reading in [
        Reading::Measured(f32::NAN),
        Reading::Measured(-1.0),
        Reading::Measured(1e30),
        Reading::Below(f32::INFINITY),
        Reading::Heads(0),
    ] {
        for place in 0..5 {
            let mut readings = readings_a();
            readings[place] = reading;
            assert_eq!(refusal_of(&with_index(181), &readings), Some(17));
            assert_eq!(refusal_of(&with_index(201), &readings), Some(1));
            assert_ne!(refusal_of(&with_index(180), &readings), Some(17));
        }
    }
    let high = measured([200.0, 440.1, 150.0, 46.0, 8.0]);
    assert_eq!(refusal_of(&with_index(180), &high), Some(4));
    assert_eq!(refusal_of(&with_index(181), &high), Some(17));
}

/// The call that is given terms and a date alone knows no index.
#[test]
fn before_the_consent() {
    let mut plant = with_index(181);
    plant.consent = consent(&[term(3, 10_000)]);
    assert_eq!(refusal_of(&plant, &readings_a()), Some(17));
    assert_eq!(target_in_force(&plant.consent, 1, 1), Err(14));
}
