//! Properties on generated plants.

use crate::common::*;
use reference::choose::rank;
use reference::examine::{most_return, on_grid};
use reference::*;

fn choices(generator: &mut Generator, plant: &mut Plant) {
    plant.process = generator.pick(&[
        Process::PreAnoxic,
        Process::Simultaneous,
        Process::Intermittent,
        Process::StepFeed(Steps::Two),
        Process::StepFeed(Steps::Three),
    ]);
    plant.precipitant = generator.pick(&[Precipitant::Iron, Precipitant::Aluminium]);
    plant.tank_flow = generator.pick(&[TankFlow::Horizontal, TankFlow::Vertical]);
    plant.removal = generator.pick(&[Removal::Scraper, Removal::Suction, Removal::Hopper]);
    plant.primary_settling = generator.pick(&[
        PrimarySettling::None,
        PrimarySettling::Short,
        PrimarySettling::Long,
    ]);
}

pub fn plant(generator: &mut Generator) -> Plant {
    let mut plant = plant_a();
    choices(generator, &mut plant);
    plant.bod_load = generator.within(1, 8_000);
    plant.daily_flow = generator.within(1, 200_000);
    plant.wet_weather_flow = generator.within(1, 50_000);
    plant.design_temperature = generator.within(10, 20);
    plant.aeration_temperature = generator.within(10, 20);
    plant.sludge_volume_index = generator.within(50, 180);
    plant.nitrate_target = generator.within(1_000, 50_000);
    plant.phosphorus_target = generator.within(0, 5_000);
    plant.carbon_peak_factor = generator.within(100, 300);
    plant.nitrogen_peak_factor = generator.within(100, 300);
    plant.oxygen_saturation = generator.within(6_000, 15_000);
    plant.site_surface = generator.within(1, 100_000);
    plant.site_depth = generator.within(3_000, 10_000);
    let dose = generator.within(0, 500_000);
    plant.dose = generator.pick(&[0, dose]);
    plant.consent = terms(generator, &plant);
    plant.way = generator.pick(&[Way::Bod, Way::Cod]);
    plant
}

fn date(generator: &mut Generator) -> (u32, u32) {
    let month = generator.within(1, 12);
    (
        month,
        generator.within(1, reference::terms::days_of_month(month)),
    )
}

/// A term whose temperature is mostly near the design's, and whose target is
/// mostly not below it.
fn one_term(generator: &mut Generator, plant: &Plant) -> Term {
    let design = plant.design_temperature;
    let near = generator.within(design - 2, (design + 2).min(20));
    let any = generator.within(4, 20);
    let temperature = generator.pick(&[near, near, any]);
    let higher = generator.within(plant.nitrate_target, 50_000);
    let any = generator.within(1_000, 50_000);
    let target = generator.pick(&[higher, higher, any]);
    dated(date(generator), date(generator), temperature, target)
}

/// No term in half of the plants; entries past the count are invalid.
fn terms(generator: &mut Generator, plant: &Plant) -> Consent {
    let most = generator.pick(&[0, 4]);
    let count = generator.within(0, most);
    let mut consent = Consent::none();
    consent.count = count;
    for entry in &mut consent.terms[..count as usize] {
        *entry = one_term(generator, plant);
    }
    consent
}

pub fn readings(generator: &mut Generator) -> [Reading; 5] {
    let bod = generator.within(20_000, 600_000) as f32 / 1000.0;
    let cod = (2.0 * bod).max(20.0);
    let solids = generator.within(0, 600_000) as f32 / 1000.0;
    let nitrogen = generator.within(0, 120_000) as f32 / 1000.0;
    let phosphorus = generator.within(0, 20_000) as f32 / 1000.0;
    let mut readings = measured([bod, cod, solids, nitrogen, phosphorus]);
    if generator.within(0, 3) == 0 {
        readings[4] = Reading::Below(2.0 * phosphorus);
    }
    if generator.within(0, 3) == 0 {
        readings[2] = Reading::Heads(generator.within(1, 20_000));
    }
    readings
}

fn place(generator: &mut Generator, plant: &Plant) -> Candidate {
    candidate(
        generator.within(200, 500),
        generator.within(30, most_return(plant.tank_flow)),
        generator.within(20, 25),
    )
}

fn candidate_of(sheet: &Sheet) -> Candidate {
    candidate(
        sheet.fraction as u32,
        sheet.return_ratio as u32,
        sheet.thickening as u32,
    )
}

#[test]
fn chosen_is_permitted_and_not_beaten() {
    let mut generator = Generator::new(0x5eed_0002);
    let mut designs = 0;
    for _ in 0..300 {
        let plant = plant(&mut generator);
        let readings = readings(&mut generator);
        let chosen = choose(&plant, &readings);
        if let Answer::Sheet(sheet) = chosen {
            designs += 1;
            assert_eq!(examine(&plant, &readings, candidate_of(&sheet)), chosen);
        }
        for _ in 0..300 {
            let place = place(&mut generator, &plant);
            match (examine(&plant, &readings, place), chosen) {
                (Answer::Sheet(other), Answer::Sheet(best)) => {
                    assert!(rank(&best) <= rank(&other));
                }
                (Answer::Sheet(_), Answer::Refused(_)) => panic!("one is permitted"),
                (Answer::Refused(number), Answer::Sheet(_)) => {
                    assert!((7..=10).contains(&number) || number == 15 || number == 16);
                }
                (Answer::Refused(_), Answer::Refused(number)) => {
                    assert!(number <= 5 || number == 14);
                }
            }
        }
    }
    assert!(designs >= 50, "{designs} designs");
}

/// The whole grid, examined from its far end.
#[test]
fn chosen_is_the_first_of_all_examined() {
    let mut generator = Generator::new(0x5eed_0003);
    for _ in 0..6 {
        let plant = plant(&mut generator);
        let readings = readings(&mut generator);
        let mut permitted = Vec::new();
        for time in (20..=25).rev() {
            for ratio in (30..=most_return(plant.tank_flow)).rev() {
                for fraction in (200..=500).rev() {
                    let place = candidate(fraction, ratio, time);
                    if let Answer::Sheet(sheet) = examine(&plant, &readings, place) {
                        permitted.push(sheet);
                    }
                }
            }
        }
        let expected = match permitted.into_iter().min_by_key(rank) {
            Some(sheet) => Answer::Sheet(sheet),
            None => Answer::Refused(accept(&plant, &readings).err().unwrap_or(5)),
        };
        assert_eq!(choose(&plant, &readings), expected);
    }
}

/// Entries past the count, whatever they hold, and a term at the design's
/// temperature and target change no answer.
#[test]
fn terms_that_change_nothing() {
    let mut generator = Generator::new(0x5eed_0006);
    for turn in 0..20_000 {
        let mut plain = plant(&mut generator);
        plain.consent = Consent::none();
        let readings = readings(&mut generator);
        let place = place(&mut generator, &plain);
        let mut rubbish = plain;
        for entry in &mut rubbish.consent.terms {
            let mut any = || generator.bits() >> generator.within(0, 31);
            *entry = dated((any(), any()), (any(), any()), any(), any());
        }
        let same = term(plain.design_temperature, plain.nitrate_target);
        let mut designs = plain;
        designs.consent = consent(&[same; 4]);
        designs.consent.count = generator.within(1, 4);
        for other in [rubbish, designs] {
            let expected = examine(&plain, &readings, place);
            assert_eq!(examine(&other, &readings, place), expected);
            if turn < 5 {
                assert_eq!(choose(&other, &readings), choose(&plain, &readings));
            }
        }
    }
}

/// A candidate is permitted with several terms exactly where it is with each
/// of them alone; a term changes a sheet or 8 to 10 into 15 or 16 only.
#[test]
fn every_term_must_hold() {
    let mut generator = Generator::new(0x5eed_0007);
    let mut seen = [0; 17];
    for _ in 0..40_000 {
        let together = plant(&mut generator);
        let readings = readings(&mut generator);
        let place = place(&mut generator, &together);
        let with = |terms: &[Term]| {
            let mut plant = together;
            plant.consent = consent(terms);
            examine(&plant, &readings, place)
        };
        let plain = with(&[]);
        let found = examine(&together, &readings, place);
        let alone: Vec<u8> = together
            .consent
            .named()
            .iter()
            .map(|term| with(&[*term]).number())
            .collect();
        let first = [15, 16].into_iter().find(|due| alone.contains(due));
        match first {
            Some(due) => {
                assert_eq!(found, Answer::Refused(due));
                assert!([0, 8, 9, 10].contains(&plain.number()));
            }
            None => assert_eq!(found, plain),
        }
        seen[usize::from(found.number())] += 1;
    }
    for number in [0, 7, 15, 16] {
        assert!(seen[number] > 500, "{seen:?}");
    }
}

/// Days numbered through a leap year; a term's days counted on from its first.
#[test]
fn target_in_force_by_counted_days() {
    let mut year = Vec::new();
    for (month, days) in (1..).zip([31, 29, 31, 30, 31, 30, 31, 31, 30, 31, 30, 31]) {
        year.extend((1..=days).map(|day| (month, day)));
    }
    assert_eq!(year.len(), 366);
    let number = |date: (u32, u32)| year.iter().position(|day| *day == date).unwrap();
    let mut generator = Generator::new(0x5eed_0008);
    for _ in 0..2_000 {
        let consent = terms(&mut generator, &plant_a());
        let mut lowest = [None; 366];
        for term in consent.named() {
            let last = number((term.last_month, term.last_day));
            let mut day = number((term.first_month, term.first_day));
            loop {
                let target = term.nitrate_target;
                lowest[day] = Some(lowest[day].map_or(target, |other: u32| other.min(target)));
                if day == last {
                    break;
                }
                day = (day + 1) % 366;
            }
        }
        for (place, (month, day)) in year.iter().enumerate() {
            assert_eq!(target_in_force(&consent, *month, *day), Ok(lowest[place]));
        }
    }
}

#[test]
fn off_grid_is_always_6() {
    let mut generator = Generator::new(0x5eed_0004);
    for _ in 0..100_000 {
        let place = candidate(
            generator.bits() >> generator.within(0, 31),
            generator.bits() >> generator.within(0, 31),
            generator.bits() >> generator.within(0, 31),
        );
        let answer = examine(&plant_a(), &readings_a(), place);
        let off = !on_grid(TankFlow::Horizontal, place);
        assert_eq!(answer.number() == 6, off);
    }
}

#[test]
fn roundings() {
    let mut generator = Generator::new(0x5eed_0005);
    for _ in 0..100_000 {
        let divisor = u64::from(generator.bits() >> generator.within(0, 31)).max(1);
        let numerator = generator.next() >> generator.within(1, 63);
        let down = rounding::down(numerator, divisor);
        let up = rounding::up(numerator, divisor);
        assert!(u128::from(down) * u128::from(divisor) <= u128::from(numerator));
        assert!(u128::from(down + 1) * u128::from(divisor) > u128::from(numerator));
        assert_eq!(up - down, u64::from(!numerator.is_multiple_of(divisor)));
    }
}
