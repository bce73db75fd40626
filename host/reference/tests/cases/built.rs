//! Built tanks, worked by hand on Case A at 300 and 20: M is 11,733 kg, c is
//! 12,599, and a wet weather flow of 600 m3/h takes at least 375 m2.

use crate::common::*;
use crate::properties::{plant, readings};
use reference::built::{is_won, wins};
use reference::examine::most_return;
use reference::*;

/// Tanks that are run at 300 and 20.
fn tanks(reactor: u32, surface: u32, depth: u32) -> Existing {
    Existing {
        reactor,
        surface,
        depth,
        fraction: 300,
        thickening: 20,
    }
}

fn span(least: u32, most: u32) -> Span {
    Span { least, most }
}

/// Tanks that are never too small.
fn ample() -> Existing {
    tanks(u32::MAX, u32::MAX, u32::MAX)
}

/// The answer on Case A's readings.
fn answer(plant: &Plant, existing: Existing, span: Span) -> Result<Option<u32>, u8> {
    built(plant, &readings_a(), &existing, &span)
}

fn of_case_a(existing: Existing, least: u32, most: u32) -> Result<Option<u32>, u8> {
    answer(&plant_a(), existing, span(least, most))
}

/// Every return ratio that wins an index.
fn winners(plant: &Plant, existing: &Existing, index: u32) -> Vec<u32> {
    let accepted = accept(plant, &readings_a()).unwrap();
    let ratios = 30..=most_return(plant.tank_flow);
    ratios
        .filter(|ratio| wins(plant, &accepted, existing, index, *ratio))
        .collect()
}

#[test]
fn ends_of_the_span() {
    for (least, most, due) in [
        (50, 180, Ok(None)),
        (50, 50, Ok(None)),
        (180, 180, Ok(None)),
        (49, 180, Err(20)),
        (50, 181, Err(20)),
        (49, 49, Err(20)),
        (181, 181, Err(20)),
        (101, 100, Err(20)),
        (180, 50, Err(20)),
        (0, 0, Err(20)),
        (0, 180, Err(20)),
        (50, u32::MAX, Err(20)),
        (u32::MAX, 50, Err(20)),
        (u32::MAX, u32::MAX, Err(20)),
        (50 + (1 << 8), 180 + (1 << 8), Err(20)),
        (100, 100 + (1 << 16), Err(20)),
    ] {
        assert_eq!(of_case_a(ample(), least, most), due, "{least}..{most}");
    }
}

#[test]
fn a_built_size_of_0() {
    for size in [0, 1, 1 << 16, u32::MAX] {
        let due = match size {
            0 => Err(21),
            1 => Ok(Some(100)),
            _ => Ok(None),
        };
        for existing in [
            tanks(size, u32::MAX, u32::MAX),
            tanks(u32::MAX, size, u32::MAX),
            tanks(u32::MAX, u32::MAX, size),
        ] {
            assert_eq!(of_case_a(existing, 100, 101), due, "{existing:?}");
        }
    }
}

/// B is 12,599, R 8,819, E down(55 x 8,819/155) = 3,129, V 313, q 1,597: a
/// reactor of up(11,733,000/3,129), 376 m2, and 4,230 mm. At 54 the reactor, at
/// 56 the depth is larger.
#[test]
fn sizes_just_met() {
    let exact = tanks(3_750, 376, 4_230);
    assert_eq!(winners(&plant_a(), &exact, 100), [55]);
    assert_eq!(of_case_a(exact, 100, 100), Ok(None));
    for less in [
        tanks(3_749, 376, 4_230),
        tanks(3_750, 375, 4_230),
        tanks(3_750, 376, 4_229),
    ] {
        assert_eq!(of_case_a(less, 100, 100), Ok(Some(100)), "{less:?}");
    }
}

/// At 99 the ratio 50 needs 3,952 m3 and 3,956 mm; at 101 the ratio 51 needs
/// 3,980 m3 and 4,012 mm. At 100 the ratio 50 needs 3,993 m3, 51 needs 4,013 mm.
#[test]
fn winning_is_not_monotone() {
    let existing = tanks(3_980, 375, 4_012);
    for (index, by) in [(99, vec![50]), (100, vec![]), (101, vec![51])] {
        assert_eq!(winners(&plant_a(), &existing, index), by);
    }
    assert_eq!(of_case_a(existing, 99, 101), Ok(Some(100)));
    assert_eq!(of_case_a(existing, 99, 99), Ok(None));
    assert_eq!(of_case_a(existing, 101, 101), Ok(None));
}

/// The operator knows the index before the ratio is picked.
#[test]
fn a_ratio_for_each_index() {
    let existing = tanks(4_120, 375, 3_846);
    for (index, by) in [(99, 47), (100, 48)] {
        assert_eq!(winners(&plant_a(), &existing, index), [by]);
    }
    assert_eq!(of_case_a(existing, 99, 100), Ok(None));
}

/// Of 97 to 100 the second and the last cannot be won.
#[test]
fn the_smallest_lost_index() {
    let existing = tanks(3_804, 375, 4_126);
    let won = [(97, true), (98, false), (99, true), (100, false)];
    for (index, won) in won {
        assert_eq!(!winners(&plant_a(), &existing, index).is_empty(), won);
    }
    for (least, most, lost) in [
        (97, 100, Some(98)),
        (97, 97, None),
        (98, 100, Some(98)),
        (99, 100, Some(100)),
        (99, 99, None),
    ] {
        assert_eq!(of_case_a(existing, least, most), Ok(lost));
    }
}

/// The plant's own index is checked, and decides nothing else.
#[test]
fn the_plants_own_index() {
    let existing = tanks(3_980, 375, 4_012);
    for (own, due) in [
        (49, Err(1)),
        (50, Ok(Some(100))),
        (99, Ok(Some(100))),
        (100, Ok(Some(100))),
        (180, Ok(Some(100))),
        (181, Err(17)),
        (200, Err(17)),
        (201, Err(1)),
    ] {
        let plant = Plant {
            sludge_volume_index: own,
            ..plant_a()
        };
        assert_eq!(answer(&plant, existing, span(99, 101)), due, "{own}");
        let held = due.and(Ok(None));
        assert_eq!(answer(&plant, existing, span(101, 101)), held, "{own}");
    }
}

/// A site that is smaller than what is built, as small, and larger.
#[test]
fn the_sites_limits_still_apply() {
    let on_site = |site_surface, site_depth| Plant {
        site_surface,
        site_depth,
        ..plant_a()
    };
    let exact = tanks(3_750, 376, 4_230);
    let larger = tanks(3_750, 377, 4_231);
    for existing in [exact, larger] {
        for (surface, depth, lost) in [
            (376, 4_230, None),
            (375, 4_230, Some(100)),
            (376, 4_229, Some(100)),
            (377, 4_231, None),
        ] {
            let found = answer(&on_site(surface, depth), existing, span(100, 100));
            assert_eq!(found, Ok(lost), "{surface} {depth} {existing:?}");
        }
    }
    let beyond = tanks(3_750, 1_001, 5_001);
    assert_eq!(answer(&plant_a(), beyond, span(100, 100)), Ok(None));
}

/// K is 129 at 299 and 130 at 300, which just covers; a dose of 1,000 mg/m3
/// makes up for the difference. In a winter of 11 degrees a is 9,059 of 11,733,
/// which leaves the fraction 227, and K 115 removes 23,000 mg/m3 of 36,000.
#[test]
fn cover_dose_and_terms_still_apply() {
    let dosed = |dose| Plant { dose, ..plant_a() };
    let winter = |temperature, target| Plant {
        consent: consent(&[term(temperature, target)]),
        ..plant_a()
    };
    for (plant, fraction, lost) in [
        (plant_a(), 300, None),
        (plant_a(), 299, Some(50)),
        (dosed(1_000), 299, None),
        (dosed(994), 299, Some(50)),
        (winter(11, 13_000), 300, None),
        (winter(11, 12_999), 300, Some(50)),
        (winter(4, 50_000), 300, Some(50)),
    ] {
        let existing = Existing {
            fraction,
            ..ample()
        };
        let found = answer(&plant, existing, span(50, 180));
        assert_eq!(found, Ok(lost), "{fraction}");
    }
}

/// At the ratio 100 E is 4,409, V 441 and q 1,473.
#[test]
fn ratios_above_75_in_vertical_flow() {
    let plant = Plant {
        tank_flow: TankFlow::Vertical,
        site_depth: 10_000,
        ..plant_a()
    };
    let existing = tanks(2_662, 408, 6_368);
    assert_eq!(winners(&plant, &existing, 100), [100]);
    assert_eq!(answer(&plant, existing, span(100, 100)), Ok(None));
    let horizontal = Plant {
        tank_flow: TankFlow::Horizontal,
        ..plant
    };
    assert_eq!(answer(&horizontal, existing, span(100, 100)), Ok(Some(100)));
}

/// In three steps E' is down(120 x 3,129/100) = 3,754.
#[test]
fn reactor_of_a_step_feed() {
    let plant = Plant {
        process: Process::StepFeed(Steps::Three),
        ..plant_a()
    };
    for (reactor, lost) in [(3_126, None), (3_125, Some(100))] {
        let existing = tanks(reactor, 376, 4_230);
        assert_eq!(answer(&plant, existing, span(100, 100)), Ok(lost));
    }
}

#[test]
fn fraction_and_time_off_the_grid() {
    for (fraction, on_grid) in [
        (0, false),
        (199, false),
        (200, true),
        (500, true),
        (501, false),
        (1_000, false),
        (300 + (1 << 16), false),
        (u32::MAX, false),
    ] {
        let existing = Existing {
            fraction,
            ..ample()
        };
        let found = of_case_a(existing, 100, 100).err();
        assert_eq!(found, (!on_grid).then_some(6), "{fraction}");
    }
    for (thickening, on_grid) in [
        (0, false),
        (19, false),
        (20, true),
        (25, true),
        (26, false),
        (20 + (1 << 8), false),
        (u32::MAX, false),
    ] {
        let existing = Existing {
            thickening,
            ..ample()
        };
        let found = of_case_a(existing, 100, 100).err();
        assert_eq!(found, (!on_grid).then_some(6), "{thickening}");
    }
}

/// What a call is given.
struct Asked {
    plant: Plant,
    readings: [Reading; 5],
    existing: Existing,
    span: Span,
}

impl Asked {
    fn answer(&self) -> Result<Option<u32>, u8> {
        built(&self.plant, &self.readings, &self.existing, &self.span)
    }
}

/// With a fault of every kind.
fn faulty() -> Asked {
    let mut plant = plant_a();
    plant.bod_load = 0;
    plant.sludge_volume_index = 181;
    plant.consent.count = 5;
    Asked {
        plant,
        readings: measured([f32::NAN, 5_000.0, 150.0, 46.0, 8.0]),
        existing: Existing {
            fraction: 199,
            thickening: 26,
            ..tanks(0, 376, 4_230)
        },
        span: span(101, 100),
    }
}

/// One fault after the other is mended.
#[test]
fn order_of_refusals() {
    let mends: [fn(&mut Asked); 10] = [
        |asked| asked.span.least = 100,
        |asked| asked.existing.reactor = 3_750,
        |asked| asked.plant.bod_load = 1_200,
        |asked| asked.plant.sludge_volume_index = 100,
        |asked| asked.readings[0] = Reading::Measured(200.0),
        |asked| asked.readings[1] = Reading::Measured(441.0),
        |asked| asked.readings[1] = Reading::Measured(400.0),
        |asked| asked.plant.consent.count = 0,
        |asked| asked.existing.fraction = 300,
        |asked| asked.existing.thickening = 20,
    ];
    let mut asked = faulty();
    let mut found = Vec::new();
    for mend in mends {
        found.push(asked.answer());
        mend(&mut asked);
    }
    assert_eq!(found, [20, 21, 1, 17, 2, 3, 4, 14, 6, 6].map(Err));
    assert_eq!(asked.answer(), Ok(None));
}

/// Refusal 4 is never due in the COD way.
#[test]
fn above_the_cod_ratio() {
    let industrial = measured([200.0, 900.0, 150.0, 46.0, 8.0]);
    for (way, due) in [(Way::Bod, Err(4)), (Way::Cod, Ok(None))] {
        let plant = Plant { way, ..plant_a() };
        let found = built(&plant, &industrial, &ample(), &span(50, 180));
        assert_eq!(found, due);
    }
}

/// Tanks about those of a candidate of a plant at an index.
fn any_tanks(
    generator: &mut Generator,
    plant: &Plant,
    readings: &[Reading; 5],
    index: u32,
) -> Existing {
    let (fraction, thickening) = (generator.within(200, 500), generator.within(20, 25));
    let ratio = generator.within(30, most_return(plant.tank_flow));
    let there = Plant {
        sludge_volume_index: index,
        ..*plant
    };
    let answer = examine(&there, readings, candidate(fraction, ratio, thickening));
    let sheet = answer.sheet();
    let mut about = |size: u64| size as u32 + generator.pick(&[0, 1, 50]);
    Existing {
        reactor: about(sheet.reactor_volume).max(1),
        surface: about(sheet.settling_surface).max(1),
        depth: about(sheet.settling_depth).max(1),
        fraction,
        thickening,
    }
}

/// Whether an index is won, by examining every ratio from the readings on.
fn won_by_examining(
    plant: &Plant,
    readings: &[Reading; 5],
    existing: &Existing,
    index: u32,
) -> bool {
    let there = Plant {
        sludge_volume_index: index,
        ..*plant
    };
    let mut ratios = 30..=most_return(plant.tank_flow);
    ratios.any(|ratio| {
        let candidate = candidate(existing.fraction, ratio, existing.thickening);
        match examine(&there, readings, candidate) {
            Answer::Refused(_) => false,
            Answer::Sheet(sheet) => {
                sheet.reactor_volume <= u64::from(existing.reactor)
                    && sheet.settling_surface <= u64::from(existing.surface)
                    && sheet.settling_depth <= u64::from(existing.depth)
            }
        }
    })
}

/// A span's answer is the smallest of its single indices'; larger tanks lose
/// nothing.
#[test]
fn spans_and_their_indices() {
    let mut generator = Generator::new(0x5eed_0010);
    let (mut held, mut lost) = (0, 0);
    for _ in 0..1_500 {
        let (plant, readings) = (plant(&mut generator), readings(&mut generator));
        let Ok(accepted) = accept(&plant, &readings) else {
            continue;
        };
        let index = generator.within(50, 180);
        let existing = any_tanks(&mut generator, &plant, &readings, index);
        let least = generator.within((index - 6).max(50), index);
        let most = generator.within(index, (index + 6).min(180));
        let found = built(&plant, &readings, &existing, &span(least, most));
        let mut indices = least..=most;
        let first = indices.find(|index| !won_by_examining(&plant, &readings, &existing, *index));
        assert_eq!(found, Ok(first));
        let larger = Existing {
            reactor: existing.reactor + 1,
            surface: existing.surface + 1,
            depth: existing.depth + 1,
            ..existing
        };
        for index in least..=most {
            let won = is_won(&plant, &accepted, &existing, index);
            assert!(!won || is_won(&plant, &accepted, &larger, index));
        }
        held += u32::from(first.is_none());
        lost += u32::from(first.is_some_and(|index| index > least));
    }
    assert!(held >= 50 && lost >= 50, "{held} held, {lost} lost later");
}
