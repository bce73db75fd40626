//! A sweep that can be put down. On Case A f is covered from 300 on, so the
//! first 100 fractions, 27,600 candidates, are not permitted and all others are.
//! The least totals are 5,164 at (300, 71, 22) and 5,165 at (300, 71, 23),
//! (300, 72, 22) and (300, 75, 20).

use crate::common::*;
use crate::properties::{plant, readings};
use reference::choose::rank;
use reference::sweep::{grid_number, start, stretch};
use reference::*;

const GRID: u32 = 83_076;

/// Case A after so many candidates.
fn at(asked: u32, best: Option<Candidate>) -> Sweep {
    Sweep {
        plant: plant_a(),
        readings: readings_a(),
        asked,
        best,
    }
}

/// Number asked for, best and what is said of a sweep that goes on.
fn advanced(sweep: &Sweep, candidates: u32) -> (u32, Option<Candidate>, Progress) {
    let (next, progress) = sweep.advance(candidates).unwrap();
    (next.asked, next.best, progress)
}

fn unfinished(asked: u32, best: Option<Candidate>) -> (u32, Option<Candidate>, Progress) {
    (asked, best, Progress::Unfinished(best))
}

fn finished(best: Option<Candidate>, answer: Answer) -> (u32, Option<Candidate>, Progress) {
    (GRID, best, Progress::Finished(answer))
}

fn chosen_a() -> Answer {
    choose(&plant_a(), &readings_a())
}

#[test]
fn order_of_the_grid() {
    for (flow, number, last) in [
        (TankFlow::Horizontal, 83_076, candidate(500, 75, 25)),
        (TankFlow::Vertical, 128_226, candidate(500, 100, 25)),
    ] {
        let all = stretch(flow, 0, u32::MAX);
        assert_eq!(grid_number(flow), number);
        assert_eq!(all.len(), number as usize);
        assert_eq!(all[..2], [candidate(200, 30, 20), candidate(200, 30, 21)]);
        assert_eq!(all[5..7], [candidate(200, 30, 25), candidate(200, 31, 20)]);
        assert_eq!(all.last(), Some(&last));
        let key = |c: &Candidate| (c.fraction, c.return_ratio, c.thickening);
        assert!(all.windows(2).all(|two| key(&two[0]) < key(&two[1])));
        for (first, end) in [(0, 0), (0, 1), (5, 7), (275, 427), (number - 2, number)] {
            let expected = &all[first as usize..end as usize];
            assert_eq!(stretch(flow, first, end), expected);
        }
        assert_eq!(stretch(flow, number - 1, number + 9), [last]);
        assert_eq!(stretch(flow, number, number + 9), []);
    }
    let at = |flow, place| stretch(flow, place, place + 1)[0];
    assert_eq!(at(TankFlow::Horizontal, 276), candidate(201, 30, 20));
    assert_eq!(at(TankFlow::Vertical, 425), candidate(200, 100, 25));
    assert_eq!(at(TankFlow::Vertical, 426), candidate(201, 30, 20));
}

#[test]
fn start_on_accepted_data_alone() {
    let sweep = start(&plant_a(), &readings_a()).unwrap();
    assert_eq!((sweep.asked, sweep.best), (0, None));
    assert_eq!((sweep.plant, sweep.readings), (plant_a(), readings_a()));
    for (plant, readings, number) in refused_data() {
        assert_eq!(start(&plant, &readings).err(), Some(number));
    }
}

/// Data with each refusal.
fn refused_data() -> Vec<(Plant, [Reading; 5], u8)> {
    let with = |change: fn(&mut Plant)| {
        let mut plant = plant_a();
        change(&mut plant);
        plant
    };
    let reading = |place: usize, reading: Reading| {
        let mut readings = readings_a();
        readings[place] = reading;
        readings
    };
    vec![
        (with(|plant| plant.bod_load = 0), readings_a(), 1),
        (
            with(|plant| plant.sludge_volume_index = 181),
            readings_a(),
            17,
        ),
        (plant_a(), reading(4, Reading::Measured(f32::NAN)), 2),
        (plant_a(), reading(0, Reading::Heads(0)), 3),
        (plant_a(), reading(1, Reading::Measured(440.1)), 4),
        (with(|plant| plant.consent.count = 5), readings_a(), 14),
    ]
}

/// None is permitted before (300, 30, 20), at the place 27,600.
#[test]
fn none_yet_up_to_the_first_permitted() {
    let first = Some(candidate(300, 30, 20));
    for (asked, candidates, best) in [
        (0, 0, None),
        (0, 1_000, None),
        (27_000, 600, None),
        (27_000, 601, first),
        (27_600, 0, None),
        (27_600, 1, first),
    ] {
        let expected = unfinished(asked + candidates, best);
        assert_eq!(advanced(&at(asked, None), candidates), expected);
    }
}

/// From a start until long after the end, by steps of several lengths.
#[test]
fn unfinished_while_fewer_than_the_grid_holds() {
    for step in [1_000, 997, 276] {
        let mut sweep = start(&plant_a(), &readings_a()).unwrap();
        for call in 1..=GRID.div_ceil(step) + 3 {
            let (next, progress) = sweep.advance(step).unwrap();
            let asked = call * step;
            assert_eq!(next.asked, asked.min(GRID));
            match asked < GRID {
                true => assert_eq!(progress, Progress::Unfinished(next.best)),
                false => assert_eq!(progress, Progress::Finished(chosen_a())),
            }
            assert_eq!(next.best.is_some(), asked > 27_600);
            sweep = next;
        }
        assert_eq!(sweep.best, Some(candidate(300, 71, 22)));
    }
}

#[test]
fn about_the_end() {
    let best = Some(candidate(300, 71, 22));
    for (asked, candidates) in [(GRID - 1, 0), (GRID - 2, 1), (GRID - 1_000, 999)] {
        let expected = unfinished(GRID - 1, best);
        assert_eq!(advanced(&at(asked, best), candidates), expected);
    }
    for (asked, candidates) in [
        (GRID - 1, 1),
        (GRID - 1, 2),
        (GRID - 1_000, 1_000),
        (GRID - 999, 1_000),
        (GRID, 0),
        (GRID, 1),
        (GRID, 1_000),
    ] {
        let expected = finished(best, chosen_a());
        assert_eq!(advanced(&at(asked, best), candidates), expected);
    }
}

/// At the grid's number with none yet: no start reaches it on Case A.
#[test]
fn at_the_end_without_a_best() {
    for candidates in [0, 1, 1_000] {
        let expected = finished(None, Answer::Refused(5));
        assert_eq!(advanced(&at(GRID, None), candidates), expected);
    }
    let last = candidate(500, 75, 25);
    let (_, best, progress) = advanced(&at(GRID - 1, None), 1);
    assert_eq!(best, Some(last));
    let examined = examine(&plant_a(), &readings_a(), last);
    assert_eq!(progress, Progress::Finished(examined));
}

/// The best handed on has the total of a candidate that is asked for, and comes
/// before it or after it; or a larger total, and comes before it.
#[test]
fn compared_by_total_then_place() {
    let early = Some(candidate(300, 71, 23));
    let late = Some(candidate(300, 75, 20));
    let first = Some(candidate(300, 30, 20));
    let places = [(27_849, early), (27_854, Some(candidate(300, 72, 22)))];
    for (place, found) in places {
        let own = unfinished(place + 1, found);
        for best in [None, late, first, found] {
            assert_eq!(advanced(&at(place, best), 1), own);
        }
        let kept = unfinished(place + 1, early);
        assert_eq!(advanced(&at(place, early), 1), kept);
    }
    for best in [early, late] {
        let kept = unfinished(27_871, best);
        assert_eq!(advanced(&at(27_870, best), 1), kept);
    }
    let least = Some(candidate(300, 71, 22));
    for best in [early, late, first, least, None] {
        let found = unfinished(27_849, least);
        assert_eq!(advanced(&at(27_848, best), 1), found);
    }
}

#[test]
fn refused_above_a_thousand() {
    let sweep = start(&plant_a(), &readings_a()).unwrap();
    assert_eq!(advanced(&sweep, 1_000), unfinished(1_000, None));
    for candidates in [1_001, 1_002, 65_536, 83_076, 1 << 31, u32::MAX] {
        assert_eq!(sweep.advance(candidates).err(), Some(19));
        assert_eq!(at(GRID, None).advance(candidates).err(), Some(19));
    }
}

#[test]
fn refused_from_a_number_above_the_grids() {
    let vertical = |asked: u32| {
        let mut sweep = at(asked, None);
        sweep.plant.tank_flow = TankFlow::Vertical;
        sweep
    };
    for asked in [GRID + 1, GRID + 999, u32::MAX - 1_000, u32::MAX] {
        for candidates in [0, 1, 1_000] {
            let best = Some(candidate(300, 71, 22));
            assert_eq!(at(asked, None).advance(candidates).err(), Some(19));
            assert_eq!(at(asked, best).advance(candidates).err(), Some(19));
        }
    }
    assert!(vertical(GRID + 1).advance(0).is_ok());
    assert!(vertical(128_226).advance(0).is_ok());
    assert_eq!(vertical(128_227).advance(0).err(), Some(19));
}

#[test]
fn refused_on_data_not_accepted() {
    for (plant, readings, _) in refused_data() {
        for best in [None, Some(candidate(300, 71, 22))] {
            for asked in [0, GRID, GRID + 1] {
                let sweep = Sweep {
                    plant,
                    readings,
                    asked,
                    best,
                };
                assert_eq!(sweep.advance(0).err(), Some(19));
                assert_eq!(sweep.advance(1_000).err(), Some(19));
            }
        }
    }
}

/// Case A, and Case A with a term in which f below 325 does not nitrify or f
/// below 302 is not covered, with hoppers, or on a small site.
#[test]
fn refused_with_a_best_that_is_not_permitted() {
    let with = |change: fn(&mut Plant)| {
        let mut plant = plant_a();
        change(&mut plant);
        plant
    };
    let cold = with(|plant| plant.consent = consent(&[term(8, 36_000)]));
    let strict = with(|plant| plant.consent = consent(&[term(11, 12_999)]));
    let hopper = with(|plant| {
        plant.tank_flow = TankFlow::Vertical;
        plant.removal = Removal::Hopper;
    });
    let narrow = with(|plant| plant.site_surface = 453);
    let shallow = with(|plant| plant.site_depth = 4_535);
    for (plant, (f, r, h), number) in [
        (plant_a(), (199, 75, 20), 6),
        (plant_a(), (300, 76, 20), 6),
        (plant_a(), (300, 75, 26), 6),
        (plant_a(), (0, 0, 0), 6),
        (plant_a(), (299, 75, 20), 7),
        (cold, (324, 75, 20), 15),
        (strict, (301, 75, 20), 16),
        (hopper, (300, 92, 20), 8),
        (narrow, (300, 75, 20), 9),
        (shallow, (300, 75, 20), 10),
    ] {
        let best = candidate(f, r, h);
        let mut sweep = at(0, Some(best));
        sweep.plant = plant;
        assert_eq!(sweep.examine(best), Answer::Refused(number));
        for asked in [0, 27_600, GRID - 1, GRID] {
            sweep.asked = asked;
            assert_eq!(sweep.advance(0).err(), Some(19), "{number}");
            assert_eq!(sweep.advance(1_000).err(), Some(19), "{number}");
        }
        sweep.best = None;
        assert!(sweep.advance(0).is_ok());
    }
}

/// Whatever else the sweep holds, on accepted data or not.
#[test]
fn examining_answers_as_ever() {
    for asked in [0, 27_849, GRID, u32::MAX] {
        for best in [None, Some(candidate(300, 71, 22)), Some(candidate(0, 0, 1))] {
            let mut sweep = at(asked, best);
            for (f, r, h) in [(300, 75, 20), (299, 75, 20), (300, 76, 20), (0, 0, 0)] {
                let place = candidate(f, r, h);
                let usual = examine(&plant_a(), &readings_a(), place);
                assert_eq!(sweep.examine(place), usual);
            }
            for (plant, readings, number) in refused_data() {
                (sweep.plant, sweep.readings) = (plant, readings);
                let examined = sweep.examine(candidate(300, 75, 20));
                assert_eq!(examined, Answer::Refused(number));
            }
        }
    }
}

/// The first by the order of choosing of some candidates, each examined by
/// itself.
fn first_of(sweep: &Sweep, candidates: &[Candidate]) -> Option<Sheet> {
    let examined = candidates.iter().map(|place| sweep.examine(*place));
    let sheets = examined.filter(|answer| answer.number() == 0);
    sheets.map(|answer| answer.sheet()).min_by_key(rank)
}

/// A number of candidates for an advance, and whether it is refused.
fn asked_for(generator: &mut Generator) -> (u32, bool) {
    let any = generator.within(0, 1_000);
    let above = generator.within(1_001, 3_000);
    let candidates = generator.pick(&[any, any, any, 0, 1, 6, 1_000, above, u32::MAX]);
    (candidates, candidates > 1_000)
}

/// Lists of calls after a start: what is said follows from how many candidates
/// the advances that are not refused have asked for together.
#[test]
fn lists_of_calls() {
    let mut generator = Generator::new(0x5eed_000c);
    let mut none_yet = 0;
    for _ in 0..40 {
        let (mut plant, readings) = (plant(&mut generator), readings(&mut generator));
        plant.nitrate_target = generator.pick(&[plant.nitrate_target, 50_000]);
        let Ok(mut sweep) = start(&plant, &readings) else {
            continue;
        };
        let all = stretch(plant.tank_flow, 0, u32::MAX);
        let mut total = 0;
        for _ in 0..12 {
            let (candidates, refused) = asked_for(&mut generator);
            if refused {
                assert_eq!(sweep.advance(candidates).err(), Some(19));
                continue;
            }
            total += candidates;
            let best = first_of(&sweep, &all[..total as usize]);
            let (next, progress) = sweep.advance(candidates).unwrap();
            assert_eq!(next.asked, total);
            assert_eq!(progress, Progress::Unfinished(next.best));
            let sheet = next.best.map(|best| next.examine(best).sheet());
            assert_eq!(sheet, best);
            none_yet += usize::from(sheet.is_none());
            sweep = next;
        }
    }
    assert!((50..300).contains(&none_yet), "{none_yet}");
}

/// A sweep with any number and any best of the grid, or none.
fn unreached(generator: &mut Generator) -> Sweep {
    let (plant, readings) = (plant(generator), readings(generator));
    let all = stretch(plant.tank_flow, 0, u32::MAX);
    let grid = all.len() as u32;
    let near = grid - generator.within(0, 1_000);
    let any = generator.within(0, grid);
    let handed_on = all[generator.within(0, grid - 1) as usize];
    Sweep {
        plant,
        readings,
        asked: generator.pick(&[any, any, near]),
        best: generator.pick(&[None, Some(handed_on), Some(handed_on)]),
    }
}

/// From any number and any permitted best, reached or not: the first of the best
/// and of the candidates that are asked for.
#[test]
fn sweeps_that_no_start_reaches() {
    let mut generator = Generator::new(0x5eed_000d);
    let (mut refused, mut found, mut ended) = (0, 0, 0);
    for _ in 0..400 {
        let sweep = unreached(&mut generator);
        let all = stretch(sweep.plant.tank_flow, 0, u32::MAX);
        let candidates = generator.within(0, 1_000);
        let permitted = sweep
            .best
            .is_none_or(|best| sweep.examine(best).number() == 0);
        let Ok((next, progress)) = sweep.advance(candidates) else {
            assert!(!permitted || accept(&sweep.plant, &sweep.readings).is_err());
            refused += 1;
            continue;
        };
        let grid = all.len() as u32;
        let end = (sweep.asked + candidates).min(grid);
        let mut rivals = all[sweep.asked as usize..end as usize].to_vec();
        rivals.extend(sweep.best);
        let best = first_of(&sweep, &rivals);
        let expected = match (end < grid, best) {
            (true, _) => Progress::Unfinished(next.best),
            (false, Some(sheet)) => Progress::Finished(Answer::Sheet(sheet)),
            (false, None) => Progress::Finished(Answer::Refused(5)),
        };
        assert_eq!((next.asked, progress), (end, expected));
        assert_eq!(next.best.map(|best| next.examine(best).sheet()), best);
        found += usize::from(best.is_some());
        ended += usize::from(end == grid);
    }
    assert!(refused >= 50 && found >= 50 && ended >= 30);
}

/// A whole sweep by steps of any length is the choice.
#[test]
fn whole_sweeps_are_choices() {
    let mut generator = Generator::new(0x5eed_000e);
    let mut seen = [0; 20];
    for _ in 0..40 {
        let (plant, readings) = (plant(&mut generator), readings(&mut generator));
        let chosen = choose(&plant, &readings);
        seen[usize::from(chosen.number())] += 1;
        let mut sweep = match start(&plant, &readings) {
            Ok(sweep) => sweep,
            Err(number) => {
                assert_eq!(chosen, Answer::Refused(number));
                continue;
            }
        };
        let answer = loop {
            let (next, progress) = sweep.advance(generator.within(300, 1_000)).unwrap();
            sweep = next;
            if let Progress::Finished(answer) = progress {
                break answer;
            }
        };
        assert_eq!(answer, chosen);
    }
    assert!(seen[0] >= 5 && seen[5] >= 5, "{seen:?}");
}
