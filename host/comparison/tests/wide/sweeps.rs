//! Sweeps that can be put down.

use cases::plants::{case_a, roomy};
use cases::random::Random;
use cases::request::{self, Request, NONE_YET, STATE_LENGTH, TANK_FLOW};
use cases::tanks::OnLines;
use comparison::compare::Operation;
use comparison::counts::{in_parts, settle, Found};
use comparison::requests;
use comparison::sweep_calls::*;
use comparison::sweeps::{self, Beside, Grids, Tie};
use library::number::*;
use library::{ADVANCE_MOST, PAGE_LENGTH};

const STARTS: usize = 8_000;
const LISTS: usize = 3_200;
/// From a start to the end.
const WHOLE_LISTS: usize = 160;
const STATES: usize = 24_000;
const OWN_BESTS: usize = 24_000;
/// Plants that are searched for equal totals.
const TIED: usize = 1_440;
/// By the library alone.
const WHOLE_SWEEPS: usize = 320;

/// So many times, each part with random numbers of its own.
fn repeated(seed: u64, count: usize, once: impl Fn(&mut Random, &mut Found) + Sync) -> Found {
    in_parts(seed, count, |seed, share| {
        let mut random = Random::new(seed);
        let mut found = Found::default();
        for _ in 0..share {
            once(&mut random, &mut found);
        }
        found
    })
}

/// What data are refused with.
const OF_DATA: [u32; 6] = [
    PLANT_DATA,
    BULKING,
    NO_NUMBER,
    READING_RANGE,
    COD_RATIO,
    TERMS,
];
const MALFORMED: [u32; 3] = [BAD_LENGTH, BAD_VERSION, BAD_KIND];

fn at_least(least: usize, numbers: &[u32]) -> Vec<(u32, usize)> {
    numbers.iter().map(|number| (*number, least)).collect()
}

#[test]
fn starts() {
    let tanks = OnLines::find();
    let found = repeated(20_000, STARTS, |random, found| {
        let bytes = requests::any(random, &tanks, Operation::Choose);
        let length = sweeps::state_length(random);
        found.add(compare_start(&bytes, length).map(|(number, _)| number));
    });
    let mut wanted = at_least(50, &[&OF_DATA[..], &MALFORMED].concat());
    wanted.extend([(SHEET, 4_000), (SHORT_PAGE, 400)]);
    settle("sweep, start", &found, &wanted);
}

#[test]
fn lists_of_calls() {
    let tanks = OnLines::find();
    let found = repeated(21_000, LISTS, |random, found| {
        sweeps::list(random, &tanks, found);
    });
    let mut wanted = at_least(50, &[NO_DESIGN, OFF_GRID, NITRATE]);
    wanted.extend([(SHEET, 1_000), (SHORT_PAGE, 200)]);
    wanted.extend([(ADVANCE, 800), (UNFINISHED, 8_000)]);
    settle("sweep, lists of calls", &found, &wanted);
}

/// Random plants that are swept and have a design have either flow, either way,
/// terms and a dose.
#[test]
fn kinds_of_swept_plants() {
    use cases::request::{BY_COD, DOSE, TERM_COUNT, WAY};
    let tanks = OnLines::find();
    let mut random = Random::new(27_000);
    let (mut vertical, mut by_cod, mut terms, mut dosed) = (0, 0, 0, 0);
    let mut designs = 0;
    for _ in 0..2_000 {
        let plant = sweeps::plant(&mut random, &tanks);
        if library::choose(&plant.choose_bytes(), &mut [0; PAGE_LENGTH]).0 == SHEET {
            designs += 1;
            vertical += u32::from(plant.get(TANK_FLOW) == 1);
            by_cod += u32::from(plant.get(WAY) == BY_COD);
            terms += u32::from(plant.get(TERM_COUNT) > 0);
            dosed += u32::from(plant.get(DOSE) > 0);
        }
    }
    assert!(designs >= 1_000, "{designs} designs");
    for (kind, count) in [("by COD", by_cod), ("terms", terms), ("dosed", dosed)] {
        assert!(count >= 300, "{count} {kind} of {designs}");
    }
    assert!(
        (400..=designs - 400).contains(&vertical),
        "{vertical} vertical"
    );
}

/// To the end and on after it, where each answer is the choice.
#[test]
fn whole_lists_of_calls() {
    let tanks = OnLines::find();
    let found = repeated(22_000, WHOLE_LISTS, |random, found| {
        sweeps::whole_list(random, &tanks, found);
    });
    let wanted = [
        (SHEET, 300),
        (NO_DESIGN, 50),
        (SHORT_PAGE, 50),
        (ADVANCE, 500),
        (UNFINISHED, 10_000),
    ];
    settle("sweep, whole lists of calls", &found, &wanted);
}

/// Any number with any best or none, whatever a start reaches.
#[test]
fn states_that_no_start_reaches() {
    let (tanks, grids) = (OnLines::find(), Grids::find());
    let found = repeated(23_000, STATES, |random, found| {
        let (state, call) = sweeps::any_state(random, &tanks, &grids);
        let length = requests::page_length(random);
        found.add(compare_call(&state, call, length).map(|(number, _)| number));
    });
    let mut wanted = at_least(30, &[&OF_DATA[..], &MALFORMED].concat());
    wanted.extend([(SHEET, 800), (NO_DESIGN, 100), (SHORT_PAGE, 200)]);
    wanted.extend([(ADVANCE, 2_000), (UNFINISHED, 2_000)]);
    settle("sweep, any states", &found, &wanted);
}

/// A best on each line or just past it, counted by what examining it gives: an
/// advance is refused exactly where that is not 0.
#[test]
fn bests_on_the_lines() {
    let tanks = OnLines::find();
    let found = repeated(24_000, OWN_BESTS, |random, found| {
        let (state, examined) = sweeps::with_own_best(random, &tanks);
        let call = Call::Advance(random.within(0, 20));
        found.add(match compare_call(&state, call, PAGE_LENGTH) {
            Ok((ADVANCE, _)) if examined != SHEET => Ok(examined),
            Ok((SHEET | UNFINISHED, _)) if examined == SHEET => Ok(examined),
            Ok((number, _)) if MALFORMED.contains(&number) => Ok(number),
            Ok((number, _)) => Err(format!("{number} with a best that gets {examined}")),
            Err(difference) => Err(difference),
        });
    });
    let of_candidate = [OFF_GRID, NITRATE, NITRIFICATION, TERM_NITRATE];
    let of_tank = [SOLIDS, SURFACE, DEPTH];
    let mut wanted = at_least(50, &[&of_candidate[..], &of_tank, &OF_DATA].concat());
    wanted.push((SHEET, 3_000));
    settle("sweep, bests by their examination", &found, &wanted);
}

/// The state of a tie goes on to the first by total, then place.
fn compare_tie((state, candidates, beside): &Tie) -> Result<u32, String> {
    let call = Call::Advance(*candidates);
    let (_, after) = compare_call(state, call, PAGE_LENGTH)?;
    let Beside { total, after: late } = *beside;
    let kept = state[STATE_LENGTH - 12..] == after[STATE_LENGTH - 12..];
    match kept == (total < 0 || total == 0 && !late) {
        true => Ok(2 * (total + 1) as u32 + u32::from(late)),
        false => Err(format!("best kept: {kept}, but it is {beside:?}")),
    }
}

/// Bests with about the total of the first candidate that is asked for next,
/// counted by how they lie to it: total one less, the same, one more; for each,
/// before it in the order, and after it.
#[test]
fn equal_totals() {
    let grids = Grids::find();
    let found = repeated(25_000, TIED, |random, found| {
        for tie in sweeps::ties(random, &grids) {
            found.add(compare_tie(&tie));
        }
    });
    let kinds = [0, 1, 2, 3, 4, 5];
    settle("sweep, totals about equal", &found, &at_least(50, &kinds));
}

/// Each of these calls, in parts.
fn each(all: &[(Vec<u8>, Call)]) -> Found {
    in_parts(0, all.len(), |part, share| {
        let mut found = Found::default();
        for (state, call) in all.iter().skip(part as usize * share).take(share) {
            let result = compare_call(state, *call, PAGE_LENGTH);
            found.add(result.map(|(number, _)| number));
        }
        found
    })
}

/// From and to the edges of the grid, of a fraction and of a return ratio.
#[test]
fn edges() {
    let wanted = [(SHEET, 300), (NO_DESIGN, 20), (UNFINISHED, 3_000)];
    settle("sweep, edges", &each(&sweeps::edges()), &wanted);
}

/// Every reason for 19, alone and beside the others.
#[test]
fn orders() {
    let mut wanted = at_least(16, &OF_DATA);
    wanted.extend([(SHEET, 20), (NO_DESIGN, 4), (UNFINISHED, 8), (ADVANCE, 450)]);
    settle("sweep, orders", &each(&sweeps::orders()), &wanted);
}

/// Every place of the grid: an advance by one from it, none yet, finds the
/// candidate of that place. By the library alone.
#[test]
fn every_place() {
    let grids = Grids::find();
    for flow in 0..=1 {
        let plant = roomy().with(TANK_FLOW, flow);
        let all = grids.of(&plant);
        let found = in_parts(0, all.len(), |part, share| {
            let mut found = Found::default();
            let numbered = all.iter().enumerate();
            for (place, candidate) in numbered.skip(part as usize * share).take(share) {
                found.add(compare_place(&plant, place as u32, *candidate));
            }
            found
        });
        let wanted = [(SHEET, 1), (UNFINISHED, all.len() - 1)];
        settle("sweep, every place", &found, &wanted);
    }
}

/// Whole sweeps by several steps are the choice, by the library alone.
#[test]
fn whole_sweeps_beside_choices() {
    let tanks = OnLines::find();
    let found = repeated(26_000, WHOLE_SWEEPS, |random, found| {
        let plant = match random.one_in(3) {
            true => requests::any_plant(random, &tanks),
            false => requests::with_design(random),
        };
        for step in [ADVANCE_MOST, 997, 276] {
            found.add(compare_whole(&plant, |_| step));
        }
        found.add(compare_whole(&plant, |asked| single(&plant, asked)));
    });
    let mut wanted = at_least(4, &OF_DATA);
    wanted.extend([(SHEET, 600), (NO_DESIGN, 100)]);
    settle("whole sweeps beside choices", &found, &wanted);
}

/// By one at the start and towards the end, else by the most.
fn single(plant: &Request, asked: u32) -> u32 {
    match asked < 300 || asked + ADVANCE_MOST >= grid_number(plant) {
        true => 1,
        false => ADVANCE_MOST,
    }
}

/// Every length of a state, of this version and of its neighbours, and of a
/// request to start; then every word damaged.
#[test]
fn damaged_states() {
    let mut found = Found::default();
    for bytes in sweeps::lengths() {
        found.add(compare_start(&bytes, STATE_LENGTH).map(|(number, _)| number));
        for call in [Call::Advance(10), Call::Examine([200, 30, 20])] {
            found.add(compare_call(&bytes, call, PAGE_LENGTH).map(|(number, _)| number));
        }
    }
    let mut wanted = at_least(2, &[SHEET, UNFINISHED, BAD_KIND]);
    wanted.extend([(BAD_LENGTH, 2_000), (BAD_VERSION, 5_000)]);
    settle("sweep, lengths", &found, &wanted);
    let calls = [Call::Advance(ADVANCE_MOST), Call::Examine([330, 60, 22])];
    let damaged = sweeps::damaged_words().into_iter();
    let all: Vec<(Vec<u8>, Call)> = damaged
        .flat_map(|state| calls.map(|call| (state.clone(), call)))
        .collect();
    let mut wanted = at_least(8, &OF_DATA);
    wanted.extend([(SHEET, 2_000), (ADVANCE, 1_000), (UNFINISHED, 1_500)]);
    wanted.extend([(BAD_VERSION, 100), (BAD_KIND, 1_000)]);
    settle("sweep, damaged words", &each(&all), &wanted);
}

/// Every page length up to a few bytes more than the listing, for an advance that
/// ends with a sheet, with 5, unfinished or refused, and for examinations; and
/// every length of the state that a start is lent.
#[test]
fn page_lengths() {
    let (plant, grid) = (case_a(), 83_076);
    let least = [300, 71, 22];
    let refused = plant.with(request::LOAD, 0);
    let mut found = Found::default();
    for (state, call) in [
        (plant.state_bytes(grid - 1, least), Call::Advance(1)),
        (plant.state_bytes(grid, NONE_YET), Call::Advance(0)),
        (plant.state_bytes(grid - 2, least), Call::Advance(1)),
        (plant.state_bytes(grid, least), Call::Advance(1_001)),
        (refused.state_bytes(grid, NONE_YET), Call::Advance(0)),
        (plant.state_bytes(grid + 1, NONE_YET), Call::Examine(least)),
        (refused.state_bytes(0, NONE_YET), Call::Examine(least)),
    ] {
        let (outcome, _) = expected(&state, call, PAGE_LENGTH);
        for length in 0..=outcome.written.len() + 3 {
            found.add(compare_call(&state, call, length).map(|(number, _)| number));
        }
    }
    for length in 0..=300 {
        for plant in [plant, refused] {
            let start = compare_start(&plant.choose_bytes(), length);
            found.add(start.map(|(number, _)| number));
        }
    }
    let mut wanted = at_least(4, &[NO_DESIGN, UNFINISHED]);
    wanted.extend([(SHEET, 65), (PLANT_DATA, 300), (ADVANCE, 8)]);
    wanted.push((SHORT_PAGE, 600));
    settle("sweep, page lengths", &found, &wanted);
}

/// A wrong expectation is reported with the state, the call and both answers.
#[test]
fn differences_are_reported() {
    let state = case_a().state_bytes(27_848, NONE_YET);
    let call = Call::Advance(1);
    let right = expected(&state, call, 512);
    assert_eq!(
        agree(&state, call, 512, &right),
        Ok((UNFINISHED, right.1.clone()))
    );

    let mut wrong = right.clone();
    wrong.1[232] ^= 1;
    let text = agree(&state, call, 512, &wrong).unwrap_err();
    for part in [
        "Advance(1)",
        "04000000b0040000",
        "[27849, 300, 71, 22]",
        "[27849, 300, 70, 22]",
    ] {
        assert!(text.contains(part), "{text}");
    }
    let mut wrong = right;
    wrong.0.written = b"refused 5\n".to_vec();
    let text = agree(&state, call, 512, &wrong).unwrap_err();
    assert!(text.contains("100 10 refused 5;"), "{text}");
}
