//! Wide comparison of the library with the reference, from fixed seeds.

#[path = "wide/built.rs"]
mod built;
#[path = "wide/lengths.rs"]
mod lengths;
#[path = "wide/looser.rs"]
mod looser;
#[path = "wide/prices.rs"]
mod prices;
#[path = "wide/sweeps.rs"]
mod sweeps;

use cases::built::{Asked, AMPLE};
use cases::groups;
use cases::random::Random;
use cases::request::Request;
use cases::tanks::OnLines;
use comparison::cod;
use comparison::compare::{agree, compare, compare_census, compare_lines, expected, Operation};
use comparison::counts::{in_parts, settle, Found};
use comparison::logs;
use comparison::requests;
use comparison::stack::{stack_of, stack_of_advance, stack_of_examination, LENGTHS};
use comparison::sweep_calls::grid_number;
use comparison::targets;
use comparison::works::{self, Divided};
use library::number::*;
use library::WORKS_PAGE;

const EXAMINATIONS: usize = 50_000;
const EXPLANATIONS: usize = 50_000;
const CHOICES: usize = 4_000;
/// Of each tank flow.
const CENSUSES: usize = 320;
/// Damaged ones among them, on pages of several lengths.
const ANY_CENSUSES: usize = 960;
const LOADS: usize = 1_600;
const TARGETS: usize = 50_000;
const WORKS: usize = 1_600;
const LINES_OF_WORKS: usize = 2_400;
/// By the library alone.
const WORKS_BESIDE_LINES: usize = 8_000;

/// Random requests of one operation, on pages of several lengths.
fn random_requests(operation: Operation, seed: u64, count: usize) -> Found {
    let tanks = OnLines::find();
    in_parts(seed, count, |seed, share| {
        let mut random = Random::new(seed);
        let mut found = Found::default();
        for _ in 0..share {
            let bytes = requests::any(&mut random, &tanks, operation);
            let length = requests::page_length(&mut random);
            found.add(compare(operation, &bytes, length));
        }
        found
    })
}

/// The numbers of a day log, of a split, of an advance, of built tanks and of a
/// tariff.
const OF_ONE_CALL: [u32; 8] = [
    DAY_LOG, DAY_VALUE, LINES, ADVANCE, UNFINISHED, SPAN, BUILT_SIZE, TARIFF,
];

/// So many answers of each number but these, and but those that one call alone
/// gives.
fn all_but(not_given: &[u32], least: usize) -> Vec<(u32, usize)> {
    let numbers = ALL.iter().map(|known| known.number);
    numbers
        .filter(|number| !OF_ONE_CALL.contains(number))
        .filter(|number| !not_given.contains(number))
        .map(|number| (number, least))
        .collect()
}

/// What a candidate of the grid is refused for.
const OF_CANDIDATE: [u32; 6] = [NITRATE, NITRIFICATION, TERM_NITRATE, SOLIDS, SURFACE, DEPTH];

#[test]
fn examinations() {
    let found = random_requests(Operation::Examine, 1_000, EXAMINATIONS);
    settle("examine", &found, &all_but(&[NO_DESIGN], 100));
}

#[test]
fn explanations() {
    let found = random_requests(Operation::Explain, 2_000, EXPLANATIONS);
    let not_given = [&[NO_DESIGN], &OF_CANDIDATE[..]].concat();
    settle("explain", &found, &all_but(&not_given, 100));
}

#[test]
fn choices() {
    let tanks = OnLines::find();
    let found = in_parts(3_000, CHOICES, |seed, share| {
        let mut random = Random::new(seed);
        let mut found = Found::default();
        for turn in 0..share {
            if turn % 2 == 0 {
                let bytes = requests::with_design(&mut random).choose_bytes();
                found.add(compare(Operation::Choose, &bytes, 512));
            } else {
                let bytes = requests::any(&mut random, &tanks, Operation::Choose);
                let length = requests::page_length(&mut random);
                found.add(compare(Operation::Choose, &bytes, length));
            }
        }
        found
    });
    let not_given = [&[OFF_GRID], &OF_CANDIDATE[..]].concat();
    let mut wanted = all_but(&not_given, 20);
    wanted.extend([(SHEET, 2_000), (NO_DESIGN, 200)]);
    settle("choose", &found, &wanted);
}

/// Plants of one tank flow, with and without a design: the counts, and the
/// choice that goes with them.
#[test]
fn censuses_and_choices() {
    let tanks = OnLines::find();
    for (flow, name) in ["census, horizontal", "census, vertical"]
        .iter()
        .enumerate()
    {
        let found = in_parts(4_000 + 100 * flow as u64, CENSUSES, |seed, share| {
            let mut random = Random::new(seed);
            let mut found = Found::default();
            for turn in 0..share {
                let request = match turn % 2 {
                    0 => requests::with_design(&mut random),
                    _ => requests::sound(&mut random, &tanks),
                };
                let request = request.with(cases::request::TANK_FLOW, flow as u32);
                found.add(compare_census(&request.choose_bytes()));
            }
            found
        });
        settle(name, &found, &[(SHEET, 100), (NO_DESIGN, 50)]);
    }
}

#[test]
fn any_censuses() {
    let found = random_requests(Operation::Census, 5_000, ANY_CENSUSES);
    let not_given = [&[NO_DESIGN, OFF_GRID], &OF_CANDIDATE[..]].concat();
    settle("census", &found, &all_but(&not_given, 5));
}

/// Each line of the COD way just met and just missed; every twentieth request
/// is also chosen for.
#[test]
fn cod_way_made_to_measure() {
    let requests = cod::made_to_measure();
    let mut found = [(); 3].map(|()| Found::default());
    for (turn, request) in requests.iter().enumerate() {
        let bytes = request.examine_bytes();
        found[0].add(compare(Operation::Examine, &bytes, 512));
        found[1].add(compare(Operation::Explain, &bytes, 512));
        if turn % 20 == 0 {
            found[2].add(compare(Operation::Choose, &request.choose_bytes(), 512));
        }
    }
    let ratio = u32::from(reference::refusal::COD_RATIO);
    let wanted = [
        (SHEET, 5_000),
        (ratio, 20),
        (NITRATE, 800),
        (NITRIFICATION, 1_000),
        (TERM_NITRATE, 1_500),
    ];
    settle("COD way, examine", &found[0], &wanted);
    settle("COD way, explain", &found[1], &[(SHEET, 10_000)]);
    settle(
        "COD way, choose",
        &found[2],
        &[(SHEET, 100), (NO_DESIGN, 20)],
    );
}

/// Every length, of this version and of its neighbours.
#[test]
fn lengths_of_requests() {
    let mut found = Found::default();
    for bytes in cod::lengths() {
        for operation in [
            Operation::Examine,
            Operation::Choose,
            Operation::Explain,
            Operation::Census,
        ] {
            found.add(compare(operation, &bytes, 512));
        }
    }
    let wanted = [
        (SHEET, 8),
        (BAD_LENGTH, 2_000),
        (BAD_VERSION, 5_000),
        (cases::request::UNKNOWN_KIND, 4),
    ];
    settle("lengths", &found, &wanted);
}

/// About a third of the random requests are in the COD way, many of them above
/// the COD ratio.
#[test]
fn ways_of_random_requests() {
    let tanks = OnLines::find();
    let mut random = Random::new(9_000);
    let (mut by_cod, mut above) = (0, 0);
    for turn in 0..3_000 {
        let request = match turn % 3 {
            0 => requests::with_design(&mut random),
            _ => requests::sound(&mut random, &tanks),
        };
        if request.get(cases::request::WAY) == cases::request::BY_COD {
            by_cod += 1;
            let accepted = cases::lines::accepted(&request);
            above += u32::from(accepted.is_some_and(|a| 5 * a[1] > 11 * a[0]));
        }
    }
    assert!((900..=1_100).contains(&by_cod), "{by_cod} by COD");
    assert!(above >= 150, "{above} above the ratio");
}

#[test]
fn any_loads() {
    let found = in_parts(7_000, LOADS, |seed, share| {
        let mut random = Random::new(seed);
        let mut found = Found::default();
        for _ in 0..share {
            let log = logs::any(&mut random);
            let length = requests::page_length(&mut random);
            found.add(compare(Operation::Load, &log, length));
        }
        found
    });
    let wanted = [
        (SHEET, 700),
        (SHORT_PAGE, 50),
        (DAY_LOG, 100),
        (DAY_VALUE, 100),
    ];
    settle("load", &found, &wanted);
}

/// Each rule of a day log just met and just missed.
#[test]
fn loads_made_to_measure() {
    let mut found = Found::default();
    for log in logs::made_to_measure() {
        found.add(compare(Operation::Load, &log, 16));
    }
    let wanted = [(SHEET, 250), (DAY_LOG, 250), (DAY_VALUE, 100)];
    settle("load, made to measure", &found, &wanted);
}

#[test]
fn any_targets() {
    let found = in_parts(8_000, TARGETS, |seed, share| {
        let mut random = Random::new(seed);
        let mut found = Found::default();
        for _ in 0..share {
            let bytes = targets::any(&mut random);
            let length = requests::page_length(&mut random);
            found.add(compare(Operation::Target, &bytes, length));
        }
        found
    });
    let wanted = [
        (SHEET, 30_000),
        (TERMS, 4_000),
        (SHORT_PAGE, 500),
        (BAD_LENGTH, 500),
        (BAD_VERSION, 500),
    ];
    settle("target", &found, &wanted);
}

/// Each rule of terms and dates just met and just missed.
#[test]
fn targets_made_to_measure() {
    let mut found = Found::default();
    for request in targets::made_to_measure() {
        found.add(compare(Operation::Target, &request, 8));
    }
    let wanted = [(SHEET, 3_000), (TERMS, 400), (BAD_VERSION, 300)];
    settle("target, made to measure", &found, &wanted);
}

/// Works or lines on their pages: every other one mostly has a design.
fn random_works(operation: Operation, seed: u64, count: usize) -> Found {
    let tanks = OnLines::find();
    in_parts(seed, count, |seed, share| {
        let mut random = Random::new(seed);
        let mut found = Found::default();
        for turn in 0..share {
            let bytes = match turn % 2 {
                0 => {
                    let divided = works::with_design(&mut random);
                    works::bytes(&mut random, operation, &divided)
                }
                _ => requests::any(&mut random, &tanks, operation),
            };
            let length = match operation {
                Operation::Works => works::page_length(&mut random),
                _ => requests::page_length(&mut random),
            };
            found.add(compare(operation, &bytes, length));
        }
        found
    })
}

/// So many answers of each number that a works or a line can have.
fn of_works(least: usize) -> Vec<(u32, usize)> {
    let mut wanted = all_but(&[&[OFF_GRID], &OF_CANDIDATE[..]].concat(), least);
    wanted.push((LINES, least));
    wanted
}

#[test]
fn any_works() {
    let found = random_works(Operation::Works, 10_000, WORKS);
    let frequent = vec![(SHEET, 400), (PLANT_DATA, 200), (NO_DESIGN, 200)];
    let wanted = [of_works(5), frequent].concat();
    settle("works", &found, &wanted);
}

#[test]
fn any_lines() {
    let found = random_works(Operation::Line, 11_000, LINES_OF_WORKS);
    let frequent = vec![(SHEET, 700), (PLANT_DATA, 200), (NO_DESIGN, 300)];
    let wanted = [of_works(10), frequent].concat();
    settle("lines", &found, &wanted);
}

/// Each of these works, in parts.
fn each(all: &[Divided], one: impl Fn(&Divided, &mut Found) + Sync) -> Found {
    in_parts(0, all.len(), |part, share| {
        let mut found = Found::default();
        for divided in all.iter().skip(part as usize * share).take(share) {
            one(divided, &mut found);
        }
        found
    })
}

/// Each rule of a split just met and just missed; and the first line, one in the
/// middle and the last, with the numbers before and after them.
#[test]
fn works_made_to_measure() {
    let all = works::made_to_measure();
    let wanted = [
        (SHEET, 200),
        (PLANT_DATA, 400),
        (NO_NUMBER, 50),
        (READING_RANGE, 25),
        (COD_RATIO, 8),
        (NO_DESIGN, 100),
        (TERMS, 10),
        (BULKING, 100),
        (LINES, 1_000),
    ];
    let found = each(&all, |(plant, split), found| {
        let bytes = plant.works_bytes(split);
        found.add(compare(Operation::Works, &bytes, WORKS_PAGE));
    });
    settle("works, made to measure", &found, &wanted);
    let found = each(&all, |(plant, split), found| {
        let last = split.count.min(8);
        for number in [0, 1, last / 2 + 1, last, last + 1] {
            let bytes = plant.line_bytes(split, number);
            found.add(compare(Operation::Line, &bytes, 512));
        }
    });
    settle("lines, made to measure", &found, &wanted);
}

/// Random works with a design have every number of lines, either way, terms and
/// a dose.
#[test]
fn kinds_of_random_works() {
    use cases::request::{BY_COD, DOSE, TERM_COUNT, WAY};
    let mut random = Random::new(13_000);
    let mut lines = [0; 9];
    let (mut by_cod, mut terms, mut dosed) = (0, 0, 0);
    for _ in 0..2_000 {
        let (plant, split) = works::with_design(&mut random);
        let mut page = [0; WORKS_PAGE];
        if library::works(&plant.works_bytes(&split), &mut page).0 == SHEET {
            lines[split.count as usize] += 1;
            by_cod += u32::from(plant.get(WAY) == BY_COD);
            terms += u32::from(plant.get(TERM_COUNT) > 0);
            dosed += u32::from(plant.get(DOSE) > 0);
        }
    }
    assert!(lines[2..].iter().all(|count| *count >= 30), "{lines:?}");
    for (kind, count) in [("by COD", by_cod), ("terms", terms), ("dosed", dosed)] {
        assert!(count >= 100, "{count} {kind}");
    }
}

/// A works is its lines, and each line is a plant: by the library alone.
#[test]
fn works_beside_their_lines() {
    let found = in_parts(12_000, WORKS_BESIDE_LINES, |seed, share| {
        let mut random = Random::new(seed);
        let mut found = Found::default();
        for _ in 0..share {
            found.add(compare_lines(&works::with_design(&mut random)));
        }
        found
    });
    let wanted = [(SHEET, 2_000), (NO_DESIGN, 1_000), (PLANT_DATA, 1_000)];
    settle("works beside their lines", &found, &wanted);
}

/// Every length, of this version and of its neighbours, also on a short page.
#[test]
fn lengths_of_works() {
    let mut found = Found::default();
    for bytes in works::lengths() {
        found.add(compare(Operation::Works, &bytes, WORKS_PAGE));
        found.add(compare(Operation::Works, &bytes, WORKS_PAGE - 1));
        found.add(compare(Operation::Line, &bytes, 512));
        found.add(compare(Operation::Line, &bytes, 0));
    }
    let wanted = [
        (SHEET, 4),
        (SHORT_PAGE, 4),
        (BAD_LENGTH, 3_000),
        (BAD_VERSION, 6_000),
        (BAD_KIND, 4),
    ];
    settle("lengths of works", &found, &wanted);
}

/// Every page length up to a few bytes more than the listing, for an
/// examination, a choice, a refusal, an explanation, a census, a load, a
/// target, works and lines.
#[test]
fn page_lengths() {
    let plant = cases::plants::case_a();
    let off_grid = plant.with(cases::request::FRACTION, 199);
    let no_load = plant.with(cases::request::LOAD, 0);
    let (late, two) = (works::late(), works::split(&[600, 400]));
    let mut found = Found::default();
    for (operation, bytes) in [
        (Operation::Examine, plant.examine_bytes()),
        (Operation::Choose, plant.choose_bytes()),
        (Operation::Examine, off_grid.examine_bytes()),
        (Operation::Explain, plant.examine_bytes()),
        (Operation::Explain, off_grid.examine_bytes()),
        (Operation::Census, plant.choose_bytes()),
        (Operation::Census, no_load.choose_bytes()),
        (Operation::Load, logs::log(&[(0, 0); 14])),
        (Operation::Load, Vec::new()),
        (Operation::Target, targets::request(0, &[[0; 6]; 4], (1, 1))),
        (Operation::Target, targets::request(0, &[[0; 6]; 4], (0, 1))),
        (Operation::Works, late.works_bytes(&two)),
        (Operation::Works, late.works_bytes(&works::split(&[1_000]))),
        (Operation::Line, late.line_bytes(&two, 2)),
        (Operation::Line, late.line_bytes(&two, 3)),
    ] {
        let exact = expected(operation, &bytes, WORKS_PAGE).written.len();
        for length in 0..=exact + 3 {
            found.add(compare(operation, &bytes, length));
        }
    }
    settle(
        "page lengths",
        &found,
        &[
            (SHEET, 20),
            (PLANT_DATA, 4),
            (OFF_GRID, 8),
            (DAY_LOG, 4),
            (TERMS, 4),
            (LINES, 8),
            (SHORT_PAGE, 3_000),
        ],
    );
}

/// The stored cases through the library.
#[test]
fn stored_cases() {
    let mut found = Found::default();
    for case in groups::all().cases {
        let operation = match case.operation {
            cases::collection::Operation::Examine => Operation::Examine,
            cases::collection::Operation::Choose => Operation::Choose,
            cases::collection::Operation::Built => Operation::Built,
            cases::collection::Operation::PriceChoose => Operation::PriceChoose,
            cases::collection::Operation::PriceExamine => Operation::PriceExamine,
        };
        let length = case.page_length as usize;
        found.add(compare(operation, case.request_bytes(), length));
    }
    settle("stored cases", &found, &[(SHEET, 400)]);
}

/// A wrong expectation is reported with the request and both answers.
#[test]
fn differences_are_reported() {
    let bytes = cases::plants::case_a().examine_bytes();
    let mut outcome = expected(Operation::Examine, &bytes, 512);
    assert_eq!(agree(Operation::Examine, &bytes, 512, &outcome), Ok(SHEET));

    let last = outcome.written.len() - 2;
    outcome.written[last] ^= 1;
    let text = agree(Operation::Examine, &bytes, 512, &outcome).unwrap_err();
    for part in ["04000000b0040000", "transfer 127662;", "transfer 127663;"] {
        assert!(text.contains(part), "{text}");
    }
    let refused = expected(Operation::Examine, &bytes, 0);
    assert!(agree(Operation::Examine, &bytes, 512, &refused).is_err());
}

const FOUR_TERMS: [[u32; 6]; 4] = [[11, 1, 3, 31, 11, 13_000]; 4];

/// Case A, the same in vertical flow, with four terms, and with these in the COD way.
fn plants_on_stacks() -> [Request; 4] {
    let plant = cases::plants::case_a();
    let vertical = plant.with(cases::request::TANK_FLOW, 1);
    let seasons = plant.with_terms(&FOUR_TERMS);
    let by_cod = seasons.with(cases::request::WAY, cases::request::BY_COD);
    [plant, vertical, seasons, by_cod]
}

/// The stack of each call, as the header and the README state it.
#[test]
fn stack_as_stated() {
    let log = logs::log(&[(0, 0); 3_660]);
    let target = targets::request(4, &FOUR_TERMS, (2, 29));
    let eight = works::equal(8);
    for request in plants_on_stacks() {
        let (examine, choose) = (request.examine_bytes(), request.choose_bytes());
        let built = Asked::of(request, AMPLE, 50, 180).bytes();
        let (works, line) = (request.works_bytes(&eight), request.line_bytes(&eight, 8));
        let [price_choose, price_examine] = comparison::prices::requests_of(&request);
        for (call, bytes, stated) in [
            (library::CHOOSE, &choose, 9_000),
            (library::EXAMINE, &examine, 3_000),
            (library::EXPLAIN, &examine, 3_000),
            (library::CENSUS, &choose, 3_000),
            (library::LOAD, &log, 3_000),
            (library::TARGET, &target, 3_000),
            (library::WORKS, &works, 14_000),
            (library::LINE, &line, 10_000),
            (library::BUILT, &built, 3_000),
            (library::PRICE_CHOOSE, &price_choose, 10_000),
            (library::PRICE_EXAMINE, &price_examine, 3_000),
            (library::SWEEP_START, &choose, 3_000),
        ] {
            let (_, taken) = stack_of(call, bytes, &mut [0; WORKS_PAGE]);
            within_stated(taken, stated);
        }
        for (call, bytes, stated) in [
            (LENGTHS[0], &choose, 9_000),
            (LENGTHS[1], &examine, 3_000),
            (LENGTHS[2], &line, 10_000),
        ] {
            within_stated(stack_of(call, bytes, &mut []).1, stated);
        }
        let last = grid_number(&request) - library::ADVANCE_MOST;
        for number in [0, 40_000, last] {
            let state = request.state_bytes(number, cases::request::NONE_YET);
            within_stated(stack_of_advance(&state).1, 10_000);
            within_stated(stack_of_examination(&state).1, 3_000);
        }
    }
}

fn within_stated(taken: usize, stated: usize) {
    assert!(
        taken <= stated,
        "{taken} bytes, include/pewgull.h states {stated}"
    );
}
