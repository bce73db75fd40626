//! A sweep that can be put down, through the archive.

mod common;

use common::{case_a, CASE_A_CANDIDATE, CASE_A_LISTING};
use library::number::{
    ADVANCE, BAD_KIND, BAD_LENGTH, BAD_VERSION, BULKING, COD_RATIO, NO_DESIGN, NO_NUMBER, OFF_GRID,
    PLANT_DATA, READING_RANGE, SHEET, SHORT_PAGE, TERMS, UNFINISHED,
};
use library::sheet::{candidates, GRID};
use library::{choose, examine, sweep_advance, sweep_examine, sweep_start};
use library::{Candidate, Progress, Reading, Request, TankFlow};
use library::{ADVANCE_MOST, CHOOSE_LENGTH, PAGE_LENGTH, STATE_LENGTH, VERSION};

const UNTOUCHED: u8 = 0xaa;

type State = [u8; STATE_LENGTH];

/// The state of a sweep that has just been started.
fn started(request: &Request) -> State {
    let mut state = [UNTOUCHED; STATE_LENGTH];
    let answer = sweep_start(&request.to_choose(), &mut state);
    assert_eq!(answer, (SHEET, STATE_LENGTH as u64));
    state
}

/// A state of these data, this number and this best, reached or not.
fn handed_on(request: &Request, asked: u32, best: [u32; 3]) -> State {
    let mut state = [0; STATE_LENGTH];
    state[..CHOOSE_LENGTH].copy_from_slice(&request.to_choose());
    let words = state[CHOOSE_LENGTH..].chunks_exact_mut(4);
    let [fraction, return_ratio, thickening] = best;
    for (place, word) in words.zip([asked, fraction, return_ratio, thickening]) {
        place.copy_from_slice(&word.to_le_bytes());
    }
    state
}

/// What an advance gives, and its listing; the rest of the page stays.
fn advanced(state: &mut State, by: u32) -> (u32, String) {
    let mut page = [UNTOUCHED; PAGE_LENGTH];
    let (number, written) = sweep_advance(state, by, &mut page);
    let (listing, rest) = page.split_at(written as usize);
    assert!(rest.iter().all(|&byte| byte == UNTOUCHED));
    (number, String::from_utf8(listing.to_vec()).unwrap())
}

/// What a sweep gives at last, and how often it was unfinished.
fn swept(state: &mut State, by: u32) -> ((u32, String), u32) {
    let mut unfinished = 0;
    loop {
        match advanced(state, by) {
            (UNFINISHED, listing) => assert_eq!(listing, ""),
            answer => return (answer, unfinished),
        }
        unfinished += 1;
    }
}

fn chosen(request: &Request) -> (u32, String) {
    let mut page = [0; PAGE_LENGTH];
    let (number, written) = choose(&request.to_choose(), &mut page);
    let listing = page[..written as usize].to_vec();
    (number, String::from_utf8(listing).unwrap())
}

fn numbers(candidate: Candidate) -> [u32; 3] {
    GRID.map(|side| side.of(&candidate))
}

/// The candidate at a place of the sweep's order.
fn at(place: u32, tank: TankFlow) -> Candidate {
    let ratios = match tank {
        TankFlow::Horizontal => 46,
        TankFlow::Vertical => 71,
    };
    Candidate {
        fraction: 200 + place / 6 / ratios,
        return_ratio: 30 + place / 6 % ratios,
        thickening: 20 + place % 6,
    }
}

/// The total of a permitted candidate.
fn total(request: &Request, candidate: Candidate) -> Option<u64> {
    let mut page = [0; PAGE_LENGTH];
    let (number, written) = examine(&request.to_examine(candidate), &mut page);
    let listing = String::from_utf8_lossy(&page[..written as usize]).into_owned();
    let mut lines = listing.lines();
    let total = lines.find_map(|line| line.strip_prefix("total "));
    assert_eq!(total.is_some(), number == SHEET);
    total.map(|total| total.parse().unwrap())
}

/// The least of the permitted ones at these places, by total and then in order.
fn least(request: &Request, places: std::ops::Range<u32>) -> Option<Candidate> {
    let permitted = places
        .map(|place| at(place, request.tank))
        .filter_map(|candidate| Some((total(request, candidate)?, candidate)));
    let best = permitted.min_by_key(|(total, candidate)| (*total, numbers(*candidate)));
    best.map(|(_, candidate)| candidate)
}

fn vertical() -> Request {
    Request {
        tank: TankFlow::Vertical,
        ..case_a()
    }
}

fn no_design() -> Request {
    Request {
        nitrogen: Reading::Measured(100f32.to_bits()),
        ..case_a()
    }
}

#[test]
fn a_start_is_the_data_and_zeros() {
    assert_eq!((STATE_LENGTH, ADVANCE_MOST), (240, 1_000));
    let mut memory = [UNTOUCHED; STATE_LENGTH + 1];
    let answer = sweep_start(&case_a().to_choose(), &mut memory);
    assert_eq!(answer, (SHEET, STATE_LENGTH as u64));
    let (state, rest) = memory.split_first_chunk().unwrap();
    assert_eq!(*state, handed_on(&case_a(), 0, [0; 3]));
    assert_eq!(rest, [UNTOUCHED]);
    let none = Progress {
        asked: 0,
        best: None,
    };
    assert_eq!(Progress::from_state(state), none);
}

#[test]
fn the_words_of_a_state_have_their_places() {
    let state = handed_on(&case_a(), 0x0102_0304, [5, 6, 7]);
    assert_eq!(state[224..232], [4, 3, 2, 1, 5, 0, 0, 0]);
    let Progress { asked, best } = Progress::from_state(&state);
    assert_eq!((asked, best.map(numbers)), (0x0102_0304, Some([5, 6, 7])));
    for best in [[1, 0, 0], [0, 1, 0], [0, 0, 1]] {
        let state = handed_on(&case_a(), 0, best);
        assert_eq!(Progress::from_state(&state).best.map(numbers), Some(best));
    }
}

/// Unfinished exactly while fewer candidates than the grid's were asked for,
/// and then what choosing gives.
#[test]
fn a_whole_sweep_answers_as_choosing() {
    for request in [case_a(), vertical(), no_design()] {
        let grid = candidates(request.tank);
        for by in [1_000, 997, 276] {
            let mut state = started(&request);
            let (answer, unfinished) = swept(&mut state, by);
            assert_eq!(answer, chosen(&request));
            assert_eq!(unfinished, (grid - 1) / by);
            assert_eq!(Progress::from_state(&state).asked, grid);
            // asked for more, it answers the same and stays
            let finished = state;
            for more in [0, 1, ADVANCE_MOST] {
                assert_eq!(advanced(&mut state, more), answer);
                assert_eq!(state, finished);
            }
        }
    }
}

/// The last candidate makes the difference between unfinished and an answer.
#[test]
fn one_candidate_short_of_the_grid() {
    for request in [case_a(), no_design()] {
        let grid = candidates(request.tank);
        let mut state = handed_on(&request, grid - 3, [0; 3]);
        for left in [1, 1] {
            assert_eq!(advanced(&mut state, left).0, UNFINISHED);
        }
        assert_eq!(advanced(&mut state, 0).0, UNFINISHED);
        let last = least(&request, grid - 3..grid);
        assert_eq!(advanced(&mut state, 1).0 == SHEET, last.is_some());
        assert_eq!(Progress::from_state(&state).best, last);
    }
}

/// Case A has no permitted candidate among the first 27,600.
#[test]
fn the_best_so_far_is_the_least_of_those_asked_for() {
    let request = case_a();
    let mut state = started(&request);
    for _ in 0..27 {
        advanced(&mut state, 1_000);
    }
    assert_eq!(advanced(&mut state, 600), (UNFINISHED, String::new()));
    let none = Progress {
        asked: 27_600,
        best: None,
    };
    assert_eq!(Progress::from_state(&state), none);
    let mut asked = 27_600;
    for by in [1, 0, 2, 3, 6, 270, 276, 1_000, 17] {
        assert_eq!(advanced(&mut state, by).0, UNFINISHED);
        asked += by;
        let best = least(&request, 27_600..asked);
        assert_eq!(Progress::from_state(&state), Progress { asked, best });
        assert!(best.is_some());
    }
    assert_eq!(state[..CHOOSE_LENGTH], request.to_choose());
}

/// From any number and any permitted best an advance goes by these and its own
/// candidates alone.
#[test]
fn an_unreached_state_is_gone_on_from() {
    let request = case_a();
    let grid = candidates(request.tank);
    let far = numbers(CASE_A_CANDIDATE);
    let mut none = handed_on(&request, grid, [0; 3]);
    let refused = (NO_DESIGN, "refused 5\n".to_string());
    assert_eq!(advanced(&mut none, 0), refused);
    let mut best = handed_on(&request, grid, far);
    let listing = CASE_A_LISTING.to_string();
    assert_eq!(advanced(&mut best, 1_000), (SHEET, listing.clone()));
    // a better one than all that is left stays
    let mut late = handed_on(&request, grid - 1_500, far);
    assert_eq!(swept(&mut late, 1_000), ((SHEET, listing), 1));
}

/// Of equal totals the earlier candidate is the best, whichever was handed on.
#[test]
fn ties_go_to_the_earlier() {
    let request = case_a();
    let tank = request.tank;
    let places = 27_600..27_876;
    let of = |place: u32| total(&request, at(place, tank));
    let pairs = places.clone().flat_map(|first| {
        let later = first + 1..places.end;
        later.map(move |second| (first, second))
    });
    let equal: Vec<(u32, u32)> = pairs.filter(|(a, b)| of(*a) == of(*b)).take(20).collect();
    assert_eq!(equal.len(), 20);
    for (first, second) in equal {
        for (asked, best) in [(first, second), (second, first)] {
            let mut state = handed_on(&request, asked, numbers(at(best, tank)));
            assert_eq!(advanced(&mut state, 1).0, UNFINISHED);
            let best = Progress::from_state(&state).best;
            assert_eq!(best, Some(at(first, tank)));
        }
    }
}

/// 19 is listed and moves nothing; a page too short for it gets 11.
fn is_refused(state: &State, by: u32) {
    let mut after = *state;
    let refused = (ADVANCE, "refused 19\n".to_string());
    assert_eq!(advanced(&mut after, by), refused, "{by}");
    let mut page = [UNTOUCHED; 10];
    assert_eq!(sweep_advance(&mut after, by, &mut page), (SHORT_PAGE, 0));
    assert_eq!((after, page), (*state, [UNTOUCHED; 10]));
}

#[test]
fn at_most_1_000_candidates_an_advance() {
    let mut state = started(&case_a());
    assert_eq!(advanced(&mut state, 1_000).0, UNFINISHED);
    for by in [1_001, 83_076, u32::MAX - 999, u32::MAX] {
        is_refused(&state, by);
    }
    let mut finished = state;
    swept(&mut finished, 1_000);
    is_refused(&finished, 1_001);
    // a refused advance asks for none
    assert_eq!(Progress::from_state(&state).asked, 1_000);
}

#[test]
fn states_that_are_refused() {
    let no_load = Request {
        load: 0,
        ..case_a()
    };
    is_refused(&handed_on(&no_load, 0, [0; 3]), 0);
    for (request, grid) in [(case_a(), 83_076), (vertical(), 128_226)] {
        for asked in [grid + 1, u32::MAX] {
            is_refused(&handed_on(&request, asked, [0; 3]), 0);
        }
    }
    for best in [
        [299, 75, 20],
        [300, 76, 20],
        [300, 75, 26],
        [501, 75, 20],
        [0, 75, 20],
        [300, 0, 0],
        [0, 0, 1],
        [u32::MAX; 3],
    ] {
        is_refused(&handed_on(&case_a(), 0, best), 1);
        is_refused(&handed_on(&case_a(), 83_076, best), 0);
    }
}

/// Examining answers as it does without a sweep, whatever the sweep has asked
/// for.
#[test]
fn examining_does_not_move_a_sweep() {
    let mut state = started(&case_a());
    let untouched = {
        let mut plain = state;
        swept(&mut plain, 1_000).0
    };
    for candidate in [[300, 75, 20], [299, 75, 20], [300, 76, 20], [0, 0, 0]] {
        let [fraction, return_ratio, thickening] = candidate;
        let bytes = case_a().to_examine(Candidate {
            fraction,
            return_ratio,
            thickening,
        });
        let before = state;
        let mut page = [UNTOUCHED; PAGE_LENGTH];
        let mut plain = page;
        let answer = sweep_examine(&state, fraction, return_ratio, thickening, &mut page);
        assert_eq!(answer, examine(&bytes, &mut plain));
        assert_eq!((page, state), (plain, before));
        assert_eq!(advanced(&mut state, 1_000).0, UNFINISHED);
    }
    assert_eq!(swept(&mut state, 1_000).0, untouched);
    // whatever the number and the best are, and whatever the data get
    let odd = handed_on(&case_a(), u32::MAX, [1, 2, 3]);
    let mut page = [UNTOUCHED; PAGE_LENGTH];
    let (number, written) = sweep_examine(&odd, 300, 75, 20, &mut page);
    assert_eq!(number, SHEET);
    assert_eq!(&page[..written as usize], CASE_A_LISTING.as_bytes());
    let refused = handed_on(&Request::default(), 0, [0; 3]);
    assert_eq!(
        sweep_examine(&refused, 300, 75, 20, &mut page),
        (PLANT_DATA, 10)
    );
    assert_eq!(
        sweep_examine(&odd, 501, 75, 20, &mut [0; 9]),
        (SHORT_PAGE, 0)
    );
    assert_eq!(
        sweep_examine(&odd, 501, 75, 20, &mut [0; 10]),
        (OFF_GRID, 10)
    );
}

/// At the end a page too short for the listing gets 11, and the sweep stays:
/// the same advance with a longer page answers.
#[test]
fn a_short_page_at_the_end_moves_nothing() {
    for request in [case_a(), no_design()] {
        let mut state = started(&request);
        for _ in 0..83 {
            // while it is unfinished no page is needed
            assert_eq!(sweep_advance(&mut state, 1_000, &mut []), (UNFINISHED, 0));
        }
        let before = state;
        let (number, listing) = chosen(&request);
        let mut page = vec![UNTOUCHED; listing.len() - 1];
        for short in [0, listing.len() - 1] {
            let short = &mut page[..short];
            assert_eq!(sweep_advance(&mut state, 76, short), (SHORT_PAGE, 0));
        }
        assert!(page.iter().all(|&byte| byte == UNTOUCHED));
        assert_eq!(state, before);
        page.push(UNTOUCHED);
        let answer = sweep_advance(&mut state, 76, &mut page);
        assert_eq!(answer, (number, listing.len() as u64));
        assert_eq!(page, listing.as_bytes());
    }
}

/// Refused data get their usual number and no sweep.
#[test]
fn refused_data_give_no_sweep() {
    let measured = |value: f32| Reading::Measured(value.to_bits());
    let mut requests = [case_a(); 6];
    requests[0].load = 0;
    requests[1].sludge_volume_index = 181;
    requests[2].bod = measured(f32::NAN);
    requests[3].bod = Reading::Heads(0);
    requests[4].cod = measured(440.1);
    requests[5].terms.count = 5;
    let numbers = [
        PLANT_DATA,
        BULKING,
        NO_NUMBER,
        READING_RANGE,
        COD_RATIO,
        TERMS,
    ];
    for (request, number) in requests.iter().zip(numbers) {
        let mut state = [UNTOUCHED; STATE_LENGTH];
        assert_eq!(sweep_start(&request.to_choose(), &mut state), (number, 0));
        // before the state's length
        assert_eq!(sweep_start(&request.to_choose(), &mut []), (number, 0));
        assert_eq!(state, [UNTOUCHED; STATE_LENGTH]);
    }
    // no design is found at the end of the sweep
    started(&no_design());
}

#[test]
fn a_start_needs_room_for_the_state() {
    let mut state = [UNTOUCHED; STATE_LENGTH - 1];
    let answer = sweep_start(&case_a().to_choose(), &mut state);
    assert_eq!(answer, (SHORT_PAGE, 0));
    assert_eq!(state, [UNTOUCHED; STATE_LENGTH - 1]);
}

/// The code that a malformed state gets from an advance and an examination.
fn is_malformed(state: &[u8], code: u32) {
    let mut after = state.to_vec();
    let mut page = [UNTOUCHED; PAGE_LENGTH];
    for by in [0, 1_001] {
        assert_eq!(sweep_advance(&mut after, by, &mut page), (code, 0));
        assert_eq!(sweep_advance(&mut after, by, &mut []), (code, 0));
    }
    assert_eq!(sweep_examine(state, 300, 75, 20, &mut page), (code, 0));
    assert_eq!((after.as_slice(), page), (state, [UNTOUCHED; PAGE_LENGTH]));
}

#[test]
fn malformed_bytes_have_their_codes() {
    let good = started(&case_a());
    let longer = [&good[..], &[0; 4]].concat();
    let mut state = [UNTOUCHED; STATE_LENGTH];
    for length in [0, 3, 4, CHOOSE_LENGTH, 236, STATE_LENGTH - 1, 244] {
        is_malformed(&longer[..length], BAD_LENGTH);
    }
    for length in [0, 3, CHOOSE_LENGTH - 1, STATE_LENGTH] {
        assert_eq!(sweep_start(&good[..length], &mut state), (BAD_LENGTH, 0));
    }
    for version in [VERSION - 1, VERSION + 1] {
        let mut other = good;
        other[..4].copy_from_slice(&version.to_le_bytes());
        for length in [4, CHOOSE_LENGTH, STATE_LENGTH] {
            is_malformed(&other[..length], BAD_VERSION);
            assert_eq!(sweep_start(&other[..length], &mut state), (BAD_VERSION, 0));
        }
    }
    // a process, a tank flow, a reading and a way that are not known
    for (place, value) in [(56, 5), (64, 2), (76, 3), (220, 2)] {
        let mut unknown = good;
        unknown[place] = value;
        is_malformed(&unknown, BAD_KIND);
        // before the number and the best
        unknown[CHOOSE_LENGTH..].fill(0xff);
        is_malformed(&unknown, BAD_KIND);
        let request = &unknown[..CHOOSE_LENGTH];
        assert_eq!(sweep_start(request, &mut state), (BAD_KIND, 0));
    }
    assert_eq!(state, [UNTOUCHED; STATE_LENGTH]);
}
