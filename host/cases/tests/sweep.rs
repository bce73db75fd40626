//! States of sweeps and what the model answers to them.

use cases::model::{self, Outcome};
use cases::request::{self, NONE_YET};
use cases::{plants, request::Request};
use reference::{listing, Answer, Candidate};

const GRID: u32 = 83_076;
/// The choice for Case A.
const LEAST: [u32; 3] = [300, 71, 22];

fn outcome(number: u32, written: &[u8]) -> Outcome {
    let written = written.to_vec();
    Outcome { number, written }
}

fn refused(number: u8) -> Outcome {
    let written = listing(&Answer::Refused(number));
    outcome(u32::from(number), &written)
}

/// The data as in a choice, then number and best.
#[test]
fn bytes_of_a_state() {
    assert_eq!(request::STATE_LENGTH, 240);
    let plant = plants::case_a();
    let state = plant.state_bytes(0x0102_0304, [300, 75, 20]);
    assert_eq!(state.len(), 240);
    assert_eq!(state[..224], plant.choose_bytes());
    assert_eq!(state[224..228], [4, 3, 2, 1]);
    assert_eq!(state[228..], [44, 1, 0, 0, 75, 0, 0, 0, 20, 0, 0, 0]);
    assert_eq!(plant.candidate_words(), [300, 75, 20]);
}

#[test]
fn state_decoded() {
    let plant = plants::case_a();
    let sweep = request::decode_state(&plant.state_bytes(7, [1, 2, 3]));
    let sweep = sweep.ok().unwrap();
    let best = Candidate {
        fraction: 1,
        return_ratio: 2,
        thickening: 3,
    };
    assert_eq!((sweep.asked, sweep.best), (7, Some(best)));
    assert_eq!(request::words_of(sweep.best), [1, 2, 3]);
    assert_eq!(sweep.plant, plant.decoded().ok().unwrap().plant);
    assert_eq!(sweep.readings, plant.decoded().ok().unwrap().readings);
    for best in [[0, 0, 1], [0, 1, 0], [1, 0, 0]] {
        let sweep = request::decode_state(&plant.state_bytes(7, best));
        assert_eq!(request::words_of(sweep.ok().unwrap().best), best);
    }
    let none = request::decode_state(&plant.state_bytes(7, NONE_YET));
    assert_eq!(none.ok().unwrap().best, None);
}

#[test]
fn starts() {
    let plant = plants::case_a();
    let bytes = plant.choose_bytes();
    let state = plant.state_bytes(0, NONE_YET);
    for length in [240, 241, 512] {
        assert_eq!(model::sweep_start(&bytes, length), outcome(0, &state));
    }
    for length in [0, 224, 239] {
        assert_eq!(model::sweep_start(&bytes, length), outcome(11, &[]));
    }
    let no_load = plant.with(request::LOAD, 0).choose_bytes();
    for (request, number) in [
        (&no_load[..], 1),
        (&bytes[..223], 101),
        (&state, 101),
        (&bytes[1..], 102),
        (&plant.with(request::WAY, 2).choose_bytes(), 103),
    ] {
        for length in [0, 239, 240] {
            assert_eq!(model::sweep_start(request, length), outcome(number, &[]));
        }
    }
}

/// Number, page and state after an advance of Case A.
fn advance(asked: u32, best: [u32; 3], candidates: u32, page: usize) -> (Outcome, Vec<u8>) {
    let state = plants::case_a().state_bytes(asked, best);
    model::sweep_advance(&state, candidates, page)
}

fn state(asked: u32, best: [u32; 3]) -> Vec<u8> {
    plants::case_a().state_bytes(asked, best)
}

#[test]
fn unfinished_writes_no_page() {
    for page in [0, 512] {
        let unfinished = outcome(100, &[]);
        let none = (unfinished.clone(), state(1_000, NONE_YET));
        assert_eq!(advance(0, NONE_YET, 1_000, page), none);
        let least = (unfinished, state(27_900, LEAST));
        assert_eq!(advance(27_000, NONE_YET, 900, page), least);
    }
}

/// Finished with the listing of the choice, or with 5; a page that is too short
/// moves nothing.
#[test]
fn finished_or_a_short_page() {
    let chosen = model::choose(&plants::case_a().choose_bytes(), 512);
    let length = chosen.written.len();
    for page in [length, length + 1, 512] {
        let last = (chosen.clone(), state(GRID, LEAST));
        assert_eq!(advance(GRID - 1, LEAST, 1, page), last);
        assert_eq!(advance(GRID, LEAST, 0, page), last);
    }
    for page in [0, 10, length - 1] {
        let stays = (outcome(11, &[]), state(GRID - 1, LEAST));
        assert_eq!(advance(GRID - 1, LEAST, 1, page), stays);
    }
    let none = (refused(5), state(GRID, NONE_YET));
    assert_eq!(advance(GRID, NONE_YET, 1_000, 10), none);
    let short = (outcome(11, &[]), state(GRID, NONE_YET));
    assert_eq!(advance(GRID, NONE_YET, 1_000, 9), short);
}

#[test]
fn refused_advances_move_nothing() {
    for (asked, best, candidates) in [
        (0, NONE_YET, 1_001),
        (27_000, LEAST, u32::MAX),
        (GRID + 1, NONE_YET, 0),
        (u32::MAX, LEAST, 1_000),
        (GRID, [299, 71, 22], 0),
        (0, [0, 0, 1], 1),
        (0, [0, 30, 20], 1),
    ] {
        let stays = (refused(19), state(asked, best));
        assert_eq!(advance(asked, best, candidates, 11), stays);
        let short = (outcome(11, &[]), state(asked, best));
        assert_eq!(advance(asked, best, candidates, 10), short);
    }
    let no_load = plants::case_a().with(request::LOAD, 0);
    let bytes = no_load.state_bytes(0, NONE_YET);
    let stays = (refused(19), bytes.clone());
    assert_eq!(model::sweep_advance(&bytes, 0, 512), stays);
}

#[test]
fn examinations_of_a_state() {
    let plant = plants::case_a();
    for asked in [0, GRID, u32::MAX] {
        for place in [[300, 75, 20], [299, 75, 20], [0, 0, 0]] {
            let state = plant.state_bytes(asked, [0, 0, 1]);
            let [f, r, h] = place;
            let request = plant.with_candidate(f, r, h).examine_bytes();
            for page in [0, 9, 10, 512] {
                let usual = model::examine(&request, page);
                assert_eq!(model::sweep_examine(&state, place, page), usual);
            }
        }
    }
    let no_load = plant.with(request::LOAD, 0).state_bytes(0, NONE_YET);
    assert_eq!(model::sweep_examine(&no_load, LEAST, 512), refused(1));
}

/// A malformed state before a refusal, and before a short page.
#[test]
fn malformed_states() {
    let plant = plants::case_a();
    let of = |plant: Request| plant.with(request::LOAD, 0).state_bytes(GRID + 1, NONE_YET);
    let (state, unknown) = (of(plant), of(plant.with(request::WAY, 2)));
    let mut later = state.clone();
    later[0] += 1;
    let longer = [&state[..], &[0]].concat();
    for (bytes, number) in [
        (&state[..239], 101),
        (&longer, 101),
        (&state[..224], 101),
        (&state[..3], 101),
        (&[], 101),
        (&later, 102),
        (&later[..4], 102),
        (&unknown, 103),
    ] {
        let stays = (outcome(number, &[]), bytes.to_vec());
        assert_eq!(model::sweep_advance(bytes, 1_001, 0), stays);
        let examined = model::sweep_examine(bytes, [0, 0, 0], 0);
        assert_eq!(examined, outcome(number, &[]));
    }
}
