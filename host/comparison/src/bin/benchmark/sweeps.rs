//! Sweeps by the most candidates a call: whole ones, and single advances.

use super::{choice, rates, requests, row, share, times, Repeats, Timed, PAGE};
use cases::model;
use cases::request::*;
use cases::tanks::FLOWS;
use comparison::sweep_calls::grid_number;
use library::number::{SHEET, UNFINISHED};
use library::ADVANCE_MOST;
use reference::sweep::stretch;
use std::time::Duration;

/// Of calls that take a millisecond.
const SELDOM: Repeats = Repeats {
    alternations: 10,
    places: 8,
};
/// Advances of each plant that are timed.
const ADVANCES: u32 = 6;

/// A whole sweep of the library; the number that it ends with.
fn whole(request: &[u8]) -> u32 {
    let mut state = [0; STATE_LENGTH];
    let (mut number, _) = library::sweep_start(request, &mut state);
    if number == SHEET {
        number = UNFINISHED;
    }
    while number == UNFINISHED {
        (number, _) = library::sweep_advance(&mut state, ADVANCE_MOST, &mut [0; PAGE]);
    }
    number
}

/// The same by the reference.
fn whole_by_reference(request: &[u8]) -> u32 {
    let start = model::sweep_start(request, STATE_LENGTH);
    let (mut number, mut state) = (start.number, start.written);
    if number == SHEET {
        number = UNFINISHED;
    }
    while number == UNFINISHED {
        let (outcome, after) = model::sweep_advance(&state, ADVANCE_MOST, PAGE);
        (number, state) = (outcome.number, after);
    }
    number
}

pub fn rates_of_sweeps(plants: &[Request]) {
    let all = requests(plants, |_| true);
    let rates = rates(&all, whole, whole_by_reference);
    row("sweep by steps of 1,000", rates);
}

/// Two times over the plants of each tank flow, and over all.
fn by_flow(plants: &[Request], of: impl Fn(&Request) -> [Duration; 2]) -> [[Duration; 2]; 3] {
    let sum =
        |first: [Duration; 2], second: [Duration; 2]| [first[0] + second[0], first[1] + second[1]];
    let [horizontal, vertical] = [0, 1].map(|flow| {
        let some = plants.iter().filter(|plant| plant.get(TANK_FLOW) == flow);
        some.map(&of).fold([Duration::ZERO; 2], sum)
    });
    [horizontal, vertical, sum(horizontal, vertical)]
}

/// The state of a plant's sweep after so many advances.
fn state_after(plant: &Request, advances: u32) -> Vec<u8> {
    let mut state = plant.state_bytes(0, NONE_YET);
    for _ in 0..advances {
        library::sweep_advance(&mut state, ADVANCE_MOST, &mut [0; PAGE]);
    }
    state
}

fn advance(state: &[u8]) -> u32 {
    let mut state = state.to_vec();
    library::sweep_advance(&mut state, ADVANCE_MOST, &mut [0; PAGE]).0
}

/// The requests to examine the candidates that an advance asks for, one after the
/// other.
fn examinations_of(plant: &Request, advances: u32) -> Vec<u8> {
    let flow = FLOWS[plant.get(TANK_FLOW) as usize];
    let first = advances * ADVANCE_MOST;
    let mut requests = Vec::new();
    for place in stretch(flow, first, first + ADVANCE_MOST) {
        let [f, r, h] = words_of(Some(place));
        requests.extend(plant.with_candidate(f, r, h).examine_bytes());
    }
    requests
}

fn examine_each(requests: &[u8]) -> u32 {
    let requests = requests.chunks_exact(EXAMINE_LENGTH);
    requests
        .map(|request| library::examine(request, &mut [0; PAGE]).0)
        .sum()
}

/// The times of 1,000 examinations and of an advance by the same candidates, over
/// advances from the start to the end of a plant's sweep.
fn examinations_and_advances(plant: &Request) -> [Duration; 2] {
    let whole_advances = grid_number(plant) / ADVANCE_MOST;
    let places = (0..ADVANCES).map(|place| place * (whole_advances - 1) / (ADVANCES - 1));
    let pairs: Vec<[Vec<u8>; 2]> = places
        .map(|advances| {
            [
                examinations_of(plant, advances),
                state_after(plant, advances),
            ]
        })
        .collect();
    let pairs = pairs.iter().map(|[examinations, state]| {
        let each: Timed = (examine_each, &examinations[..]);
        [each, (advance, &state[..])]
    });
    times(pairs, &SELDOM)
}

/// The time of an advance by 1,000 candidates in hundredths of that of their
/// examinations, over all plants.
pub fn advance_beside_examinations(plants: &[Request]) -> f64 {
    let [horizontal, vertical, all] = by_flow(plants, examinations_and_advances).map(share);
    println!(
        "advance by 1,000: {all:.1}% of the time of 1,000 examinations, \
         horizontal flow {horizontal:.1}%, vertical flow {vertical:.1}%"
    );
    all
}

/// The times of a choice and of a whole sweep for a plant.
fn choice_and_sweep(plant: &Request) -> [Duration; 2] {
    let request = plant.choose_bytes();
    let pair: [Timed; 2] = [(choice, &request[..]), (whole, &request[..])];
    times([pair].into_iter(), &SELDOM)
}

/// How many times that of a choice is the time of a whole sweep, over all plants.
pub fn sweep_beside_choice(plants: &[Request]) -> f64 {
    let shares = by_flow(plants, choice_and_sweep).map(share);
    let [horizontal, vertical, all] = shares.map(|share| share / 100.0);
    println!(
        "sweep by steps of 1,000: the time of {all:.0} choices, \
         horizontal flow {horizontal:.0}, vertical flow {vertical:.0}"
    );
    all
}
