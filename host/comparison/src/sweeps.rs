//! Sweeps: lists of calls after a start, states that no start reaches, and
//! states on the lines where two answers meet.

use crate::counts::Found;
use crate::requests;
use crate::sweep_calls::{ahead, asked, compare_call, compare_start, grid_number, Call};
use cases::lines::on_cover;
use cases::model;
use cases::plants::{case_a, roomy, with_candidate};
use cases::random::Random;
use cases::request::*;
use cases::tanks::{OnLines, FLOWS};
use library::{ADVANCE_MOST, PAGE_LENGTH};
use reference::sweep::stretch;
use reference::Answer;

/// Every candidate of the grid in the sweep's order, for each tank flow.
pub struct Grids([Vec<CandidateWords>; 2]);

impl Grids {
    pub fn find() -> Self {
        Grids(FLOWS.map(|flow| {
            let all = stretch(flow, 0, u32::MAX).into_iter();
            all.map(|place| words_of(Some(place))).collect()
        }))
    }

    pub fn of(&self, plant: &Request) -> &[CandidateWords] {
        &self.0[plant.get(TANK_FLOW).min(1) as usize]
    }
}

/// A plant of which the first fractions are mostly covered.
fn early(random: &mut Random) -> Request {
    let fraction = random.within(200, 206);
    let plant = requests::with_design(random).with(FRACTION, fraction);
    on_cover(plant, 0).unwrap_or(plant)
}

/// A plant for a sweep, which mostly has a design.
pub fn plant(random: &mut Random, tanks: &OnLines) -> Request {
    match random.within(0, 3) {
        0 => requests::sound(random, tanks),
        1 => requests::with_design(random),
        _ => early(random),
    }
}

/// Above what an advance may ask for, some of them not in fewer bits.
const TOO_MANY: [u32; 8] = [
    1_001,
    1_002,
    2_000,
    1 << 16,
    (1 << 16) + 500,
    (1 << 31) + 7,
    u32::MAX - 999,
    u32::MAX,
];

/// Candidates of an advance, of which so many are left: any number, or one about
/// a line.
fn candidates(random: &mut Random, left: u32) -> u32 {
    match random.within(0, 11) {
        0 => random.pick(&[0, 1, 2, 5, 6, 7]),
        1 => random.pick(&[275, 276, 277, 425, 426, 427]),
        2 | 3 => ADVANCE_MOST,
        4 => random.pick(&TOO_MANY),
        5 | 6 if left < ADVANCE_MOST => (left + random.within(0, 2)).saturating_sub(1),
        _ => random.within(0, ADVANCE_MOST),
    }
}

fn any_call(random: &mut Random, plant: &Request, left: u32) -> Call {
    match random.within(0, 9) {
        0 => Call::Examine(plant.candidate_words()),
        1 => Call::Examine(with_candidate(random, *plant).candidate_words()),
        2 => Call::Examine(requests::edged_candidate(random, *plant).candidate_words()),
        _ => Call::Advance(candidates(random, left)),
    }
}

/// Calls from a state in turn, while there are to be more.
fn calls(
    random: &mut Random,
    plant: &Request,
    mut state: Vec<u8>,
    mut more: impl FnMut(&[u8]) -> bool,
    found: &mut Found,
) {
    while more(&state) {
        let left = grid_number(plant).saturating_sub(asked(&state));
        let call = any_call(random, plant, left);
        match compare_call(&state, call, requests::page_length(random)) {
            Ok((number, after)) => {
                found.add(Ok(number));
                state = after;
            }
            Err(difference) => return found.add(Err(difference)),
        }
    }
}

/// The state of a sweep that was started on a plant, if there is one.
fn started(plant: &Request, found: &mut Found) -> Option<Vec<u8>> {
    match compare_start(&plant.choose_bytes(), STATE_LENGTH) {
        Ok((_, state)) => state,
        Err(difference) => {
            found.add(Err(difference));
            None
        }
    }
}

/// Eight calls after a start, or some way on, or about the end.
pub fn list(random: &mut Random, tanks: &OnLines, found: &mut Found) {
    let plant = plant(random, tanks);
    let Some(state) = started(&plant, found) else {
        return;
    };
    let grid = grid_number(&plant);
    let place = match random.within(0, 3) {
        0 | 1 => 0,
        2 => random.within(0, grid),
        _ => grid - random.within(0, 3_000),
    };
    let mut left = 9;
    let more = |_: &[u8]| {
        left -= 1;
        left > 0
    };
    calls(random, &plant, ahead(state, place), more, found);
}

/// Calls from a start to the end, and six after it.
pub fn whole_list(random: &mut Random, tanks: &OnLines, found: &mut Found) {
    let plant = plant(random, tanks);
    let Some(state) = started(&plant, found) else {
        return;
    };
    let grid = grid_number(&plant);
    let mut left = 7;
    let more = |state: &[u8]| {
        left -= u32::from(asked(state) == grid);
        left > 0
    };
    calls(random, &plant, state, more, found);
}

/// Mostly as long as a state.
pub fn state_length(random: &mut Random) -> usize {
    match random.within(0, 15) {
        0 => random.within(0, 239) as usize,
        1 => STATE_LENGTH - 1,
        2 => random.within(241, 300) as usize,
        _ => STATE_LENGTH,
    }
}

/// A number asked for so far, of the grid, about its number or above it.
fn number(random: &mut Random, grid: u32) -> u32 {
    match random.within(0, 9) {
        0 => random.pick(&[0, grid - 1, grid]),
        1 | 2 => grid - random.within(0, ADVANCE_MOST),
        3 => random.pick(&[grid + 1, grid + 1_000, 1 << 17, 1 << 31, u32::MAX]),
        4 => random.pick(&[83_076, 83_077, 128_226, 128_227, u32::MAX - 999]),
        _ => random.within(0, grid),
    }
}

/// Nearly none yet, and what is off the grid.
const NO_BESTS: [CandidateWords; 10] = [
    [0, 0, 1],
    [0, 1, 0],
    [1, 0, 0],
    [0, 30, 20],
    [300, 0, 20],
    [300, 50, 0],
    [199, 50, 22],
    [501, 50, 22],
    [350, 29, 22],
    [u32::MAX, u32::MAX, u32::MAX],
];

/// Whether the library permits a candidate of a plant.
fn is_permitted(plant: &Request, [f, r, h]: CandidateWords) -> bool {
    let request = plant.with_candidate(f, r, h).examine_bytes();
    library::examine(&request, &mut [0; PAGE_LENGTH]).0 == library::number::SHEET
}

/// One of some candidates that is permitted, if one is found soon.
fn permitted(
    random: &mut Random,
    plant: &Request,
    all: &[CandidateWords],
) -> Option<CandidateWords> {
    let picked = (0..40).map(|_| random.pick(all));
    picked.into_iter().find(|place| is_permitted(plant, *place))
}

/// A best that is mostly permitted: before the number, after it, or anywhere.
fn best(
    random: &mut Random,
    plant: &Request,
    all: &[CandidateWords],
    number: u32,
) -> CandidateWords {
    let number = (number as usize).clamp(1, all.len() - 1);
    let found = match random.within(0, 11) {
        0 | 1 => None,
        2 => Some(random.pick(&NO_BESTS)),
        3 => Some(random.pick(all)),
        4 | 5 => Some(plant.candidate_words()),
        6 | 7 => permitted(random, plant, &all[..number]),
        8 | 9 => permitted(random, plant, &all[number..]),
        _ => permitted(random, plant, all),
    };
    found.unwrap_or(NONE_YET)
}

/// A word of a state put to any value, or some of its bytes cut off or put on.
fn damaged(random: &mut Random, mut state: Vec<u8>) -> Vec<u8> {
    let bits = random.bits() as u32;
    if random.one_in(2) {
        let length = random.pick(&[0, 3, 4, 224, 236, 239, 241, 244]);
        state.resize(length, bits as u8);
        return state;
    }
    let word = random.within(0, STATE_WORDS as u32 - 1) as usize;
    let value = random.pick(&[0, 1, 2, 255, 1 << 16, u32::MAX, bits, bits]);
    with_word(&state, word, value)
}

/// A state with another word.
fn with_word(state: &[u8], word: usize, value: u32) -> Vec<u8> {
    let mut changed = state.to_vec();
    changed[4 * word..4 * word + 4].copy_from_slice(&value.to_le_bytes());
    changed
}

/// A state that mostly no start reaches, now and then damaged, and a call.
pub fn any_state(random: &mut Random, tanks: &OnLines, grids: &Grids) -> (Vec<u8>, Call) {
    let plant = match random.one_in(4) {
        true => requests::any_plant(random, tanks),
        false => plant(random, tanks),
    };
    let grid = grid_number(&plant);
    let number = number(random, grid);
    let best = best(random, &plant, grids.of(&plant), number);
    let state = plant.state_bytes(number, best);
    let call = any_call(random, &plant, grid.saturating_sub(number));
    match random.one_in(12) {
        true => (damaged(random, state), call),
        false => (state, call),
    }
}

/// A state whose best is the plant's candidate, mostly on a line or just past it,
/// and the number that examining that gives.
pub fn with_own_best(random: &mut Random, tanks: &OnLines) -> (Vec<u8>, u32) {
    let plant = requests::any_plant(random, tanks);
    let number = random.within(0, grid_number(&plant));
    let state = plant.state_bytes(number, plant.candidate_words());
    let examined = model::examine(&plant.examine_bytes(), PAGE_LENGTH);
    (state, examined.number)
}

/// How a best that is handed on lies to the first of the candidates that are
/// asked for next: its total is one less, the same or one more, and its place
/// is before or after.
#[derive(Clone, Copy, Debug, PartialEq, Eq)]
pub struct Beside {
    pub total: i64,
    pub after: bool,
}

/// A state, the candidates that are asked for next, and how its best lies to the
/// first of these.
pub type Tie = (Vec<u8>, u32, Beside);

/// Places on either side that are searched for a total.
const SPAN: usize = 2_500;

/// States whose best has about the total of the first of the candidates that are
/// asked for next.
pub fn ties(random: &mut Random, grids: &Grids) -> Vec<Tie> {
    let plant = requests::with_design(random);
    let all = grids.of(&plant);
    let Ok(decoded) = plant.decoded() else {
        return Vec::new();
    };
    let total = |place: usize| {
        let examined =
            reference::examine(&decoded.plant, &decoded.readings, candidate(&all[place]));
        match examined {
            Answer::Sheet(sheet) => Some(sheet.total_volume as i64),
            Answer::Refused(_) => None,
        }
    };
    let number = random.within(0, all.len() as u32 - 1) as usize;
    let end = (number + random.within(1, ADVANCE_MOST) as usize).min(all.len());
    let next = (number..end).filter_map(|place| Some((total(place)?, place)));
    let Some((least, first)) = next.min() else {
        return Vec::new();
    };
    let about = number.saturating_sub(SPAN)..(end + SPAN).min(all.len());
    let mut found = Vec::new();
    for place in about.filter(|place| *place < number || *place > first) {
        let beside = total(place).map(|total| total - least);
        if let Some(total @ -1..=1) = beside {
            let state = plant.state_bytes(number as u32, all[place]);
            let after = place > first;
            found.push((state, (end - number) as u32, Beside { total, after }));
        }
    }
    some_of_each(random, found)
}

/// At most two of each sort.
fn some_of_each(random: &mut Random, mut ties: Vec<Tie>) -> Vec<Tie> {
    let mut some: Vec<Tie> = Vec::new();
    while !ties.is_empty() {
        let tie = ties.swap_remove(random.within(0, ties.len() as u32 - 1) as usize);
        if some.iter().filter(|other| other.2 == tie.2).count() < 2 {
            some.push(tie);
        }
    }
    some
}

/// Plants of both tank flows with permitted candidates at most places, or from a
/// fraction on; with terms, a dose, and in the COD way.
pub fn edge_plants() -> Vec<Request> {
    let seasons = roomy().with_terms(&[[11, 1, 3, 31, 8, 36_000], [4, 1, 10, 31, 12, 20_000]]);
    let by_cod = roomy()
        .with(WAY, BY_COD)
        .with(PROCESS, 1)
        .with(DOSE, 20_000);
    let small = roomy().with(FLOW, 40).with(WET_WEATHER_FLOW, 5);
    [roomy(), case_a(), seasons, by_cod, small]
        .into_iter()
        .flat_map(|plant| [0, 1].map(|flow| plant.with(TANK_FLOW, flow)))
        .collect()
}

/// Numbers about the edges of the grid, of a fraction and of a return ratio.
fn edge_numbers(grid: u32) -> Vec<u32> {
    let of_fraction = grid / 301;
    let mut numbers = vec![0, 1, 5, 6, 7];
    for fraction in [1, 2, 100, 101, 300] {
        let first = fraction * of_fraction;
        numbers.extend([first - 6, first - 1, first, first + 1, first + 6]);
    }
    numbers.extend([1_000, 999, 277, 276, 6, 2, 1, 0].map(|less| grid - less));
    numbers
}

/// Advances from the edges and to the edges, among them to the grid's number and
/// to one less and one more; with none yet and with a best.
pub fn edges() -> Vec<(Vec<u8>, Call)> {
    let mut all = Vec::new();
    for plant in edge_plants() {
        let grid = grid_number(&plant);
        let of_fraction = grid / 301;
        for number in edge_numbers(grid) {
            let mut candidates = vec![0, 1, 2, 5, 6, 7, ADVANCE_MOST];
            candidates.extend([of_fraction - 1, of_fraction, of_fraction + 1]);
            let left = grid - number;
            if left <= ADVANCE_MOST {
                candidates.extend([left.saturating_sub(1), left, left + 1]);
            }
            for candidates in candidates {
                for best in [NONE_YET, [330, 60, 22]] {
                    let state = plant.state_bytes(number, best);
                    all.push((state, Call::Advance(candidates)));
                }
            }
        }
    }
    all
}

/// Data that are refused with each of the numbers 1, 17, 2 to 4 and 14.
fn refused_data() -> Vec<Request> {
    let plant = roomy();
    vec![
        plant.with(LOAD, 0),
        plant.with(SLUDGE_VOLUME_INDEX, 181),
        plant.with_reading(SOLIDS, MEASURED, f32::NAN.to_bits()),
        plant.with_reading(BOD, HEADS, 0),
        plant.with_measured(COD, 450_000),
        plant.with(TERM_COUNT, 5),
    ]
}

/// Each reason for 19 alone and beside the others: data, number, best, and too
/// many candidates; and each of them just kept.
pub fn orders() -> Vec<(Vec<u8>, Call)> {
    let mut all = Vec::new();
    let plants = [vec![roomy(), roomy().with(TANK_FLOW, 1)], refused_data()].concat();
    for plant in plants {
        let grid = grid_number(&plant);
        for number in [0, grid, grid + 1, u32::MAX] {
            for best in [NONE_YET, [300, 60, 20], [300, 101, 20], [0, 0, 1]] {
                let state = plant.state_bytes(number, best);
                let advances = [0, 1_000, 1_001, u32::MAX].map(Call::Advance);
                all.extend(advances.map(|call| (state.clone(), call)));
                all.push((state, Call::Examine([300, 60, 20])));
            }
        }
    }
    all
}

/// Every length up to some bytes more than a state, of this version and of its
/// neighbours, in each way and an unknown one.
pub fn lengths() -> Vec<Vec<u8>> {
    let mut states = Vec::new();
    for version in [EARLIER_VERSION, NEWEST_VERSION, LATER_VERSION] {
        for way in [BY_BOD, BY_COD, 2] {
            let plant = roomy().with(VERSION, version).with(WAY, way);
            for length in 0..=300 {
                let mut state = plant.state_bytes(5, [200, 30, 20]);
                state.resize(length, 0);
                states.push(state);
            }
        }
    }
    states
}

/// Every word of some states put to values about its own and far from it.
pub fn damaged_words() -> Vec<Vec<u8>> {
    let mut states = Vec::new();
    for plant in edge_plants() {
        let state = plant.state_bytes(40_000, [330, 60, 22]);
        for word in 0..STATE_WORDS {
            let four = &state[4 * word..4 * word + 4];
            let own = u32::from_le_bytes(four.try_into().unwrap());
            let about = [own.wrapping_sub(1), own.wrapping_add(1)];
            let far = [8, 16, 31].map(|bit| own ^ (1 << bit));
            let values = about.into_iter().chain(far).chain([0, 2, 181, u32::MAX]);
            states.extend(values.map(|value| with_word(&state, word, value)));
        }
    }
    states
}
