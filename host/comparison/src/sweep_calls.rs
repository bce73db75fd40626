//! Calls of a sweep to the library and to the reference: the number, the count,
//! the page, and the state after the call.

use crate::compare::{hex, listed, shown};
use crate::guarded::Guarded;
use cases::model::{self, Outcome};
use cases::request::{CandidateWords, Request, NONE_YET, TANK_FLOW};
use cases::request::{CHOOSE_LENGTH, STATE_LENGTH};
use cases::tanks::FLOWS;
use library::number::{NO_DESIGN, SHEET, UNFINISHED};
use library::{ADVANCE_MOST, PAGE_LENGTH};

#[derive(Clone, Copy, Debug)]
pub enum Call {
    /// By so many candidates.
    Advance(u32),
    Examine(CandidateWords),
}

/// What is answered to a call with a state.
#[derive(PartialEq, Eq)]
struct Answered {
    number: u32,
    written: u64,
    page: Guarded,
    state: Guarded,
}

fn by_library(before: &[u8], call: Call, page_length: usize) -> Answered {
    let mut state = Guarded::holding(before);
    let mut page = Guarded::new(page_length);
    let (number, written) = match call {
        Call::Advance(candidates) => library::sweep_advance(state.lent(), candidates, page.lent()),
        Call::Examine([f, r, h]) => library::sweep_examine(state.lent(), f, r, h, page.lent()),
    };
    Answered {
        number,
        written,
        page,
        state,
    }
}

/// What the reference answers, and the state after the call.
pub fn expected(before: &[u8], call: Call, page_length: usize) -> (Outcome, Vec<u8>) {
    match call {
        Call::Advance(candidates) => model::sweep_advance(before, candidates, page_length),
        Call::Examine(place) => {
            let outcome = model::sweep_examine(before, place, page_length);
            (outcome, before.to_vec())
        }
    }
}

/// The number of candidates asked for so far that stands in a state.
pub fn asked(state: &[u8]) -> u32 {
    progress(state)[0]
}

/// The words after the data of a state, which may be of any length.
fn progress(state: &[u8]) -> Vec<u32> {
    let after = state.get(CHOOSE_LENGTH..).unwrap_or(&[]);
    let words = after.chunks_exact(4);
    let word = |four: &[u8]| {
        four.iter()
            .rev()
            .fold(0, |n, byte| n << 8 | u32::from(*byte))
    };
    words.map(word).collect()
}

fn line(name: &str, answered: &Answered) -> String {
    let page = answered.page.bytes();
    let count = (answered.written as usize).min(page.len());
    format!(
        "\n  {name:<10} {} {} {} state {:?}",
        answered.number,
        answered.written,
        shown(&page[..count]),
        progress(answered.state.bytes())
    )
}

/// The number and the state after the call, or how the library's answer differs
/// from the expected one.
pub fn agree(
    before: &[u8],
    call: Call,
    page_length: usize,
    (outcome, after): &(Outcome, Vec<u8>),
) -> Result<(u32, Vec<u8>), String> {
    let given = by_library(before, call, page_length);
    let wanted = Answered {
        number: outcome.number,
        written: outcome.written.len() as u64,
        page: Guarded::new(page_length).starting(&outcome.written),
        state: Guarded::holding(after),
    };
    if given == wanted {
        return Ok((outcome.number, after.clone()));
    }
    let mut text = format!("{call:?}, page of {page_length}: {}", hex(before));
    text += &line("library", &given);
    text += &line("reference", &wanted);
    for (name, same) in [
        ("page", given.page == wanted.page),
        ("state", given.state == wanted.state),
    ] {
        if !same {
            text += &format!("\n  bytes of the {name}, or around it, differ");
        }
    }
    Err(text)
}

/// The library's answer against the reference's: the number and the state after
/// the call.
pub fn compare_call(
    before: &[u8],
    call: Call,
    page_length: usize,
) -> Result<(u32, Vec<u8>), String> {
    let wanted = expected(before, call, page_length);
    agree(before, call, page_length, &wanted)
}

/// The library's start against the reference's, for a state of this length: the
/// number, and the state if there is one.
pub fn compare_start(
    request: &[u8],
    state_length: usize,
) -> Result<(u32, Option<Vec<u8>>), String> {
    let mut state = Guarded::new(state_length);
    let (number, written) = library::sweep_start(request, state.lent());
    let outcome = model::sweep_start(request, state_length);
    let wanted = Guarded::new(state_length).starting(&outcome.written);
    let count = outcome.written.len() as u64;
    if (number, written) != (outcome.number, count) || state != wanted {
        return Err(format!(
            "Start, state of {state_length}: {}\n  library    {number} {written} {:?}\n  \
             reference  {} {count} {:?}",
            hex(request),
            progress(state.bytes()),
            outcome.number,
            progress(&outcome.written)
        ));
    }
    Ok((number, (number == SHEET).then_some(outcome.written)))
}

/// The state after steps of the library alone, which end before this number of
/// candidates is passed.
pub fn ahead(mut state: Vec<u8>, number: u32) -> Vec<u8> {
    for _ in 0..number / ADVANCE_MOST {
        library::sweep_advance(&mut state, ADVANCE_MOST, &mut [0; PAGE_LENGTH]);
    }
    state
}

/// What the library's advance by so many candidates says, and its listing.
fn advanced(state: &mut [u8], candidates: u32) -> (u32, Vec<u8>) {
    let mut page = [0; PAGE_LENGTH];
    let (number, written) = library::sweep_advance(state, candidates, &mut page);
    (number, page[..written as usize].to_vec())
}

/// Candidates of the grid of a plant.
pub fn grid_number(plant: &Request) -> u32 {
    reference::sweep::grid_number(FLOWS[plant.get(TANK_FLOW).min(1) as usize])
}

/// A whole sweep of the library against its choice, by steps that go by the
/// number asked for so far, and by two steps more. Gives the choice's number.
pub fn compare_whole(plant: &Request, step: impl Fn(u32) -> u32) -> Result<u32, String> {
    let request = plant.choose_bytes();
    let chosen = listed(library::choose, &request);
    let mut state = [0; STATE_LENGTH];
    let (started, _) = library::sweep_start(&request, &mut state);
    if ![SHEET, NO_DESIGN].contains(&chosen.0) {
        return match started == chosen.0 && state == [0; STATE_LENGTH] {
            true => Ok(started),
            false => Err(format!(
                "Start: {started}, not {chosen:?}: {}",
                hex(&request)
            )),
        };
    }
    let (mut asked, mut left) = (0, 3);
    while left > 0 {
        let candidates = step(asked);
        asked += candidates;
        let due = match asked < grid_number(plant) {
            true => (UNFINISHED, Vec::new()),
            false => chosen.clone(),
        };
        left -= u32::from(due == chosen);
        let found = advanced(&mut state, candidates);
        if found != due {
            let (number, listing) = (found.0, shown(&found.1));
            let request = hex(&request);
            return Err(format!(
                "Sweep at {asked}: {number} {listing}, not {due:?}: {request}"
            ));
        }
    }
    Ok(chosen.0)
}

/// The library's advance by one from a place, none yet, against the candidate of
/// that place, which it examines itself. Gives the advance's number.
pub fn compare_place(
    plant: &Request,
    place: u32,
    [f, r, h]: CandidateWords,
) -> Result<u32, String> {
    let examined = listed(
        library::examine,
        &plant.with_candidate(f, r, h).examine_bytes(),
    );
    let (best, last) = match examined.0 {
        SHEET => ([f, r, h], examined),
        _ => (NONE_YET, (NO_DESIGN, b"refused 5\n".to_vec())),
    };
    let due = match place + 1 < grid_number(plant) {
        true => (UNFINISHED, Vec::new()),
        false => last,
    };
    let mut state = plant.state_bytes(place, NONE_YET);
    let found = advanced(&mut state, 1);
    match found == due && state == plant.state_bytes(place + 1, best) {
        true => Ok(due.0),
        false => Err(format!(
            "Advance by 1 from {place}: {} {:?}, not {} {best:?}: {}",
            found.0,
            progress(&state),
            due.0,
            hex(&plant.choose_bytes())
        )),
    }
}
