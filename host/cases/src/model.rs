//! What each call of the interface answers, by the reference.

use crate::request::{candidate, decode, decode_built, decode_price, decode_state, decode_target};
use crate::request::{decode_works, words_of, CandidateWords, CHOOSE_LENGTH, EXAMINE_LENGTH};
use crate::request::{LINE_LENGTH, PRICE_CHOOSE_LENGTH, PRICE_EXAMINE_LENGTH};
use crate::request::{STATE_LENGTH, WORKS_LENGTH};
use reference::stages::{InTerm, Stages};
use reference::{listing, Answer, Priced, Progress, Sheet, Sweep};

pub const SHORT_PAGE: u32 = reference::refusal::SHORT_PAGE as u32;
/// An advance that leaves its sweep unfinished.
pub const UNFINISHED: u32 = 100;
/// Bytes that explaining writes.
pub const EXPLAIN_PAGE: usize = 8 * FIGURES;
/// Figures that explaining gives: of the candidate, then of each of four terms.
const FIGURES: usize = OF_CANDIDATE + 4 * OF_TERM;
const OF_CANDIDATE: usize = 9;
const OF_TERM: usize = 5;
/// Bytes that a census writes.
pub const CENSUS_PAGE: usize = 256;
/// Bytes that a two-week load writes.
pub const LOAD_PAGE: usize = 16;
/// Bytes that a target in force takes.
pub const TARGET_PAGE: usize = 8;
/// Bytes that a works writes: eight sums, and the sheets of eight lines.
pub const WORKS_PAGE: usize = 8 * (8 + 8 * 15);
/// Bytes that built tanks take.
pub const BUILT_PAGE: usize = 8;
/// Bytes that a price takes: the figures of the sheet, then the price.
pub const PRICE_PAGE: usize = 8 * (15 + 1);

/// The call's number and the bytes it writes at the start of the page.
#[derive(Clone, Debug, PartialEq, Eq)]
pub struct Outcome {
    pub number: u32,
    pub written: Vec<u8>,
}

fn nothing(number: u32) -> Outcome {
    let written = Vec::new();
    Outcome { number, written }
}

fn listed(answer: &Answer, page_length: usize) -> Outcome {
    let written = listing(answer);
    if written.len() > page_length {
        return nothing(SHORT_PAGE);
    }
    let number = u32::from(answer.number());
    Outcome { number, written }
}

pub fn examine(request: &[u8], page_length: usize) -> Outcome {
    match decode(request, EXAMINE_LENGTH) {
        Err(fault) => nothing(fault),
        Ok(data) => {
            let answer = reference::examine(&data.plant, &data.readings, data.candidate);
            listed(&answer, page_length)
        }
    }
}

pub fn choose(request: &[u8], page_length: usize) -> Outcome {
    match decode(request, CHOOSE_LENGTH) {
        Err(fault) => nothing(fault),
        Ok(data) => listed(&reference::choose(&data.plant, &data.readings), page_length),
    }
}

/// The number of an answer, and how many bytes its listing takes.
fn measured(answer: &Answer) -> (u32, u64) {
    (u32::from(answer.number()), reference::length(answer) as u64)
}

/// The length of what examining lists, 0 for a malformed request.
pub fn length_examine(request: &[u8]) -> (u32, u64) {
    match decode(request, EXAMINE_LENGTH) {
        Err(fault) => (fault, 0),
        Ok(data) => measured(&reference::examine(
            &data.plant,
            &data.readings,
            data.candidate,
        )),
    }
}

/// The same of choosing.
pub fn length_choose(request: &[u8]) -> (u32, u64) {
    match decode(request, CHOOSE_LENGTH) {
        Err(fault) => (fault, 0),
        Ok(data) => measured(&reference::choose(&data.plant, &data.readings)),
    }
}

/// The same of a line's own answer.
pub fn length_line(request: &[u8]) -> (u32, u64) {
    match decode_works(request, LINE_LENGTH) {
        Err(fault) => (fault, 0),
        Ok(data) => measured(&reference::line(
            &data.plant,
            &data.readings,
            &data.split,
            data.line,
        )),
    }
}

/// The figures that the rules 7 to 10 ask of, and the number of the first rule
/// that is broken, a term's included.
fn of_candidate(stages: &Stages, verdict: u8) -> [u64; OF_CANDIDATE] {
    [
        stages.nitrate.to_denitrify,
        stages.by_bod,
        stages.nitrate.by_dose,
        stages.removable,
        stages.settling.solids,
        stages.settling.diluted_volume,
        stages.settling.surface,
        stages.settling.depth,
        u64::from(verdict),
    ]
}

/// The figures that the rules 15 and 16 ask of; zeros past the count.
fn of_term(term: &Option<InTerm>) -> [u64; OF_TERM] {
    match term {
        None => [0; OF_TERM],
        Some(term) => [
            term.aerobic_share,
            term.fraction,
            term.to_denitrify,
            term.by_bod,
            term.removable,
        ],
    }
}

fn judged_by(stages: &Stages, verdict: u8) -> Vec<u64> {
    let mut figures = of_candidate(stages, verdict).to_vec();
    figures.extend(stages.terms.iter().flat_map(of_term));
    figures
}

/// The figures as 64-bit numbers, or a refusal and zeros.
pub fn explain(request: &[u8], page_length: usize) -> Outcome {
    let data = match decode(request, EXAMINE_LENGTH) {
        Err(fault) => return nothing(fault),
        Ok(data) => data,
    };
    if page_length < EXPLAIN_PAGE {
        return nothing(SHORT_PAGE);
    }
    let (number, figures) = match reference::explain(&data.plant, &data.readings, data.candidate) {
        Err(number) => (u32::from(number), vec![0; FIGURES]),
        Ok(stages) => {
            let answer = reference::examine(&data.plant, &data.readings, data.candidate);
            (0, judged_by(&stages, answer.number()))
        }
    };
    put(number, &figures)
}

/// The numbers in eight bytes each, the lowest byte first.
fn put(number: u32, figures: &[u64]) -> Outcome {
    let written = figures.iter().flat_map(|f| f.to_le_bytes()).collect();
    Outcome { number, written }
}

/// A count for each number from 0 on, or a refusal and zeros.
pub fn census(request: &[u8], page_length: usize) -> Outcome {
    let data = match decode(request, CHOOSE_LENGTH) {
        Err(fault) => return nothing(fault),
        Ok(data) => data,
    };
    if page_length < CENSUS_PAGE {
        return nothing(SHORT_PAGE);
    }
    match reference::census(&data.plant, &data.readings) {
        Err(number) => put(u32::from(number), &[0; CENSUS_PAGE / 8]),
        Ok(counts) => put(0, &counts),
    }
}

/// Sum and day of a day log, or a refusal and zeros.
pub fn load(log: &[u8], page_length: usize) -> Outcome {
    if page_length < LOAD_PAGE {
        return nothing(SHORT_PAGE);
    }
    match reference::two_week_load(log) {
        Err(number) => put(u32::from(number), &[0; LOAD_PAGE / 8]),
        Ok(load) => put(0, &[load.sum, load.day]),
    }
}

/// The lowest target in force on a date, 0 where no term runs, or a refusal
/// and 0.
pub fn target(request: &[u8], page_length: usize) -> Outcome {
    let (consent, month, day) = match decode_target(request) {
        Err(fault) => return nothing(fault),
        Ok(asked) => asked,
    };
    if page_length < TARGET_PAGE {
        return nothing(SHORT_PAGE);
    }
    match reference::target_in_force(&consent, month, day) {
        Err(number) => put(u32::from(number), &[0]),
        Ok(target) => put(0, &[target.map_or(0, u64::from)]),
    }
}

/// The sums over the lines and then each line's sheet, zeros past the lines, or
/// a refusal and zeros.
pub fn works(request: &[u8], page_length: usize) -> Outcome {
    let data = match decode_works(request, WORKS_LENGTH) {
        Err(fault) => return nothing(fault),
        Ok(data) => data,
    };
    if page_length < WORKS_PAGE {
        return nothing(SHORT_PAGE);
    }
    let works = reference::works(&data.plant, &data.readings, &data.split);
    let mut figures = works.sums.figures().to_vec();
    figures.extend(works.sheets.iter().flat_map(Sheet::figures));
    put(u32::from(works.number), &figures)
}

/// The listing of one line's own answer.
pub fn line(request: &[u8], page_length: usize) -> Outcome {
    match decode_works(request, LINE_LENGTH) {
        Err(fault) => nothing(fault),
        Ok(data) => {
            let answer = reference::line(&data.plant, &data.readings, &data.split, data.line);
            listed(&answer, page_length)
        }
    }
}

/// The smallest index of the span that cannot be won, 0 where the tanks hold, or
/// a refusal and 0.
pub fn built(request: &[u8], page_length: usize) -> Outcome {
    let data = match decode_built(request) {
        Err(fault) => return nothing(fault),
        Ok(data) => data,
    };
    if page_length < BUILT_PAGE {
        return nothing(SHORT_PAGE);
    }
    match reference::built(&data.plant, &data.readings, &data.existing, &data.span) {
        Err(number) => put(u32::from(number), &[0]),
        Ok(lost) => put(0, &[lost.map_or(0, u64::from)]),
    }
}

/// The figures of the sheet and its price, or a refusal and zeros.
pub fn price_page(priced: &Priced) -> Outcome {
    let mut figures = priced.answer.sheet().figures().to_vec();
    figures.push(priced.price);
    put(u32::from(priced.answer.number()), &figures)
}

/// The choice and its price.
pub fn price_choose(request: &[u8], page_length: usize) -> Outcome {
    match decode_price(request, PRICE_CHOOSE_LENGTH) {
        Err(fault) => nothing(fault),
        Ok(_) if page_length < PRICE_PAGE => nothing(SHORT_PAGE),
        Ok((data, tariff)) => {
            let priced = reference::price_choose(&data.plant, &data.readings, &tariff);
            price_page(&priced)
        }
    }
}

/// The candidate examined and its price.
pub fn price_examine(request: &[u8], page_length: usize) -> Outcome {
    match decode_price(request, PRICE_EXAMINE_LENGTH) {
        Err(fault) => nothing(fault),
        Ok(_) if page_length < PRICE_PAGE => nothing(SHORT_PAGE),
        Ok((data, tariff)) => {
            let (plant, readings) = (&data.plant, &data.readings);
            price_page(&reference::price_examine(
                plant,
                readings,
                data.candidate,
                &tariff,
            ))
        }
    }
}

/// A start: the state of a sweep that nothing was asked of, for the bytes lent to
/// it, or a refusal and nothing.
pub fn sweep_start(request: &[u8], state_length: usize) -> Outcome {
    let data = match decode(request, CHOOSE_LENGTH) {
        Err(fault) => return nothing(fault),
        Ok(data) => data,
    };
    match reference::sweep::start(&data.plant, &data.readings) {
        Err(number) => nothing(u32::from(number)),
        Ok(_) if state_length < STATE_LENGTH => nothing(SHORT_PAGE),
        Ok(sweep) => Outcome {
            number: 0,
            written: put_state(request, &sweep),
        },
    }
}

/// The bytes of a state: the data as they were, then number and best.
fn put_state(data: &[u8], sweep: &Sweep) -> Vec<u8> {
    let mut state = data[..CHOOSE_LENGTH].to_vec();
    state.extend(sweep.asked.to_le_bytes());
    let best = words_of(sweep.best);
    state.extend(best.iter().flat_map(|word| word.to_le_bytes()));
    state
}

/// An advance: what is written on the page, and the state after it. A sweep
/// whose listing does not fit stays where it is.
pub fn sweep_advance(state: &[u8], candidates: u32, page_length: usize) -> (Outcome, Vec<u8>) {
    let stays = |outcome: Outcome| (outcome, state.to_vec());
    let sweep = match decode_state(state) {
        Err(fault) => return stays(nothing(fault)),
        Ok(sweep) => sweep,
    };
    let (next, progress) = match sweep.advance(candidates) {
        Err(number) => return stays(listed(&Answer::Refused(number), page_length)),
        Ok(moved) => moved,
    };
    let outcome = match progress {
        Progress::Unfinished(_) => nothing(UNFINISHED),
        Progress::Finished(answer) => listed(&answer, page_length),
    };
    match outcome.number {
        SHORT_PAGE => stays(outcome),
        _ => (outcome, put_state(state, &next)),
    }
}

/// The listing of a candidate of the sweep's plant.
pub fn sweep_examine(state: &[u8], place: CandidateWords, page_length: usize) -> Outcome {
    match decode_state(state) {
        Err(fault) => nothing(fault),
        Ok(sweep) => listed(&sweep.examine(candidate(&place)), page_length),
    }
}
