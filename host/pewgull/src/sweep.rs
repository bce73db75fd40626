//! The command `sweep`: a choice that goes on by some candidates at a time, and
//! can be put down. The numbers are the library's: here is only looked for what
//! 19 is due to.

use crate::answer::{self, Answer};
use crate::census;
use crate::interruption;
use crate::progress::Line;
use crate::refusal::headed;
use crate::state_file::{name_of, State, StateFile};
use crate::values::{filled, grouped, quoted};
use library::number::{self, ADVANCE, NO_DESIGN, SHEET, UNFINISHED};
use library::sheet::{candidates, GRID};
use library::{Progress, Request, ADVANCE_MOST, PAGE_LENGTH, STATE_LENGTH};
use std::ffi::{OsStr, OsString};

/// What the command line says of a sweep.
pub struct Options {
    /// Candidates of an advance
    pub by: u32,
    /// The file that keeps the state
    pub state: Option<OsString>,
}

/// How a sweep ends.
pub enum End {
    /// With an answer, and the words of its refusal where they are the sweep's
    /// own
    Answered(Answer, Option<String>),
    /// Put down, with so many candidates asked for
    Interrupted { asked: u32, grid: u32 },
}

/// Sweeps for a plant, from the start or from the state that is kept. The error
/// says what is wrong with the file of the state.
pub fn run(request: &Request, options: &Options) -> Result<End, String> {
    let data = request.to_choose();
    let mut state = [0; STATE_LENGTH];
    let (number, _) = library::sweep_start(&data, &mut state);
    if number != SHEET {
        return Ok(End::Answered(answer::refused(number), None));
    }
    let path = options.state.as_deref();
    let mut file = path.map(|path| StateFile::open(path, &data)).transpose()?;
    if let Some(stored) = file.as_ref().and_then(StateFile::stored) {
        state = stored;
    }
    interruption::watch();
    let grid = candidates(request.tank);
    let mut line = Line::empty();
    loop {
        let mut page = [0; PAGE_LENGTH];
        let (number, written) = library::sweep_advance(&mut state, options.by, &mut page);
        let ends = number != UNFINISHED || interruption::asked();
        let moved = [UNFINISHED, SHEET, NO_DESIGN].contains(&number);
        if let Some(file) = file.as_mut().filter(|_| moved) {
            file.keep(&state, ends)?;
        }
        if number != UNFINISHED {
            let answer = answer::listed(number, &page[..written as usize]);
            let words = own_words(number, request, options, &state);
            return Ok(End::Answered(answer, words));
        }
        if ends {
            let asked = Progress::from_state(&state).asked;
            return Ok(End::Interrupted { asked, grid });
        }
        line.show(&state, grid);
    }
}

/// The message of a refusal that only a sweep gets, or that only its state
/// leads to.
fn own_words(number: u32, request: &Request, options: &Options, state: &State) -> Option<String> {
    if number == ADVANCE && options.by > ADVANCE_MOST {
        return Some(headed(number, &too_many(options.by)));
    }
    let name = name_of(options.state.as_deref()?);
    let wrong = match number {
        ADVANCE => not_valid(request, state),
        NO_DESIGN => not_reached(request)?,
        _ => return None,
    };
    let text = format!("the state in {name} {wrong}.{}", filled(ANEW));
    Some(headed(number, &text))
}

fn too_many(by: u32) -> String {
    let advice = format!("Give --by 1..{ADVANCE_MOST}, or leave it out for {ADVANCE_MOST}");
    format!(
        "an advance takes at most {ADVANCE_MOST} candidates, and --by is {by}.{}",
        filled(&advice)
    )
}

/// What to do where the state is damaged.
const ANEW: &str = "The file is damaged, or was changed by hand. Remove it, or name another one \
    with --state, to start the sweep anew";

/// Why an advance from a state of accepted data is refused.
fn not_valid(request: &Request, state: &State) -> String {
    let Progress { asked, best } = Progress::from_state(state);
    let grid = candidates(request.tank);
    if asked > grid {
        let (asked, grid) = (grouped(asked.into()), grouped(grid.into()));
        return format!("has {asked} candidates asked for, and the grid holds {grid}");
    }
    let examined = best.map(|best| (best, answer::examine(request, best).number));
    match examined {
        Some((best, number)) if number != SHEET => {
            let [fraction, return_ratio, thickening] = GRID.map(|side| side.of(&best));
            let word = number::word(number).unwrap_or("unknown");
            format!(
                "has a best so far that is not permitted: \
                 {fraction} {return_ratio} {thickening} gets {number} ({word})"
            )
        }
        _ => "is not valid".to_string(),
    }
}

/// What is wrong with a state that leads to no design, where the plant has one.
fn not_reached(request: &Request) -> Option<String> {
    let permitted = census::counts(request).ok()?.permitted();
    let told = grouped(permitted);
    (permitted > 0)
        .then(|| format!("has passed over every permitted candidate, and the grid holds {told}"))
}

/// Where the state of a sweep that was put down is, and how to go on.
pub fn kept(options: &Options, file: &OsStr, json: bool) -> String {
    let Some(state) = options.state.as_deref() else {
        return "nothing was kept: --state FILE would keep it".to_string();
    };
    let mut words = vec!["pewgull sweep".to_string()];
    words.extend(json.then(|| "--json".to_string()));
    if options.by != ADVANCE_MOST {
        words.push(format!("--by {}", options.by));
    }
    words.push(format!("--state {}", quoted(&state.to_string_lossy())));
    let file = file.to_string_lossy();
    if file.len() > 1 && file.starts_with('-') {
        words.push("--".to_string());
    }
    words.push(quoted(&file));
    let command = words.join(" ");
    format!(
        "the state is in {}, and this goes on from it: {command}",
        name_of(state)
    )
}
