//! How far a sweep is: a line on standard error that is written anew in its
//! place, where that is a terminal.

use crate::state_file::State;
use crate::values::grouped;
use library::number::SHEET;
use library::sheet::GRID;
use library::{sweep_examine, Candidate, Progress, PAGE_LENGTH};
use std::io::{self, IsTerminal, Write};

/// The line is written about once for so many candidates, also where a sweep
/// goes by fewer.
const EVERY: u32 = 1_000;
/// A terminal shows Ctrl-C as two characters at the line's end.
const ECHO: usize = 2;

pub struct Line {
    is_terminal: bool,
    /// Columns that it takes now
    columns: usize,
    /// How many times `EVERY` it was written at
    at: Option<u32>,
}

impl Line {
    /// Nothing is written yet.
    pub fn empty() -> Line {
        Line {
            is_terminal: io::stderr().is_terminal(),
            columns: 0,
            at: None,
        }
    }

    /// Shows how far the sweep of this state is.
    pub fn show(&mut self, state: &State, grid: u32) {
        let at = Some(Progress::from_state(state).asked / EVERY);
        if self.is_terminal && self.at != at {
            self.at = at;
            self.write(&text(state, grid));
        }
    }

    /// Writes over what stood there.
    fn write(&mut self, text: &str) {
        let columns = self.columns;
        let line = format!("\r{text:<columns$}");
        // A line that cannot be written is not worth a message.
        let _ = io::stderr().write_all(line.as_bytes());
        self.columns = text.len();
    }
}

/// The line is gone before anything else is printed.
impl Drop for Line {
    fn drop(&mut self) {
        if self.columns > 0 {
            self.columns += ECHO;
            self.write("");
            self.write("");
        }
    }
}

/// How many of how many candidates, and the best so far with its total.
pub fn text(state: &State, grid: u32) -> String {
    let Progress { asked, best } = Progress::from_state(state);
    let (asked, grid) = (grouped(asked.into()), grouped(grid.into()));
    let of = format!("{asked} of {grid} candidates");
    let Some(best) = best else {
        return format!("{of}, none permitted yet");
    };
    let [fraction, return_ratio, thickening] = GRID.map(|side| side.of(&best));
    let total = total(state, best).map(|total| format!(": total {} m3", grouped(total)));
    let total = total.unwrap_or_default();
    format!("{of}, best so far {fraction} {return_ratio} {thickening}{total}")
}

/// The total of a candidate of the sweep's plant, where it is permitted.
fn total(state: &State, candidate: Candidate) -> Option<u64> {
    let [fraction, return_ratio, thickening] = GRID.map(|side| side.of(&candidate));
    let mut page = [0; PAGE_LENGTH];
    let (number, written) = sweep_examine(state, fraction, return_ratio, thickening, &mut page);
    let listing = String::from_utf8_lossy(&page[..written as usize]).into_owned();
    let mut lines = listing.lines().filter(|_| number == SHEET);
    lines.find_map(|line| line.strip_prefix("total ")?.parse().ok())
}
