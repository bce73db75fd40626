//! A plant file: one `key value` per line, `#` starts a comment.

use crate::keys::{self, Given, KEYS};
use crate::text_file::{self, Fault};
use crate::values;
use library::{Request, MOST_TERMS};
use std::str::SplitWhitespace;

/// What is expected of a file.
pub const EXPECTED: &str = "a plant file";

/// What a plant file holds.
#[derive(Default)]
pub struct PlantFile {
    pub request: Request,
    /// Of the lines of a works, thousandths; none where the key is left out
    pub shares: Vec<u32>,
    /// Where the terms stand: as many as may be there, and one more
    pub term_lines: Vec<usize>,
}

/// Reads the text of a plant file. The faults come in the order of the
/// lines, missing keys last.
pub fn parse(bytes: &[u8]) -> Result<PlantFile, Vec<Fault>> {
    read(bytes, fill)
}

/// Reads a plant file of which the terms alone are wanted: any key may be
/// left out.
pub fn parse_terms(bytes: &[u8]) -> Result<PlantFile, Vec<Fault>> {
    read(bytes, |_, _| Ok(()))
}

/// For each key the first line that has it.
type FirstLines = [Option<usize>; KEYS.len()];

/// Reads every line, and then fills in what no line has.
fn read(
    bytes: &[u8],
    fill: fn(&mut PlantFile, &FirstLines) -> Result<(), String>,
) -> Result<PlantFile, Vec<Fault>> {
    let start = (PlantFile::default(), [None; KEYS.len()]);
    let end = |(file, first_lines): &mut State| fill(file, first_lines);
    let (file, _) = text_file::read(bytes, EXPECTED, start, read_line, end)?;
    Ok(file)
}

/// What is known while the lines are read.
type State = (PlantFile, FirstLines);

/// Reads one line.
fn read_line(
    (file, first_lines): &mut State,
    number: usize,
    name: &str,
    words: SplitWhitespace,
) -> Result<(), String> {
    let Some(place) = KEYS.iter().position(|key| key.name == name) else {
        return Err(unknown(name));
    };
    let key = &KEYS[place];
    match (first_lines[place], key.given) {
        (_, Given::Often) if file.term_lines.len() <= MOST_TERMS => file.term_lines.push(number),
        (_, Given::Often) | (None, _) => {}
        (Some(first), _) => {
            return Err(format!(
                "key '{name}' was given in line {first} already; expected each key once"
            ))
        }
    }
    first_lines[place] = Some(number);
    key.put(file, words)
        .map_err(|wrong| format!("{wrong}; expected {}", key.expected()))
}

/// A word that is no key, with the key that is written nearly so.
fn unknown(name: &str) -> String {
    let expected = match keys::similar(name) {
        Some(key) => format!("'{key}', or another key of pewgull --help"),
        None => format!("one of: {}", keys::names()),
    };
    format!("'{}' is no key; expected {expected}", values::shown(name))
}

/// Puts in the defaults of the keys that no line has. The error names the
/// keys without a default.
fn fill(file: &mut PlantFile, first_lines: &FirstLines) -> Result<(), String> {
    let mut missing = Vec::new();
    for (key, line) in KEYS.iter().zip(first_lines) {
        match (line, key.given) {
            (Some(_), _) | (None, Given::OnceOrNone | Given::Often) => {}
            (None, Given::OnceOr(value)) => key.put(file, value.split_whitespace())?,
            (None, Given::Once) => missing.push(key),
        }
    }
    match missing.as_slice() {
        [] => Ok(()),
        [key] => Err(format!(
            "key '{}' is missing; expected {}",
            key.name,
            key.expected()
        )),
        several => {
            let names: Vec<_> = several.iter().map(|key| key.name).collect();
            Err(format!(
                "{} keys are missing; expected also: {}",
                several.len(),
                names.join(" ")
            ))
        }
    }
}
