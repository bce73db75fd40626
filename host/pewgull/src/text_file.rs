//! A text file that is read line by line, and what is wrong with its lines.

use std::str::SplitWhitespace;

/// Most faults that are told of one file.
const TOLD: usize = 10;

/// What is wrong with a line, and what was expected there.
#[derive(Clone, Debug, PartialEq, Eq)]
pub struct Fault {
    pub line: usize,
    pub what: String,
}

/// The first faults of a file, and how many more there are.
#[derive(Default)]
pub struct Faults {
    told: Vec<Fault>,
    rest: usize,
    first_of_rest: usize,
}

impl Faults {
    pub fn add(&mut self, line: usize, what: String) {
        if self.told.len() < TOLD {
            self.told.push(Fault { line, what });
            return;
        }
        if self.rest == 0 {
            self.first_of_rest = line;
        }
        self.rest += 1;
    }

    /// The faults told, if there are any, and a last one that counts the rest.
    pub fn none_or(mut self, expected: &str) -> Result<(), Vec<Fault>> {
        if self.rest > 0 {
            let what = format!(
                "{} more faults from here on; expected {expected}, see pewgull --help",
                self.rest
            );
            let line = self.first_of_rest;
            self.told.push(Fault { line, what });
        }
        match self.told.is_empty() {
            true => Ok(()),
            false => Err(self.told),
        }
    }
}

/// Reads a text file line by line, each with its number, its first word and
/// the words after that, and then what is due at its end; `#` starts a comment.
/// The faults come in the order of the lines.
pub fn read<State>(
    bytes: &[u8],
    expected: &str,
    mut state: State,
    line: impl Fn(&mut State, usize, &str, SplitWhitespace) -> Result<(), String>,
    end: impl Fn(&mut State) -> Result<(), String>,
) -> Result<State, Vec<Fault>> {
    let text = text(bytes, expected).map_err(|fault| vec![fault])?;
    let mut faults = Faults::default();
    let mut last = 1;
    for (place, content) in text.lines().enumerate() {
        last = place + 1;
        let content = content.split('#').next().unwrap_or_default();
        let mut words = content.split_whitespace();
        let Some(first) = words.next() else {
            continue;
        };
        if let Err(what) = line(&mut state, last, first, words) {
            faults.add(last, what);
        }
    }
    if let Err(what) = end(&mut state) {
        faults.add(last, what);
    }
    faults.none_or(expected)?;
    Ok(state)
}

/// The file as text. A byte order mark at its start is left out.
pub fn text<'a>(bytes: &'a [u8], expected: &str) -> Result<&'a str, Fault> {
    let text = match std::str::from_utf8(bytes) {
        _ if bytes.contains(&0) => {
            let valid = std::str::from_utf8(bytes).map_or_else(|e| e.valid_up_to(), str::len);
            let end = bytes.iter().take(valid).position(|&byte| byte == 0);
            let what = format!("not a text file; expected {expected} in UTF-8");
            return Err(fault_at(bytes, end.unwrap_or(valid), &what));
        }
        Err(error) => {
            let end = error.valid_up_to();
            let what = format!(
                "byte {:02x} is not UTF-8; expected {expected} in UTF-8: \
                 one in Latin-1 or another code has to be saved anew",
                bytes[end]
            );
            return Err(fault_at(bytes, end, &what));
        }
        Ok(text) => text,
    };
    let alone = |pair: &[u8]| pair[0] == b'\r' && pair[1] != b'\n';
    if let Some(place) = bytes.windows(2).position(alone) {
        let what = "a line ends in CR alone; expected line ends of LF or CR LF";
        return Err(fault_at(bytes, place, what));
    }
    Ok(text.strip_prefix('\u{feff}').unwrap_or(text))
}

/// A fault at a byte: its line is counted by LF.
fn fault_at(bytes: &[u8], place: usize, what: &str) -> Fault {
    Fault {
        line: 1 + bytes[..place].iter().filter(|&&b| b == b'\n').count(),
        what: what.to_string(),
    }
}
