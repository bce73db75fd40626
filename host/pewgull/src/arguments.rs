//! The command line, and the table of the commands.

use crate::answer::{self, Answer};
use crate::built::{ENDS, SIZES};
use crate::keys::INDEX;
use crate::price;
use crate::sweep;
use crate::values;
use library::sheet::{Side, GRID};
use library::{Candidate, Date, Request, Split, Terms, ADVANCE_MOST};
use library::{Existing, Span, LEAST_SIZE};
use std::ffi::OsString;

/// What a command takes, and the call that answers it.
#[derive(Clone, Copy)]
pub enum Action {
    /// `FILE...`: each plant by itself
    Plants(fn(&Request) -> Answer),
    /// `FILE F R H`: one plant and one candidate
    Candidate(fn(&Request, Candidate) -> Answer),
    /// `LOG...`: each day log by itself
    Logs(fn(&[u8]) -> Answer),
    /// `FILE MM-DD`: the terms of one file and one date
    Date(fn(&Terms, Date) -> Answer),
    /// `FILE...`: each works by itself, split by its shares
    Works(fn(&Request, &Split) -> Answer),
    /// `FILE`: one plant, some candidates at a time
    Sweep,
    /// One plant, its existing tanks and a span of sludge volume indices
    Built(fn(&Request, &Existing, &Span) -> Answer),
    /// One plant and one tariff, with a candidate or without
    Price,
    /// `FILE [F R H]`: one plant, with a candidate or without
    Length,
    /// `FILE FILE`: two plants
    Beside,
}

pub struct Form {
    pub name: &'static str,
    /// What it prints
    pub about: &'static str,
    pub action: Action,
}

/// The commands. A new one is an entry here, and its answer.
pub const COMMANDS: &[Form] = &[
    Form {
        name: "choose",
        about: "the sheet of the permitted design of least volume",
        action: Action::Plants(answer::choose),
    },
    Form {
        name: "examine",
        about: "the sheet of one candidate, or its refusal's number",
        action: Action::Candidate(answer::examine),
    },
    Form {
        name: "explain",
        about: "the figures a candidate is judged by, and their limits",
        action: Action::Candidate(answer::explain),
    },
    Form {
        name: "census",
        about: "how many candidates are permitted, how many stopped",
        action: Action::Plants(answer::census),
    },
    Form {
        name: "load",
        about: "the highest 14-day load of a day log, or a text file",
        action: Action::Logs(answer::load),
    },
    Form {
        name: "target",
        about: "the lowest nitrate target in force on that day",
        action: Action::Date(answer::target),
    },
    Form {
        name: "works",
        about: "the sums of a works in several lines, and each sheet",
        action: Action::Works(answer::works),
    },
    Form {
        name: "sweep",
        about: "what choose prints, by N at a time; can be put down",
        action: Action::Sweep,
    },
    Form {
        name: "built",
        about: "if these m3, m2 and mm hold every SVI of LEAST..MOST",
        action: Action::Built(answer::built),
    },
    Form {
        name: "price",
        about: "the price in cents, of the choice or of F R H",
        action: Action::Price,
    },
    Form {
        name: "length",
        about: "how many bytes choose prints, or examine of F R H",
        action: Action::Length,
    },
    Form {
        name: "beside",
        about: "which keys differ, and both designs line by line",
        action: Action::Beside,
    },
];

impl Form {
    /// The words after the command.
    pub fn words(&self) -> &'static str {
        match self.action {
            Action::Plants(_) | Action::Works(_) => "FILE...",
            Action::Candidate(_) => "FILE F R H",
            Action::Logs(_) => "[--csv] LOG...",
            Action::Date(_) => "FILE MM-DD",
            Action::Sweep => "FILE [--by N] [--state FILE]",
            Action::Built(_) => "FILE REACTOR SURFACE DEPTH F H LEAST MOST",
            Action::Price => "FILE TARIFF [F R H]",
            Action::Length => "FILE [F R H]",
            Action::Beside => "FILE FILE",
        }
    }

    /// An option that is another command's alone is an error.
    fn allows(&self, given: &Words) -> Result<(), String> {
        let options = [
            ("--csv", given.csv, "load"),
            ("--by", given.by.is_some(), "sweep"),
            ("--state", given.state.is_some(), "sweep"),
        ];
        let mut options = options.iter().filter(|(_, is_given, _)| *is_given);
        match options.find(|(_, _, command)| *command != self.name) {
            None => Ok(()),
            Some((option, _, command)) => Err(usage(&format!(
                "{option} is for the command {command} alone"
            ))),
        }
    }

    /// Its task, and its files.
    fn read(&self, words: &[OsString], given: &Words) -> Result<(Task, Vec<OsString>), String> {
        match self.action {
            Action::Plants(call) => Ok((Task::Plants(call), self.files(words)?)),
            Action::Works(call) => Ok((Task::Works(call), self.files(words)?)),
            Action::Logs(call) => {
                let csv = given.csv;
                Ok((Task::Logs { call, csv }, self.files(words)?))
            }
            Action::Candidate(call) => {
                let (file, candidate) = file_and_candidate(self.name, words)?;
                Ok((Task::Candidate(call, candidate), vec![file]))
            }
            Action::Date(call) => {
                let (file, date) = file_and_date(self.name, words)?;
                Ok((Task::Date(call, date), vec![file]))
            }
            Action::Sweep => {
                let file = self.one_file(words)?;
                let (by, state) = (by(given)?, state(given)?);
                Ok((Task::Sweep(sweep::Options { by, state }), vec![file]))
            }
            Action::Built(call) => {
                let (file, existing, span) = self.file_and_tanks(words)?;
                Ok((Task::Built(call, existing, span), vec![file]))
            }
            Action::Price => {
                let (file, options) = self.file_and_tariff(words)?;
                Ok((Task::Price(options), vec![file]))
            }
            Action::Length => {
                let (file, candidate) = self.file_and_any_candidate(words)?;
                Ok((Task::Length(candidate), vec![file]))
            }
            Action::Beside => {
                let (first, second) = self.two_files(words)?;
                Ok((Task::Beside(second), vec![first]))
            }
        }
    }

    /// One file alone.
    fn one_file(&self, words: &[OsString]) -> Result<OsString, String> {
        match words {
            [file] => Ok(file.clone()),
            _ => Err(usage(&format!(
                "expected {} {}, one file (words given: {})",
                self.name,
                self.words(),
                words.len()
            ))),
        }
    }

    /// FILE REACTOR SURFACE DEPTH F H LEAST MOST.
    fn file_and_tanks(&self, words: &[OsString]) -> Result<(OsString, Existing, Span), String> {
        let [file, reactor, surface, depth, fraction, thickening, least, most] = words else {
            return Err(usage(&format!(
                "expected {} {}, one file and seven numbers (words given: {})",
                self.name,
                self.words(),
                words.len()
            )));
        };
        let existing = Existing {
            reactor: size(0, reactor)?,
            surface: size(1, surface)?,
            depth: size(2, depth)?,
            fraction: number(&GRID[0], fraction)?,
            thickening: number(&GRID[2], thickening)?,
        };
        let span = Span {
            least: end(0, least)?,
            most: end(1, most)?,
        };
        Ok((file.clone(), existing, span))
    }

    /// FILE TARIFF [F R H].
    fn file_and_tariff(&self, words: &[OsString]) -> Result<(OsString, price::Options), String> {
        let (file, tariff, candidate) = match words {
            [file, tariff] => (file, tariff, None),
            [file, tariff, fraction, return_ratio, thickening] => {
                let numbers = [fraction, return_ratio, thickening];
                (file, tariff, Some(candidate(numbers)?))
            }
            _ => {
                return Err(usage(&format!(
                    "expected {} {}, a plant file, a tariff file and three numbers or none \
                     (words given: {})",
                    self.name,
                    self.words(),
                    words.len()
                )))
            }
        };
        if file == "-" && tariff == "-" {
            return Err(usage(
                "FILE and TARIFF are both '-'; expected one of them from standard input at most",
            ));
        }
        let tariff = tariff.clone();
        Ok((file.clone(), price::Options { tariff, candidate }))
    }

    /// FILE [F R H].
    fn file_and_any_candidate(
        &self,
        words: &[OsString],
    ) -> Result<(OsString, Option<Candidate>), String> {
        match words {
            [file] => Ok((file.clone(), None)),
            [file, fraction, return_ratio, thickening] => {
                let candidate = candidate([fraction, return_ratio, thickening])?;
                Ok((file.clone(), Some(candidate)))
            }
            _ => Err(usage(&format!(
                "expected {} {}, one file and three numbers or none (words given: {})",
                self.name,
                self.words(),
                words.len()
            ))),
        }
    }

    /// FILE FILE.
    fn two_files(&self, words: &[OsString]) -> Result<(OsString, OsString), String> {
        let [first, second] = words else {
            return Err(usage(&format!(
                "expected {} {}, two plant files (words given: {})",
                self.name,
                self.words(),
                words.len()
            )));
        };
        if first == "-" && second == "-" {
            return Err(usage(
                "both files are '-'; expected one of them from standard input at most",
            ));
        }
        Ok((first.clone(), second.clone()))
    }

    /// One file or more.
    fn files(&self, words: &[OsString]) -> Result<Vec<OsString>, String> {
        match words.is_empty() {
            true => Err(usage(&format!("expected {} {}", self.name, self.words()))),
            false => Ok(words.to_vec()),
        }
    }
}

/// What is to be done with each file of a command.
pub enum Task {
    Plants(fn(&Request) -> Answer),
    Candidate(fn(&Request, Candidate) -> Answer, Candidate),
    Logs {
        call: fn(&[u8]) -> Answer,
        /// Day logs are given as text
        csv: bool,
    },
    Date(fn(&Terms, Date) -> Answer, Date),
    Works(fn(&Request, &Split) -> Answer),
    Sweep(sweep::Options),
    Built(fn(&Request, &Existing, &Span) -> Answer, Existing, Span),
    Price(price::Options),
    /// The candidate whose listing is measured; none: the design chosen
    Length(Option<Candidate>),
    /// The second file
    Beside(OsString),
}

/// A command with its words.
pub struct Command {
    pub task: Task,
    pub json: bool,
    pub files: Vec<OsString>,
}

pub enum Order {
    /// The short help of `--help`
    Help,
    /// `help`: everything
    Manual,
    Version,
    Run(Command),
}

/// The words without options. Options may stand anywhere before `--`.
#[derive(Default)]
struct Words {
    help: bool,
    version: bool,
    json: bool,
    csv: bool,
    by: Option<OsString>,
    state: Option<OsString>,
    plain: Vec<OsString>,
}

fn sort(words: &[OsString]) -> Result<Words, String> {
    let mut sorted = Words::default();
    let mut options_ended = false;
    let mut words = words.iter();
    while let Some(word) = words.next() {
        let text = word.to_string_lossy();
        match text.as_ref() {
            _ if options_ended => sorted.plain.push(word.clone()),
            "--" => options_ended = true,
            "--help" | "-h" => sorted.help = true,
            "--version" => sorted.version = true,
            "--json" => sorted.json = true,
            "--csv" => sorted.csv = true,
            "--by" => put(&mut sorted.by, "--by", "a whole number", words.next())?,
            "--state" => put(&mut sorted.state, "--state", "a file", words.next())?,
            option if is_option(option) => {
                return Err(usage(&format!(
                    "'{}' is no option; expected --json, --csv, --by, --state, --help or --version",
                    values::shown(option)
                )))
            }
            _ => sorted.plain.push(word.clone()),
        }
    }
    Ok(sorted)
}

/// Puts in the word after an option.
fn put(
    place: &mut Option<OsString>,
    option: &str,
    expected: &str,
    word: Option<&OsString>,
) -> Result<(), String> {
    if place.is_some() {
        return Err(usage(&format!(
            "{option} was given already; expected it once"
        )));
    }
    match word.filter(|word| !is_option(&word.to_string_lossy())) {
        Some(value) => *place = Some(value.clone()),
        None => {
            return Err(usage(&format!(
                "{option} has no value; expected {expected}"
            )))
        }
    }
    Ok(())
}

/// A negative number is no option: it is told of as a number. A hyphen alone
/// is standard input.
fn is_option(word: &str) -> bool {
    word.starts_with('-') && word.len() > 1 && !word[1..].starts_with(|c: char| c.is_ascii_digit())
}

fn usage(message: &str) -> String {
    format!("{message}; see pewgull --help")
}

/// The names of the commands, as a message lists them.
fn names() -> String {
    let names: Vec<&str> = COMMANDS.iter().map(|form| form.name).collect();
    format!("{} or help", names.join(", "))
}

/// Reads the words after the tool's name. The error says what was expected.
pub fn parse(words: &[OsString]) -> Result<Order, String> {
    let sorted = sort(words)?;
    if sorted.help {
        return Ok(Order::Help);
    }
    if sorted.version {
        return Ok(Order::Version);
    }
    let Some((name, rest)) = sorted.plain.split_first() else {
        return Err(usage(&format!("no command; expected {}", names())));
    };
    let name = name.to_string_lossy();
    if name == "help" {
        return Ok(Order::Manual);
    }
    let Some(form) = COMMANDS.iter().find(|form| form.name == name) else {
        let name = values::shown(&name);
        return Err(usage(&format!(
            "'{name}' is no command; expected {}",
            names()
        )));
    };
    form.allows(&sorted)?;
    let (task, files) = form.read(rest, &sorted)?;
    Ok(Order::Run(Command {
        task,
        json: sorted.json,
        files,
    }))
}

/// `--by N`. More candidates than an advance takes are the library's to refuse.
fn by(given: &Words) -> Result<u32, String> {
    let word = given.by.as_ref().map(|word| word.to_string_lossy());
    let wrong = match word.map_or(Ok(ADVANCE_MOST), |word| values::whole(&word)) {
        Ok(0) => "a sweep by 0 candidates never ends".to_string(),
        Ok(by) => return Ok(by),
        Err(wrong) => wrong,
    };
    Err(usage(&format!(
        "--by: {wrong}; expected a whole number, 1..{ADVANCE_MOST}"
    )))
}

/// `--state FILE`.
fn state(given: &Words) -> Result<Option<OsString>, String> {
    match &given.state {
        Some(state) if state == "-" => {
            Err(usage("--state: '-' cannot keep a state; expected a file"))
        }
        state => Ok(state.clone()),
    }
}

/// FILE MM-DD.
fn file_and_date(name: &str, words: &[OsString]) -> Result<(OsString, Date), String> {
    let [file, date] = words else {
        return Err(usage(&format!(
            "expected {name} FILE MM-DD, one file and one date (words given: {})",
            words.len()
        )));
    };
    let date = values::date(&date.to_string_lossy())
        .map_err(|wrong| usage(&format!("{wrong}; expected month and day, such as 02-29")))?;
    Ok((file.clone(), date))
}

/// FILE F R H.
fn file_and_candidate(name: &str, words: &[OsString]) -> Result<(OsString, Candidate), String> {
    let [file, fraction, return_ratio, thickening] = words else {
        return Err(usage(&format!(
            "expected {name} FILE F R H, one file and three numbers (words given: {})",
            words.len()
        )));
    };
    let candidate = candidate([fraction, return_ratio, thickening])?;
    Ok((file.clone(), candidate))
}

/// F R H.
fn candidate(words: [&OsString; 3]) -> Result<Candidate, String> {
    let ([first, second, third], [fraction, return_ratio, thickening]) = (&GRID, words);
    Ok(Candidate {
        fraction: number(first, fraction)?,
        return_ratio: number(second, return_ratio)?,
        thickening: number(third, thickening)?,
    })
}

fn number(side: &Side, word: &OsString) -> Result<u32, String> {
    values::whole(&word.to_string_lossy()).map_err(|wrong| {
        let Side {
            letter,
            meaning,
            unit,
            ..
        } = side;
        let range = side.range();
        usage(&format!(
            "{meaning} {letter}: {wrong}; expected a whole number, {range}, in {unit}"
        ))
    })
}

/// A size of the existing tanks, by its place. A 0 is the library's to refuse.
fn size(place: usize, word: &OsString) -> Result<u32, String> {
    let (name, line) = (SIZES[place].word, SIZES[place].line);
    values::whole(&word.to_string_lossy()).map_err(|wrong| {
        let (meaning, unit) = (line.meaning, line.unit);
        usage(&format!(
            "{meaning} {name}: {wrong}; expected a whole number, at least {LEAST_SIZE}, in {unit}"
        ))
    })
}

/// An end of a span of sludge volume indices, by its place. Its range is the
/// library's to hold it to.
fn end(place: usize, word: &OsString) -> Result<u32, String> {
    values::whole(&word.to_string_lossy()).map_err(|wrong| {
        let (name, range, unit) = (ENDS[place], INDEX.digits(), INDEX.unit);
        usage(&format!(
            "sludge volume index {name}: {wrong}; expected a whole number, {range}, in {unit}"
        ))
    })
}
