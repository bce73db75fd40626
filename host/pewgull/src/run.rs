//! One command on one file.

use crate::answer::{self, Answer};
use crate::arguments::{Command, Task};
use crate::beside::{self, Works};
use crate::built;
use crate::consent;
use crate::day_file::{self, Log};
use crate::input::{contents, reason};
use crate::json::{self, Member};
use crate::load;
use crate::plant_file::{self, PlantFile};
use crate::price;
use crate::refusal;
use crate::state_file::name_of;
use crate::sweep::{self, End, Options};
use crate::tariff_file::{self, TariffFile};
use crate::text_file::Fault;
use crate::values::{escaped, grouped};
use crate::works;
use library::number::{self, is_refusal, SHEET};
use library::Split;
use std::ffi::OsStr;

/// Exit status of a refusal.
pub const REFUSED: u8 = 1;
/// Exit status of a file or usage error.
pub const FILE_ERROR: u8 = 2;
/// Exit status of a sweep that is put down, as a shell has it for Ctrl-C.
pub const INTERRUPTED: u8 = 130;

/// What a command on a file prints, says on standard error and ends with.
pub struct Outcome {
    pub status: u8,
    pub printed: Vec<u8>,
    pub messages: Vec<String>,
}

/// What came of a file, before it is printed.
struct Found {
    status: u8,
    text: Vec<u8>,
    members: Vec<Member>,
    messages: Vec<String>,
}

/// Runs the command on one of its files.
pub fn answer(command: &Command, file: &OsStr) -> Outcome {
    let name = file.to_string_lossy();
    let result = found(command, file, &escaped(&name)).unwrap_or_else(error);
    let printed = match command.json {
        true => {
            let mut members = vec![json::text("file", &name)];
            members.extend(result.members);
            json::object(&members).into_bytes()
        }
        false if command.files.len() > 1 => {
            let heading = format!("# {}\n", escaped(&name));
            [heading.as_bytes(), &result.text].concat()
        }
        false => result.text,
    };
    Outcome {
        status: result.status,
        printed,
        messages: result.messages,
    }
}

/// A file that cannot be answered for: nothing is printed but the object.
fn error(messages: Vec<String>) -> Found {
    Found {
        status: FILE_ERROR,
        text: Vec::new(),
        members: vec![
            json::text("status", "error"),
            json::text("message", &messages.join("\n")),
        ],
        messages,
    }
}

/// What comes of a file, or why it cannot be answered for.
fn found(command: &Command, file: &OsStr, name: &str) -> Result<Found, Vec<String>> {
    match &command.task {
        Task::Plants(call) => {
            let plant = read(file, name, plant_file::parse)?;
            settled(call(&plant.request), name, |number| {
                refusal::words(number, &plant, None)
            })
        }
        Task::Candidate(call, candidate) => {
            let plant = read(file, name, plant_file::parse)?;
            settled(call(&plant.request, *candidate), name, |number| {
                refusal::words(number, &plant, Some(*candidate))
            })
        }
        Task::Logs { call, csv } => {
            let log = read_log(file, name, *csv)?;
            settled(call(&log.bytes), name, |number| load::words(number, &log))
        }
        Task::Date(call, date) => {
            let plant = read(file, name, plant_file::parse_terms)?;
            settled(call(&plant.request.terms, *date), name, |number| {
                consent::words(number, &plant, *date)
            })
        }
        Task::Works(call) => {
            let plant = read(file, name, plant_file::parse)?;
            let split = Split::of(&plant.shares);
            let words = |number| works::words(number, &plant);
            settled(call(&plant.request, &split), name, words)
        }
        Task::Sweep(options) => swept(options, command.json, file, name),
        Task::Built(call, existing, span) => {
            let plant = read(file, name, plant_file::parse)?;
            let words = |number| built::words(number, &plant, existing, span);
            settled(call(&plant.request, existing, span), name, words)
        }
        Task::Price(options) => priced(options, file, name),
        Task::Length(candidate) => {
            let plant = read(file, name, plant_file::parse)?;
            let words = |number| refusal::words(number, &plant, *candidate);
            let answer = answer::length(&plant.request, *candidate, words);
            settled(answer, name, words)
        }
        Task::Beside(second) => beside(second, file, name),
    }
}

/// What comes of two works: their table, and the words of each that is refused.
fn beside(second: &OsStr, file: &OsStr, name: &str) -> Result<Found, Vec<String>> {
    let second_name = name_of(second);
    let (first, second) = both(
        read(file, name, plant_file::parse),
        read(second, &second_name, plant_file::parse),
    )?;
    let works = [Works::of(name, &first), Works::of(&second_name, &second)];
    let mut messages = Vec::new();
    for works in &works {
        match works.number {
            SHEET => {}
            number if is_refusal(number) => {
                let words = refusal::words(number, works.plant, None);
                messages.push(format!("{}: {words}", works.name));
            }
            number => return Err(vec![other_version(works.name, number)]),
        }
    }
    let mut members = vec![json::text("status", "beside")];
    members.extend(beside::members(&works));
    if !messages.is_empty() {
        members.push(json::text("message", &messages.join("\n")));
    }
    Ok(Found {
        status: if messages.is_empty() { 0 } else { REFUSED },
        text: beside::text(&works).into_bytes(),
        members,
        messages,
    })
}

/// What comes of the price of a plant by a tariff.
fn priced(options: &price::Options, file: &OsStr, name: &str) -> Result<Found, Vec<String>> {
    let (plant, tariff) = read_with_tariff(file, name, &options.tariff)?;
    let answer = answer::price(&plant.request, options.candidate, &tariff.tariff);
    settled(answer, name, |number| {
        price::words(number, &plant, &tariff, options)
    })
}

/// What comes of a sweep for the plant of a file.
fn swept(options: &Options, json: bool, file: &OsStr, name: &str) -> Result<Found, Vec<String>> {
    let plant = read(file, name, plant_file::parse)?;
    match sweep::run(&plant.request, options) {
        Err(wrong) => Err(vec![format!("{name}: {wrong}")]),
        Ok(End::Answered(answer, words)) => settled(answer, name, |number| {
            words.unwrap_or_else(|| refusal::words(number, &plant, None))
        }),
        Ok(End::Interrupted { asked, grid }) => {
            let kept = sweep::kept(options, file, json);
            Ok(interrupted(name, asked, grid, &kept))
        }
    }
}

/// A sweep that was put down: how far it came, and what was kept of it.
fn interrupted(name: &str, asked: u32, grid: u32, kept: &str) -> Found {
    let of = format!("{} of {}", grouped(asked.into()), grouped(grid.into()));
    let message = format!("{name}: interrupted after {of} candidates; {kept}");
    Found {
        status: INTERRUPTED,
        text: Vec::new(),
        members: vec![
            json::text("status", "interrupted"),
            json::number("asked", asked),
            json::number("candidates", grid),
            json::text("message", &message),
        ],
        messages: vec![message],
    }
}

/// An answer with its remark, or with the words of its refusal.
fn settled(
    answer: Answer,
    name: &str,
    words: impl FnOnce(u32) -> String,
) -> Result<Found, Vec<String>> {
    match answer.number {
        SHEET => {
            let remark = answer.remark.map(|remark| format!("{name}: {remark}"));
            let mut members = vec![json::text("status", answer.kind)];
            members.extend(answer.members);
            members.extend(remark.iter().map(|remark| json::text("message", remark)));
            Ok(Found {
                status: 0,
                text: answer.text,
                members,
                messages: remark.into_iter().collect(),
            })
        }
        number if is_refusal(number) => Ok(refused(answer, format!("{name}: {}", words(number)))),
        number => Err(vec![other_version(name, number)]),
    }
}

fn other_version(name: &str, number: u32) -> String {
    format!(
        "{name}: the library answered {number}, expected a sheet or a refusal; \
         its archive and this tool are of different versions"
    )
}

fn refused(answer: Answer, message: String) -> Found {
    let number = answer.number;
    let mut members = vec![
        json::text("status", "refused"),
        json::number("number", number),
        json::text("word", number::word(number).unwrap_or_default()),
    ];
    members.extend(answer.members);
    members.push(json::text("message", &message));
    Found {
        status: REFUSED,
        text: answer.text,
        members,
        messages: vec![message],
    }
}

/// Reads and parses a plant file.
fn read(
    file: &OsStr,
    name: &str,
    parse: fn(&[u8]) -> Result<PlantFile, Vec<Fault>>,
) -> Result<PlantFile, Vec<String>> {
    let bytes = expected(file, name, plant_file::EXPECTED)?;
    parse(&bytes).map_err(|faults| told(&faults, name))
}

/// Reads and parses a plant file and a tariff file.
fn read_with_tariff(
    file: &OsStr,
    name: &str,
    tariff: &OsStr,
) -> Result<(PlantFile, TariffFile), Vec<String>> {
    let tariff_name = name_of(tariff);
    let (first, second) = both(
        expected(file, name, plant_file::EXPECTED),
        expected(tariff, &tariff_name, tariff_file::EXPECTED),
    )?;
    let exchanged = tariff_file::parse(&first).is_ok() && plant_file::parse(&second).is_ok();
    if exchanged {
        return Err(vec![format!(
            "{name}: this is a tariff file, and {tariff_name} is a plant file; \
             expected the plant file first"
        )]);
    }
    both(
        plant_file::parse(&first).map_err(|faults| told(&faults, name)),
        tariff_file::parse(&second).map_err(|faults| told(&faults, &tariff_name)),
    )
}

/// What two files hold, or the faults of both.
fn both<A, B>(
    first: Result<A, Vec<String>>,
    second: Result<B, Vec<String>>,
) -> Result<(A, B), Vec<String>> {
    match (first, second) {
        (Ok(first), Ok(second)) => Ok((first, second)),
        (first, second) => {
            let mut faults = first.err().unwrap_or_default();
            faults.extend(second.err().unwrap_or_default());
            Err(faults)
        }
    }
}

/// Reads a day log, or makes it from a text file.
fn read_log(file: &OsStr, name: &str, csv: bool) -> Result<Log, Vec<String>> {
    if csv {
        let bytes = expected(file, name, "a text file of days")?;
        return day_file::parse(&bytes).map_err(|faults| told(&faults, name));
    }
    Ok(Log {
        bytes: expected(file, name, "a day log")?,
        first_line: None,
    })
}

/// The bytes of a file, or why it cannot be read and what was expected.
fn expected(file: &OsStr, name: &str, what: &str) -> Result<Vec<u8>, Vec<String>> {
    contents(file).map_err(|error| vec![format!("{name}: {}; expected {what}", reason(&error))])
}

/// The faults with the file's name.
fn told(faults: &[Fault], name: &str) -> Vec<String> {
    faults
        .iter()
        .map(|fault| format!("{name}:{}: {}", fault.line, fault.what))
        .collect()
}
