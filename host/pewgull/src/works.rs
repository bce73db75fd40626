//! A works in several lines: its listing, and what its refusal is due to. The
//! numbers are the library's: here a line is looked at as a plant of its own,
//! and no advice is given where the library answers that plant otherwise.

use crate::answer;
use crate::census;
use crate::culprit;
use crate::explanation;
use crate::keys::{shares_expected, Field, Key, Range, KEYS};
use crate::plant_file::PlantFile;
use crate::refusal::{self, headed};
use crate::values::{filled, listed};
use library::number::{LINES, NO_DESIGN, PLANT_DATA, SHEET};
use library::sheet::{listing, GRID};
use library::{Candidate, Request, Split, Works};
use library::{LEAST_SHARE, PAGE_LENGTH, SUMS, WHOLE};

/// The sums of a works, a line each.
pub fn sums(works: &Works) -> String {
    let sums = SUMS.iter().zip(works.sums);
    sums.map(|(label, sum)| format!("{label} {sum}\n"))
        .collect()
}

/// The listings of its lines, each with its number from 1 on.
pub fn listings(works: &Works, split: &Split) -> Vec<(u32, String)> {
    let sheets = (1..=split.count).zip(&works.sheets);
    sheets
        .map(|(line, figures)| (line, listing(figures)))
        .collect()
}

/// A line that is refused: its number from 1 on, and the refusal's.
#[derive(Clone, Copy, Debug, PartialEq, Eq)]
pub struct Refused {
    pub line: u32,
    pub number: u32,
}

/// The lines that are refused, in their order; none where the shares or the
/// data of the whole works are refused.
pub fn refused_lines(request: &Request, split: &Split) -> Vec<Refused> {
    if !is_accepted(request) {
        return Vec::new();
    }
    let lines = (1..).zip(split.named()).map(|(line, _)| Refused {
        line,
        number: own(request, split, line).0,
    });
    lines
        .filter(|line| ![SHEET, LINES].contains(&line.number))
        .collect()
}

/// Whether the data of the whole works are accepted: a candidate of the grid
/// has figures then.
fn is_accepted(request: &Request) -> bool {
    let [fraction, return_ratio, thickening] = GRID.map(|side| side.least);
    let candidate = Candidate {
        fraction,
        return_ratio,
        thickening,
    };
    explanation::figures(request, candidate).is_ok()
}

/// The library's number for a line by itself, and its listing.
fn own(request: &Request, split: &Split, line: u32) -> (u32, Vec<u8>) {
    let mut page = [0; PAGE_LENGTH];
    let (number, written) = library::line(&request.to_line(split, line), &mut page);
    (number, page[..written as usize].to_vec())
}

/// The keys of the figures that are split among the lines.
pub const SPLIT: [&str; 3] = ["flow", "wet-weather-flow", "site-surface"];

/// A key whose figure is split, its range, and where the figure stands.
type Part = (&'static Key, &'static Range, fn(&mut Request) -> &mut u32);

fn parts() -> impl Iterator<Item = Part> {
    KEYS.iter().filter_map(|key| match &key.field {
        Field::Whole(range, at) if SPLIT.contains(&key.name) => Some((key, range, *at)),
        _ => None,
    })
}

/// A line's part of a figure of the whole works: what the shares up to it come
/// to, rounded down, less what those before it come to.
fn part(whole: u32, split: &Split, line: u32) -> u32 {
    let up_to = |lines: usize| {
        let shares = split.named().iter().take(lines);
        let running: u64 = shares.map(|share| u64::from(*share)).sum();
        u64::from(whole) * running / u64::from(WHOLE)
    };
    let line = line as usize;
    (up_to(line) - up_to(line - 1)) as u32
}

/// A line as a plant of its own: its parts, and the concentrations of the
/// whole works.
pub fn plant(request: &Request, split: &Split, line: u32) -> Request {
    let mut plant = culprit::measured(request);
    for (_, _, at) in parts() {
        let figure = at(&mut plant);
        *figure = part(*figure, split, line);
    }
    plant
}

/// Whether the library chooses for the plant as it answers for the line.
fn is_confirmed(request: &Request, split: &Split, line: u32) -> bool {
    let chosen = answer::choose(&plant(request, split, line));
    (chosen.number, chosen.text) == own(request, split, line)
}

/// The message of a refusal.
pub fn words(number: u32, file: &PlantFile) -> String {
    if number == LINES {
        return headed(number, &wrong_shares(&file.shares));
    }
    let request = &file.request;
    let split = Split::of(&file.shares);
    match refused_lines(request, &split).as_slice() {
        [first, later @ ..] if first.number == number => {
            headed(number, &refused_line(request, &split, first.line, number)) + &too(later)
        }
        _ => refusal::words(number, file, None),
    }
}

/// Most shares that are told.
const TOLD: usize = 16;

/// What is not valid in the shares, and what was expected.
fn wrong_shares(shares: &[u32]) -> String {
    let expected = shares_expected();
    if shares.is_empty() {
        let told = format!("The file has no line 'shares'; expected {expected}");
        return "the works is not split into lines".to_string() + &filled(&told);
    }
    let given: Vec<String> = shares.iter().take(TOLD).map(u32::to_string).collect();
    let rest = if shares.len() > TOLD { " ..." } else { "" };
    let noun = if shares.len() == 1 { "share" } else { "shares" };
    let sum: u64 = shares.iter().map(|share| u64::from(*share)).sum();
    let told = format!(
        "shares {}{rest}: {} {noun} with a sum of {sum}{}.",
        given.join(" "),
        shares.len(),
        zeros(shares)
    );
    "the number of lines or their shares are not valid".to_string()
        + &filled(&told)
        + &filled(&format!("Expected {expected}"))
}

/// The shares among those told that are too small: `; share 2 is 0`.
fn zeros(shares: &[u32]) -> String {
    let told = shares.iter().take(TOLD).enumerate();
    let zeros: Vec<String> = told
        .filter(|(_, share)| **share < LEAST_SHARE)
        .map(|(place, _)| (place + 1).to_string())
        .collect();
    match zeros.len() {
        0 => String::new(),
        1 => format!("; share {} is 0", zeros[0]),
        _ => format!("; shares {} are 0", listed(&zeros)),
    }
}

/// What a line's refusal is due to: its own figures, and what to look at.
fn refused_line(request: &Request, split: &Split, line: u32, number: u32) -> String {
    let name = format!("line {line} of {}", split.count);
    if !is_confirmed(request, split, line) {
        return format!("{name} is refused");
    }
    let plant = plant(request, split, line);
    let has = filled(&format!("Line {line} has: {}.", figures(&plant).join(", ")));
    match number {
        PLANT_DATA => {
            let advice = no_part(&plant, line);
            format!("{name}: its part of a figure comes out 0.{has}{advice}")
        }
        NO_DESIGN => {
            let (none, advice) = (refusal::none_permitted(&plant), no_design(request, &plant));
            format!("{name}: {none}{has}{advice}")
        }
        _ => format!("{name} is refused.{has}"),
    }
}

/// A line's own figures, by their keys.
fn figures(plant: &Request) -> Vec<String> {
    let mut plant = *plant;
    parts()
        .map(|(key, range, at)| format!("{} {} {}", key.name, at(&mut plant), range.unit))
        .collect()
}

/// The figures that come out 0, and what to look at.
fn no_part(plant: &Request, line: u32) -> String {
    let mut plant = *plant;
    let zeros: Vec<String> = parts()
        .filter(|(_, _, at)| *at(&mut plant) == 0)
        .map(|(key, _, _)| key.name.to_string())
        .collect();
    let come = if zeros.len() == 1 { "comes" } else { "come" };
    let zeros = listed(&zeros);
    filled(&format!("Its {zeros} {come} out 0."))
        + &filled(&format!(
            "Look at a larger share of line {line}, fewer lines, a larger {zeros}"
        ))
}

/// The census of the line, what to look at first, and whether the works has a
/// design where it is not split.
fn no_design(request: &Request, plant: &Request) -> String {
    let counts = census::counts(plant);
    let advice = counts.map(|counts| census::advice(plant, &counts));
    let unsplit = match answer::choose(request).number {
        SHEET => {
            filled("As one plant the works has a design: fewer lines or other shares may help.")
        }
        _ => String::new(),
    };
    advice.unwrap_or_default() + &unsplit
}

/// The lines after the first that are refused too, with their numbers.
fn too(later: &[Refused]) -> String {
    let lines: Vec<String> = later.iter().map(|line| line.line.to_string()).collect();
    let numbers: Vec<String> = later.iter().map(|line| line.number.to_string()).collect();
    let numbers = numbers.join(", ");
    match lines.len() {
        0 => String::new(),
        1 => filled(&format!("line {} is refused too: {numbers}", lines[0])),
        _ => filled(&format!(
            "lines {} are refused too: {numbers}",
            listed(&lines)
        )),
    }
}
