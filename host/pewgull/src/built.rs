//! Existing tanks against a span of sludge volume indices: what is said of a
//! lost index, and what a refusal is due to. The answer is the library's: here
//! the two ends of the return ratios are only examined at that index.

use crate::answer::{self, Answer};
use crate::census::is_of_fraction;
use crate::explanation;
use crate::json::Value;
use crate::keys::INDEX;
use crate::plant_file::PlantFile;
use crate::refusal::{self, headed};
use crate::values::filled;
use library::number::{BUILT_SIZE, DEPTH, OFF_GRID, SHEET, SPAN, SURFACE};
use library::sheet::{Line, GRID, LINES};
use library::{Candidate, Existing, Request, Span, LEAST_SIZE};

/// A size of the existing tanks: its word on the command line, and the line of
/// the sheet that it is compared with.
pub struct Size {
    pub word: &'static str,
    pub line: &'static Line,
    at: fn(&Existing) -> u32,
}

/// The sizes, in the order of the command line.
pub const SIZES: [Size; 3] = [
    Size {
        word: "REACTOR",
        line: &LINES[7],
        at: |existing| existing.reactor,
    },
    Size {
        word: "SURFACE",
        line: &LINES[8],
        at: |existing| existing.surface,
    },
    Size {
        word: "DEPTH",
        line: &LINES[9],
        at: |existing| existing.depth,
    },
];

/// The two ends of a span, by their words on the command line.
pub const ENDS: [&str; 2] = ["LEAST", "MOST"];

/// The candidate that an operator runs who picks this return ratio.
fn candidate(existing: &Existing, return_ratio: u32) -> Candidate {
    Candidate {
        fraction: existing.fraction,
        return_ratio,
        thickening: existing.thickening,
    }
}

/// What standard error says of a lost index: what fails at the smallest and at
/// the largest return ratio, and what is known of the other indices.
pub fn lost(request: &Request, existing: &Existing, span: &Span, index: u32) -> String {
    let ratio = &GRID[1];
    let (least, most) = (ratio.least, ratio.most(request.tank));
    let picked = Request {
        sludge_volume_index: index,
        ..*request
    };
    let [(rule, first), (_, last)] = [least, most].map(|ratio| failing(&picked, existing, ratio));
    let ends = match first == last {
        true => at(&format!("R {least} and R {most}"), &first),
        false => at(&format!("R {least}"), &first) + &at(&format!("R {most}"), &last),
    };
    let rest = match is_of_fraction(rule) {
        true => filled(OF_FRACTION),
        false => between(index) + &others(span, index),
    };
    let tried = format!("Every return ratio of {least}..{most} was tried, and none holds it.");
    let unit = INDEX.unit;
    format!("lost at a sludge volume index of {index} {unit}.") + &filled(&tried) + &ends + &rest
}

/// What fails at a ratio; the first line is filled.
fn at(ratio: &str, failing: &str) -> String {
    let (first, rest) = failing.split_at(failing.find('\n').unwrap_or(failing.len()));
    filled(&format!("{ratio}: {first}")) + rest
}

/// What is said of the other indices where a rule asks of the fraction alone.
const OF_FRACTION: &str = "The index has no part in that rule: every one of the span is lost";

/// How to look at a ratio between the ends.
fn between(index: u32) -> String {
    filled(&format!(
        "For a ratio between them: 'pewgull examine FILE F R H', with \
         sludge-volume-index {index} in the file."
    ))
}

/// What `examine` gives at a return ratio, and in words: the rule that is
/// broken, or every size that is too small.
fn failing(picked: &Request, existing: &Existing, return_ratio: u32) -> (u32, String) {
    let candidate = candidate(existing, return_ratio);
    let sheet = answer::examine(picked, candidate);
    let text = match sheet.number {
        SHEET => "more is needed than is built.".to_string() + &too_small(&sheet, existing),
        number => {
            let rule = refusal::broken_rule(number, picked, candidate);
            rule + &site_alone(number, picked, candidate, existing)
        }
    };
    (sheet.number, text)
}

/// The sizes of which a sheet needs more than is built, a line each.
fn too_small(sheet: &Answer, existing: &Existing) -> String {
    let mut text = String::new();
    for Size { line, at, .. } in &SIZES {
        let (needed, built) = (figure(sheet, line.label), u64::from(at(existing)));
        if needed > built {
            let (meaning, unit) = (line.meaning, line.unit);
            text += &format!("\n  {meaning}: needs {needed} {unit}, built {built} {unit}.");
        }
    }
    text
}

/// The number of a label in a sheet.
fn figure(sheet: &Answer, label: &str) -> u64 {
    match sheet.members.iter().find(|(key, _)| key == label) {
        Some((_, Value::Number(figure))) => *figure,
        _ => 0,
    }
}

/// What to do where a limit of the site stops what the existing tank would do
/// for.
fn site_alone(number: u32, picked: &Request, candidate: Candidate, existing: &Existing) -> String {
    let Ok(figures) = explanation::figures(picked, candidate) else {
        return String::new();
    };
    let (key, needed, built) = match number {
        SURFACE => ("site-surface", figures.surface, existing.surface),
        DEPTH => ("site-depth", figures.depth, existing.depth),
        _ => return String::new(),
    };
    match needed <= u64::from(built) {
        true => filled(&format!(
            "The built one would do here: give it, or more, as {key}."
        )),
        false => String::new(),
    }
}

/// The indices of the span before a lost one, and those after it.
fn others(span: &Span, index: u32) -> String {
    let mut text = String::new();
    if span.least < index {
        let held = indices(span.least, index - 1, ["is", "are"]);
        text += &filled(&format!("{held} held."));
    }
    if index < span.most {
        let after = indices(index + 1, span.most, ["was", "were"]);
        text += &filled(&format!("{after} not looked at, and need not be lost."));
    }
    text
}

/// Indices and the verb of their number: `The indices 50..99 are`.
fn indices(least: u32, most: u32, [one, several]: [&str; 2]) -> String {
    match least == most {
        true => format!("The index {least} {one}"),
        false => format!("The indices {least}..{most} {several}"),
    }
}

/// The message of a refusal.
pub fn words(number: u32, file: &PlantFile, existing: &Existing, span: &Span) -> String {
    match number {
        SPAN => headed(number, &wrong_span(span)),
        BUILT_SIZE => headed(number, &no_size(existing)),
        OFF_GRID => {
            let candidate = candidate(existing, GRID[1].least);
            let sides = refusal::off_sides(file.request.tank, candidate);
            headed(number, &format!("F or H is not on the grid{sides}"))
        }
        _ => refusal::words(number, file, None) + &own_index(&file.request),
    }
}

/// What is not valid in a span, and what was expected.
fn wrong_span(span: &Span) -> String {
    let Span { least, most } = *span;
    let (ends, unit) = (INDEX.digits(), INDEX.unit);
    let [first, last] = ENDS;
    let mut text =
        format!("the span of sludge volume indices is empty, or not within {ends} {unit}");
    for (word, index) in [(first, least), (last, most)] {
        if !INDEX.holds(index) {
            text += &format!("\n  {word} {index}: expected {ends} {unit}");
        }
    }
    if least > most {
        text += &format!("\n  {first} {least}, {last} {most}: expected {first} at most {last}");
    }
    text
}

/// The sizes that are 0, and what was expected.
fn no_size(existing: &Existing) -> String {
    let mut text = "a built size is 0".to_string();
    for Size { word, line, at } in &SIZES {
        let (size, meaning, unit) = (at(existing), line.meaning, line.unit);
        if size < LEAST_SIZE {
            text += &format!(
                "\n  {word} {size}: expected the built {meaning}, at least {LEAST_SIZE} {unit}"
            );
        }
    }
    text
}

/// What is said beside a refusal of the file's own index.
fn own_index(request: &Request) -> String {
    let (ends, digits) = (ENDS.join(".."), INDEX.digits());
    match INDEX.holds(request.sludge_volume_index) {
        true => String::new(),
        false => filled(&format!(
            "The file's own index is checked, and not used further: {ends} has the indices \
             that are tried. Give the file one of {digits}"
        )),
    }
}

#[cfg(test)]
mod tests {
    use super::*;

    #[test]
    fn sizes_are_lines_of_the_sheet() {
        for Size { word, line, .. } in &SIZES {
            assert_eq!(line.label.to_uppercase(), *word);
        }
        let [reactor, surface, depth] = [1, 2, 3];
        let existing = Existing {
            reactor,
            surface,
            depth,
            ..Existing::default()
        };
        assert_eq!(SIZES.map(|size| (size.at)(&existing)), [1, 2, 3]);
    }

    #[test]
    fn what_is_known_of_other_indices() {
        let told = |least, most, index| others(&Span { least, most }, index);
        assert_eq!(told(100, 100, 100), "");
        assert_eq!(told(99, 100, 100), "\n  The index 99 is held.");
        assert_eq!(told(90, 100, 100), "\n  The indices 90..99 are held.");
        assert_eq!(
            told(100, 101, 100),
            "\n  The index 101 was not looked at, and need not be lost."
        );
        assert_eq!(
            told(50, 180, 100),
            "\n  The indices 50..99 are held.\
             \n  The indices 101..180 were not looked at, and need not be lost."
        );
    }
}
