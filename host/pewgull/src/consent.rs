//! The terms of the consent in words, and what refusal 14 is due to. The
//! number is the library's: here the term, its line and the figure are only
//! looked for.

use crate::keys::{TERM_TARGET, TERM_TEMPERATURE};
use crate::plant_file::PlantFile;
use crate::refusal::headed;
use crate::values::listed;
use library::number::TERMS;
use library::{Date, Term, Terms, MOST_TERMS};

/// Days of each month; 29 February is one.
const DAYS: [u32; 12] = [31, 29, 31, 30, 31, 30, 31, 31, 30, 31, 30, 31];

/// A date as it is given.
pub fn shown(date: Date) -> String {
    format!("{:02}-{:02}", date.month, date.day)
}

/// A term by its place from 0 on, with its days and its temperature.
pub fn title(place: usize, term: &Term) -> String {
    format!(
        "term {}, {} to {}, at {} {}",
        place + 1,
        shown(term.first),
        shown(term.last),
        term.temperature,
        TERM_TEMPERATURE.unit
    )
}

/// Terms by their places from 0 on: `term 2`, or `terms 1 and 3`.
pub fn list(places: &[usize]) -> String {
    let numbers: Vec<String> = places.iter().map(|place| (place + 1).to_string()).collect();
    match numbers.len() {
        1 => format!("term {}", listed(&numbers)),
        _ => format!("terms {}", listed(&numbers)),
    }
}

/// Lines that name what is not valid in the terms of a file, or none.
pub fn faults(file: &PlantFile) -> Vec<String> {
    let terms = &file.request.terms;
    let mut lines = Vec::new();
    for (place, term) in terms.named().iter().enumerate() {
        let name = name(file, place);
        lines.extend(wrong(term).map(|what| format!("{name}: {what}")));
    }
    if terms.count as usize > MOST_TERMS {
        let name = name(file, MOST_TERMS);
        lines.push(format!("{name}: expected at most {MOST_TERMS} terms"));
    }
    lines
}

/// A term by its line and its place.
fn name(file: &PlantFile, place: usize) -> String {
    let line = file.term_lines.get(place);
    let line = line.map(|line| format!("line {line}, "));
    format!("{}term {}", line.unwrap_or_default(), place + 1)
}

/// What is not valid in a term, and what was expected there.
fn wrong(term: &Term) -> impl Iterator<Item = String> {
    [
        wrong_date("first day", term.first),
        wrong_date("last day", term.last),
        TERM_TEMPERATURE.outside("temperature", term.temperature),
        TERM_TARGET.outside("target", term.target),
    ]
    .into_iter()
    .flatten()
}

fn wrong_date(name: &str, date: Date) -> Option<String> {
    let Date { month, day } = date;
    let days = DAYS.get((month as usize).wrapping_sub(1));
    let expected = match days {
        None => "a month of 01..12".to_string(),
        Some(days) if !(1..=*days).contains(&day) => {
            format!("a day of 01..{days} in month {month:02}")
        }
        Some(_) => return None,
    };
    Some(format!("{name} {}: expected {expected}", shown(date)))
}

/// What standard error says where no term runs on a date.
pub fn no_term_runs(terms: &Terms, date: Date) -> String {
    let date = shown(date);
    match terms.count {
        0 => format!("no term runs on {date}: the file has no line 'term'"),
        _ => format!("no term runs on {date}"),
    }
}

/// The message of a refusal of the terms, or of the date asked for.
pub fn words(number: u32, file: &PlantFile, date: Date) -> String {
    let mut message = headed(number, "a term or the date asked for is not valid");
    if number == TERMS {
        let date = wrong_date("date", date);
        for line in faults(file).into_iter().chain(date) {
            message += &format!("\n  {line}");
        }
    }
    message
}

#[cfg(test)]
mod tests {
    use super::*;

    #[test]
    fn days_of_the_year() {
        let is_day = |month, day| wrong_date("day", Date { month, day }).is_none();
        let days = |month: u32| (0..=40).filter(|day| is_day(month, *day)).count();
        assert_eq!((0..=40).map(days).sum::<usize>(), 366);
        for (month, day) in [(2, 29), (12, 31), (1, 1)] {
            assert!(is_day(month, day));
        }
        for (month, day) in [(2, 30), (0, 1), (13, 1), (1, 0), (u32::MAX, 1)] {
            assert!(!is_day(month, day));
        }
    }

    #[test]
    fn lists() {
        assert_eq!(list(&[1]), "term 2");
        assert_eq!(list(&[0, 2]), "terms 1 and 3");
        assert_eq!(list(&[0, 1, 3]), "terms 1, 2 and 4");
    }
}
