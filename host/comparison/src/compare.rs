//! One request or day log to the library and to the reference.

use crate::guarded::Guarded;
use crate::works::{line_plant, Divided};
use cases::model::{self, Outcome};
use library::number::{NO_DESIGN, SHEET};
use library::{Census, CENSUS_LENGTH, PAGE_LENGTH, WORKS_PAGE};

#[derive(Clone, Copy, Debug, PartialEq, Eq)]
pub enum Operation {
    Examine,
    Choose,
    Explain,
    Census,
    Load,
    Target,
    Works,
    Line,
    Built,
    PriceChoose,
    PriceExamine,
}

/// What the library answers: number, count and page.
struct Given {
    number: u32,
    written: u64,
    page: Guarded,
}

fn call(operation: Operation, request: &[u8], page_length: usize) -> Given {
    let mut guarded = Guarded::new(page_length);
    let page = guarded.lent();
    let (number, written) = match operation {
        Operation::Examine => library::examine(request, page),
        Operation::Choose => library::choose(request, page),
        Operation::Explain => library::explain(request, page),
        Operation::Census => library::census(request, page),
        Operation::Load => library::load(request, page),
        Operation::Target => library::target(request, page),
        Operation::Works => library::works(request, page),
        Operation::Line => library::line(request, page),
        Operation::Built => library::built(request, page),
        Operation::PriceChoose => library::price_choose(request, page),
        Operation::PriceExamine => library::price_examine(request, page),
    };
    Given {
        number,
        written,
        page: guarded,
    }
}

pub fn expected(operation: Operation, request: &[u8], page_length: usize) -> Outcome {
    match operation {
        Operation::Examine => model::examine(request, page_length),
        Operation::Choose => model::choose(request, page_length),
        Operation::Explain => model::explain(request, page_length),
        Operation::Census => model::census(request, page_length),
        Operation::Load => model::load(request, page_length),
        Operation::Target => model::target(request, page_length),
        Operation::Works => model::works(request, page_length),
        Operation::Line => model::line(request, page_length),
        Operation::Built => model::built(request, page_length),
        Operation::PriceChoose => model::price_choose(request, page_length),
        Operation::PriceExamine => model::price_examine(request, page_length),
    }
}

/// Whether the page holds the expected bytes and all else is as it was.
fn page_agrees(given: &Given, outcome: &Outcome) -> bool {
    let untouched = Guarded::new(given.page.bytes().len());
    given.page == untouched.starting(&outcome.written)
}

pub fn hex(bytes: &[u8]) -> String {
    bytes.iter().map(|byte| format!("{byte:02x}")).collect()
}

/// The bytes as numbers of eight bytes each, the lowest byte first.
pub fn numbers(bytes: &[u8]) -> Vec<u64> {
    let number = |eight: &[u8]| eight.iter().rev().fold(0, |n, b| n << 8 | u64::from(*b));
    bytes.chunks_exact(8).map(number).collect()
}

/// Text of a listing, or numbers.
pub fn shown(bytes: &[u8]) -> String {
    match std::str::from_utf8(bytes) {
        Ok(text) if !text.contains('\0') => text.replace('\n', "; "),
        _ => format!("{:?}", numbers(bytes)),
    }
}

fn report(
    operation: Operation,
    request: &[u8],
    page_length: usize,
    given: &Given,
    outcome: &Outcome,
) -> String {
    let count = (given.written as usize).min(page_length);
    let page = &given.page.bytes()[..count];
    let mut text = format!("{operation:?}, page of {page_length}: {}\n", hex(request));
    text += &format!(
        "  library    {} {} {}\n",
        given.number,
        given.written,
        shown(page)
    );
    let length = outcome.written.len();
    text += &format!(
        "  reference  {} {length} {}",
        outcome.number,
        shown(&outcome.written)
    );
    if !page_agrees(given, outcome) {
        text += "\n  bytes of the page, or around it, differ from the expected ones";
    }
    text
}

/// The expected answer's number, or how the library's answer differs from it.
pub fn agree(
    operation: Operation,
    request: &[u8],
    page_length: usize,
    outcome: &Outcome,
) -> Result<u32, String> {
    let given = call(operation, request, page_length);
    let same = given.number == outcome.number
        && given.written == outcome.written.len() as u64
        && page_agrees(&given, outcome);
    if same {
        Ok(outcome.number)
    } else {
        Err(report(operation, request, page_length, &given, outcome))
    }
}

/// The library's answer against the reference's.
pub fn compare(operation: Operation, request: &[u8], page_length: usize) -> Result<u32, String> {
    let outcome = expected(operation, request, page_length);
    agree(operation, request, page_length, &outcome)
}

/// The library's census against the reference's, and against its own choice:
/// that is 5 exactly where no candidate is permitted. Gives its number.
pub fn compare_census(request: &[u8]) -> Result<u32, String> {
    let counted = compare(Operation::Census, request, CENSUS_LENGTH)?;
    let mut page = [0; CENSUS_LENGTH];
    library::census(request, &mut page);
    let permitted = Census::from_page(&page).permitted();
    let (chosen, _) = library::choose(request, &mut [0; PAGE_LENGTH]);
    let due = match (counted, permitted) {
        (SHEET, 0) => NO_DESIGN,
        (number, _) => number,
    };
    match chosen == due {
        true => Ok(chosen),
        false => Err(format!(
            "Census: {counted}, {permitted} permitted, but the choice is {chosen}: {}",
            hex(request)
        )),
    }
}

/// Number and listing that a call gives.
pub fn listed(call: fn(&[u8], &mut [u8]) -> (u32, u64), request: &[u8]) -> (u32, Vec<u8>) {
    let mut page = [0; PAGE_LENGTH];
    let (number, written) = call(request, &mut page);
    (number, page[..written as usize].to_vec())
}

/// The figures of a sheet's listing.
pub fn figures(listing: &[u8]) -> Vec<u64> {
    let text = String::from_utf8_lossy(listing);
    let figure = |line: &str| line.split(' ').nth(1)?.parse().ok();
    text.lines().filter_map(figure).collect()
}

/// Places on a sheet of the figures that are added up, in their order.
const ADDED: [usize; 8] = [4, 5, 8, 7, 10, 11, 13, 14];

/// What a works comes to whose lines have these listings.
fn put_together(lines: &[(u32, Vec<u8>)]) -> Vec<u64> {
    let sheets: Vec<Vec<u64>> = lines.iter().map(|line| figures(&line.1)).collect();
    let sum = |place: usize| sheets.iter().map(|sheet| sheet[place]).sum();
    let mut all: Vec<u64> = ADDED.into_iter().map(sum).collect();
    all.extend(sheets.iter().flatten());
    all.resize(WORKS_PAGE / 8, 0);
    all
}

/// What the library's works differs in from its own lines.
fn beside_lines((plant, split): &Divided, lines: &[(u32, Vec<u8>)]) -> Result<u32, String> {
    let request = plant.works_bytes(split);
    let mut page = [0xff; WORKS_PAGE];
    let (number, _) = library::works(&request, &mut page);
    let refused = lines.iter().map(|line| line.0).find(|line| *line != SHEET);
    let due = refused.unwrap_or(SHEET);
    let wanted = match due {
        SHEET => put_together(lines),
        _ => vec![0; WORKS_PAGE / 8],
    };
    match number == due && numbers(&page) == wanted {
        true => Ok(number),
        false => Err(format!(
            "Works: {number} {}, but its lines come to {due} {wanted:?}: {}",
            shown(&page),
            hex(&request)
        )),
    }
}

/// What a line differs in from the library's choice for a plant of its size.
fn beside_choice(works: &Divided, number: u32, line: &(u32, Vec<u8>)) -> Result<(), String> {
    let Some(alone) = line_plant(works, number) else {
        return Ok(());
    };
    let chosen = listed(library::choose, &alone.choose_bytes());
    match chosen == *line {
        true => Ok(()),
        false => Err(format!(
            "Line {number}: {}, but the choice for its plant is {}: {}",
            shown(&line.1),
            shown(&chosen.1),
            hex(&works.0.line_bytes(&works.1, number))
        )),
    }
}

/// The library's answer for a works that is rightly split against its own for
/// each line, and each line's against its choice for a plant of that size.
/// Gives the works' number.
pub fn compare_lines(works: &Divided) -> Result<u32, String> {
    let (plant, split) = works;
    let lines: Vec<(u32, Vec<u8>)> = (1..=split.count)
        .map(|number| listed(library::line, &plant.line_bytes(split, number)))
        .collect();
    for (number, line) in (1..).zip(&lines) {
        beside_choice(works, number, line)?;
    }
    beside_lines(works, &lines)
}
