//! The length of a listing: the library beside the reference, and beside its own
//! calls on pages of just that length and one byte shorter.

use crate::compare::{agree, expected, hex, Operation};
use cases::model::{self, Outcome, SHORT_PAGE};
use library::PAGE_LENGTH;

/// A call that gives a length, and the reference's.
type Measures = fn(&[u8]) -> (u32, u64);

fn measures(operation: Operation) -> Option<[Measures; 2]> {
    match operation {
        Operation::Examine => Some([library::length_examine, model::length_examine]),
        Operation::Choose => Some([library::length_choose, model::length_choose]),
        Operation::Line => Some([library::length_line, model::length_line]),
        _ => None,
    }
}

/// A page of just this length is written as a long one is, and one byte less is
/// refused and stays.
fn compare_pages(operation: Operation, request: &[u8], length: usize) -> Result<u32, String> {
    let whole = expected(operation, request, PAGE_LENGTH);
    let number = agree(operation, request, length, &whole)?;
    if length > 0 {
        let short = Outcome {
            number: SHORT_PAGE,
            written: Vec::new(),
        };
        agree(operation, request, length - 1, &short)?;
    }
    Ok(number)
}

/// The library's length against the reference's, and both pages. Gives the
/// answer's number.
pub fn compare_length(operation: Operation, request: &[u8]) -> Result<u32, String> {
    let Some([by_library, by_reference]) = measures(operation) else {
        return Err(format!("{operation:?} has no length"));
    };
    let (given, wanted) = (by_library(request), by_reference(request));
    match given == wanted {
        true => compare_pages(operation, request, given.1 as usize),
        false => Err(format!(
            "length, {operation:?}: library {given:?}, reference {wanted:?}: {}",
            hex(request)
        )),
    }
}
