//! The length of a listing, and pages of just that length.

mod common;

use common::{case_a, CASE_A_CANDIDATE, CASE_A_LISTING};
use library::number::*;
use library::{choose, examine, line};
use library::{length_choose, length_examine, length_line};
use library::{Request, Split};

type Writes = fn(&[u8], &mut [u8]) -> (u32, u64);
type Measures = fn(&[u8]) -> (u32, u64);

const UNTOUCHED: u8 = 0xaa;

/// A page of that length is written whole, and one byte less not at all.
fn fits_just(measures: Measures, writes: Writes, request: &[u8]) -> (u32, u64) {
    let (number, length) = measures(request);
    let mut page = vec![UNTOUCHED; length as usize];
    assert_eq!(writes(request, &mut page), (number, length));
    assert!(!page.contains(&UNTOUCHED));
    if length > 0 {
        let mut page = vec![UNTOUCHED; length as usize - 1];
        assert_eq!(writes(request, &mut page), (SHORT_PAGE, 0));
        assert!(page.iter().all(|byte| *byte == UNTOUCHED));
    }
    (number, length)
}

#[test]
fn case_a_examined() {
    let request = case_a().to_examine(CASE_A_CANDIDATE);
    let length = CASE_A_LISTING.len() as u64;
    assert_eq!(
        fits_just(length_examine, examine, &request),
        (SHEET, length)
    );
}

#[test]
fn case_a_chosen() {
    let (number, length) = fits_just(length_choose, choose, &case_a().to_choose());
    assert_eq!((number, length), (SHEET, CASE_A_LISTING.len() as u64));
}

#[test]
fn refusals_of_one_digit_and_two() {
    let surface = Request {
        site_surface: 453,
        ..case_a()
    };
    let depth = Request {
        site_depth: 4_535,
        ..case_a()
    };
    let bulking = Request {
        sludge_volume_index: 200,
        ..case_a()
    };
    for (request, number, length) in [
        (surface, SURFACE, 10),
        (depth, DEPTH, 11),
        (bulking, BULKING, 11),
    ] {
        let bytes = request.to_examine(CASE_A_CANDIDATE);
        assert_eq!(fits_just(length_examine, examine, &bytes), (number, length));
    }
}

/// Each line has a length of its own; so has the refusal of a line that the works
/// does not have.
#[test]
fn lines_of_a_works() {
    let split = Split::of(&[600, 400]);
    for (number, due) in [(1, SHEET), (2, SHEET), (0, LINES), (3, LINES)] {
        let request = case_a().to_line(&split, number);
        let (given, length) = fits_just(length_line, line, &request);
        assert_eq!(given, due);
        assert!(given == SHEET || length == 11);
    }
}

/// A malformed request has no listing.
#[test]
fn malformed_requests() {
    let mut other = case_a().to_choose();
    assert_eq!(fits_just(length_line, line, &other), (BAD_LENGTH, 0));
    assert_eq!(fits_just(length_choose, choose, &[]), (BAD_LENGTH, 0));
    other[0] += 1;
    assert_eq!(fits_just(length_choose, choose, &other), (BAD_VERSION, 0));
    let mut unknown = case_a().to_examine(CASE_A_CANDIDATE);
    unknown[56] = 5;
    assert_eq!(fits_just(length_examine, examine, &unknown), (BAD_KIND, 0));
}
