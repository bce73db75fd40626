//! Pages one byte too short, exact, and of no bytes.

use crate::collection::{Collection, Operation, WHOLE_PAGE};
use crate::plants::{case_a, roomy};
use crate::request::*;

/// Bytes of the listing on a page that is long enough.
pub fn listing_length(operation: Operation, request: &[u8]) -> u32 {
    operation.outcome(request, WHOLE_PAGE).written.len() as u32
}

pub fn lengths(cases: &mut Collection) {
    let large = roomy()
        .with(FLOW, 200_000)
        .with(WET_WEATHER_FLOW, 50_000)
        .with_candidate(400, 50, 25);
    let surface = case_a().with(SITE_SURFACE, 1);
    let depth = case_a().with(SITE_DEPTH, 3_000);
    for (operation, request) in [
        (Operation::Examine, case_a().examine_bytes()),
        (Operation::Choose, case_a().choose_bytes()),
        (Operation::Examine, large.examine_bytes()),
        (Operation::Choose, large.choose_bytes()),
        (Operation::Examine, surface.examine_bytes()),
        (Operation::Examine, depth.examine_bytes()),
        (Operation::Choose, surface.choose_bytes()),
        (Operation::Choose, case_a().with(LOAD, 0).choose_bytes()),
    ] {
        let exact = listing_length(operation, &request);
        cases.on_page("exact page", operation, &request, exact);
        cases.on_page("page one byte short", operation, &request, exact - 1);
        cases.on_page("empty page", operation, &request, 0);
    }
    let wrong = case_a().with(VERSION, LATER_VERSION).examine_bytes();
    cases.on_page("malformed, empty page", Operation::Examine, &wrong, 0);
    let unknown = case_a().with(REMOVAL, 3).choose_bytes();
    cases.on_page("malformed, empty page", Operation::Choose, &unknown, 0);
}
