//! Requests for works in lines and what the model answers to them.

use cases::{model, plants, request};
use reference::{listing, Answer, Sheet, Split};

const TWO: Split = Split {
    count: 2,
    shares: [600, 400, 7, 0, u32::MAX, 0, 0, 0x0102_0304],
};

fn figures(bytes: &[u8]) -> Vec<u64> {
    bytes
        .chunks_exact(8)
        .map(|eight| u64::from_le_bytes(eight.try_into().unwrap()))
        .collect()
}

/// The data as in a choice, then count, shares and line.
#[test]
fn bytes_of_a_split() {
    assert_eq!((request::WORKS_LENGTH, request::LINE_LENGTH), (260, 264));
    let plant = plants::case_a();
    let works = plant.works_bytes(&TWO);
    assert_eq!(works.len(), 260);
    assert_eq!(works[..224], plant.choose_bytes());
    assert_eq!(works[224..232], [2, 0, 0, 0, 0x58, 2, 0, 0]);
    assert_eq!(works[232..236], [0x90, 1, 0, 0]);
    assert_eq!(works[244..248], [255; 4]);
    assert_eq!(works[256..], [4, 3, 2, 1]);
    let line = plant.line_bytes(&TWO, 0x0908);
    assert_eq!(line[..260], works);
    assert_eq!(line[260..], [8, 9, 0, 0]);
}

#[test]
fn split_decoded() {
    let plant = plants::case_a();
    let works = request::decode_works(&plant.works_bytes(&TWO), 260).ok();
    let works = works.unwrap();
    assert_eq!((works.split, works.line), (TWO, 0));
    let line = request::decode_works(&plant.line_bytes(&TWO, 2), 264).ok();
    let line = line.unwrap();
    assert_eq!((line.split, line.line), (TWO, 2));
    assert_eq!(line.plant, plant.decoded().ok().unwrap().plant);
    assert_eq!(line.readings, plant.decoded().ok().unwrap().readings);
}

/// Eight sums, then fifteen figures of each line, then zeros.
#[test]
fn page_of_case_a() {
    let outcome = model::works(&plants::case_a().works_bytes(&TWO), 1_024);
    assert_eq!((outcome.number, outcome.written.len()), (0, 1_024));
    let figures = figures(&outcome.written);
    let sums = [1_000_000, 11_734, 461, 3_059, 2_106, 5_165, 99_292, 127_662];
    assert_eq!(figures[..8], sums);
    assert_eq!(figures[8..12], [300, 70, 24, 11_733]);
    assert_eq!(figures[20..25], [2_600, 59_575, 76_597, 300, 70]);
    assert_eq!(figures[37], 51_065);
    assert_eq!(figures[38..], [0; 90]);
}

/// A line's listing is that of a choice for the line's plant.
#[test]
fn listing_of_a_line() {
    let plant = plants::case_a();
    let second = plant
        .with(request::FLOW, 2_000)
        .with(request::WET_WEATHER_FLOW, 240)
        .with(request::SITE_SURFACE, 400);
    let expected = model::choose(&second.choose_bytes(), 512);
    let found = model::line(&plant.line_bytes(&TWO, 2), 512);
    assert_eq!(found, expected);
    let length = found.written.len();
    assert_eq!(model::line(&plant.line_bytes(&TWO, 2), length), expected);
    let short = model::line(&plant.line_bytes(&TWO, 2), length - 1);
    assert_eq!((short.number, short.written), (11, Vec::new()));
}

/// Of each refusal the number, and a page of zeros or its listing.
#[test]
fn refusals() {
    let plant = plants::case_a();
    let wrong = Split { count: 1, ..TWO };
    let unequal = Split {
        count: 3,
        shares: [1, 500, 499, 0, 0, 0, 0, 0],
    };
    for (plant, split, number) in [
        (plant.with(request::LOAD, 0), wrong, 18),
        (plant.with(request::LOAD, 0), TWO, 1),
        (plant.with(request::SLUDGE_VOLUME_INDEX, 181), TWO, 17),
        (plant.with(request::TERM_COUNT, 5), TWO, 14),
        (plant, unequal, 1),
        (plant.with(request::SITE_SURFACE, 2), TWO, 5),
    ] {
        let outcome = model::works(&plant.works_bytes(&split), 1_024);
        assert_eq!((outcome.number, outcome.written), (number, vec![0; 1_024]));
        let outcome = model::line(&plant.line_bytes(&split, 1), 512);
        let text = format!("refused {number}\n").into_bytes();
        assert_eq!((outcome.number, outcome.written), (number, text));
    }
    for line in [0, 3, u32::MAX] {
        let outcome = model::line(&plant.line_bytes(&TWO, line), 11);
        assert_eq!(outcome.written, listing(&Answer::Refused(18)));
    }
    assert_eq!(Answer::Refused(18).sheet(), Sheet::default());
}

/// A malformed request before a short page, and that before any refusal.
#[test]
fn malformed_requests_and_short_pages() {
    let plant = plants::case_a().with(request::LOAD, 0);
    let works = plant.works_bytes(&TWO);
    let line = plant.line_bytes(&TWO, 1);
    let unknown = plant.with(request::WAY, 2);
    let mut later = works.clone();
    later[0] += 1;
    for (outcome, number) in [
        (model::works(&works, 1_023), 11),
        (model::works(&works, 0), 11),
        (model::works(&line, 0), 101),
        (model::works(&works[..259], 1_024), 101),
        (model::works(&works[..3], 1_024), 101),
        (model::works(&plant.choose_bytes(), 1_024), 101),
        (model::works(&later, 0), 102),
        (model::works(&later[..4], 0), 102),
        (model::works(&unknown.works_bytes(&TWO), 0), 103),
        (model::line(&works, 512), 101),
        (model::line(&later, 512), 102),
        (model::line(&unknown.line_bytes(&TWO, 0), 0), 103),
        (model::line(&line, 9), 11),
        (model::line(&line, 0), 11),
    ] {
        assert_eq!((outcome.number, outcome.written), (number, Vec::new()));
    }
    assert_eq!(model::works(&works, 1_025).number, 1);
    assert_eq!(model::line(&line, 10).number, 1);
}
