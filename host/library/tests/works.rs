//! Works in several lines, through the archive.

mod common;

use common::case_a;
use library::number::{
    BAD_KIND, BAD_LENGTH, BAD_VERSION, BULKING, COD_RATIO, LINES, NO_DESIGN, NO_NUMBER, PLANT_DATA,
    READING_RANGE, SHEET, SHORT_PAGE, TERMS,
};
use library::sheet;
use library::{choose, line, works, PrimarySettling, Process, Reading, Request, Split, Works};
use library::{LINE_LENGTH, MOST_LINES, PAGE_LENGTH, SUMS, VERSION, WORKS_LENGTH, WORKS_PAGE};

const UNTOUCHED: u8 = 0xaa;

/// What `works` gives, and the works on its page.
fn built(request: &Request, split: &Split) -> (u32, Works) {
    let mut page = [UNTOUCHED; WORKS_PAGE + 1];
    let (number, written) = works(&request.to_works(split), &mut page);
    assert_eq!(written, WORKS_PAGE as u64);
    assert_eq!(page[WORKS_PAGE], UNTOUCHED);
    (number, Works::from_page(page.first_chunk().unwrap()))
}

/// What `line` gives, and its listing.
fn own(request: &Request, split: &Split, number: u32) -> (u32, String) {
    listed(|page| line(&request.to_line(split, number), page))
}

/// What `choose` gives, and its listing.
fn chosen(request: &Request) -> (u32, String) {
    listed(|page| choose(&request.to_choose(), page))
}

fn listed(call: impl Fn(&mut [u8]) -> (u32, u64)) -> (u32, String) {
    let mut page = [UNTOUCHED; PAGE_LENGTH];
    let (number, written) = call(&mut page);
    let (listing, rest) = page.split_at(written as usize);
    assert!(rest.iter().all(|&byte| byte == UNTOUCHED));
    (number, String::from_utf8(listing.to_vec()).unwrap())
}

/// The listing of a sheet's figures.
fn listing(figures: &[u64]) -> String {
    let lines = sheet::LINES.iter().zip(figures);
    lines
        .map(|(line, figure)| format!("{} {figure}\n", line.label))
        .collect()
}

/// Case A with these flows and this surface.
fn with_parts([flow, wet_weather_flow, site_surface]: [u32; 3]) -> Request {
    Request {
        flow,
        wet_weather_flow,
        site_surface,
        ..case_a()
    }
}

/// What a works comes to whose lines are these plants: each sheet is the
/// plant's own choice, and the sums are those of the sheets.
fn is_built_of(request: &Request, split: &Split, lines: &[Request]) {
    let (number, works) = built(request, split);
    assert_eq!(number, SHEET, "{split:?}");
    for ((place, sheet), plant) in (1..).zip(&works.sheets).zip(lines) {
        let expected = (SHEET, listing(sheet));
        assert_eq!(chosen(plant), expected, "line {place} of {split:?}");
        assert_eq!(own(request, split, place), expected, "{split:?}");
    }
    let rest = &works.sheets[lines.len()..];
    assert!(rest.iter().flatten().all(|figure| *figure == 0));
    for (label, sum) in SUMS.iter().zip(works.sums) {
        let place = sheet::LINES.iter().position(|line| line.label == *label);
        let figures = works.sheets.iter().map(|sheet| sheet[place.unwrap()]);
        assert_eq!(figures.sum::<u64>(), sum, "{label} of {split:?}");
    }
}

#[test]
fn two_equal_lines() {
    let half = with_parts([2_500, 300, 500]);
    is_built_of(&case_a(), &Split::of(&[500, 500]), &[half, half]);
}

/// Each part is the difference of two running sums, rounded down: of 5,000,
/// 601 and 1,003 the thirds are not alike.
#[test]
fn parts_are_differences_of_running_sums() {
    let whole = with_parts([5_000, 601, 1_003]);
    let thirds = [
        with_parts([1_665, 200, 333]),
        with_parts([1_665, 200, 334]),
        with_parts([1_670, 201, 336]),
    ];
    is_built_of(&whole, &Split::of(&[333, 333, 334]), &thirds);
    let eight = Split::of(&[125; 8]);
    let (number, works) = built(&with_parts([5_001, 601, 1_003]), &eight);
    assert_eq!(number, SHEET);
    assert!(works.sheets.iter().all(|sheet| sheet[0] == 300));
}

/// Head counts are turned into concentrations on the whole flow.
#[test]
fn head_counts_are_of_the_whole_works() {
    let by_heads = Request {
        bod: Reading::Heads(16_667),
        primary_settling: PrimarySettling::None,
        ..case_a()
    };
    let half = Request {
        bod: Reading::Measured(200.004f32.to_bits()),
        ..with_parts([2_500, 300, 500])
    };
    is_built_of(&by_heads, &Split::of(&[500, 500]), &[half, half]);
}

/// The safety factor is that of the whole load: Case A's, in any line.
#[test]
fn the_load_stays_whole() {
    for load in [1_200, 6_000] {
        let whole = Request { load, ..case_a() };
        let half = Request {
            load,
            ..with_parts([2_500, 300, 500])
        };
        is_built_of(&whole, &Split::of(&[500, 500]), &[half, half]);
    }
}

/// What a works that is refused gives: its number and zeros.
fn is_refused(request: &Request, split: &Split, number: u32) {
    let zeros = Works {
        sums: [0; SUMS.len()],
        sheets: [[0; 15]; MOST_LINES],
    };
    assert_eq!(built(request, split), (number, zeros), "{split:?}");
}

/// What each line of a works gives by itself.
fn numbers(request: &Request, split: &Split) -> Vec<u32> {
    let lines = 1..=split.count;
    lines.map(|line| own(request, split, line).0).collect()
}

#[test]
fn shares_that_are_wrong() {
    let of_count = |count: u32| Split {
        count,
        shares: [125; 8],
    };
    for split in [
        Split::default(),
        Split::of(&[1_000]),
        Split::of(&[112, 111, 111, 111, 111, 111, 111, 111, 111]),
        Split::of(&[0, 1_000]),
        Split::of(&[500, 0, 500]),
        Split::of(&[500, 499]),
        Split::of(&[500, 501]),
        Split::of(&[333, 333, 333]),
        Split::of(&[u32::MAX, 1_001]),
        Split::of(&[1 << 31, 1 << 31, 500, 500]),
        of_count(7),
        of_count(9),
        of_count(u32::MAX),
    ] {
        is_refused(&case_a(), &split, LINES);
        let refused = (LINES, "refused 18\n".to_string());
        assert_eq!(own(&case_a(), &split, 1), refused, "{split:?}");
        // before the data of the whole works
        is_refused(&Request::default(), &split, LINES);
        assert_eq!(own(&Request::default(), &split, 1), refused);
    }
}

/// Shares past the number of lines are not looked at.
#[test]
fn entries_past_the_count() {
    let plain = Split::of(&[400, 600]);
    let mut odd = plain;
    odd.shares[2..].copy_from_slice(&[0, 1, 1_000, u32::MAX, 7, 0]);
    assert_eq!(built(&case_a(), &odd), built(&case_a(), &plain));
    for number in 1..=2 {
        assert_eq!(own(&case_a(), &odd, number), own(&case_a(), &plain, number));
    }
    assert_eq!(own(&case_a(), &odd, 3).0, LINES);
}

#[test]
fn lines_are_counted_from_1() {
    for count in [2, 8] {
        let mut split = Split {
            count,
            shares: [1; MOST_LINES],
        };
        split.shares[0] = 1_001 - count;
        for number in [0, count + 1, 9, u32::MAX] {
            let refused = (LINES, "refused 18\n".to_string());
            assert_eq!(own(&case_a(), &split, number), refused);
            assert_eq!(own(&Request::default(), &split, number), refused);
        }
        assert_eq!(own(&case_a(), &split, 1).0, SHEET);
        assert_ne!(own(&case_a(), &split, count).0, LINES);
    }
}

/// The whole works' data are checked like one plant's, and every line gets
/// what they get.
#[test]
fn the_whole_data_come_first() {
    let mut no_term = case_a();
    no_term.terms.count = 5;
    let measured = |value: f32| Reading::Measured(value.to_bits());
    let split = Split::of(&[999, 1]);
    for (request, number) in [
        (Request::default(), PLANT_DATA),
        (with_parts([0, 600, 1_000]), PLANT_DATA),
        (with_parts([200_001, 600, 1_000]), PLANT_DATA),
        (
            Request {
                sludge_volume_index: 181,
                ..case_a()
            },
            BULKING,
        ),
        (
            Request {
                phosphorus: measured(f32::NAN),
                ..case_a()
            },
            NO_NUMBER,
        ),
        (
            Request {
                bod: Reading::Heads(1_666),
                ..case_a()
            },
            READING_RANGE,
        ),
        (
            Request {
                cod: measured(440.1),
                ..case_a()
            },
            COD_RATIO,
        ),
        (no_term, TERMS),
    ] {
        is_refused(&request, &split, number);
        assert_eq!(chosen(&request).0, number);
        assert_eq!(numbers(&request, &split), [number; 2]);
    }
}

/// A line of which a part is 0 gets 1, whatever the others get.
#[test]
fn a_part_of_0() {
    let split = Split::of(&[1, 999]);
    for (parts, first) in [
        ([1_000, 1_000, 1_000], SHEET),
        ([999, 1_000, 1_000], PLANT_DATA),
        ([1_000, 999, 1_000], PLANT_DATA),
        ([1_000, 1_000, 999], PLANT_DATA),
    ] {
        let request = with_parts(parts);
        assert_eq!(numbers(&request, &split), [first, SHEET], "{parts:?}");
        match first {
            SHEET => assert_eq!(built(&request, &split).0, SHEET),
            number => is_refused(&request, &split, number),
        }
    }
}

/// The works is refused with the number of its first refused line; another
/// line still has its own answer. Of 600 m3/h and 400 m2 a share of 4 has 2
/// and 1, and no tank of 1 m2 takes 2 m3/h; a share of 1 may have 0.
#[test]
fn the_first_refused_line() {
    let narrow = with_parts([5_000, 600, 400]);
    for (shares, expected) in [
        (&[4, 996][..], &[NO_DESIGN, SHEET][..]),
        (&[1, 999], &[PLANT_DATA, SHEET]),
        (&[1, 3, 996], &[PLANT_DATA, NO_DESIGN, SHEET]),
        (&[4, 3, 1, 992], &[NO_DESIGN, NO_DESIGN, PLANT_DATA, SHEET]),
        (&[990, 7, 1, 2], &[SHEET, NO_DESIGN, PLANT_DATA, NO_DESIGN]),
    ] {
        let split = Split::of(shares);
        assert_eq!(numbers(&narrow, &split), expected, "{shares:?}");
        let first = expected.iter().find(|number| **number != SHEET);
        is_refused(&narrow, &split, *first.unwrap());
    }
}

/// A works of another process adds up too.
#[test]
fn intermittent_lines() {
    let of = |request: Request| Request {
        process: Process::Intermittent,
        nitrate_target: 25_000,
        ..request
    };
    let split = Split::of(&[250, 750]);
    let parts = [[1_250, 150, 250], [3_750, 450, 750]];
    is_built_of(&of(case_a()), &split, &parts.map(with_parts).map(of));
}

/// Each number of a page has its place.
#[test]
fn each_number_has_its_place() {
    let mut page = [0; WORKS_PAGE];
    for (place, number) in page.chunks_exact_mut(8).enumerate() {
        number.copy_from_slice(&(1_000_000_007 * place as u64).to_le_bytes());
    }
    let works = Works::from_page(&page);
    let in_order = works.sums.iter().chain(works.sheets.iter().flatten());
    assert_eq!(in_order.clone().count(), 128);
    assert!((0..).zip(in_order).all(|(k, n)| *n == 1_000_000_007 * k));
}

#[test]
fn sums_are_labels_of_the_listing() {
    let labels = sheet::LINES.map(|line| line.label);
    let summed: Vec<&str> = labels.into_iter().filter(|l| SUMS.contains(l)).collect();
    let mut sums = SUMS;
    sums.sort_by_key(|sum| labels.iter().position(|label| label == sum));
    assert_eq!(summed, sums);
}

#[test]
fn a_works_needs_its_page() {
    let mut page = [UNTOUCHED; WORKS_PAGE - 1];
    for (request, split) in [
        (case_a(), Split::of(&[500, 500])),
        (case_a(), Split::default()),
        (Request::default(), Split::of(&[500, 500])),
    ] {
        let bytes = request.to_works(&split);
        assert_eq!(works(&bytes, &mut page), (SHORT_PAGE, 0));
        assert_eq!(works(&bytes, &mut []), (SHORT_PAGE, 0));
    }
    assert_eq!(page, [UNTOUCHED; WORKS_PAGE - 1]);
}

#[test]
fn a_line_needs_its_page() {
    let split = Split::of(&[500, 500]);
    for (number, text) in [1, 3].map(|line| (line, own(&case_a(), &split, line).1)) {
        let bytes = case_a().to_line(&split, number);
        let mut page = [UNTOUCHED; PAGE_LENGTH];
        let short = &mut page[..text.len() - 1];
        assert_eq!(line(&bytes, short), (SHORT_PAGE, 0));
        assert_eq!(page, [UNTOUCHED; PAGE_LENGTH]);
        let whole = &mut page[..text.len()];
        assert_eq!(line(&bytes, whole).1, text.len() as u64);
        assert_eq!(whole, text.as_bytes());
    }
}

#[test]
fn malformed_requests_have_their_codes() {
    let mut page = [UNTOUCHED; WORKS_PAGE];
    let good = case_a().to_line(&Split::of(&[500, 500]), 1);
    for length in [0, 3, 4, 224, 236, WORKS_LENGTH - 1, LINE_LENGTH] {
        assert_eq!(works(&good[..length], &mut page), (BAD_LENGTH, 0));
    }
    for length in [0, 3, 4, 224, 236, WORKS_LENGTH, LINE_LENGTH - 1] {
        assert_eq!(line(&good[..length], &mut page), (BAD_LENGTH, 0));
    }
    let longer = [&good[..], &[0; 4]].concat();
    assert_eq!(line(&longer, &mut page), (BAD_LENGTH, 0));
    for version in [VERSION - 1, VERSION + 1] {
        let mut other = good;
        other[..4].copy_from_slice(&version.to_le_bytes());
        for length in [4, 224, WORKS_LENGTH, LINE_LENGTH] {
            assert_eq!(works(&other[..length], &mut page), (BAD_VERSION, 0));
            assert_eq!(line(&other[..length], &mut page), (BAD_VERSION, 0));
            assert_eq!(works(&other[..length], &mut []), (BAD_VERSION, 0));
        }
        assert_eq!(works(&other[..3], &mut page), (BAD_LENGTH, 0));
    }
    // a process, a tank flow, a reading and a way that are not known
    for (place, value) in [(56, 5), (64, 2), (76, 3), (220, 2), (223, 1)] {
        let mut unknown = good;
        unknown[place] = value;
        let data = &unknown[..WORKS_LENGTH];
        assert_eq!(works(data, &mut page), (BAD_KIND, 0));
        assert_eq!(line(&unknown, &mut page), (BAD_KIND, 0));
        // before the split, which is no part of the layout
        unknown[WORKS_LENGTH - 36] = 0;
        assert_eq!(works(&unknown[..WORKS_LENGTH], &mut page), (BAD_KIND, 0));
        assert_eq!(line(&unknown, &mut page), (BAD_KIND, 0));
    }
    assert_eq!(page, [UNTOUCHED; WORKS_PAGE]);
}
