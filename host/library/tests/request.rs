//! The bytes of a request at their offsets.

mod common;

use common::{case_a, CASE_A_CANDIDATE};
use library::{
    Candidate, Date, Existing, Precipitant, PrimarySettling, Process, Reading, Removal, Request,
    Span, Split, TankFlow, Term, Terms, Way, BUILT_LENGTH, CHOOSE_LENGTH, EXAMINE_LENGTH,
    EXPLAIN_LENGTH, LINE_LENGTH, STATE_LENGTH, TARGET_LENGTH, WORKS_LENGTH,
};

fn word(bytes: &[u8], place: usize) -> u32 {
    u32::from_le_bytes(bytes[4 * place..4 * place + 4].try_into().unwrap())
}

#[test]
fn lengths_are_those_of_the_header_for_c() {
    let header = include_str!("../../../include/pewgull.h");
    let lengths = [
        ("CHOOSE", CHOOSE_LENGTH),
        ("EXAMINE", EXAMINE_LENGTH),
        ("EXPLAIN", EXPLAIN_LENGTH),
        ("TARGET", TARGET_LENGTH),
        ("WORKS", WORKS_LENGTH),
        ("LINE", LINE_LENGTH),
        ("STATE", STATE_LENGTH),
        ("BUILT", BUILT_LENGTH),
    ];
    for (call, length) in lengths {
        let line = format!("#define PEWGULL_{call}_LENGTH {length}\n");
        assert!(header.contains(&line), "{line}");
    }
    assert_eq!(
        (CHOOSE_LENGTH, EXAMINE_LENGTH, TARGET_LENGTH),
        (224, 236, 112)
    );
    assert_eq!((WORKS_LENGTH, LINE_LENGTH, BUILT_LENGTH), (260, 264, 252));
    let pages = [
        ("WORKS", library::WORKS_PAGE),
        ("BUILT", library::BUILT_PAGE),
    ];
    for (call, length) in pages {
        let line = format!("#define PEWGULL_{call}_PAGE {length}\n");
        assert!(header.contains(&line), "{line}");
    }
    assert_eq!((library::WORKS_PAGE, library::BUILT_PAGE), (1_024, 8));
    assert_eq!(library::FIGURES_LENGTH, 232);
    assert_eq!(library::CENSUS_LENGTH, 256);
}

#[test]
fn bytes_of_case_a() {
    let bytes = case_a().to_examine(CASE_A_CANDIDATE);
    assert_eq!(bytes[0..4], [4, 0, 0, 0]);
    assert_eq!(bytes[4..8], [0xb0, 0x04, 0, 0], "load 1,200");
    assert_eq!(bytes[8..12], [0x88, 0x13, 0, 0], "flow 5,000");
    assert_eq!(bytes[52..56], [0x88, 0x13, 0, 0], "site depth 5,000");
    assert_eq!(bytes[56..76], [0; 20], "every kind is its first");
    assert_eq!(bytes[76..84], [0, 0, 0, 0, 0, 0, 0x48, 0x43], "BOD 200.0");
    assert_eq!(word(&bytes, 28), 0x4100_0000, "phosphorus 8.0");
    assert_eq!(word(&bytes, 29), 0, "no dose");
    assert_eq!(bytes[120..220], [0; 100], "no terms");
    assert_eq!(bytes[220..CHOOSE_LENGTH], [0; 4], "by the BOD");
    assert_eq!(
        bytes[CHOOSE_LENGTH..],
        [0x2c, 1, 0, 0, 75, 0, 0, 0, 20, 0, 0, 0]
    );
}

#[test]
fn a_request_to_choose_is_the_start_of_one_to_examine() {
    let request = case_a();
    assert_eq!(
        request.to_choose()[..],
        request.to_examine(CASE_A_CANDIDATE)[..CHOOSE_LENGTH]
    );
}

/// The number of lines is word 56, the shares are the next eight, and the
/// line's number is word 65; the data come before them unchanged.
#[test]
fn bytes_of_a_request_for_a_works() {
    let split = Split {
        count: 56,
        shares: [57, 58, 59, 60, 61, 62, 63, 64],
    };
    let bytes = case_a().to_line(&split, 65);
    assert_eq!(bytes[..CHOOSE_LENGTH], case_a().to_choose());
    assert_eq!(bytes[..WORKS_LENGTH], case_a().to_works(&split));
    for place in 56..66 {
        assert_eq!(word(&bytes, place), place as u32, "word {place}");
    }
}

/// The sizes are words 56 to 58, what they are run at the next two, and the
/// span the last two; the data come before them unchanged.
#[test]
fn bytes_of_a_request_for_existing_tanks() {
    let existing = Existing {
        reactor: 56,
        surface: 57,
        depth: 58,
        fraction: 59,
        thickening: 60,
    };
    let span = Span {
        least: 61,
        most: 62,
    };
    let bytes = case_a().to_built(&existing, &span);
    assert_eq!(bytes[..CHOOSE_LENGTH], case_a().to_choose());
    for place in 56..63 {
        assert_eq!(word(&bytes, place), place as u32, "word {place}");
    }
}

/// A ninth share is counted and has no entry.
#[test]
fn shares_are_counted() {
    let shares = [1, 2, 3, 4, 5, 6, 7, 8, 9];
    for count in 0..=9 {
        let split = Split::of(&shares[..count]);
        assert_eq!(split.count, count as u32);
        assert_eq!(split.named(), &shares[..count.min(8)]);
        assert!(split.shares[count.min(8)..].iter().all(|share| *share == 0));
    }
    let count = u32::MAX;
    assert_eq!(
        Split {
            count,
            ..Split::of(&shares)
        }
        .named(),
        &shares[..8]
    );
}

/// Terms whose words hold so much and one more each.
fn terms(first: u32) -> Terms {
    let date = |month: u32| Date {
        month,
        day: month + 1,
    };
    let term = |place: u32| {
        let word = first + 1 + 6 * place;
        Term {
            first: date(word),
            last: date(word + 2),
            temperature: word + 4,
            target: word + 5,
        }
    };
    Terms {
        count: first,
        entries: [0, 1, 2, 3].map(term),
    }
}

/// Version, terms and date; a swap shows here too.
#[test]
fn bytes_of_a_request_for_a_target() {
    let bytes = terms(1).to_target(Date { month: 26, day: 27 });
    assert_eq!(word(&bytes, 0), 4);
    for place in 1..28 {
        assert_eq!(word(&bytes, place), place as u32, "word {place}");
    }
}

/// A fifth term is counted and leaves the four entries as they are.
#[test]
fn terms_are_pushed_in_order() {
    let four = terms(1).entries;
    let mut pushed = Terms::default();
    for (count, term) in (1..).zip(four) {
        pushed.push(term);
        assert_eq!(pushed.count, count);
        assert_eq!(pushed.named(), &four[..count as usize]);
    }
    pushed.push(Term::default());
    assert_eq!((pushed.count, pushed.named()), (5, &four[..]));
    pushed.count = u32::MAX;
    pushed.push(Term::default());
    assert_eq!((pushed.count, pushed.named()), (u32::MAX, &four[..]));
}

/// Every field holds the number of its word, so that a swap shows.
#[test]
fn each_field_has_its_word() {
    let request = Request {
        load: 1,
        flow: 2,
        wet_weather_flow: 3,
        design_temperature: 4,
        aeration_temperature: 5,
        sludge_volume_index: 6,
        nitrate_target: 7,
        phosphorus_target: 8,
        carbon_peak: 9,
        nitrogen_peak: 10,
        oxygen_saturation: 11,
        site_surface: 12,
        site_depth: 13,
        bod: Reading::Heads(20),
        cod: Reading::Heads(22),
        solids: Reading::Heads(24),
        nitrogen: Reading::Heads(26),
        phosphorus: Reading::Heads(28),
        dose: 29,
        terms: terms(30),
        ..Request::default()
    };
    let own = CHOOSE_LENGTH / 4;
    let bytes = request.to_examine(Candidate {
        fraction: own as u32,
        return_ratio: own as u32 + 1,
        thickening: own as u32 + 2,
    });
    assert_eq!(own, 56);
    let terms = 30..55;
    for place in (1..=13)
        .chain([20, 22, 24, 26, 28, 29])
        .chain(terms)
        .chain([own, own + 1, own + 2])
    {
        assert_eq!(word(&bytes, place), place as u32, "word {place}");
    }
}

#[test]
fn kinds_have_their_codes() {
    let request = Request {
        process: Process::StepFeedThree,
        precipitant: Precipitant::Aluminium,
        tank: TankFlow::Vertical,
        removal: Removal::Hopper,
        primary_settling: PrimarySettling::Long,
        way: Way::Cod,
        bod: Reading::Measured(0x7fc0_0001),
        cod: Reading::Below(0x8000_0000),
        solids: Reading::Heads(u32::MAX),
        ..Request::default()
    };
    let bytes = request.to_choose();
    let words: Vec<u32> = (14..=24).map(|place| word(&bytes, place)).collect();
    assert_eq!(
        words,
        [4, 1, 1, 2, 2, 0, 0x7fc0_0001, 1, 0x8000_0000, 2, u32::MAX]
    );
    assert_eq!(word(&bytes, 55), 1);
}

/// The way is word 55, between the terms and the candidate; no other word of
/// the request knows it.
#[test]
fn the_way_has_its_word() {
    let by_bod = case_a().to_examine(CASE_A_CANDIDATE);
    let by_cod = Request {
        way: Way::Cod,
        ..case_a()
    };
    let mut expected = by_bod;
    assert_eq!(expected[220..224], [0; 4]);
    expected[220] = 1;
    assert_eq!(by_cod.to_examine(CASE_A_CANDIDATE), expected);
    assert_eq!(by_cod.to_choose()[..], expected[..CHOOSE_LENGTH]);
    assert_eq!(word(&expected, 56), CASE_A_CANDIDATE.fraction);
}

#[test]
fn nitrate_by_cod() {
    let by_cod = |way: Way| {
        [
            Process::PreAnoxic,
            Process::Simultaneous,
            Process::Intermittent,
            Process::StepFeedTwo,
            Process::StepFeedThree,
        ]
        .map(|process| {
            let request = Request {
                process,
                way,
                ..case_a()
            };
            request.removes_by_cod()
        })
    };
    assert_eq!(by_cod(Way::Bod), [false; 5]);
    assert_eq!(by_cod(Way::Cod), [false, true, true, false, false]);
}
