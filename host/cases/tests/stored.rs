//! The stored cases: size, kinds, and that they are always the same.

use cases::collection::Case;
use cases::groups::cod_roundings;
use cases::model::Outcome;
use cases::random::Random;
use cases::{cod_lines, files, groups, model, plants, request, wanted};

fn made() -> (Vec<Case>, Vec<Outcome>) {
    let cases = groups::all().cases;
    let outcomes = cases.iter().map(Case::outcome).collect();
    (cases, outcomes)
}

#[test]
fn every_kind_is_there_and_twice_the_same() {
    let (cases, outcomes) = made();
    assert!(cases.len() >= 400);
    assert_eq!(
        wanted::summary(&cases, &outcomes).faults(),
        Vec::<String>::new()
    );
    let requests: Vec<u8> = cases.iter().flat_map(files::record).collect();
    let answers: Vec<u8> = outcomes.iter().flat_map(files::answer).collect();
    assert!(requests.len() <= files::MOST_BYTES);

    let (again, same) = made();
    assert_eq!(
        files::first_difference(&again, &same, &requests, &answers),
        None
    );
    let mut other = answers.clone();
    *other.last_mut().unwrap() ^= 1;
    let last = cases.len() - 1;
    let difference = files::first_difference(&cases, &outcomes, &requests, &other).unwrap();
    assert!(difference.starts_with(&format!("stdout, case {last} ")));
}

#[test]
fn bytes_of_case_a() {
    let bytes = plants::case_a().examine_bytes();
    assert_eq!(bytes.len(), request::EXAMINE_LENGTH);
    assert_eq!(bytes[..8], [4, 0, 0, 0, 0xb0, 0x04, 0, 0]);
    assert_eq!(bytes[76..84], [0, 0, 0, 0, 0, 0, 0x48, 0x43]);
    let dosed = plants::case_a().with(request::DOSE, 0x0004_03a1);
    assert_eq!(dosed.examine_bytes()[116..120], [0xa1, 0x03, 0x04, 0]);
    assert_eq!(
        bytes[request::CHOOSE_LENGTH..],
        [0x2c, 1, 0, 0, 75, 0, 0, 0, 20, 0, 0, 0]
    );
    assert_eq!(
        plants::case_a().choose_bytes(),
        bytes[..request::CHOOSE_LENGTH]
    );
}

#[test]
fn bytes_of_terms() {
    assert_eq!(request::CHOOSE_LENGTH, 224);
    assert_eq!(request::EXAMINE_LENGTH, 236);
    let plain = plants::case_a().examine_bytes();
    assert_eq!(plain[120..224], [0; 104]);
    let terms = [[11, 1, 3, 31, 8, 0xabcd], [4, 2, 10, 30, 12, 20_000]];
    let bytes = plants::case_a().with_terms(&terms).examine_bytes();
    let words: Vec<u32> = bytes[120..172]
        .chunks_exact(4)
        .map(|four| u32::from_le_bytes(four.try_into().unwrap()))
        .collect();
    let expected = [2, 11, 1, 3, 31, 8, 0xabcd, 4, 2, 10, 30, 12, 20_000];
    assert_eq!(words, expected);
    assert_eq!(bytes[144..148], [0xcd, 0xab, 0, 0]);
    assert_eq!(bytes[172..220], [0; 48]);
    assert_eq!(bytes[220..], plain[220..]);
}

/// The way after the terms, and the candidate after it.
#[test]
fn bytes_of_the_way() {
    use reference::Way;
    let plain = plants::case_a();
    let terms = [[11, 1, 3, 31, 8, 30_000]; 4];
    for (code, way) in [(0, Some(Way::Bod)), (1, Some(Way::Cod)), (2, None)] {
        let bytes = plain.with(request::WAY, code).examine_bytes();
        assert_eq!(bytes[..220], plain.examine_bytes()[..220]);
        assert_eq!(bytes[220..224], [code as u8, 0, 0, 0]);
        assert_eq!(bytes[224..], plain.examine_bytes()[224..]);
        for request in [plain, plain.with_terms(&terms)] {
            let decoded = request.with(request::WAY, code).decoded();
            match (decoded, way) {
                (Ok(data), Some(way)) => assert_eq!(data.plant.way, way),
                (Err(fault), None) => assert_eq!(fault, 103),
                _ => panic!("way {code}"),
            }
        }
    }
}

/// The last of four terms, whose last word is the last before the way.
#[test]
fn terms_decoded() {
    let mut terms = [[11, 1, 3, 31, 8, 30_000]; 4];
    terms[3] = [1, 2, 3, 4, 5, 6_000];
    let data = plants::case_a().with_terms(&terms).decoded().ok().unwrap();
    let consent = data.plant.consent;
    assert_eq!(consent.count, 4);
    let term = consent.terms[3];
    let (first, last) = (
        (term.first_month, term.first_day),
        (term.last_month, term.last_day),
    );
    assert_eq!((first, last), ((1, 2), (3, 4)));
    assert_eq!((term.temperature, term.nitrate_target), (5, 6_000));
    assert_eq!(consent.terms[0], consent.terms[2]);
}

/// Case A with a term that is just missed and one that is not nitrified.
#[test]
fn terms_explained() {
    let terms = [[11, 1, 3, 31, 11, 12_999], [11, 1, 3, 31, 8, 30_000]];
    let request = plants::case_a().with_terms(&terms).examine_bytes();
    let outcome = model::explain(&request, model::EXPLAIN_PAGE);
    let figures: Vec<u64> = outcome
        .written
        .chunks_exact(8)
        .map(|eight| u64::from_le_bytes(eight.try_into().unwrap()))
        .collect();
    assert_eq!(outcome.number, 0);
    assert_eq!(figures.len(), 29);
    assert_eq!(figures[..4], [26_000, 26_000, 0, 26_000]);
    assert_eq!(figures[8], 15);
    assert_eq!(figures[9..14], [773, 227, 23_001, 23_000, 23_000]);
    assert_eq!(figures[14..19], [1_037, 0, 6_000, 0, 0]);
    assert_eq!(figures[19..], [0; 10]);
}

/// Case A as a simultaneous plant in the COD way: what stands for K x C.
#[test]
fn cod_way_explained() {
    let terms = [[11, 1, 3, 31, 11, 23_486], [11, 1, 3, 31, 10, 30_000]];
    let request = plants::case_a()
        .with(request::WAY, request::BY_COD)
        .with(request::PROCESS, 1)
        .with_terms(&terms);
    let outcome = model::explain(&request.examine_bytes(), model::EXPLAIN_PAGE);
    let figures: Vec<u64> = outcome
        .written
        .chunks_exact(8)
        .map(|eight| u64::from_le_bytes(eight.try_into().unwrap()))
        .collect();
    assert_eq!(figures[..4], [26_000, 16_764, 0, 16_764]);
    assert_eq!(figures[8], 7);
    assert_eq!(figures[9..14], [773, 227, 12_514, 12_514, 12_514]);
    assert_eq!(figures[14..19], [852, 148, 6_000, 0, 0]);
}

/// A winter over the new year and one day of it with a lower target.
#[test]
fn targets() {
    let terms = [[11, 1, 3, 31, 8, 20_000], [12, 24, 12, 24, 4, 9_000]];
    let request = |count: u32, month: u32, day: u32| -> Vec<u8> {
        let words = [&[request::NEWEST_VERSION, count], terms.as_flattened()].concat();
        let zeros = [0; 12];
        let words = [&words[..], &zeros, &[month, day]].concat();
        words.iter().flat_map(|word| word.to_le_bytes()).collect()
    };
    let answer = |bytes: &[u8], page: usize| {
        let outcome = model::target(bytes, page);
        (outcome.number, outcome.written)
    };
    for (count, month, day, number, target) in [
        (2, 2, 29, 0, 20_000u64),
        (2, 12, 24, 0, 9_000),
        (2, 4, 1, 0, 0),
        (1, 12, 24, 0, 20_000),
        (0, 12, 24, 0, 0),
        (2, 2, 30, 14, 0),
        (3, 2, 29, 14, 0),
        (5, 2, 29, 14, 0),
    ] {
        let bytes = request(count, month, day);
        assert_eq!(bytes.len(), 112);
        let written = target.to_le_bytes().to_vec();
        assert_eq!(answer(&bytes, model::TARGET_PAGE), (number, written));
        assert_eq!(answer(&bytes, model::TARGET_PAGE - 1), (11, Vec::new()));
        assert_eq!(answer(&bytes[..111], 8), (101, Vec::new()));
    }
    let mut earlier = request(2, 2, 30);
    earlier[0] = 3;
    assert_eq!(answer(&earlier[..4], 0), (102, Vec::new()));
}

/// The roundings that the search turns are those of the reference.
#[test]
fn roundings_as_in_the_reference() {
    let mut random = Random::new(7);
    for _ in 0..20_000 {
        let plant = plants::anything(&mut random);
        let request = cod_lines::in_cod_way(&mut random, plant);
        assert!(cod_roundings::agree(&request));
    }
}

#[test]
fn malformed_requests_in_their_order() {
    let plant = plants::case_a()
        .with(request::VERSION, request::LATER_VERSION)
        .with(request::REMOVAL, 3);
    let fault = |bytes: &[u8]| request::decode(bytes, request::EXAMINE_LENGTH).err();
    assert_eq!(fault(&plant.choose_bytes()), Some(102));
    assert_eq!(fault(&plant.examine_bytes()), Some(102));
    assert_eq!(fault(&plant.examine_bytes()[..3]), Some(101));
    let earlier = plant.with(request::VERSION, request::EARLIER_VERSION);
    for length in [220, 224, 232, 236] {
        assert_eq!(fault(&earlier.examine_bytes()[..length]), Some(102));
    }
    let known = plant.with(request::VERSION, request::NEWEST_VERSION);
    assert_eq!(fault(&known.choose_bytes()), Some(101));
    assert_eq!(fault(&known.examine_bytes()), Some(103));
}
