//! The stored cases of built tanks and prices: where they stand, what they ask, and
//! what is answered.

use cases::collection::{Case, Operation};
use cases::model::Outcome;
use cases::request::{decode_built, decode_price};
use cases::{files, groups, wanted};
use reference::Span;
use std::collections::BTreeMap;
use std::sync::LazyLock;

/// Examinations and choices, which come first.
const EARLIER: usize = 1_624;
/// Then those of built tanks and of prices; the lengths of listings and the looser
/// limits come last.
const BEFORE_LENGTHS: usize = 2_053;

/// All stored cases, made once for these tests.
static ALL: LazyLock<Vec<Case>> = LazyLock::new(|| groups::all().cases);

/// The cases of built tanks and prices.
fn calls() -> &'static [Case] {
    &ALL[EARLIER..]
}

/// The page as numbers of eight bytes.
fn figures(outcome: &Outcome) -> Vec<u64> {
    let eight = |bytes: &[u8]| bytes.iter().rev().fold(0, |n, b| n << 8 | u64::from(*b));
    outcome.written.chunks_exact(8).map(eight).collect()
}

#[test]
fn after_the_earlier_cases() {
    let all = &*ALL;
    assert!(all.len() < 10_000);
    let earlier = |case: &Case| matches!(case.operation, Operation::Examine | Operation::Choose);
    assert!(all[..EARLIER].iter().all(earlier));
    assert!(!all[EARLIER..BEFORE_LENGTHS].iter().any(earlier));
    assert!(all[BEFORE_LENGTHS..].iter().all(earlier));
    let of = |operation: Operation| all.iter().filter(move |case| case.operation == operation);
    let choices = of(Operation::PriceChoose).count();
    let prices = choices + of(Operation::PriceExamine).count();
    assert!((120..=200).contains(&of(Operation::Built).count()));
    assert!((35..=50).contains(&choices), "{choices}");
    assert!((150..=250).contains(&prices), "{prices}");
    for case in all {
        assert!(case.request_bytes().len() <= 4_096 && case.page_length <= 512);
    }
}

/// The header of a record, the request after it, and the first line of the answer.
#[test]
fn codes_lengths_and_pages() {
    for (operation, header, page) in [
        (Operation::Built, [2, 0, 0, 0, 0, 2, 0, 0, 252, 0, 0, 0], 8),
        (
            Operation::PriceChoose,
            [3, 0, 0, 0, 0, 2, 0, 0, 0x18, 1, 0, 0],
            128,
        ),
        (
            Operation::PriceExamine,
            [4, 0, 0, 0, 0, 2, 0, 0, 0x24, 1, 0, 0],
            128,
        ),
    ] {
        let is_it = |case: &&Case| case.operation == operation;
        let case = calls().iter().find(is_it).unwrap();
        let record = files::record(case);
        assert_eq!(record[..12], header);
        assert_eq!(&record[12..], case.request_bytes());
        let outcome = case.outcome();
        let first_line = format!("{} {page}\n", outcome.number).into_bytes();
        let answer = files::answer(&outcome);
        assert_eq!(answer, [first_line, outcome.written].concat());
    }
}

/// A difference on these pages is shown by their bytes.
#[test]
fn differences_by_bytes() {
    let cases = &calls()[..1];
    let outcomes = [cases[0].outcome()];
    let requests = files::record(&cases[0]);
    let mut answers = files::answer(&outcomes[0]);
    let difference = |answers: &[u8]| files::first_difference(cases, &outcomes, &requests, answers);
    assert_eq!(difference(&answers), None);
    answers[5] = 0xab;
    let text = difference(&answers).unwrap();
    assert!(text.contains("stored:\n0 8\n00ab000000000000\nmade:\n0 8\n0000000000000000"));
}

/// The index that a kind of built tanks gives back, where it is known.
fn known(kind: &str, span: Span) -> Option<u32> {
    let Span { least, most } = span;
    match kind {
        "built, sizes just met"
        | "built, one size alone, met"
        | "built, held by an end ratio"
        | "built, no ratio for both"
        | "built, site just holds"
        | "built, covered" => Some(0),
        "built, one size missed"
        | "built, one size alone, missed"
        | "built, site too small"
        | "built, not covered" => Some(least),
        "built, lost between two held" | "built, lost twice" if least < most => Some(least + 1),
        _ => None,
    }
}

#[test]
fn indices_given_back() {
    let mut found: BTreeMap<&str, [usize; 3]> = BTreeMap::new();
    for case in calls() {
        let outcome = case.outcome();
        if case.operation != Operation::Built || outcome.number != 0 {
            continue;
        }
        let span = decode_built(case.request_bytes()).ok().unwrap().span;
        let lost = figures(&outcome)[0];
        if let Some(index) = known(case.kind, span) {
            assert_eq!(lost, u64::from(index), "{case:?}");
        }
        // held, lost at the first index, and later
        let place = match lost {
            0 => 0,
            _ => 1 + usize::from(lost > u64::from(span.least)),
        };
        found.entry(case.kind).or_default()[place] += 1;
    }
    for (kind, least) in [
        ("built, lost between two held", [6, 3, 3]),
        ("built, held between two lost", [1, 2, 0]),
        ("built, lost twice", [0, 0, 2]),
        ("built, span", [2, 1, 1]),
        ("built, own index", [0, 0, 3]),
        ("built, lost from an index on", [3, 3, 6]),
        ("built, widest span", [4, 0, 2]),
        ("built, solids and volume", [4, 4, 0]),
    ] {
        let enough = found[kind]
            .iter()
            .zip(least)
            .all(|(count, least)| *count >= least);
        assert!(enough, "{kind}: {:?}, wanted {least:?}", found[kind]);
    }
}

/// Cents by two bands, of limits that are one less than a tank's volume, the same and
/// one more.
#[test]
fn prices_about_a_volume() {
    let mut counts = [0; 3];
    for case in calls() {
        if !case.kind.ends_with(", limit about a volume") {
            continue;
        }
        let request = case.request_bytes();
        let (_, tariff) = decode_price(request, request.len()).ok().unwrap();
        let limit = u64::from(tariff.limits[0]);
        let figures = figures(&case.outcome());
        let volumes = [figures[7], figures[10]];
        let tank = |volume: u64| 7 * volume.min(limit) + 3 * volume.saturating_sub(limit);
        assert_eq!(figures[15], tank(volumes[0]) + tank(volumes[1]));
        for place in 0..3 {
            counts[place] += usize::from(volumes.contains(&(limit + 1 - place as u64)));
        }
    }
    assert_eq!(counts, [10; 3]);
}

/// Surcharges of whole cents and of parts of a cent, which count as whole ones.
#[test]
fn surcharges_rounded_up() {
    let mut rounded = BTreeMap::new();
    for case in calls() {
        let kinds = [
            "price, surcharge of whole cents",
            "price, surcharge rounded up",
        ];
        if !kinds.contains(&case.kind) {
            continue;
        }
        let (_, tariff) = decode_price(case.request_bytes(), 292).ok().unwrap();
        let price = figures(&case.outcome())[15];
        let [limit, first, last] =
            [tariff.limits[0], tariff.prices[0], tariff.prices[1]].map(u64::from);
        // of Case A's tanks only the reactor passes the limit, by its last metre
        assert_eq!(limit, 3_104);
        let sum = (limit + 2_060) * first + last;
        let thousandths = sum * u64::from(tariff.surcharge);
        assert_eq!(price, sum + thousandths.div_ceil(1_000));
        *rounded.entry(thousandths % 1_000).or_insert(0) += 1;
    }
    let both = [0, 1, 499, 500, 501, 999].map(|over| (over, 2));
    assert_eq!(rounded, BTreeMap::from(both));
}

/// Without them the summary misses their kinds and their numbers.
#[test]
fn missing_calls_are_faults() {
    let faults = wanted::summary(&[], &[]).faults();
    for fault in [
        "kind 'built, size of 0': 0 of 7",
        "kind 'price of the choice, no design': 0 of 6",
        "built tanks: no case answers 20",
        "built tanks: no case answers 21",
        "price of the choice: no case answers 22",
        "price of a candidate: no case answers 22",
    ] {
        assert!(faults.contains(&fault.to_string()), "{fault}");
    }
}
