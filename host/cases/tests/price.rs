//! Requests for prices, what the model answers to them, and that the cases made to
//! measure are what they are meant to be.

use cases::built;
use cases::model::{self, Outcome};
use cases::plants::case_a;
use cases::price::{self, tariff, with_count, Asked, Subject};
use cases::price_lines::{self, case_a_subjects, made_to_measure};
use cases::price_orders::quick;
use cases::random::Random;
use cases::request::*;
use reference::price::{priced, sum};
use reference::{Answer, Candidate, Tariff};
use std::collections::BTreeMap;

const PAGE: usize = 128;

/// Every word of it another one.
fn words() -> Tariff {
    Tariff {
        count: 2,
        limits: [3, 4, 5, 6, 7, 0x0102_0308],
        prices: [9, 10, 11, 12, 13, 0x0102_030e],
        surcharge: 0x010f,
    }
}

/// The number, and the sixteen figures that are given back.
fn answer(outcome: &Outcome) -> (u32, Vec<u64>) {
    let eight = |bytes: &[u8]| bytes.iter().rev().fold(0, |n, b| n << 8 | u64::from(*b));
    let figures = outcome.written.chunks_exact(8).map(eight).collect();
    (outcome.number, figures)
}

/// The data, the candidate where there is one, the number of bands, six limits, six
/// prices and the surcharge.
#[test]
fn bytes_of_prices() {
    assert_eq!((PRICE_CHOOSE_LENGTH, PRICE_EXAMINE_LENGTH), (280, 292));
    let plant = case_a();
    let choose = plant.price_choose_bytes(&words());
    let examine = plant.price_examine_bytes(&words());
    assert_eq!((choose.len(), examine.len()), (280, 292));
    assert_eq!(choose[..224], plant.choose_bytes());
    assert_eq!(examine[..236], plant.examine_bytes());
    assert_eq!(choose[224..], examine[236..]);
    let low: Vec<u8> = choose[224..].iter().copied().step_by(4).collect();
    assert_eq!(low, [2, 3, 4, 5, 6, 7, 8, 9, 10, 11, 12, 13, 14, 15]);
    assert_eq!(choose[248..252], [8, 3, 2, 1]);
    assert_eq!(choose[272..280], [14, 3, 2, 1, 15, 1, 0, 0]);
    let (data, found) = decode_price(&choose, 280).ok().unwrap();
    assert_eq!((data.candidate, found), (candidate(&NONE_YET), words()));
    let (data, found) = decode_price(&examine, 292).ok().unwrap();
    let own = Candidate {
        fraction: 300,
        return_ratio: 75,
        thickening: 20,
    };
    assert_eq!((data.candidate, found), (own, words()));
    assert_eq!(data.plant, plant.decoded().ok().unwrap().plant);
}

/// Case A's sheet and 3 cents for each of 5,165 cubic metres, with 1 thousandth
/// more: 15.495 cents.
#[test]
fn page_of_case_a() {
    let plant = case_a();
    let three = tariff(&[(0, 3)], 1);
    let outcome = model::price_examine(&plant.price_examine_bytes(&three), PAGE);
    let (number, figures) = answer(&outcome);
    let due = [300, 75, 20, 11_733, 1_000_000, 11_733];
    assert_eq!((number, figures.len()), (0, 16));
    assert_eq!(figures[..6], due);
    assert_eq!(
        (figures[7], figures[10], figures[11]),
        (3_105, 2_060, 5_165)
    );
    assert_eq!(figures[15], 15_495 + 16);
    let none = with_count(three, 0);
    let bulking = plant.with(SLUDGE_VOLUME_INDEX, 181);
    let off_grid = plant.with(FRACTION, 501);
    for (plant, tariff, number) in [
        (plant, none, 22),
        (bulking, three, 17),
        (bulking, none, 17),
        (off_grid, none, 6),
    ] {
        let outcome = model::price_examine(&plant.price_examine_bytes(&tariff), PAGE);
        assert_eq!(answer(&outcome), (number, vec![0; 16]));
    }
}

/// Pricing the choice gives the figures of the choice's listing, then the price.
#[test]
fn page_of_a_choice() {
    let plant = quick();
    let outcome = model::price_choose(&plant.price_choose_bytes(&tariff(&[(0, 2)], 500)), PAGE);
    let (number, figures) = answer(&outcome);
    let listing = model::choose(&plant.choose_bytes(), 512).written;
    let text = String::from_utf8(listing).unwrap();
    let listed = text.lines().map(|line| line.split(' ').nth(1).unwrap());
    let listed: Vec<u64> = listed.map(|figure| figure.parse().unwrap()).collect();
    assert_eq!((number, &figures[..15]), (0, &listed[..]));
    assert_eq!(figures[15], 3 * figures[11]);
    let nowhere = plant.with(SITE_SURFACE, 1);
    for tariff in [tariff(&[(0, 2)], 500), tariff(&[], 0)] {
        let outcome = model::price_choose(&nowhere.price_choose_bytes(&tariff), PAGE);
        assert_eq!(answer(&outcome), (5, vec![0; 16]));
    }
}

type Call = fn(&[u8], usize) -> Outcome;

/// A malformed request before a short page, and that before any refusal.
#[test]
fn malformed_requests_and_short_pages() {
    let plant = case_a().with(LOAD, 0);
    let unknown = plant.with(WAY, 2);
    let calls = [
        (
            model::price_choose as Call,
            plant.price_choose_bytes(&words()),
            unknown.price_choose_bytes(&words()),
        ),
        (
            model::price_examine,
            plant.price_examine_bytes(&words()),
            unknown.price_examine_bytes(&words()),
        ),
    ];
    for (call, bytes, unknown) in calls {
        let mut later = bytes.clone();
        later[0] += 1;
        for (outcome, number) in [
            (call(&bytes, 127), 11),
            (call(&bytes, 0), 11),
            (call(&bytes[..bytes.len() - 1], PAGE), 101),
            (call(&bytes[..3], PAGE), 101),
            (call(&[&bytes[..], &[0]].concat(), 0), 101),
            (call(&plant.choose_bytes(), PAGE), 101),
            (call(&plant.examine_bytes(), PAGE), 101),
            (call(&later, 0), 102),
            (call(&later[..4], PAGE), 102),
            (call(&unknown, 0), 103),
        ] {
            assert_eq!((outcome.number, outcome.written), (number, Vec::new()));
        }
        assert_eq!(answer(&call(&bytes, 129)), (1, vec![0; 16]));
    }
}

/// At its choice a plant has one sheet for both calls; Case A has two.
#[test]
fn subjects_at_their_choice() {
    let [own, chosen] = case_a_subjects()[..] else {
        panic!("two subjects");
    };
    assert_eq!(own.plant, case_a());
    assert_eq!(own.volumes(), [3_105, 2_060]);
    assert_eq!(own.chosen, chosen.chosen);
    assert_eq!(chosen.examined, chosen.chosen);
    assert_ne!(own.examined, own.chosen);
    assert!(own.chosen.sheet().total_volume < own.examined.sheet().total_volume);
}

/// Plants of every process, tank flow and way with two sheets, with and without a
/// dose and terms, some at their choice and some not.
#[test]
fn kinds_of_subjects() {
    let subjects = price_lines::subjects();
    for process in 0..=4 {
        for flow in 0..=1 {
            for way in [BY_BOD, BY_COD] {
                let kind = [process, flow, way];
                let kinds = |plant: &Request| [PROCESS, TANK_FLOW, WAY].map(|word| plant.get(word));
                let of = subjects.iter().filter(|it| kinds(&it.plant) == kind);
                assert!(of.count() >= 2, "{kind:?}");
            }
        }
    }
    let sheets = |it: &&Subject| it.chosen.number() == 0 && it.examined.number() == 0;
    assert_eq!(subjects.iter().filter(sheets).count(), subjects.len());
    let count = |wanted: fn(&&Subject) -> bool| subjects.iter().filter(wanted).count();
    let dosed = count(|it| it.plant.get(DOSE) > 0);
    let terms = count(|it| it.plant.get(TERM_COUNT) > 0);
    let at_choice = count(|it| it.chosen == it.examined);
    for (kind, found) in [("dosed", dosed), ("terms", terms), ("choice", at_choice)] {
        assert!((8..=34).contains(&found), "{found} {kind}");
    }
}

/// Prices, 22, and the sheet's own refusals.
fn outcomes(cases: &[Asked], outcome: fn(&Asked) -> Outcome) -> [usize; 3] {
    let mut counts = [0; 3];
    for asked in cases {
        let place = match outcome(asked).number {
            0 => 0,
            22 => 1,
            _ => 2,
        };
        counts[place] += 1;
    }
    counts
}

/// Each group has enough of the answers that it is made for, by either call.
#[test]
fn groups() {
    let groups: BTreeMap<_, _> = made_to_measure().into_iter().collect();
    for (name, least) in [
        ("limits about the volumes", [2_500, 0, 0]),
        ("two limits", [1_800, 0, 0]),
        ("first metres", [1_600, 0, 0]),
        ("order of limits", [60, 500, 0]),
        ("numbers of bands", [60, 300, 0]),
        ("edges of prices", [400, 150, 0]),
        ("not looked at", [300, 0, 0]),
        ("edges of the surcharge", [1_300, 1_000, 0]),
        ("whole cents", [3_000, 0, 0]),
        ("cheaper rivals", [450, 0, 0]),
        ("small tanks", [800, 0, 0]),
        ("large tanks", [8, 0, 0]),
        ("refusals of the data", [3, 24, 1_000]),
        ("refusals of the candidate", [1, 8, 500]),
        ("no design", [5, 40, 400]),
    ] {
        for outcome in [Asked::chosen, Asked::examined] {
            let found = outcomes(&groups[name], outcome);
            let enough = found
                .iter()
                .zip(least)
                .all(|(found, least)| *found >= least);
            assert!(enough, "{name}: {found:?}, wanted {least:?}");
        }
    }
    assert_eq!(groups.len(), 15);
}

/// What is kept of a plant for all its tariffs is what the calls answer.
#[test]
fn outcomes_by_the_calls() {
    for (name, cases) in made_to_measure() {
        for (turn, asked) in cases.iter().enumerate() {
            let examined = model::price_examine(&asked.examine_bytes(), PAGE);
            assert_eq!(examined, asked.examined(), "{name}: {asked:?}");
            if turn % 400 == 0 {
                let chosen = model::price_choose(&asked.choose_bytes(), PAGE);
                assert_eq!(chosen, asked.chosen(), "{name}: {asked:?}");
            }
        }
    }
}

/// All refusals of data and candidate come before 22, and some beside it.
#[test]
fn orders() {
    let groups: BTreeMap<_, _> = made_to_measure().into_iter().collect();
    for (name, outcome, numbers) in [
        (
            "refusals of the data",
            Asked::chosen as fn(&Asked) -> Outcome,
            &[0, 1, 2, 3, 4, 14, 17, 22][..],
        ),
        (
            "refusals of the data",
            Asked::examined,
            &[0, 1, 2, 3, 4, 14, 17, 22],
        ),
        ("refusals of the candidate", Asked::chosen, &[0, 5, 22]),
        (
            "refusals of the candidate",
            Asked::examined,
            &[0, 6, 7, 8, 9, 10, 15, 16, 22],
        ),
        ("no design", Asked::chosen, &[0, 5, 22]),
    ] {
        let mut found: Vec<u32> = groups[name].iter().map(|it| outcome(it).number).collect();
        found.sort_unstable();
        found.dedup();
        assert_eq!(found, numbers, "{name}");
    }
}

/// The surcharges come to whole cents and to so many thousandths over.
#[test]
fn thousandths_over_whole_cents() {
    let groups: BTreeMap<_, _> = made_to_measure().into_iter().collect();
    let mut over: BTreeMap<u64, usize> = BTreeMap::new();
    for asked in &groups["whole cents"] {
        let bands = asked.tariff.bands().unwrap();
        let sum = sum(&bands, &asked.subject.examined.sheet());
        let thousandths = sum * u64::from(asked.tariff.surcharge) % 1_000;
        *over.entry(thousandths).or_default() += 1;
    }
    for thousandths in [0, 1, 499, 500, 501, 999] {
        assert!(over[&thousandths] >= 200, "{over:?}");
    }
}

/// For most plants a candidate of the same fraction is cheaper by some tariff than
/// the one of the least volume.
#[test]
fn rivals_that_are_cheaper() {
    let groups: BTreeMap<_, _> = made_to_measure().into_iter().collect();
    let mut cheaper = 0;
    for asked in &groups["cheaper rivals"] {
        let Answer::Sheet(chosen) = asked.subject.chosen else {
            panic!("a design");
        };
        let price = priced(asked.subject.chosen, &asked.tariff).price;
        let data = asked.subject.plant.decoded().ok().unwrap();
        let rival = |ratio: u32| {
            let place = Candidate {
                fraction: chosen.fraction as u32,
                return_ratio: ratio,
                thickening: chosen.thickening as u32,
            };
            reference::price_examine(&data.plant, &data.readings, place, &asked.tariff)
        };
        let mut rivals = (30..=75).step_by(5).map(rival);
        let is_cheaper = rivals.any(|it| it.answer.number() == 0 && it.price < price);
        cheaper += u32::from(is_cheaper);
    }
    assert!(cheaper >= 100, "{cheaper}");
}

/// Random tariffs are mostly right, with one band to six, and have a limit at a
/// volume often enough.
#[test]
fn random_tariffs() {
    let mut random = Random::new(79);
    let mut counts = [0; 7];
    let (mut right, mut at_volume) = (0, 0);
    for _ in 0..3_000 {
        let plant = built::covered(&mut random);
        let plant = price::moderate(&mut random, plant);
        let volumes = price::volumes(&plant);
        let tariff = price::random(&mut random, &plant);
        let Ok(bands) = tariff.bands() else {
            continue;
        };
        right += 1;
        counts[bands.len()] += 1;
        let mut limits = bands.iter().filter_map(|band| band.limit);
        let sheet = volumes != [0, 0];
        at_volume += u32::from(sheet && limits.any(|limit| volumes.contains(&limit)));
    }
    assert!((2_500..=2_900).contains(&right), "{right}");
    assert!(counts[1..].iter().all(|count| *count >= 150), "{counts:?}");
    assert!(at_volume >= 500, "{at_volume}");
}

/// Volumes of random plants are mostly moderate, and some are not.
#[test]
fn moderate_volumes() {
    let mut random = Random::new(80);
    let (mut sheets, mut large, mut metres) = (0, 0, 0);
    for _ in 0..4_000 {
        let plant = built::covered(&mut random);
        let plant = price::moderate(&mut random, plant);
        let [reactor, settling] = price::volumes(&plant).map(u64::from);
        sheets += u32::from(reactor > 0);
        large += u32::from(reactor > 200_000);
        metres += reactor + settling;
    }
    assert!(sheets >= 1_500, "{sheets}");
    assert!((5..=200).contains(&large), "{large} of {sheets}");
    assert!(metres / 4_000 <= 60_000, "{metres}");
}
