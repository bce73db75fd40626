//! Requests for built tanks, what the model answers to them, and that the cases
//! made to measure are what they are meant to be.

use cases::built::{self, is_won, winners, Asked, Run};
use cases::built_lines::{self, made_to_measure};
use cases::built_searches as searches;
use cases::plants::case_a;
use cases::random::Random;
use cases::request::*;
use cases::{model, plants};
use reference::{Existing, Span};
use std::collections::BTreeMap;

const TANKS: Existing = Existing {
    reactor: 3_980,
    surface: 375,
    depth: 4_012,
    fraction: 300,
    thickening: 0x0102_0314,
};
const SPAN: Span = Span {
    least: 99,
    most: 0x0908,
};

/// The number, and the index that is given back.
fn answer(asked: &Asked) -> (u32, u64) {
    let outcome = model::built(&asked.bytes(), 8);
    let page: [u8; 8] = outcome.written.try_into().unwrap();
    (outcome.number, u64::from_le_bytes(page))
}

/// The data as in a choice, then sizes, fraction, time and span.
#[test]
fn bytes_of_built_tanks() {
    assert_eq!((BUILT_WORDS, BUILT_LENGTH), (63, 252));
    let plant = case_a();
    let bytes = plant.built_bytes(&TANKS, &SPAN);
    assert_eq!(bytes.len(), 252);
    assert_eq!(bytes[..224], plant.choose_bytes());
    assert_eq!(bytes[224..232], [0x8c, 0xf, 0, 0, 0x77, 1, 0, 0]);
    assert_eq!(bytes[232..240], [0xac, 0xf, 0, 0, 0x2c, 1, 0, 0]);
    assert_eq!(bytes[240..], [0x14, 3, 2, 1, 99, 0, 0, 0, 8, 9, 0, 0]);
    let decoded = decode_built(&bytes).ok().unwrap();
    assert_eq!((decoded.existing, decoded.span), (TANKS, SPAN));
    let data = plant.decoded().ok().unwrap();
    assert_eq!(decoded.plant, data.plant);
    assert_eq!(decoded.readings, data.readings);
}

/// 0 where the tanks hold, else the index; with a refusal 0.
#[test]
fn page_of_case_a() {
    let sizes = [3_980, 375, 4_012];
    let bulking = case_a().with(SLUDGE_VOLUME_INDEX, 181);
    for (asked, found) in [
        (Asked::of(case_a(), sizes, 99, 99), (0, 0)),
        (Asked::of(case_a(), sizes, 99, 101), (0, 100)),
        (Asked::of(case_a(), sizes, 101, 101), (0, 0)),
        (Asked::of(case_a(), sizes, 101, 100), (20, 0)),
        (Asked::of(case_a(), [1, 0, 1], 100, 100), (21, 0)),
        (Asked::of(case_a().with(LOAD, 0), sizes, 99, 101), (1, 0)),
        (Asked::of(bulking, sizes, 99, 101), (17, 0)),
        (
            Asked::of(case_a().with(TERM_COUNT, 5), sizes, 99, 101),
            (14, 0),
        ),
        (
            Asked::of(case_a().with(FRACTION, 501), sizes, 99, 101),
            (6, 0),
        ),
    ] {
        assert_eq!(answer(&asked), found, "{asked:?}");
    }
}

/// A malformed request before a short page, and that before any refusal.
#[test]
fn malformed_requests_and_short_pages() {
    let plant = case_a().with(LOAD, 0);
    let bytes = plant.built_bytes(&TANKS, &SPAN);
    let unknown = plant.with(WAY, 2).built_bytes(&TANKS, &SPAN);
    let mut later = bytes.clone();
    later[0] += 1;
    for (outcome, number) in [
        (model::built(&bytes, 7), 11),
        (model::built(&bytes, 0), 11),
        (model::built(&bytes[..251], 8), 101),
        (model::built(&bytes[..3], 8), 101),
        (model::built(&[&bytes[..], &[0]].concat(), 0), 101),
        (model::built(&plant.choose_bytes(), 8), 101),
        (model::built(&later, 0), 102),
        (model::built(&later[..4], 8), 102),
        (model::built(&unknown, 0), 103),
    ] {
        assert_eq!((outcome.number, outcome.written), (number, Vec::new()));
    }
    assert_eq!(model::built(&bytes, 9).number, 20);
    assert_eq!(model::built(&bytes, 9).written, [0; 8]);
}

/// Needs are what examining gives, and none where it refuses.
#[test]
fn needs_by_examining() {
    let plant = plants::roomy().with(TANK_FLOW, 1).with(REMOVAL, 2);
    for index in [50, 100, 180] {
        let needs = Run::of(&plant).unwrap().at(index);
        for ratio in 30..=100 {
            let there = plant
                .with(SLUDGE_VOLUME_INDEX, index)
                .with(RETURN_RATIO, ratio);
            let data = there.decoded().ok().unwrap();
            let answer = reference::examine(&data.plant, &data.readings, data.candidate);
            let need = needs.iter().find(|need| need.ratio == ratio);
            assert_eq!(need.is_some(), answer.number() == 0);
            if let Some(need) = need {
                let sheet = answer.sheet();
                let sizes = need.sizes.map(u64::from);
                assert_eq!(sizes[0], sheet.reactor_volume);
                assert_eq!(sizes[1], sheet.settling_surface);
                assert_eq!(sizes[2], sheet.settling_depth);
            }
        }
    }
    let volume_too_high = Run::of(&plant).unwrap().at(100).len();
    assert!((50..71).contains(&volume_too_high), "{volume_too_high}");
}

/// Plants of every process, tank flow and way, with and without a dose.
#[test]
fn kinds_of_plants() {
    let plants = built_lines::plants();
    for process in 0..=4 {
        for flow in 0..=1 {
            for way in [BY_BOD, BY_COD] {
                let kind = [process, flow, way];
                let of = plants
                    .iter()
                    .filter(|plant| [PROCESS, TANK_FLOW, WAY].map(|word| plant.get(word)) == kind);
                assert!(of.count() >= 3, "{kind:?}");
            }
        }
    }
    let dosed = plants.iter().filter(|plant| plant.get(DOSE) > 0).count();
    assert!((15..=45).contains(&dosed), "{dosed}");
}

/// Held, lost at the first index of the span, lost later, and refused.
fn outcomes(cases: &[Asked]) -> [usize; 4] {
    let mut counts = [0; 4];
    for asked in cases {
        let place = match answer(asked) {
            (0, 0) => 0,
            (0, lost) if lost == u64::from(asked.span.least) => 1,
            (0, _) => 2,
            _ => 3,
        };
        counts[place] += 1;
    }
    counts
}

/// Each group has enough of the answers that it is made for.
#[test]
fn groups() {
    let groups: BTreeMap<_, _> = made_to_measure().into_iter().collect();
    for (name, least) in [
        ("sizes just met", [5_000, 3_000, 0, 0]),
        ("one size alone", [4_000, 1_000, 0, 0]),
        ("lost from an index on", [500, 400, 800, 0]),
        ("ends of the span", [20, 20, 10, 900]),
        ("sizes of 0", [4, 4, 0, 300]),
        ("orders", [3, 0, 0, 4_000]),
        ("edges of the grid", [40, 30, 0, 600]),
        ("the plant's own index", [50, 50, 20, 200]),
        ("lost in the middle", [600, 600, 1_200, 0]),
        ("won in the middle", [300, 1_500, 500, 0]),
        ("lost twice", [800, 1_500, 2_000, 0]),
        ("no common ratio", [600, 0, 400, 0]),
        ("whole spans", [400, 150, 200, 0]),
        ("sites", [800, 1_200, 0, 0]),
        ("cover, dose and terms", [300, 500, 0, 0]),
        ("solids and volume", [200, 60, 0, 0]),
    ] {
        let found = outcomes(&groups[name]);
        let enough = found
            .iter()
            .zip(least)
            .all(|(count, least)| *count >= least);
        assert!(enough, "{name}: {found:?}, wanted {least:?}");
    }
    assert_eq!(groups.len(), 16);
}

/// What is won of some neighbouring indices.
fn won(asked: &Asked, first: u32, count: u32) -> Vec<bool> {
    let run = Run::of(&asked.plant).unwrap();
    let at = |more: u32| is_won(&run.at(first + more), &asked.sizes());
    (0..count).map(at).collect()
}

/// The searches find for most plants what they look for.
#[test]
fn indices_won_and_lost() {
    for (cases, wanted) in [
        (searches::lost_in_the_middle(), &[true, false, true][..]),
        (searches::won_in_the_middle(), &[false, true, false]),
        (searches::lost_twice(), &[true, false, true, false]),
        (searches::no_common_ratio(), &[true, true]),
    ] {
        let count = wanted.len() as u32;
        // the widest of the neighbouring indices' own spans
        let whole = cases.iter().filter(|asked| {
            let Span { least, most } = asked.span;
            most - least + 1 == count && won(asked, least, count) == wanted
        });
        assert!(whole.count() >= 100, "{wanted:?}");
    }
}

#[test]
fn no_ratio_wins_both_neighbours() {
    let mut held = 0;
    for asked in searches::no_common_ratio() {
        let Span { least, most } = asked.span;
        if most != least + 1 {
            continue;
        }
        let run = Run::of(&asked.plant).unwrap();
        let by = |index: u32| winners(&run.at(index), &asked.sizes());
        let (first, second) = (by(least), by(most));
        assert!(first.iter().all(|ratio| !second.contains(ratio)));
        held += u32::from(answer(&asked) == (0, 0));
    }
    assert!(held >= 100, "{held}");
}

/// Random tanks for covered plants are held, lost at once and lost later; now and
/// then refused for the span and for a size.
#[test]
fn random_tanks() {
    let mut random = Random::new(77);
    let mut counts: BTreeMap<u32, usize> = BTreeMap::new();
    let mut cases = Vec::new();
    for _ in 0..2_000 {
        let plant = built::covered(&mut random);
        let asked = built::random(&mut random, plant);
        *counts.entry(answer(&asked).0).or_default() += 1;
        cases.push(asked);
    }
    let [held, at_once, later, refused] = outcomes(&cases);
    assert!(
        held >= 400 && at_once >= 200 && later >= 200,
        "{held} {at_once} {later}"
    );
    assert!(refused <= 700, "{counts:?}");
    assert!(counts[&20] >= 50 && counts[&21] >= 50, "{counts:?}");
}

/// Random tanks that hold have every process, either flow, either way, terms and a
/// dose, and the plant's own index is mostly not of the span.
#[test]
fn kinds_of_random_tanks() {
    let mut random = Random::new(78);
    let mut processes = [0; 5];
    let (mut held, mut vertical, mut outside) = (0, 0, 0);
    let (mut by_cod, mut terms, mut dosed) = (0, 0, 0);
    for _ in 0..4_000 {
        let plant = built::covered(&mut random);
        let asked = built::random(&mut random, plant);
        if answer(&asked) == (0, 0) {
            held += 1;
            processes[plant.get(PROCESS) as usize] += 1;
            vertical += u32::from(plant.get(TANK_FLOW) == 1);
            by_cod += u32::from(plant.get(WAY) == BY_COD);
            terms += u32::from(plant.get(TERM_COUNT) > 0);
            dosed += u32::from(plant.get(DOSE) > 0);
            let span = asked.span.least..=asked.span.most;
            outside += u32::from(!span.contains(&plant.get(SLUDGE_VOLUME_INDEX)));
        }
    }
    assert!(processes.iter().all(|count| *count >= 100), "{processes:?}");
    assert!((held / 4..=3 * held / 4).contains(&vertical), "{vertical}");
    for (kind, count) in [("by COD", by_cod), ("terms", terms), ("dosed", dosed)] {
        assert!(count >= held / 8, "{count} {kind} of {held}");
    }
    assert!(2 * outside >= held, "{outside} of {held}");
}
