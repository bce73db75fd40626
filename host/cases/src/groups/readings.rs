//! Readings: ranges, odd f32s, the COD ratio and the order of refusals.

use crate::collection::Collection;
use crate::lines::heads_for;
use crate::odd;
use crate::plants::{case_a, roomy};
use crate::random::Random;
use crate::request::*;
use reference::reading::{below, measured, result_range, ORDER};
use reference::rounding::up;

/// A plant whose other readings allow this one to be anything in its range.
fn beside(place: usize, thousandths: u64) -> Request {
    let plant = roomy().with(NITRATE_TARGET, 50_000);
    match place {
        BOD => plant.with_measured(COD, (2 * thousandths).clamp(20_000, 4_400_000)),
        COD => plant.with_measured(BOD, (thousandths / 2).clamp(20_000, 2_000_000)),
        _ => plant
            .with_measured(BOD, 1_600_000)
            .with_measured(COD, 2_000_000),
    }
}

/// One reading of each kind that comes to just this result.
fn each_kind(random: &mut Random, place: usize, thousandths: u64) -> Vec<Request> {
    let plant = beside(place, thousandths);
    let mut requests = vec![
        plant.with_measured(place, thousandths),
        plant.with_reading(place, BELOW, below_bits(thousandths)),
    ];
    let determinand = ORDER[(place - BOD) / 2];
    if let Some((heads, flow)) = heads_for(random, determinand, thousandths) {
        requests.push(plant.with(FLOW, flow).with_reading(place, HEADS, heads));
    }
    requests
}

/// Each reading at both edges of its range and one thousandth past.
pub fn ranges(cases: &mut Collection, random: &mut Random) {
    for (place, determinand) in READINGS.into_iter().zip(ORDER) {
        let (least, most) = result_range(determinand);
        for value in [least, most] {
            for request in each_kind(random, place, value as u64) {
                cases.examine("reading edge", request);
            }
        }
        let mut past = vec![most + 1];
        if least > 0 {
            past.push(least - 1);
        }
        for value in past {
            for request in each_kind(random, place, value as u64) {
                cases.examine("reading past edge", request);
            }
        }
    }
}

/// Head counts at both edges and one past.
pub fn head_counts(cases: &mut Collection) {
    let plant = roomy()
        .with(FLOW, 200_000)
        .with(NITRATE_TARGET, 50_000)
        .with_measured(BOD, 600_000)
        .with_measured(COD, 1_200_000);
    for place in READINGS {
        let full = plant.with_reading(place, HEADS, 2_000_000);
        cases.examine("head count edge", full);
        cases.examine("head count past edge", full.with(place + 1, 2_000_001));
        if place != COD {
            cases.examine("head count past edge", full.with(place + 1, 0));
        }
    }
    for place in [SOLIDS, NITROGEN, PHOSPHORUS] {
        cases.examine("head count edge", plant.with_reading(place, HEADS, 1));
    }
    let most = plant.with_reading(PHOSPHORUS, HEADS, u32::MAX);
    cases.examine("head count past edge", most);
    cases.choose("head count past edge", most);
    let one = plant.with(FLOW, 1).with_reading(BOD, HEADS, 1);
    let one = one.with_measured(COD, 100_000);
    cases.examine("one inhabitant", one);
}

/// The last f32 inside each range, and the first outside.
pub fn boundaries(cases: &mut Collection) {
    for (place, determinand) in READINGS.into_iter().zip(ORDER) {
        let (least, most) = result_range(determinand);
        for (kind, convert) in [(MEASURED, measured as fn(f32) -> _), (BELOW, below)] {
            let result = |bits: u32| convert(f32::from_bits(bits)).unwrap_or(0);
            let start = match kind {
                MEASURED => measured_bits(most as u64),
                _ => below_bits(most as u64),
            };
            let outside = (start..).find(|bits| result(*bits) > most).unwrap();
            let plant = beside(place, most as u64);
            cases.examine(
                "last f32 inside",
                plant.with_reading(place, kind, outside - 1),
            );
            cases.examine(
                "first f32 outside",
                plant.with_reading(place, kind, outside),
            );
            if least == 0 || kind == BELOW {
                continue;
            }
            let start = measured_bits(least as u64);
            let inside = (0..start).rev().find(|bits| result(*bits) < least).unwrap() + 1;
            let plant = beside(place, least as u64);
            cases.examine("last f32 inside", plant.with_reading(place, kind, inside));
            cases.examine(
                "first f32 outside",
                plant.with_reading(place, kind, inside - 1),
            );
        }
    }
}

/// NaNs, infinities, zeros, subnormals, ties and huge values.
pub fn odd_numbers(cases: &mut Collection) {
    let places = [PHOSPHORUS, BOD, SOLIDS, NITROGEN, COD];
    for (turn, bits) in odd::NO_NUMBERS.into_iter().enumerate() {
        let place = places[turn % 5];
        let kind = (turn % 2) as u32;
        cases.examine("no number", roomy().with_reading(place, kind, bits));
    }
    cases.choose(
        "no number",
        roomy().with_reading(NITROGEN, MEASURED, 0x7fc0_0000),
    );
    cases.choose("no number", roomy().with_reading(BOD, BELOW, 0x8000_0001));
    for (turn, bits) in odd::ZEROS.into_iter().enumerate() {
        let kind = (turn % 2) as u32;
        for place in [[SOLIDS, NITROGEN][turn / 2 % 2], PHOSPHORUS] {
            cases.examine("zero or tiny", roomy().with_reading(place, kind, bits));
        }
    }
    for place in [BOD, COD] {
        let zero = roomy().with_reading(place, MEASURED, 0x8000_0000);
        cases.examine("minus zero out of range", zero);
    }
    for (turn, bits) in odd::HUGE.into_iter().enumerate() {
        let kind = (turn % 2) as u32;
        cases.examine("huge", roomy().with_reading(places[turn % 5], kind, bits));
    }
}

/// f32s at which a wrong rounding comes to another thousandth, on a plant
/// large enough for it to show.
pub fn rounding(cases: &mut Collection, random: &mut Random) {
    let plant = roomy().with(FLOW, 200_000).with(PHOSPHORUS_TARGET, 0);
    let plant = plant.with_measured(BOD, 20_000).with_measured(COD, 40_000);
    let plant = plant.with_measured(NITROGEN, 2_000);
    for value in odd::TIES {
        let bits = value.to_bits();
        for (place, kind) in [(PHOSPHORUS, MEASURED), (SOLIDS, BELOW)] {
            cases.examine("tie", plant.with_reading(place, kind, bits));
        }
    }
    let large = plant
        .with_measured(BOD, 1_000_000)
        .with_measured(COD, 2_000_000);
    for (place, kind) in [
        (BOD, MEASURED),
        (BOD, BELOW),
        (SOLIDS, MEASURED),
        (COD, MEASURED),
    ] {
        let request = large.with_reading(place, kind, odd::FLOAT_PRODUCT);
        cases.examine("0x44f0d693", request);
    }
    searched(cases, random, plant);
}

/// Six f32s for each of the two mistakes.
fn searched(cases: &mut Collection, random: &mut Random, plant: Request) {
    let (mut products, mut halves) = (0, 0);
    while products < 6 || halves < 6 {
        let value = random.within(20_000_000, 2_000_000_000) as f32 / 1_000_000.0;
        let bits = value.to_bits();
        if products < 6 && odd::float_product_differs(bits) {
            products += 1;
            cases.examine("float product", plant.with_reading(SOLIDS, MEASURED, bits));
        }
        if halves < 6 && odd::early_rounding_differs(bits) {
            halves += 1;
            cases.examine(
                "rounded after halving",
                plant.with_reading(SOLIDS, BELOW, bits),
            );
        }
    }
}

/// COD at 11/5 of the BOD, and one thousandth above.
pub fn cod_ratio(cases: &mut Collection) {
    for bod in [20_001, 200_003, 2_000_000] {
        let plant = roomy().with(NITRATE_TARGET, 50_000).with_measured(BOD, bod);
        let most = 11 * bod / 5;
        cases.examine("COD ratio met", plant.with_measured(COD, most));
        if most < 4_400_000 {
            let past = plant.with_measured(COD, most + 1);
            cases.examine("COD ratio broken", past);
        }
    }
    cases.choose("COD ratio broken", roomy().with_measured(COD, 440_001));
}

/// COD from a head count after short and after long primary settling, with
/// the least BOD that the ratio allows, and one thousandth below.
pub fn cod_ratio_by_heads(cases: &mut Collection) {
    for (settling, load) in [(1, 900), (2, 800)] {
        let heads = 20_000;
        let plant = roomy()
            .with(NITRATE_TARGET, 50_000)
            .with(PRIMARY_SETTLING, settling)
            .with_reading(COD, HEADS, heads);
        let cod = up(u64::from(heads) * load * 100, u64::from(plant.get(FLOW)));
        let least = up(5 * cod, 11);
        cases.examine("COD ratio met", plant.with_measured(BOD, least));
        cases.examine("COD ratio broken", plant.with_measured(BOD, least - 1));
    }
}

/// Two refusals due: the first by the paper's order is given.
pub fn order(cases: &mut Collection) {
    const NAN: u32 = 0x7fc0_0000;
    let nan = |request: Request, place: usize| request.with_reading(place, MEASURED, NAN);
    let far = |request: Request, place: usize| request.with_measured(place, 5_000_000);
    let plant = case_a();
    for request in [
        nan(plant.with(LOAD, 0), BOD),
        plant.with(FLOW, 0).with_reading(BOD, HEADS, 1_000),
        nan(far(plant, BOD), COD),
        far(nan(plant, BOD), COD),
        nan(far(plant, NITROGEN), PHOSPHORUS),
        far(nan(plant, SOLIDS), NITROGEN),
        nan(plant.with_measured(COD, 440_001), PHOSPHORUS),
        far(plant.with_measured(COD, 440_001), PHOSPHORUS),
        plant.with_measured(COD, 440_001).with(FRACTION, 501),
        nan(plant, PHOSPHORUS).with(FRACTION, 501),
        plant.with(FRACTION, 199).with(SITE_SURFACE, 1),
        plant.with(FRACTION, 299).with(SITE_SURFACE, 1),
        plant.with(SITE_SURFACE, 1).with(SITE_DEPTH, 3_000),
    ] {
        cases.examine("two refusals", request);
    }
    for request in [
        nan(plant.with(LOAD, 0), BOD),
        nan(far(plant, BOD), COD),
        far(nan(plant, BOD), COD),
        nan(plant.with_measured(COD, 440_001), PHOSPHORUS),
    ] {
        cases.choose("two refusals", request);
    }
}
