//! The COD way: worked sheets, each process, readings above the COD ratio, the
//! order of refusals, the dose, and what counts as 0.

use crate::cod_lines::{on_degradable, on_saved};
use crate::collection::{examined, Collection};
use crate::lines::{on_cover, on_dose};
use crate::plants::{self, case_a, roomy};
use crate::random::Random;
use crate::request::*;
use reference::cod::Chain;

use super::terms::winter;

const NAN: u32 = 0x7fc0_0000;

/// Case A in the COD way.
pub fn case_a_by_cod() -> Request {
    case_a().with(WAY, BY_COD)
}

/// A large plant with room on every side, in the COD way: one mg/m3 shows in
/// sludge and oxygen.
pub fn roomy_by_cod() -> Request {
    roomy()
        .with(WAY, BY_COD)
        .with(FLOW, 199_999)
        .with(NITRATE_TARGET, 30_000)
        .with_measured(BOD, 200_003)
        .with_measured(COD, 401_237)
        .with_measured(SOLIDS, 150_009)
}

/// The examples of the paper on the COD way.
pub fn worked(cases: &mut Collection) {
    let plant = case_a_by_cod();
    let solid = plant.with_measured(SOLIDS, 450_000);
    let held = plant.with_measured(COD, 100_000);
    for request in [
        plant,
        solid,
        held.with_measured(SOLIDS, 300_000),
        plant.with(DOSE, 50_000),
        plant.with(DOSE, 10_000),
        plant.with(DOSE, 10_001),
        plant.with(PROCESS, 1),
        plant.with(PROCESS, 2),
    ] {
        cases.examine("COD way, worked case", request);
    }
    cases.choose("COD way, worked case", plant);
    cases.choose("COD way, worked case", plant.with(PROCESS, 1));
}

/// Each process in either flow, with each primary settling, from measured
/// readings and from head counts.
pub fn processes(cases: &mut Collection) {
    for process in 0..=4 {
        let plant = roomy_by_cod()
            .with(PROCESS, process)
            .with(TANK_FLOW, process % 2)
            .with(PRIMARY_SETTLING, process % 3);
        cases.examine("COD way, each process", plant);
        cases.choose("COD way, each process", plant);
        let mut heads = plant.with(FLOW, 4_001).with(TANK_FLOW, 1 - process % 2);
        for place in READINGS {
            heads = heads.with_reading(place, HEADS, 17_003);
        }
        cases.examine("COD way, each process", heads);
    }
    for settling in 1..=2 {
        let plant = roomy_by_cod().with(PRIMARY_SETTLING, settling);
        cases.examine("COD way, primary settling", plant);
        let loaded = plant.with_measured(SOLIDS, 1_234_567).with(PROCESS, 3);
        cases.examine("COD way, primary settling", loaded);
    }
}

/// COD one thousandth above 11/5 of the BOD, and far above, in either way.
pub fn ratio(cases: &mut Collection) {
    let plant = roomy_by_cod().with(NITRATE_TARGET, 50_000);
    for (bod, cod) in [
        (20_001, 44_003),
        (200_003, 440_007),
        (200_003, 4_400_000),
        (20_000, 4_400_000),
    ] {
        let above = plant.with_measured(BOD, bod).with_measured(COD, cod);
        cases.examine("COD way, ratio broken", above);
        cases.choose("COD way, ratio broken", above);
        cases.examine("BOD way, ratio broken", above.with(WAY, BY_BOD));
    }
    let above = plant.with_measured(COD, 440_007);
    cases.choose("BOD way, ratio broken", above.with(WAY, BY_BOD));
}

/// Two refusals due, with the ratio broken: 1, 17, 2, 3, 14, then 6 and the
/// rest, and none of them is 4.
pub fn order(cases: &mut Collection) {
    let high = case_a_by_cod().with_measured(COD, 440_001);
    let bulking = high.with(SLUDGE_VOLUME_INDEX, MOST_INDEX + 1);
    let nan = |request: Request, place: usize| request.with_reading(place, MEASURED, NAN);
    let far = |request: Request, place: usize| request.with_measured(place, 5_000_000);
    let many = high.with(TERM_COUNT, 5);
    let mut turn = 0;
    for (kind, request) in [
        ("COD way, 1", bulking.with(LOAD, 0)),
        ("COD way, 1", nan(high, BOD).with(DOSE, MOST_DOSE + 1)),
        ("COD way, 1", far(many, COD).with(SITE_DEPTH, 0)),
        ("COD way, 17", nan(bulking, BOD)),
        ("COD way, 17", far(bulking, COD).with(TERM_COUNT, 5)),
        ("COD way, 2", nan(far(high, NITROGEN), SOLIDS)),
        ("COD way, 2", nan(many, PHOSPHORUS)),
        ("COD way, 2", nan(high, COD)),
        ("COD way, 3", far(nan(high, PHOSPHORUS), COD)),
        ("COD way, 3", far(many, PHOSPHORUS)),
        ("COD way, 3", many.with_measured(COD, 4_400_001)),
        ("COD way, 3", many.with_measured(COD, 19_999)),
        ("COD way, 3", many.with_reading(COD, HEADS, 0)),
        ("COD way, 14", many),
        ("COD way, 14", many.with(FRACTION, 199)),
        ("COD way, 14", high.with_terms(&[winter(3, 10_000)])),
    ] {
        cases.examine(kind, request);
        turn += 1;
        if turn % 2 == 0 {
            cases.choose(kind, request);
        }
    }
    order_of_candidate(cases, high);
    unknown_ways(cases);
}

/// 6, 7, 15, 16 and 8 to 10 in the COD way.
fn order_of_candidate(cases: &mut Collection, high: Request) {
    let (lost, short, fine) = (winter(8, 50_000), winter(11, 12_999), winter(11, 13_000));
    let simultaneous = high.with(PROCESS, 1).with(SITE_SURFACE, 1);
    let surface = high.with(SITE_SURFACE, 1);
    for (kind, request) in [
        ("COD way, 6", high.with(FRACTION, 501)),
        ("COD way, 6", simultaneous.with(RETURN_RATIO, 76)),
        ("COD way, 7", simultaneous),
        ("COD way, 7", simultaneous.with_terms(&[lost])),
        ("COD way, 7", surface.with(FRACTION, 299)),
        ("COD way, 15", surface.with_terms(&[short, lost])),
        ("COD way, 16", surface.with_terms(&[fine, short])),
        ("COD way, 8 to 10", surface.with_terms(&[fine])),
        ("COD way, 8 to 10", high.with(SITE_DEPTH, 3_000)),
    ] {
        cases.examine(kind, request);
    }
    cases.choose("COD way, 5", surface);
    let nitrogen = high.with(PROCESS, 2).with_measured(NITROGEN, 100_000);
    cases.choose("COD way, 5", nitrogen);
}

/// Ways that are none, before every refusal and after the version.
fn unknown_ways(cases: &mut Collection) {
    for way in [2, 256, u32::MAX] {
        cases.examine("unknown way", case_a().with(WAY, way));
    }
    for way in [2, 257, 1 << 31] {
        cases.choose("unknown way", case_a().with(WAY, way).with(LOAD, 0));
    }
    let earlier = case_a().with(VERSION, EARLIER_VERSION);
    cases.examine("unknown way of another version", earlier.with(WAY, 2));
    cases.choose("unknown way of another version", earlier.with(WAY, BY_COD));
}

/// Doses about the least that makes sludge, the largest, and one beside no
/// degradable COD, which the inert parts exceed by more and by less than it.
pub fn dose(cases: &mut Collection) {
    for process in 0..=3 {
        let plant = roomy_by_cod().with(PROCESS, process);
        for dose in [10_000, 10_001] {
            cases.examine("COD way, dose", plant.with(DOSE, dose));
        }
        cases.examine("COD way, dose", plant.with(DOSE, MOST_DOSE - process));
    }
    for dose in [10_000, 10_001] {
        let plant = case_a_by_cod()
            .with(PROCESS, 2)
            .with_measured(NITROGEN, 30_000);
        cases.choose("COD way, dose", plant.with(DOSE, dose));
    }
    let plant = roomy_by_cod()
        .with_measured(COD, 100_001)
        .with_measured(SOLIDS, 333_333);
    for dose in [10_001, 20_001, 30_001, 200_000] {
        cases.examine(
            "COD way, dose beside no degradable COD",
            plant.with(DOSE, dose),
        );
    }
}

/// For each process a dose above the least that makes sludge which just covers,
/// and one less.
pub fn dose_covers(cases: &mut Collection, random: &mut Random) {
    for process in 0..=4 {
        let met = loop {
            let plant = plants::plausible(random)
                .with(WAY, BY_COD)
                .with(PROCESS, process);
            let Some(met) = on_dose(plant, 0) else {
                continue;
            };
            if met.get(DOSE) > 10_001 && examined(&met) == 0 {
                break met;
            }
        };
        cases.examine("COD way, dose just covers", met);
        let missed = met.with(DOSE, met.get(DOSE) - 1);
        cases.examine("COD way, dose just misses", missed);
        if let Some(missed) = on_cover(met, 1) {
            cases.examine("COD way, dose just misses", missed);
        }
        if process > 0 {
            cases.choose("COD way, dose just covers", met);
        }
    }
}

/// Degradable COD about 0 in each chain, and particulate COD about the COD.
pub fn held(cases: &mut Collection) {
    let plant = roomy_by_cod();
    for chain in [Chain::Sludge, Chain::Aeration, Chain::Cover] {
        for left in [-1, 0, 1, 2, 3] {
            let held = on_degradable(plant, chain, left).unwrap();
            cases.examine("COD way, degradable about 0", held);
        }
    }
    for left in [-40_000, 1_000] {
        let held = on_degradable(plant, Chain::Sludge, left).unwrap();
        cases.examine("COD way, degradable about 0", held);
    }
    for solids in [395_307, 395_308, 400_000, 900_000] {
        let request = plant.with_measured(SOLIDS, solids);
        cases.examine("COD way, particulate about the COD", request);
    }
}

/// Without oxygen for the cover only the dose removes nitrate.
pub fn no_oxygen(cases: &mut Collection) {
    for process in 1..=2 {
        let plant = roomy_by_cod()
            .with(PROCESS, process)
            .with_measured(SOLIDS, 1_200_000);
        let met = on_cover(plant, 0).unwrap();
        let missed = on_cover(plant, 1).unwrap();
        cases.choose("COD way, no oxygen, covered", met);
        cases.examine("COD way, no oxygen, missed", missed);
        cases.choose("COD way, no oxygen, no design", missed);
        cases.examine("COD way, no oxygen, covered", missed.with(DOSE, 5));
        cases.examine("COD way, no oxygen, missed", missed.with(DOSE, 4));
    }
}

/// Saved oxygen just below and just above carbon's, and far above it; without
/// carbon's oxygen; with a dose that leaves less to be saved.
pub fn saved(cases: &mut Collection) {
    for process in [0, 4] {
        let plant = roomy_by_cod()
            .with(PROCESS, process)
            .with(FRACTION, 450)
            .with(NITRATE_TARGET, 1_000)
            .with_measured(COD, 100_001)
            .with_measured(SOLIDS, 60_003);
        for over in [0, 1, 2, 7_000] {
            let request = on_saved(plant, over).unwrap();
            cases.examine("COD way, carbon about saved", request);
        }
        let none = plant.with_measured(SOLIDS, 400_000);
        let none = none.with_measured(NITROGEN, 25_000);
        cases.examine("COD way, carbon about saved", none);
        let dosed = on_saved(plant.with(DOSE, 30_001), 1).unwrap();
        cases.examine("COD way, carbon about saved", dosed);
    }
}

/// The ends of the ranges of the readings, of the flow and of the dose.
pub fn ends(cases: &mut Collection) {
    for process in 0..=4 {
        let plant = roomy_by_cod()
            .with(PROCESS, process)
            .with(NITRATE_TARGET, 50_000)
            .with(LOAD, 1)
            .with(TANK_FLOW, 1)
            .with(FRACTION, 500);
        let ends = [
            (20_000, 4_400_000, 2_000_000, 200_000, MOST_DOSE),
            (2_000_000, 4_400_000, 0, 200_000, 0),
            (2_000_000, 20_000, 2_000_000, 200_000, MOST_DOSE),
            (20_000, 20_000, 0, 1, 0),
        ];
        let count = if process < 3 { 4 } else { 1 };
        for (bod, cod, solids, flow, dose) in ends.into_iter().take(count) {
            let request = plant
                .with(FLOW, flow)
                .with(DOSE, dose)
                .with_measured(BOD, bod)
                .with_measured(COD, cod)
                .with_measured(SOLIDS, solids);
            cases.examine("COD way, ends", request);
        }
    }
}
