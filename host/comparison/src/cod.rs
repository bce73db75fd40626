//! Plants in the COD way that just meet or just miss its lines, and requests of
//! every length.

use cases::cod_lines::{on_degradable, on_saved};
use cases::lines::{on_cover, on_term_cover};
use cases::plants::roomy;
use cases::request::*;
use reference::cod::Chain;

const CHAINS: [Chain; 3] = [Chain::Sludge, Chain::Aeration, Chain::Cover];

/// A large plant with room on every side: one mg/m3 shows on its sheet.
fn plant(process: u32) -> Request {
    roomy()
        .with(WAY, BY_COD)
        .with(PROCESS, process)
        .with(FLOW, 199_999)
        .with(NITRATE_TARGET, 5_000)
        .with_measured(BOD, 200_003)
        .with_measured(COD, 401_237)
        .with_measured(SOLIDS, 150_009)
        .with_measured(NITROGEN, 14_000)
}

/// Degradable COD about 0 in each chain, as it is, just covered and just missed.
fn degradable() -> Vec<Request> {
    let mut requests = Vec::new();
    for process in 0..=4 {
        for cod in [20_000, 99_999, 401_237, 740_001] {
            let plant = plant(process).with_measured(COD, cod);
            for chain in CHAINS {
                for left in (-3..=6).chain([-2_000, 50, 1_000]) {
                    let about = on_degradable(plant, chain, left);
                    requests.extend(about);
                    requests.extend(about.and_then(|request| on_cover(request, 0)));
                    requests.extend(about.and_then(|request| on_cover(request, 1)));
                }
            }
        }
    }
    requests
}

/// Doses about the least that makes sludge, with and without degradable COD.
fn doses() -> Vec<Request> {
    let mut requests = Vec::new();
    for process in 0..=4 {
        for solids in [150_009, 1_080_000, 1_300_000] {
            let plant = plant(process).with_measured(SOLIDS, solids);
            for dose in (9_995..=10_005).chain([0, 4, 5, 50_000, MOST_DOSE]) {
                requests.push(plant.with(DOSE, dose));
            }
        }
    }
    requests
}

/// Saved oxygen about carbon's.
fn saved() -> Vec<Request> {
    let mut requests = Vec::new();
    for process in [0, 3, 4] {
        for flow in [1, 37, 5_000, 199_999] {
            let low = plant(process)
                .with(FLOW, flow)
                .with(FRACTION, 450)
                .with_measured(COD, 100_001)
                .with_measured(SOLIDS, 60_003);
            for dose in [0, 4_999, 10_001] {
                let dosed = low.with(DOSE, dose);
                requests.extend((0..5).filter_map(|over| on_saved(dosed, over)));
            }
        }
    }
    requests
}

/// Little oxygen, just covered at a fraction and at the ones about it.
fn gaps() -> Vec<Request> {
    let mut requests = Vec::new();
    for process in 1..=2 {
        for left in 3..=200 {
            let plant = plant(process).with_measured(COD, 20_000 + 17 * left as u64);
            let Some(little) = on_degradable(plant, Chain::Cover, left) else {
                continue;
            };
            for fraction in [200, 376, 499] {
                let Some(met) = on_cover(little.with(FRACTION, fraction), 0) else {
                    continue;
                };
                requests.push(met);
                requests.push(met.with(FRACTION, fraction + 1));
            }
        }
    }
    requests
}

/// A term at each temperature, just covered and just missed.
fn in_terms() -> Vec<Request> {
    let mut requests = Vec::new();
    for process in 0..=4 {
        for temperature in 4..=20 {
            let seasonal = plant(process)
                .with_measured(NITROGEN, 45_000)
                .with(NITRATE_TARGET, 30_000)
                .with_terms(&[[11, 1, 3, 31, temperature, 20_000]]);
            for fraction in (200..=500).step_by(10) {
                let request = seasonal.with(FRACTION, fraction);
                requests.extend(on_term_cover(request, 0, 0));
                requests.extend(on_term_cover(request, 0, 1));
            }
        }
    }
    requests
}

/// The COD about 11/5 of the BOD, in both ways.
fn ratio() -> Vec<Request> {
    let mut requests = Vec::new();
    for process in 0..=4 {
        for bod in [20_000, 20_001, 200_003, 1_999_999] {
            for cod in 11 * bod / 5 - 1..=11 * bod / 5 + 1 {
                let request = plant(process)
                    .with_measured(BOD, bod)
                    .with_measured(COD, cod);
                requests.push(request);
                requests.push(request.with(WAY, BY_BOD));
            }
        }
    }
    requests
}

/// Every combination of the ends of the ranges that the balance starts from.
fn ends() -> Vec<Request> {
    let mut requests = Vec::new();
    for turn in 0..2 * 2 * 2 * 2 * 2 * 4 * 5 {
        let end = |place: u32, ends: [u32; 2]| ends[(turn >> place & 1) as usize];
        let dose = [0, 10_000, 10_001, MOST_DOSE][(turn >> 5 & 3) as usize];
        let request = plant(turn >> 7)
            .with(FLOW, end(0, [1, 200_000]))
            .with(FRACTION, end(1, [200, 500]))
            .with(DOSE, dose)
            .with_measured(BOD, u64::from(end(2, [20_000, 2_000_000])))
            .with_measured(COD, u64::from(end(3, [20_000, 4_400_000])))
            .with_measured(SOLIDS, u64::from(end(4, [0, 2_000_000])));
        requests.push(request);
    }
    requests
}

/// Requests on the lines of the COD way.
pub fn made_to_measure() -> Vec<Request> {
    [
        degradable(),
        doses(),
        saved(),
        gaps(),
        in_terms(),
        ratio(),
        ends(),
    ]
    .concat()
}

/// Every length up to some bytes more than the longest, of this version and of
/// its neighbours, in both ways.
pub fn lengths() -> Vec<Vec<u8>> {
    let mut requests = Vec::new();
    for version in [EARLIER_VERSION, NEWEST_VERSION, LATER_VERSION] {
        for way in [BY_BOD, BY_COD, 2] {
            let request = roomy().with(VERSION, version).with(WAY, way);
            for length in 0..=EXAMINE_LENGTH + 8 {
                let mut bytes = request.examine_bytes();
                bytes.resize(length, 0);
                requests.push(bytes);
            }
        }
    }
    requests
}
