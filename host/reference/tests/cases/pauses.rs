//! Pauses in aeration, worked by hand on Case A with a target of 25,000: D is
//! 11,000, which K covers from 200 on (75 x 200 x 1,077 / 290,000 = 55.7).
//!
//! Oxygen, g/d: 774,000 for nitrification, 29 x 5,000 x 11,000 / 10,000 =
//! 159,500 saved. For carbon, with a of 8,213 and F(20) of 1,415,707:
//! - 200: t 10,267, U 14,535, 218,025,000 / 347,095 = 628.1, so 1,189,000;
//! - 300: t 11,733, U 16,610, 249,150,000 / 382,370 = 651.6, so 1,212,000;
//! - 500: t 16,426, U 23,254, 348,810,000 / 495,318 = 704.2, so 1,265,000.
//!
//! Hourly, 100 (carbon - 159,500) + 200 x 774,000 over 2,400:
//! - 200: 257,750,000 / 2,400 = 107,395.8;
//! - 300: 260,050,000 / 2,400 = 108,354.2;
//! - 500: 265,350,000 / 2,400 = 110,562.5.

use crate::common::*;
use reference::aeration::{oxygen_transfer, paused_oxygen_transfer, transfer_of};
use reference::*;

const HOURLY: [(u32, u64); 3] = [(200, 107_396), (300, 108_355), (500, 110_563)];

fn with_process(process: Process) -> Plant {
    Plant {
        process,
        nitrate_target: 25_000,
        ..plant_a()
    }
}

fn at(plant: &Plant, fraction: u32) -> Sheet {
    sheet(examine(plant, &readings_a(), candidate(fraction, 75, 20)))
}

/// 1000 x 9,000 x hourly / (7,000 (1000 - f)):
/// - 200: 966,564,000,000 / 5,600,000 = 172,600.7;
/// - 300: 975,195,000,000 / 4,900,000 = 199,019.4;
/// - 500: 995,067,000,000 / 3,500,000 = 284,304.9.
#[test]
fn intermittent() {
    let plant = with_process(Process::Intermittent);
    let transfers = [172_601, 199_020, 284_305];
    for ((fraction, hourly), transfer) in HOURLY.into_iter().zip(transfers) {
        let found = at(&plant, fraction);
        assert_eq!(found.hourly_oxygen, hourly);
        assert_eq!(found.oxygen_transfer, transfer);
    }
}

/// 9,000 x hourly / 7,000: 138,080.6, 139,313.6 and 142,152.4. All else is as
/// in the intermittent process.
#[test]
fn simultaneous_is_not_paused() {
    let transfers = [138_081, 139_314, 142_153];
    for ((fraction, hourly), transfer) in HOURLY.into_iter().zip(transfers) {
        let found = at(&with_process(Process::Simultaneous), fraction);
        assert_eq!(found.hourly_oxygen, hourly);
        assert_eq!(found.oxygen_transfer, transfer);
        let paused = at(&with_process(Process::Intermittent), fraction);
        let expected = Sheet {
            oxygen_transfer: transfer,
            ..paused
        };
        assert_eq!(found, expected);
    }
}

/// The same hourly oxygen, whatever the process removes.
#[test]
fn no_other_process_is_paused() {
    for process in [
        Process::PreAnoxic,
        Process::StepFeed(Steps::Two),
        Process::StepFeed(Steps::Three),
    ] {
        for (fraction, hourly) in HOURLY {
            let found = at(&with_process(process), fraction);
            assert_eq!(found.hourly_oxygen, hourly);
            assert_eq!(found.oxygen_transfer, oxygen_transfer(9_000, hourly));
            let fraction = u64::from(fraction);
            let transfer = transfer_of(process, 9_000, hourly, fraction);
            assert_eq!(transfer, found.oxygen_transfer);
        }
    }
}

/// Rounded before the pauses are counted it would be 138,081 / 0.8 = 172,601.25
/// at 200 and 2 x 142,153 = 284,306 at 500, each one more.
#[test]
fn one_rounding() {
    for (fraction, hourly) in [(200, 107_396), (500, 110_563)] {
        let once = paused_oxygen_transfer(9_000, hourly, fraction);
        let early = oxygen_transfer(9_000, hourly);
        let twice = rounding::up(1000 * early, 1000 - fraction);
        assert_eq!(twice, once + 1);
    }
    // 63,000,000,000 / 3,500,000 is whole; 9,000,000 more are not.
    assert_eq!(paused_oxygen_transfer(9_000, 7_000, 500), 18_000);
    assert_eq!(paused_oxygen_transfer(9_000, 7_001, 500), 18_003);
    assert_eq!(paused_oxygen_transfer(6_000, 0, 200), 0);
}

/// The candidate's own fraction counts: a term at 11 degrees leaves 227 of 300
/// and the sheet as it is.
#[test]
fn not_the_fraction_of_a_term() {
    let plain = with_process(Process::Intermittent);
    let mut plant = plain;
    plant.consent = consent(&[term(11, 25_000)]);
    assert_eq!(at(&plant, 300), at(&plain, 300));
    let stages = explain(&plant, &readings_a(), candidate_a()).unwrap();
    assert_eq!(stages.terms[0].unwrap().fraction, 227);
}

/// The choice goes by volume, which the pauses do not move.
#[test]
fn choice_is_not_moved() {
    let chosen = |process| sheet(choose(&with_process(process), &readings_a()));
    let paused = chosen(Process::Intermittent);
    let expected = Sheet {
        oxygen_transfer: oxygen_transfer(9_000, paused.hourly_oxygen),
        ..paused
    };
    assert_eq!(chosen(Process::Simultaneous), expected);
    assert_ne!(paused.oxygen_transfer, expected.oxygen_transfer);
}
