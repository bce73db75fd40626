//! Data at the ends of the ranges; overflow checks are on.

use crate::common::*;
use reference::*;

fn largest_plant() -> Plant {
    Plant {
        bod_load: 1,
        daily_flow: 200_000,
        wet_weather_flow: 50_000,
        design_temperature: 10,
        aeration_temperature: 20,
        sludge_volume_index: 50,
        nitrate_target: 1_000,
        phosphorus_target: 0,
        carbon_peak_factor: 300,
        nitrogen_peak_factor: 300,
        oxygen_saturation: 6_000,
        site_surface: 100_000,
        site_depth: 10_000,
        process: Process::Simultaneous,
        precipitant: Precipitant::Iron,
        tank_flow: TankFlow::Vertical,
        removal: Removal::Hopper,
        primary_settling: PrimarySettling::None,
        dose: 0,
        consent: Consent::none(),
        way: Way::Bod,
    }
}

#[test]
fn largest_loads() {
    let readings = measured([2_000.0, 4_400.0, 2_000.0, 350.0, 100.0]);
    for dose in [0, 500_000] {
        let plant = Plant {
            dose,
            ..largest_plant()
        };
        let mut permitted = 0;
        for fraction in [200, 499, 500] {
            for ratio in [30, 75, 79, 99, 100] {
                for time in [20, 25] {
                    let place = candidate(fraction, ratio, time);
                    let answer = examine(&plant, &readings, place);
                    permitted += u32::from(answer.number() == 0);
                }
            }
        }
        assert!(permitted > 0);
        assert_eq!(choose(&plant, &readings).number(), 0);
    }
}

/// The transfer of the largest loads, without nitrogen up to nearly the most
/// that is covered.
#[test]
fn largest_transfer() {
    for saturation in [6_000, 15_000] {
        for nitrogen in [0.0, 350.0, 480.0] {
            let plant = Plant {
                oxygen_saturation: saturation,
                process: Process::Intermittent,
                dose: 500_000,
                ..largest_plant()
            };
            let readings = measured([2_000.0, 4_400.0, 2_000.0, nitrogen, 100.0]);
            let found = sheet(examine(&plant, &readings, candidate(500, 30, 20)));
            let exact = 1000 * u128::from(saturation) * u128::from(found.hourly_oxygen);
            assert!(exact < 10_000_000_000_000_000);
            let divisor = 500 * u128::from(saturation - 2_000);
            assert_eq!(u128::from(found.oxygen_transfer), exact.div_ceil(divisor));
        }
    }
}

/// The most COD beside the least and the most BOD, and the most solids beside
/// the least COD, with every process.
#[test]
fn ends_of_the_cod_way() {
    for process in [
        Process::PreAnoxic,
        Process::Simultaneous,
        Process::Intermittent,
        Process::StepFeed(Steps::Two),
        Process::StepFeed(Steps::Three),
    ] {
        for (bod, cod, solids) in [
            (20.0, 4_400.0, 0.0),
            (2_000.0, 4_400.0, 2_000.0),
            (2_000.0, 20.0, 2_000.0),
            (20.0, 20.0, 0.0),
        ] {
            for dose in [0, 500_000] {
                let plant = Plant {
                    process,
                    dose,
                    way: Way::Cod,
                    ..largest_plant()
                };
                let readings = measured([bod, cod, solids, 3.8, 100.0]);
                let found = examine(&plant, &readings, candidate(500, 30, 20));
                assert_eq!(found.number(), 0);
                assert!(found.sheet().oxygen_transfer < 1_000_000_000);
                let counts = census(&plant, &readings).unwrap();
                assert_eq!(counts.iter().sum::<u64>(), 301 * 71 * 6);
            }
        }
    }
}

#[test]
fn smallest_loads() {
    let mut plant = plant_a();
    plant.bod_load = 1;
    plant.daily_flow = 1;
    plant.wet_weather_flow = 1;
    plant.site_surface = 1;
    let readings = measured([20.0, 20.0, 0.0, 0.0, 0.0]);
    let found = sheet(choose(&plant, &readings));
    assert_eq!(found.settling_surface, 1);
    assert_eq!(found.recirculation, 0);
    assert_eq!(found.reactor_volume, 1);
}

/// Equal totals: the least f, then r, then h is taken.
#[test]
fn ties_of_the_total() {
    let mut plant = plant_a();
    plant.daily_flow = 1;
    plant.wet_weather_flow = 1;
    let readings = measured([20.0, 20.0, 0.0, 0.0, 0.0]);
    let found = sheet(choose(&plant, &readings));
    let mut first = None;
    'sweep: for fraction in 200..=500 {
        for ratio in 30..=75 {
            for time in 20..=25 {
                let place = candidate(fraction, ratio, time);
                let answer = examine(&plant, &readings, place);
                let same = answer.sheet().total_volume == found.total_volume;
                if answer.number() == 0 && same {
                    first = Some(answer.sheet());
                    break 'sweep;
                }
            }
        }
    }
    assert_eq!(first, Some(found));
    assert_eq!(found.fraction, 200);
}

#[test]
fn last_fraction_of_the_grid() {
    let with =
        |plant: &Plant, nitrogen| choose(plant, &measured([200.0, 400.0, 150.0, nitrogen, 8.0]));
    // K is 149 at 499 and 150 at 500; D is 30,000.
    assert_eq!(sheet(with(&plant_a(), 50.0)).fraction, 500);
    // K is 152 at 500 and would be 153 at 501; D is 30,400, then 30,600.
    let mut plant = plant_a();
    plant.process = Process::Intermittent;
    plant.design_temperature = 10;
    assert_eq!(with(&plant, 50.4).number(), 0);
    assert_eq!(with(&plant, 50.6), Answer::Refused(5));
}
