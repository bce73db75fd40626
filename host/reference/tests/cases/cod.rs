//! Sludge and oxygen from COD: the worked examples of docs/cod-way.md, and
//! figures worked by hand.

use crate::common::*;
use reference::cod::*;
use reference::*;

fn in_cod_way(dose: u32) -> Plant {
    let way = Way::Cod;
    Plant {
        dose,
        way,
        ..plant_a()
    }
}

fn with_process(process: Process) -> Plant {
    Plant {
        process,
        ..in_cod_way(0)
    }
}

/// Case A with another COD and other solids.
fn readings_with(cod: f32, solids: f32) -> [Reading; 5] {
    measured([200.0, cod, solids, 46.0, 8.0])
}

/// What the balance of one chain comes to.
#[derive(Debug, PartialEq, Eq)]
struct Worked {
    particulate: u64,
    inert_particulate: u64,
    inert_soluble: u64,
    degradable: u64,
    biomass: u64,
    inert_of_biomass: u64,
    sludge: u64,
    oxygen: u64,
}

fn worked(chain: Chain, cod: u64, solids: u64, external: u64, weighted_age: u64) -> Worked {
    let particulate = particulate(chain, solids);
    let inert_particulate = inert_particulate(chain, particulate);
    let inert_soluble = inert_soluble(chain, cod);
    let degradable = degradable(cod, inert_soluble, inert_particulate) + external;
    let biomass = biomass(chain, degradable, weighted_age);
    let sludge = sludge_as_cod(chain, inert_particulate, degradable, weighted_age);
    Worked {
        particulate,
        inert_particulate,
        inert_soluble,
        degradable,
        biomass,
        inert_of_biomass: inert_of_biomass(chain, biomass, weighted_age),
        sludge,
        oxygen: oxygen(cod, inert_soluble, sludge),
    }
}

/// U at 12 and at 20 degrees, t being 11,733.
#[test]
fn weighted_ages() {
    let at = |degrees| age::weighted_sludge_age(11_733, age::decay(degrees));
    assert_eq!(at(12), 9_524);
    assert_eq!(at(20), 16_610);
}

#[test]
fn sludge_of_the_worked_examples() {
    let of = |cod, solids, dose| {
        let external = external_carbon(dose);
        let found = worked(Chain::Sludge, cod, solids, external, 9_524);
        let daily = daily_sludge(5_000, found.sludge, inorganic(solids));
        assert_eq!(carbon_sludge(5_000, cod, solids, dose, 9_524), daily);
        (found, daily)
    };
    let (found, daily) = of(400_000, 150_000, 0);
    let expected = Worked {
        particulate: 152_250,
        inert_particulate: 53_288,
        inert_soluble: 20_000,
        degradable: 326_712,
        biomass: 83_578,
        inert_of_biomass: 27_064,
        sludge: 163_930,
        oxygen: 216_070,
    };
    assert_eq!((found, daily), (expected, 931_595));
    let (found, daily) = of(400_000, 450_000, 0);
    let expected = Worked {
        particulate: 456_750,
        inert_particulate: 159_863,
        inert_soluble: 20_000,
        degradable: 220_137,
        biomass: 56_315,
        inert_of_biomass: 18_236,
        sludge: 234_414,
        oxygen: 145_586,
    };
    assert_eq!((found, daily), (expected, 1_685_406));
    let (found, daily) = of(100_000, 300_000, 0);
    let expected = Worked {
        particulate: 304_500,
        inert_particulate: 106_575,
        inert_soluble: 5_000,
        degradable: 0,
        biomass: 0,
        inert_of_biomass: 0,
        sludge: 106_575,
        oxygen: 0,
    };
    assert_eq!((found, daily), (expected, 909_375));
    let (found, daily) = of(400_000, 150_000, 50_000);
    assert_eq!(found.degradable, 376_712);
    assert_eq!((found.biomass, found.inert_of_biomass), (96_369, 31_206));
    assert_eq!((found.sludge, daily), (180_863, 1_004_582));
    for (solids, inorganic) in [(150_000, 45_000), (450_000, 135_000), (300_000, 90_000)] {
        assert_eq!(cod::inorganic(solids), inorganic);
    }
}

#[test]
fn oxygen_of_the_worked_examples() {
    let of = |cod, solids| {
        let found = worked(Chain::Aeration, cod, solids, 0, 16_610);
        assert_eq!(uptake(Chain::Aeration, cod, solids, 16_610), found.oxygen);
        let daily = daily_oxygen(5_000, found.oxygen);
        (found, daily)
    };
    let (found, daily) = of(400_000, 150_000);
    let expected = Worked {
        particulate: 152_250,
        inert_particulate: 53_287,
        inert_soluble: 20_000,
        degradable: 326_713,
        biomass: 57_247,
        inert_of_biomass: 32_329,
        sludge: 142_863,
        oxygen: 237_137,
    };
    assert_eq!((found, daily), (expected, 1_185_685));
    let (found, daily) = of(400_000, 450_000);
    let expected = Worked {
        particulate: 456_750,
        inert_particulate: 159_862,
        inert_soluble: 20_000,
        degradable: 220_138,
        biomass: 38_573,
        inert_of_biomass: 21_783,
        sludge: 220_218,
        oxygen: 159_782,
    };
    assert_eq!((found, daily), (expected, 798_910));
    let (found, daily) = of(100_000, 300_000);
    assert_eq!((found.degradable, found.sludge), (0, 106_575));
    assert_eq!((found.oxygen, daily), (0, 0));
    for (cod, solids, oxygen) in [
        (400_000, 150_000, 216_070),
        (400_000, 450_000, 145_586),
        (100_000, 300_000, 0),
    ] {
        assert_eq!(uptake(Chain::Cover, cod, solids, 9_524), oxygen);
    }
    assert_eq!(aeration::less_saved(Way::Cod, 1_185_685, 377_000), 808_685);
    assert_eq!(aeration::less_saved(Way::Cod, 798_910, 377_000), 421_910);
    assert_eq!(aeration::less_saved(Way::Cod, 0, 377_000), 0);
    assert_eq!(aeration::saved_oxygen(5_000, 16_000), 232_000);
    assert_eq!(aeration::less_saved(Way::Cod, 1_185_685, 232_000), 953_685);
}

/// The four sheets to their last figure.
#[test]
fn sheets_of_the_worked_examples() {
    for (cod, solids, dose, sludge, mass, reactor, total, oxygen, transfer) in [
        (
            400.0, 150.0, 0, 1_101_595, 12_926, 3_421, 5_481, 98_196, 126_252,
        ),
        (
            400.0, 450.0, 0, 1_855_406, 21_770, 5_761, 7_821, 82_080, 105_532,
        ),
        (
            100.0, 300.0, 0, 1_079_375, 12_665, 3_352, 5_412, 64_500, 82_929,
        ),
        (
            400.0, 150.0, 50_000, 1_174_582, 13_782, 3_647, 5_707, 104_237, 134_019,
        ),
    ] {
        let plant = in_cod_way(dose);
        let found = examine(&plant, &readings_with(cod, solids), candidate_a());
        let figures = [
            300, 75, 20, 11_733, sludge, mass, 3_779, reactor, 454, 4_536, 2_060, total, 2_600,
            oxygen, transfer,
        ];
        assert_eq!(sheet(found).figures(), figures);
    }
}

/// 75 x 300 x 216,070 / 290,000 = 16,764.05; D is 26,000. K would be 85.
#[test]
fn case_a_as_a_simultaneous_plant() {
    for process in [Process::Simultaneous, Process::Intermittent] {
        let plant = with_process(process);
        let stages = explain(&plant, &readings_a(), candidate_a()).unwrap();
        assert_eq!(stages.nitrate.by_sewage, 16_764_000);
        assert_eq!((stages.by_bod, stages.removable), (16_764, 16_764));
        let at = |nitrogen| {
            let readings = measured([200.0, 400.0, 150.0, nitrogen, 8.0]);
            examine(&plant, &readings, candidate_a()).number()
        };
        assert_eq!(at(46.0), 7);
        assert_eq!(at(20.0 + 16.764), 0);
        assert_eq!(at(20.0 + 16.765), 7);
    }
    for process in [Process::PreAnoxic, Process::StepFeed(Steps::Three)] {
        let stages = explain(&with_process(process), &readings_a(), candidate_a()).unwrap();
        assert_eq!(stages.nitrate.by_sewage, 26_000_000);
    }
}

/// 10 mg/l are not taken into account, one thousandth more is, whole.
#[test]
fn dose_that_makes_sludge() {
    let sludge = |dose| {
        let found = examine(&in_cod_way(dose), &readings_a(), candidate_a());
        sheet(found).sludge_production
    };
    assert_eq!(sludge(10_000), 1_101_595);
    // 336,713 gives 86,137 and 27,893: 167,318 as COD.
    assert_eq!(sludge(10_001), 170_000 + 946_199);
    assert_eq!([0, 10_000, 10_001].map(external_carbon), [0, 0, 10_001]);
}

/// The dose comes after the degradable COD was held at 0, and takes no part in
/// the oxygen.
#[test]
fn dose_beside_no_degradable_cod() {
    let readings = readings_with(100.0, 300.0);
    let plain = sheet(examine(&in_cod_way(0), &readings, candidate_a()));
    let dosed = sheet(examine(&in_cod_way(50_000), &readings, candidate_a()));
    // 50,000 gives 12,791 and 4,142: 123,508 as COD.
    assert_eq!(plain.sludge_production, 1_079_375);
    assert_eq!(dosed.sludge_production, 170_000 + 982_363);
    assert_eq!(dosed.hourly_oxygen, plain.hourly_oxygen);
}

/// An older sludge has one thousandth less of oxygen, which the larger fraction
/// does not make up for.
#[test]
fn cover_is_not_upward_closed() {
    let plant = with_process(Process::Simultaneous);
    let readings = measured([20.0, 20.0, 53.351, 12.803, 8.0]);
    let at = |fraction| examine(&plant, &readings, candidate(fraction, 75, 20)).number();
    assert_eq!(at(376), 0);
    assert_eq!(at(377), 7);
    let by_bod = Plant {
        way: Way::Bod,
        ..plant
    };
    let first = (200..=500).find(|f| {
        let place = candidate(*f, 75, 20);
        examine(&by_bod, &readings, place).number() == 0
    });
    for fraction in first.unwrap()..=500 {
        let place = candidate(fraction, 75, 20);
        assert_eq!(examine(&by_bod, &readings, place).number(), 0);
    }
}

/// Readings that are no multiples of what the steps divide by.
#[test]
fn roundings_of_the_three_chains() {
    let of = |chain| worked(chain, 400_001, 150_001, 0, 9_524);
    let sludge = of(Chain::Sludge);
    // 152,251.015 and 53,288.2; 20,000.05.
    assert_eq!(sludge.particulate, 152_252);
    assert_eq!(sludge.inert_particulate, 53_289);
    assert_eq!(sludge.inert_soluble, 20_000);
    // 326,712 x 67,000 / 261,908 = 83,577.8 and 34 x 83,578 x 9,524 / 10^6.
    assert_eq!(sludge.degradable, 326_712);
    assert_eq!((sludge.biomass, sludge.inert_of_biomass), (83_578, 27_064));
    let aeration = of(Chain::Aeration);
    assert_eq!(aeration.particulate, 152_251);
    assert_eq!(aeration.inert_particulate, 53_287);
    assert_eq!(aeration.inert_soluble, 20_000);
    assert_eq!(aeration.degradable, 326_714);
    // 83,578.4 and 27,063.9.
    assert_eq!(
        (aeration.biomass, aeration.inert_of_biomass),
        (83_578, 27_063)
    );
    let cover = of(Chain::Cover);
    assert_eq!(cover.particulate, 152_252);
    assert_eq!(cover.inert_particulate, 53_289);
    assert_eq!(cover.inert_soluble, 20_001);
    assert_eq!(cover.degradable, 326_711);
    assert_eq!(inorganic(150_001), 45_001);
    assert_eq!(inorganic(10), 3);
    assert_eq!(daily_sludge(1, 116, 0), 1);
    assert_eq!(daily_sludge(1, 1_160, 1), 2);
    assert_eq!(daily_oxygen(1, 1_000), 1);
    assert_eq!(daily_oxygen(1, 1_001), 2);
    assert_eq!(removed_by_oxygen(290, 4_000), 300_000);
    assert_eq!(removed_by_oxygen(290, 3_999), 299_000);
}

/// The exact balance of a COD, solids, external carbon and U, over one divisor:
/// sludge as COD and oxygen.
fn exact(cod: u64, solids: u64, external: u64, weighted_age: u64) -> (i128, i128, i128) {
    let [cod, solids, external, weighted] = [cod, solids, external, weighted_age].map(i128::from);
    let divisor = 100_000 * 1_000_000 * (100_000 + 17 * weighted);
    let held = (95_000 * cod - 35_525 * solids).max(0);
    let degradable = held + 100_000 * external;
    let inert = 35_525 * solids * (divisor / 100_000);
    let sludge = inert + degradable * 67_000 * (1_000_000 + 34 * weighted);
    let oxygen = 95_000 * cod * (divisor / 100_000) - sludge;
    (sludge, oxygen.max(0), divisor)
}

/// Each chain on its side of the exact value, and not far from it.
#[test]
fn sides_of_the_chains() {
    let mut generator = Generator::new(0x5eed_000c);
    for _ in 0..100_000 {
        let cod = u64::from(generator.within(20_000, 4_400_000));
        let any = generator.within(0, 2_000_000);
        let near = (3 * cod).min(2_000_000) as u32;
        let near = generator.within(0, near);
        let solids = u64::from(generator.pick(&[any, near]));
        let dose = generator.within(0, 500_000);
        let dose = u64::from(generator.pick(&[0, dose]));
        let flow = u64::from(generator.within(1, 200_000));
        let weighted = u64::from(generator.within(1_000, 30_000));
        let (sludge, _, divisor) = exact(cod, solids, external_carbon(dose), weighted);
        let produced = i128::from(carbon_sludge(flow, cod, solids, dose, weighted));
        // A14, times 1000 x 116 x 10
        let wanted = i128::from(flow) * (1_000 * sludge + 348 * i128::from(solids) * divisor);
        let most = wanted + (1_160_000 + i128::from(flow) * 6_000) * divisor;
        let produced = produced * 1_160_000 * divisor;
        assert!(wanted <= produced && produced <= most);
        let (_, wanted, divisor) = exact(cod, solids, 0, weighted);
        let aerated = i128::from(uptake(Chain::Aeration, cod, solids, weighted)) * divisor;
        assert!(wanted <= aerated && aerated <= wanted + 6 * divisor);
        let covered = i128::from(uptake(Chain::Cover, cod, solids, weighted)) * divisor;
        assert!(wanted - 6 * divisor <= covered && covered <= wanted);
    }
}

/// 5 x 440.1 is above 11 x 200: 4 in the BOD way alone, whatever else is due
/// later.
#[test]
fn refusal_4_is_never_due() {
    let high = readings_with(440.1, 150.0);
    assert_eq!(accept(&plant_a(), &high), Err(4));
    let accepted = [200_000, 440_100, 150_000, 46_000, 8_000];
    assert_eq!(accept(&in_cod_way(0), &high), Ok(accepted));
    assert_eq!(examine(&in_cod_way(0), &high, candidate_a()).number(), 0);
    assert_eq!(choose(&in_cod_way(0), &high).number(), 0);
    let mut plant = in_cod_way(0);
    plant.consent.count = 5;
    assert_eq!(accept(&plant, &high), Err(14));
    assert_eq!(
        examine(&in_cod_way(0), &high, candidate(0, 0, 0)).number(),
        6
    );
    let most = measured([20.0, 4_400.0, 150.0, 0.0, 8.0]);
    assert_eq!(examine(&in_cod_way(0), &most, candidate_a()).number(), 0);
}

/// The other refusals of the data, in their order.
#[test]
fn other_refusals_stay() {
    let mut plant = in_cod_way(0);
    plant.consent.count = 5;
    let mut readings = readings_with(450.0, 150.0);
    assert_eq!(accept(&plant, &readings), Err(14));
    readings[4] = Reading::Heads(0);
    assert_eq!(accept(&plant, &readings), Err(3));
    readings[3] = Reading::Measured(f32::NAN);
    assert_eq!(accept(&plant, &readings), Err(2));
    readings[1] = Reading::Measured(4_401.0);
    assert_eq!(accept(&plant, &readings), Err(3));
    plant.sludge_volume_index = 181;
    assert_eq!(accept(&plant, &readings), Err(17));
    plant.dose = 500_001;
    assert_eq!(accept(&plant, &readings), Err(1));
}

/// At 11 degrees the term leaves 227 of f 300, and U is 11,733 x 757,216 /
/// 10^6 = 8,884: 100,000 + 17 U is 251,028. Degradable 326,712, so 87,201 and
/// 26,340; oxygen 213,171, and 75 x 227 x 213,171 / 290,000 = 12,514.6.
#[test]
fn cover_in_a_term() {
    let readings = measured([200.0, 400.0, 150.0, 26.0, 8.0]);
    let mut plant = with_process(Process::Simultaneous);
    plant.consent = consent(&[term(11, 3_486)]);
    let stages = explain(&plant, &readings, candidate_a()).unwrap();
    let found = stages.terms[0].unwrap();
    assert_eq!((found.fraction, found.by_sewage), (227, 12_514_000));
    assert_eq!((found.by_bod, found.to_denitrify), (12_514, 12_514));
    assert_eq!(examine(&plant, &readings, candidate_a()).number(), 0);
    plant.consent = consent(&[term(11, 3_485)]);
    assert_eq!(examine(&plant, &readings, candidate_a()).number(), 16);
    plant.process = Process::PreAnoxic;
    assert_eq!(examine(&plant, &readings, candidate_a()).number(), 0);
}

/// At 11 degrees a is 9,059. With t 11,313 at f 274 it leaves 199, with 11,329
/// at 275 it leaves 200.
#[test]
fn fraction_under_200_in_a_term() {
    let readings = measured([200.0, 400.0, 150.0, 21.0, 8.0]);
    let mut plant = with_process(Process::Intermittent);
    plant.consent = consent(&[term(11, 10_000)]);
    let at = |fraction| {
        let place = candidate(fraction, 75, 20);
        let found = explain(&plant, &readings, place).unwrap().terms[0].unwrap();
        let number = examine(&plant, &readings, place).number();
        (found.fraction, found.by_bod > 0, number)
    };
    assert_eq!(at(275), (200, true, 0));
    assert_eq!(at(274), (199, false, 16));
}

/// Nothing but sludge, oxygen, cover and 4 comes from the COD.
#[test]
fn the_rest_stays() {
    let mut generator = Generator::new(0x5eed_000d);
    let mut both = 0;
    for _ in 0..20_000 {
        let mut plant = plant_a();
        plant.process = generator.pick(&[
            Process::PreAnoxic,
            Process::StepFeed(Steps::Two),
            Process::StepFeed(Steps::Three),
        ]);
        plant.design_temperature = generator.within(10, 20);
        plant.dose = generator.within(0, 100_000);
        plant.consent = consent(&[term(generator.within(8, 20), 20_000)]);
        let bod = generator.within(100_000, 400_000) as f32 / 1000.0;
        let share = generator.within(50, 219) as f32 / 100.0;
        let solids = generator.within(0, 600_000) as f32 / 1000.0;
        let nitrogen = generator.within(0, 80_000) as f32 / 1000.0;
        let readings = measured([bod, share * bod, solids, nitrogen, 8.0]);
        let place = candidate(generator.within(200, 500), generator.within(30, 75), 20);
        let by_bod = examine(&plant, &readings, place);
        plant.way = Way::Cod;
        let by_cod = examine(&plant, &readings, place);
        assert_eq!(by_bod.number(), by_cod.number());
        if let (Answer::Sheet(one), Answer::Sheet(other)) = (by_bod, by_cod) {
            both += 1;
            let same = Sheet {
                sludge_production: one.sludge_production,
                sludge_mass: one.sludge_mass,
                reactor_volume: one.reactor_volume,
                total_volume: one.total_volume,
                hourly_oxygen: one.hourly_oxygen,
                oxygen_transfer: one.oxygen_transfer,
                ..other
            };
            assert_eq!(same, one);
        }
    }
    assert!(both > 1_000, "{both}");
}
