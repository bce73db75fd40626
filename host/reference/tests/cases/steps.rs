//! Steps that Case A does not reach, worked by hand.

use crate::common::*;
use reference::*;

#[test]
fn temperature_factors_at_other_degrees() {
    assert_eq!(age::growth(16), 906_618);
    assert_eq!(age::growth(17), 821_956);
    assert_eq!(age::growth(10), 1_632_590);
    assert_eq!(age::growth(9), 1_800_746);
    assert_eq!(age::growth(8), 1_986_222);
    assert_eq!(age::growth(7), 2_190_802);
    assert_eq!(age::growth(6), 2_416_454);
    assert_eq!(age::growth(5), 2_665_348);
    assert_eq!(age::growth(4), 2_939_878);
    assert_eq!(age::decay(16), 1_072_000);
    assert_eq!(age::decay(17), 1_149_184);
    assert_eq!(age::decay(10), 706_358);
    assert_eq!(age::decay(9), 658_916);
    assert_eq!(age::decay(8), 614_660);
    assert_eq!(age::decay(7), 573_376);
    assert_eq!(age::decay(6), 534_865);
    assert_eq!(age::decay(5), 498_941);
    assert_eq!(age::decay(4), 465_430);
}

#[test]
fn nitrogen_balance_is_not_negative() {
    assert_eq!(nitrogen::nitrogen_to_nitrify(10_000, 200_024), 0);
    assert_eq!(nitrogen::nitrogen_to_nitrify(10_001, 200_024), 1);
    assert_eq!(nitrogen::nitrogen_to_nitrify(10_001, 200_025), 0);
    assert_eq!(nitrogen::nitrate_to_denitrify(36_000, 10_000), 26_000);
    assert_eq!(nitrogen::nitrate_to_denitrify(9_999, 10_000), 0);
}

/// U is 9,524: 142,860,000 / 261,908 = 545.4 and 97,144,800 / 261,908 = 370.9.
#[test]
fn uptake_and_loss() {
    assert_eq!(nitrogen::uptake_for_capacity(9_524), 1_105);
    assert_eq!(aeration::uptake_for_aeration(9_524), 1_106);
    assert_eq!(sludge::endogenous_loss(9_524), 370);
    // 75 x 300 x 1,105 / 290,000 = 85.7.
    let capacity = |process| nitrogen::denitrification_capacity(process, 300, 20, 9_524);
    assert_eq!(capacity(Process::Simultaneous), 85);
    assert_eq!(capacity(Process::Intermittent), 85);
    // 130 x 108 / 100 = 140.4.
    assert_eq!(capacity(Process::PreAnoxic), 140);
    assert_eq!(capacity(Process::StepFeed(Steps::Two)), 140);
    assert_eq!(capacity(Process::StepFeed(Steps::Three)), 140);
}

#[test]
fn aluminium() {
    let mut plant = plant_a();
    plant.precipitant = Precipitant::Aluminium;
    let found = sheet(examine(&plant, &readings_a(), candidate_a()));
    assert_eq!(found.sludge_production, 962_500);
    assert_eq!(found.sludge_mass, 11_294);
}

#[test]
fn phosphorus_below_the_target() {
    assert_eq!(
        sludge::phosphorus_to_precipitate(8_000, 1_000, 200_000),
        5_000
    );
    assert_eq!(sludge::phosphorus_to_precipitate(3_000, 1_000, 200_000), 0);
    assert_eq!(sludge::phosphorus_to_precipitate(3_000, 1_000, 199_999), 1);
    assert_eq!(sludge::phosphorus_to_precipitate(0, 100_000, 20_000), 0);
}

#[test]
fn surface_overflow_rate() {
    let horizontal = |v| settling::surface_overflow_rate(TankFlow::Horizontal, v);
    let vertical = |v| settling::surface_overflow_rate(TankFlow::Vertical, v);
    assert_eq!(horizontal(300), 1_600);
    assert_eq!(horizontal(312), 1_600);
    assert_eq!(horizontal(313), 1_597);
    assert_eq!(horizontal(600), 833);
    assert_eq!(vertical(300), 2_000);
    assert_eq!(vertical(325), 2_000);
    assert_eq!(vertical(326), 1_993);
    assert_eq!(vertical(600), 1_083);
}

#[test]
fn removal_of_sludge() {
    assert_eq!(settling::return_solids(Removal::Scraper, 12_591), 8_813);
    assert_eq!(settling::return_solids(Removal::Suction, 12_591), 6_295);
    assert_eq!(settling::return_solids(Removal::Hopper, 12_591), 12_591);
}

/// V is 597 and q 650,000 / 597 = 1,088.8. Depth: 1,033,600 / 403 = 2,564.8;
/// 649.5 and 9 x 650 x 190 / 1000 = 1,111.5; 24,669,964,800 / 12,599,000 =
/// 1,958.1. Reactor 11,733,000 / 5,967 = 1,966.3, surface 600,000 / 1,088 =
/// 551.5, settling 552 x 6,136 / 1000 = 3,387.1.
#[test]
fn vertical_tank_with_hopper() {
    let mut plant = plant_a();
    plant.tank_flow = TankFlow::Vertical;
    plant.removal = Removal::Hopper;
    plant.site_depth = 10_000;
    assert_eq!(settling::separation_depth(1_088, 90, 597), 2_565);
    assert_eq!(settling::storage_depth(1_088, 90, 597), 1_112);
    assert_eq!(
        settling::thickening_depth(5_967, 1_088, 90, 20, 12_599),
        1_959
    );
    let found = sheet(examine(&plant, &readings_a(), candidate(300, 90, 20)));
    assert_eq!(found.solids, 5_967);
    assert_eq!(found.reactor_volume, 1_967);
    assert_eq!(found.settling_surface, 552);
    assert_eq!(found.settling_depth, 6_136);
    assert_eq!(found.settling_volume, 3_388);
    assert_eq!(found.total_volume, 5_355);
}

#[test]
fn least_depth() {
    assert_eq!(settling::settling_depth(1_000, 700, 799), 3_000);
    assert_eq!(settling::settling_depth(1_000, 700, 801), 3_001);
}

#[test]
fn oxygen_peaks() {
    // (300 x 6,000 + 100 x 1,000) / 2,400 and (100 x 6,000 + 200 x 1,000) / 2,400.
    assert_eq!(aeration::hourly_oxygen(6_000, 1_000, 300, 200), 792);
    // (100 x 6,000 + 100 x 3,000) / 2,400 and (100 x 6,000 + 200 x 3,000) / 2,400.
    assert_eq!(aeration::hourly_oxygen(6_000, 3_000, 100, 200), 500);
    assert_eq!(aeration::oxygen_transfer(6_000, 792), 1_188);
    assert_eq!(aeration::oxygen_transfer(15_000, 792), 914);
}

#[test]
fn recirculation_of_each_process() {
    let of = |process, to_nitrify| aeration::recirculation(process, to_nitrify, 10_000);
    assert_eq!(of(Process::PreAnoxic, 36_001), 2_601);
    assert_eq!(of(Process::PreAnoxic, 10_000), 0);
    assert_eq!(of(Process::PreAnoxic, 0), 0);
    assert_eq!(of(Process::Simultaneous, 36_001), 0);
    assert_eq!(of(Process::Intermittent, 36_001), 0);
    assert_eq!(of(Process::StepFeed(Steps::Two), 36_001), 0);
}

/// 35 x 960 / 4,800 is 7; 35 x 137 / 4,800 is below 1 and 35 x 138 above.
#[test]
fn safety_factor_between_the_loads() {
    assert_eq!(age::safety_factor(2_160), 173);
    assert_eq!(age::safety_factor(1_337), 180);
    assert_eq!(age::safety_factor(1_338), 179);
}

#[test]
fn ages_just_beside_a_whole_number() {
    // 25 x 34 x 82,353 = 70,000,050.
    assert_eq!(age::aerobic_sludge_age(25, 82_353), 71);
    assert_eq!(age::sludge_age(800, 200), 1_000);
    assert_eq!(age::sludge_age(801, 200), 1_002);
    assert_eq!(age::weighted_sludge_age(1, 1_000_000), 1);
    assert_eq!(age::weighted_sludge_age(1, 999_999), 0);
    assert_eq!(age::weighted_sludge_age(1_000, 1_415_707), 1_415);
}

/// At 12,500 both quotients are whole; the others are close to a whole number.
#[test]
fn uptake_and_loss_just_beside_a_whole_number() {
    for (weighted, lower, upper) in [
        (2_720, 838, 839),
        (2_763, 841, 842),
        (2_792, 844, 845),
        (3_635, 897, 898),
        (12_500, 1_160, 1_160),
    ] {
        assert_eq!(nitrogen::uptake_for_capacity(weighted), lower);
        assert_eq!(aeration::uptake_for_aeration(weighted), upper);
    }
    for (weighted, loss) in [(2_684, 187), (4_116, 247), (4_911, 273), (12_500, 408)] {
        assert_eq!(sludge::endogenous_loss(weighted), loss);
    }
    assert_eq!(nitrogen::capacity_by_uptake(400, 580), 60);
}

#[test]
fn sludge_just_beside_a_whole_number() {
    assert_eq!(sludge::carbon_sludge(1, 2_000_000, 0, 749), 2);
    assert_eq!(sludge::carbon_sludge(1, 2_000_001, 0, 749), 3);
    assert_eq!(sludge::phosphorus_sludge(1, Precipitant::Iron, 1), 1);
    assert_eq!(sludge::phosphorus_sludge(1, Precipitant::Iron, 2_500), 17);
    assert_eq!(sludge::sludge_mass(1, 2_000_000), 2);
    assert_eq!(sludge::sludge_mass(1, 2_000_001), 3);
}

#[test]
fn bottom_sludge() {
    // 10,000 is the cube root of 10 x 100,000,000,000.
    assert_eq!(settling::cube_root(10), 10_000);
    let roots = [12_599, 12_805, 13_005, 13_200, 13_388, 13_572];
    assert_eq!([20, 21, 22, 23, 24, 25].map(settling::cube_root), roots);
    // 1,259,900 / 50, 51, 70 and 180: 25,198, 24,703.9, 17,998.6 and 6,999.4.
    for (index, bottom) in [(50, 25_198), (51, 24_703), (70, 17_998), (180, 6_999)] {
        assert_eq!(settling::bottom_solids(12_599, index), bottom);
    }
}

#[test]
fn oxygen_just_beside_a_whole_number() {
    assert_eq!(aeration::carbon_oxygen(1, 2_000_000, 1), 2);
    assert_eq!(aeration::carbon_oxygen(1, 2_000_001, 1), 3);
    assert_eq!(aeration::nitrification_oxygen(1, 1), 1);
    assert_eq!(aeration::saved_oxygen(1, 9_999), 28);
    // 200 x 2,401 / 2,400 = 200.1.
    assert_eq!(aeration::hourly_oxygen(2_401, 0, 200, 100), 201);
    assert_eq!(aeration::hourly_oxygen(0, 2_401, 100, 200), 201);
}
