//! Case A and the table cases of the paper.

use crate::common::*;
use reference::*;

/// With the finer bottom sludge: c is 12,599.
/// - B: 100 x 12,599 / 100 = 12,599; R: 7 x 12,599 / 10 = 8,819.3
/// - solids: 75 x 8,819 / 175 = 3,779.6, down
/// - reactor: 1000 x 11,733 / 3,779 = 3,104.8, up
/// - V: 3,779 x 100 / 1000 = 377.9, up; q: 500,000 / 378 = 1,322.8, down
/// - surface: 600,000 / 1,322 = 453.9, up, as it was
/// - depth: 500 + 1,860 + 788 + 1,388
///   - 5 x 1,322 x 175 / 622 = 1,859.7, up
///   - 1,322 x 378 / 1000 = 499.7, up; 9 x 500 x 175 / 1000 = 787.5, up
///   - 3,779 x 1,322 x 175 x 20 / 12,599,000 = 1,387.8, up
/// - settling: 454 x 4,536 / 1000 = 2,059.3, up, as it was
/// - total: 3,105 + 2,060
const LISTING_A: &str = "\
fraction 300
return 75
thickening 20
age 11733
sludge 1000000
mass 11733
solids 3779
reactor 3105
surface 454
depth 4536
settling 2060
total 5165
recirculation 2600
oxygen 99292
transfer 127662
";

#[test]
fn case_a_to_the_byte() {
    let answer = examine(&plant_a(), &readings_a(), candidate_a());
    assert_eq!(listing(&answer), LISTING_A.as_bytes());
}

/// The lines of arithmetic above, one by one.
#[test]
fn case_a_by_steps() {
    use reference::settling::*;
    assert_eq!(bottom_solids(cube_root(20), 100), 12_599);
    assert_eq!(return_solids(Removal::Scraper, 12_599), 8_819);
    assert_eq!(solids(75, 8_819), 3_779);
    assert_eq!(sludge::reactor_volume(11_733, 3_779), 3_105);
    assert_eq!(diluted_sludge_volume(3_779, 100), 378);
    assert_eq!(surface_overflow_rate(TankFlow::Horizontal, 378), 1_322);
    assert_eq!(settling_surface(600, 1_322), 454);
    assert_eq!(separation_depth(1_322, 75, 378), 1_860);
    assert_eq!(storage_depth(1_322, 75, 378), 788);
    assert_eq!(thickening_depth(3_779, 1_322, 75, 20, 12_599), 1_388);
    assert_eq!(settling_depth(1_860, 788, 1_388), 4_536);
    assert_eq!(settling_volume(454, 4_536), 2_060);
}

#[test]
fn case_1_temperature_factors() {
    assert_eq!(age::growth(12), 1_341_919);
    assert_eq!(age::decay(12), 811_736);
    assert_eq!(age::decay(20), 1_415_707);
    assert_eq!(age::growth(15), 1_000_000);
    assert_eq!(age::decay(15), 1_000_000);
}

#[test]
fn case_2_safety_factor() {
    assert_eq!(age::safety_factor(1_201), 180);
    assert_eq!(age::safety_factor(3_600), 163);
    assert_eq!(age::safety_factor(6_000), 145);
    assert_eq!(age::safety_factor(1), 180);
    assert_eq!(age::safety_factor(1_200), 180);
    assert_eq!(age::safety_factor(5_999), 146);
    assert_eq!(age::safety_factor(100_000), 145);
}

#[test]
fn case_3_aerobic_sludge_age() {
    assert_eq!(age::aerobic_sludge_age(180, age::growth(12)), 8_213);
    assert_eq!(age::aerobic_sludge_age(145, age::growth(12)), 6_616);
}

#[test]
fn case_4_sludge_age() {
    assert_eq!(age::sludge_age(8_213, 200), 10_267);
    assert_eq!(age::sludge_age(8_213, 500), 16_426);
}

/// The cubes of 12,599 and 12,600 are 1,999,899,757,799 and 2,000,376,000,000,
/// those of 13,572 and 13,573 are 2,499,951,325,248 and 2,500,503,963,517.
#[test]
fn case_5_cube_root() {
    assert_eq!(settling::cube_root(20), 12_599);
    assert_eq!(settling::cube_root(25), 13_572);
    for time in 20..=25 {
        let root = settling::cube_root(time);
        assert!(root * root * root <= time * 100_000_000_000);
        let next = root + 1;
        assert!(next * next * next > time * 100_000_000_000);
    }
}

#[test]
fn case_6_thousandths() {
    assert_eq!(reading::measured(0.0625), Ok(62));
    assert_eq!(reading::measured(0.1875), Ok(188));
    assert_eq!(reading::below(0.125), Ok(62));
}

#[test]
fn case_7_not_covered_at_299() {
    let process = Process::PreAnoxic;
    assert_eq!(
        nitrogen::denitrification_capacity(process, 299, 12, 9_509),
        129
    );
    let answer = examine(&plant_a(), &readings_a(), candidate(299, 75, 20));
    assert_eq!(answer, Answer::Refused(7));
    assert_eq!(answer.sheet().figures(), [0; 15]);
    // At 300 the cover is exact.
    assert_eq!(
        nitrogen::denitrification_capacity(process, 300, 12, 9_524),
        130
    );
    assert_eq!(130 * 200_000, 1000 * 26_000);
}

/// E is 90 x 12,599 / 190 = 5,967.9, 91 x 12,599 / 191 = 6,002.7 and
/// 92 x 12,599 / 192 = 6,037.02, down; V is a tenth of it, up.
#[test]
fn case_8_diluted_sludge_volume() {
    let bottom = settling::bottom_solids(settling::cube_root(20), 100);
    let returned = settling::return_solids(Removal::Hopper, bottom);
    let volume = |ratio| settling::diluted_sludge_volume(settling::solids(ratio, returned), 100);
    assert_eq!(volume(90), 597);
    assert_eq!(volume(91), 601);
    assert_eq!(volume(92), 604);

    let mut plant = plant_a();
    plant.tank_flow = TankFlow::Vertical;
    plant.removal = Removal::Hopper;
    plant.site_depth = 10_000;
    let at = |ratio| examine(&plant, &readings_a(), candidate(300, ratio, 20));
    assert_eq!(at(90).number(), 0);
    assert_eq!(at(91), Answer::Refused(8));
    assert_eq!(at(92), Answer::Refused(8));
}

#[test]
fn case_9_cod_ratio() {
    let with_cod = |cod| measured([200.0, cod, 150.0, 46.0, 8.0]);
    assert!(accept(&plant_a(), &with_cod(440.0)).is_ok());
    assert_eq!(accept(&plant_a(), &with_cod(440.1)), Err(4));
    let answer = examine(&plant_a(), &with_cod(440.0), candidate_a());
    assert_eq!(listing(&answer), LISTING_A.as_bytes());
    let refused = examine(&plant_a(), &with_cod(440.1), candidate_a());
    assert_eq!(refused, Answer::Refused(4));
}

#[test]
fn tabulated_capacity_at_and_between_the_fractions() {
    for (fraction, capacity) in [
        (200, 110),
        (204, 110),
        (205, 111),
        (300, 130),
        (309, 130),
        (310, 131),
        (400, 140),
        (499, 149),
        (500, 150),
    ] {
        assert_eq!(nitrogen::tabulated_capacity(fraction), capacity);
    }
    assert_eq!(nitrogen::capacity_at_temperature(129, 12), 129);
    assert_eq!(nitrogen::capacity_at_temperature(129, 13), 130);
    assert_eq!(nitrogen::capacity_at_temperature(150, 20), 162);
}

#[test]
fn step_feed_raises_the_reactor_solids() {
    let solids = |process| sludge::reactor_solids(process, 3_779);
    assert_eq!(solids(Process::PreAnoxic), 3_779);
    assert_eq!(solids(Process::StepFeed(Steps::Two)), 4_308);
    assert_eq!(solids(Process::StepFeed(Steps::Three)), 4_534);
    let mut plant = plant_a();
    plant.process = Process::StepFeed(Steps::Three);
    let found = sheet(examine(&plant, &readings_a(), candidate_a()));
    assert_eq!(found.reactor_volume, 2_588);
    assert_eq!(found.solids, 3_779);
    assert_eq!(found.recirculation, 0);
}

/// c is 13,005, B too, R 9,103 and E 71 x 9,103 / 171 = 3,779.6: V, q and
/// surface are those of Case A. The depth is 500 + 1,818 + 770 + 1,446, and
/// 454 x 4,534 / 1000 = 2,058.4; the reactor is 3,105.
#[test]
fn chosen_for_case_a() {
    let found = sheet(choose(&plant_a(), &readings_a()));
    let place = (found.fraction, found.return_ratio, found.thickening);
    assert_eq!(place, (300, 71, 22));
    assert_eq!(found.settling_depth, 4_534);
    assert_eq!(found.total_volume, 5_164);
}
