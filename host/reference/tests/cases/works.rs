//! Works in several lines, worked by hand on Case A: Q is 5,000, Qw 600, the
//! site's surface 1,000. The least surface that a line can do with is
//! 1000 Qw / 1,600, rounded up.

use crate::common::*;
use crate::properties::{plant, readings};
use reference::works::{parts, WHOLE};
use reference::*;

fn split(shares: &[u32]) -> Split {
    let mut all = [0; 8];
    all[..shares.len()].copy_from_slice(shares);
    Split {
        count: shares.len() as u32,
        shares: all,
    }
}

/// Two to eight shares of any size.
fn any_split(generator: &mut Generator) -> Split {
    let count = generator.within(2, 8);
    let mut shares = Vec::new();
    let mut left = WHOLE as u32;
    for after in (1..count).rev() {
        let share = generator.within(1, left - after);
        shares.push(share);
        left -= share;
    }
    shares.push(left);
    shares.rotate_left(generator.within(0, count - 1) as usize);
    split(&shares)
}

fn with_surface(site_surface: u32) -> Plant {
    Plant {
        site_surface,
        ..plant_a()
    }
}

/// The number of a works of Case A's readings, and those of its lines.
fn numbers(plant: &Plant, split: &Split) -> (u8, Vec<u8>) {
    let of = |number| line(plant, &readings_a(), split, number).number();
    let lines = (1..=split.count).map(of).collect();
    (works(plant, &readings_a(), split).number, lines)
}

/// The running sums of 333, 333 and 334 thousandths of 5,003 are 1,665.999,
/// 3,331.998 and 5,003. Each share rounded alone would lose up to 7.
#[test]
fn differences_of_running_sums() {
    for (whole, shares, lines) in [
        (5_003, &[333, 333, 334][..], &[1_665, 1_666, 1_672][..]),
        (601, &[333, 333, 334], &[200, 200, 201]),
        (1_001, &[333, 333, 334], &[333, 333, 335]),
        (1_001, &[500, 500], &[500, 501]),
        (1, &[999, 1], &[0, 1]),
        (1, &[1, 999], &[0, 1]),
        (3, &[500, 1, 499], &[1, 0, 2]),
        (7, &[125; 8], &[0, 1, 1, 1, 1, 1, 1, 1]),
        (200_000, &[1, 1, 1, 1, 1, 1, 1, 993], &[200; 7]),
        (199_999, &[1, 998, 1], &[199, 199_600, 200]),
    ] {
        assert_eq!(parts(whole, shares)[..lines.len()], *lines);
    }
    let alone = [333, 333, 334].map(|share| 5_003 * share / 1_000);
    assert_eq!(alone, [1_665, 1_665, 1_671]);
}

/// Nothing is lost or added, and each part is less than one off its share.
#[test]
fn parts_add_up() {
    let mut generator = Generator::new(0x5eed_0009);
    for _ in 0..20_000 {
        let whole = generator.within(1, 200_000) >> generator.within(0, 17);
        let split = any_split(&mut generator);
        let shares = split.named().unwrap();
        let parts = parts(whole, shares);
        assert_eq!(parts.len(), shares.len());
        assert_eq!(parts.iter().sum::<u32>(), whole);
        for (part, share) in parts.iter().zip(shares) {
            let off = (1_000 * part).abs_diff(whole * share);
            assert!(off < 1_000, "{whole} by {shares:?}: {parts:?}");
        }
    }
}

/// A share of one thousandth is 1 of 1,000. Of 999 it is 0 as the first one and 1
/// after that; of 998 it is 0 after 500 of them too, and 1 as the last.
#[test]
fn a_part_of_0_gets_1() {
    let with = |place: usize, figure: u32| {
        let mut figures = [1_000; 3];
        figures[place] = figure;
        Plant {
            daily_flow: figures[0],
            wet_weather_flow: figures[1],
            site_surface: figures[2],
            ..plant_a()
        }
    };
    for place in 0..3 {
        for (figure, shares, works, lines) in [
            (1_000, &[1, 998, 1][..], 0, vec![0, 0, 0]),
            (999, &[1, 998, 1], 1, vec![1, 0, 0]),
            (999, &[500, 1, 499], 0, vec![0, 0, 0]),
            (998, &[500, 1, 499], 1, vec![0, 1, 0]),
            (998, &[500, 499, 1], 0, vec![0, 0, 0]),
        ] {
            let found = numbers(&with(place, figure), &split(shares));
            assert_eq!(found, (works, lines), "{figure} at {place}, {shares:?}");
        }
    }
}

/// Of 375 m2 a half is 187 and then 188, and a half of Qw takes 188. A line of
/// one thousandth gets no Qw where it is not the last. 288 and 312 m3/h take 180
/// and 195 m2.
#[test]
fn the_first_refused_line_decides() {
    let plant = with_surface(375);
    assert_eq!(choose(&plant, &readings_a()).number(), 0);
    for (shares, lines, works) in [
        (&[500, 500][..], vec![5, 0], 5),
        (&[500, 1, 499], vec![5, 1, 0], 5),
        (&[1, 500, 499], vec![1, 5, 0], 1),
        (&[499, 500, 1], vec![0, 5, 0], 5),
        (&[499, 1, 500], vec![0, 1, 0], 1),
        (&[480, 520], vec![0, 0], 0),
    ] {
        assert_eq!(
            numbers(&plant, &split(shares)),
            (works, lines),
            "{shares:?}"
        );
    }
}

/// Lines of 600 and 400 thousandths at 300: S is 200 g/m3 of Q, and M is
/// 11.733 days of it, 7,039.8 and 4,693.2. Together they are more than the 11,733
/// of one plant.
#[test]
fn sums_of_case_a() {
    let found = works(&plant_a(), &readings_a(), &split(&[600, 400]));
    let lines = [
        [
            300, 70, 24, 11_733, 600_000, 7_040, 3_858, 1_825, 278, 4_581, 1_274, 3_099, 2_600,
            59_575, 76_597,
        ],
        [
            300, 70, 23, 11_733, 400_000, 4_694, 3_804, 1_234, 183, 4_546, 832, 2_066, 2_600,
            39_717, 51_065,
        ],
    ];
    let sums = [1_000_000, 11_734, 461, 3_059, 2_106, 5_165, 99_292, 127_662];
    assert_eq!(found.number, 0);
    assert_eq!(found.sums.figures(), sums);
    for (sheet, line) in found.sheets.iter().zip(lines) {
        assert_eq!(sheet.figures(), line);
    }
    assert_eq!(found.sheets[2..], [Sheet::default(); 6]);
}

/// Case A's figures can be divided by 2, 4 and, Qw and surface too, by 8.
#[test]
fn equal_lines_have_equal_sheets() {
    for count in [2, 4, 8] {
        let shares = vec![1_000 / count; count as usize];
        let found = works(&plant_a(), &readings_a(), &split(&shares));
        let alone = Plant {
            daily_flow: 5_000 / count,
            wet_weather_flow: 600 / count,
            site_surface: 1_000 / count,
            ..plant_a()
        };
        let sheet = sheet(choose(&alone, &readings_a()));
        assert_eq!(found.sheets[..count as usize], vec![sheet; count as usize]);
        assert_eq!(
            found.sums.total_volume,
            u64::from(count) * sheet.total_volume
        );
    }
}

/// 15,000 heads on 5,000 m3/d are 180, 360, 210, 33 and 5.4 mg/l; on a line's
/// 5 m3/d they would be out of range.
#[test]
fn head_counts_on_the_whole_flow() {
    let heads = [Reading::Heads(15_000); 5];
    let same = measured([180.0, 360.0, 210.0, 33.0, 5.4]);
    let plant = Plant {
        wet_weather_flow: 1_000,
        ..plant_a()
    };
    for shares in [&[500, 500][..], &[1, 999], &[100, 200, 700]] {
        let split = split(shares);
        let found = works(&plant, &heads, &split);
        assert_eq!(found.number, 0, "{shares:?}");
        assert_eq!(found, works(&plant, &same, &split));
        for number in 1..=split.count {
            let alone = line(&plant, &same, &split, number);
            assert_eq!(line(&plant, &heads, &split, number), alone);
        }
    }
    let own_flow = Plant {
        daily_flow: 5,
        ..plant_a()
    };
    assert_eq!(choose(&own_flow, &heads).number(), 3);
}

/// a is 6,616 for a load of 6,000, whatever a line's part of it would be: SF is
/// 180 for 1,200 and 167 for 3,000. t at 300 is up(6,616,000 / 700).
#[test]
fn safety_factor_of_the_whole_load() {
    let plant = Plant {
        bod_load: 6_000,
        ..plant_a()
    };
    for shares in [&[500, 500][..], &[200, 800], &[200; 5], &[1, 999]] {
        let found = works(&with_wet_flow(plant), &readings_a(), &split(shares));
        for sheet in &found.sheets[..shares.len()] {
            assert_eq!((sheet.fraction, sheet.sludge_age), (300, 9_452));
        }
    }
}

/// Enough wet weather flow for a line of one thousandth.
fn with_wet_flow(plant: Plant) -> Plant {
    Plant {
        wet_weather_flow: 1_000,
        ..plant
    }
}

fn wrong_splits() -> Vec<Split> {
    let counted = |count, shares| Split { count, shares };
    let huge = u32::MAX;
    vec![
        split(&[]),
        split(&[1_000]),
        split(&[500, 501]),
        split(&[500, 499]),
        split(&[0, 1_000]),
        split(&[1_000, 0]),
        split(&[500, 0, 500]),
        split(&[125, 125, 125, 125, 125, 125, 125, 126]),
        split(&[125, 125, 125, 125, 125, 125, 125, 124]),
        split(&[0, 0]),
        // nine lines, of which eight have an entry
        counted(9, [125; 8]),
        counted(9, [111; 8]),
        counted(huge, [125; 8]),
        counted(258, [500, 500, 0, 0, 0, 0, 0, 0]),
        counted(0, [500, 500, 0, 0, 0, 0, 0, 0]),
        counted(1, [1_000, 0, 0, 0, 0, 0, 0, 0]),
        // right with the entry after the last, or without the last
        counted(2, [500, 499, 1, 0, 0, 0, 0, 0]),
        counted(3, [500, 500, 1, 0, 0, 0, 0, 0]),
        // 1,000 in 32 bits
        split(&[huge, 1_001]),
        split(&[1 << 31, 1 << 31, 1_000]),
        split(&[huge, huge, huge, huge, huge, huge, huge, 1_007]),
    ]
}

#[test]
fn line_count_or_shares_wrong() {
    for wrong in wrong_splits() {
        let found = works(&plant_a(), &readings_a(), &wrong);
        assert_eq!(found.number, 18, "{wrong:?}");
        for number in [0, 1, 2, 8, 9] {
            let alone = line(&plant_a(), &readings_a(), &wrong, number);
            assert_eq!(alone, Answer::Refused(18));
        }
    }
}

#[test]
fn entries_past_the_count() {
    let mut generator = Generator::new(0x5eed_000a);
    for shares in [
        &[600, 400][..],
        &[250; 4],
        &[100, 100, 100, 100, 100, 100, 400],
    ] {
        let plain = split(shares);
        let expected = works(&plant_a(), &readings_a(), &plain);
        assert_eq!(expected.number, 0);
        for _ in 0..4 {
            let mut rubbish = plain;
            for entry in &mut rubbish.shares[shares.len()..] {
                *entry = generator.bits() >> generator.within(0, 31);
            }
            assert_eq!(works(&plant_a(), &readings_a(), &rubbish), expected);
            let last = line(&plant_a(), &readings_a(), &rubbish, plain.count);
            assert_eq!(last.sheet(), expected.sheets[shares.len() - 1]);
        }
    }
}

#[test]
fn numbers_of_lines() {
    let two = split(&[600, 400]);
    let found = works(&plant_a(), &readings_a(), &two);
    let at = |plant: &Plant, number| line(plant, &readings_a(), &two, number);
    assert_eq!(at(&plant_a(), 1), Answer::Sheet(found.sheets[0]));
    assert_eq!(at(&plant_a(), 2), Answer::Sheet(found.sheets[1]));
    let no_load = Plant {
        bod_load: 0,
        ..plant_a()
    };
    for number in [0, 3, 8, 9, 257, u32::MAX] {
        assert_eq!(at(&plant_a(), number), Answer::Refused(18));
        assert_eq!(at(&no_load, number), Answer::Refused(18));
    }
    assert_eq!(at(&no_load, 1), Answer::Refused(1));
}

/// Every fault together, then taken away one by one. The works' only lines would
/// get 5, and 1 for want of surface.
#[test]
fn order_of_refusals() {
    let wrong = split(&[500, 501]);
    let right = split(&[999, 1]);
    let mut plant = Plant {
        bod_load: 0,
        sludge_volume_index: 181,
        wet_weather_flow: 1_000,
        ..with_surface(1)
    };
    plant.consent.count = 5;
    let nan = Reading::Measured(f32::NAN);
    let huge = Reading::Measured(1e30);
    let mut readings = measured([200.0, 450.0, 150.0, 46.0, 8.0]);
    readings[2] = huge;
    readings[4] = nan;
    let at = |plant: &Plant, readings: &[Reading; 5], split: &Split, due: u8| {
        let found = works(plant, readings, split);
        assert_eq!(found.number, due);
        assert_eq!(found.sums.figures(), [0; 8]);
        assert_eq!(found.sheets, [Sheet::default(); 8]);
        if due != 18 {
            assert_eq!(line(plant, readings, split, 1), Answer::Refused(due));
            assert_eq!(line(plant, readings, split, 0), Answer::Refused(18));
            let past = line(plant, readings, split, split.count + 1);
            assert_eq!(past, Answer::Refused(18));
        }
    };
    at(&plant, &readings, &wrong, 18);
    at(&plant, &readings, &right, 1);
    plant.bod_load = 1_200;
    at(&plant, &readings, &right, 17);
    plant.sludge_volume_index = 100;
    at(&plant, &readings, &right, 3);
    readings[2] = Reading::Measured(150.0);
    at(&plant, &readings, &right, 2);
    readings[4] = Reading::Measured(8.0);
    at(&plant, &readings, &right, 4);
    readings[1] = Reading::Measured(400.0);
    at(&plant, &readings, &right, 14);
    plant.consent.count = 0;
    at(&plant, &readings, &right, 1);
    plant.site_surface = 1_000;
    assert_eq!(numbers(&plant, &right), (0, vec![0, 0]));
    plant.site_surface = 2;
    assert_eq!(numbers(&plant, &split(&[500, 500])), (5, vec![5, 5]));
    assert_eq!(numbers(&plant, &split(&[500, 1, 499])), (5, vec![5, 1, 5]));
    at(&plant, &readings, &split(&[500, 1, 499]), 5);
}

/// A whole figure outside its range gets 1, although each line's part would be
/// inside it.
#[test]
fn whole_figures_are_checked() {
    let even = split(&[500, 500]);
    for plant in [
        Plant {
            daily_flow: 200_001,
            ..plant_a()
        },
        Plant {
            wet_weather_flow: 50_001,
            ..plant_a()
        },
        with_surface(100_001),
        with_surface(u32::MAX),
    ] {
        assert_eq!(numbers(&plant, &even), (1, vec![1, 1]));
    }
}

/// With readings that do not look at Q a line is chosen for like any plant; the
/// works is its lines, or its first refusal.
#[test]
fn lines_are_plants_of_their_own() {
    let mut generator = Generator::new(0x5eed_000b);
    let mut seen = [0; 20];
    for _ in 0..24 {
        let plant = plant(&mut generator);
        let mut readings = readings(&mut generator);
        if let Reading::Heads(_) = readings[2] {
            readings[2] = Reading::Measured(100.0);
        }
        let split = any_split(&mut generator);
        let shares = split.named().unwrap();
        let own = reference::works::lines(&plant, shares);
        let alone: Vec<Answer> = own.iter().map(|line| choose(line, &readings)).collect();
        for (number, answer) in (1..).zip(&alone) {
            assert_eq!(line(&plant, &readings, &split, number), *answer);
        }
        let found = works(&plant, &readings, &split);
        let first = alone.iter().map(Answer::number).find(|number| *number != 0);
        assert_eq!(found.number, first.unwrap_or(0));
        seen[usize::from(found.number)] += 1;
        let sheets = match first {
            Some(_) => vec![Sheet::default(); 8],
            None => alone.iter().map(Answer::sheet).collect(),
        };
        assert_eq!(found.sheets[..sheets.len()], sheets);
        let sum = |of: fn(&Sheet) -> u64| -> u64 { found.sheets.iter().map(of).sum() };
        assert_eq!(found.sums.reactor_volume, sum(|s| s.reactor_volume));
        assert_eq!(found.sums.settling_volume, sum(|s| s.settling_volume));
        assert_eq!(found.sums.total_volume, sum(|s| s.total_volume));
        assert_eq!(
            found.sums.total_volume,
            found.sums.reactor_volume + found.sums.settling_volume
        );
        assert_eq!(found.sums.sludge_production, sum(|s| s.sludge_production));
        assert_eq!(found.sums.sludge_mass, sum(|s| s.sludge_mass));
        assert_eq!(found.sums.settling_surface, sum(|s| s.settling_surface));
        assert_eq!(found.sums.hourly_oxygen, sum(|s| s.hourly_oxygen));
        assert_eq!(found.sums.oxygen_transfer, sum(|s| s.oxygen_transfer));
    }
    assert!(seen[0] >= 5 && seen[5] >= 5, "{seen:?}");
}
