//! The highest two-week load of a day log.

use reference::{two_week_load, TwoWeekLoad};

/// The bytes of a log with a count of its own.
fn counted(count: u32, days: &[(f32, f32)]) -> Vec<u8> {
    let flows = days.iter().map(|day| day.0.to_bits());
    let bods = days.iter().map(|day| day.1.to_bits());
    let words = [count].into_iter().chain(flows).chain(bods);
    words.flat_map(u32::to_le_bytes).collect()
}

fn log(days: &[(f32, f32)]) -> Vec<u8> {
    counted(days.len() as u32, days)
}

/// Sum and day, or the refusal.
fn answer(days: &[(f32, f32)]) -> Result<(u64, u64), u8> {
    two_week_load(&log(days)).map(|TwoWeekLoad { sum, day }| (sum, day))
}

/// Twenty days of 5,000 m3/d and 200 mg/l, one value of which is given.
fn with(day: usize, value: f32, bod: bool) -> Result<(u64, u64), u8> {
    let mut days = [(5_000.0, 200.0); 20];
    match bod {
        true => days[day - 1].1 = value,
        false => days[day - 1].0 = value,
    }
    answer(&days)
}

/// Day by day a load of its number in millionths.
fn loads(loads: &[u16]) -> Vec<(f32, f32)> {
    loads.iter().map(|load| (f32::from(*load), 0.001)).collect()
}

#[test]
fn from_14_to_3660_days() {
    let day = (2.0, 3.0);
    assert_eq!(answer(&[day; 14]), Ok((14 * 6_000_000, 1)));
    assert_eq!(answer(&vec![day; 3_660]), Ok((14 * 6_000_000, 1)));
    assert_eq!(answer(&[day; 13]), Err(12));
    assert_eq!(answer(&vec![day; 3_661]), Err(12));
    assert_eq!(answer(&[]), Err(12));
}

#[test]
fn lengths_that_do_not_match() {
    let good = log(&[(2.0, 3.0); 14]);
    assert_eq!(good.len(), 116);
    for length in 0..116 {
        assert_eq!(two_week_load(&good[..length]), Err(12), "{length}");
    }
    for more in 1..20 {
        let long = [&good[..], &vec![0; more]].concat();
        assert_eq!(two_week_load(&long), Err(12), "{more}");
    }
    assert_eq!(two_week_load(&counted(15, &[(2.0, 3.0); 14])), Err(12));
}

/// Counts whose 4 + 8 n comes round to the length in 32 bits.
#[test]
fn counts_that_would_wrap() {
    for turn in 1..8u32 {
        let count = 14 + turn * 0x2000_0000;
        assert_eq!(count.wrapping_mul(8), 112);
        assert_eq!(two_week_load(&counted(count, &[(2.0, 3.0); 14])), Err(12));
    }
    assert_eq!(two_week_load(&u32::MAX.to_le_bytes()), Err(12));
    assert_eq!(two_week_load(&0x2000_0000u32.to_le_bytes()), Err(12));
}

#[test]
fn no_numbers() {
    let patterns = [
        0x7fc0_0000,
        0x7f80_0001,
        0x7fff_ffff,
        0xffc0_0000,
        0xff80_0001,
        0xffff_ffff,
        0x7f80_0000,
        0xff80_0000,
        0x8000_0001,
        0x8080_0000,
        0xc348_0000,
    ];
    for bits in patterns {
        for day in 1..=20 {
            let value = f32::from_bits(bits);
            assert_eq!(with(day, value, false), Err(13), "{bits:x}, day {day}");
            assert_eq!(with(day, value, true), Err(13), "{bits:x}, day {day}");
        }
    }
}

/// A wrong length comes before a wrong value.
#[test]
fn twelve_before_thirteen() {
    let mut days = [(f32::NAN, -1.0); 14];
    assert_eq!(answer(&days), Err(13));
    assert_eq!(two_week_load(&log(&days)[..115]), Err(12));
    assert_eq!(answer(&days[..13]), Err(12));
    days[0] = (1.0, 1.0);
    assert_eq!(answer(&days), Err(13));
}

#[test]
fn minus_zero_is_zero() {
    let zero = with(3, 0.0, false);
    assert_eq!(zero, Ok((14_000_000_000_000, 4)));
    assert_eq!(with(3, -0.0, false), zero);
    assert_eq!(with(3, -0.0, true), zero);
    assert_eq!(answer(&[(-0.0, -0.0); 14]), Ok((0, 1)));
}

/// The limits hold after rounding, in thousandths.
#[test]
fn limits_met_and_passed() {
    let window = 13 * 1_000_000_000_000u64;
    let flow = |value: f32| with(7, value, false);
    assert_eq!(flow(200_000.0), Ok((window + 40_000_000_000_000, 1)));
    assert_eq!(flow(200_000.0f32.next_up()), Err(13));
    assert_eq!(flow(f32::MAX), Err(13));
    let bod = |value: f32| with(7, value, true);
    let at_limit = Ok((window + 10_000_000_000_000, 1));
    let last = 2_000.0f32.next_up().next_up().next_up().next_up();
    assert_eq!(f64::from(last), 2_000.00048828125);
    assert_eq!(bod(2_000.0), at_limit);
    assert_eq!(bod(last), at_limit);
    assert_eq!(bod(last.next_up()), Err(13));
    assert_eq!(bod(f32::MAX), Err(13));
}

/// To the nearest thousandth, ties to even, before the product.
#[test]
fn values_are_rounded_first() {
    let one = |flow: f32, bod: f32| {
        let mut days = [(0.0, 0.0); 14];
        days[13] = (flow, bod);
        answer(&days).unwrap().0
    };
    assert_eq!(one(0.0625, 1.0), 62 * 1_000);
    assert_eq!(one(0.1875, 0.3125), 188 * 312);
    assert_eq!(one(0.0004, 2_000.0), 0);
    assert_eq!(one(1_926.705, 1.0), 1_926_705 * 1_000);
}

#[test]
fn the_largest_sum() {
    let days = vec![(200_000.0, 2_000.0); 3_660];
    assert_eq!(answer(&days), Ok((5_600_000_000_000_000, 1)));
}

#[test]
fn the_first_of_equal_windows() {
    let mut fall = vec![1; 40];
    fall[5] = 7;
    // the windows from day 1 to day 6 hold day 6
    assert_eq!(answer(&loads(&fall)), Ok(((13 + 7) * 1_000, 1)));
    fall[5] = 1;
    fall[30] = 7;
    assert_eq!(answer(&loads(&fall)), Ok(((13 + 7) * 1_000, 18)));
    fall[31] = 7;
    assert_eq!(answer(&loads(&fall)), Ok(((12 + 14) * 1_000, 19)));
}

#[test]
fn all_zero() {
    assert_eq!(answer(&[(0.0, 0.0); 14]), Ok((0, 1)));
    assert_eq!(answer(&vec![(0.0, 2_000.0); 3_660]), Ok((0, 1)));
}

/// The last window counts, and the day goes up to 3,647.
#[test]
fn rising_loads() {
    let rising: Vec<u16> = (1..=3_660).collect();
    let sum: u64 = (3_647..=3_660).sum();
    assert_eq!(answer(&loads(&rising)), Ok((sum * 1_000, 3_647)));
    let falling: Vec<u16> = (1..=3_660).rev().collect();
    assert_eq!(answer(&loads(&falling)), Ok((sum * 1_000, 1)));
}
