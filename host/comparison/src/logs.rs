//! Day logs: random ones, and ones that just meet or just miss each rule.

use crate::requests::odd_bits;
use cases::odd;
use cases::random::Random;

/// The bits of flow and BOD of a day.
pub type Day = (u32, u32);

/// A plain day, 5,000 m3/d and 200 mg/l.
const PLAIN: Day = (0x459c_4000, 0x4348_0000);
/// 200,000 m3/d, and the next f32, which comes to more in thousandths.
const MOST_FLOW: u32 = 0x4843_5000;
const MORE_FLOW: u32 = MOST_FLOW + 1;
/// 2,000 mg/l; the last f32 that comes to it in thousandths; the next one.
const MOST_BOD: u32 = 0x44fa_0000;
const LAST_BOD: u32 = MOST_BOD + 4;
const MORE_BOD: u32 = LAST_BOD + 1;

/// The bytes of a log with a count of its own.
pub fn counted(count: u32, days: &[Day]) -> Vec<u8> {
    let flows = days.iter().map(|day| day.0);
    let bods = days.iter().map(|day| day.1);
    let words = [count].into_iter().chain(flows).chain(bods);
    words.flat_map(u32::to_le_bytes).collect()
}

/// The bytes of a log.
pub fn log(days: &[Day]) -> Vec<u8> {
    counted(days.len() as u32, days)
}

/// Each sort of day: few values, so that equal windows are common; plausible
/// ones; any up to the limits; near a tie of the rounding.
fn day(random: &mut Random, sort: u32) -> Day {
    let mut value = |most: u32| match sort {
        0 => random.within(0, 2) as f32,
        1 => random.within(most / 40, most / 20) as f32 + random.within(0, 999) as f32 / 1000.0,
        2 => random.within(0, 1000 * most) as f32 / 1000.0,
        _ => random.within(0, most / 4) as f32 + random.pick(&odd::TIES),
    };
    (value(200_000).to_bits(), value(2_000).to_bits())
}

/// So many days of a sort.
pub fn days(random: &mut Random, count: u32, sort: u32) -> Vec<Day> {
    (0..count).map(|_| day(random, sort)).collect()
}

/// A log that is mostly accepted.
pub fn sound(random: &mut Random) -> Vec<Day> {
    let count = random.spread(14, 3_660);
    let sort = random.within(0, 3);
    let mut days = days(random, count, sort);
    if random.one_in(4) {
        // a fortnight that stands out, also at either end
        let middle = random.within(0, count - 14);
        let start = random.pick(&[0, count - 14, middle]);
        days[start as usize..][..14].fill((MOST_FLOW, LAST_BOD));
    }
    days
}

/// A random log, now and then with an odd value, another count or length.
pub fn any(random: &mut Random) -> Vec<u8> {
    let mut days = sound(random);
    if random.one_in(4) {
        let place = random.within(0, days.len() as u32 - 1) as usize;
        match random.one_in(2) {
            true => days[place].0 = odd_bits(random),
            false => days[place].1 = odd_bits(random),
        }
    }
    let mut bytes = log(&days);
    match random.within(0, 15) {
        0 => bytes.truncate(bytes.len() - random.within(1, 9) as usize),
        1 => bytes.resize(bytes.len() + random.within(1, 9) as usize, 0),
        2 => bytes[random.within(0, 3) as usize] ^= 1 << random.within(0, 7),
        _ => {}
    }
    bytes
}

/// Counts and lengths: each just met and just missed.
fn lengths() -> Vec<Vec<u8>> {
    let mut logs = Vec::new();
    for count in [0, 1, 13, 14, 15, 3_659, 3_660, 3_661, 4_000] {
        let good = log(&vec![PLAIN; count]);
        for length in [good.len() - 1, good.len(), good.len() + 1] {
            let mut bytes = good.clone();
            bytes.resize(length, 0);
            logs.push(bytes);
        }
    }
    // 4 + 8 n comes round to the length in 32 bits, or n in 16 or 8
    for count in [
        0x2000_000e,
        0xe000_000e,
        0x0001_000e,
        0x0100_000e,
        0x010e,
        u32::MAX,
    ] {
        logs.push(counted(count, &[PLAIN; 14]));
    }
    for length in 0..=120 {
        let mut bytes = log(&[PLAIN; 14]);
        bytes.resize(length, 0);
        logs.push(bytes);
    }
    logs
}

/// Each odd value, and those at the limits, as flow and as BOD of the first,
/// a middle and the last day.
fn values() -> Vec<Vec<u8>> {
    let limits = [
        MOST_FLOW - 1,
        MOST_FLOW,
        MORE_FLOW,
        MOST_BOD,
        LAST_BOD,
        MORE_BOD,
    ];
    let ties = odd::TIES.map(f32::to_bits);
    let odd = [
        &odd::NO_NUMBERS[..],
        &odd::ZEROS,
        &odd::HUGE,
        &ties,
        &limits,
    ]
    .concat();
    let mut logs = Vec::new();
    for bits in odd {
        for place in [0, 20, 39] {
            let mut days = [PLAIN; 40];
            days[place].0 = bits;
            logs.push(log(&days));
            days[place] = (PLAIN.0, bits);
            logs.push(log(&days));
            // a wrong length comes first
            logs.push(log(&days)[..323].to_vec());
        }
    }
    logs
}

/// Windows: equal ones, all zero, the largest sum, and a single higher day or
/// two of them at every place.
fn windows() -> Vec<Vec<u8>> {
    let most = (MOST_FLOW, MOST_BOD);
    let mut logs = vec![log(&vec![most; 3_660]), log(&vec![(0, 0); 3_660])];
    for base in [(0, 0), PLAIN] {
        for place in 0..40 {
            let mut days = [base; 40];
            days[place] = most;
            logs.push(log(&days));
            days[(place + 14) % 40] = most;
            logs.push(log(&days));
        }
    }
    for count in [14, 15, 27, 28, 29, 3_660] {
        let step = |place: u32| ((place as f32).to_bits(), PLAIN.1);
        let mut days: Vec<Day> = (0..count).map(step).collect();
        logs.push(log(&days));
        days.reverse();
        logs.push(log(&days));
    }
    logs
}

/// Logs that just meet or just miss each rule.
pub fn made_to_measure() -> Vec<Vec<u8>> {
    [lengths(), values(), windows()].concat()
}
