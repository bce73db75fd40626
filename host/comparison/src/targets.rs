//! Requests for the target in force on a date: random ones, and ones that just
//! meet or just miss each rule.

use cases::lines::random_term;
use cases::plants::case_a;
use cases::random::Random;
use cases::request::*;

/// A month and a day.
pub type Date = (u32, u32);

/// Words of a date, a temperature or a target that are not valid, or would be
/// taken for another number in fewer bits.
const ODD: [u32; 9] = [0, 3, 13, 21, 32, 999, 50_001, (1 << 16) + 1, u32::MAX];

/// The bytes of a request: so many terms, four entries, a date.
pub fn request(count: u32, entries: &[TermWords; MOST_TERMS], date: Date) -> Vec<u8> {
    let ends = [NEWEST_VERSION, count];
    let words = [&ends, entries.as_flattened(), &[date.0, date.1]].concat();
    words.into_iter().flat_map(u32::to_le_bytes).collect()
}

/// Every day of the year.
fn days() -> impl Iterator<Item = Date> {
    (1..)
        .zip(DAYS)
        .flat_map(|(month, days)| (1..=days).map(move |day| (month, day)))
}

/// Random entries; now and then one starts or ends on another's days.
fn entries(random: &mut Random) -> [TermWords; MOST_TERMS] {
    let mut all = [(); MOST_TERMS].map(|()| random_term(random, &case_a()));
    if random.one_in(2) {
        let (from, to) = (random.within(0, 3) as usize, random.within(0, 3) as usize);
        let day = random.pick(&[FIRST_MONTH, LAST_MONTH]);
        let other = random.pick(&[FIRST_MONTH, LAST_MONTH]);
        let date = [all[from][day], all[from][day + 1]];
        all[to][other..other + 2].copy_from_slice(&date);
    }
    all
}

/// A date: the first or last day of an entry, the day before or after it, or
/// any other.
fn date(random: &mut Random, entries: &[TermWords; MOST_TERMS]) -> Date {
    let all: Vec<Date> = days().collect();
    let term = random.pick(entries);
    let end = random.pick(&[FIRST_MONTH, LAST_MONTH]);
    let end = (term[end], term[end + 1]);
    let place = all.iter().position(|day| *day == end).unwrap_or(0);
    match random.within(0, 3) {
        0 => end,
        1 => all[(place + 1) % all.len()],
        2 => all[(place + all.len() - 1) % all.len()],
        _ => random.pick(&all),
    }
}

/// A random request, now and then with an odd word, another version or length.
pub fn any(random: &mut Random) -> Vec<u8> {
    let entries = entries(random);
    let count = random.within(0, MOST_TERMS as u32);
    let mut bytes = request(count, &entries, date(random, &entries));
    if random.one_in(4) {
        let odd = random.pick(&ODD);
        let word = 4 * random.within(1, ASKED_DAY as u32) as usize;
        bytes[word..word + 4].copy_from_slice(&odd.to_le_bytes());
    }
    match random.within(0, 31) {
        0 => bytes.truncate(bytes.len() - random.within(1, 9) as usize),
        1 => bytes.resize(bytes.len() + random.within(1, 9) as usize, 0),
        2 => bytes[random.within(0, 3) as usize] ^= 1 << random.within(0, 7),
        3 => bytes.truncate(random.within(0, 8) as usize),
        _ => {}
    }
    bytes
}

/// Terms of which each runs over some of these days alone; the last two run
/// over the new year, one of them but for a day.
const SEASONS: [TermWords; MOST_TERMS] = [
    [2, 29, 2, 29, 20, 50_000],
    [3, 1, 6, 30, 4, 20_000],
    [11, 1, 3, 31, 8, 9_000],
    [7, 2, 6, 30, 12, 1_000],
];

/// Every day of the year by each number of terms, in both orders.
fn year() -> Vec<Vec<u8>> {
    let mut reversed = SEASONS;
    reversed.reverse();
    let mut requests = Vec::new();
    for count in 0..=MOST_TERMS as u32 {
        for date in days() {
            requests.push(request(count, &SEASONS, date));
            requests.push(request(count, &reversed, date));
        }
    }
    requests
}

/// Each date that is or is not a day: asked for, and first and last of a term.
fn dates() -> Vec<Vec<u8>> {
    let mut requests = Vec::new();
    for month in (0..=14).chain([258, u32::MAX]) {
        for day in [0, 1, 28, 29, 30, 31, 32, 257, u32::MAX] {
            requests.push(request(4, &SEASONS, (month, day)));
            requests.push(request(0, &SEASONS, (month, day)));
            for end in [FIRST_MONTH, LAST_MONTH] {
                let mut entries = SEASONS;
                entries[0][end..end + 2].copy_from_slice(&[month, day]);
                requests.push(request(1, &entries, (7, 1)));
                requests.push(request(0, &entries, (7, 1)));
            }
        }
    }
    requests
}

/// Each figure at its edges and past them, in each entry of each count, and
/// numbers of terms past four.
fn figures() -> Vec<Vec<u8>> {
    let mut requests = Vec::new();
    for (word, least, most) in TERM_RANGES {
        for place in 0..MOST_TERMS {
            for count in 0..=MOST_TERMS as u32 {
                for value in [0, least - 1, least, most, most + 1, u32::MAX] {
                    let mut entries = SEASONS;
                    entries[place][word] = value;
                    requests.push(request(count, &entries, (1, 1)));
                }
            }
        }
    }
    for count in [4, 5, 6, 256, 257, 1 << 16, 1 << 31, u32::MAX] {
        requests.push(request(count, &SEASONS, (1, 1)));
    }
    requests
}

/// Every length up to a few bytes more, of this version and of its neighbours.
fn lengths() -> Vec<Vec<u8>> {
    let mut requests = Vec::new();
    for version in [EARLIER_VERSION, NEWEST_VERSION, LATER_VERSION, 0] {
        for length in 0..=TARGET_LENGTH + 8 {
            let mut bytes = request(4, &SEASONS, (1, 1));
            bytes[..4].copy_from_slice(&version.to_le_bytes());
            bytes.resize(length, 0);
            requests.push(bytes);
        }
    }
    requests
}

/// Requests that just meet or just miss each rule.
pub fn made_to_measure() -> Vec<Vec<u8>> {
    [year(), dates(), figures(), lengths()].concat()
}
