//! Works in lines: random splits, and works that just meet or just miss a rule
//! of the split.

use crate::compare::Operation;
use crate::requests;
use cases::lines::accepted;
use cases::plants::{case_a, roomy};
use cases::random::Random;
use cases::request::*;
use library::{MOST_LINES, PAGE_LENGTH, WORKS_PAGE};
use reference::works::parts;
use reference::Split;

/// A works: the data of the whole, and its split.
pub type Divided = (Request, Split);

/// The figures of a works that are split among its lines.
pub const SPLIT_FIGURES: [usize; 3] = [FLOW, WET_WEATHER_FLOW, SITE_SURFACE];

/// These entries with a count of their own; the entries past them are zeros.
fn counted(count: u32, entries: &[u32]) -> Split {
    let mut shares = [0; MOST_LINES];
    shares[..entries.len()].copy_from_slice(entries);
    Split { count, shares }
}

/// A split of these shares.
pub fn split(shares: &[u32]) -> Split {
    counted(shares.len() as u32, shares)
}

/// So many shares, as equal as they can be.
pub fn equal(count: u32) -> Split {
    let shares: Vec<u32> = (0..count).map(|place| (1_000 + place) / count).collect();
    split(&shares)
}

/// So many lines, of which all but one have a single thousandth.
fn single(count: u32, large: u32) -> Split {
    let mut split = split(&vec![1; count as usize]);
    split.shares[large as usize] = 1_001 - count;
    split
}

/// So many shares of any size.
fn cut(random: &mut Random, count: u32) -> Split {
    let mut shares = Vec::new();
    let mut left = 1_000;
    for after in (1..count).rev() {
        let most = (2 * left / (after + 1)).min(left - after);
        let share = random.within(1, most);
        shares.push(share);
        left -= share;
    }
    shares.push(left);
    split(&shares)
}

/// What may stand in an entry past the count.
fn rubbish(random: &mut Random) -> u32 {
    let bits = random.bits() as u32;
    random.pick(&[
        0,
        1,
        500,
        999,
        1_000,
        1_001,
        1 << 16,
        1 << 31,
        u32::MAX,
        bits,
    ])
}

/// A split that is right. Few lines are more common, since the reference takes
/// its time for each.
pub fn sound(random: &mut Random) -> Split {
    let count = random.pick(&[2, 2, 2, 2, 3, 3, 4, 5, 6, 7, 8]);
    let mut split = match random.within(0, 7) {
        0 | 1 => equal(count),
        2 => single(count, random.within(0, count - 1)),
        _ => cut(random, count),
    };
    if random.one_in(2) {
        for entry in &mut split.shares[count as usize..] {
            *entry = rubbish(random);
        }
    }
    split
}

/// Counts that are wrong beside the right one, or that one in fewer bits.
fn wrong_counts(right: u32) -> [u32; 10] {
    [
        0,
        1,
        right - 1,
        right + 1,
        9,
        16,
        right + (1 << 8),
        right + (1 << 16),
        right + (1 << 31),
        u32::MAX,
    ]
}

/// What makes a share wrong when it is added in 32 bits: one more, one less,
/// and the same in fewer bits.
const WRONG_MORE: [u32; 5] = [1, u32::MAX, 1 << 8, 1 << 16, 1 << 31];

/// The same entries with another count.
fn with_count(mut split: Split, count: u32) -> Split {
    split.count = count;
    split
}

/// A share changed by so much.
fn with_more(mut split: Split, place: usize, more: u32) -> Split {
    split.shares[place] = split.shares[place].wrapping_add(more);
    split
}

/// A share of 0, which another line gets.
fn with_nothing(mut split: Split, place: usize, other: usize) -> Split {
    split.shares[other] += split.shares[place];
    split.shares[place] = 0;
    split
}

/// Two shares that come round to the same sum in 32 bits.
fn with_round(split: Split, place: usize, other: usize) -> Split {
    with_more(with_more(split, place, 1 << 31), other, 1 << 31)
}

/// A right split made wrong.
fn wrong(random: &mut Random, split: Split) -> Split {
    let last = split.count - 1;
    let place = random.within(0, last) as usize;
    let other = (place + 1) % split.count as usize;
    match random.within(0, 3) {
        0 => with_count(split, random.pick(&wrong_counts(split.count))),
        1 => with_nothing(split, place, other),
        2 => with_round(split, place, other),
        _ => with_more(split, place, random.pick(&WRONG_MORE)),
    }
}

/// A random split, now and then wrong.
pub fn any(random: &mut Random) -> Split {
    let split = sound(random);
    match random.one_in(8) {
        true => wrong(random, split),
        false => split,
    }
}

/// The number of a line, now and then of none.
pub fn line_number(random: &mut Random, split: &Split) -> u32 {
    match random.within(0, 15) {
        0 => 0,
        1 => split.count.wrapping_add(1),
        2 => random.pick(&[8, 9, (1 << 8) + 1, (1 << 16) + 1, (1 << 31) + 1, u32::MAX]),
        _ => random.within(1, split.count.clamp(1, MOST_LINES as u32)),
    }
}

/// The bytes of a request for the works, or for one of its lines.
pub fn bytes(random: &mut Random, operation: Operation, (plant, split): &Divided) -> Vec<u8> {
    match operation {
        Operation::Line => plant.line_bytes(split, line_number(random, split)),
        _ => plant.works_bytes(split),
    }
}

/// One of the split figures, or each, so small that a line gets 1 or nothing.
fn with_small_parts(random: &mut Random, plant: Request, split: &Split) -> Request {
    let few = 2 * split.count.clamp(1, MOST_LINES as u32);
    let wanted = random.within(0, 3) as usize;
    let mut changed = plant;
    for (place, word) in SPLIT_FIGURES.into_iter().enumerate() {
        if wanted == place || wanted == SPLIT_FIGURES.len() {
            let value = match random.one_in(2) {
                true => random.within(1, few),
                false => random.within(990, 1_010),
            };
            changed = changed.with(word, value);
        }
    }
    changed
}

/// A line as a plant of its own, with its parts of the split figures and the
/// concentrations of the whole works, if the whole data are accepted.
pub fn line_plant((plant, split): &Divided, number: u32) -> Option<Request> {
    let concentrations = accepted(plant)?;
    let shares = &split.shares[..split.count as usize];
    let mut line = *plant;
    for word in SPLIT_FIGURES {
        let parts = parts(plant.get(word), shares);
        line = line.with(word, parts[number as usize - 1]);
    }
    for (place, thousandths) in READINGS.into_iter().zip(concentrations) {
        line = line.with_measured(place, thousandths);
    }
    Some(line)
}

/// The site's surface set so that a line gets just what its tank takes, or one
/// less.
fn on_line_surface(random: &mut Random, plant: Request, split: &Split) -> Option<Request> {
    let roomy = plant.with(SITE_SURFACE, 100_000);
    let number = random.within(1, split.count);
    let mut page = [0; PAGE_LENGTH];
    let (_, written) = library::line(&roomy.line_bytes(split, number), &mut page);
    let surface = requests::figure(&page[..written as usize], "surface ")?;
    let wanted = surface.checked_sub(random.within(0, 1))?;
    let shares = &split.shares[..split.count as usize];
    let share = shares[number as usize - 1];
    let (about, span) = (1_000 * wanted / share, 2_000 / share);
    let fits = |whole: &u32| parts(*whole, shares)[number as usize - 1] == wanted;
    let whole = (about.saturating_sub(span).max(1)..=about + span).find(fits)?;
    (whole <= 100_000).then(|| plant.with(SITE_SURFACE, whole))
}

/// A plant moved, in some of the works, on to a line of the split.
fn on_split_line(random: &mut Random, plant: Request, split: &Split) -> Request {
    match random.within(0, 7) {
        0 => with_small_parts(random, plant, split),
        1..=3 => on_line_surface(random, plant, split).unwrap_or(plant),
        _ => plant,
    }
}

/// A works that mostly gets a design.
pub fn with_design(random: &mut Random) -> Divided {
    let plant = requests::with_design(random);
    let split = sound(random);
    (on_split_line(random, plant, &split), split)
}

/// A works of a plant with a split that is now and then wrong.
pub fn divided(random: &mut Random, plant: Request) -> Divided {
    let split = any(random);
    match random.one_in(8) {
        true => (with_small_parts(random, plant, &split), split),
        false => (plant, split),
    }
}

/// Mostly a page that is just long enough.
pub fn page_length(random: &mut Random) -> usize {
    match random.within(0, 15) {
        0 => random.pick(&[0, 1, 8, 16, 512, WORKS_PAGE - 8]),
        1 => WORKS_PAGE - 1,
        2 => WORKS_PAGE + 1,
        3 => WORKS_PAGE + random.within(2, 200) as usize,
        _ => WORKS_PAGE,
    }
}

/// Case A with so much nitrogen that few fractions cover it: the reference is
/// quicker.
pub fn late() -> Request {
    case_a().with_measured(NITROGEN, 49_600)
}

/// Splits of which the count, a share or the sum is just wrong.
pub fn wrong_splits() -> Vec<Split> {
    let mut splits = vec![
        counted(2, &[500, 499, 1]),
        counted(3, &[500, 500]),
        counted(3, &[500, 500, 1]),
        counted(1, &[1_000]),
        counted(9, &[111; 8]),
        counted(2, &[]),
        split(&[u32::MAX, 1_001]),
        split(&[u32::MAX, u32::MAX, 1_002]),
        split(&[1 << 29; 8]),
        with_more(split(&[1 << 29; 8]), 7, 1_000),
    ];
    for count in 2..=MOST_LINES as u32 {
        let right = equal(count);
        splits.extend(wrong_counts(count).map(|count| with_count(right, count)));
        for place in 0..count as usize {
            let other = (place + 1) % count as usize;
            splits.extend(WRONG_MORE.map(|more| with_more(right, place, more)));
            splits.push(with_nothing(right, place, other));
            splits.push(with_round(right, place, other));
        }
    }
    splits
}

/// Wrong splits of plants of which some would be refused for their data.
fn wrongly_split() -> Vec<Divided> {
    let plants = [
        case_a(),
        case_a().with(LOAD, 0),
        case_a().with_reading(BOD, MEASURED, f32::NAN.to_bits()),
    ];
    let of = |plant: Request| wrong_splits().into_iter().map(move |split| (plant, split));
    plants.into_iter().flat_map(of).collect()
}

/// Right splits with something in every entry past the count.
fn past_the_count() -> Vec<Divided> {
    let mut works = Vec::new();
    for count in 2..MOST_LINES as u32 {
        for entry in [1, 1_000, 1 << 31, u32::MAX] {
            let mut split = equal(count);
            split.shares[count as usize..].fill(entry);
            works.push((late(), split));
        }
    }
    works
}

/// Each of the split figures from 1 on, and about as many as there are
/// thousandths.
fn small_parts() -> Vec<Divided> {
    let small = late().with(FLOW, 80).with(WET_WEATHER_FLOW, 10);
    let large = late().with(FLOW, 10_000).with(WET_WEATHER_FLOW, 1_000);
    let splits = [
        equal(2),
        equal(3),
        equal(8),
        split(&[1, 999]),
        split(&[999, 1]),
        split(&[500, 1, 499]),
    ];
    let mut works = Vec::new();
    for plant in [small, large] {
        for word in SPLIT_FIGURES {
            for whole in (1..=9).chain([998, 999, 1_000]) {
                works.extend(splits.map(|split| (plant.with(word, whole), split)));
            }
        }
    }
    works
}

/// A line without a design before or after one that gets nothing of a figure,
/// in both ways: 375 m2 are 187 and 188 in halves, and half of Qw takes 188.
fn first_refusals() -> Vec<Divided> {
    let splits = [
        split(&[500, 500]),
        split(&[500, 1, 499]),
        split(&[1, 500, 499]),
        split(&[499, 500, 1]),
        split(&[499, 1, 500]),
        split(&[480, 520]),
        split(&[500, 499, 1]),
        split(&[1, 1, 499, 499]),
    ];
    let mut works = Vec::new();
    for process in 0..=4 {
        for way in [BY_BOD, BY_COD] {
            let plant = case_a()
                .with(SITE_SURFACE, 375)
                .with(PROCESS, process)
                .with(NITRATE_TARGET, 24_000)
                .with(WAY, way);
            works.extend(splits.map(|split| (plant, split)));
            // no line has a design: the nitrate is not covered
            let nowhere = plant.with(NITRATE_TARGET, 1_000);
            let nowhere = nowhere.with_measured(NITROGEN, 200_000);
            works.extend(splits.map(|split| (nowhere, split)));
        }
    }
    works
}

/// Every set of faults of the data, in both ways, with a split that is wrong and
/// with ones whose first or last line alone is refused.
fn orders() -> Vec<Divided> {
    let faults: [fn(Request) -> Request; 7] = [
        |plant| plant.with(LOAD, 0),
        |plant| plant.with(SLUDGE_VOLUME_INDEX, 181),
        |plant| plant.with_reading(BOD, MEASURED, f32::NAN.to_bits()),
        |plant| plant.with_measured(SOLIDS, 2_000_001),
        |plant| plant.with_measured(COD, 450_000),
        |plant| plant.with(TERM_COUNT, 5),
        |plant| plant.with(SITE_DEPTH, 3_000),
    ];
    let splits = [split(&[500, 501]), split(&[1, 999]), split(&[999, 1])];
    let mut works = Vec::new();
    for set in 0..1 << faults.len() {
        let chosen = (0..faults.len()).filter(|place| set >> place & 1 == 1);
        let faulty = chosen.fold(late(), |plant, place| faults[place](plant));
        for way in [BY_BOD, BY_COD] {
            works.extend(splits.map(|split| (faulty.with(WAY, way), split)));
        }
    }
    works
}

/// Head counts, which are turned into concentrations on the whole flow, and
/// loads about those at which the safety factor changes.
fn whole_figures() -> Vec<Divided> {
    let splits = [split(&[500, 500]), split(&[1, 999]), split(&[5, 195, 800])];
    let mut works = Vec::new();
    for settling in 0..=2 {
        for way in [BY_BOD, BY_COD] {
            let plant = roomy()
                .with(WET_WEATHER_FLOW, 1_001)
                .with(NITRATE_TARGET, 12_000)
                .with(PRIMARY_SETTLING, settling)
                .with(WAY, way);
            let heads = READINGS.into_iter().fold(plant, |changed, place| {
                changed.with_reading(place, HEADS, 15_001)
            });
            works.extend(splits.map(|split| (heads, split)));
        }
    }
    for load in [1_200, 1_201, 2_400, 3_600, 5_999, 6_000, 12_000] {
        let plant = late().with(WET_WEATHER_FLOW, 1_000).with(LOAD, load);
        works.extend(splits.map(|split| (plant, split)));
    }
    works
}

/// Works that just meet or just miss each rule.
pub fn made_to_measure() -> Vec<Divided> {
    [
        wrongly_split(),
        past_the_count(),
        small_parts(),
        first_refusals(),
        orders(),
        whole_figures(),
    ]
    .concat()
}

/// Every length up to some bytes more than the longest, of this version and of
/// its neighbours, in each way and an unknown one.
pub fn lengths() -> Vec<Vec<u8>> {
    let mut requests = Vec::new();
    for version in [EARLIER_VERSION, NEWEST_VERSION, LATER_VERSION] {
        for way in [BY_BOD, BY_COD, 2] {
            let plant = late().with(VERSION, version).with(WAY, way);
            for length in 0..=LINE_LENGTH + 8 {
                let mut bytes = plant.line_bytes(&split(&[600, 400]), 2);
                bytes.resize(length, 0);
                requests.push(bytes);
            }
        }
    }
    requests
}
