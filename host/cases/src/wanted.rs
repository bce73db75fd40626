//! The kinds that must be there, how many of each, and which answers each
//! may have.

use crate::collection::Case;
use crate::model::Outcome;
use std::collections::BTreeMap;

/// Kind, least count, allowed numbers (none listed: any).
type Wanted = (&'static str, usize, &'static [u32]);

const PASSED: &[u32] = &[0, 7, 8, 9, 10];

const WANTED: [Wanted; 83] = [
    ("worked case", 13, &[0, 4, 7, 8, 10]),
    ("plant edge", 26, &[0]),
    ("site depth edge", 2, &[0, 10]),
    ("plant past edge", 30, &[1]),
    ("plant past edge, choose", 8, &[1]),
    ("grid edge", 7, &[0, 8]),
    ("off grid", 13, &[6]),
    ("wrong version", 9, &[102]),
    ("unknown kind", 18, &[103]),
    ("reading edge", 26, PASSED),
    ("reading past edge", 20, &[3]),
    ("head count edge", 8, PASSED),
    ("head count past edge", 11, &[3]),
    ("one inhabitant", 1, PASSED),
    ("last f32 inside", 12, PASSED),
    ("first f32 outside", 12, &[3]),
    ("no number", 15, &[2]),
    ("zero or tiny", 16, &[0]),
    ("minus zero out of range", 2, &[3]),
    ("huge", 9, &[3]),
    ("tie", 20, &[0]),
    ("0x44f0d693", 4, PASSED),
    ("float product", 6, &[0]),
    ("rounded after halving", 6, &[0]),
    ("COD ratio met", 5, PASSED),
    ("COD ratio broken", 5, &[4]),
    ("two refusals", 17, &[1, 2, 3, 4, 6, 7, 9]),
    ("growth at each degree", 3, &[0]),
    ("decay at each degree", 4, &[0]),
    ("cover met, pre-anoxic", 3, &[0]),
    ("cover missed, pre-anoxic", 6, &[7]),
    ("cover met, simultaneous", 3, &[0]),
    ("cover missed, simultaneous", 6, &[7]),
    ("cover met, intermittent", 3, &[0]),
    ("cover missed, intermittent", 6, &[7]),
    ("cover met, step-feed two", 3, &[0]),
    ("cover missed, step-feed two", 6, &[7]),
    ("cover met, step-feed three", 3, &[0]),
    ("cover missed, step-feed three", 6, &[7]),
    ("cover met, choose", 15, &[0]),
    ("cover by rounding, met", 9, &[0]),
    ("cover by rounding, missed", 9, &[7]),
    ("solids at 1,000", 4, &[0]),
    ("solids below 1,000", 4, &[8]),
    ("volume at 600", 4, &[0]),
    ("volume above 600", 4, &[8]),
    ("overflow rate held", 4, &[0]),
    ("overflow rate below its limit", 4, &[0]),
    ("zones just below 3,000", 4, &[0]),
    ("zones of 3,000", 2, &[0]),
    ("zones just above 3,000", 4, &[0]),
    ("3,000 on a site of 3,000", 3, &[0]),
    ("above 3,000 on a site of 3,000", 2, &[10]),
    ("surface at the site's", 4, &[0]),
    ("surface above the site's", 4, &[9]),
    ("depth at the site's", 4, &[0]),
    ("depth above the site's", 3, &[10]),
    ("tie across f", 3, &[0]),
    ("tie across r", 3, &[0]),
    ("tie across h", 3, &[0]),
    ("tie: larger f with smaller r", 3, &[0]),
    ("tie: larger f with smaller h", 3, &[0]),
    ("tie: larger r with smaller h", 3, &[0]),
    ("best f not the least", 3, &[0]),
    ("best f not the least, 200", 3, &[0]),
    ("no design: nitrate", 3, &[5]),
    ("no design: surface", 3, &[5]),
    ("no design: depth", 3, &[5]),
    ("no design: solids and site", 3, &[5]),
    ("site just holds the choice", 4, &[0]),
    ("site one below the choice", 8, &[0, 5]),
    ("dose past its range", 6, &[1]),
    ("dose just covers", 5, &[0]),
    ("dose just covers, choose", 5, &[0]),
    ("dose just misses", 10, &[7]),
    ("dose of 5", 3, &[0]),
    ("dose of 4", 3, &[7]),
    ("dose and saved oxygen", 10, &[0]),
    ("design by a dose alone", 5, &[0]),
    ("no design: dose", 5, &[5]),
    ("dose lowers the fraction", 3, &[0]),
    ("combination", 180, PASSED),
    ("combination, choose", 24, &[0, 5]),
];

const WANTED_TERMS: [Wanted; 41] = [
    ("term edge", 8, &[0]),
    ("term past edge", 42, &[14]),
    ("four terms", 2, &[0]),
    ("too many terms", 7, &[14]),
    ("invalid term of four", 4, &[14]),
    ("entries past the count", 7, &[0]),
    ("one entry more", 6, &[14, 15]),
    ("1 to 4 before 14", 12, &[1, 2, 3, 4]),
    ("14 before 5 to 7", 6, &[14]),
    ("6 before 15", 2, &[6]),
    ("6 before 16", 2, &[6]),
    ("7 before 15", 1, &[7]),
    ("7 before 16", 1, &[7]),
    ("15 before 16", 4, &[15]),
    ("15 before 8 to 10", 3, &[15]),
    ("16 before 8 to 10", 3, &[16]),
    ("8 to 10 after the terms", 3, &[8, 9, 10]),
    ("15 of some term", 2, &[15]),
    ("16 of some term", 2, &[16]),
    ("term just covered", 35, &[0]),
    ("term just missed", 35, &[16]),
    ("term's fraction 200, covered", 5, &[0]),
    ("term's fraction 200, missed", 5, &[16]),
    ("term's fraction 199, covered", 5, &[0]),
    ("term's fraction 199, missed", 10, &[16]),
    ("difference of 0", 10, &[0]),
    ("difference of 0, missed", 10, &[16]),
    ("difference below 0", 10, &[15]),
    ("a just above t", 9, &[15]),
    ("growth in a term, covered", 10, &[0]),
    ("decay in a term, missed", 7, &[16]),
    ("dose covers a term", 10, &[0]),
    ("dose misses a term", 10, &[16]),
    ("term as the design", 7, &[0]),
    ("term leaves the choice", 5, &[0]),
    ("term moves the choice", 13, &[0]),
    ("last fractions cover a term", 5, &[0]),
    ("no design: term", 5, &[5]),
    ("last fractions nitrify", 5, &[0]),
    ("no design: nitrification", 5, &[5]),
    ("random terms", 12, &[]),
];

const WANTED_BULKING: [Wanted; 4] = [
    ("index of 180", 10, PASSED),
    ("bulking sludge", 20, &[17]),
    ("1 before 17", 20, &[1]),
    ("17 before every other", 18, &[17]),
];

const WANTED_PAUSES: [Wanted; 4] = [
    ("pauses, one rounding", 8, &[0]),
    ("pauses, ends", 3, &[0]),
    ("no pauses, ends", 8, &[0]),
    ("pauses, choose", 5, &[0]),
];

const WANTED_FINER: [Wanted; 3] = [
    ("kept by the fourth digit", 5, &[0]),
    ("broken by the fourth digit", 6, &[8]),
    ("index of 50", 12, &[0]),
];

const WANTED_COD: [Wanted; 55] = [
    ("COD way, worked case", 10, &[0, 7]),
    ("COD way, each process", 15, &[0]),
    ("COD way, primary settling", 4, &[0]),
    ("COD way, ratio broken", 8, &[0]),
    ("BOD way, ratio broken", 5, &[4]),
    ("COD way, 1", 4, &[1]),
    ("COD way, 17", 3, &[17]),
    ("COD way, 2", 5, &[2]),
    ("COD way, 3", 7, &[3]),
    ("COD way, 14", 5, &[14]),
    ("COD way, 5", 2, &[5]),
    ("COD way, 6", 2, &[6]),
    ("COD way, 7", 3, &[7]),
    ("COD way, 15", 1, &[15]),
    ("COD way, 16", 1, &[16]),
    ("COD way, 8 to 10", 2, &[8, 9, 10]),
    ("unknown way", 6, &[103]),
    ("unknown way of another version", 2, &[102]),
    ("COD way, dose", 14, &[0]),
    ("COD way, dose beside no degradable COD", 4, &[0]),
    ("COD way, dose just covers", 9, &[0]),
    ("COD way, dose just misses", 10, &[7]),
    ("COD way, degradable about 0", 17, &[0]),
    ("COD way, particulate about the COD", 4, &[0]),
    ("COD way, no oxygen, covered", 4, &[0]),
    ("COD way, no oxygen, missed", 4, &[7]),
    ("COD way, no oxygen, no design", 2, &[5]),
    ("COD way, carbon about saved", 12, &[0]),
    ("COD way, ends", 14, &[0]),
    ("COD way, cover met, simultaneous", 6, &[0]),
    ("COD way, cover missed, simultaneous", 9, &[7]),
    ("COD way, cover met, intermittent", 6, &[0]),
    ("COD way, cover missed, intermittent", 9, &[7]),
    ("COD way, cover met, choose", 6, &[0]),
    ("COD way, term just covered", 12, &[0]),
    ("COD way, term just missed", 12, &[16]),
    ("COD way, term's fraction 200, covered", 3, &[0]),
    ("COD way, term's fraction 200, missed", 3, &[16]),
    ("COD way, term's fraction 199, missed", 6, &[16]),
    ("COD way, term's fraction 199, covered", 3, &[0]),
    ("COD way, covered below a gap", 5, &[0]),
    ("COD way, not covered above", 5, &[7]),
    ("COD way, choice at a gap", 5, &[0]),
    ("COD way, sludge rounded", 14, &[0]),
    ("COD way, oxygen rounded", 12, &[0]),
    ("COD way, cover rounded", 12, &[7]),
    ("COD way, term's cover rounded", 6, &[16]),
    ("COD way moves the choice", 5, &[0]),
    ("COD way, design by the COD alone", 5, &[0]),
    ("COD way, last fractions covered", 2, &[0]),
    ("COD way, no design: nitrate", 2, &[5]),
    ("COD way, last fractions cover a term", 2, &[0]),
    ("COD way, no design: term", 2, &[5]),
    ("COD way, exact page", 2, &[0]),
    ("COD way, random", 18, &[]),
];

const WANTED_PAGES: [Wanted; 5] = [
    ("exact page", 8, &[0, 1, 5, 9, 10]),
    ("page one byte short", 8, &[11]),
    ("empty page", 8, &[11]),
    ("malformed, empty page", 2, &[102, 103]),
    ("random", 8, &[]),
];

const WANTED_BUILT: [Wanted; 33] = [
    ("built, sizes just met", 5, &[0]),
    ("built, one size missed", 15, &[0]),
    ("built, held by an end ratio", 4, &[0]),
    ("built, one size alone, met", 6, &[0]),
    ("built, one size alone, missed", 3, &[0]),
    ("built, size of 0", 7, &[21]),
    ("built, size of a power of 2", 4, &[0]),
    ("built, span", 7, &[0]),
    ("built, wrong span", 13, &[20]),
    ("built, lost from an index on", 12, &[0]),
    ("built, own index", 3, &[0]),
    ("built, own index refused", 3, &[1, 17]),
    ("built, lost between two held", 12, &[0]),
    ("built, held between two lost", 3, &[0]),
    ("built, lost twice", 2, &[0]),
    ("built, no ratio for both", 4, &[0]),
    ("built, widest span", 8, &[0]),
    ("built, site just holds", 4, &[0]),
    ("built, site too small", 3, &[0]),
    ("built, covered", 8, &[0]),
    ("built, not covered", 8, &[0]),
    ("built, solids and volume", 8, &[0]),
    ("built, one refusal", 9, &[1, 2, 3, 4, 6, 14, 17, 21]),
    (
        "built, first of the refusals",
        8,
        &[1, 2, 3, 4, 6, 14, 17, 21],
    ),
    ("built, 4 not due by COD", 2, &[0, 14]),
    ("built, 20 before every other", 6, &[20]),
    ("built, grid edge", 4, &[0]),
    ("built, off grid", 7, &[6]),
    ("built, exact page", 3, &[0, 20]),
    ("built, short page", 4, &[11]),
    ("built, wrong length", 6, &[101]),
    ("built, wrong version", 4, &[102]),
    ("built, unknown kind", 4, &[103]),
];

const WANTED_PRICES: [Wanted; 35] = [
    ("price, limit about a volume", 24, &[0]),
    ("price, limit in each place", 6, &[0]),
    ("price, limits at both volumes", 11, &[0]),
    ("price, first metres", 6, &[0]),
    ("price, small tanks", 6, &[0]),
    ("price, large tanks", 2, &[0]),
    ("price, number of bands", 6, &[0]),
    ("price, wrong number of bands", 7, &[22]),
    ("price, limits just rise", 3, &[0]),
    ("price, limits not rising", 11, &[22]),
    ("price, last limit", 5, &[0]),
    ("price, entries past the count", 10, &[0]),
    ("price, edge of a price", 6, &[0]),
    ("price, price too high", 8, &[22]),
    ("price, surcharge", 8, &[0]),
    ("price, surcharge too high", 5, &[22]),
    ("price, surcharge of whole cents", 2, &[0]),
    ("price, surcharge rounded up", 10, &[0]),
    ("price, refusal of the data", 12, &[1, 2, 3, 4, 14, 17]),
    (
        "price, refusal of the candidate",
        14,
        &[6, 7, 8, 9, 10, 15, 16],
    ),
    ("price, wrong tariff", 8, &[22]),
    ("price, 4 not due by COD", 2, &[0, 22]),
    (
        "price of the choice, refusal of the data",
        6,
        &[1, 2, 3, 4, 14, 17],
    ),
    ("price of the choice, wrong tariff", 5, &[22]),
    ("price of the choice, no design", 6, &[5]),
    ("price of the choice, limit about a volume", 6, &[0]),
    ("price of the choice, bands", 2, &[0]),
    ("price of the choice, surcharge", 3, &[0]),
    ("price of the choice, cheaper rivals", 2, &[0]),
    ("price of the choice, each process", 5, &[0]),
    ("price, exact page", 3, &[0, 22]),
    ("price, short page", 5, &[11]),
    ("price, wrong length", 5, &[101]),
    ("price, wrong version", 6, &[102]),
    ("price, unknown kind", 4, &[103]),
];

const WANTED_LENGTHS: [Wanted; 8] = [
    ("digits of a figure", 24, &[0]),
    ("digits of a figure, short", 24, &[11]),
    ("below a power of ten", 25, &[0]),
    ("below a power of ten, short", 25, &[11]),
    ("power of ten", 25, &[0]),
    ("power of ten, short", 25, &[11]),
    (
        "length of a refusal",
        13,
        &[1, 2, 3, 4, 6, 7, 8, 9, 10, 14, 15, 16, 17],
    ),
    ("length of a refusal, short", 13, &[11]),
];

const WANTED_LOOSER: [Wanted; 5] = [
    ("looser target", 6, &[0]),
    ("looser surface", 2, &[0]),
    ("looser depth", 2, &[0]),
    ("warmer", 2, &[0, 5]),
    ("lower index", 2, &[0]),
];

/// Everything that is wanted.
const EVERY_KIND: [&[Wanted]; 11] = [
    &WANTED,
    &WANTED_TERMS,
    &WANTED_BULKING,
    &WANTED_PAUSES,
    &WANTED_FINER,
    &WANTED_COD,
    &WANTED_PAGES,
    &WANTED_BUILT,
    &WANTED_PRICES,
    &WANTED_LENGTHS,
    &WANTED_LOOSER,
];

const EXAMINE_NUMBERS: &[u32] = &[0, 1, 2, 3, 4, 6, 7, 8, 9, 10, 11, 14, 15, 16, 17, 102, 103];
const CHOOSE_NUMBERS: &[u32] = &[0, 1, 2, 3, 4, 5, 11, 14, 17, 102, 103];
const BUILT_NUMBERS: &[u32] = &[0, 1, 2, 3, 4, 6, 11, 14, 17, 20, 21, 101, 102, 103];
const PRICE_CHOOSE_NUMBERS: &[u32] = &[0, 1, 2, 3, 4, 5, 11, 14, 17, 22, 101, 102, 103];
const PRICE_EXAMINE_NUMBERS: &[u32] = &[
    0, 1, 2, 3, 4, 6, 7, 8, 9, 10, 11, 14, 15, 16, 17, 22, 101, 102, 103,
];

/// The operations by their codes, with the numbers that each must give at least once.
const OPERATIONS: [(&str, &[u32]); 5] = [
    ("examine", EXAMINE_NUMBERS),
    ("choose", CHOOSE_NUMBERS),
    ("built tanks", BUILT_NUMBERS),
    ("price of the choice", PRICE_CHOOSE_NUMBERS),
    ("price of a candidate", PRICE_EXAMINE_NUMBERS),
];

/// Counts by kind and by operation and number.
pub struct Summary {
    pub kinds: BTreeMap<&'static str, BTreeMap<u32, usize>>,
    pub numbers: [BTreeMap<u32, usize>; OPERATIONS.len()],
}

pub fn summary(cases: &[Case], outcomes: &[Outcome]) -> Summary {
    let mut kinds: BTreeMap<&'static str, BTreeMap<u32, usize>> = BTreeMap::new();
    let mut numbers: [BTreeMap<u32, usize>; OPERATIONS.len()] = Default::default();
    for (case, outcome) in cases.iter().zip(outcomes) {
        let kind = kinds.entry(case.kind).or_default();
        *kind.entry(outcome.number).or_default() += 1;
        let of_operation = &mut numbers[case.operation as usize];
        *of_operation.entry(outcome.number).or_default() += 1;
    }
    Summary { kinds, numbers }
}

fn counts(of: &BTreeMap<u32, usize>) -> String {
    let parts: Vec<String> = of.iter().map(|(n, c)| format!("{n}: {c}")).collect();
    parts.join(", ")
}

impl Summary {
    /// Kinds of which there are too few, or with an answer that they must not have.
    fn faults_of_kinds(&self) -> Vec<String> {
        let mut faults = Vec::new();
        let empty = BTreeMap::new();
        for (kind, least, allowed) in EVERY_KIND.into_iter().flatten() {
            let found = self.kinds.get(kind).unwrap_or(&empty);
            let count: usize = found.values().sum();
            if count < *least {
                faults.push(format!("kind '{kind}': {count} of {least}"));
            }
            let stray = |number: &&u32| !allowed.is_empty() && !allowed.contains(number);
            for number in found.keys().filter(stray) {
                faults.push(format!("kind '{kind}': unexpected answer {number}"));
            }
        }
        faults
    }

    /// What is missing or has an answer that its kind must not have.
    pub fn faults(&self) -> Vec<String> {
        let mut faults = self.faults_of_kinds();
        for ((name, wanted), found) in OPERATIONS.iter().zip(&self.numbers) {
            for number in wanted.iter().filter(|number| !found.contains_key(*number)) {
                faults.push(format!("{name}: no case answers {number}"));
            }
        }
        faults
    }

    pub fn print(&self) {
        for (kind, found) in &self.kinds {
            let count: usize = found.values().sum();
            eprintln!("{count:5}  {kind}  ({})", counts(found));
        }
        for ((name, _), found) in OPERATIONS.iter().zip(&self.numbers) {
            let count: usize = found.values().sum();
            eprintln!("{name}: {count} cases, by number {}", counts(found));
        }
    }
}
