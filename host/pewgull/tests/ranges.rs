//! The tool's ranges, and what it finds a refusal due to, against the proved
//! calls.

mod common;

use common::CASE_A;
use library::number::{BUILT_SIZE, PLANT_DATA, READING_RANGE, SHEET, SPAN, TERMS};
use library::number::{BULKING, COD_RATIO, LINES, NO_DESIGN, NO_NUMBER, TARIFF};
use library::{built, choose, examine, explain, line, target, works};
use library::{price_examine, Tariff, PRICE_PAGE};
use library::{Candidate, Date, Reading, Request, Split, Term, Terms, Way};
use library::{Existing, Span, BUILT_PAGE, LEAST_SIZE};
use library::{FIGURES_LENGTH, MOST_TERMS, PAGE_LENGTH, TARGET_PAGE, WORKS_PAGE};
use library::{LEAST_BANDS, LEAST_LIMIT, MOST_BANDS};
use library::{LEAST_LINES, LEAST_SHARE, MOST_LINES, WHOLE};
use pewgull::keys::{Field, Range, HEADS, INDEX, KEYS, MOST_BULKING, MOST_DOSE_WITHOUT_SLUDGE};
use pewgull::keys::{TERM_TARGET, TERM_TEMPERATURE};
use pewgull::plant_file::{self, PlantFile};
use pewgull::price;
use pewgull::tariff_file::{TariffFile, PRICE_RANGE, SURCHARGE_RANGE};
use pewgull::works::{plant, refused_lines, Refused};
use pewgull::{consent, culprit};

fn case_a() -> Request {
    plant_file::parse(CASE_A.as_bytes()).unwrap().request
}

const CANDIDATE: Candidate = Candidate {
    fraction: 300,
    return_ratio: 75,
    thickening: 20,
};

/// The number that the data get, whatever the candidate's rules say.
fn number(request: &Request) -> u32 {
    explain(&request.to_examine(CANDIDATE), &mut [0; FIGURES_LENGTH]).0
}

fn with_whole(at: fn(&mut Request) -> &mut u32, value: u32) -> Request {
    let mut request = case_a();
    *at(&mut request) = value;
    request
}

#[test]
fn plant_ranges() {
    for key in &KEYS {
        let Field::Whole(Range { least, most, .. }, at) = key.field else {
            continue;
        };
        for inside in [least, most] {
            let got = number(&with_whole(at, inside));
            assert!(![PLANT_DATA, BULKING].contains(&got), "{}", key.name);
        }
        let above = match key.name {
            "sludge-volume-index" => BULKING,
            _ => PLANT_DATA,
        };
        assert_eq!(number(&with_whole(at, most + 1)), above, "{}", key.name);
        if least > 0 {
            assert_eq!(
                number(&with_whole(at, least - 1)),
                PLANT_DATA,
                "{}",
                key.name
            );
        }
    }
}

/// From 181 to 200 the index gets 17, then 1; with another figure outside, 1.
#[test]
fn bulking_ends_where_the_library_ends_it() {
    let index = |value: u32| Request {
        sludge_volume_index: value,
        ..case_a()
    };
    assert_eq!(number(&index(MOST_BULKING)), BULKING);
    assert_eq!(number(&index(MOST_BULKING + 1)), PLANT_DATA);
    let both = Request {
        load: 0,
        ..index(MOST_BULKING)
    };
    assert_eq!(number(&both), PLANT_DATA);
    assert_eq!(culprit::lines(PLANT_DATA, &file(both)).len(), 2);
}

/// The dose adds sludge where the tool says so: in the COD way, above its limit.
#[test]
fn a_dose_adds_sludge_above_its_limit() {
    let sludge = |way: Way, dose: u32| {
        let request = Request {
            way,
            dose,
            ..case_a()
        };
        let mut page = [0; PAGE_LENGTH];
        let (_, written) = examine(&request.to_examine(CANDIDATE), &mut page);
        let listing = String::from_utf8_lossy(&page[..written as usize]).into_owned();
        let line = listing.lines().find(|line| line.starts_with("sludge "));
        line.unwrap().to_string()
    };
    let most = MOST_DOSE_WITHOUT_SLUDGE;
    assert_eq!(sludge(Way::Cod, most), sludge(Way::Cod, 0));
    assert_ne!(sludge(Way::Cod, most + 1), sludge(Way::Cod, 0));
    assert_eq!(sludge(Way::Bod, most + 1), sludge(Way::Bod, 0));
}

#[test]
fn reading_ranges() {
    for key in &KEYS {
        let Field::Reading(Range { least, most, .. }, at) = key.field else {
            continue;
        };
        let measured = |value: f32| {
            let mut request = case_a();
            *at(&mut request) = Reading::Measured(value.to_bits());
            number(&request)
        };
        assert_ne!(measured(least as f32), READING_RANGE, "{}", key.name);
        assert_ne!(measured(most as f32), READING_RANGE, "{}", key.name);
        assert_eq!(measured(most as f32 + 0.001), READING_RANGE, "{}", key.name);
        if least > 0 {
            assert_eq!(
                measured(least as f32 - 0.001),
                READING_RANGE,
                "{}",
                key.name
            );
        }
        let heads = |count: u32| {
            let mut request = case_a();
            request.flow = 200_000;
            *at(&mut request) = Reading::Heads(count);
            number(&request)
        };
        assert_ne!(heads(HEADS.most), READING_RANGE, "{}", key.name);
        assert_eq!(heads(HEADS.most + 1), READING_RANGE, "{}", key.name);
        assert_eq!(heads(HEADS.least - 1), READING_RANGE, "{}", key.name);
    }
}

/// A term that Case A accepts.
const YEAR: Term = Term {
    first: Date { month: 1, day: 1 },
    last: Date { month: 12, day: 31 },
    temperature: 12,
    target: 10_000,
};

fn with_term(change: impl Fn(&mut Term)) -> Request {
    let mut request = case_a();
    let mut term = YEAR;
    change(&mut term);
    request.terms.push(term);
    request
}

type TermField = fn(&mut Term) -> &mut u32;

#[test]
fn term_ranges() {
    let fields: [(Range, TermField); 2] = [
        (TERM_TEMPERATURE, |term| &mut term.temperature),
        (TERM_TARGET, |term| &mut term.target),
    ];
    for (Range { least, most, .. }, at) in fields {
        for (value, due) in [
            (least - 1, TERMS),
            (least, SHEET),
            (most, SHEET),
            (most + 1, TERMS),
        ] {
            assert_eq!(number(&with_term(|term| *at(term) = value)), due, "{value}");
        }
    }
    for (count, due) in [(MOST_TERMS, SHEET), (MOST_TERMS + 1, TERMS)] {
        let mut request = case_a();
        (0..count).for_each(|_| request.terms.push(YEAR));
        assert_eq!(number(&request), due);
    }
}

/// Numbers from a fixed seed.
struct Random(u64);

impl Random {
    fn next(&mut self) -> u32 {
        self.0 = self
            .0
            .wrapping_mul(6_364_136_223_846_793_005)
            .wrapping_add(1);
        (self.0 >> 33) as u32
    }

    fn pick<T: Copy>(&mut self, list: &[T]) -> T {
        list[self.next() as usize % list.len()]
    }
}

/// An odd f32, one about an edge, or any bits.
fn odd_bits(random: &mut Random) -> u32 {
    let edge = random.pick(&[
        20f32, 40.0, 100.0, 200.0, 500.0, 2_000.0, 4_000.0, 4_400.0, 8_800.0,
    ]);
    match random.next() % 4 {
        0 => random
            .pick(&[f32::NAN, f32::INFINITY, -0.0, -1e-45, 1e-45, f32::MAX, -5.0])
            .to_bits(),
        1 => random.next() << 1,
        _ => (edge.to_bits() + random.next() % 41) - 20,
    }
}

fn odd_reading(random: &mut Random) -> Reading {
    match random.next() % 3 {
        0 => Reading::Measured(odd_bits(random)),
        1 => Reading::Below(odd_bits(random)),
        _ => Reading::Heads(random.pick(&[0, 1, 833, 834, 20_000, 2_000_000, 2_000_001, u32::MAX])),
    }
}

/// Where each reading goes.
fn readings() -> Vec<fn(&mut Request) -> &mut Reading> {
    let at = KEYS.iter().map(|key| match key.field {
        Field::Reading(_, at) => Some(at),
        _ => None,
    });
    at.flatten().collect()
}

/// Case A with one plant figure at an edge now and then, and odd readings.
fn odd_request(random: &mut Random) -> Request {
    let mut request = case_a();
    let key = &KEYS[random.next() as usize % KEYS.len()];
    if random.next() % 16 == 0 {
        request.sludge_volume_index = random.pick(&[180, 181, 200, 201]);
    }
    match &key.field {
        Field::Whole(range, at) if random.next() % 4 == 0 => {
            let edges = [
                range.least.wrapping_sub(1),
                range.least,
                range.most,
                range.most + 1,
            ];
            *at(&mut request) = random.pick(&edges);
        }
        Field::Word(words, set) => set(&mut request, random.next() as usize % words.len()),
        _ => {}
    }
    for _ in 0..random.next() % 3 {
        let at = random.pick(&readings());
        *at(&mut request) = odd_reading(random);
    }
    request.terms = odd_terms(random);
    request.way = random.pick(&[Way::Bod, Way::Cod]);
    request
}

/// A date, now and then a day past its month's last or no month's.
fn odd_date(random: &mut Random) -> Date {
    match random.next() % 8 {
        0 => Date {
            month: random.pick(&[0, 1, 12, 13, u32::MAX]),
            day: random.pick(&[0, 1, 31, 32, u32::MAX]),
        },
        1 => Date {
            month: 1 + random.next() % 12,
            day: 28 + random.next() % 5,
        },
        _ => Date {
            month: 1 + random.next() % 12,
            day: 1 + random.next() % 28,
        },
    }
}

/// No terms in half of the plants; entries past the count are as odd.
fn odd_terms(random: &mut Random) -> Terms {
    let mut terms = Terms::default();
    for entry in &mut terms.entries {
        *entry = Term {
            first: odd_date(random),
            last: odd_date(random),
            temperature: random.pick(&[3, 4, 8, 12, 12, 12, 15, 20, 20, 20, 21]),
            target: random.pick(&[999, 1_000, 9_000, 20_000, 30_000, 50_000, 50_001]),
        };
    }
    terms.count = random.pick(&[0, 0, 0, 0, 0, 0, 1, 1, 2, 3, 4, 5]);
    terms
}

/// Two lines of no file, and the request.
fn file(request: Request) -> PlantFile {
    let term_lines = vec![24, 25];
    PlantFile {
        request,
        term_lines,
        ..PlantFile::default()
    }
}

/// A refusal of 1 to 4, 14 or 17 has a culprit, and nothing else has.
#[test]
fn culprits_are_found_where_the_library_refuses() {
    let mut random = Random(131);
    let known = [
        PLANT_DATA,
        NO_NUMBER,
        READING_RANGE,
        COD_RATIO,
        TERMS,
        BULKING,
    ];
    let mut counts = [0; 7];
    let mut far_by_cod = 0;
    for _ in 0..50_000 {
        let request = odd_request(&mut random);
        let due = number(&request);
        let by_bod = Request {
            way: Way::Bod,
            ..request
        };
        far_by_cod += u32::from(due != COD_RATIO && number(&by_bod) == COD_RATIO);
        for asked in known {
            let found = !culprit::lines(asked, &file(request)).is_empty();
            assert_eq!(
                found,
                asked == due,
                "asked for {asked}, due {due}: {request:?}"
            );
        }
        counts[known.iter().position(|asked| *asked == due).unwrap_or(6)] += 1;
    }
    assert!(counts.iter().all(|count| *count > 500), "{counts:?}");
    assert!(far_by_cod > 500, "{far_by_cod}");
}

/// The same of terms and a date alone.
#[test]
fn faults_are_found_where_a_target_is_refused() {
    let mut random = Random(366);
    let mut counts = [0; 2];
    for _ in 0..20_000 {
        let terms = odd_terms(&mut random);
        let date = odd_date(&mut random);
        let (due, _) = target(&terms.to_target(date), &mut [0; TARGET_PAGE]);
        let request = Request {
            terms,
            ..Request::default()
        };
        let told = consent::words(TERMS, &file(request), date);
        let found = told.lines().count() > 1;
        assert_eq!(found, due == TERMS, "{told}: {request:?}");
        counts[usize::from(found)] += 1;
    }
    assert!(counts.iter().all(|count| *count > 500), "{counts:?}");
}

/// The number that a works gets.
fn works_number(request: &Request, split: &Split) -> u32 {
    works(&request.to_works(split), &mut [0; WORKS_PAGE]).0
}

/// As many equal shares as there are lines, the last with the rest.
fn shares(lines: usize, sum: u32) -> Vec<u32> {
    let mut shares = vec![sum / lines as u32; lines];
    shares[lines - 1] += sum % lines as u32;
    shares
}

#[test]
fn share_ranges() {
    for (lines, due) in [
        (LEAST_LINES - 1, LINES),
        (LEAST_LINES, SHEET),
        (MOST_LINES, SHEET),
        (MOST_LINES + 1, LINES),
    ] {
        let split = Split::of(&shares(lines, WHOLE));
        assert_eq!(works_number(&case_a(), &split), due, "{lines} lines");
    }
    for (sum, due) in [(WHOLE - 1, LINES), (WHOLE, SHEET), (WHOLE + 1, LINES)] {
        let split = Split::of(&shares(3, sum));
        assert_eq!(works_number(&case_a(), &split), due, "a sum of {sum}");
    }
    let mut large = case_a();
    large.wet_weather_flow = 5_000;
    large.site_surface = 10_000;
    for (share, due) in [(LEAST_SHARE - 1, LINES), (LEAST_SHARE, SHEET)] {
        let split = Split::of(&[share, WHOLE - share]);
        assert_eq!(works_number(&large, &split), due, "a share of {share}");
    }
}

/// Shares that mostly add up, some of them small.
fn odd_split(random: &mut Random) -> Split {
    let lines = random.pick(&[1, 2, 2, 3, 3, 4, 5, 6, 7, 8, 8, 9]);
    let mut left = WHOLE;
    let mut shares = Vec::new();
    for line in 1..lines {
        let most = left - (lines - line);
        let share = match random.next() % 4 {
            0 => 1,
            1 => random.next() % 8,
            _ => 1 + random.next() % most,
        };
        shares.push(share.min(most));
        left -= share.min(most);
    }
    shares.push(left + u32::from(random.next() % 16 == 0));
    Split::of(&shares)
}

/// Case A or smaller, its readings now and then by heads, in a site that may
/// be narrow.
fn odd_works(random: &mut Random) -> Request {
    let mut request = match random.next() % 8 {
        0 => odd_request(random),
        _ => case_a(),
    };
    if random.next() % 2 == 0 {
        request.flow = 1 + random.next() % 5_000;
        request.wet_weather_flow = 1 + random.next() % 600;
        request.site_surface = 1 + request.wet_weather_flow * 2 / 3 + random.next() % 20;
    }
    if random.next() % 2 == 0 {
        let heads = request.flow * (3_200 + random.next() % 200) / 1_000;
        (request.bod, request.cod) = (Reading::Heads(heads), Reading::Heads(heads));
        request.nitrogen = Reading::Heads(heads * random.pick(&[9, 9, 9, 20]) / 10);
    }
    request
}

/// A line is the plant that the tool takes it for: the library chooses for that
/// plant as it answers for the line. The first refused line gives the works its
/// number; where none is named, the split or the whole data are refused.
#[test]
fn a_line_is_a_plant_of_its_own() {
    let mut random = Random(8);
    let mut counts = [0; 4];
    for _ in 0..2_000 {
        let (request, split) = (odd_works(&mut random), odd_split(&mut random));
        let due = works_number(&request, &split);
        let refused = refused_lines(&request, &split);
        let known = [SHEET, LINES, PLANT_DATA, NO_DESIGN];
        if let Some(place) = known.iter().position(|number| *number == due) {
            counts[place] += 1;
        }
        let by_whole = due == LINES || number(&request) != SHEET;
        assert_eq!(refused.is_empty(), by_whole || due == SHEET);
        if by_whole {
            continue;
        }
        assert_eq!(refused.first().map_or(SHEET, |first| first.number), due);
        for number in 1..=split.count {
            let (mut own, mut chosen) = ([0; PAGE_LENGTH], [0; PAGE_LENGTH]);
            let answer = line(&request.to_line(&split, number), &mut own);
            let bytes = plant(&request, &split, number).to_choose();
            assert_eq!(answer, choose(&bytes, &mut chosen), "{request:?} {split:?}");
            assert_eq!(own, chosen);
            let named = Refused {
                line: number,
                number: answer.0,
            };
            assert_eq!(refused.contains(&named), answer.0 != SHEET);
        }
    }
    assert!(counts.iter().all(|count| *count > 100), "{counts:?}");
}

/// A plant whose head counts are measured readings gets the same figures and
/// sheets.
#[test]
fn head_counts_as_measured_readings() {
    let mut random = Random(600);
    let mut accepted = 0;
    for _ in 0..20_000 {
        let mut request = case_a();
        request.way = random.pick(&[Way::Bod, Way::Cod]);
        request.flow = 1 + random.next() % 200_000;
        for at in readings() {
            if random.next() % 2 == 0 {
                let heads = u64::from(request.flow) * u64::from(random.next() % 8_000) / 1_000;
                *at(&mut request) = Reading::Heads(1 + heads as u32);
            }
        }
        if number(&request) != SHEET {
            continue;
        }
        accepted += 1;
        let measured = culprit::measured(&request);
        let heads = |reading: Reading| matches!(reading, Reading::Heads(_));
        assert!(!readings().iter().any(|at| heads(*at(&mut { measured }))));
        let figures = |request: &Request| {
            let mut page = [0; FIGURES_LENGTH];
            explain(&request.to_examine(CANDIDATE), &mut page);
            page
        };
        let sheet = |request: &Request| {
            let mut page = [0; PAGE_LENGTH];
            examine(&request.to_examine(CANDIDATE), &mut page);
            page
        };
        assert_eq!(figures(&request), figures(&measured));
        assert_eq!(sheet(&request), sheet(&measured));
    }
    assert!(accepted > 2_000, "{accepted}");
}

/// What existing tanks of these sizes get for a span.
fn for_tanks([reactor, surface, depth]: [u32; 3], least: u32, most: u32) -> u32 {
    let existing = Existing {
        reactor,
        surface,
        depth,
        fraction: CANDIDATE.fraction,
        thickening: CANDIDATE.thickening,
    };
    let request = case_a().to_built(&existing, &Span { least, most });
    built(&request, &mut [0; BUILT_PAGE]).0
}

#[test]
fn spans_and_built_sizes() {
    let Range { least, most, .. } = INDEX;
    let tanks = [LEAST_SIZE; 3];
    for (least, most, number) in [
        (least, most, SHEET),
        (least, least, SHEET),
        (most, most, SHEET),
        (least - 1, most, SPAN),
        (least, most + 1, SPAN),
        (most, least, SPAN),
    ] {
        assert_eq!(for_tanks(tanks, least, most), number, "{least}..{most}");
    }
    for place in 0..3 {
        let mut tanks = tanks;
        tanks[place] = LEAST_SIZE - 1;
        assert_eq!(for_tanks(tanks, least, most), BUILT_SIZE);
    }
}

/// What Case A's candidate gets with a tariff.
fn for_tariff(tariff: &Tariff) -> u32 {
    let bytes = case_a().to_price_examine(CANDIDATE, tariff);
    price_examine(&bytes, &mut [0; PRICE_PAGE]).0
}

/// Two bands and a surcharge.
fn two_bands(limit: u32, price: u32, surcharge: u32) -> Tariff {
    let mut tariff = Tariff {
        surcharge,
        ..Tariff::default()
    };
    tariff.push(limit, price);
    tariff.push(0, price);
    tariff
}

#[test]
fn tariff_ranges() {
    for (bands, due) in [
        (LEAST_BANDS - 1, TARIFF),
        (LEAST_BANDS, SHEET),
        (MOST_BANDS, SHEET),
        (MOST_BANDS + 1, TARIFF),
    ] {
        let mut tariff = Tariff::default();
        (1..).take(bands).for_each(|limit| tariff.push(limit, 5));
        assert_eq!(for_tariff(&tariff), due, "{bands} bands");
    }
    let Range { least, most, .. } = PRICE_RANGE;
    for (price, due) in [(least, SHEET), (most, SHEET), (most + 1, TARIFF)] {
        assert_eq!(for_tariff(&two_bands(1, price, 0)), due, "{price}");
    }
    let Range { least, most, .. } = SURCHARGE_RANGE;
    for (surcharge, due) in [(least, SHEET), (most, SHEET), (most + 1, TARIFF)] {
        assert_eq!(for_tariff(&two_bands(1, 5, surcharge)), due, "{surcharge}");
    }
    for (limit, due) in [(LEAST_LIMIT - 1, TARIFF), (LEAST_LIMIT, SHEET)] {
        assert_eq!(for_tariff(&two_bands(limit, 5, 0)), due, "{limit}");
    }
}

/// A tariff whose limits mostly rise; entries past the bands are as odd.
fn odd_tariff(random: &mut Random) -> Tariff {
    let mut limit = random.pick(&[0, 1, 1, 1, 7, 500]);
    let mut tariff = Tariff::default();
    for place in 0..MOST_BANDS {
        tariff.limits[place] = limit;
        tariff.prices[place] = match random.next() % 32 {
            0 => random.pick(&[PRICE_RANGE.most + 1, u32::MAX]),
            _ => random.pick(&[0, 1, 42_000, PRICE_RANGE.most]),
        };
        limit = match random.next() % 32 {
            0 => random.pick(&[0, limit, limit.saturating_sub(1)]),
            _ => limit.saturating_add(random.pick(&[1, 1, 2, 1_000, u32::MAX / 4])),
        };
    }
    tariff.count = random.pick(&[0, 1, 1, 2, 3, 3, 4, 5, 6, 6, 7, u32::MAX]);
    tariff.surcharge = random.pick(&[0, 0, 1, 80, 80, 499, 500, 500, 501, u32::MAX]);
    tariff
}

/// A fault of the tariff is told where the library refuses it, and nowhere else.
#[test]
fn faults_are_found_where_a_tariff_is_refused() {
    let mut random = Random(22);
    let mut counts = [0; 2];
    for _ in 0..20_000 {
        let tariff = odd_tariff(&mut random);
        let due = for_tariff(&tariff);
        assert!([SHEET, TARIFF].contains(&due));
        let file = TariffFile {
            tariff,
            ..TariffFile::default()
        };
        let told = price::faults(&file);
        assert_eq!(told.is_empty(), due == SHEET, "{told:?}: {tariff:?}");
        counts[usize::from(due == SHEET)] += 1;
    }
    assert!(counts.iter().all(|count| *count > 2_000), "{counts:?}");
}
