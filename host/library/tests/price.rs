//! The price of the concrete, through the archive.

mod common;

use common::{case_a, CASE_A_CANDIDATE, CASE_A_LISTING};
use library::number::{
    BAD_KIND, BAD_LENGTH, BAD_VERSION, BULKING, COD_RATIO, DEPTH, NITRATE, NO_DESIGN, NO_NUMBER,
    OFF_GRID, PLANT_DATA, READING_RANGE, SHEET, SHORT_PAGE, SOLIDS, SURFACE, TARIFF, TERMS,
};
use library::sheet::listing;
use library::{choose, examine, price_choose, price_examine};
use library::{Candidate, Price, Reading, Removal, Request, TankFlow, Tariff};
use library::{LEAST_LIMIT, MOST_BANDS, MOST_PRICE, MOST_SURCHARGE, PAGE_LENGTH, PRICE_PAGE};
use library::{PRICE_CHOOSE_LENGTH, PRICE_EXAMINE_LENGTH, VERSION};

const UNTOUCHED: u8 = 0xaa;

/// Places of the two volumes that are priced, in a sheet.
const REACTOR: usize = 7;
const SETTLING: usize = 10;

/// The tariff of these limits and prices; the last band's limit is not looked
/// at.
fn tariff(bands: &[(u32, u32)], surcharge: u32) -> Tariff {
    let mut tariff = Tariff {
        surcharge,
        ..Tariff::default()
    };
    for (limit, price) in bands {
        tariff.push(*limit, *price);
    }
    tariff
}

/// One that falls with size.
fn falling() -> Tariff {
    tariff(&[(500, 42_000), (2_000, 34_000), (0, 29_000)], 80)
}

/// What is given for the design chosen, or for a candidate, and the page.
fn priced(request: &Request, candidate: Option<Candidate>, tariff: &Tariff) -> (u32, Price) {
    let mut page = [UNTOUCHED; PRICE_PAGE + 1];
    let (number, written) = match candidate {
        None => price_choose(&request.to_price_choose(tariff), &mut page),
        Some(candidate) => price_examine(&request.to_price_examine(candidate, tariff), &mut page),
    };
    assert_eq!(written, PRICE_PAGE as u64);
    assert_eq!(page[PRICE_PAGE], UNTOUCHED);
    (number, Price::from_page(page.first_chunk().unwrap()))
}

/// What `choose` or `examine` gives, and its listing.
fn listed(request: &Request, candidate: Option<Candidate>) -> (u32, String) {
    let mut page = [0; PAGE_LENGTH];
    let (number, written) = match candidate {
        None => choose(&request.to_choose(), &mut page),
        Some(candidate) => examine(&request.to_examine(candidate), &mut page),
    };
    let listing = page[..written as usize].to_vec();
    (number, String::from_utf8(listing).unwrap())
}

/// The price of a tank, cubic metre by cubic metre.
fn metre_by_metre(volume: u64, tariff: &Tariff) -> u64 {
    let last = tariff.count as usize - 1;
    let of_metre = |metre: u64| {
        let mut limits = tariff.limits[..last].iter();
        let band = limits.position(|limit| u64::from(*limit) >= metre);
        u64::from(tariff.prices[band.unwrap_or(last)])
    };
    (1..=volume).map(of_metre).sum()
}

/// The sheet is the one of `choose` or `examine`, and the price that of its
/// single cubic metres, with the surcharge rounded up at the end.
fn is_priced(request: &Request, candidate: Option<Candidate>, tariff: &Tariff) -> u64 {
    let (number, found) = priced(request, candidate, tariff);
    let sheet = listing(&found.sheet);
    assert_eq!((number, sheet), listed(request, candidate));
    let volumes = [REACTOR, SETTLING].map(|place| found.sheet[place]);
    let sum: u64 = volumes
        .map(|tank| metre_by_metre(tank, tariff))
        .iter()
        .sum();
    let surcharge = (sum * u64::from(tariff.surcharge)).div_ceil(1_000);
    assert_eq!(found.price, sum + surcharge, "{tariff:?}");
    found.price
}

/// A refusal is its number and zeros.
fn is_refused(request: &Request, candidate: Option<Candidate>, tariff: &Tariff, number: u32) {
    let answer = priced(request, candidate, tariff);
    assert_eq!(answer, (number, Price::default()), "{tariff:?}");
}

const EXAMINED: Option<Candidate> = Some(CASE_A_CANDIDATE);

/// Case A has 3,105 and 2,060 m3: the first 500 of each at 420.00, the next
/// 1,500 at 340.00, the rest, 1,105 and 60, at 290.00, and 8 in a hundred more.
#[test]
fn case_a_by_hand() {
    let (number, found) = priced(&case_a(), EXAMINED, &falling());
    assert_eq!((number, found.price), (SHEET, 192_007_800));
    assert_eq!(listing(&found.sheet), CASE_A_LISTING);
    is_priced(&case_a(), EXAMINED, &falling());
    is_priced(&case_a(), None, &falling());
}

/// Limits around both volumes; each tank starts at its first cubic metre.
#[test]
fn every_cubic_metre_has_its_band() {
    let limits = [1, 2, 2_059, 2_060, 2_061, 3_104, 3_105, 3_106, 5_165, 5_166];
    for (place, first) in limits.iter().enumerate() {
        let one = tariff(&[(*first, 1), (0, 1_000)], 0);
        is_priced(&case_a(), EXAMINED, &one);
        is_priced(&case_a(), None, &one);
        for second in &limits[place + 1..] {
            let two = tariff(&[(*first, 7), (*second, 0), (0, 1_000_000)], 1);
            is_priced(&case_a(), EXAMINED, &two);
        }
    }
    let flat = tariff(&[(0, 1)], 0);
    assert_eq!(is_priced(&case_a(), EXAMINED, &flat), 3_105 + 2_060);
    let six = [(1, 9), (2, 0), (2_060, 3), (3_104, 5), (3_105, 7), (0, 11)];
    assert_eq!(
        is_priced(&case_a(), EXAMINED, &tariff(&six, 0)),
        2 * 9 + 2 * 2_058 * 3 + 1_044 * 5 + 7
    );
    let past = tariff(&[(u32::MAX - 1, 2), (u32::MAX, 3), (0, 4)], 0);
    assert_eq!(is_priced(&case_a(), EXAMINED, &past), 2 * 5_165);
}

/// The surcharge is rounded up once, on the sum of both tanks.
#[test]
fn surcharges() {
    for (surcharge, price) in [
        (0, 5_165),
        (1, 5_171),
        (199, 6_193),
        (200, 6_198),
        (201, 6_204),
        (499, 7_743),
        (500, 7_748),
    ] {
        let flat = tariff(&[(0, 1)], surcharge);
        assert_eq!(is_priced(&case_a(), EXAMINED, &flat), price);
    }
    for surcharge in [0, 1, 500] {
        assert_eq!(is_priced(&case_a(), None, &tariff(&[(0, 0)], surcharge)), 0);
    }
    let most = tariff(&[(0, MOST_PRICE)], MOST_SURCHARGE);
    assert_eq!(is_priced(&case_a(), EXAMINED, &most), 7_747_500_000);
}

/// Another plant, with other volumes.
#[test]
fn a_vertical_tank() {
    let request = Request {
        flow: 20_000,
        wet_weather_flow: 2_400,
        site_surface: 4_000,
        site_depth: 9_000,
        tank: TankFlow::Vertical,
        removal: Removal::Hopper,
        ..case_a()
    };
    for candidate in [None, EXAMINED] {
        let dear = is_priced(&request, candidate, &falling());
        let cheap = is_priced(&request, candidate, &tariff(&[(0, 29_000)], 80));
        assert!(dear > cheap, "{dear} {cheap}");
    }
}

/// Tariffs that are not valid.
fn wrong_tariffs() -> Vec<Tariff> {
    let bands = |bands: &[(u32, u32)]| tariff(bands, 0);
    let with = |count: u32, surcharge: u32| Tariff {
        count,
        surcharge,
        ..falling()
    };
    let over = MOST_PRICE + 1;
    vec![
        Tariff::default(),
        with(0, 80),
        with(MOST_BANDS as u32 + 1, 80),
        with(u32::MAX, 80),
        with(3, MOST_SURCHARGE + 1),
        with(3, u32::MAX),
        bands(&[(LEAST_LIMIT - 1, 5), (0, 6)]),
        bands(&[(7, 5), (7, 5), (0, 6)]),
        bands(&[(7, 5), (6, 5), (0, 6)]),
        bands(&[(7, 5), (8, 5), (0, 5), (0, 6)]),
        bands(&[(1, 5), (2, 5), (3, 5), (4, 5), (4, 5), (0, 6)]),
        bands(&[(0, over)]),
        bands(&[(0, u32::MAX)]),
        bands(&[(7, over), (0, 6)]),
        bands(&[(7, 5), (8, over), (0, 6)]),
        bands(&[(7, 5), (8, 5), (0, over)]),
    ]
}

#[test]
fn tariffs_that_are_not_valid() {
    for wrong in wrong_tariffs() {
        is_refused(&case_a(), None, &wrong, TARIFF);
        is_refused(&case_a(), EXAMINED, &wrong, TARIFF);
    }
    // seven bands, all of them valid but for their number
    let seven: Vec<(u32, u32)> = (1..=7).map(|limit| (limit, 5)).collect();
    is_refused(&case_a(), EXAMINED, &tariff(&seven, 0), TARIFF);
    is_priced(&case_a(), EXAMINED, &tariff(&seven[..6], 0));
}

/// Entries past the bands are not looked at, nor is the last band's limit.
#[test]
fn entries_that_are_not_looked_at() {
    let price = is_priced(&case_a(), EXAMINED, &falling());
    for limit in [0, 1, 1_999, 2_000, 2_001, u32::MAX] {
        let mut other = falling();
        other.limits[2..].fill(limit);
        other.prices[3..].fill(u32::MAX);
        let (number, found) = priced(&case_a(), EXAMINED, &other);
        assert_eq!((number, found.price), (SHEET, price));
    }
}

/// Data that are refused, with their numbers.
fn refused_data() -> [(Request, u32); 6] {
    let measured = |value: f32| Reading::Measured(value.to_bits());
    let mut data = [
        PLANT_DATA,
        BULKING,
        NO_NUMBER,
        READING_RANGE,
        COD_RATIO,
        TERMS,
    ]
    .map(|number| (case_a(), number));
    data[0].0.load = 0;
    data[1].0.sludge_volume_index = 181;
    data[2].0.bod = measured(f32::NAN);
    data[3].0.bod = Reading::Heads(0);
    data[4].0.cod = measured(440.1);
    data[5].0.terms.count = 5;
    data
}

/// The sheet's own refusals come before 22.
#[test]
fn refusals_of_the_sheet() {
    for tariff in [falling(), Tariff::default()] {
        for (request, number) in refused_data() {
            is_refused(&request, None, &tariff, number);
            is_refused(&request, EXAMINED, &tariff, number);
        }
        let mut none = case_a();
        none.nitrogen = Reading::Measured(100f32.to_bits());
        is_refused(&none, None, &tariff, NO_DESIGN);
        is_refused(&none, EXAMINED, &tariff, NITRATE);
    }
}

/// Candidates that are refused, with their requests and numbers.
fn refused_candidates() -> [(Request, [u32; 3], u32); 6] {
    let mut narrow = case_a();
    narrow.site_surface = 453;
    let mut low = case_a();
    low.site_depth = 4_535;
    let mut steep = case_a();
    steep.tank = TankFlow::Vertical;
    steep.removal = Removal::Hopper;
    [
        (case_a(), [299, 75, 20], NITRATE),
        (case_a(), [300, 76, 20], OFF_GRID),
        (case_a(), [u32::MAX; 3], OFF_GRID),
        (narrow, [300, 75, 20], SURFACE),
        (low, [300, 75, 20], DEPTH),
        (steep, [300, 91, 20], SOLIDS),
    ]
}

#[test]
fn refusals_of_a_candidate() {
    for (request, numbers, number) in refused_candidates() {
        let [fraction, return_ratio, thickening] = numbers;
        let candidate = Some(Candidate {
            fraction,
            return_ratio,
            thickening,
        });
        assert_eq!(listed(&request, candidate).0, number);
        for tariff in [falling(), Tariff::default()] {
            is_refused(&request, candidate, &tariff, number);
        }
    }
}

/// The words of a request, by the header's table.
#[test]
fn bytes() {
    assert_eq!((PRICE_CHOOSE_LENGTH, PRICE_EXAMINE_LENGTH), (280, 292));
    assert_eq!(PRICE_PAGE, 128);
    let tariff = Tariff {
        count: 1,
        limits: [2, 3, 4, 5, 6, 7],
        prices: [8, 9, 10, 11, 12, 13],
        surcharge: 14,
    };
    let words: Vec<u8> = (1..=14).flat_map(u32::to_le_bytes).collect();
    let choose = case_a().to_price_choose(&tariff);
    assert_eq!(choose, [&case_a().to_choose()[..], &words].concat()[..]);
    let examine = case_a().to_price_examine(CASE_A_CANDIDATE, &tariff);
    let data = case_a().to_examine(CASE_A_CANDIDATE);
    assert_eq!(examine, [&data[..], &words].concat()[..]);
}

#[test]
fn a_price_needs_its_page() {
    let mut page = [UNTOUCHED; PRICE_PAGE - 1];
    for request in [case_a(), Request::default()] {
        for tariff in [falling(), Tariff::default()] {
            let bytes = request.to_price_choose(&tariff);
            assert_eq!(price_choose(&bytes, &mut page), (SHORT_PAGE, 0));
            assert_eq!(price_choose(&bytes, &mut []), (SHORT_PAGE, 0));
            let bytes = request.to_price_examine(CASE_A_CANDIDATE, &tariff);
            assert_eq!(price_examine(&bytes, &mut page), (SHORT_PAGE, 0));
            assert_eq!(price_examine(&bytes, &mut []), (SHORT_PAGE, 0));
        }
    }
    assert_eq!(page, [UNTOUCHED; PRICE_PAGE - 1]);
}

/// The code that bytes get from a call, whatever the page.
fn is_malformed(call: fn(&[u8], &mut [u8]) -> (u32, u64), bytes: &[u8], code: u32) {
    let mut page = [UNTOUCHED; PRICE_PAGE];
    assert_eq!(call(bytes, &mut page), (code, 0), "{}", bytes.len());
    assert_eq!(call(bytes, &mut []), (code, 0));
    assert_eq!(page, [UNTOUCHED; PRICE_PAGE]);
}

/// The codes of a call whose good request has these bytes.
fn has_its_codes(call: fn(&[u8], &mut [u8]) -> (u32, u64), good: &[u8]) {
    let longer = [good, &[0; 12]].concat();
    for length in (0..longer.len()).filter(|length| *length != good.len()) {
        is_malformed(call, &longer[..length], BAD_LENGTH);
    }
    for version in [VERSION - 1, VERSION + 1] {
        let mut other = longer.clone();
        other[..4].copy_from_slice(&version.to_le_bytes());
        for length in [4, good.len() - 1, good.len(), longer.len()] {
            is_malformed(call, &other[..length], BAD_VERSION);
        }
        is_malformed(call, &other[..3], BAD_LENGTH);
    }
    // a process, a tank flow, a reading and a way that are not known
    for (place, value) in [(56, 5), (64, 2), (76, 3), (220, 2), (223, 1)] {
        let mut unknown = good.to_vec();
        unknown[place] = value;
        is_malformed(call, &unknown, BAD_KIND);
    }
}

#[test]
fn malformed_requests_have_their_codes() {
    // the tariff is no part of the layout
    for tariff in [falling(), Tariff::default()] {
        has_its_codes(price_choose, &case_a().to_price_choose(&tariff));
        let request = case_a().to_price_examine(CASE_A_CANDIDATE, &tariff);
        has_its_codes(price_examine, &request);
    }
}
