//! Prices of candidates: limits at the volumes, numbers of bands, and the edges of
//! limits, prices and surcharges.

use crate::collection::Collection;
use crate::plants::{case_a, roomy};
use crate::price::{tariff, volumes, Volumes};
use crate::price::{with_count, with_limit, with_price, with_rubbish};
use crate::price_lines::{about, over_whole_cents, plant_of, six_with, SIX};
use crate::price_orders::quick;
use crate::random::Random;
use crate::request::*;
use reference::price::{MOST_BANDS, MOST_PRICE, MOST_SURCHARGE};
use reference::Tariff;

/// Seed of the plants.
const SEED: u64 = 3_011;

/// Case A, then a plant of every process and tank flow; they take turns in way and
/// terms.
pub fn plants() -> Vec<Request> {
    let mut random = Random::new(SEED);
    let mut found = vec![case_a()];
    for process in 0..=4 {
        for flow in 0..=1 {
            let way = (process + flow) % 2;
            let terms = process % 2 == 0;
            found.extend(plant_of(&mut random, [process, flow, way], terms));
        }
    }
    found
}

/// Limits at the smaller tank's volume and at the larger one's.
pub fn at_both([reactor, settling]: Volumes) -> Tariff {
    let (least, most) = (reactor.min(settling), reactor.max(settling));
    tariff(&[(least, 11), (most, 5), (0, 2)], 3)
}

/// A limit at the volume of a tank, one less and one more; in each place of six bands;
/// and limits at both volumes, for every process.
pub fn limits(cases: &mut Collection, plants: &[Request]) {
    for plant in plants.iter().step_by(3) {
        for limit in volumes(plant).into_iter().flat_map(about) {
            let two = tariff(&[(limit, 7), (0, 3)], 0);
            cases.price_examine("price, limit about a volume", plant, &two);
        }
    }
    let [_, settling] = volumes(&case_a());
    for place in 0..MOST_BANDS {
        let six = six_with(settling, place);
        cases.price_examine("price, limit in each place", &case_a(), &six);
    }
    for plant in plants {
        let three = at_both(volumes(plant));
        cases.price_examine("price, limits at both volumes", plant, &three);
    }
}

/// One band to six from the first cubic metre on, tanks of a few cubic metres, and
/// large ones.
pub fn metres(cases: &mut Collection) {
    for count in 1..=MOST_BANDS {
        let bands: Vec<(u32, u32)> = (1..).zip(SIX).take(count).collect();
        cases.price_examine("price, first metres", &case_a(), &tariff(&bands, 7));
    }
    for flow in [1, 3] {
        let small = quick()
            .with(SITE_DEPTH, 10_000)
            .with(FLOW, flow)
            .with(WET_WEATHER_FLOW, 1);
        for limit in 1..=3 {
            let two = tariff(&[(limit, 7), (0, 3)], 1);
            cases.price_examine("price, small tanks", &small, &two);
        }
    }
    let large = roomy()
        .with(FLOW, 200_000)
        .with(WET_WEATHER_FLOW, 50_000)
        .with_candidate(400, 50, 25);
    let [reactor, settling] = volumes(&large);
    let (least, most) = (reactor.min(settling), reactor.max(settling));
    for large_sum in [
        tariff(&[(0, MOST_PRICE)], MOST_SURCHARGE),
        tariff(&[(least, 999_999), (most - 1, 7), (0, MOST_PRICE)], 499),
    ] {
        cases.price_examine("price, large tanks", &large, &large_sum);
    }
}

/// Every number of bands, and wrong ones; limits that just rise, and ones that do not.
pub fn bands(cases: &mut Collection) {
    let mut add = |kind: &'static str, tariff: Tariff| {
        cases.price_examine(kind, &case_a(), &tariff);
    };
    let six = six_with(2_000, 3);
    for count in 1..=MOST_BANDS as u32 {
        add("price, number of bands", with_count(six, count));
    }
    let wider = [1 + (1 << 8), 2 + (1 << 16), 6 + (1 << 31)];
    for count in [0, 7, 8, u32::MAX].into_iter().chain(wider) {
        add("price, wrong number of bands", with_count(six, count));
    }
    // 1, 2, 1,000, 1,001, 1,002, and one that is not looked at
    let six = six_with(1_000, 2);
    let last = MOST_BANDS - 1;
    for (place, limit) in [(1, 999), (2, 3), (4, u32::MAX)] {
        add("price, limits just rise", with_limit(six, place, limit));
    }
    for place in 1..last {
        let before = six.limits[place - 1];
        for limit in [before - 1, before] {
            add("price, limits not rising", with_limit(six, place, limit));
        }
    }
    add("price, limits not rising", with_limit(six, 0, 0));
    add("price, limits not rising", with_limit(six, 3, 0));
    add("price, limits not rising", with_limit(six, 3, u32::MAX));
    for limit in [0, 1, 1_002, u32::MAX] {
        add("price, last limit", with_limit(six, last, limit));
    }
    add("price, last limit", with_count(with_limit(six, 4, 0), 5));
}

/// Entries past the count; prices at the edges of their range and past them.
pub fn entries(cases: &mut Collection) {
    let mut add = |kind: &'static str, tariff: Tariff| {
        cases.price_examine(kind, &case_a(), &tariff);
    };
    let [reactor, settling] = volumes(&case_a());
    let bands = [(1, 31), (settling, 2), (reactor, 97)];
    for count in 1..=bands.len() {
        for any in [0, MOST_PRICE + 1, u32::MAX] {
            let plain = tariff(&bands[..count], 9);
            add(
                "price, entries past the count",
                with_rubbish(plain, any, any),
            );
        }
    }
    let six = six_with(500, 2);
    let dear = with_price(six, 5, MOST_PRICE + 1);
    add("price, entries past the count", with_count(dear, 5));
    for price in [0, 1, MOST_PRICE] {
        add("price, edge of a price", with_price(six, 0, price));
        add("price, edge of a price", with_price(six, 5, price));
    }
    for place in 0..MOST_BANDS {
        let dear = with_price(six, place, MOST_PRICE + 1);
        add("price, price too high", dear);
    }
    for price in [5 + (1 << 24), u32::MAX] {
        add("price, price too high", with_price(six, 2, price));
    }
}

/// Surcharges at the edges of their range and past them, on whole cents and rounded.
pub fn surcharges(cases: &mut Collection) {
    let mut add = |kind: &'static str, tariff: Tariff| {
        cases.price_examine(kind, &case_a(), &tariff);
    };
    let bands = [(100, 7), (0, 3)];
    for surcharge in [0, 1, 499, MOST_SURCHARGE] {
        add("price, surcharge", tariff(&bands, surcharge));
        add("price, surcharge", tariff(&[(0, 1_000)], surcharge));
    }
    let past = MOST_SURCHARGE + 1;
    for surcharge in [past, 1_000, 1 << 16, 1 << 31, u32::MAX] {
        add("price, surcharge too high", tariff(&bands, surcharge));
    }
    let volumes = volumes(&case_a());
    for (kind, thousandths) in [
        ("price, surcharge of whole cents", &[0][..]),
        ("price, surcharge rounded up", &[1, 499, 500, 501, 999]),
    ] {
        for surcharge in [1, 333] {
            let of = |over: &u64| over_whole_cents(volumes, surcharge, 12_345, *over);
            for tariff in thousandths.iter().filter_map(of) {
                add(kind, tariff);
            }
        }
    }
}
