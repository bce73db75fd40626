//! Prices, worked by hand on Case A at its candidate: a reactor of 3,105 m3 and a
//! settling tank of 2,060, together 5,165.

use crate::common::*;
use crate::properties::{plant, readings};
use reference::examine::most_return;
use reference::price::{metre, priced, tank, with_surcharge, Band, MOST_BANDS};
use reference::*;

/// Bands by limit and price; the limit of the last one is not looked at.
fn tariff(bands: &[(u32, u32)], surcharge: u32) -> Tariff {
    let mut tariff = Tariff {
        count: bands.len() as u32,
        limits: [0; MOST_BANDS],
        prices: [0; MOST_BANDS],
        surcharge,
    };
    for (place, (limit, price)) in bands.iter().enumerate() {
        tariff.limits[place] = *limit;
        tariff.prices[place] = *price;
    }
    tariff
}

/// Case A's candidate.
fn examined(tariff: &Tariff) -> Priced {
    price_examine(&plant_a(), &readings_a(), candidate_a(), tariff)
}

fn price_a(tariff: &Tariff) -> u64 {
    let found = examined(tariff);
    assert_eq!(found.answer.number(), 0, "{tariff:?}");
    found.price
}

fn refused(number: u8) -> Priced {
    Priced {
        answer: Answer::Refused(number),
        price: 0,
    }
}

#[test]
fn volumes_of_case_a() {
    let sheet = sheet(examined(&tariff(&[(0, 1)], 0)).answer);
    assert_eq!(
        (sheet.reactor_volume, sheet.settling_volume),
        (3_105, 2_060)
    );
}

/// The limit is the last cubic metre of its band.
#[test]
fn a_metre_at_a_limit() {
    let band = |limit, price| Band { limit, price };
    let bands = [band(Some(1), 9), band(Some(4), 5), band(None, 2)];
    let prices: Vec<u64> = (1..=6).map(|n| metre(&bands, n)).collect();
    assert_eq!(prices, [9, 5, 5, 5, 2, 2]);
    assert_eq!(metre(&bands, 1 << 40), 2);
    for (volume, price) in [(0, 0), (1, 9), (2, 14), (4, 24), (5, 26), (6, 28)] {
        assert_eq!(tank(&bands, volume), price);
    }
}

/// Up to the limit a cubic metre is 10 cents, then 3.
#[test]
fn limits_about_the_tanks() {
    for (limit, price) in [
        (1, 10 + 3 * 3_104 + 10 + 3 * 2_059),
        (2_059, 20_590 + 3 * 1_046 + 20_593),
        (2_060, 20_600 + 3 * 1_045 + 20_600),
        (2_061, 20_610 + 3 * 1_044 + 20_600),
        (3_104, 31_043 + 20_600),
        (3_105, 31_050 + 20_600),
        (3_106, 31_050 + 20_600),
        (5_165, 31_050 + 20_600),
        (u32::MAX, 31_050 + 20_600),
    ] {
        let two = tariff(&[(limit, 10), (0, 3)], 0);
        assert_eq!(price_a(&two), price, "{limit}");
    }
}

/// One band is a price for every cubic metre. Of six the settling tank ends with
/// the fourth, the reactor with the fifth.
#[test]
fn one_band_and_six() {
    assert_eq!(price_a(&tariff(&[(0, 7)], 0)), 36_155);
    assert_eq!(price_a(&tariff(&[(0, 0)], 500)), 0);
    assert_eq!(price_a(&tariff(&[(0, 1_000_000)], 0)), 5_165_000_000);
    let six = [
        (1, 100),
        (2, 50),
        (1_000, 9),
        (2_060, 4),
        (3_105, 2),
        (0, 1),
    ];
    let settling = 100 + 50 + 998 * 9 + 1_060 * 4;
    let reactor = settling + 1_045 * 2;
    assert_eq!(price_a(&tariff(&six, 0)), reactor + settling);
    assert_eq!(reactor + settling, 28_834);
}

/// Thousandths of 5,165: of the tanks alone 1 would come to 4 and 3.
#[test]
fn surcharge_of_the_sum() {
    for (surcharge, more) in [
        (0, 0),
        (1, 6),       // 5.165
        (199, 1_028), // 1,027.835
        (200, 1_033), // whole
        (201, 1_039), // 1,038.165
        (499, 2_578), // 2,577.335
        (500, 2_583), // 2,582.5
    ] {
        let price = price_a(&tariff(&[(0, 1)], surcharge));
        assert_eq!(price, 5_165 + more, "{surcharge}");
    }
}

/// The first cubic metre of either tank moves a whole surcharge of 1,033 cents up
/// or down.
#[test]
fn surcharge_about_whole_cents() {
    for (first, price) in [
        (200, 1_033_000 + 1_033),
        (201, 1_033_002 + 1_034), // 1,033.002
        (199, 1_032_998 + 1_033), // 1,032.998
    ] {
        let two = tariff(&[(1, first), (0, 200)], 1);
        assert_eq!(price_a(&two), price);
    }
    assert_eq!(with_surcharge(1, 1), 2);
    assert_eq!(with_surcharge(999, 1), 1_000);
    assert_eq!(with_surcharge(1_000, 1), 1_001);
    assert_eq!(with_surcharge(1_001, 1), 1_003);
    assert_eq!(with_surcharge(1_001, 0), 1_001);
}

/// 22 for a tariff of these bands on Case A, or none.
fn due(bands: &[(u32, u32)], surcharge: u32) -> u8 {
    let found = examined(&tariff(bands, surcharge));
    if found.answer.number() != 0 {
        assert_eq!(found, refused(found.answer.number()));
    }
    found.answer.number()
}

#[test]
fn rising_limits() {
    for (limits, number) in [
        (&[1][..], 0),
        (&[0], 22),
        (&[u32::MAX], 0),
        (&[1, 2], 0),
        (&[1, 1], 22),
        (&[2, 1], 22),
        (&[0, 1], 22),
        (&[1, 2, 3, 4, 5], 0),
        (&[0, 2, 3, 4, 5], 22),
        (&[1, 2, 3, 4, 4], 22),
        (&[1, 2, 3, 5, 4], 22),
        (&[1, 3, 3, 4, 5], 22),
        (&[1, 2, 3, 4, 0], 22),
        (&[1, 2, 3, u32::MAX, u32::MAX], 22),
        (&[9_000, 9_001, 9_002, 9_003, u32::MAX], 0),
        (&[9_000, 9_001, 9_000, 9_003, u32::MAX], 22),
    ] {
        let mut bands: Vec<(u32, u32)> = limits.iter().map(|limit| (*limit, 5)).collect();
        for last in [0, 1, limits[0], u32::MAX] {
            bands.push((last, 5));
            assert_eq!(due(&bands, 0), number, "{limits:?}, {last}");
            bands.pop();
        }
    }
}

#[test]
fn ranges_of_prices_and_surcharge() {
    for (price, number) in [
        (0, 0),
        (1_000_000, 0),
        (1_000_001, 22),
        (1 << 31, 22),
        (u32::MAX, 22),
    ] {
        for place in 0..6 {
            let mut bands = [(1, 5), (2, 5), (3, 5), (4, 5), (5, 5), (6, 5)];
            bands[place].1 = price;
            assert_eq!(due(&bands, 0), number, "{price} at {place}");
        }
    }
    for (surcharge, number) in [
        (0, 0),
        (499, 0),
        (500, 0),
        (501, 22),
        (1_000, 22),
        (u32::MAX, 22),
    ] {
        assert_eq!(due(&[(0, 5)], surcharge), number, "{surcharge}");
    }
}

#[test]
fn numbers_of_bands() {
    let six = tariff(&[(1, 5), (2, 5), (3, 5), (4, 5), (5, 5), (6, 5)], 0);
    for (count, number) in [
        (0, 22),
        (1, 0),
        (5, 0),
        (6, 0),
        (7, 22),
        (8, 22),
        ((1 << 8) + 1, 22),
        ((1 << 16) + 6, 22),
        (u32::MAX, 22),
    ] {
        let found = examined(&Tariff { count, ..six });
        assert_eq!(found.answer.number(), number, "{count}");
    }
}

/// Neither the entries past the count nor the last band's limit.
#[test]
fn what_is_not_looked_at() {
    let bands = [(1_000, 9), (2_000, 4), (u32::MAX, 2), (1, 1), (1, 1)];
    for count in 1..=5 {
        let plain = tariff(&bands[..count], 3);
        for (limit, price) in [(0, 0), (1, 1), (1_000, u32::MAX), (u32::MAX, 1_000_001)] {
            let mut other = plain;
            other.limits[count - 1..].fill(limit);
            other.prices[count..].fill(price);
            assert_eq!(examined(&other), examined(&plain), "{count}, {limit}");
        }
    }
}

/// The largest volumes in either way: the sum in thousandths of a cent with the
/// largest surcharge stays below 10^16.
#[test]
fn largest_prices() {
    let dear = tariff(&[(1, 999_999), (0, 1_000_000)], 500);
    for way in [Way::Bod, Way::Cod] {
        let plant = Plant {
            bod_load: 1,
            daily_flow: 200_000,
            wet_weather_flow: 50_000,
            design_temperature: 10,
            sludge_volume_index: 180,
            phosphorus_target: 0,
            site_surface: 100_000,
            site_depth: 10_000,
            removal: Removal::Suction,
            dose: 500_000,
            way,
            ..plant_a()
        };
        let readings = measured([2_000.0, 4_400.0, 2_000.0, 46.0, 100.0]);
        let examined = (30..=75).map(|r| examine(&plant, &readings, candidate(500, r, 20)));
        let largest = examined.max_by_key(|answer| answer.sheet().total_volume);
        let found = priced(largest.unwrap(), &dear);
        let total = sheet(found.answer).total_volume;
        assert!(total > 8_000_000, "{total}");
        let sum = total * 1_000_000 - 2;
        assert!(500 * sum < 10_000_000_000_000_000, "{total}");
        assert_eq!(found.price, sum + sum / 2);
    }
}

/// What a call is given.
struct Asked {
    plant: Plant,
    readings: [Reading; 5],
    candidate: Candidate,
    tariff: Tariff,
}

impl Asked {
    fn examined(&self) -> Priced {
        price_examine(&self.plant, &self.readings, self.candidate, &self.tariff)
    }

    fn chosen(&self) -> Priced {
        price_choose(&self.plant, &self.readings, &self.tariff)
    }
}

/// With a fault of every kind. The nitrogen is not covered at 300, and in the
/// winter of 4 degrees neither is nitrification; the site is too small.
fn faulty() -> Asked {
    let mut plant = Plant {
        bod_load: 0,
        sludge_volume_index: 181,
        site_surface: 374,
        site_depth: 3_000,
        consent: consent(&[term(4, 1_000)]),
        ..plant_a()
    };
    plant.consent.count = 5;
    Asked {
        plant,
        readings: measured([f32::NAN, 5_000.0, 150.0, 60.0, 8.0]),
        candidate: candidate(300, 76, 20),
        tariff: tariff(&[(1, 1_000_001), (2, 5), (2, 5), (0, 5)], 501),
    }
}

/// One fault after the other is mended.
const MENDS: [fn(&mut Asked); 16] = [
    |asked| asked.plant.bod_load = 1_200,
    |asked| asked.plant.sludge_volume_index = 100,
    |asked| asked.readings[0] = Reading::Measured(200.0),
    |asked| asked.readings[1] = Reading::Measured(441.0),
    |asked| asked.readings[1] = Reading::Measured(400.0),
    |asked| asked.plant.consent.count = 1,
    |asked| asked.candidate.return_ratio = 75,
    |asked| asked.readings[3] = Reading::Measured(46.0),
    |asked| asked.plant.consent.terms[0].temperature = 12,
    |asked| asked.plant.consent.terms[0].nitrate_target = 10_000,
    |asked| asked.plant.site_surface = 1_000,
    |asked| asked.plant.site_depth = 5_000,
    |asked| asked.tariff.surcharge = 500,
    |asked| asked.tariff.prices[0] = 1_000_000,
    |asked| asked.tariff.limits[2] = 3,
    |asked| asked.tariff.count = 0,
];

#[test]
fn order_of_refusals() {
    let mut asked = faulty();
    let (mut examined, mut chosen) = (Vec::new(), Vec::new());
    for mend in MENDS {
        examined.push(asked.examined());
        chosen.push(asked.chosen());
        mend(&mut asked);
    }
    // all is mended before the number of bands is set to 0
    for sound in [examined.pop(), chosen.pop()] {
        assert_eq!(sound.unwrap().answer.number(), 0);
    }
    for none in [asked.examined(), asked.chosen()] {
        assert_eq!(none, refused(22));
    }
    let numbers = [1, 17, 2, 3, 4, 14, 6, 7, 15, 16, 9, 10, 22, 22, 22];
    assert_eq!(examined, numbers.map(refused));
    // a depth of 3,000 mm does at the ratio 30
    let numbers = [1, 17, 2, 3, 4, 14, 5, 5, 5, 5, 5, 22, 22, 22, 22];
    assert_eq!(chosen, numbers.map(refused));
}

/// In vertical flow with a hopper V is 601 at 91.
#[test]
fn solids_before_the_tariff() {
    let plant = Plant {
        tank_flow: TankFlow::Vertical,
        removal: Removal::Hopper,
        site_depth: 10_000,
        ..plant_a()
    };
    let at = |ratio| price_examine(&plant, &readings_a(), candidate(300, ratio, 20), &none());
    assert_eq!(at(91), refused(8));
    assert_eq!(at(90), refused(22));
}

/// No band at all.
fn none() -> Tariff {
    tariff(&[], 0)
}

/// The choice goes by volume: beyond 1,500 m3 a cubic metre costs nothing, so a
/// smaller settling tank beside a larger reactor would be cheaper.
#[test]
fn the_choice_goes_by_volume() {
    let (plant, readings) = (plant_a(), readings_a());
    let due = choose(&plant, &readings);
    for bands in [
        &[(0, 5)][..],
        &[(1_500, 10), (0, 0)],
        &[(2_000, 0), (0, 10)],
    ] {
        let found = price_choose(&plant, &readings, &tariff(bands, 0));
        assert_eq!(found, priced(due, &tariff(bands, 0)));
        assert_eq!(found.answer, due);
    }
    let steep = tariff(&[(1_500, 10), (0, 0)], 0);
    let chosen = price_choose(&plant, &readings, &steep);
    let ratios = 30..=most_return(plant.tank_flow);
    let rivals = ratios.map(|r| price_examine(&plant, &readings, candidate(300, r, 20), &steep));
    let permitted = rivals.filter(|rival| rival.answer.number() == 0);
    let cheapest = permitted.min_by_key(|rival| rival.price).unwrap();
    assert!(cheapest.price < chosen.price);
    let total = |found: &Priced| sheet(found.answer).total_volume;
    assert!(total(&cheapest) > total(&chosen));
}

/// A random tariff of up to six bands, with limits of up to some metres.
fn any_tariff(generator: &mut Generator, most: u32) -> Tariff {
    let count = generator.within(1, 6);
    let mut limits: Vec<u32> = (0..count).map(|_| generator.within(1, most)).collect();
    limits.sort_unstable();
    limits.dedup();
    let dear = generator.pick(&[9, 1_000, 1_000_000]);
    let band = |limit: &u32| (*limit, generator.within(0, dear));
    let bands: Vec<(u32, u32)> = limits.iter().map(band).collect();
    tariff(&bands, generator.within(0, 500))
}

/// A tank by whole bands: the metres of a band are those up to its limit, less
/// those up to the limit before.
fn by_bands(tariff: &Tariff, volume: u64) -> u64 {
    let last = tariff.count as usize - 1;
    let (mut before, mut sum) = (0, 0);
    for place in 0..=last {
        let end = match place == last {
            true => volume,
            false => volume.min(u64::from(tariff.limits[place])),
        };
        sum += (end - before) * u64::from(tariff.prices[place]);
        before = end;
    }
    sum
}

#[test]
fn metres_and_bands() {
    let mut generator = Generator::new(0x5eed_0011);
    for _ in 0..3_000 {
        let most = generator.pick(&[8, 300, 4_000]);
        let tariff = any_tariff(&mut generator, most);
        let bands = tariff.bands().unwrap();
        let near = generator.pick(&tariff.limits) + generator.within(0, 2);
        for volume in [near, generator.within(1, 3_000)].map(u64::from) {
            assert_eq!(
                tank(&bands, volume),
                by_bands(&tariff, volume),
                "{tariff:?}"
            );
        }
    }
}

/// The sheet, or the refusal, is that of examining, whatever the tariff; the price
/// is the sum by bands and its surcharge.
#[test]
fn prices_of_any_plants() {
    let mut generator = Generator::new(0x5eed_0111);
    let (mut sheets, mut refusals) = (0, 0);
    for _ in 0..3_000 {
        let mut plant = plant(&mut generator);
        plant.daily_flow = generator.within(1, 4_000);
        plant.wet_weather_flow = plant.daily_flow / 8 + 1;
        let readings = readings(&mut generator);
        let place = candidate(generator.within(200, 500), 50, 22);
        let tariff = any_tariff(&mut generator, 6_000);
        let answer = examine(&plant, &readings, place);
        let found = price_examine(&plant, &readings, place, &tariff);
        assert_eq!(found.answer, answer);
        let Answer::Sheet(sheet) = answer else {
            assert_eq!(found, refused(answer.number()));
            refusals += 1;
            continue;
        };
        let of = |volume| by_bands(&tariff, volume);
        let sum = of(sheet.reactor_volume) + of(sheet.settling_volume);
        let thousandfold = sum * u64::from(1_000 + tariff.surcharge);
        assert_eq!(found.price, thousandfold.div_ceil(1_000));
        sheets += 1;
    }
    assert!(sheets >= 100 && refusals >= 100, "{sheets} {refusals}");
}
