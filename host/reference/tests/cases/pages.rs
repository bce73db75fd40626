//! Writing to a page.

use crate::common::*;
use reference::*;

fn answers() -> [Answer; 4] {
    let examined = examine(&plant_a(), &readings_a(), candidate_a());
    let most = Sheet {
        sludge_production: u64::MAX,
        ..Sheet::default()
    };
    [
        examined,
        Answer::Refused(4),
        Answer::Refused(10),
        Answer::Sheet(most),
    ]
}

#[test]
fn refused_listing() {
    for number in (1..=10).chain(14..=17) {
        let text = format!("refused {number}\n");
        assert_eq!(listing(&Answer::Refused(number)), text.as_bytes());
    }
}

#[test]
fn zeros_are_listed() {
    let text = String::from_utf8(listing(&Answer::Sheet(Sheet::default()))).unwrap();
    assert!(text.starts_with("fraction 0\nreturn 0\nthickening 0\nage 0\n"));
    assert_eq!(text.lines().count(), 15);
}

#[test]
fn whole_listing_and_later_bytes_unchanged() {
    for answer in answers() {
        let expected = listing(&answer);
        for spare in [0, 1, 40] {
            let mut page = vec![0xa5; expected.len() + spare];
            assert_eq!(write(&answer, &mut page), (0, expected.len()));
            assert_eq!(&page[..expected.len()], &expected[..]);
            assert!(page[expected.len()..].iter().all(|byte| *byte == 0xa5));
        }
    }
}

#[test]
fn short_page_is_left_alone() {
    for answer in answers() {
        let length = listing(&answer).len();
        for short in [1, 2, length] {
            let mut page = vec![0xa5; length - short];
            assert_eq!(write(&answer, &mut page), (11, 0));
            assert!(page.iter().all(|byte| *byte == 0xa5));
        }
    }
}

/// The length is counted; the listing is written out.
#[test]
fn length_of_a_listing() {
    for answer in answers() {
        assert_eq!(length(&answer), listing(&answer).len());
    }
    assert_eq!(length(&Answer::Refused(9)), 10);
    assert_eq!(length(&Answer::Refused(10)), 11);
    assert_eq!(length(&Answer::Sheet(Sheet::default())), 132 + 15);
    for power in 0..20 {
        for total_volume in [10_u64.pow(power) - 1, 10_u64.pow(power)] {
            let sheet = Answer::Sheet(Sheet {
                total_volume,
                ..Sheet::default()
            });
            assert_eq!(length(&sheet), listing(&sheet).len());
        }
    }
    let figure = u64::MAX;
    let most = Answer::Sheet(Sheet {
        fraction: figure,
        return_ratio: figure,
        thickening: figure,
        sludge_age: figure,
        sludge_production: figure,
        sludge_mass: figure,
        solids: figure,
        reactor_volume: figure,
        settling_surface: figure,
        settling_depth: figure,
        settling_volume: figure,
        total_volume: figure,
        recirculation: figure,
        hourly_oxygen: figure,
        oxygen_transfer: figure,
    });
    assert_eq!(length(&most), 432);
    assert_eq!(length(&most), listing(&most).len());
}
