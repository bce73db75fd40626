//! Existing tanks against a span of sludge volume indices, through the archive.

mod common;

use common::case_a;
use library::number::{
    BAD_KIND, BAD_LENGTH, BAD_VERSION, BUILT_SIZE, BULKING, COD_RATIO, NO_NUMBER, OFF_GRID,
    PLANT_DATA, READING_RANGE, SHEET, SHORT_PAGE, SPAN, TERMS,
};
use library::sheet::GRID;
use library::{built, examine};
use library::{Built, Candidate, Existing, Reading, Removal, Request, Span, TankFlow};
use library::{BUILT_LENGTH, BUILT_PAGE, CHOOSE_LENGTH, LEAST_INDEX, MOST_INDEX};
use library::{PAGE_LENGTH, VERSION};

const UNTOUCHED: u8 = 0xaa;

/// Case A's tanks at its own candidate: reactor 3,105 m3, 454 m2, 4,536 mm.
const TANKS: Existing = Existing {
    reactor: 3_105,
    surface: 454,
    depth: 4_536,
    fraction: 300,
    thickening: 20,
};

/// Tanks that no candidate needs more than.
const LARGE: Existing = Existing {
    reactor: u32::MAX,
    surface: u32::MAX,
    depth: u32::MAX,
    ..TANKS
};

const ALL: Span = span(LEAST_INDEX, MOST_INDEX);

const fn span(least: u32, most: u32) -> Span {
    Span { least, most }
}

/// What `built` gives.
fn answer(request: &Request, existing: &Existing, span: &Span) -> Built {
    let mut page = [UNTOUCHED; BUILT_PAGE + 1];
    let (number, written) = built(&request.to_built(existing, span), &mut page);
    assert_eq!(written, BUILT_PAGE as u64);
    assert_eq!(page[BUILT_PAGE], UNTOUCHED);
    let page = page.first_chunk().unwrap();
    if number != SHEET {
        assert_eq!(page, &[0; BUILT_PAGE]);
    }
    Built::from_page(number, page)
}

/// The reactor, surface and depth that a return ratio takes with an index,
/// where it is permitted.
fn needed(
    request: &Request,
    existing: &Existing,
    index: u32,
    return_ratio: u32,
) -> Option<[u32; 3]> {
    let candidate = Candidate {
        fraction: existing.fraction,
        return_ratio,
        thickening: existing.thickening,
    };
    let picked = Request {
        sludge_volume_index: index,
        ..*request
    };
    let mut page = [0; PAGE_LENGTH];
    let (number, written) = examine(&picked.to_examine(candidate), &mut page);
    let listing = String::from_utf8_lossy(&page[..written as usize]).into_owned();
    let figure = |label: &str| {
        let mut lines = listing.lines();
        let figure = lines.find_map(|line| line.strip_prefix(label));
        figure.unwrap().parse().unwrap()
    };
    (number == SHEET).then(|| ["reactor ", "surface ", "depth "].map(figure))
}

/// Whether some return ratio holds an index, by examining all of them.
fn is_held(request: &Request, existing: &Existing, index: u32) -> bool {
    let ratio = &GRID[1];
    let mut ratios = ratio.least..=ratio.most(request.tank);
    let sizes = [existing.reactor, existing.surface, existing.depth];
    ratios.any(|ratio| {
        needed(request, existing, index, ratio).is_some_and(|needed| {
            needed
                .iter()
                .zip(sizes)
                .all(|(needed, size)| *needed <= size)
        })
    })
}

/// Every span that starts at one of these indices gets the smallest one that
/// no return ratio holds. Gives the indices that are lost.
fn is_by_examining(request: &Request, existing: &Existing) -> Vec<u32> {
    let indices = LEAST_INDEX..=MOST_INDEX;
    let lost: Vec<u32> = indices
        .filter(|index| !is_held(request, existing, *index))
        .collect();
    for least in LEAST_INDEX..=MOST_INDEX {
        let first = lost.iter().find(|index| **index >= least);
        let expected = first.map_or(Built::Held, |index| Built::Lost(u64::from(*index)));
        let got = answer(request, existing, &span(least, MOST_INDEX));
        assert_eq!(got, expected, "{existing:?} from {least}");
        let alone = match lost.contains(&least) {
            true => Built::Lost(u64::from(least)),
            false => Built::Held,
        };
        assert_eq!(answer(request, existing, &span(least, least)), alone);
    }
    lost
}

/// Case A's own tanks hold its index, 100, and no larger one.
#[test]
fn case_a_tanks() {
    let lost = is_by_examining(&case_a(), &TANKS);
    assert_eq!(lost, (101..=180).collect::<Vec<_>>());
    assert_eq!(answer(&case_a(), &TANKS, &span(50, 100)), Built::Held);
    assert_eq!(answer(&case_a(), &TANKS, &span(50, 101)), Built::Lost(101));
}

/// One less of a size loses the index.
#[test]
fn each_size_is_held_to() {
    let hundred = span(100, 100);
    assert_eq!(answer(&case_a(), &TANKS, &hundred), Built::Held);
    for less in [
        Existing {
            reactor: 3_104,
            ..TANKS
        },
        Existing {
            surface: 453,
            ..TANKS
        },
        Existing {
            depth: 4_535,
            ..TANKS
        },
    ] {
        assert_eq!(answer(&case_a(), &less, &hundred), Built::Lost(100));
        let found = is_held(&case_a(), &less, 100);
        assert!(!found, "{less:?}");
    }
}

/// Holding is not monotone: 145 is lost, 146 is held, 147 is lost.
#[test]
fn each_index_stands_for_itself() {
    let (request, existing) = hopper();
    let lost = is_by_examining(&request, &existing);
    assert_eq!(lost[..3], [145, 147, 148]);
    assert_eq!(lost.len(), 35);
    let held = answer(&request, &existing, &span(146, 146));
    assert_eq!(held, Built::Held);
    assert_eq!(
        answer(&request, &existing, &span(146, 150)),
        Built::Lost(147)
    );
}

/// A works of vertical flow with hoppers, and its tanks.
fn hopper() -> (Request, Existing) {
    let measured = |value: f32| Reading::Measured(value.to_bits());
    let request = Request {
        load: 1_080,
        flow: 4_000,
        wet_weather_flow: 420,
        site_surface: 400,
        site_depth: 6_000,
        process: library::Process::Simultaneous,
        tank: TankFlow::Vertical,
        removal: Removal::Hopper,
        nitrate_target: 12_000,
        bod: measured(250.0),
        cod: measured(500.0),
        solids: measured(190.0),
        nitrogen: measured(48.0),
        ..case_a()
    };
    let existing = Existing {
        reactor: 4_450,
        surface: 300,
        depth: 5_000,
        fraction: 400,
        thickening: 24,
    };
    (request, existing)
}

/// The site's limits and the cover are held to, however large the tanks are.
#[test]
fn rules_are_held_to() {
    assert_eq!(answer(&case_a(), &LARGE, &ALL), Built::Held);
    let narrow = Request {
        site_surface: 300,
        ..case_a()
    };
    assert!(!is_by_examining(&narrow, &LARGE).is_empty());
    let uncovered = Existing {
        fraction: 299,
        ..LARGE
    };
    assert_eq!(answer(&case_a(), &uncovered, &ALL), Built::Lost(50));
    let suction = Request {
        removal: Removal::Suction,
        ..case_a()
    };
    assert_eq!(answer(&suction, &LARGE, &ALL), Built::Held);
}

/// The plant's own index is checked and not used further.
#[test]
fn the_own_index_is_only_checked() {
    for (sludge_volume_index, refused) in [
        (49, Some(PLANT_DATA)),
        (50, None),
        (180, None),
        (181, Some(BULKING)),
        (200, Some(BULKING)),
        (201, Some(PLANT_DATA)),
    ] {
        let request = Request {
            sludge_volume_index,
            ..case_a()
        };
        let expected = refused.map_or(Built::Lost(101), Built::Refused);
        assert_eq!(answer(&request, &TANKS, &ALL), expected);
    }
}

/// A span is 20 first of all.
#[test]
fn spans() {
    for (least, most) in [
        (49, 180),
        (50, 181),
        (101, 100),
        (0, 0),
        (180, 50),
        (181, 181),
        (0, u32::MAX),
        (u32::MAX, u32::MAX),
    ] {
        let wrong = span(least, most);
        let (refused, none) = (Built::Refused(SPAN), Existing::default());
        assert_eq!(answer(&case_a(), &TANKS, &wrong), refused, "{wrong:?}");
        assert_eq!(answer(&Request::default(), &none, &wrong), refused);
    }
    for (least, most) in [(50, 50), (180, 180), (50, 180)] {
        assert_eq!(answer(&case_a(), &LARGE, &span(least, most)), Built::Held);
    }
}

/// A size of 0 is 21, before the data.
#[test]
fn sizes() {
    let tanks = |[reactor, surface, depth]: [u32; 3]| Existing {
        reactor,
        surface,
        depth,
        ..TANKS
    };
    for sizes in [[0, 1, 1], [1, 0, 1], [1, 1, 0], [0, 0, 0]] {
        for request in [case_a(), Request::default()] {
            let refused = Built::Refused(BUILT_SIZE);
            assert_eq!(answer(&request, &tanks(sizes), &ALL), refused, "{sizes:?}");
        }
    }
    assert_eq!(answer(&case_a(), &tanks([1; 3]), &ALL), Built::Lost(50));
}

/// Data that are refused, with their numbers.
fn refused_data() -> [(Request, u32); 6] {
    let measured = |value: f32| Reading::Measured(value.to_bits());
    let mut data = [
        PLANT_DATA,
        BULKING,
        NO_NUMBER,
        READING_RANGE,
        COD_RATIO,
        TERMS,
    ]
    .map(|number| (case_a(), number));
    data[0].0.load = 0;
    data[1].0.sludge_volume_index = 181;
    data[2].0.bod = measured(f32::NAN);
    data[3].0.bod = Reading::Heads(0);
    data[4].0.cod = measured(440.1);
    data[5].0.terms.count = 5;
    data
}

/// The data come before the grid, which 6 is due for by F or H alone.
#[test]
fn data_and_grid() {
    for (fraction, thickening) in [
        (199, 20),
        (501, 20),
        (300, 19),
        (300, 26),
        (0, 0),
        (1_000, 20),
        (u32::MAX, u32::MAX),
    ] {
        let off = Existing {
            fraction,
            thickening,
            ..LARGE
        };
        let refused = Built::Refused(OFF_GRID);
        assert_eq!(answer(&case_a(), &off, &ALL), refused, "{off:?}");
        for (request, number) in refused_data() {
            for existing in [off, LARGE] {
                let refused = Built::Refused(number);
                assert_eq!(answer(&request, &existing, &ALL), refused);
            }
        }
    }
}

#[test]
fn answers_by_number_and_page() {
    let page = |index: u64| index.to_le_bytes();
    assert_eq!(Built::from_page(SHEET, &page(0)), Built::Held);
    assert_eq!(Built::from_page(SHEET, &page(136)), Built::Lost(136));
    assert_eq!(Built::from_page(SPAN, &page(0)), Built::Refused(20));
    assert_eq!(Built::from_page(BUILT_SIZE, &page(0)), Built::Refused(21));
}

#[test]
fn existing_tanks_need_their_page() {
    let mut page = [UNTOUCHED; BUILT_PAGE - 1];
    for (request, existing, span) in [
        (case_a(), TANKS, ALL),
        (case_a(), TANKS, span(51, 50)),
        (Request::default(), TANKS, ALL),
    ] {
        let bytes = request.to_built(&existing, &span);
        assert_eq!(built(&bytes, &mut page), (SHORT_PAGE, 0));
        assert_eq!(built(&bytes, &mut []), (SHORT_PAGE, 0));
    }
    assert_eq!(page, [UNTOUCHED; BUILT_PAGE - 1]);
}

#[test]
fn malformed_requests_have_their_codes() {
    let mut page = [UNTOUCHED; BUILT_PAGE];
    let good = case_a().to_built(&TANKS, &ALL);
    let longer = [&good[..], &[0; 4]].concat();
    for length in [0, 3, 4, CHOOSE_LENGTH, 236, 240, BUILT_LENGTH - 1, 256] {
        assert_eq!(built(&longer[..length], &mut page), (BAD_LENGTH, 0));
        assert_eq!(built(&longer[..length], &mut []), (BAD_LENGTH, 0));
    }
    for version in [VERSION - 1, VERSION + 1] {
        let mut other = good;
        other[..4].copy_from_slice(&version.to_le_bytes());
        for length in [4, CHOOSE_LENGTH, BUILT_LENGTH] {
            assert_eq!(built(&other[..length], &mut page), (BAD_VERSION, 0));
            assert_eq!(built(&other[..length], &mut []), (BAD_VERSION, 0));
        }
        assert_eq!(built(&other[..3], &mut page), (BAD_LENGTH, 0));
    }
    // a process, a tank flow, a reading and a way that are not known
    for (place, value) in [(56, 5), (64, 2), (76, 3), (220, 2), (223, 1)] {
        let mut unknown = good;
        unknown[place] = value;
        assert_eq!(built(&unknown, &mut page), (BAD_KIND, 0));
        // before the span, which is no part of the layout
        unknown[BUILT_LENGTH - 4] = 0;
        assert_eq!(built(&unknown, &mut page), (BAD_KIND, 0));
    }
    assert_eq!(page, [UNTOUCHED; BUILT_PAGE]);
}
