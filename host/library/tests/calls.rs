//! The calls, through the archive.

mod common;

use common::{case_a, CASE_A_CANDIDATE, CASE_A_LISTING};
use library::number::*;
use library::sheet::{candidates, GRID, LINES};
use library::{census, choose, day_log, examine, explain, load, target, target_from_page};
use library::{Candidate, Census, Date, Day, Figures, Load, Process, Reading, Request, TankFlow};
use library::{
    Term, TermFigures, Terms, Way, LOAD_PAGE, MOST_TERMS, TARGET_LENGTH, TARGET_PAGE, VERSION,
};
use library::{CENSUS_LENGTH, CHOOSE_LENGTH, COUNTED, EXAMINE_LENGTH, FIGURES_LENGTH, PAGE_LENGTH};

const UNTOUCHED: u8 = 0xaa;

#[test]
fn examines_case_a() {
    let mut page = [UNTOUCHED; PAGE_LENGTH];
    let (number, written) = examine(&case_a().to_examine(CASE_A_CANDIDATE), &mut page);
    assert_eq!((number, written), (SHEET, CASE_A_LISTING.len() as u64));
    assert_eq!(&page[..CASE_A_LISTING.len()], CASE_A_LISTING.as_bytes());
    assert!(page[CASE_A_LISTING.len()..]
        .iter()
        .all(|&byte| byte == UNTOUCHED));
}

#[test]
fn chooses_for_case_a() {
    let mut page = [UNTOUCHED; PAGE_LENGTH];
    let (number, written) = choose(&case_a().to_choose(), &mut page);
    let listing = &page[..written as usize];
    assert_eq!(number, SHEET);
    assert!(listing.starts_with(b"fraction 300\nreturn 71\nthickening 22\n"));
}

#[test]
fn explains_case_a() {
    let mut page = [UNTOUCHED; FIGURES_LENGTH];
    let (number, written) = explain(&case_a().to_examine(CASE_A_CANDIDATE), &mut page);
    assert_eq!((number, written), (SHEET, FIGURES_LENGTH as u64));
    let figures = Figures {
        nitrate_to_remove: 26_000,
        removed_by_bod: 26_000,
        removed_by_dose: 0,
        nitrate_removable: 26_000,
        solids: 3_779,
        sludge_volume: 378,
        surface: 454,
        depth: 4_536,
        verdict: 0,
        terms: [TermFigures::default(); MOST_TERMS],
    };
    assert_eq!(Figures::from_page(&page), figures);
}

/// Five parts of the dose remove one of nitrate, and a part of five nothing.
#[test]
fn a_dose_covers_what_the_bod_leaves() {
    let candidate = Candidate {
        fraction: 299,
        ..CASE_A_CANDIDATE
    };
    for (dose, removed_by_dose, verdict) in [
        (0, 0, NITRATE),
        (4, 0, NITRATE),
        (999, 199, NITRATE),
        (1_000, 200, SHEET),
        (500_000, 100_000, SHEET),
    ] {
        let request = Request { dose, ..case_a() };
        let bytes = request.to_examine(candidate);
        let mut page = [UNTOUCHED; FIGURES_LENGTH];
        assert_eq!(explain(&bytes, &mut page).0, SHEET);
        let figures = Figures::from_page(&page);
        assert_eq!(figures.removed_by_bod, 25_800);
        assert_eq!(figures.removed_by_dose, removed_by_dose);
        assert_eq!(figures.nitrate_removable, 25_800 + removed_by_dose);
        assert_eq!(figures.verdict, u64::from(verdict));
        assert_eq!(examine(&bytes, &mut [0; PAGE_LENGTH]).0, verdict);
    }
}

#[test]
fn a_dose_out_of_range_is_refused() {
    for (dose, number) in [
        (500_000, SHEET),
        (500_001, PLANT_DATA),
        (u32::MAX, PLANT_DATA),
    ] {
        let request = Request { dose, ..case_a() };
        let mut page = [UNTOUCHED; PAGE_LENGTH];
        assert_eq!(choose(&request.to_choose(), &mut page).0, number);
    }
}

/// A term from November to March.
fn winter(temperature: u32, target: u32) -> Term {
    Term {
        first: Date { month: 11, day: 1 },
        last: Date { month: 3, day: 31 },
        temperature,
        target,
    }
}

/// Case A with these terms.
fn with_terms(terms: &[Term]) -> Request {
    let mut request = case_a();
    terms.iter().for_each(|term| request.terms.push(*term));
    request
}

/// At 8 degrees Case A loses its nitrification, at 11 it removes 23,000 of its
/// 36,000 mg/m3; 15 is asked of every term before 16 of any.
#[test]
fn a_candidate_is_judged_in_every_term() {
    let (lost, short, kept) = (winter(8, 30_000), winter(11, 12_999), winter(11, 13_000));
    for (terms, verdict) in [
        (&[kept][..], SHEET),
        (&[kept, short], TERM_NITRATE),
        (&[short, kept, kept, lost], NITRIFICATION),
    ] {
        let bytes = with_terms(terms).to_examine(CASE_A_CANDIDATE);
        assert_eq!(examine(&bytes, &mut [0; PAGE_LENGTH]).0, verdict);
        let mut page = [UNTOUCHED; FIGURES_LENGTH];
        assert_eq!(explain(&bytes, &mut page).0, SHEET);
        let figures = Figures::from_page(&page);
        assert_eq!(figures.verdict, u64::from(verdict));
        for (term, figures) in terms.iter().zip(figures.terms) {
            let in_term = |aerobic_share, fraction, removable| TermFigures {
                aerobic_share,
                fraction,
                nitrate_to_remove: 36_000 - u64::from(term.target),
                removed_by_bod: removable,
                nitrate_removable: removable,
            };
            let expected = match term.temperature {
                8 => in_term(1_037, 0, 0),
                _ => in_term(773, 227, 23_000),
            };
            assert_eq!(figures, expected);
        }
        let rest = &figures.terms[terms.len()..];
        assert!(rest.iter().all(|term| *term == TermFigures::default()));
    }
}

/// The dose counts in a term too: 23,000 and 200 mg/m3 there.
#[test]
fn a_dose_counts_in_a_term() {
    for (target, verdict) in [(12_800, SHEET), (12_799, TERM_NITRATE)] {
        let dose = 1_000;
        let request = Request {
            dose,
            ..with_terms(&[winter(11, target)])
        };
        let mut page = [UNTOUCHED; FIGURES_LENGTH];
        explain(&request.to_examine(CASE_A_CANDIDATE), &mut page);
        let figures = Figures::from_page(&page);
        assert_eq!(figures.terms[0].removed_by_bod, 23_000);
        assert_eq!(figures.terms[0].nitrate_removable, 23_200);
        assert_eq!(figures.verdict, u64::from(verdict));
    }
}

#[test]
fn terms_that_are_not_valid_are_refused() {
    let five = with_terms(&[winter(12, 10_000); 5]);
    assert_eq!(five.terms.count, 5);
    let mut no_day = winter(12, 10_000);
    no_day.last = Date { month: 2, day: 30 };
    let mut leap_day = no_day;
    leap_day.last.day = 29;
    for (request, number) in [
        (five, TERMS),
        (with_terms(&[no_day]), TERMS),
        (with_terms(&[leap_day]), SHEET),
        (with_terms(&[winter(3, 10_000)]), TERMS),
        (with_terms(&[winter(21, 10_000)]), TERMS),
        (with_terms(&[winter(12, 999)]), TERMS),
        (with_terms(&[winter(12, 50_001)]), TERMS),
        (with_terms(&[winter(12, 50_000); 4]), SHEET),
    ] {
        let mut page = [UNTOUCHED; PAGE_LENGTH];
        assert_eq!(choose(&request.to_choose(), &mut page).0, number);
        let bytes = request.to_examine(CASE_A_CANDIDATE);
        assert_eq!(explain(&bytes, &mut page).0, number);
    }
}

/// 17 from an index of 181 on, before any reading; 1 comes first.
#[test]
fn bulking_sludge_is_refused() {
    let not_a_number = Reading::Measured(f32::NAN.to_bits());
    for (sludge_volume_index, flow, bod, number) in [
        (180, 5_000, case_a().bod, SHEET),
        (181, 5_000, case_a().bod, BULKING),
        (200, 5_000, not_a_number, BULKING),
        (181, 0, not_a_number, PLANT_DATA),
        (201, 5_000, not_a_number, PLANT_DATA),
        (180, 5_000, not_a_number, NO_NUMBER),
    ] {
        let request = Request {
            sludge_volume_index,
            flow,
            bod,
            ..case_a()
        };
        let mut page = [UNTOUCHED; PAGE_LENGTH];
        assert_eq!(choose(&request.to_choose(), &mut page).0, number);
        assert_eq!(census(&request.to_choose(), &mut page).0, number);
        let bytes = request.to_examine(CASE_A_CANDIDATE);
        assert_eq!(explain(&bytes, &mut page).0, number);
    }
}

/// An intermittent plant's transfer is that of a simultaneous one, divided by
/// the part of a cycle in which its blowers run.
#[test]
fn intermittent_blowers_pause() {
    for (fraction, oxygen, steady, paused) in [
        (200, 107_396, 138_081, 172_601),
        (300, 108_355, 139_314, 199_020),
        (500, 110_563, 142_153, 284_305),
    ] {
        for (process, transfer) in [
            (Process::Simultaneous, steady),
            (Process::Intermittent, paused),
        ] {
            let request = Request {
                process,
                nitrate_target: 25_000,
                ..case_a()
            };
            let candidate = Candidate {
                fraction,
                ..CASE_A_CANDIDATE
            };
            let mut page = [UNTOUCHED; PAGE_LENGTH];
            let (number, written) = examine(&request.to_examine(candidate), &mut page);
            assert_eq!(number, SHEET);
            let end = format!("\noxygen {oxygen}\ntransfer {transfer}\n");
            assert!(page[..written as usize].ends_with(end.as_bytes()), "{end}");
        }
    }
}

/// Case A in the COD way, with these COD and solids in mg/l.
fn by_cod(cod: f32, solids: f32) -> Request {
    Request {
        way: Way::Cod,
        cod: Reading::Measured(cod.to_bits()),
        solids: Reading::Measured(solids.to_bits()),
        ..case_a()
    }
}

/// The four sheets that docs/cod-way.md works out: sludge, mass, reactor,
/// total, oxygen and transfer; the rest is that of the BOD way.
#[test]
fn the_worked_sheets_of_the_cod_way() {
    let dosed = Request {
        dose: 50_000,
        ..by_cod(400.0, 150.0)
    };
    for (request, [sludge, mass, reactor, total, oxygen, transfer]) in [
        (
            by_cod(400.0, 150.0),
            [1_101_595, 12_926, 3_421, 5_481, 98_196, 126_252],
        ),
        (
            by_cod(400.0, 450.0),
            [1_855_406, 21_770, 5_761, 7_821, 82_080, 105_532],
        ),
        (
            by_cod(100.0, 300.0),
            [1_079_375, 12_665, 3_352, 5_412, 64_500, 82_929],
        ),
        (dosed, [1_174_582, 13_782, 3_647, 5_707, 104_237, 134_019]),
    ] {
        let listing = format!(
            "fraction 300\nreturn 75\nthickening 20\nage 11733\nsludge {sludge}\nmass {mass}\n\
             solids 3779\nreactor {reactor}\nsurface 454\ndepth 4536\nsettling 2060\n\
             total {total}\nrecirculation 2600\noxygen {oxygen}\ntransfer {transfer}\n"
        );
        let mut page = [UNTOUCHED; PAGE_LENGTH];
        let (number, written) = examine(&request.to_examine(CASE_A_CANDIDATE), &mut page);
        assert_eq!(number, SHEET);
        assert_eq!(&page[..written as usize], listing.as_bytes());
    }
}

/// In the COD way a dose adds sludge from 10,001 mg/m3 on; in the BOD way none.
#[test]
fn a_dose_adds_sludge_in_the_cod_way() {
    let sludge = |way: Way, dose: u32| {
        let request = Request {
            way,
            dose,
            ..case_a()
        };
        let mut page = [UNTOUCHED; PAGE_LENGTH];
        let (_, written) = examine(&request.to_examine(CASE_A_CANDIDATE), &mut page);
        let listing = String::from_utf8_lossy(&page[..written as usize]).into_owned();
        let mut lines = listing.lines();
        let line = lines.find_map(|line| line.strip_prefix("sludge "));
        line.unwrap().parse::<u64>().unwrap()
    };
    assert_eq!(sludge(Way::Cod, 0), 1_101_595);
    assert_eq!(sludge(Way::Cod, 10_000), 1_101_595);
    assert!(sludge(Way::Cod, 10_001) > 1_101_595);
    assert_eq!(sludge(Way::Bod, 500_000), 1_000_000);
}

/// Refusal 4 is due in the BOD way alone; 3 and 14 are due in both.
#[test]
fn the_cod_ratio_is_held_to_in_the_bod_way_alone() {
    let too_much = Request {
        way: Way::Bod,
        ..by_cod(440.1, 150.0)
    };
    let no_cod = by_cod(4_400.1, 150.0);
    let mut no_term = by_cod(4_400.0, 150.0);
    no_term.terms.push(winter(3, 10_000));
    for (request, number) in [
        (too_much, COD_RATIO),
        (by_cod(440.1, 150.0), SHEET),
        (by_cod(4_400.0, 150.0), SHEET),
        (no_cod, READING_RANGE),
        (no_term, TERMS),
    ] {
        let mut page = [UNTOUCHED; PAGE_LENGTH];
        assert_eq!(choose(&request.to_choose(), &mut page).0, number);
        assert_eq!(census(&request.to_choose(), &mut page).0, number);
        let bytes = request.to_examine(CASE_A_CANDIDATE);
        assert_eq!(examine(&bytes, &mut page).0, number);
        assert_eq!(explain(&bytes, &mut page).0, number);
    }
}

/// What the tank's own carbon removes of Case A at 300, by process and way, in
/// the design and in a term at its temperature; in a colder one a fraction
/// under 200 is left, which removes nothing.
#[test]
fn nitrate_is_removed_by_the_oxygen_of_the_cod() {
    for (process, by_bod, by_cod) in [
        (Process::PreAnoxic, 26_000, 26_000),
        (Process::Simultaneous, 17_000, 16_764),
        (Process::Intermittent, 17_000, 16_764),
    ] {
        for (way, removed) in [(Way::Bod, by_bod), (Way::Cod, by_cod)] {
            let request = Request {
                process,
                way,
                dose: 500,
                ..with_terms(&[winter(12, 10_000), winter(10, 10_000)])
            };
            let mut page = [UNTOUCHED; FIGURES_LENGTH];
            explain(&request.to_examine(CASE_A_CANDIDATE), &mut page);
            let figures = Figures::from_page(&page);
            assert_eq!(figures.removed_by_bod, removed);
            assert_eq!(figures.removed_by_dose, 100);
            assert_eq!(figures.nitrate_removable, removed + 100);
            assert_eq!(figures.terms[0].removed_by_bod, removed);
            assert_eq!(figures.terms[0].nitrate_removable, removed + 100);
            assert_eq!(figures.terms[1].removed_by_bod, 0);
            assert_eq!(figures.terms[1].nitrate_removable, 100);
        }
    }
}

/// Entries from the count on are not looked at.
#[test]
fn entries_past_the_count() {
    let mut request = with_terms(&[winter(3, 0); 4]);
    request.terms.count = 0;
    let mut page = [UNTOUCHED; PAGE_LENGTH];
    let (number, written) = examine(&request.to_examine(CASE_A_CANDIDATE), &mut page);
    assert_eq!(number, SHEET);
    assert_eq!(&page[..written as usize], CASE_A_LISTING.as_bytes());
}

/// What `target` gives on a date, and the target on its page.
fn asked(terms: &Terms, month: u32, day: u32) -> (u32, u64) {
    let mut page = [UNTOUCHED; PAGE_LENGTH];
    let (number, written) = target(&terms.to_target(Date { month, day }), &mut page);
    assert_eq!(written, TARGET_PAGE as u64);
    let (page, rest) = page.split_first_chunk().unwrap();
    assert!(rest.iter().all(|&byte| byte == UNTOUCHED));
    (number, target_from_page(page))
}

#[test]
fn the_target_in_force() {
    let mut may = winter(15, 9_000);
    may.first = Date { month: 3, day: 31 };
    may.last = Date { month: 5, day: 31 };
    let terms = with_terms(&[winter(8, 20_000), may]).terms;
    for (month, day, target) in [
        (10, 31, 0),
        (11, 1, 20_000),
        (2, 29, 20_000),
        (3, 30, 20_000),
        (3, 31, 9_000),
        (6, 1, 0),
    ] {
        assert_eq!(asked(&terms, month, day), (SHEET, target));
    }
    assert_eq!(asked(&Terms::default(), 7, 1), (SHEET, 0));
}

#[test]
fn a_refused_target_is_0() {
    let terms = with_terms(&[winter(8, 20_000)]).terms;
    for (month, day) in [(2, 30), (13, 1), (0, 0), (12, 32)] {
        assert_eq!(asked(&terms, month, day), (TERMS, 0));
    }
    for terms in [
        with_terms(&[winter(21, 20_000)]).terms,
        with_terms(&[winter(8, 20_000); 5]).terms,
    ] {
        assert_eq!(asked(&terms, 1, 1), (TERMS, 0));
    }
}

#[test]
fn a_target_needs_its_page() {
    let mut page = [UNTOUCHED; TARGET_PAGE - 1];
    for day in [1, 32] {
        let bytes = Terms::default().to_target(Date { month: 1, day });
        assert_eq!(target(&bytes, &mut page), (SHORT_PAGE, 0));
        assert_eq!(target(&bytes, &mut []), (SHORT_PAGE, 0));
    }
    assert_eq!(page, [UNTOUCHED; TARGET_PAGE - 1]);
}

/// Each figure of a page has its place.
#[test]
fn each_figure_has_its_place() {
    let mut page = [0; FIGURES_LENGTH];
    for (place, figure) in page.chunks_exact_mut(8).enumerate() {
        figure.copy_from_slice(&(1_000_000_007 * place as u64).to_le_bytes());
    }
    let figures = Figures::from_page(&page);
    let in_order = [
        figures.nitrate_to_remove,
        figures.removed_by_bod,
        figures.removed_by_dose,
        figures.nitrate_removable,
        figures.solids,
        figures.sludge_volume,
        figures.surface,
        figures.depth,
        figures.verdict,
    ];
    let of_terms = figures.terms.iter().flat_map(|term| {
        [
            term.aerobic_share,
            term.fraction,
            term.nitrate_to_remove,
            term.removed_by_bod,
            term.nitrate_removable,
        ]
    });
    let in_order: Vec<u64> = in_order.into_iter().chain(of_terms).collect();
    assert_eq!(in_order.len(), 29);
    assert!((0..)
        .zip(in_order)
        .all(|(k, figure)| figure == 1_000_000_007 * k));
}

#[test]
fn a_refused_explanation_is_zeros() {
    let candidate = Candidate {
        fraction: 501,
        ..CASE_A_CANDIDATE
    };
    let mut page = [UNTOUCHED; FIGURES_LENGTH];
    assert_eq!(
        explain(&case_a().to_examine(candidate), &mut page),
        (OFF_GRID, FIGURES_LENGTH as u64)
    );
    assert_eq!(page, [0; FIGURES_LENGTH]);
}

#[test]
fn the_census_of_case_a() {
    let mut page = [UNTOUCHED; CENSUS_LENGTH];
    let (number, written) = census(&case_a().to_choose(), &mut page);
    assert_eq!((number, written), (SHEET, CENSUS_LENGTH as u64));
    let counts = Census::from_page(&page);
    let expected = [55_476, 27_600, 0, 0, 0, 0, 0];
    assert_eq!(COUNTED.map(|k| counts.count(k)), expected);
    assert_eq!(counts.permitted(), 55_476);
    assert_eq!((counts.count(32), counts.count(BAD_LENGTH)), (0, 0));
}

/// A term at 8 degrees asks for a fraction of 325, its target of 35,999 for
/// one of 460.
#[test]
fn the_census_of_case_a_with_a_term() {
    let mut page = [UNTOUCHED; CENSUS_LENGTH];
    census(&with_terms(&[winter(8, 35_999)]).to_choose(), &mut page);
    let counts = Census::from_page(&page);
    let of_fractions = |fractions: u64| 276 * fractions;
    let expected = [41, 100, 25, 135, 0, 0, 0].map(of_fractions);
    assert_eq!(COUNTED.map(|k| counts.count(k)), expected);
}

/// The eight bytes from 8 k on are the count for k.
#[test]
fn each_count_has_its_place() {
    let mut page = [0; CENSUS_LENGTH];
    for (place, count) in page.chunks_exact_mut(8).enumerate() {
        count.copy_from_slice(&(1_000_000_007 * place as u64).to_le_bytes());
    }
    let counts = Census::from_page(&page);
    assert!((0..32).all(|k| counts.count(k) == 1_000_000_007 * u64::from(k)));
}

/// Every candidate is counted, and at one of the seven numbers.
#[test]
fn a_census_adds_up_to_the_grid() {
    for tank in [TankFlow::Horizontal, TankFlow::Vertical] {
        for (site_surface, site_depth) in [(1_000, 5_000), (400, 5_000), (1_000, 4_000)] {
            let request = Request {
                tank,
                site_surface,
                site_depth,
                ..case_a()
            };
            let mut page = [UNTOUCHED; CENSUS_LENGTH];
            census(&request.to_choose(), &mut page);
            let counts = Census::from_page(&page);
            let known: u64 = COUNTED.iter().map(|k| counts.count(*k)).sum();
            assert_eq!(known, counts.total());
            assert_eq!(known, u64::from(candidates(tank)));
        }
    }
}

#[test]
fn a_refused_census_is_zeros() {
    let mut page = [UNTOUCHED; PAGE_LENGTH];
    assert_eq!(
        census(&Request::default().to_choose(), &mut page),
        (PLANT_DATA, CENSUS_LENGTH as u64)
    );
    assert_eq!(page[..CENSUS_LENGTH], [0; CENSUS_LENGTH]);
    assert!(page[CENSUS_LENGTH..].iter().all(|&byte| byte == UNTOUCHED));
}

#[test]
fn a_census_needs_its_page() {
    let mut page = [UNTOUCHED; CENSUS_LENGTH - 1];
    for request in [case_a(), Request::default()] {
        assert_eq!(census(&request.to_choose(), &mut page), (SHORT_PAGE, 0));
    }
    assert_eq!(page, [UNTOUCHED; CENSUS_LENGTH - 1]);
}

/// A log of 20 equal days but for the flow of day 16.
fn twenty_days(flow: f32) -> Vec<u8> {
    let day = |flow: f32| Day {
        flow: flow.to_bits(),
        bod: 200f32.to_bits(),
    };
    let mut days = [day(5_000.0); 20];
    days[15] = day(flow);
    day_log(&days)
}

#[test]
fn the_bytes_of_a_day_log() {
    let log = day_log(&[
        Day {
            flow: 1,
            bod: 0x0203,
        },
        Day { flow: 4, bod: 5 },
    ]);
    let words = [2, 1, 4, 0x0203, 5u32];
    assert_eq!(log, words.map(u32::to_le_bytes).concat());
    assert_eq!(day_log(&[]), [0; 4]);
}

#[test]
fn the_load_of_a_day_log() {
    let mut page = [UNTOUCHED; PAGE_LENGTH];
    let answer = load(&twenty_days(6_000.0), &mut page);
    assert_eq!(answer, (SHEET, LOAD_PAGE as u64));
    let (written, rest) = page.split_first_chunk().unwrap();
    let sum = 14_200_000_000_000;
    assert_eq!(Load::from_page(written), Load { sum, day: 3 });
    assert!(rest.iter().all(|&byte| byte == UNTOUCHED));
}

#[test]
fn a_refused_day_log_is_zeros() {
    let log = twenty_days(5_000.0);
    for (log, number) in [
        (&log[..log.len() - 1], DAY_LOG),
        (&[], DAY_LOG),
        (&twenty_days(f32::NAN), DAY_VALUE),
        (&twenty_days(200_000.02), DAY_VALUE),
    ] {
        let mut page = [UNTOUCHED; LOAD_PAGE];
        assert_eq!(load(log, &mut page), (number, LOAD_PAGE as u64));
        assert_eq!(page, [0; LOAD_PAGE]);
    }
}

#[test]
fn a_load_needs_its_page() {
    let mut page = [UNTOUCHED; LOAD_PAGE - 1];
    for log in [&twenty_days(5_000.0)[..], &[]] {
        assert_eq!(load(log, &mut page), (SHORT_PAGE, 0));
        assert_eq!(load(log, &mut []), (SHORT_PAGE, 0));
    }
    assert_eq!(page, [UNTOUCHED; LOAD_PAGE - 1]);
}

#[test]
fn a_short_page_is_left_alone() {
    let request = case_a().to_examine(CASE_A_CANDIDATE);
    let mut page = [UNTOUCHED; FIGURES_LENGTH - 1];
    assert_eq!(explain(&request, &mut page), (SHORT_PAGE, 0));
    let short = &mut page[..CASE_A_LISTING.len() - 1];
    assert_eq!(examine(&request, short), (SHORT_PAGE, 0));
    assert_eq!(choose(&request[..CHOOSE_LENGTH], short), (SHORT_PAGE, 0));
    assert_eq!(examine(&request, &mut []), (SHORT_PAGE, 0));
    assert_eq!(page, [UNTOUCHED; FIGURES_LENGTH - 1]);
}

#[test]
fn malformed_requests_have_their_codes() {
    let mut page = [UNTOUCHED; PAGE_LENGTH];
    let good = case_a().to_examine(CASE_A_CANDIDATE);
    assert_eq!(
        examine(&good[..EXAMINE_LENGTH - 1], &mut page),
        (BAD_LENGTH, 0)
    );
    assert_eq!(examine(&[], &mut page), (BAD_LENGTH, 0));
    assert_eq!(choose(&good, &mut page), (BAD_LENGTH, 0));
    assert_eq!(explain(&good[..CHOOSE_LENGTH], &mut page), (BAD_LENGTH, 0));
    assert_eq!(census(&good, &mut page), (BAD_LENGTH, 0));
    for version in [VERSION - 1, VERSION + 1] {
        let mut other = good;
        other[..4].copy_from_slice(&version.to_le_bytes());
        assert_eq!(examine(&other, &mut page), (BAD_VERSION, 0));
        assert_eq!(explain(&other, &mut page), (BAD_VERSION, 0));
        let data = &other[..CHOOSE_LENGTH];
        assert_eq!(choose(data, &mut page), (BAD_VERSION, 0));
        assert_eq!(census(data, &mut page), (BAD_VERSION, 0));
        // a version of another length, as version 3 was
        let shorter = &other[..CHOOSE_LENGTH - 4];
        assert_eq!(choose(shorter, &mut page), (BAD_VERSION, 0));
        let shorter = &other[..EXAMINE_LENGTH - 4];
        assert_eq!(examine(shorter, &mut page), (BAD_VERSION, 0));
        assert_eq!(explain(shorter, &mut page), (BAD_VERSION, 0));
        assert_eq!(examine(&other[..4], &mut page), (BAD_VERSION, 0));
        assert_eq!(examine(&other[..3], &mut page), (BAD_LENGTH, 0));
    }
    let asked = Terms::default().to_target(Date { month: 1, day: 1 });
    for length in [0, 3, TARGET_LENGTH - 1] {
        assert_eq!(target(&asked[..length], &mut page), (BAD_LENGTH, 0));
    }
    assert_eq!(target(&good, &mut page), (BAD_LENGTH, 0));
    let mut earlier = asked;
    earlier[0] -= 1;
    for length in [4, TARGET_LENGTH] {
        assert_eq!(target(&earlier[..length], &mut page), (BAD_VERSION, 0));
        assert_eq!(target(&earlier[..length], &mut []), (BAD_VERSION, 0));
    }
    let mut unknown_process = good;
    unknown_process[56] = 5;
    assert_eq!(examine(&unknown_process, &mut page), (BAD_KIND, 0));
    let data = &unknown_process[..CHOOSE_LENGTH];
    assert_eq!(census(data, &mut page), (BAD_KIND, 0));
    for (place, value) in [(220, 2), (223, 1)] {
        let mut unknown_way = good;
        unknown_way[place] = value;
        assert_eq!(examine(&unknown_way, &mut page), (BAD_KIND, 0));
        assert_eq!(explain(&unknown_way, &mut page), (BAD_KIND, 0));
        let data = &unknown_way[..CHOOSE_LENGTH];
        assert_eq!(choose(data, &mut page), (BAD_KIND, 0));
        assert_eq!(census(data, &mut page), (BAD_KIND, 0));
    }
    assert_eq!(page, [UNTOUCHED; PAGE_LENGTH]);
}

#[test]
fn a_refusal_is_listed() {
    let mut page = [UNTOUCHED; PAGE_LENGTH];
    let (number, written) = choose(&Request::default().to_choose(), &mut page);
    assert_eq!(
        (number, &page[..written as usize]),
        (PLANT_DATA, &b"refused 1\n"[..])
    );
}

#[test]
fn numbers_rise_and_have_words() {
    assert!(ALL.windows(2).all(|pair| pair[0].number < pair[1].number));
    assert_eq!(word(NO_DESIGN), Some("no design"));
    assert_eq!(word(99), None);
    let refusals = ALL.iter().filter(|known| is_refusal(known.number));
    assert_eq!(refusals.count(), 21);
}

#[test]
fn the_listing_has_its_lines() {
    let labels: Vec<&str> = CASE_A_LISTING
        .lines()
        .map(|line| line.split(' ').next().unwrap())
        .collect();
    assert_eq!(labels, LINES.map(|line| line.label));
}

/// The grid ends where the calls refuse with 6.
#[test]
fn the_grid_has_its_sides() {
    for tank in [TankFlow::Horizontal, TankFlow::Vertical] {
        let request = Request { tank, ..case_a() };
        let number = |place: usize, value: u32| {
            let mut sides = [300, 60, 22];
            sides[place] = value;
            let [fraction, return_ratio, thickening] = sides;
            let candidate = Candidate {
                fraction,
                return_ratio,
                thickening,
            };
            assert_eq!(GRID[place].of(&candidate), value);
            explain(&request.to_examine(candidate), &mut [0; FIGURES_LENGTH]).0
        };
        for (place, side) in GRID.iter().enumerate() {
            let most = side.most(tank);
            let numbers = [side.least - 1, side.least, most, most + 1].map(|v| number(place, v));
            assert_eq!(numbers, [OFF_GRID, SHEET, SHEET, OFF_GRID]);
        }
    }
    assert_eq!(candidates(TankFlow::Horizontal), 83_076);
    assert_eq!(candidates(TankFlow::Vertical), 128_226);
}
