//! Existing tanks: what `built` prints, and what is said of a lost index and of
//! a refusal.

mod common;

use common::{example, pewgull, replaced, with, Ran, CASE_A};
use std::fs;
use std::sync::atomic::{AtomicUsize, Ordering};

/// A file with these lines, of a name of its own: the tests run side by side.
fn file(lines: &str) -> String {
    static FILES: AtomicUsize = AtomicUsize::new(0);
    let number = FILES.fetch_add(1, Ordering::Relaxed);
    common::file(&format!("built-{number}.plant"), lines)
}

/// `built` on a file, by its words after that.
fn built(path: &str, words: &str) -> Ran {
    let words: Vec<&str> = ["built", path]
        .into_iter()
        .chain(words.split(' '))
        .collect();
    pewgull(&words)
}

/// The tanks of the example, and what they are run at.
const TANKS: &str = "4450 300 5000 400 24";

fn existing_works(span: &str) -> Ran {
    built(&example("existing-works.plant"), &format!("{TANKS} {span}"))
}

/// The messages of Case A at an index: what comes after the heading.
fn told(path: &str, words: &str, index: u32) -> String {
    let ran = built(path, words);
    assert_eq!((ran.status, ran.out), (0, format!("lost {index}\n")));
    let start = format!(
        "pewgull: {path}: lost at a sludge volume index of {index} l/kg.\
         \n  Every return ratio of 30..75 was tried, and none holds it."
    );
    let rest = ran.err.strip_prefix(&start);
    let rest = rest.unwrap_or_else(|| panic!("{}", ran.err));
    let fits = |told: &str| told.chars().count() <= 80;
    assert!(rest.lines().all(fits), "{rest}");
    rest.to_string()
}

const BETWEEN_100: &str = "\n  For a ratio between them: 'pewgull examine FILE F R H', with\
    \n  sludge-volume-index 100 in the file.";

#[test]
fn held_and_lost_are_printed() {
    for (span, out) in [
        ("90 140", "held\n"),
        ("50 144", "held\n"),
        ("146 146", "held\n"),
        ("90 160", "lost 145\n"),
        ("146 160", "lost 147\n"),
        ("180 180", "lost 180\n"),
    ] {
        let ran = existing_works(span);
        assert_eq!((ran.status, ran.out.as_str()), (0, out), "{span}");
        assert_eq!(ran.err.is_empty(), out == "held\n", "{}", ran.err);
    }
}

#[test]
fn a_lost_index_is_told() {
    let path = example("existing-works.plant");
    let said = format!(
        "pewgull: {path}: lost at a sludge volume index of 145 l/kg.\
         \n  Every return ratio of 30..100 was tried, and none holds it.\
         \n  R 30: more is needed than is built.\
         \n  reactor volume: needs 6019 m3, built 4450 m3.\
         \n  R 100: refused 8 (solids): the diluted sludge volume is too large.\
         \n  diluted sludge volume 670 l/m3, at most 600 l/m3.\
         \n  For a ratio between them: 'pewgull examine FILE F R H', with\
         \n  sludge-volume-index 145 in the file.\
         \n  The indices 90..144 are held.\
         \n  The indices 146..160 were not looked at, and need not be lost.\n"
    );
    assert_eq!(existing_works("90 160").err, said);
}

/// What is needed is what `examine` gives with that index in the file.
#[test]
fn needs_are_those_of_the_sheet() {
    let path = file(&with("sludge-volume-index", "sludge-volume-index 120"));
    let told = told(&path, "1 1 1 300 20 120 120", 120);
    for ratio in ["30", "75"] {
        let sheet = pewgull(&["examine", &path, "300", ratio, "20"]).out;
        let figure = |label: &str| {
            let line = sheet.lines().find_map(|line| line.strip_prefix(label));
            line.unwrap().to_string()
        };
        let said = format!(
            "\n  R {ratio}: more is needed than is built.\
             \n  reactor volume: needs {} m3, built 1 m3.\
             \n  settling surface: needs {} m2, built 1 m2.\
             \n  settling depth: needs {} mm, built 1 mm.",
            figure("reactor "),
            figure("surface "),
            figure("depth ")
        );
        assert!(told.contains(&said), "{told}");
    }
}

/// Sizes, and those of them that are too small for Case A at 30 and at 75.
#[rustfmt::skip]
const TOO_SMALL: [(&str, &str, &str); 4] = [
    // only the largest ratio has a reactor that is small enough
    ("3105 453 4535", "\n  reactor volume: needs 5766 m3, built 3105 m3.",
        "\n  settling surface: needs 454 m2, built 453 m2.\
        \n  settling depth: needs 4536 mm, built 4535 mm."),
    ("3104 374 9999", "\n  reactor volume: needs 5766 m3, built 3104 m3.\
        \n  settling surface: needs 375 m2, built 374 m2.",
        "\n  reactor volume: needs 3105 m3, built 3104 m3.\
        \n  settling surface: needs 454 m2, built 374 m2."),
    ("9999 374 9999", "\n  settling surface: needs 375 m2, built 374 m2.",
        "\n  settling surface: needs 454 m2, built 374 m2."),
    ("9999 999 2999", "\n  settling depth: needs 3000 mm, built 2999 mm.",
        "\n  settling depth: needs 4536 mm, built 2999 mm."),
];

/// Every size that is too small is told, and no other.
#[test]
fn sizes_that_are_too_small() {
    for (sizes, at_30, at_75) in TOO_SMALL {
        let said = format!(
            "\n  R 30: more is needed than is built.{at_30}\
             \n  R 75: more is needed than is built.{at_75}{BETWEEN_100}\n"
        );
        let words = format!("{sizes} 300 20 100 100");
        assert_eq!(told(&file(CASE_A), &words, 100), said, "{sizes}");
    }
}

/// The rule that is broken comes with its number, its figure and its limit.
#[test]
fn rules_that_are_broken() {
    let narrow = file(&with("site-surface", "site-surface 453"));
    let said = told(&narrow, "1 453 9999 300 20 100 100", 100);
    let at_75 = "\n  R 75: refused 9 (surface): the settling tank needs more surface than the site\
        \n  has.\
        \n  needed surface 454 m2, site-surface 453 m2.";
    assert!(said.ends_with(&format!("{at_75}{BETWEEN_100}\n")), "{said}");
    let low = file(&with("site-depth", "site-depth 4535"));
    let said = told(&low, "1 999 4535 300 20 100 100", 100);
    let at_75 = "\n  R 75: refused 10 (depth): the settling tank needs more depth than the site\
        \n  has.\
        \n  needed depth 4536 mm, site-depth 4535 mm.";
    assert!(said.ends_with(&format!("{at_75}{BETWEEN_100}\n")), "{said}");
    let few = with("removal", "removal suction");
    let said = told(&file(&few), "1 999 9999 300 20 180 180", 180);
    let at_30 = "\n  R 30: refused 8 (solids): too few solids in the reactor.\
        \n  solids 807 g/m3, at least 1000 g/m3.\
        \n  R 75: more is needed than is built.\n";
    assert!(said.starts_with(at_30), "{said}");
}

/// Where the site stops what the built tank would do for, that is told.
#[test]
fn site_limits_below_what_is_built() {
    let narrow = file(&with("site-surface", "site-surface 453"));
    let said = told(&narrow, "1 454 9999 300 20 100 100", 100);
    let advice = "site-surface 453 m2.\
        \n  The built one would do here: give it, or more, as site-surface.";
    assert!(said.contains(&format!("{advice}{BETWEEN_100}")), "{said}");
    let low = file(&with("site-depth", "site-depth 4535"));
    let said = told(&low, "1 999 4536 300 20 100 100", 100);
    let advice = "site-depth 4535 mm.\
        \n  The built one would do here: give it, or more, as site-depth.";
    assert!(said.contains(&format!("{advice}{BETWEEN_100}")), "{said}");
}

/// A rule of the fraction alone is told once, with what to look at: no index
/// is held then.
#[test]
fn rules_of_the_fraction() {
    let path = file(CASE_A);
    let candidate = |path: &str, fraction: &str| {
        let ran = pewgull(&["examine", path, fraction, "30", "20"]);
        let (_, words) = ran
            .err
            .split_once(": ")
            .unwrap()
            .1
            .split_once(": ")
            .unwrap();
        words.trim_end().to_string()
    };
    let winter = file(&format!("{CASE_A}term 11-01 03-31 4 30000\n"));
    let strict = file(&format!("{CASE_A}term 11-01 03-31 11 1000\n"));
    for (path, fraction, number) in [
        (&path, "299", 7),
        (&winter, "300", 15),
        (&strict, "300", 16),
    ] {
        let words = format!("9999 999 9999 {fraction} 20 60 70");
        let said = told(path, &words, 60);
        let rule = candidate(path, fraction);
        assert!(rule.starts_with(&format!("refused {number} (")), "{rule}");
        let said = said.replace("\n  ", " ");
        let expected = format!(
            " R 30 and R 75: {} The index has no part in that rule: every one of the span is lost\n",
            rule.replace("\n  ", " ")
        );
        assert_eq!(said, expected);
    }
}

/// The indices that are held and those of which nothing is known.
#[test]
fn other_indices_are_told() {
    for (span, index, end) in [
        ("101 101", 101, "in the file.\n"),
        ("100 101", 101, "\n  The index 100 is held.\n"),
        ("60 101", 101, "\n  The indices 60..100 are held.\n"),
        (
            "101 102",
            101,
            "in the file.\n  The index 102 was not looked at, and need not be lost.\n",
        ),
        (
            "100 180",
            101,
            "\n  The index 100 is held.\
             \n  The indices 102..180 were not looked at, and need not be lost.\n",
        ),
    ] {
        let said = told(
            &file(CASE_A),
            &format!("3105 454 4536 300 20 {span}"),
            index,
        );
        assert!(said.ends_with(end), "{said}");
    }
}

/// The number is printed and nothing else.
fn is_refused(ran: &Ran, path: &str, number: u32, told: &str) {
    assert_eq!((ran.status, &ran.out), (1, &format!("refused {number}\n")));
    let said = format!("pewgull: {path}: refused {number} {told}\n");
    assert_eq!(ran.err, said);
    let fits = |told: &str| told.chars().count() <= 80;
    assert!(ran.err.lines().skip(1).all(fits), "{}", ran.err);
}

/// Spans, and what is said of them with 20.
#[rustfmt::skip]
const SPANS: [(&str, &str); 6] = [
    ("49 180", "\n  LEAST 49: expected 50..180 l/kg"),
    ("50 181", "\n  MOST 181: expected 50..180 l/kg"),
    ("101 100", "\n  LEAST 101, MOST 100: expected LEAST at most MOST"),
    ("0 4294967295", "\n  LEAST 0: expected 50..180 l/kg\n  MOST 4294967295: expected 50..180 l/kg"),
    ("181 181", "\n  LEAST 181: expected 50..180 l/kg\n  MOST 181: expected 50..180 l/kg"),
    ("200 40", "\n  LEAST 200: expected 50..180 l/kg\n  MOST 40: expected 50..180 l/kg\
        \n  LEAST 200, MOST 40: expected LEAST at most MOST"),
];

/// 20 comes before 21, and that before the data and the grid.
#[test]
fn spans_that_are_not_valid_are_told() {
    for (span, told) in SPANS {
        for (sizes, text) in [
            ("9999 999 9999 300 20", CASE_A.to_string()),
            ("0 0 0 0 0", with("load", "load 0")),
        ] {
            let path = file(&text);
            let ran = built(&path, &format!("{sizes} {span}"));
            let told = format!(
                "(span): the span of sludge volume indices is empty, \
                 or not within 50..180 l/kg{told}"
            );
            is_refused(&ran, &path, 20, &told);
        }
    }
}

#[test]
fn sizes_of_0_are_told() {
    let reactor = "\n  REACTOR 0: expected the built reactor volume, at least 1 m3";
    let surface = "\n  SURFACE 0: expected the built settling surface, at least 1 m2";
    let depth = "\n  DEPTH 0: expected the built settling depth, at least 1 mm";
    for (sizes, told) in [
        ("0 1 1", reactor.to_string()),
        ("1 0 1", surface.to_string()),
        ("1 1 0", depth.to_string()),
        ("0 0 0", format!("{reactor}{surface}{depth}")),
    ] {
        for text in [CASE_A.to_string(), with("load", "load 0")] {
            let path = file(&text);
            let ran = built(&path, &format!("{sizes} 0 0 50 180"));
            let told = format!("(built size): a built size is 0{told}");
            is_refused(&ran, &path, 21, &told);
        }
    }
}

/// Of the data the same is said as by `choose`.
#[test]
fn refusals_of_the_data() {
    for (number, key, line) in [
        (1, "load", "load 0"),
        (2, "bod", "bod measured nan"),
        (3, "solids", "solids below 4001"),
        (4, "cod", "cod measured 440.1"),
        (14, "load", "load 1200\nterm 02-30 03-31 3 20000"),
    ] {
        let path = file(&with(key, line));
        // before the grid
        for run_at in ["300 20", "0 0"] {
            let ran = built(&path, &format!("9999 999 9999 {run_at} 50 180"));
            assert_eq!((ran.status, ran.out), (1, format!("refused {number}\n")));
            assert_eq!(ran.err, pewgull(&["choose", &path]).err);
        }
    }
}

/// The file's own index is checked, and what is said of it tells of the span.
#[test]
fn the_own_index() {
    for (index, number) in [(49, 1), (181, 17), (200, 17), (201, 1)] {
        let line = format!("sludge-volume-index {index}");
        let path = file(&with("sludge-volume-index", &line));
        let ran = built(&path, "9999 999 9999 300 20 50 180");
        assert_eq!((ran.status, ran.out), (1, format!("refused {number}\n")));
        let own = "\n  The file's own index is checked, and not used further: LEAST..MOST has the\
            \n  indices that are tried. Give the file one of 50..180\n";
        let choose = pewgull(&["choose", &path]).err;
        assert_eq!(ran.err, choose.trim_end().to_string() + own);
    }
    for index in [50, 180] {
        let line = format!("sludge-volume-index {index}");
        let path = file(&with("sludge-volume-index", &line));
        let ran = built(&path, "3105 454 4536 300 20 50 180");
        assert_eq!(ran.out, "lost 101\n");
    }
}

/// No return ratio is asked for: 6 is due to F or H.
#[test]
fn off_the_grid() {
    let fraction = "\n  F 501: expected 200..500 thousandths in horizontal flow";
    let thickening = "\n  H 19: expected 20..25 tenths of an hour in horizontal flow";
    for (run_at, told) in [
        ("501 20", fraction.to_string()),
        ("300 19", thickening.to_string()),
        ("501 19", format!("{fraction}{thickening}")),
    ] {
        let path = file(CASE_A);
        let ran = built(&path, &format!("9999 999 9999 {run_at} 50 180"));
        let told = format!("(off grid): F or H is not on the grid{told}");
        is_refused(&ran, &path, 6, &told);
    }
}

/// Any number of 32 bits is answered for; the shares of a file are not looked at.
#[test]
fn large_numbers() {
    let most = u32::MAX;
    let path = file(&format!("{CASE_A}shares 500 500\n"));
    let ran = built(&path, &format!("{most} {most} {most} 300 20 50 180"));
    assert_eq!((ran.status, ran.out.as_str()), (0, "held\n"));
    let ran = built(&path, &format!("1 1 1 {most} {most} 50 180"));
    assert_eq!(ran.out, "refused 6\n");
    let ran = built(&path, &format!("1 1 1 300 20 {most} {most}"));
    assert_eq!(ran.out, "refused 20\n");
}

/// The example says what it is: its sizes are those of its comment.
#[test]
fn the_example_has_its_tanks() {
    let text = fs::read_to_string(example("existing-works.plant")).unwrap();
    let words = TANKS.split(' ').collect::<Vec<_>>();
    let [reactor, surface, depth, fraction, thickening] = words[..] else {
        panic!()
    };
    for part in [
        format!("reactor {reactor} m3, settling surface {surface} m2, settling depth {depth} mm"),
        format!("fraction {fraction}, thickening time {thickening}"),
    ] {
        assert!(text.contains(&part), "{part}");
    }
    // the site limits stop nothing: with the largest ones the answers are these
    let larger = replaced(&text, "site-surface", "site-surface 100000");
    let larger = file(&replaced(&larger, "site-depth", "site-depth 10000"));
    for span in ["50 144", "145 145", "146 146", "147 180"] {
        let words = format!("{TANKS} {span}");
        assert_eq!(built(&larger, &words).out, existing_works(span).out);
    }
}
