//! Works in several lines: what `works` prints, and what is said of a refusal.

mod common;

use common::{example, pewgull, replaced, with, Ran, CASE_A};
use std::fs;
use std::sync::atomic::{AtomicUsize, Ordering};

/// A file with these lines, of a name of its own: the tests run side by side.
fn file(lines: &str) -> String {
    static FILES: AtomicUsize = AtomicUsize::new(0);
    let number = FILES.fetch_add(1, Ordering::Relaxed);
    common::file(&format!("works-{number}.plant"), lines)
}

/// Case A in a narrow site, with these shares. Of 600 m3/h and 400 m2 a share
/// of 4 has 2 and 1, and no tank of 1 m2 takes 2 m3/h.
fn narrow(shares: &str) -> String {
    let text = with("site-surface", "site-surface 400");
    file(&format!("{text}shares {shares}\n"))
}

/// The number is printed and nothing else; the message's later lines fit.
fn is_refused(ran: &Ran, number: u32) {
    assert_eq!((ran.status, &ran.out), (1, &format!("refused {number}\n")));
    let start = format!(": refused {number} (");
    assert!(ran.err.contains(&start), "{}", ran.err);
    let fits = |told: &str| told.chars().count() <= 80;
    assert!(ran.err.lines().skip(1).all(fits), "{}", ran.err);
}

/// The example's lines, each as a plant of its own with the concentrations of
/// the whole works, and the sums of their listings.
#[test]
fn sums_and_sheets_are_printed() {
    let path = example("works-three-lines.plant");
    let ran = pewgull(&["works", &path]);
    assert_eq!((ran.status, ran.err.as_str()), (0, ""));
    let labels = "sludge mass surface reactor settling total oxygen transfer";
    let labels: Vec<&str> = labels.split(' ').collect();
    let whole = fs::read_to_string(&path).unwrap();
    let mut sums = [0; 8];
    let mut expected = String::new();
    for (line, parts) in [
        (1, ["14400", "1440", "1040"]),
        (2, ["12600", "1260", "910"]),
        (3, ["9000", "900", "650"]),
    ] {
        let keys = ["flow", "wet-weather-flow", "site-surface"];
        let own = keys
            .iter()
            .zip(parts)
            .fold(whole.clone(), |text, (key, n)| {
                replaced(&text, key, &format!("{key} {n}"))
            });
        let own = own
            .replace("bod heads 180000", "bod measured 225")
            .replace("cod heads 180000", "cod measured 450")
            .replace("nitrogen heads 180000", "nitrogen measured 50")
            .replace("phosphorus heads 180000", "phosphorus measured 8");
        let listing = pewgull(&["choose", &file(&own)]).out;
        for (sum, label) in sums.iter_mut().zip(&labels) {
            let start = format!("{label} ");
            let found = listing.lines().find_map(|line| line.strip_prefix(&start));
            *sum += found.unwrap().parse::<u64>().unwrap();
        }
        expected += &format!("# line {line}\n{listing}");
    }
    let sums = labels.iter().zip(sums);
    let sums: String = sums
        .map(|(label, sum)| format!("{label} {sum}\n"))
        .collect();
    assert_eq!(ran.out, sums + &expected);
}

#[test]
fn several_works_have_headings() {
    let (good, bad) = (example("works-three-lines.plant"), narrow("4 996"));
    let one = pewgull(&["works", &good]).out;
    let ran = pewgull(&["works", &good, &bad, &good]);
    let expected = format!("# {good}\n{one}# {bad}\nrefused 5\n# {good}\n{one}");
    assert_eq!((ran.status, ran.out), (1, expected));
}

#[test]
fn eight_lines_are_printed() {
    let path = file(&format!("{CASE_A}shares {}\n", "125 ".repeat(8)));
    let ran = pewgull(&["works", &path]);
    assert_eq!((ran.status, ran.err.as_str()), (0, ""));
    assert_eq!(ran.out.lines().count(), 8 + 8 * 16);
    assert!(ran.out.contains("\n# line 8\n"), "{}", ran.out);
}

const EXPECTED: &str = "2 to 8 shares in thousandths, each at least 1, adding up to 1000\n";

/// Shares, and what is said of them with 18.
const NOT_VALID: [(&str, &str); 7] = [
    ("1000", "shares 1000: 1 share with a sum of 1000."),
    (
        "400 350 251",
        "shares 400 350 251: 3 shares with a sum of 1001.",
    ),
    (
        "0 1000",
        "shares 0 1000: 2 shares with a sum of 1000; share 1 is 0.",
    ),
    (
        "0 500 0 499",
        "shares 0 500 0 499: 4 shares with a sum of 999; shares 1 and 3 are 0.",
    ),
    (
        "111 111 111 111 111 111 111 111 112",
        "shares 111 111 111 111 111 111 111 111 112: 9 shares with a sum of 1000.",
    ),
    (
        "4294967295 4294967295 1",
        "shares 4294967295 4294967295 1: 3 shares with a sum of 8589934591.",
    ),
    (
        "1 1 1 1 1 1 1 1 1 1 1 1 1 1 1 1 0",
        "shares 1 1 1 1 1 1 1 1 1 1 1 1 1 1 1 1 ...: 17 shares with a sum of 16.",
    ),
];

#[test]
fn shares_that_are_not_valid_are_told() {
    for (shares, told) in NOT_VALID {
        // 18 comes before 1
        for text in [CASE_A.to_string(), with("load", "load 0")] {
            let path = file(&format!("{text}shares {shares}\n"));
            let ran = pewgull(&["works", &path]);
            is_refused(&ran, 18);
            let said = format!(
                "pewgull: {path}: refused 18 (lines): \
                 the number of lines or their shares are not valid\
                 \n  {told}\n  Expected {EXPECTED}"
            );
            assert_eq!(ran.err, said);
        }
    }
}

#[test]
fn a_works_without_shares() {
    let path = example("case-a.plant");
    let ran = pewgull(&["works", &path]);
    is_refused(&ran, 18);
    let said = ran.err.replace("\n  ", " ");
    let expected = format!(
        "pewgull: {path}: refused 18 (lines): the works is not split into lines \
         The file has no line 'shares'; expected {EXPECTED}"
    );
    assert_eq!(said, expected);
}

/// Of the whole works' data the same is said as by `choose`.
#[test]
fn refusals_of_the_whole_data() {
    for (number, key, line) in [
        (1, "load", "load 0"),
        (1, "flow", "flow 200001"),
        (17, "sludge-volume-index", "sludge-volume-index 181"),
        (2, "bod", "bod measured nan"),
        (3, "solids", "solids below 4001"),
        (3, "nitrogen", "nitrogen heads 227273"),
        (4, "cod", "cod measured 440.1"),
        (14, "load", "load 1200\nterm 02-30 03-31 3 20000"),
    ] {
        let path = file(&(with(key, line) + "shares 999 1\n"));
        let ran = pewgull(&["works", &path]);
        is_refused(&ran, number);
        assert_eq!(ran.err, pewgull(&["choose", &path]).err);
    }
}

/// Case A with these lines in place of its own, and these shares.
fn case_a(lines: &str, shares: &str) -> String {
    let text = lines.lines().fold(CASE_A.to_string(), |text, line| {
        let key = line.split_once(' ').unwrap().0;
        replaced(&text, key, line)
    });
    file(&format!("{text}shares {shares}\n"))
}

/// Lines of Case A, shares, and what is said of the line that gets 1.
#[rustfmt::skip]
const NO_PARTS: [(&str, &str, &str); 4] = [
    ("", "1 999", "line 1 of 2: its part of a figure comes out 0.\
        \n  Line 1 has: flow 5 m3/d, wet-weather-flow 0 m3/h, site-surface 1 m2.\
        \n  Its wet-weather-flow comes out 0.\
        \n  Look at a larger share of line 1, fewer lines, a larger wet-weather-flow\n"),
    ("site-surface 999", "1 999", "line 1 of 2: its part of a figure comes out 0.\
        \n  Line 1 has: flow 5 m3/d, wet-weather-flow 0 m3/h, site-surface 0 m2.\
        \n  Its wet-weather-flow and site-surface come out 0.\
        \n  Look at a larger share of line 1, fewer lines, a larger wet-weather-flow and\
        \n  site-surface\n"),
    ("flow 3\nwet-weather-flow 3\nsite-surface 9", "400 200 400", "line 2 of 3: its part of a figure comes out 0.\
        \n  Line 2 has: flow 0 m3/d, wet-weather-flow 0 m3/h, site-surface 2 m2.\
        \n  Its flow and wet-weather-flow come out 0.\
        \n  Look at a larger share of line 2, fewer lines, a larger flow and\
        \n  wet-weather-flow\n"),
    ("flow 1\nwet-weather-flow 1\nsite-surface 1", "500 250 250", "line 1 of 3: its part of a figure comes out 0.\
        \n  Line 1 has: flow 0 m3/d, wet-weather-flow 0 m3/h, site-surface 0 m2.\
        \n  Its flow, wet-weather-flow and site-surface come out 0.\
        \n  Look at a larger share of line 1, fewer lines, a larger flow, wet-weather-flow\
        \n  and site-surface\
        \n  line 2 is refused too: 1\n"),
];

#[test]
fn a_part_of_0_is_told() {
    for (lines, shares, told) in NO_PARTS {
        let path = case_a(lines, shares);
        let ran = pewgull(&["works", &path]);
        is_refused(&ran, 1);
        let said = format!("pewgull: {path}: refused 1 (plant data): {told}");
        assert_eq!(ran.err, said);
    }
}

/// What `choose` says of a line as a plant of its own, from the census on; but
/// for how to look at its candidates, since the file is that of the works.
fn advice(own: &str) -> String {
    let ran = pewgull(&["choose", own]);
    assert_eq!(ran.out, "refused 5\n");
    let (_, census) = ran.err.split_once("none is permitted.\n").unwrap();
    let (advice, explain) = census.split_once("\n  'pewgull explain FILE").unwrap();
    assert_eq!(explain.lines().count(), 1);
    advice.to_string()
}

#[test]
fn a_line_without_a_design_is_told() {
    let unsplit = "\n  As one plant the works has a design: fewer lines or other shares may help.";
    for (shares, line, parts, more) in [
        ("4 996", "1 of 2", [20, 2, 1], unsplit.to_string()),
        ("990 7 3", "2 of 3", [35, 4, 2], unsplit.to_string()),
        (
            "4 3 1 992",
            "1 of 4",
            [20, 2, 1],
            format!("{unsplit}\n  lines 2 and 3 are refused too: 5, 1"),
        ),
        (
            "990 7 1 2",
            "2 of 4",
            [35, 4, 2],
            format!("{unsplit}\n  lines 3 and 4 are refused too: 1, 5"),
        ),
        (
            "4 994 2",
            "1 of 3",
            [20, 2, 1],
            format!("{unsplit}\n  line 3 is refused too: 5"),
        ),
    ] {
        let path = narrow(shares);
        let ran = pewgull(&["works", &path]);
        is_refused(&ran, 5);
        let [flow, wet_weather_flow, surface] = parts;
        let own =
            format!("flow {flow}\nwet-weather-flow {wet_weather_flow}\nsite-surface {surface}");
        let number = line.split(' ').next().unwrap();
        let said = format!(
            "pewgull: {path}: refused 5 (no design): line {line}: the grid holds 83,076 \
             candidates in horizontal flow, and none is permitted.\
             \n  Line {number} has: flow {flow} m3/d, wet-weather-flow {wet_weather_flow} m3/h, \
             site-surface {surface} m2.\n{}{more}\n",
            advice(&case_a(&own, "1"))
        );
        assert_eq!(ran.err, said, "{shares}");
    }
}

/// Where the works has no design as one plant either, no other split is
/// advised. Head counts are those of the whole works: nitrogen by 36,000 heads
/// comes to 79.2 mg/l in every line.
#[test]
fn advice_by_head_counts() {
    let path = case_a("nitrogen heads 36000", "500 500");
    let ran = pewgull(&["works", &path]);
    is_refused(&ran, 5);
    let own = "nitrogen measured 79.2\nflow 2500\nwet-weather-flow 300\nsite-surface 500";
    let said = format!(
        "line 1 of 2: the grid holds 83,076 candidates in horizontal flow, and none is \
         permitted.\n  Line 1 has: flow 2500 m3/d, wet-weather-flow 300 m3/h, \
         site-surface 500 m2.\n{}\n  line 2 is refused too: 5\n",
        advice(&case_a(own, "1"))
    );
    assert!(ran.err.ends_with(&said), "{} {said}", ran.err);
    assert!(ran.err.contains("first at nitrate"), "{}", ran.err);
    assert!(ran.err.contains("a dose of at least "), "{}", ran.err);
}

/// The other commands do not look at the shares.
#[test]
fn other_commands_ignore_the_shares() {
    let plain = file(CASE_A);
    for shares in ["500 500", "1000", "0 0 0 0 0 0 0 0 0 0 4294967295"] {
        let path = case_a("", shares);
        for (command, rest) in [
            ("choose", &[][..]),
            ("census", &[]),
            ("examine", &["300", "75", "20"]),
            ("explain", &["300", "75", "20"]),
            ("target", &["01-01"]),
        ] {
            let run = |path: &str| pewgull(&[&[command, path], rest].concat());
            let (with, without) = (run(&path), run(&plain));
            assert_eq!((with.status, with.out), (without.status, without.out));
        }
    }
}
