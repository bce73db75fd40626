//! The price of the concrete: what `price` prints, what a tariff file holds,
//! and what is said of a refusal.

mod common;

use common::{example, pewgull, with, Ran, CASE_A};
use std::fs::File;
use std::process::Command;
use std::sync::atomic::{AtomicUsize, Ordering};

/// A file with these lines, of a name of its own: the tests run side by side.
fn file(kind: &str, lines: &str) -> String {
    static FILES: AtomicUsize = AtomicUsize::new(0);
    let number = FILES.fetch_add(1, Ordering::Relaxed);
    common::file(&format!("price-{number}.{kind}"), lines)
}

fn plant(lines: &str) -> String {
    file("plant", lines)
}

fn tariff(lines: &str) -> String {
    file("tariff", lines)
}

/// `price` on a plant and a tariff, with the words of a candidate or none.
fn price(plant: &str, tariff: &str, candidate: &str) -> Ran {
    let words = ["price", plant, tariff].into_iter();
    let words: Vec<&str> = words.chain(candidate.split_whitespace()).collect();
    pewgull(&words)
}

/// The price of Case A's candidate, whose tanks have 3,105 and 2,060 m3.
fn of_case_a(lines: &str) -> Ran {
    price(&example("case-a.plant"), &tariff(lines), "300 75 20")
}

fn is_printed(ran: &Ran, cents: u64) {
    assert_eq!((ran.status, ran.err.as_str()), (0, ""));
    assert_eq!(ran.out, format!("price {cents}\n"));
}

#[test]
fn prices_by_hand() {
    for (lines, cents) in [
        ("band rest 1\n", 3_105 + 2_060),
        ("band rest 0\nsurcharge 500\n", 0),
        // each tank starts at its first cubic metre
        ("band 1 100\nband rest 0\n", 2 * 100),
        ("band 2060 0\nband rest 1\n", 1_045),
        ("band 2059 0\nband rest 1\n", 1_046 + 1),
        ("band 3105 0\nband rest 1\n", 0),
        ("band 3104 0\nband rest 1\n", 1),
        // rounded up once, on the sum: 5.165 and not 3.105 and 2.060
        ("band rest 1\nsurcharge 1\n", 5_165 + 6),
        ("surcharge 200\nband rest 1\n", 5_165 + 1_033),
        ("band rest 1000000\nsurcharge 500\n", 7_747_500_000),
    ] {
        is_printed(&of_case_a(lines), cents);
    }
}

/// Without a candidate it is the price of the design that `choose` gives.
#[test]
fn the_design_chosen() {
    let tariff = example("concrete.tariff");
    for name in [
        "case-a.plant",
        "industrial-cod.plant",
        "works-three-lines.plant",
    ] {
        let path = example(name);
        let chosen = pewgull(&["choose", &path]).out;
        let numbers = chosen.lines().take(3).map(|line| line.split_once(' '));
        let candidate: Vec<&str> = numbers.map(|pair| pair.unwrap().1).collect();
        let ran = price(&path, &tariff, "");
        assert_eq!((ran.status, ran.err.as_str()), (0, ""));
        assert_eq!(ran.out, price(&path, &tariff, &candidate.join(" ")).out);
        let fewer = pewgull(&["price", &path, &tariff, candidate[0]]);
        assert_eq!(fewer.status, 2);
    }
}

#[test]
fn forms_of_a_tariff_file() {
    let cents = 42_000 * 1_000 + 29_000 * (2_605 + 1_560);
    for lines in [
        "band 500 42000\nband rest 29000\n",
        "band 500 42000\r\nband rest 29000",
        "\u{feff}# prices\n\n band\t0500   42000 # dear\n#band 600 1\nband rest 29000#cheap\n",
        "surcharge 0\nband 500 42000\nband rest 29000\n",
        "band 500 42000\nsurcharge 000\nband rest 29000\n",
    ] {
        is_printed(&of_case_a(lines), cents);
    }
}

/// Each of the two files may come from standard input.
#[test]
fn standard_input() {
    let (path, concrete) = (example("case-a.plant"), example("concrete.tariff"));
    let (path, concrete) = (path.as_str(), concrete.as_str());
    let expected = price(path, concrete, "").out;
    for (words, input) in [(["-", concrete], path), ([path, "-"], concrete)] {
        let mut tool = Command::new(env!("CARGO_BIN_EXE_pewgull"));
        tool.arg("price").args(words);
        tool.stdin(File::open(input).unwrap());
        let ran = common::ran(tool.output().unwrap());
        assert_eq!((ran.status, ran.err.as_str()), (0, ""));
        assert_eq!(ran.out, expected);
    }
}

/// The number is printed and nothing else; the later lines fit a screen.
fn is_refused(ran: &Ran, path: &str, number: u32, told: &str) {
    assert_eq!((ran.status, &ran.out), (1, &format!("refused {number}\n")));
    let said = format!("pewgull: {path}: refused {number} {told}\n");
    assert_eq!(ran.err, said);
    let fits = |told: &str| told.chars().count() <= 80;
    assert!(ran.err.lines().skip(1).all(fits), "{}", ran.err);
}

/// Tariffs that are not valid, and what is said of them.
#[rustfmt::skip]
const WRONG: [(&str, &str); 11] = [
    ("band 0 5\nband rest 6\n", "\n  line 1, band 1: limit 0: expected at least 1 m3"),
    ("band 7 5\nband 7 5\nband rest 6\n", "\n  line 2, band 2: limit 7: expected more than 7 m3, the limit of band 1"),
    ("band 7 5\n# lower\nband 6 5\nband rest 6\n", "\n  line 3, band 2: limit 6: expected more than 7 m3, the limit of band 1"),
    ("band 7 1000001\nband rest 6\n", "\n  line 1, band 1: price 1000001: expected 0..1000000 cents per m3"),
    ("band 7 5\nband rest 1000001\n", "\n  line 2, band 2: price 1000001: expected 0..1000000 cents per m3"),
    ("\nband rest 5\nsurcharge 501\n", "\n  line 3: surcharge 501: expected 0..500 thousandths"),
    ("band 1 5\nband 2 5\nband 3 5\nband 4 5\nband 5 5\nband 6 5\nband rest 5\n", "\n  line 7, band 7: expected at most 6 bands"),
    ("band 1 5\nband 2 5\nband 3 5\nband 4 5\nband 5 5\nband 6 5\nband 7 5\nband 8 5\nband rest 5\n", "\n  line 7, band 7: expected at most 6 bands"),
    ("", "\n  no line 'band': expected 1 to 6 bands, their limits rising from at least 1 m3,\
        \n  the last without limit"),
    ("# none\nsurcharge 80\n", "\n  no line 'band': expected 1 to 6 bands, their limits rising from at least 1 m3,\
        \n  the last without limit"),
    ("surcharge 4294967295\nband 0 4294967295\nband 0 5\nband rest 4294967295\n",
        "\n  line 2, band 1: limit 0: expected at least 1 m3\
        \n  line 2, band 1: price 4294967295: expected 0..1000000 cents per m3\
        \n  line 3, band 2: limit 0: expected more than 0 m3, the limit of band 1\
        \n  line 4, band 3: price 4294967295: expected 0..1000000 cents per m3\
        \n  line 1: surcharge 4294967295: expected 0..500 thousandths"),
];

#[test]
fn tariffs_that_are_not_valid_are_told() {
    let path = example("case-a.plant");
    for (lines, told) in WRONG {
        let tariff = tariff(lines);
        let told = format!("(tariff): the tariff in {tariff} is not valid{told}");
        for candidate in ["", "300 75 20"] {
            is_refused(&price(&path, &tariff, candidate), &path, 22, &told);
        }
    }
}

/// The sheet's own refusals come before 22, and the same is said of them as by
/// `choose` and `examine`.
#[test]
fn refusals_of_the_sheet() {
    for (number, key, line) in [
        (1, "load", "load 0"),
        (2, "bod", "bod measured nan"),
        (3, "solids", "solids below 4001"),
        (4, "cod", "cod measured 440.1"),
        (5, "nitrogen", "nitrogen measured 100"),
        (14, "load", "load 1200\nterm 02-30 03-31 3 20000"),
        (17, "sludge-volume-index", "sludge-volume-index 181"),
    ] {
        let path = plant(&with(key, line));
        for lines in ["band rest 5\n", "band 7 5\nband 6 5\nband rest 6\n"] {
            let ran = price(&path, &tariff(lines), "");
            assert_eq!((ran.status, ran.out), (1, format!("refused {number}\n")));
            assert_eq!(ran.err, pewgull(&["choose", &path]).err);
        }
    }
}

#[test]
fn refusals_of_a_candidate() {
    for (number, candidate) in [(6, "300 76 20"), (7, "299 75 20"), (9, "300 75 20")] {
        let path = match number {
            9 => plant(&with("site-surface", "site-surface 453")),
            _ => plant(CASE_A),
        };
        for lines in ["band rest 5\n", "surcharge 501\n"] {
            let ran = price(&path, &tariff(lines), candidate);
            assert_eq!((ran.status, ran.out), (1, format!("refused {number}\n")));
            let words: Vec<&str> = candidate.split(' ').collect();
            let examine = pewgull(&[&["examine", &path], &words[..]].concat());
            assert_eq!(ran.err, examine.err);
        }
    }
}

/// What is expected of a band and of a surcharge.
const BAND: &str = "expected 'band LIMIT PRICE', or 'band rest PRICE' as the last band: LIMIT a \
    whole number of m3, at least 1 and above the one before, PRICE one of 0..1000000 cents per \
    m3, digits alone";
const SURCHARGE: &str =
    "expected 'surcharge N', N a whole number from 0 to 500 in thousandths, digits alone";
const WORD: &str = "expected 'band' or 'surcharge'";

/// Files that are no tariffs: their lines, the line at fault, what is wrong
/// and what was expected.
#[rustfmt::skip]
const FAULTS: [(&str, usize, &str, &str); 19] = [
    ("band\nband rest 1\n", 1, "the limit is missing", BAND),
    ("band 500\nband rest 1\n", 1, "the price is missing", BAND),
    ("band rest\n", 1, "the price is missing", BAND),
    ("band 500 420.00\nband rest 1\n", 1, "'420.00' is not a whole number", BAND),
    ("band 500,5 42000\nband rest 1\n", 1, "'500,5' is not a whole number", BAND),
    ("band -1 42000\nband rest 1\n", 1, "'-1' is not a whole number", BAND),
    ("band Rest 42000\nband rest 1\n", 1, "'Rest' is not a whole number", BAND),
    ("band 500 42000 cents\nband rest 1\n", 1, "'cents' is one word too many", BAND),
    ("band 4294967296 1\nband rest 1\n", 1, "'4294967296' is too large", BAND),
    ("band 1 4294967296\nband rest 1\n", 1, "'4294967296' is too large", BAND),
    ("band rest 1\nsurcharge\n", 2, "the value is missing", SURCHARGE),
    ("band rest 1\nsurcharge 8%\n", 2, "'8%' is not a whole number", SURCHARGE),
    ("band rest 1\nsurcharge 80 1\n", 2, "'1' is one word too many", SURCHARGE),
    ("band rest 1\nsurcharge 4294967296\n", 2, "'4294967296' is too large", SURCHARGE),
    ("surcharge 80\nband rest 1\nsurcharge 80\n", 3, "the surcharge was given in line 1 already", "expected it once"),
    ("band 500 1\n\nsurcharge 1\n# end\n", 4, "no band is without limit", "expected 'band rest PRICE' as the last band"),
    ("band rest 1\nband 500 1\n", 2, "a band after 'band rest' of line 1", "expected that one as the last"),
    ("Band 500 1\nband rest 1\n", 1, "'Band' is no word of a tariff", WORD),
    ("load 1200\nband rest 1\n", 1, "'load' is a key of a plant file", WORD),
];

#[test]
fn faults_of_a_tariff_file() {
    for (lines, line, wrong, expected) in FAULTS {
        let path = tariff(lines);
        let ran = price(&example("case-a.plant"), &path, "");
        assert_eq!((ran.status, ran.out.as_str()), (2, ""), "{lines}");
        let said = format!("pewgull: {path}:{line}: {wrong}; {expected}");
        assert!(ran.err.starts_with(&said), "{}", ran.err);
        assert_eq!(ran.err.lines().count(), 1, "{}", ran.err);
    }
}

/// All faults of both files are told; a fault comes before any refusal.
#[test]
fn faults_of_both_files() {
    let bad = plant(&with("load", "load x"));
    let both = price(&bad, &tariff("band 1\nsurcharge x\n"), "");
    assert_eq!((both.status, both.out.as_str()), (2, ""));
    assert_eq!(both.err.lines().count(), 4, "{}", both.err);
    assert!(both.err.starts_with(&format!("pewgull: {bad}:1: ")));
    let refused = plant(&with("load", "load 0"));
    let ran = price(&refused, &tariff("band rest x\n"), "");
    assert_eq!((ran.status, ran.out.as_str()), (2, ""));
}

#[test]
fn files_that_are_exchanged() {
    let (path, concrete) = (example("case-a.plant"), example("concrete.tariff"));
    for (tariff, candidate) in [(concrete, "300 75 20"), (tariff(""), "")] {
        let ran = price(&tariff, &path, candidate);
        assert_eq!((ran.status, ran.out.as_str()), (2, ""));
        let said = format!(
            "pewgull: {tariff}: this is a tariff file, and {path} is a plant file; \
             expected the plant file first\n"
        );
        assert_eq!(ran.err, said);
    }
}

#[test]
fn tariffs_that_cannot_be_read() {
    let path = example("case-a.plant");
    let folder = env!("CARGO_TARGET_TMPDIR");
    for (tariff, reason) in [
        ("no-such.tariff", "no such file"),
        (folder, "this is a folder"),
    ] {
        let ran = price(&path, tariff, "");
        assert_eq!((ran.status, ran.out.as_str()), (2, ""));
        let said = format!("pewgull: {tariff}: {reason}; expected a tariff file\n");
        assert_eq!(ran.err, said);
    }
    let binary = tariff("band rest\0 1\n");
    let ran = price(&path, &binary, "");
    let said = format!("pewgull: {binary}:1: not a text file; expected a tariff file in UTF-8\n");
    assert_eq!((ran.status, ran.err), (2, said));
}

/// A file of a megabyte is answered as a short one is.
#[test]
fn long_files() {
    let path = example("case-a.plant");
    let many = tariff(&("band 7 5\n".repeat(110_000) + "band rest 6\n"));
    let ran = price(&path, &many, "");
    assert_eq!((ran.status, ran.out.as_str()), (1, "refused 22\n"));
    assert!(ran
        .err
        .ends_with("\n  line 7, band 7: expected at most 6 bands\n"));
    let faults = tariff(&"nonsense\n".repeat(100));
    let ran = price(&path, &faults, "");
    assert_eq!((ran.status, ran.err.lines().count()), (2, 11));
    let last = format!("pewgull: {faults}:11: 90 more faults from here on; expected a tariff file");
    assert!(ran.err.lines().last().unwrap().starts_with(&last));
}
