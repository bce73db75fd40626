//! Terms of the consent: the command `target`, the figures of each term, and
//! what the refusals 14, 15, 16 and 5 say.

mod common;

use common::{example, file, pewgull, replaced, with, CASE_A};
use std::fs::File;
use std::process::Command;

/// Case A with these lines more.
fn case_a(name: &str, lines: &str) -> String {
    file(name, format!("{CASE_A}{lines}\n"))
}

const YEAR: &str = "\
term 11-01 03-31 8 20000
term 05-01 09-30 15 9000
term 12-24 12-24 4 7000
";

#[test]
fn the_target_on_a_day() {
    let alone = file("alone.terms", YEAR);
    let whole = file("whole.plant", format!("{CASE_A}{YEAR}"));
    let part = file("part.plant", format!("load 1200\n# terms\n{YEAR}dose 0\n"));
    for (date, target) in [
        ("11-01", 20_000),
        ("12-23", 20_000),
        ("12-24", 7_000),
        ("1-1", 20_000),
        ("02-29", 20_000),
        ("03-31", 20_000),
        ("05-01", 9_000),
        ("09-30", 9_000),
    ] {
        for path in [&alone, &whole, &part] {
            let ran = pewgull(&["target", path, date]);
            let printed = format!("target {target}\n");
            assert_eq!((ran.status, ran.out, ran.err.as_str()), (0, printed, ""));
        }
    }
    let mut tool = Command::new(env!("CARGO_BIN_EXE_pewgull"));
    tool.args(["target", "-", "02-29"]);
    let input = File::open(&alone).unwrap();
    let ran = common::ran(tool.stdin(input).output().unwrap());
    assert_eq!((ran.status, ran.out.as_str()), (0, "target 20000\n"));
}

#[test]
fn no_term_runs() {
    let path = file("none.terms", YEAR);
    for date in ["04-01", "10-31"] {
        let ran = pewgull(&["target", &path, date]);
        let said = format!("pewgull: {path}: no term runs on {date}\n");
        assert_eq!((ran.status, ran.out.as_str()), (0, "target 0\n"));
        assert_eq!(ran.err, said);
    }
    let empty = file("empty.terms", "");
    for path in [&empty, &example("case-a.plant")] {
        let ran = pewgull(&["target", path, "7-1"]);
        let said = format!("pewgull: {path}: no term runs on 07-01: the file has no line 'term'\n");
        assert_eq!((ran.status, ran.out.as_str()), (0, "target 0\n"));
        assert_eq!(ran.err, said);
    }
}

/// Lines of terms, and what is said of them with 14; the second line of the
/// file is the first of these.
#[rustfmt::skip]
const NOT_VALID: [(&str, &[&str]); 8] = [
    ("term 02-30 03-31 8 20000", &["line 2, term 1: first day 02-30: expected a day of 01..29 in month 02\n"]),
    ("term 02-29 04-31 8 20000", &["line 2, term 1: last day 04-31: expected a day of 01..30 in month 04\n"]),
    ("term 13-01 00-31 8 20000", &["first day 13-01: expected a month of 01..12\n", "last day 00-31: expected a month of 01..12\n"]),
    ("term 1-0 1-1 8 20000", &["first day 01-00: expected a day of 01..31 in month 01\n"]),
    ("term 11-01 03-31 3 20000", &["line 2, term 1: temperature 3: expected 4..20 degrees Celsius\n"]),
    ("term 11-01 03-31 4 20000\n\nterm 11-01 03-31 21 50001", &["line 4, term 2: temperature 21: expected 4..20", "line 4, term 2: target 50001: expected 1000..50000 mg/m3\n"]),
    ("term 1-1 1-1 4294967295 999", &["temperature 4294967295: expected 4..20", "target 999: expected 1000..50000"]),
    ("term 1-1 1-1 4 1000\nterm 1-1 1-1 4 1000\nterm 1-1 1-1 4 1000\nterm 1-1 1-1 4 1000\nterm 1-1 1-1 4 1000\nterm 1-1 1-1 4 1000", &["line 6, term 5: expected at most 4 terms\n"]),
];

/// What was printed is refusal 14, and these lines are said.
fn is_14(ran: &common::Ran, words: &[&str]) {
    assert_eq!((ran.status, ran.out.as_str()), (1, "refused 14\n"));
    assert!(ran.err.contains(": refused 14 (terms): "), "{}", ran.err);
    assert_eq!(ran.err.lines().count(), 1 + words.len(), "{}", ran.err);
    for word in words {
        assert!(ran.err.contains(word), "no '{word}' in {}", ran.err);
    }
    assert!(ran.err.lines().skip(1).all(|told| told.len() <= 80));
}

#[test]
fn terms_that_are_not_valid_are_named() {
    for (place, (lines, words)) in NOT_VALID.iter().enumerate() {
        let path = file(
            &format!("not-valid-{place}.plant"),
            format!("# a consent\n{lines}\n{CASE_A}"),
        );
        is_14(&pewgull(&["choose", &path]), words);
        is_14(&pewgull(&["census", &path]), words);
        is_14(&pewgull(&["examine", &path, "0", "0", "0"]), words);
        is_14(&pewgull(&["explain", &path, "300", "75", "20"]), words);
        is_14(&pewgull(&["target", &path, "01-01"]), words);
        let date = "date 02-30: expected a day of 01..29 in month 02\n";
        let both = [words, &[date][..]].concat();
        is_14(&pewgull(&["target", &path, "02-30"]), &both);
    }
    let sound = file("sound.terms", YEAR);
    let month = "\n  date 13-01: expected a month of 01..12\n";
    is_14(&pewgull(&["target", &sound, "13-01"]), &[month]);
}

/// 1 to 4 come first, and then no term is named.
#[test]
fn earlier_refusals_come_first() {
    let wrong = "term 02-30 02-30 3 999";
    for (number, key, line) in [
        (1, "load", "load 0"),
        (2, "bod", "bod measured nan"),
        (3, "phosphorus", "phosphorus measured 101"),
        (4, "cod", "cod measured 440.1"),
    ] {
        let path = file("earlier.plant", with(key, &format!("{line}\n{wrong}")));
        let ran = pewgull(&["choose", &path]);
        assert_eq!(ran.out, format!("refused {number}\n"));
        assert!(!ran.err.contains("term"), "{}", ran.err);
    }
}

#[test]
fn explain_prints_the_figures_of_each_term() {
    let path = case_a(
        "explained.plant",
        "term 11-01 03-31 8 30000\nterm 04-01 10-31 11 12999\ndose 999",
    );
    let ran = pewgull(&["explain", &path, "300", "75", "20"]);
    let expected = "\
depth                       4536  at most      5000 mm           kept
term-1-aerobic-share        1037  at most      1000 thousandths  refusal 15
term-1-fraction                0  at most       300 thousandths  kept
term-1-to-remove            6000  at most       199 mg/m3        refusal 16
term-1-removed-by-bod          0                    mg/m3
term-1-removable             199  at least     6000 mg/m3        refusal 16
term-2-aerobic-share         773  at most      1000 thousandths  kept
term-2-fraction              227  at most       300 thousandths  kept
term-2-to-remove           23001  at most     23199 mg/m3        kept
term-2-removed-by-bod      23000                    mg/m3
term-2-removable           23199  at least    23001 mg/m3        kept
verdict 15
";
    assert_eq!((ran.status, ran.err.as_str()), (0, ""));
    assert!(ran.out.ends_with(expected), "{}", ran.out);
    assert_eq!(ran.out.lines().count(), 8 + 2 * 5 + 1);
}

/// What is said of a refusal of Case A at a fraction.
fn refused(number: u32, path: &str, fraction: &str) -> String {
    let ran = pewgull(&["examine", path, fraction, "75", "20"]);
    assert_eq!((ran.status, ran.out), (1, format!("refused {number}\n")));
    let told = |line: &str| line.len() <= 80;
    assert!(ran.err.lines().skip(1).all(told), "{}", ran.err);
    ran.err
}

/// Case A keeps its nitrification at 8 degrees from a fraction of 325 on, and
/// at 4 degrees at none.
#[test]
fn lost_nitrification_is_told() {
    let path = case_a(
        "lost.plant",
        "term 05-01 10-31 12 10000\nterm 11-01 03-31 8 36000",
    );
    let said = refused(15, &path, "324");
    let expected = ": refused 15 (nitrification): nitrification is lost in a term.\
        \n  term 2, 11-01 to 03-31, at 8 degrees Celsius:\
        \n  aerobic share 1001 thousandths of the sludge age, at most 1000 thousandths.\
        \n  A larger F lengthens the sludge age: 325 is the least that keeps it.\
        \n  Look at the temperature of term 2, a lower design-temperature, a larger F\n";
    assert!(said.ends_with(expected), "{said}");
    assert_eq!(pewgull(&["examine", &path, "325", "75", "20"]).status, 0);
    let cold = case_a("cold.plant", &"term 11-01 03-31 4 50000\n".repeat(2));
    let said = refused(15, &cold, "499");
    let none = "but none up to 500 keeps it.\n  Look at the temperature of terms 1 and 2, a lower";
    assert!(said.contains(none), "{said}");
    assert!(said.contains("\n  term 1, ") && said.contains("\n  term 2, "));
    let said = refused(15, &cold, "500");
    assert!(!said.contains("larger F"), "{said}");
}

/// No colder design is advised than there can be.
#[test]
fn the_coldest_design() {
    let text = with("design-temperature", "design-temperature 10");
    let cold = file("coldest.plant", text + "term 11-01 03-31 4 35999\n");
    for (number, fraction) in [(15, "444"), (16, "445")] {
        let said = refused(number, &cold, fraction);
        assert!(!said.contains("design-temperature"), "{said}");
    }
}

/// At 10 degrees a fraction of 148 is left of 300, and the BOD removes nothing.
#[test]
fn nitrate_of_a_term_is_told() {
    let terms = "term 11-01 03-31 10 30000\nterm 04-01 10-31 11 12999";
    let path = case_a("short.plant", terms);
    let said = refused(16, &path, "300");
    let expected = "the tank cannot remove enough nitrate in a term.\
        \n  term 1, 11-01 to 03-31, at 10 degrees Celsius, fraction 148:\
        \n  to be removed                 6000 mg/m3\
        \n  removed by the tank's BOD        0 mg/m3\
        \n  removed by the dose              0 mg/m3\
        \n  the tank can remove              0 mg/m3\
        \n  At a fraction under 200 the tank's BOD removes nothing.\
        \n  The lowest target that it covers: 36000 mg/m3.\
        \n  term 2, 04-01 to 10-31, at 11 degrees Celsius, fraction 227:\
        \n  to be removed                23001 mg/m3\
        \n  removed by the tank's BOD    23000 mg/m3\
        \n  removed by the dose              0 mg/m3\
        \n  the tank can remove          23000 mg/m3\
        \n  The lowest target that it covers: 13000 mg/m3.\
        \n  The least dose that covers every term: 30000 mg/m3 as COD.\
        \n  Look at a looser target of terms 1 and 2, dose, nitrogen and bod, a lower\
        \n  design-temperature, a larger F\n";
    assert!(said.ends_with(expected), "{said}");
    let dosed = |dose: u32| case_a("dosed.plant", &format!("{terms}\ndose {dose}"));
    let enough = pewgull(&["examine", &dosed(30_000), "300", "75", "20"]);
    assert_eq!(enough.status, 0);
    let less = refused(16, &dosed(29_999), "300");
    assert!(
        less.contains("covers every term: 30000 mg/m3 as COD"),
        "{less}"
    );
    let looser = terms.replace("30000", "36000").replace("12999", "13000");
    let path = case_a("looser.plant", &looser);
    assert_eq!(pewgull(&["examine", &path, "300", "75", "20"]).status, 0);
}

/// In the COD way a simultaneous plant's terms are told by the COD.
#[test]
fn nitrate_of_a_term_in_the_cod_way() {
    let text = with("process", "process simultaneous")
        .replace("nitrate-target 10000", "nitrate-target 20000");
    let terms = "term 11-01 03-31 10 30000\nterm 04-01 10-31 11 22000\n";
    let plant = |name: &str, terms: &str| file(name, format!("{text}way cod\n{terms}"));
    let said = refused(16, &plant("short-cod.plant", terms), "300");
    for part in [
        "\n  At a fraction under 200 the tank's COD removes nothing.\n",
        "\n  The lowest target that it covers: 36000 mg/m3.\n",
        "fraction 227:\n  to be removed                14000 mg/m3\n  removed by the tank's COD ",
        "terms 1 and 2, dose, nitrogen, bod, cod and solids,\n  a lower design-temperature, a larger F\n",
    ] {
        assert!(said.contains(part), "no '{part}' in {said}");
    }
    assert!(!said.contains("tank's BOD"), "{said}");
    let told = |start: &str| -> u32 {
        let (_, rest) = said.rsplit_once(start).unwrap();
        rest.split(' ').next().unwrap().parse().unwrap()
    };
    // with the lowest targets, or with the least dose, it is permitted; with
    // one less it is not
    let target = told("The lowest target that it covers: ");
    let dose = told("The least dose that covers every term: ");
    let targets = |second: u32| {
        let terms = terms
            .replace("30000", "36000")
            .replace("22000", &second.to_string());
        plant("looser-cod.plant", &terms)
    };
    let dosed = |dose: u32| plant("dosed-cod.plant", &format!("{terms}dose {dose}\n"));
    let status = |path: &str| pewgull(&["examine", path, "300", "75", "20"]).status;
    assert_eq!(
        (status(&targets(target)), status(&targets(target - 1))),
        (0, 1)
    );
    assert_eq!((status(&dosed(dose)), status(&dosed(dose - 1))), (0, 1));
}

/// A plant of the COD way, of whose fractions 494 alone keeps the nitrate and
/// those from 497 on alone keep the nitrification of the term: a looser target
/// helps, and is not said not to.
#[test]
fn what_helps_is_not_denied_in_the_cod_way() {
    let text = [
        ("load", "load 1501"),
        ("design-temperature", "design-temperature 20"),
        ("process", "process simultaneous"),
        ("cod", "cod measured 100"),
        (
            "solids",
            "solids measured 267.218\nterm 11-01 03-31 13 50000\nway cod",
        ),
    ]
    .into_iter()
    .fold(CASE_A.to_string(), |text, (key, line)| {
        replaced(&text, key, line)
    });
    let plant = |target: u32| {
        let line = format!("nitrate-target {target}");
        file("helped.plant", replaced(&text, "nitrate-target", &line))
    };
    let ran = pewgull(&["choose", &plant(35_994)]);
    let told = "\n  permitted 0\n  nitrate 82800\n  nitrification 276\n  term-nitrate 0\n  \
        solids 0\n  surface 0\n  depth 0\
        \n  Look first at nitrification, which stops the most of those that keep nitrate:\
        \n  the temperature of term 1, a lower design-temperature.\n";
    assert_eq!((ran.status, ran.out.as_str()), (1, "refused 5\n"));
    assert!(ran.err.contains(told), "{}", ran.err);
    assert_eq!(pewgull(&["choose", &plant(35_995)]).status, 0);
}

/// Where no dose and no target of the range covers a term, none is told.
#[test]
fn no_remedy_past_its_range() {
    let text = with("nitrogen", "nitrogen measured 180")
        .replace("nitrate-target 10000", "nitrate-target 50000")
        .replace("bod measured 200", "bod measured 1000")
        .replace("cod measured 400", "cod measured 1000");
    let path = file("far.plant", text + "term 11-01 03-31 10 1000\n");
    let said = refused(16, &path, "300");
    assert!(
        said.contains("No dose up to 500000 mg/m3 as COD covers every term."),
        "{said}"
    );
    assert!(!said.contains("lowest target"), "{said}");
    assert!(!said.contains(" dose,"), "{said}");
}

/// Refusal 7 tells the least dose of the design, and that of the terms.
#[test]
fn refusal_7_knows_the_terms() {
    let path = case_a("seven.plant", "term 11-01 03-31 10 30000");
    let said = refused(7, &path, "299");
    let expected = "\n  The least dose that covers it: 1000 mg/m3 as COD.\
        \n  The least dose that covers the terms too: 30000 mg/m3 as COD.\n";
    assert!(said.contains(expected), "{said}");
    for term in ["term 11-01 03-31 12 10000", "term 11-01 03-31 8 50000"] {
        let said = refused(7, &case_a("same.plant", term), "299");
        assert!(!said.contains("terms too"), "{said}");
    }
}

/// Lines that replace those of Case A or come after them, the counts of the
/// census from nitrate on, and words of the advice.
type NoDesign = (
    &'static str,
    &'static str,
    [u32; 6],
    &'static [&'static str],
);

#[rustfmt::skip]
const NO_DESIGNS: [NoDesign; 6] = [
    ("load 1200", "term 11-01 03-31 4 50000", [27_600, 55_476, 0, 0, 0, 0], &["first at nitrification, which stops the most of those that keep nitrate\n  (a looser nitrate-target or a dose alone cannot help: every fraction is\n  stopped):", "\n  the temperature of term 1, a lower design-temperature.\n"]),
    ("nitrate-target 50000", "term 11-01 03-31 4 50000", [0, 83_076, 0, 0, 0, 0], &["first at nitrification, which stops the most:\n  the temp"]),
    ("load 1200", "term 5-1 9-30 12 10000\nterm 11-01 03-31 8 11799", [27_600, 6_900, 48_576, 0, 0, 0], &["first at term-nitrate, which stops the most of those that keep nitrate\n  and nitrification (a looser nitrate-target alone", "a looser target of term 2, a dose of at least 5 mg/m3 as COD, nitrogen and"]),
    ("nitrogen measured 100", "term 11-01 03-31 8 10000", [83_076, 0, 0, 0, 0, 0], &["first at nitrate, which stops the most:", "a dose of at least 279000 mg/m3 as COD,"]),
    ("nitrogen measured 100", "term 11-01 03-31 4 10000", [83_076, 0, 0, 0, 0, 0], &["first at nitrate, which stops the most:", "a dose of at least 250000 mg/m3 as COD,"]),
    // the terms stop more, and still it is the tank that nothing gets past
    ("site-surface 1", "term 11-01 03-31 8 11800", [27_600, 6_900, 47_472, 0, 1_104, 0], &["first at surface, which stops the most of those that keep nitrate,\n  nitrification and term-nitrate (a looser target or a dose alone"]),
];

#[test]
fn no_design_knows_the_terms() {
    for (place, (line, terms, counts, words)) in NO_DESIGNS.iter().enumerate() {
        let key = line.split_once(' ').unwrap().0;
        let text = replaced(CASE_A, key, line) + terms + "\n";
        let path = file(&format!("no-design-terms-{place}.plant"), text);
        let ran = pewgull(&["choose", &path]);
        assert_eq!((ran.status, ran.out.as_str()), (1, "refused 5\n"));
        let [nitrate, nitrification, term_nitrate, solids, surface, depth] = counts;
        let census = format!(
            "permitted 0\nnitrate {nitrate}\nnitrification {nitrification}\n\
             term-nitrate {term_nitrate}\nsolids {solids}\nsurface {surface}\ndepth {depth}\n"
        );
        assert_eq!(pewgull(&["census", &path]).out, census);
        let told = census.replace('\n', "\n  ");
        assert!(ran.err.contains(&format!("\n  {told}Look")), "{}", ran.err);
        for word in *words {
            assert!(ran.err.contains(word), "no '{word}' in {}", ran.err);
        }
        assert!(ran.err.lines().skip(1).all(|told| told.len() <= 80));
    }
}
