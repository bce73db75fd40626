//! The commands: what they print, say and end with.

mod common;

use common::{example, file, pewgull, replaced, with, CASE_A, CASE_A_LISTING};
use std::fs::{self, File};
use std::process::{Command, Stdio};

const NONE_PERMITTED: &str = "permitted 0\nnitrate 83076\nnitrification 0\nterm-nitrate 0\n\
    solids 0\nsurface 0\ndepth 0\n";
const CHOSEN: &str = "fraction 300\nreturn 71\nthickening 22\n";

#[test]
fn examine_prints_the_listing() {
    let ran = pewgull(&["examine", &example("case-a.plant"), "300", "75", "20"]);
    assert_eq!(
        (ran.status, ran.out.as_str(), ran.err.as_str()),
        (0, CASE_A_LISTING, "")
    );
}

#[test]
fn choose_prints_the_listing() {
    let ran = pewgull(&["choose", &example("case-a.plant")]);
    assert_eq!((ran.status, ran.err.as_str()), (0, ""));
    assert!(ran.out.starts_with(CHOSEN) && ran.out.contains("\ntotal 5164\n"));
    assert_eq!(ran.out.lines().count(), 15);
}

#[test]
fn explain_prints_figures_beside_limits() {
    let ran = pewgull(&["explain", &example("case-a.plant"), "300", "75", "20"]);
    assert_eq!((ran.status, ran.err.as_str()), (0, ""));
    let lines: Vec<Vec<&str>> = ran
        .out
        .lines()
        .map(|l| l.split_whitespace().collect())
        .collect();
    let expected = [
        "nitrate-to-remove 26000 at most 26000 mg/m3 kept",
        "nitrate-removed-by-bod 26000 mg/m3",
        "nitrate-removed-by-dose 0 mg/m3",
        "nitrate-removable 26000 at least 26000 mg/m3 kept",
        "solids 3779 at least 1000 g/m3 kept",
        "sludge-volume 378 at most 600 l/m3 kept",
        "surface 454 at most 1000 m2 kept",
        "depth 4536 at most 5000 mm kept",
        "verdict 0",
    ];
    assert_eq!(
        lines
            .iter()
            .map(|words| words.join(" "))
            .collect::<Vec<_>>(),
        expected
    );
}

#[test]
fn explain_tells_every_broken_limit() {
    let text =
        with("site-surface", "site-surface 453").replace("site-depth 5000", "site-depth 4535");
    let ran = pewgull(&["explain", &file("broken.plant", text), "299", "75", "20"]);
    assert_eq!(ran.status, 0);
    for (label, verdict) in [
        ("nitrate-to-remove", "refusal 7"),
        ("surface", "refusal 9"),
        ("depth", "refusal 10"),
    ] {
        let line = ran
            .out
            .lines()
            .find(|line| line.starts_with(label))
            .unwrap();
        assert!(line.ends_with(verdict), "{line}");
    }
    assert!(ran.out.ends_with("\nverdict 7\n"), "{}", ran.out);
}

/// A refusal by examine: its number, the key whose line is replaced, the
/// line, the fraction, and words of the message.
type Refused = (
    u32,
    &'static str,
    &'static str,
    &'static str,
    &'static [&'static str],
);

#[rustfmt::skip]
const REFUSALS: [Refused; 17] = [
    (1, "load", "load 0", "300", &["plant data", "\n  load 0: expected 1..100000 kg/d\n"]),
    (1, "flow", "flow 4294967295", "300", &["flow 4294967295: expected 1..200000 m3/d"]),
    (1, "phosphorus", "phosphorus measured 8\ndose 500001", "300", &["\n  dose 500001: expected 0..500000 mg/m3 as COD\n"]),
    (2, "bod", "bod measured nan", "300", &["no number", "bod measured NaN: expected a finite number"]),
    (2, "cod", "cod below -1", "300", &["no number", "cod below -1: expected", "not below zero"]),
    (3, "bod", "bod measured 19", "300", &["reading range", "bod measured 19 comes to 19.000 mg/l: expected 20..2000 mg/l"]),
    (3, "bod", "bod below 39.9985", "300", &["bod below 39.9985 comes to half of it, 19.999 mg/l: expected 20..2000"]),
    (3, "bod", "bod heads 0", "300", &["reading range", "bod heads 0: expected 1..2000000"]),
    (3, "cod", "cod heads 830", "300", &["cod heads 830 comes to 19.920 mg/l: expected 20..4400 mg/l"]),
    (3, "solids", "solids measured 1e38", "300", &["solids measured 1e38 comes to 1.000e38 mg/l: expected 0..2000 mg/l"]),
    (4, "cod", "cod measured 440.1", "300", &["COD ratio", "cod 440.100 mg/l, bod 200.000 mg/l", "2.2 times bod", "take 'way cod':"]),
    (6, "load", "load 1200", "501", &["off grid", "F 501: expected 200..500 thousandths"]),
    (7, "load", "load 1200", "299", &["nitrate", "least dose that covers it: 1000 mg/m3 as COD.", "a larger F"]),
    (7, "nitrogen", "nitrogen measured 150", "500", &["covers it: 500000 mg/m3 as COD.", "Look at nitrate-target, dose, "]),
    (7, "nitrogen", "nitrogen measured 150.001", "500", &["No dose up to 500000 mg/m3 as COD covers it.", "Look at nitrate-target, nitrogen "]),
    (9, "site-surface", "site-surface 453", "300", &["surface 454 m2", "site-surface 453 m2", "a smaller R\n"]),
    (10, "site-depth", "site-depth 4535", "300", &["depth 4536 mm", "site-depth 4535 mm"]),
];

#[test]
fn refusals_are_told_in_words() {
    for (place, (number, key, line, fraction, words)) in REFUSALS.iter().enumerate() {
        let path = file(&format!("refusal-{place}.plant"), with(key, line));
        let ran = pewgull(&["examine", &path, fraction, "75", "20"]);
        assert_eq!((ran.status, ran.out), (1, format!("refused {number}\n")));
        let start = format!("pewgull: {path}: refused {number} (");
        assert!(ran.err.starts_with(&start), "{}", ran.err);
        assert!(
            ran.err.lines().skip(1).all(|told| told.len() <= 80),
            "{}",
            ran.err
        );
        assert!(
            words.iter().all(|word| ran.err.contains(word)),
            "{}",
            ran.err
        );
    }
}

/// Case A with a dose.
fn dosed(dose: u32) -> String {
    file(
        &format!("dose-{dose}.plant"),
        format!("{CASE_A}dose {dose}\n"),
    )
}

#[test]
fn the_nitrate_columns_are_told() {
    let ran = pewgull(&["examine", &dosed(500), "299", "75", "20"]);
    let columns = "\n  to be removed                26000 mg/m3\
        \n  removed by the tank's BOD    25800 mg/m3\
        \n  removed by the dose            100 mg/m3\
        \n  the tank can remove          25900 mg/m3\n";
    assert!(ran.err.contains(columns), "{}", ran.err);
}

/// With the dose that refusal 7 tells the candidate is permitted, with one
/// less it is not.
#[test]
fn the_least_dose_is_told() {
    for fraction in ["200", "250", "299"] {
        let candidate = |path: &str| pewgull(&["examine", path, fraction, "75", "20"]);
        let ran = candidate(&example("case-a.plant"));
        let (_, told) = ran.err.split_once("covers it: ").unwrap();
        let dose: u32 = told.split(' ').next().unwrap().parse().unwrap();
        assert_eq!(candidate(&dosed(dose)).status, 0);
        let short = candidate(&dosed(dose - 1));
        assert_eq!(short.out, "refused 7\n");
        assert!(short.err.contains(&format!("covers it: {dose} mg/m3")));
    }
}

/// The nitrate that the dose removes saves no oxygen: with a dose for all of
/// it the uptake is carbon and nitrification alone.
#[test]
fn a_dose_moves_the_oxygen_alone() {
    let ran = pewgull(&["examine", &dosed(130_000), "300", "75", "20"]);
    let expected = CASE_A_LISTING
        .replace("oxygen 99292", "oxygen 115000")
        .replace("transfer 127662", "transfer 147858");
    assert_eq!((ran.status, ran.out), (0, expected));
}

#[test]
fn explain_prints_what_the_dose_removes() {
    let ran = pewgull(&["explain", &dosed(1_004), "299", "75", "20"]);
    let lines: Vec<&str> = ran.out.lines().take(4).collect();
    let expected = [
        "nitrate-to-remove          26000  at most     26000 mg/m3  kept",
        "nitrate-removed-by-bod     25800                    mg/m3",
        "nitrate-removed-by-dose      200                    mg/m3",
        "nitrate-removable          26000  at least    26000 mg/m3  kept",
    ];
    assert_eq!((ran.status, lines), (0, expected.to_vec()));
    assert!(ran.out.ends_with("\nverdict 0\n"), "{}", ran.out);
}

/// The library refuses with 4 in the BOD way, and with the way that the message
/// names it does not.
#[test]
fn the_way_of_refusal_4_is_told() {
    let text = with("cod", "cod measured 4400");
    let candidate = ["300", "75", "20"];
    for command in ["choose", "census", "examine", "explain"] {
        let numbers: &[&str] = match command {
            "examine" | "explain" => &candidate,
            _ => &[],
        };
        let run = |name: &str, text: &str| {
            let path = file(name, text);
            pewgull(&[&[command, path.as_str()], numbers].concat())
        };
        for bod in [text.clone(), format!("{text}way bod\n")] {
            let ran = run("ratio-bod.plant", &bod);
            assert_eq!((ran.status, ran.out.as_str()), (1, "refused 4\n"));
            let told = "more than eleven times the BOD\
                \n  cod 4400.000 mg/l, bod 200.000 mg/l: cod may be at most 2.2 times bod\
                \n  Check both readings. Industrial works with so much COD take 'way cod':\
                \n  sludge and oxygen come from the COD then, and this limit is not held to\n";
            assert!(ran.err.ends_with(told), "{}", ran.err);
            assert!(ran.err.lines().skip(1).all(|told| told.len() <= 80));
        }
        let ran = run("ratio-cod.plant", &format!("{text}way cod\n"));
        assert_eq!((ran.status, ran.err.as_str()), (0, ""));
    }
}

/// Case A in the COD way, with another process and more lines.
fn by_cod(name: &str, process: &str, lines: &str) -> String {
    let text = with("process", &format!("process {process}"));
    file(name, format!("{text}way cod\n{lines}"))
}

/// What the tank's own carbon removes is named by what it is reckoned from.
#[test]
fn explain_names_the_carbon() {
    for (process, removed, carbon) in [
        ("pre-anoxic", 26_000, "bod"),
        ("step-feed-two", 26_000, "bod"),
        ("step-feed-three", 26_000, "bod"),
        ("simultaneous", 16_764, "cod"),
        ("intermittent", 16_764, "cod"),
    ] {
        let term = "term 05-01 10-31 12 10000\n";
        let path = by_cod("carbon.plant", process, term);
        let ran = pewgull(&["explain", &path, "300", "75", "20"]);
        for start in ["nitrate-removed", "term-1-removed"] {
            let label = format!("{start}-by-{carbon}");
            let line = format!("\n{label:<23} {removed:>8}                    mg/m3\n");
            assert!(ran.out.contains(&line), "no '{line}' in {}", ran.out);
        }
    }
    let bod = file("carbon-bod.plant", with("process", "process simultaneous"));
    let ran = pewgull(&["explain", &bod, "300", "75", "20"]);
    let line = "\nnitrate-removed-by-bod     17000                    mg/m3\n";
    assert!(ran.out.contains(line), "{}", ran.out);
}

#[test]
fn refusal_7_in_the_cod_way() {
    let path = by_cod("seven-cod.plant", "simultaneous", "dose 500\n");
    let ran = pewgull(&["examine", &path, "300", "75", "20"]);
    let told = ": refused 7 (nitrate): the tank cannot remove enough nitrate.\
        \n  to be removed                26000 mg/m3\
        \n  removed by the tank's COD    16764 mg/m3\
        \n  removed by the dose            100 mg/m3\
        \n  the tank can remove          16864 mg/m3\
        \n  The least dose that covers it: 46180 mg/m3 as COD; above 10000 it adds sludge.\
        \n  Look at nitrate-target, dose, nitrogen, bod, cod and solids,\
        \n  design-temperature, a larger F\n";
    assert_eq!((ran.status, ran.out.as_str()), (1, "refused 7\n"));
    assert!(ran.err.ends_with(told), "{}", ran.err);
    for (dose, status) in [(46_180, 0), (46_179, 1)] {
        let path = by_cod("dosed-cod.plant", "simultaneous", &format!("dose {dose}\n"));
        let ran = pewgull(&["examine", &path, "300", "75", "20"]);
        assert_eq!(ran.status, status);
    }
    // a dose of 1,000 adds none, and in the BOD way none adds any
    let path = by_cod("little.plant", "pre-anoxic", "");
    let ran = pewgull(&["examine", &path, "299", "75", "20"]);
    assert!(
        ran.err.contains("covers it: 1000 mg/m3 as COD.\n"),
        "{}",
        ran.err
    );
    assert!(ran.err.contains("dose, nitrogen and bod, "), "{}", ran.err);
    let path = file("much-bod.plant", with("nitrogen", "nitrogen measured 150"));
    let ran = pewgull(&["examine", &path, "500", "75", "20"]);
    assert!(!ran.err.contains("sludge"), "{}", ran.err);
}

/// Case A, simultaneous, with solids that leave little of so little COD: the
/// fraction 499 removes 56 mg/m3, 500 removes 55.
const FALLING: &str = "cod measured 100\nsolids measured 265.67\nprocess simultaneous\nway cod\n";

fn falling(name: &str, lines: &str) -> String {
    let own = ["cod ", "solids ", "process "];
    let rest = CASE_A
        .lines()
        .filter(|line| !own.iter().any(|key| line.starts_with(key)))
        .fold(String::new(), |text, line| text + line + "\n");
    file(name, format!("{rest}{FALLING}{lines}"))
}

/// In the COD way a larger fraction may remove less: it is then not advised,
/// and the least dose that refusal 5 tells is that of the best fraction.
#[test]
fn the_largest_fraction_need_not_remove_the_most() {
    let path = falling("falling.plant", "");
    for (fraction, removed, larger) in [("498", 55, true), ("499", 56, false), ("500", 55, false)] {
        let ran = pewgull(&["examine", &path, fraction, "75", "20"]);
        let column = format!("tank's COD {removed:>8} mg/m3");
        assert!(ran.err.contains(&column), "{}", ran.err);
        assert_eq!(ran.err.contains("a larger F"), larger, "{}", ran.err);
    }
    let ran = pewgull(&["choose", &path]);
    assert_eq!(ran.out, "refused 5\n");
    let told = "a looser nitrate-target, a dose of at least 129720 mg/m3 as COD, another\
        \n  process, the readings of nitrogen, bod, cod and solids.\n";
    assert!(ran.err.contains(told), "{}", ran.err);
    for (dose, permitted) in [(129_720, 276), (129_719, 0)] {
        let path = falling("falling-dosed.plant", &format!("dose {dose}\n"));
        let census = pewgull(&["census", &path]).out;
        assert!(
            census.starts_with(&format!("permitted {permitted}\n")),
            "{census}"
        );
    }
}

/// In the COD way a dose adds sludge, so that the plant is larger for it.
#[test]
fn a_dose_may_enlarge_the_plant() {
    let total = |path: &str| -> u32 {
        let listing = pewgull(&["choose", path]).out;
        let mut lines = listing.lines();
        let total = lines.find_map(|line| line.strip_prefix("total "));
        total.unwrap().parse().unwrap()
    };
    let cod = |dose: u32| {
        total(&by_cod(
            "larger.plant",
            "pre-anoxic",
            &format!("dose {dose}\n"),
        ))
    };
    assert!(cod(500_000) > cod(200_000));
    assert_eq!(total(&dosed(500_000)), total(&dosed(200_000)));
}

/// Nothing is advised that the grid has no room for.
#[test]
fn no_move_leaves_the_grid() {
    let poor = file("poor.plant", with("nitrogen", "nitrogen measured 100"));
    let at_499 = pewgull(&["examine", &poor, "499", "75", "20"]);
    assert!(at_499.err.contains("a larger F"), "{}", at_499.err);
    let at_500 = pewgull(&["examine", &poor, "500", "75", "20"]);
    assert!(!at_500.err.contains("larger"), "{}", at_500.err);
    let small = file("small.plant", with("site-surface", "site-surface 1"));
    let corner = pewgull(&["examine", &small, "300", "30", "20"]);
    assert_eq!(corner.out, "refused 9\n");
    assert!(!corner.err.contains("smaller"), "{}", corner.err);
}

#[test]
fn every_culprit_among_plant_figures_is_named() {
    let text = with("load", "load 0").replace("site-depth 5000", "site-depth 2999");
    let ran = pewgull(&["choose", &file("two.plant", text)]);
    assert_eq!((ran.status, ran.out.as_str()), (1, "refused 1\n"));
    for line in [
        "load 0: expected 1..100000 kg/d",
        "site-depth 2999: expected 3000..10000 mm",
    ] {
        assert!(ran.err.contains(line), "{}", ran.err);
    }
}

/// Both limits of the index are told by the one in force.
#[test]
fn bulking_sludge_is_named() {
    for (index, number, word) in [
        (181, 17, "bulking sludge"),
        (200, 17, "bulking sludge"),
        (201, 1, "plant data"),
    ] {
        let line = format!("sludge-volume-index {index}");
        let path = file("bulking.plant", with("sludge-volume-index", &line));
        for words in [
            &["choose", &path][..],
            &["census", &path],
            &["examine", &path, "300", "75", "20"],
            &["explain", &path, "300", "75", "20"],
        ] {
            let ran = pewgull(words);
            assert_eq!(
                (ran.status, ran.out),
                (1, format!("refused {number}\n")),
                "{words:?}"
            );
            assert!(ran.err.contains(&format!("refused {number} ({word})")));
            let culprit = format!("\n  {line}: expected 50..180 l/kg\n");
            assert!(ran.err.contains(&culprit), "{}", ran.err);
        }
    }
}

#[test]
fn both_sides_of_refusal_8_are_told() {
    let few = with("sludge-volume-index", "sludge-volume-index 180").replace("scraper", "suction");
    let ran = pewgull(&["examine", &file("few.plant", few), "300", "30", "20"]);
    assert_eq!(ran.out, "refused 8\n");
    assert!(
        ran.err.contains("solids 807 g/m3, at least 1000 g/m3"),
        "{}",
        ran.err
    );
    let much = with("tank", "tank vertical").replace("scraper", "hopper");
    let ran = pewgull(&["examine", &file("much.plant", much), "300", "92", "20"]);
    assert_eq!(ran.out, "refused 8\n");
    assert!(
        ran.err.contains("volume 604 l/m3, at most 600 l/m3"),
        "{}",
        ran.err
    );
}

#[test]
fn no_design_counts_the_grid() {
    let ran = pewgull(&["choose", &example("weak-sewage-no-design.plant")]);
    assert_eq!((ran.status, ran.out.as_str()), (1, "refused 5\n"));
    assert!(ran
        .err
        .contains("83,076 candidates in horizontal flow, and none is permitted"));
    let vertical = with("tank", "tank vertical").replace("site-surface 1000", "site-surface 1");
    let ran = pewgull(&["choose", &file("vertical.plant", vertical)]);
    assert_eq!((ran.status, ran.out.as_str()), (1, "refused 5\n"));
    assert!(
        ran.err.contains("128,226 candidates in vertical flow"),
        "{}",
        ran.err
    );
}

#[test]
fn census_counts_by_rule() {
    let ran = pewgull(&["census", &example("case-a.plant")]);
    let expected = "permitted 55476\nnitrate 27600\nnitrification 0\nterm-nitrate 0\n\
        solids 0\nsurface 0\ndepth 0\n";
    assert_eq!((ran.status, ran.out.as_str()), (0, expected));
    assert_eq!(ran.err, "");
    let none = example("weak-sewage-no-design.plant");
    let ran = pewgull(&["census", &none, &none]);
    let one = format!("# {none}\n{NONE_PERMITTED}");
    assert_eq!((ran.status, ran.out), (0, one.repeat(2)));
}

#[test]
fn a_refused_census() {
    let path = file("census.plant", with("cod", "cod measured 440.1"));
    let ran = pewgull(&["census", &path]);
    assert_eq!((ran.status, ran.out.as_str()), (1, "refused 4\n"));
    assert_eq!(ran.err, pewgull(&["choose", &path]).err);
    assert!(ran.err.contains("(COD ratio)"), "{}", ran.err);
}

/// Lines that replace those of Case A, the counts of the census, nitrate,
/// solids, surface and depth, and words of the advice.
type NoDesign = (&'static str, [u32; 4], &'static [&'static str]);

#[rustfmt::skip]
const NO_DESIGNS: [NoDesign; 7] = [
    ("nitrogen measured 100", [83_076, 0, 0, 0], &["first at nitrate, which stops the most:", "a looser nitrate-target, a dose of at least 250000 mg/m3 as COD, another\n  process"]),
    ("nitrogen measured 150", [83_076, 0, 0, 0], &["a dose of at least 500000 mg/m3 as COD,"]),
    ("nitrogen measured 150.001", [83_076, 0, 0, 0], &["a looser nitrate-target, another process, the readings"]),
    ("site-surface 1", [27_600, 0, 55_476, 0], &["first at surface, which stops the most:", "a larger site-surface"]),
    ("removal hopper\nsite-depth 3000", [27_600, 0, 0, 55_476], &["first at depth, which stops the most:", "a larger site-depth"]),
    // nitrate stops more, and still it is the tank that nothing gets past
    ("nitrogen measured 50\nsite-surface 1", [82_800, 0, 276, 0], &["first at surface, which stops the most of those that keep", "nitrate (a\n  looser target or a dose alone cannot help: every tank is stopped):\n"]),
    ("nitrogen measured 100\nsite-surface 1", [83_076, 0, 0, 0], &["first at nitrate, which stops the most:"]),
];

#[test]
fn no_design_tells_the_census_and_where_to_look() {
    for (place, (lines, counts, words)) in NO_DESIGNS.iter().enumerate() {
        let text = lines.lines().fold(CASE_A.to_string(), |text, line| {
            let key = line.split_once(' ').unwrap().0;
            replaced(&text, key, line)
        });
        let path = file(&format!("no-design-{place}.plant"), text);
        let ran = pewgull(&["choose", &path]);
        assert_eq!((ran.status, ran.out.as_str()), (1, "refused 5\n"));
        let census = pewgull(&["census", &path]).out;
        let [nitrate, solids, surface, depth] = counts;
        let expected = format!(
            "permitted 0\nnitrate {nitrate}\nnitrification 0\nterm-nitrate 0\n\
             solids {solids}\nsurface {surface}\ndepth {depth}\n"
        );
        assert_eq!(census, expected);
        let told = census.replace('\n', "\n  ");
        assert!(ran.err.contains(&format!("\n  {told}Look")), "{}", ran.err);
        for word in *words {
            assert!(ran.err.contains(word), "{}", ran.err);
        }
        assert!(ran.err.lines().skip(1).all(|told| told.len() <= 80));
    }
}

/// With the dose that refusal 5 tells, the candidates of the largest fraction
/// keep the nitrate; with one less none does.
#[test]
fn no_design_tells_the_least_dose() {
    let text = fs::read_to_string(example("short-of-bod.plant")).unwrap();
    let plant = |dose: u32| file("dosed.plant", format!("{text}dose {dose}\n"));
    let short = pewgull(&["choose", &plant(57_499)]);
    assert_eq!(short.out, "refused 5\n");
    for err in [pewgull(&["choose", &plant(0)]).err, short.err] {
        assert!(err.contains("a dose of at least 57500 mg/m3"), "{err}");
    }
    let enough = pewgull(&["census", &plant(57_500)]).out;
    assert!(enough.contains("\nnitrate 82800\n"), "{enough}");
}

/// No dose is advised where the largest is there already.
#[test]
fn no_dose_is_advised_past_the_largest() {
    let text = with("nitrogen", "nitrogen measured 150.001") + "dose 500000\n";
    let ran = pewgull(&["choose", &file("largest.plant", text)]);
    assert_eq!(ran.out, "refused 5\n");
    assert!(ran.err.contains("first at nitrate"), "{}", ran.err);
    assert!(!ran.err.contains(" dose"), "{}", ran.err);
}

#[test]
fn a_refused_explanation() {
    let ran = pewgull(&["explain", &example("case-a.plant"), "300", "76", "20"]);
    assert_eq!((ran.status, ran.out.as_str()), (1, "refused 6\n"));
    assert!(ran.err.contains("off grid"), "{}", ran.err);
}

#[test]
fn several_files_have_headings_and_the_largest_status() {
    let (good, none) = (
        example("case-a.plant"),
        example("weak-sewage-no-design.plant"),
    );
    let ran = pewgull(&["choose", &good, &none]);
    assert_eq!(ran.status, 1);
    assert!(ran.out.starts_with(&format!("# {good}\n{CHOSEN}")));
    assert!(ran.out.ends_with(&format!("\n# {none}\nrefused 5\n")));
    let bad = file("several.plant", "load x\n");
    let ran = pewgull(&["choose", &bad, &none, &good]);
    assert_eq!(ran.status, 2);
    assert!(ran
        .out
        .starts_with(&format!("# {bad}\n# {none}\nrefused 5\n# {good}\n{CHOSEN}")));
    assert!(ran
        .err
        .contains(&format!("{bad}:1: 'x' is not a whole number")));
    assert_eq!(pewgull(&["choose", &good, &good]).status, 0);
}

#[rustfmt::skip]
const USAGE_ERRORS: [(&str, &str); 60] = [
    ("", "no command; expected choose, examine, explain, census, load, target, works, sweep, built, price, length, beside or help"),
    ("chose", "'chose' is no command; expected choose, examine, explain, census, load, target, works, sweep, built, price, length, beside or help"),
    ("load --csv", "expected load [--csv] LOG..."),
    ("choose --csv F", "--csv is for the command load alone"),
    ("target --csv F 01-01", "--csv is for the command load alone"),
    ("target F", "expected target FILE MM-DD, one file and one date (words given: 1)"),
    ("target F 01-01 02-01", "expected target FILE MM-DD, one file and one date (words given: 3)"),
    ("target F 0101", "'0101' is not a date MM-DD; expected month and day, such as 02-29"),
    ("target F 2026-01-01", "'2026-01-01' is not a date MM-DD; expected month and day"),
    ("choose", "expected choose FILE..."),
    ("census --json", "expected census FILE..."),
    ("works", "expected works FILE..."),
    ("works --csv F", "--csv is for the command load alone"),
    ("choose --jsno F", "'--jsno' is no option; expected --json, --csv, --by, --state, --help or --version"),
    ("sweep", "expected sweep FILE [--by N] [--state FILE], one file (words given: 0)"),
    ("sweep F F", "expected sweep FILE [--by N] [--state FILE], one file (words given: 2)"),
    ("sweep --csv F", "--csv is for the command load alone"),
    ("choose --by 1000 F", "--by is for the command sweep alone"),
    ("load --state a.state F", "--state is for the command sweep alone"),
    ("sweep F --by 0", "--by: a sweep by 0 candidates never ends; expected a whole number, 1..1000"),
    ("sweep F --by x", "--by: 'x' is not a whole number; expected a whole number, 1..1000"),
    ("sweep F --by -1", "--by: '-1' is not a whole number; expected a whole number, 1..1000"),
    ("sweep F --by 4294967296", "--by: '4294967296' is too large; expected a whole number, 1..1000"),
    ("sweep F --by", "--by has no value; expected a whole number"),
    ("sweep F --state --json", "--state has no value; expected a file"),
    ("sweep F --state -", "--state: '-' cannot keep a state; expected a file"),
    ("sweep F --by 1 --by 2", "--by was given already; expected it once"),
    ("built", "expected built FILE REACTOR SURFACE DEPTH F H LEAST MOST, one file and seven numbers (words given: 0)"),
    ("built F 1 1 1 300 20 50", "expected built FILE REACTOR SURFACE DEPTH F H LEAST MOST, one file and seven numbers (words given: 7)"),
    ("built F 1 1 1 300 20 50 60 70", "expected built FILE REACTOR SURFACE DEPTH F H LEAST MOST, one file and seven numbers (words given: 9)"),
    ("built F x 1 1 300 20 50 60", "reactor volume REACTOR: 'x' is not a whole number; expected a whole number, at least 1, in m3"),
    ("built F 1 0.5 1 300 20 50 60", "settling surface SURFACE: '0.5' is not a whole number; expected a whole number, at least 1, in m2"),
    ("built F 1 1 -5 300 20 50 60", "settling depth DEPTH: '-5' is not a whole number; expected a whole number, at least 1, in mm"),
    ("built F 4294967296 1 1 300 20 50 60", "reactor volume REACTOR: '4294967296' is too large; expected"),
    ("built F 1 1 1 0.3 20 50 60", "fraction F: '0.3' is not a whole number; expected a whole number, 200..500, in"),
    ("built F 1 1 1 300 2h 50 60", "thickening time H: '2h' is not a whole number; expected a whole number, 20..25, in"),
    ("built F 1 1 1 300 20 50..60 60", "sludge volume index LEAST: '50..60' is not a whole number; expected a whole number, 50..180, in l/kg"),
    ("built F 1 1 1 300 20 50 4294967296", "sludge volume index MOST: '4294967296' is too large; expected a whole number, 50..180, in l/kg"),
    ("price", "expected price FILE TARIFF [F R H], a plant file, a tariff file and three numbers or none (words given: 0)"),
    ("price F", "expected price FILE TARIFF [F R H], a plant file, a tariff file and three numbers or none (words given: 1)"),
    ("price F T 300", "expected price FILE TARIFF [F R H], a plant file, a tariff file and three numbers or none (words given: 3)"),
    ("price F T 300 75", "expected price FILE TARIFF [F R H], a plant file, a tariff file and three numbers or none (words given: 4)"),
    ("price F T 300 75 20 1", "expected price FILE TARIFF [F R H], a plant file, a tariff file and three numbers or none (words given: 6)"),
    ("price F T 0.3 75 20", "fraction F: '0.3' is not a whole number; expected a whole number, 200..500, in thousandths"),
    ("price F T 300 75 4294967296", "thickening time H: '4294967296' is too large; expected a whole number, 20..25"),
    ("price - -", "FILE and TARIFF are both '-'; expected one of them from standard input at most"),
    ("length", "expected length FILE [F R H], one file and three numbers or none (words given: 0)"),
    ("length F 300 75", "expected length FILE [F R H], one file and three numbers or none (words given: 3)"),
    ("length F 300 75 x", "thickening time H: 'x' is not a whole number; expected a whole number, 20..25"),
    ("beside F", "expected beside FILE FILE, two plant files (words given: 1)"),
    ("beside F F F", "expected beside FILE FILE, two plant files (words given: 3)"),
    ("beside - -", "both files are '-'; expected one of them from standard input at most"),
    ("length --by 1 F", "--by is for the command sweep alone"),
    ("price --csv F T", "--csv is for the command load alone"),
    ("examine F", "expected examine FILE F R H, one file and three numbers (words given: 1)"),
    ("explain F 300 75", "expected explain FILE F R H"),
    ("examine F 300 75 20 1", "expected examine FILE F R H"),
    ("examine F -300 75 20", "fraction F: '-300' is not a whole number; expected a whole number, 200..500,"),
    ("examine F 300 0.75 20", "return ratio R: '0.75' is not a whole number; expected a whole number, 30..75 (vert"),
    ("examine F 300 75 4294967296", "thickening time H: '4294967296' is too large; expected a whole number, 20..25"),
];

#[test]
fn usage_errors() {
    let path = example("case-a.plant");
    for (line, expected) in USAGE_ERRORS {
        let words = line.split_whitespace();
        let words: Vec<_> = words
            .map(|word| if word == "F" { &path } else { word })
            .collect();
        let ran = pewgull(&words);
        assert_eq!((ran.status, ran.out.as_str()), (2, ""), "{line}");
        assert!(
            ran.err.starts_with(&format!("pewgull: {expected}")),
            "{}",
            ran.err
        );
        assert!(ran.err.ends_with("; see pewgull --help\n"), "{}", ran.err);
    }
}

#[test]
fn help_fits_a_screen() {
    for words in [&["--help"][..], &["-h"], &["choose", "--help"]] {
        let ran = pewgull(words);
        assert_eq!((ran.status, ran.err.as_str()), (0, ""));
        assert!(ran.out.lines().count() <= 24);
        assert!(ran.out.lines().all(|line| line.chars().count() <= 80));
        assert!(ran
            .out
            .contains("Example: pewgull examine examples/case-a.plant 300 75 20"));
    }
}

#[test]
fn versions() {
    let ran = pewgull(&["--version"]);
    assert_eq!((ran.status, ran.err.as_str()), (0, ""));
    let kit = std::fs::read_to_string(common::repository().join("host/lib/kit")).unwrap();
    let tool = env!("CARGO_PKG_VERSION");
    assert_eq!(
        ran.out,
        format!("pewgull {tool}\nrequest {}\nkit {kit}", library::VERSION)
    );
}

#[test]
fn a_hyphen_is_standard_input() {
    let mut tool = Command::new(env!("CARGO_BIN_EXE_pewgull"));
    tool.args(["choose", "-"]);
    let ran = common::ran(
        tool.stdin(File::open(example("case-a.plant")).unwrap())
            .output()
            .unwrap(),
    );
    assert_eq!((ran.status, ran.err.as_str()), (0, ""));
    assert!(ran.out.starts_with(CHOSEN));
}

#[test]
fn options_end_at_two_hyphens() {
    let mut tool = Command::new(env!("CARGO_BIN_EXE_pewgull"));
    file("-odd.plant", CASE_A);
    tool.current_dir(env!("CARGO_TARGET_TMPDIR"));
    let ran = common::ran(tool.args(["choose", "--", "-odd.plant"]).output().unwrap());
    assert_eq!((ran.status, ran.err.as_str()), (0, ""));
}

#[test]
fn output_that_cannot_be_written_is_an_error() {
    let Ok(full) = File::options().write(true).open("/dev/full") else {
        return;
    };
    let mut tool = Command::new(env!("CARGO_BIN_EXE_pewgull"));
    tool.args(["choose", &example("case-a.plant")]);
    let ran = common::ran(tool.stdout(full).stderr(Stdio::piped()).output().unwrap());
    assert_eq!(ran.status, 2);
    assert!(
        ran.err.contains("cannot write to standard output"),
        "{}",
        ran.err
    );
}

#[test]
fn closed_output_is_an_error() {
    for words in ["choose \"$1\"", "--help"] {
        let line = format!("exec \"$0\" {words} >&-");
        let path = example("case-a.plant");
        let tool = env!("CARGO_BIN_EXE_pewgull");
        let ran = common::ran(
            Command::new("sh")
                .args(["-c", &line, tool, &path])
                .output()
                .unwrap(),
        );
        assert_eq!(ran.status, 2);
        assert_eq!(
            ran.err,
            "pewgull: cannot write to standard output: it is closed\n"
        );
    }
}

#[test]
fn control_characters_of_names_are_escaped() {
    let odd = file("a\nb\u{1b}[1m.plant", with("load", "load 0"));
    let ran = pewgull(&["choose", &odd, &odd]);
    assert_eq!(ran.status, 1);
    let escaped = "a\\nb\\u{1b}[1m.plant";
    assert_eq!(ran.out.lines().count(), 4);
    assert!(
        ran.out.lines().next().unwrap().ends_with(escaped),
        "{}",
        ran.out
    );
    assert!(
        ran.err.contains(&format!("{escaped}: refused 1")),
        "{}",
        ran.err
    );
    assert!(!ran.err.contains('\u{1b}'));
    let absent = pewgull(&["choose", "no\nsuch"]);
    assert_eq!(
        absent.err,
        "pewgull: no\\nsuch: no such file; expected a plant file\n"
    );
}
