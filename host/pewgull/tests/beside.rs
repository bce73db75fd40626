//! Two works laid beside each other.

mod common;

use common::{example, file, pewgull, replaced, with, Ran, CASE_A};

fn beside(first: &str, second: &str) -> Ran {
    pewgull(&["beside", first, second])
}

/// The values of a row of the keys, or of the designs, by its label.
fn row_of(text: &str, label: &str) -> Vec<String> {
    let is_row = |line: &&str| line.split_whitespace().next() == Some(label);
    let line = text.lines().find(is_row);
    let words = line.unwrap_or_default().split_whitespace().skip(1);
    words.map(str::to_string).collect()
}

fn parts(ran: &Ran) -> (&str, &str) {
    ran.out.split_once("# designs\n").unwrap()
}

fn key(ran: &Ran, label: &str) -> Vec<String> {
    row_of(parts(ran).0, label)
}

fn row(ran: &Ran, label: &str) -> Vec<String> {
    row_of(parts(ran).1, label)
}

const TOLD: &str = "and is alike in all else: it cannot lose a design, nor take more volume\n";

/// Case A with targets under which only the last fractions are covered.
#[test]
fn a_looser_target() {
    let tighter = file(
        "beside-6000.plant",
        with("nitrate-target", "nitrate-target 6000"),
    );
    let looser = file(
        "beside-6200.plant",
        with("nitrate-target", "nitrate-target 6200"),
    );
    let ran = beside(&tighter, &looser);
    assert_eq!((ran.status, ran.err.as_str()), (0, ""));
    let table = "\
nitrate-target       6000    6200 mg/m3
# designs
nitrate-to-remove   30000   29800 mg/m3
nitrate-removable   30000   29800 mg/m3
fraction              500     490 thousandths
return                 75      75 hundredths
";
    let start = format!("# 1 {tighter}\n# 2 {looser}\n{table}");
    assert!(ran.out.starts_with(&start), "{}", ran.out);
    assert_eq!(row(&ran, "total"), ["6157", "6093", "m3"]);
    let told = format!("2 has the looser nitrate-target {TOLD}");
    assert!(ran.out.ends_with(&told), "{}", ran.out);
    let turned = beside(&looser, &tighter);
    let told = format!("1 has the looser nitrate-target {TOLD}");
    assert!(turned.out.ends_with(&told), "{}", turned.out);
}

/// Both designs are those of `choose`.
#[test]
fn designs_as_chosen() {
    let names = ["case-a.plant", "winter-term.plant"].map(example);
    let ran = beside(&names[0], &names[1]);
    for (side, name) in names.iter().enumerate() {
        let chosen = pewgull(&["choose", name]).out;
        for (label, figure) in chosen.lines().filter_map(|line| line.split_once(' ')) {
            assert_eq!(
                row(&ran, label)
                    .iter()
                    .rev()
                    .nth(units(label) + 1 - side)
                    .unwrap(),
                figure
            );
        }
    }
    assert!(!ran.out.contains("looser"));
    for name in ["load", "precipitant", "solids", "term"] {
        assert!(!key(&ran, name).is_empty(), "{name}");
    }
    for name in ["process", "design-temperature", "dose", "way", "shares"] {
        assert!(key(&ran, name).is_empty(), "{name}");
    }
}

/// Words of a line's unit.
fn units(label: &str) -> usize {
    let line = library::sheet::LINES
        .iter()
        .find(|line| line.label == label);
    line.unwrap().unit.split(' ').count()
}

/// Of a site in lines the looser limit is told of as one plant.
#[test]
fn a_site_in_lines() {
    let lines = |surface: u32| {
        let text = with("site-surface", &format!("site-surface {surface}"));
        let text = replaced(&text, "wet-weather-flow", "wet-weather-flow 605");
        file(
            &format!("beside-{surface}.plant"),
            text + "shares 500 100 400\n",
        )
    };
    let [smaller, larger] = [385, 386].map(lines);
    let ran = beside(&smaller, &larger);
    assert!(ran.out.ends_with(
        "2 has the looser site-surface and is alike in all else: it cannot lose a design, \
         nor take more volume (as one plant: split into lines it can)\n"
    ));
    assert_eq!(pewgull(&["works", &smaller]).status, 0);
    assert_eq!(pewgull(&["works", &larger]).out, "refused 5\n");
}

/// A refused works has no figures; its words are on standard error.
#[test]
fn a_works_without_a_design() {
    let none = file(
        "beside-5999.plant",
        with("nitrate-target", "nitrate-target 5999"),
    );
    let some = file(
        "beside-6001.plant",
        with("nitrate-target", "nitrate-target 6001"),
    );
    let ran = beside(&none, &some);
    assert_eq!(ran.status, 1);
    assert_eq!(row(&ran, "refused"), ["5", "-"]);
    assert_eq!(row(&ran, "total"), ["-", "6157", "m3"]);
    assert!(ran
        .out
        .ends_with(&format!("2 has the looser nitrate-target {TOLD}")));
    assert_eq!(ran.err, pewgull(&["choose", &none]).err);
    assert!(row(&beside(&some, &some), "refused").is_empty());
}

/// Nothing is told where the data of one are refused, where more than a limit
/// differs, or where what differs is no such limit.
#[test]
fn nothing_to_rely_on() {
    let path = file("beside-a.plant", CASE_A);
    let others = [
        with("nitrate-target", "nitrate-target 50001"),
        with("site-depth", "site-depth 10001"),
        with("site-depth", "site-depth 6000\ndose 5"),
        with("design-temperature", "design-temperature 13"),
        with("sludge-volume-index", "sludge-volume-index 99"),
        with("phosphorus-target", "phosphorus-target 1001"),
        with("site-depth", "site-depth 5000\nterm 11-01 03-31 12 20000"),
        with("bod", "bod measured 200.00002"),
    ];
    for (place, other) in others.into_iter().enumerate() {
        let other = file(&format!("beside-other-{place}.plant"), other);
        let ran = beside(&path, &other);
        assert!(!ran.out.contains("looser"), "{}", ran.out);
        assert!(ran.status < 2, "{place}");
    }
    let ran = beside(&path, &path);
    assert!(parts(&ran).0.ends_with("no key differs\n"), "{}", ran.out);
}

/// A value is compared, not how it is written.
#[test]
fn values_written_otherwise() {
    let other = with("site-depth", "site-depth 05000\nway bod\ndose 0");
    let other = replaced(&other, "bod", "bod measured bits:43480000");
    let ran = beside(
        &file("beside-plain.plant", CASE_A),
        &file("beside-written.plant", other),
    );
    assert!(parts(&ran).0.ends_with("no key differs\n"), "{}", ran.out);
}

/// Terms past the four that are kept are counted, and both works refused.
#[test]
fn too_many_terms() {
    let terms = |count: usize| {
        let lines = "term 01-01 01-31 12 20000\n".repeat(count);
        file(
            &format!("beside-{count}-terms.plant"),
            CASE_A.to_string() + &lines,
        )
    };
    let ran = beside(&terms(5), &terms(6));
    assert!(parts(&ran).0.contains("; 1 more"), "{}", ran.out);
    assert!(parts(&ran).0.contains("; 2 more"), "{}", ran.out);
    assert_eq!(
        (ran.status, row(&ran, "refused")),
        (1, vec!["14".to_string(), "14".to_string()])
    );
    assert_eq!(row(&ran, "total"), ["-", "-", "m3"]);
}

#[test]
fn as_json() {
    let [first, second] = [4_600, 5_000].map(|depth| {
        let text = with("site-depth", &format!("site-depth {depth}"));
        file(&format!("beside-depth-{depth}.plant"), text)
    });
    let ran = pewgull(&["beside", "--json", &first, &second]);
    let start = format!(
        "{{\"file\": \"{first}\", \"status\": \"beside\", \
         \"keys\": [{{\"key\": \"site-depth\", \"first\": \"4600\", \"second\": \"5000\"}}], \
         \"designs\": [{{\"file\": \"{first}\", \"number\": 0, \"word\": \"sheet\", \
         \"nitrate-to-remove\": 26000, \"nitrate-removable\": 26000, \"fraction\": 300, "
    );
    assert!(ran.out.starts_with(&start), "{}", ran.out);
    assert!(ran
        .out
        .ends_with("\"looser\": 2, \"limit\": \"site-depth\"}\n"));
}

/// Faults of both files are told.
#[test]
fn files_that_are_wrong() {
    let [first, second] =
        ["x 1\n", "y 2\n"].map(|text| file(&format!("beside-{}.plant", &text[..1]), text));
    let ran = beside(&first, &second);
    assert_eq!((ran.status, ran.out.as_str()), (2, ""));
    assert!(ran.err.contains(&format!("{first}:1:")) && ran.err.contains(&format!("{second}:1:")));
}
