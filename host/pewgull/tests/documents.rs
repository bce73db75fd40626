//! README.md, the header and the examples say what the tool's tables have.

mod common;

use common::{pewgull, repository};
use library::number;
use library::sheet::{candidates, GRID, LINES};
use library::{TankFlow, COUNTED, LEAST_DAYS, MOST_BOD, MOST_DAYS, MOST_FLOW, MOST_TERMS};
use library::{ADVANCE_MOST, CHOOSE_LENGTH, EXAMINE_LENGTH, STATE_LENGTH};
use library::{LEAST_BANDS, LEAST_LIMIT, MOST_BANDS, PRICE_PAGE};
use library::{LEAST_LINES, LEAST_SHARE, MOST_LINES, SUMS, WHOLE};
use library::{LEAST_SIZE, MOST_INDEX};
use pewgull::arguments::COMMANDS;
use pewgull::built::{ENDS, SIZES};
use pewgull::census::label;
use pewgull::keys::{
    shares_expected, Field, HEADS, INDEX, KEYS, MOST_BULKING, MOST_DOSE_WITHOUT_SLUDGE,
    SHARES_WORDS, TERM_TARGET, TERM_TEMPERATURE, TERM_WORDS,
};
use pewgull::run::INTERRUPTED;
use pewgull::tariff_file::{bands_expected, PRICE_RANGE, SURCHARGE_RANGE};
use pewgull::works::SPLIT;
use std::fs;

fn document(name: &str) -> String {
    fs::read_to_string(repository().join(name)).unwrap()
}

/// The text in single spaces, without the stars of a comment.
fn plain(text: &str) -> String {
    let words = text.split_whitespace().filter(|word| *word != "*");
    words.collect::<Vec<_>>().join(" ")
}

fn has(document: &str, name: &str, part: &str) {
    assert!(document.contains(part), "{name} has no '{part}'");
}

/// What a command on an example prints.
fn printed(command: &str) -> String {
    let path = |word: &str| match word.starts_with("examples/") {
        true => repository().join(word).to_str().unwrap().to_string(),
        false => word.to_string(),
    };
    let words: Vec<String> = command.split(' ').map(path).collect();
    let words: Vec<&str> = words.iter().map(String::as_str).collect();
    pewgull(&words).out
}

/// README.md shows the command on an example, with what it prints.
fn shows(command: &str) {
    let lines = printed(command).lines().count();
    shows_first(command, lines);
}

/// README.md shows the command on an example, with the first lines of what it
/// prints, and dots for the rest.
fn shows_first(command: &str, lines: usize) {
    let printed = printed(command);
    let dots = (printed.lines().count() > lines).then_some("...");
    let shown = printed.lines().take(lines).chain(dots);
    let shown = shown.fold(format!("    $ pewgull {command}"), |text, line| {
        text + "\n    " + line
    });
    has(&document("README.md"), "README.md", &(shown + "\n"));
}

#[test]
fn lines() {
    let (readme, header) = (document("README.md"), plain(&document("include/pewgull.h")));
    let help = plain(&pewgull(&["help"]).out);
    for line in LINES {
        let (label, meaning, unit) = (line.label, line.meaning, line.unit);
        has(
            &readme,
            "README.md",
            &format!("\n| `{label}` | {meaning} | {unit} |\n"),
        );
        has(
            &header,
            "the header",
            &format!(" {label} {meaning}, {unit} "),
        );
        has(&help, "help", &format!(" {label} {meaning} {unit} "));
    }
}

#[test]
fn keys() {
    let (readme, header) = (document("README.md"), plain(&document("include/pewgull.h")));
    let help = plain(&pewgull(&["help"]).out);
    for key in &KEYS {
        let (name, meaning) = (key.name, key.meaning);
        let range = match &key.field {
            Field::Whole(range, _) | Field::Reading(range, _) => {
                let range = format!("{} {}", range.digits(), range.unit);
                has(&header, "the header", &format!(" {meaning}, {range}"));
                has(&help, "help", &format!(" {name} {meaning} {range} "));
                range
            }
            Field::Word(words, _) => {
                has(
                    &header,
                    "the header",
                    &format!(" {meaning}: 0 {}", words[0]),
                );
                has(&help, "help", &format!(" {name} {} ", words.join(", ")));
                words.join(", ")
            }
            Field::Term => {
                has(&help, "help", &format!(" {name} {meaning} {TERM_WORDS} "));
                TERM_WORDS.to_string()
            }
            Field::Shares => {
                has(&help, "help", &format!(" {name} {meaning} {SHARES_WORDS} "));
                SHARES_WORDS.to_string()
            }
        };
        let default = match key.left_out() {
            Some(value) => {
                has(&help, "help", &format!(" {name} {value}"));
                format!("; left out: {value}")
            }
            None => String::new(),
        };
        has(
            &readme,
            "README.md",
            &format!("\n| `{name}` | {meaning} | {range}{default} |\n"),
        );
    }
    for document in [&plain(&readme), &header, &help] {
        has(document, "a document", &HEADS.digits());
    }
}

/// The ranges of a term, and how many there may be.
#[test]
fn terms() {
    let readme = plain(&document("README.md"));
    let header = plain(&document("include/pewgull.h"));
    let help = plain(&pewgull(&["help"]).out);
    let [temperature, target] =
        [TERM_TEMPERATURE, TERM_TARGET].map(|range| (range.digits(), range.unit));
    let with_unit = |(digits, unit): &(String, &str)| format!("{digits} {unit}");
    for document in [&readme, &header, &help] {
        has(document, "a document", &with_unit(&temperature));
        has(document, "a document", &with_unit(&target));
    }
    assert_eq!(MOST_TERMS, 4);
    has(&readme, "README.md", "up to four terms");
    has(&readme, "README.md", "at most four terms");
    has(
        &header,
        "the header",
        "number of terms of the consent, 0..4 ",
    );
    has(&header, "the header", "more than four terms");
    has(&help, "help", "at most 4 of them");
    shows("choose examples/colder-winter-term.plant");
    shows("target examples/winter-term.plant 02-29");
}

#[test]
fn grid() {
    let (readme, header) = (
        plain(&document("README.md")),
        plain(&document("include/pewgull.h")),
    );
    let help = plain(&pewgull(&["--help"]).out);
    for side in &GRID {
        let (letter, meaning, range, unit) = (side.letter, side.meaning, side.range(), side.unit);
        has(
            &readme,
            "README.md",
            &format!("the {meaning}, {range} {unit}"),
        );
        has(&readme, "README.md", &format!("{letter} "));
        has(
            &header,
            "the header",
            &format!(" {meaning}, {range} {unit} "),
        );
        has(
            &help,
            "help",
            &format!(" {letter} {meaning}, {range}, in {unit} "),
        );
    }
}

#[test]
fn numbers() {
    let (readme, header) = (document("README.md"), plain(&document("include/pewgull.h")));
    let help = plain(&pewgull(&["help"]).out);
    for known in number::ALL {
        let (number, word, name) = (known.number, known.word, known.name);
        has(
            &header,
            "the header",
            &format!("#define PEWGULL_{name} {number} "),
        );
        if number::is_refusal(number) || number == number::SHORT_PAGE {
            has(&readme, "README.md", &format!("\n| {number} | {word} | "));
        }
        if number::is_refusal(number) {
            has(&(help.clone() + " "), "help", &format!(" {number} {word} "));
        }
    }
}

#[test]
fn commands() {
    let readme = document("README.md");
    let help = pewgull(&["help"]).out;
    for form in COMMANDS {
        let line = format!(" pewgull {:<7} [--json] {}", form.name, form.words());
        has(&readme, "README.md", &line);
        let usage = format!("\n{} {}", form.name, form.words());
        has(&help, "help", &usage);
        let (_, after) = help.split_once(&usage).unwrap_or_default();
        let about = after.trim_start();
        assert!(about.starts_with(form.about), "help: {}", form.name);
    }
}

/// The counts of a census at their bytes, their lines, and the example.
#[test]
fn census() {
    let header = plain(&document("include/pewgull.h"));
    for number in COUNTED {
        let (from, word) = (8 * number, number::word(number).unwrap());
        let row = match number {
            number::SHEET => format!(" 0..7 {} (0) ", label(number)),
            _ => format!(" {from}..{} refused for {word} ({number}) ", from + 7),
        };
        has(&header, "the header", &row);
    }
    let lines = COUNTED.map(label).join(", ");
    has(&pewgull(&["help"]).out, "help", &lines);
    for tank in [TankFlow::Horizontal, TankFlow::Vertical] {
        let count = candidates(tank);
        let count = format!("{},{:03}", count / 1000, count % 1000);
        has(&header, "the header", &count);
    }
    shows("census examples/weak-sewage-no-design.plant");
}

#[test]
fn bulking_sludge() {
    shows("choose examples/bulking-sludge.plant");
    let limit = format!("above {MOST_INDEX} l/kg");
    has(&document("README.md"), "README.md", &limit);
    let gets = format!("{}..{MOST_BULKING} gets 17", MOST_INDEX + 1);
    let header = plain(&document("include/pewgull.h"));
    has(&header, "the header", &gets);
}

/// The shares, what they split, the sums and sheets at their bytes, and the
/// example.
#[test]
fn works() {
    let readme = plain(&document("README.md"));
    let header = plain(&document("include/pewgull.h"));
    let help = plain(&pewgull(&["help"]).out);
    let expected = shares_expected();
    has(&readme, "README.md", &expected);
    has(&help, "help", &format!(" {expected}."));
    let lines = format!("number of lines, {LEAST_LINES}..{MOST_LINES} ");
    has(&header, "the header", &lines);
    let shares = format!("each at least {LEAST_SHARE}, which add up to {WHOLE};");
    has(&header, "the header", &shares);
    for key in SPLIT {
        let meaning = KEYS.iter().find(|known| known.name == key).unwrap().meaning;
        let meaning = meaning.replace("largest settling", "site");
        has(&header, "the header", &meaning);
        has(&readme, "README.md", &format!("`{key}`"));
    }
    for (place, label) in SUMS.iter().enumerate() {
        let unit = LINES.iter().find(|line| line.label == *label).unwrap().unit;
        let (from, to) = (8 * place, 8 * place + 7);
        let row = format!(" {from}..{to} {label}, {unit} ");
        has(&header, "the header", &row);
    }
    let first = |line: usize| (8 * (SUMS.len() + line * LINES.len())).to_string();
    let starts: Vec<String> = (0..MOST_LINES).map(first).collect();
    let (last, others) = starts.split_last().unwrap();
    let starts = format!("from byte {} and {last} on", others.join(", "));
    has(&header, "the header", &starts);
    has(&help, "help", &format!(" {} Each is ", SUMS.join(", ")));
    let first_line = SUMS.len() + 1 + LINES.len() + 1;
    shows_first("works examples/works-three-lines.plant", first_line);
}

/// The words of a sweep's state, an advance's limit, and what is said of both.
#[test]
fn sweep() {
    let readme = plain(&document("README.md"));
    let header = plain(&document("include/pewgull.h"));
    let help = plain(&pewgull(&["help"]).out);
    let (first, sides) = (CHOOSE_LENGTH / 4, GRID.map(|side| side.meaning));
    let words = [&["number of candidates asked for so far"], &sides[..]].concat();
    for (place, what) in words.iter().enumerate() {
        let (word, byte) = (first + place, 4 * (first + place));
        let row = format!(" {word} {byte}..{} {what}, ", byte + 3);
        has(&header, "the header", &row);
    }
    let most = format!("more than {ADVANCE_MOST} candidates");
    has(&header, "the header", &most);
    has(
        &header,
        "the header",
        &format!("fewer than {STATE_LENGTH} bytes"),
    );
    has(
        &help,
        "help",
        &format!("1..{ADVANCE_MOST} (left out: {ADVANCE_MOST})"),
    );
    has(&readme, "README.md", &format!("1 to {ADVANCE_MOST}"));
    for document in [&readme, &help] {
        has(
            document,
            "README.md or help",
            &format!("{STATE_LENGTH} bytes"),
        );
        has(document, "README.md or help", &format!("{INTERRUPTED} "));
    }
}

/// The words of a request for existing tanks, the range of a span, and the
/// examples: a held span, a lost index, and a larger one that is held.
#[test]
fn existing_tanks() {
    let readme = plain(&document("README.md"));
    let header = plain(&document("include/pewgull.h"));
    let help = plain(&pewgull(&["help"]).out);
    let (range, unit) = (INDEX.digits(), INDEX.unit);
    let sizes = SIZES.map(|size| {
        let (meaning, unit) = (size.line.meaning, size.line.unit);
        format!("{meaning} as built, {unit}, at least {LEAST_SIZE}")
    });
    let run_at = [0, 2].map(|side| format!("{}, {}", GRID[side].meaning, GRID[side].range()));
    let ends = [
        format!("least sludge volume index of the span, {range} {unit}"),
        format!("largest one, {range} {unit}"),
    ];
    let words = sizes.iter().chain(&run_at).chain(&ends);
    for (word, what) in (CHOOSE_LENGTH / 4..).zip(words) {
        let row = format!(" {word} {}..{} {what}", 4 * word, 4 * word + 3);
        has(&header, "the header", &row);
    }
    for document in [&readme, &help] {
        has(document, "a document", &format!("within {range} {unit}"));
        for word in SIZES.map(|size| size.word).iter().chain(&ENDS) {
            has(document, "a document", word);
        }
    }
    let empty = format!("empty or not within {range}");
    has(&header, "the header", &empty);
    has(&readme, "README.md", &format!("both in {range} {unit}"));
    for span in ["90 140", "90 160", "146 146"] {
        let tanks = "4450 300 5000 400 24";
        shows(&format!(
            "built examples/existing-works.plant {tanks} {span}"
        ));
    }
}

/// The words of a tariff after the data, or after a candidate.
fn tariff_rows(header: &str, first: usize) {
    let (prices, surcharges) = (PRICE_RANGE.digits(), SURCHARGE_RANGE.digits());
    let bands = format!("{LEAST_BANDS}..{MOST_BANDS}");
    let rows = [
        (1, format!("number of bands of the tariff, {bands} ")),
        (
            MOST_BANDS,
            "six entries for the upper limits of bands".to_string(),
        ),
        (
            MOST_BANDS,
            "six entries for the prices of bands".to_string(),
        ),
        (
            1,
            format!("surcharge, {surcharges} thousandths of the sum "),
        ),
    ];
    assert_eq!(MOST_BANDS, 6);
    let mut word = first;
    for (words, what) in rows {
        let named = match words {
            1 => word.to_string(),
            _ => format!("{word}..{}", word + words - 1),
        };
        let bytes = format!("{}..{}", 4 * word, 4 * (word + words) - 1);
        has(header, "the header", &format!(" {named} {bytes} {what}"));
        word += words;
    }
    for part in [
        format!("m3, rising from at least {LEAST_LIMIT};"),
        format!("{prices} {}", PRICE_RANGE.unit),
    ] {
        has(header, "the header", &part);
    }
}

/// The words of a tariff in both requests, its ranges, its example, and what
/// the choice and another candidate cost by it.
#[test]
fn price() {
    let readme = plain(&document("README.md"));
    let header = plain(&document("include/pewgull.h"));
    let help = plain(&pewgull(&["help"]).out);
    tariff_rows(&header, CHOOSE_LENGTH / 4);
    tariff_rows(&header, EXAMINE_LENGTH / 4);
    let (from, to) = (PRICE_PAGE - 8, PRICE_PAGE - 1);
    has(&header, "the header", &format!("in bytes {from}..{to}."));
    let bands = bands_expected();
    has(&help, "help", &format!(" {bands}. "));
    has(&readme, "README.md", &bands.replace("m3", "m³"));
    for range in [PRICE_RANGE, SURCHARGE_RANGE] {
        let part = format!("{} {}", range.digits(), range.unit);
        has(&help, "help", &part);
        has(&readme, "README.md", &part.replace("m3", "m³"));
    }
    let (prices, surcharges) = (PRICE_RANGE.most, SURCHARGE_RANGE.most);
    let row = format!(
        "{LEAST_BANDS} to {MOST_BANDS} bands, limits that rise, prices up to {prices} cents per \
         m³; a surcharge up to {surcharges} thousandths |"
    );
    has(&readme, "README.md", &row);
    for line in document("examples/concrete.tariff").lines() {
        let content = line.split('#').next().unwrap().trim();
        has(&readme, "README.md", content);
    }
    let both = "examples/case-a.plant examples/concrete.tariff";
    shows(&format!("price {both}"));
    shows(&format!("price {both} 300 67 20"));
}

/// The works short of BOD, without a dose and with one.
#[test]
fn dose() {
    shows("choose examples/short-of-bod.plant");
    shows("choose examples/short-of-bod-with-methanol.plant");
}

/// The works of the COD way, and what the pages say of that way.
#[test]
fn way() {
    shows("choose examples/industrial-cod.plant");
    let readme = plain(&document("README.md"));
    let header = plain(&document("include/pewgull.h"));
    let help = plain(&pewgull(&["help"]).out);
    let dose = MOST_DOSE_WITHOUT_SLUDGE;
    for document in [&header, &help] {
        let part = format!("a dose above {dose} mg/m3 adds sludge");
        has(document, "the header or help", &part);
        has(document, "the header or help", "4 is never due");
        has(document, "the header or help", "reckoned from the COD");
    }
    let dose = format!("{},{:03}", dose / 1000, dose % 1000);
    let part = format!("A dose above {dose} mg/m³ adds sludge");
    has(&readme, "README.md", &part);
    for document in [&readme, &help] {
        has(document, "README.md or help", "nitrate-removed-by-cod");
    }
    let version = format!("A request is of version {};", library::VERSION);
    has(&readme, "README.md", &version);
    let code = format!("is answered with {}.", number::BAD_VERSION);
    has(&readme, "README.md", &code);
}

/// The ranges of a day log, how its load serves for a plant, and the example.
#[test]
fn load() {
    let readme = document("README.md");
    let header = plain(&document("include/pewgull.h"));
    let help = plain(&pewgull(&["help"]).out);
    let (flow, bod) = (MOST_FLOW, MOST_BOD);
    let days = format!("{LEAST_DAYS}..{MOST_DAYS}");
    for document in [&header, &help] {
        for part in [
            &days,
            &format!("at most {flow} m3/d"),
            &format!("at most {bod} mg/l"),
        ] {
            has(document, "the header or help", part);
        }
    }
    has(&readme, "README.md", &format!("into {days}"));
    has(
        &readme,
        "README.md",
        &format!("flow 0..{flow} m³/d, BOD 0..{bod} mg/l"),
    );
    for document in [&plain(&readme), &header, &help] {
        let use_of_it = "the sum divided by 14 and by 1,000,000,000, rounded up to a whole kg/d";
        has(document, "a document", use_of_it);
    }
    shows("load --csv examples/two-years.csv");
}

#[test]
fn lengths() {
    let header = plain(&document("include/pewgull.h"));
    for (name, value) in [
        ("VERSION", library::VERSION as usize),
        ("CHOOSE_LENGTH", library::CHOOSE_LENGTH),
        ("EXAMINE_LENGTH", library::EXAMINE_LENGTH),
        ("EXPLAIN_LENGTH", library::EXPLAIN_LENGTH),
        ("PAGE_LENGTH", library::PAGE_LENGTH),
        ("FIGURES_LENGTH", library::FIGURES_LENGTH),
        ("CENSUS_LENGTH", library::CENSUS_LENGTH),
        ("LOAD_PAGE", library::LOAD_PAGE),
        ("TARGET_LENGTH", library::TARGET_LENGTH),
        ("TARGET_PAGE", library::TARGET_PAGE),
        ("WORKS_LENGTH", library::WORKS_LENGTH),
        ("LINE_LENGTH", library::LINE_LENGTH),
        ("STATE_LENGTH", library::STATE_LENGTH),
        ("ADVANCE_MOST", library::ADVANCE_MOST as usize),
        ("WORKS_PAGE", library::WORKS_PAGE),
        ("BUILT_LENGTH", library::BUILT_LENGTH),
        ("BUILT_PAGE", library::BUILT_PAGE),
        ("PRICE_CHOOSE_LENGTH", library::PRICE_CHOOSE_LENGTH),
        ("PRICE_EXAMINE_LENGTH", library::PRICE_EXAMINE_LENGTH),
        ("PRICE_PAGE", library::PRICE_PAGE),
    ] {
        has(
            &header,
            "the header",
            &format!("#define PEWGULL_{name} {value} "),
        );
    }
    let (version, figures) = (library::VERSION, library::FIGURES_LENGTH);
    let (target, works) = (library::TARGET_PAGE, library::WORKS_PAGE);
    let price = library::PRICE_PAGE;
    for part in [
        format!("The request, version {version}: "),
        format!(" 0..3 version: {version} "),
        format!("writes {figures} bytes of zeros"),
        format!("fewer than {figures} bytes"),
        format!("writes {target} bytes of zeros"),
        format!("fewer than {target} bytes"),
        format!("writes {works} bytes of zeros"),
        format!("fewer than {works} bytes"),
        format!("{} 64-bit unsigned numbers", works / 8),
        format!("writes {price} bytes of zeros"),
        format!("fewer than {price} bytes"),
    ] {
        has(&header, "the header", &part);
    }
}

#[test]
fn the_manual_fits_a_line() {
    let help = pewgull(&["help"]).out;
    assert!(
        help.lines().all(|line| line.chars().count() <= 80),
        "{help}"
    );
}
