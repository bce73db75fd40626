//! The short help, the whole manual and the versions, from the tables.

use crate::arguments::COMMANDS;
use crate::beside::LIMITS;
use crate::census;
use crate::keys::{shares_expected, SHARES_WORDS, TERM_TARGET, TERM_TEMPERATURE, TERM_WORDS};
use crate::keys::{Field, HEADS, INDEX, KEYS, MOST_DOSE_WITHOUT_SLUDGE};
use crate::tariff_file::{bands_expected, LIMIT_UNIT, PRICE_RANGE, SURCHARGE_RANGE};
use crate::tariff_file::{BAND, REST, SURCHARGE};
use crate::values::listed;
use crate::works::SPLIT;
use library::number;
use library::sheet::{GRID, LINES};
use library::{ADVANCE_MOST, STATE_LENGTH};
use library::{COUNTED, KIT, MOST_TERMS, SUMS, VERSION};
use library::{LEAST_DAYS, MOST_BOD, MOST_DAYS, MOST_FLOW};

const USAGE: &str = "\
Usage: pewgull COMMAND [--json] WORDS, where COMMAND WORDS is one of these:
";

/// Columns of a command and its words before what it prints.
const WIDTH: usize = 26;

/// A line for each command with its words, or two where they are many.
fn commands() -> String {
    let mut text = String::new();
    for form in COMMANDS {
        let head = format!("{} {}", form.name, form.words());
        if head.len() < WIDTH {
            text += &format!("{head:<WIDTH$}{}\n", form.about);
        } else {
            text += &format!("{head}\n{:WIDTH$}{}\n", "", form.about);
        }
    }
    text + &format!(
        "{:<WIDTH$}every line, key, unit, range and refusal; --version\n",
        "help"
    )
}

fn grid() -> String {
    GRID.iter()
        .map(|side| {
            let range = side.range();
            format!(
                "{:<8} {}, {range}, in {}\n",
                side.letter, side.meaning, side.unit
            )
        })
        .collect()
}

const STATUS: &str = "\
Exit status: 0 an answer; 1 a refusal; 2 a file or usage error; 130 interrupted
";

/// What `--help` prints: a screen.
pub fn short() -> String {
    format!(
        "{USAGE}{}\
         FILE     a plant file, - is standard input; --json prints a JSON object for each\n\
         {}{STATUS}\
         Example: pewgull examine examples/case-a.plant 300 75 20 (it has every key)\n",
        commands(),
        grid()
    )
}

/// What `help` prints: the same, and every table.
pub fn manual() -> String {
    let mut text = short();
    text += "\nThe lines of a sheet\n";
    for line in LINES {
        text += &format!("  {:<14} {:<33} {}\n", line.label, line.meaning, line.unit);
    }
    text += &format!(
        "\nThe lines of a census\n  {}\n\
         A candidate that is not permitted is counted at the first rule that it breaks.\n",
        COUNTED.map(census::label).join(", ")
    );
    text += &works();
    text += &sweep();
    text += &built();
    text += &price();
    text += LENGTH;
    text += &beside();
    text += &day_log();
    text += "\nThe line of a target\n  \
             target         lowest nitrate target in force that day, mg/m3; 0: no term runs\n";
    text += &keys();
    text += "\nThe refusals\n";
    for refusal in number::ALL {
        if number::is_refusal(refusal.number) {
            text += &format!("  {:>3} {}\n", refusal.number, refusal.word);
        }
    }
    text
}

/// The keys of a plant file, and what their values are.
fn keys() -> String {
    let mut text =
        "\nThe keys of a plant file: text, one 'key value' per line, # starts a comment\n"
            .to_string();
    for key in &KEYS {
        let (name, meaning) = (key.name, key.meaning);
        text += &match &key.field {
            Field::Whole(range, _) | Field::Reading(range, _) => {
                let (ends, unit) = (range.digits(), range.unit);
                format!("  {name:<21} {meaning:<25} {ends:<12} {unit}\n")
            }
            Field::Word(words, _) => format!("  {name:<21} {}\n", wrapped(words, 24)),
            Field::Term => format!("  {name:<21} {meaning:<25} {TERM_WORDS}\n"),
            Field::Shares => format!("  {name:<21} {meaning:<25} {SHARES_WORDS}\n"),
        };
    }
    text + &format!(
        "May be left out, with the value that then counts:\n  {}.\n\
         A reading is 'measured X', 'below X' (half of X counts) or 'heads N', N in\n\
         {}; X in mg/l, or bits: and the eight hex digits of an f32. Its range is\n\
         that of the concentration that comes out.\n{}{}{}",
        optional(),
        HEADS.digits(),
        term(),
        way(),
        shares()
    )
}

/// What the COD way changes.
fn way() -> String {
    format!(
        "'way cod' is for industrial works: carbon sludge and carbon's oxygen come from\n\
         the COD, 4 is never due, and a dose above {MOST_DOSE_WITHOUT_SLUDGE} mg/m3 adds sludge. In the\n\
         simultaneous and the intermittent process the nitrate that the tank's own carbon\n\
         removes is reckoned from the COD too: explain has it as nitrate-removed-by-cod,\n\
         with --json under its key nitrate-removed-by-bod.\n"
    )
}

/// The lines of a works.
fn works() -> String {
    format!(
        "\nThe lines of a works\n  {}\n\
         Each is the sum over the works' lines. Then '# line 1' and its sheet, and so on.\n",
        SUMS.join(", ")
    )
}

/// What a sweep does, and what its options are.
fn sweep() -> String {
    format!(
        "\nA sweep\n\
         It asks for the candidates of the grid by rising F, then R, then H, --by N at a\n\
         time, 1..{ADVANCE_MOST} (left out: {ADVANCE_MOST}), and prints at last what choose prints. On a\n\
         terminal it shows how many it has asked for, and the best so far. Interrupted,\n\
         by Ctrl-C or kill, it stops after the advance under way. With --state its state\n\
         is kept in a file, {STATE_LENGTH} bytes that are the same on every machine; the command\n\
         given again goes on from there, or prints the answer again. A file that is not\n\
         there yet starts a new sweep; one of other plant data is left as it is.\n"
    )
}

/// What existing tanks are asked, and what the answer means.
fn built() -> String {
    format!(
        "\nThe line of existing tanks\n  \
         held           they hold every sludge volume index of LEAST..MOST\n  \
         lost SVI       the smallest index of the span that they do not hold, {}\n\
         REACTOR is the volume of the reactor as built, SURFACE and DEPTH are those of\n\
         the settling tank, F and H as they are run; LEAST..MOST is within {} {}.\n\
         For each index every return ratio R is tried. It is held where one of them is\n\
         permitted with that index, and needs no more than is built. The file's own index\n\
         is checked and not used further; its site limits and its terms are held to. Each\n\
         index stands for itself: one above a lost one may be held. A lost index is an\n\
         answer, with exit status 0; standard error says what fails at both ends of R.\n",
        INDEX.unit,
        INDEX.digits(),
        INDEX.unit
    )
}

/// The line of a price, the lines of a tariff file, and what is charged.
fn price() -> String {
    let (prices, per_metre) = (PRICE_RANGE.digits(), PRICE_RANGE.unit);
    let (surcharges, unit) = (SURCHARGE_RANGE.digits(), SURCHARGE_RANGE.unit);
    let left_out = SURCHARGE_RANGE.least;
    format!(
        "\nThe line of a price\n  \
         price            of both tanks, cents; with --json the sheet's figures too\n\
         The lines of a tariff file: text, # starts a comment\n  \
         {BAND} LIMIT PRICE upper limit of a band, {LIMIT_UNIT}; price, {prices} {per_metre}\n  \
         {BAND} {REST} PRICE  the last band, which has no limit\n  \
         {SURCHARGE} N      on the sum, {surcharges} {unit}; left out: {left_out}\n\
         {}.\n\
         Cubic metre n of a tank is charged in the first band whose limit is at least n,\n\
         reactor and settling tank separately. The surcharge is rounded up to the cent,\n\
         once, at the end. The design is that of least volume, as choose gives it: the\n\
         cheapest one is not looked for.\n",
        bands_expected()
    )
}

/// The line of a length.
const LENGTH: &str = "
The line of a length
  length         bytes of the listing that choose prints, or examine with F R H
A refusal has a listing too: standard error says then what it is due to, and the
exit status is 0. A page of just that length is long enough, and one byte less
is not.
";

/// The rows of two works beside each other, and what is told of them.
fn beside() -> String {
    format!(
        "\nThe lines of two works beside each other\n  \
         KEY            both values, for each key that differs; or no key differs\n\
         After # designs the two nitrate columns, and the lines of both sheets; - for a\n\
         works that is refused, its number in the line refused. Where one of\n  \
         {}\n\
         is all that differs, and both data are accepted, the last line says which works\n\
         has the looser limit: it cannot lose a design, nor take more volume.\n",
        listed(&LIMITS.map(String::from))
    )
}

/// What the shares split.
fn shares() -> String {
    format!(
        "'shares' is for the command works, and the others do not look at it:\n\
         {}.\n\
         They split {} among lines side by side; all\n\
         else is the whole works', the load and the concentrations too.\n",
        shares_expected(),
        listed(&SPLIT.map(String::from))
    )
}

/// What a term's line holds.
fn term() -> String {
    format!(
        "A term is a line of its own, at most {MOST_TERMS} of them: first and last day, both\n\
         included, over the new year where the last comes before the first; the lowest\n\
         temperature, {} {}; the nitrate target, {} {}.\n",
        TERM_TEMPERATURE.digits(),
        TERM_TEMPERATURE.unit,
        TERM_TARGET.digits(),
        TERM_TARGET.unit
    )
}

/// The keys that may be left out, with their values.
fn optional() -> String {
    let values = KEYS.iter().filter_map(|key| {
        let value = key.left_out()?;
        Some(format!("{} {value}", key.name))
    });
    values.collect::<Vec<_>>().join(", ")
}

/// The lines of a load, what a log holds, and the load of a plant.
fn day_log() -> String {
    format!(
        "\nThe lines of a load\n  \
         sum            highest sum of 14 consecutive daily loads, millionths of g/d\n  \
         day            the first day, counted from 1, on which such days start\n\
         A day log is a 32-bit count of days, {LEAST_DAYS}..{MOST_DAYS}, then the f32 flows, at most\n\
         {MOST_FLOW} m3/d, then the f32 BOD values, at most {MOST_BOD} mg/l, all little-endian.\n\
         With --csv it is made from a text file: a line for each day with flow and BOD,\n\
         separated by comma, semicolon or tab; a heading line may stand before them.\n\
         {PLANT_LOAD}\n"
    )
}

/// How a load serves for a plant file.
const PLANT_LOAD: &str = "\
For the key 'load' of a plant file take the mean of the 14 daily loads: the sum\n\
divided by 14 and by 1,000,000,000, rounded up to a whole kg/d.";

/// The words in lines of 80 columns, the later lines indented.
fn wrapped(words: &[&str], indent: usize) -> String {
    let mut text = String::new();
    let mut column = indent;
    for (place, word) in words.iter().enumerate() {
        let word = match place + 1 < words.len() {
            true => format!("{word}, "),
            false => word.to_string(),
        };
        if column + word.len() > 80 {
            text = format!("{}\n{:indent$}", text.trim_end(), "");
            column = indent;
        }
        column += word.len();
        text += &word;
    }
    text
}

/// The tool's version, the request's, and the kit's identity.
pub fn version() -> String {
    let tool = env!("CARGO_PKG_VERSION");
    format!("pewgull {tool}\nrequest {VERSION}\nkit {KIT}\n")
}
