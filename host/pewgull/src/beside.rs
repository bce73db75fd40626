//! Two works laid beside each other: the keys that differ, both designs line by
//! line, and which of them has the looser limit where they are alike but for one.
//! The answers are the library's; that the looser limit cannot take more volume is
//! proved of them (`looser_limit`).

use crate::explanation;
use crate::json::{self, Member, Value};
use crate::keys::{Field, Key, KEYS};
use crate::plant_file::PlantFile;
use library::number::{self, NO_DESIGN, SHEET};
use library::sheet::LINES;
use library::{choose, Candidate, PAGE_LENGTH};

/// The limits of which it is proved, by their keys.
pub const LIMITS: [&str; 3] = ["nitrate-target", "site-surface", "site-depth"];

/// The limit that a works in lines splits and rounds.
const SPLIT_LIMIT: &str = "site-surface";

/// The two nitrate columns, which are read first.
const COLUMNS: [&str; 2] = ["nitrate-to-remove", "nitrate-removable"];

/// What stands where a works has no design.
const NONE: &str = "-";

/// A works: its file and the library's answer.
pub struct Works<'a> {
    pub name: &'a str,
    pub plant: &'a PlantFile,
    /// The number of the choice
    pub number: u32,
    /// The two nitrate columns, then the figures of the listing; none where it
    /// is refused
    figures: Vec<u64>,
}

impl<'a> Works<'a> {
    /// Chooses for the works, and looks up its columns.
    pub fn of(name: &'a str, plant: &'a PlantFile) -> Works<'a> {
        let mut page = [0; PAGE_LENGTH];
        let (number, written) = choose(&plant.request.to_choose(), &mut page);
        let listing = String::from_utf8_lossy(&page[..written as usize]);
        let figures = match number {
            SHEET => with_columns(plant, numbers(&listing)),
            _ => None,
        };
        Works {
            name,
            plant,
            number,
            figures: figures.unwrap_or_default(),
        }
    }

    /// Whether the data are accepted, with a design or without.
    fn is_accepted(&self) -> bool {
        [SHEET, NO_DESIGN].contains(&self.number)
    }
}

/// The numbers of a listing.
fn numbers(listing: &str) -> Vec<u64> {
    let number = |line: &str| line.split_once(' ')?.1.parse().ok();
    listing.lines().filter_map(number).collect()
}

/// The two nitrate columns of a sheet, and its figures after them.
fn with_columns(plant: &PlantFile, sheet: Vec<u64>) -> Option<Vec<u64>> {
    let [fraction, return_ratio, thickening, ..] = sheet[..] else {
        return None;
    };
    let candidate = Candidate {
        fraction: fraction as u32,
        return_ratio: return_ratio as u32,
        thickening: thickening as u32,
    };
    let figures = explanation::figures(&plant.request, candidate).ok()?;
    let columns = [figures.nitrate_to_remove, figures.nitrate_removable];
    Some(columns.into_iter().chain(sheet).collect())
}

/// A key with two values.
struct Difference {
    key: &'static Key,
    values: [String; 2],
}

/// The keys that differ, in their order.
fn differences(works: &[Works; 2]) -> Vec<Difference> {
    let values = |key: &'static Key| Difference {
        key,
        values: [0, 1].map(|side| key.value(works[side].plant)),
    };
    let all = KEYS.iter().map(values);
    all.filter(|found| found.values[0] != found.values[1])
        .collect()
}

/// The labels of the figures, with their units.
fn labels() -> impl Iterator<Item = (&'static str, &'static str)> {
    let columns = COLUMNS.iter().map(|label| (*label, "mg/m3"));
    columns.chain(LINES.iter().map(|line| (line.label, line.unit)))
}

/// Which works is the looser, and by which key, where the two are alike in all
/// else and both are accepted.
fn looser(works: &[Works; 2], found: &[Difference]) -> Option<(usize, &'static str)> {
    let [Difference { key, .. }] = found else {
        return None;
    };
    let Field::Whole(_, at) = &key.field else {
        return None;
    };
    let limit = |side: usize| *at(&mut works[side].plant.request.clone());
    let is_told = LIMITS.contains(&key.name) && works.iter().all(Works::is_accepted);
    is_told.then(|| (usize::from(limit(0) < limit(1)), key.name))
}

/// What a planner may rely on, in words.
fn relied_on(works: &[Works; 2], found: &[Difference]) -> Option<String> {
    let (side, key) = looser(works, found)?;
    let mut text = format!(
        "{} has the looser {key} and is alike in all else: it cannot lose a design, \
         nor take more volume",
        side + 1
    );
    let is_split = works.iter().any(|works| !works.plant.shares.is_empty());
    if key == SPLIT_LIMIT && is_split {
        text += " (as one plant: split into lines it can)";
    }
    Some(text)
}

/// A row of the table: label, both values, unit.
type Row<'a> = (&'a str, [String; 2], &'a str);

/// The rows of the keys that differ.
fn key_rows(found: &[Difference]) -> Vec<Row<'_>> {
    let row = |difference: &Difference| {
        let unit = match &difference.key.field {
            Field::Whole(range, _) => range.unit,
            _ => "",
        };
        (difference.key.name, difference.values.clone(), unit)
    };
    found.iter().map(row).collect()
}

/// The rows of the designs, and of the refusals where there are any.
fn design_rows(works: &[Works; 2]) -> Vec<Row<'static>> {
    let refused = ("refused", [0, 1].map(|side| number_of(&works[side])), "");
    let is_refused = works.iter().any(|works| works.number != SHEET);
    let figure = |side: usize, place: usize| match works[side].figures.get(place) {
        Some(figure) => figure.to_string(),
        None => NONE.to_string(),
    };
    let row = |(place, (label, unit))| (label, [0, 1].map(|side| figure(side, place)), unit);
    let figures = labels().enumerate().map(row);
    is_refused
        .then_some(refused)
        .into_iter()
        .chain(figures)
        .collect()
}

fn number_of(works: &Works) -> String {
    match works.number {
        SHEET => NONE.to_string(),
        number => number.to_string(),
    }
}

/// Rows in columns of these widths.
fn in_columns(rows: &[Row], [label, first, second]: [usize; 3]) -> String {
    let line = |(name, values, unit): &Row| {
        let [one, other] = values;
        let line = format!("{name:<label$}  {one:>first$}  {other:>second$} {unit}");
        line.trim_end().to_string() + "\n"
    };
    rows.iter().map(line).collect()
}

/// The widths of the columns.
fn widths(rows: &[Row]) -> [usize; 3] {
    let most = |of: &dyn Fn(&Row) -> usize| rows.iter().map(of).max().unwrap_or(0);
    let [first, second] = [0, 1].map(|side| most(&|row| row.1[side].len()));
    [most(&|row| row.0.len()), first, second]
}

/// The table in columns, with the names of the files before it.
pub fn text(works: &[Works; 2]) -> String {
    let found = differences(works);
    let (keys, designs) = (key_rows(&found), design_rows(works));
    let widths = widths(&[&keys[..], &designs[..]].concat());
    let mut text = format!("# 1 {}\n# 2 {}\n", works[0].name, works[1].name);
    text += &in_columns(&keys, widths);
    if found.is_empty() {
        text += "no key differs\n";
    }
    text += "# designs\n";
    text += &in_columns(&designs, widths);
    match relied_on(works, &found) {
        Some(told) => text + &told + "\n",
        None => text,
    }
}

/// The same as members of JSON.
pub fn members(works: &[Works; 2]) -> Vec<Member> {
    let found = differences(works);
    let keys = found.iter().map(|difference| {
        let [first, second] = &difference.values;
        vec![
            json::text("key", difference.key.name),
            json::text("first", first),
            json::text("second", second),
        ]
    });
    let designs = works.iter().map(|works| {
        let mut object = vec![
            json::text("file", works.name),
            json::number("number", works.number),
            json::text("word", number::word(works.number).unwrap_or_default()),
        ];
        let figures = labels().zip(&works.figures);
        object.extend(figures.map(|((label, _), figure)| json::number(label, *figure)));
        object
    });
    let mut members = vec![
        ("keys".to_string(), Value::List(keys.collect())),
        ("designs".to_string(), Value::List(designs.collect())),
    ];
    if let Some((side, key)) = looser(works, &found) {
        members.push(json::number("looser", side as u32 + 1));
        members.push(json::text("limit", key));
    }
    members
}
