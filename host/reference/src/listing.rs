//! Listing of an answer and writing it to a page.

use crate::refusal;
use crate::sheet::Answer;

/// Labels in the order of the figures.
pub const LABELS: [&str; 15] = [
    "fraction",
    "return",
    "thickening",
    "age",
    "sludge",
    "mass",
    "solids",
    "reactor",
    "surface",
    "depth",
    "settling",
    "total",
    "recirculation",
    "oxygen",
    "transfer",
];

/// The whole listing.
pub fn listing(answer: &Answer) -> Vec<u8> {
    let mut text = String::new();
    match answer {
        Answer::Refused(number) => text += &format!("refused {number}\n"),
        Answer::Sheet(sheet) => {
            for (label, figure) in LABELS.iter().zip(sheet.figures()) {
                text += &format!("{label} {figure}\n");
            }
        }
    }
    text.into_bytes()
}

/// How many bytes the listing takes, counted without writing it: each line has
/// its label, a space, the digits of its number and a newline.
pub fn length(answer: &Answer) -> usize {
    let line = |label: &str, number: u64| label.len() + 1 + digits(number) + 1;
    match answer {
        Answer::Refused(number) => line("refused", u64::from(*number)),
        Answer::Sheet(sheet) => {
            let lines = LABELS.iter().zip(sheet.figures());
            lines.map(|(label, figure)| line(label, figure)).sum()
        }
    }
}

/// Decimal digits of a number; 0 has one.
fn digits(number: u64) -> usize {
    match number {
        0..=9 => 1,
        _ => 1 + digits(number / 10),
    }
}

/// Writes the whole listing to the start of the page and gives 0 and the
/// bytes written, or writes nothing and gives 11 and 0.
pub fn write(answer: &Answer, page: &mut [u8]) -> (u32, usize) {
    let bytes = listing(answer);
    if bytes.len() > page.len() {
        return (u32::from(refusal::SHORT_PAGE), 0);
    }
    page[..bytes.len()].copy_from_slice(&bytes);
    (0, bytes.len())
}
