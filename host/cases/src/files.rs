//! The two stored files, and comparing them with what is made now.

use crate::collection::{Case, Operation};
use crate::model::Outcome;

/// Largest size of the stored requests.
pub const MOST_BYTES: usize = 600_000;

/// A case as a record of stdin: operation, page length, request's length,
/// request.
pub fn record(case: &Case) -> Vec<u8> {
    let request = case.request_bytes();
    let header = [
        case.operation as u32,
        case.page_length,
        request.len() as u32,
    ];
    let mut bytes: Vec<u8> = header.iter().flat_map(|word| word.to_le_bytes()).collect();
    bytes.extend(request);
    bytes
}

/// A case's part of stdout: number, bytes written, newline, the bytes.
pub fn answer(outcome: &Outcome) -> Vec<u8> {
    let mut bytes = format!("{} {}\n", outcome.number, outcome.written.len()).into_bytes();
    bytes.extend(&outcome.written);
    bytes
}

/// Whether the stored bytes start with these, and the bytes after them.
fn strip<'a>(stored: &'a [u8], wanted: &[u8]) -> Option<&'a [u8]> {
    stored.strip_prefix(wanted)
}

fn hex(bytes: &[u8]) -> String {
    bytes.iter().map(|byte| format!("{byte:02x}")).collect()
}

/// An answer to be read: a listing is text; of the other pages the bytes.
fn shown(operation: Operation, answer: &[u8]) -> String {
    let is_end = |byte: &u8| *byte == b'\n';
    let length = answer.iter().position(is_end).map_or(0, |end| end + 1);
    let (first_line, page) = answer.split_at(length);
    let page = match operation {
        Operation::Examine | Operation::Choose => String::from_utf8_lossy(page).into_owned(),
        _ => hex(page),
    };
    String::from_utf8_lossy(first_line).into_owned() + &page
}

/// The first difference between the stored files and what is made now.
pub fn first_difference(
    cases: &[Case],
    outcomes: &[Outcome],
    mut requests: &[u8],
    mut answers: &[u8],
) -> Option<String> {
    for (number, (case, outcome)) in cases.iter().zip(outcomes).enumerate() {
        let made = record(case);
        let name = format!("case {number} ('{}')", case.kind);
        match strip(requests, &made) {
            Some(rest) => requests = rest,
            None => {
                let stored = &requests[..made.len().min(requests.len())];
                let (stored, made) = (hex(stored), hex(&made));
                return Some(format!("stdin, {name}\n  stored {stored}\n  made   {made}"));
            }
        }
        let made = answer(outcome);
        match strip(answers, &made) {
            Some(rest) => answers = rest,
            None => {
                let stored = &answers[..made.len().min(answers.len())];
                let [stored, made] = [stored, &made[..]].map(|bytes| shown(case.operation, bytes));
                return Some(format!("stdout, {name}\nstored:\n{stored}\nmade:\n{made}"));
            }
        }
    }
    if !requests.is_empty() || !answers.is_empty() {
        let (more_in, more_out) = (requests.len(), answers.len());
        return Some(format!(
            "after the last case: {more_in} more bytes in stdin, {more_out} in stdout"
        ));
    }
    None
}
