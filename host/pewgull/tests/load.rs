//! The command `load`: logs of bytes and of text, refusals and faults.

mod common;

use common::{example, file, pewgull, ran};
use library::{day_log, Day};
use std::fs::File;
use std::process::Command;

const SUM: &str = "sum 14200000000000\nday 3\n";

/// Twenty equal days but for the flow of day 16.
fn days(flow: f32) -> Vec<Day> {
    let day = |flow: f32| Day {
        flow: flow.to_bits(),
        bod: 200f32.to_bits(),
    };
    let mut days = vec![day(5_000.0); 20];
    days[15] = day(flow);
    days
}

/// The same as text, with this heading and line 16 of the days.
fn text(heading: &str, line: &str) -> String {
    let plain = "5000;200\n";
    format!("{heading}{}{line}\n{}", plain.repeat(15), plain.repeat(4))
}

#[test]
fn a_log_of_bytes_and_one_of_text() {
    let log = file("good.log", day_log(&days(6_000.0)));
    let csv = file("good.csv", text("flow;BOD\n", "6000;200"));
    for words in [
        &["load", &log][..],
        &["load", "--csv", &csv],
        &["--csv", "load", &csv],
    ] {
        let ran = pewgull(words);
        assert_eq!(
            (ran.status, ran.out.as_str(), ran.err.as_str()),
            (0, SUM, "")
        );
    }
    for path in [&log, &csv] {
        let mut tool = Command::new(env!("CARGO_BIN_EXE_pewgull"));
        tool.args(["load", "-"]).stdin(File::open(path).unwrap());
        if path == &csv {
            tool.arg("--csv");
        }
        assert_eq!(ran(tool.output().unwrap()).out, SUM);
    }
    let several = pewgull(&["load", &log, &log]);
    assert_eq!(several.out, format!("# {log}\n{SUM}").repeat(2));
}

/// What is said of a refusal: number, bytes, and the words.
fn refused(name: &str, number: u32, bytes: &[u8], words: &[&str]) {
    let path = file(name, bytes);
    let csv = name.ends_with(".csv");
    let ran = match csv {
        true => pewgull(&["load", "--csv", &path]),
        false => pewgull(&["load", &path]),
    };
    assert_eq!((ran.status, ran.out), (1, format!("refused {number}\n")));
    let word = ["day log", "day value"][number as usize - 12];
    let start = format!("pewgull: {path}: refused {number} ({word}): ");
    assert!(ran.err.starts_with(&start), "{}", ran.err);
    assert!(
        ran.err.lines().skip(1).all(|told| told.len() <= 80),
        "{}",
        ran.err
    );
    for word in words {
        assert!(ran.err.contains(word), "{}", ran.err);
    }
}

#[test]
fn lengths_are_told() {
    let good = day_log(&days(6_000.0));
    let told = "the log has 0 bytes.\n  Expected a count of days in 4 bytes, then 8";
    refused("none.log", 12, &[], &[told]);
    refused("three.log", 12, &good[..3], &["the log has 3 bytes."]);
    let told = "the log has 163 bytes: expected 164 for its 20 days\n";
    refused("short.log", 12, &good[..good.len() - 1], &[told]);
    let text = text("", "6000;200");
    let told = "'pewgull load --csv FILE' reads those";
    refused("text.log", 12, text.as_bytes(), &[told]);
}

#[test]
fn counts_are_told() {
    let day = days(1.0)[0];
    for count in [0, 13, 3_661] {
        let told = format!("a count of {count} days: expected 14..3660\n");
        refused("count.log", 12, &day_log(&vec![day; count]), &[&told]);
        let text = "1,2\n".repeat(count);
        refused("count.csv", 12, text.as_bytes(), &[&told]);
    }
}

#[test]
fn values_are_named() {
    for (flow, told) in [
        (
            f32::NAN,
            "NaN m3/d, expected a finite number, not below zero",
        ),
        (f32::NEG_INFINITY, "-inf m3/d, expected a finite number"),
        (
            -1e-40,
            "-1e-40 m3/d, expected a finite number, not below zero",
        ),
        (200_000.02, "200000.02 m3/d, expected at most 200000\n"),
        (f32::MAX, "3.4028235e38 m3/d, expected at most 200000\n"),
    ] {
        let log = day_log(&days(flow));
        refused(
            "value.log",
            13,
            &log,
            &[&format!("\n  day 16: flow {told}")],
        );
    }
    let with_heading = text("Q;BOD\n", "6000;2000.0006");
    let told = "\n  day 16 (line 17): BOD 2000.0006 mg/l, expected at most 2000\n";
    refused("value.csv", 13, with_heading.as_bytes(), &[told]);
    let met = file("met.csv", text("", "200000;2000.0004"));
    assert_eq!(
        pewgull(&["load", "--csv", &met]).out,
        "sum 413000000000000\nday 3\n"
    );
    let all = "nan,-1\n".repeat(20);
    let told = [
        "day 1 (line 1): flow NaN",
        "day 1 (line 1): BOD -1 mg/l",
        "\n  and 35 more values\n",
    ];
    refused("all.csv", 13, all.as_bytes(), &told);
}

#[test]
fn faults_of_a_text_file() {
    let path = file("faults.csv", text("flow;BOD\n", "6000,5;200"));
    let ran = pewgull(&["load", "--csv", &path]);
    assert_eq!((ran.status, ran.out.as_str()), (2, ""));
    let expected = format!(
        "pewgull: {path}:17: flow '6000,5' is not a decimal number; \
         expected a number in m3/d, with a decimal point\n"
    );
    assert_eq!(ran.err, expected);
    let log = file("bytes.log", day_log(&days(1.0)));
    let ran = pewgull(&["load", "--csv", &log]);
    assert_eq!((ran.status, ran.out.as_str()), (2, ""));
    assert!(
        ran.err
            .contains(":1: not a text file; expected a text file"),
        "{}",
        ran.err
    );
    for (words, what) in [
        (&["load", "no-such"][..], "a day log"),
        (&["load", "--csv", "no-such"], "a text file of days"),
    ] {
        let ran = pewgull(words);
        let expected = format!("pewgull: no-such: no such file; expected {what}\n");
        assert_eq!((ran.status, ran.err), (2, expected));
    }
}

#[test]
fn objects() {
    let path = example("two-years.csv");
    let ran = pewgull(&["load", "--json", "--csv", &path]);
    let object = format!(
        "{{\"file\": \"{path}\", \"status\": \"load\", \"sum\": 16799374330000, \"day\": 401}}\n"
    );
    assert_eq!((ran.status, ran.out, ran.err.as_str()), (0, object, ""));
    let few = file("json-few.log", [13, 0, 0, 0]);
    let ran = pewgull(&["load", "--json", &few, "no-such"]);
    let objects = format!(
        "{{\"file\": \"{few}\", \"status\": \"refused\", \"number\": 12, \"word\": \"day log\", \
         \"message\": \"{few}: refused 12 (day log): a count of 13 days: expected 14..3660\"}}\n\
         {{\"file\": \"no-such\", \"status\": \"error\", \
         \"message\": \"no-such: no such file; expected a day log\"}}\n"
    );
    assert_eq!((ran.status, ran.out), (2, objects));
}
