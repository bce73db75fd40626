//! Plant files: what is accepted, and what each error names.

mod common;

use common::{file, pewgull, with, CASE_A, CASE_A_LISTING};

fn examine(path: &str) -> common::Ran {
    pewgull(&["examine", path, "300", "75", "20"])
}

/// The file gets Case A's sheet.
fn accepted(name: &str, contents: impl AsRef<[u8]>) {
    let ran = examine(&file(name, contents));
    assert_eq!((ran.status, ran.err.as_str()), (0, ""), "{name}");
    assert_eq!(ran.out, CASE_A_LISTING, "{name}");
}

/// The file is an error: status 2, nothing printed, and a message that names
/// the file, the line, what is wrong and what was expected.
fn refused(name: &str, contents: impl AsRef<[u8]>, line: usize, wrong: &str, expected: &str) {
    let path = file(name, contents);
    let ran = examine(&path);
    assert_eq!((ran.status, ran.out.as_str()), (2, ""), "{name}");
    let start = format!("pewgull: {path}:{line}: {wrong}");
    let found = ran.err.lines().find(|told| told.starts_with(&start));
    let told = found.unwrap_or_else(|| panic!("{name}: no '{start}' in {}", ran.err));
    assert!(told.contains(expected), "{name}: no '{expected}' in {told}");
}

#[test]
fn accepted_forms() {
    accepted("plain.plant", CASE_A);
    accepted("crlf.plant", CASE_A.replace('\n', "\r\n"));
    accepted("no-newline.plant", CASE_A.trim_end());
    accepted("mark.plant", format!("\u{feff}{CASE_A}"));
    accepted("tabs.plant", CASE_A.replace(' ', "\t \t"));
    accepted("bits.plant", with("bod", "bod measured bits:43480000"));
    accepted("decimal.plant", with("bod", "bod measured 200.000000001"));
}

#[test]
fn comments_blank_lines_and_order() {
    let mut lines: Vec<&str> = CASE_A.lines().collect();
    lines.reverse();
    accepted("reversed.plant", lines.join("\n\n"));
    let commented = CASE_A.replace('\n', " # load 7\n#\n  # comment: \u{e4}\n");
    accepted("commented.plant", commented);
    accepted("close.plant", with("load", "load 1200# kg/d"));
}

#[test]
fn missing_keys() {
    let wrong = "key 'flow' is missing";
    refused(
        "missing.plant",
        with("flow", ""),
        23,
        wrong,
        "expected 'flow N'",
    );
    let two = with("flow", "").replace("cod measured 400\n", "");
    let wrong = "2 keys are missing";
    refused(
        "missing-two.plant",
        two,
        22,
        wrong,
        "expected also: flow cod",
    );
}

#[test]
fn empty_files() {
    let wrong = "23 keys are missing";
    refused("empty.plant", "", 1, wrong, "load flow");
    refused("blank.plant", "\n\n# nothing\n", 3, wrong, "load flow");
}

/// Left out, the key `dose` is 0; it is not among the missing ones.
#[test]
fn a_key_with_a_default() {
    assert!(!CASE_A.contains("dose"));
    accepted("dose-left-out.plant", CASE_A);
    accepted("dose-of-0.plant", format!("{CASE_A}dose 0\n"));
    let ran = examine(&file("no-key.plant", ""));
    assert!(!ran.err.contains("dose"), "{}", ran.err);
    let expected = "expected 'dose N', N a whole number from 0 to 500000 in mg/m3 as COD";
    for (place, (line, wrong)) in [
        ("dose x", "'x' is not a whole number"),
        ("dose -1", "'-1' is not a whole number"),
        ("dose", "the value is missing"),
        ("dose 4294967296", "'4294967296' is too large"),
        ("dose 5 mg/m3", "'mg/m3' is one word too many"),
    ]
    .iter()
    .enumerate()
    {
        let text = format!("{CASE_A}{line}\n");
        refused(
            &format!("bad-dose-{place}.plant"),
            text,
            24,
            wrong,
            expected,
        );
    }
}

/// Left out, the key `way` is bod; cod gives another sheet.
#[test]
fn the_two_ways() {
    assert!(!CASE_A.contains("way"));
    accepted("way-left-out.plant", CASE_A);
    accepted("way-bod.plant", format!("{CASE_A}way bod\n"));
    let ran = examine(&file("way-cod.plant", format!("way\tcod # COD\n{CASE_A}")));
    assert_eq!((ran.status, ran.err.as_str()), (0, ""));
    assert!(ran.out.contains("\nsludge 1101595\n"), "{}", ran.out);
    let ran = examine(&file("neither.plant", ""));
    assert!(!ran.err.contains(" way"), "{}", ran.err);
    let expected = "expected 'way' and one of bod, cod";
    for (place, (line, wrong)) in [
        ("way COD", "'COD' is not known here"),
        ("way 1", "'1' is not known here"),
        ("way", "the value is missing"),
        ("way cod bod", "'bod' is one word too many"),
    ]
    .iter()
    .enumerate()
    {
        let text = format!("{CASE_A}{line}\n");
        refused(&format!("bad-way-{place}.plant"), text, 24, wrong, expected);
    }
    let wrong = "'ways' is no key";
    let text = format!("{CASE_A}ways cod\n");
    refused(
        "ways.plant",
        text,
        24,
        wrong,
        "expected 'way', or another key",
    );
}

/// Left out, there is no term; otherwise the lines count in their order. A
/// term at the design's temperature and target leaves Case A's sheet.
#[test]
fn lines_of_terms() {
    let same = "term 11-01 03-31 12 10000\n";
    accepted("term.plant", format!("{same}{CASE_A}"));
    accepted("terms.plant", format!("{CASE_A}{}", same.repeat(4)));
    let commented = "term\t1-1  12-31 0012 10000# all year\n";
    accepted("term-comment.plant", format!("{CASE_A}{commented}"));
    let ran = examine(&file("no-term.plant", ""));
    assert!(!ran.err.contains("term "), "{}", ran.err);
    let expected = "expected 'term MM-DD MM-DD TEMPERATURE TARGET': first and last day, \
                    lowest temperature of 4..20 degrees Celsius, \
                    nitrate target of 1000..50000 mg/m3";
    for (place, (line, wrong)) in [
        ("term", "the first day is missing"),
        ("term 11-01", "the last day is missing"),
        ("term 11-01 03-31", "the temperature is missing"),
        ("term 11-01 03-31 8", "the target is missing"),
        ("term 11.01 03-31 8 1", "'11.01' is not a date MM-DD"),
        (
            "term 11-01 2026-03-31 8 1",
            "'2026-03-31' is not a date MM-DD",
        ),
        ("term 11-01 03-31 -8 1", "'-8' is not a whole number"),
        ("term 11-01 03-31 8 1e4", "'1e4' is not a whole number"),
        ("term 11-01 03-31 8 1 mg/m3", "'mg/m3' is one word too many"),
    ]
    .iter()
    .enumerate()
    {
        let text = format!("{CASE_A}{same}{line}\n");
        refused(
            &format!("bad-term-{place}.plant"),
            text,
            25,
            wrong,
            expected,
        );
    }
    let wrong = "'Terms' is no key";
    let text = format!("{CASE_A}Terms 11-01 03-31 8 10000\n");
    refused("terms-key.plant", text, 24, wrong, "expected 'term', or");
}

/// Left out, there are no shares; otherwise there may be any number of them,
/// and no command but `works` looks at them.
#[test]
fn the_shares_of_lines() {
    assert!(!CASE_A.contains("shares"));
    for (place, line) in [
        "shares 400 350 250",
        "shares\t0400  600# two lines",
        "shares 1000",
        "shares 0 4294967295",
        "shares 1 1 1 1 1 1 1 1 1 1 1 1",
    ]
    .iter()
    .enumerate()
    {
        let name = format!("shares-{place}.plant");
        accepted(&name, format!("{line}\n{CASE_A}"));
    }
    let ran = examine(&file("no-split.plant", ""));
    assert!(!ran.err.contains("shares"), "{}", ran.err);
    let expected =
        "expected 'shares SHARE SHARE ...', whole numbers: 2 to 8 shares in thousandths, \
                    each at least 1, adding up to 1000";
    for (place, (line, wrong)) in [
        ("shares", "the value is missing"),
        ("shares # none", "the value is missing"),
        ("shares 400 x", "'x' is not a whole number"),
        ("shares 0.4 0.6", "'0.4' is not a whole number"),
        ("shares 400, 600", "'400,' is not a whole number"),
        ("shares 400 600 %", "'%' is not a whole number"),
        ("shares 4294967296", "'4294967296' is too large"),
        ("shares 1 1 1 1 1 1 1 1 1 -1", "'-1' is not a whole number"),
    ]
    .iter()
    .enumerate()
    {
        let name = format!("bad-shares-{place}.plant");
        let text = format!("{CASE_A}{line}\n");
        refused(&name, text, 24, wrong, expected);
    }
    let wrong = "'share' is no key";
    let text = format!("{CASE_A}share 400 600\n");
    refused("share.plant", text, 24, wrong, "expected 'shares', or");
}

#[test]
fn double_key() {
    let twice = format!("{CASE_A}flow 5000\n");
    let wrong = "key 'flow' was given in line 2 already";
    refused("double.plant", twice, 24, wrong, "expected each key once");
    let twice = format!("{CASE_A}dose 0\ndose 0\n");
    let wrong = "key 'dose' was given in line 24 already";
    refused(
        "double-dose.plant",
        twice,
        25,
        wrong,
        "expected each key once",
    );
    let twice = format!("way bod\n{CASE_A}way cod\n");
    let wrong = "key 'way' was given in line 1 already";
    refused(
        "double-way.plant",
        twice,
        25,
        wrong,
        "expected each key once",
    );
    let twice = format!("shares 500 500\n{CASE_A}shares 500 500\n");
    let wrong = "key 'shares' was given in line 1 already";
    refused(
        "double-shares.plant",
        twice,
        25,
        wrong,
        "expected each key once",
    );
}

#[test]
fn unknown_keys() {
    let wrong = "'flwo' is no key";
    refused(
        "unknown.plant",
        with("flow", "flwo 5000"),
        2,
        wrong,
        "expected 'flow', or another key",
    );
    let wrong = "'BOD' is no key";
    refused(
        "case.plant",
        with("bod", "BOD measured 200"),
        19,
        wrong,
        "expected 'bod', or another",
    );
    let wrong = "'load=1200' is no key";
    refused(
        "equals.plant",
        with("load", "load=1200"),
        1,
        wrong,
        "expected one of: load flow ",
    );
}

#[test]
fn bad_whole_numbers() {
    let expected = "expected 'flow N', N a whole number from 1 to 200000 in m3/d";
    for (place, value) in ["x", "-5", "+5", "5000.0", "5,000", "5e3", "0x10"]
        .iter()
        .enumerate()
    {
        let text = with("flow", &format!("flow {value}"));
        let wrong = format!("'{value}' is not a whole number");
        refused(&format!("bad-{place}.plant"), text, 2, &wrong, expected);
    }
    let wrong = "'4294967296' is too large";
    refused(
        "large.plant",
        with("flow", "flow 4294967296"),
        2,
        wrong,
        expected,
    );
    refused(
        "none.plant",
        with("flow", "flow"),
        2,
        "the value is missing",
        expected,
    );
    let wrong = "'m3/d' is one word too many";
    refused(
        "unit.plant",
        with("flow", "flow 5000 m3/d"),
        2,
        wrong,
        expected,
    );
}

#[test]
fn bad_words() {
    let expected = "expected 'process' and one of pre-anoxic, simultaneous, intermittent, \
                    step-feed-two, step-feed-three";
    let wrong = "'step-feed' is not known here";
    refused(
        "word.plant",
        with("process", "process step-feed"),
        14,
        wrong,
        expected,
    );
    let wrong = "the value is missing";
    refused(
        "no-word.plant",
        with("process", "process # none"),
        14,
        wrong,
        expected,
    );
}

#[test]
fn bad_readings() {
    let expected = "expected 'bod measured X', 'bod below X'";
    let cases = [
        ("bod 200", "'200' is no kind of reading"),
        ("bod", "the value is missing"),
        ("bod measured", "the number is missing"),
        ("bod measured 200,5", "'200,5' is not a decimal number"),
        ("bod measured 200 mg/l", "'mg/l' is one word too many"),
        (
            "bod below bits:4348",
            "'bits:4348' does not have eight hex digits",
        ),
        ("bod heads 12.5", "'12.5' is not a whole number"),
        ("bod heads -1", "'-1' is not a whole number"),
        ("bod heads 4294967296", "'4294967296' is too large"),
    ];
    for (place, (line, wrong)) in cases.iter().enumerate() {
        refused(
            &format!("reading-{place}.plant"),
            with("bod", line),
            19,
            wrong,
            expected,
        );
    }
}

#[test]
fn binary_files() {
    let wrong = "not a text file";
    refused(
        "zero.plant",
        b"load 1200\nflow\0 5000\n",
        2,
        wrong,
        "expected a plant file",
    );
    let latin = "byte e4 is not UTF-8";
    refused(
        "latin.plant",
        b"load 1\n# Kl\xe4ranlage\n",
        2,
        latin,
        "one in Latin-1",
    );
    let wide: Vec<u8> = CASE_A.encode_utf16().flat_map(u16::to_le_bytes).collect();
    refused("wide.plant", wide, 1, wrong, "in UTF-8");
    let all: Vec<u8> = (0..=255).rev().collect();
    refused("binary.plant", all, 1, wrong, "in UTF-8");
}

#[test]
fn line_ends_of_cr_alone() {
    let wrong = "a line ends in CR alone";
    let expected = "expected line ends of LF or CR LF";
    refused("cr.plant", CASE_A.replace('\n', "\r"), 1, wrong, expected);
    let one = CASE_A.replace("\ncod", "\rcod");
    refused("one-cr.plant", one, 19, wrong, expected);
    accepted("cr-at-end.plant", CASE_A.trim_end().to_string() + "\r");
}

/// Many faults, and many words, of a file of a megabyte take some megabytes.
#[test]
fn memory_for_a_long_file() {
    for (name, part, line) in [
        ("faults.plant", "x\n", 1),
        ("words.plant", "x ", 1),
        ("keys.plant", "load\n", 1),
        ("many-terms.plant", "term 1-1 1-1 4 1000\n", 52_428),
        ("many-shares.plant", "1 ", 1),
    ] {
        let start = match name {
            "many-shares.plant" => "shares ",
            _ => "",
        };
        let times = ((1 << 20) - start.len()) / part.len();
        let path = file(name, start.to_string() + &part.repeat(times));
        let ran = common::ran(
            std::process::Command::new("sh")
                .args(["-c", "ulimit -v 16000; exec \"$0\" choose \"$1\""])
                .args([env!("CARGO_BIN_EXE_pewgull"), &path])
                .output()
                .unwrap(),
        );
        assert_eq!(
            (ran.status, ran.out.as_str()),
            (2, ""),
            "{name}: {}",
            ran.err
        );
        let start = format!(".plant:{line}: ");
        assert!(ran.err.contains(&start), "{name}: {}", ran.err);
    }
}

#[test]
fn all_faults_are_told_up_to_ten() {
    let path = file("many.plant", "nonsense\n".repeat(30));
    let ran = examine(&path);
    assert_eq!(ran.status, 2);
    assert_eq!(ran.err.lines().count(), 11);
    let last = format!("pewgull: {path}:11: 21 more faults from here on; expected a plant file");
    assert!(
        ran.err.lines().last().unwrap().starts_with(&last),
        "{}",
        ran.err
    );
}

#[test]
fn files_that_cannot_be_read() {
    let folder = env!("CARGO_TARGET_TMPDIR");
    let absent = format!("{folder}/no-such.plant");
    for path in [absent.as_str(), folder] {
        let ran = examine(path);
        assert_eq!((ran.status, ran.out.as_str()), (2, ""));
        assert!(
            ran.err.starts_with(&format!("pewgull: {path}: ")),
            "{}",
            ran.err
        );
        let reason = if path == folder {
            "this is a folder"
        } else {
            "no such file"
        };
        assert!(
            ran.err
                .ends_with(&format!(": {reason}; expected a plant file\n")),
            "{}",
            ran.err
        );
    }
    let long = file("long.plant", "#".repeat((1 << 20) + 1));
    assert!(examine(&long).err.contains("longer than 1 MiB"));
}
