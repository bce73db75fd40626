//! The length of a listing: what `length` prints is how many bytes `choose` and
//! `examine` print.

mod common;

use common::{example, file, pewgull, with};

/// The words of `length`, and those of the command whose listing it measures.
fn is_measured(path: &str, candidate: &[&str]) -> i32 {
    let command = if candidate.is_empty() {
        "choose"
    } else {
        "examine"
    };
    let printed = pewgull(&[&[command, path], candidate].concat());
    let ran = pewgull(&[&["length", path], candidate].concat());
    assert_eq!(ran.out, format!("length {}\n", printed.out.len()));
    assert_eq!(ran.status, 0);
    let told = match printed.status {
        0 => String::new(),
        _ => printed
            .err
            .replacen(": refused", ": the listing is no sheet: refused", 1),
    };
    assert_eq!(ran.err, told);
    printed.status
}

#[test]
fn as_many_bytes_as_are_printed() {
    for name in [
        "case-a.plant",
        "village-simultaneous.plant",
        "town-pre-anoxic.plant",
        "works-three-lines.plant",
        "industrial-cod.plant",
    ] {
        let path = example(name);
        assert_eq!(is_measured(&path, &[]), 0, "{name}");
        assert_eq!(is_measured(&path, &["350", "75", "199"]), 1, "{name}");
    }
    let path = example("case-a.plant");
    assert_eq!(is_measured(&path, &["300", "75", "20"]), 0);
    assert_eq!(
        pewgull(&["length", &path, "300", "75", "20"]).out,
        "length 194\n"
    );
}

/// A refusal below 10 takes ten bytes, one from 10 on eleven; the status is 0.
#[test]
fn refusals_have_a_length() {
    for (key, line, candidate, length) in [
        ("load", "load 0", "300 75 20", 10),
        ("nitrogen", "nitrogen measured 46.001", "300 75 20", 10),
        ("site-surface", "site-surface 453", "300 75 20", 10),
        ("site-depth", "site-depth 4535", "300 75 20", 11),
        (
            "sludge-volume-index",
            "sludge-volume-index 181",
            "300 75 20",
            11,
        ),
        ("load", "load 0", "", 10),
        ("site-surface", "site-surface 1", "", 10),
        ("sludge-volume-index", "sludge-volume-index 200", "", 11),
    ] {
        let path = file(&format!("length-{length}-{key}.plant"), with(key, line));
        let candidate: Vec<&str> = candidate.split_whitespace().collect();
        assert_eq!(is_measured(&path, &candidate), 1, "{line}");
        let ran = pewgull(&[&["length", &path[..]], &candidate[..]].concat());
        assert_eq!(ran.out, format!("length {length}\n"), "{line}");
    }
}

#[test]
fn json_has_the_number_too() {
    let path = example("case-a.plant");
    let ran = pewgull(&["length", "--json", &path, "300", "75", "20"]);
    let members = "\"status\": \"length\", \"length\": 194, \"number\": 0, \"word\": \"sheet\"";
    assert_eq!(ran.out, format!("{{\"file\": \"{path}\", {members}}}\n"));
    let path = example("weak-sewage-no-design.plant");
    let ran = pewgull(&["length", "--json", &path]);
    let members =
        "\"status\": \"length\", \"length\": 10, \"number\": 5, \"word\": \"no design\", \"message\": \"";
    let start = format!("{{\"file\": \"{path}\", {members}");
    assert!(ran.out.starts_with(&start), "{}", ran.out);
    assert_eq!(ran.status, 0);
}

#[test]
fn a_file_that_is_not_there() {
    let ran = pewgull(&["length", "no-such-file"]);
    assert_eq!((ran.status, ran.out.as_str()), (2, ""));
    assert!(ran.err.contains("expected a plant file"), "{}", ran.err);
}
