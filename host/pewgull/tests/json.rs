//! `--json`: a well-formed object for each file, with the listing's labels as
//! keys.

mod common;

use common::{example, file, pewgull, CASE_A, CASE_A_LISTING};

/// Reads one object of text, whole numbers and lists of objects, by the grammar
/// of JSON: its members as the lines of a listing, a list as its objects in
/// brackets.
fn object(rest: &str) -> Option<(String, &str)> {
    let mut rest = rest.strip_prefix('{')?.trim_start();
    let mut members = String::new();
    loop {
        let (key, after) = text(rest)?;
        let after = after.trim_start().strip_prefix(':')?.trim_start();
        let value = text(after).or_else(|| number(after));
        let (value, after) = value.or_else(|| list(after))?;
        members += &format!("{key} {value}\n");
        let after = after.trim_start();
        match after.strip_prefix(',') {
            Some(next) => rest = next.trim_start(),
            None => return Some((members, after.strip_prefix('}')?)),
        }
    }
}

/// One object or more.
fn list(rest: &str) -> Option<(String, &str)> {
    let mut rest = rest.strip_prefix('[')?.trim_start();
    let mut objects = String::new();
    loop {
        let (members, after) = object(rest)?;
        objects += &format!("[{members}]");
        let after = after.trim_start();
        match after.strip_prefix(',') {
            Some(next) => rest = next.trim_start(),
            None => return Some((objects, after.strip_prefix(']')?)),
        }
    }
}

fn text(rest: &str) -> Option<(String, &str)> {
    let rest = rest.strip_prefix('"')?;
    let mut value = String::new();
    let mut chars = rest.char_indices();
    while let Some((place, c)) = chars.next() {
        match c {
            '"' => return Some((value, &rest[place + 1..])),
            '\\' => match chars.next()?.1 {
                c @ ('"' | '\\') => value.push(c),
                'n' => value.push('\n'),
                _ => return None,
            },
            c if c < ' ' => return None,
            c => value.push(c),
        }
    }
    None
}

fn number(rest: &str) -> Option<(String, &str)> {
    let digits = rest.len() - rest.trim_start_matches(|c: char| c.is_ascii_digit()).len();
    let (value, rest) = rest.split_at(digits);
    let canonical = value == "0" || !value.starts_with('0');
    (digits > 0 && canonical).then(|| (value.to_string(), rest))
}

/// The members as the lines of a listing.
fn listing(line: &str) -> String {
    let whole = object(line).filter(|(_, rest)| rest.is_empty());
    let (members, _) = whole.unwrap_or_else(|| panic!("not well-formed: {line}"));
    members
}

#[test]
fn a_sheet() {
    let path = example("case-a.plant");
    let ran = pewgull(&["examine", "--json", &path, "300", "75", "20"]);
    assert_eq!((ran.status, ran.out.lines().count()), (0, 1));
    let expected = format!("file {path}\nstatus sheet\n{CASE_A_LISTING}");
    assert_eq!(listing(ran.out.trim_end()), expected);
}

#[test]
fn a_refusal() {
    let path = example("case-a.plant");
    for command in ["examine", "explain"] {
        let ran = pewgull(&[command, &path, "501", "75", "20", "--json"]);
        assert_eq!((ran.status, ran.out.lines().count()), (1, 1));
        let start = format!("file {path}\nstatus refused\nnumber 6\nword off grid\nmessage ");
        let members = listing(ran.out.trim_end());
        assert!(members.starts_with(&start), "{members}");
        let message = &members[start.len()..members.len() - 1];
        assert_eq!(ran.err, format!("pewgull: {message}\n"));
    }
}

#[test]
fn figures_and_limits() {
    let path = example("case-a.plant");
    let ran = pewgull(&["--json", "explain", &path, "299", "75", "20"]);
    let expected = format!(
        "file {path}\nstatus figures\n\
        nitrate-to-remove 26000\nnitrate-to-remove-at-most 25800\n\
        nitrate-removed-by-bod 25800\nnitrate-removed-by-dose 0\n\
        nitrate-removable 25800\nnitrate-removable-at-least 26000\n\
        solids 3779\nsolids-at-least 1000\nsludge-volume 378\nsludge-volume-at-most 600\n\
        surface 454\nsurface-at-most 1000\ndepth 4536\ndepth-at-most 5000\n\
        verdict 7\nword nitrate\n"
    );
    assert_eq!((ran.status, listing(ran.out.trim_end())), (0, expected));
    let kept = pewgull(&["--json", "explain", &path, "300", "75", "20"]);
    assert!(listing(kept.out.trim_end()).ends_with("\nverdict 0\nword sheet\n"));
}

/// The key of what the tank's own carbon removes stays in the COD way.
#[test]
fn figures_of_the_cod_way() {
    let text = CASE_A.replace("pre-anoxic", "simultaneous") + "way cod\nterm 1-1 2-1 12 10000\n";
    let path = file("json-cod.plant", text);
    let ran = pewgull(&["explain", "--json", &path, "300", "75", "20"]);
    let members = listing(ran.out.trim_end());
    for member in [
        "\nnitrate-removed-by-bod 16764\n",
        "\nterm-1-removed-by-bod 16764\n",
    ] {
        assert!(members.contains(member), "{members}");
    }
    assert!(!members.contains("-by-cod"), "{members}");
}

/// Refusal 4 says what to do, and the way that it names gets a sheet.
#[test]
fn the_cod_ratio() {
    let text = CASE_A.replace("cod measured 400", "cod measured 900");
    let path = file("json-ratio.plant", &text);
    let ran = pewgull(&["choose", "--json", &path]);
    let members = listing(ran.out.trim_end());
    let start = format!("file {path}\nstatus refused\nnumber 4\nword COD ratio\nmessage ");
    assert_eq!(ran.status, 1);
    assert!(members.starts_with(&start), "{members}");
    assert!(members.contains("take 'way cod':"), "{members}");
    let path = file("json-ratio-cod.plant", text + "way cod\n");
    let ran = pewgull(&["choose", "--json", &path]);
    assert!(ran.out.contains("\"status\": \"sheet\""), "{}", ran.out);
}

#[test]
fn a_census() {
    let path = example("case-a.plant");
    let ran = pewgull(&["census", "--json", &path]);
    let expected = format!(
        "file {path}\nstatus census\npermitted 55476\nnitrate 27600\n\
        nitrification 0\nterm-nitrate 0\nsolids 0\nsurface 0\ndepth 0\ncandidates 83076\n"
    );
    assert_eq!((ran.status, listing(ran.out.trim_end())), (0, expected));
    let refused = file("json-census.plant", "load 0\n".to_string() + &CASE_A[10..]);
    let ran = pewgull(&["census", "--json", &refused]);
    assert_eq!(ran.status, 1);
    let start = format!("file {refused}\nstatus refused\nnumber 1\nword plant data\nmessage ");
    assert!(
        listing(ran.out.trim_end()).starts_with(&start),
        "{}",
        ran.out
    );
}

/// The lines of each term come after the design's, and the verdict last.
#[test]
fn figures_of_terms() {
    let path = file(
        "json-terms.plant",
        format!("{CASE_A}term 11-01 03-31 8 30000\nterm 04-01 10-31 11 12999\n"),
    );
    let ran = pewgull(&["explain", "--json", &path, "300", "75", "20"]);
    let expected = "depth 4536\ndepth-at-most 5000\n\
        term-1-aerobic-share 1037\nterm-1-aerobic-share-at-most 1000\n\
        term-1-fraction 0\nterm-1-fraction-at-most 300\n\
        term-1-to-remove 6000\nterm-1-to-remove-at-most 0\nterm-1-removed-by-bod 0\n\
        term-1-removable 0\nterm-1-removable-at-least 6000\n\
        term-2-aerobic-share 773\nterm-2-aerobic-share-at-most 1000\n\
        term-2-fraction 227\nterm-2-fraction-at-most 300\n\
        term-2-to-remove 23001\nterm-2-to-remove-at-most 23000\nterm-2-removed-by-bod 23000\n\
        term-2-removable 23000\nterm-2-removable-at-least 23001\n\
        verdict 15\nword nitrification\n";
    let members = listing(ran.out.trim_end());
    assert_eq!(ran.status, 0);
    assert!(members.ends_with(expected), "{members}");
}

#[test]
fn a_target() {
    let path = file("json-target.plant", "term 11-01 03-31 8 20000\n");
    let ran = pewgull(&["target", "--json", &path, "02-29"]);
    let expected = format!("file {path}\nstatus target\ntarget 20000\n");
    assert_eq!((ran.status, listing(ran.out.trim_end())), (0, expected));
    let ran = pewgull(&["target", "--json", &path, "04-01"]);
    let message = format!("{path}: no term runs on 04-01\n");
    let expected = format!("file {path}\nstatus target\ntarget 0\nmessage {message}");
    assert_eq!((ran.status, listing(ran.out.trim_end())), (0, expected));
    assert_eq!(ran.err, format!("pewgull: {message}"));
    let ran = pewgull(&["target", "--json", &path, "02-30"]);
    assert_eq!(ran.status, 1);
    let start = format!("file {path}\nstatus refused\nnumber 14\nword terms\nmessage ");
    let members = listing(ran.out.trim_end());
    assert!(members.starts_with(&start), "{members}");
}

/// The sums, and a list of the lines with their sheets: the text's lines.
#[test]
fn a_works() {
    let path = example("works-three-lines.plant");
    let ran = pewgull(&["works", "--json", &path]);
    assert_eq!((ran.status, ran.out.lines().count()), (0, 1));
    let printed = pewgull(&["works", &path]).out;
    let parts: Vec<&str> = printed.split("# line ").collect();
    let lines = parts[1..].iter().map(|line| format!("[line {line}]"));
    let expected = format!(
        "file {path}\nstatus works\n{}lines {}\n",
        parts[0],
        lines.collect::<String>()
    );
    assert_eq!(listing(ran.out.trim_end()), expected);
}

/// A refused works names its line where it is a line that is refused.
#[test]
fn a_refused_works() {
    let narrow = CASE_A.replace("site-surface 1000", "site-surface 400");
    let large = CASE_A.replace("load 1200", "load 100001");
    for (text, shares, start) in [
        (&narrow, "500 500", "status works\n"),
        (&narrow, "4 996", "number 5\nword no design\nline 1\n"),
        (&narrow, "990 7 3", "number 5\nword no design\nline 2\n"),
        (&narrow, "1 3 996", "number 1\nword plant data\nline 1\n"),
        (&narrow, "1000", "number 18\nword lines\nmessage "),
        (&large, "1 999", "number 1\nword plant data\nmessage "),
    ] {
        let path = file("json-works.plant", format!("{text}shares {shares}\n"));
        let ran = pewgull(&["works", "--json", &path]);
        let members = listing(ran.out.trim_end());
        let rest = members.strip_prefix(&format!("file {path}\n")).unwrap();
        let rest = rest.strip_prefix("status refused\n").unwrap_or(rest);
        assert!(rest.starts_with(start), "{shares}: {members}");
        if ran.status == 1 {
            let (_, message) = members.split_once("message ").unwrap();
            assert_eq!(ran.err, format!("pewgull: {message}"));
        }
    }
}

/// `held` and `lost` are statuses of their own, the index a number.
#[test]
fn existing_tanks() {
    let path = example("existing-works.plant");
    let built = |least: &str, most: &str| {
        let tanks = ["4450", "300", "5000", "400", "24", least, most];
        pewgull(&[&["built", "--json", &path], &tanks[..]].concat())
    };
    let ran = built("90", "140");
    assert_eq!((ran.status, ran.err.as_str()), (0, ""));
    let expected = format!("file {path}\nstatus held\n");
    assert_eq!(listing(ran.out.trim_end()), expected);
    let ran = built("90", "160");
    assert_eq!((ran.status, ran.out.lines().count()), (0, 1));
    let start = format!("file {path}\nstatus lost\nsludge-volume-index 145\nmessage ");
    let members = listing(ran.out.trim_end());
    let message = members.strip_prefix(&start).unwrap();
    assert_eq!(ran.err, format!("pewgull: {message}"));
    let ran = built("90", "181");
    assert_eq!(ran.status, 1);
    let start = format!("file {path}\nstatus refused\nnumber 20\nword span\nmessage ");
    let members = listing(ran.out.trim_end());
    let message = members.strip_prefix(&start).unwrap();
    assert_eq!(ran.err, format!("pewgull: {message}"));
}

/// The sheet's figures, which the text has not, and the price.
#[test]
fn a_price() {
    let (path, tariff) = (example("case-a.plant"), example("concrete.tariff"));
    let ran = pewgull(&["price", "--json", &path, &tariff, "300", "75", "20"]);
    assert_eq!((ran.status, ran.out.lines().count()), (0, 1));
    let expected = format!("file {path}\nstatus price\n{CASE_A_LISTING}price 190749600\n");
    assert_eq!(listing(ran.out.trim_end()), expected);
    let ran = pewgull(&["price", "--json", &path, &tariff]);
    let chosen = pewgull(&["choose", &path]).out;
    let price = pewgull(&["price", &path, &tariff]).out;
    let expected = format!("file {path}\nstatus price\n{chosen}{price}");
    assert_eq!(listing(ran.out.trim_end()), expected);
}

/// A refused price has no figures, and an error in the tariff is one of the
/// command.
#[test]
fn a_refused_price() {
    let path = example("case-a.plant");
    let wrong = file("json-wrong.tariff", "band 7 5\nband 6 5\nband rest 6\n");
    let bad = file("json-bad.tariff", "band rest\n");
    for (tariff, status, start) in [
        (
            &wrong,
            1,
            "status refused\nnumber 22\nword tariff\nmessage ",
        ),
        (&bad, 2, "status error\nmessage "),
    ] {
        let ran = pewgull(&["price", "--json", &path, tariff]);
        assert_eq!((ran.status, ran.out.lines().count()), (status, 1));
        let members = listing(ran.out.trim_end());
        let rest = members.strip_prefix(&format!("file {path}\n{start}"));
        let message = rest.unwrap_or_else(|| panic!("{members}"));
        assert_eq!(ran.err, format!("pewgull: {message}"));
        assert!(message.contains(tariff.as_str()), "{message}");
    }
}

/// One object for each file, whatever comes of it.
#[test]
fn each_file_has_its_object() {
    let odd = file("odd \"name\" \\ \u{e4}.plant", CASE_A);
    let none = example("weak-sewage-no-design.plant");
    let bad = file("json-bad.plant", "load x\n");
    let absent = "no-such.plant".to_string();
    let files = [&odd, &none, &bad, &absent];
    let words: Vec<&str> = ["choose", "--json"]
        .into_iter()
        .chain(files.iter().map(|file| file.as_str()))
        .collect();
    let ran = pewgull(&words);
    assert_eq!(ran.status, 2);
    let lines: Vec<_> = ran.out.lines().map(listing).collect();
    let starts = [
        "status sheet\nfraction 300\nreturn 71\n",
        "status refused\nnumber 5\nword no design\nmessage ",
        "status error\nmessage ",
        "status error\nmessage no-such.plant: no such file",
    ];
    assert_eq!(lines.len(), starts.len());
    for ((line, start), file) in lines.iter().zip(starts).zip(files) {
        assert!(line.starts_with(&format!("file {file}\n{start}")), "{line}");
    }
    assert!(lines[2].contains(":1: 'x' is not a whole number"));
}
