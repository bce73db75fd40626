//! A sweep that can be put down: it prints what `choose` prints, and goes on
//! from its state.

mod common;

use common::{example, pewgull, ran, repository, with, Ran, CASE_A, CASE_A_LISTING};
use library::number::{SHEET, UNFINISHED};
use library::{sweep_advance, sweep_start, Progress, CHOOSE_LENGTH, PAGE_LENGTH, STATE_LENGTH};
use pewgull::plant_file;
use pewgull::progress;
use std::fs;
use std::path::Path;
use std::process::{Child, Command, Output, Stdio};
use std::sync::atomic::{AtomicUsize, Ordering};

type State = [u8; STATE_LENGTH];

/// A name of its own in the tests' folder, where there is no such file: the
/// tests run side by side.
fn fresh(end: &str) -> String {
    static FILES: AtomicUsize = AtomicUsize::new(0);
    let number = FILES.fetch_add(1, Ordering::Relaxed);
    let path = Path::new(env!("CARGO_TARGET_TMPDIR")).join(format!("sweep-{number}{end}"));
    let _ = fs::remove_file(&path);
    path.to_str().unwrap().to_string()
}

/// A plant file with these lines.
fn plant(lines: &str) -> String {
    let path = fresh(".plant");
    fs::write(&path, lines).unwrap();
    path
}

/// A file that holds these bytes as a state.
fn kept(bytes: &[u8]) -> String {
    let path = fresh(".state");
    fs::write(&path, bytes).unwrap();
    path
}

/// The state of a sweep of a plant file after some advances.
fn after(lines: &str, advances: &[u32]) -> State {
    let plant = plant_file::parse(lines.as_bytes()).ok().unwrap();
    let mut state = [0; STATE_LENGTH];
    assert_eq!(sweep_start(&plant.request.to_choose(), &mut state).0, SHEET);
    for by in advances {
        let answer = sweep_advance(&mut state, *by, &mut [0; PAGE_LENGTH]);
        assert_eq!(answer, (UNFINISHED, 0));
    }
    state
}

/// A state of Case A with these words after the data.
fn case_a(words: [u32; 4]) -> State {
    let mut state = after(CASE_A, &[]);
    let places = state[CHOOSE_LENGTH..].chunks_exact_mut(4);
    for (place, word) in places.zip(words) {
        place.copy_from_slice(&word.to_le_bytes());
    }
    state
}

fn asked(path: &str) -> u32 {
    let state = fs::read(path).unwrap().try_into().unwrap();
    Progress::from_state(&state).asked
}

/// Both print, say and end alike.
fn alike(sweep: &Ran, choose: &Ran) {
    assert_eq!(sweep.out, choose.out);
    assert_eq!((sweep.status, &sweep.err), (choose.status, &choose.err));
}

/// Every example, by several numbers, as text and as JSON.
#[test]
fn a_sweep_prints_what_choose_prints() {
    let mut plants = 0;
    for entry in fs::read_dir(repository().join("examples")).unwrap() {
        let path = entry.unwrap().path();
        if path
            .extension()
            .is_none_or(|extension| extension != "plant")
        {
            continue;
        }
        plants += 1;
        let path = path.to_str().unwrap();
        let (text, json) = (
            pewgull(&["choose", path]),
            pewgull(&["choose", "--json", path]),
        );
        alike(&pewgull(&["sweep", path]), &text);
        alike(&pewgull(&["sweep", "--json", path]), &json);
        for by in ["1000", "997", "276", "77"] {
            alike(&pewgull(&["sweep", path, "--by", by]), &text);
            alike(&pewgull(&["--by", by, "sweep", path, "--json"]), &json);
        }
    }
    assert!(plants > 10);
    let path = example("case-a.plant");
    let by_one = pewgull(&["sweep", "--by", "1", &path]);
    alike(&by_one, &pewgull(&["choose", &path]));
}

/// Refused data get what `choose` says, and no state is kept.
#[test]
fn refused_data_give_no_sweep() {
    for (key, line) in [
        ("load", "load 0"),
        ("sludge-volume-index", "sludge-volume-index 181"),
        ("bod", "bod measured nan"),
        ("solids", "solids below 4001"),
        ("cod", "cod measured 440.1"),
        ("load", "load 1200\nterm 02-30 03-31 3 20000"),
    ] {
        let path = plant(&with(key, line));
        let state = fresh(".state");
        // before what is wrong with the advance
        for by in ["1000", "1001"] {
            let words = ["sweep", &path, "--by", by, "--state", &state];
            alike(&pewgull(&words), &pewgull(&["choose", &path]));
        }
        assert!(!Path::new(&state).exists());
    }
}

#[test]
fn too_many_candidates_an_advance() {
    let (path, state) = (example("case-a.plant"), fresh(".state"));
    for by in ["1001", "4294967295"] {
        let ran = pewgull(&["sweep", &path, "--by", by, "--state", &state]);
        assert_eq!((ran.status, ran.out.as_str()), (1, "refused 19\n"));
        let said = format!(
            "pewgull: {path}: refused 19 (advance): \
             an advance takes at most 1000 candidates, and --by is {by}.\
             \n  Give --by 1..1000, or leave it out for 1000\n"
        );
        assert_eq!(ran.err, said);
        assert!(!Path::new(&state).exists());
        let ran = pewgull(&["sweep", "--json", &path, "--by", by]);
        let start = "\"status\": \"refused\", \"number\": 19, \"word\": \"advance\", \"message\"";
        assert_eq!(ran.status, 1);
        assert!(ran.out.contains(start), "{}", ran.out);
    }
}

/// A sweep goes on from its state, stores it, and answers again when finished.
#[test]
fn a_sweep_goes_on_from_its_state() {
    let path = plant(CASE_A);
    let choose = pewgull(&["choose", &path]);
    for (advances, by) in [
        (&[][..], "1000"),
        (&[0], "7"),
        (&[1_000, 1, 999], "997"),
        (&[1_000; 28], "276"),
        (&[1_000; 83], "75"),
    ] {
        let state = kept(&after(CASE_A, advances));
        for _ in 0..2 {
            let words = ["sweep", &path, "--by", by, "--state", &state];
            alike(&pewgull(&words), &choose);
            assert_eq!(asked(&state), 83_076);
        }
    }
    let (new, words) = (fresh(".state"), ["sweep", "--state"]);
    alike(&pewgull(&[&words[..], &[&new, &path]].concat()), &choose);
    assert_eq!(asked(&new), 83_076);
    no_rest(&new);
}

/// Nothing is left beside the state.
fn no_rest(state: &str) {
    let state = Path::new(state);
    let start = state.file_name().unwrap().to_str().unwrap();
    for entry in fs::read_dir(state.parent().unwrap()).unwrap() {
        let name = entry.unwrap().file_name().into_string().unwrap();
        assert!(name == start || !name.starts_with(start), "{name}");
    }
}

/// What is handed on counts: a best that the sweep would not have found.
#[test]
fn a_state_is_not_started_anew() {
    let path = plant(CASE_A);
    for asked in [83_000, 83_076] {
        let state = kept(&case_a([asked, 300, 75, 20]));
        let ran = pewgull(&["sweep", &path, "--state", &state]);
        assert_eq!((ran.status, ran.err.as_str()), (0, ""));
        assert_eq!(ran.out, CASE_A_LISTING);
    }
}

#[test]
fn a_plant_from_standard_input_has_a_state_too() {
    let (path, state) = (plant(CASE_A), kept(&after(CASE_A, &[1_000])));
    let mut tool = Command::new(env!("CARGO_BIN_EXE_pewgull"));
    tool.args(["sweep", "-", "--state", &state]);
    let input = fs::File::open(&path).unwrap();
    let ran = ran(tool.stdin(input).output().unwrap());
    alike(&ran, &pewgull(&["choose", &path]));
    assert_eq!(asked(&state), 83_076);
}

/// A state through a link stays where it is.
#[test]
fn a_linked_state_is_written_through() {
    let (path, state, link) = (plant(CASE_A), kept(&after(CASE_A, &[])), fresh(".link"));
    std::os::unix::fs::symlink(&state, &link).unwrap();
    assert_eq!(pewgull(&["sweep", &path, "--state", &link]).status, 0);
    assert!(fs::symlink_metadata(&link).unwrap().is_symlink());
    assert_eq!(asked(&state), 83_076);
    // `rt ci` refuses a checkout in which a link lies
    fs::remove_file(&link).unwrap();
}

/// The tool ends with this status and prints and says this; the file stays.
fn leaves(bytes: &[u8], lines: &str, printed: &str, told: &[&str]) {
    let (path, state) = (plant(lines), kept(bytes));
    let ran = pewgull(&["sweep", &path, "--state", &state]);
    let status = if printed.is_empty() { 2 } else { 1 };
    assert_eq!((ran.status, ran.out.as_str()), (status, printed));
    let said = ran.err.replace("\n  ", " ");
    let start = format!("pewgull: {path}: ");
    assert!(said.starts_with(&start), "{said}");
    assert!(ran.err.lines().skip(1).all(|line| line.len() <= 80));
    for part in told {
        let part = part.replace("STATE", &state);
        assert!(said.contains(&part), "no '{part}' in {said}");
    }
    assert_eq!(fs::read(&state).unwrap(), bytes);
}

#[test]
fn the_state_of_another_plant() {
    let state = after(CASE_A, &[1_000]);
    let told = [
        "the state in STATE belongs to other plant data.",
        "of another plant, or the plant file was changed since.",
        "Give the plant file that it belongs to, or name another file with --state;",
        "Nothing was overwritten",
    ];
    for (key, line) in [
        ("load", "load 1201"),
        ("tank", "tank vertical"),
        ("phosphorus", "phosphorus measured 8.1"),
        ("load", "load 1200\nway cod"),
    ] {
        leaves(&state, &with(key, line), "", &told);
    }
}

#[test]
fn files_that_are_no_state() {
    let state = after(CASE_A, &[1_000]);
    let longer = [&state[..], &[0]].concat();
    for (bytes, length) in [
        (&[][..], "0"),
        (&state[..239], "239"),
        (&longer, "241"),
        (CASE_A.as_bytes(), &CASE_A.len().to_string()),
    ] {
        let what = format!("STATE is no state of a sweep: it has {length} bytes, a state has 240.");
        let told = [
            &what,
            "Name another file with --state; one that is not there",
        ];
        leaves(bytes, CASE_A, "", &told);
    }
    let mut earlier = state;
    earlier[0] = 3;
    let told = "STATE is no state of a sweep: it is not of version 4.";
    leaves(&earlier, CASE_A, "", &[told]);
    let as_json = kept(&earlier);
    let path = plant(CASE_A);
    let ran = pewgull(&["sweep", "--json", &path, "--state", &as_json]);
    assert_eq!(ran.status, 2);
    assert!(ran.out.contains("\"status\": \"error\""), "{}", ran.out);
}

#[test]
fn damaged_states_are_refused_with_19() {
    let anew = "The file is damaged, or was changed by hand. Remove it, or name another one";
    for (words, told) in [
        (
            [83_077, 0, 0, 0],
            "the state in STATE has 83,077 candidates asked for, and the grid holds 83,076.",
        ),
        (
            [u32::MAX, 1, 2, 3],
            "has 4,294,967,295 candidates asked for, and the grid holds 83,076.",
        ),
        (
            [1_000, 299, 75, 20],
            "has a best so far that is not permitted: 299 75 20 gets 7 (nitrate).",
        ),
        ([1_000, 0, 75, 20], "0 75 20 gets 6 (off grid)."),
    ] {
        leaves(
            &case_a(words),
            CASE_A,
            "refused 19\n",
            &["(advance)", told, anew],
        );
    }
}

/// 5 is the library's answer to a state that passed over every design; it is
/// not said that there is none.
#[test]
fn a_state_that_passed_over_the_designs() {
    let state = case_a([83_076, 0, 0, 0]);
    let told = [
        "refused 5 (no design): the state in STATE has passed over every permitted candidate, \
         and the grid holds 55,476.",
        "to start the sweep anew",
    ];
    leaves(&state, CASE_A, "refused 5\n", &told);
    let none = with("nitrogen", "nitrogen measured 100");
    let path = plant(&none);
    let state = kept(&after(&none, &[1_000]));
    let ran = pewgull(&["sweep", &path, "--state", &state]);
    alike(&ran, &pewgull(&["choose", &path]));
}

#[test]
fn a_state_that_cannot_be_read_or_stored() {
    let (path, folder) = (plant(CASE_A), env!("CARGO_TARGET_TMPDIR"));
    let absent = format!("{folder}/no-such-folder/a.state");
    for (state, told) in [
        (folder, "cannot be read: this is a folder\n"),
        (&absent, "cannot be stored in "),
    ] {
        let ran = pewgull(&["sweep", &path, "--state", state]);
        assert_eq!((ran.status, ran.out.as_str()), (2, ""));
        assert!(ran.err.contains(told), "{}", ran.err);
        assert!(ran.err.contains(state), "{}", ran.err);
    }
}

/// Whether a process catches the signal, as its `SigCgt` says.
fn catches(process: u32, signal: u32) -> bool {
    let status = fs::read_to_string(format!("/proc/{process}/status")).unwrap_or_default();
    let mask = status.lines().find_map(|line| line.strip_prefix("SigCgt:"));
    let mask = u64::from_str_radix(mask.unwrap_or("0").trim(), 16).unwrap();
    mask >> (signal - 1) & 1 == 1
}

/// Sends a signal to the tool as soon as it is ready for it.
fn signalled(mut tool: Child, signal: u32) -> Output {
    while tool.try_wait().unwrap().is_none() && !catches(tool.id(), signal) {}
    let mut kill = Command::new("kill");
    kill.args([format!("-{signal}"), tool.id().to_string()]);
    let _ = kill.stderr(Stdio::null()).status().unwrap();
    tool.wait_with_output().unwrap()
}

/// Interrupts a sweep by 1 with these words more. One that has ended before the
/// signal came is tried again.
fn interrupted(words: &[&str], signal: u32, again: impl Fn()) -> Ran {
    for _ in 0..100 {
        again();
        let mut tool = Command::new(env!("CARGO_BIN_EXE_pewgull"));
        tool.args(["sweep", "--by", "1"]).args(words);
        tool.stdout(Stdio::piped()).stderr(Stdio::piped());
        let ran = ran(signalled(tool.spawn().unwrap(), signal));
        if ran.status == 130 {
            return ran;
        }
        assert_eq!(ran.status, 0, "{}", ran.err);
    }
    panic!("no sweep was interrupted");
}

const SIGINT: u32 = 2;
const SIGTERM: u32 = 15;

/// Interrupted, it says how far it came and the command that goes on; that one
/// ends as if nothing had been.
#[test]
fn an_interrupted_sweep_is_kept() {
    let path = plant(&with("tank", "tank vertical"));
    for signal in [SIGINT, SIGTERM] {
        let state = fresh(".state");
        let words = [&path, "--state", &state];
        let remove = || {
            let _ = fs::remove_file(&state);
        };
        let ran = interrupted(&words, signal, remove);
        let came = asked(&state);
        assert!((1..128_226).contains(&came));
        let came = match came {
            0..1_000 => came.to_string(),
            _ => format!("{},{:03}", came / 1_000, came % 1_000),
        };
        let command = format!("pewgull sweep --by 1 --state {state} {path}");
        let said = format!(
            "pewgull: {path}: interrupted after {came} of 128,226 candidates; \
             the state is in {state}, and this goes on from it: {command}\n"
        );
        assert_eq!((ran.out.as_str(), ran.err), ("", said));
        no_rest(&state);
        let words: Vec<&str> = command.split(' ').skip(1).collect();
        alike(&pewgull(&words), &pewgull(&["choose", &path]));
    }
}

#[test]
fn an_interrupted_sweep_without_a_state() {
    let path = plant(&with("tank", "tank vertical"));
    let ran = interrupted(&[&path], SIGTERM, || ());
    let start = format!("pewgull: {path}: interrupted after ");
    let end = " of 128,226 candidates; nothing was kept: --state FILE would keep it\n";
    assert_eq!(ran.out, "");
    assert!(ran.err.starts_with(&start), "{}", ran.err);
    assert!(ran.err.ends_with(end), "{}", ran.err);
    let ran = interrupted(&[&path, "--json"], SIGINT, || ());
    let told = ran.err.strip_prefix("pewgull: ").unwrap().trim_end();
    let rest = format!("\"candidates\": 128226, \"message\": \"{told}\"}}\n");
    let start = format!("{{\"file\": \"{path}\", \"status\": \"interrupted\", \"asked\": ");
    assert!(ran.out.starts_with(&start), "{}", ran.out);
    assert!(ran.out.ends_with(&rest), "{}", ran.out);
}

/// The names in the command are as a shell takes them.
#[test]
fn the_command_that_goes_on_is_quoted() {
    let path = plant(&with("tank", "tank vertical"));
    let state = fresh(" it's.state");
    let remove = || {
        let _ = fs::remove_file(&state);
    };
    let ran = interrupted(&["--json", "--state", &state, &path], SIGTERM, remove);
    let quoted = state.replace('\'', "'\\''");
    let end = format!(": pewgull sweep --json --by 1 --state '{quoted}' {path}\n");
    assert!(ran.err.ends_with(&end), "{}", ran.err);
}

#[test]
fn how_far_a_sweep_is() {
    for (words, text) in [
        ([0, 0, 0, 0], "0 of 83,076 candidates, none permitted yet"),
        (
            [28_000, 300, 71, 22],
            "28,000 of 83,076 candidates, best so far 300 71 22: total 5,164 m3",
        ),
        (
            [83_076, 300, 75, 20],
            "83,076 of 83,076 candidates, best so far 300 75 20: total 5,165 m3",
        ),
    ] {
        assert_eq!(progress::text(&case_a(words), 83_076), text);
    }
}

/// On a terminal the line is written over in its place, and is gone at the end.
#[test]
fn a_terminal_shows_how_far_a_sweep_is() {
    let (tool, path) = (env!("CARGO_BIN_EXE_pewgull"), example("case-a.plant"));
    let line = format!("'{tool}' sweep '{path}'");
    let words = ["-qec", &line, "/dev/null"];
    let mut script = Command::new("script");
    let Ok(output) = script.args(words).stdin(Stdio::null()).output() else {
        return;
    };
    let shown = ran(output);
    let choose = pewgull(&["choose", &path]).out.replace('\n', "\r\n");
    let (progress, listing) = shown.out.split_at(shown.out.len() - choose.len());
    assert_eq!((shown.status, listing), (0, choose.as_str()));
    let lines: Vec<&str> = progress.split('\r').collect();
    let best = "28,000 of 83,076 candidates, best so far 300 71 22: total 5,164 m3";
    assert_eq!(lines[1], "1,000 of 83,076 candidates, none permitted yet");
    assert_eq!(lines[28], best);
    let [.., last, blank, ""] = lines.as_slice() else {
        panic!("{progress}");
    };
    assert!(last.starts_with("83,000 of 83,076 candidates, "), "{last}");
    assert_eq!(blank.trim(), "");
    assert!(blank.len() >= last.len() && lines.iter().all(|line| line.len() < 80));
}
