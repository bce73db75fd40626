//! `cases DIR` writes DIR/stdin and DIR/stdout; `cases --check DIR` compares
//! the stored files with what would be written.

use cases::collection::Case;
use cases::model::Outcome;
use cases::{files, groups, wanted};
use std::path::Path;
use std::process::ExitCode;

const USAGE: &str = "usage: cases DIR            write DIR/stdin and DIR/stdout
       cases --check DIR    compare them with what would be written";

fn read(directory: &Path, name: &str) -> Result<Vec<u8>, String> {
    let path = directory.join(name);
    std::fs::read(&path).map_err(|error| format!("{}: {error}", path.display()))
}

fn store(directory: &Path, name: &str, bytes: &[u8]) -> Result<(), String> {
    let path = directory.join(name);
    std::fs::write(&path, bytes).map_err(|error| format!("{}: {error}", path.display()))
}

fn write(directory: &Path, cases: &[Case], outcomes: &[Outcome]) -> Result<(), String> {
    let requests: Vec<u8> = cases.iter().flat_map(files::record).collect();
    let answers: Vec<u8> = outcomes.iter().flat_map(files::answer).collect();
    let size = requests.len();
    if size > files::MOST_BYTES {
        return Err(format!("stdin would take {size} bytes"));
    }
    std::fs::create_dir_all(directory).map_err(|error| error.to_string())?;
    store(directory, "stdin", &requests)?;
    store(directory, "stdout", &answers)?;
    eprintln!(
        "{} cases, stdin {size} bytes, stdout {} bytes",
        cases.len(),
        answers.len()
    );
    Ok(())
}

fn check(directory: &Path, cases: &[Case], outcomes: &[Outcome]) -> Result<(), String> {
    let requests = read(directory, "stdin")?;
    let answers = read(directory, "stdout")?;
    match files::first_difference(cases, outcomes, &requests, &answers) {
        Some(difference) => Err(format!("first difference: {difference}")),
        None => {
            eprintln!("{} cases, the stored files are the same", cases.len());
            Ok(())
        }
    }
}

fn run(directory: &Path, check_only: bool) -> Result<(), String> {
    let cases = groups::all().cases;
    let outcomes: Vec<Outcome> = cases.iter().map(Case::outcome).collect();
    let summary = wanted::summary(&cases, &outcomes);
    summary.print();
    let faults = summary.faults();
    if !faults.is_empty() {
        return Err(faults.join("\n"));
    }
    if check_only {
        check(directory, &cases, &outcomes)
    } else {
        write(directory, &cases, &outcomes)
    }
}

fn main() -> ExitCode {
    let arguments: Vec<String> = std::env::args().skip(1).collect();
    let words: Vec<&str> = arguments.iter().map(String::as_str).collect();
    let result = match words[..] {
        ["--check", directory] => run(Path::new(directory), true),
        [directory] if !directory.starts_with('-') => run(Path::new(directory), false),
        _ => Err(USAGE.to_string()),
    };
    match result {
        Ok(()) => ExitCode::SUCCESS,
        Err(message) => {
            eprintln!("{message}");
            ExitCode::FAILURE
        }
    }
}
