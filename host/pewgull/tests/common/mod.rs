//! Runs the tool on files of the test's own, or on the examples.

#![allow(dead_code)]

use std::fs;
use std::path::{Path, PathBuf};
use std::process::{Command, Output};

pub const CASE_A_LISTING: &str = "fraction 300\nreturn 75\nthickening 20\nage 11733\n\
    sludge 1000000\nmass 11733\nsolids 3779\nreactor 3105\nsurface 454\ndepth 4536\n\
    settling 2060\ntotal 5165\nrecirculation 2600\noxygen 99292\ntransfer 127662\n";

pub const CASE_A: &str = "\
load 1200
flow 5000
wet-weather-flow 600
design-temperature 12
aeration-temperature 20
sludge-volume-index 100
nitrate-target 10000
phosphorus-target 1000
carbon-peak 120
nitrogen-peak 200
oxygen-saturation 9000
site-surface 1000
site-depth 5000
process pre-anoxic
precipitant iron
tank horizontal
removal scraper
primary-settling none
bod measured 200
cod measured 400
solids measured 150
nitrogen measured 46
phosphorus measured 8
";

/// Case A with the line of a key replaced by these lines.
pub fn with(key: &str, lines: &str) -> String {
    replaced(CASE_A, key, lines)
}

/// A plant file with the line of a key replaced by these lines.
pub fn replaced(text: &str, key: &str, lines: &str) -> String {
    let start = format!("{key} ");
    assert!(text.lines().any(|line| line.starts_with(&start)), "{key}");
    text.lines()
        .map(|line| {
            if line.starts_with(&start) {
                lines
            } else {
                line
            }
        })
        .fold(String::new(), |text, line| text + line + "\n")
}

/// Writes a file into the tests' folder and gives its path.
pub fn file(name: &str, contents: impl AsRef<[u8]>) -> String {
    let path = Path::new(env!("CARGO_TARGET_TMPDIR")).join(name);
    fs::write(&path, contents).unwrap();
    path.to_str().unwrap().to_string()
}

pub fn repository() -> PathBuf {
    Path::new(env!("CARGO_MANIFEST_DIR")).join("../..")
}

pub fn example(name: &str) -> String {
    let path = repository().join("examples").join(name);
    path.to_str().unwrap().to_string()
}

pub struct Ran {
    pub status: i32,
    pub out: String,
    pub err: String,
}

pub fn pewgull(words: &[&str]) -> Ran {
    let output = Command::new(env!("CARGO_BIN_EXE_pewgull"))
        .args(words)
        .output()
        .unwrap();
    ran(output)
}

pub fn ran(output: Output) -> Ran {
    Ran {
        status: output.status.code().expect("ended by itself"),
        out: String::from_utf8(output.stdout).unwrap(),
        err: String::from_utf8(output.stderr).unwrap(),
    }
}
