//! The bytes of a file, or why it cannot be read.

use std::ffi::OsStr;
use std::fs::File;
use std::io::{self, ErrorKind, Read};

/// A plant file is some hundred bytes, a day log some thousand; what is longer
/// is something else.
const LONGEST_FILE: u64 = 1 << 20;

/// The bytes of a file; `-` is standard input.
pub fn contents(file: &OsStr) -> io::Result<Vec<u8>> {
    if file == "-" {
        bounded(io::stdin().lock())
    } else {
        bounded(File::open(file)?)
    }
}

fn bounded(source: impl Read) -> io::Result<Vec<u8>> {
    let mut bytes = Vec::new();
    source.take(LONGEST_FILE + 1).read_to_end(&mut bytes)?;
    if bytes.len() as u64 > LONGEST_FILE {
        return Err(io::Error::other("longer than 1 MiB"));
    }
    Ok(bytes)
}

/// Why a file cannot be read.
pub fn reason(error: &io::Error) -> String {
    match error.kind() {
        ErrorKind::NotFound => "no such file".to_string(),
        ErrorKind::IsADirectory => "this is a folder".to_string(),
        ErrorKind::PermissionDenied => "reading is not permitted".to_string(),
        _ => error.to_string(),
    }
}
