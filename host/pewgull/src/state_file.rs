//! The file that keeps a sweep: the bytes of its state, and nothing else.

use crate::input;
use crate::values::{escaped, filled};
use library::{CHOOSE_LENGTH, STATE_LENGTH, VERSION};
use std::ffi::OsStr;
use std::fs::{self, File};
use std::io::{self, ErrorKind, Write};
use std::path::Path;
use std::process;
use std::time::{Duration, Instant};

pub type State = [u8; STATE_LENGTH];

/// Storing waits for the disk and may take longer than an advance: it is done
/// so often, and where the sweep ends.
const BETWEEN: Duration = Duration::from_secs(1);

pub struct StateFile<'a> {
    path: &'a OsStr,
    /// What the file holds
    stored: Option<State>,
    /// When it was written last
    written: Option<Instant>,
}

/// A file's name as it can stand in a message.
pub fn name_of(path: &OsStr) -> String {
    escaped(&path.to_string_lossy())
}

impl StateFile<'_> {
    /// Where the file is there, it has to hold a state of these data. Nothing
    /// is written yet.
    pub fn open<'a>(path: &'a OsStr, data: &[u8; CHOOSE_LENGTH]) -> Result<StateFile<'a>, String> {
        let stored = match input::contents(path) {
            Ok(bytes) => Some(state(bytes, data, &name_of(path))?),
            Err(error) if error.kind() == ErrorKind::NotFound => None,
            Err(error) => {
                let (name, reason) = (name_of(path), input::reason(&error));
                return Err(format!("the state in {name} cannot be read: {reason}"));
            }
        };
        Ok(StateFile {
            path,
            stored,
            written: None,
        })
    }

    /// The state that the file holds.
    pub fn stored(&self) -> Option<State> {
        self.stored
    }

    /// Stores the state where it has moved: at once, or when it is time.
    pub fn keep(&mut self, state: &State, at_once: bool) -> Result<(), String> {
        let due = self.written.is_none_or(|last| last.elapsed() >= BETWEEN);
        if self.stored == Some(*state) || !(at_once || due) {
            return Ok(());
        }
        store(Path::new(self.path), state).map_err(|error| {
            format!(
                "the state cannot be stored in {}: {error}{}",
                name_of(self.path),
                filled("Name a file with --state in a folder that can be written to")
            )
        })?;
        self.stored = Some(*state);
        self.written = Some(Instant::now());
        Ok(())
    }
}

/// The bytes of the file of this name as a state of these data, or what is
/// wrong and what to do.
fn state(bytes: Vec<u8>, data: &[u8; CHOOSE_LENGTH], name: &str) -> Result<State, String> {
    let length = bytes.len();
    let no_state = |what: String| {
        let what = format!("{name} is no state of a sweep: {what}.");
        what + &filled(&format!("Name another file with --state{NEW}"))
    };
    let state = State::try_from(bytes)
        .map_err(|_| no_state(format!("it has {length} bytes, a state has {STATE_LENGTH}")))?;
    if state[..4] != VERSION.to_le_bytes() {
        return Err(no_state(format!("it is not of version {VERSION}")));
    }
    if state[..CHOOSE_LENGTH] != data[..] {
        let advice = format!("{OTHER_DATA}{NEW}");
        let what = format!("the state in {name} belongs to other plant data.");
        return Err(what + &filled(&advice));
    }
    Ok(state)
}

/// What to do with the state of another plant.
const OTHER_DATA: &str = "It is that of another plant, or the plant file was changed since. Give \
    the plant file that it belongs to, or name another file with --state";

/// How a sweep is started anew.
const NEW: &str = "; one that is not there yet starts a new sweep. Nothing was overwritten";

/// Writes the state beside the file and then gives it the file's name, so that
/// no cut leaves half a state.
fn store(path: &Path, state: &State) -> io::Result<()> {
    let path = fs::canonicalize(path).unwrap_or_else(|_| path.to_path_buf());
    let mut beside = path.clone().into_os_string();
    beside.push(format!(".{}.new", process::id()));
    let whole = File::create(&beside).and_then(|mut file| {
        file.write_all(state)?;
        file.sync_all()
    });
    let done = whole.and_then(|()| fs::rename(&beside, &path));
    if done.is_err() {
        // what is left of it is of no use
        let _ = fs::remove_file(&beside);
    }
    done
}
