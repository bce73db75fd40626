//! The state of a sweep, bytes that the caller keeps: the request's data, the
//! number of candidates asked for so far, and the best of them.

use crate::request::{Candidate, CHOOSE_LENGTH};

/// Bytes of a state: a request to choose, and four words more.
pub const STATE_LENGTH: usize = CHOOSE_LENGTH + 16;
/// Most candidates of an advance.
pub const ADVANCE_MOST: u32 = 1_000;

/// How far a sweep has come, as its state has it.
#[derive(Clone, Copy, Debug, PartialEq, Eq)]
pub struct Progress {
    /// Candidates asked for so far
    pub asked: u32,
    /// The best permitted one of them; none where the state has zeros
    pub best: Option<Candidate>,
}

impl Progress {
    /// Reads the last four words of a state.
    pub fn from_state(state: &[u8; STATE_LENGTH]) -> Progress {
        let word = |place: usize| {
            let mut bytes = [0; 4];
            let first = CHOOSE_LENGTH + 4 * place;
            bytes.copy_from_slice(&state[first..first + 4]);
            u32::from_le_bytes(bytes)
        };
        let best = [word(1), word(2), word(3)];
        let [fraction, return_ratio, thickening] = best;
        Progress {
            asked: word(0),
            best: (best != [0; 3]).then_some(Candidate {
                fraction,
                return_ratio,
                thickening,
            }),
        }
    }
}
