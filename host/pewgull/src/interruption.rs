//! Whether the tool was asked to stop, by Ctrl-C or by `kill`. A signal would
//! end it at once, with the work since the state was last stored lost. The
//! standard library has no signals, and a handler may do next to nothing: this
//! one sets a flag, which the sweep looks at after each advance.

use std::sync::atomic::{AtomicBool, Ordering};

static ASKED: AtomicBool = AtomicBool::new(false);

/// Ctrl-C.
const SIGINT: i32 = 2;
/// What `kill` sends.
const SIGTERM: i32 = 15;

type Handler = extern "C" fn(i32);

extern "C" {
    fn signal(number: i32, handler: Handler) -> usize;
}

extern "C" fn note(_: i32) {
    ASKED.store(true, Ordering::Relaxed);
}

/// From now on a signal only asks the tool to stop.
pub fn watch() {
    for number in [SIGINT, SIGTERM] {
        // Safety: the handler does nothing but store to an atomic.
        unsafe { signal(number, note) };
    }
}

pub fn asked() -> bool {
    ASKED.load(Ordering::Relaxed)
}
