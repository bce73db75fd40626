//! Whether standard output was closed when the tool was started. Rust's own
//! start opens /dev/null in its place, so this is asked before it.

use std::sync::atomic::{AtomicBool, Ordering};

static CLOSED: AtomicBool = AtomicBool::new(false);

extern "C" {
    fn fcntl(descriptor: i32, command: i32, ...) -> i32;
}

/// Reads the flags of a descriptor; an error where it is not open.
const GET_FLAGS: i32 = 1;

extern "C" fn ask() {
    // Safety: the command takes no further argument and changes nothing.
    let closed = unsafe { fcntl(1, GET_FLAGS) } == -1;
    CLOSED.store(closed, Ordering::Relaxed);
}

/// Run by the loader before Rust's start.
#[used]
#[link_section = ".init_array"]
static ASK: extern "C" fn() = ask;

pub fn standard_output() -> bool {
    CLOSED.load(Ordering::Relaxed)
}
