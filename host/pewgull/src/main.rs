//! Prints what the command says, and ends with its exit status.

mod closed;

use pewgull::arguments::{self, Order};
use pewgull::help;
use pewgull::run::{self, Outcome, FILE_ERROR};
use std::env;
use std::io::{self, ErrorKind, Write};
use std::process::ExitCode;

/// Prints to standard output. A reader that has gone is not worth a message.
fn print(bytes: &[u8]) -> Result<(), ()> {
    if closed::standard_output() {
        warn("cannot write to standard output: it is closed");
        return Err(());
    }
    let mut out = io::stdout().lock();
    let done = out.write_all(bytes).and_then(|()| out.flush());
    done.map_err(|error| {
        if error.kind() != ErrorKind::BrokenPipe {
            warn(&format!("cannot write to standard output: {error}"));
        }
    })
}

fn warn(message: &str) {
    // Nothing is left to do where standard error cannot be written.
    let _ = writeln!(io::stderr(), "pewgull: {message}");
}

fn show(outcome: &Outcome) -> Result<(), ()> {
    print(&outcome.printed)?;
    for message in &outcome.messages {
        warn(message);
    }
    Ok(())
}

fn run() -> Result<u8, ()> {
    let words: Vec<_> = env::args_os().skip(1).collect();
    match arguments::parse(&words) {
        Err(message) => {
            warn(&message);
            Ok(FILE_ERROR)
        }
        Ok(Order::Help) => print(help::short().as_bytes()).map(|()| 0),
        Ok(Order::Manual) => print(help::manual().as_bytes()).map(|()| 0),
        Ok(Order::Version) => print(help::version().as_bytes()).map(|()| 0),
        Ok(Order::Run(command)) => {
            let mut status = 0;
            for file in &command.files {
                let outcome = run::answer(&command, file);
                show(&outcome)?;
                status = status.max(outcome.status);
            }
            Ok(status)
        }
    }
}

fn main() -> ExitCode {
    ExitCode::from(run().unwrap_or(FILE_ERROR))
}
