//! The program of examples/live in a loop of mio.
//!
//!     HEDRUGAL_LIBRARY=DIR cargo run --manifest-path rust/Cargo.toml --features mio --example mio
#[path = "../plain/examples/live/lines.rs"]
mod lines;

use hedrugal::terminal::{Modes, Terminal};
use mio::{Events, Interest, Poll, Token};
use std::io::{self, ErrorKind};
use std::process::ExitCode;
use std::time::Duration;

/// Handles the events that are there. Returns whether the program goes on.
fn handle_all(terminal: &mut Terminal) -> io::Result<bool> {
    while terminal.poll(Duration::ZERO)? {
        match terminal.read()? {
            Some(event) if lines::handle(&event, terminal)? => {}
            _ => return Ok(false),
        }
    }
    Ok(true)
}

fn run(modes: Modes) -> io::Result<()> {
    let (mut terminal, mut poll) = (Terminal::open_with(modes)?, Poll::new()?);
    let mut ready = Events::with_capacity(8);
    poll.registry()
        .register(&mut terminal, Token(0), Interest::READABLE)?;
    lines::begin(&mut terminal)?;
    while handle_all(&mut terminal)? {
        match poll.poll(&mut ready, terminal.timeout()) {
            Err(error) if error.kind() != ErrorKind::Interrupted => return Err(error),
            _ => {}
        }
    }
    Ok(())
}

fn main() -> ExitCode {
    lines::run_by(run)
}
