//! The program of examples/live on tokio's runtime. Beside the terminal it waits for a clock, and
//! each tick drops the future of an event.
//!
//!     HEDRUGAL_LIBRARY=DIR cargo run --manifest-path rust/Cargo.toml --features tokio --example stream
#[path = "../plain/examples/live/lines.rs"]
mod lines;

use hedrugal::terminal::{EventStream, Modes, Terminal};
use std::io;
use std::process::ExitCode;
use std::time::Duration;
use tokio::time::interval;

#[tokio::main(flavor = "current_thread")]
async fn run(modes: Modes) -> io::Result<()> {
    let mut events = EventStream::new(Terminal::open_with(modes)?)?;
    let mut clock = interval(Duration::from_millis(5));
    lines::begin(events.terminal())?;
    loop {
        tokio::select! {
            event = events.next() => match event.transpose()? {
                Some(event) if lines::handle(&event, events.terminal())? => {}
                _ => return Ok(()),
            },
            _ = clock.tick() => {} // a program that draws does so here
        }
    }
}

fn main() -> ExitCode {
    lines::run_by(run)
}
