//! Prints the events of a terminal as they come, one on a line. A program to start from.
//!
//!     cargo run --example live [-- --mouse]
//!
//! Bracketed paste is always on, or pasted text would count as typed. --mouse switches mouse
//! reports on too, which keep most terminals from selecting text. A new size of the terminal is
//! printed as well.
//!
//! q ends the program, and so do the end of the input, SIGHUP, SIGINT, SIGQUIT and SIGTERM. ^C, ^Z
//! and ^\ are keys like any other, as in an editor; SIGTSTP from another process stops it until
//! SIGCONT. The terminal is restored whenever it ends or stops in one of these ways; if nobody reads
//! its output, a second after the signal, but for what can't be written at once.
mod lines;

use hedrugal::terminal::{Modes, Terminal};
use std::io;
use std::process::ExitCode;

fn run(modes: Modes) -> io::Result<()> {
    let mut terminal = Terminal::open_with(modes)?;
    lines::begin(&mut terminal)?;
    while let Some(event) = terminal.read()? {
        if !lines::handle(&event, &mut terminal)? {
            break;
        }
    }
    Ok(())
}

fn main() -> ExitCode {
    lines::run_by(run)
}
