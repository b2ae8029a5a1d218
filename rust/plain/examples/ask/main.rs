//! Asks a terminal where its cursor is, for its background colour, and for the flags of Kitty's
//! keyboard protocol, and prints the replies.
//!
//!     cargo run --example ask
//!
//! A terminal leaves a question without a reply if it doesn't know it. So the last question, which
//! `Terminal::ask` adds, is for its attributes (DA1), which nearly every terminal answers: once that
//! reply came, no other will. The program waits for a second at most.
//!
//! What is typed meanwhile comes as events like any other. This program counts them; an editor would
//! handle them. The terminal is restored whenever the program ends, also by SIGHUP, SIGINT, SIGQUIT
//! and SIGTERM. A SIGTSTP stops it once the terminal is restored.
use hedrugal::terminal::{Answers, Terminal};
use hedrugal::Event;
use std::io;
use std::process::ExitCode;
use std::time::Duration;

const QUESTIONS: &str = "\x1b[6n\x1b]11;?\x1b\\\x1b[?u";
const LONGEST_WAIT: Duration = Duration::from_secs(1);

/// Returns a line for a reply that was asked for.
fn line(reply: &Event) -> Option<String> {
    Some(match reply {
        Event::CursorPosition { row, column } => {
            format!("cursor in row {row}, column {column}")
        }
        Event::Osc(bytes) if bytes.starts_with(b"11;") => {
            format!("background {}", bytes[3..].escape_ascii())
        }
        Event::KeyboardFlags(flags) => format!("keyboard flags {}", flags.bits()),
        Event::Csi(bytes) if bytes.starts_with(b"?") && bytes.ends_with(b"c") => {
            format!("attributes {}", bytes.escape_ascii())
        }
        _ => return None,
    })
}

/// Returns the replies, and how many keys were typed meanwhile.
fn ask() -> io::Result<(Answers, usize)> {
    let mut terminal = Terminal::open()?;
    let answers = terminal.ask(QUESTIONS, LONGEST_WAIT)?;
    let mut typed = 0;
    while terminal.poll(Duration::ZERO)? {
        match terminal.read()? {
            Some(event) => typed += usize::from(event.key().is_some()),
            None => break,
        }
    }
    Ok((answers, typed))
}

fn main() -> ExitCode {
    if std::env::args_os().len() > 1 {
        eprintln!("usage: ask");
        return ExitCode::from(2);
    }
    let (answers, typed) = match ask() {
        Ok(asked) => asked,
        Err(error) => {
            eprintln!("ask: {error}");
            return ExitCode::FAILURE;
        }
    };
    for line in answers.events.iter().filter_map(line) {
        println!("{line}");
    }
    println!("typed meanwhile: {typed}");
    if answers.is_whole {
        return ExitCode::SUCCESS;
    }
    println!("no reply to the last question");
    ExitCode::FAILURE
}
