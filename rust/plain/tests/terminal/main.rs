//! The program in Rust of tests/scenarios, whose README says what its words and keys are.
//!
//! Words of its own are `tokio` and `mio`, loops of those, with `blocks` a runtime that looks late,
//! and `hook`, which restores the terminal before the message of a panic.
#[path = "../extended/lines.rs"]
#[allow(dead_code, unused_imports)] // what the tests of the parser use
mod lines;
#[path = "../malloc/mod.rs"]
#[allow(dead_code)] // the count of blocks
mod malloc;
mod obey;
#[path = "../parser"]
#[allow(dead_code)] // what the tests of the parser use
mod port {
    pub mod lines;
    pub mod names;
}
mod source;
#[cfg(feature = "tokio")]
mod stream;
#[path = "../../examples/relay/unix.rs"]
#[allow(dead_code)] // what the relay uses
mod system;
mod unix;

use hedrugal::terminal::{restore, Modes, Terminal};
use hedrugal::{KittyKeyboardFlags, MouseTracking};
use obey::{Obeyed, Program};
use source::Source;
use std::fs::File;
use std::io;
use std::panic;
use std::process::ExitCode;

fn modes(words: &[&str]) -> Modes {
    let has = |word| words.contains(&word);
    let (enter, leave) = match has("screen") {
        true => ("\x1b[?1049h", "\x1b[?1049l"),
        false => ("", ""),
    };
    Modes {
        mouse: has("mouse").then_some(MouseTracking::Any),
        focus: has("focus"),
        kitty: match has("kitty") {
            true => KittyKeyboardFlags::DISAMBIGUATE_ESCAPE_CODES,
            false => KittyKeyboardFlags::NONE,
        },
        enter,
        leave,
        ..Modes::default()
    }
}

// Handles events until one ends the program, or has it open its terminal anew.
fn read_all(program: &mut Program) -> io::Result<Obeyed> {
    while let Some(event) = program.source.next()? {
        let obeyed = program.handle(&event)?;
        if obeyed != Obeyed::GoesOn {
            return Ok(obeyed);
        }
    }
    if program.source.terminal().ending().is_none() {
        program.print("ended")?;
    }
    Ok(Obeyed::Ends(0))
}

// An opening whose output can be read alone.
fn fail_to_open() -> io::Result<()> {
    let output = unix::with_output(&File::open("/dev/tty")?, Terminal::open)?;
    assert!(output.is_err());
    Ok(())
}

fn restore_before_panics() {
    let hook = panic::take_hook();
    panic::set_hook(Box::new(move |panic| {
        restore();
        hook(panic);
    }));
}

fn main() -> io::Result<ExitCode> {
    let [words, command] = [1, 2].map(|it| std::env::args().nth(it).unwrap_or_default());
    let words: Vec<&str> = words.split_whitespace().collect();
    if words.contains(&"hook") {
        restore_before_panics();
    }
    if words.contains(&"handle") {
        unix::interrupt_by_sigusr1();
    }
    if words.contains(&"retry") {
        fail_to_open()?;
    }
    loop {
        let source = Source::new(Terminal::open_with(modes(&words))?, &words)?;
        let mut program = Program {
            source,
            command: &command,
            asks: words.contains(&"asks"),
            told: None,
        };
        program.print("begun")?;
        if let Obeyed::Ends(status) = read_all(&mut program)? {
            return Ok(ExitCode::from(status));
        }
    }
}
