//! Edits a text by commands that a file binds to chords, such as docs/edit.keys, and prints what
//! happens. Nothing is saved.
//!
//!     cargo run --example edit FILE
//!
//! The program asks for bracketed paste, xterm's modifyOtherKeys and Kitty's flags 1 and 4, so that
//! most keys can be told apart. The terminal is restored as in the example live.
//!
//! Two limits in time are apart. That of the parser says when ESC is the Escape key, which the
//! terminal heeds by itself. That of a chord says when no further key of it comes.
mod chords;
mod commands;
mod screen;
mod text;

use chords::Chords;
use commands::{Command, FileError};
use hedrugal::terminal::{Modes, Terminal};
use hedrugal::{paste_lines, typed_text, Bindings, Event, KeyPress, KeyReport, KittyKeyboardFlags};
use screen::Screen;
use std::io;
use std::path::Path;
use std::process::ExitCode;
use std::time::Instant;

const MODES: Modes = Modes {
    paste: true,
    modify_other_keys: 2,
    kitty: KittyKeyboardFlags::DISAMBIGUATE_ESCAPE_CODES
        .union(KittyKeyboardFlags::REPORT_ALTERNATE_KEYS),
    ..Modes::NONE
};

/// The program. Its functions return whether it goes on.
struct Edit {
    chords: Chords,
    screen: Screen,
}

impl Edit {
    fn new(bindings: Bindings<Command>) -> io::Result<Edit> {
        Ok(Edit {
            chords: Chords::new(bindings),
            screen: Screen::new(Terminal::open_with(MODES)?),
        })
    }

    fn run(&mut self) -> io::Result<()> {
        let quit = self.chords.of(Command::Quit);
        self.screen
            .print_lines(quit.map(|chord| format!("{chord} ends")))?;
        while self.step()? {}
        Ok(())
    }

    /// Handles the next event, unless what is pending has waited too long for it.
    fn step(&mut self) -> io::Result<bool> {
        if let Some(time) = self.chords.timeout(Instant::now()) {
            if !self.screen.terminal.poll(time)? {
                return self.give_up();
            }
        }
        match self.screen.terminal.read()? {
            Some(event) => self.handle(&event),
            None => self.handle_end(),
        }
    }

    fn handle(&mut self, event: &Event) -> io::Result<bool> {
        match event {
            Event::Key(report) => self.handle_key(report),
            Event::Paste(text) | Event::PastePart(text) => self.insert(&paste_lines(text)),
            _ => Ok(true),
        }
    }

    /// A signal ends the program at once.
    fn handle_end(&mut self) -> io::Result<bool> {
        if self.screen.terminal.ending().is_none() {
            self.give_up()?;
        }
        Ok(false)
    }

    /// A text comes behind what is pending, so that is decided first.
    fn insert(&mut self, text: &str) -> io::Result<bool> {
        if !text.is_empty() && !self.give_up()? {
            return Ok(false);
        }
        self.screen.insert(text)?;
        Ok(true)
    }

    fn handle_key(&mut self, report: &KeyReport) -> io::Result<bool> {
        let Some(press) = KeyPress::of_report(report) else {
            return self.insert(typed_text(report));
        };
        let outcomes = self.chords.press(press, KeyPress::second(report));
        if !self.screen.run(outcomes)? {
            return Ok(false);
        }
        self.screen.print_lines(self.chords.menu())?;
        Ok(true)
    }

    fn give_up(&mut self) -> io::Result<bool> {
        self.screen.run(self.chords.give_up())
    }
}

fn tell(path: &Path, error: &FileError) {
    let path = path.display();
    match error {
        FileError::Unread(error) => eprintln!("edit: {path}: {error}"),
        FileError::Wrong(errors) => errors
            .iter()
            .for_each(|error| eprintln!("edit: {path}:{error}")),
    }
}

fn main() -> ExitCode {
    let words: Vec<_> = std::env::args_os().skip(1).collect();
    let [path] = &words[..] else {
        eprintln!("usage: edit FILE");
        return ExitCode::from(2);
    };
    let path = Path::new(path);
    let bindings = match commands::read(path) {
        Ok(bindings) => bindings,
        Err(error) => {
            tell(path, &error);
            return ExitCode::from(2);
        }
    };
    match Edit::new(bindings).and_then(|mut edit| edit.run()) {
        Ok(()) => ExitCode::SUCCESS,
        Err(error) => {
            eprintln!("edit: {error}");
            ExitCode::FAILURE
        }
    }
}
