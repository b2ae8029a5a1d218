// The cases of tests/cases, each by every way to make its call. The README there has the forms.
mod events;
mod keys;
mod runs;
mod sent;
mod timers;

use crate::bindings::check_commands;
use crate::lines::unquoted;
use crate::plain::replies::snake;
use hedrugal::{Dialect, EraseByte, NewlineByte, Reading};
use std::fmt::Debug;
use std::path::{Path, PathBuf};
use std::{fs, thread};

pub use runs::{each_rest, limit_named, LIMITS};
pub use sent::is_one_paste;

fn folder() -> PathBuf {
    Path::new(env!("CARGO_MANIFEST_DIR")).join("../../tests/cases")
}

// A line whose check may panic: then its place is told.
struct Place<'a> {
    file: &'a str,
    number: usize,
    line: &'a str,
}

impl Drop for Place<'_> {
    fn drop(&mut self) {
        if thread::panicking() {
            let Place { file, number, line } = self;
            eprintln!("tests/cases/{file}:{number}: {line}");
        }
    }
}

// Calls with each case of a file.
pub fn each_case(file: &str, mut check: impl FnMut(&str)) {
    let text = fs::read_to_string(folder().join(file)).expect(file);
    let mut count = 0;
    for (number, line) in (1..).zip(text.lines()) {
        if !line.starts_with('#') {
            let _place = Place { file, number, line };
            check(line);
            count += 1;
        }
    }
    assert!(count > 0, "{file} has no case");
}

// What a case is given, and what is told of it.
pub fn sides(line: &str) -> (&str, &str) {
    line.split_once(" = ").expect("a case has two sides")
}

// The reading of a word.
fn reading(word: &str) -> Reading {
    let mut words = word.split('+');
    let mut reading = Reading::new(match words.next() {
        Some("extended") => Dialect::Extended,
        Some("termwiz") => Dialect::Termwiz,
        _ => panic!("{word} is no reading"),
    });
    for other in words {
        match other {
            "backspace" => reading.erase = EraseByte::Backspace,
            "enter" => reading.newline = NewlineByte::Enter,
            "x10" => reading.x10_mouse = true,
            _ => {
                let count = other.strip_prefix("asked").and_then(|it| it.parse().ok());
                reading.questions = count.unwrap_or_else(|| panic!("{word} is no reading"));
            }
        }
    }
    reading
}

// A reading and bytes.
fn reading_and_text(given: &str) -> (Reading, Vec<u8>) {
    let (word, bytes) = given.split_once(' ').expect("a reading and bytes");
    (reading(word), unquoted(bytes))
}

// The name of the status of a refusal. Some errors have another one.
fn status(error: impl Debug) -> String {
    let name = format!("{error:?}");
    for (error, status) in [
        ("UnnamedBits", "BAD_NUMBER"),
        ("UnknownKey", "REFUSED_KEY"),
        ("UnhandledFunctionKey", "REFUSED_KEY"),
    ] {
        if name.starts_with(error) {
            return status.to_string();
        }
    }
    snake(&name).to_uppercase()
}

// A test for each file. There is no other file.
macro_rules! files {
    ($($name:ident: $check:expr,)*) => {
        $(
            #[test]
            fn $name() {
                each_case(concat!(stringify!($name), ".txt"), $check);
            }
        )*

        #[test]
        fn other_files() {
            for entry in fs::read_dir(folder()).expect("the folder of cases") {
                let name = entry.expect("a file").file_name();
                let name = name.to_str().expect("a name");
                let known = ["README.md", $(concat!(stringify!($name), ".txt")),*];
                assert!(known.contains(&name), "{name} has no test");
            }
        }
    };
}

files! {
    events: events::check(),
    runs: runs::check(),
    timers: timers::check,
    presses: keys::check_press(),
    names: keys::check_name,
    bindings: check_commands,
    kitty: keys::check_report,
    encodings: keys::check_encoding,
    sent_names: keys::check_sent_names,
    written: sent::check_written,
    pastes: sent::check_paste,
    paste_lines: sent::check_lines,
    mouse: sent::check_mouse,
    replies: sent::check_reply,
}
