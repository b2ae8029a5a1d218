//! The commands, and the file that binds chords to them.
use hedrugal::{Bindings, Chord, KeyNameError, KeyNameErrorKind};
use std::path::Path;
use std::str::{self, FromStr};
use std::{error, fmt, fs, io};

#[derive(Debug, Clone, Copy, PartialEq, Eq)]
pub enum Command {
    Save,
    Quit,
    Top,
    Bottom,
    Erase,
    Newline,
}

impl Command {
    const ALL: [Command; 6] = [
        Command::Save,
        Command::Quit,
        Command::Top,
        Command::Bottom,
        Command::Erase,
        Command::Newline,
    ];

    fn name(self) -> &'static str {
        match self {
            Command::Save => "save",
            Command::Quit => "quit",
            Command::Top => "top",
            Command::Bottom => "bottom",
            Command::Erase => "erase",
            Command::Newline => "newline",
        }
    }
}

impl fmt::Display for Command {
    fn fmt(&self, f: &mut fmt::Formatter<'_>) -> fmt::Result {
        f.pad(self.name())
    }
}

impl FromStr for Command {
    type Err = Fault;

    fn from_str(name: &str) -> Result<Command, Fault> {
        let named = Command::ALL.into_iter().find(|it| it.name() == name);
        named.ok_or(Fault::NoSuchCommand)
    }
}

/// What is wrong with a line.
#[derive(Debug, Clone, Copy, PartialEq, Eq)]
pub enum Fault {
    NoSuchCommand,
    NoChord,
    NotUtf8,
    NoKeys(KeyNameErrorKind),
}

impl fmt::Display for Fault {
    fn fmt(&self, f: &mut fmt::Formatter<'_>) -> fmt::Result {
        match self {
            Fault::NoSuchCommand => f.pad("no such command"),
            Fault::NoChord => f.pad("no chord"),
            Fault::NotUtf8 => f.pad("the text isn't UTF-8"),
            Fault::NoKeys(kind) => kind.fmt(f),
        }
    }
}

/// A wrong line, and the byte of it where the wrong part starts. Both are counted from 1.
#[derive(Debug, Clone, Copy, PartialEq, Eq)]
pub struct LineError {
    pub line: usize,
    pub column: usize,
    pub fault: Fault,
}

impl fmt::Display for LineError {
    fn fmt(&self, f: &mut fmt::Formatter<'_>) -> fmt::Result {
        write!(f, "{}:{}: {}", self.line, self.column, self.fault)
    }
}

impl error::Error for LineError {}

/// Why a file has no bindings.
#[derive(Debug)]
pub enum FileError {
    Unread(io::Error),
    Wrong(Vec<LineError>),
}

impl From<io::Error> for FileError {
    fn from(error: io::Error) -> FileError {
        FileError::Unread(error)
    }
}

/// Reads the bindings of a file. If a chord is bound twice, the later line counts.
pub fn read(path: &Path) -> Result<Bindings<Command>, FileError> {
    let file = fs::read(path)?;
    let (mut bindings, mut errors) = (Bindings::new(), Vec::new());
    for (line, text) in (1..).zip(file.split(|byte| *byte == b'\n')) {
        match binding(text) {
            Ok(Some((chord, command))) => bindings.bind(&chord, command),
            Ok(None) => {}
            Err((fault, at)) => errors.push(LineError {
                line,
                column: at + 1,
                fault,
            }),
        }
    }
    if errors.is_empty() {
        Ok(bindings)
    } else {
        Err(FileError::Wrong(errors))
    }
}

/// Returns the binding of a line, if it isn't blank or a comment. An error is at a byte of it.
fn binding(line: &[u8]) -> Result<Option<(Chord, Command)>, (Fault, usize)> {
    let (blanks, entry) = split_where(line, |byte| !is_blank(byte));
    let (name, rest) = split_where(entry, is_blank);
    let (_, chord) = split_where(rest, |byte| !is_blank(byte));
    if entry.is_empty() || entry.starts_with(b"#") {
        return Ok(None);
    }
    let command = str::from_utf8(name).unwrap_or_default().parse();
    let command = command.map_err(|fault| (fault, blanks.len()))?;
    if chord.is_empty() {
        return Err((Fault::NoChord, blanks.len() + name.len()));
    }
    let start = line.len() - chord.len();
    let chord = keys(chord).map_err(|(fault, at)| (fault, start + at))?;
    Ok(Some((chord, command)))
}

fn keys(name: &[u8]) -> Result<Chord, (Fault, usize)> {
    let name = str::from_utf8(name).map_err(|error| (Fault::NotUtf8, error.valid_up_to()))?;
    name.parse()
        .map_err(|KeyNameError { kind, at }| (Fault::NoKeys(kind), at))
}

/// Splits a text before the first byte that is so.
fn split_where(text: &[u8], is_so: impl Fn(u8) -> bool) -> (&[u8], &[u8]) {
    let place = text.iter().position(|byte| is_so(*byte));
    text.split_at(place.unwrap_or(text.len()))
}

fn is_blank(byte: u8) -> bool {
    byte == b' ' || byte == b'\t'
}
