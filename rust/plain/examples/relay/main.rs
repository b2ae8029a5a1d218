//! Runs a program on a pseudo-terminal of its own, and passes on to it what its terminal sends: keys,
//! mouse reports, pastes and the focus, in the modes that the program set, whatever protocol the
//! terminal speaks. That is the input half of a multiplexer. A program to start from.
//!
//!     HEDRUGAL_LIBRARY=DIR cargo run --example relay [-- PROGRAM [ARGUMENT..]]
//!
//! What the program writes goes to the terminal as it is, but for the modes of its input: these are
//! kept here, and so are questions for them. The terminal is asked to tell all that it can.
//!
//! relay ends when the program does, with its status, or with 128 and the number of the signal that
//! ended it. SIGHUP, SIGINT, SIGQUIT and SIGTERM go to the program too and end relay. SIGTSTP stops
//! relay alone until SIGCONT, and the program then draws anew. The terminal is restored whenever
//! relay ends or stops in one of these ways.
mod input;
mod keys;
mod modes;
mod mouse;
mod output;
mod pty;
mod scanner;
mod terminal;
mod unix;

use hedrugal::terminal::Heeded;
use hedrugal::{DeviceAttributes, Dialect, Event, Parser, Reply, Waiting};
use input::Sender;
use modes::Wanted;
use output::Output;
use pty::PtyChild;
use std::ffi::OsString;
use std::fs::{File, OpenOptions};
use std::io::{self, ErrorKind, Read, Write};
use std::os::fd::AsRawFd;
use std::os::unix::fs::OpenOptionsExt;
use std::os::unix::process::ExitStatusExt;
use std::process::{ExitCode, ExitStatus};
use std::time::{Duration, Instant};
use terminal::Terminal;
use unix::{poll_all, POLLIN, POLLOUT};

const HELP: &str = "usage: relay [--] [PROGRAM [ARGUMENT..]]

Runs a program, or else $SHELL, on a terminal of its own, and passes keys, mouse
reports, pastes and the focus on in the modes that the program set.";
const O_NONBLOCK_NOCTTY: i32 = 0o4400;
const PASTE_LIMIT: usize = 1 << 16;
/// Nothing more is read for a side that hasn't taken so many bytes yet.
const MOST_PENDING: usize = 1 << 16;
/// A child that asks on and on, and reads nothing, gets no more replies than that.
const MOST_REPLIES: usize = 1 << 18;
/// The child has written less before its end. What it left running may write on for ever.
const MOST_LEFT: usize = 1 << 20;

/// Why relay ends, and with which status.
struct Failure {
    status: u8,
    says: String,
}

impl From<io::Error> for Failure {
    fn from(error: io::Error) -> Failure {
        Failure {
            status: 1,
            says: error.to_string(),
        }
    }
}

/// What a step of the program leads to.
enum Next {
    Step,
    /// The child has ended, and all that it wrote is written.
    Ended(ExitStatus),
    /// A signal ends the program.
    Signal,
}

struct Relay {
    parser: Parser,
    sender: Sender,
    output: Output,
    child: PtyChild,
    /// How the child ended, and how much may still be read of what it wrote.
    ended: Option<(ExitStatus, usize)>,
    terminal: Terminal,
    wanted: Wanted,
    /// The terminal once more, for writes that don't wait. Other programs have the descriptor of the
    /// standard output too, and would have to know.
    screen: File,
    to_terminal: Vec<u8>,
    to_child: Vec<u8>,
    /// Replies of this program's own, which may not come within a paste.
    replies: Vec<u8>,
}

impl Relay {
    fn new(words: &[OsString]) -> Result<Relay, Failure> {
        let (settings, size) = terminal::found()?;
        let mut options = OpenOptions::new();
        options.write(true).custom_flags(O_NONBLOCK_NOCTTY);
        let screen = options.open("/proc/self/fd/1").map_err(|error| Failure {
            status: 1,
            says: format!("the terminal can't be opened: {error}"),
        })?;
        let mut parser = Parser::try_new(Dialect::Extended).map_err(io::Error::from)?;
        parser.set_parts(Some(PASTE_LIMIT));
        let child = PtyChild::start(words, &settings, size).map_err(|error| Failure {
            status: if error.kind() == ErrorKind::NotFound {
                127
            } else {
                126
            },
            says: format!("{}: {error}", words[0].to_string_lossy()),
        })?;
        let terminal = Terminal::enter(&settings)?;
        parser.set_reading(terminal.guard.reading());
        Ok(Relay {
            parser,
            sender: Sender::default(),
            output: Output::default(),
            child,
            ended: None,
            terminal,
            wanted: Wanted::default(),
            screen,
            to_terminal: Vec::new(),
            to_child: Vec::new(),
            replies: Vec::new(),
        })
    }

    fn run(&mut self) -> io::Result<u8> {
        self.terminal.ask(&mut self.to_terminal);
        loop {
            match self.step()? {
                Next::Step => {}
                Next::Ended(status) => {
                    let signal = status.signal().map(|number| 128 + number);
                    return Ok(signal.or(status.code()).unwrap_or(1) as u8);
                }
                Next::Signal => return Ok(1),
            }
        }
    }

    fn step(&mut self) -> io::Result<Next> {
        if let (Some((status, 0)), true) = (self.ended, self.to_terminal.is_empty()) {
            return Ok(Next::Ended(status));
        }
        let reads_keys = self.ended.is_none() && self.to_child.len() < MOST_PENDING;
        let reads_child = self.to_terminal.len() < MOST_PENDING;
        let now = Instant::now();
        let time = self.time(now, reads_keys, reads_child);
        let if_any = |waits: bool, events| if waits { events } else { 0 };
        let from_child = if_any(reads_child, POLLIN);
        let to_child = if_any(!self.to_child.is_empty(), POLLOUT);
        let guard = &self.terminal.guard;
        let descriptors = [
            (guard.wake().as_raw_fd(), POLLIN),
            (
                self.child.end.as_raw_fd(),
                if_any(self.ended.is_none(), POLLIN),
            ),
            (guard.input().as_raw_fd(), if_any(reads_keys, POLLIN)),
            (self.child.terminal.as_raw_fd(), from_child | to_child),
            (
                self.screen.as_raw_fd(),
                if_any(!self.to_terminal.is_empty(), POLLOUT),
            ),
        ];
        let [wake, end, keys, child, screen] = match poll_all(descriptors, time) {
            Err(error) if error.kind() == ErrorKind::Interrupted => return Ok(Next::Step),
            ready => ready?,
        };
        if wake != 0 {
            return self.handle_signals();
        }
        if end != 0 {
            self.ended = self.child.status()?.map(|status| (status, MOST_LEFT));
            return Ok(Next::Step);
        }
        if keys != 0 {
            self.read_keys()?;
        } else if reads_keys {
            self.parser.idle(now);
            self.handle_events()?;
        }
        if child & POLLOUT != 0 {
            write_some(&mut self.child.terminal, &mut self.to_child)?;
        }
        if reads_child && (child & !POLLOUT != 0 || self.ended.is_some()) {
            self.read_child()?;
        }
        if screen != 0 {
            write_some(&mut self.screen, &mut self.to_terminal)?;
        }
        Ok(Next::Step)
    }

    /// Returns how long to wait. What may be completed by keys that aren't read yet has no limit, and
    /// what a child has left is there at once.
    fn time(&mut self, now: Instant, reads_keys: bool, reads_child: bool) -> Option<Duration> {
        if self.ended.is_some() && reads_child {
            Some(Duration::ZERO)
        } else if reads_keys {
            self.parser.timeout(now)
        } else {
            None
        }
    }

    fn handle_signals(&mut self) -> io::Result<Next> {
        match self.terminal.heed(&mut self.to_terminal)? {
            Heeded::Ending => {
                let number = self.terminal.guard.ending();
                self.child.signal(number.unwrap_or_default());
                return Ok(Next::Signal);
            }
            Heeded::Resumed => {
                self.resume()?;
                self.child.resize(self.terminal.size()?)?;
                self.child.redraw();
            }
            Heeded::Resized => self.child.resize(self.terminal.size()?)?,
            Heeded::Nothing => {}
        }
        Ok(Next::Step)
    }

    /// Goes on after another program had the terminal. Within a paste or a string a reply would be a
    /// part of that.
    fn resume(&mut self) -> io::Result<()> {
        self.handle_events()?;
        self.parser.interrupted(Instant::now())?;
        if !matches!(self.parser.waiting(), Waiting::Paste | Waiting::String) {
            self.terminal.ask(&mut self.to_terminal);
        }
        Ok(())
    }

    fn read_keys(&mut self) -> io::Result<()> {
        let mut bytes = [0; 4096];
        let count = self.terminal.guard.input().read(&mut bytes)?;
        if count == 0 {
            return Err(io::Error::other("the terminal is gone"));
        }
        self.parser.try_feed(Instant::now(), &bytes[..count])?;
        self.handle_events()
    }

    /// Handles the events one at a time, since one may change how the next is read.
    fn handle_events(&mut self) -> io::Result<()> {
        while let Some(event) = self.parser.try_next()? {
            self.handle(&event);
        }
        Ok(())
    }

    fn handle(&mut self, event: &Event) {
        if is_attributes(event) && !self.terminal.note_attributes() {
            return;
        }
        let mut bytes = self.sender.bytes(event, &self.output.modes, &self.parser);
        self.to_child.append(&mut bytes);
        self.send_replies();
    }

    fn read_child(&mut self) -> io::Result<()> {
        let mut bytes = [0; 4096];
        let count = match self.child.terminal.read(&mut bytes) {
            Err(error) if error.kind() == ErrorKind::WouldBlock => 0,
            count => count?,
        };
        let mut passed = self.output.pass(&bytes[..count]);
        self.to_terminal.append(&mut passed.to_terminal);
        for _ in 0..passed.questions {
            self.parser.expect_position();
        }
        if self.replies.len() + self.to_child.len() < MOST_REPLIES {
            self.replies.append(&mut passed.to_child);
        }
        self.send_replies();
        let wanted = self.output.modes.wanted();
        if wanted != self.wanted {
            self.wanted = wanted;
            self.terminal.set_wanted(&wanted);
        }
        if let Some((_, left)) = &mut self.ended {
            *left = left.saturating_sub(if count == 0 { MOST_LEFT } else { count });
            if *left == 0 {
                self.to_terminal.append(&mut self.output.rest());
            }
        }
        Ok(())
    }

    fn send_replies(&mut self) {
        if !self.sender.is_in_paste() {
            self.to_child.append(&mut self.replies);
        }
    }
}

fn is_attributes(event: &Event) -> bool {
    let primary = DeviceAttributes::Primary;
    matches!(event.reply(), Some(Reply::DeviceAttributes { report, .. }) if report == primary)
}

/// Writes what is taken without a wait.
fn write_some(file: &mut File, bytes: &mut Vec<u8>) -> io::Result<()> {
    match file.write(bytes) {
        Ok(count) => drop(bytes.drain(..count)),
        Err(error) if error.kind() == ErrorKind::WouldBlock => {}
        Err(error) => return Err(error),
    }
    Ok(())
}

/// Returns the words that run the program, or `None` for an option that relay hasn't.
fn program(mut words: Vec<OsString>) -> Option<Vec<OsString>> {
    match words.first() {
        Some(word) if word == "--" => drop(words.remove(0)),
        Some(word) if word.to_string_lossy().starts_with('-') => return None,
        _ => {}
    }
    if words.is_empty() {
        words.push(std::env::var_os("SHELL").unwrap_or_else(|| "/bin/sh".into()));
    }
    Some(words)
}

fn main() -> ExitCode {
    let words: Vec<_> = std::env::args_os().skip(1).collect();
    if words == ["--help"] {
        println!("{HELP}");
        return ExitCode::SUCCESS;
    }
    let Some(words) = program(words) else {
        eprintln!("{}", HELP.lines().next().unwrap_or_default());
        return ExitCode::from(2);
    };
    let ended = Relay::new(&words).and_then(|mut relay| Ok(relay.run()?));
    match ended {
        Ok(status) => ExitCode::from(status),
        Err(Failure { status, says }) => {
            eprintln!("relay: {says}");
            ExitCode::from(status)
        }
    }
}
