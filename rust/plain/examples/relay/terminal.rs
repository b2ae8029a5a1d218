//! The terminal that relay runs on. The package's guard sets raw mode, restores it and notes signals.
use crate::modes::Wanted;
use crate::output::MODES;
use crate::unix::{self, Settings, WindowSize};
use hedrugal::terminal::{Heeded, RawMode};
use std::io::{self, IsTerminal, Write};
use std::os::fd::AsRawFd;
use std::time::{Duration, Instant};

/// Asks for the flags of Kitty's protocol, and then for the attributes, which nearly every terminal
/// tells. Replies come in this order.
const QUESTIONS: &[u8] = b"\x1b[?u\x1b[c";
/// A terminal that took so long never answers.
const LONGEST_REPLY: Duration = Duration::from_secs(2);

/// A terminal in raw mode, to which what is written goes as it is.
pub struct Terminal {
    pub guard: RawMode,
    raw: Settings,
    /// When the questions were asked, until the last reply comes, and how long the slowest took.
    asked: Option<Instant>,
    slowest: Option<Duration>,
}

/// Returns the settings of the terminal on which the program was started, and its size.
pub fn found() -> io::Result<(Settings, WindowSize)> {
    if !io::stdin().is_terminal() || !io::stdout().is_terminal() {
        return Err(io::Error::other(
            "standard input and output have to be a terminal",
        ));
    }
    let input = io::stdin().as_raw_fd();
    Ok((Settings::of(input)?, unix::size(input)?))
}

impl Terminal {
    /// Sets raw mode, from the settings of before.
    pub fn enter(before: &Settings) -> io::Result<Terminal> {
        let terminal = Terminal {
            guard: RawMode::noting(MODES)?,
            raw: before.to_raw(),
            asked: None,
            slowest: None,
        };
        terminal.set_output_raw()?;
        Ok(terminal)
    }

    /// Asks whether the terminal has Kitty's protocol, behind what waits for it.
    pub fn ask(&mut self, waiting: &mut Vec<u8>) {
        waiting.extend(QUESTIONS);
        self.asked = Some(Instant::now());
        self.tell_owed();
    }

    /// Has the guard know what the terminal still owes, which it waits for where it leaves that.
    fn tell_owed(&self) {
        self.guard.set_owed(self.asked.iter().count(), self.slowest);
    }

    fn forget_overdue(&mut self) {
        self.asked = self.asked.filter(|at| at.elapsed() < LONGEST_REPLY);
        self.tell_owed();
    }

    /// Notes that the terminal told its attributes. Returns whether the child had asked for them.
    pub fn note_attributes(&mut self) -> bool {
        self.forget_overdue();
        let Some(asked) = self.asked.take() else {
            return true;
        };
        self.slowest = self.slowest.max(Some(asked.elapsed()));
        self.tell_owed();
        false
    }

    /// The guard has a line that is written end with LF alone. The child's terminal has done that
    /// already, and another LF only moves down.
    fn set_output_raw(&self) -> io::Result<()> {
        self.raw.apply(self.guard.input().as_raw_fd())
    }

    /// Does what signals ask for. If that is to stop or to end, the terminal first gets what waits
    /// for it, so that it isn't left within a sequence.
    pub fn heed(&mut self, waiting: &mut Vec<u8>) -> io::Result<Heeded> {
        if self.guard.is_stopping() || self.guard.ending().is_some() {
            let _ = self.guard.output().write_all(waiting); // it may be gone
            waiting.clear();
        }
        self.forget_overdue();
        let heeded = self.guard.heed()?;
        if heeded == Heeded::Resumed {
            self.set_output_raw()?;
            self.asked = None;
            self.tell_owed();
        }
        Ok(heeded)
    }

    /// Has the guard know what the terminal was told for the child.
    pub fn set_wanted(&self, wanted: &Wanted) {
        self.guard.set_own(&wanted.on(), &wanted.off());
    }

    pub fn size(&self) -> io::Result<WindowSize> {
        unix::size(self.guard.input().as_raw_fd())
    }
}

impl Drop for Terminal {
    fn drop(&mut self) {
        self.forget_overdue();
    }
}
