// A terminal that a program reads events from.
use super::leftover::ATTRIBUTES;
use super::unix::{self, Settings, EIO};
use super::{parser_of, Heeded, Modes, RawMode};
use crate::questions::Questions;
use crate::{AllocError, Event, Parser, Size};
use std::collections::VecDeque;
use std::fmt;
use std::io::{self, ErrorKind, Read, Write};
use std::os::fd::{AsFd, AsRawFd, BorrowedFd};
use std::time::{Duration, Instant};

// The most bytes that are read at once.
const READ: usize = 4096;
// So many events stay for the program at most while a question waits for its replies.
const MOST_EVENTS: usize = 1 << 16;

/// What [`Terminal::ask`] was answered.
///
/// ```no_run
/// use hedrugal::terminal::Terminal;
/// use std::time::Duration;
///
/// let answers = Terminal::open()?.ask("\x1b[>q", Duration::from_secs(1))?;
/// if !answers.is_whole {
///     println!("the terminal answers slowly, or not at all");
/// }
/// # Ok::<(), std::io::Error>(())
/// ```
#[derive(Debug, Clone, Default, PartialEq, Eq)]
pub struct Answers {
    /// The replies, in their order: `Csi`, `Osc`, `Dcs`, `Apc`, `StringPart`, `StringCut`,
    /// `CursorPosition` and `KeyboardFlags`.
    pub events: Vec<Event>,
    /// Whether the last question, for the attributes, was answered: no reply is missing then but to
    /// questions that the terminal doesn't know.
    pub is_whole: bool,
}

// An event that waits for the program, and the number of the question that it is a reply to.
struct Told {
    event: Event,
    question: Option<u64>,
}

/// A terminal in raw mode, and its events. It is restored when this is dropped, as [`RawMode`] says.
///
/// Keys, mouse reports, pastes and replies are read by a [`Parser`] with its limits in time, so
/// Escape alone comes 50 ms after it was pressed. A paste above a megabyte comes in parts. A new size
/// is an event too. SIGTSTP stops the program in the call that waits for events.
///
/// SIGHUP, SIGINT, SIGQUIT or SIGTERM ends the events, as the end of the input does. The program
/// then saves what it has to, within a second, and drops the terminal. That restores it, and sends
/// the signal again, which ends the program.
///
/// When the terminal is left, replies that it still owes are read first, so that a shell doesn't get
/// them. They are awaited for twice as long as the slowest took, between 200 ms and a second. What was
/// typed before such a reply is lost.
///
/// Reads, waits and writes go on after EINTR, and after EAGAIN where another program set the terminal
/// not to wait.
///
/// ```no_run
/// use hedrugal::terminal::{Modes, Terminal};
/// use hedrugal::MouseTracking;
///
/// let terminal = Terminal::open_with(Modes {
///     mouse: Some(MouseTracking::Normal),
///     ..Modes::default()
/// })?;
/// for event in terminal {
///     println!("{:?}", event?);
/// }
/// # Ok::<(), std::io::Error>(())
/// ```
pub struct Terminal {
    parser: Parser,
    questions: Questions,
    // What comes before what the parser has: events beside replies, and what signals tell.
    first: VecDeque<Told>,
    // What was read and refused memory by the parser. It never grows.
    unfed: Vec<u8>,
    is_ended: bool,
    raw_mode: RawMode,
}

impl Terminal {
    /// Sets the program's terminal to raw mode with bracketed paste.
    ///
    /// # Errors
    ///
    /// Those of [`RawMode::new`], or `OutOfMemory`.
    pub fn open() -> io::Result<Terminal> {
        Terminal::open_with(Modes::default())
    }

    /// Sets the program's terminal to raw mode with these modes.
    ///
    /// # Errors
    ///
    /// Those of [`Terminal::open`].
    pub fn open_with(modes: Modes) -> io::Result<Terminal> {
        Terminal::begin(modes, None)
    }

    // `saved` has the settings to restore where the terminal is set already: it stays as it is.
    pub(crate) fn begin(modes: Modes, saved: Option<Settings>) -> io::Result<Terminal> {
        let mut unfed = Vec::new();
        unfed.try_reserve_exact(READ).map_err(|_| AllocError)?;
        let raw_mode = RawMode::begin(modes, true, saved)?;
        Ok(Terminal {
            parser: parser_of(raw_mode.reading())?,
            questions: Questions::default(),
            first: VecDeque::new(),
            unfed,
            is_ended: false,
            raw_mode,
        })
    }

    /// Returns the parser, for its limits in time, how it reads, and above how many bytes a paste
    /// comes in parts.
    ///
    /// ```no_run
    /// use hedrugal::terminal::Terminal;
    /// use hedrugal::Policy;
    /// use std::time::Duration;
    ///
    /// let mut terminal = Terminal::open()?;
    /// let escape = Some(Duration::from_millis(20));
    /// terminal.parser().set_policy(Policy { escape, ..Policy::usual() });
    /// terminal.parser().set_parts(Some(4096));
    /// # Ok::<(), std::io::Error>(())
    /// ```
    #[must_use]
    pub fn parser(&mut self) -> &mut Parser {
        &mut self.parser
    }

    /// Waits for an event. Returns `None` at the end of the input, where the terminal is gone, and
    /// where a signal ends the program.
    ///
    /// # Errors
    ///
    /// If the terminal can't be read, or with `OutOfMemory`. No event is lost: call again.
    pub fn read(&mut self) -> io::Result<Option<Event>> {
        loop {
            let event = self.next_event()?;
            if event.is_some() || self.is_over() {
                return Ok(event);
            }
            self.wait(None)?;
        }
    }

    /// Waits for an event, at most for so long. Returns whether [`Terminal::read`] returns at once:
    /// an event is there, or there will be none.
    ///
    /// ```no_run
    /// use hedrugal::terminal::Terminal;
    /// use std::time::Duration;
    ///
    /// let mut terminal = Terminal::open()?;
    /// if !terminal.poll(Duration::from_secs(1))? {
    ///     println!("still nothing");
    /// }
    /// # Ok::<(), std::io::Error>(())
    /// ```
    ///
    /// # Errors
    ///
    /// Those of [`Terminal::read`].
    pub fn poll(&mut self, time: Duration) -> io::Result<bool> {
        let end = Instant::now().checked_add(time);
        Ok(!self.first.is_empty() || self.pull_until(end)? || self.is_over())
    }

    /// Asks the terminal, and waits for its replies, at most for so long. Other events that come
    /// meanwhile stay for [`Terminal::read`].
    ///
    /// A terminal doesn't reply to a question that it doesn't know. So ESC `[c`, to which nearly all
    /// reply, is asked last, and the call returns as soon as that is answered. Each ESC `[6n` in the
    /// questions is expected to be answered by a position, whose bytes may be those of an F3.
    ///
    /// A reply that comes later is an event, and answers no later question. The reply to ESC `[c` is
    /// awaited for two seconds, or for `time` if that is longer. One that comes after that, while
    /// another question is open, can't be told from the reply to it.
    ///
    /// The call also returns where another program had the terminal meanwhile, and once 65,536
    /// events stay for [`Terminal::read`]. The answers aren't whole then. While 16 questions await
    /// their replies, no further one is written, and there are no answers.
    ///
    /// ```no_run
    /// use hedrugal::terminal::Terminal;
    /// use hedrugal::Event;
    /// use std::time::Duration;
    ///
    /// let mut terminal = Terminal::open()?;
    /// for reply in terminal.ask("\x1b[6n\x1b]11;?\x1b\\", Duration::from_secs(1))?.events {
    ///     if let Event::CursorPosition { row, column } = reply {
    ///         println!("cursor in row {row}, column {column}");
    ///     } else if let Some(reply) = reply.reply() {
    ///         println!("{reply:?}");
    ///     }
    /// }
    /// # Ok::<(), std::io::Error>(())
    /// ```
    ///
    /// # Errors
    ///
    /// Those of [`Terminal::read`], or if the questions can't be written. None of them is open then.
    /// The replies that came before stay for [`Terminal::read`], in their order with the other events.
    pub fn ask(&mut self, questions: &str, time: Duration) -> io::Result<Answers> {
        let end = Instant::now().checked_add(time);
        while self.pull()? {} // what came before is no reply
        let Some(number) = self.write_questions(questions, time)? else {
            return Ok(Answers::default());
        };
        while self.questions.is_open(number) && self.first.len() < MOST_EVENTS {
            if !self.pull_until(end)? {
                break;
            }
        }
        Ok(Answers {
            events: self.take_replies(number)?,
            is_whole: self.questions.answered() == number,
        })
    }

    // Asks these questions, and last the one that nearly every terminal answers. Returns the number
    // of all, and `None` if too many are open. If they can't be written, none of them is open.
    fn write_questions(&mut self, questions: &str, time: Duration) -> io::Result<Option<u64>> {
        let (now, text, before) = (Instant::now(), questions.as_bytes(), self.questions);
        let number = self.questions.ask(&mut self.parser, now, time, text);
        if number.is_none() {
            return Ok(None);
        }
        self.tell_owed();
        let written = self.write_asked(text);
        if written.is_err() {
            self.questions = before;
            self.expire_questions(now);
        }
        written.map(|()| number)
    }

    fn write_asked(&self, text: &[u8]) -> io::Result<()> {
        io::stdout().flush()?;
        let output = self.raw_mode.output().as_raw_fd();
        unix::write_all(output, text)?;
        unix::write_all(output, ATTRIBUTES)
    }

    // Takes the replies to a question out of the events that are there.
    fn take_replies(&mut self, number: u64) -> io::Result<Vec<Event>> {
        let is_reply = |it: &Told| it.question == Some(number);
        let count = self.first.iter().filter(|it| is_reply(it)).count();
        let mut replies = Vec::new();
        replies.try_reserve_exact(count).map_err(|_| AllocError)?;
        for _ in 0..self.first.len() {
            match self.first.pop_front() {
                Some(told) if is_reply(&told) => replies.push(told.event),
                told => self.first.extend(told),
            }
        }
        Ok(replies)
    }

    /// Lends the terminal as it was to what a function runs, such as an editor, as
    /// [`RawMode::lend`] does. What was read before counts, and a paste or a string that is open goes
    /// on after it. The beginning of anything else is forgotten, and so are open questions.
    ///
    /// ```no_run
    /// use hedrugal::terminal::Terminal;
    ///
    /// let mut terminal = Terminal::open()?;
    /// let status = terminal.lend(|| std::process::Command::new("vi").status())??;
    /// # Ok::<(), std::io::Error>(())
    /// ```
    ///
    /// # Errors
    ///
    /// If raw mode can't be set again, or with `OutOfMemory`: then nothing was called.
    pub fn lend<T>(&mut self, call: impl FnOnce() -> T) -> io::Result<T> {
        while self.pull()? {}
        self.expire_questions(Instant::now());
        let done = self.raw_mode.lend(call);
        self.resume();
        done
    }

    /// Returns the terminal's size. What the terminal doesn't know of it is 0.
    ///
    /// # Errors
    ///
    /// If the terminal is gone.
    pub fn size(&self) -> io::Result<Size> {
        self.raw_mode.size()
    }

    /// Returns the signal that ends the program, if one came.
    #[must_use]
    pub fn ending(&self) -> Option<i32> {
        self.raw_mode.ending()
    }

    /// Returns the guard, by which a program also writes to its terminal where standard output is
    /// none.
    ///
    /// ```no_run
    /// use hedrugal::terminal::Terminal;
    ///
    /// let mut terminal = Terminal::open()?;
    /// std::io::Write::write_all(&mut terminal.raw_mode().output(), b"q ends\n")?;
    /// # Ok::<(), std::io::Error>(())
    /// ```
    #[must_use]
    pub fn raw_mode(&self) -> &RawMode {
        &self.raw_mode
    }

    /// Returns how long a loop of the program's own may wait at most. `None` is forever.
    ///
    /// Such a loop waits until one of [`Terminal::descriptors`] can be read, or this time is over.
    /// Then it calls [`Terminal::poll`] with no time, and [`Terminal::read`], until there is no event.
    ///
    /// ```no_run
    /// use hedrugal::terminal::Terminal;
    /// use std::time::Duration;
    ///
    /// let mut terminal = Terminal::open()?;
    /// while terminal.poll(Duration::ZERO)? {
    ///     println!("{:?}", terminal.read()?);
    /// }
    /// println!("{:?}", terminal.timeout());
    /// # Ok::<(), std::io::Error>(())
    /// ```
    #[must_use]
    pub fn timeout(&self) -> Option<Duration> {
        if self.first.is_empty() && self.unfed.is_empty() {
            self.limit(Instant::now())
        } else {
            Some(Duration::ZERO)
        }
    }

    /// Returns what a loop of the program's own waits for: the terminal, and the signals that came.
    #[must_use]
    pub fn descriptors(&self) -> [BorrowedFd<'_>; 2] {
        [self.raw_mode.input().as_fd(), self.raw_mode.wake()]
    }

    // Waits for an event at most up to a time, and has it come last of those that are there. Returns
    // whether one came.
    fn pull_until(&mut self, end: Option<Instant>) -> io::Result<bool> {
        let count = self.first.len();
        loop {
            if self.pull()? || self.first.len() > count {
                return Ok(true);
            }
            let left = end.map(|end| end.saturating_duration_since(Instant::now()));
            if self.is_over() || !self.wait(left)? && left == Some(Duration::ZERO) {
                return Ok(self.pull()? || self.first.len() > count);
            }
        }
    }

    // Whether no event comes any more.
    pub(crate) fn is_over(&self) -> bool {
        self.is_ended || self.raw_mode.ending().is_some()
    }

    // An event that is there.
    pub(crate) fn next_event(&mut self) -> io::Result<Option<Event>> {
        let told = match self.first.pop_front() {
            None => self.tell()?,
            told => told,
        };
        Ok(told.map(|told| told.event))
    }

    // Has the next event of what was read come last of those that are there. Returns whether there
    // was one.
    fn pull(&mut self) -> io::Result<bool> {
        self.first.try_reserve(1).map_err(|_| AllocError)?;
        let told = self.tell()?;
        let is_told = told.is_some();
        self.first.extend(told);
        Ok(is_told)
    }

    // The next event of what was read.
    fn tell(&mut self) -> io::Result<Option<Told>> {
        loop {
            if let Some(event) = self.parser.try_next()? {
                let question = self.note(&event);
                return Ok(Some(Told { event, question }));
            }
            if self.unfed.is_empty() {
                return Ok(None);
            }
            self.parser.try_feed(Instant::now(), &self.unfed)?;
            self.unfed.clear();
        }
    }

    // Notes an event. Returns the number of the question that it is a reply to.
    fn note(&mut self, event: &Event) -> Option<u64> {
        if self.questions.count() == 0 {
            return None;
        }
        let question = self.questions.note(&mut self.parser, Instant::now(), event);
        self.tell_owed();
        question
    }

    // How long to wait for more bytes.
    fn limit(&self, now: Instant) -> Option<Duration> {
        let limits = [self.parser.timeout(now), self.questions.timeout(now)];
        limits.into_iter().flatten().min()
    }

    // Waits for input, a signal or a limit in time, at most for so long. The clock is read first:
    // nothing came up to then if nothing is there. Returns whether input or a signal came.
    pub(crate) fn wait(&mut self, time: Option<Duration>) -> io::Result<bool> {
        let now = Instant::now();
        let limits = [time, self.limit(now)];
        let came = self.handle_ready(limits.into_iter().flatten().min())?;
        if !came {
            self.parser.idle(now);
            self.expire_questions(now);
        }
        Ok(came)
    }

    // Waits for input or a signal, and handles it. Returns whether one came.
    pub(crate) fn handle_ready(&mut self, time: Option<Duration>) -> io::Result<bool> {
        let polled = self.descriptors().map(|it| it.as_raw_fd());
        match unix::poll_all(polled, time) {
            Ok([_, true]) => self.heed()?,
            Ok([true, false]) => self.read_input()?,
            Ok([false, false]) => return Ok(false),
            Err(error) if error.kind() == ErrorKind::Interrupted => self.heed()?,
            Err(error) => return Err(error),
        }
        Ok(true)
    }

    // Heeds the signals that came. All that was read is told by then. A terminal that is gone has no
    // size, which the next read tells.
    fn heed(&mut self) -> io::Result<()> {
        self.first.try_reserve(2).map_err(|_| AllocError)?;
        self.expire_questions(Instant::now());
        let heeded = self.raw_mode.heed()?;
        if heeded == Heeded::Resumed {
            self.resume();
            self.push(Event::Resumed);
        }
        if let (Heeded::Resumed | Heeded::Resized, Ok(size)) = (heeded, self.size()) {
            self.push(Event::Resized(size));
        }
        Ok(())
    }

    fn push(&mut self, event: Event) {
        let question = None;
        self.first.push_back(Told { event, question });
    }

    // Another program had the terminal. All that was read before is told, so the parser isn't busy.
    fn resume(&mut self) {
        let _ = self.parser.interrupted(Instant::now());
        self.questions.forget(&mut self.parser);
        self.tell_owed();
    }

    fn expire_questions(&mut self, now: Instant) {
        self.questions.expire(&mut self.parser, now);
        self.tell_owed();
    }

    // Has the guard know what the terminal still owes, for when it is left.
    fn tell_owed(&self) {
        let questions = &self.questions;
        self.raw_mode
            .set_owed(questions.count(), questions.slowest());
    }

    // Reads what is there. A terminal that is gone is at its end.
    fn read_input(&mut self) -> io::Result<()> {
        let mut bytes = [0; READ];
        match self.raw_mode.input().read(&mut bytes) {
            Ok(0) => self.end(),
            Ok(count) => self.unfed.extend_from_slice(&bytes[..count]),
            Err(error) if error.raw_os_error() == Some(EIO) => self.end(),
            Err(error)
                if matches!(error.kind(), ErrorKind::WouldBlock | ErrorKind::Interrupted) => {}
            Err(error) => return Err(error),
        }
        Ok(())
    }

    fn end(&mut self) {
        self.is_ended = true;
        self.parser.end();
    }
}

impl Drop for Terminal {
    fn drop(&mut self) {
        self.expire_questions(Instant::now());
    }
}

/// Writes to the terminal, also if standard output is none or another program set it not to wait:
/// then this waits for room. `println!` fails there.
///
/// ```no_run
/// use hedrugal::terminal::Terminal;
/// use std::io::Write;
///
/// let mut terminal = Terminal::open()?;
/// terminal.write_all(b"q ends\n")?;
/// # Ok::<(), std::io::Error>(())
/// ```
impl Write for Terminal {
    fn write(&mut self, bytes: &[u8]) -> io::Result<usize> {
        unix::write_waiting(self.raw_mode.output().as_raw_fd(), bytes)
    }

    /// Does nothing: no byte is kept here.
    fn flush(&mut self) -> io::Result<()> {
        Ok(())
    }
}

impl Iterator for Terminal {
    type Item = io::Result<Event>;

    /// Does what [`Terminal::read`] does.
    fn next(&mut self) -> Option<io::Result<Event>> {
        self.read().transpose()
    }
}

impl fmt::Debug for Terminal {
    fn fmt(&self, f: &mut fmt::Formatter<'_>) -> fmt::Result {
        f.debug_struct("Terminal")
            .field("raw_mode", &self.raw_mode)
            .finish_non_exhaustive()
    }
}
