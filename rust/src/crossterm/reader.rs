// The program's terminal, as the functions with crossterm's names read it.
use super::other::{refuse, Other};
use super::Converter;
use crate::terminal::unix::Settings;
use crate::terminal::{restore, Answers, Modes, RawMode, Terminal};
use crate::{AllocError, Dialect, Event, Parser, Reading, Size};
use ::crossterm::event as theirs;
use ::crossterm::terminal::is_raw_mode_enabled;
use std::collections::VecDeque;
use std::io::{self, ErrorKind};
use std::mem;
#[cfg(feature = "crossterm-stream")]
use std::os::fd::OwnedFd;
#[cfg(feature = "crossterm-stream")]
use std::sync::Arc;
use std::sync::{Condvar, Mutex, MutexGuard, PoisonError};
#[cfg(feature = "crossterm-stream")]
use std::task::Waker;
use std::time::{Duration, Instant};

// How long a reply of the terminal is awaited, as crossterm does.
const PATIENCE: Duration = Duration::from_secs(2);

// What is read of the terminal. The terminal is held from the first call on until crossterm's raw
// mode is off, and without that while a call lasts: signals do then at once what they ask for.
#[derive(Default)]
pub(super) struct Reader {
    terminal: Option<Terminal>,
    // What was read before the terminal was left, and its size then.
    left: Option<(Parser, Option<Size>)>,
    converter: Converter,
    // What no call has returned yet.
    events: VecDeque<theirs::Event>,
    // What a stream waits for. The thread of one may still have it when the terminal is left.
    #[cfg(feature = "crossterm-stream")]
    watched: Option<Arc<[OwnedFd; 2]>>,
    other: Other,
}

impl Reader {
    // The terminal, which is opened unless it is.
    fn begin(&mut self) -> io::Result<&mut Terminal> {
        let terminal = match self.terminal.take() {
            Some(terminal) => terminal,
            None => self.open()?,
        };
        let terminal = self.terminal.insert(terminal);
        self.other.refuse(terminal.raw_mode().input())?;
        Ok(terminal)
    }

    // Another program may have had the terminal since it was left.
    fn open(&mut self) -> io::Result<Terminal> {
        self.events.try_reserve(1).map_err(|_| AllocError)?;
        let mut terminal = open()?;
        if let Some((parser, size)) = self.left.take() {
            let reading = mem::replace(terminal.parser(), parser).reading();
            terminal.parser().set_reading(reading);
            let _ = terminal.parser().interrupted(Instant::now()); // all is told
            let resized = terminal.size().ok().filter(|it| Some(*it) != size);
            let resized = resized.map(Event::Resized);
            self.events
                .extend(resized.and_then(|it| self.converter.convert(it).ok()));
        }
        Ok(terminal)
    }

    // Waits until an event is there, at most so long. Returns whether one is.
    fn wait(&mut self, end: Option<Instant>) -> io::Result<bool> {
        if self.events.is_empty() {
            self.drain()?;
        }
        if self.events.is_empty() {
            self.begin()?;
        }
        while let (true, Some(terminal)) = (self.events.is_empty(), &mut self.terminal) {
            self.events.try_reserve(1).map_err(|_| AllocError)?;
            if let Some(end) = end {
                let left = end.saturating_duration_since(Instant::now());
                if !terminal.poll(left)? {
                    return Ok(false);
                }
            }
            let event = terminal.read()?;
            let event = event.ok_or(ErrorKind::UnexpectedEof)?;
            self.events.extend(self.converter.convert(event));
        }
        Ok(true)
    }

    // Has all that was read be told.
    fn drain(&mut self) -> io::Result<()> {
        let Some(terminal) = &mut self.terminal else {
            return Ok(());
        };
        loop {
            self.events.try_reserve(1).map_err(|_| AllocError)?;
            let Some(event) = terminal.next_event()? else {
                return Ok(());
            };
            self.events.extend(self.converter.convert(event));
        }
    }

    // Leaves the terminal to the program as it was before raw mode. What was read of it counts, and
    // the text of a paste or a string that is open goes on later.
    fn leave(&mut self) -> io::Result<()> {
        self.drain()?;
        if let Some(terminal) = &mut self.terminal {
            terminal.parser().flush();
        }
        self.drain()?;
        let spare = Parser::try_new(Dialect::Extended)?;
        #[cfg(feature = "crossterm-stream")]
        drop(self.watched.take());
        if let Some(mut terminal) = self.terminal.take() {
            let size = terminal.size().ok();
            self.left = Some((mem::replace(terminal.parser(), spare), size));
        }
        Ok(())
    }

    // A signal that ends the program does so once crossterm's raw mode is off.
    fn finish(&mut self) -> io::Result<()> {
        let Some(terminal) = &self.terminal else {
            return Ok(());
        };
        if terminal.ending().is_some() {
            restore();
            ::crossterm::terminal::disable_raw_mode()?;
        }
        if is_raw_mode_enabled()? {
            return Ok(());
        }
        self.leave()
    }
}

// The settings from before `enable_raw_mode`.
static BEFORE: Mutex<Option<Settings>> = Mutex::new(None);

// The settings that the guard restores. A crate below may have set raw mode by crossterm itself, which
// keeps them to itself. Only then is it off for a moment.
fn settings_before() -> io::Result<Settings> {
    if !is_raw_mode_enabled()? {
        return RawMode::settings();
    }
    if let Some(before) = *locked(&BEFORE) {
        return Ok(before);
    }
    ::crossterm::terminal::disable_raw_mode()?;
    let before = RawMode::settings();
    ::crossterm::terminal::enable_raw_mode()?;
    before
}

// The terminal as crossterm has set it.
fn open() -> io::Result<Terminal> {
    let opened = Terminal::begin(Modes::NONE, Some(settings_before()?));
    if matches!(&opened, Err(error) if error.kind() == ErrorKind::AlreadyExists) {
        refuse(
            "this program reads its terminal by a guard of hedrugal::terminal already: read it by \
             crossterm's names alone, or by those alone",
        );
    }
    let mut terminal = opened?;
    // Nobody tells which mouse reports the program turned on by crossterm's commands. As crossterm
    // does, this reads them all.
    let parser = terminal.parser();
    let x10_mouse = true;
    parser.set_reading(Reading {
        x10_mouse,
        ..parser.reading()
    });
    Ok(terminal)
}

// The reader, and whose turn it is: one call has it at a time.
static READER: Mutex<Option<Reader>> = Mutex::new(None);
static TURN: Mutex<Turn> = Mutex::new(Turn {
    is_taken: false,
    waiting: 0,
});
static PUT_BACK: Condvar = Condvar::new();

fn locked<T>(it: &Mutex<T>) -> MutexGuard<'_, T> {
    it.lock().unwrap_or_else(PoisonError::into_inner)
}

struct Turn {
    is_taken: bool,
    // How many calls wait for it: nobody else is told of its end.
    waiting: usize,
}

// The reader, while a call has it.
struct Taken(MutexGuard<'static, Option<Reader>>);

impl Taken {
    // Waits while another call has it, at most so long.
    fn wait(end: Option<Instant>) -> Option<Taken> {
        let mut turn = locked(&TURN);
        while turn.is_taken {
            let left = end.map_or(Duration::MAX, |end| {
                end.saturating_duration_since(Instant::now())
            });
            if left.is_zero() {
                return None;
            }
            turn.waiting += 1;
            let waited = PUT_BACK.wait_timeout(turn, left);
            turn = waited.unwrap_or_else(PoisonError::into_inner).0;
            turn.waiting -= 1;
        }
        turn.is_taken = true;
        Some(Taken(locked(&READER)))
    }
}

impl Drop for Taken {
    fn drop(&mut self) {
        let mut turn = locked(&TURN);
        turn.is_taken = false;
        if turn.waiting > 0 {
            PUT_BACK.notify_one();
        }
    }
}

// Calls a function with the reader. Returns `None` if another call has it for so long.
fn with_reader<T>(
    end: Option<Instant>,
    call: impl FnOnce(&mut Reader) -> io::Result<T>,
) -> io::Result<Option<T>> {
    let Some(mut taken) = Taken::wait(end) else {
        return Ok(None);
    };
    let reader = taken.0.get_or_insert_with(Reader::default);
    let done = call(reader);
    let _ = reader.finish(); // the next call does what couldn't be done
    done.map(Some)
}

// The task of a stream that waits.
#[cfg(feature = "crossterm-stream")]
static STREAM: Mutex<Option<Waker>> = Mutex::new(None);

// Calls a function that reads with the reader, as above. A stream that waits then looks again: what
// was read may be its key.
fn read_by<T>(
    end: Option<Instant>,
    call: impl FnOnce(&mut Reader) -> io::Result<T>,
) -> io::Result<Option<T>> {
    let done = with_reader(end, call);
    #[cfg(feature = "crossterm-stream")]
    {
        let waker = locked(&STREAM).take();
        if let Some(waker) = waker {
            waker.wake();
        }
    }
    done
}

/// Waits for an event, as `crossterm::event::read` does. What crossterm's type can't say is left
/// out. Keys are read by each keyboard protocol, and mouse reports in each form, whatever the program
/// has turned on.
///
/// The terminal is read as crossterm has set it: a program calls `enable_raw_mode` before. A signal
/// that ends or stops the program restores the settings from before that.
///
/// ```no_run
/// use hedrugal::crossterm::event::{self, Event};
///
/// if let Event::Key(key) = event::read()? {
///     println!("{:?}", key.code);
/// }
/// # Ok::<(), std::io::Error>(())
/// ```
///
/// # Errors
///
/// If there is no terminal, if it can't be read, or with `UnexpectedEof` where it is gone.
///
/// # Panics
///
/// If the program reads its terminal by a [`Terminal`] or has a [`RawMode`] too.
pub fn read() -> io::Result<theirs::Event> {
    let event = read_by(None, |reader| {
        reader.wait(None)?;
        Ok(reader.events.pop_front())
    });
    event?
        .flatten()
        .ok_or_else(|| ErrorKind::Interrupted.into())
}

/// Waits for an event, at most for so long, as `crossterm::event::poll` does. Returns whether
/// [`read`] returns one at once.
///
/// ```no_run
/// use hedrugal::crossterm::event;
/// use std::time::Duration;
///
/// while !event::poll(Duration::from_millis(250))? {
///     println!("still nothing");
/// }
/// # Ok::<(), std::io::Error>(())
/// ```
///
/// # Errors
///
/// Those of [`read`].
///
/// # Panics
///
/// That of [`read`].
pub fn poll(time: Duration) -> io::Result<bool> {
    let end = Instant::now().checked_add(time);
    Ok(read_by(end, |reader| reader.wait(end))?.unwrap_or(false))
}

// What a stream finds.
#[cfg(feature = "crossterm-stream")]
pub(super) enum Found {
    Event(theirs::Event),
    // There will be none.
    End,
    // Until one of these can be read, or for so long, there is none.
    Nothing(Arc<[OwnedFd; 2]>, Option<Duration>),
    // Another call reads.
    Busy,
}

#[cfg(feature = "crossterm-stream")]
impl Reader {
    fn watch(&mut self) -> io::Result<Found> {
        let watched = match self.watched.take() {
            Some(watched) => watched,
            None => {
                let descriptors = self.begin()?.descriptors();
                let [input, wake] = descriptors.map(|it| it.try_clone_to_owned());
                Arc::new([input?, wake?])
            }
        };
        self.watched = Some(Arc::clone(&watched));
        let time = self.begin()?.timeout();
        Ok(Found::Nothing(watched, time))
    }
}

// Looks for an event, without a wait. Calls that end from here on wake the task.
#[cfg(feature = "crossterm-stream")]
pub(super) fn find(waker: &Waker) -> io::Result<Found> {
    let _before = locked(&STREAM).replace(waker.clone());
    let now = Some(Instant::now());
    let found = with_reader(now, |reader| match reader.wait(now) {
        Ok(true) => Ok(reader.events.pop_front().map_or(Found::Busy, Found::Event)),
        Ok(false) => reader.watch(),
        Err(error) if error.kind() == ErrorKind::UnexpectedEof => Ok(Found::End),
        Err(error) => Err(error),
    });
    Ok(found?.unwrap_or(Found::Busy))
}

/// Sets raw mode, as `crossterm::terminal::enable_raw_mode` does.
///
/// # Errors
///
/// If there is no terminal, or it can't be set.
pub fn enable_raw_mode() -> io::Result<()> {
    if !is_raw_mode_enabled()? {
        *locked(&BEFORE) = Some(RawMode::settings()?);
    }
    ::crossterm::terminal::enable_raw_mode()
}

/// Ends raw mode, as `crossterm::terminal::disable_raw_mode` does. What was read up to now stays for
/// [`read`]. Until the next call that reads, signals do what they did before this package read. It
/// waits for no other thread.
///
/// # Errors
///
/// If the terminal can't be set.
pub fn disable_raw_mode() -> io::Result<()> {
    let left = with_reader(Some(Instant::now()), Reader::leave);
    if matches!(left, Ok(None)) {
        restore(); // another thread waits for an event
    }
    ::crossterm::terminal::disable_raw_mode()?;
    *locked(&BEFORE) = None;
    left.map(|_| ())
}

// Asks the terminal, in raw mode.
fn ask(question: &str) -> io::Result<Answers> {
    let is_raw = is_raw_mode_enabled()?;
    if !is_raw {
        enable_raw_mode()?;
    }
    let end = Instant::now().checked_add(PATIENCE);
    let asked = read_by(end, |reader| reader.begin()?.ask(question, PATIENCE));
    if !is_raw {
        disable_raw_mode()?;
    }
    Ok(asked?.unwrap_or_default())
}

fn no_reply(what: &str) -> io::Error {
    io::Error::new(
        ErrorKind::TimedOut,
        format!("the terminal didn't tell {what}"),
    )
}

/// Asks the terminal for the position of its cursor, as `crossterm::cursor::position` does: the
/// column and the row, from 0 on. What is typed meanwhile stays for [`read`].
///
/// ```no_run
/// let (column, row) = hedrugal::crossterm::cursor::position()?;
/// # Ok::<(), std::io::Error>(())
/// ```
///
/// # Errors
///
/// Those of [`read`], or if the terminal doesn't reply within two seconds.
///
/// # Panics
///
/// That of [`read`].
pub fn position() -> io::Result<(u16, u16)> {
    let found = ask("\x1b[6n")?
        .events
        .into_iter()
        .find_map(|event| match event {
            Event::CursorPosition { row, column } => Some((row, column)),
            _ => None,
        });
    let (row, column) = found.ok_or_else(|| no_reply("its cursor's position"))?;
    Ok((column.saturating_sub(1), row.saturating_sub(1)))
}

/// Asks the terminal whether it has Kitty's keyboard protocol, as later versions of crossterm do.
/// What is typed meanwhile stays for [`read`].
///
/// ```no_run
/// if hedrugal::crossterm::terminal::supports_keyboard_enhancement()? {
///     println!("Ctrl-I isn't Tab");
/// }
/// # Ok::<(), std::io::Error>(())
/// ```
///
/// # Errors
///
/// Those of [`read`], or if the terminal doesn't reply within two seconds.
///
/// # Panics
///
/// That of [`read`].
pub fn supports_keyboard_enhancement() -> io::Result<bool> {
    let answers = ask("\x1b[?u")?;
    let has_flags = |it: &Event| matches!(it, Event::KeyboardFlags(_));
    if answers.events.iter().any(has_flags) {
        Ok(true)
    } else if answers.is_whole {
        Ok(false)
    } else {
        Err(no_reply("whether it has Kitty's keyboard protocol"))
    }
}
