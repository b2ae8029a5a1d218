// Raw mode, and the signals that come meanwhile.
use super::leftover::Leftover;
use super::unix::{self, Action, Settings};
use super::unix::{SIGALRM, SIGCONT, SIGHUP, SIGINT, SIGQUIT, SIGTERM, SIGTSTP, SIGWINCH};
use super::Modes;
use crate::{Dialect, Reading, Size};
use std::ffi::c_int;
use std::fs::File;
use std::io::{self, IsTerminal, Read, Write};
use std::os::fd::{AsFd, AsRawFd, BorrowedFd, RawFd};
use std::os::unix::net::UnixStream;
use std::sync::atomic::Ordering::SeqCst;
use std::sync::atomic::{AtomicBool, AtomicI32, AtomicPtr, AtomicUsize};
use std::sync::OnceLock;
use std::time::Duration;
use std::{fmt, process, ptr, thread};

// The terminal of the one guard that there may be, for the handler of signals.
static ENTERED: AtomicPtr<Entered> = AtomicPtr::new(ptr::null_mut());
// How many calls use what ENTERED leads to. It is freed when there are none.
static USERS: AtomicUsize = AtomicUsize::new(0);
// Whether the terminal is in raw mode, and whether its modes are still to be turned off.
static IS_RAW: AtomicBool = AtomicBool::new(false);
static IS_SWITCHED: AtomicBool = AtomicBool::new(false);
// Whether somebody sets the terminal: see `Turn`.
static IS_BUSY: AtomicBool = AtomicBool::new(false);
// Where a loop heeds signals they are only noted, unless another program was lent the terminal. Both
// change while it is somebody's turn.
static HAS_LOOP: AtomicBool = AtomicBool::new(false);
static IS_LENT: AtomicBool = AtomicBool::new(false);
// What was noted.
static ENDING: AtomicI32 = AtomicI32::new(0);
static STOPPING: AtomicBool = AtomicBool::new(false);
static CONTINUED: AtomicBool = AtomicBool::new(false);
static RESIZED: AtomicBool = AtomicBool::new(false);
// What the handler writes to, so that a wait of the loop ends. It stays open.
static WAKE: AtomicI32 = AtomicI32::new(-1);

const HANDLED: [c_int; 7] = [SIGHUP, SIGINT, SIGQUIT, SIGTERM, SIGTSTP, SIGCONT, SIGALRM];

// What turns modes on, and what turns them off.
#[derive(Default)]
struct Switches {
    on: String,
    off: String,
}

impl Switches {
    // Whether they turn mouse reports on.
    fn have_mouse(&self) -> bool {
        let is_mouse = |mode| matches!(mode, "9" | "1000" | "1002" | "1003");
        let mut behind = self.on.split("\x1b[?").skip(1);
        behind.any(|it| {
            it.split_once('h')
                .is_some_and(|(modes, _)| modes.split(';').any(is_mouse))
        })
    }
}

// The turn to set the terminal, which one call has at a time. A handler that doesn't get it notes its
// signal, and whoever has it does what was noted at its end.
struct Turn;

impl Turn {
    fn take() -> Option<Turn> {
        let taken = IS_BUSY.compare_exchange(false, true, SeqCst, SeqCst);
        taken.ok().map(|_| Turn)
    }

    // Not for a handler: the call that it interrupted may have the turn.
    fn wait() -> Turn {
        loop {
            match Turn::take() {
                Some(turn) => return turn,
                None => thread::yield_now(),
            }
        }
    }
}

impl Drop for Turn {
    fn drop(&mut self) {
        IS_BUSY.store(false, SeqCst);
    }
}

// A terminal that is in raw mode, or was left for another program.
struct Entered {
    input: File,
    output: File,
    saved: Settings,
    raw: Settings,
    modes: Switches,
    // What the program turned on by itself since. Handlers read it, so it is replaced as a whole.
    own: AtomicPtr<Switches>,
    // The signals that are handled, and what each did before.
    before: Vec<(c_int, Action)>,
    leftover: Leftover,
    // The process whose terminal it is. A child of fork has a copy of all this.
    owner: u32,
}

impl Entered {
    fn is_owner(&self) -> bool {
        process::id() == self.owner
    }

    // Whether the terminal wasn't left, and nobody else has set it since.
    fn is_kept(&self) -> bool {
        let settings = Settings::of(self.input.as_raw_fd());
        IS_RAW.load(SeqCst) && settings.is_ok_and(|settings| settings.is_raw())
    }

    // Sets raw mode. What was typed ahead is kept. Around SIGSTOP the terminal was never left: then
    // modes are turned off first, since some of them nest.
    fn enter(&self) -> io::Result<()> {
        if !self.is_owner() {
            return Ok(());
        }
        IS_RAW.store(true, SeqCst);
        self.raw.apply(self.input.as_raw_fd())?;
        self.turn_off(unix::write_all)?;
        IS_SWITCHED.store(true, SeqCst);
        for switches in [&self.modes, self.own()] {
            unix::write_all(self.output.as_raw_fd(), switches.on.as_bytes())?;
        }
        Ok(())
    }

    fn own(&self) -> &Switches {
        // SAFETY: it is freed only once it isn't there for new users, and there are none.
        unsafe { &*self.own.load(SeqCst) }
    }

    fn has_mouse(&self) -> bool {
        self.modes.have_mouse() || self.own().have_mouse()
    }

    // Restores the terminal, unless another program has it. What the terminal still sends is read, or
    // else discarded, so that neither a reply nor a mouse report reaches the shell. What was typed
    // ahead is kept where neither may come. A terminal that is gone can't be restored, so errors
    // count for nothing.
    fn leave(&self) {
        if IS_RAW.load(SeqCst) && self.is_owner() {
            let _ = io::stdout().flush();
            let _ = self.turn_off(unix::write_all);
            let input = self.input.as_raw_fd();
            let has_mouse = self.has_mouse();
            let _ = if self.leftover.read(&self.input, &self.output, has_mouse) {
                self.saved.apply(input)
            } else {
                self.saved.apply_and_discard(input)
            };
            IS_RAW.store(false, SeqCst);
        }
    }

    // Does the same in a handler, where what can't be written at once is left out, and nothing is
    // read.
    fn leave_at_once(&self) {
        if self.is_owner() && IS_RAW.swap(false, SeqCst) {
            let _ = self.turn_off(unix::write_at_once);
            let input = self.input.as_raw_fd();
            if self.leftover.take() || self.has_mouse() {
                unix::discard(input);
            }
            let _ = self.saved.apply_at_once(input);
        }
    }

    // Not twice, also where a handler interrupts it.
    fn turn_off(&self, write: fn(RawFd, &[u8]) -> io::Result<()>) -> io::Result<()> {
        if IS_SWITCHED.swap(false, SeqCst) {
            for switches in [self.own(), &self.modes] {
                write(self.output.as_raw_fd(), switches.off.as_bytes())?;
            }
        }
        Ok(())
    }

    // Does what was noted, unless a loop will, or the call that has the turn does so at its end. A
    // handler calls it.
    fn act_on_noted(&self) {
        while is_noted() && !is_for_loop() {
            let Some(_turn) = Turn::take() else { return };
            self.act();
        }
    }

    fn act(&self) {
        if is_for_loop() {
            return;
        }
        let was_raw = IS_RAW.load(SeqCst);
        CONTINUED.store(false, SeqCst);
        if let Some(number) = take_ending() {
            self.leave_at_once();
            self.send_as_before(number);
        } else if STOPPING.swap(false, SeqCst) {
            self.leave_at_once();
            self.stop();
        }
        // A signal that ends the program comes before raw mode, by which a program in the background
        // would be stopped once more.
        if was_raw && ENDING.load(SeqCst) == 0 && !self.is_kept() {
            let _ = self.enter();
        }
    }

    // Has a signal do what it did before it was handled, until it is handled again.
    fn send_as_before(&self, number: c_int) {
        if self.give_back(number) {
            let _ = handled(number).set(number);
        }
    }

    // Has a signal do what it did before it was handled. Returns whether it was handled.
    fn give_back(&self, number: c_int) -> bool {
        let before = self.before.iter().find(|(it, _)| *it == number);
        let is_set = before.is_some_and(|(_, action)| action.set(number).is_ok());
        if is_set {
            unix::send(number);
        }
        is_set
    }

    // Stops as a program does that handles no SIGTSTP. Returns once it is continued, or at once if no
    // shell could continue it.
    fn stop(&self) {
        self.send_as_before(SIGTSTP);
        STOPPING.store(false, SeqCst);
        CONTINUED.store(false, SeqCst);
    }
}

fn is_noted() -> bool {
    ENDING.load(SeqCst) != 0 || STOPPING.load(SeqCst) || CONTINUED.load(SeqCst)
}

fn is_for_loop() -> bool {
    HAS_LOOP.load(SeqCst) && !IS_LENT.load(SeqCst)
}

// Calls a function with the terminal of the guard, if there is one.
fn with_entered(call: impl FnOnce(&Entered)) {
    USERS.fetch_add(1, SeqCst);
    // SAFETY: it is freed only once it isn't there for new users, and there are none.
    if let Some(entered) = unsafe { ENTERED.load(SeqCst).as_ref() } {
        call(entered);
    }
    USERS.fetch_sub(1, SeqCst);
}

// Waits until no call uses what isn't there for new ones.
fn wait_for_users() {
    while USERS.load(SeqCst) > 0 {
        thread::yield_now();
    }
}

// What a signal does while there is a guard. One that comes again and again doesn't interrupt its own
// handler, unless that has to send it.
fn handled(number: c_int) -> Action {
    Action::handled_by(handle, !matches!(number, SIGCONT | SIGWINCH | SIGALRM))
}

extern "C" fn handle(number: c_int) {
    unix::keep_errno(|| {
        with_entered(|entered| match number {
            _ if !entered.is_owner() => {
                entered.give_back(number);
            }
            SIGALRM => end_at_once(entered),
            SIGINT | SIGQUIT if IS_LENT.load(SeqCst) => {} // typed for the other program
            _ => {
                note(number);
                entered.act_on_noted();
            }
        });
    });
}

// The program still runs a second after a signal that ends it: it may be in a write that blocks.
fn end_at_once(entered: &Entered) {
    if let Some(number) = take_ending() {
        entered.leave_at_once();
        entered.send_as_before(number);
    }
}

fn note(number: c_int) {
    match number {
        SIGTSTP => STOPPING.store(true, SeqCst),
        SIGCONT => CONTINUED.store(true, SeqCst),
        SIGWINCH => RESIZED.store(true, SeqCst),
        _ => note_ending(number),
    }
    let _ = unix::write_at_once(WAKE.load(SeqCst), b"!"); // a full socket ends the wait as well
}

fn note_ending(number: c_int) {
    if ENDING.compare_exchange(0, number, SeqCst, SeqCst).is_ok() {
        unix::set_alarm(1);
    }
}

fn take_ending() -> Option<c_int> {
    let number = ENDING.swap(0, SeqCst);
    (number != 0).then(|| {
        unix::set_alarm(0);
        number
    })
}

// What can be read once a signal was noted.
fn wake() -> io::Result<&'static UnixStream> {
    static ENDS: OnceLock<(UnixStream, UnixStream)> = OnceLock::new();
    let (ours, handlers) = UnixStream::pair()?;
    ours.set_nonblocking(true)?;
    handlers.set_nonblocking(true)?;
    let (ours, handlers) = ENDS.get_or_init(|| (ours, handlers));
    WAKE.store(handlers.as_raw_fd(), SeqCst);
    Ok(ours)
}

// The terminal behind standard input or output, or else that of the session.
fn terminal_of(standard: impl AsFd + IsTerminal) -> io::Result<File> {
    if standard.is_terminal() {
        return Ok(File::from(standard.as_fd().try_clone_to_owned()?));
    }
    let opened = File::options().read(true).write(true).open("/dev/tty");
    opened.map_err(|error| {
        let told = format!("standard input and output have to be a terminal, or /dev/tty: {error}");
        io::Error::new(error.kind(), told)
    })
}

/// What [`RawMode::heed`] found.
#[derive(Debug, Clone, Copy, PartialEq, Eq)]
pub enum Heeded {
    /// No signal that asks for anything.
    Nothing,
    /// The terminal has a new size.
    Resized,
    /// Another program had the terminal, and the size may be new. A program that feeds a parser tells
    /// what was read before, and then calls [`interrupted`](crate::Parser::interrupted).
    Resumed,
    /// A signal ends the program, which drops the guard.
    Ending,
}

/// A terminal in raw mode, which is restored when this is dropped, also by a panic.
///
/// Each byte arrives at once and as it is: ^C, ^Z and ^\ are keys like any other, and Enter is CR. A
/// line that is written still ends with LF. What [`Modes`] says is turned on, and off again.
///
/// The terminal is restored too before SIGHUP, SIGINT, SIGQUIT or SIGTERM does what it did before the
/// guard, which ends most programs, and before SIGTSTP stops it. After SIGCONT it is in raw mode
/// again, if another program had it: one that SIGSTOP had stopped may find it as it was.
///
/// A guard of [`RawMode::new`] does all this in the handler of the signal. That of
/// [`RawMode::noting`] is for a program with a loop, which hears of signals by [`RawMode::heed`].
/// Once the guard is dropped, these signals do what they did before, and one that was noted is sent
/// again. SIGALRM is handled too. A signal that was ignored before stays ignored.
///
/// What was typed ahead is left for the shell. Only what comes with mouse reports is discarded, unless
/// the program tells what is owed: [`RawMode::set_owed`].
///
/// A program has one guard at a time. A child of fork has a copy, which leaves the terminal to the
/// parent. Nothing is restored by other signals that end the program, by `abort` or by
/// `std::process::exit`: call [`restore`] before these, and in a hook for panics that abort.
///
/// ```no_run
/// use hedrugal::terminal::{Modes, RawMode};
///
/// let guard = RawMode::new(Modes::default())?;
/// // The program reads keys.
/// drop(guard);
/// # Ok::<(), std::io::Error>(())
/// ```
pub struct RawMode {
    wake: &'static UnixStream,
}

impl RawMode {
    /// Sets the terminal to raw mode. It is that of standard input, or `/dev/tty` if standard input
    /// is none. What turns modes on and off is written to standard output if that is a terminal, or
    /// else to `/dev/tty`.
    ///
    /// # Errors
    ///
    /// If there is no terminal, if it can't be set, or if there is a guard already
    /// ([`AlreadyExists`](io::ErrorKind::AlreadyExists)). The terminal is unchanged then.
    pub fn new(modes: Modes) -> io::Result<RawMode> {
        RawMode::begin(modes, false, None)
    }

    /// Does what [`RawMode::new`] does, and notes signals for the program's loop, SIGWINCH too.
    ///
    /// The program may still run a second after a signal that ends it, as in a write that blocks
    /// since nobody reads. Then the terminal is restored but for what can't be written at once, and
    /// the signal ends the program.
    ///
    /// ```no_run
    /// use hedrugal::terminal::{Modes, RawMode};
    ///
    /// let guard = RawMode::noting(Modes::default())?;
    /// // The program's loop waits for these two.
    /// let descriptors = [std::os::fd::AsFd::as_fd(guard.input()), guard.wake()];
    /// # Ok::<(), std::io::Error>(())
    /// ```
    ///
    /// # Errors
    ///
    /// Those of [`RawMode::new`].
    pub fn noting(modes: Modes) -> io::Result<RawMode> {
        RawMode::begin(modes, true, None)
    }

    // The terminal's settings as they are now.
    #[cfg(feature = "crossterm-base")]
    pub(crate) fn settings() -> io::Result<Settings> {
        Settings::of(terminal_of(io::stdin())?.as_raw_fd())
    }

    // `saved` has the settings to restore where the terminal is set already: it stays as it is.
    pub(super) fn begin(
        modes: Modes,
        has_loop: bool,
        saved: Option<Settings>,
    ) -> io::Result<RawMode> {
        let wake = wake()?;
        claim(Entered::find(modes, has_loop, saved)?)?;
        let guard = RawMode { wake };
        let turn = Turn::wait();
        HAS_LOOP.store(has_loop, SeqCst);
        for (number, _) in &guard.entered().before {
            handled(*number).set(*number)?;
        }
        guard.entered().enter()?;
        drop(turn);
        guard.entered().act_on_noted();
        Ok(guard)
    }

    fn entered(&self) -> &Entered {
        // SAFETY: this guard, which is borrowed, put it there, and takes it away when it is dropped.
        unsafe { &*ENTERED.load(SeqCst) }
    }

    /// Returns the terminal's size. What the terminal doesn't know of it is 0.
    ///
    /// # Errors
    ///
    /// If the terminal is gone.
    pub fn size(&self) -> io::Result<Size> {
        unix::size(self.output().as_raw_fd())
    }

    /// Returns how a [`Parser`](crate::Parser) is to read this terminal: which byte its Backspace key
    /// sends (VERASE), and what byte 10 is (ICRNL).
    ///
    /// ```no_run
    /// use hedrugal::terminal::{Modes, RawMode};
    /// use hedrugal::{Dialect, Parser};
    ///
    /// let guard = RawMode::new(Modes::default())?;
    /// let mut parser = Parser::new(Dialect::Extended);
    /// parser.set_reading(guard.reading());
    /// # Ok::<(), std::io::Error>(())
    /// ```
    #[must_use]
    pub fn reading(&self) -> Reading {
        let settings = &self.entered().raw;
        Reading {
            erase: settings.erase(),
            newline: settings.newline(),
            ..Reading::new(Dialect::Extended)
        }
    }

    /// Returns the terminal to read from. A program reads it by [`Read`] of `&File`, or by its
    /// descriptor.
    #[must_use]
    pub fn input(&self) -> &File {
        &self.entered().input
    }

    /// Returns the terminal to write to, also if standard output is none.
    #[must_use]
    pub fn output(&self) -> &File {
        &self.entered().output
    }

    /// Returns what can be read once a signal was noted, for a loop that waits for several
    /// descriptors. The loop then calls [`RawMode::heed`], and reads nothing of it.
    #[must_use]
    pub fn wake(&self) -> BorrowedFd<'_> {
        self.wake.as_fd()
    }

    /// Does what the signals that were noted ask for. SIGTSTP stops the program in this call, while a
    /// shell has the terminal as it was.
    ///
    /// ```no_run
    /// use hedrugal::terminal::{Heeded, Modes, RawMode};
    ///
    /// let mut guard = RawMode::noting(Modes::default())?;
    /// // The loop found that `guard.wake()` can be read.
    /// if guard.heed()? == Heeded::Resized {
    ///     println!("{:?}", guard.size()?);
    /// }
    /// # Ok::<(), std::io::Error>(())
    /// ```
    ///
    /// # Errors
    ///
    /// If raw mode can't be set again.
    pub fn heed(&mut self) -> io::Result<Heeded> {
        while self.wake.read(&mut [0; 64]).is_ok() {}
        let _turn = Turn::wait();
        let is_stopping = self.is_stopping();
        if is_stopping {
            self.entered().leave();
            self.entered().stop();
        }
        if self.ending().is_some() {
            return Ok(Heeded::Ending); // before raw mode is set once more
        }
        let is_continued = CONTINUED.swap(false, SeqCst);
        if is_stopping || is_continued && !self.entered().is_kept() {
            RESIZED.store(false, SeqCst);
            self.entered().enter()?;
            return Ok(Heeded::Resumed);
        }
        if RESIZED.swap(false, SeqCst) {
            return Ok(Heeded::Resized);
        }
        Ok(Heeded::Nothing)
    }

    /// Returns the signal that ends the program, if one was noted.
    #[must_use]
    pub fn ending(&self) -> Option<i32> {
        Some(ENDING.load(SeqCst)).filter(|number| *number != 0)
    }

    /// Returns whether SIGTSTP was noted, so that [`RawMode::heed`] is going to stop the program.
    /// What has to be written before that is written now.
    #[must_use]
    pub fn is_stopping(&self) -> bool {
        STOPPING.load(SeqCst) && self.ending().is_none()
    }

    /// Tells the guard what the program has turned on by itself since, and what turns that off. It
    /// takes the place of what was told before. Nothing is written by this call: `off` is written
    /// wherever the guard turns its own modes off, before them, and `on` after it turned them on
    /// again.
    ///
    /// ```no_run
    /// use hedrugal::terminal::{Modes, RawMode};
    /// use std::io::Write;
    ///
    /// let guard = RawMode::new(Modes::default())?;
    /// let (on, off) = ("\x1b[?1049h", "\x1b[?1049l");
    /// guard.set_own(on, off);
    /// guard.output().write_all(on.as_bytes())?;
    /// # Ok::<(), std::io::Error>(())
    /// ```
    pub fn set_own(&self, on: &str, off: &str) {
        let own = Box::new(Switches {
            on: on.to_string(),
            off: off.to_string(),
        });
        let before = self.entered().own.swap(Box::into_raw(own), SeqCst);
        wait_for_users();
        // SAFETY: nobody has it any more: calls that aren't users have the guard for themselves.
        drop(unsafe { Box::from_raw(before) });
    }

    /// Lends the terminal as it was to what a function runs, such as an editor, and then sets raw
    /// mode again, whatever that did to the settings. Meanwhile SIGINT and SIGQUIT aren't for this
    /// program, and other signals do at once what they ask for.
    ///
    /// ```no_run
    /// use hedrugal::terminal::{Modes, RawMode};
    /// use std::process::Command;
    ///
    /// let mut guard = RawMode::new(Modes::default())?;
    /// let status = guard.lend(|| Command::new("vi").status())??;
    /// # Ok::<(), std::io::Error>(())
    /// ```
    ///
    /// # Errors
    ///
    /// If raw mode can't be set again.
    pub fn lend<T>(&mut self, call: impl FnOnce() -> T) -> io::Result<T> {
        let turn = Turn::wait();
        IS_LENT.store(true, SeqCst);
        self.entered().leave();
        drop(turn);
        self.entered().act_on_noted();
        let done = call();
        let turn = Turn::wait();
        IS_LENT.store(false, SeqCst);
        self.entered().enter()?;
        drop(turn);
        self.entered().act_on_noted();
        Ok(done)
    }

    /// Tells the guard how many replies to ESC `[c` are owed, and how long the slowest took so far. A
    /// program that reads by itself tells it after each such question and each reply. Where the guard
    /// leaves the terminal it waits for the last of them, so that the shell gets none, and no reply is
    /// owed after that.
    ///
    /// A [`Terminal`](super::Terminal) does it itself, after a question and whenever it reads.
    ///
    /// ```no_run
    /// use hedrugal::terminal::{Modes, RawMode};
    /// use std::io::Write;
    ///
    /// let guard = RawMode::new(Modes::default())?;
    /// guard.output().write_all(b"\x1b]11;?\x1b\\\x1b[c")?;
    /// guard.set_owed(1, None);
    /// # Ok::<(), std::io::Error>(())
    /// ```
    pub fn set_owed(&self, owed: usize, longest: Option<Duration>) {
        self.entered().leftover.set(owed, longest);
    }
}

impl Drop for Entered {
    fn drop(&mut self) {
        // SAFETY: nobody else has what is dropped.
        drop(unsafe { Box::from_raw(*self.own.get_mut()) });
    }
}

impl Entered {
    // The terminal of this program, as it is before raw mode.
    fn find(modes: Modes, has_loop: bool, saved: Option<Settings>) -> io::Result<Entered> {
        let input = terminal_of(io::stdin())?;
        let output = terminal_of(io::stdout())?;
        let settings = Settings::of(input.as_raw_fd())?;
        let signals = HANDLED.into_iter().chain(has_loop.then_some(SIGWINCH));
        let actions: io::Result<Vec<_>> = signals
            .map(|number| Action::of(number).map(|action| (number, action)))
            .collect();
        let mut before = actions?;
        before.retain(|(_, action)| !action.is_ignored());
        Ok(Entered {
            before,
            input,
            output,
            saved: saved.unwrap_or(settings),
            raw: saved.map_or(settings.to_raw(), |_| settings),
            modes: Switches {
                on: modes.on(),
                off: modes.off(),
            },
            own: AtomicPtr::new(Box::into_raw(Box::default())),
            leftover: Leftover::new(),
            owner: process::id(),
        })
    }
}

// Makes it the terminal of the one guard, if there is no other.
fn claim(entered: Entered) -> io::Result<()> {
    let entered = Box::into_raw(Box::new(entered));
    let claimed = ENTERED.compare_exchange(ptr::null_mut(), entered, SeqCst, SeqCst);
    claimed.map(|_| ()).map_err(|_| {
        // SAFETY: nobody else has it.
        drop(unsafe { Box::from_raw(entered) });
        let told = "the terminal is in raw mode by another guard";
        io::Error::new(io::ErrorKind::AlreadyExists, told)
    })
}

/// Restores the terminal of a guard, if there is one. It isn't left twice: the guard then only has
/// the signals do what they did before.
///
/// Call it before what drops no guard, and in a hook for panics, so that their messages are written
/// to a terminal as it was:
///
/// ```
/// use hedrugal::terminal::restore;
/// use std::panic;
///
/// let hook = panic::take_hook();
/// panic::set_hook(Box::new(move |panic| {
///     restore();
///     hook(panic);
/// }));
/// ```
pub fn restore() {
    // A guard that is dropped meanwhile has the turn, and waits for all users.
    let _turn = Turn::wait();
    with_entered(Entered::leave);
}

impl Drop for RawMode {
    fn drop(&mut self) {
        let turn = Turn::wait();
        self.entered().leave();
        for (number, before) in &self.entered().before {
            // A handler that the program has set since stays. It may call ours, which does nothing.
            if Action::of(*number).is_ok_and(|it| it.has_handler_of(&handled(*number))) {
                let _ = before.set(*number);
            }
        }
        let entered = ENTERED.swap(ptr::null_mut(), SeqCst);
        wait_for_users();
        // SAFETY: this guard put it there, and no handler has it any more.
        drop(unsafe { Box::from_raw(entered) });
        for flag in [&HAS_LOOP, &IS_LENT, &IS_SWITCHED, &CONTINUED, &RESIZED] {
            flag.store(false, SeqCst);
        }
        drop(turn);
        send_noted();
    }
}

// Sends what was noted and not heeded to what handles it now.
fn send_noted() {
    let is_stopping = STOPPING.swap(false, SeqCst);
    match take_ending() {
        Some(number) => unix::send(number),
        None if is_stopping => unix::send(SIGTSTP),
        None => {}
    }
}

impl fmt::Debug for RawMode {
    fn fmt(&self, f: &mut fmt::Formatter<'_>) -> fmt::Result {
        let entered = self.entered();
        f.debug_struct("RawMode")
            .field("input", &entered.input)
            .field("output", &entered.output)
            .finish_non_exhaustive()
    }
}
