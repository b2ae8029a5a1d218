// The parser: bytes of a terminal to events.
use crate::entries::{Completions, EntryBytes};
use crate::error::{granted, AllocError, FeedError, FAULT};
use crate::input::KeyEvent;
use crate::times::{wait_of, Clock};
use crate::{raw, table, Dialect, Event, Policy, Reading, SequenceBytes};
use std::fmt;
use std::sync::{Mutex, MutexGuard, PoisonError};
use std::time::{Duration, Instant};

// So many bytes of an event have a place that is used again for those of the next one.
const FEW_BYTES: usize = 4096;

/// What stays buffered, as [`Parser::waiting`] returns it. A [`Policy`] says how long each may.
#[derive(Clone, Copy, Debug, PartialEq, Eq, Hash)]
pub enum Waiting {
    /// Nothing is buffered.
    Nothing,
    /// ESC, or ESC ESC: the Escape key, alone or with Alt, unless more bytes follow.
    Escape,
    /// A longer prefix of a sequence, or of what opens a string, after an ESC or not.
    Sequence,
    /// A prefix of a character in UTF-8, after an ESC or not.
    Character,
    /// An open paste: its start, and its text so far.
    Paste,
    /// An open string: its opening, and its bytes so far.
    String,
}

impl Waiting {
    // What the library's number stands for.
    fn of(number: u32) -> Waiting {
        match number {
            raw::WAITING_NOTHING => Waiting::Nothing,
            raw::WAITING_ESCAPE => Waiting::Escape,
            raw::WAITING_SEQUENCE => Waiting::Sequence,
            raw::WAITING_CHARACTER => Waiting::Character,
            raw::WAITING_PASTE => Waiting::Paste,
            raw::WAITING_STRING => Waiting::String,
            _ => unreachable!("{FAULT}"),
        }
    }
}

// An event of the library, which is written and read field by field. So aligned it is more often in
// one line of the processor's cache, and no heap is asked for more than it gives anyway.
#[repr(align(16))]
struct Last(raw::Event);

/// Reads events from the bytes that a terminal sends: keys, mouse reports, pastes, and replies.
///
/// [`feed`](Parser::feed) buffers bytes, and the iterator tells events. However the bytes are cut
/// into calls, the events are the same. The [crate's page](crate) has the loop of a program.
///
/// ```
/// use hedrugal::{Dialect, Event, Parser};
/// use std::time::Instant;
///
/// let mut parser = Parser::new(Dialect::Extended);
/// parser.feed(Instant::now(), b"\x1b[?24;8");
/// assert_eq!(parser.next(), None);
/// parser.feed(Instant::now(), b"0R");
/// assert_eq!(parser.next(), Some(Event::CursorPosition { row: 24, column: 80 }));
/// ```
pub struct Parser {
    // The library allows one thread at a time, also in calls that only read, so a call through a
    // shared reference locks it.
    raw: Mutex<raw::Parser>,
    // The library's last event, and whether it is still to be told: it stays until memory for its
    // text is granted.
    last: Last,
    is_refused: bool,
    policy: Policy,
    clock: Clock,
}

impl Parser {
    /// Makes a parser with an empty buffer. It shares the process's sequence table with all other
    /// parsers.
    ///
    /// # Panics
    ///
    /// If memory is refused.
    #[must_use]
    pub fn new(dialect: Dialect) -> Parser {
        Parser::try_new(dialect).expect("a parser is made")
    }

    /// Does what [`Parser::new`] does.
    ///
    /// # Errors
    ///
    /// If memory is refused, for the parser or for the table of the process's first one.
    pub fn try_new(dialect: Dialect) -> Result<Parser, AllocError> {
        let (mut raw, dialect) = (raw::Parser::NONE, dialect.number());
        // SAFETY: `raw` is no parser yet, which the call allows. `idle` is another one, which this
        // thread alone has.
        table::share(|idle| unsafe { raw::hed_parser_init_sharing(&mut raw, dialect, idle) })?;
        Ok(Parser {
            raw: Mutex::new(raw),
            last: Last(raw::Event::default()),
            is_refused: false,
            policy: Policy::usual(),
            clock: Clock::default(),
        })
    }

    /// Says that these bytes came now: appends them to the buffer. Then take the events until there
    /// is none.
    ///
    /// # Panics
    ///
    /// If memory is refused, or a flush that began isn't over: see [`FeedError`].
    pub fn feed(&mut self, now: Instant, bytes: &[u8]) {
        self.try_feed(now, bytes).expect("the bytes are buffered");
    }

    /// Does what [`Parser::feed`] does.
    ///
    /// # Errors
    ///
    /// `Memory`, or `Busy` while a flush that began isn't over. None of the bytes is buffered.
    pub fn try_feed(&mut self, now: Instant, bytes: &[u8]) -> Result<(), FeedError> {
        let now = self.clock.begin(now);
        self.feed_at(now, bytes)
    }

    // The same at a time of the library's.
    pub(crate) fn feed_at(&mut self, now: u64, bytes: &[u8]) -> Result<(), FeedError> {
        // SAFETY: `raw` is a parser. A slice's pointer leads to as many bytes as its length says.
        let status = unsafe { raw::hed_parser_feed(self.raw(), now, bytes.as_ptr(), bytes.len()) };
        fed(status)
    }

    /// Returns the next event, and consumes its bytes. `None` says that all is told: what stays
    /// buffered may become a longer sequence or a character.
    ///
    /// # Errors
    ///
    /// If memory is refused, for an event that brings text or bytes. It isn't lost: call again.
    #[inline]
    pub fn try_next(&mut self) -> Result<Option<Event>, AllocError> {
        let status = self.pull();
        // Most events are such keys. One is made where the program takes it, so it isn't copied.
        if status == raw::STATUS_OK {
            if let Some(key) = Event::of_plain_key(&self.last.0) {
                return Ok(Some(key));
            }
        }
        self.told(status)
    }

    // What isn't worth its code in each program that takes events. Each kind of event is written to
    // its place at once.
    #[inline(never)]
    fn told(&mut self, status: u32) -> Result<Option<Event>, AllocError> {
        if !is_told(status)? {
            return Ok(None);
        }
        if let Some(event) = Event::of_numbers(&self.last.0) {
            return Ok(Some(event));
        }
        match SequenceBytes::few_zeros(self.last.0.text_len) {
            // The library writes few bytes where the event has them.
            Some(few) if !self.last.0.brings_text() => {
                let mut event = Event::of_bytes(&self.last.0, few);
                self.write_text(event.bytes_mut());
                Ok(Some(event))
            }
            _ => self.told_on_heap().map(Some),
        }
    }

    // The last event, which brings text or many bytes.
    #[inline(never)]
    fn told_on_heap(&mut self) -> Result<Event, AllocError> {
        if self.last.0.brings_text() {
            let text = self.text()?;
            Ok(Event::of_text(&self.last.0, text))
        } else {
            let bytes = self.all_bytes()?;
            Ok(Event::of_bytes(&self.last.0, bytes.into()))
        }
    }

    // Does what `try_next` does, as `of` makes an event of the library's and of its text.
    pub(crate) fn next_by<Told>(
        &mut self,
        of: impl FnOnce(&raw::Event, String) -> Told,
    ) -> Result<Option<Told>, AllocError> {
        let status = self.pull();
        if !is_told(status)? {
            return Ok(None);
        }
        let text = self.text()?;
        Ok(Some(of(&self.last.0, text)))
    }

    // Has the library tell an event, unless the last one is still to be told.
    #[inline]
    fn pull(&mut self) -> u32 {
        if self.is_refused {
            return raw::STATUS_OK;
        }
        let raw = self.raw.get_mut().unwrap_or_else(PoisonError::into_inner);
        // SAFETY: `raw` is a parser, and `last` another value.
        unsafe { raw::hed_parser_next(raw, &mut self.last.0) }
    }

    // The text that the last event brought.
    #[inline]
    fn text(&mut self) -> Result<String, AllocError> {
        if self.last.0.text_len == 0 {
            return Ok(String::new());
        }
        Ok(String::from_utf8(self.all_bytes()?).expect(FAULT))
    }

    // Copies the bytes that the last event brought to a slice for all of them.
    #[inline]
    fn write_text(&mut self, out: &mut [u8]) {
        // SAFETY: `raw` is a parser. The call writes at most as many bytes as the slice has.
        let len = unsafe { raw::hed_parser_text(self.raw(), out.as_mut_ptr(), out.len()) };
        assert!(len == out.len(), "{FAULT}");
    }

    // The bytes that the last event brought. Once they are copied, the library frees the place of
    // many. That of few it keeps for the next event.
    fn all_bytes(&mut self) -> Result<Vec<u8>, AllocError> {
        let (mut text, len) = (Vec::new(), self.last.0.text_len);
        self.is_refused = text.try_reserve_exact(len).is_err();
        if self.is_refused {
            return Err(AllocError);
        }
        let raw = self.raw();
        // SAFETY: `raw` is a parser. The vector has room for as many bytes, which no other value
        // has, and the call writes all of them.
        unsafe {
            let whole = raw::hed_parser_text(raw, text.as_mut_ptr(), len);
            assert_eq!(whole, len, "{FAULT}");
            text.set_len(len);
            if len > FEW_BYTES {
                raw::hed_parser_drop_text(raw);
            }
        }
        Ok(text)
    }

    /// Returns how long to wait for input: zero while events are left, and else until what is
    /// buffered is due. `None` is for ever.
    ///
    /// ```
    /// use hedrugal::{Dialect, Parser};
    /// use std::time::{Duration, Instant};
    ///
    /// let (mut parser, now) = (Parser::new(Dialect::Extended), Instant::now());
    /// assert_eq!(parser.timeout(now), None);
    /// parser.feed(now, b"\x1b");
    /// assert_eq!(parser.next(), None);
    /// assert_eq!(parser.timeout(now), Some(Duration::from_millis(50)));
    /// ```
    #[must_use]
    pub fn timeout(&self, now: Instant) -> Option<Duration> {
        if self.is_refused {
            return Some(Duration::ZERO);
        }
        let now = self.clock.millis(now);
        // SAFETY: this is a parser, which this thread alone has.
        wait_of(unsafe { raw::hed_parser_timeout(&*self.locked(), now) })
    }

    /// Says that nothing more came up to now: the program looked, and found nothing.
    ///
    /// If all is told and what is buffered is due, the events that follow tell it: an Escape key, a
    /// sequence that was cut off as its keys, and an open paste as a `Paste` of what came so far.
    /// Before that only the time is noted.
    ///
    /// ```
    /// use hedrugal::{Dialect, Parser};
    /// use std::time::{Duration, Instant};
    ///
    /// let (mut parser, start) = (Parser::new(Dialect::Extended), Instant::now());
    /// parser.feed(start, b"\x1b");
    /// assert_eq!(parser.next(), None);
    /// parser.idle(start + Duration::from_millis(49));
    /// assert_eq!(parser.next(), None);
    /// parser.idle(start + Duration::from_millis(50));
    /// let press = parser.next().and_then(|event| event.press());
    /// assert_eq!(press, "escape".parse().ok());
    /// ```
    pub fn idle(&mut self, now: Instant) {
        let now = self.clock.begin(now);
        // SAFETY: `raw` is a parser.
        unsafe { raw::hed_parser_idle(self.raw(), now) }
    }

    /// Reads what is buffered with no more to come, and the events that follow tell it. An open
    /// paste stays open. It is for a program that knows by itself that nothing more came, as at its
    /// pauses.
    pub fn flush(&mut self) {
        // SAFETY: `raw` is a parser.
        unsafe { raw::hed_parser_flush(self.raw()) }
    }

    /// Says that nothing will ever come: does what [`Parser::flush`] does, and an open paste ends
    /// where it is.
    pub fn end(&mut self) {
        // SAFETY: `raw` is a parser.
        unsafe { raw::hed_parser_end(self.raw()) }
    }

    /// Says that another program had the terminal up to now. A beginning that is buffered is
    /// forgotten, since its rest went there, and so are open questions.
    ///
    /// An open paste or string stays, as the rest of it would be typed otherwise. It ends where it is
    /// once nothing came for a second: the other program may have read its end.
    ///
    /// # Errors
    ///
    /// `Busy`, and nothing changed, unless all is told. It asks for no memory.
    pub fn interrupted(&mut self, now: Instant) -> Result<(), FeedError> {
        if self.is_refused {
            return Err(FeedError::Busy);
        }
        let now = self.clock.begin(now);
        // SAFETY: `raw` is a parser.
        fed(unsafe { raw::hed_parser_interrupted(self.raw(), now) })
    }

    /// Returns how long each kind of bytes may stay buffered.
    #[must_use]
    pub fn policy(&self) -> Policy {
        self.policy
    }

    /// Sets how long each kind of bytes may stay buffered, also what is buffered now.
    ///
    /// ```
    /// use hedrugal::{Dialect, Parser, Policy};
    /// use std::time::Duration;
    ///
    /// let mut parser = Parser::new(Dialect::Extended);
    /// // On a slow line the parts of a sequence come late.
    /// let sequence = Some(Duration::from_secs(5));
    /// parser.set_policy(Policy { sequence, ..parser.policy() });
    /// ```
    pub fn set_policy(&mut self, policy: Policy) {
        // SAFETY: `raw` is a parser, and the policy another value.
        let status = unsafe { raw::hed_parser_set_policy(self.raw(), &policy.raw()) };
        assert_eq!(status, raw::STATUS_OK, "{FAULT}");
        self.policy = policy;
    }

    /// Returns how the parser reads. Each [`Event::CursorPosition`] answers one of its questions, if
    /// any is open.
    #[must_use]
    pub fn reading(&self) -> Reading {
        let mut reading = raw::Reading::default();
        // SAFETY: this is a parser, which this thread alone has, and `reading` another value.
        let status = unsafe { raw::hed_parser_reading(&*self.locked(), &mut reading) };
        assert_eq!(status, raw::STATUS_OK, "{FAULT}");
        Reading::of(&reading)
    }

    /// Has the parser read so from now on, also what is buffered.
    ///
    /// ```
    /// use hedrugal::{Dialect, EraseByte, Parser, Reading};
    ///
    /// let mut parser = Parser::new(Dialect::Extended);
    /// // The terminal's settings say that Backspace sends byte 8.
    /// let erase = EraseByte::Backspace;
    /// parser.set_reading(Reading { erase, ..parser.reading() });
    /// assert_eq!(parser.reading().erase, erase);
    /// ```
    pub fn set_reading(&mut self, reading: Reading) {
        let reading = reading.raw();
        // SAFETY: `raw` is a parser, and `reading` another value.
        let status = unsafe { raw::hed_parser_set_reading(self.raw(), &reading) };
        assert_eq!(status, raw::STATUS_OK, "{FAULT}");
    }

    /// Expects one more reply to a question for the cursor's position, up to 255. Call it with each
    /// ESC `[6n` that is written.
    ///
    /// While a reply is expected, ESC `[1;5R` and the like are [`Event::CursorPosition`], and not F3
    /// with modifiers. Each such event answers one question.
    ///
    /// ```
    /// use hedrugal::{Dialect, Event, Parser};
    /// use std::time::Instant;
    ///
    /// let mut parser = Parser::new(Dialect::Extended);
    /// parser.expect_position();
    /// parser.feed(Instant::now(), b"\x1b[1;5R\x1b[1;5R");
    /// assert_eq!(parser.next(), Some(Event::CursorPosition { row: 1, column: 5 }));
    /// assert!(parser.next().is_some_and(|event| event.key().is_some()));
    /// ```
    pub fn expect_position(&mut self) {
        // SAFETY: `raw` is a parser.
        unsafe { raw::hed_parser_expect_position(self.raw()) }
    }

    /// Expects no reply any more to questions for the cursor's position. Call it when a reply is
    /// overdue, or when a later question was answered.
    pub fn forget_positions(&mut self) {
        // SAFETY: `raw` is a parser.
        unsafe { raw::hed_parser_forget_positions(self.raw()) }
    }

    /// Tells a paste in parts as soon as more than `limit` bytes of its text are buffered. `None`, as
    /// at first, tells a paste as one event, which is buffered until its end arrives.
    ///
    /// The text of an [`Event::PastePart`] is pasted, and the paste stays open: none of its further
    /// text becomes a key. The `Paste` that ends it has the rest of the text, maybe none. So with a
    /// limit such as `1 << 20` a paste of any length needs little memory: at most 6 bytes and the
    /// limit stay buffered of it, or 11 if the limit is below 5.
    ///
    /// ```
    /// use hedrugal::{Dialect, Event, Parser};
    /// use std::time::Instant;
    ///
    /// let mut parser = Parser::new(Dialect::Extended);
    /// parser.set_parts(Some(4));
    /// parser.feed(Instant::now(), b"\x1b[200~rm -rf ~\r\x1b[20");
    /// assert_eq!(parser.next(), Some(Event::PastePart("rm -rf ~\r".to_string())));
    /// parser.feed(Instant::now(), b"1~");
    /// assert_eq!(parser.next(), Some(Event::Paste(String::new())));
    /// ```
    pub fn set_parts(&mut self, limit: Option<usize>) {
        let limit = limit.unwrap_or(raw::NO_PARTS);
        // SAFETY: `raw` is a parser.
        unsafe { raw::hed_parser_set_parts(self.raw(), limit) }
    }

    /// Forgets text of an open paste before its end arrives. Returns how many bytes these were, and
    /// `None` if no paste is open.
    ///
    /// To refuse a paste that is too long, call it after each read and its events until the `Paste`
    /// comes, and ignore that event. So no byte of the paste becomes a key. It asks for no memory.
    ///
    /// ```
    /// use hedrugal::{Dialect, Parser};
    /// use std::time::Instant;
    ///
    /// let mut parser = Parser::new(Dialect::Extended);
    /// parser.feed(Instant::now(), b"\x1b[200~text");
    /// assert_eq!(parser.next(), None);
    /// assert_eq!(parser.skip_paste(), Some(4));
    /// ```
    pub fn skip_paste(&mut self) -> Option<usize> {
        let mut count = 0;
        // SAFETY: `raw` is a parser, and `count` another value.
        let status = unsafe { raw::hed_parser_skip_paste(self.raw(), &mut count) };
        (status == raw::STATUS_OK).then_some(count)
    }

    /// Forgets all that is buffered, an open paste too, an event that was refused memory, and open
    /// questions for the cursor's position. The rest of the reading stays. Returns the number of
    /// bytes that were buffered.
    pub fn reset(&mut self) -> usize {
        self.is_refused = false;
        // SAFETY: `raw` is a parser. The library may still have the text of an event that was
        // refused memory.
        unsafe {
            raw::hed_parser_drop_text(self.raw());
            raw::hed_parser_reset(self.raw())
        }
    }

    /// Gives back memory that holds no buffered bytes, but for room for `min_capacity` bytes, as
    /// `Vec::shrink_to` does. What is buffered and all later events are unchanged. If a smaller block
    /// is refused, the parser keeps the one that it has.
    ///
    /// The buffer grows with what it has to hold, such as a long paste, and keeps that memory for
    /// what comes next. Call this for the parser of a session that is quiet, with 0 or with the
    /// length of a usual read.
    pub fn shrink_to(&mut self, min_capacity: usize) {
        // SAFETY: `raw` is a parser.
        unsafe { raw::hed_parser_shrink_to(self.raw(), min_capacity) }
    }

    /// Returns what stays buffered. Call it once all events are taken.
    ///
    /// ```
    /// use hedrugal::{Dialect, Parser, Waiting};
    /// use std::time::Instant;
    ///
    /// let mut parser = Parser::new(Dialect::Extended);
    /// parser.feed(Instant::now(), b"q\x1b]0;title");
    /// assert_eq!(parser.by_ref().count(), 1);
    /// assert_eq!((parser.waiting(), parser.waiting_len()), (Waiting::String, 9));
    /// ```
    #[must_use]
    pub fn waiting(&self) -> Waiting {
        // SAFETY: this is a parser, which this thread alone has.
        Waiting::of(unsafe { raw::hed_parser_waiting(&*self.locked()) })
    }

    /// Returns the number of bytes that are buffered. Once all events are taken, it is at most 65535,
    /// unless a paste is open. The bytes of an event that was refused memory aren't among them.
    #[must_use]
    pub fn waiting_len(&self) -> usize {
        // SAFETY: this is a parser, which this thread alone has.
        unsafe { raw::hed_parser_waiting_len(&*self.locked()) }
    }

    /// Returns the entry of the sequence table at a place: the bytes of a sequence, and its key.
    /// Entries are in the order of their bytes. The first place is 0, and the result is `None` from
    /// the end of the table on. The table is the same in every parser.
    ///
    /// The start and the end of a paste are entries too, with the keys
    /// [`KeyCode::InternalPasteStart`](crate::KeyCode::InternalPasteStart) and
    /// [`KeyCode::InternalPasteEnd`](crate::KeyCode::InternalPasteEnd).
    ///
    /// ```
    /// use hedrugal::{Dialect, Parser};
    ///
    /// let parser = Parser::new(Dialect::Extended);
    /// let mut entries = (0..).map_while(|place| parser.entry(place));
    /// let ctrl_up = entries.find(|(bytes, _)| **bytes == *b"\x1b[1;5A");
    /// assert_eq!(ctrl_up.map(|(_, key)| key.to_string()).as_deref(), Some("ctrl+up"));
    /// ```
    #[must_use]
    pub fn entry(&self, place: usize) -> Option<(EntryBytes, KeyEvent)> {
        let mut bytes = [0; raw::ENTRY_MOST];
        let mut event = raw::Event::default();
        // SAFETY: this is a parser, which this thread alone has. The array's pointer leads to as
        // many bytes, and `event` is another value.
        let len = unsafe {
            let parser = self.locked();
            raw::hed_parser_entry(&*parser, place, bytes.as_mut_ptr(), bytes.len(), &mut event)
        };
        assert!(len <= bytes.len(), "{FAULT}");
        (len > 0).then(|| (EntryBytes::of(bytes, len), KeyEvent::of(&event)))
    }

    /// Returns the entries of the sequence table that would complete what stays buffered: those
    /// that begin with it and are longer. If there are none, those that begin with what follows its
    /// ESC; the keys of these get ALT.
    ///
    /// Call it while [`Parser::waiting`] is `Escape` or `Sequence`. A mouse report, a character and a
    /// paste are completed by bytes that aren't in the table, and an ESC by any character too. The
    /// start of a paste is no key event: after an ESC the Escape key is told, and the paste is open.
    ///
    /// ```
    /// use hedrugal::{Dialect, Parser};
    /// use std::time::Instant;
    ///
    /// let mut parser = Parser::new(Dialect::Extended);
    /// parser.feed(Instant::now(), b"\x1b[23;5");
    /// assert_eq!(parser.next(), None);
    /// let places = parser.completions().entries;
    /// let keys: Vec<_> = places.filter_map(|place| parser.entry(place)).collect();
    /// assert_eq!(keys[1].1.to_string(), "ctrl+f11");
    /// ```
    #[must_use]
    pub fn completions(&self) -> Completions {
        let mut found = raw::Entries::default();
        // SAFETY: this is a parser, which this thread alone has, and `found` another value.
        let status = unsafe { raw::hed_parser_completions(&*self.locked(), &mut found) };
        assert_eq!(status, raw::STATUS_OK, "{FAULT}");
        Completions {
            entries: found.first..found.first + found.count,
            with_alt: found.with_alt,
        }
    }

    // The library's parser, for a call that reads. Only a fault of the library panics while it is
    // locked.
    pub(crate) fn locked(&self) -> MutexGuard<'_, raw::Parser> {
        self.raw.lock().unwrap_or_else(PoisonError::into_inner)
    }

    // The library's parser, for a call that has this one alone.
    pub(crate) fn raw(&mut self) -> &mut raw::Parser {
        self.raw.get_mut().unwrap_or_else(PoisonError::into_inner)
    }
}

// Whether the library told an event.
#[inline]
fn is_told(status: u32) -> Result<bool, AllocError> {
    match status {
        raw::STATUS_OK => Ok(true),
        raw::STATUS_NONE => Ok(false),
        status => granted(status).map(|()| true),
    }
}

// What the library answered to bytes, or to an interruption.
fn fed(status: u32) -> Result<(), FeedError> {
    match status {
        raw::STATUS_BUSY => Err(FeedError::Busy),
        status => granted(status).map_err(FeedError::from),
    }
}

/// The events of what is buffered. After `None` there may be further ones, as once bytes are fed.
impl Iterator for Parser {
    type Item = Event;

    /// Returns what [`Parser::try_next`] returns.
    ///
    /// # Panics
    ///
    /// If memory is refused.
    #[inline]
    fn next(&mut self) -> Option<Event> {
        self.try_next().expect("the event is told")
    }
}

impl fmt::Debug for Parser {
    fn fmt(&self, f: &mut fmt::Formatter<'_>) -> fmt::Result {
        f.debug_struct("Parser")
            .field("reading", &self.reading())
            .field("waiting_len", &self.waiting_len())
            .finish_non_exhaustive()
    }
}

impl Drop for Parser {
    fn drop(&mut self) {
        // SAFETY: `raw` is a parser, and isn't used again.
        unsafe { raw::hed_parser_free(self.raw()) }
    }
}
