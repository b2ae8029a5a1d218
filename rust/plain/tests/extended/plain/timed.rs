// A slow parser with a clock: of each call what it answers. It keeps the times of all calls, and sums the clock's steps
// anew whenever a limit is asked for. What bytes mean it asks the plain reader.
use super::PlainReader;
use crate::port::plain::{begins_character, END, START};
use hedrugal::{Dialect, Event, Reading, Waiting};

// Limits in milliseconds, by their names.
const USUAL: &[(&str, Option<u32>)] = &[
    ("escape", Some(50)),
    ("alt_key", Some(100)),
    ("sequence", Some(1000)),
    ("string", Some(5000)),
    ("character", None),
    ("paste", None),
];

// The name of the limit of what is buffered, of which there are so many bytes.
pub fn limit_of(kind: Waiting, len: usize) -> Option<&'static str> {
    Some(match kind {
        Waiting::Nothing => return None,
        Waiting::Escape => "escape",
        Waiting::Sequence if len == 2 => "alt_key",
        Waiting::Sequence => "sequence",
        Waiting::String => "string",
        Waiting::Character => "character",
        Waiting::Paste => "paste",
    })
}

// How long a paste or a string may wait since bytes came, once another program had the terminal.
const SINCE_INTERRUPTED: i128 = 1000;

// Why bytes or an interruption aren't taken: something isn't told yet.
#[derive(Debug)]
pub struct Busy;

#[derive(Clone, Copy, PartialEq)]
enum Flush {
    No,
    Pause,
    End,
}

pub struct PlainTimed {
    reader: PlainReader,
    pub limits: Vec<(&'static str, Option<u32>)>,
    parts: Option<usize>,
    text: Vec<u8>,
    // All is told, and what is being told.
    is_told: bool,
    flushing: Flush,
    // The times of all calls that have one. Places in this list: of each buffered byte when it came, when an event
    // was told last, and when bytes came last or another program had the terminal.
    times: Vec<u64>,
    came: Vec<usize>,
    told_at: usize,
    last_at: usize,
    // What is at the front was open when another program had the terminal.
    was_open: bool,
}

fn pasted(body: &[u8]) -> String {
    String::from_utf8_lossy(body).into_owned()
}

// How many bytes of an open paste's text are decided: not what may begin END or, if there is none, a character.
fn decided(body: &[u8]) -> usize {
    let begins_end = |len: &usize| body.ends_with(&END[..*len]);
    let is_half = |len: &usize| begins_character(&body[body.len().saturating_sub(*len)..]);
    let held = (1..END.len()).rev().find(begins_end);
    body.len()
        - held
            .or((1..body.len().min(3) + 1).find(is_half))
            .unwrap_or(0)
}

impl PlainTimed {
    pub fn new(dialect: Dialect) -> PlainTimed {
        PlainTimed {
            reader: PlainReader::new(Reading::new(dialect)),
            limits: USUAL.to_vec(),
            parts: None,
            text: Vec::new(),
            is_told: true,
            flushing: Flush::No,
            times: Vec::new(),
            came: Vec::new(),
            told_at: 0,
            last_at: 0,
            was_open: false,
        }
    }

    pub fn set_limit(&mut self, name: &str, limit: Option<u32>) {
        let row = self.limits.iter_mut().find(|row| row.0 == name);
        row.unwrap_or_else(|| panic!("{name} is no limit")).1 = limit;
    }

    // The sum of the clock's steps forward from a call on.
    fn age(&self, since: usize, now: u64) -> i128 {
        let times = self.times.iter().copied().chain([now]);
        let times: Vec<u64> = times.skip(since).collect();
        let steps = times.windows(2).map(|it| it[1].saturating_sub(it[0]));
        steps.map(i128::from).sum()
    }

    // How much is left until what is buffered is due, and `None` if it never is.
    fn left(&self, now: u64) -> Option<i128> {
        let kind = self.reader.kind_of(&self.text);
        let name = limit_of(kind, self.text.len());
        let row = self.limits.iter().find(|row| Some(row.0) == name);
        let limit = row.and_then(|row| row.1);
        let is_string = kind == Waiting::String;
        let more = if is_string { self.text.len() } else { 0 };
        let since = match kind {
            Waiting::Sequence | Waiting::String | Waiting::Character => {
                self.came[0].max(self.told_at)
            }
            _ => self.last_at,
        };
        let limit = limit.map(|it| i128::from(it) + more as i128 - self.age(since, now));
        let is_open = self.was_open && matches!(kind, Waiting::String | Waiting::Paste);
        let other = is_open.then(|| SINCE_INTERRUPTED - self.age(self.last_at, now));
        limit.into_iter().chain(other).min()
    }

    // What is left of what was buffered. Its first byte came when it did: the opening of a string is put back, and
    // START stays before what is left of a paste.
    fn leave(&mut self, text: Vec<u8>) {
        self.came.drain(..self.came.len() - text.len());
        self.text = text;
        if self.text.is_empty() {
            self.flushing = Flush::No;
        }
    }

    pub fn feed(&mut self, now: u64, bytes: &[u8]) -> Result<(), Busy> {
        if self.flushing != Flush::No {
            return Err(Busy);
        }
        let here = self.times.len();
        self.times.push(now);
        self.text.extend(bytes);
        self.came.resize(self.text.len(), here);
        if !bytes.is_empty() {
            self.last_at = here;
        }
        self.is_told = false;
        Ok(())
    }

    // The text of an open paste.
    fn open_paste(&self) -> Option<&[u8]> {
        let body = self.text.strip_prefix(START)?;
        let is_ended = body.windows(END.len()).any(|it| it == END);
        (!is_ended).then_some(body)
    }

    // What an open paste gives: a part, or where it ends now the paste.
    fn of_open_paste(&self, body: &[u8]) -> Option<(Event, Vec<u8>)> {
        let decided = decided(body);
        if self.parts.is_some_and(|limit| body.len() > limit) && decided > 0 {
            let left = [START, &body[decided..]].concat();
            return Some((Event::PastePart(pasted(&body[..decided])), left));
        }
        (self.flushing == Flush::End).then(|| (Event::Paste(pasted(body)), Vec::new()))
    }

    pub fn next(&mut self) -> Option<Event> {
        let more = self.flushing == Flush::No;
        let found = match self.open_paste() {
            Some(body) => self.of_open_paste(body),
            None => self.reader.next(&self.text, more),
        };
        let Some((event, left)) = found else {
            self.is_told = true;
            self.flushing = Flush::No;
            return None;
        };
        self.leave(left);
        self.told_at = self.times.len().saturating_sub(1);
        let is_part = matches!(event, Event::PastePart(_) | Event::StringPart { .. });
        self.was_open &= is_part;
        Some(event)
    }

    pub fn timeout(&self, now: u64) -> Option<u64> {
        if !self.is_told {
            return Some(0);
        }
        self.left(now).map(|left| u64::try_from(left).unwrap_or(0))
    }

    pub fn idle(&mut self, now: u64) {
        let is_due = self.is_told && self.left(now).is_some_and(|left| left <= 0);
        self.times.push(now);
        if is_due {
            self.flushing = Flush::End;
            self.is_told = false;
        }
    }

    pub fn flush(&mut self) {
        self.is_told = false;
        if !self.text.is_empty() && self.flushing == Flush::No {
            self.flushing = Flush::Pause;
        }
    }

    pub fn end(&mut self) {
        self.is_told = false;
        if !self.text.is_empty() {
            self.flushing = Flush::End;
        }
    }

    // Another program had the terminal.
    pub fn interrupted(&mut self, now: u64) -> Result<(), Busy> {
        if !self.is_told {
            return Err(Busy);
        }
        self.last_at = self.times.len();
        self.times.push(now);
        self.reader.forget_positions();
        let kind = self.reader.kind_of(&self.text);
        self.was_open = matches!(kind, Waiting::Paste | Waiting::String);
        if !self.was_open {
            self.leave(Vec::new());
        }
        Ok(())
    }

    pub fn reading(&self) -> Reading {
        self.reader.reading()
    }

    pub fn set_reading(&mut self, reading: Reading) {
        self.reader.set_reading(reading);
        self.is_told = false;
    }

    pub fn expect_position(&mut self) {
        self.reader.expect_position();
    }

    pub fn forget_positions(&mut self) {
        self.reader.forget_positions();
    }

    pub fn set_parts(&mut self, limit: Option<usize>) {
        self.parts = limit;
        self.is_told = false;
    }

    pub fn skip_paste(&mut self) -> Option<usize> {
        let body = self.open_paste()?;
        let decided = decided(body);
        let left = [START, &body[decided..]].concat();
        self.leave(left);
        Some(decided)
    }

    pub fn reset(&mut self) -> usize {
        let len = self.text.len();
        self.leave(Vec::new());
        self.reader.forget_positions();
        self.was_open = false;
        len
    }

    // The kind of what is buffered, once all is told.
    pub fn waiting(&self) -> Option<Waiting> {
        self.is_told.then(|| self.reader.kind_of(&self.text))
    }

    pub fn waiting_len(&self) -> usize {
        self.text.len()
    }
}
