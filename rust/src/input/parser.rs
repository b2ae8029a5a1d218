// The parser by termwiz's names.
use super::InputEvent;
use crate::{AllocError, Dialect, FeedError, Parser, Policy};
use std::{error, fmt};

/// [`InputParser::try_parse`] was refused memory. The parser may be used again.
#[derive(Debug, Clone, Copy, PartialEq, Eq)]
pub enum ParseError {
    /// The bytes weren't buffered. Call again with the same bytes.
    NotTaken,
    /// The bytes were buffered, and the events before a paste were passed. Call again with no bytes
    /// and the same flag, or with the next bytes if more may come: the paste comes first.
    Taken,
}

impl fmt::Display for ParseError {
    fn fmt(&self, f: &mut fmt::Formatter<'_>) -> fmt::Result {
        f.write_str(match self {
            ParseError::NotTaken => "input not taken: out of memory",
            ParseError::Taken => "input taken: out of memory",
        })
    }
}

impl error::Error for ParseError {}

/// [`InputParser::try_parse_as_vec`] was refused memory. The parser may be used again.
#[derive(Debug, Clone, PartialEq, Eq)]
pub struct ParseVecError {
    /// The events so far. The parser doesn't tell them again.
    pub events: Vec<InputEvent>,
    /// Whether the bytes were buffered: [`ParseError`] says how to go on.
    pub taken: bool,
}

impl fmt::Display for ParseVecError {
    fn fmt(&self, f: &mut fmt::Formatter<'_>) -> fmt::Result {
        let refused = if self.taken {
            ParseError::Taken
        } else {
            ParseError::NotTaken
        };
        refused.fmt(f)
    }
}

impl error::Error for ParseVecError {}

/// Reads what termwiz's parser reads: a [`Parser`] of [`Dialect::Termwiz`] by its names, without
/// limits in time.
///
/// ```
/// use hedrugal::input::InputParser;
///
/// let mut parser = InputParser::new();
/// assert!(parser.parse_as_vec(b"\x1b[", true).is_empty());
/// assert_eq!(parser.parse_as_vec(b"A", true).len(), 1);
/// ```
#[derive(Debug)]
pub struct InputParser {
    parser: Parser,
}

impl InputParser {
    /// Makes a parser with an empty buffer.
    ///
    /// # Panics
    ///
    /// If memory is refused.
    #[must_use]
    pub fn new() -> InputParser {
        InputParser::try_new().expect("a parser is made")
    }

    /// Does what [`InputParser::new`] does.
    ///
    /// # Errors
    ///
    /// If memory is refused.
    pub fn try_new() -> Result<InputParser, AllocError> {
        let mut parser = Parser::try_new(Dialect::Termwiz)?;
        parser.set_policy(Policy::never());
        Ok(InputParser { parser })
    }

    /// Appends `bytes` to the buffer, and calls `callback` with each event in order. Bytes that are
    /// no event yet stay buffered.
    ///
    /// Pass `maybe_more` as true while more bytes may come: then bytes that may still become a
    /// longer sequence or a character stay buffered. Pass false at the end of the input: then only
    /// an open paste stays. Call with no bytes and false to flush, as at a pause. Before the end this
    /// breaks a sequence or a character of which the rest is still to come.
    ///
    /// ```
    /// use hedrugal::input::InputParser;
    ///
    /// let mut parser = InputParser::new();
    /// let mut count = 0;
    /// parser.parse(b"ab\x1b[A", |_| count += 1, true);
    /// assert_eq!(count, 3);
    /// ```
    ///
    /// # Panics
    ///
    /// If memory is refused.
    pub fn parse<F: FnMut(InputEvent)>(&mut self, bytes: &[u8], callback: F, maybe_more: bool) {
        self.try_parse(bytes, callback, maybe_more)
            .expect("the input is parsed");
    }

    /// Does what [`InputParser::parse`] does.
    ///
    /// # Errors
    ///
    /// If memory is refused. The error says whether the bytes were buffered, and so how to go on;
    /// no event is lost.
    pub fn try_parse<F: FnMut(InputEvent)>(
        &mut self,
        bytes: &[u8],
        mut callback: F,
        maybe_more: bool,
    ) -> Result<(), ParseError> {
        let mut unfed = Some(bytes);
        while let Some(event) = self.next_event(&mut unfed, maybe_more)? {
            callback(event);
        }
        Ok(())
    }

    /// Returns the events with which [`InputParser::parse`] calls its callback.
    ///
    /// ```
    /// use hedrugal::input::InputParser;
    ///
    /// let mut parser = InputParser::new();
    /// assert_eq!(parser.parse_as_vec(b"\x1b", true), []);
    /// assert_eq!(parser.parse_as_vec(b"", false).len(), 1);
    /// ```
    ///
    /// # Panics
    ///
    /// If memory is refused.
    #[must_use]
    pub fn parse_as_vec(&mut self, bytes: &[u8], maybe_more: bool) -> Vec<InputEvent> {
        self.try_parse_as_vec(bytes, maybe_more)
            .expect("the input is parsed")
    }

    /// Returns the events with which [`InputParser::parse`] calls its callback.
    ///
    /// # Errors
    ///
    /// If memory is refused. The error has the events so far, and says whether the bytes were
    /// buffered; no event is lost.
    pub fn try_parse_as_vec(
        &mut self,
        bytes: &[u8],
        maybe_more: bool,
    ) -> Result<Vec<InputEvent>, ParseVecError> {
        let (mut events, mut unfed) = (Vec::new(), Some(bytes));
        // There is room for an event before it leaves the parser.
        while events.try_reserve(1).is_ok() {
            match self.next_event(&mut unfed, maybe_more) {
                Ok(Some(event)) => events.push(event),
                Ok(None) => return Ok(events),
                Err(_) => break,
            }
        }
        let taken = unfed.is_none();
        Err(ParseVecError { events, taken })
    }

    /// Returns the parser behind the names, for calls that only read, such as
    /// [`Parser::waiting_len`].
    #[must_use]
    pub fn parser(&self) -> &Parser {
        &self.parser
    }

    // Feeds the bytes, unless events of a flush are left that come first. Returns the next event.
    // The bytes need no time: what waits isn't limited here.
    #[inline]
    fn next_event(
        &mut self,
        unfed: &mut Option<&[u8]>,
        maybe_more: bool,
    ) -> Result<Option<InputEvent>, ParseError> {
        while let Some(bytes) = *unfed {
            match self.parser.feed_at(0, bytes) {
                Ok(()) => {
                    *unfed = None;
                    if !maybe_more {
                        self.parser.flush();
                    }
                }
                Err(FeedError::Memory) => return Err(ParseError::NotTaken),
                Err(FeedError::Busy) => {
                    let left = self.parser.next_by(InputEvent::of);
                    if let Some(event) = left.map_err(|_| ParseError::NotTaken)? {
                        return Ok(Some(event));
                    }
                }
            }
        }
        let next = self.parser.next_by(InputEvent::of);
        next.map_err(|_| ParseError::Taken)
    }
}

impl Default for InputParser {
    fn default() -> InputParser {
        InputParser::new()
    }
}
