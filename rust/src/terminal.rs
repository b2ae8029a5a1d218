//! A program's terminal: raw mode that is restored whatever ends the program, and its events.
//!
//! [`Terminal`] reads events by [`read`](Terminal::read), [`poll`](Terminal::poll) or its iterator,
//! with the limits in time of its parser, and asks its terminal questions by
//! [`ask`](Terminal::ask). [`RawMode`] is the guard alone, for a program that reads by itself.
//!
//! ```no_run
//! use hedrugal::terminal::Terminal;
//!
//! fn main() -> std::io::Result<()> {
//!     let mut terminal = Terminal::open()?;
//!     println!("q ends");
//!     while let Some(event) = terminal.read()? {
//!         println!("{event:?}");
//!         if event.press().is_some_and(|press| press.to_string() == "q") {
//!             break;
//!         }
//!     }
//!     Ok(())
//! }
//! ```
//!
//! No other module of this package does input of its own.
#[cfg(feature = "tokio")]
mod decoder;
mod leftover;
mod modes;
mod raw_mode;
mod reader;
#[cfg(feature = "mio")]
mod source;
#[cfg(feature = "tokio")]
mod stream;
pub(crate) mod unix;

#[cfg(feature = "tokio")]
pub use decoder::EventDecoder;
pub use modes::Modes;
pub use raw_mode::{restore, Heeded, RawMode};
pub use reader::{Answers, Terminal};
#[cfg(feature = "tokio")]
pub use stream::EventStream;

use crate::{AllocError, Parser, Reading};

// Of a paste so much is buffered, or it comes in parts.
const PASTE_LIMIT: usize = 1 << 20;

// A parser for a terminal that is read so. All is told, so its timeout is none.
fn parser_of(reading: Reading) -> Result<Parser, AllocError> {
    let mut parser = Parser::try_new(reading.dialect)?;
    parser.set_reading(reading);
    parser.set_parts(Some(PASTE_LIMIT));
    parser.try_next()?;
    Ok(parser)
}
