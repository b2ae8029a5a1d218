//! crossterm's names, over the events of this package. The feature `crossterm` has this module.
//!
//! The package `hedrugal-crossterm` in `rust/crossterm` has them in the place of crossterm 0.25: a
//! program names it in its manifest, and changes no line of its sources. docs/SWITCH.md of the
//! repository says how.
//!
//! A program that reads a [`Terminal`](crate::terminal::Terminal) converts its events itself, by
//! [`TryFrom`] or a [`Converter`]. What crossterm's type can't say comes back as the error:
//!
//! ```
//! use crossterm::event::{Event, KeyCode, KeyEvent, KeyModifiers};
//! use hedrugal::{Dialect, Parser};
//! use std::time::Instant;
//!
//! let mut parser = Parser::new(Dialect::Extended);
//! parser.feed(Instant::now(), b"\x1b[1;5A\x1b[?0u");
//! let (first, reply) = (parser.next().unwrap(), parser.next().unwrap());
//! let up = KeyEvent::new(KeyCode::Up, KeyModifiers::CONTROL);
//! assert_eq!(Event::try_from(first), Ok(Event::Key(up)));
//! assert_eq!(Event::try_from(reply.clone()), Err(reply));
//! ```
//!
//! crossterm's type can't say:
//!
//! - replies: `CursorPosition`, `KeyboardFlags`, `Csi`, `Osc`, `Dcs`, `Apc`, `StringPart` and
//!   `StringCut`
//! - a wheel that is turned to a side, and one of the mouse buttons 8 to 11
//! - the keys `Cancel`, `Clear`, `Select`, `Print`, `Execute`, `Help`, `Sleep`, `Copy`, `Cut` and
//!   `Paste`, those of browsers, the marks of a paste, the modifiers without a side, and a functional
//!   key of Kitty's table that is neither a modifier nor of a media player
//! - of a key report that it has: what the key types with Shift or on the standard layout, and its
//!   text. A text of several characters is a paste
//! - that the program goes on after it was stopped: [`event::read`] returns its size then
//! - without crossterm's `bracketed-paste`, a paste
mod convert;
mod other;
mod reader;
#[cfg(feature = "crossterm-stream")]
mod stream;

pub use convert::Converter;

/// What `crossterm::cursor` has. The position is asked for by this package.
pub mod cursor {
    pub use super::reader::position;
    pub use ::crossterm::cursor::*;
}

/// What `crossterm::event` has. The terminal is read by this package.
pub mod event {
    pub use super::reader::{poll, read};
    #[cfg(feature = "crossterm-stream")]
    pub use super::stream::EventStream;
    // Each by its name, since crossterm's own stream may be among the rest.
    #[cfg(feature = "crossterm")]
    pub use ::crossterm::event::{DisableBracketedPaste, EnableBracketedPaste};
    pub use ::crossterm::event::{
        DisableFocusChange, DisableMouseCapture, EnableFocusChange, EnableMouseCapture, Event,
        KeyCode, KeyEvent, KeyEventKind, KeyEventState, KeyModifiers, KeyboardEnhancementFlags,
        MediaKeyCode, ModifierKeyCode, MouseButton, MouseEvent, MouseEventKind,
        PopKeyboardEnhancementFlags, PushKeyboardEnhancementFlags,
    };
}

/// What `crossterm::terminal` has. This package reads replies, and leaves the terminal where raw mode
/// ends.
pub mod terminal {
    pub use super::reader::{disable_raw_mode, enable_raw_mode, supports_keyboard_enhancement};
    pub use ::crossterm::terminal::*;
}
