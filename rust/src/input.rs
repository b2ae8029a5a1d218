//! The names and paths of termwiz's module `input`: a parser that reads just what termwiz's reads,
//! its events, and the text of keys. A program of termwiz's keeps its `use` lines.
//!
//! ```
//! use hedrugal::input::{InputEvent, InputParser, KeyCode, KeyEvent, Modifiers};
//!
//! let up = KeyEvent { key: KeyCode::UpArrow, modifiers: Modifiers::CTRL };
//! let events = InputParser::new().parse_as_vec(b"\x1b[1;5A", true);
//! assert_eq!(events, [InputEvent::Key(up)]);
//! ```
mod encode;
mod events;
pub(crate) mod flags;
mod keys;
mod parser;

pub use encode::{EncodeError, KeyCodeEncodeModes, KeyboardEncoding, CSI, SS3};
pub use events::{InputEvent, KeyEvent, MouseEvent, PixelMouseEvent};
pub use flags::{
    FlagIter, FlagNames, KittyKeyboardFlags, Modifiers, MouseButtons, ParseFlagsError,
};
pub use keys::KeyCode;
pub use parser::{InputParser, ParseError, ParseVecError};
