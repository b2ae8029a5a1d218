//! What the child gets for the events of its terminal, in the modes that it set.
use crate::keys::key_text;
use crate::modes::ChildModes;
use crate::mouse::mouse_bytes;
use hedrugal::{
    encode_cursor_position, encode_paste, Event, KeyCode, KeyReport, Parser, ReportedKey,
};

const PASTE_START: &str = "\x1b[200~";
const PASTE_END: &str = "\x1b[201~";

/// A paste of which the child has got a part.
struct OpenPaste {
    is_bracketed: bool,
    /// A line feed that follows belongs to the end of this line.
    ends_in_return: bool,
}

/// Writes events for the child.
#[derive(Default)]
pub struct Sender {
    paste: Option<OpenPaste>,
    /// The next string is the rest of one that was too long.
    is_rest: bool,
    /// The terminal tells keys by Kitty's protocol.
    has_kitty: bool,
}

impl Sender {
    /// Returns what the child gets for an event of the terminal's parser.
    pub fn bytes(&mut self, event: &Event, modes: &ChildModes, parser: &Parser) -> Vec<u8> {
        match event {
            Event::Mouse(report) => mouse_bytes(report, modes, parser),
            Event::PastePart(text) => self.paste_part(text, modes.paste),
            Event::Paste(text) => self.paste_end(text, modes.paste),
            // The start of its paste came too slowly, and was passed on as keys.
            Event::Key(KeyReport {
                key: ReportedKey::Named(KeyCode::InternalPasteEnd),
                ..
            }) if modes.paste => PASTE_END.into(),
            Event::Key(report) => {
                let erase = parser.reading().erase;
                key_text(report, modes, self.has_kitty, erase).into_bytes()
            }
            Event::FocusGained | Event::FocusLost if !modes.focus => Vec::new(),
            Event::CursorPosition { row, column } => {
                encode_cursor_position(*row, *column, modes.asks_privately)
            }
            // The reply to a question of this program's own.
            Event::KeyboardFlags(_) => {
                self.has_kitty = true;
                Vec::new()
            }
            event => self.reply(event, parser),
        }
    }

    /// Whether a part of a paste was written, and its end wasn't.
    pub fn is_in_paste(&self) -> bool {
        self.paste.is_some()
    }

    /// Returns a part of a long paste, which stays open.
    fn paste_part(&mut self, text: &str, is_bracketed: bool) -> Vec<u8> {
        let starts = is_bracketed && !self.is_in_paste();
        let paste = self.paste.get_or_insert(OpenPaste {
            is_bracketed,
            ends_in_return: false,
        });
        let start = if starts { PASTE_START } else { "" };
        format!("{start}{}", paste.safe_text(text)).into_bytes()
    }

    fn paste_end(&mut self, text: &str, is_bracketed: bool) -> Vec<u8> {
        match self.paste.take() {
            None => encode_paste(text.as_bytes(), is_bracketed).into_bytes(),
            Some(mut paste) => {
                let end = if paste.is_bracketed { PASTE_END } else { "" };
                format!("{}{end}", paste.safe_text(text)).into_bytes()
            }
        }
    }

    /// Returns a reply or another sequence as the terminal sent it. One that was cut off, or is
    /// longer than the parser's limit, isn't passed on.
    fn reply(&mut self, event: &Event, parser: &Parser) -> Vec<u8> {
        let is_part = matches!(event, Event::StringPart { .. });
        let is_rest = std::mem::replace(&mut self.is_rest, is_part);
        if is_rest {
            return Vec::new();
        }
        event.encode(parser).unwrap_or_default()
    }
}

impl OpenPaste {
    fn safe_text(&mut self, text: &str) -> String {
        let rest = text.strip_prefix('\n').filter(|_| self.ends_in_return);
        self.ends_in_return = text.ends_with('\r') || (text.is_empty() && self.ends_in_return);
        encode_paste(rest.unwrap_or(text).as_bytes(), false)
    }
}
