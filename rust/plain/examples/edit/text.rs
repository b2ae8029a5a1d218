//! The text that is edited.
use std::fmt::{self, Write};
use std::mem;

/// A text and the cursor in it. The calls that change it return whether anything changed.
#[derive(Default)]
pub struct Text {
    before: String,
    after: String,
}

impl Text {
    /// Inserts a text before the cursor.
    pub fn insert(&mut self, text: &str) -> bool {
        self.before.push_str(text);
        !text.is_empty()
    }

    /// Removes the character before the cursor.
    pub fn erase(&mut self) -> bool {
        self.before.pop().is_some()
    }

    /// Moves the cursor to the beginning.
    pub fn move_to_top(&mut self) -> bool {
        let is_moved = !self.before.is_empty();
        self.before.push_str(&self.after);
        self.after = mem::take(&mut self.before);
        is_moved
    }

    /// Moves the cursor to the end.
    pub fn move_to_bottom(&mut self) -> bool {
        let is_moved = !self.after.is_empty();
        self.before.push_str(&mem::take(&mut self.after));
        is_moved
    }

    /// Returns how many characters it has.
    pub fn count(&self) -> usize {
        self.before.chars().count() + self.after.chars().count()
    }
}

/// Shows the text on one line, with `|` at the cursor.
impl fmt::Display for Text {
    fn fmt(&self, f: &mut fmt::Formatter<'_>) -> fmt::Result {
        show(&self.before, f)?;
        f.write_char('|')?;
        show(&self.after, f)
    }
}

/// Writes control characters as a literal of Rust has them. A terminal would obey some of a paste.
fn show(text: &str, f: &mut fmt::Formatter<'_>) -> fmt::Result {
    text.chars().try_for_each(|c| match c {
        '\n' => f.write_str("\\n"),
        '\0'..='\x1f' | '\x7f' => write!(f, "\\x{:02x}", u32::from(c)),
        '\u{80}'..='\u{9f}' => write!(f, "\\u{{{:x}}}", u32::from(c)),
        _ => f.write_char(c),
    })
}
