//! A prompt with a history: prints each line that is entered, until Ctrl-C or Ctrl-D. A paste is
//! inserted as text.
//!
//!     cargo run --example prompt
use hedrugal::terminal::Terminal;
use hedrugal::{paste_lines, Event, KeyPress};
use std::io::{self, Write};

const ROOM: usize = 4092; // a line of so many bytes takes no more
const MOST: usize = 100; // so many lines are kept

/// Returns the text that an event types or pastes, with spaces for control characters.
fn text_of(event: &Event) -> String {
    let text = match event {
        Event::Paste(text) | Event::PastePart(text) => paste_lines(text),
        event => String::from_iter(event.press().and_then(KeyPress::text)),
    };
    let is_ascii = |c: char| c.is_ascii_control();
    text.replace(is_ascii, " ")
        .replace(char::is_control, "\u{a0}")
}

fn main() -> io::Result<()> {
    let mut terminal = Terminal::open()?;
    let (mut lines, mut shown) = (vec![String::new()], 0); // the last one is what Up left
    let (mut before, mut behind) = (String::new(), String::new());
    loop {
        let row = format!("\r\x1b[K\x1b[?7l> {before}\x1b7{behind}\x1b8\x1b[?7h");
        terminal.write_all(row.as_bytes())?;
        let Some(event) = terminal.read()? else { break };
        let (line, last, mut place) = (before.clone() + &behind, lines.len() - 1, shown);
        if shown == last {
            lines[last].clone_from(&line);
        }
        for c in text_of(&event).chars() {
            before.extend((before.len() + behind.len() < ROOM).then_some(c));
        }
        let press = event.press().map(|it| it.to_string());
        match press.as_deref().unwrap_or_default() {
            "left" => behind = String::from_iter(before.pop()) + &behind,
            "right" => before.extend((!behind.is_empty()).then(|| behind.remove(0))),
            "backspace" => drop(before.pop()),
            "up" => place = shown.saturating_sub(1),
            "down" => place = last.min(shown + 1),
            "enter" => {
                writeln!(terminal, "\n{line}")?;
                lines.splice(last.., [line, String::new()]);
                lines.drain(..lines.len().saturating_sub(MOST));
                (place, shown) = (lines.len() - 1, MOST);
            }
            "ctrl+c" | "ctrl+d" => break,
            _ => {}
        }
        if place != shown {
            (before, behind, shown) = (lines[place].clone(), String::new(), place);
        }
    }
    terminal.write_all(b"\n")
}
