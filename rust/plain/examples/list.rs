//! A list whose commands have chords: `cargo run --example list one two three` shows these words, and
//! prints the one that is picked.
use hedrugal::terminal::{Modes, Terminal};
use hedrugal::{Bindings, Event, Matcher, Outcome};
use std::io::{self, Write};

const COMMANDS: [(&str, [&str; 2]); 6] = [
    ("up", ["up", "k"]),
    ("down", ["down", "j"]),
    ("top", ["home", "g g"]),
    ("end", ["end", "shift+g"]),
    ("pick", ["enter", "space"]),
    ("quit", ["q", "ctrl+x ctrl+c"]),
];

/// Draws the rows, of which one is shown inverted, and waits for an event.
fn next(terminal: &mut Terminal, words: &[String], at: usize) -> io::Result<Option<Event>> {
    let size = terminal.size().ok().filter(|it| it.rows > 0);
    let height = size.map_or(24, |it| usize::from(it.rows));
    let first = (at + 1).saturating_sub(height);
    let mut rows = words[first..words.len().min(first + height)].to_vec();
    rows[at - first].insert_str(0, "\x1b[7m");
    write!(terminal, "\x1b[H\x1b[J{}\x1b[m", rows.join("\x1b[m\n"))?;
    terminal.read()
}

fn pick(words: &[String], last: usize) -> io::Result<Option<&String>> {
    let chord = |it: &str| it.parse().expect("it names keys");
    let bound = COMMANDS.map(|(command, chords)| chords.map(|it| (chord(it), command)));
    let (bindings, mut matcher) = (Bindings::from_iter(bound.concat()), Matcher::new());
    let mut at = 0;
    let mut terminal = Terminal::open_with(Modes {
        enter: "\x1b[?1049h\x1b[?25l\x1b[?7l", // a screen of its own, no cursor, no wrap of rows
        leave: "\x1b[?7h\x1b[?25h\x1b[?1049l",
        ..Modes::default()
    })?;
    while let Some(event) = next(&mut terminal, words, at)? {
        let Some(press) = event.press() else { continue };
        let _ = matcher.press_either(&bindings, press, event.second());
        while let Some(outcome) = matcher.next(&bindings, true) {
            match outcome {
                Outcome::Bound { value: &"up", .. } => at = at.saturating_sub(1),
                Outcome::Bound { value: &"down", .. } => at = last.min(at + 1),
                Outcome::Bound { value: &"top", .. } => at = 0,
                Outcome::Bound { value: &"end", .. } => at = last,
                Outcome::Bound { value: &"pick", .. } => return Ok(words.get(at)),
                Outcome::Bound { .. } => return Ok(None),
                Outcome::Unbound(_) => {}
            }
        }
    }
    Ok(None)
}

fn main() -> Result<(), Box<dyn std::error::Error>> {
    let words = Vec::from_iter(std::env::args().skip(1));
    let last = words.len().checked_sub(1).ok_or("no words are given")?;
    pick(&words, last)?.map_or_else(|| std::process::exit(1), |word| println!("{word}"));
    Ok(())
}
