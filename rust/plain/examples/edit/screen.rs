//! The text on the terminal, and a line for each thing that happens to it.
use crate::commands::Command;
use crate::text::Text;
use hedrugal::terminal::Terminal;
use hedrugal::{KeyPress, Outcome};
use std::io::{self, Write};

pub struct Screen {
    pub terminal: Terminal,
    text: Text,
}

impl Screen {
    pub fn new(terminal: Terminal) -> Screen {
        Screen {
            terminal,
            text: Text::default(),
        }
    }

    /// Does what presses are bound to. Returns whether the program goes on.
    pub fn run(&mut self, outcomes: Vec<Outcome<&Command>>) -> io::Result<bool> {
        for outcome in outcomes {
            match outcome {
                Outcome::Bound { value, .. } => {
                    if !self.run_command(*value)? {
                        return Ok(false);
                    }
                }
                Outcome::Unbound(press) => self.type_press(press)?,
            }
        }
        Ok(true)
    }

    fn run_command(&mut self, command: Command) -> io::Result<bool> {
        match command {
            Command::Quit => return Ok(false),
            Command::Save => self.print_count()?,
            Command::Top => self.edit(Text::move_to_top)?,
            Command::Bottom => self.edit(Text::move_to_bottom)?,
            Command::Erase => self.edit(Text::erase)?,
            Command::Newline => self.insert("\n")?,
        }
        Ok(true)
    }

    fn print_count(&mut self) -> io::Result<()> {
        self.print_line(&format!("saved {} characters", self.text.count()))
    }

    fn type_press(&mut self, press: KeyPress) -> io::Result<()> {
        match press.text() {
            Some(c) => self.insert(c.encode_utf8(&mut [0; 4])),
            None => self.print_line(&format!("unbound: {press}")),
        }
    }

    /// Inserts a text as it is.
    pub fn insert(&mut self, text: &str) -> io::Result<()> {
        self.edit(|edited| edited.insert(text))
    }

    /// Edits the text, and shows it if that changed anything.
    fn edit(&mut self, edit: impl FnOnce(&mut Text) -> bool) -> io::Result<()> {
        if edit(&mut self.text) {
            self.print_line(&format!("text: {}", self.text))?;
        }
        Ok(())
    }

    pub fn print_lines(&mut self, lines: impl IntoIterator<Item = String>) -> io::Result<()> {
        lines
            .into_iter()
            .try_for_each(|line| self.print_line(&line))
    }

    fn print_line(&mut self, line: &str) -> io::Result<()> {
        self.terminal.write_all(format!("{line}\n").as_bytes())
    }
}
