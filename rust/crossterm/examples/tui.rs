//! A program of tui 0.19 over crossterm 0.25 that shows the events of its terminal until q. No line
//! is another than in the same program without this package.
//!
//!     HEDRUGAL_LIBRARY=DIR cargo run --manifest-path rust/crossterm/Cargo.toml --example tui
use crossterm::event::{self, Event, KeyCode};
use crossterm::execute;
use crossterm::terminal::{disable_raw_mode, enable_raw_mode};
use crossterm::terminal::{EnterAlternateScreen, LeaveAlternateScreen};
use std::io::{self, Stdout};
use tui::backend::CrosstermBackend;
use tui::widgets::Paragraph;
use tui::Terminal;

fn run(terminal: &mut Terminal<CrosstermBackend<Stdout>>) -> io::Result<()> {
    let mut shown = "q ends".to_string();
    loop {
        terminal.draw(|frame| frame.render_widget(Paragraph::new(&*shown), frame.size()))?;
        let event = event::read()?;
        if matches!(event, Event::Key(key) if key.code == KeyCode::Char('q')) {
            return Ok(());
        }
        shown = format!("{event:?}");
    }
}

fn main() -> io::Result<()> {
    enable_raw_mode()?;
    execute!(io::stdout(), EnterAlternateScreen)?;
    let ended = run(&mut Terminal::new(CrosstermBackend::new(io::stdout()))?);
    execute!(io::stdout(), LeaveAlternateScreen)?;
    disable_raw_mode()?;
    ended
}
