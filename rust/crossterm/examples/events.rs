//! Prints the events of its terminal until `q`, and computes for a while at `s`: as crossterm's own
//! reader has them with the word `own`, and else as this package has them. tests/test_crossterm.py
//! compares the two.
use crossterm::event::{Event, KeyCode};
use crossterm::terminal::{disable_raw_mode, enable_raw_mode};
use std::io;
use std::thread::sleep;
use std::time::Duration;

fn main() -> io::Result<()> {
    let is_own = std::env::args().nth(1).as_deref() == Some("own");
    let read = if is_own {
        real::event::read
    } else {
        crossterm::event::read
    };
    enable_raw_mode()?;
    print!("q ends\r\n");
    loop {
        let event = read()?;
        print!("{event:?}\r\n");
        if event == Event::Key(KeyCode::Char('q').into()) {
            break;
        }
        if event == Event::Key(KeyCode::Char('s').into()) {
            sleep(Duration::from_millis(200));
        }
    }
    disable_raw_mode()
}
