// The package as a program finds it that names it `crossterm`.
use crossterm::cursor::{self, MoveTo};
use crossterm::event::{self, DisableMouseCapture, EnableMouseCapture, Event, KeyCode};
use crossterm::style::{Print, Stylize};
use crossterm::terminal::{self, Clear, ClearType};
use crossterm::{execute, queue, Command, ExecutableCommand, QueueableCommand};
use std::any::TypeId;
use std::io;
use std::time::Duration;

#[test]
fn none_of_crossterms_readers() {
    let (read, poll): (fn() -> _, fn(Duration) -> _) = (event::read, event::poll);
    assert_ne!(read as *const (), real::event::read as *const ());
    assert_ne!(poll as *const (), real::event::poll as *const ());
    let position: fn() -> io::Result<(u16, u16)> = cursor::position;
    assert_ne!(position as *const (), real::cursor::position as *const ());
    let leave: fn() -> io::Result<()> = terminal::disable_raw_mode;
    assert_ne!(
        leave as *const (),
        real::terminal::disable_raw_mode as *const ()
    );
}

#[cfg(feature = "event-stream")]
#[test]
fn nor_its_stream() {
    let (ours, theirs) = (
        TypeId::of::<event::EventStream>(),
        TypeId::of::<real::event::EventStream>(),
    );
    assert_ne!(ours, theirs);
}

/// A library over crossterm takes what a program over this package has.
#[test]
fn types_are_crossterms() {
    assert_eq!(TypeId::of::<Event>(), TypeId::of::<real::event::Event>());
    assert_eq!(TypeId::of::<MoveTo>(), TypeId::of::<real::cursor::MoveTo>());
    let key: real::event::KeyEvent = KeyCode::Esc.into();
    assert_eq!(Event::Key(key), real::event::Event::Key(key));
}

#[test]
fn macros_and_commands() -> crossterm::Result<()> {
    let (mut queued, mut executed, mut called) = (Vec::new(), Vec::new(), Vec::new());
    queue!(queued, MoveTo(2, 3), Print("a".bold()), EnableMouseCapture)?;
    crossterm::execute!(executed, Clear(ClearType::All), DisableMouseCapture)?;
    execute!(executed)?;
    called.queue(MoveTo(2, 3))?.execute(Clear(ClearType::All))?;
    let mut text = String::new();
    MoveTo(2, 3)
        .write_ansi(&mut text)
        .expect("a text takes all");
    assert!(queued.starts_with(text.as_bytes()));
    assert!(called.starts_with(text.as_bytes()));
    assert!(executed.starts_with(b"\x1b[2J"));
    Ok(())
}
