//! Makes the calls that read its terminal, for tests/test_crossterm.py: `calls [stream | polled |
//! thread | cooked | guard]`. It prints events until `q`, and at some letters the answer of another
//! call. With `stream` the events are those of an `EventStream`; with `polled` too, and another thread
//! polls; with `thread` another thread reads on at its end; with `cooked` it sets no raw mode; with
//! `guard` it has a guard of hedrugal's too.
use crossterm::event::{Event, EventStream, KeyCode};
use crossterm::terminal::{disable_raw_mode, enable_raw_mode};
use futures_core::Stream;
use hedrugal::terminal::Terminal;
use std::future::poll_fn;
use std::future::Future;
use std::io::{self, Write};
use std::pin::{pin, Pin};
use std::process::Command;
use std::sync::mpsc::channel;
use std::sync::Arc;
use std::task::{Context, Poll, Wake};
use std::thread::{self, Thread};
use std::time::Duration;

fn tell(what: &str) {
    print!("{what}\r\n");
    io::stdout().flush().expect("standard output is open");
}

// A program that the terminal is left to, in the mode of before.
fn run_command() -> io::Result<()> {
    disable_raw_mode()?;
    let status = Command::new("sh")
        .args(["-c", "echo lent; read line; echo had $line"])
        .status();
    enable_raw_mode()?;
    tell(&format!("it is back: {}", status?));
    Ok(())
}

fn answer(letter: char) -> io::Result<()> {
    match letter {
        'p' => tell(&format!(
            "position {:?}",
            crossterm::cursor::position().map_err(|it| it.kind())
        )),
        'k' => {
            let has = crossterm::terminal::supports_keyboard_enhancement();
            tell(&format!("Kitty's {:?}", has.map_err(|it| it.kind())));
        }
        'e' => run_command()?,
        // Each of the two reads beside what reads here.
        't' => tell(&format!(
            "a terminal {:?}",
            Terminal::open().map_err(|it| it.kind())
        )),
        'o' => tell(&format!("own position {:?}", real::cursor::position())),
        _ => {}
    }
    Ok(())
}

fn handle(event: &Event) -> io::Result<bool> {
    tell(&format!("{event:?}"));
    let Event::Key(key) = event else {
        return Ok(true);
    };
    if let KeyCode::Char(letter) = key.code {
        answer(letter)?;
    }
    Ok(key.code != KeyCode::Char('q'))
}

// By the full path, as programs do that name no function.
fn read_events() -> io::Result<()> {
    loop {
        while !crossterm::event::poll(Duration::from_millis(100))? {}
        if !handle(&crossterm::event::read()?)? {
            return Ok(());
        }
    }
}

async fn read_stream() -> io::Result<()> {
    let mut events = EventStream::new();
    while let Some(event) = poll_fn(|context| Pin::new(&mut events).poll_next(context)).await {
        if !handle(&event?)? {
            break;
        }
    }
    tell("the stream is at its end");
    Ok(())
}

// Reads what the stream waits for.
fn poll_in_thread() {
    thread::spawn(|| {
        while crossterm::event::poll(Duration::from_millis(30)).is_ok() {
            thread::sleep(Duration::from_millis(1));
        }
    });
}

// Ends while the thread that reads waits for a further event.
fn read_in_thread() -> io::Result<()> {
    let (sent, events) = channel();
    thread::spawn(move || while sent.send(crossterm::event::read()).is_ok() {});
    for event in events.iter() {
        if !handle(&event?)? {
            thread::sleep(Duration::from_millis(100));
            return disable_raw_mode();
        }
    }
    Ok(())
}

struct Unpark(Thread);

impl Wake for Unpark {
    fn wake(self: Arc<Self>) {
        self.0.unpark();
    }
}

// A runtime with one task.
fn run<T>(task: impl Future<Output = T>) -> T {
    let mut task = pin!(task);
    let waker = Arc::new(Unpark(thread::current())).into();
    loop {
        match task.as_mut().poll(&mut Context::from_waker(&waker)) {
            Poll::Ready(done) => return done,
            Poll::Pending => thread::park(),
        }
    }
}

fn main() -> io::Result<()> {
    let how = std::env::args().nth(1).unwrap_or_default();
    let guard = (how == "guard").then(Terminal::open).transpose()?;
    if how != "cooked" {
        enable_raw_mode()?;
    }
    tell("q ends");
    match how.as_str() {
        "stream" => run(read_stream())?,
        "polled" => {
            poll_in_thread();
            run(read_stream())?;
        }
        "thread" => read_in_thread()?,
        _ => read_events()?,
    }
    drop(guard);
    disable_raw_mode()
}
