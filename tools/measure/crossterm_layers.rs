//! Reads so many events of its terminal by crossterm, or by the package in its place, for
//! tools/performance.py: `crossterm_layers (read | stream) COUNT (each | all)`. It says when it has
//! begun, and with `each` tells of each event.
use crossterm::event::{read, EventStream};
use crossterm::terminal::{disable_raw_mode, enable_raw_mode};
use futures_core::Stream;
use std::future::poll_fn;
use std::io::{self, Write};
use std::pin::Pin;

fn begin() -> io::Result<()> {
    enable_raw_mode()?;
    print!("begun\r\n");
    Ok(())
}

fn tell(is_told: bool) -> io::Result<()> {
    if is_told {
        io::stdout().write_all(b".")?;
        io::stdout().flush()?;
    }
    Ok(())
}

fn read_events(count: usize, is_told: bool) -> io::Result<()> {
    begin()?;
    for _ in 0..count {
        read()?;
        tell(is_told)?;
    }
    disable_raw_mode()
}

#[tokio::main(flavor = "current_thread")]
async fn read_stream(count: usize, is_told: bool) -> io::Result<()> {
    begin()?;
    let mut events = EventStream::new();
    for _ in 0..count {
        let next = poll_fn(|context| Pin::new(&mut events).poll_next(context)).await;
        next.ok_or(io::ErrorKind::UnexpectedEof)??;
        tell(is_told)?;
    }
    disable_raw_mode()
}

fn main() -> io::Result<()> {
    let words: Vec<_> = std::env::args().skip(1).collect();
    let [layer, count, how] = &words[..] else {
        return Err(io::Error::other("usage: LAYER COUNT (each | all)"));
    };
    let is_told = how == "each";
    let count = count.parse().map_err(io::Error::other)?;
    match layer.as_str() {
        "read" => read_events(count, is_told),
        "stream" => read_stream(count, is_told),
        _ => Err(io::Error::other("no such layer")),
    }
}
