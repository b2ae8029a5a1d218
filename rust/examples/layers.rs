//! Reads so many events of its terminal by one layer, for tools/performance.py:
//! `layers (terminal | stream) COUNT (each | all)`. It says when it has begun, and with `each` tells of
//! each event.
use hedrugal::terminal::{EventStream, Modes, Terminal};
use std::io::{self, Write};

fn begin() {
    print!("begun\r\n");
}

fn tell(is_told: bool) -> io::Result<()> {
    if is_told {
        io::stdout().write_all(b".")?;
        io::stdout().flush()?;
    }
    Ok(())
}

fn read_terminal(count: usize, is_told: bool) -> io::Result<()> {
    let mut terminal = Terminal::open_with(Modes::NONE)?;
    begin();
    for _ in 0..count {
        terminal.read()?.ok_or(io::ErrorKind::UnexpectedEof)?;
        tell(is_told)?;
    }
    Ok(())
}

#[tokio::main(flavor = "current_thread")]
async fn read_stream(count: usize, is_told: bool) -> io::Result<()> {
    let mut events = EventStream::new(Terminal::open_with(Modes::NONE)?)?;
    begin();
    for _ in 0..count {
        events.next().await.ok_or(io::ErrorKind::UnexpectedEof)??;
        tell(is_told)?;
    }
    Ok(())
}

fn main() -> io::Result<()> {
    let words: Vec<_> = std::env::args().skip(1).collect();
    let [layer, count, how] = &words[..] else {
        return Err(io::Error::other("usage: layers LAYER COUNT (each | all)"));
    };
    let is_told = how == "each";
    let count = count.parse().map_err(io::Error::other)?;
    match layer.as_str() {
        "terminal" => read_terminal(count, is_told),
        "stream" => read_stream(count, is_told),
        _ => Err(io::Error::other("no such layer")),
    }
}
