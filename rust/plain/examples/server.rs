//! A server of ten terminals, whose parsers share one table: prints each key that is pressed, as
//! "terminal 3: ctrl+x".
//!
//!     cargo run --example server keys
//!     socat -,raw,echo=0,escape=4 UNIX:keys       # in each of them, until Ctrl-D
use hedrugal::{Dialect, Parser};
use std::io::{self, ErrorKind, Read};
use std::os::unix::net::{UnixListener, UnixStream};
use std::thread;
use std::time::{Duration, Instant};

const TERMINALS: usize = 10;
const SHORTEST: Duration = Duration::from_millis(1); // a limit of 0 would be none

/// Prints the keys that a terminal sends, until it leaves.
fn serve(number: usize, mut terminal: UnixStream) -> io::Result<()> {
    let (mut parser, mut bytes) = (Parser::try_new(Dialect::Extended)?, [0; 4096]);
    parser.set_parts(Some(1 << 20)); // a longer paste comes in parts
    let mut is_open = true;
    while is_open {
        let now = Instant::now(); // before the look: what isn't there by then didn't come up to now
        terminal.set_read_timeout(parser.timeout(now).map(|it| it.max(SHORTEST)))?;
        match terminal.read(&mut bytes) {
            Ok(count) if count > 0 => parser.try_feed(Instant::now(), &bytes[..count])?,
            Err(error) if error.kind() == ErrorKind::WouldBlock => parser.idle(now),
            Err(error) if error.kind() == ErrorKind::Interrupted => {} // it was stopped meanwhile
            _ => {
                parser.end();
                is_open = false;
            }
        }
        while let Some(event) = parser.try_next()? {
            if let Some(press) = event.press() {
                println!("terminal {number}: {press}");
            }
        }
    }
    Ok(())
}

/// Serves one terminal after another.
fn serve_all(number: usize, listener: &UnixListener) {
    for terminal in listener.incoming() {
        if let Err(error) = terminal.and_then(|it| serve(number, it)) {
            eprintln!("terminal {number}: {error}");
        }
    }
}

fn main() -> io::Result<()> {
    let path = std::env::args_os().nth(1).ok_or(ErrorKind::InvalidInput)?;
    let listener = UnixListener::bind(path)?;
    thread::scope(|scope| {
        for number in 1..=TERMINALS {
            let listener = &listener;
            scope.spawn(move || serve_all(number, listener));
        }
    });
    Ok(())
}
