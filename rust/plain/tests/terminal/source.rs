// The loops that a word names: how a program waits for the events of its terminal.
#[cfg(feature = "tokio")]
use super::stream::Stream;
use super::system::{poll_all, POLLIN};
use hedrugal::terminal::Terminal;
use hedrugal::Event;
use std::io;
use std::os::fd::AsRawFd;
use std::time::Duration;

pub enum Source {
    Plain(Terminal),
    // It polls by itself.
    Own(Terminal),
    #[cfg(feature = "tokio")]
    Tokio(Stream),
    #[cfg(feature = "mio")]
    Mio(Terminal, mio::Poll),
}

impl Source {
    pub fn new(terminal: Terminal, words: &[&str]) -> io::Result<Source> {
        match words {
            _ if words.contains(&"own") => Ok(Source::Own(terminal)),
            #[cfg(feature = "tokio")]
            _ if words.contains(&"tokio") => {
                Stream::new(terminal, words.contains(&"blocks")).map(Source::Tokio)
            }
            #[cfg(feature = "mio")]
            _ if words.contains(&"mio") => Source::of_mio(terminal),
            _ => Ok(Source::Plain(terminal)),
        }
    }

    #[cfg(feature = "mio")]
    fn of_mio(mut terminal: Terminal) -> io::Result<Source> {
        use mio::{Interest, Poll, Token};
        let poll = Poll::new()?;
        let registry = poll.registry();
        registry.register(&mut terminal, Token(0), Interest::READABLE)?;
        Ok(Source::Mio(terminal, poll))
    }

    pub fn terminal(&mut self) -> &mut Terminal {
        match self {
            Source::Plain(it) | Source::Own(it) => it,
            #[cfg(feature = "tokio")]
            Source::Tokio(it) => it.terminal(),
            #[cfg(feature = "mio")]
            Source::Mio(it, _) => it,
        }
    }

    pub fn next(&mut self) -> io::Result<Option<Event>> {
        match self {
            Source::Plain(it) => it.read(),
            Source::Own(it) => next_by(it, |it| {
                let both = it.descriptors().map(|it| (it.as_raw_fd(), POLLIN));
                poll_all(both, it.timeout()).map(|_| ())
            }),
            #[cfg(feature = "tokio")]
            Source::Tokio(it) => it.next(),
            #[cfg(feature = "mio")]
            Source::Mio(it, poll) => {
                let mut ready = mio::Events::with_capacity(8);
                next_by(it, |it| poll.poll(&mut ready, it.timeout()))
            }
        }
    }
}

// The next event of a loop that waits so. A signal may interrupt it.
fn next_by(
    terminal: &mut Terminal,
    mut wait: impl FnMut(&Terminal) -> io::Result<()>,
) -> io::Result<Option<Event>> {
    while !terminal.poll(Duration::ZERO)? {
        match wait(terminal) {
            Err(error) if error.kind() != io::ErrorKind::Interrupted => return Err(error),
            _ => {}
        }
    }
    terminal.read()
}
