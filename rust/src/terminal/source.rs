// A terminal as a source of events of mio.
use super::Terminal;
use mio::event::Source;
use mio::unix::SourceFd;
use mio::{Interest, Registry, Token};
use std::io;
use std::os::fd::AsRawFd;

/// A terminal in a loop of mio, by the feature `mio`. Both of its descriptors have the token. When
/// it is ready, or after [`Terminal::timeout`], the loop reads events until [`Terminal::poll`] with
/// no time returns false: mio tells once that something came.
///
/// ```no_run
/// use hedrugal::terminal::Terminal;
/// use mio::{Events, Interest, Poll, Token};
/// use std::time::Duration;
///
/// let (mut terminal, mut poll) = (Terminal::open()?, Poll::new()?);
/// poll.registry().register(&mut terminal, Token(0), Interest::READABLE)?;
/// let mut ready = Events::with_capacity(8);
/// loop {
///     while terminal.poll(Duration::ZERO)? {
///         match terminal.read()? {
///             Some(event) => println!("{event:?}"),
///             None => return Ok(()),
///         }
///     }
///     match poll.poll(&mut ready, terminal.timeout()) {
///         Err(error) if error.kind() != std::io::ErrorKind::Interrupted => return Err(error),
///         _ => {} // A signal interrupts the call.
///     }
/// }
/// # Ok::<(), std::io::Error>(())
/// ```
impl Source for Terminal {
    fn register(
        &mut self,
        registry: &Registry,
        token: Token,
        interests: Interest,
    ) -> io::Result<()> {
        let mut descriptors = self.descriptors().into_iter();
        descriptors
            .try_for_each(|it| SourceFd(&it.as_raw_fd()).register(registry, token, interests))
    }

    fn reregister(
        &mut self,
        registry: &Registry,
        token: Token,
        interests: Interest,
    ) -> io::Result<()> {
        let mut descriptors = self.descriptors().into_iter();
        descriptors
            .try_for_each(|it| SourceFd(&it.as_raw_fd()).reregister(registry, token, interests))
    }

    fn deregister(&mut self, registry: &Registry) -> io::Result<()> {
        let mut descriptors = self.descriptors().into_iter();
        descriptors.try_for_each(|it| SourceFd(&it.as_raw_fd()).deregister(registry))
    }
}
