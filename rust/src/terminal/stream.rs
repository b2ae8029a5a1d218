// The events of a terminal as a stream on tokio's runtime.
use super::Terminal;
use crate::Event;
use futures_core::Stream;
use std::fmt;
use std::future::{poll_fn, Future};
use std::io;
use std::os::fd::{AsRawFd, RawFd};
use std::pin::Pin;
use std::task::{ready, Context, Poll};
use std::time::Duration;
use tokio::io::unix::AsyncFd;
use tokio::io::Interest;
use tokio::time::{sleep, Instant, Sleep};

/// The events of a terminal as a stream, on a runtime of tokio that has I/O and time. It ends where
/// [`Terminal::read`] returns `None`. The feature `tokio` has it.
///
/// What was read is kept here, so a future of [`next`](EventStream::next) that is dropped, as by
/// `select!`, loses no event.
///
/// ```no_run
/// use hedrugal::terminal::{EventStream, Terminal};
///
/// #[tokio::main(flavor = "current_thread")]
/// async fn main() -> std::io::Result<()> {
///     let mut events = EventStream::new(Terminal::open()?)?;
///     while let Some(event) = events.next().await {
///         println!("{:?}", event?);
///     }
///     Ok(())
/// }
/// ```
pub struct EventStream {
    // These come before the terminal, which closes what they watch.
    input: AsyncFd<RawFd>,
    wake: AsyncFd<RawFd>,
    sleep: Pin<Box<Sleep>>,
    terminal: Terminal,
}

impl EventStream {
    /// Has the runtime watch the terminal.
    ///
    /// # Errors
    ///
    /// If the system can't watch it.
    ///
    /// # Panics
    ///
    /// Outside of a runtime, or in one without I/O or time.
    pub fn new(terminal: Terminal) -> io::Result<EventStream> {
        let [input, wake] = terminal.descriptors().map(|it| it.as_raw_fd());
        Ok(EventStream {
            input: AsyncFd::with_interest(input, Interest::READABLE)?,
            wake: AsyncFd::with_interest(wake, Interest::READABLE)?,
            sleep: Box::pin(sleep(Duration::ZERO)),
            terminal,
        })
    }

    /// Returns the terminal, as for its size, or to lend it. What it reads meanwhile is no longer in
    /// this stream.
    #[must_use]
    pub fn terminal(&mut self) -> &mut Terminal {
        &mut self.terminal
    }

    /// Waits for the next event.
    pub async fn next(&mut self) -> Option<io::Result<Event>> {
        poll_fn(|context| Pin::new(&mut *self).poll_next(context)).await
    }

    fn poll_event(&mut self, context: &mut Context<'_>) -> Poll<io::Result<Option<Event>>> {
        loop {
            let event = self.terminal.next_event()?;
            if event.is_some() || self.terminal.is_over() {
                return Poll::Ready(Ok(event));
            }
            if self.handle_ready(context)? {
                continue;
            }
            match self.terminal.timeout() {
                None => return Poll::Pending,
                // The runtime may not have looked since the limit passed, so the terminal does.
                Some(Duration::ZERO) => {
                    self.terminal.wait(Some(Duration::ZERO))?;
                }
                Some(time) => {
                    self.sleep.as_mut().reset(Instant::now() + time);
                    ready!(self.sleep.as_mut().poll(context));
                }
            }
        }
    }

    // Handles a signal or input that is there. Returns false once the runtime will wake this task
    // for the next.
    fn handle_ready(&mut self, context: &mut Context<'_>) -> io::Result<bool> {
        loop {
            let wake = self.wake.poll_read_ready(context)?;
            let input = self.input.poll_read_ready(context)?;
            if wake.is_pending() && input.is_pending() {
                return Ok(false);
            }
            if self.terminal.handle_ready(Some(Duration::ZERO))? {
                return Ok(true);
            }
            for ready in [wake, input] {
                ready.map(|mut it| it.clear_ready()).is_ready();
            }
        }
    }
}

impl Stream for EventStream {
    type Item = io::Result<Event>;

    fn poll_next(mut self: Pin<&mut Self>, context: &mut Context<'_>) -> Poll<Option<Self::Item>> {
        self.poll_event(context).map(Result::transpose)
    }
}

impl fmt::Debug for EventStream {
    fn fmt(&self, f: &mut fmt::Formatter<'_>) -> fmt::Result {
        f.debug_struct("EventStream")
            .field("terminal", &self.terminal)
            .finish_non_exhaustive()
    }
}
