// A decoder for the codecs of tokio-util.
use super::parser_of;
use crate::{AllocError, Event, Parser, Reading};
use bytes::BytesMut;
use std::collections::VecDeque;
use std::io;
use std::time::{Duration, Instant};
use tokio_util::codec::Decoder;

/// Reads the events of a terminal that is at the other end of a connection, as that of a server for
/// SSH or telnet. The feature `tokio` has it.
///
/// A codec knows no time. So the program waits for the next event at most for
/// [`timeout`](EventDecoder::timeout). If none came it looks at its connection once more: what is
/// there may complete what is due. Only if nothing is there it calls [`idle`](EventDecoder::idle).
///
/// ```no_run
/// use futures_core::Stream;
/// use hedrugal::terminal::EventDecoder;
/// use hedrugal::Event;
/// use std::future::poll_fn;
/// use std::io;
/// use std::pin::Pin;
/// use std::time::Duration;
/// use tokio::net::TcpStream;
/// use tokio::task::yield_now;
/// use tokio::time::timeout;
/// use tokio_util::codec::FramedRead;
///
/// // Returns `None` at the end of the connection.
/// async fn next_events(
///     frames: &mut FramedRead<TcpStream, EventDecoder>,
/// ) -> io::Result<Option<Vec<Event>>> {
///     let mut time = frames.decoder().timeout().unwrap_or(Duration::MAX);
///     for is_over in [false, true] {
///         if is_over {
///             yield_now().await; // the runtime looks at the connection
///             time = Duration::ZERO;
///         }
///         let next = poll_fn(|context| Pin::new(&mut *frames).poll_next(context));
///         if let Ok(event) = timeout(time, next).await {
///             return event.transpose().map(|event| event.map(|it| vec![it]));
///         }
///     }
///     frames.decoder_mut().idle().map(Some)
/// }
/// ```
#[derive(Debug)]
pub struct EventDecoder {
    parser: Parser,
    // What `idle` had told when memory was refused.
    first: VecDeque<Event>,
}

impl EventDecoder {
    /// Makes a decoder for a terminal that is read so. A server for SSH takes `erase` from the modes
    /// of the client's terminal (VERASE). A paste above a megabyte comes in parts.
    ///
    /// # Errors
    ///
    /// With `OutOfMemory`.
    pub fn new(reading: Reading) -> io::Result<EventDecoder> {
        Ok(EventDecoder {
            parser: parser_of(reading)?,
            first: VecDeque::new(),
        })
    }

    /// Returns the parser, for its limits in time and above how many bytes a paste comes in parts.
    #[must_use]
    pub fn parser(&mut self) -> &mut Parser {
        &mut self.parser
    }

    /// Returns how long to wait for more bytes. `None` is forever.
    ///
    /// ```
    /// use hedrugal::terminal::EventDecoder;
    /// use hedrugal::Reading;
    /// use tokio_util::codec::Decoder;
    ///
    /// let mut decoder = EventDecoder::new(Reading::default())?;
    /// assert_eq!(decoder.timeout(), None);
    /// // ESC may still begin a sequence.
    /// assert_eq!(decoder.decode(&mut b"\x1b"[..].into())?, None);
    /// assert!(decoder.timeout().is_some());
    /// # Ok::<(), std::io::Error>(())
    /// ```
    #[must_use]
    pub fn timeout(&self) -> Option<Duration> {
        if self.first.is_empty() {
            self.parser.timeout(Instant::now())
        } else {
            Some(Duration::ZERO)
        }
    }

    /// Returns the events of what has waited so long: ESC is the Escape key then. Call it once a look
    /// at the connection after that time has found nothing.
    ///
    /// ```
    /// use hedrugal::terminal::EventDecoder;
    /// use hedrugal::Reading;
    ///
    /// let mut decoder = EventDecoder::new(Reading::default())?;
    /// assert!(decoder.idle()?.is_empty());
    /// # Ok::<(), std::io::Error>(())
    /// ```
    ///
    /// # Errors
    ///
    /// With `OutOfMemory`. No event is lost: call again.
    pub fn idle(&mut self) -> io::Result<Vec<Event>> {
        self.parser.idle(Instant::now());
        loop {
            self.first.try_reserve(1).map_err(|_| AllocError)?;
            match self.parser.try_next()? {
                Some(event) => self.first.push_back(event),
                None => return Ok(std::mem::take(&mut self.first).into()),
            }
        }
    }

    // The next event, of what was fed and then of these bytes.
    fn next(&mut self, bytes: &mut BytesMut) -> io::Result<Option<Event>> {
        if !self.first.is_empty() {
            return Ok(self.first.pop_front());
        }
        loop {
            let event = self.parser.try_next()?;
            if event.is_some() || bytes.is_empty() {
                return Ok(event);
            }
            self.parser.try_feed(Instant::now(), bytes)?;
            bytes.clear();
        }
    }
}

impl Decoder for EventDecoder {
    type Item = Event;
    type Error = io::Error;

    fn decode(&mut self, bytes: &mut BytesMut) -> io::Result<Option<Event>> {
        self.next(bytes)
    }

    /// What is buffered is told, and an open paste ends where it is.
    fn decode_eof(&mut self, bytes: &mut BytesMut) -> io::Result<Option<Event>> {
        let event = self.next(bytes)?;
        if event.is_some() {
            return Ok(event);
        }
        self.parser.end();
        self.next(bytes)
    }
}
