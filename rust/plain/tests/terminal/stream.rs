// The stream for tokio, in a runtime of one thread.
use hedrugal::terminal::{EventStream, Terminal};
use hedrugal::Event;
use std::future::{poll_fn, Future};
use std::io;
use std::pin::pin;
use std::task::Poll;
use std::thread::sleep;
use std::time::Duration;
use tokio::runtime::{Builder, Runtime};

pub struct Stream {
    events: EventStream,
    runtime: Runtime,
    // Whether a task computes whenever there is no event, so that the runtime looks late.
    is_blocked: bool,
}

impl Stream {
    pub fn new(terminal: Terminal, is_blocked: bool) -> io::Result<Stream> {
        let runtime = Builder::new_current_thread().enable_all().build()?;
        let events = runtime.block_on(async { EventStream::new(terminal) })?;
        Ok(Stream {
            events,
            runtime,
            is_blocked,
        })
    }

    pub fn terminal(&mut self) -> &mut Terminal {
        self.events.terminal()
    }

    pub fn next(&mut self) -> io::Result<Option<Event>> {
        let (events, is_blocked) = (&mut self.events, self.is_blocked);
        let next = async move {
            let mut next = pin!(events.next());
            if is_blocked {
                let first = poll_fn(|context| Poll::Ready(next.as_mut().poll(context))).await;
                if let Poll::Ready(event) = first {
                    return event;
                }
                println!("blocked");
                sleep(Duration::from_millis(500));
            }
            next.await
        };
        self.runtime.block_on(next).transpose()
    }
}
