// The events of the program's terminal as a stream, on any runtime.
use super::reader::{find, Found};
use crate::terminal::unix::poll_all;
use ::crossterm::event::Event;
use futures_core::Stream;
use std::io::{self, ErrorKind, Read, Write};
use std::os::fd::{AsRawFd, OwnedFd};
use std::os::unix::net::UnixStream;
use std::pin::Pin;
use std::sync::{Arc, Condvar, Mutex, MutexGuard, PoisonError};
use std::task::{Context, Poll, Waker};
use std::thread;
use std::time::Duration;

// Where another call reads, it is looked so often whether it still does.
const BUSY: Duration = Duration::from_millis(10);

/// The events of the program's terminal, as crossterm's `EventStream` has them, on any runtime. It
/// ends where the terminal is gone. crossterm's feature `event-stream` has it.
///
/// What was read is kept for the next call, so a future that is dropped loses no event.
///
/// # Panics
///
/// Its calls do as [`read`](super::event::read) does.
#[derive(Debug, Default)]
pub struct EventStream {
    watch: Option<Watch>,
}

impl EventStream {
    /// Makes one. The terminal is opened when it is first read.
    #[must_use]
    pub fn new() -> EventStream {
        EventStream::default()
    }

    fn watch(&mut self) -> io::Result<&mut Watch> {
        match &mut self.watch {
            Some(_) => {}
            none => *none = Some(Watch::begin()?),
        }
        Ok(self.watch.as_mut().expect("it has begun"))
    }
}

impl Stream for EventStream {
    type Item = io::Result<Event>;

    fn poll_next(mut self: Pin<&mut Self>, context: &mut Context<'_>) -> Poll<Option<Self::Item>> {
        let (descriptors, time) = match find(context.waker())? {
            Found::Event(event) => return Poll::Ready(Some(Ok(event))),
            Found::End => return Poll::Ready(None),
            Found::Nothing(descriptors, time) => (Some(descriptors), time),
            Found::Busy => (None, Some(BUSY)),
        };
        let waker = context.waker().clone();
        let wait = Wait {
            descriptors,
            time,
            waker,
        };
        self.watch()?.order(|orders| orders.wait = Some(wait));
        Poll::Pending
    }
}

// Wakes a task once one of these can be read, or after so long.
#[derive(Debug)]
struct Wait {
    descriptors: Option<Arc<[OwnedFd; 2]>>,
    time: Option<Duration>,
    waker: Waker,
}

// What the thread of a stream is to wait for.
#[derive(Debug, Default)]
struct Orders {
    wait: Option<Wait>,
    // Whether the thread waits for descriptors, so that a byte in the socket has it look here.
    is_polling: bool,
    is_over: bool,
}

#[derive(Debug, Default)]
struct Shared {
    orders: Mutex<Orders>,
    changed: Condvar,
}

impl Shared {
    fn orders(&self) -> MutexGuard<'_, Orders> {
        self.orders.lock().unwrap_or_else(PoisonError::into_inner)
    }
}

// A thread that waits, and never reads.
#[derive(Debug)]
struct Watch {
    shared: Arc<Shared>,
    socket: UnixStream,
}

impl Watch {
    fn begin() -> io::Result<Watch> {
        let (socket, theirs) = UnixStream::pair()?;
        socket.set_nonblocking(true)?;
        theirs.set_nonblocking(true)?;
        let shared = Arc::new(Shared::default());
        let orders = Arc::clone(&shared);
        thread::Builder::new().spawn(move || watch(&orders, &theirs))?;
        Ok(Watch { shared, socket })
    }

    fn order(&mut self, change: impl FnOnce(&mut Orders)) {
        let mut orders = self.shared.orders();
        change(&mut orders);
        if orders.is_polling {
            let _ = self.socket.write(b"!"); // a full socket has it look as well
        } else {
            self.shared.changed.notify_one();
        }
    }
}

impl Drop for Watch {
    fn drop(&mut self) {
        self.order(|orders| orders.is_over = true);
    }
}

fn watch(shared: &Shared, mut socket: &UnixStream) {
    let mut orders = shared.orders();
    while !orders.is_over {
        let Some(Wait {
            descriptors, time, ..
        }) = &orders.wait
        else {
            let waited = shared.changed.wait(orders);
            orders = waited.unwrap_or_else(PoisonError::into_inner);
            continue;
        };
        let (descriptors, time, told) = (descriptors.clone(), *time, socket.as_raw_fd());
        let watched = descriptors
            .as_ref()
            .map_or([told; 2], |it| it.each_ref().map(AsRawFd::as_raw_fd));
        orders.is_polling = true;
        drop(orders);
        let polled = poll_all([told, watched[0], watched[1]], time);
        orders = shared.orders();
        orders.is_polling = false;
        match polled {
            Ok([true, ..]) => {
                let _ = socket.read(&mut [0; 64]);
            }
            Err(error) if error.kind() == ErrorKind::Interrupted => {}
            _ => {
                let wait = orders.wait.take();
                drop(orders); // a task may be run by what wakes it
                wait.into_iter().for_each(|it| it.waker.wake());
                orders = shared.orders();
            }
        }
    }
}
