// What a terminal still sends when it is left.
use super::unix;
use std::fs::File;
use std::io::{ErrorKind, Read};
use std::os::fd::AsRawFd;
use std::sync::atomic::Ordering::SeqCst;
use std::sync::atomic::{AtomicU64, AtomicUsize};
use std::time::{Duration, Instant};

/// The last question, which nearly every terminal answers, after those before it (DA1).
pub const ATTRIBUTES: &[u8] = b"\x1b[c";

// How long replies are waited for: twice as long as the slowest took, within these limits.
const SHORTEST_WAIT: Duration = Duration::from_millis(200);
const LONGEST_WAIT: Duration = Duration::from_secs(1);
const NEVER: u64 = u64::MAX;

// A handler of signals may look into it.
pub struct Leftover {
    // How many replies to ATTRIBUTES are owed, as a `Terminal` counts them.
    owed: AtomicUsize,
    // The longest time that a reply to ATTRIBUTES took, in milliseconds.
    longest: AtomicU64,
}

impl Leftover {
    pub fn new() -> Leftover {
        Leftover {
            owed: AtomicUsize::new(0),
            longest: AtomicU64::new(NEVER),
        }
    }

    pub fn set(&self, owed: usize, longest: Option<Duration>) {
        let millis = |time: Duration| time.as_millis().try_into().unwrap_or(NEVER - 1);
        self.owed.store(owed, SeqCst);
        self.longest.store(longest.map_or(NEVER, millis), SeqCst);
    }

    // Whether a reply may come. It is discarded, and owed no longer.
    pub fn take(&self) -> bool {
        self.owed.swap(0, SeqCst) > 0
    }

    // Reads up to the last reply that is owed, once modes are turned off. Where mouse reports came, a
    // terminal that answers is asked once more: no report comes behind its reply. Returns whether
    // nothing of all this is left. No reply is owed any more.
    pub fn read(&self, input: &File, output: &File, has_mouse: bool) -> bool {
        let (mut owed, longest) = (self.owed.swap(0, SeqCst), self.longest.load(SeqCst));
        if owed == 0 && has_mouse && longest != NEVER {
            owed = usize::from(unix::write_all(output.as_raw_fd(), ATTRIBUTES).is_ok());
        }
        if owed == 0 {
            return !has_mouse;
        }
        let slowest = Duration::from_millis(if longest == NEVER { 0 } else { longest });
        let time = slowest.saturating_mul(2).clamp(SHORTEST_WAIT, LONGEST_WAIT);
        read_replies(input, owed, Instant::now() + time)
    }
}

// Reads so many replies to ATTRIBUTES and what comes before them, a byte at a time, since what comes
// behind is for another program. Returns whether they came in time.
fn read_replies(mut input: &File, mut owed: usize, end: Instant) -> bool {
    let (mut reply, mut byte) = (Attributes::default(), [0]);
    while owed > 0 {
        let left = end.saturating_duration_since(Instant::now());
        if left.is_zero() {
            return false;
        }
        let ready = unix::poll_all([input.as_raw_fd()], Some(left));
        let count = ready.and_then(|[is_ready]| {
            if is_ready {
                input.read(&mut byte)
            } else {
                Ok(0)
            }
        });
        match count {
            Ok(0) => return false,
            Ok(_) => owed -= usize::from(reply.ends_with(byte[0])),
            Err(error)
                if matches!(error.kind(), ErrorKind::WouldBlock | ErrorKind::Interrupted) => {}
            Err(_) => return false,
        }
    }
    true
}

// How much there is of a reply to ATTRIBUTES: ESC [ ? and numbers with `;` between them, and then c.
#[derive(Default)]
struct Attributes {
    len: u8,
}

impl Attributes {
    fn ends_with(&mut self, byte: u8) -> bool {
        self.len = match (self.len, byte) {
            (_, 0x1b) => 1,
            (1, b'[') => 2,
            (2, b'?') => 3,
            (3 | 4, b'0'..=b'9') | (4, b';') => 4,
            (4, b'c') => 5,
            _ => 0,
        };
        self.len == 5
    }
}
