// Times as the library counts them, in milliseconds.
use std::time::{Duration, Instant};

// Tells the library what time it is. It counts from the first time that it was told.
#[derive(Debug, Clone, Copy, PartialEq, Eq, Default)]
pub(crate) struct Clock {
    first: Option<Instant>,
}

impl Clock {
    // A time in milliseconds. If it is the first one, it is kept.
    pub fn begin(&mut self, now: Instant) -> u64 {
        self.first.get_or_insert(now);
        self.millis(now)
    }

    // A time in milliseconds. The first one is in the middle, since others may be before it.
    pub fn millis(&self, now: Instant) -> u64 {
        const FIRST: u64 = 1 << 63;
        let first = self.first.unwrap_or(now);
        let millis = |time: Duration| u64::try_from(time.as_millis()).unwrap_or(FIRST);
        match now.checked_duration_since(first) {
            Some(since) => FIRST.saturating_add(millis(since)),
            None => FIRST.saturating_sub(millis(first.duration_since(now))),
        }
    }
}

// A limit in milliseconds, below 0 if there is none.
pub(crate) fn limit_millis(limit: Option<Duration>) -> i32 {
    limit.map_or(-1, |limit| {
        i32::try_from(limit.as_millis()).unwrap_or(i32::MAX)
    })
}

// How long something may wait, of milliseconds that are below 0 for ever.
pub(crate) fn wait_of(millis: i32) -> Option<Duration> {
    u64::try_from(millis).ok().map(Duration::from_millis)
}
