// The questions that a terminal was asked and hasn't answered yet.
use crate::error::FAULT;
use crate::times::{wait_of, Clock};
use crate::{raw, Event, Parser};
use std::time::{Duration, Instant};

// Which replies answer which question, as the library decides it. It asks for no memory.
#[derive(Debug, Clone, Copy, Default)]
pub(crate) struct Questions {
    raw: raw::Questions,
    clock: Clock,
}

impl Questions {
    // Notes that the program writes `text` now, and ESC [c behind it. The question is open until the
    // reply to that comes, or for so long. Returns its number, or `None` if too many are open.
    pub fn ask(
        &mut self,
        parser: &mut Parser,
        now: Instant,
        time: Duration,
        text: &[u8],
    ) -> Option<u64> {
        let now = self.clock.begin(now);
        let millis = u64::try_from(time.as_millis()).unwrap_or(u64::MAX);
        let mut number = 0;
        // SAFETY: the pointers lead to different values of their types that live through the call,
        // and to as many bytes as the length says.
        let status = unsafe {
            raw::hed_questions_ask(
                &mut self.raw,
                parser.raw(),
                now,
                millis,
                text.as_ptr(),
                text.len(),
                &mut number,
            )
        };
        match status {
            raw::STATUS_OK => Some(number),
            raw::STATUS_FULL => None,
            _ => unreachable!("{FAULT}"),
        }
    }

    // Notes an event of the parser. Returns the number of the question to which it is a reply, if it
    // is one.
    pub fn note(&mut self, parser: &mut Parser, now: Instant, event: &Event) -> Option<u64> {
        if self.count() == 0 {
            return None;
        }
        let now = self.clock.begin(now);
        let (event, text) = (event.raw(), event.bytes());
        let mut number = 0;
        // SAFETY: as above.
        let status = unsafe {
            raw::hed_questions_note(
                &mut self.raw,
                parser.raw(),
                now,
                &event,
                text.as_ptr(),
                text.len(),
                &mut number,
            )
        };
        assert_eq!(status, raw::STATUS_OK, "{FAULT}");
        (number != 0).then_some(number)
    }

    // Ends the questions that are overdue.
    pub fn expire(&mut self, parser: &mut Parser, now: Instant) {
        let now = self.clock.begin(now);
        // SAFETY: the pointers lead to different values that live through the call.
        let status = unsafe { raw::hed_questions_expire(&mut self.raw, parser.raw(), now) };
        assert_eq!(status, raw::STATUS_OK, "{FAULT}");
    }

    // Ends all questions: another program had the terminal, and may have read the replies.
    pub fn forget(&mut self, parser: &mut Parser) {
        // SAFETY: as above.
        unsafe { raw::hed_questions_forget(&mut self.raw, parser.raw()) }
    }

    // How long it is until a question is overdue, if one is open.
    pub fn timeout(&self, now: Instant) -> Option<Duration> {
        let now = self.clock.millis(now);
        // SAFETY: the pointer leads to questions that live through the call.
        wait_of(unsafe { raw::hed_questions_timeout(&self.raw, now) })
    }

    // How many questions are open.
    pub fn count(&self) -> usize {
        self.raw.count as usize
    }

    // The number of the question that was answered last, 0 if none was.
    pub fn answered(&self) -> u64 {
        self.raw.answered
    }

    pub fn is_open(&self, number: u64) -> bool {
        self.raw.open[..self.count()]
            .iter()
            .any(|question| question.number == number)
    }

    // How long the slowest answer took, if one came.
    pub fn slowest(&self) -> Option<Duration> {
        (self.answered() != 0).then(|| Duration::from_millis(self.raw.slowest))
    }
}
