// How long bytes may stay buffered.
use crate::raw;
use crate::times::limit_millis;
use std::time::Duration;

/// How long each kind of bytes may stay buffered, as [`Parser::timeout`](crate::Parser::timeout)
/// counts it. `None` is forever.
///
/// Of a limit whole milliseconds count: at least one, and at most 2147418111 of them.
#[derive(Debug, Clone, Copy, PartialEq, Eq, Hash)]
#[cfg_attr(feature = "serde", derive(serde::Serialize, serde::Deserialize))]
pub struct Policy {
    /// ESC or ESC ESC, since bytes last came. Then it is the Escape key.
    pub escape: Option<Duration>,
    /// ESC and one byte that may begin a sequence, such as ESC `[`, since the ESC came. Then it is a
    /// key with ALT.
    pub alt_key: Option<Duration>,
    /// A longer beginning of a sequence, since its first byte came. Then its bytes are keys.
    pub sequence: Option<Duration>,
    /// A string without its end, since its first byte came, and a millisecond more for each byte
    /// that is buffered.
    pub string: Option<Duration>,
    /// The beginning of a character, since its first byte came.
    pub character: Option<Duration>,
    /// An open paste, since bytes last came. Then it is ended where it is.
    pub paste: Option<Duration>,
}

impl Policy {
    /// Returns the limits that hold where none were set: 50 ms for an Escape, 100 ms for a key with
    /// ALT, a second for a sequence and 5 seconds for a string. A character and a paste wait forever.
    #[must_use]
    pub const fn usual() -> Policy {
        Policy {
            escape: Some(Duration::from_millis(50)),
            alt_key: Some(Duration::from_millis(100)),
            sequence: Some(Duration::from_millis(1000)),
            string: Some(Duration::from_millis(5000)),
            character: None,
            paste: None,
        }
    }

    /// Returns the limits of bytes that wait for more, or for a flush, however long that takes.
    #[must_use]
    pub const fn never() -> Policy {
        Policy {
            escape: None,
            alt_key: None,
            sequence: None,
            string: None,
            character: None,
            paste: None,
        }
    }

    // The policy, as the library has it.
    pub(crate) fn raw(&self) -> raw::Policy {
        raw::Policy {
            escape: raw_limit(self.escape),
            alt_key: raw_limit(self.alt_key),
            sequence: raw_limit(self.sequence),
            string: raw_limit(self.string),
            character: raw_limit(self.character),
            paste: raw_limit(self.paste),
        }
    }
}

// A limit in the library's numbers, in which 0 is the usual one: so less than a millisecond counts as
// one.
fn raw_limit(limit: Option<Duration>) -> i32 {
    match limit_millis(limit) {
        0 => 1,
        millis => millis.min(raw::LIMIT_MOST),
    }
}

impl Default for Policy {
    fn default() -> Policy {
        Policy::usual()
    }
}
