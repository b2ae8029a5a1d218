// Key reports to the bytes that a terminal sends for them.
use crate::error::FAULT;
use crate::{raw, KeyReport, KittyKeyboardFlags};
use std::{error, fmt};

/// Why [`KeyReport::try_encode`] made no text.
#[derive(Debug, Clone, Copy, PartialEq, Eq)]
pub enum KittyEncodeError {
    /// The key's report would be sent, and the protocol has no number for the key.
    UnknownKey,
    /// The sequence would have more than 256 bytes. Only a report with a long text has such a one.
    TooLong,
    /// The flags have a bit that no flag has.
    UnnamedBits,
    /// Memory was refused. The call may be made again.
    Memory,
}

impl fmt::Display for KittyEncodeError {
    fn fmt(&self, f: &mut fmt::Formatter<'_>) -> fmt::Result {
        f.write_str(match self {
            KittyEncodeError::UnknownKey => "the protocol has no number for the key",
            KittyEncodeError::TooLong => "the text of the key is too long",
            KittyEncodeError::UnnamedBits => "a bit has no name",
            KittyEncodeError::Memory => "out of memory",
        })
    }
}

impl error::Error for KittyEncodeError {}

// As many bytes as a sequence may have.
const ROOM: usize = 256;

impl KeyReport {
    /// Returns what a terminal sends for the key, if the program asked for these flags of Kitty's
    /// keyboard protocol. It is empty for a key that isn't sent, such as a release without
    /// `REPORT_EVENT_TYPES`. Of the report only what a flag asks for is sent, and a text with
    /// control characters counts as none. A terminal or a multiplexer calls it.
    ///
    /// The rules are those of Kitty's page ["Comprehensive keyboard handling in terminals"][page].
    /// Without `DISAMBIGUATE_ESCAPE_CODES` and `REPORT_ALL_KEYS_AS_ESCAPE_CODES` that is what
    /// terminals sent before the protocol: a control character for a letter with CTRL, the main key
    /// for one of the keypad, and the key's report for what has no such text. Under all flags an
    /// [`Parser`](crate::Parser) reads back each report that a terminal can send.
    ///
    /// ```
    /// use hedrugal::{KeyCode, KeyEventKind, KeyReport};
    /// use hedrugal::{KittyKeyboardFlags, KittyModifiers, ReportedKey};
    ///
    /// let released = KeyReport {
    ///     key: ReportedKey::Named(KeyCode::UpArrow),
    ///     modifiers: KittyModifiers::CTRL,
    ///     kind: KeyEventKind::Release,
    ///     shifted: None,
    ///     base: None,
    ///     text: String::new(),
    /// };
    /// let sent = |flags| released.encode(flags).unwrap();
    /// assert_eq!(sent(KittyKeyboardFlags::REPORT_EVENT_TYPES), "\x1b[1;5:3A");
    /// assert_eq!(sent(KittyKeyboardFlags::NONE), "");
    /// ```
    ///
    /// # Errors
    ///
    /// `UnknownKey` for a key that the flags leave without bytes, `TooLong` for a text that no
    /// sequence can carry, and `UnnamedBits` for flags with a bit that no flag has.
    ///
    /// # Panics
    ///
    /// If memory is refused.
    ///
    /// [page]: https://sw.kovidgoyal.net/kitty/keyboard-protocol/
    pub fn encode(&self, flags: KittyKeyboardFlags) -> Result<String, KittyEncodeError> {
        let sent = self.try_encode(flags);
        assert!(sent != Err(KittyEncodeError::Memory), "out of memory");
        sent
    }

    /// Returns what [`KeyReport::encode`] returns.
    ///
    /// # Errors
    ///
    /// The same, and `Memory` if memory is refused.
    pub fn try_encode(&self, flags: KittyKeyboardFlags) -> Result<String, KittyEncodeError> {
        let mut room = [0; ROOM];
        let len = self.encode_to(flags, &mut room)?;
        let mut bytes = Vec::new();
        bytes
            .try_reserve_exact(len)
            .map_err(|_| KittyEncodeError::Memory)?;
        match room.get(..len) {
            Some(sent) => bytes.extend_from_slice(sent),
            None => {
                // The text alone is sent, and it is longer than a sequence may be.
                bytes.resize(len, 0);
                assert_eq!(self.encode_to(flags, &mut bytes)?, len, "{FAULT}");
            }
        }
        Ok(String::from_utf8(bytes).expect(FAULT))
    }

    // Writes as many of the bytes as there is room for, and returns how many they are.
    fn encode_to(
        &self,
        flags: KittyKeyboardFlags,
        out: &mut [u8],
    ) -> Result<usize, KittyEncodeError> {
        let report = self.raw();
        let flags = u8::try_from(flags.bits()).map_err(|_| KittyEncodeError::UnnamedBits)?;
        let mut len = 0;
        // SAFETY: the pointers lead to values of their types that live through the call, with as
        // many bytes as the lengths say.
        let answer = unsafe {
            raw::hed_encode_kitty(
                &report,
                self.text.as_ptr(),
                self.text.len(),
                flags,
                out.as_mut_ptr(),
                out.len(),
                &mut len,
            )
        };
        match answer {
            raw::STATUS_OK => Ok(len),
            raw::STATUS_REFUSED_KEY => Err(KittyEncodeError::UnknownKey),
            raw::STATUS_TOO_LONG => Err(KittyEncodeError::TooLong),
            // The only number of a report that may name nothing is that of the flags.
            raw::STATUS_BAD_NUMBER => Err(KittyEncodeError::UnnamedBits),
            raw::STATUS_NO_MEMORY => Err(KittyEncodeError::Memory),
            _ => unreachable!("{FAULT}"),
        }
    }

    // The report as the library has it. Its text is passed beside it.
    pub(crate) fn raw(&self) -> raw::Event {
        let (key, detail) = self.key.numbers();
        raw::Event {
            kind: raw::KIND_KEY,
            key_event_kind: self.kind.number(),
            modifiers: self.modifiers.bits(),
            key,
            detail,
            shifted: self.shifted.map_or(raw::NO_CODE, u32::from),
            base: self.base.map_or(raw::NO_CODE, u32::from),
            ..raw::Event::default()
        }
    }
}
