// The calls that parse, and what is buffered after one.
use hedrugal::input::{InputEvent, InputParser};
use hedrugal::Waiting;

pub const MORE: bool = true;

pub const LAST: bool = false;

pub trait Buffer {
    fn waiting_len(&self) -> usize;

    fn is_paste_open(&self) -> bool;

    // Puts a new parser in its place. Returns how many bytes were buffered.
    fn reset(&mut self) -> usize;
}

impl Buffer for InputParser {
    fn waiting_len(&self) -> usize {
        self.parser().waiting_len()
    }

    fn is_paste_open(&self) -> bool {
        self.parser().waiting() == Waiting::Paste
    }

    fn reset(&mut self) -> usize {
        std::mem::take(self).waiting_len()
    }
}

// The most that stays buffered, but for an open paste: one ESC, and the longest proper beginning of
// a sequence.
pub const MOST: usize = 21;

// By which call bytes are read.
#[derive(Clone, Copy, Debug)]
pub enum Call {
    // `parse_as_vec`.
    List,
    // `try_parse_as_vec`.
    TryList,
    // `parse`.
    Callback,
    // `try_parse`.
    TryCallback,
}

pub const CALLS: [Call; 4] = [Call::List, Call::TryList, Call::Callback, Call::TryCallback];

impl Call {
    // The events of what is buffered and of these bytes. After the call few bytes stay buffered, or
    // a paste is open.
    pub fn events(self, parser: &mut InputParser, bytes: &[u8], more: bool) -> Vec<InputEvent> {
        let mut events = Vec::new();
        let granted = "memory is granted";
        match self {
            Call::List => events = parser.parse_as_vec(bytes, more),
            Call::TryList => events = parser.try_parse_as_vec(bytes, more).expect(granted),
            Call::Callback => parser.parse(bytes, |event| events.push(event), more),
            Call::TryCallback => {
                let parsed = parser.try_parse(bytes, |event| events.push(event), more);
                parsed.expect(granted);
            }
        }
        let waiting = parser.waiting_len();
        assert!(waiting <= MOST || parser.is_paste_open(), "{waiting} wait");
        events
    }
}

// The events of a text in pieces of this size, each with more to come, and then of a flush; and how
// many bytes stay buffered then.
pub fn read_in_pieces(
    call: Call,
    parser: &mut InputParser,
    text: &[u8],
    piece: usize,
) -> (Vec<InputEvent>, usize) {
    let mut events = Vec::new();
    for bytes in text.chunks(piece) {
        events.append(&mut call.events(parser, bytes, true));
    }
    events.append(&mut call.events(parser, b"", false));
    (events, parser.waiting_len())
}

// In pieces of each size the text has the same events as whole, and as many bytes stay buffered.
pub fn check_sizes(parser: &mut InputParser, name: &str, text: &[u8]) {
    parser.reset();
    let events = Call::List.events(parser, text, false);
    let whole = (events, parser.waiting_len());
    for piece in [1, 2, 3, 7, 64] {
        parser.reset();
        let cut = read_in_pieces(Call::List, parser, text, piece);
        assert!(cut == whole, "{name}, pieces of {piece}");
    }
    parser.reset();
}
