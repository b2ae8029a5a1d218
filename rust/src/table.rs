// The sequence table, which all parsers of the process share.
//
// The library makes a parser with a table of its own, or one that shares the table of another. Here
// one idle parser has the table. It is made with the first parser that a program asks for, and is
// never freed. Every other parser is made from it.
//
// Parsers of several threads read the table at the same time. That is sound: no call changes a
// table, and the library counts those that share it by an atomic counter (an `Arc`), so each of
// them is used and freed in whatever thread it is. What one thread at a time may use is the idle
// parser's handle, also to make a parser from it. So the lock is held in that call.
//
// A child of fork has a copy of the table, and may make parsers. If its parent has threads, it may
// not before exec, as the library's header says: another thread may have held this lock at the
// fork, or malloc's.
use crate::error::{granted, AllocError};
use crate::raw;
use std::sync::{Mutex, PoisonError};

// The idle parser. There is none until the first call that isn't refused memory.
static IDLE: Mutex<Option<raw::Parser>> = Mutex::new(None);

// Makes a parser by `init`, which is called with the idle parser while this thread alone has it,
// and returns the library's answer.
pub(crate) fn share(init: impl FnOnce(&raw::Parser) -> u32) -> Result<(), AllocError> {
    // Nothing panics while it is locked.
    let mut locked = IDLE.lock().unwrap_or_else(PoisonError::into_inner);
    let idle = match &mut *locked {
        Some(idle) => idle,
        none => none.insert(parser_with_table()?),
    };
    granted(init(idle))
}

// A parser with a table of its own.
fn parser_with_table() -> Result<raw::Parser, AllocError> {
    let mut raw = raw::Parser::NONE;
    // SAFETY: `raw` is no parser yet, which the call allows.
    granted(unsafe { raw::hed_parser_init(&mut raw, raw::DIALECT_EXTENDED) })?;
    Ok(raw)
}
