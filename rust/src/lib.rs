//! The input of a terminal: keys, the mouse, pastes, and what the terminal replies, from the bytes
//! that it sends.
//!
//! A [`Parser`] reads what terminals send in any mode and by any keyboard protocol, so no program
//! has to tell it which ones are on. The program's loop feeds it, and takes its [`Event`]s:
//!
//! ```
//! use hedrugal::{Dialect, Event, Parser};
//! use std::sync::mpsc::{self, Receiver, RecvTimeoutError};
//! use std::time::{Duration, Instant};
//!
//! fn run(reads: Receiver<Vec<u8>>, mut handle: impl FnMut(Event)) {
//!     let mut parser = Parser::new(Dialect::Extended);
//!     loop {
//!         parser.by_ref().for_each(&mut handle);
//!         let wait = parser.timeout(Instant::now()).unwrap_or(Duration::MAX);
//!         match reads.recv_timeout(wait) {
//!             Ok(bytes) => parser.feed(Instant::now(), &bytes),
//!             Err(RecvTimeoutError::Timeout) => parser.idle(Instant::now()),
//!             Err(RecvTimeoutError::Disconnected) => break,
//!         }
//!     }
//!     parser.end();
//!     parser.for_each(handle);
//! }
//!
//! let (sender, reads) = mpsc::channel();
//! sender.send(b"q\x1b[1;5A\x1b".to_vec()).unwrap();
//! drop(sender);
//! let mut names = Vec::new();
//! run(reads, |event| names.extend(event.press().map(|press| press.to_string())));
//! assert_eq!(names, ["q", "ctrl+up", "escape"]);
//! ```
//!
//! Every key is a [`KeyReport`], typed or reported. A [`KeyPress`] is one name for it, however its
//! terminal reports it, and a [`Chord`] is a list of these. [`Bindings`] tell what a program does at
//! which chords, and a [`Matcher`] reads keys by them. docs/EXTENDED.md of the repository says what
//! bytes mean.
//!
//! The other way are [`Event::encode`], [`KeyReport::encode`], [`SentMouse::encode`] and the
//! functions here, for a terminal or a multiplexer.
//!
//! [`terminal`] has raw mode and the events of the program's own terminal. [`input`], [`keymap`] and
//! [`escape`] have the names and paths of termwiz 0.23.3: a program that names them keeps its `use`
//! lines by this dependency:
//!
//! ```toml
//! termwiz = { package = "hedrugal", path = "hedrugal/rust" }
//! ```
//!
//! Behind the package is a library whose calls are proved against their contracts. The proof ends at
//! those calls; this crate is tested.
//!
//! docs/rust.md of the repository says which library a build finds. It is for Linux on x86-64 and on
//! 64-bit ARM.
//!
//! What names other crates is behind features: `serde`, its derives for keys, events and flags;
//! `tokio`, `mio` and `crossterm`. A program without them needs no registry.
//!
//! # If memory is refused
//!
//! The plain forms, such as [`Parser::new`], [`Parser::feed`] and the iterator, panic. The forms
//! whose names begin with `try_` return an error, after which every value may be used again. No
//! event is lost: each error says how to go on.
//!
//! # Many parsers
//!
//! All parsers of a process share one sequence table. The first call that makes a parser makes the
//! table too, which takes some half a millisecond, and it stays until the process ends. A further
//! parser takes well below a microsecond and some 250 bytes of the heap. Its buffer grows with what
//! it reads. [`Parser::shrink_to`] gives the memory of a session that is quiet back.
//!
//! # Threads
//!
//! A [`Parser`] is `Send` and `Sync`. Calls that change it borrow it alone (`&mut self`). Those that
//! only read it may be made by several threads, and lock it, since the library allows one thread at a
//! time. Parsers that share the table may be in different threads; making one locks the table for
//! that moment. In a child of fork whose parent has threads, make no call before exec.
//!
//! [`KeyMap`](keymap::KeyMap) and [`Bindings`] are `Send` and `Sync` if their values are. Lookups may
//! be made by several threads too, and lock them.
#![deny(missing_docs)]

mod bindings;
mod chord;
#[cfg(feature = "crossterm-base")]
pub mod crossterm;
mod encode;
mod entries;
mod error;
pub mod escape;
mod event;
pub mod input;
pub mod keymap;
mod matcher;
mod names;
mod parser;
mod policy;
mod press;
mod questions;
mod raw;
mod reading;
mod replies;
mod sending;
mod sent_names;
mod sequence_bytes;
mod table;
pub mod terminal;
mod timer;
mod times;
mod written;

pub use bindings::*;
pub use chord::*;
pub use encode::*;
pub use entries::*;
pub use error::*;
pub use event::*;
pub use input::flags::KittyModifiers;
pub use input::{KeyCode, KittyKeyboardFlags, Modifiers, MouseButtons};
pub use matcher::*;
pub use names::*;
pub use parser::*;
pub use policy::*;
pub use press::*;
pub use reading::*;
pub use replies::*;
pub use sending::*;
pub use sent_names::*;
pub use sequence_bytes::*;
pub use timer::*;
pub use written::*;
