//! crossterm 0.25, with a terminal that is read by `hedrugal`.
//!
//! A program names it in its manifest in crossterm's place, and changes no line of its sources:
//!
//! ```toml
//! crossterm = { package = "hedrugal-crossterm", path = "hedrugal/rust/crossterm" }
//! ```
//!
//! It has everything that crossterm has, by crossterm's own code, but for what reads the terminal:
//! [`event::read`], [`event::poll`], `event::EventStream` and [`cursor::position`] are hedrugal's,
//! and [`terminal::supports_keyboard_enhancement`] too, which later versions of crossterm have. None
//! of crossterm's readers is there. docs/SWITCH.md of the repository says what gets better and what
//! differs.
pub use hedrugal::crossterm::{cursor, event, terminal};
pub use real::*;
