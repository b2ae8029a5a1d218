// A parser, by the crate's public calls alone.
mod bindings;
mod calls;
#[path = "../cases/mod.rs"]
mod cases;
mod clock;
mod compared;
mod draws;
mod encode;
mod generated;
mod kitty;
mod limits;
mod lines;
mod long;
mod names;
mod parser;
mod plain;
mod press_to_press;
mod presses;
mod reading;
mod recorded;
mod replies;
mod rows;
mod sending;
mod sequence_bytes;
mod streams;
mod terminals;
mod twins;
mod waiting;
mod written;

// The plain reader of the port, its texts, and how recorded answers are fed. The tests of the port use more of these.
#[allow(dead_code)]
#[path = "../parser"]
mod port {
    pub mod calls;
    pub mod draws;
    pub mod feeder;
    pub mod lines;
    pub mod names;
    pub mod plain;
}
