//! A program over the guard alone, whose keys tests/test_rust_terminal.py types.
//!
//! It reads by itself, with `plain` without a mouse, and with `thread` in a thread. With `storm` it
//! drops many guards. With `errno` a handler fails to write, and the program prints `errno` after it.
#[allow(dead_code)] // what the program of the scenarios uses
mod unix;

use hedrugal::terminal::{Modes, RawMode};
use hedrugal::MouseTracking;
use std::fs::File;
use std::io::{self, Read, Write};
use std::process::Command;
use std::thread;
use std::time::{Duration, Instant};

const MODES: Modes = Modes {
    paste: true,
    mouse: Some(MouseTracking::Any),
    focus: true,
    enter: "\x1b[?1049h",
    leave: "\x1b[?1049l",
    ..Modes::NONE
};

const ICANON: u32 = 2;

const SIGCONT: i32 = 18;

extern "C" {
    fn tcgetattr(terminal: i32, settings: *mut [u32; 64]) -> i32;
    fn raise(number: i32) -> i32;
    fn __errno_location() -> *mut i32;
}

fn print(line: &str) -> io::Result<()> {
    writeln!(io::stdout(), "{line}")
}

// Reads bytes without any loop that heeds signals.
fn read(guard: &RawMode) -> io::Result<()> {
    let mut byte = [0];
    while byte != *b"q" && guard.input().read(&mut byte)? > 0 {
        if byte == *b"o" {
            guard.set_owed(1, None);
        }
        print(&format!("byte {}", byte[0]))?;
    }
    Ok(())
}

// The same in a thread, so that a handler runs beside it.
fn read_by_thread(guard: &RawMode) -> io::Result<()> {
    thread::scope(|scope| scope.spawn(|| read(guard)).join()).expect("it doesn't panic")
}

fn run_guard(modes: Modes, read: fn(&RawMode) -> io::Result<()>) -> io::Result<()> {
    let guard = RawMode::new(modes)?;
    print("q ends")?;
    read(&guard)
}

fn is_raw() -> bool {
    let mut settings = [0; 64];
    // SAFETY: there is room for a `struct termios`.
    unsafe { tcgetattr(0, &mut settings) };
    settings[3] & ICANON == 0
}

// Drops guards in a thread for some seconds, and counts those that leave the terminal raw.
fn run_storm() -> io::Result<()> {
    let end = Instant::now() + Duration::from_secs(4);
    let drop_guards = move || {
        let mut left_raw = 0;
        while Instant::now() < end {
            drop(RawMode::new(Modes::NONE)?);
            left_raw += usize::from(is_raw());
        }
        Ok::<usize, io::Error>(left_raw)
    };
    print("q ends")?;
    let left_raw = thread::spawn(drop_guards)
        .join()
        .expect("it doesn't panic")?;
    print(&format!("{left_raw} left raw"))
}

// Has the handler set a terminal that somebody else has set. Returns what `errno` is then.
fn continue_after(settings: &str) -> io::Result<i32> {
    Command::new("stty").arg(settings).status()?;
    // SAFETY: the pointer leads to this thread's number.
    unsafe {
        *__errno_location() = 0;
        raise(SIGCONT);
        Ok(*__errno_location())
    }
}

fn run_errno() -> io::Result<()> {
    let guard = RawMode::new(MODES)?;
    let full = File::create("/dev/full")?;
    let errno = unix::with_output(&full, || continue_after("sane"))??;
    continue_after("sane")?;
    print(&format!("q ends, errno {errno}"))?;
    read(&guard)
}

fn main() -> io::Result<()> {
    match std::env::args().nth(1).as_deref() {
        Some("plain") => run_guard(Modes::default(), read),
        Some("thread") => run_guard(MODES, read_by_thread),
        Some("storm") => run_storm(),
        Some("errno") => run_errno(),
        _ => run_guard(MODES, read),
    }
}
