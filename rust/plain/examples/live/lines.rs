//! The lines that the live programs print.
use hedrugal::terminal::{Modes, Terminal};
use hedrugal::{
    Event, KeyCode, KeyEventKind, KeyReport, KittyModifiers, Modifiers, MouseReport, MouseTracking,
    ReportedKey,
};
use std::io::{self, Write};
use std::process::ExitCode;

fn key_line(report: &KeyReport) -> String {
    let mut line = match report.key {
        ReportedKey::Named(KeyCode::Char(c)) => format!("Char U+{:04X}", u32::from(c)),
        ReportedKey::Named(KeyCode::Function(number)) => format!("Function {number}"),
        ReportedKey::Named(named) => format!("{named:?}"),
        ReportedKey::Functional(number) => format!("Functional {number}"),
    };
    for (flag, name) in [
        (KittyModifiers::SHIFT, " shift"),
        (KittyModifiers::ALT, " alt"),
        (KittyModifiers::CTRL, " ctrl"),
        (KittyModifiers::SUPER, " super"),
    ] {
        if report.modifiers.contains(flag) {
            line.push_str(name);
        }
    }
    line.push_str(match report.kind {
        KeyEventKind::Press => "",
        KeyEventKind::Repeat => " repeat",
        KeyEventKind::Release => " release",
    });
    line
}

fn mouse_line(report: &MouseReport) -> String {
    let (x, y, buttons) = (report.x, report.y, report.buttons.bits());
    let mut line = format!("mouse at {x}, {y}, buttons {buttons}");
    for (flag, name) in [
        (Modifiers::SHIFT, " shift"),
        (Modifiers::ALT, " alt"),
        (Modifiers::CTRL, " ctrl"),
    ] {
        if report.modifiers.contains(flag) {
            line.push_str(name);
        }
    }
    line
}

fn line(event: &Event) -> Option<String> {
    Some(match event {
        Event::Key(report) => key_line(report),
        Event::Mouse(report) => mouse_line(report),
        Event::Paste(text) => format!("paste of {} bytes", text.len()),
        Event::PastePart(text) => format!("part of a paste, {} bytes", text.len()),
        Event::Resized(size) => format!("size {} x {}", size.columns, size.rows),
        Event::Resumed => return None,
        other => format!("{other:?}"),
    })
}

fn is_q(event: &Event) -> bool {
    event.press().is_some_and(|press| press.to_string() == "q")
}

/// Prints the first line.
pub fn begin(terminal: &mut Terminal) -> io::Result<()> {
    terminal.write_all(b"q ends\n")
}

/// Prints an event. Returns whether the program goes on.
pub fn handle(event: &Event, terminal: &mut Terminal) -> io::Result<bool> {
    if let Some(line) = line(event) {
        terminal.write_all(format!("{line}\n").as_bytes())?;
    }
    Ok(!is_q(event))
}

/// Runs a program with the modes that its words ask for.
pub fn run_by(run: impl FnOnce(Modes) -> io::Result<()>) -> ExitCode {
    let words: Vec<_> = std::env::args_os().skip(1).collect();
    let mouse = words == ["--mouse"];
    if !words.is_empty() && !mouse {
        eprintln!("usage: live [--mouse]");
        return ExitCode::from(2);
    }
    let modes = Modes {
        mouse: mouse.then_some(MouseTracking::Any),
        ..Modes::default()
    };
    match run(modes) {
        Ok(()) => ExitCode::SUCCESS,
        Err(error) => {
            eprintln!("live: {error}");
            ExitCode::FAILURE
        }
    }
}
