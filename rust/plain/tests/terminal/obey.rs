// What the keys have the program do.
use super::{lines, malloc, unix, Source};
use hedrugal::terminal::Terminal;
use hedrugal::{Event, KeyCode, KeyEventKind, KittyModifiers, ReportedKey, Size};
use std::io::{self, Write};
use std::process::Command;
use std::thread::sleep;
use std::time::Duration;

const POSITION: &str = "\x1b[6n";
const BACKGROUND: &str = "\x1b]11;?\x1b\\";
const THREE: &str = "\x1b[6n\x1b[6n\x1b]11;?\x1b\\";
const BUSY: Duration = Duration::from_millis(300);
const LONG: Duration = Duration::from_secs(60);

/// Whether the program goes on, opens its terminal anew, or ends with a status.
#[derive(PartialEq)]
pub enum Obeyed {
    GoesOn,
    OpensAnew,
    Ends(u8),
}

pub struct Program<'a> {
    pub source: Source,
    pub command: &'a str,
    // Whether it asks once it is told the size, which comes last when the terminal is back.
    pub asks: bool,
    // The size that was told when the terminal was lent no longer.
    pub told: Option<Size>,
}

fn run(command: &str) -> io::Result<i32> {
    let status = Command::new("sh").args(["-c", command]).status()?;
    Ok(unix::number_of(status))
}

// The character of a key without modifiers.
fn character(event: &Event) -> Option<char> {
    match event {
        Event::Key(report) if report.modifiers == KittyModifiers::NONE => match report.key {
            ReportedKey::Named(KeyCode::Char(it)) if report.kind == KeyEventKind::Press => Some(it),
            _ => None,
        },
        _ => None,
    }
}

impl Program<'_> {
    fn terminal(&mut self) -> &mut Terminal {
        self.source.terminal()
    }

    // The terminal waits for room, where standard output fails.
    pub fn print(&mut self, line: &str) -> io::Result<()> {
        io::stdout().flush()?;
        self.terminal().write_all(format!("{line}\n").as_bytes())
    }

    // Prints an event, and does what a key says. A size is told once.
    pub fn handle(&mut self, event: &Event) -> io::Result<Obeyed> {
        if matches!(event, Event::Resized(size) if self.told.take() == Some(*size)) {
            return Ok(Obeyed::GoesOn);
        }
        self.print(&lines::line(event))?;
        if self.asks && matches!(event, Event::Resized(_)) {
            self.ask(POSITION, Duration::ZERO)?;
        }
        character(event).map_or(Ok(Obeyed::GoesOn), |key| self.obey(key))
    }

    fn obey(&mut self, key: char) -> io::Result<Obeyed> {
        match key {
            'q' => return Ok(Obeyed::Ends(0)),
            'r' => return Ok(Obeyed::OpensAnew),
            'x' => return Ok(Obeyed::Ends(3)),
            '!' => panic!("a panic"),
            'g' => return self.sleep("ending", BUSY).map(|()| Obeyed::Ends(0)),
            '0' => return self.take_next(),
            'f' => return self.fork_closing(),
            'p' => self.fork_waiting(),
            '2' => self.open_second(),
            'z' => self.print_size(),
            'k' => self.sleep("busy", BUSY),
            's' => self.sleep("asleep", LONG),
            'h' => write!(io::stdout(), "half a line"),
            'l' => self.lend(),
            'c' => self.run_child(),
            '6' => self.ask(POSITION, Duration::ZERO),
            '9' => self.ask(THREE, Duration::ZERO),
            't' => self.ask(POSITION, Duration::from_secs(1)),
            'a' => self.ask(POSITION, Duration::MAX),
            'b' => self.ask(BACKGROUND, Duration::MAX),
            // Keys of this program alone.
            'o' => self.tell_own(),
            'm' => self.ask_while_refused(),
            _ => Ok(()),
        }?;
        Ok(Obeyed::GoesOn)
    }

    fn sleep(&mut self, line: &str, time: Duration) -> io::Result<()> {
        self.print(line)?;
        sleep(time);
        Ok(())
    }

    fn take_next(&mut self) -> io::Result<Obeyed> {
        if self.terminal().poll(Duration::ZERO)? {
            if let Some(event) = self.terminal().read()? {
                return self.handle(&event);
            }
        }
        self.print("nothing").map(|()| Obeyed::GoesOn)
    }

    fn open_second(&mut self) -> io::Result<()> {
        let is_open = Terminal::open().is_ok();
        self.print(if is_open { "opened" } else { "refused" })
    }

    fn print_size(&mut self) -> io::Result<()> {
        let size = Event::Resized(self.terminal().size()?);
        self.print(&lines::line(&size).replace("resized", "size"))
    }

    fn run_child(&mut self) -> io::Result<()> {
        let status = run(self.command)?;
        self.print(&format!("child {status}"))
    }

    // No event tells that the terminal is back, since the program knows.
    fn lend(&mut self) -> io::Result<()> {
        let command = self.command;
        let status = self.terminal().lend(|| run(command))??;
        self.print(&format!("lent {status}"))?;
        self.handle(&Event::Resumed)?;
        let size = self.terminal().size()?;
        self.told = None;
        self.handle(&Event::Resized(size))?;
        self.told = Some(size);
        Ok(())
    }

    fn ask(&mut self, questions: &str, time: Duration) -> io::Result<()> {
        let answers = self.terminal().ask(questions, time)?;
        let is_last = |it: &Event| matches!(it, Event::Csi(bytes) if bytes.ends_with(b"c"));
        assert_eq!(answers.is_whole, answers.events.last().is_some_and(is_last));
        self.print(&format!("asked: {}", lines::lines(&answers.events)))
    }

    // The terminal is its parent's, whatever the child calls.
    fn fork_closing(&mut self) -> io::Result<Obeyed> {
        let child = unix::fork_child();
        if child == 0 {
            self.terminal().lend(|| ())?;
            return Ok(Obeyed::Ends(5));
        }
        self.print_child(child).map(|()| Obeyed::GoesOn)
    }

    fn fork_waiting(&mut self) -> io::Result<()> {
        let child = unix::fork_child();
        if child == 0 {
            unix::wait_for_signals();
        }
        self.print(&format!("forked {child}"))?;
        self.print_child(child)
    }

    fn print_child(&mut self, child: i32) -> io::Result<()> {
        let status = unix::number_of(unix::wait_for(child));
        self.print(&format!("child {status}"))
    }

    fn tell_own(&mut self) -> io::Result<()> {
        let guard = self.terminal().raw_mode();
        guard.set_own("not told", "either");
        guard.set_own("\x1b[?2031h", "\x1b[?2031l");
        self.print("own")
    }

    // The command is the number of the request that is refused.
    fn ask_while_refused(&mut self) -> io::Result<()> {
        let number = self.command.parse().unwrap_or(0);
        let ask = || self.terminal().ask(POSITION, Duration::MAX);
        let line = match malloc::refusing(number, ask) {
            (Err(error), 1) => format!("{:?}", error.kind()),
            (answers, _) => format!("asked: {}", lines::lines(&answers?.events)),
        };
        self.print(&line)
    }
}
