// What else of the program reads the terminal.
use crate::terminal::restore;
use crate::terminal::unix::{Action, SIGWINCH};
use std::fs::{self, File};
use std::io;
use std::os::unix::fs::MetadataExt;
use std::path::Path;

// crossterm's own reader, which a crate calls that names crossterm itself.
#[derive(Default)]
pub struct Other {
    // What SIGWINCH did when it was looked for.
    resize: Option<Action>,
}

impl Other {
    // Ends the program if it is there, since each would have some of the keys. It handles SIGWINCH
    // from its first call on, so it is looked for once something else does.
    pub fn refuse(&mut self, terminal: &File) -> io::Result<()> {
        let resize = Action::of(SIGWINCH)?;
        if self.resize == Some(resize) {
            return Ok(());
        }
        self.resize = Some(resize);
        if is_there(terminal.metadata()?.ino()) {
            refuse(
                "a crate of this program reads the terminal by crossterm itself, so keys get lost: \
                 name hedrugal-crossterm in its manifest too, or don't call what reads there",
            );
        }
        Ok(())
    }
}

// It waits by an epoll, in which the terminal has the token 0, and the pipe of SIGWINCH 1.
fn is_there(terminal: u64) -> bool {
    let Ok(descriptors) = fs::read_dir("/proc/self/fd") else {
        return false;
    };
    descriptors.flatten().any(|descriptor| {
        let is_epoll = |it: &Path| it.as_os_str() == "anon_inode:[eventpoll]";
        if !fs::read_link(descriptor.path()).is_ok_and(|it| is_epoll(&it)) {
            return false;
        }
        let told = Path::new("/proc/self/fdinfo").join(descriptor.file_name());
        let told = fs::read_to_string(told).unwrap_or_default();
        let watched: Vec<_> = told.lines().filter_map(watched).collect();
        watched.contains(&(0, terminal)) && watched.iter().any(|(token, _)| *token == 1)
    })
}

// The token and the inode of what a line says is watched.
fn watched(line: &str) -> Option<(u64, u64)> {
    let (_, token) = line.strip_prefix("tfd:")?.split_once(" data:")?;
    let (token, behind) = token.trim_start().split_once(' ')?;
    let (_, inode) = behind.split_once("ino:")?;
    let inode = inode.split(' ').next()?;
    let number = |it| u64::from_str_radix(it, 16).ok();
    Some((number(token)?, number(inode)?))
}

// Says so on a terminal as it was.
pub fn refuse(why: &str) -> ! {
    let _ = ::crossterm::terminal::disable_raw_mode();
    restore();
    panic!("{why}");
}
