//! Writes reports for people to standard error. Each is one line, and begins with a level if the
//! journal reads it. No write waits: standard error may be a terminal that somebody has stopped, or a pipe
//! that nobody reads. Some lines wait for it, and further ones are lost. A file, which may be on a disk that
//! hangs, is written by a process of its own.

use crate::rights::{give_up, user_of_client};
use crate::sys::signals;
use crate::sys::sockets::send_at_once;
use crate::time::Moment;
use lldpa_people::texts::printable;
use std::collections::{BTreeMap, VecDeque};
use std::fs::{File, OpenOptions};
use std::io::{ErrorKind, Result, Write};
use std::os::unix::fs::{FileTypeExt, MetadataExt, OpenOptionsExt};
use std::os::unix::io::{AsFd, OwnedFd};
use std::os::unix::net::UnixStream;
use std::os::unix::process::CommandExt;
use std::process::{Command, Stdio};
use std::sync::Mutex;
use std::time::Duration;

const MOST_AT_ONCE: usize = 4095; // octets that a pipe accepts whole, with a line feed
pub const ERROR: u8 = 3;
pub const WARNING: u8 = 4;
pub const NOTICE: u8 = 5;
const INFORMATION: u8 = 6;
const MOST_A_MINUTE: usize = 100; // lines of a port about its neighbors, or about settings
const OF_SETTINGS: &str = "the settings"; // no name of a port
const MINUTE: Duration = Duration::from_secs(60);
const LONGEST: usize = 1000; // characters of such a line

/// The word of the command line of the process that copies lines.
pub const WORD: &str = "--copy-reports";
const MOST_WAITING: usize = 1 << 18; // octets
const BETWEEN_TRIES: Duration = Duration::from_millis(200);

static OUT: Mutex<Option<Out>> = Mutex::new(None);

/// How lines are written without waiting.
enum Way {
    /// A terminal or a pipe that was opened once more, or a pipe to a process that copies.
    File(File),
    Socket(File),
}

/// Standard error, and what it had no room for yet.
struct Out {
    way: Way,
    is_journal: bool,
    waiting: VecDeque<u8>,
}

impl Out {
    fn open() -> Result<Out> {
        let error = File::from(std::io::stderr().as_fd().try_clone_to_owned()?);
        let found = error.metadata()?;
        let kind = found.file_type();
        let is_quick = kind.is_char_device() || kind.is_fifo();
        let again = || {
            let flags = libc::O_NONBLOCK | libc::O_NOCTTY;
            OpenOptions::new().append(true).custom_flags(flags).open("/proc/self/fd/2")
        };
        let way = match if is_quick { again() } else { Err(ErrorKind::Unsupported.into()) } {
            _ if kind.is_socket() => Way::Socket(error),
            Ok(file) => Way::File(file),
            Err(_) => Way::File(copier()?),
        };
        Ok(Out { way, is_journal: is_journal(), waiting: VecDeque::new() })
    }

    fn add(&mut self, line: &[u8]) {
        if self.waiting.len() + line.len() <= MOST_WAITING {
            self.waiting.extend(line);
        }
        self.flush();
    }

    /// Writes what there is room for. What fails is lost.
    fn flush(&mut self) {
        while !self.waiting.is_empty() {
            let octets = self.waiting.as_slices().0;
            let written = match &mut self.way {
                Way::File(file) => file.write(octets),
                Way::Socket(file) => send_at_once(file, octets),
            };
            match written {
                Ok(length) => drop(self.waiting.drain(..length)),
                Err(fault) if fault.kind() == ErrorKind::WouldBlock => return,
                Err(_) => self.waiting.clear(),
            }
        }
        self.waiting.shrink_to(1 << 12);
    }
}

/// Starts a process that copies lines to standard error, which may be a file on a disk that hangs. Returns a pipe
/// to it that never waits.
fn copier() -> Result<File> {
    let (ours, theirs) = UnixStream::pair()?;
    ours.set_nonblocking(true)?;
    signals::forget_children();
    let mut command = Command::new("/proc/self/exe");
    command.arg0("lldpa-live").arg(WORD).stdin(Stdio::from(OwnedFd::from(theirs))).stdout(Stdio::null());
    command.spawn()?;
    Ok(File::from(OwnedFd::from(ours)))
}

/// Copies lines to standard error until their writer ends. Returns the exit status.
pub fn serve() -> i32 {
    signals::ignore_all();
    let _ = give_up(user_of_client());
    i32::from(std::io::copy(&mut std::io::stdin(), &mut std::io::stderr()).is_err())
}

/// Opens standard error so that no write to it waits. All rights are still needed, and nothing else is open.
pub fn start() -> Result<()> {
    let out = Out::open()?;
    if let Ok(mut place) = OUT.lock() {
        *place = Some(out);
    }
    Ok(())
}

/// Writes what had no room yet.
pub fn flush() {
    if let Ok(Some(out)) = OUT.lock().as_deref_mut() {
        out.flush();
    }
}

/// Returns when to try again. None if nothing waits.
pub fn deadline(now: Moment) -> Option<Moment> {
    let waits = OUT.lock().map_or(false, |out| out.as_ref().map_or(false, |out| !out.waiting.is_empty()));
    waits.then(|| now + BETWEEN_TRIES)
}

pub fn report(level: u8, text: &str) {
    match OUT.lock().as_deref_mut() {
        Ok(Some(out)) => {
            let line = line_of(level, text, out.is_journal);
            out.add(&line);
        }
        _ => drop(std::io::stderr().write(&line_of(level, text, is_journal()))),
    }
}

fn line_of(level: u8, text: &str, is_journal: bool) -> Vec<u8> {
    let front = if is_journal { format!("<{level}>") } else { "lldpa-live: ".into() };
    let mut line = (front + &printable(text.as_bytes())).into_bytes();
    line.truncate(MOST_AT_ONCE);
    line.push(b'\n');
    line
}

pub fn warn(text: &str) {
    report(WARNING, text);
}

pub fn notice(text: &str) {
    report(NOTICE, text);
}

/// True if standard error goes to systemd's journal, which reads a level before each line.
fn is_journal() -> bool {
    let journal = std::env::var("JOURNAL_STREAM").unwrap_or_default();
    let number = std::io::stderr().as_fd().try_clone_to_owned().map(File::from);
    number
        .and_then(|file| file.metadata())
        .map_or(false, |file| journal == format!("{}:{}", file.dev(), file.ino()))
}

pub fn counted(count: usize, what: &str) -> String {
    lldpa_people::texts::counted(count as u128, what)
}

/// Reports when neighbors and links come, change or go, and who sets what, as a history in the journal.
#[derive(Default)]
pub struct Events {
    /// True if those of ports are reported.
    pub are_wanted: bool,
    counts: BTreeMap<String, usize>,
    next_minute: Moment,
}

impl Events {
    /// True if an event of a port would have a line.
    pub fn have_room(&mut self, port: &str) -> bool {
        self.end_minute();
        self.are_wanted && self.counts.get(port).map_or(true, |count| *count < MOST_A_MINUTE)
    }

    /// Reports an event of a port.
    pub fn report(&mut self, port: &str, text: &str) {
        if self.are_wanted {
            self.add(INFORMATION, port, text);
        }
    }

    /// Reports who has changed a setting.
    pub fn report_setting(&mut self, text: &str) {
        self.add(NOTICE, OF_SETTINGS, text);
    }

    /// Reports an event, unless those of its kind have used up their lines for this minute.
    fn add(&mut self, level: u8, kind: &str, text: &str) {
        self.end_minute();
        let count = self.counts.entry(kind.into()).or_insert(0);
        *count += 1;
        match text.char_indices().nth(LONGEST - 4) {
            _ if *count > MOST_A_MINUTE => (),
            Some((end, _)) if text.chars().count() > LONGEST => {
                report(level, &format!("{} ...", &text[..end]));
            }
            _ => report(level, text),
        }
    }

    /// Reports at the end of each minute how many events of each kind were left out.
    pub fn end_minute(&mut self) {
        let now = Moment::now();
        if now < self.next_minute {
            return;
        }
        for (kind, count) in std::mem::take(&mut self.counts) {
            if let Some(left) = count.checked_sub(MOST_A_MINUTE).filter(|left| *left > 0) {
                report(INFORMATION, &format!("{kind}: {left} more changes within a minute"));
            }
        }
        self.next_minute = now + MINUTE;
    }

    pub fn deadline(&self) -> Option<Moment> {
        self.counts.values().any(|count| *count > MOST_A_MINUTE).then_some(self.next_minute)
    }
}

#[cfg(test)]
mod tests {
    use super::*;
    use std::io::Read;

    #[test]
    fn a_report_is_one_line_with_a_level_for_the_journal() {
        for (level, text, journal, terminal) in [
            (ERROR, "a b", "<3>a b\n", "lldpa-live: a b\n"),
            (WARNING, "caf\u{e9}", "<4>caf\u{e9}\n", "lldpa-live: caf\u{e9}\n"),
            (NOTICE, "a\n<0>b", "<5>a\\x0a<0>b\n", "lldpa-live: a\\x0a<0>b\n"),
            (INFORMATION, "\x1b[2J", "<6>\\x1b[2J\n", "lldpa-live: \\x1b[2J\n"),
        ] {
            for (is_journal, wanted) in [(true, journal), (false, terminal)] {
                assert_eq!(line_of(level, text, is_journal), wanted.as_bytes(), "{text:?}");
            }
        }
        assert_eq!(line_of(ERROR, &"x".repeat(5000), true).len(), 4096);
    }

    #[test]
    fn a_reader_that_stands_still_loses_lines_and_holds_nothing_up() {
        let (ours, mut theirs) = UnixStream::pair().expect("two sockets");
        let way = Way::Socket(File::from(OwnedFd::from(ours)));
        let mut out = Out { way, is_journal: false, waiting: VecDeque::new() };
        (0..1000).for_each(|_| out.add(&[b'x'; 4096]));
        assert!(out.waiting.len() > MOST_WAITING - 4096);
        theirs.set_nonblocking(true).expect("a socket");
        let (mut read, mut room) = (0, [0; 1 << 16]);
        while let Ok(length) = theirs.read(&mut room) {
            read += length;
            out.flush();
        }
        assert!(
            out.waiting.is_empty() && read % 4096 == 0 && read < 1000 * 4096,
            "{read}: those that waited"
        );
        drop(theirs);
        out.add(b"x");
        assert!(out.waiting.is_empty(), "nobody reads");
    }
}
