//! Asks the name service for the name of this host with its domain, and for the group of the control socket if
//! /etc/group lacks it. The name service may answer late or never, so a process without rights asks each question, and
//! ends when nobody waits for its answers any more. That of the group asks until the group is there, and also lets it
//! use the socket: lldpa-live itself opens no file after its start.

use crate::listening::hand_over;
use crate::rights::{full_name_of, give_up, group_in_file, group_of, text_of, User};
use crate::sys::{end_at_once, host_name, signals};
use crate::waiting::Awaited;
use std::io::{ErrorKind, Read, Result, Write};
use std::os::unix::io::{AsFd, OwnedFd};
use std::os::unix::net::UnixStream;
use std::os::unix::process::CommandExt;
use std::process::{Command, Stdio};
use std::sync::mpsc::channel;
use std::thread;
use std::time::Duration;

/// The first words of the command lines of these processes.
pub const FOR_GROUP: &str = "--number-of-group";
pub const FOR_HOST: &str = "--name-of-host";
/// How long the start waits for a group.
const PATIENCE: Duration = Duration::from_secs(1);
const BETWEEN_TRIES: Duration = Duration::from_secs(10);
/// How often the host's name is looked up: as often as by lldpd. A name service that fails is asked again soon.
const BETWEEN_NAMES: Duration = Duration::from_secs(30);
const AFTER_A_FAILURE: Duration = Duration::from_secs(2);
const LONGEST_ANSWER: usize = 400;

/// Starts a process that asks, and returns a stream to it. `user` is whom it becomes.
fn start(words: &[&str], user: Option<User>) -> Result<UnixStream> {
    let (ours, theirs) = UnixStream::pair()?;
    let io = || theirs.try_clone().map(|one| Stdio::from(OwnedFd::from(one)));
    signals::forget_children();
    let mut command = Command::new("/proc/self/exe");
    let user = user.map_or(String::new(), |user| format!("{} {}", user.user, user.group));
    command.arg0("lldpa-live").args(words).arg(user).stdin(io()?).stdout(io()?).stderr(Stdio::null());
    command.spawn()?;
    Ok(ours)
}

/// Begins the work of such a process: gives up all rights, since a name service runs code of others here. Returns
/// the stream to who asks. Calls `wake` at each word of it, and ends this process when nobody waits any more, also
/// while the name service hangs.
fn begin(user: &str, wake: impl Fn() + Send + 'static) -> Result<UnixStream> {
    signals::ignore_all(); // a terminal and systemd send theirs to all processes of lldpa-live
    let numbers =
        user.split_once(' ').and_then(|(user, group)| Some((user.parse().ok()?, group.parse().ok()?)));
    give_up(numbers.map(|(user, group)| User { user, group }))?;
    let asker = UnixStream::from(std::io::stdin().as_fd().try_clone_to_owned()?);
    let mut watched = asker.try_clone()?;
    thread::Builder::new().spawn(move || {
        while watched.read(&mut [0; 16]).map_or(false, |length| length > 0) {
            wake();
        }
        end_at_once();
    })?;
    Ok(asker)
}

/// The process that tells the host's name with its domain each time that it is another one. It ends when this is
/// dropped.
pub struct HostName(pub Awaited<UnixStream>);

impl HostName {
    pub fn start(user: Option<User>) -> Result<HostName> {
        let answer = start(&[FOR_HOST], user)?;
        answer.set_nonblocking(true)?;
        Ok(HostName(Awaited::new(answer)))
    }

    /// Lets it ask again at once.
    pub fn ask(&mut self) {
        let _ = self.0.file.write(b"\n");
    }

    /// Returns what it has told last: a name of the host, and that name with its domain. Fails if it has ended.
    pub fn read(&mut self) -> Result<Option<(String, String)>> {
        let mut room = [0; 8 * LONGEST_ANSWER];
        match self.0.file.read(&mut room)? {
            0 => Err(ErrorKind::UnexpectedEof.into()),
            length => Ok(last_told(&room[..length])),
        }
    }
}

fn last_told(octets: &[u8]) -> Option<(String, String)> {
    let text = std::str::from_utf8(octets).ok()?;
    let (name, full) = text.strip_suffix('\n')?.rsplit('\n').next()?.split_once('\t')?;
    Some((name.into(), full.into()))
}

/// Tells the host's name with its domain. Returns the exit status.
pub fn serve_host(user: &str) -> i32 {
    i32::from(tell_names(user).is_err())
}

fn tell_names(user: &str) -> Result<()> {
    let (wake, woken) = channel();
    let mut asker = begin(user, move || wake.send(()).unwrap_or_default())?;
    let mut told = String::new();
    loop {
        let name = host_name();
        let line = full_name_of(&name).map(|full| format!("{name}\t{full}\n"));
        let pause = if line.is_some() { BETWEEN_NAMES } else { AFTER_A_FAILURE };
        if let Some(line) = line.filter(|line| *line != told && line.len() <= LONGEST_ANSWER) {
            asker.write_all(line.as_bytes())?; // one piece, which is read at once
            told = line;
        }
        let _ = woken.recv_timeout(pause);
    }
}

/// A group that was found, and whether it may use the socket.
pub struct Found {
    pub group: u32,
    pub let_in: std::result::Result<(), String>,
}

/// A process that looks for a group. It ends once it has written the number, or when this is dropped.
pub struct Lookup {
    pub name: String,
    pub answer: Awaited<UnixStream>,
}

impl Lookup {
    fn start(name: &str, path: &str, user: Option<User>) -> Result<Lookup> {
        let answer = start(&[FOR_GROUP, name, path], user)?;
        Ok(Lookup { name: name.into(), answer: Awaited::new(answer) })
    }

    /// Reads the number. None if it is not there yet, or if the process has ended without it.
    pub fn read(&mut self) -> Option<Found> {
        let mut room = [0; LONGEST_ANSWER];
        let length = self.answer.file.read(&mut room).ok()?;
        let (number, fault) = std::str::from_utf8(&room[..length]).ok()?.trim_end().split_once(':')?;
        let let_in = if fault.is_empty() { Ok(()) } else { Err(fault.into()) };
        Some(Found { group: number.parse().ok()?, let_in })
    }

    /// Waits a second for the number.
    fn read_soon(&mut self) -> Option<u32> {
        self.answer.file.set_read_timeout(Some(PATIENCE)).ok()?;
        self.read().map(|found| found.group)
    }
}

/// What is known of a group at the start. A process looks for the number that is not known.
#[derive(Default)]
pub struct Group {
    pub number: Option<u32>,
    pub lookup: Option<Lookup>,
}

impl Group {
    /// Looks for a group, for a second at most, that may use the socket at a path. `user` owns the socket.
    pub fn named(name: &str, path: &str, user: Option<User>) -> Group {
        if let Some(number) = group_in_file(name) {
            return Group { number: Some(number), lookup: None };
        }
        let mut lookup = Lookup::start(name, path, user).ok();
        let number = lookup.as_mut().and_then(Lookup::read_soon);
        Group { number, lookup: lookup.filter(|_| number.is_none()) }
    }
}

/// Looks for a group until it is there, and lets it use the socket. Writes its number, and why it may not.
/// Returns the exit status.
pub fn serve_group(name: &str, path: &str, user: &str) -> i32 {
    i32::from(find_group(name, path, user).is_err())
}

fn find_group(name: &str, path: &str, user: &str) -> Result<()> {
    let mut asker = begin(user, || ())?;
    loop {
        if let Some(number) = group_of(name) {
            let fault = hand_over(path, number).err().map_or(String::new(), |fault| text_of(&fault));
            return asker.write_all(format!("{number}:{fault:.100}\n").as_bytes());
        }
        thread::sleep(BETWEEN_TRIES);
    }
}

#[cfg(test)]
mod tests {
    use super::*;

    #[test]
    fn the_last_name_that_was_told_counts() {
        for (told, wanted) in [
            ("web17\tweb17.example.com\n", Some(("web17", "web17.example.com"))),
            ("web17\tweb17\ndb3\tdb3.example.com\n", Some(("db3", "db3.example.com"))),
            ("web17\tweb17.example.com", None), // a part
            ("web17\n", None),
            ("\n", None),
            ("", None),
        ] {
            let wanted = wanted.map(|(name, full)| (name.to_string(), full.to_string()));
            assert_eq!(last_told(told.as_bytes()), wanted, "{told:?}");
        }
        assert_eq!(last_told(b"web17\t\xff\n"), None);
    }
}
