//! Asks lldpa-live at its control socket. A question is one line of at most 4,096 octets. Its answer is
//! a line `=N` and then N lines. One deadline holds for all that a command asks, and only a part of an
//! answer is kept at once, so that even a service that was taken over can neither block a client nor
//! fill its memory.

use crate::client::Failure;
use crate::texts::{plain, quoted};
use std::io::{Error, ErrorKind, Read, Result as IoResult, Write};
use std::os::unix::net::UnixStream;
use std::time::{Duration, Instant};

const LONGEST_QUESTION: usize = 4096;
const LONGEST_LINE: usize = 8 << 10; // of a line in an answer, in octets
/// What is kept of an answer at once. What 128 neighbors of one port can say is far less.
const MOST_OCTETS: usize = 25 << 20;
const MOST_LINES: usize = 200_000;
/// Octets of a message to a client that watches. 128 neighbors of one port can say 3.7 MB.
const MOST_OF_MESSAGE: usize = 5 << 20;
const MOST_DIGITS: usize = 11; // of the number of lines
const PIECE: usize = 64 << 10; // octets that are read at once
/// Why a client may not watch.
pub const NO_PLACE: &str = "16 clients watch already";
const REFUSAL: &str = "error: ";

/// The lines of an answer or of a part of it, which are printable ASCII.
#[derive(Debug, Default)]
pub struct Answer {
    text: String,
    count: usize,
}

impl Answer {
    pub fn lines(&self) -> Vec<&str> {
        let mut lines = Vec::with_capacity(self.count);
        lines.extend(self.text.lines());
        lines
    }

    /// Returns all lines, each with a line feed.
    pub fn text(&self) -> &str {
        &self.text
    }

    fn push(&mut self, line: &str) -> Result<(), Failure> {
        self.count += 1;
        if self.count > MOST_LINES || self.text.len() + line.len() >= MOST_OCTETS {
            return Err(Failure::TooLarge);
        }
        self.text.extend([line, "\n"]);
        Ok(())
    }
}

pub struct Connection {
    stream: UnixStream,
    patience: Duration,
    /// When the last answer must be complete.
    last: Instant,
    /// Received octets; those before `begin` were read.
    octets: Vec<u8>,
    begin: usize,
}

fn gone<T>(why: &str) -> Result<T, Failure> {
    Err(Failure::Gone(why.into()))
}

impl Connection {
    /// Makes a connection whose answers must all be complete after this time.
    pub fn new(stream: UnixStream, patience: Duration) -> Connection {
        Connection { stream, patience, last: Instant::now() + patience, octets: Vec::new(), begin: 0 }
    }

    pub fn stream(&self) -> &UnixStream {
        &self.stream
    }

    /// Begins the time anew in which all answers must be complete.
    pub fn renew(&mut self) {
        self.last = Instant::now() + self.patience;
    }

    /// Sends a line and returns its answer.
    pub fn ask(&mut self, line: &str) -> Result<Answer, Failure> {
        self.ask_for(line, |_| true)
    }

    /// Sends a line and returns the lines of its answer that are wanted.
    pub fn ask_for(&mut self, line: &str, is_wanted: impl Fn(&str) -> bool) -> Result<Answer, Failure> {
        let mut answer = Answer::default();
        self.each(line, |one| if is_wanted(one) { answer.push(one) } else { Ok(()) })?;
        Ok(answer)
    }

    /// Sends a line, and gives its answer in parts. Each line that `begins` one is the first of a part.
    pub fn ask_in_parts(
        &mut self,
        line: &str,
        begins: impl Fn(&str) -> bool,
        mut take: impl FnMut(&Answer) -> Result<(), Failure>,
    ) -> Result<(), Failure> {
        let mut part = Answer::default();
        self.each(line, |one| {
            if begins(one) && part.count > 0 {
                take(&part)?;
                part.text.clear();
                part.count = 0;
            }
            part.push(one)
        })?;
        if part.count > 0 {
            take(&part)?;
        }
        Ok(())
    }

    /// Asks for the tables of these ports (of all if empty) and for each change from then on: see
    /// `next_message`.
    pub fn watch(&mut self, ports: &[String]) -> Result<(), Failure> {
        let words: Vec<&str> = std::iter::once("watch").chain(ports.iter().map(|port| &port[..])).collect();
        self.send(&octets_of(&words.join(" "))?)
    }

    /// Returns the next answer to `watch`. Fails when `wait` fails, which waits until there is more to
    /// receive.
    pub fn next_message(
        &mut self,
        wait: impl FnOnce(&mut Connection) -> Result<(), Failure>,
    ) -> Result<Answer, Failure> {
        if self.begin == self.octets.len() {
            wait(self)?;
        }
        let mut answer = Answer::default();
        self.receive_each(|one| {
            if answer.text.len() + one.len() >= MOST_OF_MESSAGE {
                return gone("not an answer of lldpa-live: a table of more than 5 MB");
            }
            answer.push(one)
        })?;
        Ok(answer)
    }

    /// Sends a line, and gives each line of the answer to `take`.
    pub fn each(&mut self, line: &str, take: impl FnMut(&str) -> Result<(), Failure>) -> Result<(), Failure> {
        self.send(&octets_of(line)?)?;
        self.receive_each(take)
    }

    /// Sends a line whose answer is not awaited.
    pub fn send_line(&mut self, line: &str) -> Result<(), Failure> {
        self.send(&octets_of(line)?)
    }

    /// True if something was received and not read.
    pub fn has_octets(&self) -> bool {
        self.begin < self.octets.len()
    }

    /// Returns how many lines the next answer has.
    pub fn count(&mut self) -> Result<u64, Failure> {
        let head = self.line()?;
        let count = head.strip_prefix('=').filter(|digits| (1..=MOST_DIGITS).contains(&digits.len()));
        let is_number = |digits: &&str| digits.bytes().all(|octet| octet.is_ascii_digit());
        match count.filter(is_number).and_then(|digits| digits.parse().ok()) {
            Some(count) => Ok(count),
            None => gone(&format!("not an answer of lldpa-live: {}", quoted(&head))),
        }
    }

    /// Gives each line of the next answer to `take`.
    fn receive_each(&mut self, mut take: impl FnMut(&str) -> Result<(), Failure>) -> Result<(), Failure> {
        let count = self.count()?;
        for _ in 0..count {
            let line = self.line()?;
            match line.strip_prefix(REFUSAL) {
                Some(text) if count == 1 => return Err(Failure::Refused(text.into())),
                _ => take(&line)?,
            }
        }
        Ok(())
    }

    /// Sends octets. If the other end is closed, its answer may say why.
    fn send(&mut self, octets: &[u8]) -> Result<(), Failure> {
        let mut rest = octets;
        while !rest.is_empty() {
            let left = self.time_left()?;
            self.stream.set_write_timeout(Some(left))?;
            match self.stream.write(rest) {
                Ok(length) => rest = &rest[length..],
                Err(fault) if is_broken(&fault) => return Ok(()),
                Err(fault) if is_again(&fault) => (),
                Err(fault) => return Err(fault.into()),
            }
        }
        Ok(())
    }

    /// Returns the next line of an answer, without its line feed.
    pub fn line(&mut self) -> Result<String, Failure> {
        self.octets().map(|octets| plain(&octets))
    }

    /// Returns the octets of the next line of an answer, without its line feed.
    pub fn octets(&mut self) -> Result<Vec<u8>, Failure> {
        loop {
            let rest = &self.octets[self.begin..];
            let end = rest.iter().position(|octet| *octet == b'\n');
            if end.unwrap_or(rest.len()) > LONGEST_LINE {
                return gone("lldpa-live answers with a line of more than 8 kB");
            }
            if let Some(length) = end {
                let line = rest[..length].to_vec();
                self.begin += length + 1;
                return Ok(line);
            }
            self.receive()?;
        }
    }

    fn receive(&mut self) -> Result<(), Failure> {
        self.octets.drain(..std::mem::take(&mut self.begin));
        let left = self.time_left()?;
        self.stream.set_read_timeout(Some(left))?;
        let mut piece = [0; PIECE];
        let length = match self.stream.read(&mut piece) {
            Err(fault) if is_again(&fault) => return Ok(()),
            Err(fault) if is_broken(&fault) => 0,
            read => read?,
        };
        if length == 0 {
            return gone("lldpa-live has ended the connection");
        }
        self.octets.extend_from_slice(&piece[..length]);
        Ok(())
    }

    /// Returns how long to wait for the rest of the answers.
    fn time_left(&self) -> Result<Duration, Failure> {
        let left = self.last.saturating_duration_since(Instant::now());
        if left.is_zero() {
            return Err(Failure::Late(self.patience));
        }
        Ok(left.max(Duration::from_millis(1)))
    }
}

fn is_again(fault: &Error) -> bool {
    matches!(fault.kind(), ErrorKind::WouldBlock | ErrorKind::TimedOut | ErrorKind::Interrupted)
}

fn is_broken(fault: &Error) -> bool {
    matches!(fault.kind(), ErrorKind::BrokenPipe | ErrorKind::ConnectionReset)
}

/// Returns the octets of a line in Latin-1.
fn octets_of(line: &str) -> Result<Vec<u8>, Failure> {
    let octets: Option<Vec<u8>> = line.chars().map(|letter| u8::try_from(u32::from(letter)).ok()).collect();
    let mut octets = octets.ok_or_else(|| Failure::Words("a line is not Latin-1".into()))?;
    if octets.contains(&b'\n') {
        return Err(Failure::Words("a line contains a line feed".into()));
    }
    if octets.len() > LONGEST_QUESTION {
        let length = octets.len();
        return Err(Failure::Words(format!("a line has {length} octets; the limit is {LONGEST_QUESTION}")));
    }
    octets.push(b'\n');
    Ok(octets)
}

/// Writes a whole file beside the old one, and then replaces the old one, so that no reader sees a part.
pub fn replace(path: &str, text: &str) -> IoResult<()> {
    use std::os::unix::fs::{OpenOptionsExt, PermissionsExt};
    let path = std::path::Path::new(path);
    let name = path.file_name().ok_or_else(|| Error::from(ErrorKind::InvalidInput))?;
    let new = path.with_file_name(format!(".{}.{}", name.to_string_lossy(), std::process::id()));
    let write = || {
        let mut file = std::fs::OpenOptions::new().write(true).create_new(true).mode(0o600).open(&new)?;
        file.set_permissions(std::fs::Permissions::from_mode(0o644))?; // for the collector, another user
        file.write_all(text.as_bytes())?;
        file.sync_all()?;
        std::fs::rename(&new, path)
    };
    let _ = std::fs::remove_file(&new); // of a process of this number that was killed
    write().map_err(|fault| {
        let _ = std::fs::remove_file(&new);
        fault
    })
}
