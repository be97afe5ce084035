//! A client of the control socket: the lines that it sends, and the answer that it reads.

use crate::lines::Line;
use crate::listening::Peer;
use crate::queries::LONGEST_LINE;
use crate::recording::Recorder;
use crate::tables::Writer;
use crate::time::Moment;
use crate::waiting::Awaited;
use crate::watching::Watch;
use std::collections::VecDeque;
use std::io::{ErrorKind, Read, Write};
use std::os::unix::net::UnixStream;
use std::time::Duration;

/// How long a client may read nothing of its answer, and how long the whole answer may take.
pub const TO_READ: Duration = Duration::from_secs(10);
const TO_READ_ALL: Duration = Duration::from_secs(60);
const MOST_READS: usize = 64; // from one client in one turn
const PIECE: usize = 1 << 16; // octets of an answer that are written at once
pub const LONGEST_SENDING: Duration = Duration::from_millis(20); // to all clients in one turn

/// Returns lines with the number of them and of those that follow.
pub fn counted(lines: &str, further: usize) -> String {
    let count = further + lines.bytes().filter(|octet| *octet == b'\n').count();
    format!("={count}\n{lines}")
}

/// An answer: lines, and then those of a writer and of a head, which are made as the client reads.
#[derive(Default)]
pub struct Answer {
    text: VecDeque<u8>,
    pub rest: Option<Writer>,
    head: VecDeque<Line>,
}

impl Answer {
    /// Makes an answer of these lines and those of a writer. A line with their number comes first.
    pub fn new(text: &str, rest: Option<Writer>) -> Answer {
        let text = counted(text, rest.as_ref().map_or(0, Writer::count));
        Answer { text: text.into_bytes().into(), rest, ..Answer::default() }
    }

    /// Makes the answer to `changes`.
    pub fn of_changes(count: u64) -> Answer {
        Answer::of(&format!("live.changes={count}\n"))
    }

    /// Makes an answer of these lines.
    pub fn of(text: &str) -> Answer {
        Answer::new(text, None)
    }

    /// Makes an answer of lines that begin with their number.
    pub fn counted(text: Vec<u8>) -> Answer {
        Answer { text: text.into(), ..Answer::default() }
    }

    /// Makes an answer of a text, and of lines after it that lead to the present state.
    pub fn of_head(text: &str, lines: Vec<Line>) -> Answer {
        let text = counted(text, lines.len());
        Answer { text: text.into_bytes().into(), head: lines.into(), rest: None }
    }

    pub fn is_empty(&self) -> bool {
        self.text.is_empty() && self.rest.is_none() && self.head.is_empty()
    }

    /// True if a part of a head is left.
    pub fn has_head(&self) -> bool {
        !self.head.is_empty()
    }

    /// Returns how many octets of memory the answer takes, without tables.
    pub fn memory(&self) -> usize {
        let head: usize = self.head.iter().map(Line::memory).sum();
        self.text.capacity() + head + self.rest.as_ref().map_or(0, Writer::memory)
    }

    /// Adds a piece of the rest if the text is sent.
    fn refill(&mut self) {
        if !self.text.is_empty() {
            return;
        }
        let mut piece = Vec::new();
        while let Some(writer) = &mut self.rest {
            if !writer.write(&mut piece) {
                self.rest = None;
            }
            if piece.len() >= PIECE {
                break;
            }
        }
        while self.rest.is_none() && piece.len() < PIECE {
            match self.head.pop_front() {
                Some(line) => drop(writeln!(piece, "{line}")),
                None => break,
            }
        }
        self.text = piece.into();
    }
}

#[cfg(test)]
impl Answer {
    /// Returns the lines, without their number.
    pub fn lines(mut self) -> String {
        let mut text: Vec<u8> = Vec::new();
        while !self.is_empty() {
            text.extend(self.text.drain(..));
            self.refill();
        }
        let text = String::from_utf8(text).expect("a text");
        text.split_once('\n').expect("a number").1.into()
    }
}

pub struct Client {
    pub stream: Awaited<UnixStream>,
    pub peer: Peer,
    /// Its number among all that were accepted.
    pub number: u64,
    /// What the client has sent and was not answered.
    input: Vec<u8>,
    /// True if the client sends no more.
    is_at_end: bool,
    pub answer: Answer,
    /// When the client connected, was answered or last read a part of its answer.
    pub active_at: Moment,
    /// When the client was last answered.
    pub answered_at: Moment,
    /// True if the connection must be ended.
    pub is_over: bool,
    /// The count of changes that the client knows, while it waits for another one.
    pub known: Option<u64>,
    /// True once the client has waited: it keeps its place for the next time.
    pub watches: bool,
    /// What a client that is told each change was told.
    pub watch: Option<Watch>,
    /// What a client that records was sent.
    pub record: Option<Recorder>,
}

impl Client {
    pub fn new(stream: UnixStream, number: u64, now: Moment) -> Client {
        Client {
            peer: Peer::of(&stream),
            number,
            stream: Awaited::new(stream),
            input: Vec::new(),
            is_at_end: false,
            answer: Answer::default(),
            active_at: now,
            answered_at: now,
            is_over: false,
            known: None,
            watches: false,
            watch: None,
            record: None,
        }
    }

    /// True if a line can be answered. At the end of input a line may lack its line feed.
    pub fn has_line(&self) -> bool {
        let is_whole = self.input.contains(&b'\n') || self.is_at_end && !self.input.is_empty();
        self.answer.is_empty() && is_whole && !self.is_over && !self.awaits_changes()
    }

    fn awaits_changes(&self) -> bool {
        self.known.is_some() || self.watch.is_some()
    }

    /// True if the client sends something although it waits for a change.
    pub fn is_impatient(&self) -> bool {
        self.awaits_changes() && !self.input.is_empty()
    }

    /// True if the client has read all, or watches or records: then it loses what it does not read.
    pub fn may_rest(&self) -> bool {
        self.answer.is_empty() || self.watch.is_some() || self.record.is_some()
    }

    pub fn reply(&mut self, answer: Answer, now: Moment) {
        self.answer = answer;
        self.active_at = now;
        self.answered_at = now;
        self.send(now);
    }

    /// True if the client has ended its input, and all its lines are answered and the answers sent.
    pub fn is_left(&self) -> bool {
        self.is_at_end && self.input.is_empty() && self.answer.is_empty()
    }

    /// Returns when the client is too slow. None if it may rest.
    pub fn deadline(&self) -> Option<Moment> {
        (!self.may_rest()).then(|| (self.active_at + TO_READ).min(self.answered_at + TO_READ_ALL))
    }

    /// Removes and returns the next line. Only the first 4,097 octets of a longer line were kept.
    pub fn next_line(&mut self) -> Vec<u8> {
        let end = self.input.iter().position(|octet| *octet == b'\n').unwrap_or(self.input.len());
        let line = self.input.drain(..end).collect();
        self.input.drain(..1.min(self.input.len()));
        line
    }

    /// Reads from the client, unless a whole line still waits or an answer is not yet sent.
    pub fn read(&mut self) {
        let mut room = [0u8; LONGEST_LINE];
        for _ in 0..MOST_READS {
            if !self.answer.is_empty() || self.is_at_end || self.input.contains(&b'\n') {
                return;
            }
            match self.stream.file.read(&mut room) {
                Ok(0) => self.is_at_end = true,
                Ok(length) => self.keep(&room[..length]),
                Err(fault) => {
                    self.is_over |= fault.kind() != ErrorKind::WouldBlock;
                    return;
                }
            }
        }
    }

    /// Keeps octets that were read. A line that is too long is cut one octet over the limit.
    fn keep(&mut self, octets: &[u8]) {
        let end = octets.iter().position(|octet| *octet == b'\n').unwrap_or(octets.len());
        let room = (LONGEST_LINE + 1).saturating_sub(self.input.len());
        self.input.extend_from_slice(&octets[..end.min(room)]);
        self.input.extend_from_slice(&octets[end..]);
    }

    /// Sends as much of the answer as the client has room for, but not for long.
    pub fn send(&mut self, now: Moment) {
        while !self.answer.is_empty() {
            self.answer.refill();
            match self.stream.file.write(self.answer.text.as_slices().0) {
                Ok(length) => {
                    drop(self.answer.text.drain(..length));
                    self.active_at = now;
                }
                Err(fault) => {
                    self.is_over |= fault.kind() != ErrorKind::WouldBlock;
                    return;
                }
            }
            if Moment::now().since(now) >= LONGEST_SENDING {
                return;
            }
        }
        self.answer = Answer::default(); // frees its memory
    }
}

#[cfg(test)]
mod tests {
    use super::*;

    #[test]
    fn an_answer_begins_with_the_number_of_its_lines() {
        for (text, wanted) in [("", "=0\n"), ("a=1\n", "=1\na=1\n"), ("a\nb\n", "=2\na\nb\n")] {
            let answer = Answer::of(text);
            assert_eq!(answer.text.into_iter().collect::<Vec<_>>(), wanted.as_bytes());
        }
    }

    fn connected() -> (UnixStream, Client) {
        let (theirs, ours) = UnixStream::pair().expect("two sockets");
        ours.set_nonblocking(true).expect("a socket");
        (theirs, Client::new(ours, 1, Moment::default()))
    }

    /// Returns the lines that a client has sent so far.
    fn lines(client: &mut Client) -> Vec<String> {
        let mut lines = Vec::new();
        client.read();
        while client.has_line() {
            lines.push(String::from_utf8(client.next_line()).expect("a text"));
            client.read();
        }
        lines
    }

    #[test]
    fn lines_may_come_in_pieces() {
        // what comes at once, the lines that are whole then, and those at the end
        type Pieces<'a> = &'a [&'a str];
        let rows: [(Pieces<'_>, &[Pieces<'_>], Pieces<'_>); 8] = [
            (&["live\n"], &[&["live"]], &[]),
            (&["li", "ve", "\n"], &[&[], &[], &["live"]], &[]),
            (&["live"], &[&[]], &["live"]),
            (&["a\nb\nc"], &[&["a", "b"]], &["c"]),
            (&["a\nb", "c\n"], &[&["a"], &["bc"]], &[]),
            (&["\n\n"], &[&["", ""]], &[]),
            (&["a\r\n"], &[&["a\r"]], &[]),
            (&["", "a"], &[&[], &[]], &["a"]),
        ];
        for (pieces, wanted, at_end) in rows {
            let (mut theirs, mut client) = connected();
            for (piece, wanted) in pieces.iter().zip(wanted) {
                theirs.write_all(piece.as_bytes()).expect("room");
                assert_eq!(lines(&mut client), *wanted, "{pieces:?}");
                assert!(!client.is_left());
            }
            drop(theirs);
            assert_eq!(lines(&mut client), at_end, "{pieces:?}");
            assert!(client.is_left() && !client.is_over);
        }
    }

    #[test]
    fn a_long_line_is_cut_one_octet_over_the_limit() {
        for (length, kept) in [(4095, 4095), (4096, 4096), (4097, 4097), (4098, 4097), (20_000, 4097)] {
            for size in [1000, 4096, 30_000] {
                let (mut theirs, mut client) = connected();
                let text = ["a".repeat(length), "b\n".into()].join("\n");
                for piece in text.as_bytes().chunks(size) {
                    theirs.write_all(piece).expect("room");
                    client.read();
                }
                let found: Vec<usize> = lines(&mut client).iter().map(String::len).collect();
                assert_eq!(found, [kept, 1], "{length} in pieces of {size}");
            }
        }
    }

    #[test]
    fn the_next_line_waits_for_the_answer() {
        let (mut theirs, mut client) = connected();
        theirs.write_all(b"a\nb\n").expect("room");
        client.read();
        assert!(client.has_line());
        assert_eq!(client.next_line(), b"a");
        client.answer = Answer::of("x\n");
        client.answered_at = Moment::after_boot(TO_READ);
        client.active_at = Moment::after_boot(TO_READ);
        assert!(!client.has_line());
        assert_eq!(client.deadline(), Some(Moment::after_boot(2 * TO_READ)));
        client.active_at = Moment::after_boot(20 * TO_READ);
        assert_eq!(client.deadline(), Some(Moment::after_boot(TO_READ + TO_READ_ALL)));
        client.send(Moment::now());
        let mut room = [0; 10];
        assert_eq!(theirs.read(&mut room).expect("an answer"), 5);
        assert_eq!((&room[..5], client.deadline()), (&b"=1\nx\n"[..], None));
        assert!(client.has_line());
    }

    #[test]
    fn a_client_that_does_not_read_blocks_nothing() {
        let (theirs, mut client) = connected();
        client.answer = Answer::of(&"x\n".repeat(1 << 20));
        client.send(Moment::now());
        assert!(!client.answer.is_empty() && !client.is_over);
        drop(theirs);
        client.send(Moment::now());
        assert!(client.is_over);
    }
}
