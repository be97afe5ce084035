//! What clients that record are sent: lines that bring a new agent to the state of the present one (a
//! head), and then each line that the agent is given, with the time in comments. The lines are made once
//! for all clients. A client that reads too slowly loses lines, is told how many, and is sent a new head,
//! since a trace with a gap would replay differently.

use crate::budget::MOST_RECORDED;
use crate::client::counted;
use crate::hex::Hex;
use crate::lines::Line;
use crate::time::{Moment, WallTime};
use std::collections::VecDeque;
use std::fmt::{Display, Write};

const MOST_AT_ONCE: usize = 1 << 16; // octets of lines that make one answer

/// Lines with their number, and how many lines the agent was given before them.
struct Piece {
    before: u64,
    text: Vec<u8>,
}

/// The lines that some client that records was not sent yet.
#[derive(Default)]
pub struct Recording {
    /// True if a client records.
    pub is_wanted: bool,
    pieces: VecDeque<Piece>,
    /// The number of the first of these pieces.
    first: u64,
    octets: usize,
    /// Lines that are no piece yet.
    pending: String,
    /// How many lines the agent was given while somebody recorded, without comments.
    lines: u64,
    /// How many of them the pieces have.
    in_pieces: u64,
    /// How many lines clients have lost.
    pub lost: u64,
    /// The time in the last comment, in whole seconds.
    second: Option<WallTime>,
}

impl Recording {
    fn end(&self) -> u64 {
        self.first + self.pieces.len() as u64
    }

    fn piece(&self, number: u64) -> Option<&Piece> {
        self.pieces.get(usize::try_from(number.checked_sub(self.first)?).ok()?)
    }

    /// Adds the beginning of another agent: its command line, then lines that lead to its state.
    pub fn begin(&mut self, command_line: &str, lines: &[Line]) {
        if self.is_wanted {
            self.end_piece();
            let _ = writeln!(self.pending, "# lldpa {command_line}");
            self.second = None;
            self.write_lines(lines);
        }
    }

    /// Adds lines that rebuild tables.
    pub fn write_lines(&mut self, lines: &[Line]) {
        let is_wanted = self.is_wanted;
        for line in lines.iter().filter(|_| is_wanted) {
            let _ = writeln!(self.pending, "{line}");
            if self.pending.len() >= MOST_AT_ONCE {
                self.end_piece();
            }
        }
    }

    /// Adds a line. Before the first one of each second it adds a comment with the time.
    pub fn write(&mut self, moment: Moment, line: &dyn Display) {
        if self.is_wanted {
            self.write_time(moment);
            let _ = writeln!(self.pending, "{line}");
        }
    }

    /// Adds the line of a received frame.
    pub fn write_frame(&mut self, moment: Moment, port: &str, frame: &[u8]) {
        if self.is_wanted {
            self.write_time(moment);
            let _ = writeln!(self.pending, "rx {port} {}", Hex(frame));
        }
    }

    fn write_time(&mut self, moment: Moment) {
        if self.pending.len() >= MOST_AT_ONCE {
            self.end_piece();
        }
        let second = moment.wall_time().second();
        if self.second.replace(second) != Some(second) {
            let _ = writeln!(self.pending, "# {second}");
        }
        self.lines += 1;
    }

    /// Lets the pending lines be a piece. If too many wait, the slowest clients lose some.
    pub fn end_piece(&mut self) {
        if self.pending.is_empty() {
            return;
        }
        let text = counted(&std::mem::take(&mut self.pending), 0).into_bytes();
        self.octets += text.len();
        self.pieces.push_back(Piece { before: self.in_pieces, text });
        self.in_pieces = self.lines;
        while self.octets > MOST_RECORDED {
            self.forget_first();
        }
    }

    fn forget_first(&mut self) {
        if let Some(piece) = self.pieces.pop_front() {
            self.octets -= piece.text.len();
            self.first += 1;
        }
    }

    /// Forgets the pieces before this one, which all clients were sent.
    pub fn forget(&mut self, number: u64) {
        while self.first < number && !self.pieces.is_empty() {
            self.forget_first();
        }
    }
}

/// What a client that records is sent next.
#[derive(Debug, PartialEq, Eq)]
pub enum Next {
    /// Lines that lead to the present state, after this many lines that it has lost.
    Head(u64),
    Text(Vec<u8>),
}

/// How far a client that records was sent what happens.
pub struct Recorder {
    /// The number of the next piece.
    pub next: u64,
    /// How many lines the agent was given before that piece.
    lines: u64,
    /// Up to which line those that it has lost were counted.
    counted: u64,
    /// True if it has asked for a head. Those lines that it was not sent yet come before.
    pub wants_head: bool,
}

impl Recorder {
    pub fn new(recording: &Recording) -> Recorder {
        let lines = recording.lines;
        Recorder { next: recording.end(), lines, counted: lines, wants_head: true }
    }

    /// Counts the lines that it has lost by now, also while it reads nothing.
    pub fn count_lost(&mut self, recording: &mut Recording) {
        if self.next < recording.first {
            let before = recording.piece(recording.first).map_or(recording.in_pieces, |piece| piece.before);
            recording.lost += before.saturating_sub(self.counted);
            self.counted = self.counted.max(before);
        }
    }

    pub fn is_due(&self, recording: &Recording) -> bool {
        self.wants_head || self.next < recording.end()
    }

    /// True if a head is what it is sent next.
    pub fn needs_head(&self, recording: &Recording) -> bool {
        self.next < recording.first || self.wants_head && self.next >= recording.end()
    }

    /// Returns what is sent next, and notes that it is. All lines must be pieces. `has_agent` tells whether
    /// there is a state to which a head can lead.
    pub fn take(&mut self, recording: &mut Recording, has_agent: bool) -> Option<Next> {
        let has_missed = self.next < recording.first;
        if self.needs_head(recording) {
            let lost = if has_missed { recording.lines - self.lines } else { 0 };
            if !has_agent {
                return None;
            }
            recording.lost += if has_missed { recording.lines - self.counted } else { 0 };
            recording.second = None; // a file begins, whose first line needs the time
            *self = Recorder { wants_head: false, ..Recorder::new(recording) };
            return Some(Next::Head(lost));
        }
        let mut text = Vec::new();
        while let Some(piece) = recording.piece(self.next).filter(|_| text.len() < MOST_AT_ONCE) {
            text.extend_from_slice(&piece.text);
            self.next += 1;
        }
        self.lines = recording.piece(self.next).map_or(recording.in_pieces, |piece| piece.before);
        self.counted = self.lines;
        (!text.is_empty()).then_some(Next::Text(text))
    }
}

#[cfg(test)]
mod tests {
    use super::*;
    use std::time::Duration;

    fn at(seconds: u64) -> Moment {
        Moment::after_boot(Duration::from_secs(seconds))
    }

    fn text(next: Option<Next>) -> Vec<String> {
        match next {
            Some(Next::Text(text)) => {
                let text = String::from_utf8(text).expect("a text");
                text.lines().map(|line| if line.starts_with("# 2") { "#" } else { line }.into()).collect()
            }
            Some(Next::Head(lost)) => vec![format!("head {lost}")],
            None => Vec::new(),
        }
    }

    /// What nobody has lost yet, and a client that was sent its head.
    fn begun() -> (Recording, Recorder) {
        let mut recording = Recording { is_wanted: true, ..Recording::default() };
        let mut recorder = Recorder::new(&recording);
        assert_eq!(text(recorder.take(&mut recording, false)), [""; 0]);
        assert_eq!(text(recorder.take(&mut recording, true)), ["head 0"]);
        (recording, recorder)
    }

    #[test]
    fn each_second_and_each_agent_has_a_comment() {
        let (mut recording, mut recorder) = begun();
        recording.write(at(5), &Line::Link("eth0".into(), true));
        recording.write_frame(at(5), "eth0", &[1, 2]);
        recording.write(at(6), &Line::Ticks(1));
        recording.begin("--role=bridge -- eth0", &[Line::Ticks(2)]);
        recording.write(at(6), &Line::Ticks(1));
        recording.end_piece();
        let wanted = "=5,#,up eth0,rx eth0 0102,#,tick,=4,# lldpa --role=bridge -- eth0,tick 2,#,tick";
        assert_eq!(text(recorder.take(&mut recording, true)), wanted.split(',').collect::<Vec<_>>());
        assert_eq!(text(recorder.take(&mut recording, true)), [""; 0]);
        assert!(!recorder.is_due(&recording));
        recording.forget(recorder.next);
        assert_eq!(recording.octets, 0);
    }

    #[test]
    fn a_slow_client_is_told_what_it_lost_and_gets_a_head() {
        let (mut recording, mut slow) = begun();
        let mut fast = Recorder::new(&recording);
        fast.wants_head = false;
        let line = "x".repeat(1000);
        let count = 2 * MOST_RECORDED as u64 / 1000;
        for number in 0..count {
            recording.write(at(5), &line);
            recording.end_piece();
            let sent = fast.take(&mut recording, true);
            assert!(matches!(sent, Some(Next::Text(_))), "{number}");
        }
        assert!(recording.octets <= MOST_RECORDED);
        slow.count_lost(&mut recording);
        slow.count_lost(&mut recording);
        assert!(
            (count / 3..count * 2 / 3).contains(&recording.lost),
            "{}: while it reads nothing",
            recording.lost
        );
        assert_eq!(slow.take(&mut recording, true), Some(Next::Head(count)));
        assert_eq!((slow.take(&mut recording, true), recording.lost), (None, count));
    }

    #[test]
    fn a_head_that_is_asked_for_comes_after_what_waits() {
        let (mut recording, mut recorder) = begun();
        recording.write(at(5), &Line::Ticks(1));
        recording.end_piece();
        recorder.wants_head = true;
        assert_eq!(text(recorder.take(&mut recording, true)), ["=2", "#", "tick"]);
        assert_eq!(text(recorder.take(&mut recording, true)), ["head 0"]);
        recording.write(at(5), &Line::Ticks(1));
        recording.end_piece();
        assert_eq!(text(recorder.take(&mut recording, true)), ["=2", "#", "tick"]);
    }

    #[test]
    fn without_a_client_nothing_is_kept() {
        let mut recording = Recording::default();
        recording.begin("eth0", &[Line::Ticks(1)]);
        recording.write(at(5), &Line::Ticks(1));
        recording.write_frame(at(5), "eth0", &[1, 2]);
        recording.end_piece();
        assert_eq!((recording.pending.len(), recording.pieces.len()), (0, 0));
    }
}
