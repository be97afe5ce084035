//! Reads the ports' sockets, fairly, within the share of a processor. Keeps the accepted frames in
//! the order of their stamps.

use crate::neighbors::Digests;
use crate::packet::{self, Rooms, LONGEST_FRAME};
use crate::port::Port;
use crate::ports::Ports;
use crate::reports::{notice, warn};
use crate::rights::text_of;
use crate::time::{Clock, Moment, SECOND};
use crate::waiting::IN;
use std::collections::VecDeque;
use std::fs::File;
use std::io::{Error, ErrorKind};
use std::os::unix::io::{AsRawFd, RawFd};
use std::time::Duration;

const LEAST_FRAME: usize = 14;
const MOST_ACCEPTED: usize = 64; // frames for the agent, after which a turn reads no further ones
const LONGEST_READING: Duration = Duration::from_millis(10); // in one turn
/// How long a port rests that had too many frames soon after others: then few calls read many frames. To let it
/// rest and read again takes calls, too, so that it must rest for longer than frames are apart.
const REST: Duration = Duration::from_millis(4);
const SOON: Duration = Duration::from_millis(2);
/// The kernel reports once that an interface went down; frames may follow.
const MOST_FAILURES: u32 = 2;
const REST_AFTER_FAILURES: Duration = SECOND;

/// A received frame.
pub struct Frame {
    pub moment: Moment,
    pub port: usize,
    pub octets: Vec<u8>,
}

/// What all ports need for reading.
pub struct Reader<'a> {
    pub rooms: &'a mut Rooms,
    pub digests: &'a Digests,
    pub clock: &'a Clock,
}

impl Port {
    /// Reads a few frames, and adds those that are accepted. If some were not accepted, soon after the last
    /// ones, and no others wait, the port rests. `before` is a moment before the socket was found ready. Returns true if
    /// frames were left out, or may be left.
    fn read(
        &mut self,
        number: usize,
        reader: &mut Reader<'_>,
        before: Moment,
        frames: &mut VecDeque<Frame>,
    ) -> bool {
        let refused = self.counts.limit_drops + self.counts.other_frames;
        let lengths = match packet::receive(&self.socket.file, reader.rooms) {
            Err(fault) if fault.kind() != ErrorKind::WouldBlock => {
                self.fail(&fault);
                return false;
            }
            received => received.unwrap_or_default(),
        };
        self.reception.failures = 0;
        self.reception.has_more = lengths.len() == reader.rooms.len();
        let now = Moment::now();
        for ((length, stamp), room) in lengths.into_iter().zip(&*reader.rooms) {
            let (octets, moment) = (&room[..length.min(LONGEST_FRAME)], reader.clock.moment(stamp, now));
            if self.accept(octets, moment, reader.digests) {
                frames.push_back(Frame { moment, port: number, octets: octets.to_vec() });
            }
        }
        let is_over = self.counts.limit_drops + self.counts.other_frames > refused;
        if !self.reception.has_more {
            self.reception.read_to = self.reception.read_to.max(before);
            if is_over && now.since(self.reception.read_at) < SOON {
                self.reception.rests_until = now + REST;
            }
        }
        self.reception.read_at = now;
        self.reception.has_more || is_over
    }

    /// True if the agent is given this frame. False if the interface is gone or the frame is only
    /// counted.
    fn accept(&mut self, octets: &[u8], moment: Moment, digests: &Digests) -> bool {
        self.reception.read_to = self.reception.read_to.max(moment);
        if !self.is_present() {
            return false;
        }
        if octets.len() < LEAST_FRAME {
            if self.count_other() {
                let what = "tagged, to another address or longer than 1,514 octets";
                notice(&format!("{}: ignores LLDP frames that are {what}", self.name));
            }
            return false;
        }
        let is_accepted = self.reception.allowances.accept(octets, moment, &mut self.neighbors, digests);
        self.counts.limit_drops += u64::from(!is_accepted);
        is_accepted
    }

    /// Counts a frame that is not for the agent. Returns true for the first one.
    fn count_other(&mut self) -> bool {
        self.counts.other_frames += 1;
        self.counts.other_frames == 1
    }

    /// Notes that the socket could not be read. After some failures in a row the port rests.
    fn fail(&mut self, fault: &Error) {
        let reception = &mut self.reception;
        reception.failures = reception.failures.saturating_add(1);
        if reception.failures > MOST_FAILURES {
            reception.has_more = false;
            reception.rests_until = Moment::now() + REST_AFTER_FAILURES;
        }
        if reception.failures == MOST_FAILURES + 1 {
            warn(&format!("{}: frames cannot be received: {}", self.name, text_of(fault)));
        }
    }

    /// True if the socket could be read at the last try, or failed for a moment.
    fn is_able(&self) -> bool {
        self.reception.failures <= MOST_FAILURES
    }
}

impl Ports {
    /// Registers the sockets to wait for. A port is not read while it rests or while frames from it
    /// are queued, so that few frames are queued even in a flood. A question waits for no rest.
    pub fn await_frames(&mut self, epoll: &File, now: Moment, is_question: bool) {
        let all_rest = self.all_rest_until(now, is_question) > now;
        for (number, port) in self.all.iter_mut().enumerate() {
            let rests = now < port.reception.rests_until && !(is_question && port.is_able());
            let is_read = !all_rest && !rests && !self.frames.iter().any(|frame| frame.port == number);
            port.socket.wait_for(epoll, if is_read { IN } else { 0 });
        }
        for socket in &mut self.spare {
            socket.wait_for(epoll, 0); // it may be that of a port that was removed
        }
    }

    /// Returns until when no port is read.
    pub fn all_rest_until(&self, now: Moment, is_question: bool) -> Moment {
        self.share.rests_until(now, is_question)
    }

    /// True if frames from before this moment may wait at a port that is not read now. Until it is
    /// read, the agent cannot be given a second that ended at this moment.
    pub fn may_keep_back(&self, moment: Moment) -> bool {
        let is_left = |port: &Port| port.is_able() && !port.socket.is_awaited();
        self.all.iter().any(|port| is_left(port) && port.reception.read_to < moment)
    }

    /// Returns the ports whose sockets are ready, the next one to be read first.
    fn ready(&self, found: &[RawFd]) -> VecDeque<usize> {
        let is_ready = |number: &usize| found.contains(&self.all[*number].socket.file.as_raw_fd());
        let mut ready: VecDeque<usize> = (0..self.all.len()).filter(is_ready).collect();
        let sooner = ready.iter().filter(|number| **number < self.first).count();
        ready.rotate_left(sooner);
        ready
    }

    /// Returns how many of these files are sockets of ports.
    pub fn count_of(&self, found: &[RawFd]) -> usize {
        self.all.iter().filter(|port| found.contains(&port.socket.file.as_raw_fd())).count()
    }

    /// Reads the ports whose sockets were found ready after `before`, a few frames of each in turn. If
    /// frames may be left, returns the moment up to which all were read.
    pub fn read(&mut self, clock: &mut Clock, found: &[RawFd], before: Moment) -> Option<Moment> {
        let (begin, count) = (Moment::now(), self.frames.len());
        let mut ready = self.ready(found);
        if !ready.is_empty() {
            clock.note_wall_clock();
        }
        self.note_ready(&ready, before);
        let mut reader = Reader { rooms: &mut self.rooms, digests: &self.digests, clock };
        while let Some(number) = ready.pop_front() {
            let is_enough = self.frames.len() - count >= MOST_ACCEPTED;
            if is_enough || Moment::now().since(begin) > LONGEST_READING {
                self.first = number;
                break;
            }
            let port = &mut self.all[number];
            if port.read(number, &mut reader, before, &mut self.frames) {
                self.drop_report_at.get_or_insert(Moment::now() + SECOND);
            }
            ready.extend(port.reception.has_more.then_some(number));
        }
        self.frames.make_contiguous().sort_by_key(|frame| frame.moment);
        let is_left = |port: &&Port| port.is_able() && (port.reception.has_more || !port.socket.is_awaited());
        self.all.iter().filter(is_left).map(|port| port.reception.read_to).min()
    }

    /// Notes for each port that was waited for whether frames wait there.
    fn note_ready(&mut self, ready: &VecDeque<usize>, before: Moment) {
        for (number, port) in self.all.iter_mut().enumerate().filter(|one| one.1.socket.is_awaited()) {
            port.reception.has_more = ready.contains(&number);
            if !port.reception.has_more {
                port.reception.read_to = port.reception.read_to.max(before); // no frame waited
            }
        }
    }

    /// Removes and returns the next of the frames that arrived by this moment.
    pub fn next_until(&mut self, moment: Moment) -> Option<Frame> {
        self.frames.front().filter(|frame| frame.moment <= moment)?;
        self.frames.pop_front()
    }

    pub fn have_more(&self) -> bool {
        !self.frames.is_empty() || self.all.iter().any(|port| port.reception.has_more)
    }

    /// Returns when to read again, if frames may be left, a port rests, or frames are queued.
    pub fn deadline(&self, now: Moment, is_question: bool) -> Option<Moment> {
        let all_rest = self.all_rest_until(now, is_question);
        let receptions = self.all.iter().map(|port| &port.reception);
        let left = receptions.filter(|one| one.has_more || one.rests_until > now);
        let next = left.map(|one| one.rests_until.max(all_rest)).min();
        // Queued frames wait for those that other ports may have received before them.
        let is_due = !self.frames.is_empty() || all_rest > now;
        next.or_else(|| is_due.then_some(all_rest))
    }
}

#[cfg(test)]
mod tests {
    use super::*;
    use crate::arguments::Arguments;
    use crate::sys::stopped::StoppedClocks;
    use crate::waiting::{epoll, ready};
    use std::os::unix::io::OwnedFd;
    use std::os::unix::net::UnixDatagram;

    const PORTS: usize = 10;
    const FRAMES: usize = 10; // for each port, as many as a socket keeps by default

    fn frame(number: usize) -> Vec<u8> {
        let front = b"\x01\x80\xc2\0\0\x0e\x02\0\0\0\0\x01\x88\xcc\x02\x02\x07";
        [&front[..], &[number as u8], b"\x04\x02\x07b\x06\x02\0\x09\0\0"].concat()
    }

    /// Returns ports over sockets, and what sends to them.
    fn ports() -> (Ports, Vec<UnixDatagram>) {
        let mut ports = Ports::open(&[], &Arguments::default(), false).expect("no sockets");
        let mut senders = Vec::new();
        for number in 0..PORTS {
            let (theirs, ours) = UnixDatagram::pair().expect("two sockets");
            ours.set_nonblocking(true).and_then(|()| theirs.set_nonblocking(true)).expect("sockets");
            ports.all.push(Port::over(&format!("eth{number}"), File::from(OwnedFd::from(ours))));
            senders.push(theirs);
        }
        (ports, senders)
    }

    /// Waits for frames and reads them, as a turn does. Returns whether some may be left.
    fn turn(ports: &mut Ports, epoll: &File) -> bool {
        let (before, mut clock) = (Moment::now(), Clock::new());
        ports.await_frames(epoll, before, false);
        let found = ready(epoll, Duration::ZERO);
        ports.read(&mut clock, &found, before).is_some()
    }

    #[test]
    fn a_turn_reads_some_frames_and_the_next_ones_read_the_rest() {
        let _clocks = StoppedClocks::new();
        let ((mut ports, senders), epoll) = (ports(), epoll().expect("a file"));
        for (number, sender) in senders.iter().enumerate() {
            for place in 0..FRAMES {
                sender.send(&frame(FRAMES * number + place)).expect("room");
            }
        }
        let mut read = 0;
        while read < PORTS {
            assert!(turn(&mut ports, &epoll) || read + ports.frames.len() / FRAMES == PORTS);
            let count = ports.frames.len();
            assert!(count < MOST_ACCEPTED + FRAMES && count % FRAMES == 0, "{count}");
            assert!(count > 0 && ports.have_more());
            ports.await_frames(&epoll, Moment::now(), false);
            for (number, port) in ports.all.iter().enumerate() {
                let is_queued = (read..read + count / FRAMES).contains(&number);
                assert_eq!(port.socket.is_awaited(), !is_queued, "{number}");
            }
            read += count / FRAMES;
            assert_eq!(ports.first, if read < PORTS { read } else { ports.first });
            let numbers = ports.frames.drain(..).map(|frame| usize::from(frame.octets[17]));
            let first = (read * FRAMES - count)..read * FRAMES;
            assert!(numbers.into_iter().all(|number| first.contains(&number)));
        }
        assert!(!turn(&mut ports, &epoll) && ports.frames.is_empty() && !ports.have_more());
    }

    #[test]
    fn what_is_no_frame_for_the_agent_is_only_counted() {
        let _clocks = StoppedClocks::new();
        let ((mut ports, senders), epoll) = (ports(), epoll().expect("a file"));
        senders[3].send(&frame(1)[..13]).expect("room");
        senders[3].send(&frame(1)).expect("room");
        ports.all[3].reception.failures = MOST_FAILURES;
        turn(&mut ports, &epoll);
        assert_eq!(ports.all[3].reception.failures, 0, "the socket could be read");
        assert_eq!((ports.frames.len(), ports.all[3].counts.other_frames), (1, 1));
        assert_eq!(ports.all[3].reception.rests_until, Moment::default(), "one frame needs no rest");
        assert!(ports.drop_report_at.is_some());
        ports.frames.clear();
        senders[3].send(&frame(1)[..13]).expect("room");
        turn(&mut ports, &epoll);
        assert!(ports.all[3].reception.rests_until > Moment::now(), "another one came soon");
        assert_eq!([3, 4, 4].map(|number: usize| ports.all[number].count_other()), [false, true, false]);
    }
}
