//! The control socket. A question is a line; the answer is a line `=N` and N lines. With mode 0600
//! root and the owner may connect, with 0660 also the group. They may do everything. With 0666
//! everybody may ask, but only root, owner and group may `configure` and `update`.

use crate::budget::MOST_UNREAD;
use crate::client::{counted, Answer, Client, LONGEST_SENDING, TO_READ};
use crate::listening::Listening;
use crate::recording::{self, Recorder, Recording};
use crate::reports::warn;
use crate::time::{Moment, SECOND};
use crate::waiting::{IN, OUT};
use crate::watching::{Next, Told, Watch};
use std::collections::BTreeSet;
use std::fs::File;
use std::io::{ErrorKind, Read, Result, Write};
use std::os::unix::net::UnixStream;
use std::sync::Arc;
use std::time::Duration;

const MOST_CLIENTS: usize = 64;
const MOST_PREFERRED: usize = MOST_CLIENTS + 8; // with root and the socket's owner
const MOST_WATCHING: usize = 16; // of root and the socket's owner, and as many of others
const MOST_RECORDING: usize = 4; // the same
const IDLENESS: Duration = Duration::from_secs(60);

/// A client's line, who the client is, and whether it may change the agent.
pub struct Question {
    /// The index of the client.
    client: usize,
    /// The number of the client among all that were accepted, from 1 on.
    pub of: u64,
    pub line: Vec<u8>,
    pub may_change: bool,
    /// Who the client is, for reports.
    pub who: String,
}

pub struct Control {
    pub listening: Listening,
    clients: Vec<Client>,
    /// How many clients were accepted.
    accepted: u64,
    /// The index of the client with which the search for the next question begins.
    next: usize,
    /// The index of the client to which is sent first.
    first: usize,
    /// When to accept clients again after a failure.
    pause: Moment,
    /// True if the socket was removed.
    is_lost: bool,
    /// The changes that clients that watch are told.
    told: Told,
    /// The index of the client that watches and was sent something last.
    last_told: usize,
    /// When something more may be sent to a client that watches.
    next_telling: Option<Moment>,
}

impl Control {
    /// Opens the socket at a path. This needs the rights that lldpa-live gives up later.
    pub fn open(path: &str, group: Option<u32>) -> Result<Control> {
        let listening = Listening::open(path, group)?;
        Ok(Control {
            listening,
            clients: Vec::new(),
            accepted: 0,
            next: 0,
            first: 0,
            pause: Moment::default(),
            is_lost: false,
            told: Told::default(),
            last_told: 0,
            next_telling: None,
        })
    }

    pub fn await_clients(&mut self, epoll: &File, now: Moment) {
        self.listening.socket.wait_for(epoll, if now >= self.pause { IN } else { 0 });
        self.listening.watch.iter_mut().for_each(|watch| watch.wait_for(epoll, IN));
        for client in &mut self.clients {
            client.stream.wait_for(epoll, if client.answer.is_empty() { IN } else { OUT });
        }
    }

    pub fn deadline(&self, now: Moment) -> Option<Moment> {
        let pause = Some(self.pause).filter(|pause| *pause > now);
        let watches = self.next_telling;
        self.clients.iter().filter_map(Client::deadline).chain(pause).chain(watches).min()
    }

    /// True if a client was too slow, and has to go.
    pub fn is_due(&self, now: Moment) -> bool {
        self.clients.iter().filter_map(Client::deadline).any(|deadline| deadline <= now)
    }

    /// Accepts clients, reads and sends, without waiting.
    pub fn turn(&mut self, now: Moment, is_asked: bool) {
        let _ = self.listening.watch.as_mut().map(|watch| watch.file.read(&mut [0u8; 256]));
        if !self.listening.is_there() && !std::mem::replace(&mut self.is_lost, true) {
            warn(&format!(
                "{}: the control socket was removed; a restart makes it again",
                self.listening.path
            ));
        }
        self.send_and_read(now);
        if is_asked && now >= self.pause {
            self.accept(now);
        }
    }

    /// Sends to each client, reads from each, and ends those that are done or too slow.
    fn send_and_read(&mut self, now: Moment) {
        let count = self.clients.len();
        for step in 0..count {
            let index = (self.first + step) % count;
            let client = &mut self.clients[index];
            if Moment::now().since(now) < LONGEST_SENDING {
                client.send(now);
            } else if !client.answer.is_empty() {
                self.first = index; // the next turn begins with it
                break;
            }
        }
        for client in &mut self.clients {
            client.read();
            let is_late = client.deadline().map_or(false, |deadline| deadline <= now);
            client.is_over |= client.is_left() || is_late || client.is_impatient();
        }
        self.clients.retain(|client| !client.is_over);
        self.first %= self.clients.len().max(1);
    }

    fn accept(&mut self, now: Moment) {
        for _ in 0..MOST_CLIENTS {
            match self.listening.socket.file.accept() {
                Ok((stream, _)) if stream.set_nonblocking(true).is_ok() => self.admit(stream, now),
                Ok(_) => (),
                Err(fault) => {
                    self.pause =
                        if fault.kind() == ErrorKind::WouldBlock { Moment::default() } else { now + SECOND };
                    return;
                }
            }
        }
    }

    /// Admits a client. If all places are taken, it replaces the client that has been idle longest,
    /// but one of root or the owner only if it is theirs too; if none has been idle for a minute, the
    /// new client is refused.
    fn admit(&mut self, stream: UnixStream, now: Moment) {
        self.accepted += 1;
        let mut client = Client::new(stream, self.accepted, now);
        let is_preferred = client.peer.is_preferred(&self.listening.file);
        let most = if is_preferred { MOST_PREFERRED } else { MOST_CLIENTS };
        if self.clients.iter().filter(|client| !client.is_over).count() >= most {
            let gives_way = |client: &Client| is_preferred || !client.peer.is_preferred(&self.listening.file);
            let is_idle = |client: &Client| {
                client.may_rest() && now.since(client.active_at) >= IDLENESS && gives_way(client)
            };
            let idle = (0..self.clients.len()).filter(|index| is_idle(&self.clients[*index]));
            match idle.min_by_key(|index| self.clients[*index].active_at) {
                Some(longest) => drop(self.clients.remove(longest)),
                None => {
                    let _ = client.stream.file.write(b"=1\nerror: too many clients\n");
                    client.is_over = true; // removed next turn: until then it can send its line
                }
            }
        }
        client.read();
        self.clients.extend(Some(client).filter(|client| !client.is_left()));
    }

    /// Returns the next question, one for each client in turn. None after the last client.
    pub fn question(&mut self) -> Option<Question> {
        let first = std::mem::take(&mut self.next);
        let index = (first..self.clients.len()).find(|index| self.clients[*index].has_line())?;
        let client = &mut self.clients[index];
        self.next = index + 1;
        Some(Question {
            client: index,
            of: client.number,
            line: client.next_line(),
            may_change: client.peer.may_change(&self.listening.file, self.listening.group),
            who: client.peer.name(),
        })
    }

    pub fn reply(&mut self, question: &Question, answer: Answer, now: Moment) {
        self.clients[question.client].reply(answer, now);
        self.end_slowest();
    }

    /// Lets a client wait until the count of changes is another one. False if it has no place.
    pub fn let_wait(&mut self, question: &Question, count: u64) -> bool {
        let has_place = self.take_place(question);
        self.clients[question.client].known = Some(count).filter(|_| has_place);
        has_place
    }

    /// Lets a client watch ports (all if empty), of which there are these. False if it has no place.
    pub fn let_watch(
        &mut self,
        question: &Question,
        ports: BTreeSet<String>,
        all: Vec<String>,
        now: Moment,
    ) -> bool {
        let has_place = self.take_place(question);
        if has_place {
            let client = &mut self.clients[question.client];
            client.watch = Some(Watch::new(ports, all, &self.told, now));
            client.active_at = now;
        }
        has_place
    }

    /// Lets a client record, from the present state on. A client that records already is sent the state once
    /// more. False if it has no place.
    pub fn let_record(&mut self, question: &Question, recording: &mut Recording) -> bool {
        let is_preferred = |client: &Client| client.peer.is_preferred(&self.listening.file);
        let of_ours = is_preferred(&self.clients[question.client]);
        let recorders = self.clients.iter().filter(|client| client.record.is_some());
        let taken = recorders.filter(|client| is_preferred(client) == of_ours).count();
        let client = &mut self.clients[question.client];
        let has_place = client.record.is_some() || taken < MOST_RECORDING;
        if has_place {
            recording.is_wanted = true;
            client.record.get_or_insert_with(|| Recorder::new(recording)).wants_head = true;
        }
        has_place
    }

    /// Returns how many clients record.
    pub fn count_recorders(&self) -> usize {
        self.clients.iter().filter(|client| client.record.is_some()).count()
    }

    /// True if a client that records has not read all.
    pub fn owes_records(&self, recording: &Recording) -> bool {
        let owes = |client: &Client, record: &Recorder| !client.answer.is_empty() || record.is_due(recording);
        self.clients.iter().any(|client| client.record.as_ref().map_or(false, |record| owes(client, record)))
    }

    /// Sends each client that records, and has read all, what comes next, but not for long. `head` makes the
    /// answer with the present state; without one it waits. One head is sent at a time, since it can be large.
    /// Forgets what all were sent.
    pub fn send_records(
        &mut self,
        recording: &mut Recording,
        now: Moment,
        head: Option<impl Fn(u64) -> Answer>,
    ) {
        recording.end_piece();
        let mut has_head = self.may_wait_for_head(recording, now);
        for client in self.clients.iter_mut().filter(|client| !client.is_over) {
            client.record.iter_mut().for_each(|record| record.count_lost(recording));
            while let Some(record) = client.record.as_mut().filter(|_| client.answer.is_empty()) {
                if has_head && record.needs_head(recording) {
                    break;
                }
                let answer = match (record.take(recording, head.is_some()), &head) {
                    (Some(recording::Next::Text(text)), _) => Answer::counted(text),
                    (Some(recording::Next::Head(lost)), Some(head)) => head(lost),
                    _ => break,
                };
                client.reply(answer, now);
                has_head |= client.answer.has_head();
                if Moment::now().since(now) >= LONGEST_SENDING {
                    break;
                }
            }
        }
        let recorders = || self.clients.iter().filter_map(|client| client.record.as_ref());
        recording.is_wanted = recorders().count() > 0;
        recording.forget(recorders().map(|one| one.next).min().unwrap_or(u64::MAX));
        if head.is_some() {
            let of_records = self.next_record(recording);
            self.next_telling = self.next_telling.into_iter().chain(of_records).min();
        }
        self.end_slowest();
    }

    /// True if a client is being sent a head. If it has read nothing of it for long and another one waits for
    /// its own, it has to go.
    fn may_wait_for_head(&mut self, recording: &Recording, now: Moment) -> bool {
        let needs = |client: &Client| client.record.as_ref().map_or(false, |one| one.needs_head(recording));
        let is_awaited = self.clients.iter().any(|client| client.answer.is_empty() && needs(client));
        let mut holders =
            self.clients.iter_mut().filter(|client| client.answer.has_head() && !client.is_over);
        let holder = match holders.next() {
            Some(holder) => holder,
            None => return false,
        };
        if is_awaited && now.since(holder.active_at) >= TO_READ {
            holder.is_over = true;
            holder.answer = Answer::default();
        }
        !holder.is_over
    }

    /// Returns when something may be sent to a client that records and has read all.
    fn next_record(&self, recording: &Recording) -> Option<Moment> {
        let holder = self.clients.iter().find(|client| client.answer.has_head() && !client.is_over);
        let resting = self.clients.iter().filter(|client| client.answer.is_empty() && !client.is_over);
        resting
            .filter_map(|client| client.record.as_ref())
            .filter(|one| one.is_due(recording))
            .map(|one| match holder {
                Some(holder) if one.needs_head(recording) => holder.active_at + TO_READ,
                _ => Moment::default(),
            })
            .min()
    }

    /// Gives a client one of the places of those that watch, if one is left.
    fn take_place(&mut self, question: &Question) -> bool {
        let is_preferred = |client: &Client| client.peer.is_preferred(&self.listening.file);
        let of_ours = is_preferred(&self.clients[question.client]);
        let watching = self.clients.iter().filter(|client| client.watches);
        let taken = watching.filter(|client| is_preferred(client) == of_ours).count();
        let client = &mut self.clients[question.client];
        client.watches |= taken < MOST_WATCHING;
        client.watches
    }

    /// True if a client is told each change.
    pub fn is_watched(&self) -> bool {
        self.clients.iter().any(|client| client.watch.is_some())
    }

    /// True if a client is told each change of a port.
    pub fn is_told(&self, port: &str) -> bool {
        self.clients.iter().filter_map(|client| client.watch.as_ref()).any(|watch| watch.is_told(port))
    }

    /// Tells clients a change of a port by these lines.
    pub fn tell(&mut self, port: &str, lines: &str, now: Moment) {
        let watches = self.clients.iter_mut().filter_map(|client| client.watch.as_mut());
        self.told.add(port, counted(lines, 0).into_bytes(), watches, now);
    }

    /// Lets the table of a port stand for changes that are not told.
    pub fn lose(&mut self, port: &str, count: u64, now: Moment) {
        let watches = self.clients.iter_mut().filter_map(|client| client.watch.as_mut());
        watches.for_each(|watch| watch.lose(port, count, now));
    }

    /// Notes when something may be sent to a client that watches and has read all. Forgets the changes
    /// that all were sent.
    pub fn note_next_telling(&mut self) {
        let told = &self.told;
        let resting = self.clients.iter_mut().filter(|client| client.answer.is_empty() && !client.is_over);
        self.next_telling = resting.filter_map(|client| client.watch.as_mut()?.due(told)).min();
        let watches = self.clients.iter().filter_map(|client| client.watch.as_ref());
        let needed = watches.map(|watch| watch.next).min();
        self.told.forget(needed.unwrap_or(u64::MAX));
    }

    /// Sends the next client that watches, and has read all, what comes next. `table` makes the table of
    /// a port. False if there is nothing to send.
    pub fn send_next(&mut self, now: Moment, table: impl FnOnce(&str) -> Answer) -> bool {
        let count = self.clients.len();
        for step in 1..=count {
            let index = (self.last_told + step) % count;
            let client = &mut self.clients[index];
            let watch = client.watch.as_mut().filter(|_| client.answer.is_empty() && !client.is_over);
            if let Some(next) = watch.and_then(|watch| watch.take(&self.told, now)) {
                let answer = match next {
                    Next::Table(port) => table(&port),
                    Next::Text(text) => Answer::counted(text),
                };
                client.reply(answer, now);
                self.last_told = index;
                self.end_slowest();
                return true;
            }
        }
        false
    }

    /// Answers the clients that wait for another count of changes than the one that they know.
    pub fn tell_changes(&mut self, count: u64, now: Moment) {
        for client in &mut self.clients {
            if client.known.map_or(false, |known| known != count) {
                client.known = None;
                client.reply(Answer::of_changes(count), now);
            }
        }
    }

    pub fn has_clients(&self) -> bool {
        !self.clients.is_empty()
    }

    pub fn has_more(&self) -> bool {
        self.clients.iter().any(Client::has_line)
    }

    /// Returns how many octets the unread answers take. Answers may share tables.
    fn unread(&self) -> usize {
        let own: usize = self.clients.iter().map(|client| client.answer.memory()).sum();
        let mut tables: Vec<_> =
            self.clients.iter().filter_map(|client| Some(client.answer.rest.as_ref()?.tables())).collect();
        tables.sort_by_key(|one| Arc::as_ptr(one));
        tables.dedup_by_key(|one| Arc::as_ptr(one));
        own + self.told.memory() + tables.iter().map(|one| one.memory()).sum::<usize>()
    }

    /// While too many octets are unread, ends the connection with the oldest unread answer.
    fn end_slowest(&mut self) {
        while self.unread() > MOST_UNREAD {
            let waiting = self.clients.iter_mut().filter(|client| !client.answer.is_empty());
            match waiting.min_by_key(|client| client.answered_at) {
                Some(slowest) => {
                    slowest.is_over = true;
                    slowest.answer = Answer::default();
                }
                None => return,
            }
        }
    }
}

#[cfg(test)]
mod tests {
    use super::*;
    use crate::sys::stopped::StoppedClocks;
    use std::fs;

    fn opened(name: &str) -> (String, Control) {
        let folder = std::env::temp_dir().join(format!("lldpa-live-{name}-{}", std::process::id()));
        let path = folder.join("control").to_string_lossy().into_owned();
        let control = Control::open(&path, None).expect("a socket");
        (path, control)
    }

    /// Returns the next line of each client.
    fn questions(control: &mut Control) -> Vec<String> {
        std::iter::from_fn(|| control.question())
            .map(|question| String::from_utf8(question.line).expect("a text"))
            .collect()
    }

    #[test]
    fn each_client_is_answered_in_turn() {
        let _clocks = StoppedClocks::new();
        let (path, mut control) = opened("clients");
        let mut clients: Vec<_> = (0..3).map(|_| UnixStream::connect(&path).expect("a socket")).collect();
        for (number, client) in clients.iter_mut().enumerate() {
            write!(client, "live p{number}\nshow neighbors\n").expect("room");
        }
        let now = Moment::now();
        control.turn(now, false);
        assert!(!control.has_more(), "nobody is accepted unless somebody asks");
        control.turn(now, true);
        assert_eq!((control.deadline(now), control.has_more()), (None, true));
        for number in 0..3 {
            let question = control.question().expect("a question");
            assert_eq!(question.line, format!("live p{number}").as_bytes());
            assert!(question.may_change, "the socket is ours");
            control.reply(&question, Answer::of("x\n"), now);
        }
        assert!(control.question().is_none());
        for client in &mut clients {
            let mut room = [0; 5];
            client.read_exact(&mut room).expect("an answer");
            assert_eq!(&room, b"=1\nx\n");
        }
        assert_eq!(questions(&mut control), ["show neighbors"; 3]);
        fs::remove_dir_all(path.trim_end_matches("/control")).expect("a folder");
    }

    #[test]
    fn a_removed_socket_is_noted() {
        let (path, mut control) = opened("removed");
        control.turn(Moment::now(), false);
        assert!(!control.is_lost);
        fs::remove_file(&path).expect("a socket");
        control.turn(Moment::now(), false);
        assert!(control.is_lost);
        fs::remove_dir_all(path.trim_end_matches("/control")).expect("a folder");
    }

    #[test]
    fn a_slow_client_has_to_go() {
        let _clocks = StoppedClocks::new();
        let (path, mut control) = opened("slow");
        let mut client = UnixStream::connect(&path).expect("a socket");
        client.write_all(b"live\nlive\n").expect("room");
        let now = Moment::now();
        control.turn(now, true);
        let question = control.question().expect("a question");
        control.reply(&question, Answer::of(&"x\n".repeat(1 << 20)), now);
        let deadline = control.deadline(now).expect("a deadline");
        assert_eq!(deadline.since(now), std::time::Duration::from_secs(10));
        let before = now + std::time::Duration::from_millis(9999);
        assert!(!control.is_due(before) && control.is_due(deadline));
        control.turn(deadline, false);
        assert_eq!((control.deadline(deadline), control.clients.len()), (None, 0));
        fs::remove_dir_all(path.trim_end_matches("/control")).expect("a folder");
    }

    #[test]
    fn places_are_limited() {
        let _clocks = StoppedClocks::new();
        let (path, mut control) = opened("places");
        let now = Moment::now();
        let clients: Vec<_> =
            (0..MOST_PREFERRED).map(|_| UnixStream::connect(&path).expect("a socket")).collect();
        control.turn(now, true);
        control.turn(now, true);
        assert_eq!(control.clients.len(), MOST_PREFERRED);
        let mut late = UnixStream::connect(&path).expect("a socket");
        control.turn(now, true);
        let mut text = [0; 27];
        late.read_exact(&mut text).expect("a refusal");
        assert_eq!(&text, b"=1\nerror: too many clients\n");
        let idle = now + IDLENESS;
        let _newest = UnixStream::connect(&path).expect("a socket");
        control.turn(idle, true);
        assert_eq!(control.clients.len(), MOST_PREFERRED, "one that was idle has gone");
        assert!(control.clients.iter().any(|client| client.active_at == idle));
        drop(clients);
        fs::remove_dir_all(path.trim_end_matches("/control")).expect("a folder");
    }
}
