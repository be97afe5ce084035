//! Answers clients' questions.

use crate::agent::Running;
use crate::client::{Answer, LONGEST_SENDING};
use crate::control::{Control, Question};
use crate::counters::Totals;
use crate::identifiers;
use crate::live::{Live, Turn};
use crate::port::Port;
use crate::queries::{LineFault, Query};
use crate::reports::{notice, warn};
use crate::status::Status;
use crate::tables::{put_one, Lines, Tables, Writer};
use crate::time::{processor_time, Moment, INEXACT};
use crate::watching::{Changed, Key, Kind};
use lldpa::{Msap, Show};
use lldpa_people::connection::NO_PLACE;
use lldpa_people::settings::{first_word, text_of_line};
use std::collections::BTreeSet;
use std::sync::{Arc, Weak};
use std::time::Duration;

/// The longest time in which clients are answered before other work continues.
const MOST_AT_ONCE: Duration = Duration::from_millis(50);
/// The processor time in which the lines of changes are made in a turn. Tables stand for the others.
const LONGEST_MAKING: Duration = Duration::from_millis(20);
/// The longest time in which frames that arrived before a question are read before its answer.
const MOST_TO_CATCH_UP: Duration = Duration::from_millis(250);
/// The time between checks of the host's name and the socket: some systems report no changes.
const BETWEEN_LOOKS: Duration = Duration::from_secs(10);
/// Below so many octets of LLDPDUs, the agent itself writes the lines of neighbors.
const FEW_OCTETS: usize = 1 << 16;

/// The clients, and what is kept for their questions.
pub struct Server {
    pub control: Option<Control>,
    /// Since when questions wait for the frames that arrived before them.
    asked_at: Option<Moment>,
    /// When to look at the host's name and the control socket again.
    next_look: Moment,
    /// The tables for answers, if a client still reads them and they have not changed.
    tables: Option<Weak<Tables>>,
    /// How often neighbors have come, changed or left.
    pub changes: u64,
    /// How many of these clients were told.
    told: u64,
    /// Those of which clients that watch were not told yet.
    changed: Changed,
}

impl Server {
    pub fn new(control: Option<Control>) -> Server {
        let (asked_at, next_look, tables) = (None, Moment::default(), None);
        Server { control, asked_at, next_look, tables, changes: 0, told: 0, changed: Changed::default() }
    }

    /// Counts what happened to a neighbor of a port. Costs nothing more if nobody watches.
    pub fn note(&mut self, port: &str, msap: &Msap<'_>, kind: Kind) {
        self.changes += 1;
        if self.control.as_ref().map_or(false, Control::is_watched) {
            self.changed.note(port, msap, kind);
        }
    }

    /// Lets clients that watch be sent the table of a port that is removed with so many neighbors.
    pub fn note_removed(&mut self, port: &str, neighbors: usize) {
        let count = neighbors as u64;
        self.changes += count;
        self.control.iter_mut().for_each(|control| control.lose(port, count, Moment::now()));
    }

    /// True if a question waits for the frames that arrived before it.
    pub fn has_question(&self) -> bool {
        self.asked_at.is_some()
    }

    fn has_more(&self) -> bool {
        self.control.as_ref().map_or(false, Control::has_more)
    }

    fn reply(&mut self, question: &Question, answer: Answer) {
        if let Some(control) = &mut self.control {
            control.reply(question, answer, Moment::now());
        }
    }

    /// Lets a client wait for the next change of a neighbor, unless many watch.
    fn let_wait(&mut self, question: &Question) {
        let changes = self.changes;
        let is_waiting = self.control.as_mut().map_or(false, |control| control.let_wait(question, changes));
        self.refuse_unless(is_waiting, question, NO_PLACE);
    }

    /// Lets a client watch these ports (all if empty), unless many watch.
    fn let_watch(&mut self, question: &Question, ports: BTreeSet<String>, all: Vec<String>) {
        let let_in = |control: &mut Control| control.let_watch(question, ports, all, Moment::now());
        let is_watching = self.control.as_mut().map_or(false, let_in);
        self.refuse_unless(is_watching, question, NO_PLACE);
    }

    fn refuse_unless(&mut self, has_place: bool, question: &Question, why: &str) {
        if !has_place {
            self.reply(question, Answer::of(&format!("error: {why}\n")));
        }
    }

    /// Notes that the agent's tables, or the seconds left in them, may have changed.
    pub fn forget_tables(&mut self) {
        self.tables = None;
    }

    /// Returns when a client is too slow or must be told something, or when a question has waited long
    /// enough.
    pub fn deadline(&self, now: Moment) -> Option<Moment> {
        let of_clients = self.control.as_ref().and_then(|control| control.deadline(now));
        let of_question = self.asked_at.map(|asked_at| asked_at + MOST_TO_CATCH_UP);
        let of_changes = (self.told != self.changes).then_some(now); // after signals and commands
        of_clients.into_iter().chain(of_question).chain(of_changes).min()
    }
}

impl Live {
    /// Hears and serves clients after a turn. What this costs is no part of the frames' share.
    pub fn serve(&mut self, turn: &Turn) {
        self.hear_clients(turn);
        if self.is_caught_up(turn) {
            self.answer_questions();
            self.server.asked_at = self.server.has_more().then(Moment::now); // the next turn does not wait
        }
        if let Some(control) = &mut self.server.control {
            control.tell_changes(self.server.changes, Moment::now());
        }
        self.server.told = self.server.changes;
        self.serve_watches();
        if self.server.control.as_ref().map_or(false, Control::has_clients) {
            self.ports.share.leave_out(processor_time());
        }
    }

    /// Lets the group use the control socket that was not known at the start.
    pub fn take_group(&mut self) {
        let (mut lookup, control) = match (self.lookup.take(), &mut self.server.control) {
            (Some(lookup), Some(control)) => (lookup, control),
            _ => return,
        };
        let name = &lookup.name.clone();
        let found = lookup.read();
        control.listening.group = found.as_ref().map(|one| one.group).or(control.listening.group);
        match found.map(|one| one.let_in) {
            Some(Ok(())) => notice(&format!("group {name} may use the control socket from now on")),
            Some(Err(fault)) => {
                let what = "was found, but cannot be let in after the start";
                warn(&format!("group {name} {what}: {fault}; a restart lets it in"));
            }
            None => warn(&format!("group {name} is no longer looked for")),
        }
    }

    fn hear_clients(&mut self, turn: &Turn) {
        let now = Moment::now();
        let is_due = self.server.control.as_ref().map_or(false, |control| control.is_due(now));
        if turn.is_asked || is_due || now >= self.server.next_look {
            self.server.next_look = now + BETWEEN_LOOKS;
            self.follow_name();
            if let Some(control) = &mut self.server.control {
                control.turn(now, turn.is_asked);
            }
        }
    }

    /// True if questions wait, and all frames that arrived before them were given to the agent.
    fn is_caught_up(&mut self, turn: &Turn) -> bool {
        if !self.server.has_more() {
            self.server.asked_at = None;
            return false;
        }
        let now = Moment::now();
        let asked_at = *self.server.asked_at.get_or_insert(now);
        let are_read = turn.moment >= asked_at + INEXACT || !self.ports.have_more();
        turn.began >= asked_at && are_read || now.since(asked_at) >= MOST_TO_CATCH_UP
    }

    /// Answers at most one question of each client.
    fn answer_questions(&mut self) {
        let begin = Moment::now();
        while let Some(question) = self.server.control.as_mut().and_then(Control::question) {
            let query = Query::read(&question.line, question.may_change);
            match query {
                Ok(Query::Changes(Some(known))) if known == self.server.changes => {
                    self.server.let_wait(&question);
                }
                Ok(Query::Watch(ports)) if self.may_watch(&ports) => {
                    let ports = ports.iter().map(|port| port.to_string()).collect();
                    self.server.let_watch(&question, ports, self.ports.names());
                }
                Ok(Query::Record) if self.running.is_some() => {
                    let record = &mut self.record;
                    let let_in = |control: &mut Control| control.let_record(&question, record);
                    let is_recording = self.server.control.as_mut().map_or(false, let_in);
                    self.server.refuse_unless(is_recording, &question, "4 clients record already");
                }
                Ok(Query::Settings(step)) => {
                    let answer = Answer::of(&self.take_settings(question.of, &question.who, step));
                    self.server.reply(&question, answer);
                }
                query => {
                    let answer = self.answer(&question, query);
                    self.server.reply(&question, answer);
                }
            }
            if Moment::now().since(begin) > MOST_AT_ONCE {
                return;
            }
        }
    }

    fn answer(&mut self, question: &Question, query: Result<Query<'_>, LineFault>) -> Answer {
        let query = match query {
            Ok(Query::Live(port)) => return self.for_port(port, Live::live),
            Ok(Query::Changes(_)) => return Answer::of_changes(self.server.changes),
            Ok(query) => query,
            Err(fault) => return Answer::of(&fault.to_string()),
        };
        if self.running.is_none() {
            let awaited = self.arguments.awaited();
            return Answer::of(&format!("error: waiting for an interface: {awaited}\n"));
        }
        match query {
            Query::Neighbors(port) => self.for_port(port, Live::neighbors),
            Query::Statistics(port) => self.for_port(port, Live::statistics),
            Query::Watch(_) => Answer::of("error: no such port\n"),
            _ => match self.command(&question.line) {
                Ok(lines) => {
                    self.report_setting(question);
                    Answer::of(&lines)
                }
                Err(refusal) => Answer::of(&format!("error: {refusal}\n")),
            },
        }
    }

    /// Reports who has changed a setting.
    fn report_setting(&mut self, question: &Question) {
        if first_word(&question.line) == "configure" {
            let line = text_of_line(&question.line);
            self.events.report_setting(&format!("{} has set: {line}", question.who));
        }
    }

    /// True if the agent runs and has these ports.
    fn may_watch(&self, ports: &[&str]) -> bool {
        let is_there = |name: &&str| self.ports.all.iter().any(|port| port.name == *name);
        self.running.is_some() && ports.iter().all(is_there)
    }

    /// Tells clients that watch what has changed, and sends the tables that they need.
    pub fn serve_watches(&mut self) {
        let mut control = match self.server.control.take() {
            Some(control) => control,
            None => return,
        };
        let (changed, further) = self.server.changed.take();
        let (begin, mut last) = (Moment::now(), None);
        for (key, kind) in changed {
            let is_told = control.is_told(&key.port) && {
                let now = processor_time();
                now < *last.get_or_insert(now + LONGEST_MAKING)
            };
            match if is_told { self.lines_of(&key, kind) } else { None } {
                Some(lines) => control.tell(&key.port, &lines, begin),
                None => control.lose(&key.port, 1, begin),
            }
        }
        further.iter().for_each(|(port, count)| control.lose(port, *count, begin));
        let begin = Moment::now();
        while Moment::now().since(begin) < LONGEST_SENDING
            && control.send_next(Moment::now(), |port| self.watched_table(port))
        {}
        control.note_next_telling();
        let mut record = std::mem::take(&mut self.record);
        let head = self.running.as_ref().map(|running| |lost| self.record_head(running, lost));
        control.send_records(&mut record, Moment::now(), head);
        (self.record, self.server.control) = (record, Some(control));
    }

    /// Returns the answer with which a client that has lost so many lines begins a file.
    fn record_head(&self, running: &Running, lost: u64) -> Answer {
        let told = if lost > 0 { format!("live.lost={lost}\n") } else { String::new() };
        let front = format!("{told}# lldpa {}\n", running.command_line(&self.arguments.agent));
        Answer::of_head(&front, self.head(&self.ports.names()))
    }

    /// Returns the lines that tell a change. None if the neighbor is no longer as it was noted.
    fn lines_of(&self, key: &Key, kind: Kind) -> Option<String> {
        let (port, msap) = (&key.port, key.msap());
        let mut lines =
            format!("live.{port}.change={} {}\n", kind.word(), identifiers::id(&msap)).into_bytes();
        let number = self.ports.all.iter().position(|one| one.name == *port)?;
        let found = self.ports.all[number].neighbors.iter().enumerate().find(|(_, one)| one.msap() == msap);
        let agent = &self.running.as_ref()?.agent;
        let is_present = found.map_or(false, |found| put_one(&mut lines, agent, number as u8, port, found));
        let is_right = is_present == (kind != Kind::Gone);
        String::from_utf8(lines).ok().filter(|_| is_right)
    }

    /// Returns the table of the port of this name, which may not exist any more.
    fn watched_table(&self, name: &str) -> Answer {
        let mut tables = Tables::new();
        match (&self.running, self.ports.all.iter().position(|port| port.name == name)) {
            (Some(running), Some(number)) => {
                let port = &self.ports.all[number];
                let has_too_many = port.full_until > self.clock.given;
                tables.add(&running.agent, number as u8, name, has_too_many, &port.neighbors);
            }
            _ => tables.add_empty(name),
        }
        Answer::new("", Some(Writer::new(Arc::new(tables), Lines::Watched)))
    }

    /// Returns the answer for the port of this name, or for all ports.
    fn for_port(&mut self, name: Option<&str>, answer: fn(&mut Live, Option<usize>) -> Answer) -> Answer {
        let name = match name {
            Some(name) => name,
            None => return answer(self, None),
        };
        match self.ports.all.iter().position(|port| port.name == name) {
            Some(number) => answer(self, Some(number)),
            None => Answer::of("error: no such port\n"),
        }
    }

    /// Returns this port, or all of them, with their numbers.
    fn chosen(&self, only: Option<usize>) -> impl Iterator<Item = (u8, &Port)> {
        let ports = self.ports.all.iter().enumerate();
        let chosen = ports.filter(move |one| only.map_or(true, |only| only == one.0));
        chosen.map(|(number, port)| (number as u8, port))
    }

    /// Returns the present tables of one port, or of all.
    pub fn tables(&mut self, only: Option<usize>) -> Arc<Tables> {
        if let (None, Some(tables)) = (only, self.server.tables.as_ref().and_then(Weak::upgrade)) {
            return tables;
        }
        let mut tables = Tables::new();
        if let Some(running) = &self.running {
            for (number, port) in self.chosen(only) {
                let has_too_many = port.full_until > self.clock.given;
                tables.add(&running.agent, number, &port.name, has_too_many, &port.neighbors);
            }
        }
        let tables = Arc::new(tables);
        if only.is_none() {
            self.server.tables = Some(Arc::downgrade(&tables));
        }
        tables
    }

    fn neighbors(&mut self, only: Option<usize>) -> Answer {
        match &self.running {
            Some(running) if running.holds_less_than(FEW_OCTETS) => {
                let lines = running.agent.show(Show::Neighbors);
                let name = only.map_or("", |number| &self.ports.all[number].name);
                let front = format!("lldp.{name}{}", if name.is_empty() { "" } else { "." });
                let chosen = lines.split_inclusive('\n').filter(|line| line.starts_with(&front));
                Answer::of(&chosen.collect::<String>())
            }
            _ => Answer::new("", Some(Writer::new(self.tables(only), Lines::Neighbors))),
        }
    }

    /// Returns the counters of each port, or of one.
    pub fn totals(&self, only: Option<usize>) -> Vec<Totals> {
        let counted = self.running.as_ref().map_or(Vec::new(), Running::counted);
        let total = |(number, port): (u8, &Port)| {
            let numbers = port.counters.total(counted.get(usize::from(number))?);
            Some(Totals { port: port.name.clone(), numbers })
        };
        self.chosen(only).filter_map(total).collect()
    }

    fn statistics(&mut self, only: Option<usize>) -> Answer {
        Answer::of(&self.totals(only).iter().map(Totals::lines).collect::<String>())
    }

    /// Returns the answer to `live`, or to `live PORT`.
    fn live(&mut self, only: Option<usize>) -> Answer {
        let lines = self.status(only).lines();
        Answer::new(&lines, Some(Writer::new(self.tables(only), Lines::Since)))
    }

    /// Returns what `live` says, except about neighbors.
    pub fn status(&mut self, only: Option<usize>) -> Status {
        self.ports.count_drops();
        let recorders = self.server.control.as_ref().map_or(0, Control::count_recorders);
        let own = vec![
            ("version", env!("CARGO_PKG_VERSION").into()),
            ("began", self.began.to_string()),
            ("agent", if self.running.is_some() { "running" } else { "waiting" }.into()),
            ("seconds", self.clock.given.to_string()),
            ("settings-refused", self.settings.count_refused().to_string()),
            ("ports-refused", self.ports.count_refused().to_string()),
            ("recorders", recorders.to_string()),
            ("record-lines-lost", self.record.lost.to_string()),
        ];
        let ports = self.chosen(only).map(|(_, port)| (port.name.clone(), port.status()));
        Status { own, ports: ports.collect() }
    }
}

#[cfg(test)]
mod tests {
    use super::*;
    use crate::arguments::Arguments;
    use crate::options::AgentOptions;
    use crate::reading::Frame;
    use crate::state::Saved;
    use crate::sys::stopped::StoppedClocks;
    use crate::time::SECOND;
    use std::io::Write;
    use std::os::unix::net::UnixStream;

    #[test]
    fn a_question_waits_for_the_frames_before_it_but_not_for_long() {
        let clocks = StoppedClocks::new();
        let folder = std::env::temp_dir().join(format!("lldpa-live-answers-{}", std::process::id()));
        let path = folder.join("control").to_string_lossy().into_owned();
        let mut live = Live::without_interfaces(Arguments::default(), &[]);
        let turn = |began: Moment, moment: Moment| Turn { began, moment, has_signal: false, is_asked: true };
        let now = Moment::now();
        clocks.pass(INEXACT);
        assert!(!live.is_caught_up(&turn(now, now)), "nobody asks");
        let mut control = Control::open(&path, None).expect("a socket");
        let mut client = UnixStream::connect(&path).expect("a socket");
        client.write_all(b"live\n").expect("room");
        control.turn(now, true);
        live.server.control = Some(control);
        assert!(!live.is_caught_up(&turn(now, now)), "it waits for the next turn");
        let asked_at = live.server.asked_at.expect("a question");
        let later = asked_at + INEXACT;
        assert!(live.is_caught_up(&turn(later, later)));
        assert!(live.is_caught_up(&turn(later, now)), "no frame waits");
        live.ports.frames.push_back(Frame { moment: now, port: 0, octets: Vec::new() });
        assert!(!live.is_caught_up(&turn(later, now)), "a frame waits");
        assert!(live.is_caught_up(&turn(later, later)), "it came later");
        live.server.asked_at = Some(now - MOST_TO_CATCH_UP);
        assert!(live.is_caught_up(&turn(later, now - SECOND)), "it waits long enough");
        std::fs::remove_dir_all(&folder).expect("a folder");
    }

    /// Lets a port hear a neighbor whose LLDPDU has about 1,400 octets, or a small one.
    fn hear(live: &mut Live, port: usize, number: u8, is_large: bool) {
        let front = [1, 0x80, 0xc2, 0, 0, 0x0e, 2, 0, 0, 0, 0, 1, 0x88, 0xcc];
        let mut octets = [&front[..], &[2, 2, 7, number, 4, 2, 7, b'p', 6, 2, 0, 99]].concat();
        for _ in 0..if is_large { 3 } else { 0 } {
            octets.extend([0xff, 200, 0, 1, 2].iter().chain(&[7; 453]));
        }
        octets.extend([0, 0]);
        live.receive(&Frame { moment: live.clock.end_of(0), port, octets });
    }

    #[test]
    fn lines_of_small_tables_are_those_of_the_agent_itself() {
        let words = ["--mac=02:00:00:00:00:01", "--max-neighbors=128", "--receive-only"];
        let agent = AgentOptions::read(&words.map(String::from)).expect("options");
        let arguments = Arguments { agent, ..Arguments::default() };
        let mut live = Live::without_interfaces(arguments, &["eth0", "eth1", "e"]);
        live.open(&Saved::default()).expect("an agent");
        (0..3).for_each(|port| live.give_link(port, true));
        (0..3).for_each(|number| hear(&mut live, usize::from(number), number, false));
        for number in 0..100 {
            let answers = [None, Some(0), Some(1), Some(2)].map(|only| live.neighbors(only));
            let octets = live.tables(None).octets;
            let is_small = octets < FEW_OCTETS;
            assert!(answers.iter().all(|answer| answer.rest.is_none() == is_small), "{octets}");
            let [all, of_ports @ ..] = answers.map(Answer::lines);
            assert_eq!(all, live.running.as_ref().expect("an agent").agent.show(Show::Neighbors));
            assert_eq!(of_ports.concat(), all);
            assert!(of_ports.iter().zip(["eth0", "eth1", "e"]).all(|(lines, port)| {
                lines.starts_with(&format!("lldp.{port}.neighbors="))
                    && lines.matches(".too-many=").count() == 1
            }));
            hear(&mut live, 0, 3 + number, true);
        }
        assert!(live.tables(None).octets > FEW_OCTETS);
    }

    #[test]
    fn answers_share_tables_until_these_may_have_changed() {
        let mut live = Live::without_interfaces(Arguments::default(), &[]);
        let first = live.tables(None);
        assert!(Arc::ptr_eq(&first, &live.tables(None)));
        assert!(!Arc::ptr_eq(&first, &live.tables(Some(0))), "those of one port are their own");
        live.server.forget_tables();
        assert!(!Arc::ptr_eq(&first, &live.tables(None)));
        let weak = Arc::downgrade(&live.tables(None));
        assert_eq!(weak.strong_count(), 0, "nobody keeps tables that no client reads");
    }
}
