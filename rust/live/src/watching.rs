//! What clients that watch are sent: the table of each port, and then each neighbor that changes. Its
//! lines are made once for all clients. A client that reads too slowly loses changes, and is sent the
//! tables of their ports again.

use crate::budget::MOST_TOLD;
use crate::client::counted;
use crate::time::Moment;
use lldpa::Msap;
use lldpa_people::ordered::Ordered;
use std::collections::{BTreeMap, BTreeSet, VecDeque};
use std::time::Duration;

/// How many neighbors may change in one turn before the tables of further ones are sent.
const MOST_CHANGED: usize = 1024;
/// The time between the end of some tables and the begin of the next: as long as those took to send,
/// but not shorter or longer than this.
const BETWEEN_TABLES: Duration = Duration::from_millis(500);
const LONGEST_BETWEEN_TABLES: Duration = Duration::from_secs(5);
const MOST_AT_ONCE: usize = 1 << 15; // octets of changes that make one answer

/// What happened to a neighbor.
#[derive(Clone, Copy, Debug, PartialEq, Eq)]
pub enum Kind {
    Came,
    Changed,
    Gone,
}

impl Kind {
    pub fn word(self) -> &'static str {
        match self {
            Kind::Came => "came",
            Kind::Changed => "changed",
            Kind::Gone => "gone",
        }
    }

    /// Returns what happened together. None if a neighbor that nobody was told of is gone.
    fn then(self, later: Kind) -> Option<Kind> {
        match (self, later) {
            (Kind::Came, Kind::Gone) => None,
            (Kind::Came, _) => Some(Kind::Came),
            (Kind::Gone, Kind::Came) => Some(Kind::Changed),
            _ => Some(later),
        }
    }
}

/// A neighbor of the port of this name.
#[derive(Clone, Debug, PartialEq, Eq, PartialOrd, Ord)]
pub struct Key {
    pub port: String,
    chassis: Vec<u8>,
    port_id: Vec<u8>,
}

impl Key {
    fn of(port: &str, msap: &Msap<'_>) -> Key {
        Key { port: port.into(), chassis: msap.chassis.into(), port_id: msap.port.into() }
    }

    pub fn msap(&self) -> Msap<'_> {
        Msap { chassis: &self.chassis, port: &self.port_id }
    }
}

/// The neighbors that have changed since clients were last told.
#[derive(Default)]
pub struct Changed {
    neighbors: Ordered<Key, Option<Kind>>,
    /// How many changes of a port are not among these.
    further: BTreeMap<String, u64>,
}

impl Changed {
    pub fn note(&mut self, port: &str, msap: &Msap<'_>, kind: Kind) {
        let key = Key::of(port, msap);
        if self.neighbors.entries.len() >= MOST_CHANGED && self.neighbors.get(&key).is_none() {
            *self.further.entry(key.port).or_insert(0) += 1;
            return;
        }
        let noted = self.neighbors.value(key);
        *noted = noted.map_or(Some(kind), |earlier| earlier.then(kind));
    }

    /// Returns each neighbor and what happened to it, and how many further changes ports had.
    pub fn take(&mut self) -> (impl Iterator<Item = (Key, Kind)>, BTreeMap<String, u64>) {
        let Changed { neighbors, further } = std::mem::take(self);
        (neighbors.entries.into_iter().filter_map(|(key, kind)| Some((key, kind?))), further)
    }
}

/// A change as clients are told it: its port, and the lines with their number.
struct Message {
    port: String,
    text: Vec<u8>,
}

/// The changes that some client that watches was not sent yet. Each has a number.
#[derive(Default)]
pub struct Told {
    messages: VecDeque<Message>,
    /// The number of the first of these.
    first: u64,
    octets: usize,
}

impl Told {
    fn end(&self) -> u64 {
        self.first + self.messages.len() as u64
    }

    fn message(&self, number: u64) -> Option<&Message> {
        self.messages.get(usize::try_from(number.checked_sub(self.first)?).ok()?)
    }

    /// Forgets the changes before this one.
    pub fn forget(&mut self, number: u64) {
        while self.first < number {
            match self.messages.pop_front() {
                Some(message) => self.octets -= message.text.len(),
                None => return,
            }
            self.first += 1;
        }
    }

    /// Returns how many octets of memory the changes take.
    pub fn memory(&self) -> usize {
        self.octets
    }

    /// Adds the lines of a change of a port. If too many wait, the slowest clients lose some.
    pub fn add<'a>(
        &mut self,
        port: &str,
        text: Vec<u8>,
        watches: impl Iterator<Item = &'a mut Watch>,
        now: Moment,
    ) {
        self.octets += text.len();
        self.messages.push_back(Message { port: port.into(), text });
        let (mut octets, mut first) = (self.octets, self.first);
        while let Some(message) = self.message(first).filter(|_| octets > MOST_TOLD) {
            octets -= message.text.len();
            first += 1;
        }
        watches.for_each(|watch| watch.miss(self, first, now));
        self.forget(first);
    }
}

/// What a client that watches is sent next.
#[derive(Debug, PartialEq, Eq)]
pub enum Next {
    /// The table of a port.
    Table(String),
    Text(Vec<u8>),
}

/// How far a client that watches was told what happens.
pub struct Watch {
    /// The ports that it watches. All if empty.
    ports: BTreeSet<String>,
    /// The number of the next change.
    pub next: u64,
    /// Ports whose tables it is being sent, or is as soon as it may.
    stale: BTreeSet<String>,
    /// Ports whose tables follow after these.
    later: BTreeSet<String>,
    /// For ports whose tables it was sent, the number of the first change that the table lacks.
    fresh: BTreeMap<String, u64>,
    /// True until it was told that it has all these tables.
    is_behind: bool,
    /// How many changes these tables stand for.
    lost: u64,
    /// When tables may be sent, or since when they are.
    tables_at: Moment,
}

impl Watch {
    /// Begins with the tables of these ports (of all that there are if empty).
    pub fn new(ports: BTreeSet<String>, all: Vec<String>, told: &Told, now: Moment) -> Watch {
        let stale = if ports.is_empty() { all.into_iter().collect() } else { ports.clone() };
        Watch {
            ports,
            next: told.end(),
            stale,
            later: BTreeSet::new(),
            fresh: BTreeMap::new(),
            is_behind: true,
            lost: 0,
            tables_at: now,
        }
    }

    fn watches(&self, port: &str) -> bool {
        self.ports.is_empty() || self.ports.contains(port)
    }

    /// True if it is told each change of a port.
    pub fn is_told(&self, port: &str) -> bool {
        self.watches(port) && !self.stale.contains(port) && !self.later.contains(port)
    }

    /// Notes that changes of a port are not told: its table follows.
    pub fn lose(&mut self, port: &str, count: u64, now: Moment) {
        if !self.watches(port) {
            return;
        }
        self.lost += count;
        if self.is_told(port) {
            self.later.insert(port.into());
            self.begin_tables(now);
        }
    }

    /// Lets the tables that were put off be the next ones, once those before were sent.
    fn begin_tables(&mut self, now: Moment) {
        if !self.is_behind && !self.later.is_empty() {
            self.stale = std::mem::take(&mut self.later);
            self.is_behind = true;
            self.tables_at = self.tables_at.max(now);
        }
    }

    /// Passes over changes up to this one, which are forgotten.
    fn miss(&mut self, told: &Told, first: u64, now: Moment) {
        while self.next < first {
            if let Some(message) = told.message(self.next).filter(|message| self.needs(message)) {
                self.lose(&message.port, 1, now);
            }
            self.next += 1;
        }
    }

    /// True if it must be told the next change, which is this one.
    fn needs(&self, message: &Message) -> bool {
        let is_in_table = self.fresh.get(&message.port).map_or(false, |first| self.next < *first);
        self.is_told(&message.port) && !is_in_table
    }

    /// Passes over changes that it need not be told.
    fn skip(&mut self, told: &Told) {
        while told.message(self.next).map_or(false, |message| !self.needs(message)) {
            self.next += 1;
        }
        let next = self.next;
        self.fresh.retain(|_, first| *first > next);
    }

    /// Returns when there is something to send. None if nothing is.
    pub fn due(&mut self, told: &Told) -> Option<Moment> {
        self.skip(told);
        if self.next < told.end() || self.is_behind && self.stale.is_empty() {
            return Some(Moment::default());
        }
        self.is_behind.then_some(self.tables_at)
    }

    /// Returns what is sent next, and notes that it is.
    pub fn take(&mut self, told: &Told, now: Moment) -> Option<Next> {
        if self.is_behind && self.stale.is_empty() {
            return Some(Next::Text(self.end_tables(now)));
        }
        if let Some(port) = self.stale.iter().next().filter(|_| now >= self.tables_at).cloned() {
            self.stale.remove(&port);
            self.fresh.insert(port.clone(), told.end());
            return Some(Next::Table(port));
        }
        let mut text = Vec::new();
        self.skip(told);
        while let Some(message) = told.message(self.next).filter(|_| text.len() < MOST_AT_ONCE) {
            text.extend_from_slice(&message.text);
            self.next += 1;
            self.skip(told);
        }
        (!text.is_empty()).then_some(Next::Text(text))
    }

    /// Returns the lines that end the tables.
    fn end_tables(&mut self, now: Moment) -> Vec<u8> {
        let pause = now.since(self.tables_at).clamp(BETWEEN_TABLES, LONGEST_BETWEEN_TABLES);
        (self.is_behind, self.tables_at) = (false, now + pause);
        self.begin_tables(now);
        counted(&format!("live.lost={}\n", std::mem::take(&mut self.lost)), 0).into_bytes()
    }
}

#[cfg(test)]
mod tests {
    use super::*;

    fn at(milliseconds: u64) -> Moment {
        Moment::after_boot(Duration::from_millis(100_000 + milliseconds))
    }

    fn names(text: &str) -> Vec<String> {
        text.split_whitespace().map(String::from).collect()
    }

    /// Returns what a client is sent at a moment, in short: names of ports, and lines.
    fn sent(watch: &mut Watch, told: &Told, now: Moment) -> Vec<String> {
        let next = || watch.take(told, now);
        let text = |next| match next {
            Next::Table(port) => port,
            Next::Text(text) => String::from_utf8(text).expect("ASCII"),
        };
        std::iter::from_fn(next).map(text).collect()
    }

    fn tell(told: &mut Told, watch: &mut Watch, port: &str, text: &str, now: Moment) {
        told.add(port, text.into(), [watch].into_iter(), now);
    }

    #[test]
    fn changes_of_one_turn_are_one() {
        let msap = Msap { chassis: b"\x07a", port: b"\x07b" };
        for (kinds, wanted) in [
            (&[Kind::Came][..], Some(Kind::Came)),
            (&[Kind::Came, Kind::Changed], Some(Kind::Came)),
            (&[Kind::Came, Kind::Gone], None),
            (&[Kind::Came, Kind::Gone, Kind::Came], Some(Kind::Came)),
            (&[Kind::Changed, Kind::Changed], Some(Kind::Changed)),
            (&[Kind::Changed, Kind::Gone], Some(Kind::Gone)),
            (&[Kind::Gone, Kind::Came], Some(Kind::Changed)),
            (&[Kind::Gone, Kind::Came, Kind::Gone], Some(Kind::Gone)),
        ] {
            let mut changed = Changed::default();
            kinds.iter().for_each(|kind| changed.note("eth0", &msap, *kind));
            let (neighbors, further) = changed.take();
            let found: Vec<Kind> = neighbors.map(|(_, kind)| kind).collect();
            assert_eq!(found, Vec::from_iter(wanted), "{kinds:?}");
            assert!(further.is_empty());
        }
    }

    #[test]
    fn not_all_changes_of_a_turn_are_kept() {
        let mut changed = Changed::default();
        for number in 0..MOST_CHANGED as u16 + 7 {
            let msap = Msap { chassis: &number.to_be_bytes(), port: b"\x07b" };
            changed.note("eth0", &msap, Kind::Gone);
            changed.note("eth0", &msap, Kind::Came);
        }
        let (neighbors, further) = changed.take();
        assert_eq!(neighbors.count(), MOST_CHANGED);
        assert_eq!(further, BTreeMap::from([("eth0".to_string(), 14)]));
        assert_eq!(changed.take().0.count(), 0);
    }

    #[test]
    fn tables_come_first_and_changes_after_them() {
        let (mut told, all) = (Told::default(), names("eth1 eth0"));
        let mut watch = Watch::new(BTreeSet::new(), all, &told, at(0));
        assert_eq!(watch.take(&told, at(0)), Some(Next::Table("eth0".into())));
        tell(&mut told, &mut watch, "eth1", "in the table;", at(0));
        tell(&mut told, &mut watch, "eth0", "later;", at(0));
        assert_eq!(sent(&mut watch, &told, at(0)), ["eth1", "=1\nlive.lost=0\n", "later;"]);
        assert_eq!((watch.due(&told), watch.next), (None, told.end()));
        tell(&mut told, &mut watch, "eth1", "one;", at(0));
        tell(&mut told, &mut watch, "eth2", "two;", at(0));
        assert_eq!(watch.due(&told), Some(Moment::default()));
        assert_eq!(sent(&mut watch, &told, at(0)), ["one;two;"]);
        told.forget(watch.next);
        assert_eq!((told.memory(), told.messages.len()), (0, 0));
    }

    #[test]
    fn only_changes_of_its_ports_are_sent() {
        let mut told = Told::default();
        let mut watch = Watch::new(names("eth1").into_iter().collect(), names("eth0 eth1"), &told, at(0));
        assert_eq!(sent(&mut watch, &told, at(0)), ["eth1", "=1\nlive.lost=0\n"]);
        ["eth0", "eth1"].iter().for_each(|port| tell(&mut told, &mut watch, port, port, at(0)));
        watch.lose("eth0", 9, at(0));
        assert!(watch.is_told("eth1") && !watch.is_told("eth0"));
        assert_eq!(sent(&mut watch, &told, at(0)), ["eth1"]);
        assert_eq!(watch.due(&told), None);
    }

    #[test]
    fn tables_stand_for_changes_that_are_lost() {
        let mut told = Told::default();
        let mut watch = Watch::new(BTreeSet::new(), names("eth0 eth1"), &told, at(0));
        sent(&mut watch, &told, at(0));
        let large = "x".repeat(MOST_TOLD / 4);
        (0..5).for_each(|_| tell(&mut told, &mut watch, "eth1", &large, at(10)));
        assert_eq!(told.messages.len(), 4, "{}", told.memory());
        assert_eq!(watch.due(&told), Some(at(0) + BETWEEN_TABLES), "a pause follows the first tables");
        assert!(sent(&mut watch, &told, at(499)).is_empty());
        tell(&mut told, &mut watch, "eth0", "of another port;", at(499));
        assert_eq!(sent(&mut watch, &told, at(499)), ["of another port;"]);
        tell(&mut told, &mut watch, "eth1", "in the table;", at(499));
        assert_eq!(sent(&mut watch, &told, at(500)), ["eth1", "=1\nlive.lost=1\n"]);
        tell(&mut told, &mut watch, "eth1", "later;", at(500));
        assert_eq!(sent(&mut watch, &told, at(500)), ["later;"]);
    }

    #[test]
    fn a_client_that_never_has_all_gets_all_tables_before_one_again() {
        let mut told = Told::default();
        let mut watch = Watch::new(BTreeSet::new(), names("eth0 eth1 eth2"), &told, at(0));
        for (now, wanted) in [(0, "eth0"), (400, "eth1"), (800, "eth2")] {
            assert_eq!(watch.take(&told, at(now)), Some(Next::Table(wanted.into())));
            watch.lose("eth0", 1, at(now));
        }
        assert_eq!(sent(&mut watch, &told, at(900)), ["=1\nlive.lost=3\n"]);
        assert_eq!(watch.due(&told), Some(at(1800)), "a pause as long as the tables took");
        watch.lose("eth0", 2, at(1000));
        tell(&mut told, &mut watch, "eth1", "one;", at(1000));
        assert_eq!(sent(&mut watch, &told, at(1000)), ["one;"]);
        assert_eq!(sent(&mut watch, &told, at(1800)), ["eth0", "=1\nlive.lost=2\n"]);
        assert_eq!(watch.due(&told), None);
    }
}
