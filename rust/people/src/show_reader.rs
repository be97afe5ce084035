//! Reads answers of lldpa-live, one line after another.

use crate::counters::{Counters, COUNTERS, OF_EACH_AGENT, SENT};
use crate::ordered::Ordered;
use crate::show::{Identifier, Neighbor, Port, Read, Show, MOST_PORTS};
use crate::texts::{counted, quoted};
use std::collections::BTreeSet;

/// How many counters or settings, unknown here, may follow one another, and how long they may be.
const MOST_FURTHER: usize = 100;
const LONGEST_KEY: usize = 64;
const LONGEST_VALUE: usize = 1024; // an escaped text of 255 octets has 1,020
const STATUSES: [&str; 4] = ["rx-and-tx", "rx-only", "tx-only", "disabled"];
const CHASSIS_KINDS: [&str; 8] =
    ["component", "ifalias", "portcomp", "mac", "ip", "ifname", "local", "unhandled"];
const PORT_KINDS: [&str; 8] =
    ["ifalias", "component", "mac", "ip", "ifname", "circuit", "local", "unhandled"];
const PORTS: &str = "ports"; // how many there are
/// The keys of the settings that each agent tells, in this order.
const SETTINGS: [&str; 8] = [
    "tx-interval",
    "tx-hold",
    "ttl",
    "reinit-delay",
    "tx-fast-init",
    "tx-credit-max",
    "max-neighbors",
    PORTS,
];
const MOST_DIGITS: usize = 19;
const LONGEST_NAME: usize = 15;

pub struct Reader<'a> {
    lines: Vec<&'a str>,
    at: usize,
}

impl<'a> Reader<'a> {
    pub fn of(lines: Vec<&'a str>) -> Reader<'a> {
        Reader { lines, at: 0 }
    }

    fn fault<T>(&self, expected: &str) -> Read<T> {
        let found = self.lines.get(self.at).map_or("the end".into(), |line| quoted(line));
        Err(format!("line {}: expected {expected}, but found {found}", self.at + 1))
    }

    /// Returns a fault about the line that was read last.
    fn fault_before<T>(&mut self, expected: &str) -> Read<T> {
        self.at -= 1;
        self.fault(expected)
    }

    fn next(&self) -> &'a str {
        self.lines.get(self.at).copied().unwrap_or("")
    }

    /// Reads the next line, which must have this key. Returns its value.
    fn text(&mut self, key: &str) -> Read<&'a str> {
        match self.next().strip_prefix(key).and_then(|rest| rest.strip_prefix('=')) {
            Some(value) => {
                self.at += 1;
                Ok(value)
            }
            None => self.fault(&format!("{key}=")),
        }
    }

    fn number(&mut self, key: &str) -> Read<u128> {
        let text = self.text(key)?;
        match number_of(text) {
            Some(number) => Ok(number),
            None => self.fault_before(&format!("{key}= and a number")),
        }
    }

    /// Returns PORT if the next line begins with `FRONT.PORT.KEY=`.
    fn port_of(&self, front: &str, key: &str) -> Option<&'a str> {
        let rest = self.next().strip_prefix(front)?.strip_prefix('.')?;
        let (name, last) = rest.split_once('.')?;
        let is_found = last.strip_prefix(key).map_or(false, |rest| rest.starts_with('='));
        Some(name).filter(|name| is_found && is_port_name(name))
    }

    pub fn show(mut self) -> Read<Show<'a>> {
        let mut show = Show { ports: self.ports()?, counters: self.counters()?, ..Show::default() };
        if self.next().starts_with("local-chassis.") {
            show.chassis = Some(self.chassis()?);
        }
        if self.next().starts_with("configuration.") {
            self.configuration(&mut show)?;
        }
        if self.at < self.lines.len() {
            return self.fault("shows in the order neighbors, statistics, chassis, configuration");
        }
        Ok(show)
    }

    fn ports(&mut self) -> Read<Vec<Port<'a>>> {
        let (mut ports, mut names) = (Vec::new(), BTreeSet::new());
        while let Some(name) = self.port_of("lldp", "neighbors") {
            let held = self.number(&format!("lldp.{name}.neighbors"))?;
            if !names.insert(name) {
                return self.fault_before("a port that is not listed above");
            }
            let octets = self.number(&format!("lldp.{name}.octets"))?;
            let too_many = match self.text(&format!("lldp.{name}.too-many"))? {
                "yes" => true,
                "no" => false,
                _ => return self.fault_before(&format!("lldp.{name}.too-many=yes or no")),
            };
            let neighbors = (1..=held).map(|place| self.neighbor(name, place)).collect::<Read<_>>()?;
            ports.push(Port { name, held, octets, too_many, neighbors });
        }
        Ok(ports)
    }

    fn neighbor(&mut self, port: &'a str, place: u128) -> Read<Neighbor<'a>> {
        let front = format!("lldp.{port}.{place}.");
        let mut neighbor = Neighbor {
            port,
            place,
            chassis: self.identifier(&format!("{front}chassis."), &CHASSIS_KINDS)?,
            port_id: self.identifier(&format!("{front}port."), &PORT_KINDS)?,
            ttl: self.number(&format!("{front}ttl"))?,
            expires: self.number(&format!("{front}expires"))?,
            said: Vec::new(),
        };
        while let Some(line) = self.next().strip_prefix(&front) {
            match line.split_once('=').filter(|(key, _)| is_said(key)) {
                Some(said) => neighbor.said.push(said),
                None => return self.fault("a key of a neighbor"),
            }
            self.at += 1;
        }
        Ok(neighbor)
    }

    /// Reads the lines of one neighbor of a port.
    pub fn one_neighbor(mut self, port: &'a str) -> Read<Neighbor<'a>> {
        let rest = self.next().strip_prefix("lldp.").filter(|_| is_port_name(port));
        let rest = rest.and_then(|rest| rest.strip_prefix(port));
        let place = rest.and_then(|rest| number_of(rest.strip_prefix('.')?.split_once('.')?.0));
        let neighbor = match place {
            Some(place) => self.neighbor(port, place)?,
            None => return self.fault(&format!("a neighbor of {}", quoted(port))),
        };
        if self.at < self.lines.len() {
            return self.fault("one neighbor");
        }
        Ok(neighbor)
    }

    fn identifier(&mut self, front: &str, kinds: &[&str]) -> Read<Identifier<'a>> {
        let found = self.next().strip_prefix(front).and_then(|rest| rest.split_once('='));
        match found.filter(|(kind, _)| kinds.contains(kind)) {
            Some((kind, text)) => {
                self.at += 1;
                Ok(Identifier { kind, text })
            }
            None => self.fault(&format!("{front}KIND=")),
        }
    }

    fn counters(&mut self) -> Read<Vec<(&'a str, Counters<'a>)>> {
        let (mut all, mut names) = (Vec::new(), BTreeSet::new());
        while let Some(name) = self.port_of("lldp", SENT) {
            if names.len() == MOST_PORTS || !names.insert(name) {
                return self.fault("a port that is not listed above");
            }
            let (front, mut counters) = (format!("lldp.{name}."), Counters::default());
            for counter in &COUNTERS[..OF_EACH_AGENT] {
                *counters.0.value(counter.key) = self.number(&format!("{front}{}", counter.key))?;
            }
            let known: Vec<&str> = COUNTERS[..OF_EACH_AGENT].iter().map(|counter| counter.key).collect();
            for (key, value) in self.further(&front, &known, |value| number_of(value).is_some())?.entries {
                *counters.0.value(key) = number_of(value).unwrap_or(0);
            }
            all.push((name, counters));
        }
        Ok(all)
    }

    /// Reads lines with other keys than the known ones: the agent is newer. Of a key that is there
    /// twice, the last value counts.
    fn further(
        &mut self,
        front: &str,
        known: &[&str],
        is_value: impl Fn(&str) -> bool,
    ) -> Read<Ordered<&'a str, &'a str>> {
        let mut found = Ordered::<&str, &str>::default();
        while let Some((key, value)) = self.next().strip_prefix(front).and_then(|rest| rest.split_once('=')) {
            if known.contains(&key) || !is_key(key) || !is_value(value) || value.len() > LONGEST_VALUE {
                break;
            }
            *found.value(key) = value;
            if found.entries.len() > MOST_FURTHER {
                return self.fault(&format!("at most {MOST_FURTHER} further keys"));
            }
            self.at += 1;
        }
        Ok(found)
    }

    fn chassis(&mut self) -> Read<Vec<(&'a str, &'a str)>> {
        let mut told = Vec::new();
        for key in ["mac", "name", "descr", "caps"] {
            told.push((key, self.text(&format!("local-chassis.{key}"))?));
        }
        if self.next().starts_with("local-chassis.mgmt=") {
            told.push(("mgmt", self.text("local-chassis.mgmt")?));
        }
        Ok(told)
    }

    fn configuration(&mut self, show: &mut Show<'a>) -> Read<()> {
        let (mut count, mut statuses) = (0, Ordered::default());
        for key in SETTINGS {
            let value = self.next().split_once('=').map_or("", |(_, value)| value);
            count = self.number(&format!("configuration.{key}"))?;
            if key != PORTS {
                *show.settings.value(key) = value;
            }
            for (key, value) in self.further("configuration.", &SETTINGS, |_| true)?.entries {
                *show.settings.value(key) = value;
            }
        }
        while let Some(name) = self.port_of("configuration", "status") {
            if statuses.get(&name).is_some() {
                break;
            }
            if statuses.entries.len() == MOST_PORTS {
                return self.fault(&format!("at most {MOST_PORTS} ports"));
            }
            *statuses.value(name) = self.status(name)?;
            let further = self.further(&format!("configuration.{name}."), &["status"], |_| true)?;
            if !further.entries.is_empty() {
                *show.of_ports.value(name) = further;
            }
        }
        if statuses.entries.len() as u128 != count {
            return self.fault(&format!("the status of {}, each once", counted(count, "port")));
        }
        show.statuses = Some(statuses);
        Ok(())
    }

    fn status(&mut self, port: &str) -> Read<&'a str> {
        let status = self.text(&format!("configuration.{port}.status"))?;
        if STATUSES.contains(&status) {
            return Ok(status);
        }
        self.fault_before(&format!("one of {}", STATUSES.join(", ")))
    }
}

/// Returns a number as the agent writes it: without a zero before it.
pub fn number_of(text: &str) -> Option<u128> {
    let is_number = text.bytes().all(|octet| octet.is_ascii_digit())
        && (1..=MOST_DIGITS).contains(&text.len())
        && (text == "0" || !text.starts_with('0'));
    text.parse().ok().filter(|_| is_number)
}

/// Returns whether a counter or a setting, perhaps of a newer agent, may have this key.
fn is_key(key: &str) -> bool {
    key.len() <= LONGEST_KEY
        && key.starts_with(|first: char| first.is_ascii_lowercase())
        && key.bytes().all(|octet| octet.is_ascii_lowercase() || octet == b'-')
}

fn is_port_name(text: &str) -> bool {
    (1..=LONGEST_NAME).contains(&text.len())
        && text.bytes().all(|octet| octet.is_ascii_alphanumeric() || b"_/:-".contains(&octet))
}

/// Returns whether a further line of a neighbor may have this key, perhaps of a newer agent.
fn is_said(key: &str) -> bool {
    let (first, rest) = key.split_once('.').map_or((key, None), |(first, rest)| (first, Some(rest)));
    match (first, rest) {
        ("ttl" | "expires", None) => false,
        ("chassis" | "port", Some(kind)) if CHASSIS_KINDS.contains(&kind) || PORT_KINDS.contains(&kind) => {
            false
        }
        ("unknown", Some(number)) => is_number_of_tlv(number) && number != "0",
        ("org", Some(rest)) => rest.split_once('.').map_or(false, |(oui, subtype)| {
            let is_digit = |octet: u8| octet.is_ascii_digit() || (b'a'..=b'f').contains(&octet);
            oui.len() == 6 && oui.bytes().all(is_digit) && is_number_of_tlv(subtype)
        }),
        ("org" | "unknown", None) => false,
        _ => is_word_with_dots(key),
    }
}

/// Returns whether a text is a number of at most three digits, without a zero before it.
fn is_number_of_tlv(text: &str) -> bool {
    let is_short = (1..=3).contains(&text.len()) && text.bytes().all(|octet| octet.is_ascii_digit());
    is_short && (text == "0" || !text.starts_with('0'))
}

fn is_word_with_dots(key: &str) -> bool {
    let is_able = |octet: u8| octet.is_ascii_lowercase() || octet.is_ascii_digit() || octet == b'-';
    key.starts_with(|letter: char| letter.is_ascii_lowercase())
        && key.split('.').all(|part| !part.is_empty() && part.bytes().all(is_able))
}
