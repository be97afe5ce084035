//! What answers to `show neighbors`, `show statistics`, `show chassis` and `show configuration` say.
//! Texts stay escaped as the agent shows them.

use crate::counters::Counters;
use crate::ordered::Ordered;
use crate::show_reader::Reader;

/// Says which line is wrong, and what was expected.
pub type Fault = String;
pub type Read<T> = Result<T, Fault>;

pub const MOST_NEIGHBORS: u128 = 128; // of a port
pub const MOST_PORTS: usize = 64;

/// A chassis ID or port ID: its kind, such as `mac`, and its text.
#[derive(Clone, Copy, Debug, Eq, Ord, PartialEq, PartialOrd)]
pub struct Identifier<'a> {
    pub kind: &'a str,
    pub text: &'a str,
}

#[derive(Clone, Debug)]
pub struct Neighbor<'a> {
    pub port: &'a str,
    /// Its place in the table of the port, from 1 on.
    pub place: u128,
    pub chassis: Identifier<'a>,
    pub port_id: Identifier<'a>,
    pub ttl: u128,
    /// The seconds left.
    pub expires: u128,
    /// The key and the value of each further line.
    pub said: Vec<(&'a str, &'a str)>,
}

impl<'a> Neighbor<'a> {
    /// Reads the lines of one neighbor of a port.
    pub fn read(port: &'a str, lines: Vec<&'a str>) -> Read<Neighbor<'a>> {
        Reader::of(lines).one_neighbor(port)
    }

    pub fn first(&self, key: &str) -> Option<&'a str> {
        self.said.iter().find(|(name, _)| *name == key).map(|(_, value)| *value)
    }

    /// Returns the MSAP identifier: Chassis ID, space, Port ID. Spaces in these are escaped.
    pub fn id(&self) -> String {
        let part = |one: &Identifier<'_>| format!("{}={}", one.kind, one.text).replace(' ', "\\x20");
        format!("{} {}", part(&self.chassis), part(&self.port_id))
    }

    /// Returns the management addresses, without the other fields of their lines.
    pub fn managements(&self) -> impl Iterator<Item = &'a str> + '_ {
        let lines = self.said.iter().filter(|(key, _)| *key == "chassis.mgmt");
        lines.map(|(_, line)| line.split(',').next().unwrap_or(line))
    }

    /// Returns the first management address.
    pub fn management(&self) -> Option<&'a str> {
        self.managements().next()
    }

    /// Returns whether each capability is on. None if none were sent.
    pub fn capabilities(&self) -> Option<Ordered<&'a str, bool>> {
        self.first("chassis.caps").map(capabilities_in)
    }

    /// Returns each organizationally specific TLV: a kind like `00120f.1`, and octets in hexadecimal.
    pub fn organizational(&self) -> impl Iterator<Item = (&'a str, &'a str)> + '_ {
        self.said.iter().filter_map(|(key, value)| Some((key.strip_prefix("org.")?, *value)))
    }
}

/// Returns whether each capability in a text such as `Bridge:on,Router:off` is on.
pub fn capabilities_in(text: &str) -> Ordered<&str, bool> {
    let mut found = Ordered::<&str, bool>::default();
    for part in text.split(',').filter(|part| !part.is_empty()) {
        let (name, state) = part.rsplit_once(':').unwrap_or(("", part));
        *found.value(name) = state == "on";
    }
    found
}

#[derive(Clone, Debug)]
pub struct Port<'a> {
    pub name: &'a str,
    pub held: u128,
    /// The size of all that is stored about the neighbors.
    pub octets: u128,
    /// True while a neighbor that was dropped for lack of room would still be present.
    pub too_many: bool,
    pub neighbors: Vec<Neighbor<'a>>,
}

/// What one or several answers say. Parts that were not shown are empty or None.
#[derive(Debug, Default)]
pub struct Show<'a> {
    pub ports: Vec<Port<'a>>,
    pub counters: Vec<(&'a str, Counters<'a>)>,
    /// The key and the value of each line about this host.
    pub chassis: Option<Vec<(&'a str, &'a str)>>,
    /// The settings of the agent, without the number of ports.
    pub settings: Ordered<&'a str, &'a str>,
    /// The status of each port.
    pub statuses: Option<Ordered<&'a str, &'a str>>,
    /// The settings of each port that has others than its status.
    pub of_ports: Ordered<&'a str, Ordered<&'a str, &'a str>>,
}

impl<'a> Show<'a> {
    /// Reads the lines of one or several answers, in this order.
    pub fn read(lines: Vec<&'a str>) -> Read<Show<'a>> {
        Reader::of(lines).show()
    }

    pub fn neighbors(&self) -> impl Iterator<Item = &Neighbor<'a>> {
        self.ports.iter().flat_map(|port| &port.neighbors)
    }

    /// Returns the names of all ports.
    pub fn names(&self) -> Vec<&'a str> {
        let counted = self.counters.iter().map(|(name, _)| *name);
        let mut names = Ordered::<&str, ()>::default();
        self.ports.iter().map(|port| port.name).chain(counted).for_each(|name| *names.value(name) = ());
        names.keys().copied().collect()
    }

    /// Returns the names of the ports whose status was shown.
    pub fn configured(&self) -> Vec<&'a str> {
        self.statuses.iter().flat_map(|statuses| statuses.keys().copied()).collect()
    }

    /// Keeps only these ports, or all if none is named. Fails if a port is unknown.
    pub fn only(mut self, ports: &[String]) -> Read<Show<'a>> {
        if !ports.is_empty() {
            check_ports(ports, &self.names())?;
            let is_named = |name: &str| ports.iter().any(|port| port == name);
            self.ports.retain(|port| is_named(port.name));
            self.counters.retain(|(name, _)| is_named(name));
        }
        Ok(self)
    }
}

/// Fails if a port is not among the known ones.
pub fn check_ports(ports: &[String], known: &[&str]) -> Read<()> {
    match ports.iter().find(|port| !known.contains(&&port[..])) {
        Some(port) => {
            let name = if port.is_empty() { "empty name" } else { port };
            Err(format!("no such port: {name} ({})", known.join(", ")))
        }
        None => Ok(()),
    }
}
