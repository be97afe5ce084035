//! Reads the answer to `live`: lines `live.KEY=VALUE` and `live.PORT.KEY=VALUE`, and when each neighbor
//! appeared. Ignores others.

use crate::ordered::Ordered;
use crate::show::{Neighbor, Read};
use std::collections::BTreeMap;

const MOST_OCTETS: usize = 32 << 20; // of what 8,192 neighbors of long names need
const MOST_VALUES: usize = 25_000;

pub type Values<'a> = Ordered<&'a str, &'a str>;

/// Returns whether `LiveLines` reads a line of an answer to `live`. The others, which are about
/// neighbors, are most of it.
pub fn is_read(line: &str) -> bool {
    let front = line.split('=').next().unwrap_or("");
    match front.split('.').collect::<Vec<_>>()[..] {
        ["live", "chassis", number] => !is_number(number),
        ["live", _] | ["live", _, _] => true,
        _ => false,
    }
}

#[derive(Default)]
pub struct LiveLines<'a> {
    pub own: Values<'a>,
    pub ports: Ordered<&'a str, Values<'a>>,
}

impl<'a> LiveLines<'a> {
    pub fn read(lines: &[&'a str]) -> LiveLines<'a> {
        let mut told = LiveLines::default();
        for line in lines.iter().filter(|line| is_read(line)) {
            if let Some((front, value)) = line.split_once('=') {
                match front.split('.').collect::<Vec<_>>()[..] {
                    [_, port, key] => *told.ports.value(port).value(key) = value,
                    [_, key] => *told.own.value(key) = value,
                    _ => (),
                }
            }
        }
        told
    }

    /// Returns whether the agent runs. Otherwise it waits for an interface.
    pub fn is_up(&self) -> bool {
        self.own.get(&"agent").map_or(true, |agent| *agent == "running")
    }

    pub fn of(&self, port: &str, key: &str) -> Option<&'a str> {
        self.ports.get(&port).and_then(|values| values.get(&key)).copied()
    }
}

/// When each neighbor appeared, and the number of each chassis.
#[derive(Default)]
pub struct Since {
    times: BTreeMap<(String, String), String>,
    numbers: BTreeMap<String, u64>,
    octets: usize,
    values: usize,
}

impl Since {
    /// Adds a line of the answer, if it is about a neighbor. Fails if there are more lines than an agent
    /// can have.
    pub fn add(&mut self, line: &str) -> Read<()> {
        let (front, value) = line.split_once('=').unwrap_or((line, ""));
        match front.split('.').collect::<Vec<_>>()[..] {
            ["live", port, "since", _] => {
                let (when, id) = value.split_once(' ').unwrap_or((value, ""));
                self.times.insert((port.into(), id.into()), when.into());
            }
            ["live", "chassis", number] if is_number(number) => {
                self.numbers.insert(value.into(), number.parse().unwrap_or(u64::MAX));
            }
            _ => return Ok(()),
        }
        (self.octets, self.values) = (self.octets + line.len(), self.values + 1);
        if self.octets > MOST_OCTETS || self.values > MOST_VALUES {
            return Err("`live` has more than 32 MB".into());
        }
        Ok(())
    }

    /// Returns when a neighbor appeared.
    pub fn of(&self, neighbor: &Neighbor<'_>) -> Option<&str> {
        self.times.get(&(neighbor.port.into(), neighbor.id())).map(|when| &when[..])
    }

    /// Returns the number of a neighbor's chassis.
    pub fn number(&self, neighbor: &Neighbor<'_>) -> Option<u64> {
        let id = neighbor.id();
        self.numbers.get(id.split(' ').next().unwrap_or(&id)).copied()
    }
}

fn is_number(text: &str) -> bool {
    !text.is_empty() && text.bytes().all(|octet| octet.is_ascii_digit())
}
