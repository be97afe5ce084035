//! Finds out which neighbors come, change and leave, and what has changed.

use crate::ordered::Ordered;
use crate::organizational::told;
use crate::show::{Identifier, Neighbor, Port};
use crate::table::summary;
use crate::texts::{printable, readable};

/// Octets of memory that a neighbor takes beside what it said.
const FOR_A_NEIGHBOR: usize = 400;

/// A chassis ID and a port ID, which together identify a neighbor of a port, each with its kind.
type Name = [String; 4];

/// A neighbor as it was last shown.
#[derive(Clone, Default)]
pub struct Kept {
    port: String,
    place: u128,
    name: Name,
    said: Said,
    expires: u128,
}

/// What a neighbor says until it changes.
#[derive(Clone, Default)]
pub struct Said {
    ttl: u128,
    /// The further lines about the neighbor, without their beginning.
    lines: String,
}

/// A neighbor that came, changed or is gone, and what has changed, such as `pvid: 120 -> 121`.
pub struct News {
    pub what: &'static str,
    pub changes: Vec<String>,
    kept: Kept,
}

impl Kept {
    fn of(neighbor: &Neighbor<'_>) -> Kept {
        Kept {
            port: neighbor.port.into(),
            place: neighbor.place,
            name: name_of(neighbor),
            said: Said::of(neighbor.ttl, neighbor.said.iter().copied()),
            expires: neighbor.expires,
        }
    }

    fn neighbor(&self) -> Neighbor<'_> {
        let [chassis_kind, chassis, port_kind, port_id] = &self.name;
        Neighbor {
            port: &self.port,
            place: self.place,
            chassis: Identifier { kind: chassis_kind, text: chassis },
            port_id: Identifier { kind: port_kind, text: port_id },
            ttl: self.said.ttl,
            expires: self.expires,
            said: self.said.pairs().collect(),
        }
    }
}

fn name_of(neighbor: &Neighbor<'_>) -> Name {
    let (chassis, port_id) = (&neighbor.chassis, &neighbor.port_id);
    [chassis.kind, chassis.text, port_id.kind, port_id.text].map(String::from)
}

impl News {
    fn of(what: &'static str, kept: &Kept, changes: Vec<String>) -> News {
        News { what, kept: kept.clone(), changes }
    }

    pub fn neighbor(&self) -> Neighbor<'_> {
        self.kept.neighbor()
    }

    /// Returns what happened to the neighbor, such as `eth0 came: switch-2 swp1 192.0.2.2`.
    pub fn line(&self) -> String {
        let said = format!("{} {}: {}", self.kept.port, self.what, summary(&self.neighbor()));
        let parts: Vec<&str> = std::iter::once(&said).chain(&self.changes).map(|part| &part[..]).collect();
        printable(parts.join("; ").as_bytes())
    }
}

impl Said {
    /// Keeps a time to live, and the key and the value of each further line.
    pub fn of<'a>(ttl: u128, said: impl Iterator<Item = (&'a str, &'a str)> + Clone) -> Said {
        let size = said.clone().map(|(key, value)| key.len() + value.len() + 2).sum();
        let mut lines = String::with_capacity(size);
        said.for_each(|(key, value)| lines.extend([key, "=", value, "\n"]));
        Said { ttl, lines }
    }

    fn pairs(&self) -> impl Iterator<Item = (&str, &str)> {
        self.lines.lines().filter_map(|line| line.split_once('='))
    }

    /// Returns the differences to what the neighbor says later, such as `ttl: 120 -> 60`.
    pub fn changes(&self, later: &Said) -> Vec<String> {
        let mut changes = Vec::new();
        if self.ttl != later.ttl {
            changes.push(format!("ttl: {} -> {}", self.ttl, later.ttl));
        }
        if self.lines == later.lines {
            return changes;
        }
        let (was, now) = (self.content(), later.content());
        let later_keys = now.keys().filter(|key| was.get(key).is_none());
        for key in was.keys().chain(later_keys) {
            let [old, new] = [&was, &now].map(|content| content.get(key).map(|texts| texts.join(" ")));
            if old != new {
                let [old, new] = [old, new].map(|text| text.unwrap_or_else(|| "nothing".into()));
                changes.push(format!("{key}: {old} -> {new}"));
            }
        }
        changes
    }

    /// Returns the optional TLVs by key, in words if their meaning is known.
    fn content(&self) -> Ordered<String, Vec<String>> {
        let mut content = Ordered::<String, Vec<String>>::default();
        let mut add = |key: &str, value: &str| {
            let text = if value.is_empty() { "empty".into() } else { readable(value) };
            content.value(key.into()).push(text);
        };
        let (organizational, plain): (Vec<_>, Vec<_>) =
            self.pairs().partition(|(key, _)| key.starts_with("org."));
        plain.iter().for_each(|(key, value)| add(key, value));
        let organizational = organizational.iter().map(|(key, value)| (&key[4..], *value));
        told(organizational).iter().for_each(|(key, text)| add(key, text));
        content
    }
}

/// The neighbors of a port, as the last answer had them.
#[derive(Default)]
pub struct Watch {
    known: Ordered<Name, Kept>,
}

impl Watch {
    pub fn of(port: &Port<'_>) -> Watch {
        let mut known = Ordered::<Name, Kept>::default();
        port.neighbors.iter().for_each(|neighbor| *known.value(name_of(neighbor)) = Kept::of(neighbor));
        Watch { known }
    }

    /// Returns about how many octets of memory this takes.
    pub fn memory(&self) -> usize {
        let of_name = |name: &Name| name.iter().map(String::len).sum::<usize>();
        let of = |(name, kept): &(Name, Kept)| FOR_A_NEIGHBOR + 3 * of_name(name) + kept.said.lines.len();
        self.known.entries.iter().map(of).sum()
    }

    pub fn count(&self) -> usize {
        self.known.entries.len()
    }

    /// Takes what a neighbor says now. Returns what has changed, if anything.
    pub fn learn(&mut self, neighbor: &Neighbor<'_>) -> Option<News> {
        let kept = Kept::of(neighbor);
        let news = news_of(self.known.get(&kept.name), &kept);
        let name = kept.name.clone();
        *self.known.value(name) = kept;
        news
    }

    /// Forgets the neighbor with this MSAP identifier. Returns that it is gone, if it was there.
    pub fn forget(&mut self, id: &str) -> Option<News> {
        let known = std::mem::take(&mut self.known).entries;
        let (gone, kept): (Vec<_>, Vec<_>) =
            known.into_iter().partition(|(_, kept)| kept.neighbor().id() == id);
        kept.into_iter().for_each(|(name, kept)| *self.known.value(name) = kept);
        gone.first().map(|(_, kept)| News::of("gone", kept, Vec::new()))
    }

    /// Returns each change since the last answer, beginning with neighbors that left.
    pub fn news(&mut self, port: &Port<'_>) -> Vec<News> {
        let before = std::mem::replace(self, Watch::of(port)).known;
        let gone = before.entries.iter().filter(|(name, _)| self.known.get(name).is_none());
        let mut news: Vec<News> = gone.map(|(_, kept)| News::of("gone", kept, Vec::new())).collect();
        news.extend(self.known.entries.iter().filter_map(|(name, kept)| news_of(before.get(name), kept)));
        news
    }
}

/// Returns what happened to a neighbor that was known so before. None if nothing has changed.
fn news_of(before: Option<&Kept>, kept: &Kept) -> Option<News> {
    match before.map(|before| before.said.changes(&kept.said)) {
        None => Some(News::of("came", kept, Vec::new())),
        Some(changes) if changes.is_empty() => None,
        Some(changes) => Some(News::of("changed", kept, changes)),
    }
}
