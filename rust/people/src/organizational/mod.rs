//! What organizationally specific TLVs mean: in words, as values in JSON, and as lldpcli's nodes. All
//! three are made of one table, which has a row for each kind.

mod dcb;
mod dot1;
mod dot3;
mod kind;
mod layout;
mod location;
mod mau;
mod med;
mod power;

use crate::json::{Json, Object};
use crate::node::Node;
use crate::show::Neighbor;
use kind::{Kind, Sent, Tlv};
use layout::Values;

const PORT_VLAN: &str = "0080c2.1"; // OUI and subtype
const MAX_FRAME_SIZE: &str = "00120f.4";
/// Parts of an object in JSON that are null if a neighbor sent nothing of them.
const GROUPS: [&str; 2] = ["dcb", "med"];

/// Returns all kinds in the order in which they are shown.
fn kinds() -> impl Iterator<Item = &'static Kind> {
    let first = dot1::KINDS.iter().chain(&dot3::KINDS).chain(&power::KINDS).chain(&dcb::KINDS);
    first.chain(&med::KINDS).chain(&location::KINDS).chain(&med::FURTHER_KINDS)
}

/// A TLV as it is shown: OUI and subtype, and octets in hexadecimal.
type Shown<'a> = (&'a str, &'a str);

/// A TLV whose meaning is known: its kind, which of the TLVs of the kind it is, and what it says.
struct Found {
    kind: &'static Kind,
    part: usize,
    tlv: &'static Tlv,
    values: Values,
}

impl Found {
    fn json(&self, order: &str) -> Json {
        self.values.json(if order.is_empty() { self.tlv.order } else { order })
    }

    fn is_alike(&self, other: &Found) -> bool {
        std::ptr::eq(self.kind, other.kind) && self.part == other.part
    }
}

/// The organizationally specific TLVs of a neighbor, in the order in which they were sent.
pub struct Said<'a> {
    found: Vec<Found>,
    /// Unknown TLVs, malformed ones, and those that differ although their kind may be sent only once.
    pub rest: Vec<Shown<'a>>,
}

impl<'a> Said<'a> {
    pub fn by(neighbor: &Neighbor<'a>) -> Said<'a> {
        Said::of(neighbor.organizational(), |_| true)
    }

    /// Reads the TLVs that lldpd knows. All others are the rest.
    pub fn known_to_lldpd(neighbor: &Neighbor<'a>) -> Said<'a> {
        Said::of(neighbor.organizational(), |found| found.tlv.is_of_lldpd)
    }

    fn of(all: impl Iterator<Item = Shown<'a>>, is_known: impl Fn(&Found) -> bool) -> Said<'a> {
        let read = |shown: Shown<'a>| (shown, read(shown).filter(&is_known));
        let mut all: Vec<(Shown<'a>, Option<Found>)> = all.map(read).collect();
        let fates: Vec<Fate> = (0..all.len()).map(|place| fate(&all, place)).collect();
        let mut said = Said { found: Vec::new(), rest: Vec::new() };
        for ((shown, found), fate) in all.drain(..).zip(fates) {
            match fate {
                Fate::Kept => said.found.extend(found),
                Fate::Same => (),
                Fate::Rest => said.rest.push(shown),
            }
        }
        said
    }

    /// Returns what was said at a path in JSON.
    fn all(&self, path: &'static str) -> impl Iterator<Item = &Values> {
        let is_there = move |found: &&Found| found.kind.paths[0].0 == path;
        self.found.iter().filter(is_there).map(|found| &found.values)
    }

    fn of_kind(&self, kind: &'static Kind) -> impl Iterator<Item = &Values> {
        self.found.iter().filter(move |found| std::ptr::eq(found.kind, kind)).map(|found| &found.values)
    }

    /// Returns the contents as rows for people: key, heading, group and text.
    pub fn rows(&self) -> Vec<Told> {
        let mut rows = Vec::new();
        for kind in kinds() {
            let between = if let Sent::Often(between) = kind.sent { between } else { ", " };
            for row in kind.rows {
                let texts = self.of_kind(kind).map(row.text).filter(|text| !text.is_empty());
                let text = texts.collect::<Vec<_>>().join(between);
                rows.push(Told { key: row.key, heading: row.heading, group: row.group, text });
            }
        }
        rows.retain(|row| !row.text.is_empty());
        rows
    }

    /// Adds the contents to an object. Values that were not sent are null or empty.
    pub fn add_to(&self, object: &mut Object) {
        let mut told = Object::default();
        for kind in kinds() {
            for (path, order) in kind.paths {
                let found = self.found.iter().filter(|found| std::ptr::eq(found.kind, kind));
                let mut values = found.map(|found| found.json(order));
                let value = match kind.sent {
                    Sent::Once => values.next().unwrap_or(Json::Null),
                    Sent::EachOnce => merged(values),
                    Sent::Often(_) => Json::List(values.collect()),
                };
                told.set_path(path, value);
            }
        }
        let has =
            |group: &str| self.found.iter().any(|one| one.kind.paths[0].0.split('.').next() == Some(group));
        GROUPS.iter().filter(|group| !has(group)).for_each(|group| told.set(group, Json::Null));
        told.set("organizational", Json::List(self.rest.iter().map(rest_object).collect()));
        object.0.extend(told.0);
    }
}

/// What becomes of a TLV.
enum Fate {
    Kept,
    /// It is the same as one before, of a kind that may be sent only once.
    Same,
    Rest,
}

fn fate(all: &[(Shown<'_>, Option<Found>)], place: usize) -> Fate {
    let found = match &all[place].1 {
        None => return Fate::Rest,
        Some(found) if matches!(found.kind.sent, Sent::Often(_)) => return Fate::Kept,
        Some(found) => found,
    };
    let alike = || all.iter().filter_map(|(_, other)| other.as_ref()).filter(|other| other.is_alike(found));
    match alike().next() {
        _ if alike().any(|other| other.values != found.values) => Fate::Rest,
        Some(first) if std::ptr::eq(first, found) => Fate::Kept,
        _ => Fate::Same,
    }
}

/// Reads a TLV. None if its kind is not known or it is malformed.
fn read((name, digits): Shown<'_>) -> Option<Found> {
    for kind in kinds() {
        for (part, tlv) in kind.tlvs.iter().enumerate().filter(|(_, tlv)| tlv.kind == name) {
            if let Some(values) = Values::read(tlv.layout, &octets_of(digits)?) {
                let part = if matches!(kind.sent, Sent::EachOnce) { part } else { 0 };
                return Some(Found { kind, part, tlv, values });
            }
        }
    }
    None
}

/// Returns one object with all texts of the parts of a kind.
fn merged(parts: impl Iterator<Item = Json>) -> Json {
    let mut all = Object::default();
    for part in parts {
        if let Json::Object(part) = part {
            part.0.into_iter().for_each(|(key, value)| all.merge(&key, value));
        }
    }
    Json::Object(all)
}

fn rest_object((kind, digits): &Shown<'_>) -> Json {
    let (oui, subtype) = kind.split_once('.').unwrap_or((kind, ""));
    let mut object = Object::default();
    object.set("oui", oui);
    object.set("subtype", subtype.parse().map_or(Json::Null, Json::Number));
    object.set("octets", *digits);
    Json::Object(object)
}

/// Returns lldpcli's nodes of all TLVs that belong in the node with this key.
pub fn nodes_in(parent: &str, said: &Said<'_>) -> Vec<Node> {
    kinds().filter(|kind| kind.parent == parent).flat_map(|kind| (kind.nodes)(said)).collect()
}

/// Reads octets in hexadecimal.
pub fn octets_of(digits: &str) -> Option<Vec<u8>> {
    let digit = |octet: u8| char::from(octet).to_digit(16).map(|digit| digit as u8);
    let pairs = digits.as_bytes().chunks(2);
    pairs.map(|pair| Some(digit(pair[0])? << 4 | digit(*pair.get(1)?)?)).collect()
}

/// Returns the Port VLAN ID (0: no VLAN). None if none was sent, or if several differ.
pub fn port_vlan(neighbor: &Neighbor<'_>) -> Option<u64> {
    only(neighbor, PORT_VLAN, "pvid")
}

/// Returns the maximum frame size in octets. None if none was sent, or if several differ.
pub fn max_frame_size(neighbor: &Neighbor<'_>) -> Option<u64> {
    only(neighbor, MAX_FRAME_SIZE, "octets")
}

/// Returns the number that all TLVs of a kind say.
fn only(neighbor: &Neighbor<'_>, kind: &str, name: &str) -> Option<u64> {
    let all = neighbor.organizational().filter(|(one, _)| *one == kind);
    let mut numbers = all.filter_map(read).map(|found| found.values.number(name).unsigned_abs());
    let first = numbers.next()?;
    numbers.all(|number| number == first).then_some(first)
}

/// A text for people about the TLVs of a kind. Those of one group are shown together.
pub struct Told {
    pub key: &'static str,
    pub heading: &'static str,
    pub group: &'static str,
    pub text: String,
}

/// Returns the key and the text of each kind of TLVs: first those whose meaning is known, in words.
pub fn told<'a>(all: impl Iterator<Item = Shown<'a>>) -> Vec<(String, String)> {
    let said = Said::of(all, |_| true);
    let rest = said.rest.iter().map(|(name, digits)| (format!("org.{name}"), digits.to_string()));
    let known = said.rows().into_iter().map(|row| (row.key.into(), row.text));
    known.chain(rest).collect()
}
