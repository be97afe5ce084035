//! Converts shows and their parts to objects for JSON. Texts are Unicode if their octets are UTF-8.
//! Otherwise a text is escaped as the agent shows it, and `octets` in the same object has its octets in
//! hexadecimal, under the key of the text.

use crate::changes::News;
use crate::counters::Counters;
use crate::json::{Json, Object};
use crate::live_lines::Since;
use crate::ordered::Ordered;
use crate::organizational::Said;
use crate::show::{Identifier, Neighbor, Port, Show};
use crate::show_reader::number_of;
use crate::texts::octets_shown;

/// The texts of this host. The others are of ASCII.
const TEXTS_OF_CHASSIS: [&str; 2] = ["name", "descr"];

/// Returns an object with the parts that the show has, except ports, which are shown one by one.
pub fn show_object(show: &Show<'_>) -> Json {
    let mut told = Object::default();
    if !show.counters.is_empty() {
        let mut counters = Object::default();
        show.counters.iter().for_each(|(port, of)| counters.set(port, counters_object(of)));
        told.set("counters", Json::Object(counters));
    }
    if let Some(chassis) = &show.chassis {
        told.set("chassis", chassis_object(chassis));
    }
    if let Some(statuses) = &show.statuses {
        let mut of_ports = Object::default();
        statuses.entries.iter().for_each(|(port, status)| of_ports.set(port, *status));
        let mut settings = settings_object(&show.settings);
        settings.set("statuses", Json::Object(of_ports));
        if !show.of_ports.entries.is_empty() {
            let mut of_ports = Object::default();
            show.of_ports.entries.iter().for_each(|(port, of)| of_ports.set(port, settings_object(of)));
            settings.set("of_ports", Json::Object(of_ports));
        }
        told.set("configuration", Json::Object(settings));
    }
    Json::Object(told)
}

/// Returns settings as numbers, and others as texts.
fn settings_object(settings: &Ordered<&str, &str>) -> Object {
    let mut told = Object::default();
    for (key, value) in &settings.entries {
        let key = key.replace('-', "_");
        match number_of(value) {
            Some(number) => told.set(&key, Json::Number(number)),
            None => told.set_text(&key, &octets_shown(value)),
        }
    }
    told
}

pub fn counters_object(counters: &Counters<'_>) -> Json {
    let mut told = Object::default();
    counters
        .0
        .entries
        .iter()
        .for_each(|(key, number)| told.set(&key.replace('-', "_"), Json::Number(*number)));
    Json::Object(told)
}

fn chassis_object(chassis: &[(&str, &str)]) -> Json {
    let mut told = Object::default();
    chassis.iter().for_each(|(key, value)| told.set(key, *value));
    if chassis.iter().all(|(key, _)| *key != "mgmt") {
        told.set("mgmt", Json::Null);
    }
    for (key, value) in chassis.iter().filter(|(key, _)| TEXTS_OF_CHASSIS.contains(key)) {
        told.set_text(key, &octets_shown(value));
    }
    Json::Object(told)
}

/// Returns a port without its neighbors.
pub fn port_object(port: &Port<'_>) -> Object {
    let mut told = Object::default();
    told.set("name", port.name);
    told.set("neighbors_held", Json::Number(port.held));
    told.set("octets", Json::Number(port.octets));
    told.set("too_many", Json::Flag(port.too_many));
    told.set("neighbors", Json::List(Vec::new()));
    told
}

pub fn neighbor_object(neighbor: &Neighbor<'_>, since: &Since) -> Object {
    let mut told = Object::default();
    told.set("port", neighbor.port);
    told.set("place", Json::Number(neighbor.place));
    told.set("id", &neighbor.id()[..]);
    told.set("since", since.of(neighbor));
    told.set("chassis", identifier_object(&neighbor.chassis));
    told.set("port_id", identifier_object(&neighbor.port_id));
    told.set("ttl", Json::Number(neighbor.ttl));
    told.set("expires", Json::Number(neighbor.expires));
    ["name", "descr", "port_descr"].iter().for_each(|key| told.set(key, Json::Null));
    told.set(
        "capabilities",
        neighbor.capabilities().map_or(Json::Null, |found| {
            let mut states = Object::default();
            found.entries.iter().for_each(|(name, is_on)| states.set(name, Json::Flag(*is_on)));
            Json::Object(states)
        }),
    );
    told.set("management", Json::List(neighbor.managements().map(Json::from).collect()));
    let organizational =
        neighbor.organizational().map(|(kind, octets)| tlv_object("kind", kind.into(), octets));
    told.set("org", Json::List(organizational.collect()));
    told.set("unknown", Json::List(unknown(neighbor)));
    Said::by(neighbor).add_to(&mut told);
    for (key, name) in [("name", "chassis.name"), ("descr", "chassis.descr"), ("port_descr", "port.descr")] {
        neighbor.first(name).iter().for_each(|text| told.set_text(key, &octets_shown(text)));
    }
    told
}

fn tlv_object(key: &str, kind: Json, octets: &str) -> Json {
    let mut told = Object::default();
    told.set(key, kind);
    told.set("octets", octets);
    Json::Object(told)
}

/// Returns the TLVs of reserved types.
fn unknown(neighbor: &Neighbor<'_>) -> Vec<Json> {
    let numbered = |(key, octets): &(&str, &str)| {
        let number = key.strip_prefix("unknown.")?.parse().ok()?;
        Some(tlv_object("type", Json::Number(number), octets))
    };
    neighbor.said.iter().filter_map(numbered).collect()
}

fn identifier_object(identifier: &Identifier<'_>) -> Json {
    let mut told = Object::default();
    told.set("kind", identifier.kind);
    told.set_text("text", &octets_shown(identifier.text));
    Json::Object(told)
}

/// Returns what happened to a neighbor, as JSON in one line.
pub fn news_object(news: &News, now: &str, since: &Since) -> String {
    let mut told = Object::default();
    told.set("time", now);
    told.set("what", news.what);
    told.set("changes", Json::List(news.changes.iter().map(|change| Json::from(&change[..])).collect()));
    told.set("neighbor", Json::Object(neighbor_object(&news.neighbor(), since)));
    Json::Object(told).line()
}

impl From<Object> for Json {
    fn from(object: Object) -> Json {
        Json::Object(object)
    }
}
