//! Writes the state, ports and neighbors of lldpa-live in Prometheus' text format.

use crate::counters::{help_of, keys_of, OfPorts};
use crate::live_lines::LiveLines;
use crate::live_metrics::{number_in, Metric, Value, NUMBERS, OF_PORTS, STATES};
use crate::organizational::{max_frame_size, port_vlan};
use crate::show::{Neighbor, Port, Read};
use crate::times::seconds_of;
use std::fmt::{Display, Write};
use std::path::Path;

/// Octets of the metrics of ports and their neighbors. A file is in memory until it is written, and, on
/// a tmpfs, beside the one that it replaces.
pub const MOST_METRICS: usize = 16 << 20;
/// The name of the file of the first service, whose metrics have no further label.
const OF_FIRST: &str = "lldpa";

const UP: Metric<'_> = Metric::gauge("lldpa_up", "1 if lldpa-live answers and its agent runs, else 0.");
const BEGAN: Metric<'_> =
    Metric::gauge("lldpa_start_time_seconds", "When lldpa-live started, in seconds since 1970.");
const BUILD: Metric<'_> =
    Metric::gauge("lldpa_build_info", "Always 1; the label is the version of lldpa-live.");
const CHANGES: Metric<'_> =
    Metric::counter("lldpa_changes_total", "Neighbors that came, said something else, or went.");
/// The kinds of changes, as `watch` names them.
const KINDS: [&str; 3] = ["came", "changed", "gone"];
const HELD: Metric<'_> = Metric::gauge("lldpa_neighbors", "Neighbors that the port holds.");
const TOO_MANY: Metric<'_> = Metric::gauge(
    "lldpa_too_many",
    "1 while a neighbor that was dropped for lack of room would still be present, else 0.",
);
const INFO: Metric<'_> = Metric::gauge("lldpa_neighbor_info", "Always 1; the labels describe a neighbor.");
const EXPIRES: Metric<'_> = Metric::gauge("lldpa_expires_seconds", "Seconds until the neighbor ages out.");
const LEFT_OUT: Metric<'_> = Metric::gauge(
    "lldpa_neighbors_left_out",
    "Neighbors without metrics of their own, which would make the file too large.",
);

type Labels<'a> = Vec<(&'static str, &'a str)>;

/// Returns what names the service in each metric of this file, since node_exporter takes no metric
/// twice with the same labels, also from two files: the name of the file, unless it is that of the
/// first service.
pub fn service_of(path: &str) -> Option<String> {
    let name = Path::new(path).file_stem().map_or(String::new(), |name| name.to_string_lossy().into_owned());
    let is_plain = |letter: char| letter.is_ascii_alphanumeric() || "-_.:@".contains(letter);
    let plain = || name.chars().map(|letter| if is_plain(letter) { letter } else { '_' }).collect();
    (name != OF_FIRST).then(plain)
}

/// The metrics of ports, to which one port after another is added.
#[derive(Default)]
pub struct Metrics {
    service: Option<String>,
    most: usize,
    held: String,
    too_many: String,
    neighbors: String,
    expires: String,
    /// How many neighbors have no metrics of their own.
    left_out: usize,
}

impl Metrics {
    /// Begins metrics of this service. If those of its ports would have more octets, neighbors are only
    /// counted.
    pub fn of(service: Option<String>, most: usize) -> Metrics {
        Metrics { service, most, ..Metrics::default() }
    }

    pub fn add(&mut self, port: &Port<'_>) {
        self.add_port(port.name, port.held, port.too_many);
        port.neighbors.iter().for_each(|neighbor| self.add_neighbor(neighbor));
    }

    /// Adds a port without its neighbors.
    pub fn add_port(&mut self, name: &str, held: u128, too_many: bool) {
        let (service, labels) = (self.service.as_deref(), || vec![("port", name)]);
        put(&mut self.held, service, HELD, [(labels(), held)]);
        put(&mut self.too_many, service, TOO_MANY, [(labels(), u8::from(too_many))]);
    }

    pub fn add_neighbor(&mut self, neighbor: &Neighbor<'_>) {
        let number = |value: Option<u64>| value.map_or(String::new(), |value| value.to_string());
        let (vlan, size) = (number(port_vlan(neighbor)), number(max_frame_size(neighbor)));
        let mut labels = identified(neighbor);
        labels.extend([
            ("name", neighbor.first("chassis.name").unwrap_or("")),
            ("port_descr", neighbor.first("port.descr").unwrap_or("")),
            ("management", neighbor.management().unwrap_or("")),
            ("pvid", &vlan),
            ("max_frame_size", &size),
        ]);
        let before = [self.neighbors.len(), self.expires.len()];
        let service = self.service.as_deref();
        put(&mut self.neighbors, service, INFO, [(labels, 1)]);
        put(&mut self.expires, service, EXPIRES, [(identified(neighbor), neighbor.expires)]);
        let size = self.held.len() + self.too_many.len() + self.neighbors.len() + self.expires.len();
        if size > self.most {
            self.neighbors.truncate(before[0]);
            self.expires.truncate(before[1]);
            self.left_out += 1;
        }
    }

    /// Returns the text in parts, with the metrics of these counters and of `live`.
    pub fn parts(self, counters: &OfPorts<'_>, live: &LiveLines<'_>) -> Read<Vec<String>> {
        let service = self.service.as_deref();
        let live = of_live(service, live)?;
        let (mut of_counters, mut left_out) = (String::new(), String::new());
        for key in keys_of(counters) {
            let (name, help) = (format!("lldpa_{}_total", key.replace('-', "_")), help_of(key));
            let is_taken = NUMBERS.iter().chain(&OF_PORTS).any(|value| value.metric.name == name);
            let told = counters.iter().filter_map(|(port, of)| Some((vec![("port", *port)], of.of(key)?)));
            if !is_taken {
                put_all(
                    &mut of_counters,
                    service,
                    Metric { name: &name, kind: "counter", help: &help },
                    told,
                );
            }
        }
        let count = Some((Vec::new(), self.left_out)).filter(|(_, count)| *count > 0);
        put_all(&mut left_out, service, LEFT_OUT, count);
        Ok(vec![live, self.held, self.too_many, self.neighbors, self.expires, of_counters, left_out])
    }
}

/// Returns the metric `lldpa_up` of this service. If lldpa-live does not answer, there is no other.
pub fn up(service: Option<&str>, is_up: bool) -> String {
    let mut text = String::new();
    put(&mut text, service, UP, [(Vec::new(), u8::from(is_up))]);
    text
}

fn of_live(service: Option<&str>, live: &LiveLines<'_>) -> Read<String> {
    let mut text = up(service, live.is_up());
    if let Some(began) = live.own.get(&"began") {
        put_all(&mut text, service, BEGAN, [(Vec::new(), seconds_of(began)?)]);
    }
    let version = live.own.get(&"version").map(|version| (vec![("version", *version)], 1));
    put_all(&mut text, service, BUILD, version);
    for state in &STATES {
        if let Some(now) = live.own.get(&state.key) {
            let samples = state.states.iter().map(|one| (vec![("state", *one)], u8::from(one == now)));
            put_all(&mut text, service, state.metric, samples);
        }
    }
    for value in &NUMBERS {
        if let Some(told) = live.own.get(&value.key) {
            put_all(&mut text, service, value.metric, [(Vec::new(), value.number(told)?)]);
        }
    }
    for value in &OF_PORTS {
        put_all(&mut text, service, value.metric, told_of_ports(value, live)?);
    }
    put_all(&mut text, service, CHANGES, changes(live)?);
    Ok(text)
}

fn told_of_ports<'a>(value: &Value, live: &LiveLines<'a>) -> Read<Vec<(Labels<'a>, u128)>> {
    let told = live.ports.entries.iter().filter_map(|(port, of)| Some((*port, of.get(&value.key)?)));
    told.map(|(port, text)| Ok((vec![("port", port)], value.number(text)?))).collect()
}

/// Returns how often each port's neighbors came, changed and went.
fn changes<'a>(live: &LiveLines<'a>) -> Read<Vec<(Labels<'a>, u128)>> {
    let of_kind = |kind: &'static str| {
        let told = live.ports.entries.iter().filter_map(move |(port, of)| Some((*port, *of.get(&kind)?)));
        told.map(move |(port, text)| Ok((vec![("port", port), ("kind", kind)], number_in(text)?)))
    };
    KINDS.into_iter().flat_map(of_kind).collect()
}

/// Returns the labels that identify a neighbor.
fn identified<'a>(neighbor: &Neighbor<'a>) -> Labels<'a> {
    vec![
        ("port", neighbor.port),
        ("chassis_kind", neighbor.chassis.kind),
        ("chassis", neighbor.chassis.text),
        ("port_id_kind", neighbor.port_id.kind),
        ("port_id", neighbor.port_id.text),
    ]
}

/// Adds a metric to a text, unless it has no sample.
fn put_all<'a, V: Display>(
    text: &mut String,
    service: Option<&str>,
    metric: Metric<'_>,
    samples: impl IntoIterator<Item = (Labels<'a>, V)>,
) {
    let mut part = String::new();
    put(&mut part, service, metric, samples);
    text.push_str(&part);
}

/// Adds samples to the text of a metric. The first one adds the heading.
fn put<'a, V: Display>(
    text: &mut String,
    service: Option<&str>,
    metric: Metric<'_>,
    samples: impl IntoIterator<Item = (Labels<'a>, V)>,
) {
    let Metric { name, kind, help } = metric;
    for (labels, value) in samples {
        if text.is_empty() {
            let _ = write!(text, "# HELP {name} {help}\n# TYPE {name} {kind}\n");
            // a String takes all
        }
        text.push_str(name);
        let service = service.map(|service| ("service", service));
        let mut front = '{';
        for (label, value) in service.into_iter().chain(labels) {
            let _ = write!(text, "{front}{label}=\"{}\"", escaped(value));
            front = ',';
        }
        text.push_str(if front == ',' { "}" } else { "" });
        let _ = writeln!(text, " {value}");
    }
}

/// Escapes a label's value as the format requires between double quotes.
fn escaped(value: &str) -> String {
    value.replace('\\', "\\\\").replace('"', "\\\"").replace('\n', "\\n")
}

#[cfg(test)]
mod tests {
    use super::*;

    #[test]
    fn files_of_other_names_name_their_service() {
        for (path, wanted) in [
            ("/run/lldpa-metrics/lldpa.prom", None),
            ("/run/lldpa2-metrics/lldpa2.prom", Some("lldpa2")),
            ("lldpa@a:1.prom", Some("lldpa@a:1")),
            ("/a/\"\\\n\u{e9}{}.prom", Some("______")),
            ("/a/.prom", Some(".prom")),
        ] {
            assert_eq!(service_of(path).as_deref(), wanted, "{path:?}");
        }
    }

    #[test]
    fn each_sample_names_its_service() {
        assert_eq!(up(None, true).lines().last(), Some("lldpa_up 1"));
        assert_eq!(up(Some("b"), true).lines().last(), Some("lldpa_up{service=\"b\"} 1"));
        let mut all = Metrics::of(Some("b".into()), MOST_METRICS);
        all.add_port("eth0", 0, false);
        let live = LiveLines::read(&["live.eth0.link=up", "live.ports-refused=0"]);
        let text = all.parts(&[], &live).expect("numbers").concat();
        let samples: Vec<&str> = text.lines().filter(|line| !line.starts_with('#')).collect();
        assert_eq!(samples.len(), 1 + 1 + 1 + 2);
        assert!(samples.iter().all(|line| line.contains("{service=\"b\"")), "{samples:?}");
        assert!(samples.contains(&"lldpa_neighbors{service=\"b\",port=\"eth0\"} 0"), "{samples:?}");
    }
}
