//! The metrics of the values in the answer to `live`.

use crate::show::Read;
use crate::texts::quoted;

/// The name of a metric, its type, and what it says.
#[derive(Clone, Copy)]
pub struct Metric<'a> {
    pub name: &'a str,
    pub kind: &'a str,
    pub help: &'a str,
}

impl<'a> Metric<'a> {
    pub const fn gauge(name: &'a str, help: &'a str) -> Metric<'a> {
        Metric { name, kind: "gauge", help }
    }

    pub const fn counter(name: &'a str, help: &'a str) -> Metric<'a> {
        Metric { name, kind: "counter", help }
    }
}

pub struct State {
    pub key: &'static str,
    pub metric: Metric<'static>,
    /// The sample of the current state is 1.
    pub states: &'static [&'static str],
}

pub const STATES: [State; 1] = [State {
    key: "agent",
    metric: Metric::gauge("lldpa_agent_state", "1 for the current state of the agent, 0 for the others."),
    states: &["running", "waiting"],
}];

/// A value in the answer to `live`, and its metric.
pub struct Value {
    pub key: &'static str,
    pub metric: Metric<'static>,
    /// The word that is shown as 1, and all others as 0. Numbers have none.
    word: Option<&'static str>,
}

const fn gauge(key: &'static str, name: &'static str, help: &'static str) -> Value {
    Value { key, metric: Metric::gauge(name, help), word: None }
}

const fn counter(key: &'static str, name: &'static str, help: &'static str) -> Value {
    Value { key, metric: Metric::counter(name, help), word: None }
}

const fn state(key: &'static str, name: &'static str, word: &'static str, help: &'static str) -> Value {
    Value { key, metric: Metric::gauge(name, help), word: Some(word) }
}

pub const NUMBERS: [Value; 4] = [
    gauge(
        "settings-refused",
        "lldpa_settings_refused",
        "Settings that were refused when they were last read.",
    ),
    gauge(
        "ports-refused",
        "lldpa_ports_refused",
        "Interfaces that cannot be ports: not Ethernet, a name that is malformed or given twice, or over 64 ports.",
    ),
    gauge("recorders", "lldpa_recorders", "Clients that record."),
    counter(
        "record-lines-lost",
        "lldpa_record_lines_lost_total",
        "Lines of the agent that clients which record were too slow to read.",
    ),
];

pub const OF_PORTS: [Value; 7] = [
    state(
        "interface",
        "lldpa_interface_present",
        "present",
        "1 if the interface of the port exists, else 0.",
    ),
    state("link", "lldpa_link_up", "up", "1 if the port has a carrier, else 0."),
    counter(
        "kernel-drops",
        "lldpa_kernel_drops_total",
        "Frames that the kernel dropped because lldpa-live did not read them in time.",
    ),
    counter(
        "limit-drops",
        "lldpa_limit_drops_total",
        "Frames over the limit of 64 a second, which the agent did not receive.",
    ),
    counter("unsent", "lldpa_unsent_total", "Frames of the agent that the interface did not accept."),
    counter(
        "left-out",
        "lldpa_left_out_total",
        "Frames left out after a pause of lldpa-live: only the last of each port was sent.",
    ),
    counter(
        "other-frames",
        "lldpa_other_frames_total",
        "LLDP frames that are not read: tagged, to another address or too long.",
    ),
];

impl Value {
    pub fn number(&self, text: &str) -> Read<u128> {
        match self.word {
            Some(word) => Ok(u128::from(text == word)),
            None => number_in(text),
        }
    }
}

pub fn number_in(text: &str) -> Read<u128> {
    text.parse().map_err(|_| format!("not a number: {}", quoted(text)))
}
