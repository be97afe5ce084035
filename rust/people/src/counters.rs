//! The counters of ports. All that is known about a counter is its row here. One without a row, of a
//! newer agent, is shown by its key.

use crate::columns::{columns, needed, Row};
use crate::ordered::Ordered;
use crate::texts::readable;

pub struct Counter {
    pub key: &'static str,
    /// What it counts, as metrics say it.
    pub help: &'static str,
    /// The key and the label of lldpcli's node that shows it, perhaps in a sum.
    pub node: Option<(&'static str, &'static str)>,
}

const fn counter(key: &'static str, help: &'static str) -> Counter {
    Counter { key, help, node: None }
}

impl Counter {
    const fn in_node(self, key: &'static str, label: &'static str) -> Counter {
        Counter { node: Some((key, label)), ..self }
    }
}

pub const SENT: &str = "sent";
pub const TLVS_DISCARDED: &str = "tlvs-discarded";
/// So many of these rows are of counters that each agent tells, in this order. Others may lack.
pub const OF_EACH_AGENT: usize = 9;
pub static COUNTERS: [Counter; 9] = [
    // as in lldpd, the transmitted frames include shutdown frames
    counter(SENT, "Ordinary frames sent.").in_node("tx", "Transmitted"),
    counter("shutdowns", "Shutdown frames sent.").in_node("tx", "Transmitted"),
    counter("received", "LLDP frames received while the port was up and could receive.")
        .in_node("rx", "Received"),
    counter("discarded", "LLDPDUs refused.").in_node("rx_discarded_cnt", "Discarded"),
    counter("errors", "LLDPDUs that were refused or had a discarded TLV."),
    counter(TLVS_DISCARDED, "TLVs discarded."),
    counter("unrecognized", "TLVs that were kept although their meaning is unknown.")
        .in_node("rx_unrecognized_cnt", "Unrecognized"),
    counter("ageouts", "Neighbors that aged out.").in_node("ageout_cnt", "Ageout"),
    counter("drops", "LLDPDUs dropped because the table was full."),
];
/// A cell of a port that does not tell a counter of another port.
const UNKNOWN: &str = "?";

/// The counters of a port by key, in the order of the agent's lines.
#[derive(Clone, Debug, Default)]
pub struct Counters<'a>(pub Ordered<&'a str, u128>);

/// The counters of some ports, each with its name.
pub type OfPorts<'a> = [(&'a str, Counters<'a>)];

impl<'a> Counters<'a> {
    /// Returns the sums of the counters of several ports, which are 0 for none.
    pub fn summed(of_ports: &OfPorts<'a>) -> Counters<'a> {
        let mut sums = Counters::default();
        COUNTERS[..OF_EACH_AGENT].iter().for_each(|counter| *sums.0.value(counter.key) = 0);
        for (key, number) in of_ports.iter().flat_map(|(_, counters)| &counters.0.entries) {
            *sums.0.value(*key) += number;
        }
        sums
    }

    pub fn of(&self, key: &str) -> Option<u128> {
        self.0.get(&key).copied()
    }
}

/// Returns the keys of the counters of all ports.
pub fn keys_of<'a>(of_ports: &OfPorts<'a>) -> Vec<&'a str> {
    Counters::summed(of_ports).0.keys().copied().collect()
}

/// Returns what a counter counts.
pub fn help_of(key: &str) -> String {
    let known = COUNTERS.iter().find(|counter| counter.key == key);
    known.map_or_else(|| format!("The counter {key} of the agent."), |counter| counter.help.into())
}

/// Returns a row of counters for each port, and a row of sums if there are several ports. If that is too wide, each
/// port has a column, and the ports that have no room stand below.
pub fn counter_lines(of_ports: &OfPorts<'_>, width: usize) -> Vec<String> {
    let keys = keys_of(of_ports);
    let heading = std::iter::once("PORT".into()).chain(keys.iter().map(|key| key.to_uppercase()));
    let mut rows: Vec<Row> = vec![heading.collect()];
    let mut add = |name: &str, counters: &Counters<'_>| {
        let cell = |key: &&str| counters.of(key).map_or(UNKNOWN.into(), |number| number.to_string());
        rows.push(std::iter::once(readable(name)).chain(keys.iter().map(cell)).collect());
    };
    of_ports.iter().for_each(|(name, counters)| add(name, counters));
    if of_ports.len() > 1 {
        add("all", &Counters::summed(of_ports));
    }
    if needed(&rows) <= width {
        return columns(&rows, width, keys.len()).collect();
    }
    upright(&rows, width)
}

/// Returns the rows as columns, beside each other as far as there is room, each time after the first row.
fn upright(rows: &[Row], width: usize) -> Vec<String> {
    let (mut lines, mut left) = (Vec::new(), &rows[1..]);
    while !left.is_empty() {
        let fits = |count: &usize| needed(&turned(&rows[0], &left[..*count])) <= width;
        let count = (2..=left.len()).take_while(fits).last().unwrap_or(1);
        lines.extend(Some(String::new()).filter(|_| !lines.is_empty()));
        lines.extend(columns(&turned(&rows[0], &left[..count]), width, count));
        left = &left[count..];
    }
    lines
}

/// Returns rows whose first column has the cells of a heading, and the others those of these rows.
fn turned(heading: &Row, rows: &[Row]) -> Vec<Row> {
    let cells = |place: usize| std::iter::once(heading).chain(rows).map(|row| row[place].clone()).collect();
    (0..heading.len()).map(cells).collect()
}
