//! The table of ports.

use crate::columns::{columns, Row};
use crate::live_lines::LiveLines;
use crate::show::{check_ports, Read, Show};
use crate::texts::readable;
use std::collections::BTreeMap;

const HEADINGS: [&str; 5] = ["PORT", "INTERFACE", "LINK", "STATUS", "NEIGHBORS"];
const UNKNOWN: &str = "?";

/// How many neighbors each port holds.
pub type Held = BTreeMap<String, u128>;

/// Returns for each port whether its interface exists and its link is up, its status, and its number
/// of neighbors. All ports are shown if none is named. Fails if a port is unknown.
pub fn interfaces(
    held: &Held,
    show: &Show<'_>,
    live: &LiveLines<'_>,
    ports: &[String],
    width: usize,
) -> Read<Vec<String>> {
    check_ports(ports, &show.configured())?;
    let mut rows: Vec<Row> = vec![HEADINGS.map(String::from).to_vec()];
    for (name, status) in show.statuses.iter().flat_map(|statuses| &statuses.entries) {
        if ports.is_empty() || ports.iter().any(|port| port == name) {
            let of = |key: &str| readable(live.of(name, key).unwrap_or(UNKNOWN));
            let held = held.get(*name).map_or(UNKNOWN.into(), u128::to_string);
            rows.push(vec![readable(name), of("interface"), of("link"), readable(status), held]);
        }
    }
    Ok(columns(&rows, width, 1).collect())
}
