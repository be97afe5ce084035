//! Formats for people everything that a neighbor sent, in at most 29 lines.

use crate::counters::{OfPorts, TLVS_DISCARDED};
use crate::ordered::Ordered;
use crate::organizational::Said;
use crate::show::{Identifier, Neighbor};
use crate::table::{address_text, identifier_text, name_of, port_of};
use crate::texts::{counted, cut, padded, printable, readable, wrapped};
use crate::times::seconds_of;

const MOST_LINES: usize = 29;
/// The keys of a neighbor's lines that have a line of their own here.
const SAID_KEYS: [&str; 5] = ["port.descr", "chassis.name", "chassis.descr", "chassis.caps", "chassis.mgmt"];

/// Returns a line for each port that discarded TLVs. A neighbor's lines do not show these.
pub fn discarded(of_ports: &OfPorts<'_>) -> Vec<String> {
    let counts = of_ports.iter().filter_map(|(port, counters)| Some((port, counters.of(TLVS_DISCARDED)?)));
    let told = |(port, count): (&&str, u128)| {
        format!("{}: {} discarded since the agent started", readable(port), counted(count, "TLV"))
    };
    counts.filter(|(_, count)| *count > 0).map(told).collect()
}

/// Returns at most 29 lines about a neighbor. Texts are wrapped at `width`, and cut if 29 lines are not
/// enough. `local` converts seconds since 1970 to a local time.
pub fn detail_lines(
    neighbor: &Neighbor<'_>,
    since: Option<&str>,
    width: usize,
    local: &dyn Fn(i64) -> String,
) -> Vec<String> {
    let head = format!("{}: {} {}", readable(neighbor.port), name_of(neighbor), port_of(neighbor));
    let mut pairs = pairs_of(neighbor, since.map(|utc| local_text(utc, local)));
    pairs.retain(|(_, text)| !text.is_empty());
    let indent = pairs.iter().map(|(heading, _)| heading.len()).max().unwrap_or(0) + 4;
    let mut spare = (MOST_LINES - 1).saturating_sub(pairs.len());
    let mut lines = vec![cut(&head, width)];
    for (heading, text) in &pairs {
        let wanted = wrapped(text, width.saturating_sub(indent).max(1));
        let (given, further) = wanted.split_at(wanted.len().min(1 + spare));
        let mut given: Vec<String> = given.iter().map(|part| part.to_string()).collect();
        if let (Some(last), Some(next)) = (given.last_mut(), further.first()) {
            last.extend([" ", next]); // the last line is cut below
        }
        spare -= given.len() - 1;
        let heading = padded(&format!("  {heading}"), indent);
        let fronts = std::iter::once(heading).chain(std::iter::repeat(" ".repeat(indent)));
        lines.extend(fronts.zip(&given).map(|(front, part)| cut(&(front + part), width)));
    }
    lines
}

type Pair = (String, String);

/// Returns everything that is known about a neighbor, as headings and texts.
fn pairs_of(neighbor: &Neighbor<'_>, since: Option<String>) -> Vec<Pair> {
    let left = format!("{} s of {} s left", neighbor.expires, neighbor.ttl);
    let text = |key| neighbor.first(key).map_or(String::new(), readable);
    let capability =
        |(name, is_on): &(&str, bool)| if *is_on { name.to_string() } else { format!("{name} (off)") };
    let capabilities = neighbor.capabilities().unwrap_or_default();
    let capabilities: Vec<String> = capabilities.entries.iter().map(capability).collect();
    let managements: Vec<String> = neighbor.managements().map(address_text).collect();
    let mut pairs: Vec<Pair> = vec![
        ("Heard".into(), since.map_or(left.clone(), |since| format!("since {since}, {left}"))),
        ("Chassis ID".into(), with_kind(&neighbor.chassis)),
        ("Port ID".into(), with_kind(&neighbor.port_id)),
        ("Port".into(), text("port.descr")),
        ("Name".into(), text("chassis.name")),
        ("Description".into(), text("chassis.descr")),
        ("Capabilities".into(), capabilities.join(", ")),
        ("Management".into(), managements.join(", ")),
    ];
    let said = Said::by(neighbor);
    pairs.extend(together(&said));
    let others = said.rest.iter().map(|(kind, octets)| (kind.to_string(), octets.to_string()));
    let other = |(kind, octets): Pair| {
        let octets = if octets.is_empty() { "empty" } else { &octets };
        format!("{kind} {octets}")
    };
    let others: Vec<String> = others.chain(others_of(neighbor)).map(other).collect();
    pairs.push(("Other TLVs".into(), others.join(", ")));
    pairs
}

/// Returns the rows about TLVs of organizations. Those of one group are in one text.
fn together(said: &Said<'_>) -> Vec<Pair> {
    let mut found = Ordered::<&str, Vec<String>>::default();
    for row in said.rows() {
        match row.group {
            "" => found.value(row.heading).push(row.text),
            group => found.value(group).push(format!("{} {}", row.heading, row.text)),
        }
    }
    found.entries.into_iter().map(|(heading, texts)| (heading.into(), texts.join("; "))).collect()
}

/// Returns a neighbor's TLVs of reserved types, and its lines with keys that are unknown here.
fn others_of<'a>(neighbor: &'a Neighbor<'_>) -> impl Iterator<Item = Pair> + 'a {
    let is_other = |(key, _): &&(&str, &str)| !SAID_KEYS.contains(key) && !key.starts_with("org.");
    neighbor.said.iter().filter(is_other).map(|(key, value)| (readable(key), readable(value)))
}

/// Converts a time of lldpa-live to local time. Returns a malformed time as it is.
fn local_text(utc: &str, local: &dyn Fn(i64) -> String) -> String {
    match seconds_of(utc) {
        Ok(seconds) => local(seconds).replace('T', " ").chars().take(19).collect(),
        Err(_) => printable(utc.as_bytes()),
    }
}

/// Returns a chassis ID or port ID with its kind.
fn with_kind(identifier: &Identifier<'_>) -> String {
    format!("{} {}", identifier.kind, identifier_text(identifier))
}
