//! The table of neighbors, and why ports have none.

use crate::columns::{columns, needed, Row, LEAST_WIDTH_OF_TEXT};
use crate::live_lines::LiveLines;
use crate::ordered::Ordered;
use crate::organizational::port_vlan;
use crate::show::{Identifier, Neighbor, Port, Read, Show, MOST_NEIGHBORS};
use crate::texts::{counted, readable, wrapped};
use std::net::Ipv6Addr;

const HEADINGS: [&str; 6] = ["PORT", "NEIGHBOR", "ITS PORT", "VLAN", "MANAGEMENT", "LEFT"];
const VLAN: usize = 3; // the place of this column
const FROM_MANAGEMENT: usize = 2; // columns from that of the management addresses on
/// Octets of a cell. No neighbor can say more: an escaped text of 255 octets has 1,020.
const LONGEST_CELL: usize = 1024;

/// Why a port may have no neighbor.
#[derive(Clone, Copy, Eq, Ord, PartialEq, PartialOrd)]
enum Reason {
    Awaited,
    Disabled,
    OnlySends,
    NoLink,
}

impl Reason {
    fn of(port: &str, show: &Show<'_>, live: &LiveLines<'_>) -> Option<Reason> {
        let status = show.statuses.as_ref().and_then(|statuses| statuses.get(&port)).copied();
        match (live.of(port, "interface"), status, live.of(port, "link")) {
            (Some("awaited"), _, _) => Some(Reason::Awaited),
            (_, Some("disabled"), _) => Some(Reason::Disabled),
            (_, Some("tx-only"), _) => Some(Reason::OnlySends),
            (_, _, Some("down")) => Some(Reason::NoLink),
            _ => None,
        }
    }

    /// Returns the reason in words, for one port and for several.
    fn words(self) -> [&'static str; 2] {
        match self {
            Reason::Awaited => [": no interface that can be used", ": no interfaces that can be used"],
            Reason::Disabled => [" is disabled", " are disabled"],
            Reason::OnlySends => [" only sends", " only send"],
            Reason::NoLink => [" has no link", " have no link"],
        }
    }
}

/// A port of the table: its name, how many neighbors it holds, and whether one had no room.
struct Held {
    name: String,
    held: u128,
    too_many: bool,
}

/// A table of the ports' neighbors.
#[derive(Default)]
pub struct Table {
    rows: Vec<Row>,
    ports: Vec<Held>,
}

impl Table {
    pub fn add(&mut self, port: &Port<'_>) {
        self.count_port(port);
        self.rows.extend(port.neighbors.iter().map(row_of));
    }

    /// Adds a port without a row for each of its neighbors.
    pub fn count_port(&mut self, port: &Port<'_>) {
        let (name, held, too_many) = (port.name.into(), port.held, port.too_many);
        self.ports.push(Held { name, held, too_many });
    }

    /// Fits the table to this width, and returns its lines. The VLAN column is shown only if a neighbor
    /// sent a VLAN. If the table is too wide, the column of management addresses is left out first.
    pub fn lines(&mut self, width: usize) -> impl Iterator<Item = String> + '_ {
        if !self.rows.is_empty() {
            let has_vlan = self.rows.iter().any(|row| !row[VLAN].is_empty());
            self.rows.insert(0, HEADINGS.map(String::from).to_vec());
            if !has_vlan {
                self.leave_out(VLAN);
            }
            if needed(&self.rows) > width {
                self.leave_out(self.rows[0].len() - FROM_MANAGEMENT);
            }
        }
        columns(&self.rows, width, 1)
    }

    /// Returns the lines of the table, the number of neighbors, and why ports have none.
    pub fn all_lines(
        &mut self,
        show: &Show<'_>,
        live: &LiveLines<'_>,
        width: usize,
    ) -> impl Iterator<Item = String> + '_ {
        let below = [self.count(width), self.reasons(show, live, width)].concat();
        self.lines(width).chain(below)
    }

    fn leave_out(&mut self, place: usize) {
        self.rows.iter_mut().for_each(|row| drop(row.remove(place)));
    }

    /// Returns the number of neighbors, and a remedy for each port that had too little room.
    pub fn count(&self, width: usize) -> Vec<String> {
        let held: u128 = self.ports.iter().map(|port| port.held).sum();
        let ports = counted(self.ports.len() as u128, "port");
        let mut said = format!("{} on {ports}.", counted(held, "neighbor"));
        for port in self.ports.iter().filter(|port| port.too_many) {
            let remedy = if port.held >= MOST_NEIGHBORS { "" } else { "raise --max-neighbors; " };
            let most = format!("{remedy}a port holds at most {MOST_NEIGHBORS}");
            said = format!("{said} {} had no room for a neighbor: {most}.", port.name);
        }
        lines_of(&said, width)
    }

    /// Returns lines that say which ports have no link, and why other ports have no neighbor. The show
    /// has the status of each port.
    pub fn reasons(&self, show: &Show<'_>, live: &LiveLines<'_>, width: usize) -> Vec<String> {
        let mut found = Ordered::<Reason, Vec<String>>::default();
        for port in &self.ports {
            let why = Reason::of(&port.name, show, live);
            if let Some(why) = why.filter(|why| *why == Reason::NoLink || port.held == 0) {
                found.value(why).push(readable(&port.name));
            }
        }
        let said = |(why, names): &(Reason, Vec<String>)| {
            let words = why.words()[usize::from(names.len() > 1)];
            lines_of(&format!("{}{words}", names.join(", ")), width)
        };
        found.entries.iter().flat_map(said).collect()
    }
}

/// Returns the table that answers to `show neighbors` with `show configuration`, and to `live`, give.
pub fn table_of(shows: &str, live: &str, width: usize) -> Read<String> {
    let show = Show::read(shows.lines().collect())?;
    let mut table = Table::default();
    show.ports.iter().for_each(|port| table.add(port));
    let live = LiveLines::read(&live.lines().collect::<Vec<_>>());
    let lines: Vec<String> = table.all_lines(&show, &live, width).collect();
    Ok(lines.join("\n") + "\n")
}

fn row_of(neighbor: &Neighbor<'_>) -> Row {
    let vlan = port_vlan(neighbor).filter(|vlan| *vlan != 0);
    let cells = [
        readable(neighbor.port),
        name_of(neighbor),
        port_of(neighbor),
        vlan.map_or(String::new(), |vlan| vlan.to_string()),
        management_of(neighbor),
        format!("{} s", neighbor.expires),
    ];
    cells.into_iter().map(bounded).collect()
}

/// Returns a cell, or its beginning if a service that was taken over made it too long.
fn bounded(mut cell: String) -> String {
    let is_end = |end: &usize| cell.is_char_boundary(*end);
    let end = (0..=LONGEST_CELL.min(cell.len())).rev().find(is_end).unwrap_or(0);
    cell.truncate(end);
    cell.shrink_to_fit();
    cell
}

/// Returns the System Name, or the chassis ID if the neighbor has no name.
pub fn name_of(neighbor: &Neighbor<'_>) -> String {
    match neighbor.first("chassis.name") {
        None | Some("") => identifier_text(&neighbor.chassis),
        Some(name) => readable(name),
    }
}

/// Returns the Port ID. If it is a MAC address or binary, prefers the Port Description.
pub fn port_of(neighbor: &Neighbor<'_>) -> String {
    let description = neighbor.first("port.descr").filter(|text| !text.is_empty());
    match (neighbor.port_id.kind, description) {
        ("mac" | "unhandled", Some(text)) => readable(text),
        _ => identifier_text(&neighbor.port_id),
    }
}

/// Returns the first management address, or an empty text if there is none.
fn management_of(neighbor: &Neighbor<'_>) -> String {
    neighbor.management().map_or(String::new(), address_text)
}

pub fn identifier_text(identifier: &Identifier<'_>) -> String {
    if identifier.kind == "ip" {
        address_text(identifier.text)
    } else {
        readable(identifier.text)
    }
}

/// Returns an address as text for people. IPv6 addresses are in their short form.
pub fn address_text(address: &str) -> String {
    match address.parse::<Ipv6Addr>() {
        Ok(found) => short(found),
        Err(_) => readable(address),
    }
}

/// Returns an IPv6 address as the C library writes it, with `::192.0.2.1` and `::201`. How `Display`
/// writes these depends on the version of Rust.
fn short(address: Ipv6Addr) -> String {
    match address.segments() {
        [0, 0, 0, 0, 0, 0, 0, low] if low > 1 => format!("::{low:x}"),
        [0, 0, 0, 0, 0, 0, high, low] if high > 0 => {
            let ([a, b], [c, d]) = (high.to_be_bytes(), low.to_be_bytes());
            format!("::{a}.{b}.{c}.{d}")
        }
        _ => address.to_string(),
    }
}

/// Returns the neighbor, its port and its management address in one line.
pub fn summary(neighbor: &Neighbor<'_>) -> String {
    let parts = [name_of(neighbor), port_of(neighbor), management_of(neighbor)];
    parts.join(" ").trim_end_matches(' ').into()
}

fn lines_of(text: &str, width: usize) -> Vec<String> {
    wrapped(text, width.max(LEAST_WIDTH_OF_TEXT)).into_iter().map(String::from).collect()
}
