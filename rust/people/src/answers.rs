//! What a neighbor said in full, and answers as JSON. The neighbors of one port after another are read,
//! since they may take much memory together.

use crate::client::{listed, not_an_answer, show_of, Client, Done, Failure, CONFIGURATION};
use crate::connection::Connection;
use crate::counters::Counters;
use crate::details::{detail_lines, discarded};
use crate::interfaces::Held;
use crate::json::{quoted, Json, Object};
use crate::live_lines::{is_read, LiveLines, Since};
use crate::neighbors::each_port;
use crate::objects::{counters_object, neighbor_object, port_object, show_object};
use crate::show::{check_ports, Port};
use crate::table::Table;

/// Octets that wait to be printed until the answer is complete.
const MOST_KEPT: usize = 8 << 20;
const NEIGHBORS_BEGIN: &str = "{\n  \"ports\": [\n    ";
/// The end of an object of a port that has no neighbors, and its margins.
const PORT_END: &str = "]\n    }";
const OF_PORT: usize = 4;
const OF_NEIGHBOR: usize = 8;

/// Parts of a text, of which up to 8 MB wait until all are there, so that nothing is printed if one
/// cannot be made.
pub struct Parts<'a> {
    client: &'a Client<'a>,
    kept: String,
}

impl<'a> Parts<'a> {
    pub fn of(client: &'a Client<'a>) -> Parts<'a> {
        Parts { client, kept: String::new() }
    }

    pub fn push(&mut self, text: &str) -> Done<()> {
        self.kept.push_str(text);
        if self.kept.len() > MOST_KEPT {
            self.client.print(&self.kept)?;
            self.kept.clear();
        }
        Ok(())
    }

    pub fn end(self) -> Done<()> {
        self.client.print(&self.kept)
    }
}

/// Asks when each neighbor appeared.
pub fn since_of(connection: &mut Connection) -> Done<Since> {
    let mut since = Since::default();
    connection.each("live", |line| since.add(line).map_err(not_an_answer))?;
    Ok(since)
}

/// Fails if one of these ports is unknown.
pub fn check_known(connection: &mut Connection, ports: &[String]) -> Done<()> {
    if ports.is_empty() {
        return Ok(());
    }
    let configuration = connection.ask(CONFIGURATION)?;
    check_ports(ports, &show_of(&[&configuration])?.configured()).map_err(Failure::Refused)
}

impl Client<'_> {
    /// Prints everything that the neighbors of these ports said (all if empty).
    pub fn details(&self, connection: &mut Connection, ports: &[String]) -> Done<()> {
        let since = since_of(connection)?;
        check_known(connection, ports)?;
        let (mut parts, mut heads, width) = (Parts::of(self), Table::default(), self.width());
        let mut is_first = true;
        each_port(connection, ports, |port| {
            heads.count_port(port);
            for neighbor in &port.neighbors {
                let local = |seconds| self.host.local_time(seconds);
                let lines = detail_lines(neighbor, since.of(neighbor), width, &local).join("\n");
                parts.push(&format!("{}{lines}\n", if is_first { "" } else { "\n" }))?;
                is_first = false;
            }
            Ok(())
        })?;
        if is_first {
            parts.push(&heads.count(width).iter().map(|line| format!("{line}\n")).collect::<String>())?;
        }
        let statistics = connection.ask("show statistics")?;
        let show = show_of(&[&statistics])?.only(ports).map_err(Failure::Refused)?;
        parts.push(&discarded(&show.counters).iter().map(|line| format!("{line}\n")).collect::<String>())?;
        parts.end()
    }

    /// Prints the answer to a command as an object.
    pub fn json(&self, connection: &mut Connection, words: &[&str]) -> Done<()> {
        let words = if words.first() == Some(&"show") { &words[1..] } else { words };
        let ports = listed(words.get(1..).unwrap_or(&[]));
        match words {
            ["live", ..] => self.live_json(connection),
            ["neighbors" | "details", ..] => self.neighbors_json(connection, &ports),
            ["interfaces", ..] => {
                let object = interfaces_object(connection, &ports)?;
                self.print(&format!("{}\n", object.indented(0)))
            }
            ["statistics", "summary"] => {
                let statistics = connection.ask("show statistics")?;
                let mut told = Object::default();
                let sums = Counters::summed(&show_of(&[&statistics])?.counters);
                told.set("summary", counters_object(&sums));
                self.print(&format!("{}\n", Json::Object(told).indented(0)))
            }
            words => {
                let answer = connection.ask(&format!("show {}", words.first().unwrap_or(&"")))?;
                let show = show_of(&[&answer])?.only(&ports).map_err(Failure::Refused)?;
                self.print(&format!("{}\n", show_object(&show).indented(0)))
            }
        }
    }

    fn live_json(&self, connection: &mut Connection) -> Done<()> {
        let (mut parts, mut mark) = (Parts::of(self), "{");
        connection.each("live", |line| {
            let (key, value) = line.split_once('=').unwrap_or((line, ""));
            let front = std::mem::replace(&mut mark, ",");
            parts.push(&format!("{front}\n  {}: {}", quoted(key), quoted(value)))
        })?;
        parts.push(if mark == "{" { "{}\n" } else { "\n}\n" })?;
        parts.end()
    }

    fn neighbors_json(&self, connection: &mut Connection, ports: &[String]) -> Done<()> {
        let since = since_of(connection)?;
        check_known(connection, ports)?;
        let (mut parts, mut mark) = (Parts::of(self), NEIGHBORS_BEGIN);
        each_port(connection, ports, |port| {
            parts.push(std::mem::replace(&mut mark, ",\n    "))?;
            push_port(&mut parts, port, &since)
        })?;
        parts.push(if mark == NEIGHBORS_BEGIN { "{}\n" } else { "\n  ]\n}\n" })?;
        parts.end()
    }
}

/// Adds a port with its neighbors, one after another.
fn push_port(parts: &mut Parts<'_>, port: &Port<'_>, since: &Since) -> Done<()> {
    let head = Json::Object(port_object(port)).indented(OF_PORT);
    parts.push(head.strip_suffix(PORT_END).unwrap_or(&head))?;
    let mut mark = "\n        ";
    for neighbor in &port.neighbors {
        let object = Json::Object(neighbor_object(neighbor, since)).indented(OF_NEIGHBOR);
        parts.push(std::mem::replace(&mut mark, ",\n        "))?;
        parts.push(&object)?;
    }
    parts.push(if port.neighbors.is_empty() { "" } else { "\n      " })?;
    parts.push(PORT_END)
}

/// Returns what is known about the interfaces of these ports (all if empty). Unknown values are null.
fn interfaces_object(connection: &mut Connection, ports: &[String]) -> Done<Json> {
    let mut held = Held::new();
    each_port(connection, &[], |port| {
        held.insert(port.name.into(), port.held);
        Ok(())
    })?;
    let (configuration, live) = (connection.ask(CONFIGURATION)?, connection.ask_for("live", is_read)?);
    let (show, lines) = (show_of(&[&configuration])?, live.lines());
    let live = LiveLines::read(&lines);
    check_ports(ports, &show.configured()).map_err(Failure::Refused)?;
    let mut found = Vec::new();
    for (name, status) in show.statuses.iter().flat_map(|statuses| &statuses.entries) {
        if ports.is_empty() || ports.iter().any(|port| port == name) {
            let mut told = Object::default();
            told.set("name", *name);
            ["interface", "link"].iter().for_each(|key| told.set(key, live.of(name, key)));
            told.set("status", *status);
            told.set("neighbors", held.get(*name).map_or(Json::Null, |held| Json::Number(*held)));
            found.push(Json::Object(told));
        }
    }
    let mut told = Object::default();
    told.set("interfaces", Json::List(found));
    Ok(Json::Object(told))
}
