//! The lines that the agent is given: those that a trace has.

use crate::hex::Hex;
use lldpa::Status;
use std::fmt;

#[derive(Clone, Debug, PartialEq, Eq)]
pub enum Line {
    Command(String),
    /// A frame that a port has received.
    Frame(String, Vec<u8>),
    Ticks(u32),
    /// The state of a port's link: true for up.
    Link(String, bool),
}

impl Line {
    /// Returns how many octets of memory the line takes.
    pub fn memory(&self) -> usize {
        let own = match self {
            Line::Command(text) => text.len(),
            Line::Frame(port, octets) => port.len() + octets.len(),
            Line::Link(port, _) => port.len(),
            Line::Ticks(_) => 0,
        };
        std::mem::size_of::<Line>() + own
    }
}

impl fmt::Display for Line {
    fn fmt(&self, out: &mut fmt::Formatter<'_>) -> fmt::Result {
        match self {
            Line::Command(line) => out.write_str(line),
            Line::Frame(port, octets) => write!(out, "rx {port} {}", Hex(octets)),
            Line::Ticks(1) => out.write_str("tick"),
            Line::Ticks(count) => write!(out, "tick {count}"),
            Line::Link(port, is_up) => write!(out, "{} {port}", if *is_up { "up" } else { "down" }),
        }
    }
}

/// Returns the line that sets a port's status.
pub fn set_status(port: &str, status: Status) -> Line {
    let status = match status {
        Status::RxAndTx => "rx-and-tx",
        Status::RxOnly => "rx-only",
        Status::TxOnly => "tx-only",
        Status::Disabled => "disabled",
    };
    Line::Command(format!("configure ports {port} lldp status {status}"))
}

/// Returns the line that sets `hostname` or `description`. The text must have no double quotes.
pub fn set_text(what: &str, text: &str) -> Line {
    Line::Command(format!("configure system {what} \"{text}\""))
}

/// Puts these lines between commands that stop the ports' sending and commands that resume it.
pub fn unsent(names: &[String], status: impl Fn(&String) -> Status, lines: Vec<Line>) -> Vec<Line> {
    let quiet = names.iter().map(|name| set_status(name, without_sending(status(name))));
    let sends = names.iter().filter(|name| without_sending(status(name)) != status(name));
    quiet.chain(lines).chain(sends.map(|name| set_status(name, status(name)))).collect()
}

/// Returns the status that receives like this one, but does not send.
fn without_sending(status: Status) -> Status {
    match status {
        Status::RxAndTx => Status::RxOnly,
        Status::TxOnly => Status::Disabled,
        other => other,
    }
}

#[cfg(test)]
mod tests {
    use super::*;

    #[test]
    fn lines_are_those_of_a_trace() {
        for (line, text) in [
            (Line::Command("show chassis".into()), "show chassis"),
            (Line::Frame("eth0".into(), vec![1, 0xab]), "rx eth0 01ab"),
            (Line::Ticks(1), "tick"),
            (Line::Ticks(2), "tick 2"),
            (Line::Link("eth0".into(), true), "up eth0"),
            (Line::Link("eth0".into(), false), "down eth0"),
            (set_text("hostname", "a b"), "configure system hostname \"a b\""),
        ] {
            assert_eq!(line.to_string(), text);
        }
    }

    #[test]
    fn ports_are_quiet_meanwhile_and_have_their_status_again() {
        let statuses = [Status::RxAndTx, Status::RxOnly, Status::TxOnly, Status::Disabled];
        let names: Vec<String> = (0..4).map(|number| format!("p{number}")).collect();
        let status = |name: &String| statuses[names.iter().position(|one| one == name).expect("a port")];
        let lines = unsent(&names, status, vec![Line::Ticks(1)]);
        let wanted = [
            "configure ports p0 lldp status rx-only",
            "configure ports p1 lldp status rx-only",
            "configure ports p2 lldp status disabled",
            "configure ports p3 lldp status disabled",
            "tick",
            "configure ports p0 lldp status rx-and-tx",
            "configure ports p2 lldp status tx-only",
        ];
        assert_eq!(lines.iter().map(Line::to_string).collect::<Vec<_>>(), wanted);
    }
}
