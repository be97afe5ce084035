//! Lines that bring a new agent to the state of a running one: the settings in force, then each
//! neighbor's last LLDPDU, with the seconds that passed between these LLDPDUs.
//!
//! When the ports or the management address change, a new agent is given these lines, and then
//! replaces the running one (see `replacing`). Each later log file of a session begins with them, so
//! that each file can be replayed alone. A saved state has only those that rebuild the tables.
//!
//! No command sets a neighbor or a condition, so the lines have frames that lead to them:
//! - A table keeps the order in which its neighbors came, but the order of their last LLDPDUs may
//!   differ. So first each neighbor comes with a short LLDPDU, in the order of the table. Then the
//!   last LLDPDUs follow in the order of their arrival, with ticks between them.
//! - The too-many-neighbors condition begins when a neighbor finds no room, and lasts for its time
//!   to live. So the limit is 1 for a moment, a neighbor takes that place, another finds no room, and
//!   the first one goes.

use crate::agent::Running;
use crate::lines::{set_text, unsent, Line};
use crate::packet::LONGEST_FRAME;
use lldpa::{Msap, Status};
use std::cmp::Reverse;

const MOST_TTL: u32 = 65535;
const FRONT: [u8; 14] = [0x01, 0x80, 0xc2, 0, 0, 0x0e, 0, 0, 0, 0, 0, 0, 0x88, 0xcc];
const END: [u8; 2] = [0, 0];

/// Returns the line of a frame with these TLVs.
fn frame(port: &str, tlvs: &[u8]) -> Line {
    let mut frame = [&FRONT[..], tlvs].concat();
    if frame.len() + END.len() <= LONGEST_FRAME {
        frame.extend_from_slice(&END);
    }
    Line::Frame(port.into(), frame)
}

/// Returns the line of an LLDPDU with only these identifiers and this time to live.
fn short_frame(port: &str, msap: &Msap<'_>, ttl: u32) -> Line {
    let mut tlvs = Vec::new();
    for (kind, body) in [(1u16, msap.chassis), (2, msap.port), (3, &(ttl as u16).to_be_bytes()[..])] {
        tlvs.extend_from_slice(&(kind << 9 | body.len() as u16).to_be_bytes());
        tlvs.extend_from_slice(body);
    }
    frame(port, &tlvs)
}

fn set_limit(neighbors: u32) -> Line {
    Line::Command(format!("configure lldp max-neighbors {neighbors}"))
}

/// Returns lines that begin the too-many-neighbors condition of a port, for so many seconds.
fn fill(port: &str, seconds: u32) -> [Line; 4] {
    let frame = |name: &'static [u8], ttl| short_frame(port, &Msap { chassis: name, port: name }, ttl);
    [
        set_limit(1),
        frame(b"\x07held", MOST_TTL),
        frame(b"\x07dropped", MOST_TTL.min(seconds)),
        frame(b"\x07held", 0),
    ]
}

impl Running {
    /// Returns lines that rebuild the tables of these ports, and how many seconds pass in these
    /// lines.
    pub fn table_lines(&self, names: &[String]) -> (Vec<Line>, u32) {
        let (mut lines, mut last) = (Vec::new(), Vec::new());
        for (port, name) in self.names.iter().enumerate().filter(|one| names.contains(one.1)) {
            for one in self.agent.neighbors(port as u8).into_iter().flatten() {
                if let Some(info) = one.info() {
                    lines.push(short_frame(name, &info.msap(), MOST_TTL));
                    let age = u32::from(info.ttl()).saturating_sub(one.left());
                    last.push((age, frame(name, one.octets())));
                }
            }
        }
        last.sort_by_key(|one| Reverse(one.0));
        let oldest = last.first().map_or(0, |one| one.0);
        let mut now = oldest;
        for (age, line) in last {
            lines.extend((now > age).then(|| Line::Ticks(now - age)));
            lines.push(line);
            now = age;
        }
        lines.extend((now > 0).then_some(Line::Ticks(now)));
        (lines, oldest)
    }

    /// Returns lines that bring a new agent of these ports to this agent's state. They send no
    /// frame. Ports that this agent lacks get the status `new`. `full` has the ports in the
    /// too-many-neighbors condition and the seconds until its end, `downs` those without a link.
    pub fn head(&self, names: &[String], new: Status, full: &[(String, u32)], downs: &[String]) -> Vec<Line> {
        let (configuration, chassis) = (self.agent.configuration(), self.agent.chassis());
        let (tables, passed) = self.table_lines(names);
        let mut lines = Vec::new();
        // No command can set a name with a quotation mark.
        let name = Some(&chassis.hostname).filter(|name| !name.contains('"'));
        lines.extend(name.map(|name| set_text("hostname", name)));
        lines.push(set_text("description", &chassis.description));
        lines.push(Line::Command(format!("configure lldp tx-interval {}", configuration.interval)));
        lines.push(Line::Command(format!("configure lldp tx-hold {}", configuration.hold)));
        for (port, left) in full {
            lines.extend(fill(port, left.saturating_add(passed)));
        }
        lines.push(set_limit(configuration.max_neighbors));
        lines.extend(tables);
        let mut lines = unsent(names, |name| self.status_of(name).unwrap_or(new), lines);
        lines.extend(downs.iter().map(|port| Line::Link(port.clone(), false)));
        lines
    }
}

#[cfg(test)]
mod tests {
    use super::*;
    use crate::options::AgentOptions;
    use lldpa::Show;

    fn names(text: &str) -> Vec<String> {
        text.split(' ').map(String::from).collect()
    }

    fn opened(ports: &str, lines: &[Line]) -> Running {
        let options = AgentOptions::read(&["--max-neighbors=8".to_string()]).expect("options");
        let running = Running::open(&options, names(ports), [2; 6], "host".into(), None, lines);
        running.expect("an agent")
    }

    fn neighbor(port: &str, number: u8, ttl: u32) -> Line {
        let (chassis, id) = ([4, 2, 0, 0, 0, 0, number], [5, b'p', number]);
        short_frame(port, &Msap { chassis: &chassis, port: &id }, ttl)
    }

    fn all(running: &Running) -> String {
        let shows = [Show::Neighbors, Show::Configuration, Show::Chassis];
        shows.iter().map(|show| running.agent.show(*show)).collect()
    }

    /// An agent whose settings, tables and conditions all differ from those of a new one.
    fn changed() -> Running {
        let commands = [
            "configure system hostname \"a\\b c\"",
            "configure system description \"\"",
            "configure lldp tx-interval 7",
            "configure lldp tx-hold 9",
            "configure lldp max-neighbors 3",
            "configure ports eth1 lldp status rx-only",
            "configure ports eth2 lldp status tx-only",
            "configure ports eth3 lldp status disabled",
        ];
        let commands = commands.iter().map(|line| Line::Command(line.to_string()));
        let frames = [
            neighbor("eth0", 1, 100),
            Line::Ticks(5),
            neighbor("eth0", 2, 65535),
            neighbor("eth1", 3, 50),
            Line::Ticks(10),
            neighbor("eth0", 1, 200), // the first one speaks again
            neighbor("eth1", 4, 70),
            Line::Ticks(3),
            Line::Link("eth1".into(), false),
        ];
        let lines: Vec<Line> = commands.chain(frames).collect();
        opened("eth0 eth1 eth2 eth3", &lines)
    }

    #[test]
    fn a_new_agent_comes_to_the_same_state() {
        let running = changed();
        let head = running.head(&running.names, Status::RxAndTx, &[], &["eth1".into()]);
        let mut next = opened("eth0 eth1 eth2 eth3", &head);
        let mut running = running;
        for seconds in [0, 29, 3, 4, 60, 70, 40] {
            running.give(&Line::Ticks(seconds));
            next.give(&Line::Ticks(seconds));
            assert_eq!(all(&next), all(&running), "after {seconds} further seconds");
        }
    }

    #[test]
    fn ports_may_go_and_come() {
        let running = changed();
        let ports = names("eth1 eth9 eth0");
        for new in [Status::RxAndTx, Status::RxOnly] {
            let next = opened("eth1 eth9 eth0", &running.head(&ports, new, &[], &[]));
            assert_eq!(next.status_of("eth9"), Some(new));
            assert_eq!(next.status_of("eth1"), Some(Status::RxOnly));
            for (port, count) in [("eth0", 2), ("eth1", 2), ("eth9", 0)] {
                let number = next.number(port).expect("a port");
                assert_eq!(next.agent.neighbors(number).expect("a port").len(), count, "{port}");
            }
        }
    }

    #[test]
    fn the_lines_send_no_frame() {
        let running = changed();
        let lines = running.head(&running.names, Status::RxAndTx, &[("eth0".into(), 9)], &[]);
        let mut next = opened("eth0 eth1 eth2 eth3", &[]);
        let _ = next.agent.ticks(1); // the first frames are sent at the start
        let quiet = lines.iter().position(|line| matches!(line, Line::Frame(..))).expect("a frame");
        let resumed = lines.iter().rposition(|line| matches!(line, Line::Frame(..) | Line::Ticks(_)));
        for (number, line) in lines.iter().enumerate() {
            let sent = next.give(line);
            let is_between = number >= quiet && Some(number) <= resumed;
            assert!(!is_between || sent.is_empty(), "{line}");
        }
    }

    #[test]
    fn too_many_neighbors_are_as_many_seconds_too_many() {
        let running = changed();
        let full = [("eth0".to_string(), 20), ("eth1".to_string(), 40)];
        let mut next =
            opened("eth0 eth1 eth2 eth3", &running.head(&running.names, Status::RxAndTx, &full, &[]));
        let is_full = |running: &Running, port: &str| {
            running.agent.show(Show::Neighbors).contains(&format!("lldp.{port}.too-many=yes"))
        };
        for (seconds, eth0, eth1) in [(0, true, true), (19, true, true), (1, false, true), (19, false, true)]
        {
            next.give(&Line::Ticks(seconds));
            assert_eq!((is_full(&next, "eth0"), is_full(&next, "eth1")), (eth0, eth1), "{seconds}");
        }
        next.give(&Line::Ticks(1));
        assert!(!is_full(&next, "eth1") && !is_full(&running, "eth0"));
        assert_eq!(next.agent.configuration().max_neighbors, 3);
    }

    #[test]
    fn a_frame_has_an_end_if_there_is_room() {
        for (length, whole) in [(0, 16), (1498, 1514), (1499, 1513), (1500, 1514)] {
            match frame("eth0", &vec![0; length]) {
                Line::Frame(_, octets) => assert_eq!(octets.len(), whole, "{length}"),
                line => panic!("{line}"),
            }
        }
    }
}
