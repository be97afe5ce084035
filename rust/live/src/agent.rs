//! The open agent.

use crate::counters::Numbers;
use crate::lines::Line;
use crate::links::Mac;
use crate::options::AgentOptions;
use lldpa::{Agent, OpenFault, Options, Sent, Status};
use std::net::Ipv4Addr;

/// An open agent and the values that it was opened with.
pub struct Running {
    pub agent: Agent,
    /// The names of its ports, in the order of their numbers.
    pub names: Vec<String>,
    pub mac: Mac,
    pub hostname: String,
    management: Option<Ipv4Addr>,
}

impl Running {
    /// Opens an agent and gives it these lines. Frames that its ports want to send are discarded.
    pub fn open(
        options: &AgentOptions,
        names: Vec<String>,
        mac: Mac,
        hostname: String,
        management: Option<Ipv4Addr>,
        lines: &[Line],
    ) -> Result<Running, OpenFault> {
        let ports: Vec<&str> = names.iter().map(String::as_str).collect();
        let agent = Agent::open(&Options {
            ports: &ports,
            hostname: &hostname,
            mac,
            management: management.map(|address| address.octets()),
            ..options.numbers
        })?;
        let mut running = Running { agent, names, mac, hostname, management };
        for line in lines {
            running.give(line);
        }
        Ok(running)
    }

    /// Returns the agent's command line.
    pub fn command_line(&self, options: &AgentOptions) -> String {
        options.command_line(self.mac, &self.hostname, self.management, &self.names)
    }

    /// Returns the number of the port with this name.
    pub fn number(&self, name: &str) -> Option<u8> {
        self.names.iter().position(|port| port == name).map(|number| number as u8)
    }

    /// Returns the status of the port with this name.
    pub fn status_of(&self, name: &str) -> Option<Status> {
        self.number(name).map(|port| self.agent.configuration().status[usize::from(port)])
    }

    /// Gives the agent a line. Returns which ports send a frame. A refused line changes nothing.
    pub fn give(&mut self, line: &Line) -> Vec<Sent> {
        let sent = match line {
            Line::Command(line) => self.agent.command(line).map(|done| done.sent).ok(),
            Line::Frame(name, octets) => {
                self.number(name).and_then(|port| self.agent.frame(port, octets).ok())
            }
            Line::Link(name, is_up) => self.number(name).and_then(|port| self.agent.link(port, *is_up).ok()),
            Line::Ticks(count) => Some(self.give_ticks(*count)),
        };
        sent.unwrap_or_default()
    }

    fn give_ticks(&mut self, mut left: u32) -> Vec<Sent> {
        let mut sent = Vec::new();
        while left > 0 {
            let ticks = self.agent.ticks(left);
            left -= ticks.taken;
            sent.extend(ticks.sent);
        }
        sent
    }

    /// Returns whether the LLDPDUs of all neighbors have less octets together.
    pub fn holds_less_than(&self, octets: usize) -> bool {
        let ports = (0..self.names.len()).map(|number| number as u8);
        let neighbors = ports.flat_map(|number| self.agent.neighbors(number).into_iter().flatten());
        let mut left = octets;
        neighbors.map(|one| one.octets().len()).all(|length| {
            left = left.saturating_sub(length);
            left > 0
        })
    }

    /// Returns what the agent has counted at each port.
    pub fn counted(&self) -> Vec<Numbers> {
        let told = (0..self.names.len()).filter_map(|number| self.agent.statistics(number as u8).ok());
        told.map(|told| told.by_key().map(|(key, number)| (key.into(), number)).collect()).collect()
    }
}
