//! Opens the agent as soon as there is a port and a MAC address for the chassis ID. Then gives it
//! the settings, the neighbors of an earlier lldpa-live, and the state of the links.

use crate::agent::Running;
use crate::arguments::where_named;
use crate::changes;
use crate::identifiers;
use crate::identity::chassis_address;
use crate::lines::{set_text, unsent, Line};
use crate::links::Link;
use crate::live::Live;
use crate::neighbors::Neighbor;
use crate::options::is_text;
use crate::reports::notice;
use crate::state::Saved;
use crate::time::Clock;
use crate::watching::Kind;
use lldpa::{OpenFault, Status};

impl Live {
    /// Opens the agent without a saved state. If it cannot be opened, another try follows.
    pub fn try_to_open(&mut self) {
        if let Err(fault) = self.open(&Saved::default()) {
            self.try_later(&format!("the agent cannot be opened: {fault}; lldpa-live tries again"));
        }
    }

    /// Opens the agent, with the saved neighbors, if there is a port and a MAC address for the
    /// chassis ID. Otherwise reports that lldpa-live waits for an interface.
    pub fn open(&mut self, saved: &Saved) -> Result<(), OpenFault> {
        for name in self.ports.further(&self.arguments.selectors, &self.links) {
            self.ports.add(&name);
        }
        let names = self.ports.names();
        let mac = self.arguments.agent.mac.or_else(|| chassis_address(&names, &self.links));
        let mac = match mac.filter(|_| !names.is_empty()) {
            Some(mac) => mac,
            None => {
                self.report_waiting();
                return Ok(());
            }
        };
        self.arguments.agent.mac = Some(mac);
        self.announced.management = self.present_address();
        let given = self.arguments.agent.hostname.clone();
        let hostname = given.unwrap_or_else(|| self.announced.wanted_name.clone());
        let hostname = if is_text(&hostname) { hostname } else { String::new() };
        self.announced.name = hostname.clone();
        let (options, management) = (&self.arguments.agent, self.announced.management);
        let running = Running::open(options, names, mac, hostname, management, &[])?;
        self.record.begin(&running.command_line(options), &[]);
        self.running = Some(running);
        self.clock = Clock::new();
        self.begin(saved);
        Ok(())
    }

    /// Gives a new agent the settings, the saved neighbors, and the state of the links.
    fn begin(&mut self, saved: &Saved) {
        if let Some(text) = self.announced.description.clone() {
            let _ = self.command(set_text("description", &text).to_string());
        }
        self.apply_settings();
        self.restore(saved);
        self.count_from_here(&self.ports.names(), &saved.counters);
        self.follow_known_links();
        for number in 0..self.ports.all.len() {
            if let Some(is_up) = self.ports.all[number].await_missing() {
                self.give_link(number, is_up);
            }
        }
        self.send();
        self.events.are_wanted = self.arguments.events;
        self.following.note_all(&self.links);
        self.report_address();
        self.manager.send("READY=1");
    }

    /// Reports once that lldpa-live waits for an interface.
    pub fn report_waiting(&mut self) {
        if self.following.is_wait_reported {
            return;
        }
        self.following.is_wait_reported = true;
        self.ports.all.iter_mut().for_each(|port| port.interface.is_awaited = true);
        let (awaited, place) = (self.arguments.awaited(), where_named());
        let named = self.arguments.selectors.iter().filter_map(|name| self.links.named(name));
        let what = what_is_missing(&named.collect::<Vec<_>>());
        notice(&match self.arguments.selectors.is_empty() {
            true => format!("no name that was given can be a port, so nothing is sent or received{place}"),
            false => {
                let until = "waiting for one, and until then nothing is sent or received";
                format!("{awaited}: {what}; {until}{place}")
            }
        });
        self.manager.send("READY=1"); // so that it does not hold up the start of the system
        self.manager.set_status(format!("waiting for an interface: {awaited}{place}"));
    }

    /// Gives the agent the neighbors of an earlier lldpa-live. Sends and reports nothing.
    fn restore(&mut self, saved: &Saved) {
        let running = match &mut self.running {
            Some(running) if !saved.lines.is_empty() => running,
            _ => return,
        };
        let is_able = |name: &String| {
            let is_running = self.links.named(name).map_or(false, |link| link.is_running);
            running.names.contains(name) && (is_running || !self.arguments.forget_on_down)
        };
        let is_ours = |line: &&Line| !matches!(line, Line::Frame(port, _) if !is_able(port));
        let mut lines: Vec<Line> = saved.lines.iter().filter(is_ours).cloned().collect();
        if saved.age > 0 {
            lines.push(Line::Ticks(saved.age));
        }
        let status = |name: &String| running.status_of(name).unwrap_or(Status::Disabled);
        let lines = unsent(&running.names, status, lines);
        for line in &lines {
            running.give(line);
        }
        self.record.write_lines(&lines);
        for number in 0..self.ports.all.len() {
            self.record_restored(number, saved);
        }
    }

    /// Records the neighbors that the agent has at a port after their tables were restored.
    fn record_restored(&mut self, number: usize, saved: &Saved) {
        let agent = self.running.as_ref().map(|running| &running.agent);
        let neighbors = agent.and_then(|agent| agent.neighbors(number as u8).ok());
        let neighbors: Vec<_> = neighbors.into_iter().flatten().collect();
        for info in neighbors.iter().filter_map(|one| one.info()) {
            let (msap, frame) = (info.msap(), [&[0; 14], info.octets(), &[0, 0]].concat());
            let chassis_number = self.chassis_number(msap.chassis);
            let digests = &self.ports.digests;
            let (lldpdu, summary) = (digests.of_lldpdu(&frame), changes::summary(&info));
            let mut neighbor = Neighbor::new(&msap, digests, chassis_number, lldpdu, summary);
            let port = &mut self.ports.all[number];
            let name = (port.name.clone(), identifiers::id(&msap));
            neighbor.came = saved.arrivals.get(&name).copied().unwrap_or(neighbor.came);
            self.server.note(&port.name, &msap, Kind::Came);
            port.neighbors.push(neighbor);
        }
    }
}

/// Returns why none of the interfaces that were asked for can be used. These are there.
fn what_is_missing(found: &[&Link]) -> &'static str {
    match found.len() {
        0 => "no such interface yet",
        _ if found.iter().any(|link| link.is_ethernet) => "no such interface with a MAC address yet",
        _ => "no such Ethernet interface yet, and lldpa-live runs on no others",
    }
}

#[cfg(test)]
mod tests {
    use super::*;

    #[test]
    fn an_interface_that_is_there_is_not_called_missing() {
        let link = |is_ethernet| Link { is_ethernet, ..Link::default() };
        let (lo, eth0) = (link(false), link(true));
        let (missing, other) =
            ("no such interface yet", "no such Ethernet interface yet, and lldpa-live runs on no others");
        let without_address = "no such interface with a MAC address yet";
        for (found, wanted) in [
            (&[][..], missing),
            (&[&lo], other),
            (&[&lo, &lo], other),
            (&[&eth0], without_address),
            (&[&lo, &eth0], without_address),
        ] {
            assert_eq!(what_is_missing(found), wanted);
        }
    }
}
