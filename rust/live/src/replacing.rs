//! Replaces the agent. An agent is opened with its ports and its management address, and neither
//! can be changed later. So if one of these changes, lldpa-live opens another agent beside the
//! present one, gives it lines that bring it to the same state, and then closes the present one. To
//! neighbors and clients nothing has changed: no frame is sent, and no neighbor goes.
//!
//! What is rebuilt: the name and the description, which commands may have set; the transmit
//! interval, the hold and the limit of neighbors; each port's status and link; each neighbor with
//! its last LLDPDU and the time that is left to it, in the order of arrival; and the
//! too-many-neighbors condition. `Running::head` makes these lines.
//!
//! What cannot be rebuilt: the agent's counters, which begin at 0 and also count the lines that
//! rebuild the tables. So lldpa-live remembers for each port what to add (see `counters`).

use crate::agent::Running;
use crate::counters::Numbers;
use crate::lines::Line;
use crate::live::Live;
use crate::state::State;
use lldpa::Status;
use std::collections::HashMap;
use std::net::Ipv4Addr;

/// Octets of memory that replacing an agent takes, beside those of the agent itself: for each
/// neighbor the octets of its LLDPDU in the lines and in text, and for all else.
const FOR_A_NEIGHBOR: usize = 8192;
const FOR_ALL: usize = 1 << 20;

impl Live {
    /// Replaces the agent with one for these ports and this address. If the new one cannot be
    /// opened, returns false and keeps the present one.
    pub fn replace(&mut self, names: Vec<String>, management: Option<Ipv4Addr>) -> bool {
        let what = "a new agent for the changed ports or address cannot be opened";
        let kept = "the old one stays, and lldpa-live tries again";
        if !self.has_memory() {
            self.try_later(&format!("{what}: no memory; {kept}"));
            return false;
        }
        let (lines, options) = (self.head(&names), &self.arguments.agent);
        let (mac, hostname) = match &self.running {
            Some(running) => (running.mac, running.hostname.clone()),
            None => return false,
        };
        match Running::open(options, names, mac, hostname, management, &lines) {
            Ok(next) => {
                self.record.begin(&next.command_line(options), &lines);
                self.go_on_counting(&next);
                self.running = Some(next);
                self.server.forget_tables();
                true
            }
            Err(fault) => {
                self.try_later(&format!("{what}: {fault}; {kept}"));
                false
            }
        }
    }

    /// True if there is memory for the lines that rebuild the tables, and for what they need beside
    /// them. Without it a later request for memory would end the process.
    fn has_memory(&self) -> bool {
        let count = self.ports.neighbors().count();
        let mut room: Vec<u8> = Vec::new();
        room.try_reserve_exact(memory_for(count)).is_ok()
    }

    /// Lets the counters go on when another agent, which was just rebuilt, replaces this one.
    fn go_on_counting(&mut self, next: &Running) {
        let (first, last) = (next.counted(), self.running.as_ref().map_or(Vec::new(), Running::counted));
        for (port, last) in self.ports.all.iter_mut().zip(&last) {
            if let Some(first) = next.number(&port.name).and_then(|number| first.get(usize::from(number))) {
                port.counters.go_on(last, first);
            }
        }
    }

    /// Lets the counters of new ports begin at these numbers, or else at 0: the agent has counted what rebuilt its
    /// tables.
    pub fn count_from_here(&mut self, names: &[String], saved: &HashMap<String, Numbers>) {
        let first = self.running.as_ref().map_or(Vec::new(), Running::counted);
        let ports = self.ports.all.iter_mut().zip(&first);
        ports
            .filter(|(port, _)| names.contains(&port.name))
            .for_each(|(port, first)| port.counters.begin(saved.get(&port.name), first));
    }

    /// Returns the lines that bring a new agent of these ports to the state of the present one.
    pub fn head(&self, names: &[String]) -> Vec<Line> {
        let is_quiet = self.arguments.agent.numbers.receive_only;
        let new = if is_quiet { Status::RxOnly } else { Status::RxAndTx };
        let (mut full, mut downs) = (Vec::new(), Vec::new());
        for port in self.ports.all.iter().filter(|port| names.contains(&port.name)) {
            let left = port.full_until.saturating_sub(self.clock.given);
            if left > 0 {
                full.push((port.name.clone(), u32::try_from(left).unwrap_or(u32::MAX)));
            }
            if port.interface.is_up == Some(false) {
                downs.push(port.name.clone());
            }
        }
        self.running.as_ref().map_or(Vec::new(), |running| running.head(names, new, &full, &downs))
    }

    /// Saves the state for the next lldpa-live. True if it is saved.
    pub fn save_state(&mut self) -> bool {
        let state = self.state();
        self.slots.as_mut().zip(state).map_or(false, |(slots, state)| slots.write(state))
    }

    /// Returns the present state for the next lldpa-live. None if it is not wanted.
    fn state(&self) -> Option<State> {
        let running = self.running.as_ref().filter(|_| self.slots.is_some())?;
        let arrivals = self.ports.neighbors().map(|(port, one)| {
            let msap = one.msap();
            ((port.into(), msap.chassis.to_vec(), msap.port.to_vec()), one.came)
        });
        let (lines, _) = running.table_lines(&running.names);
        Some(State::new(arrivals.collect(), self.totals(None), lines))
    }
}

/// Returns how many octets of memory replacing an agent with so many neighbors takes at most.
fn memory_for(neighbors: usize) -> usize {
    FOR_A_NEIGHBOR * neighbors + FOR_ALL
}

#[cfg(test)]
mod tests {
    use super::*;

    #[test]
    fn more_neighbors_need_more_memory() {
        for (neighbors, memory) in [(0, 1_048_576), (1, 1_056_768), (8192, 68_157_440)] {
            assert_eq!(memory_for(neighbors), memory);
        }
    }
}
