//! Gives the agent a received frame. Records and reports how the neighbors of its port change.

use crate::changes;
use crate::live::Live;
use crate::neighbors::Neighbor;
use crate::reading::Frame;
use crate::watching::Kind;
use lldpa::{Examined, Info, Msap, News};

/// Returns the LLDPDU of a frame, unless it is refused or a shutdown LLDPDU.
fn info_of(frame: &[u8]) -> Option<Info<'_>> {
    match lldpa::examine(lldpa::frame_pdu(frame)?) {
        Ok(Examined::Info(info)) => Some(info),
        _ => None,
    }
}

impl Live {
    /// Gives the agent the seconds before a frame, then the frame.
    pub fn receive(&mut self, frame: &Frame) {
        self.give_seconds(frame.moment);
        let port = &self.ports.all[frame.port];
        let moment = frame.moment.max(self.clock.end_of(0)); // a second may not have waited for it
        self.record.write_frame(moment, &port.name, &frame.octets);
        let lldpdu = self.ports.digests.of_lldpdu(&frame.octets);
        let is_repeated = port.neighbors.iter().any(|one| one.lldpdu == lldpdu);
        // The agent alone examines a repeated frame.
        let info = if is_repeated { None } else { info_of(&frame.octets) };
        // The old LLDPDU is wanted only for a line that will be written.
        let reported = info.as_ref().filter(|_| self.events.have_room(&port.name));
        let before = reported.and_then(|info| self.last_lldpdu(frame.port, &info.msap()));
        let running = match &mut self.running {
            Some(running) => running,
            None => return,
        };
        let (sent, news) = match running.agent.frame_news(frame.port as u8, &frame.octets) {
            Ok(given) => given,
            Err(_) => return,
        };
        self.server.forget_tables();
        self.queue_sent(&sent, frame.moment);
        match (&news, info) {
            (News::Gone(msap), _) => self.remove(frame.port, msap),
            (_, Some(info)) => self.record(frame, lldpdu, &news, &info, before.as_deref()),
            (_, None) => (),
        }
    }

    /// Returns the present LLDPDU of a neighbor.
    fn last_lldpdu(&self, port: usize, msap: &Msap<'_>) -> Option<Vec<u8>> {
        let number = self.ports.all[port].neighbors.iter().position(|one| one.msap() == *msap)?;
        let same = self.running.as_ref()?.agent.neighbors(port as u8).ok()?.nth(number)?;
        same.info().filter(|info| info.msap() == *msap)?;
        Some(same.octets().to_vec())
    }

    /// Records and reports how a frame changed a table. `before` is the neighbor's previous LLDPDU.
    fn record(
        &mut self,
        frame: &Frame,
        lldpdu: u64,
        news: &News<'_>,
        info: &Info<'_>,
        before: Option<&[u8]>,
    ) {
        let summary = if self.arguments.events { changes::summary(info) } else { String::new() };
        let msap = info.msap();
        match news {
            News::New(_) => self.record_new(frame.port, lldpdu, info, summary),
            News::Changed(_) | News::Same(_) => {
                let port = &mut self.ports.all[frame.port];
                if let Some(one) = port.neighbors.iter_mut().find(|one| one.msap() == msap) {
                    one.lldpdu = lldpdu;
                    one.summary = summary.clone();
                }
                if matches!(news, News::Changed(_)) {
                    self.note(frame.port, &msap, Kind::Changed);
                    self.report_changes(frame.port, before, info, &summary);
                }
            }
            News::Dropped(_) => self.record_dropped(frame.port, info.ttl()),
            _ => (),
        }
    }

    fn record_new(&mut self, port: usize, lldpdu: u64, info: &Info<'_>, summary: String) {
        let msap = info.msap();
        self.note(port, &msap, Kind::Came);
        let name = &self.ports.all[port].name;
        self.events.report(name, &format!("{name} came: {summary}"));
        let chassis_number = self.chassis_number(msap.chassis);
        let neighbor = Neighbor::new(&msap, &self.ports.digests, chassis_number, lldpdu, summary);
        self.ports.all[port].neighbors.push(neighbor);
    }

    fn report_changes(&mut self, port: usize, before: Option<&[u8]>, info: &Info<'_>, summary: &str) {
        let changes = match before.map(lldpa::examine) {
            Some(Ok(Examined::Info(old))) => changes::changes(&old, info).join("; "),
            _ => String::new(),
        };
        if !changes.is_empty() {
            let name = &self.ports.all[port].name;
            self.events.report(name, &format!("{name} changed: {summary}; {changes}"));
        }
    }

    /// Notes that a neighbor had no room, and reports it unless another had none just before.
    fn record_dropped(&mut self, port: usize, ttl: u16) {
        let port = &mut self.ports.all[port];
        if port.note_no_room(self.clock.given, ttl) {
            self.events.report(&port.name, &format!("{} has no room for a neighbor", port.name));
        }
    }

    /// Returns the number of a chassis: that of a neighbor with this chassis, else a new number.
    pub fn chassis_number(&mut self, chassis: &[u8]) -> u32 {
        let same = self.ports.neighbors().find(|(_, one)| one.msap().chassis == chassis);
        let same = same.map(|(_, one)| one.chassis_number);
        self.last_chassis += u32::from(same.is_none());
        same.unwrap_or(self.last_chassis)
    }

    /// Removes and reports the neighbors that aged out at the last second.
    pub fn remove_aged(&mut self) {
        for port in 0..self.ports.all.len() {
            let aged = self.running.as_ref().and_then(|running| running.agent.aged(port as u8).ok());
            let aged: Vec<_> = aged.into_iter().flatten().collect();
            aged.iter().filter_map(|one| one.info()).for_each(|info| self.remove(port, &info.msap()));
        }
    }

    /// Removes and reports all neighbors of a port whose table was emptied.
    pub fn remove_all(&mut self, port: usize) {
        self.ports.all[port].full_until = 0;
        for gone in std::mem::take(&mut self.ports.all[port].neighbors) {
            self.tell_gone(port, &gone);
        }
    }

    fn remove(&mut self, port: usize, msap: &Msap<'_>) {
        let neighbors = &mut self.ports.all[port].neighbors;
        if let Some(place) = neighbors.iter().position(|one| one.msap() == *msap) {
            let gone = neighbors.remove(place);
            self.tell_gone(port, &gone);
        }
    }

    fn tell_gone(&mut self, port: usize, gone: &Neighbor) {
        let name = &self.ports.all[port].name;
        self.events.report(name, &format!("{name} gone: {}", gone.summary));
        self.note(port, &gone.msap(), Kind::Gone);
    }

    /// Counts what happened to a neighbor of a port, and notes it for clients.
    fn note(&mut self, port: usize, msap: &Msap<'_>, kind: Kind) {
        let port = &mut self.ports.all[port];
        port.counts.count(kind);
        self.server.note(&port.name, msap, kind);
    }
}
