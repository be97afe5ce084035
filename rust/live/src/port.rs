//! One port: its socket, the interface with its name, its neighbors, and what it counts.

use crate::allowance::Allowances;
use crate::arguments::where_named;
use crate::counters::Counters;
use crate::links::{Link, Mac};
use crate::neighbors::Neighbor;
use crate::packet;
use crate::reports::notice;
use crate::rights::text_of;
use crate::status::Values;
use crate::time::Moment;
use crate::waiting::Awaited;
use crate::watching::Kind;
use std::fmt;
use std::fs::File;
use std::io::Write;

pub struct Port {
    pub name: String,
    /// True if the command line names the port, false if only a pattern selects it.
    pub is_named: bool,
    pub socket: Awaited<File>,
    pub interface: Interface,
    pub reception: Reception,
    pub counts: Counts,
    /// What the agent counts.
    pub counters: Counters,
    /// The neighbors that the agent has at this port, in the same order.
    pub neighbors: Vec<Neighbor>,
    /// The agent's second at which the too-many-neighbors condition ends.
    pub full_until: u64,
    /// True if the last frame could not be sent.
    is_failing: bool,
}

/// The interface with a port's name.
#[derive(Default)]
pub struct Interface {
    /// Its index, if it is in use.
    index: Option<i32>,
    /// Its last address.
    address: Option<Mac>,
    /// Why it is not used, if it is there.
    fault: Option<InterfaceFault>,
    /// True if it was reported as missing, or if a pattern added the port later.
    pub is_awaited: bool,
    /// The state of the link that was last given to the agent.
    pub is_up: Option<bool>,
    /// How often the carrier had changed when the kernel last told it.
    carrier_changes: Option<u32>,
    pub gone_since: Option<Moment>,
}

#[derive(PartialEq, Eq)]
enum InterfaceFault {
    NotEthernet,
    Refused(String),
}

impl fmt::Display for InterfaceFault {
    fn fmt(&self, out: &mut fmt::Formatter<'_>) -> fmt::Result {
        match self {
            InterfaceFault::NotEthernet => write!(out, "not an Ethernet interface, so it is not used"),
            InterfaceFault::Refused(why) => write!(out, "the interface cannot be used: {why}"),
        }
    }
}

/// How an interface in use is lost.
enum Loss {
    Gone,
    Renamed(String),
}

/// How far a port's frames were read.
#[derive(Default)]
pub struct Reception {
    pub allowances: Allowances,
    /// True if unread frames may be left in the socket.
    pub has_more: bool,
    /// All frames up to this moment were read.
    pub read_to: Moment,
    /// When frames were read last.
    pub read_at: Moment,
    /// How often in a row reading the socket has failed.
    pub failures: u32,
    /// Until when the socket is not read, after a frame that was not accepted or a failure.
    pub rests_until: Moment,
}

/// How many frames were lost, and why, and how often the table has changed.
#[derive(Default)]
pub struct Counts {
    pub kernel_drops: u64,
    pub limit_drops: u64,
    pub other_frames: u64,
    pub unsent: u64,
    pub left_out: u64,
    /// How often neighbors came, changed and went.
    pub came: u64,
    pub changed: u64,
    pub gone: u64,
}

impl Counts {
    pub fn count(&mut self, kind: Kind) {
        *match kind {
            Kind::Came => &mut self.came,
            Kind::Changed => &mut self.changed,
            Kind::Gone => &mut self.gone,
        } += 1;
    }
}

impl Port {
    pub fn new(name: &str, is_named: bool, socket: Awaited<File>) -> Port {
        Port {
            name: name.into(),
            is_named,
            socket,
            interface: Interface::default(),
            reception: Reception::default(),
            counts: Counts::default(),
            counters: Counters::default(),
            neighbors: Vec::new(),
            full_until: 0,
            is_failing: false,
        }
    }

    /// Follows a change of an interface. Returns the port's link changes: true for up.
    pub fn follow(&mut self, link: &Link, now: Moment) -> Vec<bool> {
        let mut changes = Vec::new();
        if link.is_there && link.name == self.name {
            if self.interface.index.map_or(false, |index| index != link.index) {
                changes.extend(self.lose_interface(&Loss::Gone, now));
            }
            if self.interface.index.is_none() {
                self.find_interface(link);
            }
            if self.interface.index.is_some() {
                self.interface.gone_since = None;
                self.interface.address = link.address;
                if self.has_missed_change(link) {
                    changes.extend(self.set_link(!link.is_running));
                }
                changes.extend(self.set_link(link.is_running));
            }
        } else if self.interface.index == Some(link.index) {
            let loss = if link.is_there { Loss::Renamed(link.name.clone()) } else { Loss::Gone };
            changes.extend(self.lose_interface(&loss, now));
        }
        changes
    }

    /// Uses an interface if that is possible, and reports it.
    fn find_interface(&mut self, link: &Link) {
        let fault = match packet::receive_from(&self.socket.file, link.index) {
            _ if !link.is_ethernet => Some(InterfaceFault::NotEthernet),
            taken => taken.err().map(|fault| InterfaceFault::Refused(text_of(&fault))),
        };
        match &fault {
            None => {
                self.interface.index = Some(link.index);
                if self.interface.is_up.is_some() || self.interface.is_awaited {
                    notice(&format!("{}: the interface is there, and in use", self.name));
                }
            }
            Some(why) => {
                packet::release(&self.socket.file);
                if fault != self.interface.fault {
                    notice(&format!("{}: {why}", self.name));
                }
            }
        }
        self.interface.fault = fault;
    }

    /// True if the link went and came again, or came and went, and only the count of its changes says
    /// so: the kernel tells the carrier at most once a second.
    fn has_missed_change(&mut self, link: &Link) -> bool {
        let before = self.interface.carrier_changes.replace(link.carrier_changes);
        let is_same = self.interface.is_up == Some(link.is_running);
        let further = before.map(|before| link.carrier_changes.wrapping_sub(before));
        is_same && further.map_or(false, |further| (2..1 << 31).contains(&further))
    }

    fn lose_interface(&mut self, loss: &Loss, now: Moment) -> Option<bool> {
        packet::release(&self.socket.file);
        self.interface.index = None;
        self.interface.carrier_changes = None;
        self.interface.gone_since = Some(now);
        let (what, next) = match loss {
            Loss::Gone => ("gone".into(), "of that name".into()),
            Loss::Renamed(name) => (format!("now {name}"), format!("one named {}", self.name)),
        };
        let further = if self.is_named { format!("; waiting for the next {next}") } else { String::new() };
        notice(&format!("{}: the interface is {what}{further}", self.name));
        self.set_link(false)
    }

    /// Returns the state of the link if that is a change.
    fn set_link(&mut self, is_up: bool) -> Option<bool> {
        let before = self.interface.is_up.replace(is_up);
        (before != Some(is_up)).then_some(is_up)
    }

    /// Reports an interface missing at the start. Returns false (down) if this changes the link.
    pub fn await_missing(&mut self) -> Option<bool> {
        if self.interface.index.is_some() {
            return None;
        }
        if !self.interface.is_awaited && self.interface.fault.is_none() {
            notice(&format!("{}: no such interface yet; waiting for it{}", self.name, where_named()));
        }
        self.set_link(false)
    }

    /// True if the port has an interface.
    pub fn is_present(&self) -> bool {
        self.interface.index.is_some()
    }

    /// True if the port's interface exists but could not be used, and must be tried again.
    pub fn is_refused(&self) -> bool {
        self.interface.index.is_none() && self.interface.fault.is_some()
    }

    /// Sends a frame with the interface's address as source. Counts each failure, but reports only
    /// the first of several in a row.
    pub fn send(&mut self, mut frame: Vec<u8>) {
        if let (Some(address), Some(source)) = (self.interface.address, frame.get_mut(6..12)) {
            source.copy_from_slice(&address);
        }
        let sent = match self.interface.index {
            Some(_) => self.socket.file.write(&frame).map_err(|fault| text_of(&fault)),
            None => Err("there is no such interface now".into()),
        };
        self.counts.unsent += u64::from(sent.is_err());
        let was_failing = std::mem::replace(&mut self.is_failing, sent.is_err());
        if let (Err(why), false) = (sent, was_failing) {
            notice(&format!("{}: a frame was not sent: {why}", self.name));
        }
    }

    /// Notes that in this second of the agent a neighbor had no room, which would have lived so many
    /// seconds. Returns true if that begins the too-many-neighbors condition.
    pub fn note_no_room(&mut self, second: u64, ttl: u16) -> bool {
        let begins = self.full_until <= second;
        self.full_until = self.full_until.max(second + u64::from(ttl));
        begins
    }

    /// Returns what `live` says about this port.
    pub fn status(&self) -> Values {
        vec![
            ("interface", if self.is_present() { "present" } else { "awaited" }.to_string()),
            ("link", if self.interface.is_up == Some(true) { "up" } else { "down" }.to_string()),
            ("kernel-drops", self.counts.kernel_drops.to_string()),
            ("limit-drops", self.counts.limit_drops.to_string()),
            ("other-frames", self.counts.other_frames.to_string()),
            ("unsent", self.counts.unsent.to_string()),
            ("left-out", self.counts.left_out.to_string()),
            ("came", self.counts.came.to_string()),
            ("changed", self.counts.changed.to_string()),
            ("gone", self.counts.gone.to_string()),
        ]
    }
}

#[cfg(test)]
impl Port {
    /// Returns a port that reads any socket, as if it were that of an interface.
    pub fn over(name: &str, socket: File) -> Port {
        let mut port = Port::new(name, true, Awaited::new(socket));
        port.interface.index = Some(1);
        port
    }
}

#[cfg(test)]
mod tests {
    use super::*;

    #[test]
    fn a_change_of_the_carrier_that_the_kernel_did_not_tell_is_counted() {
        let mut port = Port::over("eth0", File::open("/dev/null").expect("a file"));
        let up = |is_running, carrier_changes| Link {
            index: 1,
            name: "eth0".into(),
            is_there: true,
            is_running,
            carrier_changes,
            ..Link::default()
        };
        // what the kernel tells, and the changes of the link
        for (link, wanted) in [
            (up(true, 4), &[true][..]),
            (up(true, 4), &[]),
            (up(true, 5), &[]), // as an interface begins
            (up(false, 6), &[false]),
            (up(false, 7), &[]),
            (up(true, 8), &[true]),
            (up(true, 10), &[false, true]),
            (up(true, 10), &[]),
            (up(true, 15), &[false, true]),
            (up(false, 16), &[false]),
            (up(false, 18), &[true, false]),
            (up(true, 21), &[true]),
            (up(true, 19), &[]), // an older list
            (up(true, 21), &[false, true]),
        ] {
            assert_eq!(port.follow(&link, Moment::default()), wanted, "{}", link.carrier_changes);
        }
    }

    #[test]
    fn too_many_neighbors_are_so_until_the_last_would_be_gone() {
        let mut port = Port::new("eth0", true, Awaited::new(File::open("/dev/null").expect("a file")));
        // the second, a time to live, whether the condition begins, and until when it lasts
        for (second, ttl, begins, until) in [
            (0, 9, true, 9),
            (1, 9, false, 10),
            (2, 3, false, 10),
            (9, 1, false, 10),
            (10, 120, true, 130),
            (129, 65_535, false, 65_664),
        ] {
            assert_eq!((port.note_no_room(second, ttl), port.full_until), (begins, until), "{second}");
        }
    }
}
