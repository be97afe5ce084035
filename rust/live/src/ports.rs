//! Which ports there are: those that the command line names, and those that patterns select.

use crate::arguments::Arguments;
use crate::drops::DropReport;
use crate::links::Links;
use crate::neighbors::{Digests, Neighbor};
use crate::packet::{self, Rooms, LONGEST_FRAME, ROOMS};
use crate::patterns;
use crate::port::Port;
use crate::reading::Frame;
use crate::reports::warn;
use crate::share::Share;
use crate::time::{processor_time, Moment};
use crate::waiting::Awaited;
use std::collections::VecDeque;
use std::fs::File;
use std::io::Result;

pub const MOST_PORTS: usize = 64;
const MOST_SHOWN: usize = 8; // interfaces that a report names

pub struct Ports {
    pub all: Vec<Port>,
    /// Sockets for later ports: opening one needs a right that is given up.
    pub spare: Vec<Awaited<File>>,
    pub rooms: Box<Rooms>,
    /// Frames that were read but not yet given to the agent, in the order of their moments.
    pub frames: VecDeque<Frame>,
    /// The port that is read first in the next turn.
    pub first: usize,
    /// The processor time that is left for received frames.
    pub share: Share,
    pub digests: Digests,
    /// Interfaces that match a pattern but are not ports, since 64 ports are in use.
    refused: Vec<String>,
    /// How many words of the command line can name no port, or no further one.
    unusable: usize,
    pub drop_reports: [DropReport; 2],
    /// When to look for drops next.
    pub drop_report_at: Option<Moment>,
}

impl Ports {
    /// Opens a socket for each of these ports and, if `may_grow`, for ports that may come later.
    pub fn open(names: &[String], arguments: &Arguments, may_grow: bool) -> Result<Ports> {
        let count = if may_grow { MOST_PORTS } else { names.len() };
        let sockets = (0..count).map(|_| packet::open(count).map(Awaited::new));
        let mut sockets = sockets.collect::<Result<Vec<_>>>()?;
        let own = sockets.drain(..names.len()).zip(names);
        let all =
            own.map(|(socket, name)| Port::new(name, arguments.selectors.contains(name), socket)).collect();
        Ok(Ports {
            all,
            spare: sockets,
            rooms: Box::new([[0; LONGEST_FRAME]; ROOMS]),
            frames: VecDeque::new(),
            first: 0,
            share: Share::new(processor_time()),
            digests: Digests::default(),
            refused: Vec::new(),
            unusable: arguments.refused.len(),
            drop_reports: DropReport::of_each_kind(),
            drop_report_at: None,
        })
    }

    pub fn names(&self) -> Vec<String> {
        self.all.iter().map(|port| port.name.clone()).collect()
    }

    /// Returns all neighbors, each with the name of its port.
    pub fn neighbors(&self) -> impl Iterator<Item = (&str, &Neighbor)> {
        self.all.iter().flat_map(|port| port.neighbors.iter().map(move |one| (&port.name[..], one)))
    }

    /// Returns interfaces that patterns select and that are not ports yet, up to the limit of
    /// ports. Reports each interface over the limit once.
    pub fn further(&mut self, selectors: &[String], links: &Links) -> Vec<String> {
        let mut further = patterns::ports_of(selectors, links);
        further.retain(|name| !self.all.iter().any(|port| port.name == *name));
        let refused = further.split_off(further.len().min(self.spare.len()));
        let new: Vec<&str> =
            refused.iter().filter(|name| !self.refused.contains(name)).map(String::as_str).collect();
        text_of_refused(&new).iter().for_each(|text| warn(text));
        self.refused = refused;
        further
    }

    /// Returns how many interfaces and names are refused: without a socket, or not able to be a port.
    pub fn count_refused(&self) -> usize {
        let unable = self.all.iter().filter(|port| port.is_refused()).count();
        self.refused.len() + self.unusable + unable
    }

    /// Adds a port for an interface that a pattern selects, if a socket is left.
    pub fn add(&mut self, name: &str) {
        if self.spare.is_empty() {
            return;
        }
        let mut port = Port::new(name, false, self.spare.remove(0));
        port.interface.is_awaited = true;
        self.all.push(port);
    }

    /// Returns the ports that only a pattern gave and whose interfaces are gone.
    pub fn gone(&self) -> Vec<String> {
        let is_gone = |port: &&Port| !port.is_named && port.interface.gone_since.is_some();
        self.all.iter().filter(is_gone).map(|port| port.name.clone()).collect()
    }

    /// Removes ports. Their sockets serve later ones.
    pub fn remove(&mut self, names: &[String]) {
        while let Some(number) = self.all.iter().position(|port| names.contains(&port.name)) {
            self.spare.push(self.all.remove(number).socket);
            self.frames.retain(|frame| frame.port != number);
            self.frames.iter_mut().filter(|frame| frame.port > number).for_each(|frame| frame.port -= 1);
        }
    }
}

/// Returns the report of interfaces that found no place. None without an interface.
fn text_of_refused(names: &[&str]) -> Option<String> {
    let why = format!("{MOST_PORTS} ports are in use, so");
    let shown = names[..names.len().min(MOST_SHOWN)].join(", ");
    match names.len() {
        0 => None,
        1 => Some(format!("{shown}: {why} this interface is not used")),
        2..=MOST_SHOWN => Some(format!("{shown}: {why} these interfaces are not used")),
        count => {
            Some(format!("{shown} and {} more: {why} these interfaces are not used", count - MOST_SHOWN))
        }
    }
}

#[cfg(test)]
mod tests {
    use super::*;

    #[test]
    fn many_interfaces_without_a_place_make_one_line() {
        let names: Vec<String> = (0..236).map(|number| format!("p{number}")).collect();
        let names: Vec<&str> = names.iter().map(String::as_str).collect();
        let (why, these) = ("64 ports are in use, so", "these interfaces are not used");
        for (count, wanted) in [
            (1, format!("p0: {why} this interface is not used")),
            (2, format!("p0, p1: {why} {these}")),
            (8, format!("p0, p1, p2, p3, p4, p5, p6, p7: {why} {these}")),
            (236, format!("p0, p1, p2, p3, p4, p5, p6, p7 and 228 more: {why} {these}")),
        ] {
            assert_eq!(text_of_refused(&names[..count]), Some(wanted), "{count}");
        }
        assert_eq!(text_of_refused(&[]), None);
    }

    #[test]
    fn only_a_port_that_a_pattern_gave_goes_with_its_interface() {
        let mut ports = Ports::open(&[], &Arguments::default(), false).expect("no sockets");
        let socket = || Awaited::new(File::open("/dev/null").expect("a file"));
        ports.all.push(Port::new("eth0", true, socket()));
        ports.add("eth1");
        assert_eq!(ports.names(), ["eth0"], "no socket is left");
        ports.spare.push(socket());
        ports.add("eth1");
        ports.all.iter_mut().for_each(|port| port.interface.gone_since = Some(Moment::default()));
        assert_eq!((ports.names(), ports.gone()), (vec!["eth0".into(), "eth1".into()], vec!["eth1".into()]));
        ports.frames.extend([0, 1].map(|port| Frame { moment: Moment::default(), port, octets: Vec::new() }));
        ports.remove(&["eth0".to_string()]);
        assert_eq!((ports.names(), ports.spare.len()), (vec!["eth1".to_string()], 1));
        assert_eq!(ports.frames.iter().map(|frame| frame.port).collect::<Vec<_>>(), [0]);
    }
}
