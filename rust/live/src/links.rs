//! Follows the interfaces of this network namespace and their global IPv4 addresses. Needs no
//! rights. Ignores malformed messages. (linux: netlink.h, rtnetlink.h, if_link.h, if_addr.h)

use crate::netlink::{address_of, link_of, messages};
use crate::sys::sockets;
use crate::waiting::Awaited;
use libc::{RTM_DELADDR, RTM_DELLINK, RTM_GETADDR, RTM_GETLINK, RTM_NEWADDR, RTM_NEWLINK};
use std::collections::BTreeMap;
use std::fs::File;
use std::io::{ErrorKind, Read, Result, Write};
use std::net::Ipv4Addr;

const GROUPS: i32 = libc::RTMGRP_LINK | libc::RTMGRP_IPV4_IFADDR;
const REQUEST_DUMP: u16 = (libc::NLM_F_REQUEST | libc::NLM_F_DUMP) as u16;
const ERROR: u16 = libc::NLMSG_ERROR as u16;
const DONE: u16 = libc::NLMSG_DONE as u16;
const LONGEST_MESSAGE: usize = 65536;
const AF_INET: u8 = libc::AF_INET as u8;

pub type Mac = [u8; 6];

/// An interface as it is, or as it was when it was removed.
#[derive(Clone, Debug, Default, PartialEq, Eq)]
pub struct Link {
    pub index: i32,
    pub name: String,
    pub is_there: bool,
    pub is_running: bool,
    pub is_ethernet: bool,
    /// True for a device or a switch's port (kind `dsa`), false for an interface made by software.
    pub is_hardware: bool,
    pub address: Option<Mac>,
    pub permanent: Option<Mac>,
    /// The index of the bond, team or bridge above it, or 0.
    pub master: i32,
    /// The index of the interface that this one is on, as a VLAN or a macvlan is, or 0.
    pub lower: i32,
    /// How often the carrier came or went. The kernel tells it at most once a second.
    pub carrier_changes: u32,
}

/// The known interfaces and addresses, each with the value of `list` when it was last reported.
pub struct Links {
    pub socket: Awaited<File>,
    room: Vec<u8>,
    pub known: BTreeMap<i32, (Link, u64)>,
    /// The addresses with the indexes of their interfaces, in the kernel's order.
    pub addresses: Vec<((i32, Ipv4Addr), u64)>,
    /// Counts the changes of interfaces and addresses.
    pub changes: u64,
    /// The number of the last request for lists of all interfaces and addresses.
    list: u64,
    /// How many lists are still to come: first the interfaces, then the addresses.
    lists_to_come: u8,
    is_stale: bool,
}

impl Links {
    pub fn open() -> Result<Links> {
        let mut links = Links::over(sockets::open_netlink(GROUPS)?);
        links.ask()?;
        while links.lists_to_come > 0 {
            links.read()?; // never waits: the kernel makes a list while it is read
        }
        Ok(links)
    }

    pub fn over(socket: File) -> Links {
        let (socket, known, addresses) = (Awaited::new(socket), BTreeMap::new(), Vec::new());
        let room = vec![0; LONGEST_MESSAGE];
        Links { socket, room, known, addresses, changes: 0, list: 0, lists_to_come: 0, is_stale: false }
    }

    /// Requests a list of all interfaces, to be read like news. A list of addresses follows it.
    fn ask(&mut self) -> Result<()> {
        self.list += 1;
        self.lists_to_come = 2;
        self.is_stale = false;
        self.request(RTM_GETLINK, &[0; 16])
    }

    fn request(&mut self, kind: u16, body: &[u8]) -> Result<()> {
        let mut message = (16 + body.len() as u32).to_ne_bytes().to_vec();
        message.extend_from_slice(&[kind, REQUEST_DUMP].map(u16::to_ne_bytes).concat());
        message.extend_from_slice(&[0; 8]);
        message.extend_from_slice(body);
        self.socket.file.write_all(&message)
    }

    /// Returns the news of interfaces, in order. If the kernel lost some, requests the lists again.
    pub fn read(&mut self) -> Result<Vec<Link>> {
        let mut news = Vec::new();
        let mut room = std::mem::take(&mut self.room);
        let result = loop {
            match self.socket.file.read(&mut room) {
                Ok(length) => {
                    messages(&room[..length]).for_each(|(kind, body)| self.handle(kind, body, &mut news))
                }
                Err(fault) if fault.kind() == ErrorKind::WouldBlock => break Ok(()),
                Err(fault) if fault.raw_os_error() == Some(libc::ENOBUFS) => self.is_stale = true,
                Err(fault) => break Err(fault),
            }
            let asked = if self.is_stale && self.lists_to_come == 0 { self.ask() } else { Ok(()) };
            if asked.is_err() {
                break asked;
            }
        };
        self.room = room;
        result.map(|()| news)
    }

    /// Handles a message. Adds its news of an interface.
    pub fn handle(&mut self, kind: u16, body: &[u8], news: &mut Vec<Link>) {
        match kind {
            RTM_NEWLINK | RTM_DELLINK => {
                if let Some(link) = link_of(body, kind == RTM_NEWLINK) {
                    self.note(&link);
                    news.push(link);
                }
            }
            RTM_NEWADDR | RTM_DELADDR => {
                if let Some(address) = address_of(body) {
                    self.note_address(address, kind == RTM_NEWADDR);
                }
            }
            DONE => self.end_list(news),
            ERROR => {
                self.is_stale = true; // the list was not begun, since another was under way
                self.lists_to_come = 0;
            }
            _ => (),
        }
    }

    /// Handles the end of a list: interfaces or addresses that the list lacks are gone.
    fn end_list(&mut self, news: &mut Vec<Link>) {
        self.lists_to_come = if self.is_stale { 0 } else { self.lists_to_come.saturating_sub(1) };
        let list = self.list;
        if self.is_stale {
            return; // it may be incomplete, and is requested again
        }
        if self.lists_to_come > 0 {
            let unseen = self.known.values().filter(|one| one.1 < list).map(|one| one.0.clone());
            for link in unseen.collect::<Vec<_>>() {
                let gone = Link { is_there: false, is_running: false, ..link };
                self.note(&gone);
                news.push(gone);
            }
            self.is_stale = self.request(RTM_GETADDR, &[AF_INET, 0, 0, 0, 0, 0, 0, 0]).is_err();
        } else {
            let count = self.addresses.len();
            self.addresses.retain(|one| one.1 == list);
            self.changes += (count - self.addresses.len()) as u64;
        }
    }

    fn note(&mut self, link: &Link) {
        self.changes += 1;
        if link.is_there {
            self.known.insert(link.index, (link.clone(), self.list));
        } else {
            self.known.remove(&link.index);
        }
    }

    fn note_address(&mut self, address: (i32, Ipv4Addr), is_there: bool) {
        let known = self.addresses.iter_mut().find(|one| one.0 == address);
        self.changes += u64::from(is_there != known.is_some());
        match known {
            Some(known) if is_there => known.1 = self.list,
            Some(_) => self.addresses.retain(|one| one.0 != address),
            None if is_there => self.addresses.push((address, self.list)),
            None => (),
        }
    }

    pub fn all(&self) -> impl Iterator<Item = &Link> + Clone {
        self.known.values().map(|one| &one.0)
    }

    pub fn named(&self, name: &str) -> Option<&Link> {
        self.all().find(|one| one.name == name)
    }
}

#[cfg(test)]
mod tests {
    use super::*;
    use std::fs::OpenOptions;

    fn links() -> Links {
        Links::over(OpenOptions::new().write(true).open("/dev/null").expect("a file"))
    }

    /// A message about an interface whose name is one letter.
    fn interface(index: i32, name: u8) -> Vec<u8> {
        let front = [0, 0, 1, 0].into_iter().chain(index.to_ne_bytes()).chain([0; 8]);
        let attribute = [6u16, libc::IFLA_IFNAME].map(u16::to_ne_bytes).concat();
        front.chain(attribute).chain([name, 0, 0, 0]).collect()
    }

    fn address(index: i32, last: u8) -> Vec<u8> {
        let front = [AF_INET, 24, 0, 0].into_iter().chain(index.to_ne_bytes());
        let attribute = [8u16, libc::IFA_LOCAL].map(u16::to_ne_bytes).concat();
        front.chain(attribute).chain([192, 0, 2, last]).collect()
    }

    /// Handles messages, and returns the names in their news, with `-` before those that are gone.
    fn news(links: &mut Links, messages: &[(u16, Vec<u8>)]) -> String {
        let mut news = Vec::new();
        messages.iter().for_each(|(kind, body)| links.handle(*kind, body, &mut news));
        let name = |link: &Link| format!("{}{}", if link.is_there { "" } else { "-" }, link.name);
        news.iter().map(name).collect::<Vec<_>>().join(" ")
    }

    #[test]
    fn what_a_whole_list_lacks_is_gone() {
        let mut links = links();
        links.ask().expect("a request");
        let first = [(RTM_NEWLINK, interface(1, b'a')), (RTM_NEWLINK, interface(2, b'b')), (DONE, vec![])];
        assert_eq!(news(&mut links, &first), "a b");
        let addresses = [(RTM_NEWADDR, address(1, 1)), (RTM_NEWADDR, address(2, 2)), (DONE, vec![])];
        assert_eq!(news(&mut links, &addresses), "");
        assert_eq!((links.lists_to_come, links.changes, links.addresses.len()), (0, 4, 2));

        links.ask().expect("a request");
        assert_eq!(news(&mut links, &[(RTM_NEWLINK, interface(2, b'c')), (DONE, vec![])]), "c -a");
        assert_eq!(news(&mut links, &[(RTM_NEWADDR, address(2, 2)), (DONE, vec![])]), "");
        let left: Vec<_> = links.addresses.iter().map(|one| one.0).collect();
        assert_eq!(left, [(2, Ipv4Addr::new(192, 0, 2, 2))]);
        assert!(links.named("a").is_none() && links.named("b").is_none() && links.named("c").is_some());
        assert!(!links.is_stale);
    }

    #[test]
    fn a_list_with_a_gap_removes_nothing() {
        let mut links = links();
        assert_eq!(news(&mut links, &[(RTM_NEWLINK, interface(1, b'a'))]), "a");
        links.ask().expect("a request");
        links.is_stale = true;
        assert_eq!(news(&mut links, &[(RTM_NEWLINK, interface(2, b'b')), (DONE, vec![])]), "b");
        assert_eq!((links.lists_to_come, links.all().count()), (0, 2));
        links.ask().expect("a request");
        assert_eq!(news(&mut links, &[(ERROR, vec![])]), "");
        assert!(links.is_stale && links.lists_to_come == 0);
    }

    #[test]
    fn news_come_and_go() {
        let mut links = links();
        let (here, gone) = ((RTM_NEWLINK, interface(1, b'a')), (RTM_DELLINK, interface(1, b'a')));
        assert_eq!(news(&mut links, &[here.clone(), gone, here]), "a -a a");
        let before = links.changes;
        let address = address(1, 1);
        for (kind, changes, count) in
            [(RTM_NEWADDR, 1, 1), (RTM_NEWADDR, 1, 1), (RTM_DELADDR, 2, 0), (RTM_DELADDR, 2, 0)]
        {
            news(&mut links, &[(kind, address.clone())]);
            assert_eq!((links.changes - before, links.addresses.len()), (changes, count), "{kind}");
        }
    }
}
