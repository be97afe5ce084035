//! The neighbors of a port, and the news of a frame.

use crate::agent::Agent;
use crate::fault::{unexpected, PduFault};
use crate::reading::{examine, Examined, Info, Msap};
use crate::sys;
use alloc::vec;
use alloc::vec::Vec;

/// What a frame did.
#[derive(Clone, Copy, Debug, PartialEq, Eq)]
pub enum News<'f> {
    /// The frame is not an LLDP frame.
    NotLldp,
    /// The frame is ignored, since the port does not receive or its link is down.
    Deaf,
    /// The LLDPDU of the frame has a fault.
    Refused(PduFault),
    /// A neighbor that was not held is stored.
    New(Msap<'f>),
    /// A neighbor that is held sent different octets, which are stored.
    Changed(Msap<'f>),
    /// A neighbor that is held sent the same octets; its time to live starts again.
    Same(Msap<'f>),
    /// There is no room for a neighbor that is not held.
    Dropped(Msap<'f>),
    /// A neighbor that was held sent a shutdown frame, and is no longer held.
    Gone(Msap<'f>),
    /// A neighbor that is not held sent a shutdown frame.
    Unknown(Msap<'f>),
    /// A number unknown to this crate. A matching archive never returns such a number.
    Unexpected,
}

impl<'f> News<'f> {
    /// Returns the news that a call wrote about this frame.
    pub(crate) fn of(told: &sys::lldpa_news, frame: &'f [u8]) -> News<'f> {
        let at = |place: sys::lldpa_place| &frame[place.start..][..place.length];
        let msap = Msap { chassis: at(told.chassis), port: at(told.port) };
        match told.what {
            1 => News::NotLldp,
            2 => News::Deaf,
            3 => u8::try_from(told.fault)
                .ok()
                .and_then(|fault| PduFault::check(fault).err())
                .map_or(News::Unexpected, News::Refused),
            4 => News::New(msap),
            5 => News::Changed(msap),
            6 => News::Same(msap),
            7 => News::Dropped(msap),
            8 => News::Gone(msap),
            9 => News::Unknown(msap),
            _ => News::Unexpected,
        }
    }
}

/// A neighbor that a port holds, or held until it aged out.
#[derive(Clone, Debug, PartialEq, Eq)]
pub struct Neighbor {
    octets: Vec<u8>,
    left: u32,
}

impl Neighbor {
    /// Returns the neighbor's LLDPDU without the End Of LLDPDU, at most 1500 octets.
    pub fn octets(&self) -> &[u8] {
        &self.octets
    }

    /// Returns the seconds until the neighbor ages out, at least 1. For a neighbor that aged out it
    /// is 1, as before the second at which it aged out.
    pub fn left(&self) -> u32 {
        self.left
    }

    /// Returns the fields of the neighbor's LLDPDU. None if the archive does not match this crate.
    pub fn info(&self) -> Option<Info<'_>> {
        match examine(&self.octets) {
            Ok(Examined::Info(info)) => Some(info),
            _ => None,
        }
    }
}

/// The neighbors that an iterator returns.
#[derive(Clone, Copy, Debug)]
pub(crate) enum Which {
    Held,
    Aged,
}

/// An iterator over neighbors of a port.
#[derive(Debug)]
#[must_use]
pub struct Neighbors<'a> {
    agent: &'a Agent,
    which: Which,
    port: u8,
    next: u32,
    count: u32,
}

impl<'a> Neighbors<'a> {
    pub(crate) fn new(agent: &'a Agent, which: Which, port: u8, count: u32) -> Neighbors<'a> {
        Neighbors { agent, which, port, next: 0, count }
    }
}

impl Iterator for Neighbors<'_> {
    type Item = Neighbor;

    fn next(&mut self) -> Option<Neighbor> {
        let mut octets = vec![0u8; sys::LLDPA_NEIGHBOR_ROOM as usize];
        let mut told = sys::lldpa_held::default();
        let (agent, port, at) = (&*self.agent.handle, self.port.into(), octets.as_mut_ptr());
        // SAFETY: the handle is open, the length is that of the buffer, and `told` is local.
        let answer = unsafe {
            match self.which {
                Which::Held => sys::lldpa_neighbor(agent, port, self.next, at, octets.len(), &mut told),
                Which::Aged => sys::lldpa_aged(agent, port, self.next, at, octets.len(), &mut told),
            }
        };
        match answer {
            sys::LLDPA_OK => (),
            sys::LLDPA_OUT_OF_RANGE => return None,
            _ => unexpected(answer),
        }
        self.next += 1;
        octets.truncate(told.pdu.extent);
        Some(Neighbor { octets, left: told.left })
    }

    fn size_hint(&self) -> (usize, Option<usize>) {
        let left = (self.count - self.next) as usize;
        (left, Some(left))
    }
}

impl ExactSizeIterator for Neighbors<'_> {}
