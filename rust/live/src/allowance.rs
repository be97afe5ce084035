//! Decides which of a port's frames the agent is given. In a flood a port has an allowance for all
//! frames, and another one that only new neighbors use. What remains is one frame a second of each
//! neighbor that the port holds. So a flood displaces no neighbor and keeps no newcomer out.

use crate::neighbors::{Digests, Neighbor};
use crate::time::{Moment, SECOND};
use lldpa::Examined;

/// Together 64 frames a second, and 1,024 at once: 128 neighbors in fast start send 128 a second
/// for four seconds.
const FOR_ALL: Allowance = Allowance::new(48, 896);
const FOR_NEW: Allowance = Allowance::new(16, 128);

const IDENTIFIERS: [u8; 2] = [1, 2]; // Chassis ID and Port ID, the first TLVs of each LLDPDU
const LLDPDU: usize = 14; // where it begins in a frame

/// So many frames a second, and so many at once after a silence.
#[derive(Clone, Copy)]
struct Allowance {
    a_second: u32,
    at_once: u32,
    /// The moment up to which the allowance is used up. None before its first frame.
    used_to: Option<Moment>,
}

impl Allowance {
    const fn new(a_second: u32, at_once: u32) -> Allowance {
        Allowance { a_second, at_once, used_to: None }
    }

    /// Uses the allowance for a frame of this moment. False if it is used up.
    fn use_for(&mut self, moment: Moment) -> bool {
        let step = SECOND / self.a_second;
        let least = moment - self.at_once * step;
        let used_to = self.used_to.map_or(least, |used_to| used_to.max(least)) + step;
        if used_to <= moment {
            self.used_to = Some(used_to);
        }
        used_to <= moment
    }
}

/// The allowances of a port.
pub struct Allowances {
    for_all: Allowance,
    for_new: Allowance,
}

impl Default for Allowances {
    fn default() -> Allowances {
        Allowances { for_all: FOR_ALL, for_new: FOR_NEW }
    }
}

impl Allowances {
    /// True if the agent is given a frame that arrived at this moment.
    pub fn accept(
        &mut self,
        frame: &[u8],
        moment: Moment,
        neighbors: &mut [Neighbor],
        digests: &Digests,
    ) -> bool {
        if self.for_all.use_for(moment) {
            return true;
        }
        let identifiers = match identifiers(frame) {
            Some((chassis, port)) => digests.of_identifiers(chassis, port),
            None => return false,
        };
        let second = Some(moment.begin_of(SECOND));
        match neighbors.iter_mut().find(|one| one.identifiers == identifiers) {
            Some(one) if one.free_in == second => false,
            Some(one) => {
                let is_valid = lldpdu_of(frame).is_some();
                if is_valid {
                    one.free_in = second;
                }
                is_valid
            }
            None => matches!(lldpdu_of(frame), Some(Examined::Info(_))) && self.for_new.use_for(moment),
        }
    }
}

fn lldpdu_of(frame: &[u8]) -> Option<Examined<'_>> {
    lldpa::frame_pdu(frame).and_then(|pdu| lldpa::examine(pdu).ok())
}

/// Returns the bodies of the first two TLVs of a frame if they are a Chassis ID and a Port ID.
fn identifiers(frame: &[u8]) -> Option<(&[u8], &[u8])> {
    let (chassis, rest) = tlv(frame.get(LLDPDU..)?, IDENTIFIERS[0])?;
    let (port, _) = tlv(rest, IDENTIFIERS[1])?;
    Some((chassis, port))
}

/// Returns the body of a TLV of this type, and what follows it.
fn tlv(octets: &[u8], kind: u8) -> Option<(&[u8], &[u8])> {
    let head = u16::from_be_bytes(octets.get(..2)?.try_into().ok()?);
    let length = usize::from(head & 0x1ff);
    let body = octets.get(2..2 + length).filter(|_| head >> 9 == kind.into())?;
    Some((body, &octets[2 + length..]))
}

#[cfg(test)]
mod tests {
    use super::*;
    use std::time::Duration;

    fn at(milliseconds: u64) -> Moment {
        Moment::after_boot(Duration::from_millis(milliseconds))
    }

    fn frame(number: u8, last: u8) -> Vec<u8> {
        let front = b"\x01\x80\xc2\0\0\x0e\x02\0\0\0\0\x01\x88\xcc";
        let pdu = [2, 7, 4, 2, 0, 0, 0, 0, number, 4, 2, 7, number, 6, 2, 0, 120, 8, 1, last, 0, 0];
        [&front[..], &pdu].concat()
    }

    fn neighbor(digests: &Digests, number: u8) -> Neighbor {
        let frame = frame(number, 0);
        let msap = lldpdu_of(&frame).expect("an LLDPDU").msap();
        Neighbor::new(&msap, digests, 1, 0, String::new())
    }

    /// Sends copies of a frame within a moment, and returns how many are accepted.
    fn sent(
        port: &mut Allowances,
        frame: &[u8],
        moment: Moment,
        neighbors: &mut [Neighbor],
        digests: &Digests,
    ) -> usize {
        (0..2000).filter(|_| port.accept(frame, moment, neighbors, digests)).count()
    }

    #[test]
    fn so_many_at_once_and_so_many_a_second() {
        let (mut port, digests) = (Allowances::default(), Digests::default());
        let faulty = &frame(1, 0)[..20];
        // milliseconds, and how many faulty frames are accepted then
        for (moment, count) in [(100_000, 896), (101_000, 48), (101_500, 24), (100_900, 0), (3_700_000, 896)]
        {
            assert_eq!(sent(&mut port, faulty, at(moment), &mut [], &digests), count, "{moment}");
        }
        for (moment, count) in [(3_700_000, 128), (3_701_000, 16 + 48)] {
            assert_eq!(sent(&mut port, &frame(1, 0), at(moment), &mut [], &digests), count, "{moment}");
        }
    }

    #[test]
    fn a_flood_leaves_one_frame_a_second_to_each_neighbor_and_room_for_new_ones() {
        let (mut port, digests) = (Allowances::default(), Digests::default());
        let mut neighbors: Vec<Neighbor> = (1..=3).map(|number| neighbor(&digests, number)).collect();
        assert_eq!(sent(&mut port, &frame(1, 1), at(5000), &mut neighbors, &digests), 896 + 1);
        // what a neighbor says does not matter, but it must be an LLDPDU
        for (number, last, count) in [(1, 2, 0), (2, 1, 1), (2, 2, 0), (3, 9, 1), (3, 9, 0)] {
            assert_eq!(sent(&mut port, &frame(number, last), at(5000), &mut neighbors, &digests), count);
        }
        assert_eq!(sent(&mut port, &frame(4, 1), at(5000), &mut neighbors, &digests), 128);
        assert_eq!(sent(&mut port, &frame(1, 1), at(6000), &mut neighbors, &digests), 48 + 1);
        let mut half = frame(2, 1);
        half.truncate(14 + 12);
        assert_eq!(sent(&mut port, &half, at(6000), &mut neighbors, &digests), 0);
        assert_eq!(sent(&mut port, &frame(2, 3), at(6000), &mut neighbors, &digests), 1);
        let mut shutdown = frame(6, 1);
        shutdown[14 + 9 + 4 + 3] = 0; // a time to live of 0: no neighbor comes
        assert_eq!(sent(&mut port, &shutdown, at(6000), &mut neighbors, &digests), 0);
        assert_eq!(sent(&mut port, &frame(5, 1), at(6000), &mut neighbors, &digests), 16);
    }

    #[test]
    fn identifiers_are_the_first_two_tlvs() {
        let whole = frame(7, 1);
        assert_eq!(identifiers(&whole), Some((&[4, 2, 0, 0, 0, 0, 7][..], &[7, 7][..])));
        for cut in 0..14 + 2 + 7 + 2 + 2 {
            assert_eq!(identifiers(&whole[..cut]), None, "{cut}");
        }
        let mut other = whole;
        other[14 + 9] = 6; // a TTL in the place of the Port ID
        assert_eq!(identifiers(&other), None);
    }
}
