//! What lldpa-live remembers of a port's neighbors: when each came, and digests of what it announces.

use crate::time::{Moment, WallTime};
use lldpa::Msap;
use std::collections::hash_map::RandomState;
use std::hash::{BuildHasher, Hasher};

/// Makes digests. Their key is secret, so that nobody can cause collisions.
#[derive(Default)]
pub struct Digests(RandomState);

impl Digests {
    /// Returns a digest of a neighbor's identifiers.
    pub fn of_identifiers(&self, chassis: &[u8], port: &[u8]) -> u64 {
        let mut hasher = self.0.build_hasher();
        hasher.write_usize(chassis.len());
        hasher.write(chassis);
        hasher.write(port);
        hasher.finish()
    }

    /// Returns a digest of a frame's LLDPDU.
    pub fn of_lldpdu(&self, frame: &[u8]) -> u64 {
        let mut hasher = self.0.build_hasher();
        hasher.write(frame.get(14..).unwrap_or(&[]));
        hasher.finish()
    }
}

pub struct Neighbor {
    chassis: Vec<u8>,
    port: Vec<u8>,
    /// The digest of its identifiers.
    pub identifiers: u64,
    pub came: WallTime,
    /// The digest of its last LLDPDU that the agent accepted.
    pub lldpdu: u64,
    /// The second in which a frame of this neighbor was accepted without an allowance.
    pub free_in: Option<Moment>,
    /// The number of its chassis, which stays the same while any neighbor belongs to that chassis.
    pub chassis_number: u32,
    /// The text that describes the neighbor in reports.
    pub summary: String,
}

impl Neighbor {
    /// A neighbor that has come just now.
    pub fn new(
        msap: &Msap<'_>,
        digests: &Digests,
        chassis_number: u32,
        lldpdu: u64,
        summary: String,
    ) -> Neighbor {
        Neighbor {
            chassis: msap.chassis.to_vec(),
            port: msap.port.to_vec(),
            identifiers: digests.of_identifiers(msap.chassis, msap.port),
            came: WallTime::now(),
            lldpdu,
            free_in: None,
            chassis_number,
            summary,
        }
    }

    pub fn msap(&self) -> Msap<'_> {
        Msap { chassis: &self.chassis, port: &self.port }
    }
}

#[cfg(test)]
mod tests {
    use super::*;

    fn frame(source: u8, number: u8, ttl: u8) -> Vec<u8> {
        let front = [1, 0x80, 0xc2, 0, 0, 0x0e, 2, 0, 0, 0, 0, source, 0x88, 0xcc];
        [&front[..], &[2, 2, 7, number, 4, 2, 7, b'p', 6, 2, 0, ttl, 0, 0]].concat()
    }

    #[test]
    fn digests_are_of_what_a_neighbor_says() {
        let digests = Digests::default();
        let (one, same, other) = (frame(1, 1, 9), frame(2, 1, 9), frame(1, 1, 8));
        assert_eq!(digests.of_lldpdu(&one), digests.of_lldpdu(&same), "the source does not matter");
        assert_ne!(digests.of_lldpdu(&one), digests.of_lldpdu(&other));
        let identifiers = |chassis: &[u8], port: &[u8]| digests.of_identifiers(chassis, port);
        assert_eq!(identifiers(b"ab", b"c"), identifiers(b"ab", b"c"));
        for (chassis, port) in [(&b"a"[..], &b"bc"[..]), (b"ab", b"d"), (b"b", b"c")] {
            assert_ne!(identifiers(b"ab", b"c"), identifiers(chassis, port));
        }
    }
}
