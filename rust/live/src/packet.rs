//! The packet socket of a port. Only opening it needs CAP_NET_RAW. Binding it to an interface (even
//! again), joining groups, reading and sending need no capability.

use crate::sys::sockets::{self, GroupAddress};
pub use crate::sys::sockets::{drops, receive, Rooms, LONGEST_FRAME, ROOMS};
use libc::sock_filter;
use std::fs::File;
use std::io::Result;

const ETH_P_ALL: u16 = libc::ETH_P_ALL as u16;
const ETH_P_LLDP: u16 = 0x88cc;
const LLDP: u32 = ETH_P_LLDP as u32;
const LOOPBACK: i32 = 1; // its index in each network namespace
/// The group addresses of LLDP: nearest bridge, nearest non-TPMR bridge, nearest customer bridge.
const GROUPS: [GroupAddress; 3] = [group(0x0e), group(0x03), group(0x00)];
/// How many octets of frames the kernel may keep for all sockets together, as it counts them.
const ROOM_OF_ALL: usize = 64 << 20;
/// How many octets are kept of a frame that is only counted: fewer than any whole frame has.
const OF_ANOTHER: u32 = 13;

const fn group(last: u8) -> GroupAddress {
    [0x01, 0x80, 0xc2, 0x00, 0x00, last]
}

// The filter's steps. (linux/filter.h)
const LOAD_OCTET: u32 = libc::BPF_LD | libc::BPF_B | libc::BPF_ABS;
const LOAD_TWO: u32 = libc::BPF_LD | libc::BPF_H | libc::BPF_ABS;
const LOAD_FOUR: u32 = libc::BPF_LD | libc::BPF_W | libc::BPF_ABS;
const LOAD_LENGTH: u32 = libc::BPF_LD | libc::BPF_W | libc::BPF_LEN;
const IF_EQUAL: u32 = libc::BPF_JMP | libc::BPF_JEQ | libc::BPF_K;
const IF_ABOVE: u32 = libc::BPF_JMP | libc::BPF_JGT | libc::BPF_K;
const KEEP: u32 = libc::BPF_RET | libc::BPF_K;
const HOW_IT_CAME: u32 = (libc::SKF_AD_OFF + libc::SKF_AD_PKTTYPE) as u32;
const HAD_A_TAG: u32 = (libc::SKF_AD_OFF + libc::SKF_AD_VLAN_TAG_PRESENT) as u32;
const OUTGOING: u32 = 4; // PACKET_OUTGOING in linux/if_packet.h
const TAGGED: u32 = libc::ETH_P_8021Q as u32;
const SERVICE_TAGGED: u32 = libc::ETH_P_8021AD as u32;

/// A step: its operation, how many steps to skip if true and if false, its operand.
const fn step(code: u32, jt: u8, jf: u8, k: u32) -> sock_filter {
    sock_filter { code: code as u16, jt, jf, k }
}

/// Keeps LLDP frames that arrived untagged, for the nearest bridge, with at most 1,514 octets. Of
/// other LLDP frames to group addresses it keeps 13 octets, to count them.
const FILTER: [sock_filter; 21] = [
    step(LOAD_OCTET, 0, 0, HOW_IT_CAME),
    step(IF_EQUAL, 18, 0, OUTGOING), // go to 20
    step(LOAD_FOUR, 0, 0, 0),        // 2: the first octets of the destination
    step(IF_EQUAL, 0, 16, 0x0180_c200),
    step(LOAD_TWO, 0, 0, 12), // 4: the EtherType
    step(IF_EQUAL, 4, 0, LLDP),
    step(IF_EQUAL, 1, 0, TAGGED),
    step(IF_EQUAL, 0, 12, SERVICE_TAGGED),
    step(LOAD_TWO, 0, 0, 16), // 8: the EtherType after a tag
    step(IF_EQUAL, 9, 10, LLDP),
    step(LOAD_TWO, 0, 0, 4), // 10: the last octets of the destination
    step(IF_EQUAL, 2, 0, GROUPS[0][5] as u32),
    step(IF_EQUAL, 6, 0, GROUPS[1][5] as u32),
    step(IF_EQUAL, 5, 6, GROUPS[2][5] as u32),
    step(LOAD_OCTET, 0, 0, HAD_A_TAG), // 14: did the kernel remove a tag?
    step(IF_EQUAL, 0, 3, 0),
    step(LOAD_LENGTH, 0, 0, 0), // 16
    step(IF_ABOVE, 1, 0, LONGEST_FRAME as u32),
    step(KEEP, 0, 0, 0xffff),     // 18: keep the whole frame
    step(KEEP, 0, 0, OF_ANOTHER), // 19: keep 13 octets
    step(KEEP, 0, 0, 0),          // 20: drop it
];

/// Opens one of `count` sockets. It receives nothing yet, and nobody can remove its filter.
pub fn open(count: usize) -> Result<File> {
    // The kernel doubles the number, since it counts its own data about each frame, too.
    sockets::open_packet(&FILTER, ROOM_OF_ALL / 2 / count.max(1))
}

/// Receives the LLDP frames of an interface.
pub fn receive_from(socket: &File, interface: i32) -> Result<()> {
    sockets::bind_packet(socket, interface, ETH_P_ALL)?;
    GROUPS.iter().try_for_each(|group| sockets::join(socket, interface, *group))
}

/// Stops a socket from receiving: binds it to the loopback interface, which has no LLDP frames.
pub fn release(socket: &File) {
    let _ = sockets::bind_packet(socket, LOOPBACK, ETH_P_LLDP);
}

#[cfg(test)]
mod tests {
    use super::*;

    /// How a frame arrived: its kind in linux/if_packet.h, whether the kernel removed a tag, its length.
    type Way = (u32, bool, usize);
    const MULTICAST: u32 = 2;

    /// Runs the filter as the kernel does. Returns how many octets are kept at most.
    fn kept(frame: &[u8], (kind, had_tag, length): Way) -> u32 {
        let (mut next, mut loaded) = (0, 0);
        loop {
            let step = FILTER[next];
            let octets = |count: usize| frame.get(step.k as usize..step.k as usize + count);
            let number = |octets: &[u8]| octets.iter().fold(0, |sum, octet| sum << 8 | u32::from(*octet));
            next += 1;
            let found = match u32::from(step.code) {
                KEEP => return step.k,
                IF_EQUAL | IF_ABOVE => {
                    let is_so =
                        if u32::from(step.code) == IF_EQUAL { loaded == step.k } else { loaded > step.k };
                    next += usize::from(if is_so { step.jt } else { step.jf });
                    Some(loaded)
                }
                LOAD_LENGTH => Some(length as u32),
                LOAD_OCTET if step.k == HOW_IT_CAME => Some(kind),
                LOAD_OCTET if step.k == HAD_A_TAG => Some(u32::from(had_tag)),
                LOAD_OCTET => octets(1).map(number),
                LOAD_TWO => octets(2).map(number),
                LOAD_FOUR => octets(4).map(number),
                code => panic!("a step of the kind {code}"),
            };
            match found {
                Some(number) => loaded = number,
                None => return 0, // the frame is too short
            }
        }
    }

    #[test]
    fn the_filter_keeps_what_is_read_and_some_of_what_is_counted() {
        let (nearest, whole, counted) = ("0180c200000e", 0xffff, OF_ANOTHER);
        let plain: Way = (MULTICAST, false, 60);
        for (destination, rest, way, wanted) in [
            (nearest, "88cc", plain, whole),
            (nearest, "88cc", (MULTICAST, false, 1514), whole),
            (nearest, "88cc", (MULTICAST, false, 1515), counted),
            (nearest, "88cc", (MULTICAST, true, 60), counted),
            (nearest, "88cc", (OUTGOING, false, 60), 0),
            ("0180c2000003", "88cc", plain, counted),
            ("0180c2000000", "88cc", plain, counted),
            ("0180c2000001", "88cc", plain, 0),
            ("0180c200010e", "88cc", plain, 0),
            ("0180c300000e", "88cc", plain, 0),
            ("020000000001", "88cc", plain, 0),
            (nearest, "8100000188cc", plain, counted),
            (nearest, "88a8000188cc", plain, counted),
            (nearest, "910000018800", plain, 0),
            (nearest, "910000018cc0", plain, 0),
            (nearest, "81000001", plain, 0),
            (nearest, "810000010800", plain, 0),
            (nearest, "88a800018100", plain, 0),
            (nearest, "0800", plain, 0),
            (nearest, "", plain, 0),
        ] {
            let digits = format!("{destination}020000000001{rest}");
            let frame = crate::hex::octets_of(&digits).expect("digits");
            assert_eq!(kept(&frame, way), wanted, "{digits} {way:?}");
        }
    }
}
