//! Reads frames, LLDPDUs and TLVs. Copies no octets, except into texts.

use crate::fault::{text_written, PduFault};
use crate::sys;
use alloc::string::String;
use alloc::vec;

/// Returns the octets of a range.
fn at(octets: &[u8], place: sys::lldpa_place) -> &[u8] {
    &octets[place.start..][..place.length]
}

/// Returns the LLDPDU in an Ethernet frame without VLAN tag and check sequence. None unless the
/// frame has 14 to 1514 octets, the destination 01-80-C2-00-00-0E and the EtherType 88-CC.
#[must_use]
pub fn frame_pdu(frame: &[u8]) -> Option<&[u8]> {
    let mut place = sys::lldpa_place::default();
    // SAFETY: the length is that of the frame, and the other pointer is to a local value.
    let is_one = unsafe { sys::lldpa_frame_pdu(frame.as_ptr(), frame.len(), &mut place) };
    is_one.then(|| at(frame, place))
}

/// The sender of an LLDPDU: the bodies of two TLVs, 2 to 256 octets each, beginning with a subtype.
#[derive(Clone, Copy, Debug, PartialEq, Eq, Hash)]
pub struct Msap<'a> {
    /// The body of the Chassis ID.
    pub chassis: &'a [u8],
    /// The body of the Port ID.
    pub port: &'a [u8],
}

/// The content of an LLDPDU without a fault.
#[derive(Clone, Copy, Debug, PartialEq, Eq)]
pub enum Examined<'a> {
    /// The time to live is 0: the neighbor leaves.
    Shutdown(Msap<'a>),
    /// The time to live is above 0.
    Info(Info<'a>),
}

impl<'a> Examined<'a> {
    /// Returns the sender of the LLDPDU.
    pub fn msap(&self) -> Msap<'a> {
        match self {
            Examined::Shutdown(msap) => *msap,
            Examined::Info(info) => info.msap,
        }
    }
}

/// The fields of an LLDPDU with a time to live above 0.
#[derive(Clone, Copy, Debug, PartialEq, Eq)]
pub struct Info<'a> {
    msap: Msap<'a>,
    octets: &'a [u8],
    ttl: u16,
    discarded: usize,
    unrecognized: usize,
}

impl<'a> Info<'a> {
    /// Returns the sender of the LLDPDU.
    pub fn msap(&self) -> Msap<'a> {
        self.msap
    }

    /// Returns the octets before the End Of LLDPDU, or before an incomplete TLV.
    pub fn octets(&self) -> &'a [u8] {
        self.octets
    }

    /// Returns the time to live in seconds, 1 to 65535.
    pub fn ttl(&self) -> u16 {
        self.ttl
    }

    /// Returns how many TLVs are discarded, including an incomplete one at the end.
    pub fn discarded(&self) -> usize {
        self.discarded
    }

    /// Returns how many kept TLVs have a type of 9 to 127.
    pub fn unrecognized(&self) -> usize {
        self.unrecognized
    }

    /// Returns the kept TLVs: the well-formed ones, but of each type from 4 to 7 only the first.
    pub fn kept(&self) -> Kept<'a> {
        Kept { extent: self.octets, walk: sys::lldpa_kept::default() }
    }
}

/// Examines an LLDPDU of any length. Returns the fields of the LLDPDU, or its first fault.
///
/// ```
/// let pdu = b"\x02\x07\x04\x00\x11\x22\x33\x44\x55\x04\x05\x05eth0\x06\x02\x00\x78\x0a\x03sw1\0\0";
/// let info = match lldpa::examine(pdu)? {
///     lldpa::Examined::Info(info) => info,
///     lldpa::Examined::Shutdown(_) => unreachable!("its time to live is 120 seconds"),
/// };
/// assert_eq!(info.ttl(), 120);
/// let kept: Vec<_> = info.kept().map(|tlv| (tlv.kind, tlv.body)).collect();
/// assert_eq!(kept, [(5, &b"sw1"[..])]);
/// # Ok::<(), lldpa::PduFault>(())
/// ```
pub fn examine(pdu: &[u8]) -> Result<Examined<'_>, PduFault> {
    let mut told = sys::lldpa_examined::default();
    // SAFETY: the length is that of the LLDPDU, and the other pointer is to a local value.
    let fault = unsafe { sys::lldpa_examine(pdu.as_ptr(), pdu.len(), &mut told) };
    PduFault::check(fault)?;
    let msap = Msap { chassis: at(pdu, told.chassis), port: at(pdu, told.port) };
    if told.ttl == 0 {
        return Ok(Examined::Shutdown(msap));
    }
    Ok(Examined::Info(Info {
        msap,
        octets: &pdu[..told.extent],
        ttl: told.ttl,
        discarded: told.discarded,
        unrecognized: told.unrecognized,
    }))
}

/// A TLV.
#[derive(Clone, Copy, Debug, PartialEq, Eq, Hash)]
pub struct Tlv<'a> {
    /// The type of the TLV. A kept TLV has a type of 4 to 127.
    pub kind: u8,
    /// The body of the TLV, 0 to 511 octets.
    pub body: &'a [u8],
}

/// An iterator over the kept TLVs of an LLDPDU.
#[derive(Clone, Debug)]
#[must_use]
pub struct Kept<'a> {
    extent: &'a [u8],
    walk: sys::lldpa_kept,
}

impl<'a> Iterator for Kept<'a> {
    type Item = Tlv<'a>;

    fn next(&mut self) -> Option<Tlv<'a>> {
        // SAFETY: the length is that of the extent, and the other pointer is to the walk.
        let is_one = unsafe { sys::lldpa_next_kept(self.extent.as_ptr(), self.extent.len(), &mut self.walk) };
        is_one.then(|| Tlv { kind: self.walk.kind, body: at(self.extent, self.walk.body) })
    }
}

impl core::iter::FusedIterator for Kept<'_> {}

/// The fields of a System Capabilities TLV (type 7): two sets of bits (table 8-4 of the standard).
#[derive(Clone, Copy, Debug, PartialEq, Eq, Hash)]
pub struct Capabilities {
    /// The functions that the system has.
    pub available: u16,
    /// The functions that are enabled.
    pub enabled: u16,
}

/// Reads the body of a System Capabilities TLV. None if the body is not well formed: it must have
/// four octets, and each enabled bit must also be an available bit.
#[must_use]
pub fn caps(body: &[u8]) -> Option<Capabilities> {
    let mut told = sys::lldpa_capabilities::default();
    // SAFETY: the length is that of the body, and the other pointer is to a local value.
    let is_read = unsafe { sys::lldpa_caps(body.as_ptr(), body.len(), &mut told) };
    is_read.then_some(Capabilities { available: told.available, enabled: told.enabled })
}

/// The fields of a Management Address TLV (type 8).
#[derive(Clone, Copy, Debug, PartialEq, Eq, Hash)]
pub struct Management<'a> {
    /// The family of the address, such as 1 for IPv4, 2 for IPv6 and 6 for all 802 media.
    pub family: u8,
    /// The address, 1 to 31 octets.
    pub address: &'a [u8],
    /// The interface numbering subtype.
    pub numbering: u8,
    /// The interface number.
    pub interface: u32,
    /// The object identifier, 0 to 128 octets.
    pub oid: &'a [u8],
}

/// Reads the body of a Management Address TLV. None if the body is not well formed.
#[must_use]
pub fn mgmt(body: &[u8]) -> Option<Management<'_>> {
    let mut told = sys::lldpa_management::default();
    // SAFETY: the length is that of the body, and the other pointer is to a local value.
    let is_read = unsafe { sys::lldpa_mgmt(body.as_ptr(), body.len(), &mut told) };
    is_read.then(|| Management {
        family: told.family,
        address: at(body, told.address),
        numbering: told.numbering,
        interface: told.interface,
        oid: at(body, told.oid),
    })
}

/// Returns a TLV as text, as `show neighbors` writes it: `chassis.mac=00:11:22:33:44:55`. `kind` is
/// 1 (Chassis ID), 2 (Port ID), or 4 to 127. None for other types, or if the body is malformed.
///
/// ```
/// assert_eq!(lldpa::tlv_text(2, b"\x05eth0").as_deref(), Some("port.ifname=eth0"));
/// ```
#[must_use]
pub fn tlv_text(kind: u8, body: &[u8]) -> Option<String> {
    let kind = kind.into();
    // SAFETY: each length is that of the slice before it.
    text_written(&mut [0; sys::LLDPA_VALUE_ROOM as usize], |room, length| unsafe {
        sys::lldpa_tlv_text(kind, body.as_ptr(), body.len(), room.as_mut_ptr(), room.len(), length)
    })
}

/// Escapes a neighbor's text, so that you can print it: doubles each backslash, and replaces each
/// octet that is not printable ASCII by `\x` and two digits. None if the text is over 511 octets.
///
/// ```
/// assert_eq!(lldpa::escape(b"sw1\x1b").as_deref(), Some("sw1\\x1b"));
/// ```
#[must_use]
pub fn escape(text: &[u8]) -> Option<String> {
    // SAFETY: each length is that of the slice before it.
    text_written(&mut vec![0; 4 * text.len()], |room, length| unsafe {
        sys::lldpa_escape(text.as_ptr(), text.len(), room.as_mut_ptr(), room.len(), length)
    })
}
