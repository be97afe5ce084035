//! Builds LLDPDUs.

use crate::fault::{BuildFault, RangeFault};
use crate::reading::Tlv;
use crate::sys;
use alloc::vec;
use alloc::vec::Vec;

/// Builds an LLDPDU TLV by TLV.
///
/// ```
/// let built = lldpa::Builder::new(b"\x04\x02\0\0\0\0\x01", b"\x05eth0", 120)
///     .put(5, b"sw1")
///     .finish()?;
/// assert_eq!(built.faults(), [None]);
/// assert!(lldpa::examine(built.octets()).is_ok());
/// # Ok::<(), lldpa::RangeFault>(())
/// ```
#[derive(Clone, Debug)]
#[must_use]
pub struct Builder<'a> {
    chassis: &'a [u8],
    port: &'a [u8],
    ttl: u16,
    tlvs: Vec<Tlv<'a>>,
}

impl<'a> Builder<'a> {
    /// Begins an LLDPDU. `chassis` and `port` are the bodies of the identifiers, 2 to 256 octets
    /// each, subtype first. `ttl` is in seconds; 0 makes a shutdown LLDPDU without other TLVs.
    pub fn new(chassis: &'a [u8], port: &'a [u8], ttl: u16) -> Builder<'a> {
        Builder { chassis, port, ttl, tlvs: Vec::new() }
    }

    /// Adds a TLV. [`Built::faults`] says whether the TLV was left out, and why.
    pub fn put(mut self, kind: u8, body: &'a [u8]) -> Builder<'a> {
        self.tlvs.push(Tlv { kind, body });
        self
    }

    /// Builds the LLDPDU. Fails if an identifier does not have 2 to 256 octets.
    pub fn finish(self) -> Result<Built, RangeFault> {
        let tlv_of =
            |tlv: &Tlv| sys::lldpa_tlv { body: tlv.body.as_ptr(), length: tlv.body.len(), kind: tlv.kind };
        let tlvs: Vec<sys::lldpa_tlv> = self.tlvs.iter().map(tlv_of).collect();
        let mut faults = vec![0u8; tlvs.len()];
        let mut octets = vec![0u8; sys::LLDPA_PDU_ROOM as usize];
        let mut length = 0;
        // SAFETY: each length is that of the slice before it, and the bodies outlive the builder.
        let answer = unsafe {
            sys::lldpa_build(
                self.chassis.as_ptr(),
                self.chassis.len(),
                self.port.as_ptr(),
                self.port.len(),
                self.ttl,
                tlvs.as_ptr(),
                tlvs.len(),
                faults.as_mut_ptr(),
                faults.len(),
                octets.as_mut_ptr(),
                octets.len(),
                &mut length,
            )
        };
        RangeFault::check(answer)?;
        octets.truncate(length);
        Ok(Built {
            octets,
            faults: faults.into_iter().map(|answer| BuildFault::check(answer).err()).collect(),
        })
    }
}

/// An LLDPDU that was built.
#[derive(Clone, Debug, PartialEq, Eq)]
pub struct Built {
    octets: Vec<u8>,
    faults: Vec<Option<BuildFault>>,
}

impl Built {
    /// Returns the octets of the LLDPDU, at most 1500, including the End Of LLDPDU.
    pub fn octets(&self) -> &[u8] {
        &self.octets
    }

    /// Returns, for each TLV in order, why the TLV was left out, or None if it was put.
    pub fn faults(&self) -> &[Option<BuildFault>] {
        &self.faults
    }
}
