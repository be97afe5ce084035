//! Safe types for `liblldpa.a`, a formally verified LLDP agent and its parts (IEEE 802.1AB-2009).
//!
//! - Reading: [`frame_pdu`], [`examine`], [`Info::kept`], [`caps`], [`mgmt`]. No octets are copied.
//! - Building: [`Builder`].
//! - The transmit machine of one port: [`Machine`].
//! - A whole agent on up to 64 ports: [`Agent`].
//!
//! `docs/LIBRARY.md` in lldpa's repository says what is proved. This crate itself is only tested.
//! If `LLDPA_LIB_DIR` is set, `build.rs` uses the archive in this folder. If not, it searches the
//! output folder of `tools/library/library.sh`, and then the folder that pkg-config reports.
//!
//! Without the feature `std` the crate needs only `alloc`.
//!
//! All types except [`Agent`], which is only `Send`, and its [`Neighbors`] are `Send` and `Sync`:
//!
//! ```
//! fn crosses<T: Send + Sync>() {}
//! crosses::<(lldpa::Builder, lldpa::Built, lldpa::Machine, lldpa::Kept, lldpa::Neighbor, lldpa::News)>();
//! ```
#![no_std]
#![warn(missing_docs, missing_debug_implementations)]

#[cfg(not(doc))]
const _: () = if let Some(why) = option_env!("LLDPA_HAS_NO_ARCHIVE") {
    panic!("{}", why)
};

extern crate alloc;
#[cfg(feature = "std")]
extern crate std;

mod agent;
mod building;
mod fault;
#[cfg(test)]
mod full;
mod machine;
mod neighbors;
mod numbers;
mod options;
mod reading;
mod shows;
#[allow(dead_code, missing_docs, non_camel_case_types, clippy::all)]
#[rustfmt::skip]
mod sys;
mod told;

pub use agent::Agent;
pub use building::{Builder, Built};
pub use fault::{fault_text, BuildFault, CommandFault, OpenFault, PduFault, PortFault, RangeFault};
pub use machine::{Cause, Machine, Mark};
pub use neighbors::{Neighbor, Neighbors, News};
pub use options::{Options, Role};
pub use reading::{
    caps, escape, examine, frame_pdu, mgmt, tlv_text, Capabilities, Examined, Info, Kept, Management, Msap,
    Tlv,
};
pub use sys::Statistics;
pub use told::{Chassis, Commanded, Configuration, Sent, Show, Status, Ticks};

/// Returns the version of the archive, major * 10000 + minor * 100 + patch. The build,
/// [`Agent::open`] and [`Machine::new`] require this crate's version, or a later one of the same major
/// version.
#[must_use]
pub fn version() -> u32 {
    // SAFETY: the call has no arguments.
    unsafe { sys::lldpa_version() }
}

/// True if this crate can use the archive: its major version is that of this crate, and its minor
/// version is not smaller.
fn is_of_this_version() -> bool {
    let (own, found) = (u32::from(sys::LLDPA_VERSION), version());
    found / 10000 == own / 10000 && found / 100 >= own / 100
}

#[cfg(doctest)]
#[doc = include_str!("../../../docs/LIBRARY.md")]
struct Page;
