//! Users, groups, and the rights that lldpa-live gives up.

use super::checked;
use libc::{c_int, c_ulong};
use std::io::Result;
use std::ptr::null;

const LAST_CAPABILITY: c_ulong = 63;

/// The header of `capset`: its version, and the thread, 0 for the caller. (linux/capability.h)
#[repr(C)]
struct CapabilityHeader {
    version: u32,
    thread: c_int,
}

/// A half of the three sets of capabilities.
#[repr(C)]
#[derive(Clone, Copy)]
struct CapabilityHalf {
    effective: u32,
    permitted: u32,
    inheritable: u32,
}

const CAPABILITY_VERSION_3: u32 = 0x2008_0522;
const NONE: CapabilityHalf = CapabilityHalf { effective: 0, permitted: 0, inheritable: 0 };

pub fn own_user() -> u32 {
    // SAFETY: the call takes nothing, and cannot fail.
    unsafe { libc::geteuid() }
}

/// What is asked of `prctl`.
enum Wish {
    DropFromBoundingSet(c_ulong),
    NoNewPrivileges,
    NoAmbientCapabilities,
    NotDumpable,
}

fn ask(wish: &Wish) -> Result<()> {
    let (name, value) = match wish {
        Wish::DropFromBoundingSet(capability) => (libc::PR_CAPBSET_DROP, *capability),
        Wish::NoNewPrivileges => (libc::PR_SET_NO_NEW_PRIVS, 1),
        Wish::NoAmbientCapabilities => (libc::PR_CAP_AMBIENT, libc::PR_CAP_AMBIENT_CLEAR_ALL as c_ulong),
        Wish::NotDumpable => (libc::PR_SET_DUMPABLE, 0),
    };
    let none: c_ulong = 0;
    // SAFETY: each of these options takes only numbers.
    checked(unsafe { libc::prctl(name, value, none, none, none) }).map(drop)
}

/// Drops all capabilities, groups and session keys, and becomes a user with its group, if given.
/// No other process of this user can inspect this one. Groups stay without the right to drop them.
/// Only the calling thread loses its capabilities, so there must be no other.
pub fn keep_no_right(user: Option<(u32, u32)>) -> Result<()> {
    for one in 0..=LAST_CAPABILITY {
        let _ = ask(&Wish::DropFromBoundingSet(one)); // refused without CAP_SETPCAP
    }
    // SAFETY: without a name the call reads no memory.
    unsafe { libc::syscall(libc::SYS_keyctl, libc::KEYCTL_JOIN_SESSION_KEYRING, null::<u8>()) };
    // SAFETY: the call reads no group, since the list is empty.
    let groups = checked(unsafe { libc::setgroups(0, null()) });
    if let Some((user, group)) = user {
        groups?;
        // SAFETY: the calls take only numbers.
        checked(unsafe { libc::setresgid(group, group, group) })?;
        // SAFETY: as above.
        checked(unsafe { libc::setresuid(user, user, user) })?;
    }
    ask(&Wish::NoNewPrivileges)?;
    ask(&Wish::NoAmbientCapabilities)?;
    drop_capabilities()?;
    ask(&Wish::NotDumpable)
}

fn drop_capabilities() -> Result<()> {
    let (header, sets) = (CapabilityHeader { version: CAPABILITY_VERSION_3, thread: 0 }, [NONE; 2]);
    // SAFETY: both values are as the kernel declares them for this version, and it only reads the
    // sets. (It writes the header only if the version is unknown.)
    let answer = unsafe { libc::syscall(libc::SYS_capset, &header, &sets) };
    checked(answer as c_int).map(drop)
}
