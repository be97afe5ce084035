//! Groups and hosts by name, from the name service. A program that is linked statically has none.

use libc::c_char;
use std::ffi::{CStr, CString};
use std::mem::zeroed;
use std::ptr::{null, null_mut};

// netdb.h
const NO_SUCH_NAME: i32 = libc::EAI_NONAME;
const NO_ADDRESS: [i32; 2] = [-5, -9]; // EAI_NODATA and EAI_ADDRFAMILY

/// Octets for a group with the names of its members.
const LEAST_ROOM: usize = 1 << 10;
const MOST_ROOM: usize = 1 << 24;

/// Returns the number of a group by its name.
pub fn number_of(name: &str) -> Option<u32> {
    number_in(name, LEAST_ROOM)
}

/// Looks for a group with so much room for it at first.
fn number_in(name: &str, least: usize) -> Option<u32> {
    let name = CString::new(name).ok()?;
    let mut room: Vec<c_char> = vec![0; least];
    loop {
        // SAFETY: this struct of numbers and pointers may be all zero.
        let mut group: libc::group = unsafe { zeroed() };
        let (start, length, mut found) = (room.as_mut_ptr(), room.len(), null_mut());
        // SAFETY: the name ends with a zero. The call writes the two local values, and to the room
        // at most as many octets as it has. All of them outlive the call.
        match unsafe { libc::getgrnam_r(name.as_ptr(), &mut group, start, length, &mut found) } {
            0 => return (!found.is_null()).then_some(group.gr_gid),
            libc::ERANGE if length < MOST_ROOM => room.resize(2 * length, 0),
            _ => return None,
        }
    }
}

/// Returns the canonical name of a host, or its own name if the name service knows none. None if it cannot say it
/// now. (lldpd asks in this way.)
pub fn canonical(name: &str) -> Option<String> {
    let text = CString::new(name).ok()?;
    // SAFETY: this struct of numbers and pointers may be all zero.
    let mut wanted: libc::addrinfo = unsafe { zeroed() };
    wanted.ai_flags = libc::AI_CANONNAME;
    let mut found = null_mut();
    // SAFETY: the name ends with a zero, and the call reads the struct. It writes a pointer to a list of its own.
    match unsafe { libc::getaddrinfo(text.as_ptr(), null(), &wanted, &mut found) } {
        0 => {
            // SAFETY: after a success the list has a first item, whose name is null or ends with a zero. It is
            // copied before the list is freed.
            let full = unsafe {
                let full = (*found).ai_canonname;
                let full = (!full.is_null()).then(|| CStr::from_ptr(full).to_string_lossy().into_owned());
                libc::freeaddrinfo(found);
                full
            };
            Some(full.unwrap_or_else(|| name.into()))
        }
        fault if fault == NO_SUCH_NAME || NO_ADDRESS.contains(&fault) => Some(name.into()),
        _ => None,
    }
}

#[cfg(test)]
mod tests {
    use super::*;

    #[test]
    fn a_host_has_a_canonical_name() {
        assert_eq!(canonical("127.0.0.1").as_deref(), Some("127.0.0.1"));
        assert_eq!(canonical("a\0"), None);
    }

    #[test]
    fn groups_have_numbers() {
        for (name, number) in [("root", Some(0)), ("no-such-group", None), ("", None), ("a\0", None)] {
            assert_eq!(number_of(name), number, "{name:?}");
        }
    }

    #[test]
    fn a_group_gets_the_room_that_it_needs() {
        assert_eq!(number_in("root", 1), Some(0));
    }
}
