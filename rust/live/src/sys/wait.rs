//! Waits for files with epoll.

use super::{checked, opened};
use libc::c_int;
use std::fs::File;
use std::io::Result;
use std::os::unix::io::{AsRawFd, BorrowedFd, RawFd};
use std::time::Duration;

pub const IN: u32 = libc::EPOLLIN as u32;
pub const OUT: u32 = libc::EPOLLOUT as u32;
pub const PRIORITY: u32 = libc::EPOLLPRI as u32;
const MOST_AT_ONCE: usize = 256; // events of one call

pub fn epoll() -> Result<File> {
    // SAFETY: the call takes only a number.
    unsafe { opened(libc::epoll_create1(libc::EPOLL_CLOEXEC)) }
}

/// Changes the events that are awaited from a file, from `before` to `wanted`; 0 stands for none.
pub fn set_events(epoll: &File, file: BorrowedFd<'_>, before: u32, wanted: u32) -> Result<()> {
    let what = match (before, wanted) {
        (0, _) => libc::EPOLL_CTL_ADD,
        (_, 0) => libc::EPOLL_CTL_DEL,
        _ => libc::EPOLL_CTL_MOD,
    };
    let number = file.as_raw_fd();
    let mut event = libc::epoll_event { events: wanted, u64: number as u64 };
    // SAFETY: the event is a local value that the kernel copies.
    checked(unsafe { libc::epoll_ctl(epoll.as_raw_fd(), what, number, &mut event) }).map(drop)
}

/// Waits at most this long. Returns the numbers of the files that are ready. A signal ends the wait.
pub fn ready(epoll: &File, wait: Duration) -> Vec<RawFd> {
    let milliseconds = c_int::try_from((wait.as_nanos() + 999_999) / 1_000_000).unwrap_or(c_int::MAX);
    let mut events = [libc::epoll_event { events: 0, u64: 0 }; MOST_AT_ONCE];
    let (start, most) = (events.as_mut_ptr(), MOST_AT_ONCE as c_int);
    // SAFETY: the kernel writes at most `most` events, for which the local array has room.
    let count = checked(unsafe { libc::epoll_wait(epoll.as_raw_fd(), start, most, milliseconds) });
    let count = count.map_or(0, |count| count as usize);
    events[..count].iter().map(|event| event.u64 as RawFd).collect()
}
