//! Safe functions for what the C library has and `std` lacks. All `unsafe` code of the program is
//! in this folder. Each safe function may be called with any arguments: no call can harm memory.
#![deny(unsafe_op_in_unsafe_fn)]

pub mod files;
#[cfg(not(target_feature = "crt-static"))]
pub mod names;
pub mod rights;
pub mod seccomp;
pub mod signals;
pub mod sockets;
#[cfg(test)]
pub mod stopped;
pub mod terminal;
pub mod wait;

use libc::c_int;
use std::fs::File;
use std::io::{Error, Result};
use std::os::unix::io::FromRawFd;
use std::time::Duration;

/// Returns the answer of a call, or the error in `errno` if the answer is negative.
fn checked(answer: c_int) -> Result<c_int> {
    if answer < 0 {
        return Err(Error::last_os_error());
    }
    Ok(answer)
}

/// Takes the descriptor that a call has just opened, or the error in `errno`.
///
/// # Safety
/// The answer is negative, or a descriptor that nothing else owns.
unsafe fn opened(answer: c_int) -> Result<File> {
    let number = checked(answer)?;
    // SAFETY: it is a descriptor that nothing else owns.
    Ok(unsafe { File::from_raw_fd(number) })
}

/// A clock of the kernel.
#[derive(Clone, Copy)]
pub enum Clock {
    /// The wall clock: the time since 1970.
    Wall,
    /// Counts from the boot, also while the machine sleeps.
    Boot,
    /// The processor time that all threads of this process have used.
    Process,
}

/// Reads a clock. A test may have stopped it.
pub fn read_clock(clock: Clock) -> Duration {
    #[cfg(test)]
    if let Some(time) = stopped::read(clock) {
        return time;
    }
    read_running(clock)
}

fn read_running(clock: Clock) -> Duration {
    let number = match clock {
        Clock::Wall => libc::CLOCK_REALTIME,
        Clock::Boot => libc::CLOCK_BOOTTIME,
        Clock::Process => libc::CLOCK_PROCESS_CPUTIME_ID,
    };
    let mut time = libc::timespec { tv_sec: 0, tv_nsec: 0 };
    // SAFETY: the kernel writes one `timespec` to the local value.
    unsafe { libc::clock_gettime(number, &mut time) };
    Duration::new(time.tv_sec as u64, time.tv_nsec as u32)
}

/// Lets the kernel have back each freed piece of memory that has so many octets or more. By itself the C
/// library soon keeps larger ones, too, and then what large answers no longer need stays.
pub fn give_back_pieces_of(octets: c_int) {
    // SAFETY: the call takes only numbers, and leaves the memory that is in use as it is.
    #[cfg(target_env = "gnu")]
    unsafe {
        libc::mallopt(libc::M_MMAP_THRESHOLD, octets)
    };
}

/// Ends this process with status 1. Waits for no thread, also if one of them holds a lock.
pub fn end_at_once() -> ! {
    // SAFETY: the call takes a number, and does not return.
    unsafe { libc::_exit(1) }
}

/// Returns the host's name.
pub fn host_name() -> String {
    let mut name = [0u8; 256];
    // SAFETY: the call writes at most 255 octets, so the last octet stays zero.
    unsafe { libc::gethostname(name.as_mut_ptr().cast(), name.len() - 1) };
    String::from_utf8_lossy(name.split(|octet| *octet == 0).next().unwrap_or(&[])).into_owned()
}
