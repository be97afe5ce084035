//! The signals that lldpa-live reads from a file: SIGHUP, SIGINT, SIGTERM and SIGUSR2.

use super::opened;
use std::fs::File;
use std::io::{Read, Result};
use std::mem::{size_of, MaybeUninit};
use std::ptr::null_mut;

const READ: [libc::c_int; 4] = [libc::SIGHUP, libc::SIGINT, libc::SIGTERM, libc::SIGUSR2];
const ENDS: [libc::c_int; 2] = [libc::SIGINT, libc::SIGTERM];

/// A signal that was read.
#[derive(Clone, Copy, PartialEq, Eq)]
pub enum Signal {
    HangUp,
    End,
    /// To end without a word to the neighbors: another lldpa-live follows.
    MakeWay,
}

/// Returns the set of these signals, without those that the parent process has set to be ignored.
fn set_of(signals: &[libc::c_int]) -> libc::sigset_t {
    let mut set = MaybeUninit::<libc::sigset_t>::zeroed();
    // SAFETY: all zeros are a valid set. (`sigemptyset` writes only the part that the kernel knows.)
    let mut set = unsafe {
        libc::sigemptyset(set.as_mut_ptr());
        set.assume_init()
    };
    for number in signals {
        let mut action = MaybeUninit::<libc::sigaction>::zeroed();
        // SAFETY: the call writes the action, for which all zeros are a valid value, and changes none.
        let handler = unsafe {
            libc::sigaction(*number, std::ptr::null(), action.as_mut_ptr());
            action.assume_init().sa_sigaction
        };
        if handler != libc::SIG_IGN {
            // SAFETY: the set is initialized.
            unsafe { libc::sigaddset(&mut set, *number) };
        }
    }
    set
}

/// Blocks the signals in this thread, and in those that it starts later. Returns a file that becomes
/// ready when one of them arrives.
pub fn open() -> Result<File> {
    let set = set_of(&READ);
    // SAFETY: the set is initialized, and the former mask is not wanted.
    unsafe { libc::sigprocmask(libc::SIG_BLOCK, &set, null_mut()) };
    // SAFETY: the set is initialized, the kernel copies it, and the call opens a descriptor.
    unsafe { opened(libc::signalfd(-1, &set, libc::SFD_CLOEXEC | libc::SFD_NONBLOCK)) }
}

/// Lets a write that would pass the limit of file sizes fail, and not end this process.
pub fn ignore_file_limit() {
    // SAFETY: the call sets no handler.
    unsafe { libc::signal(libc::SIGXFSZ, libc::SIG_IGN) };
}

/// Lets the kernel forget each child process that has ended.
pub fn forget_children() {
    // SAFETY: the call sets no handler.
    unsafe { libc::signal(libc::SIGCHLD, libc::SIG_IGN) };
}

/// Lets this process go on at each of these signals.
pub fn ignore_all() {
    for number in READ {
        // SAFETY: the call sets no handler.
        unsafe { libc::signal(number, libc::SIG_IGN) };
    }
}

/// Reads the next signal. None if none waits.
pub fn next(file: &mut File) -> Option<Signal> {
    let mut room = [0; size_of::<libc::signalfd_siginfo>()];
    let length = file.read(&mut room).ok()?;
    let number = u32::from_ne_bytes(room.get(..4).filter(|_| length == room.len())?.try_into().ok()?);
    Some(match number as libc::c_int {
        libc::SIGHUP => Signal::HangUp,
        libc::SIGUSR2 => Signal::MakeWay,
        _ => Signal::End,
    })
}

/// Unblocks SIGINT and SIGTERM, so that either ends the process at once.
pub fn let_them_end() {
    let set = set_of(&ENDS);
    // SAFETY: the set is initialized, and the former mask is not wanted.
    unsafe { libc::sigprocmask(libc::SIG_UNBLOCK, &set, null_mut()) };
}
