//! Files, folders and patterns.

use super::{checked, opened};
use libc::{c_char, c_int};
use std::ffi::CString;
use std::fs::File;
use std::io::Result;
use std::mem::MaybeUninit;
use std::os::unix::io::{AsRawFd, FromRawFd};

extern "C" {
    fn fnmatch(pattern: *const c_char, text: *const c_char, flags: c_int) -> c_int;
}

/// Locks a file for this process. Fails at once if another process has it.
pub fn lock(file: &File) -> Result<()> {
    // SAFETY: the call takes only numbers.
    checked(unsafe { libc::flock(file.as_raw_fd(), libc::LOCK_EX | libc::LOCK_NB) }).map(drop)
}

/// What a file is.
pub struct FileStatus {
    pub user: u32,
    pub group: u32,
    pub mode: u32,
    pub links: u64,
}

/// Returns what an open file is. (`std` and the C library ask by calls that also take paths.)
pub fn status(file: &File) -> Result<FileStatus> {
    let mut found = MaybeUninit::<libc::stat>::zeroed();
    // SAFETY: the kernel writes one `stat`, for which all zeros are a valid value.
    let found = unsafe {
        let answer = libc::syscall(libc::SYS_fstat, file.as_raw_fd(), found.as_mut_ptr());
        checked(answer as c_int)?;
        found.assume_init()
    };
    let (mode, links) = (found.st_mode, found.st_nlink as u64);
    Ok(FileStatus { user: found.st_uid, group: found.st_gid, mode, links })
}

const IN_MEMORY: [u32; 2] = [0x0102_1994, 0x8584_58f6]; // tmpfs and ramfs (linux/magic.h)

/// True if a file is on no disk.
pub fn is_in_memory(file: &File) -> bool {
    let mut found = MaybeUninit::<libc::statfs>::zeroed();
    // SAFETY: the kernel writes one `statfs`, for which all zeros are a valid value.
    let (answer, found) = unsafe {
        let answer = libc::fstatfs(file.as_raw_fd(), found.as_mut_ptr());
        (answer, found.assume_init())
    };
    answer == 0 && IN_MEMORY.contains(&(found.f_type as u32))
}

/// Opens a file without a path, which exists only in memory.
pub fn in_memory() -> Result<File> {
    let name = b"lldpa-state\0".as_ptr().cast();
    // SAFETY: the name ends with a zero, and the call opens a descriptor that nothing else owns.
    unsafe { opened(libc::memfd_create(name, libc::MFD_CLOEXEC)) }
}

const FIRST_KEPT: c_int = 3;
const MOST_KEPT: c_int = 16;

/// Returns the numbers of the files that the service manager has kept. (sd_listen_fds(3))
fn numbers_of_kept() -> std::ops::Range<c_int> {
    let value = |name: &str| std::env::var(name).unwrap_or_default();
    let is_ours = value("LISTEN_PID") == std::process::id().to_string();
    let count = if is_ours { value("LISTEN_FDS").parse().unwrap_or(0) } else { 0 };
    FIRST_KEPT..FIRST_KEPT + count.clamp(0, MOST_KEPT)
}

/// Keeps the files that the service manager has kept from the programs that this process starts.
pub fn hide_kept() {
    for number in numbers_of_kept() {
        // SAFETY: the call takes only numbers.
        unsafe { libc::fcntl(number, libc::F_SETFD, libc::FD_CLOEXEC) };
    }
}

/// Takes the files that the service manager has kept under a name.
pub fn kept(name: &str) -> Vec<File> {
    let names = std::env::var("LISTEN_FDNAMES").unwrap_or_default();
    // SAFETY: the manager has opened these descriptors for this process, in which nothing else owns them yet.
    let all = numbers_of_kept().map(|number| unsafe { File::from_raw_fd(number) });
    all.zip(names.split(':')).filter(|one| one.1 == name).map(|one| one.0).collect()
}

/// Returns a file that becomes ready when the file at a path is removed, renamed or has a new mode.
pub fn watch(path: &str) -> Result<File> {
    let path = CString::new(path)?;
    // SAFETY: the call takes only a number.
    let file = unsafe { opened(libc::inotify_init1(libc::IN_CLOEXEC | libc::IN_NONBLOCK)) }?;
    let events = libc::IN_ATTRIB | libc::IN_MOVE_SELF;
    // SAFETY: the path ends with a zero and outlives the call.
    checked(unsafe { libc::inotify_add_watch(file.as_raw_fd(), path.as_ptr(), events) })?;
    Ok(file)
}

/// Changes the owner and the group of a file. None leaves either as it is.
pub fn give(path: &str, user: Option<u32>, group: Option<u32>) -> Result<()> {
    let path = CString::new(path)?;
    // SAFETY: the path ends with a zero and outlives the call.
    checked(unsafe { libc::chown(path.as_ptr(), user.unwrap_or(u32::MAX), group.unwrap_or(u32::MAX)) })
        .map(drop)
}

/// Changes the owner of an open file.
pub fn give_open(file: &File, user: u32) -> Result<()> {
    // SAFETY: the call takes only numbers.
    checked(unsafe { libc::fchown(file.as_raw_fd(), user, u32::MAX) }).map(drop)
}

const OF_ACCESS: &[u8] = b"system.posix_acl_access\0";
/// The kinds of entries of a list of access rights, in the order of the list. (linux/posix_acl.h)
const OWNER: u16 = 0x01;
const OF_GROUP_OF_FILE: u16 = 0x04;
const GROUP: u16 = 0x08;
const MASK: u16 = 0x10;
const OTHERS: u16 = 0x20;
const READ_AND_WRITE: u16 = 6;
const NOBODY: u32 = u32::MAX; // in entries without a user or a group

/// Lets the owner of a file and a group read and write it, and nobody else, by a list of access
/// rights. The owner needs no right for that, and need not belong to the group.
pub fn let_group_use(path: &str, group: u32) -> Result<()> {
    let path = CString::new(path)?;
    let entries = [
        (OWNER, READ_AND_WRITE, NOBODY),
        (OF_GROUP_OF_FILE, 0, NOBODY),
        (GROUP, READ_AND_WRITE, group),
        (MASK, READ_AND_WRITE, NOBODY),
        (OTHERS, 0, NOBODY),
    ];
    let mut list = 2u32.to_le_bytes().to_vec(); // the version
    for (kind, rights, who) in entries {
        list.extend_from_slice(&[kind, rights].map(u16::to_le_bytes).concat());
        list.extend_from_slice(&who.to_le_bytes());
    }
    let (name, start) = (OF_ACCESS.as_ptr().cast(), list.as_ptr().cast());
    // SAFETY: both texts end with a zero. The kernel only reads the list, whose length is stated. All
    // of them outlive the call.
    checked(unsafe { libc::setxattr(path.as_ptr(), name, start, list.len(), 0) }).map(drop)
}

/// True if a pattern with `*`, `?` and `[..]` matches a text.
pub fn matches(pattern: &str, text: &str) -> bool {
    match (CString::new(pattern), CString::new(text)) {
        // SAFETY: both texts end with a zero and outlive the call.
        (Ok(pattern), Ok(text)) => unsafe { fnmatch(pattern.as_ptr(), text.as_ptr(), 0) == 0 },
        _ => false,
    }
}

#[cfg(test)]
mod tests {
    use super::*;

    #[test]
    fn patterns_match_whole_texts() {
        for (pattern, text, wanted) in [
            ("eth0", "eth0", true),
            ("eth0", "eth01", false),
            ("e*", "eth0", true),
            ("e*", "e/0", true), // a name in the settings may have any letter
            ("*", ".eth", true),
            ("eth?", "eth", false),
            ("eth[0-3]", "eth2", true),
            ("eth[0-3]", "eth4", false),
            ("eth[!0-3]", "eth4", true),
            ("\\*", "*", true),
            ("a\0", "a", false),
        ] {
            assert_eq!(matches(pattern, text), wanted, "{pattern:?} {text:?}");
        }
    }
}
