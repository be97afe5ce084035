//! Listens at the control socket's path, which one process uses at a time. Checks clients' rights.

use crate::reports::warn;
use crate::rights::{at, text_of};
use crate::sys::{files, sockets};
use crate::waiting::Awaited;
use std::fs::{self, DirBuilder, File, OpenOptions, Permissions};
use std::io::{Error, ErrorKind, Result};
use std::os::unix::fs::{DirBuilderExt, FileTypeExt, OpenOptionsExt, PermissionsExt};
use std::os::unix::io::AsRawFd;
use std::os::unix::net::{UnixListener, UnixStream};
use std::path::Path;
use std::thread;
use std::time::{Duration, Instant};

const BETWEEN_TRIES: Duration = Duration::from_millis(10);

/// A listening socket. Until it is dropped or the process ends, no other lldpa-live uses its path.
pub struct Listening {
    pub path: String,
    /// The group that may use the socket too.
    pub group: Option<u32>,
    _lock: File,
    pub socket: Awaited<UnixListener>,
    /// The file at the path, whose owner, group and mode say who may change the agent.
    pub file: File,
    /// Becomes ready when the socket is removed.
    pub watch: Option<Awaited<File>>,
}

impl Listening {
    /// Locks the path and listens there. Creates the folder if it is missing.
    pub fn open(path: &str, group: Option<u32>) -> Result<Listening> {
        if let Some(folder) = Path::new(path).parent() {
            let _ = DirBuilder::new().mode(0o755).create(folder);
        }
        let lock = locked(path)?;
        remove_stale(path)?;
        let socket = Awaited::new(listener(path, group).map_err(at(path))?);
        let file = opened(path).map_err(at(path))?;
        Ok(Listening { path: path.into(), group, _lock: lock, socket, file, watch: watch(path) })
    }

    /// True unless the socket was removed.
    pub fn is_there(&self) -> bool {
        files::status(&self.file).map_or(true, |found| found.links > 0)
    }
}

fn watch(path: &str) -> Option<Awaited<File>> {
    files::watch(path).ok().map(Awaited::new)
}

fn lock_path(path: &str) -> String {
    format!("{path}.lock")
}

fn in_use(path: &str) -> Error {
    Error::new(ErrorKind::AddrInUse, format!("{path}: another lldpa-live answers at this control path"))
}

fn locked(path: &str) -> Result<File> {
    let mut options = OpenOptions::new();
    let options = options.read(true).write(true).create(true).mode(0o600).custom_flags(libc::O_NOFOLLOW);
    let lock = options.open(lock_path(path)).map_err(at(&lock_path(path)))?;
    files::lock(&lock).map_err(|_| in_use(path))?;
    Ok(lock)
}

/// Removes a socket on which nobody listens any more. Anything else at the path is an error.
fn remove_stale(path: &str) -> Result<()> {
    let found = match fs::symlink_metadata(path) {
        Ok(found) => found,
        Err(_) => return Ok(()),
    };
    if !found.file_type().is_socket() {
        return Err(at(path)(Error::new(ErrorKind::AlreadyExists, "this is not a socket")));
    }
    match connect(path, Duration::from_secs(1)) {
        Err(fault) if fault.kind() == ErrorKind::ConnectionRefused => fs::remove_file(path).map_err(at(path)),
        _ => Err(in_use(path)),
    }
}

/// Connects to a socket within this time, in which its queue may be full. Reads of it never wait.
pub fn connect(path: &str, patience: Duration) -> Result<UnixStream> {
    let last = Instant::now() + patience;
    loop {
        match sockets::connect_stream(path) {
            Err(fault) if fault.kind() == ErrorKind::WouldBlock && Instant::now() < last => {
                thread::sleep(BETWEEN_TRIES);
            }
            Err(fault) if fault.kind() == ErrorKind::WouldBlock => {
                return Err(Error::new(ErrorKind::TimedOut, "the connection was not accepted in time"))
            }
            connected => return connected,
        }
    }
}

/// Returns a listening socket. Its mode is 0600 at first, then 0660 if a group is given.
fn listener(path: &str, group: Option<u32>) -> Result<UnixListener> {
    let socket = sockets::listen_stream(path)?;
    match group.map(|group| hand_over(path, group)) {
        // A group never decides whether the agent runs.
        Some(Err(fault)) if [ErrorKind::PermissionDenied, ErrorKind::Unsupported].contains(&fault.kind()) => {
            warn(&format!("{path}: the group cannot use this control socket: {}", text_of(&fault)));
        }
        given => given.unwrap_or(Ok(()))?,
    }
    Ok(socket)
}

/// Opens the socket at a path, but not for reading.
fn opened(path: &str) -> Result<File> {
    let file = OpenOptions::new().read(true).custom_flags(libc::O_PATH | libc::O_NOFOLLOW).open(path)?;
    if !file.metadata()?.file_type().is_socket() {
        return Err(Error::new(ErrorKind::AlreadyExists, "this is not a socket"));
    }
    Ok(file)
}

/// Lets a group use the socket at a path. Opens the socket once for all steps, since another user
/// who may write to the folder could replace it between two steps.
pub fn hand_over(path: &str, group: u32) -> Result<()> {
    let file = opened(path)?;
    let by_number = format!("/proc/self/fd/{}", file.as_raw_fd());
    match files::give(&by_number, None, Some(group)) {
        Ok(()) => fs::set_permissions(&by_number, Permissions::from_mode(0o660)),
        // Only root, or the owner as a member of the group, may change the group of a file.
        Err(_) => files::let_group_use(&by_number, group),
    }
}

/// The user, the groups and the number that a client's process had when it connected.
pub struct Peer {
    user: u32,
    groups: Vec<u32>,
    process: i32,
}

impl Peer {
    pub fn of(stream: &UnixStream) -> Peer {
        let (user, groups, process) = sockets::peer_of(stream);
        Peer { user, groups, process }
    }

    /// Returns who this is, for reports. (The name of the program is in a file below /proc, which lldpa-live does
    /// not open.)
    pub fn name(&self) -> String {
        format!("user {} (process {})", self.user, self.process)
    }

    /// True if the client is root, or may write to the socket as its owner or by its group. (The
    /// kernel checks clients when they connect, but lets in everybody if the mode is 0666.) A group
    /// that was let in by a list of access rights is not that of the file.
    pub fn may_change(&self, socket: &File, group: Option<u32>) -> bool {
        let is_member = |group: u32| self.groups.contains(&group);
        match files::status(socket) {
            _ if self.user == 0 => true,
            Ok(found) if found.user == self.user => found.mode & 0o200 != 0,
            Ok(found) => found.mode & 0o020 != 0 && is_member(group.unwrap_or(found.group)),
            Err(_) => false,
        }
    }

    pub fn is_preferred(&self, socket: &File) -> bool {
        self.user == 0 || files::status(socket).map_or(false, |found| found.user == self.user)
    }
}

#[cfg(test)]
mod tests {
    use super::*;
    use std::os::unix::fs::MetadataExt;

    #[test]
    fn root_the_owner_and_the_group_may_change() {
        let path = std::env::temp_dir().join(format!("lldpa-live-peer-{}", std::process::id()));
        let file = File::create(&path).expect("a file");
        let path = path.to_string_lossy().into_owned();
        if crate::rights::own_user() == 0 {
            files::give(&path, Some(54_321), None).expect("a right"); // root may change in any case
        }
        let found = fs::metadata(&path).expect("a file");
        let (owner, group, other) = (found.uid(), found.gid(), found.uid() + found.gid() + 12_345);
        for (mode, user, groups, may_change) in [
            (0o600, owner, vec![], true),
            (0o460, owner, vec![group], false),
            (0o600, other, vec![group], false),
            (0o660, other, vec![other, group], true),
            (0o660, other, vec![other], false),
            (0o666, other, vec![other], false),
            (0o400, 0, vec![], true),
        ] {
            fs::set_permissions(&path, Permissions::from_mode(mode)).expect("a mode");
            let peer = Peer { user, groups, process: 1 };
            assert_eq!(peer.may_change(&file, None), may_change, "{mode:o} {user}");
            assert_eq!(peer.is_preferred(&file), user == owner || user == 0, "{user}");
        }
        assert_eq!(files::status(&file).expect("a file").links, 1);
        fs::remove_file(&path).expect("a file");
        assert_eq!(files::status(&file).expect("a file").links, 0);
    }
}
