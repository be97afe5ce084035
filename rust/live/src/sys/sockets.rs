//! Packet, netlink and datagram sockets, and what `std` does not say of a Unix stream.

use super::{checked, opened};
use crate::time::WallTime;
use libc::{c_int, c_void, socklen_t};
use std::fs::{File, Permissions};
use std::io::{Error, ErrorKind, Result};
use std::mem::{size_of, zeroed};
use std::os::unix::fs::PermissionsExt;
use std::os::unix::io::{AsRawFd, OwnedFd};
use std::os::unix::net::{UnixListener, UnixStream};
use std::ptr::{null_mut, NonNull};
use std::time::Duration;

pub const LONGEST_FRAME: usize = 1514;
pub const ROOMS: usize = 64; // frames that one call reads
pub type Rooms = [[u8; LONGEST_FRAME]; ROOMS];
/// A group address of Ethernet.
pub type GroupAddress = [u8; 6];

// linux/if_packet.h
const PACKET_STATISTICS: c_int = 6;
const PACKET_IGNORE_OUTGOING: c_int = 23;
const MOST_GROUPS: usize = 256;
const ONLY_OWNER: u32 = 0o600;
const WAITING: c_int = 128; // clients that the kernel lets wait to be accepted

#[repr(C)]
#[derive(Clone, Copy)]
struct PacketStatistics {
    _packets: u32,
    drops: u32,
}

/// An option of sockets whose value is a number.
enum Number {
    ReceiveRoom,
    ReceiveRoomByForce,
    TimeStamps,
    LockFilter,
    IgnoreOutgoing,
}

fn set_number(file: &File, option: &Number, value: c_int) -> Result<()> {
    let (level, name) = match option {
        Number::ReceiveRoom => (libc::SOL_SOCKET, libc::SO_RCVBUF),
        Number::ReceiveRoomByForce => (libc::SOL_SOCKET, libc::SO_RCVBUFFORCE),
        Number::TimeStamps => (libc::SOL_SOCKET, libc::SO_TIMESTAMPNS),
        Number::LockFilter => (libc::SOL_SOCKET, libc::SO_LOCK_FILTER),
        Number::IgnoreOutgoing => (libc::SOL_PACKET, PACKET_IGNORE_OUTGOING),
    };
    // SAFETY: socket(7) and packet(7) have each of these options with a number.
    unsafe { set(file, level, name, &value) }
}

/// Gives the kernel the value of an option, which it copies.
///
/// # Safety
/// `T` is the type of the option's value. Pointers in the value are valid during the call.
unsafe fn set<T>(file: &File, level: c_int, name: c_int, value: &T) -> Result<()> {
    let (start, length) = ((value as *const T).cast::<c_void>(), size_of::<T>() as socklen_t);
    // SAFETY: the stated length is that of the value, which is the option's.
    checked(unsafe { libc::setsockopt(file.as_raw_fd(), level, name, start, length) }).map(drop)
}

/// Reads an option into a value, and returns how many octets the kernel wrote.
///
/// # Safety
/// The kernel writes to the value and to nothing else, and any octets are a value of `T`.
unsafe fn get<T>(file: &impl AsRawFd, level: c_int, name: c_int, value: &mut T) -> Result<usize> {
    let (start, mut length) = ((value as *mut T).cast::<c_void>(), size_of::<T>() as socklen_t);
    // SAFETY: the kernel writes at most the stated length, which is that of the value.
    checked(unsafe { libc::getsockopt(file.as_raw_fd(), level, name, start, &mut length) })?;
    Ok(length as usize)
}

fn socket(domain: c_int, kind: c_int) -> Result<File> {
    // SAFETY: the call takes only numbers.
    unsafe { opened(libc::socket(domain, kind | libc::SOCK_CLOEXEC | libc::SOCK_NONBLOCK, 0)) }
}

/// Binds a socket to an address, or connects it. `T` should be one of libc's `sockaddr` structs.
fn address<T: Copy>(file: &File, address: &T, length: usize, is_peer: bool) -> Result<()> {
    let call = if is_peer { libc::connect } else { libc::bind };
    let start = (address as *const T).cast::<libc::sockaddr>();
    // SAFETY: the kernel only reads octets of the address, and no more than it has.
    let answer = unsafe { call(file.as_raw_fd(), start, length.min(size_of::<T>()) as socklen_t) };
    checked(answer).map(drop)
}

/// Opens a packet socket that receives nothing yet. It keeps the frames that the filter selects, for
/// which the kernel gives it up to `room` octets, and notes when each arrived. Nobody can remove or
/// replace the filter. Needs CAP_NET_RAW.
pub fn open_packet(filter: &[libc::sock_filter], room: usize) -> Result<File> {
    let file = socket(libc::AF_PACKET, libc::SOCK_RAW)?;
    let room = c_int::try_from(room).unwrap_or(c_int::MAX);
    set_number(&file, &Number::ReceiveRoom, room)?;
    let _ = set_number(&file, &Number::ReceiveRoomByForce, room); // only with CAP_NET_ADMIN
    set_number(&file, &Number::TimeStamps, 1)?;
    let _ = set_number(&file, &Number::IgnoreOutgoing, 1); // since Linux 4.20
    attach(&file, filter)?;
    set_number(&file, &Number::LockFilter, 1)?;
    Ok(file)
}

fn attach(file: &File, filter: &[libc::sock_filter]) -> Result<()> {
    let len = u16::try_from(filter.len()).map_err(|_| Error::from(ErrorKind::InvalidInput))?;
    // The kernel only reads the steps; libc declares the pointer as for both directions.
    let program = libc::sock_fprog { len, filter: filter.as_ptr() as *mut libc::sock_filter };
    // SAFETY: the option's value is such a program, with as many steps as it says, which are alive.
    unsafe { set(file, libc::SOL_SOCKET, libc::SO_ATTACH_FILTER, &program) }
}

/// Binds a packet socket to an interface and an EtherType.
pub fn bind_packet(file: &File, interface: c_int, protocol: u16) -> Result<()> {
    let place = libc::sockaddr_ll {
        sll_family: libc::AF_PACKET as u16,
        sll_protocol: protocol.to_be(),
        sll_ifindex: interface,
        sll_hatype: 0,
        sll_pkttype: 0,
        sll_halen: 0,
        sll_addr: [0; 8],
    };
    address(file, &place, size_of::<libc::sockaddr_ll>(), false)
}

/// Lets an interface accept frames to a group address while this socket is open.
pub fn join(file: &File, interface: c_int, group: GroupAddress) -> Result<()> {
    let mut place = [0; 8];
    place[..6].copy_from_slice(&group);
    let wanted = libc::packet_mreq {
        mr_ifindex: interface,
        mr_type: libc::PACKET_MR_MULTICAST as u16,
        mr_alen: group.len() as u16,
        mr_address: place,
    };
    // SAFETY: packet(7) has this option with this struct of numbers.
    unsafe { set(file, libc::SOL_PACKET, libc::PACKET_ADD_MEMBERSHIP, &wanted) }
}

/// Returns how many frames the kernel has dropped at a packet socket since the last call.
pub fn drops(file: &File) -> u64 {
    let mut told = PacketStatistics { _packets: 0, drops: 0 };
    // SAFETY: packet(7) has this option with this struct of numbers.
    let read = unsafe { get(file, libc::SOL_PACKET, PACKET_STATISTICS, &mut told) };
    read.map_or(0, |_| told.drops.into())
}

/// The room for the time stamp of a frame, aligned as the kernel writes it.
#[repr(C, align(8))]
#[derive(Clone, Copy)]
struct Note([u8; NOTE]);
// SAFETY: the macro only computes with a number.
const NOTE: usize = unsafe { libc::CMSG_SPACE(size_of::<libc::timespec>() as u32) } as usize;

/// Reads waiting frames, each into one of the rooms. Returns the length of each frame and, if the
/// kernel reports it, its time of arrival.
pub fn receive(file: &File, rooms: &mut Rooms) -> Result<Vec<(usize, Option<WallTime>)>> {
    let mut notes = [Note([0; NOTE]); ROOMS];
    let mut pieces = [libc::iovec { iov_base: null_mut(), iov_len: 0 }; ROOMS];
    // SAFETY: these structs of numbers and pointers may be all zero.
    let mut messages: [libc::mmsghdr; ROOMS] = unsafe { zeroed() };
    for place in 0..ROOMS {
        let room = &mut rooms[place];
        pieces[place] = libc::iovec { iov_base: room.as_mut_ptr().cast(), iov_len: room.len() };
        let head = &mut messages[place].msg_hdr;
        head.msg_iov = &mut pieces[place];
        head.msg_iovlen = 1;
        head.msg_control = notes[place].0.as_mut_ptr().cast();
        head.msg_controllen = NOTE as _;
    }
    let (start, most) = (messages.as_mut_ptr(), ROOMS as u32);
    // SAFETY: all rooms, pieces and notes outlive the call, and are as long as the messages say.
    let count = checked(unsafe { libc::recvmmsg(file.as_raw_fd(), start, most, 0, null_mut()) })? as usize;
    let read = messages[..count.min(ROOMS)].iter().map(|one| {
        // SAFETY: the kernel has filled the message, whose note is aligned and still alive.
        (one.msg_len as usize, unsafe { stamp(&one.msg_hdr) })
    });
    Ok(read.collect())
}

/// Returns the time stamp in a message.
///
/// # Safety
/// The kernel has filled the message, and its room for notes is aligned as `Note` and still alive.
unsafe fn stamp(head: &libc::msghdr) -> Option<WallTime> {
    // SAFETY: the kernel has set the length of the notes, whose room is alive.
    let note = NonNull::new(unsafe { libc::CMSG_FIRSTHDR(head) })?;
    // SAFETY: the macro answers null unless the room has a whole header, and the room is aligned.
    let told = unsafe { note.as_ref() };
    let is_stamp = told.cmsg_level == libc::SOL_SOCKET && told.cmsg_type == libc::SCM_TIMESTAMPNS;
    // SAFETY: the macro only computes with a number.
    let whole = unsafe { libc::CMSG_LEN(size_of::<libc::timespec>() as u32) } as usize;
    if !is_stamp || (told.cmsg_len as usize) < whole {
        return None;
    }
    // SAFETY: a note of this kind and length has a `timespec` after its header.
    let time = unsafe { libc::CMSG_DATA(note.as_ptr()).cast::<libc::timespec>().read_unaligned() };
    Some(WallTime::after_1970(Duration::new(time.tv_sec as u64, time.tv_nsec as u32)))
}

/// Opens a netlink socket that hears of these groups of news.
pub fn open_netlink(groups: c_int) -> Result<File> {
    let file = socket(libc::AF_NETLINK, libc::SOCK_RAW)?;
    // SAFETY: this struct of numbers may be all zero.
    let mut place: libc::sockaddr_nl = unsafe { zeroed() };
    place.nl_family = libc::AF_NETLINK as u16;
    place.nl_groups = groups as u32;
    address(&file, &place, size_of::<libc::sockaddr_nl>(), false)?;
    Ok(file)
}

/// Opens a socket for datagrams to processes of this host.
pub fn open_datagrams() -> Result<File> {
    socket(libc::AF_UNIX, libc::SOCK_DGRAM)
}

/// Connects a socket to a Unix address: a path, or octets that begin with a zero.
pub fn connect_datagrams(file: &File, name: &[u8]) -> Result<()> {
    unix_address(file, name, true)
}

/// Sends a datagram with open files to the peer of a socket. (unix(7))
pub fn send_files(file: &File, text: &str, files: &[File]) -> Result<()> {
    let numbers: Vec<c_int> = files.iter().map(AsRawFd::as_raw_fd).take(MOST_SENT).collect();
    let length = size_of::<c_int>() * numbers.len();
    let mut note = [0u64; 8]; // aligned as the kernel reads it
    let mut piece = libc::iovec { iov_base: text.as_ptr() as *mut c_void, iov_len: text.len() };
    // SAFETY: this struct of numbers and pointers may be all zero. The macros compute within the note, which has
    // room for `MOST_SENT` numbers. The kernel reads text and note, which outlive the call.
    checked(unsafe {
        let mut head: libc::msghdr = zeroed();
        head.msg_iov = &mut piece;
        head.msg_iovlen = 1;
        head.msg_control = note.as_mut_ptr().cast();
        head.msg_controllen = libc::CMSG_SPACE(length as u32) as _;
        let told = libc::CMSG_FIRSTHDR(&head);
        (*told).cmsg_level = libc::SOL_SOCKET;
        (*told).cmsg_type = libc::SCM_RIGHTS;
        (*told).cmsg_len = libc::CMSG_LEN(length as u32) as _;
        std::ptr::copy_nonoverlapping(numbers.as_ptr().cast::<u8>(), libc::CMSG_DATA(told), length);
        libc::sendmsg(file.as_raw_fd(), &head, libc::MSG_NOSIGNAL) as c_int
    })
    .map(drop)
}

const MOST_SENT: usize = 4;

/// Sends what a stream has room for, without waiting.
pub fn send_at_once(file: &File, octets: &[u8]) -> Result<usize> {
    let (start, flags) = (octets.as_ptr().cast(), libc::MSG_DONTWAIT | libc::MSG_NOSIGNAL);
    // SAFETY: the kernel reads the octets, whose number is stated.
    let sent = unsafe { libc::send(file.as_raw_fd(), start, octets.len(), flags) };
    usize::try_from(sent).map_err(|_| Error::last_os_error())
}

/// Binds a socket to a Unix address, or connects it.
fn unix_address(file: &File, name: &[u8], is_peer: bool) -> Result<()> {
    // SAFETY: this struct of numbers may be all zero.
    let mut place: libc::sockaddr_un = unsafe { zeroed() };
    if name.len() >= place.sun_path.len() {
        return Err(Error::new(ErrorKind::InvalidInput, "the path is too long for a socket"));
    }
    place.sun_family = libc::AF_UNIX as u16;
    for (room, octet) in place.sun_path.iter_mut().zip(name) {
        *room = *octet as _;
    }
    let front = size_of::<libc::sockaddr_un>() - place.sun_path.len();
    address(file, &place, front + name.len(), is_peer)
}

/// Listens at a path. Only the owner may use the socket, whatever the umask says: Linux gives the file
/// that it makes the mode of the socket, and no other thread's files are concerned.
pub fn listen_stream(path: &str) -> Result<UnixListener> {
    let file = socket(libc::AF_UNIX, libc::SOCK_STREAM)?;
    file.set_permissions(Permissions::from_mode(ONLY_OWNER))?;
    unix_address(&file, path.as_bytes(), false)?;
    // SAFETY: the call takes only numbers.
    checked(unsafe { libc::listen(file.as_raw_fd(), WAITING) })?;
    Ok(UnixListener::from(OwnedFd::from(file)))
}

/// Connects to a Unix socket at a path. Fails with `WouldBlock` if its queue is full.
pub fn connect_stream(path: &str) -> Result<UnixStream> {
    let file = socket(libc::AF_UNIX, libc::SOCK_STREAM)?;
    connect_datagrams(&file, path.as_bytes())?;
    Ok(UnixStream::from(OwnedFd::from(file)))
}

/// Returns the user, the groups and the number that a client's process had when it connected.
pub fn peer_of(stream: &UnixStream) -> (u32, Vec<u32>, i32) {
    let mut told = libc::ucred { pid: 0, uid: u32::MAX, gid: u32::MAX };
    // SAFETY: unix(7) has this option with this struct of numbers.
    if unsafe { get(stream, libc::SOL_SOCKET, libc::SO_PEERCRED, &mut told) }.is_err() {
        return (u32::MAX, Vec::new(), 0);
    }
    let mut further = [0u32; MOST_GROUPS];
    // SAFETY: the kernel writes numbers of groups, or none if there is no room for all.
    let length = unsafe { get(stream, libc::SOL_SOCKET, libc::SO_PEERGROUPS, &mut further) }.unwrap_or(0);
    let mut groups = further[..length / size_of::<u32>()].to_vec();
    groups.push(told.gid);
    (told.uid, groups, told.pid)
}

#[cfg(test)]
mod tests {
    use super::*;
    use std::os::unix::net::UnixDatagram;

    #[test]
    fn one_call_reads_all_frames_that_have_room() {
        let (theirs, ours) = UnixDatagram::pair().expect("two sockets");
        ours.set_nonblocking(true).expect("a socket");
        let (file, mut rooms) = (File::from(OwnedFd::from(ours)), Box::new([[0; LONGEST_FRAME]; ROOMS]));
        let none = receive(&file, &mut rooms).expect_err("nothing was sent");
        assert_eq!(none.kind(), ErrorKind::WouldBlock);
        for length in [1, 0, 60, LONGEST_FRAME, LONGEST_FRAME + 9] {
            theirs.send(&vec![length as u8; length]).expect("room");
        }
        let lengths = receive(&file, &mut rooms).expect("frames");
        assert_eq!(lengths, [1, 0, 60, LONGEST_FRAME, LONGEST_FRAME].map(|length| (length, None)));
        for (room, (length, octet)) in rooms.iter().zip([(1, 1), (0, 0), (60, 60), (LONGEST_FRAME, 234)]) {
            assert!(room[..length].iter().all(|one| *one == octet), "{length}");
        }
    }

    #[test]
    fn a_client_has_a_user_groups_and_a_number() {
        let (ours, _theirs) = UnixStream::pair().expect("two sockets");
        let (user, groups, process) = peer_of(&ours);
        assert_eq!((user, process as u32), (crate::sys::rights::own_user(), std::process::id()));
        assert!(!groups.is_empty());
    }
}
