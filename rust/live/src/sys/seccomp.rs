//! The filter of system calls. After the start lldpa-live needs few calls; the kernel refuses all
//! others with EPERM, also to code that takes the process over.

use libc::{c_int, c_long, sock_filter};
use std::io::{Error, ErrorKind, Result};

/// The architecture whose numbers of calls the filter knows (linux/audit.h).
const ARCHITECTURE: Option<u32> = if cfg!(target_arch = "x86_64") {
    Some(0xc000_003e)
} else if cfg!(target_arch = "aarch64") {
    Some(0xc000_00b7)
} else {
    None
};

/// Calls that are allowed with any arguments: those of a session, and those of an end. The most frequent ones come
/// first. None takes a path, and by none can an open file be given to another process (`sendmsg`), which would
/// take a packet socket out of this filter.
const ALLOWED: &[c_long] = &[
    libc::SYS_epoll_pwait,
    libc::SYS_recvmmsg,
    libc::SYS_clock_gettime,
    libc::SYS_write,
    libc::SYS_read,
    libc::SYS_epoll_ctl,
    libc::SYS_recvfrom,
    // further calls on sockets
    libc::SYS_accept4,
    libc::SYS_bind,
    libc::SYS_getsockopt,
    // files that are open
    libc::SYS_close,
    libc::SYS_fstat,
    libc::SYS_ftruncate,
    libc::SYS_pwrite64,
    // memory and signals of this process
    libc::SYS_brk,
    libc::SYS_exit_group,
    libc::SYS_getrandom,
    libc::SYS_madvise,
    libc::SYS_mremap,
    libc::SYS_munmap,
    libc::SYS_restart_syscall,
    libc::SYS_rt_sigaction,
    libc::SYS_rt_sigprocmask,
    libc::SYS_rt_sigreturn,
    libc::SYS_sigaltstack,
    // what this process and host are
    libc::SYS_getpid,
    libc::SYS_gettid,
    libc::SYS_gettimeofday,
    libc::SYS_uname,
];

/// Older forms of these calls, which only this architecture has.
#[cfg(target_arch = "x86_64")]
const OLDER: &[c_long] = &[libc::SYS_epoll_wait];
#[cfg(not(target_arch = "x86_64"))]
const OLDER: &[c_long] = &[];

/// What an argument must be.
enum Argument {
    Is(c_int),
    /// None of these bits is set.
    Lacks(c_int),
    /// No pointer.
    Null,
}

/// Calls that are allowed if each of these arguments, counted from 0, is as stated.
const LIMITED: &[(c_long, &[(usize, Argument)])] = &[
    // no packet ring, no filter, and no other option. (Joining a group and promiscuous mode are one
    // option, whose value is behind a pointer.)
    (
        libc::SYS_setsockopt,
        &[(1, Argument::Is(libc::SOL_PACKET)), (2, Argument::Is(libc::PACKET_ADD_MEMBERSHIP))],
    ),
    // no address of a receiver
    (libc::SYS_sendto, &[(4, Argument::Null)]),
    (libc::SYS_ioctl, &[(1, Argument::Is(libc::FIONBIO as c_int))]),
    (libc::SYS_mmap, &[(2, Argument::Lacks(libc::PROT_EXEC))]),
];

const NUMBER: u32 = 0; // the offsets in `struct seccomp_data`
const ARCHITECTURE_AT: u32 = 4;
const ARGUMENTS: u32 = 16;
const ALLOW: u32 = libc::SECCOMP_RET_ALLOW;
const REFUSE: u32 = libc::SECCOMP_RET_ERRNO | libc::EPERM as u32;

fn load(offset: u32) -> sock_filter {
    let code = (libc::BPF_LD | libc::BPF_W | libc::BPF_ABS) as u16;
    sock_filter { code, jt: 0, jf: 0, k: offset }
}

/// Skips this many steps if the loaded number is, or has a bit of, `k`, and else those in `jf`.
fn jump(kind: u32, k: u32, jt: u8, jf: u8) -> sock_filter {
    sock_filter { code: (libc::BPF_JMP | kind | libc::BPF_K) as u16, jt, jf, k }
}

fn answer(k: u32) -> sock_filter {
    sock_filter { code: (libc::BPF_RET | libc::BPF_K) as u16, jt: 0, jf: 0, k }
}

/// Returns the steps of the filter, or None if the numbers of this architecture are not known.
fn steps() -> Option<Vec<sock_filter>> {
    let architecture = ARCHITECTURE?;
    let mut steps =
        vec![load(ARCHITECTURE_AT), jump(libc::BPF_JEQ, architecture, 1, 0), answer(REFUSE), load(NUMBER)];
    for number in ALLOWED.iter().chain(OLDER) {
        steps.extend([jump(libc::BPF_JEQ, *number as u32, 0, 1), answer(ALLOW)]);
    }
    for (number, arguments) in LIMITED {
        limit(&mut steps, *number, arguments);
    }
    // `abort` sends a signal to its own thread
    let own = std::process::id() as c_int;
    limit(&mut steps, libc::SYS_tgkill, &[(0, Argument::Is(own)), (2, Argument::Is(libc::SIGABRT))]);
    steps.push(answer(REFUSE));
    Some(steps)
}

/// Adds the steps that allow a call with these arguments, and refuse it with others.
fn limit(steps: &mut Vec<sock_filter>, number: c_long, arguments: &[(usize, Argument)]) {
    let mut further = Vec::new();
    for (place, wanted) in arguments {
        // All limited numbers fit in 32 bits, which are the lower half of the place.
        let half = ARGUMENTS + 8 * *place as u32;
        match wanted {
            Argument::Is(value) => further.extend([load(half), jump(libc::BPF_JEQ, *value as u32, 1, 0)]),
            Argument::Lacks(bits) => further.extend([load(half), jump(libc::BPF_JSET, *bits as u32, 0, 1)]),
            Argument::Null => further.extend([
                load(half + 4),
                jump(libc::BPF_JEQ, 0, 0, 2), // to the refusal
                load(half),
                jump(libc::BPF_JEQ, 0, 1, 0),
            ]),
        }
        further.push(answer(REFUSE));
    }
    further.push(answer(ALLOW));
    steps.push(jump(libc::BPF_JEQ, number as u32, 0, further.len() as u8));
    steps.append(&mut further);
}

/// Installs the filter for all threads of this process, for good. The process must have set
/// `no_new_privs`.
pub fn install() -> Result<()> {
    let mut steps = steps().ok_or_else(|| Error::from(ErrorKind::Unsupported))?;
    let len = u16::try_from(steps.len()).map_err(|_| Error::from(ErrorKind::InvalidInput))?;
    let program = libc::sock_fprog { len, filter: steps.as_mut_ptr() };
    let (mode, flags) = (libc::SECCOMP_SET_MODE_FILTER, libc::SECCOMP_FILTER_FLAG_TSYNC);
    // SAFETY: the program has the number of steps that it states, outlives the call, and is copied.
    match unsafe { libc::syscall(libc::SYS_seccomp, mode, flags, &program) } {
        0 => Ok(()),
        thread if thread > 0 => {
            Err(Error::new(ErrorKind::Other, format!("the kernel cannot filter thread {thread}")))
        }
        _ => Err(Error::last_os_error()),
    }
}

#[cfg(test)]
mod tests {
    use super::*;
    use std::os::unix::io::AsRawFd;
    use std::os::unix::net::UnixDatagram;
    use std::os::unix::process::ExitStatusExt;
    use std::process::{Command, Output, Stdio};
    use std::ptr::null_mut;

    /// What the filter allows with any arguments, as numbers of x86-64 (asm/unistd_64.h).
    #[cfg(target_arch = "x86_64")]
    const TABLE: &[(u32, &str)] = &[
        (0, "read"),
        (1, "write"),
        (3, "close"),
        (5, "fstat"),
        (11, "munmap"),
        (12, "brk"),
        (13, "rt_sigaction"),
        (14, "rt_sigprocmask"),
        (15, "rt_sigreturn"),
        (18, "pwrite64"),
        (25, "mremap"),
        (28, "madvise"),
        (39, "getpid"),
        (45, "recvfrom"),
        (49, "bind"),
        (55, "getsockopt"),
        (63, "uname"),
        (77, "ftruncate"),
        (96, "gettimeofday"),
        (131, "sigaltstack"),
        (186, "gettid"),
        (219, "restart_syscall"),
        (228, "clock_gettime"),
        (231, "exit_group"),
        (232, "epoll_wait"),
        (233, "epoll_ctl"),
        (281, "epoll_pwait"),
        (288, "accept4"),
        (299, "recvmmsg"),
        (318, "getrandom"),
    ];

    /// Answers a call as the kernel does.
    fn decided(steps: &[sock_filter], architecture: u32, number: u32, arguments: [u64; 6]) -> u32 {
        let (mut next, mut loaded) = (0, 0);
        loop {
            let step = steps[next];
            next += 1;
            let is_so = match u32::from(step.code) & 0xf0 {
                libc::BPF_JEQ => loaded == step.k,
                _ => loaded & step.k != 0, // BPF_JSET
            };
            match (u32::from(step.code) & 7, step.k) {
                (libc::BPF_RET, answer) => return answer,
                (libc::BPF_JMP, _) => next += usize::from(if is_so { step.jt } else { step.jf }),
                (_, NUMBER) => loaded = number,
                (_, ARCHITECTURE_AT) => loaded = architecture,
                (_, place) => {
                    let place = (place - ARGUMENTS) as usize;
                    loaded = (arguments[place / 8] >> (8 * (place % 8))) as u32;
                }
            }
        }
    }

    /// A number that no limited argument allows.
    #[cfg(target_arch = "x86_64")]
    const WRONG: u64 = 0x7fff_fff7;

    #[test]
    #[cfg(target_arch = "x86_64")]
    fn the_filter_allows_what_the_table_has_and_nothing_else() {
        let steps = steps().expect("a known architecture");
        let own = ARCHITECTURE.expect("a known architecture");
        for number in 0..2000 {
            let is_allowed = decided(&steps, own, number, [WRONG; 6]) == ALLOW;
            let found = TABLE.iter().find(|one| one.0 == number);
            assert_eq!(is_allowed, found.is_some(), "{number} {found:?}");
            let other_kind = 0x4000_0000 | number; // the numbers of x32
            assert_eq!(decided(&steps, own, other_kind, [0; 6]), REFUSE, "{number}");
            for other in [0x4000_0003, 0xc000_00b7, 0] {
                assert_eq!(decided(&steps, other, number, [0; 6]), REFUSE, "{number} of {other:x}");
            }
        }
    }

    #[test]
    #[cfg(target_arch = "x86_64")]
    fn limited_calls_are_allowed_with_these_arguments_alone() {
        let steps = steps().expect("a known architecture");
        let own = u64::from(std::process::id());
        // the number and the name of a call, the place of an argument, the values that are allowed,
        // and some others; all further arguments are allowed ones
        type Row<'a> = (u32, &'a str, [u64; 6], usize, &'a [u64], &'a [u64]);
        let rows: &[Row<'_>] = &[
            (54, "setsockopt", [0, 263, 1, 0, 0, 0], 1, &[263], &[0, 1, 6, 17, 262, 264]),
            (54, "setsockopt", [0, 263, 1, 0, 0, 0], 2, &[1], &[0, 2, 3, 5, 13, 18]),
            (44, "sendto", [3, 1 << 40, 9, 0, 0, 0], 4, &[0], &[1, 1 << 31, 1 << 32, 1 << 63, !0]),
            (16, "ioctl", [0, 0x5421, 0, 0, 0, 0], 1, &[0x5421], &[0, 0x5401, 0x5412, 0x8914, 0x5420]),
            (9, "mmap", [0, 0, 3, 0, 0, 0], 2, &[0, 1, 2, 3], &[4, 5, 6, 7]),
            (234, "tgkill", [own, 0, 6, 0, 0, 0], 0, &[own], &[0, 1, own + 1]),
            (234, "tgkill", [own, 0, 6, 0, 0, 0], 2, &[6], &[0, 9, 15, 19]),
        ];
        for (number, name, arguments, place, allowed, others) in rows {
            for (values, wanted) in [(allowed, ALLOW), (others, REFUSE)] {
                for value in *values {
                    let mut given = *arguments;
                    given[*place] = *value;
                    let found = decided(&steps, ARCHITECTURE.expect("a known one"), *number, given);
                    assert_eq!(found, wanted, "{name} {given:?}");
                }
            }
        }
        let limited: std::collections::BTreeSet<u32> = rows.iter().map(|row| row.0).collect();
        let ours: std::collections::BTreeSet<u32> = LIMITED.iter().map(|one| one.0 as u32).collect();
        assert_eq!(limited.len(), ours.len() + 1, "each limited call, and tgkill, has a row");
    }

    /// Runs in a process of its own: sets the filter, and says of each call how it ended.
    #[test]
    #[ignore = "only a_process_that_is_taken_over_is_refused runs it, in a child"]
    fn in_a_child() {
        // SAFETY: the calls take only numbers. (Without CAP_NET_RAW there is no packet socket.)
        let packets = unsafe {
            libc::prctl(libc::PR_SET_NO_NEW_PRIVS, 1, 0, 0, 0);
            libc::socket(libc::AF_PACKET, libc::SOCK_RAW, 0)
        };
        let (ours, theirs) = UnixDatagram::pair().expect("two sockets");
        install().expect("a filter");
        println!(); // ends the line that the test program has begun
        let path = b"/dev/null\0".as_ptr();
        let words = [path, std::ptr::null()];
        let ring = [4096u32, 1, 2048, 2];
        let exec = libc::PROT_READ | libc::PROT_EXEC;
        let anonymous = libc::MAP_PRIVATE | libc::MAP_ANONYMOUS;
        let say = |name: &str, answer: c_long| {
            let errno = Error::last_os_error().raw_os_error().filter(|_| answer < 0);
            println!("{name}: {}", errno.map_or("done".into(), |number| number.to_string()));
        };
        // SAFETY: all pointers are to values that outlive the calls, and no result is used as a pointer.
        unsafe {
            say("execve", libc::syscall(libc::SYS_execve, path, words.as_ptr(), words.as_ptr()));
            say("open", libc::syscall(libc::SYS_openat, libc::AT_FDCWD, path, libc::O_RDONLY));
            say("stat", libc::syscall(libc::SYS_statx, libc::AT_FDCWD, path, 0, 0, 0));
            say("unlink", libc::syscall(libc::SYS_unlinkat, libc::AT_FDCWD, path, 0));
            say("execveat", libc::syscall(libc::SYS_execveat, -1, path, words.as_ptr(), words.as_ptr(), 0));
            say("mknodat", libc::syscall(libc::SYS_mknodat, -1, path, libc::S_IFIFO | 0o600, 0));
            say("clone", libc::syscall(libc::SYS_clone, libc::CLONE_NEWUSER | libc::SIGCHLD, 0, 0, 0, 0));
            say("clone3", libc::syscall(libc::SYS_clone3, 0, 0));
            say("unshare", libc::syscall(libc::SYS_unshare, libc::CLONE_NEWUSER));
            say("ptrace", libc::syscall(libc::SYS_ptrace, 0, 0, 0, 0));
            say("kill", libc::syscall(libc::SYS_kill, libc::getpid(), 0));
            let thread = libc::syscall(libc::SYS_gettid);
            say("another signal", libc::syscall(libc::SYS_tgkill, libc::getpid(), thread, libc::SIGTERM));
            say("another process", libc::syscall(libc::SYS_tgkill, libc::getppid(), thread, libc::SIGABRT));
            say("bpf", libc::syscall(libc::SYS_bpf, 0, 0, 0));
            say("mmap to execute", libc::syscall(libc::SYS_mmap, 0, 4096, exec, anonymous, -1, 0));
            for (name, domain) in [
                ("unix", libc::AF_UNIX),
                ("inet", libc::AF_INET),
                ("inet6", libc::AF_INET6),
                ("packet", libc::AF_PACKET),
                ("netlink", libc::AF_NETLINK),
                ("vsock", libc::AF_VSOCK),
                ("alg", libc::AF_ALG),
            ] {
                say(name, libc::socket(domain, libc::SOCK_RAW, 0).into());
            }
            for (name, option) in [("ring to receive", 5), ("ring to send", 13), ("fanout", 18)] {
                let answer = libc::setsockopt(packets, libc::SOL_PACKET, option, ring.as_ptr().cast(), 16);
                say(name, answer.into());
            }
            let filter = libc::sock_fprog { len: 0, filter: null_mut() };
            let start = (&filter as *const libc::sock_fprog).cast();
            let attached = libc::setsockopt(packets, libc::SOL_SOCKET, libc::SO_ATTACH_FILTER, start, 16);
            say("filter", attached.into());
            say("giving a file away", give_away(&ours, packets));
            say("taking a file", libc::syscall(libc::SYS_recvmsg, theirs.as_raw_fd(), 0, libc::MSG_DONTWAIT));
            say("many messages", libc::syscall(libc::SYS_sendmmsg, ours.as_raw_fd(), 0, 0, 0));
            say("connecting", libc::syscall(libc::SYS_connect, ours.as_raw_fd(), path, 16));
            say("sending to a path", libc::syscall(libc::SYS_sendto, ours.as_raw_fd(), path, 1, 0, path, 16));
            libc::_exit(0); // the threads of the tests need further calls
        }
    }

    /// Sends an open file to the peer of a socket, as unix(7) says, by a call that the C library does not check.
    ///
    /// # Safety
    /// None is needed: all pointers are to values that outlive the call.
    unsafe fn give_away(socket: &UnixDatagram, file: c_int) -> c_long {
        let mut piece = libc::iovec { iov_base: b"x".as_ptr() as *mut libc::c_void, iov_len: 1 };
        let mut note = [0u64; 4];
        // SAFETY: the struct may be all zero, and the note has room for a header and one number.
        unsafe {
            let mut head: libc::msghdr = std::mem::zeroed();
            (head.msg_iov, head.msg_iovlen) = (&mut piece, 1);
            (head.msg_control, head.msg_controllen) = (note.as_mut_ptr().cast(), libc::CMSG_SPACE(4) as _);
            let told = libc::CMSG_FIRSTHDR(&head);
            ((*told).cmsg_level, (*told).cmsg_type) = (libc::SOL_SOCKET, libc::SCM_RIGHTS);
            (*told).cmsg_len = libc::CMSG_LEN(4) as _;
            libc::CMSG_DATA(told).cast::<c_int>().write_unaligned(file);
            libc::syscall(libc::SYS_sendmsg, socket.as_raw_fd(), &head, libc::MSG_DONTWAIT)
        }
    }

    /// Runs in a process of its own, which must end by SIGABRT, as without the filter.
    #[test]
    #[ignore = "only a_process_can_abort runs it, in a child"]
    fn aborts_in_a_child() {
        // SAFETY: the call takes only numbers.
        unsafe { libc::prctl(libc::PR_SET_NO_NEW_PRIVS, 1, 0, 0, 0) };
        install().expect("a filter");
        std::process::abort();
    }

    /// Runs one of these tests in a child.
    fn child(name: &str) -> Output {
        let program = std::env::current_exe().expect("this program");
        let name = format!("sys::seccomp::tests::{name}");
        let words = ["--exact", &name, "--ignored", "--nocapture", "--test-threads=1"];
        Command::new(program).args(words).stderr(Stdio::inherit()).output().expect("a child")
    }

    #[test]
    fn a_process_can_abort() {
        assert_eq!(child("aborts_in_a_child").status.signal(), Some(libc::SIGABRT));
    }

    #[test]
    fn a_process_that_is_taken_over_is_refused() {
        let child = child("in_a_child");
        let said = String::from_utf8_lossy(&child.stdout);
        let told: Vec<_> = said.lines().filter_map(|line| line.split_once(": ")).collect();
        let refused = format!("{}", libc::EPERM);
        for call in [
            "execve",
            "open",
            "stat",
            "unlink",
            "unix",
            "execveat",
            "mknodat",
            "clone",
            "clone3",
            "unshare",
            "ptrace",
            "kill",
            "another signal",
            "another process",
            "bpf",
            "mmap to execute",
            "inet",
            "inet6",
            "packet",
            "netlink",
            "vsock",
            "alg",
            "ring to receive",
            "ring to send",
            "fanout",
            "filter",
            "giving a file away",
            "taking a file",
            "many messages",
            "connecting",
            "sending to a path",
        ] {
            assert!(told.iter().any(|one| *one == (call, &refused[..])), "{call} is not refused: {said}");
        }
    }
}
