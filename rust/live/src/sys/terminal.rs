//! The terminal, the local time, and signals of a program that people run.

use std::io::{ErrorKind, Result};
use std::mem::MaybeUninit;
use std::os::unix::io::{AsRawFd, BorrowedFd};
use std::sync::atomic::{AtomicBool, Ordering};
use std::time::Duration;

const INTERRUPTED: libc::c_int = 130; // the exit status that a shell gives to SIGINT

static OUTPUT_WAS_CLOSED: AtomicBool = AtomicBool::new(false);

/// Runs before `main`, since `std` opens /dev/null in place of a closed standard output.
#[used]
#[link_section = ".init_array"]
static BEFORE_MAIN: extern "C" fn() = note_output;

extern "C" fn note_output() {
    // SAFETY: the call takes only numbers, and an atomic value can be stored at any time.
    let is_closed = unsafe { libc::fcntl(libc::STDOUT_FILENO, libc::F_GETFD) } < 0;
    OUTPUT_WAS_CLOSED.store(is_closed, Ordering::Relaxed);
}

/// Returns whether standard output was closed when the program began.
pub fn output_was_closed() -> bool {
    OUTPUT_WAS_CLOSED.load(Ordering::Relaxed)
}

/// Returns the width of the terminal at standard output. None if it is no terminal.
pub fn width() -> Option<usize> {
    let mut size = MaybeUninit::<libc::winsize>::zeroed();
    // SAFETY: the call writes one `winsize`, for which all zeros are a valid value.
    let (answer, size) = unsafe {
        let answer = libc::ioctl(libc::STDOUT_FILENO, libc::TIOCGWINSZ, size.as_mut_ptr());
        (answer, size.assume_init())
    };
    Some(size.ws_col.into()).filter(|columns| answer == 0 && *columns > 0)
}

/// Returns whether standard output is a terminal.
pub fn is_output() -> bool {
    is_terminal(libc::STDOUT_FILENO)
}

/// Returns whether standard input is a terminal.
pub fn is_input() -> bool {
    is_terminal(libc::STDIN_FILENO)
}

fn is_terminal(file: libc::c_int) -> bool {
    // SAFETY: the call takes only a number.
    unsafe { libc::isatty(file) == 1 }
}

/// Waits until a file can be read or has ended, and then returns true. Returns false as soon as nobody
/// reads standard output any more.
pub fn wait_for(file: BorrowedFd<'_>) -> Result<bool> {
    let awaited = |fd, events| libc::pollfd { fd, events, revents: 0 };
    let mut files = [awaited(file.as_raw_fd(), libc::POLLIN), awaited(libc::STDOUT_FILENO, 0)];
    loop {
        // SAFETY: the kernel reads and writes the two local values.
        match super::checked(unsafe { libc::poll(files.as_mut_ptr(), 2, -1) }) {
            Err(fault) if fault.kind() == ErrorKind::Interrupted => (),
            answer => return answer.map(|_| files[1].revents == 0),
        }
    }
}

/// Waits until a file can be read or has ended, at most so long if given. Returns whether that is so.
pub fn can_read(file: BorrowedFd<'_>, patience: Option<Duration>) -> bool {
    let mut file = libc::pollfd { fd: file.as_raw_fd(), events: libc::POLLIN, revents: 0 };
    let milliseconds = patience.map_or(-1, |patience| patience.as_millis().min(1 << 30) as libc::c_int);
    // SAFETY: the kernel reads and writes the local value.
    unsafe { libc::poll(&mut file, 1, milliseconds) > 0 }
}

/// Returns the local time so many seconds after 1970, in a form like `2026-11-27T10:15:00+0100`.
pub fn local_time(seconds: i64) -> String {
    let mut time = MaybeUninit::<libc::tm>::zeroed();
    // SAFETY: the call reads the seconds and writes one `tm`, for which all zeros are a valid value. It
    // also reads the time zone in the environment, which nothing in this program changes.
    let time = unsafe {
        libc::localtime_r(&seconds, time.as_mut_ptr());
        time.assume_init()
    };
    text_of(&time)
}

fn text_of(time: &libc::tm) -> String {
    let date = format!("{:04}-{:02}-{:02}", time.tm_year + 1900, time.tm_mon + 1, time.tm_mday);
    let (sign, offset) = (if time.tm_gmtoff < 0 { '-' } else { '+' }, time.tm_gmtoff.abs() / 60);
    let clock = format!("{:02}:{:02}:{:02}", time.tm_hour, time.tm_min, time.tm_sec);
    format!("{date}T{clock}{sign}{:02}{:02}", offset / 60, offset % 60)
}

extern "C" fn end(_: libc::c_int) {
    // SAFETY: a handler of signals may call this, and it does not return.
    unsafe { libc::_exit(INTERRUPTED) }
}

/// Ends the program at SIGINT with status 130, and reports a file that is too large as an error.
pub fn take_signals() {
    // SAFETY: the handler calls only what a handler may call.
    unsafe {
        libc::signal(libc::SIGINT, end as extern "C" fn(libc::c_int) as libc::sighandler_t);
        libc::signal(libc::SIGXFSZ, libc::SIG_IGN);
    }
}

#[cfg(test)]
mod tests {
    use super::*;

    #[test]
    fn a_local_time_has_all_its_digits() {
        let at = |tm_gmtoff| libc::tm {
            tm_sec: 5,
            tm_min: 4,
            tm_hour: 3,
            tm_mday: 2,
            tm_mon: 0,
            tm_year: 126,
            tm_wday: 5,
            tm_yday: 1,
            tm_isdst: 0,
            tm_gmtoff,
            tm_zone: std::ptr::null(),
        };
        assert_eq!(text_of(&at(0)), "2026-01-02T03:04:05+0000");
        assert_eq!(text_of(&at(20_700)), "2026-01-02T03:04:05+0545");
        assert_eq!(text_of(&at(-12_600)), "2026-01-02T03:04:05-0330");
    }
}
