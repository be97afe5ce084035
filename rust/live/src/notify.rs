//! Reports the service's state to systemd, by datagrams to the socket in NOTIFY_SOCKET: see
//! sd_notify(3). Never waits: a datagram that cannot be sent at once is lost.

use crate::sys::sockets;
use crate::time::{Moment, SECOND};
use std::env::var;
use std::fs::File;
use std::io::{Error, ErrorKind, Result, Write};
use std::time::Duration;

const LEAST_BETWEEN_STATUSES: Duration = SECOND;
const LEAST_BETWEEN_KEEPALIVES: Duration = Duration::from_millis(10);
const KEEPALIVES_A_SPAN: u32 = 4; // in the time that the watchdog allows

/// The service manager that started this service, if there is one.
pub struct Manager {
    socket: Option<File>,
    span: Option<Duration>,
    next_keepalive: Moment,
    /// The present status, and the one that was sent last.
    status: String,
    sent: String,
    /// When another status may be sent.
    next_status: Moment,
}

/// Returns the watchdog's limit between signs of life. None without a watchdog.
fn watchdog_span() -> Option<Duration> {
    let is_other = |pid: String| pid != std::process::id().to_string();
    if var("WATCHDOG_PID").map_or(false, is_other) {
        return None;
    }
    let microseconds: u64 = var("WATCHDOG_USEC").ok()?.parse().ok()?;
    (microseconds > 0).then_some(Duration::from_micros(microseconds))
}

/// Returns the address for a socket's name: a path, or a zero and an abstract name.
fn address_of(name: &str) -> Option<Vec<u8>> {
    let rest = name.strip_prefix(&['/', '@'][..]).filter(|rest| rest.len() < 107)?;
    let mut address = vec![if name.starts_with('/') { b'/' } else { 0 }];
    address.extend_from_slice(rest.as_bytes());
    Some(address)
}

/// Opens a socket to the manager, which keeps its own as long as this service lives.
fn connected(address: &[u8]) -> Result<File> {
    let socket = sockets::open_datagrams()?;
    sockets::connect_datagrams(&socket, address)?;
    Ok(socket)
}

impl Manager {
    pub fn new() -> Manager {
        let address = var("NOTIFY_SOCKET").ok().and_then(|name| address_of(&name));
        Manager {
            socket: address.and_then(|address| connected(&address).ok()),
            span: watchdog_span(),
            next_keepalive: Moment::default(),
            status: String::new(),
            sent: String::new(),
            next_status: Moment::default(),
        }
    }

    pub fn is_there(&self) -> bool {
        self.socket.is_some()
    }

    /// Sends lines, such as `READY=1`.
    pub fn send(&self, lines: &str) {
        let _ = self.socket.as_ref().map(|mut socket| socket.write(lines.as_bytes()));
    }

    /// Lets the manager keep open files for the next start of this service.
    pub fn keep(&self, name: &str, files: &[File]) -> Result<()> {
        let socket = self.socket.as_ref().ok_or_else(|| Error::from(ErrorKind::NotConnected))?;
        sockets::send_files(socket, &format!("FDSTORE=1\nFDNAME={name}"), files)
    }

    /// Sets the status that `systemctl status` shows.
    pub fn set_status(&mut self, status: String) {
        self.status = status;
    }

    /// Sends the status if it has changed, but at most once a second: in a flood neighbors come and
    /// go all the time, and each message is work for systemd.
    pub fn send_status(&mut self, now: Moment) {
        if self.status != self.sent && now >= self.next_status {
            self.send(&format!("STATUS={}", self.status));
            self.sent = self.status.clone();
            self.next_status = now + LEAST_BETWEEN_STATUSES;
        }
    }

    /// Sends a sign of life to the watchdog if one is due.
    pub fn send_keepalive(&mut self, now: Moment) {
        if let Some(span) = self.span.filter(|_| now >= self.next_keepalive) {
            self.next_keepalive = now + (span / KEEPALIVES_A_SPAN).max(LEAST_BETWEEN_KEEPALIVES);
            self.send("WATCHDOG=1");
        }
    }

    pub fn deadline(&self) -> Option<Moment> {
        self.socket.as_ref()?;
        let of_keepalive = self.span.map(|_| self.next_keepalive);
        let of_status = (self.status != self.sent).then_some(self.next_status);
        of_keepalive.into_iter().chain(of_status).min()
    }
}

#[cfg(test)]
mod tests {
    use super::*;
    use std::os::unix::net::UnixDatagram;

    #[test]
    fn a_status_is_sent_at_once_and_others_once_a_second() {
        let path = std::env::temp_dir().join(format!("lldpa-live-notify-{}", std::process::id()));
        let heard = UnixDatagram::bind(&path).expect("a socket");
        heard.set_nonblocking(true).expect("a socket");
        let mut manager = Manager::new();
        let address = address_of(&path.to_string_lossy()).expect("an address");
        (manager.socket, manager.span) = (connected(&address).ok(), None);
        let at = |milliseconds: u64| Moment::after_boot(Duration::from_millis(5000 + milliseconds));
        // when a status is set, and what is then told
        for (milliseconds, status, wanted) in [
            (0, "a", Some("STATUS=a")),
            (0, "a", None),
            (1, "b", None),
            (999, "c", None),
            (1000, "c", Some("STATUS=c")),
            (1001, "d", None),
            (1500, "c", None),
            (9000, "c", None),
            (9001, "e", Some("STATUS=e")),
        ] {
            manager.set_status(status.into());
            manager.send_status(at(milliseconds));
            let mut room = [0; 99];
            let told = heard.recv(&mut room).ok().map(|length| &room[..length]);
            assert_eq!(told, wanted.map(str::as_bytes), "{milliseconds}");
            let is_open = manager.status != manager.sent;
            assert_eq!(manager.deadline(), is_open.then_some(manager.next_status), "{milliseconds}");
        }
        std::fs::remove_file(&path).expect("a socket");
    }
}
