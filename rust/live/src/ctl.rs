//! lldpa-ctl, lldpctl and lldpcli: this program under other names. What it asks and prints is in the crate lldpa-people.

use crate::commands::explained;
use crate::listening::connect;
use crate::rights::{give_up, user_of_client};
use crate::sys::terminal;
use lldpa::{Agent, Options};
use lldpa_people::client::{self, Host};
use lldpa_people::lldpcli::program::{self, LLDPCLI, LLDPCTL, OF_CONSOLE};
use lldpa_people::settings::Setting;
use lldpa_people::show::MOST_NEIGHBORS;
use std::io::Error;
use std::os::unix::io::AsFd;
use std::os::unix::net::UnixStream;
use std::time::Duration;

/// The port of an agent for a setting that is of no port.
const ANY_PORT: &str = "eth0";

struct System;

impl Host for System {
    fn connect(&self, path: &str, patience: Duration) -> Result<UnixStream, Error> {
        let stream = connect(path, patience)?;
        stream.set_nonblocking(false)?;
        Ok(stream)
    }

    fn give_up_root(&self) {
        let _ = give_up(user_of_client());
    }

    fn terminal_width(&self) -> Option<usize> {
        terminal::width()
    }

    fn local_time(&self, seconds: i64) -> String {
        terminal::local_time(seconds)
    }

    fn output_was_closed(&self) -> bool {
        terminal::output_was_closed()
    }

    fn is_terminal(&self) -> bool {
        terminal::is_output()
    }

    fn input_is_terminal(&self) -> bool {
        terminal::is_input()
    }

    fn wait(&self, stream: &UnixStream) -> Result<bool, Error> {
        terminal::wait_for(stream.as_fd())
    }

    fn can_read(&self, stream: &UnixStream, patience: Option<Duration>) -> bool {
        terminal::can_read(stream.as_fd(), patience)
    }

    fn why_refused(&self, setting: &Setting) -> Option<String> {
        let (port, most) = (setting.port().unwrap_or_default(), MOST_NEIGHBORS as u8);
        let open = |port| Agent::open(&Options { ports: &[port], max_neighbors: most, ..Options::default() });
        match open(&port).or_else(|_| open(ANY_PORT)) {
            Ok(mut agent) => agent.command(&setting.line).err().map(|fault| explained(&setting.line, fault)),
            Err(fault) => Some(fault.to_string()),
        }
    }
}

/// Runs the program by whose name this one was called, with these arguments, and returns its status. None
/// if it was called by another name.
pub fn run(arguments: &[String]) -> Option<i32> {
    let path = std::env::args_os().next().unwrap_or_default();
    let name = std::path::Path::new(&path).file_name()?.to_str()?;
    match name {
        client::NAME => {
            terminal::take_signals();
            Some(client::run(arguments, &System))
        }
        LLDPCTL | LLDPCLI | OF_CONSOLE => {
            terminal::take_signals();
            Some(program::run(name, arguments, &System))
        }
        _ => None,
    }
}

#[cfg(test)]
mod tests {
    use super::*;
    use std::io::{Read, Write};
    use std::os::unix::net::UnixListener;
    use std::{env, fs, process, thread};

    #[test]
    fn a_read_waits_for_the_answer() {
        let path = env::temp_dir().join(format!("lldpa-live-ctl-{}", process::id()));
        let listener = UnixListener::bind(&path).expect("a socket");
        let connected = System.connect(&path.to_string_lossy(), Duration::from_secs(9));
        let mut stream = connected.expect("a connection");
        let answering = thread::spawn(move || {
            thread::sleep(Duration::from_millis(100));
            listener.accept().and_then(|(mut client, _)| client.write_all(b"x"))
        });
        assert_eq!(stream.read(&mut [0]).expect("an answer"), 1);
        answering.join().expect("no panic").expect("a client");
        fs::remove_file(&path).expect("a socket");
    }
}
