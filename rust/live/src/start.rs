//! Opens sockets and files, gives up rights, runs, and sends shutdown frames at the end.

use crate::agent::Running;
use crate::arguments::{where_named, Arguments};
use crate::budget::LARGE_PIECE;
use crate::commands::Settings;
use crate::control::Control;
use crate::identity::description;
use crate::lines::set_status;
use crate::links::Links;
use crate::live::Live;
use crate::lookup::{Group, HostName};
use crate::patterns;
use crate::ports::{Ports, MOST_PORTS};
use crate::reports::{self, notice, report, warn, ERROR};
use crate::rights::{self, give_up, text_of, user_to_be};
use crate::state::{Saved, Slots, StateFault};
use crate::sys::signals::{self, Signal};
use crate::sys::{self, seccomp, terminal};
use crate::time::{Moment, SECOND};
use crate::wrong_arguments;
use lldpa::{OpenFault, Show, Status};
use lldpa_people::table::table_of;
use std::fmt;
use std::io::{Error, ErrorKind, Write};
use std::panic::{catch_unwind, AssertUnwindSafe};
use std::time::Duration;

/// How long clients that record may take to read the last lines.
const LONGEST_END: Duration = Duration::from_millis(200);

/// Why lldpa-live does not start.
enum StartFault {
    Io(Error),
    /// The packet sockets could not be opened.
    NoSocket(Error),
    NothingSelected(Vec<String>),
    Missing(String),
    Agent(OpenFault),
}

impl fmt::Display for StartFault {
    fn fmt(&self, out: &mut fmt::Formatter<'_>) -> fmt::Result {
        match self {
            StartFault::NoSocket(fault) if fault.kind() == ErrorKind::PermissionDenied => {
                let needs = "opening packet sockets needs root or CAP_NET_RAW";
                write!(out, "{} ({needs})", text_of(fault))
            }
            StartFault::Io(fault) | StartFault::NoSocket(fault) => out.write_str(&text_of(fault)),
            StartFault::NothingSelected(selectors) => {
                write!(out, "{}: no Ethernet interface is selected", selectors.join(","))
            }
            StartFault::Missing(name) => write!(out, "{name}: there is no such interface"),
            StartFault::Agent(fault) => fault.fmt(out),
        }
    }
}

impl From<Error> for StartFault {
    fn from(fault: Error) -> StartFault {
        StartFault::Io(fault)
    }
}

impl From<OpenFault> for StartFault {
    fn from(fault: OpenFault) -> StartFault {
        StartFault::Agent(fault)
    }
}

/// Does what the command line says. Returns the exit status.
pub fn run(arguments: Arguments) -> i32 {
    sys::give_back_pieces_of(LARGE_PIECE);
    sys::files::hide_kept();
    signals::ignore_file_limit();
    let _ = reports::start();
    std::panic::set_hook(Box::new(|panic| report(ERROR, &panic.to_string())));
    match user_to_be(arguments.user.as_deref()) {
        Err(fault) => wrong_arguments(&fault),
        Ok(user) => {
            let width = terminal::width().filter(|_| !arguments.lines);
            match begin(arguments, user) {
                Ok(live) => work(live, width),
                Err(fault) => fail(&fault.to_string()),
            }
        }
    }
}

fn fail(why: &str) -> i32 {
    report(ERROR, why);
    1
}

/// Opens the sockets and files, gives up rights, and opens the agent if it can be opened already. From then on
/// no file is opened, made, renamed or removed.
fn begin(arguments: Arguments, user: Option<rights::User>) -> Result<Live, StartFault> {
    arguments.refused.iter().for_each(|port| warn(&format!("{port}{}", where_named())));
    let former = |name: &String| warn(&format!("{name} does nothing any more: see `record` in lldpa-ctl(8)"));
    arguments.former.iter().for_each(former);
    let links = Links::open()?;
    let may_grow = arguments.selectors.iter().any(|one| patterns::gives(one)) && arguments.once.is_none();
    let names = first_ports(&arguments, &links, may_grow && !arguments.only_existing)?;
    let ports = Ports::open(&names, &arguments, may_grow).map_err(StartFault::NoSocket)?;
    let slots = arguments.state.as_deref().map(|path| Slots::open(path, user));
    let host = if arguments.follows_domain() { asked_for_host(user) } else { None };
    let name = arguments.control_group.clone().filter(|_| arguments.once.is_none());
    let look = |name: &str| Group::named(name, &arguments.control, user);
    let group = name.as_deref().map_or_else(Group::default, look);
    let control = match arguments.once {
        None => Some(Control::open(&arguments.control, group.number)?),
        Some(_) => None,
    };
    give_up(user)?;
    let mut live = Live::new(arguments, links, ports, control)?;
    name.filter(|_| group.number.is_none()).iter().for_each(|name| report_unknown(name));
    (live.lookup, live.host) = (group.lookup, host);
    let kept = || Some(Slots::kept(&live.manager).map_err(StateFault::from));
    let slots = slots.or_else(|| if live.arguments.keep_state { kept() } else { None });
    live.settings = Settings::read(&live.arguments.config);
    let is_told = !live.arguments.no_description;
    live.announced.description = if is_told { description() } else { Some(String::new()) };
    seccomp::install().unwrap_or_else(|fault| {
        warn(&format!("system calls are not filtered: {}", text_of(&fault)));
    });
    let saved = live.take_slots(slots);
    live.has_taken_over = !saved.counters.is_empty();
    live.open(&saved)?;
    Ok(live)
}

/// Starts the process that asks for the host's domain. Without it the host's own name is announced.
fn asked_for_host(user: Option<rights::User>) -> Option<HostName> {
    let started = HostName::start(user);
    started.map_err(|fault| warn(&format!("the host's domain is not looked up: {}", text_of(&fault)))).ok()
}

/// Reports that the group which may use the control socket is not known.
fn report_unknown(name: &str) {
    let what = "is not known, so only root and the owner may use the control socket";
    warn(&format!("group {name} {what}: {}", rights::KNOWN_GROUPS));
}

/// Returns the ports that names and patterns select, at most 64. Named ports have priority. An
/// interface that cannot be used keeps no other from being used.
fn first_ports(arguments: &Arguments, links: &Links, may_wait: bool) -> Result<Vec<String>, StartFault> {
    let selectors = &arguments.selectors;
    let mut names = patterns::ports_of(selectors, links);
    let may_wait = may_wait || selectors.is_empty(); // only names that cannot be ports were given
    if names.is_empty() && !may_wait {
        return Err(StartFault::NothingSelected(selectors.clone()));
    }
    let missing = names.iter().find(|name| links.named(name).is_none());
    if let (Some(name), true) = (missing, arguments.only_existing) {
        return Err(StartFault::Missing(name.clone()));
    }
    if names.len() > MOST_PORTS {
        names.sort_by_key(|name| !selectors.contains(name)); // named ports first
        names.truncate(MOST_PORTS);
    }
    Ok(names)
}

/// Runs until a signal or a panic, then shuts down in order. Returns the exit status. The terminal at
/// standard output has this width.
fn work(mut live: Live, width: Option<usize>) -> i32 {
    let worked = catch_unwind(AssertUnwindSafe(|| match live.arguments.once {
        Some(seconds) => once(&mut live, seconds, width),
        None => {
            while !turn(&mut live, None) {}
            pass_first_second(&mut live);
            0
        }
    }));
    while signals::next(&mut live.wakers.signals.file).is_some() {}
    signals::let_them_end(); // a second signal ends lldpa-live at once
    live.end();
    drop(live);
    let status = worked.unwrap_or_else(|_| {
        report(ERROR, "an internal fault ended lldpa-live");
        1
    });
    reports::flush();
    status
}

/// A port sends from the agent's first second on, and a port that sends can say goodbye. So if peers
/// know this host from the lldpa-live before, the end waits for that second.
fn pass_first_second(live: &mut Live) {
    let first = live.clock.end_of(1);
    while live.has_taken_over && !live.makes_way && live.clock.given == 0 && Moment::now() < first + SECOND {
        turn(live, Some(first));
    }
}

/// Waits for input, at most until a deadline or `last`, and handles it. True at a signal to end.
fn turn(live: &mut Live, last: Option<Moment>) -> bool {
    let turn = live.turn(last);
    live.serve(&turn);
    live.report_status();
    if turn.has_signal {
        while let Some(signal) = signals::next(&mut live.wakers.signals.file) {
            match signal {
                Signal::End => return true,
                Signal::MakeWay => {
                    live.makes_way = true;
                    return true;
                }
                Signal::HangUp => {
                    notice("nothing is done at SIGHUP: `lldpa-ctl reload` reads the settings again")
                }
            }
        }
    }
    false
}

/// Waits until each port has a neighbor, at most this many seconds, and prints the neighbors: as a table
/// if there is a terminal. Returns 1 if a port has none or printing fails, else 0. At a signal, returns
/// 0 without printing.
fn once(live: &mut Live, seconds: u64, width: Option<usize>) -> i32 {
    let last = Moment::now() + Duration::from_secs(seconds);
    let are_complete =
        |live: &Live| live.running.is_some() && live.ports.all.iter().all(|port| !port.neighbors.is_empty());
    while !are_complete(live) && Moment::now() < last {
        if turn(live, Some(last)) {
            return 0;
        }
    }
    let text = match width {
        Some(width) => {
            table_of(&shown(live, &[Show::Neighbors, Show::Configuration]), &live.status(None).lines(), width)
        }
        None => Ok(shown(live, &[Show::Neighbors])),
    };
    let text = text.unwrap_or_else(|fault| fault + "\n");
    let is_printed = std::io::stdout().write_all(text.as_bytes()).is_ok();
    i32::from(!(is_printed && are_complete(live)))
}

/// Returns the agent's lines, or none while lldpa-live waits for an interface.
fn shown(live: &Live, shows: &[Show]) -> String {
    let lines = |running: &Running| shows.iter().map(|show| running.agent.show(*show)).collect();
    live.running.as_ref().map_or(String::new(), lines)
}

impl Live {
    /// Reads an earlier state. Reports it if it cannot be used.
    fn take_slots(&mut self, slots: Option<Result<Slots, StateFault>>) -> Saved {
        let saved = slots.map_or(Ok(Saved::default()), |slots| self.slots.insert(slots?).read());
        saved.unwrap_or_else(|fault| {
            warn(&format!("the state is not used: {fault}"));
            Saved::default()
        })
    }

    /// Saves the state for the next lldpa-live. Then disables the ports, which send shutdown frames, unless the
    /// next one follows at once and has the state.
    fn end(&mut self) {
        self.manager.send("STOPPING=1");
        let is_saved = self.save_state(); // disabled ports have no neighbors
        let names = self.running.as_ref().map_or(Vec::new(), |running| running.names.clone());
        if let Some(running) = self.running.as_mut().filter(|_| !(self.makes_way && is_saved)) {
            let sent = running.agent.leave();
            for name in &names {
                self.record.write(Moment::now(), &set_status(name, Status::Disabled));
            }
            self.queue_sent(&sent, Moment::now());
        }
        self.send();
        self.end_records(Moment::now() + LONGEST_END);
    }
}

#[cfg(test)]
mod tests {
    use super::*;
    use std::fs::File;

    #[test]
    fn ports_that_are_missing_are_awaited_or_refused() {
        let links = Links::over(File::open("/dev/null").expect("a file")); // there is no interface
                                                                           // names and patterns, whether an interface may come, and the ports or why there is none
        for (selectors, may_wait, wanted) in [
            ("eth0", true, Ok("eth0")),
            ("eth0", false, Ok("eth0")),
            ("eth*", true, Ok("")),
            ("eth*", false, Err("eth*: no Ethernet interface is selected")),
            ("eth* !eth1", false, Err("eth*,!eth1: no Ethernet interface is selected")),
            ("", false, Ok("")),
        ] {
            let selectors = selectors.split_whitespace().map(String::from).collect();
            let arguments = Arguments { selectors, ..Arguments::default() };
            let found = first_ports(&arguments, &links, may_wait).map(|names| names.join(" "));
            let found = found.map_err(|fault| fault.to_string());
            assert_eq!(found, wanted.map(String::from).map_err(String::from), "{:?}", arguments.selectors);
        }
        let selectors = vec!["eth0".to_string()];
        let arguments = Arguments { selectors, only_existing: true, ..Arguments::default() };
        let found = first_ports(&arguments, &links, false).err().map(|fault| fault.to_string());
        assert_eq!(found.as_deref(), Some("eth0: there is no such interface"));
    }
}
