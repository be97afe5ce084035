//! Gives the agent commands: those of clients, of the settings, and of lldpa-live itself. The agent
//! runs even if settings are refused.

use crate::live::Live;
use crate::patterns;
use crate::queries::Handing;
use crate::reports::{counted, warn};
use crate::time::Moment;
use lldpa::{CommandFault, Status};
use lldpa_people::refused;
use lldpa_people::settings::{self, text_of_line, Place, Setting};
use std::collections::BTreeSet;
use std::fmt;

/// How many settings a client may hand over, and octets of them.
const MOST_SETTINGS: usize = 4096;
const MOST_OCTETS: usize = 1_000_000;

/// The settings in force.
#[derive(Default)]
pub struct Settings {
    /// Kept for an agent and for ports that come later.
    all: Vec<Setting>,
    /// How many files could not be read, or lines not be sent.
    unread: usize,
    /// The places of the settings that were not applied. A setting of a port is tried again each
    /// time that the port is added.
    refused: BTreeSet<Place>,
    coming: Coming,
}

/// The settings that a client is handing over.
#[derive(Default)]
struct Coming {
    client: u64,
    all: Vec<Setting>,
    octets: usize,
}

impl Coming {
    /// Adds a setting of a client. Returns why it may not.
    fn add(&mut self, client: u64, one: Setting) -> Option<&'static str> {
        self.octets += one.line.len();
        match self.all.len() >= MOST_SETTINGS || self.octets > MOST_OCTETS {
            _ if client != self.client => Some(OF_ANOTHER),
            true => Some("error: too many settings\n"),
            false => {
                self.all.push(one);
                None
            }
        }
    }
}

const OF_ANOTHER: &str = "error: another client hands over settings\n";

impl Settings {
    /// Reads the settings in the files. Reports those files that cannot be read.
    pub fn read(paths: &[String]) -> Settings {
        let (all, unread) = settings::read(paths);
        unread.iter().for_each(|line| warn(line));
        Settings { all, unread: unread.len(), ..Settings::default() }
    }

    pub fn count_refused(&self) -> usize {
        self.unread + self.refused.len()
    }

    /// Notes whether a setting is refused. Returns true if it is, and was not before.
    fn note(&mut self, place: Place, is_refused: bool) -> bool {
        if is_refused {
            return self.refused.insert(place);
        }
        self.refused.remove(&place);
        false
    }
}

/// Why a command is refused.
#[derive(Clone, Copy, Debug, PartialEq, Eq)]
pub enum Refusal {
    NoAgent,
    ByAgent(CommandFault),
}

impl fmt::Display for Refusal {
    fn fmt(&self, out: &mut fmt::Formatter<'_>) -> fmt::Result {
        match self {
            Refusal::NoAgent => out.write_str("waiting for an interface"),
            Refusal::ByAgent(fault) => fault.fmt(out),
        }
    }
}

impl From<CommandFault> for Refusal {
    fn from(fault: CommandFault) -> Refusal {
        Refusal::ByAgent(fault)
    }
}

impl Live {
    /// Gives the agent a command. Returns the lines of a show.
    pub fn command(&mut self, line: impl AsRef<[u8]>) -> Result<String, Refusal> {
        let line = line.as_ref();
        let running = self.running.as_mut().ok_or(Refusal::NoAgent)?;
        let done = running.agent.command(line)?;
        if let Some(show) = done.show {
            return Ok(running.agent.show(show));
        }
        let statuses = running.agent.configuration().status;
        self.server.forget_tables();
        self.record.write(Moment::now(), &String::from_utf8_lossy(line));
        self.queue_sent(&done.sent, Moment::now());
        for (port, status) in statuses.into_iter().enumerate() {
            if !matches!(status, Status::RxAndTx | Status::RxOnly) {
                self.remove_all(port);
            }
        }
        self.send();
        Ok(String::new())
    }

    /// Gives the agent the settings. Returns and reports why some are refused.
    pub fn apply_settings(&mut self) -> Vec<String> {
        self.settings.refused.clear();
        let refusals = self.apply(&self.settings.all.clone());
        match self.settings.count_refused() {
            0 => (),
            1 => warn("1 setting was not applied"),
            count => warn(&format!("{} were not applied", counted(count, "setting"))),
        }
        refusals
    }

    /// Gives the agent the settings of ports that were added just now.
    pub fn apply_settings_of(&mut self, names: &[String]) {
        let is_theirs = |setting: &&Setting| setting.port().map_or(false, |port| names.contains(&port));
        let settings: Vec<Setting> = self.settings.all.iter().filter(is_theirs).cloned().collect();
        self.apply(&settings);
    }

    /// Takes what a client hands over. Returns what it is answered: at the end, each setting that is refused. The
    /// last client that begins is heard, and no other. `who` is the client, for reports.
    pub fn take_settings(&mut self, client: u64, who: &str, step: Handing) -> String {
        let coming = &mut self.settings.coming;
        match step {
            Handing::Begin => *coming = Coming { client, ..Coming::default() },
            Handing::One(one) => return coming.add(client, one).map_or(String::new(), String::from),
            Handing::End(_) if coming.client != client => return OF_ANOTHER.into(),
            Handing::End(unread) => {
                (self.settings.all, self.settings.unread) = (std::mem::take(coming).all, unread);
                self.settings.refused.clear();
                if self.running.is_some() {
                    self.events.report_setting(&format!("the settings were read again by {who}"));
                    return self.apply_settings().into_iter().map(|line| line + "\n").collect();
                }
            }
        }
        String::new()
    }

    fn apply(&mut self, settings: &[Setting]) -> Vec<String> {
        let mut refusals = Vec::new();
        for setting in settings {
            let why = self.why_refused(setting);
            let is_news = self.settings.note(setting.place(), why.is_some());
            if let Some(why) = why {
                let line = setting.refused(&why);
                Some(&line).filter(|_| is_news).into_iter().for_each(|line| warn(line));
                refusals.push(line);
            }
        }
        refusals
    }

    /// Applies a setting. Returns why it is refused, but None if a pattern may still add its port.
    fn why_refused(&mut self, setting: &Setting) -> Option<String> {
        if let Some(why) = setting.why_none() {
            return Some(why.into());
        }
        match self.command(&setting.line).err()? {
            Refusal::NoAgent => Some(Refusal::NoAgent.to_string()),
            Refusal::ByAgent(CommandFault::NoSuchPort) if self.may_come(setting) => None,
            Refusal::ByAgent(fault) => Some(explained(&setting.line, fault)),
        }
    }

    /// True if a pattern may still add the port of a setting.
    fn may_come(&self, setting: &Setting) -> bool {
        setting.port().map_or(false, |port| patterns::may_give(&self.arguments.selectors, &port))
    }
}

/// Adds the wrong word and what is allowed in its place to the agent's refusal of a line: `out of
/// range` becomes `out of range: 0 (seconds between frames, 1 to 3600)`.
pub fn explained(line: &[u8], fault: CommandFault) -> String {
    match fault {
        CommandFault::Quote | CommandFault::InUse => fault.to_string(),
        _ => refused::explained(&text_of_line(line), &fault.to_string()),
    }
}

#[cfg(test)]
mod tests {
    use super::*;

    #[test]
    fn settings_are_handed_over_by_one_client_and_are_not_too_many() {
        let mut live = Live::without_interfaces(Default::default(), &[]);
        let one = |line: &str| Handing::One(settings::settings_in("a.conf", line.as_bytes()).remove(0));
        let long = "x".repeat(4000);
        for (client, step, wanted) in [
            (0, one("configure a"), ""),
            (1, Handing::Begin, ""),
            (1, one("configure a"), ""),
            (2, Handing::Begin, ""),
            (1, one("configure b"), OF_ANOTHER),
            (1, Handing::End(0), OF_ANOTHER),
            (2, one("configure c"), ""),
            (2, Handing::End(3), ""),
            (2, Handing::End(0), OF_ANOTHER),
        ] {
            assert_eq!(live.take_settings(client, "", step), wanted, "{client}");
        }
        let lines: Vec<&[u8]> = live.settings.all.iter().map(|one| &one.line[..]).collect();
        assert_eq!((lines, live.settings.unread), (vec![&b"configure c"[..]], 3));
        for (line, most) in [("a", MOST_SETTINGS), (&long[..], MOST_OCTETS / long.len())] {
            live.take_settings(3, "", Handing::Begin);
            let taken = (0..).take_while(|_| live.take_settings(3, "", one(line)).is_empty()).count();
            assert_eq!(taken, most);
        }
    }

    #[test]
    fn a_setting_that_is_refused_again_counts_once() {
        let mut settings = Settings { unread: 1, ..Settings::default() };
        // the line, whether it is refused, whether that is news, and how many are refused then
        for (line, is_refused, is_news, count) in [
            (1, false, false, 1),
            (2, true, true, 2),
            (2, true, false, 2),
            (3, true, true, 3),
            (2, false, false, 2),
            (2, true, true, 3),
        ] {
            assert_eq!(settings.note(("a.conf".into(), line), is_refused), is_news, "{line}");
            assert_eq!(settings.count_refused(), count, "{line}");
        }
        assert!(settings.note(("b.conf".into(), 2), true), "the same line of another file");
    }

    #[test]
    fn a_refusal_says_what_is_allowed() {
        for (line, fault, wanted) in [
            (
                "configure lldp tx-interval 0",
                CommandFault::Range,
                "out of range: 0 (seconds between frames, 1 to 3600)",
            ),
            (
                "configure lldp tx-hold",
                CommandFault::Unknown,
                "unknown command: a word is missing (intervals that peers keep a frame, 1 to 100)",
            ),
            (
                "configure lldp hold 3",
                CommandFault::Unknown,
                "unknown command: hold (tx-interval or tx-hold or max-neighbors)",
            ),
            ("configure lldp tx-hold 3 4", CommandFault::Extra, "extra word: 4 (no word is allowed here)"),
            (
                "configure ports eth9 lldp status rx-only",
                CommandFault::NoSuchPort,
                "no such port: eth9 (must be a port of this agent)",
            ),
            (
                "configure ports eth0 lldp status on",
                CommandFault::Unknown,
                "unknown command: on (rx-and-tx, rx-only, tx-only, disabled)",
            ),
            (
                "configure system hostname \"\"",
                CommandFault::Text,
                "bad text: empty word (up to 255 printable characters, in quotes if it has spaces)",
            ),
            (
                "configure lldp tx-hold x",
                CommandFault::Number,
                "not a number: x (intervals that peers keep a frame, 1 to 100)",
            ),
            ("set", CommandFault::Unknown, "unknown command: set (configure)"),
            ("configure system hostname \"a", CommandFault::Quote, "bad quote"),
            ("configure lldp max-neighbors 1", CommandFault::InUse, "too many held"),
        ] {
            assert_eq!(explained(line.as_bytes(), fault), wanted, "{line}");
        }
    }
}
