//! Reads a line of a client: what it asks, or why it is refused.

use lldpa_people::settings::first_word;
use lldpa_people::settings::Setting;
pub use lldpa_people::settings::LONGEST_LINE;
use std::fmt;

/// Why a line of a client is not answered.
#[derive(Clone, Copy, Debug, PartialEq, Eq)]
pub enum LineFault {
    TooLong,
    /// It is blank or a comment: it has an empty answer.
    Blank,
    /// An event that only lldpa-live may report to the agent.
    ForLldpaLive,
    NoPermission,
    Unknown,
}

impl fmt::Display for LineFault {
    fn fmt(&self, out: &mut fmt::Formatter<'_>) -> fmt::Result {
        out.write_str(match self {
            LineFault::TooLong => "error: line too long\n",
            LineFault::Blank => "",
            LineFault::ForLldpaLive => "error: for lldpa-live alone\n",
            LineFault::NoPermission => "error: no permission\n",
            LineFault::Unknown => "error: unknown command\n",
        })
    }
}

/// What a client asks. A name limits the answer to the port of this name.
#[derive(Debug, PartialEq, Eq)]
pub enum Query<'a> {
    Live(Option<&'a str>),
    /// How often neighbors have changed. With a number, as soon as it is another one.
    Changes(Option<u64>),
    Neighbors(Option<&'a str>),
    Statistics(Option<&'a str>),
    /// The tables of some ports (of all if empty), and then each change.
    Watch(Vec<&'a str>),
    /// The present state as lines, and then each line that the agent is given. Again: the state once more.
    Record,
    /// What a client does to hand over the settings.
    Settings(Handing),
    /// A line for the agent.
    Command,
}

/// A step of handing over the settings: one after another they are new, and the last step applies them.
#[derive(Debug, PartialEq, Eq)]
pub enum Handing {
    Begin,
    One(Setting),
    /// So many files or lines could not be sent.
    End(usize),
}

impl Query<'_> {
    /// Reads a line. `may_change` tells whether the client may change the agent.
    pub fn read(line: &[u8], may_change: bool) -> Result<Query<'_>, LineFault> {
        check(line, may_change)?;
        let text = std::str::from_utf8(line).unwrap_or("");
        let words: Vec<&str> = text.split(&[' ', '\t'][..]).filter(|word| !word.is_empty()).collect();
        Ok(match words[..] {
            ["live"] => Query::Live(None),
            ["live", port] => Query::Live(Some(port)),
            ["changes"] => Query::Changes(None),
            ["changes", count] => count.parse().map_or(Query::Command, |count| Query::Changes(Some(count))),
            ["watch", ref ports @ ..] => Query::Watch(ports.to_vec()),
            ["record"] => Query::Record,
            ["settings", "begin"] => Query::Settings(Handing::Begin),
            ["settings", "end", unsent] => {
                Query::Settings(Handing::End(unsent.parse().map_err(|_| LineFault::Unknown)?))
            }
            ["settings", "line", ..] => {
                Query::Settings(Handing::One(Setting::sent(line).ok_or(LineFault::Unknown)?))
            }
            ["show", "neighbors"] => Query::Neighbors(None),
            ["show", "neighbors", port] => Query::Neighbors(Some(port)),
            ["show", "statistics"] => Query::Statistics(None),
            ["show", "statistics", port] => Query::Statistics(Some(port)),
            _ => Query::Command,
        })
    }
}

/// Refuses a line by its length or its first word.
fn check(line: &[u8], may_change: bool) -> Result<(), LineFault> {
    if line.len() > LONGEST_LINE {
        return Err(LineFault::TooLong);
    }
    let first = line.iter().find(|octet| !b" \t".contains(octet));
    let word = first_word(line);
    match &word[..] {
        "tick" | "rx" | "up" | "down" => Err(LineFault::ForLldpaLive),
        _ if matches!(first, None | Some(b'#')) => Err(LineFault::Blank),
        "configure" | "update" | "settings" if !may_change => Err(LineFault::NoPermission),
        "live" | "changes" | "watch" | "record" | "show" | "configure" | "update" | "settings" => Ok(()),
        _ => Err(LineFault::Unknown),
    }
}

#[cfg(test)]
mod tests {
    use super::*;

    #[test]
    fn lines_are_refused_by_their_first_word() {
        let command = || Ok(Query::Command);
        for (line, with, without) in [
            // the line, and what it asks with and without the right to change
            ("show neighbors", Ok(Query::Neighbors(None)), Ok(Query::Neighbors(None))),
            ("\tshow chassis", command(), command()),
            ("live eth0", Ok(Query::Live(Some("eth0"))), Ok(Query::Live(Some("eth0")))),
            ("configure lldp tx-hold 4", command(), Err(LineFault::NoPermission)),
            (" update", command(), Err(LineFault::NoPermission)),
            ("\"configure\" lldp tx-hold 4", command(), Err(LineFault::NoPermission)),
            ("", Err(LineFault::Blank), Err(LineFault::Blank)),
            (" \t", Err(LineFault::Blank), Err(LineFault::Blank)),
            ("# show neighbors", Err(LineFault::Blank), Err(LineFault::Blank)),
            ("tick", Err(LineFault::ForLldpaLive), Err(LineFault::ForLldpaLive)),
            ("rx eth0 00", Err(LineFault::ForLldpaLive), Err(LineFault::ForLldpaLive)),
            ("\"up\" eth0", Err(LineFault::ForLldpaLive), Err(LineFault::ForLldpaLive)),
            ("down eth0", Err(LineFault::ForLldpaLive), Err(LineFault::ForLldpaLive)),
            ("shown", Err(LineFault::Unknown), Err(LineFault::Unknown)),
            ("SHOW neighbors", Err(LineFault::Unknown), Err(LineFault::Unknown)),
        ] {
            assert_eq!(Query::read(line.as_bytes(), true), with, "{line}");
            assert_eq!(Query::read(line.as_bytes(), false), without, "{line}");
        }
        let long = b"show neighbors".repeat(300);
        assert_eq!(Query::read(&long[..4096], true), Ok(Query::Command));
        assert_eq!(Query::read(&long[..4097], true), Err(LineFault::TooLong));
    }

    #[test]
    fn questions_may_be_for_one_port() {
        for (line, wanted) in [
            (&b"live"[..], Query::Live(None)),
            (b" live\t", Query::Live(None)),
            (b"live eth0 eth1", Query::Command),
            (b"changes", Query::Changes(None)),
            (b"changes 17", Query::Changes(Some(17))),
            (b"changes x", Query::Command),
            (b"changes 1 2", Query::Command),
            (b"watch", Query::Watch(vec![])),
            (b" watch\teth1  eth0 ", Query::Watch(vec!["eth1", "eth0"])),
            (b"watch \xff", Query::Command),
            (b"show\tneighbors  eth0", Query::Neighbors(Some("eth0"))),
            (b"show neighbors eth0 x", Query::Command),
            (b"show statistics", Query::Statistics(None)),
            (b"show statistics eth1", Query::Statistics(Some("eth1"))),
            (b"show configuration", Query::Command),
            (b"show neighbors \xff", Query::Command),
        ] {
            assert_eq!(Query::read(line, false), Ok(wanted));
        }
    }

    #[test]
    fn each_refusal_is_one_line() {
        for (fault, text) in [
            (LineFault::TooLong, "error: line too long\n"),
            (LineFault::Blank, ""),
            (LineFault::ForLldpaLive, "error: for lldpa-live alone\n"),
            (LineFault::NoPermission, "error: no permission\n"),
            (LineFault::Unknown, "error: unknown command\n"),
        ] {
            assert_eq!(fault.to_string(), text);
        }
    }
}
