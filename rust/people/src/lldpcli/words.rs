//! Reads the commands of lldpcli, and the arguments of lldpctl.

use super::trees::{self, Depth, Told};
use crate::client::Failure;
use crate::node::Node;

const PORTS: &str = "ports";
const LIMIT: &str = "limit";
const NEIGHBORS: &str = "neighbors";
const DEPTHS: [(&str, Depth); 2] = [("details", Depth::Details), ("summary", Depth::Summary)];
/// The words that may follow each show.
const SHOWS: [(&str, &[&str]); 5] = [
    (NEIGHBORS, &["details", "summary", "hidden", PORTS]),
    ("interfaces", &["details", "summary", "hidden", PORTS]),
    ("chassis", &["details", "summary"]),
    ("statistics", &["summary", PORTS]),
    ("configuration", &[]),
];
const COMMANDS: [&str; 4] = ["show", "watch", "configure", "update"];
/// Commands that lldpa-ctl runs, or explains.
const OF_CTL: [&str; 5] = ["configure", "update", "unconfigure", "pause", "resume"];

/// A `show` command: its name, how much it shows, and of which ports (None: all ports).
#[derive(Debug, Eq, PartialEq)]
pub struct Question {
    show: &'static str,
    pub depth: Depth,
    pub ports: Option<Vec<String>>,
}

#[derive(Debug, Eq, PartialEq)]
pub enum Command {
    Show(Question),
    /// How much it shows, of which ports, and after how many changes it ends.
    Watch {
        depth: Depth,
        ports: Option<Vec<String>>,
        limit: Option<usize>,
    },
    /// Words of lldpa-ctl.
    Passed(Vec<String>),
}

impl Question {
    pub fn is_of_neighbors(&self) -> bool {
        self.show == NEIGHBORS
    }

    /// Builds the tree of the show from the answers of lldpa-live, if it is not that of neighbors.
    pub fn tree(&self, told: &Told<'_>) -> Result<Node, Failure> {
        let tree = match self.show {
            "interfaces" => trees::interfaces,
            "chassis" => trees::chassis,
            "statistics" => trees::statistics,
            _ => trees::configuration,
        };
        tree(told, self.ports.as_deref(), self.depth)
    }

    /// Fails if a port that was asked for does not exist.
    pub fn check(&self, told: &Told<'_>) -> Result<(), Failure> {
        check(self.ports.as_deref(), &told.show.configured())
    }
}

/// Fails if a port is not among the known ones.
pub fn check(ports: Option<&[String]>, known: &[&str]) -> Result<(), Failure> {
    let is_missing = |port: &&String| !known.contains(&&port[..]);
    let missing: Vec<&str> = ports.unwrap_or(&[]).iter().filter(is_missing).map(|port| &port[..]).collect();
    match missing[..] {
        [] => Ok(()),
        _ => Err(Failure::Refused(format!("no such port: {}", missing.join(", ")))),
    }
}

/// Reads the words of lldpctl: ports, or a command whose first word is written in full.
pub fn of_lldpctl(words: &[String]) -> Result<Command, Failure> {
    match words.first() {
        Some(first) if COMMANDS.contains(&&first[..]) || OF_CTL.contains(&&first[..]) => of_lldpcli(words),
        first => {
            let ports = first.map(|_| words.iter().flat_map(|word| listed(word)).collect());
            Ok(Command::Show(Question { show: NEIGHBORS, depth: Depth::Details, ports }))
        }
    }
}

/// Reads a command of lldpcli, whose words may be shortened.
pub fn of_lldpcli(words: &[String]) -> Result<Command, Failure> {
    let (first, rest) = words.split_first().ok_or_else(|| Failure::Refused("a word is missing".into()))?;
    if OF_CTL.contains(&&first[..]) {
        return Ok(Command::Passed(words.to_vec()));
    }
    let first = meant(first, &COMMANDS)?;
    if OF_CTL.contains(&first) {
        return Ok(Command::Passed([&[first.to_string()], rest].concat()));
    }
    if first == "watch" {
        let (depth, ports, limit) = read_rest(rest, &["details", "summary", "hidden", LIMIT, PORTS])?;
        return Ok(Command::Watch { depth, ports, limit });
    }
    let names = SHOWS.map(|(name, _)| name);
    let (show, rest) = match rest.split_first() {
        Some((show, rest)) => (meant(show, &names)?, rest),
        None => {
            return Err(Failure::Refused(format!("a word is missing after show ({})", names.join(", "))));
        }
    };
    let able = SHOWS.iter().find(|(name, _)| *name == show).map_or(&[][..], |(_, able)| *able);
    let (depth, ports, _) = read_rest(rest, able)?;
    Ok(Command::Show(Question { show, depth, ports }))
}

type Rest = (Depth, Option<Vec<String>>, Option<usize>);

/// Reads the words after a command: how much to show, ports and a limit, each at most once.
fn read_rest(words: &[String], able: &[&'static str]) -> Result<Rest, Failure> {
    let (mut able, mut words) = (able.to_vec(), words.iter());
    let (mut depth, mut ports, mut limit) = (Depth::Normal, None, None);
    while let Some(word) = words.next() {
        let word = meant(word, &able)?;
        able.retain(|one| *one != word);
        let mut value = || {
            let missing = || Failure::Refused(format!("a word is missing after {word}"));
            words.next().ok_or_else(missing)
        };
        match word {
            PORTS => ports = Some(listed(value()?).collect()),
            LIMIT => limit = Some(number_of(value()?)?),
            _ => {
                if let Some((_, found)) = DEPTHS.iter().find(|(name, _)| *name == word) {
                    depth = *found;
                    able.retain(|one| DEPTHS.iter().all(|(name, _)| name != one));
                }
            }
        }
    }
    Ok((depth, ports, limit))
}

/// Reads a number from 1 to 999999999.
fn number_of(word: &str) -> Result<usize, Failure> {
    let is_number = word.len() < 10 && word.bytes().all(|octet| octet.is_ascii_digit());
    let number = word.parse().ok().filter(|number| is_number && *number > 0);
    number.ok_or_else(|| Failure::Refused(format!("not a number from 1 to 999999999: {word}")))
}

/// Returns the only word that begins with a word.
fn meant(word: &str, able: &[&'static str]) -> Result<&'static str, Failure> {
    let found: Vec<&'static str> =
        able.iter().copied().filter(|one| !word.is_empty() && one.starts_with(word)).collect();
    if let [one] = found[..] {
        return Ok(one);
    }
    let instead = if able.is_empty() { "no word is allowed here".into() } else { able.join(", ") };
    let word = if word.is_empty() { "empty word" } else { word };
    Err(Failure::Refused(format!("wrong word: {word} ({instead})")))
}

/// Returns the names of ports in a word, split at commas.
fn listed(word: &str) -> impl Iterator<Item = String> + '_ {
    word.split(',').filter(|name| !name.is_empty()).map(String::from)
}

#[cfg(test)]
mod tests {
    use super::*;

    fn split(line: &str) -> Vec<String> {
        line.split(' ').filter(|word| !word.is_empty()).map(String::from).collect()
    }

    fn said(line: &str, read: fn(&[String]) -> Result<Command, Failure>) -> String {
        match read(&split(line)) {
            Ok(Command::Show(asked)) => format!("{} {:?} {:?}", asked.show, asked.depth, asked.ports),
            Ok(Command::Watch { depth, ports, limit }) => format!("watch {depth:?} {ports:?} {limit:?}"),
            Ok(Command::Passed(words)) => words.join(" "),
            Err(failure) => failure.message(""),
        }
    }

    #[test]
    fn commands_may_be_shortened() {
        for (line, wanted) in [
            ("show neighbors", "neighbors Normal None"),
            ("sh n d p eth0,,eth1", "neighbors Details Some([\"eth0\", \"eth1\"])"),
            ("show neighbors ports a summary", "neighbors Summary Some([\"a\"])"),
            ("show stat sum", "statistics Summary None"),
            ("show conf", "configuration Normal None"),
            ("watch hid limit 3", "watch Normal None Some(3)"),
            ("conf system hostname a", "configure system hostname a"),
            ("pause", "pause"),
            (
                "show",
                "a word is missing after show (neighbors, interfaces, chassis, statistics, configuration)",
            ),
            ("show c", "wrong word: c (neighbors, interfaces, chassis, statistics, configuration)"),
            ("show conf x", "wrong word: x (no word is allowed here)"),
            ("show neighbors det sum", "wrong word: sum (hidden, ports)"),
            ("watch limit", "a word is missing after limit"),
            ("watch limit 0", "not a number from 1 to 999999999: 0"),
            ("watch limit +1", "not a number from 1 to 999999999: +1"),
            ("neighbors", "wrong word: neighbors (show, watch, configure, update)"),
        ] {
            assert_eq!(said(line, of_lldpcli), wanted, "{line}");
        }
        assert_eq!(said("", of_lldpctl), "neighbors Details None");
        assert_eq!(said("eth0,eth1 sh", of_lldpctl), "neighbors Details Some([\"eth0\", \"eth1\", \"sh\"])");
        assert_eq!(said("show neighbors", of_lldpctl), "neighbors Normal None");
    }
}
