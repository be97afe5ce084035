//! Reads the command line of lldpa-live.

use crate::options::AgentOptions;
use crate::patterns;
use crate::ports::MOST_PORTS;
use std::fmt;

const HELP: &str = "\
usage: lldpa-live [OPTION...] PORT... [-- OPTIONS OF LLDPA]

Runs the LLDP agent lldpa on Ethernet interfaces until a signal ends it.

  PORT                   an Ethernet interface, or a pattern such as 'swp*';
                         '!swp3' excludes swp3

options:
  -h, --help             print this help
  -V, --version          print the version
  --config PATH          read settings from a file or a folder of *.conf; may
                         be repeated
  --control PATH         the control socket (default /run/lldpa/control)
  --control-group GROUP  let members of this group use the control socket
  --events               report on standard error when a neighbor comes, changes
                         or goes, or a link goes up or down
  --forget-on-down       empty the table of a port when its link goes down
  --lines                with --once, print the agent's lines on a terminal, too
  --management-pattern PATTERNS
                         announce only an address that a pattern matches, such
                         as '192.0.2.*,!172.17.*'; '!' excludes addresses
  --no-description       do not announce the operating system of this host
  --no-domain            announce the host's name without its domain
  --no-management        do not announce an address of this host
  --once N               wait until each port has a neighbor, at most N seconds,
                         then print the neighbors and exit: a table on a terminal,
                         else the agent's lines
  --only-existing        refuse to start if an interface does not exist
  --keep-state           let the service manager keep the neighbors for the next
                         start
  --state FILE           save the neighbors in FILE.0 and FILE.1 each minute and at
                         the end, and restore them at the start; they must be in
                         memory (tmpfs)
  --user NAME            when started as root, become this user once the sockets
                         are open (default _lldpa if there is such a user, else
                         nobody)

example: lldpa-live --state /run/lldpa/state eth0 eth1 -- --role router
lldpa-live(8) describes these options, lldpa(1) those after --.
";

/// What the command line says.
#[derive(Clone, Debug, Default)]
pub struct Arguments {
    /// Names and patterns of ports.
    pub selectors: Vec<String>,
    /// What can name no port, or no further one.
    pub refused: Vec<RefusedPort>,
    /// Patterns of addresses that may be announced.
    pub addresses: Vec<String>,
    pub config: Vec<String>,
    pub control: String,
    pub control_group: Option<String>,
    pub user: Option<String>,
    pub state: Option<String>,
    pub keep_state: bool,
    /// Options of earlier versions that do nothing any more.
    pub former: Vec<String>,
    pub once: Option<u64>,
    pub lines: bool,
    pub events: bool,
    pub forget_on_down: bool,
    pub no_description: bool,
    pub no_domain: bool,
    pub no_management: bool,
    pub only_existing: bool,
    pub agent: AgentOptions,
}

/// What lldpa-live is asked to do.
pub enum Request {
    Run(Box<Arguments>),
    Print(String),
}

/// A name that is not used as a port.
#[derive(Clone, Debug, PartialEq, Eq)]
pub enum RefusedPort {
    Malformed(String),
    Twice(String),
    TooMany(String),
}

impl fmt::Display for RefusedPort {
    fn fmt(&self, out: &mut fmt::Formatter<'_>) -> fmt::Result {
        match self {
            RefusedPort::Malformed(name) => match name.split_once('.').filter(|one| patterns::is_name(one.0))
            {
                Some((below, _)) => {
                    let why = "a VLAN interface cannot be a port, since LLDP frames have no tag";
                    write!(out, "{name}: this is not waited for: {why}; name {below}")
                }
                None => write!(out, "{name}: a port's name has 1 to 15 ASCII letters, digits, -, _, / and :"),
            },
            RefusedPort::Twice(name) => write!(out, "the port {name} is given twice"),
            RefusedPort::TooMany(name) => {
                let most = format!("an agent has at most {MOST_PORTS} ports");
                write!(out, "{name}: {most}, so this interface is not used: run another service for it")
            }
        }
    }
}

/// Why a command line is refused.
#[derive(Debug, PartialEq, Eq)]
pub enum ArgumentFault {
    NoPort,
    UnknownOption(String),
    NoValue(String),
    NoNumber {
        option: String,
        value: String,
        last: u64,
    },
    NoAddressPattern(String),
    /// A word after `--` is no long option.
    NoLongOption(String),
    /// An option of the agent.
    Twice(String),
    NotHere(String),
    UnknownWithValue(String),
    UnknownWithoutValue(String),
    NoSuchValue {
        option: String,
        value: String,
        wanted: &'static str,
    },
    OnlyForRoot,
    UnknownUser(String),
}

impl fmt::Display for ArgumentFault {
    fn fmt(&self, out: &mut fmt::Formatter<'_>) -> fmt::Result {
        match self {
            ArgumentFault::NoPort => write!(out, "a PORT is required"),
            ArgumentFault::UnknownOption(word) if AgentOptions::have(word) => {
                write!(out, "unknown option: {word} (options of lldpa follow --)")
            }
            ArgumentFault::UnknownOption(word) => write!(out, "unknown option: {word}"),
            ArgumentFault::NoValue(option) => write!(out, "{option}: a value is required"),
            ArgumentFault::NoNumber { option, value, last } => {
                write!(out, "{option}: {value} is not a number from 1 to {last}")
            }
            ArgumentFault::NoAddressPattern(part) => {
                write!(out, "--management-pattern: {part} is not a pattern of IPv4 addresses")
            }
            ArgumentFault::NoLongOption(word) => {
                write!(out, "{word}: only long options of lldpa may follow --")
            }
            ArgumentFault::Twice(option) => write!(out, "--{option} is given twice"),
            ArgumentFault::NotHere(option) => write!(out, "--{option} cannot be used after --"),
            ArgumentFault::UnknownWithValue(option) => {
                write!(out, "lldpa has no option --{option} with a value")
            }
            ArgumentFault::UnknownWithoutValue(option) => {
                write!(out, "lldpa has no option --{option} without a value")
            }
            ArgumentFault::NoSuchValue { option, value, wanted } => {
                write!(out, "--{option}: {value} is not {wanted}")
            }
            ArgumentFault::OnlyForRoot => write!(out, "--user: only root can use this option"),
            ArgumentFault::UnknownUser(name) => write!(out, "user {name} is not in /etc/passwd"),
        }
    }
}

impl Request {
    pub fn read(words: &[String]) -> Result<Request, ArgumentFault> {
        let end = words.iter().position(|word| word == "--").unwrap_or(words.len());
        let mut arguments = Arguments { control: "/run/lldpa/control".into(), ..Arguments::default() };
        let mut rest = words[..end].iter();
        while let Some(word) = rest.next() {
            match word.as_str() {
                "-h" | "--help" => return Ok(Request::Print(HELP.into())),
                "-V" | "--version" => return Ok(Request::Print("lldpa-live 1.0.0\n".into())),
                _ if word.starts_with('-') => arguments.set(word, &mut rest)?,
                _ => {
                    let selectors = word.split(',').filter(|part| !part.is_empty());
                    arguments.selectors.extend(selectors.map(String::from));
                }
            }
        }
        arguments.agent = AgentOptions::read(words.get(end + 1..).unwrap_or(&[]))?;
        if arguments.selectors.is_empty() {
            return Err(ArgumentFault::NoPort);
        }
        arguments.refuse_ports();
        Ok(Request::Run(Box::new(arguments)))
    }
}

/// Returns where the ports are named, to be put after a report: PORTS_FILE names the file of a service.
pub fn where_named() -> String {
    std::env::var("PORTS_FILE").map_or(String::new(), |path| format!(" (see PORTS in {path})"))
}

impl Arguments {
    /// Returns for which interfaces lldpa-live waits while there is none.
    pub fn awaited(&self) -> String {
        match self.selectors.is_empty() {
            true => "none, since no name that was given can be a port".into(),
            false => self.selectors.join(" "),
        }
    }

    /// Sets what an option says. Its value may be the next word.
    fn set(&mut self, word: &str, rest: &mut std::slice::Iter<'_, String>) -> Result<(), ArgumentFault> {
        let (name, own) = split(word);
        let mut value = || {
            let value = own.or_else(|| rest.next().map(|next| &next[..]));
            value.map(String::from).ok_or_else(|| ArgumentFault::NoValue(name.into()))
        };
        let number_of = |value: String, last: u64| match number(&value, last) {
            Some(number) => Ok(number),
            None => Err(ArgumentFault::NoNumber { option: name.into(), value, last }),
        };
        match (name, own) {
            ("--events", None) => self.events = true,
            ("--forget-on-down", None) => self.forget_on_down = true,
            ("--no-description", None) => self.no_description = true,
            ("--lines", None) => self.lines = true,
            ("--no-domain", None) => self.no_domain = true,
            ("--no-log", None) => self.former.push(name.into()),
            ("--keep-state", None) => self.keep_state = true,
            ("--no-management", None) => self.no_management = true,
            ("--only-existing", None) => self.only_existing = true,
            ("--config", _) => self.config.push(value()?),
            ("--control", _) => self.control = value()?,
            ("--control-group", _) => self.control_group = Some(value()?),
            ("--user", _) => self.user = Some(value()?),
            ("--state", _) => self.state = Some(value()?),
            ("--log" | "--log-most" | "--log-keep" | "--metrics", _) => {
                value()?;
                self.former.push(name.into());
            }
            ("--management-pattern", _) => self.addresses.extend(address_patterns(&value()?)?),
            ("--once", _) => self.once = Some(number_of(value()?, 86_400)?),
            _ => return Err(ArgumentFault::UnknownOption(word.into())),
        }
        Ok(())
    }

    /// True if the host's name is announced with its domain.
    pub fn follows_domain(&self) -> bool {
        !self.no_domain && self.agent.hostname.is_none()
    }

    /// Takes out names that are malformed, given twice or too many: the others are used.
    fn refuse_ports(&mut self) {
        let mut names = 0;
        for selector in std::mem::take(&mut self.selectors) {
            let is_name = !patterns::is_pattern(&selector);
            if !patterns::is_able(&selector) {
                self.refused.push(RefusedPort::Malformed(selector));
            } else if is_name && self.selectors.contains(&selector) {
                self.refused.push(RefusedPort::Twice(selector));
            } else if is_name && names >= MOST_PORTS {
                self.refused.push(RefusedPort::TooMany(selector));
            } else {
                names += usize::from(is_name);
                self.selectors.push(selector);
            }
        }
    }
}

/// Reads patterns of IPv4 addresses, with commas between them.
fn address_patterns(text: &str) -> Result<Vec<String>, ArgumentFault> {
    let is_able = |part: &str| {
        let rest = part.trim_start_matches('!');
        let letters = |octet: u8| octet.is_ascii_digit() || b".*?[]-".contains(&octet);
        part.len() - rest.len() <= 2 && !rest.is_empty() && rest.bytes().all(letters)
    };
    match text.split(',').find(|part| !is_able(part)) {
        Some(part) => Err(ArgumentFault::NoAddressPattern(part.into())),
        None => Ok(text.split(',').map(String::from).collect()),
    }
}

/// Returns the name of an option, and its value if the same word contains it.
pub fn split(word: &str) -> (&str, Option<&str>) {
    word.split_once('=').map_or((word, None), |(name, value)| (name, Some(value)))
}

pub fn number(text: &str, last: u64) -> Option<u64> {
    let number = text.parse().ok().filter(|number| (1..=last).contains(number));
    number.filter(|_| text.bytes().all(|octet| octet.is_ascii_digit()))
}

#[cfg(test)]
mod tests {
    use super::*;

    fn read(line: &str) -> Result<Arguments, String> {
        let words: Vec<String> = line.split_whitespace().map(String::from).collect();
        match Request::read(&words).map_err(|fault| fault.to_string())? {
            Request::Run(arguments) => Ok(*arguments),
            Request::Print(text) => Err(text),
        }
    }

    #[test]
    fn a_word_that_is_no_port_is_refused_alone() {
        let many: Vec<String> = (0..65).map(|number| format!("p{number}")).collect();
        let malformed = |name: &str| RefusedPort::Malformed(name.into());
        for (line, selectors, refused) in [
            ("eth0 eth1", "eth0 eth1", vec![]),
            ("eth0 eth0 eth1", "eth0 eth1", vec![RefusedPort::Twice("eth0".into())]),
            ("eth0.5 eth1", "eth1", vec![malformed("eth0.5")]),
            ("0123456789abcdef eth1,", "eth1", vec![malformed("0123456789abcdef")]),
            ("eth* eth* !eth7", "eth* eth* !eth7", vec![]),
            ("a{b,c} eth1", "eth1", vec![malformed("a{b"), malformed("c}")]),
            (&many.join(" "), &many[..64].join(" "), vec![RefusedPort::TooMany("p64".into())]),
        ] {
            let arguments = read(line).expect(line);
            assert_eq!(
                (&arguments.selectors.join(" ")[..], arguments.refused),
                (selectors, refused),
                "{line}"
            );
        }
    }

    #[test]
    fn each_refused_port_has_a_reason() {
        for (refused, text) in [
            (
                RefusedPort::Malformed("eth0.5".into()),
                "eth0.5: this is not waited for: a VLAN interface cannot be a port, since LLDP frames have no \
                 tag; name eth0",
            ),
            (
                RefusedPort::Malformed("sixteen--letters".into()),
                "sixteen--letters: a port's name has 1 to 15 ASCII letters, digits, -, _, / and :",
            ),
            (RefusedPort::Twice("eth0".into()), "the port eth0 is given twice"),
            (
                RefusedPort::TooMany("p64".into()),
                "p64: an agent has at most 64 ports, so this interface is not used: run another service for \
                 it",
            ),
        ] {
            assert_eq!(refused.to_string(), text);
        }
    }

    #[test]
    fn options_have_values_or_none() {
        let all = "--events --forget-on-down --no-description --no-domain --no-management --only-existing \
            --config a --config=b --control c --control-group=d --user e --state f --log g \
            --log-most 3 --log-keep=1000000 --once 86400 eth0";
        let found = read(all).expect("arguments");
        assert!(found.events && found.forget_on_down && found.no_description);
        assert!(found.no_domain && found.no_management && found.only_existing);
        assert_eq!((found.config.join(" "), &found.control[..]), ("a b".into(), "c"));
        assert_eq!((found.control_group.as_deref(), found.user.as_deref()), (Some("d"), Some("e")));
        assert_eq!((found.state.as_deref(), found.once), (Some("f"), Some(86_400)));
        assert_eq!(found.former, ["--log", "--log-most", "--log-keep"]);
        let least = read("eth0").expect("arguments");
        assert!(!(least.events || least.forget_on_down || least.no_description));
        assert!(!(least.no_domain || least.no_management || least.only_existing));
        assert!(least.follows_domain() && !found.follows_domain());
        assert!(!read("eth0 -- --hostname=a").expect("arguments").follows_domain());
        assert_eq!((&least.control[..], least.once, least.state), ("/run/lldpa/control", None, None));
        assert!(least.former.is_empty() && !least.keep_state);
    }

    #[test]
    fn wrong_command_lines_are_refused() {
        for (line, wanted) in [
            ("", "a PORT is required"),
            ("--events --", "a PORT is required"),
            ("--nothing eth0", "unknown option: --nothing"),
            ("-x eth0", "unknown option: -x"),
            ("--ask live", "unknown option: --ask"),
            ("--events=1 eth0", "unknown option: --events=1"),
            ("eth0 --receive-only", "unknown option: --receive-only (options of lldpa follow --)"),
            ("eth0 --role router", "unknown option: --role (options of lldpa follow --)"),
            ("--max-neighbors=4 eth0", "unknown option: --max-neighbors=4 (options of lldpa follow --)"),
            ("eth0 --hostname", "unknown option: --hostname (options of lldpa follow --)"),
            ("eth0 --receive-only=1", "unknown option: --receive-only=1 (options of lldpa follow --)"),
            ("--listen 4711 eth0", "unknown option: --listen"),
            ("eth0 --state", "--state: a value is required"),
            ("--once 0 eth0", "--once: 0 is not a number from 1 to 86400"),
            ("--once=86401 eth0", "--once: 86401 is not a number from 1 to 86400"),
            ("eth0 -- eth1", "eth1: only long options of lldpa may follow --"),
        ] {
            assert_eq!(read(line).err().as_deref(), Some(wanted), "{line}");
        }
        assert_eq!(read("-V").err().as_deref(), Some("lldpa-live 1.0.0\n"));
        assert_eq!(read("eth0 --help").err().as_deref(), Some(HELP));
    }

    #[test]
    fn patterns_of_addresses_are_checked() {
        let found = read("--management-pattern 192.0.2.*,!172.17.* eth0").expect("patterns");
        assert_eq!(found.addresses, ["192.0.2.*", "!172.17.*"]);
        assert!(read("--management-pattern=!!1.* eth0").is_ok());
        for wrong in ["eth*", "", "!", "192.0.2.1/24", "!!!1.*"] {
            let why = read(&format!("--management-pattern={wrong} eth0")).expect_err(wrong);
            assert_eq!(why, format!("--management-pattern: {wrong} is not a pattern of IPv4 addresses"));
        }
    }
}
