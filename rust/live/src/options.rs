//! Reads the agent's options, which follow `--` and are those of lldpa(1).

use crate::arguments::{number, split, ArgumentFault};
use crate::links::Mac;
use lldpa::Role;
use std::net::Ipv4Addr;

const NOT_HERE: [&str; 4] = ["listen", "connections", "help", "version"];

/// The agent's options that were given.
#[derive(Clone, Debug, Default)]
pub struct AgentOptions {
    pub mac: Option<Mac>,
    pub hostname: Option<String>,
    pub management: Option<Ipv4Addr>,
    pub numbers: lldpa::Options<'static>,
    /// All options except `--mac`, `--hostname` and `--management`, as words.
    others: Vec<String>,
}

impl AgentOptions {
    pub fn read(words: &[String]) -> Result<AgentOptions, ArgumentFault> {
        let (mut options, mut names) = (AgentOptions::default(), Vec::new());
        let mut rest = words.iter();
        while let Some(word) = rest.next() {
            let option = word.strip_prefix("--").ok_or_else(|| ArgumentFault::NoLongOption(word.clone()))?;
            let (name, own) = split(option);
            if names.contains(&name) {
                return Err(ArgumentFault::Twice(name.into()));
            }
            names.push(name);
            if NOT_HERE.contains(&name) {
                return Err(ArgumentFault::NotHere(name.into()));
            }
            if option == "receive-only" {
                options.numbers.receive_only = true;
                options.others.push(word.clone());
                continue;
            }
            let value = own.or_else(|| rest.next().map(|next| &next[..]));
            let value = value.ok_or_else(|| ArgumentFault::UnknownWithoutValue(name.into()))?;
            options.set(name, value)?;
        }
        Ok(options)
    }

    /// Returns whether the agent has the option in this word.
    pub fn have(word: &str) -> bool {
        let (name, _) = split(word);
        let read = |word: String| AgentOptions::read(&[word]);
        let is_unknown = |fault: &ArgumentFault| {
            !matches!(fault, ArgumentFault::NoSuchValue { .. } | ArgumentFault::NoNumber { .. })
        };
        read(name.into()).is_ok() || !read(format!("{name}=")).err().map_or(false, |fault| is_unknown(&fault))
    }

    fn set(&mut self, name: &str, value: &str) -> Result<(), ArgumentFault> {
        let wrong = |wanted| ArgumentFault::NoSuchValue { option: name.into(), value: value.into(), wanted };
        let number = |last: u8| match number(value, last.into()).map(u8::try_from) {
            Some(Ok(number)) => Ok(number),
            _ => {
                let (option, value) = (format!("--{name}"), value.into());
                Err(ArgumentFault::NoNumber { option, value, last: last.into() })
            }
        };
        match name {
            "mac" => {
                self.mac = Some(mac_of(value).ok_or_else(|| wrong("a MAC address like 02:00:5e:00:53:01"))?);
            }
            "hostname" if is_text(value) => self.hostname = Some(value.into()),
            "hostname" => return Err(wrong("a text of at most 255 printable ASCII characters")),
            "management" => {
                self.management = Some(value.parse().map_err(|_| wrong("an IPv4 address"))?);
            }
            "role" => {
                let role = role_of(value);
                self.numbers.role = role.ok_or_else(|| wrong("station, bridge or router"))?;
            }
            "max-neighbors" => self.numbers.max_neighbors = number(128)?,
            "tx-credit-max" => self.numbers.credit_max = number(10)?,
            "tx-fast-init" => self.numbers.fast_init = number(8)?,
            "reinit-delay" => self.numbers.reinit = number(10)?,
            _ => return Err(ArgumentFault::UnknownWithValue(name.into())),
        }
        if !["mac", "hostname", "management"].contains(&name) {
            self.others.push(format!("--{name}={value}"));
        }
        Ok(())
    }

    /// Returns the agent's command line with these addresses, name and ports, quoted for a shell.
    pub fn command_line(
        &self,
        mac: Mac,
        hostname: &str,
        management: Option<Ipv4Addr>,
        ports: &[String],
    ) -> String {
        let mac = mac.map(|octet| format!("{octet:02x}")).join(":");
        let mut words = vec![format!("--mac={mac}"), format!("--hostname={hostname}")];
        words.extend(management.map(|address| format!("--management={address}")));
        words.extend(self.others.iter().cloned());
        words.push("--".into());
        words.extend(ports.iter().cloned());
        words.iter().map(|word| quoted(word)).collect::<Vec<_>>().join(" ")
    }
}

fn role_of(text: &str) -> Option<Role> {
    match text {
        "station" => Some(Role::Station),
        "bridge" => Some(Role::Bridge),
        "router" => Some(Role::Router),
        _ => None,
    }
}

pub fn is_text(text: &str) -> bool {
    text.len() <= 255 && text.bytes().all(|octet| (b' '..=b'~').contains(&octet))
}

/// Reads a MAC address: six pairs of hexadecimal digits, joined by `:`.
fn mac_of(text: &str) -> Option<Mac> {
    let octets = crate::hex::octets_of(&text.replace(':', ""))?;
    octets
        .try_into()
        .ok()
        .filter(|mac: &Mac| mac.map(|octet| format!("{octet:02x}")).join(":") == text.to_lowercase())
}

fn quoted(word: &str) -> String {
    let is_plain = |octet: u8| octet.is_ascii_alphanumeric() || b"@%+=:,./_-".contains(&octet);
    if !word.is_empty() && word.bytes().all(is_plain) {
        return word.into();
    }
    format!("'{}'", word.replace('\'', "'\"'\"'"))
}

#[cfg(test)]
mod tests {
    use super::*;

    fn read(line: &str) -> Result<AgentOptions, String> {
        let words: Vec<String> = line.split_whitespace().map(String::from).collect();
        AgentOptions::read(&words).map_err(|fault| fault.to_string())
    }

    #[test]
    fn options_are_those_of_the_agent() {
        let all =
            "--mac=02:00:5E:00:53:01 --hostname sw1 --management 192.0.2.1 --role router --receive-only \
            --max-neighbors=128 --tx-credit-max 10 --tx-fast-init 8 --reinit-delay 10";
        let found = read(all).expect("options");
        let mac = [2, 0, 0x5e, 0, 0x53, 1];
        assert_eq!((found.mac, found.hostname.as_deref()), (Some(mac), Some("sw1")));
        assert_eq!(found.management, Some(Ipv4Addr::new(192, 0, 2, 1)));
        let numbers = &found.numbers;
        assert!(numbers.receive_only && matches!(numbers.role, Role::Router));
        assert_eq!((numbers.max_neighbors, numbers.credit_max), (128, 10));
        assert_eq!((numbers.fast_init, numbers.reinit), (8, 10));
        let ports = ["eth0".to_string(), "eth1".to_string()];
        assert_eq!(
            found.command_line(mac, "it's", None, &ports),
            "--mac=02:00:5e:00:53:01 '--hostname=it'\"'\"'s' --role=router --receive-only \
             --max-neighbors=128 --tx-credit-max=10 --tx-fast-init=8 --reinit-delay=10 -- eth0 eth1"
        );
        let line = AgentOptions::default().command_line([0; 6], "", found.management, &ports[..1]);
        assert_eq!(line, "--mac=00:00:00:00:00:00 --hostname= --management=192.0.2.1 -- eth0");
    }

    #[test]
    fn wrong_options_are_refused() {
        for (line, wanted) in [
            ("--role", "lldpa has no option --role without a value"),
            ("--role=hub", "--role: hub is not station, bridge or router"),
            ("--role=bridge --role=bridge", "--role is given twice"),
            ("--listen 1", "--listen cannot be used after --"),
            ("--help", "--help cannot be used after --"),
            ("-h", "-h: only long options of lldpa may follow --"),
            ("--nothing=1", "lldpa has no option --nothing with a value"),
            ("--receive-only=1", "lldpa has no option --receive-only with a value"),
            ("--max-neighbors 129", "--max-neighbors: 129 is not a number from 1 to 128"),
            ("--tx-credit-max 11", "--tx-credit-max: 11 is not a number from 1 to 10"),
            ("--tx-fast-init 9", "--tx-fast-init: 9 is not a number from 1 to 8"),
            ("--reinit-delay 0", "--reinit-delay: 0 is not a number from 1 to 10"),
            ("--mac=2:0:0:0:0:1", "--mac: 2:0:0:0:0:1 is not a MAC address like 02:00:5e:00:53:01"),
            ("--mac=02005e005301", "--mac: 02005e005301 is not a MAC address like 02:00:5e:00:53:01"),
            ("--management=::1", "--management: ::1 is not an IPv4 address"),
            (
                "--hostname=\u{e4}",
                "--hostname: \u{e4} is not a text of at most 255 printable ASCII characters",
            ),
        ] {
            assert_eq!(read(line).err().as_deref(), Some(wanted), "{line}");
        }
        assert!(is_text(&"a".repeat(255)) && !is_text(&"a".repeat(256)));
        assert!(is_text(" ~") && !is_text("\t") && !is_text("\x7f"));
    }
}
