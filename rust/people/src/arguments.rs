//! Reads the arguments of lldpa-ctl.

use crate::refused::words_of;

pub const DEFAULT_PATH: &str = "/run/lldpa/control";
/// The commands that ask lldpa-live, and those of this program alone.
pub const COMMANDS: [&str; 8] =
    ["neighbors", "details", "interfaces", "statistics", "live", "show", "configure", "update"];
const ALONE: [&str; 6] = ["watch", "metrics", "record", "reload", "check", "help"];
/// Lines of a trace, which cannot be shortened.
const OF_LINES: [&str; 4] = ["up", "down", "rx", "tick"];
const OPTIONS: [(&str, bool); 7] = [
    ("control", true),
    ("json", false),
    ("output", true),
    ("most", true),
    ("keep", true),
    ("help", false),
    ("version", false),
];

#[derive(Debug, Default, Eq, PartialEq)]
pub struct Given {
    pub control: Option<String>,
    pub json: bool,
    pub output: Option<String>,
    pub most: Option<u64>,
    pub keep: Option<u64>,
    pub words: Vec<String>,
}

/// Returns the first words of all commands.
pub fn all_commands() -> Vec<&'static str> {
    COMMANDS.iter().chain(&ALONE).copied().collect()
}

/// Returns a word completed from these, or unchanged if that is not unique.
pub fn completed(word: &str, able: &[&str]) -> String {
    let mut found = able.iter().filter(|one| !word.is_empty() && one.starts_with(word));
    match (found.next(), found.next()) {
        (Some(one), None) if !able.contains(&word) && !OF_LINES.contains(&word) => one.to_string(),
        _ => word.into(),
    }
}

impl Given {
    pub fn read(arguments: &[String]) -> Result<Given, String> {
        let (mut given, mut rest) = (Given::default(), Vec::new());
        let mut command = None; // of an option, which takes the place of all words
        let mut words = arguments.iter();
        while let Some(word) = words.next() {
            match word.as_str() {
                "--" => {
                    rest.extend(words.by_ref().cloned());
                }
                "-" => rest.push(word.clone()),
                long if long.starts_with("--") => {
                    let option = given.take(&long[2..], &mut words)?;
                    command = option.or(command);
                }
                short if short.starts_with('-') => {
                    for letter in short[1..].chars() {
                        command = match letter {
                            'h' => Some("help"),
                            'V' => command.or(Some("version")),
                            _ => return Err(format!("option -{letter} not recognized")),
                        };
                    }
                }
                _ => rest.push(word.clone()),
            }
        }
        given.words = rest;
        given.complete(command);
        given.check()?;
        Ok(given)
    }

    /// Takes a long option. Returns its command if it stands for one.
    fn take(
        &mut self,
        word: &str,
        words: &mut std::slice::Iter<'_, String>,
    ) -> Result<Option<&'static str>, String> {
        let (name, value) =
            word.split_once('=').map_or((word, None), |(name, value)| (name, Some(value.into())));
        let (name, has_value) = option_of(name)?;
        let value = match (value, has_value) {
            (Some(_), false) => return Err(format!("option --{name} must not have an argument")),
            (None, true) => words.next().cloned(),
            (value, _) => value,
        };
        let value = value.filter(|_| has_value);
        if has_value && value.is_none() {
            return Err(format!("option --{name} requires argument"));
        }
        match name {
            "control" => self.control = value,
            "output" => self.output = value,
            "most" => self.most = Some(megabytes(name, value)?),
            "keep" => self.keep = Some(megabytes(name, value)?),
            "json" => self.json = true,
            other => return Ok(Some(other)),
        }
        Ok(None)
    }

    fn complete(&mut self, command: Option<&str>) {
        if self.words.len() == 1 {
            self.words = words_of(&self.words[0]);
        }
        if let Some(first) = self.words.first_mut() {
            *first = completed(first, &all_commands());
        }
        if let Some(command) = command {
            self.words = vec![command.into()];
        }
    }

    fn check(&self) -> Result<(), String> {
        let is_metrics = self.words.first().map_or(false, |word| word == "metrics");
        let is_record = self.words.first().map_or(false, |word| word == "record");
        match (is_metrics, self.words.len()) {
            _ if is_record && self.words.len() != 2 => Err("a folder must follow record".into()),
            _ if !is_record && (self.most.is_some() || self.keep.is_some()) => {
                Err("--most and --keep can be used only with record".into())
            }
            (true, 1) if self.json => Err("metrics cannot be printed as JSON".into()),
            (true, 1) => Ok(()),
            (true, _) => Err("no word may follow metrics".into()),
            (false, _) if self.output.is_some() => Err("--output can be used only with metrics".into()),
            (false, _) => Ok(()),
        }
    }
}

fn megabytes(name: &str, value: Option<String>) -> Result<u64, String> {
    let number = value.and_then(|value| value.parse().ok()).filter(|number| (1..=1_000_000).contains(number));
    number.ok_or_else(|| format!("--{name} must be a number of megabytes, 1 to 1000000"))
}

/// Returns the option with this name, and whether it has a value.
fn option_of(name: &str) -> Result<(&'static str, bool), String> {
    if let Some(option) = OPTIONS.iter().find(|(option, _)| *option == name) {
        return Ok(*option);
    }
    let begun: Vec<&str> =
        OPTIONS.iter().map(|(option, _)| *option).filter(|one| one.starts_with(name)).collect();
    Err(match begun[..] {
        [] => format!("option --{name} not recognized"),
        [one] => format!("an option cannot be shortened: write --{one}"),
        _ => format!("option --{name} not a unique prefix"),
    })
}

#[cfg(test)]
mod tests {
    use super::*;

    fn read(words: &str) -> Result<Given, String> {
        Given::read(&words.split_whitespace().map(String::from).collect::<Vec<_>>())
    }

    #[test]
    fn options_and_words_may_be_mixed() {
        let words = |words: &[&str]| words.iter().map(|word| word.to_string()).collect::<Vec<_>>();
        for (line, wanted) in [
            ("", words(&[])),
            ("n eth0", words(&["neighbors", "eth0"])),
            ("show ne eth1 --control x", words(&["show", "ne", "eth1"])),
            ("-- --json", words(&["--json"])),
            ("up", words(&["up"])),
            ("s", words(&["s"])),
            ("watch --help", words(&["help"])),
            ("-hV", words(&["help"])),
            ("-V x", words(&["version"])),
            ("conf lldp tx-hold 4", words(&["configure", "lldp", "tx-hold", "4"])),
        ] {
            assert_eq!(read(line).map(|given| given.words), Ok(wanted), "{line}");
        }
        let given = read("metrics --output=a --control b").expect("options");
        assert_eq!((given.output, given.control, given.json), (Some("a".into()), Some("b".into()), false));
        let given = Given::read(&words(&["show neighbors eth0"])).expect("words in one");
        assert_eq!(given.words, words(&["show", "neighbors", "eth0"]));
    }

    #[test]
    fn wrong_arguments_are_named() {
        for (line, why) in [
            ("metrics x", "no word may follow metrics"),
            ("--json metrics", "metrics cannot be printed as JSON"),
            ("--jso", "an option cannot be shortened: write --json"),
            ("--", ""),
            ("--jsonx", "option --jsonx not recognized"),
            ("--json=1", "option --json must not have an argument"),
            ("--output x show neighbors", "--output can be used only with metrics"),
            ("metrics --output", "option --output requires argument"),
            ("-x", "option -x not recognized"),
        ] {
            assert_eq!(read(line).err().unwrap_or_default(), why, "{line}");
        }
    }
}
