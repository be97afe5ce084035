//! Reads the settings, which are `configure` lines in files and so outlive a restart. lldpa-live reads them at its
//! start; later lldpa-ctl reads them and sends them.

use crate::client::text_of;
use crate::refused;
use crate::texts::printable;
use std::fs::{self, OpenOptions};
use std::io::{Error, ErrorKind, Read, Result};
use std::os::unix::fs::OpenOptionsExt;
use std::rc::Rc;

const O_NONBLOCK: i32 = 0o4000; // (fcntl.h) of Linux on all architectures that are supported
const MOST_OCTETS: u64 = 1_000_000; // of a file
const MOST_SHOWN: usize = 200; // characters of a refused line
pub const LONGEST_LINE: usize = 4096;

/// The path and the number of a line.
pub type Place = (Rc<str>, usize);

#[derive(Clone, Debug, PartialEq, Eq)]
pub struct Setting {
    path: Rc<str>,
    number: usize,
    pub line: Vec<u8>,
}

const FRONT: &str = "settings line\t";

impl Setting {
    /// Returns the line that hands it over to lldpa-live, in Latin-1.
    pub fn to_send(&self) -> String {
        let line: String = self.line.iter().map(|octet| char::from(*octet)).collect();
        format!("{FRONT}{}\t{}\t{line}", self.path, self.number)
    }

    /// Reads such a line.
    pub fn sent(line: &[u8]) -> Option<Setting> {
        let mut parts = line.strip_prefix(FRONT.as_bytes())?.splitn(3, |octet| *octet == b'\t');
        let mut text = || parts.next().map(|part| String::from_utf8_lossy(part).into_owned());
        let (path, number) = (text()?, text()?.parse().ok()?);
        Some(Setting { path: path.into(), number, line: parts.next()?.to_vec() })
    }

    pub fn refused(&self, why: &str) -> String {
        let shown = |text: &str| text.trim().chars().take(MOST_SHOWN).collect::<String>();
        format!("{}:{}: {}: {}", self.path, self.number, shown(&printable(&self.line)), shown(why))
    }

    pub fn place(&self) -> Place {
        (self.path.clone(), self.number)
    }

    /// Returns why this is no setting, whichever agent is asked.
    pub fn why_none(&self) -> Option<&'static str> {
        match first_word(&self.line) == "configure" {
            _ if self.line.len() > LONGEST_LINE => Some("line too long"),
            true => None,
            false => Some("a setting must begin with `configure`"),
        }
    }

    pub fn port(&self) -> Option<String> {
        let words = words_of(&self.line);
        let is_one = words.first().map_or(false, |word| word == "configure") && words.get(1)? == "ports";
        words.into_iter().nth(2).filter(|_| is_one)
    }
}

/// Returns the settings in the files at these paths, and an error for each file that could not be
/// read. In a folder it reads the files `*.conf` that are not hidden, in the order of their names.
/// A path that does not exist has no settings.
pub fn read(paths: &[String]) -> (Vec<Setting>, Vec<String>) {
    let (mut settings, mut unread) = (Vec::new(), Vec::new());
    for path in paths {
        let files = files_of(path).map(|files| files.iter().map(|file| lines_of(file)).collect());
        for lines in files.unwrap_or_else(|fault| vec![Err(fault)]) {
            match lines {
                Ok(lines) => settings.extend(lines),
                Err(fault) => unread.push(text_of(&fault)),
            }
        }
    }
    (settings, unread)
}

fn files_of(path: &str) -> Result<Vec<String>> {
    if !fs::metadata(path).map_or(false, |found| found.is_dir()) {
        return Ok(fs::symlink_metadata(path).map_or(Vec::new(), |_| vec![path.into()]));
    }
    let mut names = names(path).map_err(at(path))?;
    names.retain(|name| name.ends_with(".conf") && !name.starts_with('.'));
    names.sort();
    Ok(names.into_iter().map(|name| format!("{}/{name}", path.trim_end_matches('/'))).collect())
}

/// Returns the lines of a file except blank ones and comments. Reads no pipe and no device.
fn lines_of(path: &str) -> Result<Vec<Setting>> {
    let wrong = |what: String| at(path)(Error::new(ErrorKind::Other, what));
    if !fs::metadata(path).map_err(at(path))?.is_file() {
        return Err(wrong("not a regular file".into()));
    }
    let file = OpenOptions::new().read(true).custom_flags(O_NONBLOCK).open(path).map_err(at(path))?;
    let mut octets = Vec::new();
    file.take(MOST_OCTETS + 1).read_to_end(&mut octets).map_err(at(path))?;
    if octets.len() as u64 > MOST_OCTETS {
        return Err(wrong("the file is over 1,000,000 octets, so it is not read".into()));
    }
    Ok(settings_in(path, &octets))
}

pub fn settings_in(path: &str, octets: &[u8]) -> Vec<Setting> {
    let octets = octets.strip_prefix(b"\xef\xbb\xbf").unwrap_or(octets);
    let (mut settings, path) = (Vec::new(), Rc::from(path));
    for (place, line) in octets.split(|octet| *octet == b'\n').enumerate() {
        let line: &[u8] = line.strip_suffix(b"\r").unwrap_or(line);
        let first = line.iter().find(|octet| !octet.is_ascii_whitespace());
        if first.map_or(false, |octet| *octet != b'#') {
            settings.push(Setting { path: Rc::clone(&path), number: place + 1, line: line.to_vec() });
        }
    }
    settings
}

fn names(path: &str) -> Result<Vec<String>> {
    fs::read_dir(path)?.map(|entry| Ok(entry?.file_name().to_string_lossy().into_owned())).collect()
}

/// Puts a path before the text of an error.
fn at(path: &str) -> impl Fn(Error) -> Error + '_ {
    move |fault| Error::new(fault.kind(), format!("{path}: {}", text_of(&fault)))
}

pub fn first_word(line: &[u8]) -> String {
    words_of(line).into_iter().next().unwrap_or_default()
}

/// Returns the words of a line. A text in quotes is one word.
fn words_of(line: &[u8]) -> Vec<String> {
    refused::words_of(&text_of_line(line))
}

/// Returns a line as a text in which only tabs do not become visible.
pub fn text_of_line(line: &[u8]) -> String {
    printable(line).replace("\\x09", "\t")
}

#[cfg(test)]
mod tests {
    use super::*;

    #[test]
    fn lines_are_settings_unless_blank_or_comments() {
        let octets =
            b"\xef\xbb\xbf# a comment\n\n  configure lldp tx-hold 3\r\n\t# another\nshow\xff x\n  \nlast";
        let found = settings_in("a.conf", octets);
        let lines: Vec<_> = found.iter().map(|one| (one.number, &one.line[..])).collect();
        let wanted: [(usize, &[u8]); 3] =
            [(3, b"  configure lldp tx-hold 3"), (5, b"show\xff x"), (7, b"last")];
        assert_eq!(lines, wanted);
        assert_eq!(found[0].refused("no"), "a.conf:3: configure lldp tx-hold 3: no");
    }

    #[test]
    fn a_setting_is_of_the_port_that_it_names() {
        for (line, port) in [
            ("configure ports eth0 lldp status rx-only", Some("eth0")),
            (" configure  \"ports\"\t\"eth 1\" lldp", Some("eth 1")),
            ("configure ports", None),
            ("configure lldp tx-hold 3", None),
            ("update ports eth0", None),
            ("", None),
        ] {
            let found = settings_in("a.conf", format!("x\n{line}").as_bytes());
            let setting = found.get(1).and_then(Setting::port);
            assert_eq!(setting.as_deref(), port, "{line}");
        }
    }
}
