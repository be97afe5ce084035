//! Records what the agent of lldpa-live is given, in files one after another that lldpa can replay, each alone.
//! Their total size is limited. A disk that hangs or is full holds up only this program: lldpa-live says how much
//! it has lost meanwhile, and a new file begins.

use crate::client::{complain, text_of, Client, Done, Failure, NAME};
use crate::connection::Connection;
use crate::texts::{counted, printable};
use std::collections::VecDeque;
use std::fs::{self, File, OpenOptions};
use std::io::{Error, ErrorKind, Result as IoResult, Write};
use std::ops::RangeInclusive;
use std::os::unix::fs::{MetadataExt, OpenOptionsExt};
use std::path::PathBuf;
use std::time::{Duration, Instant};

const MEGABYTE: u64 = 1_000_000;
pub const MOST: u64 = 64; // megabytes of a file
pub const KEEP: u64 = 1024; // megabytes of all files
const MOST_OF_A_SECOND: u32 = 1000; // files that begin in one second
const PIECE: usize = 1 << 20; // octets that are written at once
const BETWEEN_TRIES: Duration = Duration::from_secs(10);
/// Whether it may be tried again, while nothing can be written.
const BETWEEN_LOOKS: Duration = Duration::from_secs(1);
const BETWEEN_CONNECTIONS: Duration = Duration::from_secs(1);

const BEGIN: &[u8] = b"# lldpa "; // of the first line of a file
const LOST: &[u8] = b"live.lost=";

/// The present file.
struct Present {
    file: File,
    name: String,
    size: u64,
}

/// The files in a folder.
struct Files {
    folder: PathBuf,
    most: u64,
    keep: u64,
    present: Option<Present>,
    /// The older files with their sizes, oldest first.
    others: VecDeque<(String, u64)>,
    /// The size of the present file's head. None until the first write after it.
    head: Option<u64>,
    /// Lines that are not written yet.
    waiting: Vec<u8>,
    /// True since a fault, until something is written again. Meanwhile so many lines are lost.
    is_failing: bool,
    lost: usize,
    /// True if a new file was asked for.
    is_asked: bool,
    /// When to ask for a new file after a fault.
    next_try: Instant,
}

/// Returns the second in a file's name, and its number in that second. None for other names.
fn sequence_of(name: &str) -> Option<(&str, u32)> {
    let is_number = |text: &str, lengths: RangeInclusive<usize>| {
        lengths.contains(&text.len()) && text.bytes().all(|octet| octet.is_ascii_digit())
    };
    let begin = name.strip_suffix(".trace")?;
    let (second, number) = begin.split_once('-').unwrap_or((begin, "1"));
    let (day, time) = second.strip_suffix('Z')?.split_once('T')?;
    let is_one = is_number(day, 8..=8) && is_number(time, 6..=6) && is_number(number, 1..=9);
    is_one.then_some((second, number.parse().ok()?))
}

/// Returns the time so many seconds after 1970 as a file's name has it: `20261130T041500Z`.
fn second_of(seconds: i64) -> String {
    let (days, rest) = (seconds.div_euclid(86_400), seconds.rem_euclid(86_400));
    // the civil date of a day, by eras of 400 years from 1 March
    let (era, day) = ((days + 719_468).div_euclid(146_097), (days + 719_468).rem_euclid(146_097));
    let year = (day - day / 1460 + day / 36_524 - day / 146_096) / 365;
    let day = day - (365 * year + year / 4 - year / 100);
    let month = (5 * day + 2) / 153;
    let (day, month) = (day - (153 * month + 2) / 5 + 1, if month < 10 { month + 3 } else { month - 9 });
    let year = year + era * 400 + i64::from(month <= 2);
    format!("{year:04}{month:02}{day:02}T{:02}{:02}{:02}Z", rest / 3600, rest / 60 % 60, rest % 60)
}

/// Returns how many lines without comments these are.
fn lines_in(octets: &[u8]) -> usize {
    let is_line = |line: &&[u8]| !line.is_empty() && !line.starts_with(b"#");
    octets.split(|octet| *octet == b'\n').filter(is_line).count()
}

impl Files {
    fn open(folder: &str, most: u64, keep: u64) -> IoResult<Files> {
        fs::create_dir_all(folder)?;
        let mut files = Files {
            folder: folder.into(),
            most: most * MEGABYTE,
            keep: keep * MEGABYTE,
            present: None,
            others: VecDeque::new(),
            head: None,
            waiting: Vec::new(),
            is_failing: false,
            lost: 0,
            is_asked: true,
            next_try: Instant::now(),
        };
        files.list()?;
        Ok(files)
    }

    fn list(&mut self) -> IoResult<()> {
        let name = |entry: fs::DirEntry| (entry.file_name().to_string_lossy().into_owned(), entry.metadata());
        let found = fs::read_dir(&self.folder)?.filter_map(|entry| entry.ok().map(name));
        let sized =
            found.filter_map(|(name, found)| sequence_of(&name).and(found.ok()).map(|one| (name, one.len())));
        let mut others: Vec<_> = sized.collect();
        others.sort_by(|one, other| sequence_of(&one.0).cmp(&sequence_of(&other.0)));
        self.others = others.into();
        Ok(())
    }

    /// Adds a line that lldpa-live has sent.
    fn add(&mut self, line: &[u8]) {
        if let Some(lost) = line.strip_prefix(LOST) {
            let lost = printable(lost);
            let what =
                format!("this program or its disk was too slow: {lost} lines are lost, a new file begins");
            return complain(NAME, &what);
        }
        if line.starts_with(BEGIN) {
            self.write();
            self.begin();
        }
        match &self.present {
            Some(_) => self.waiting.extend([line, b"\n"].concat()),
            None => self.lost += usize::from(self.is_failing && !line.starts_with(b"#")),
        }
    }

    fn begin(&mut self) {
        self.is_asked = false;
        self.head = None;
        self.others.extend(self.present.take().map(|last| (last.name, last.size)));
        match self.made() {
            Ok(present) => self.present = Some(present),
            Err(fault) => self.fail(&fault, 0),
        }
    }

    /// Creates a file named after the UTC time, with a number if that second already has a file.
    fn made(&mut self) -> IoResult<Present> {
        fs::create_dir_all(&self.folder)?;
        let second = second_of(crate::client::now());
        for number in 1..MOST_OF_A_SECOND {
            let number = if number > 1 { format!("-{number}") } else { String::new() };
            let name = format!("{second}{number}.trace");
            let mut options = OpenOptions::new();
            match options.append(true).create_new(true).mode(0o640).open(self.folder.join(&name)) {
                Err(fault) if fault.kind() == ErrorKind::AlreadyExists => (),
                made => return Ok(Present { file: made?, name, size: 0 }),
            }
        }
        Err(Error::new(ErrorKind::AlreadyExists, "too many files began in this second"))
    }

    /// Reports a fault by which so many lines are lost, but not the same one again. Until another file begins,
    /// further ones are lost.
    fn fail(&mut self, fault: &Error, lines: usize) {
        let folder = self.folder.to_string_lossy();
        let what = format!("{folder}: nothing is recorded for a while: {}", text_of(fault));
        if !std::mem::replace(&mut self.is_failing, true) {
            complain(NAME, &what);
        }
        self.lost += lines;
        if let Some(last) = self.present.take() {
            match last.size {
                0 => drop(fs::remove_file(self.folder.join(&last.name))), // nothing could be written to it
                size => self.others.push_back((last.name, size)),
            }
        }
        self.next_try = Instant::now() + BETWEEN_TRIES;
    }

    /// Writes all lines that wait, or none of them.
    fn write(&mut self) {
        let octets = std::mem::take(&mut self.waiting);
        if octets.is_empty() {
            return;
        }
        let written = self.make_room(octets.len() as u64).and_then(|()| match &mut self.present {
            Some(present) => present.write(&octets),
            None => Ok(()),
        });
        match written {
            Err(fault) => self.fail(&fault, lines_in(&octets)),
            Ok(()) if self.is_failing && self.present.is_some() => {
                self.is_failing = false;
                let lost = counted(std::mem::take(&mut self.lost) as u128, "line");
                complain(NAME, &format!("a new file has begun; {lost} lost meanwhile"));
            }
            Ok(()) => (),
        }
        self.waiting = octets;
        self.waiting.clear();
    }

    /// Removes the oldest files, but never the present one, until there is room for so many octets.
    fn make_room(&mut self, octets: u64) -> IoResult<()> {
        let present = self.present.as_ref().map_or(0, |present| present.size);
        let mut all = present + octets + self.others.iter().map(|one| one.1).sum::<u64>();
        while all > self.keep {
            let no_room = || Error::new(ErrorKind::Other, "--keep is reached, and there is no older file");
            let (oldest, size) = self.others.pop_front().ok_or_else(no_room)?;
            all -= size;
            match fs::remove_file(self.folder.join(oldest)) {
                Err(fault) if fault.kind() != ErrorKind::NotFound => return Err(fault),
                _ => (),
            }
        }
        Ok(())
    }

    /// True if a new file should be asked for: this one is large, or there is none after a fault.
    fn wants_beginning(&mut self) -> bool {
        let is_wanted = match &self.present {
            Some(present) => {
                let head = *self.head.get_or_insert(present.size);
                present.size >= self.most.max(head + self.most / 2)
            }
            None => Instant::now() >= self.next_try,
        };
        is_wanted && !std::mem::replace(&mut self.is_asked, is_wanted)
    }
}

impl Present {
    fn write(&mut self, octets: &[u8]) -> IoResult<()> {
        let found = self.file.metadata()?;
        if found.nlink() == 0 || found.len() != self.size {
            return Err(Error::new(ErrorKind::Other, "the file was removed or changed"));
        }
        self.file.write_all(octets).map_err(|fault| {
            let _ = self.file.set_len(self.size);
            fault
        })?;
        self.size += octets.len() as u64;
        Ok(())
    }
}

impl Client<'_> {
    /// Records without end. Waits for lldpa-live while it does not answer, or refuses.
    pub fn record(&self, folder: &str, most: u64, keep: u64) -> Done<()> {
        let refused = |fault: Error| Failure::Refused(format!("{folder}: {}", text_of(&fault)));
        let mut files = Files::open(folder, most, keep).map_err(refused)?;
        let mut last = String::new();
        loop {
            let failure = match self.record_one(&mut files, &mut last) {
                Err(Failure::System(fault)) if fault.kind() == ErrorKind::PermissionDenied => {
                    return Err(fault.into());
                }
                Err(failure) => failure.message(self.path()),
                Ok(()) => String::new(),
            };
            if failure != last {
                complain(NAME, &format!("{failure}; this program waits"));
            }
            last = failure;
            std::thread::sleep(BETWEEN_CONNECTIONS);
        }
    }

    /// Records until the connection ends.
    fn record_one(&self, files: &mut Files, last: &mut String) -> Done<()> {
        let mut connection = self.connect(crate::client::PATIENCE)?;
        connection.send_line("record")?;
        files.is_asked = true;
        loop {
            let patience = if files.present.is_none() { Some(BETWEEN_LOOKS) } else { None };
            if connection.has_octets() || self.host.can_read(connection.stream(), patience) {
                let ended = self.take(&mut connection, files);
                let at_once = Some(Duration::ZERO);
                if ended.is_err()
                    || !connection.has_octets() && !self.host.can_read(connection.stream(), at_once)
                {
                    files.write(); // a slow disk costs a write now and then
                }
                ended?;
                last.clear();
            }
            if files.wants_beginning() {
                connection.send_line("record")?;
            }
        }
    }

    /// Takes one message of lldpa-live.
    fn take(&self, connection: &mut Connection, files: &mut Files) -> Done<()> {
        connection.renew();
        for _ in 0..connection.count()? {
            let line = connection.octets()?;
            if let Some(text) = line.strip_prefix(b"error: ") {
                return Err(Failure::Refused(printable(text)));
            }
            files.add(&line);
            if files.waiting.len() >= PIECE {
                files.write();
                connection.renew();
            }
        }
        Ok(())
    }
}

#[cfg(test)]
mod tests {
    use super::*;

    #[test]
    fn seconds_have_their_date() {
        for (seconds, wanted) in [
            (0, "19700101T000000Z"),
            (951_782_399, "20000228T235959Z"),
            (951_782_400, "20000229T000000Z"),
            (1_796_020_508, "20261130T063508Z"),
            (4_107_542_400, "21000301T000000Z"),
        ] {
            assert_eq!(second_of(seconds), wanted);
        }
    }

    #[test]
    fn only_names_of_records_are_those_of_records() {
        for (name, wanted) in [
            ("20261123T021500Z.trace", Some(("20261123T021500Z", 1))),
            ("20261123T021500Z-999999999.trace", Some(("20261123T021500Z", 999_999_999))),
            ("20261123T021500Z-x.trace", None),
            ("20261123T0215000Z.trace", None),
            ("2026112T021500Z.trace", None),
            ("20261123T021500.trace", None),
            ("20261123T021500Z.txt", None),
        ] {
            assert_eq!(sequence_of(name), wanted, "{name}");
        }
    }

    #[test]
    fn files_are_written_and_kept_within_their_limit() {
        let folder = std::env::temp_dir().join(format!("lldpa-people-record-{}", std::process::id()));
        let mut files = Files::open(&folder.to_string_lossy(), 1, 1).expect("a folder");
        let logs = |files: &Files| fs::read_dir(&files.folder).expect("a folder").count();
        let fill = |files: &mut Files, count: usize| {
            (0..count).for_each(|_| files.add(&[b'x'; 999]));
            files.write();
        };
        files.add(b"tick");
        files.write();
        assert_eq!((logs(&files), files.wants_beginning()), (0, false), "the first file was asked for");
        files.add(b"# lldpa -- eth0");
        files.add(b"tick");
        files.write();
        let name = files.present.as_ref().expect("a file").name.clone();
        assert_eq!(fs::read_to_string(folder.join(&name)).expect("a file"), "# lldpa -- eth0\ntick\n");
        assert!(!files.wants_beginning());
        fill(&mut files, 990);
        assert!(!files.wants_beginning());
        fill(&mut files, 20); // without room, since there is no older file
        assert!(files.present.is_none() && !files.wants_beginning(), "only after some seconds");
        files.next_try = Instant::now();
        assert!(files.wants_beginning() && !files.wants_beginning(), "it asks once");
        assert_eq!(files.lost, 20, "those that found no room");
        files.add(b"# lldpa -- eth0");
        fill(&mut files, 20);
        assert_eq!(logs(&files), 1, "the first file was removed");
        assert!(files.present.is_some() && files.lost == 0);
        fs::remove_dir_all(&folder).expect("a folder");
        files.add(b"tick");
        files.write();
        assert!(files.present.is_none(), "the file is gone");
        files.next_try = Instant::now();
        assert!(files.wants_beginning());
        files.add(b"# lldpa -- eth0");
        files.write();
        assert_eq!(logs(&files), 1, "the folder is made again");
        fs::remove_dir_all(&folder).expect("a folder");
    }
}
