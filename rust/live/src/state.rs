//! The state: a file with the neighbor tables, which one lldpa-live leaves to the next. It has the frames and
//! seconds that rebuild the tables, when each neighbor came, and each port's counters. lldpa-live writes it each minute and at the end, to
//! two files in turn that are open from the start.
//!
//! The first line says when it was written, by the wall clock and since the boot; the last one is `# end`. Between
//! them `tick N` stands for seconds, and `rx PORT LENGTH`, a line feed, and that many octets for a frame, with when
//! its neighbor came after the length of its first one. `count PORT KEY N` stands for a counter.

use crate::counters::{Numbers, Totals};
use crate::identifiers;
use crate::lines::Line;
use crate::notify::Manager;
use crate::packet::LONGEST_FRAME;
use crate::reports::warn;
use crate::rights::{own_user, text_of, User};
use crate::sys::files;
use crate::time::{Moment, WallTime};
use libc::{O_NOFOLLOW, O_NONBLOCK};
use lldpa::Examined;
use lldpa_people::texts::printable;
use std::collections::HashMap;
use std::fmt;
use std::fs::{File, OpenOptions};
use std::io::{BufWriter, Error, ErrorKind, Read, Seek, Write};
use std::os::unix::fs::{FileExt, MetadataExt, OpenOptionsExt};
use std::os::unix::io::AsFd;
use std::time::Duration;

const FRONT: &str = "# lldpa-live state 2 ";
const END: &[u8] = b"# end\n";
const MOST_SHOWN: usize = 100; // characters of a malformed line
/// By how much the clocks may differ if neither was set.
const MOST_APART: Duration = Duration::from_secs(5);
const MOST_LINES: usize = 64 * 128 * 3; // for each neighbor two frames and one `tick`
const MOST_COUNTERS: usize = 64 * 64;
/// For each neighbor a whole frame, one with the longest identifiers, and their lines.
const MOST_OCTETS: u64 = 64 * 128 * 2200;
const LONGEST_LINE: usize = 100;
/// The seconds of all lines together: the longest time to live.
const MOST_SECONDS: u32 = 65535;
const PIECE: usize = 1 << 16; // octets that are written at once

/// What an earlier lldpa-live has saved.
#[derive(Debug, Default)]
pub struct Saved {
    /// Lines that rebuild the tables.
    pub lines: Vec<Line>,
    /// When each neighbor came, keyed by its port and MSAP identifier.
    pub arrivals: HashMap<Name, WallTime>,
    /// The counters of each port.
    pub counters: HashMap<String, Numbers>,
    count: usize,
    /// How many seconds pass in the lines.
    passed: u32,
    /// How many seconds have passed since the state was saved.
    pub age: u32,
}

/// Why a state is not used.
#[derive(Debug)]
pub enum StateFault {
    Unreadable(Error),
    NotPrivate,
    Incomplete,
    OnADisk,
    OfAnotherBoot,
    TooManyLines,
    Malformed(String),
    NeighborsDiffer,
    TooOld,
}

impl fmt::Display for StateFault {
    fn fmt(&self, out: &mut fmt::Formatter<'_>) -> fmt::Result {
        out.write_str(match self {
            StateFault::Unreadable(fault) => return out.write_str(&text_of(fault)),
            StateFault::NotPrivate => {
                "it must be a regular file of lldpa-live's user, with mode 0600 and one hard link"
            }
            StateFault::OnADisk => "it must be in memory (tmpfs), such as below /run: a disk may hang",
            StateFault::Incomplete => "it is incomplete or damaged",
            StateFault::OfAnotherBoot => "this host was rebooted since the state was written",
            StateFault::TooManyLines => "it has too many lines",
            StateFault::Malformed(line) => return write!(out, "it has a malformed line: {line}"),
            StateFault::NeighborsDiffer => "it does not say when each neighbor came",
            StateFault::TooOld => "no neighbor in it can still be present",
        })
    }
}

impl From<Error> for StateFault {
    fn from(fault: Error) -> StateFault {
        StateFault::Unreadable(fault)
    }
}

/// The two files of the state, of which the older one is written next: if lldpa-live is killed meanwhile, the
/// other one is whole. They are open from the start, and are in memory, so that no write waits.
pub struct Slots {
    files: [File; 2],
    next: usize,
    /// What standard input has if the manager has kept nothing.
    former: Vec<u8>,
    /// Why the state could not be written last time, or empty.
    fault: String,
}

const NAME: &str = "state"; // of the files that the service manager keeps

impl Slots {
    /// Takes the files that the service manager has kept, or lets it keep new ones.
    pub fn kept(manager: &Manager) -> std::io::Result<Slots> {
        if let Ok(mut files) = <[File; 2]>::try_from(files::kept(NAME)) {
            files.iter_mut().try_for_each(|file| file.rewind())?; // its place is that of the last lldpa-live
            return Ok(Slots::of(files));
        }
        let files = [files::in_memory()?, files::in_memory()?];
        manager.keep(NAME, &files)?;
        Ok(Slots { former: former().unwrap_or_default(), ..Slots::of(files) })
    }

    fn of(files: [File; 2]) -> Slots {
        Slots { files, next: 0, former: Vec::new(), fault: String::new() }
    }

    /// Opens the files beside a path. They must be private to `user` or to this process's user.
    pub fn open(path: &str, user: Option<User>) -> Result<Slots, StateFault> {
        let file = |end: &str| opened(&format!("{path}{end}"), user);
        Ok(Slots::of([file(".0")?, file(".1")?]))
    }

    /// Reads the later one of the two states that is whole.
    pub fn read(&mut self) -> Result<Saved, StateFault> {
        let read = |file: &mut File| {
            let mut octets = Vec::new();
            file.take(MOST_OCTETS + 1).read_to_end(&mut octets).map(|_| octets)
        };
        let [first, second] = &mut self.files;
        let (mut first, second) = (read(first)?, read(second)?);
        first.append(&mut self.former);
        let time =
            |octets: &[u8]| parts_of(octets).and_then(|parts| Times::read(parts.0)).map(|times| times.moment);
        let is_second = time(&second) > time(&first);
        self.next = usize::from(!is_second);
        saved_in(if is_second { &second } else { &first }, &Times::now())
    }

    /// Writes the state. Reports a fault, unless the last one was the same.
    pub fn write(&mut self, state: State) -> bool {
        let file = &self.files[self.next];
        let written = file
            .set_len(0)
            .and_then(|()| state.put(&mut BufWriter::with_capacity(PIECE, Slot { file, at: 0 })));
        let fault = written.map_err(|fault| text_of(&fault)).err().unwrap_or_default();
        if fault.is_empty() {
            self.next = 1 - self.next;
        } else if fault != self.fault {
            warn(&format!("the state was not written: {fault}"));
        }
        let _ = self.files[self.next].set_len(0); // the older one, or a part, need not take memory any more
        self.fault = fault;
        self.fault.is_empty()
    }
}

/// Returns the octets of standard input if that is a file in memory: there an upgrade puts the state of a version that
/// wrote it to a disk.
fn former() -> std::io::Result<Vec<u8>> {
    let input = File::from(std::io::stdin().as_fd().try_clone_to_owned()?);
    let mut octets = Vec::new();
    if input.metadata()?.is_file() && files::is_in_memory(&input) {
        input.take(MOST_OCTETS + 1).read_to_end(&mut octets)?;
    }
    Ok(octets)
}

/// A file, and where to write.
struct Slot<'a> {
    file: &'a File,
    at: u64,
}

impl Write for Slot<'_> {
    fn write(&mut self, octets: &[u8]) -> std::io::Result<usize> {
        let length = self.file.write_at(octets, self.at)?;
        self.at += length as u64;
        if self.at > MOST_OCTETS {
            return Err(Error::new(ErrorKind::Other, "it is too large"));
        }
        Ok(length)
    }

    fn flush(&mut self) -> std::io::Result<()> {
        Ok(())
    }
}

/// Opens a file of the state, and makes it if it is missing.
fn opened(path: &str, user: Option<User>) -> Result<File, StateFault> {
    let mut options = OpenOptions::new();
    let options =
        options.read(true).write(true).create(true).mode(0o600).custom_flags(O_NOFOLLOW | O_NONBLOCK);
    let file = options.open(path)?;
    let found = file.metadata()?;
    let is_ours = found.uid() == own_user() || user.map_or(false, |user| found.uid() == user.user);
    if !(found.is_file() && found.nlink() == 1 && is_ours && found.mode() & 0o077 == 0) {
        return Err(StateFault::NotPrivate);
    }
    if let Some(User { user, .. }) = user {
        files::give_open(&file, user)?; // for an lldpa-live that this user starts
    }
    if !files::is_in_memory(&file) {
        return Err(StateFault::OnADisk);
    }
    Ok(file)
}

/// Reads the octets of a state, at these times.
pub fn saved_in(octets: &[u8], now: &Times) -> Result<Saved, StateFault> {
    if octets.is_empty() {
        return Ok(Saved::default());
    }
    let (times, mut rest) = parts_of(octets).ok_or(StateFault::Incomplete)?;
    let then = Times::read(times).ok_or(StateFault::Incomplete)?;
    let age = now.moment.since(then.moment);
    let was_set = now.wall.apart(then.wall + age) > MOST_APART;
    if now.moment < then.moment {
        return Err(StateFault::OfAnotherBoot);
    }
    let mut saved = Saved { age: u32::try_from(age.as_secs()).unwrap_or(u32::MAX), ..Saved::default() };
    let mut ttls = HashMap::new();
    while !rest.is_empty() {
        if saved.lines.len() >= MOST_LINES || saved.count >= MOST_COUNTERS {
            return Err(StateFault::TooManyLines);
        }
        let malformed = || StateFault::Malformed(printable(&rest[..rest.len().min(MOST_SHOWN)]));
        let (line, further) = StateLine::read(rest).ok_or_else(malformed)?;
        saved.add(line, &mut ttls);
        if saved.passed > MOST_SECONDS {
            return Err(malformed());
        }
        rest = further;
    }
    if ttls.len() != saved.arrivals.len() || !saved.arrivals.keys().all(|name| ttls.contains_key(name)) {
        return Err(StateFault::NeighborsDiffer);
    }
    if saved.age > ttls.values().copied().max().unwrap_or(u32::MAX) {
        return Err(StateFault::TooOld);
    }
    if was_set {
        saved.arrivals.values_mut().for_each(|came| *came = came.after_setting(then.wall + age, now.wall));
    }
    Ok(saved)
}

/// Returns the text of a line, and what follows it. None if there is no line, or a longer one.
fn line_of(octets: &[u8]) -> Option<(&str, &[u8])> {
    let end = octets.iter().take(LONGEST_LINE).position(|octet| *octet == b'\n')?;
    Some((std::str::from_utf8(&octets[..end]).ok()?, &octets[end + 1..]))
}

/// Returns the times in a state's first line, and what stands between it and the last.
fn parts_of(octets: &[u8]) -> Option<(&str, &[u8])> {
    let (first, rest) = line_of(octets)?;
    Some((first.strip_prefix(FRONT)?, rest.strip_suffix(END)?))
}

/// The time of two clocks. The one that counts from the boot cannot be set.
pub struct Times {
    wall: WallTime,
    moment: Moment,
}

impl Times {
    fn now() -> Times {
        Times { wall: WallTime::now(), moment: Moment::now() }
    }

    /// Reads the times of a state.
    pub fn read(text: &str) -> Option<Times> {
        let (wall, moment) = text.split_once(' ')?;
        let (wall, moment) = (seconds_of(wall)?, seconds_of(moment)?);
        Some(Times { wall: WallTime::after_1970(wall), moment: Moment::after_boot(moment) })
    }
}

/// The name of a neighbor: its port and its MSAP identifier.
type Name = (String, String);

/// What a line of a state says.
enum StateLine {
    Ticks(u32),
    /// A frame of a neighbor, with its time to live, and when the neighbor came.
    Frame(Name, u32, Vec<u8>, Option<WallTime>),
    /// A counter of a port.
    Count(String, (String, u32)),
}

impl StateLine {
    /// Reads a line, and returns what follows it. None if it is malformed.
    fn read(octets: &[u8]) -> Option<(StateLine, &[u8])> {
        let (line, rest) = line_of(octets)?;
        let words: Vec<&str> = line.split(' ').collect();
        match words[..] {
            ["tick"] => Some((StateLine::Ticks(1), rest)),
            ["tick", count] if count.len() <= 5 => Some((StateLine::Ticks(count.parse().ok()?), rest)),
            ["count", port, key, number] => {
                Some((StateLine::Count(port.into(), (key.into(), number.parse().ok()?)), rest))
            }
            ["rx", port, length, ref came @ ..] if length.len() <= 4 && came.len() <= 1 => {
                let length = length.parse().ok().filter(|length| *length <= LONGEST_FRAME)?;
                let frame = rest.get(..length)?;
                let came = came.first().map(|came| seconds_of(came).map(WallTime::after_1970));
                let came = came.map_or(Some(None), |came| came.map(Some))?;
                Some((StateLine::of_frame(port, frame, came)?, &rest[length..]))
            }
            _ => None,
        }
    }

    fn of_frame(port: &str, frame: &[u8], came: Option<WallTime>) -> Option<StateLine> {
        match lldpa::examine(lldpa::frame_pdu(frame)?) {
            Ok(Examined::Info(info)) => {
                let name = (port.into(), identifiers::id(&info.msap()));
                Some(StateLine::Frame(name, info.ttl().into(), frame.to_vec(), came))
            }
            _ => None,
        }
    }
}

impl Saved {
    /// Adds what a line says. Notes the time to live of a frame's neighbor.
    fn add(&mut self, line: StateLine, ttls: &mut HashMap<Name, u32>) {
        match line {
            StateLine::Ticks(seconds) => {
                self.passed = self.passed.saturating_add(seconds);
                self.lines.push(Line::Ticks(seconds));
            }
            StateLine::Count(port, one) => {
                self.count += 1;
                self.counters.entry(port).or_default().push(one);
            }
            StateLine::Frame(name, ttl, frame, came) => {
                self.lines.push(Line::Frame(name.0.clone(), frame));
                came.map(|came| self.arrivals.insert(name.clone(), came));
                ttls.insert(name, ttl);
            }
        }
    }
}

/// Reads seconds with three decimals.
fn seconds_of(text: &str) -> Option<Duration> {
    let (seconds, part) =
        text.split_once('.').filter(|(seconds, part)| seconds.len() <= 12 && part.len() == 3)?;
    let digits = seconds.to_string() + part;
    let is_number = digits.bytes().all(|octet| octet.is_ascii_digit());
    is_number.then(|| digits.parse().ok().map(Duration::from_millis))?
}

/// When each neighbor came, keyed by its port and the octets of its MSAP identifier.
pub type Arrivals = HashMap<(String, Vec<u8>, Vec<u8>), WallTime>;

/// What a state says: when each neighbor came, and the lines that rebuild the tables.
pub struct State {
    times: Times,
    arrivals: Arrivals,
    counters: Vec<Totals>,
    lines: Vec<Line>,
}

/// Writes seconds with three decimals.
fn seconds(duration: Duration) -> String {
    format!("{}.{:03}", duration.as_secs(), duration.subsec_millis())
}

impl State {
    pub fn new(arrivals: Arrivals, counters: Vec<Totals>, lines: Vec<Line>) -> State {
        State { times: Times::now(), arrivals, counters, lines }
    }

    fn put(mut self, out: &mut impl Write) -> std::io::Result<()> {
        let times = &self.times;
        writeln!(out, "{FRONT}{} {}", seconds(times.wall.since_1970()), seconds(times.moment.since_boot()))?;
        for Totals { port, numbers } in &self.counters {
            numbers.iter().try_for_each(|(key, number)| writeln!(out, "count {port} {key} {number}"))?;
        }
        for line in &self.lines {
            match line {
                Line::Frame(port, frame) => {
                    write!(out, "rx {port} {}", frame.len())?;
                    if let Some(came) = taken(&mut self.arrivals, port, frame) {
                        write!(out, " {}", seconds(came.since_1970()))?;
                    }
                    out.write_all(b"\n")?;
                    out.write_all(frame)?;
                }
                line => writeln!(out, "{line}")?,
            }
        }
        out.write_all(END)?;
        out.flush()
    }
}

/// Takes out when the neighbor came that has sent a frame. None if it was taken before.
fn taken(arrivals: &mut Arrivals, port: &str, frame: &[u8]) -> Option<WallTime> {
    if arrivals.is_empty() {
        return None; // the short frames come first: no other one is examined
    }
    match lldpa::examine(lldpa::frame_pdu(frame)?) {
        Ok(Examined::Info(info)) => {
            let msap = info.msap();
            arrivals.remove(&(port.to_string(), msap.chassis.to_vec(), msap.port.to_vec()))
        }
        _ => None,
    }
}

#[cfg(test)]
mod tests {
    use super::*;

    #[test]
    fn only_a_private_file_is_opened() {
        use std::fs::{self, Permissions};
        use std::os::unix::fs::{symlink, PermissionsExt};
        let folder =
            std::path::Path::new("/dev/shm").join(format!("lldpa-live-state-{}", std::process::id()));
        fs::create_dir_all(&folder).expect("a folder");
        let path = |name: &str| folder.join(name).to_string_lossy().into_owned();
        let is_able = |name: &str| opened(&path(name), None).is_ok();
        assert!(is_able("missing") && is_able("missing"), "it was made");
        for (mode, wanted) in [(0o600, true), (0o640, false), (0o602, false)] {
            fs::write(path("state"), "").expect("room");
            fs::set_permissions(path("state"), Permissions::from_mode(mode)).expect("a file");
            assert_eq!(is_able("state"), wanted, "{mode:o}");
            fs::remove_file(path("state")).expect("a file");
        }
        assert!(is_able("state"));
        symlink(path("state"), path("link")).expect("room");
        assert!(!is_able("link") && is_able("state"));
        fs::hard_link(path("state"), path("second")).expect("room");
        assert!(!is_able("state"), "it has another name");
        fs::create_dir(path("folder")).expect("room");
        assert!(!is_able("folder"));
        fs::remove_dir_all(&folder).expect("a folder");
        let on_disk = std::env::current_dir().expect("a folder").join("lldpa-live-state");
        let found = opened(&on_disk.to_string_lossy(), None);
        let _ = fs::remove_file(on_disk);
        assert!(matches!(found, Err(StateFault::OnADisk)), "{found:?}");
    }

    #[test]
    fn the_later_whole_state_is_read() {
        let new = || files::in_memory().expect("a file");
        let mut slots = Slots::of([new(), new()]);
        let at = |seconds, ticks| State {
            times: Times { wall: WallTime::now(), moment: Moment::after_boot(Duration::from_secs(seconds)) },
            arrivals: Arrivals::new(),
            counters: Vec::new(),
            lines: vec![Line::Ticks(ticks)],
        };
        assert_eq!(slots.read().expect("no state").lines.len(), 0);
        let found = |slots: &mut Slots| {
            slots.files.iter_mut().for_each(|file| file.rewind().expect("a file"));
            (slots.read().is_ok(), slots.next)
        };
        assert!(slots.write(at(1, 9)) && slots.write(at(2, 9)) && slots.write(at(3, 9)));
        assert_eq!(found(&mut slots), (true, 0));
        assert!(slots.write(at(4, 9)));
        assert_eq!(found(&mut slots), (true, 1));
        slots.files[1].write_at(b"# lldpa-live", 0).expect("a file"); // as if it was killed while it wrote
        assert_eq!(found(&mut slots), (true, 1), "the other one is whole");
        slots.files[0].set_len(9).expect("a file");
        slots.files.iter_mut().for_each(|file| file.rewind().expect("a file"));
        assert!(matches!(slots.read(), Err(StateFault::Incomplete)));
    }

    const PDU: [u8; 20] = [2, 7, 4, 2, 0, 0, 0, 0, 1, 4, 3, 5, b'p', b' ', 6, 2, 0, 120, 0, 0];

    fn frame() -> Vec<u8> {
        [&b"\x01\x80\xc2\0\0\x0e\x02\0\0\0\0\x01\x88\xcc"[..], &PDU].concat()
    }

    /// A line of the neighbor's frame, with when it came.
    fn heard(ttl: u8, came: &str) -> Vec<u8> {
        let (mut frame, port) = (frame(), "eth0");
        frame[31] = ttl;
        [format!("rx {port} {}{came}\n", frame.len()).as_bytes(), &frame].concat()
    }

    const CAME: &str = " 99.000";

    #[test]
    fn what_was_saved_is_read() {
        let came = WallTime::after_1970(Duration::from_millis(1_234_567));
        let name = ("eth0".to_string(), PDU[2..9].to_vec(), PDU[11..14].to_vec());
        let heard = Line::Frame("eth0".into(), frame());
        let numbers = vec![("received".to_string(), 7), ("drops".to_string(), u32::MAX)];
        let counters = Totals { port: "eth0".into(), numbers: numbers.clone() };
        let lines = vec![Line::Ticks(2), heard.clone(), Line::Ticks(1), heard];
        let state = State::new(Arrivals::from([(name, came)]), vec![counters], lines.clone());
        let mut octets = Vec::new();
        let later = Duration::from_secs(3);
        let now = Times { wall: state.times.wall + later, moment: state.times.moment + later };
        state.put(&mut octets).expect("room");
        let saved = saved_in(&octets, &now).expect("a state");
        assert_eq!((saved.lines, saved.age, saved.passed), (lines, 3, 3));
        assert_eq!(saved.counters, HashMap::from([("eth0".to_string(), numbers)]));
        let name = ("eth0".to_string(), "mac=02:00:00:00:00:01 ifname=p\\x20".to_string());
        assert_eq!(saved.arrivals.get(&name), Some(&came));
        for length in 0..octets.len() {
            assert!(length == 0 || saved_in(&octets[..length], &now).is_err(), "{length}: it is not whole");
        }
    }

    #[test]
    fn a_state_has_a_limit() {
        let mut slots = Slots::of([files::in_memory(), files::in_memory()].map(|file| file.expect("a file")));
        let frame = vec![0; LONGEST_FRAME];
        let lines = |count| vec![Line::Frame("eth0".into(), frame.clone()); count];
        assert!(slots.write(State::new(Arrivals::new(), Vec::new(), lines(8192))));
        let written =
            |slots: &Slots| slots.files.iter().map(|file| file.metadata().expect("a file").len()).max();
        assert!(written(&slots) < Some(MOST_OCTETS));
        assert!(!slots.write(State::new(Arrivals::new(), Vec::new(), lines(3 * 8192))) && slots.next == 1);
        assert!(written(&slots) < Some(MOST_OCTETS), "the one before it is whole");
    }

    /// Reads a state that was saved 110 s after 1970 and 50 s after the boot, 10 s before.
    fn read(octets: &[u8]) -> Result<Saved, String> {
        let now = Times::read("120.000 60.000").expect("times");
        saved_in(octets, &now).map_err(|fault| fault.to_string())
    }

    fn state(first: &str, lines: &[u8], end: &str) -> Vec<u8> {
        [first.as_bytes(), b"\n", lines, end.as_bytes()].concat()
    }

    #[test]
    fn within_one_boot_the_wall_clock_may_be_set() {
        // the times of the state, and, if it is used, when its neighbor came by the present clock
        for (times, came) in [
            ("110.000 50.000", Some(99)),
            ("5000.000 50.000", Some(99 - 4890)),
            ("11.000 50.000", Some(99 + 99)),
            ("110.000 60.001", None),
        ] {
            let found = read(&state(&format!("{FRONT}{times}"), &heard(120, CAME), "# end\n"));
            let begin = WallTime::after_1970(Duration::ZERO);
            let second = |one: &WallTime| match one.apart(begin).as_secs() as i64 {
                seconds if *one < begin => -seconds,
                seconds => seconds,
            };
            let found = found.ok().and_then(|saved| saved.arrivals.values().next().map(second));
            assert_eq!(found, came, "{times}");
        }
    }

    #[test]
    fn first_and_last_lines_are_checked() {
        let incomplete = "it is incomplete or damaged";
        let other_boot = "this host was rebooted since the state was written";
        for (first, wanted) in [
            ("# lldpa-live state 2 110.000 50.000", None),
            ("# lldpa-live state 2 105.000 50.000", None), // the clocks may differ by 5 seconds
            ("# lldpa-live state 2 115.000 50.000", None),
            ("# lldpa-live state 2 120.000 60.000", None),
            ("# lldpa-live state 2 120.001 60.001", Some(other_boot)),
            ("# lldpa-live state 1 110.000 50.000", Some(incomplete)),
            ("# lldpa-live state 2 110.00 50.000", Some(incomplete)),
            ("# lldpa-live state 2 110.000", Some(incomplete)),
            ("# lldpa-live state 2 +10.000 50.000", Some(incomplete)),
            ("# lldpa-live state 2 0000000000110.000 50.000", Some(incomplete)),
            ("# lldpa-live state 2 110.000 50.000 0011", Some(incomplete)),
            ("", Some(incomplete)),
        ] {
            let found = read(&state(first, &heard(120, CAME), "# end\n"));
            assert_eq!(found.err().as_deref(), wanted, "{first}");
            for end in ["", "# end", "# end\n\n", "# end\n# end"] {
                let found = read(&state(first, &heard(120, CAME), end));
                assert_eq!(found.err().as_deref(), Some(incomplete), "{first} {end:?}");
            }
        }
        assert!(read(b"").expect("an empty state").lines.is_empty());
    }

    #[test]
    fn lines_are_those_of_a_state() {
        let and = |line: &str| [&heard(120, CAME), line.as_bytes()].concat();
        let malformed = |line: &str| Some(format!("it has a malformed line: {}", printable(line.as_bytes())));
        let unknown = Some("it does not say when each neighbor came".to_string());
        let too_old = Some("no neighbor in it can still be present".to_string());
        let long = "x".repeat(101);
        for (lines, wanted) in [
            (and(""), None),
            (and("tick\n"), None),
            (and("tick 65535\n"), None),
            (and("tick 65535\ntick\n"), malformed("tick\n")),
            (and("tick 65536\n"), malformed("tick 65536\n")),
            (and("tick 000001\n"), malformed("tick 000001\n")),
            (and("tick x\n"), malformed("tick x\n")),
            (and("tick 1 2\n"), malformed("tick 1 2\n")),
            (and("configure lldp tx-hold 4\n"), malformed("configure lldp tx-hold 4\n")),
            (and("rx eth0 1\n0"), malformed("rx eth0 1\n0")),
            (and("rx eth0 2\n0"), malformed("rx eth0 2\n0")),
            (and("rx eth0 1515\n0"), malformed("rx eth0 1515\n0")),
            (and("rx eth0 x\n0"), malformed("rx eth0 x\n0")),
            (and(&format!("{long}\n")), malformed(&long[..100])),
            (heard(0, CAME), malformed(&String::from_utf8_lossy(b""))),
            (heard(120, " 99"), malformed("")),
            (heard(120, " 99.000 1"), malformed("")),
            (heard(120, ""), unknown),
            (Vec::new(), None),
            (and("count eth0 received 4294967295\n"), None),
            (and("count eth0 received 4294967296\n"), malformed("count eth0 received 4294967296\n")),
            (and("count eth0 received\n"), malformed("count eth0 received\n")),
            ("count eth0 a 1\n".repeat(MOST_COUNTERS + 1).into_bytes(), Some("it has too many lines".into())),
            (heard(10, CAME), None),
            (heard(9, CAME), too_old),
        ] {
            let found = read(&state("# lldpa-live state 2 110.000 50.000", &lines, "# end\n")).err();
            let is_so = match (&found, &wanted) {
                (Some(found), Some(wanted)) => found.starts_with(wanted),
                (found, wanted) => found == wanted,
            };
            assert!(is_so, "{}: {found:?} {wanted:?}", String::from_utf8_lossy(&lines));
        }
    }
}
