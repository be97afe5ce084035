//! The program lldpa-ctl: asks a running lldpa-live, and prints its answers.

use crate::answers::check_known;
use crate::arguments::{all_commands, completed, Given, DEFAULT_PATH};
use crate::columns::NOT_CUT;
use crate::connection::{replace, Answer, Connection};
use crate::counters::{counter_lines, Counters};
use crate::interfaces::{interfaces, Held};
use crate::live_lines::{is_read, LiveLines};
use crate::lldpd::{instead, same};
use crate::metrics::{service_of, up, Metrics, MOST_METRICS};
use crate::neighbors::{each_port, lines_of};
use crate::objects::news_object;
use crate::record::{KEEP, MOST};
use crate::refused::{explained, in_full};
use crate::settings::{self, Setting};
use crate::show::{check_ports, Show};
use crate::table::Table;
use crate::texts::printable;
use crate::watching::begin;
use std::io::{BufWriter, Error, ErrorKind, Write};
use std::os::unix::net::UnixStream;
use std::time::{Duration, SystemTime, UNIX_EPOCH};

pub const NAME: &str = "lldpa-ctl";
const USAGE: &str = "usage: lldpa-ctl [OPTION...] [COMMAND...]";
const HELP: &str = include_str!("help.txt");
const VERSION: &str = env!("CARGO_PKG_VERSION");
const SHOWS: [&str; 5] = ["neighbors", "statistics", "chassis", "configuration", "interfaces"];
pub const CONFIGURATION: &str = "show configuration";
const LIMIT: &str = "limit";
/// Where the service has its settings.
const CONFIG: [&str; 2] = ["/etc/lldpa.conf", "/etc/lldpa.d"];
const MOST_CHANGES: u32 = 999_999_999; // of a limit, as in lldpcli
pub const PATIENCE: Duration = Duration::from_secs(30);
const PATIENCE_FOR_METRICS: Duration = Duration::from_secs(10); // a timer asks again soon
const LONGEST_MESSAGE: usize = 4095; // so that it is written at once
/// The reasons for refusing a word. All others are about a whole line.
const OF_A_WORD: [&str; 6] =
    ["unknown command", "no such port", "not a number", "out of range", "bad text", "extra word"];

/// What the client needs of the system that `std` lacks.
pub trait Host {
    /// Connects to a socket, or fails if nobody accepts the connection in time.
    fn connect(&self, path: &str, patience: Duration) -> Result<UnixStream, Error>;
    /// Changes the user from root to `nobody` for good, if that is allowed.
    fn give_up_root(&self);
    /// Returns the width of the terminal. None if standard output is none.
    fn terminal_width(&self) -> Option<usize>;
    /// Returns the local time so many seconds after 1970, in a form like `2026-11-27T10:15:00+0100`.
    fn local_time(&self, seconds: i64) -> String;
    /// Returns whether standard output was closed when the program began.
    fn output_was_closed(&self) -> bool;
    /// Returns whether standard output is a terminal.
    fn is_terminal(&self) -> bool;
    /// Returns whether standard input is a terminal.
    fn input_is_terminal(&self) -> bool;
    /// Waits until a stream can be read or has ended. Returns false as soon as nobody reads standard
    /// output any more.
    fn wait(&self, stream: &UnixStream) -> Result<bool, Error>;
    /// Waits until a stream can be read or has ended, at most so long if given. Returns whether that is so.
    fn can_read(&self, stream: &UnixStream, patience: Option<Duration>) -> bool;
    /// Returns why an agent refuses a setting. The port that a setting names is the agent's, if it can be a port.
    fn why_refused(&self, setting: &Setting) -> Option<String>;
}

/// Why a command fails.
#[derive(Debug)]
pub enum Failure {
    /// The agent or this program refuses it, for this reason.
    Refused(String),
    /// lldpa-live did not send a complete and correct answer.
    Gone(String),
    /// More would have to be kept than these programs keep.
    TooLarge,
    Late(Duration),
    System(Error),
    /// Nothing was asked, since the words cannot be sent.
    Words(String),
    /// Standard output failed. None if nobody reads it.
    Output(Option<String>),
}

impl From<Error> for Failure {
    fn from(fault: Error) -> Failure {
        Failure::System(fault)
    }
}

pub type Done<T> = Result<T, Failure>;

impl Failure {
    fn status(&self) -> i32 {
        if matches!(self, Failure::Words(_)) {
            2
        } else {
            1
        }
    }

    /// Returns the message about it. Empty if there is nothing to say.
    pub fn message(&self, path: &str) -> String {
        match self {
            Failure::Refused(text) | Failure::Gone(text) | Failure::Words(text) => text.clone(),
            Failure::TooLarge => "lldpa-live answers with more than 25 MB".into(),
            Failure::Late(patience) => {
                format!("{path}: no complete answer within {} seconds", patience.as_secs())
            }
            Failure::System(fault) => match fault.kind() {
                ErrorKind::NotFound | ErrorKind::ConnectionRefused => {
                    let how = "(sudo systemctl start lldpa starts the service)";
                    format!("nobody answers at {path}: is lldpa-live running? {how}")
                }
                ErrorKind::PermissionDenied => {
                    format!("{path}: permission denied (only root and the group of the socket may ask)")
                }
                _ => format!("{path}: {}", text_of(fault)),
            },
            Failure::Output(Some(text)) => format!("standard output: {text}"),
            Failure::Output(None) => String::new(),
        }
    }
}

/// Returns how many seconds passed since 1970.
pub fn now() -> i64 {
    let passed = SystemTime::now().duration_since(UNIX_EPOCH).unwrap_or_default();
    i64::try_from(passed.as_secs()).unwrap_or(i64::MAX)
}

/// Returns whether the terminal shows UTF-8: whether the locale names no other set of characters.
fn is_utf8() -> bool {
    let value = |name: &str| std::env::var(name).ok().filter(|value| !value.is_empty());
    let locale = ["LC_ALL", "LC_CTYPE", "LANG"].into_iter().find_map(value).unwrap_or_default();
    let set = locale.split('.').nth(1).and_then(|rest| rest.split('@').next()).unwrap_or("UTF-8");
    ["utf-8", "utf8"].contains(&&set.to_lowercase()[..])
}

/// Returns a character, escaped if it is not ASCII, as Python does it.
fn ascii_of(letter: char) -> String {
    match u32::from(letter) {
        0..=0x7f => letter.into(),
        number @ 0x80..=0xff => format!("\\x{number:02x}"),
        number @ 0x100..=0xffff => format!("\\u{number:04x}"),
        number => format!("\\U{number:08x}"),
    }
}

/// Returns the text of an error without its number.
pub fn text_of(fault: &Error) -> String {
    let text = fault.to_string();
    let number = fault.raw_os_error().map(|number| format!(" (os error {number})"));
    let plain = number.and_then(|number| text.strip_suffix(&number).map(String::from));
    plain.unwrap_or(text)
}

/// Runs the program. Returns 0 if all was answered, 1 if not, 2 if its arguments are wrong.
pub fn run(arguments: &[String], host: &dyn Host) -> i32 {
    let given = match Given::read(arguments) {
        Ok(given) => given,
        Err(why) => {
            let _ = writeln!(std::io::stderr(), "{USAGE}\n{NAME}: error: {}", printable(why.as_bytes()));
            return 2;
        }
    };
    let path = given.control.clone().unwrap_or_else(|| DEFAULT_PATH.into());
    match (Client { host, given, path: &path, print: Print::Shown('?') }).answer() {
        Ok(()) => 0,
        Err(failure) => {
            complain(NAME, &failure.message(&path));
            failure.status()
        }
    }
}

/// Writes a message to standard error, without control characters.
pub fn complain(name: &str, text: &str) {
    if !text.is_empty() {
        let mut line = format!("{name}: {}", printable(text.as_bytes())).into_bytes();
        line.truncate(LONGEST_MESSAGE);
        line.push(b'\n');
        let _ = std::io::stderr().write_all(&line);
    }
}

pub struct Client<'a> {
    pub host: &'a dyn Host,
    given: Given,
    path: &'a str,
    print: Print,
}

/// What becomes of what is printed.
enum Print {
    /// It is shown, with this in place of characters that the terminal lacks.
    Shown(char),
    /// It is shown, with such characters escaped.
    Escaped,
    Dropped,
}

impl<'a> Client<'a> {
    /// The client of lldpcli, which prints what it makes itself.
    pub fn lldpcli(host: &'a dyn Host, path: &'a str) -> Client<'a> {
        Client { host, given: Given::default(), path, print: Print::Escaped }
    }

    /// Runs a command of lldpa-ctl without its output.
    pub fn pass_on(&self, words: &[String]) -> Done<()> {
        let words: Vec<String> = std::iter::once("--".into()).chain(words.iter().cloned()).collect();
        let given = Given::read(&words).map_err(|why| Failure::Refused(format!("error: {why}")))?;
        Client { host: self.host, given, path: self.path, print: Print::Dropped }.answer()
    }

    fn answer(&self) -> Done<()> {
        let words = self.words();
        refuse_lldpd(&words)?;
        let words: Vec<&str> = words.iter().map(|word| &word[..]).collect();
        match words[..] {
            ["help", ..] => self.print(HELP),
            ["version"] => self.print(&format!("{NAME} {VERSION}\n")),
            ["metrics"] => self.publish(),
            ["record", folder] => {
                let (most, keep) = (self.given.most.unwrap_or(MOST), self.given.keep.unwrap_or(KEEP));
                self.record(folder, most, keep)
            }
            ["reload", ref paths @ ..] => self.reload(paths),
            ["check", ref paths @ ..] => self.check(paths),
            ["watch", ref words @ ..] => self.watch(words),
            _ => {
                let mut connection = self.connect(PATIENCE)?;
                self.show(&mut connection, &words)
            }
        }
    }

    /// Asks lldpa-live, and prints the answer.
    fn show(&self, connection: &mut Connection, words: &[&str]) -> Done<()> {
        match words {
            _ if self.given.json && has_object(words) => self.json(connection, words),
            _ if self.given.json => self.lines(connection, words).and_then(|_| self.print("{}\n")),
            ["details", ports @ ..] => self.details(connection, &listed(ports)),
            ["neighbors", ports @ ..] => {
                let [live, configuration] =
                    [connection.ask_for("live", is_read)?, connection.ask(CONFIGURATION)?];
                self.print_table(&mut self.table(connection, ports)?, &live, &configuration)
            }
            ["show", what @ ("neighbors" | "statistics"), ports @ ..] => {
                lines_of(connection, &format!("show {what}"), &listed(ports), |text| self.print(text))
            }
            ["live"] => lines_of(connection, "live", &[], |text| self.print(text)),
            words => self.lines(connection, words).and_then(|lines| self.print_lines(lines)),
        }
    }

    /// Returns the words of the command in full, also if they are those of lldpd.
    fn words(&self) -> Vec<String> {
        let mut words = self.given.words.clone();
        if words.is_empty() {
            words.push("neighbors".into());
        }
        if words[0] == "show" && words.len() > 1 {
            words[1] = completed(&words[1], &SHOWS);
        }
        same(&words)
    }

    pub fn path(&self) -> &str {
        self.path
    }

    pub fn connect(&self, patience: Duration) -> Done<Connection> {
        let stream = self.host.connect(self.path, patience)?;
        let is_record = self.given.words.first().map_or(false, |word| word == "record");
        if self.given.output.is_none() && !is_record {
            self.host.give_up_root(); // files of metrics and records may need its rights
        }
        Ok(Connection::new(stream, patience))
    }

    pub fn print(&self, text: &str) -> Done<()> {
        self.print_all(std::iter::once(text))
    }

    pub fn print_lines(&self, lines: impl IntoIterator<Item = String>) -> Done<()> {
        self.print_all(lines.into_iter().flat_map(|line| [line, "\n".into()]))
    }

    /// Prints texts one after another.
    fn print_all<Text: AsRef<str>>(&self, texts: impl IntoIterator<Item = Text>) -> Done<()> {
        if self.host.output_was_closed() {
            return Err(Failure::Output(Some("it is closed".into())));
        }
        let (mut out, is_utf8) = (BufWriter::new(std::io::stdout().lock()), is_utf8());
        let mut write = |text: &str| match self.print {
            Print::Dropped => Ok(()),
            _ if text.is_ascii() || is_utf8 => out.write_all(text.as_bytes()),
            Print::Shown(mark) => {
                out.write_all(text.replace(|letter: char| !letter.is_ascii(), &mark.to_string()).as_bytes())
            }
            Print::Escaped => out.write_all(text.chars().map(ascii_of).collect::<String>().as_bytes()),
        };
        let written = texts.into_iter().try_for_each(|text| write(text.as_ref()));
        written.and_then(|_| out.flush()).map_err(|fault| match fault.kind() {
            ErrorKind::BrokenPipe => Failure::Output(None),
            _ => Failure::Output(Some(text_of(&fault))),
        })
    }

    pub fn width(&self) -> usize {
        self.host.terminal_width().unwrap_or(NOT_CUT)
    }

    /// Asks lldpa-live, and returns the lines to print.
    fn lines(&self, connection: &mut Connection, words: &[&str]) -> Done<Vec<String>> {
        match words {
            ["interfaces", ports @ ..] => {
                let live = connection.ask_for("live", is_read)?;
                let (configuration, mut held) = (connection.ask(CONFIGURATION)?, Held::new());
                each_port(connection, &[], |port| {
                    held.insert(port.name.into(), port.held);
                    Ok(())
                })?;
                let (show, ports) = (show_of(&[&configuration])?, listed(ports));
                let lines = interfaces(&held, &show, &LiveLines::read(&live.lines()), &ports, self.width());
                lines.map_err(Failure::Refused)
            }
            ["statistics", words @ ..] => self.counters(connection, words),
            ["live", word, ..] => {
                Err(Failure::Refused(format!("extra word: {word} (no word is allowed here)")))
            }
            ["configure", "ports", ports, rest @ ..] if ports.contains(',') => {
                let names = ports.split(',');
                let command = |name| [&["configure", "ports", name], rest].concat();
                names
                    .map(|name| told(connection, &command(name)))
                    .collect::<Done<Vec<_>>>()
                    .map(|all| all.concat())
            }
            words => told(connection, words),
        }
    }

    fn counters(&self, connection: &mut Connection, words: &[&str]) -> Done<Vec<String>> {
        let statistics = connection.ask("show statistics")?;
        let show = show_of(&[&statistics])?;
        if words == ["summary"] {
            return Ok(counter_lines(&[("all", Counters::summed(&show.counters))], self.width()));
        }
        let show = show.only(&listed(words)).map_err(Failure::Refused)?;
        Ok(counter_lines(&show.counters, self.width()))
    }

    /// Returns the table of neighbors of these ports (all if empty).
    fn table(&self, connection: &mut Connection, ports: &[&str]) -> Done<Table> {
        let mut table = Table::default();
        each_port(connection, &listed(ports), |port| {
            table.add(port);
            Ok(())
        })?;
        Ok(table)
    }

    /// Prints a table, and why ports have no neighbor, which the answers to `live` and `show
    /// configuration` say.
    fn print_table(&self, table: &mut Table, live: &Answer, configuration: &Answer) -> Done<()> {
        let show = show_of(&[configuration])?;
        self.print_lines(table.all_lines(&show, &LiveLines::read(&live.lines()), self.width()))
    }

    /// Prints the table, and then a line for each neighbor of these ports that comes, changes or leaves,
    /// without end, or up to a limit. As JSON, only an object in a line for each.
    fn watch(&self, words: &[&str]) -> Done<()> {
        let (limit, ports) = limited(words)?;
        let mut connection = self.connect(PATIENCE)?;
        let (live, configuration) = match self.given.json {
            true => (Answer::default(), Answer::default()),
            false => (connection.ask_for("live", is_read)?, connection.ask(CONFIGURATION)?),
        };
        check_known(&mut connection, &ports)?;
        let (mut table, is_shown) = (Table::default(), !self.given.json);
        let watching = begin(&mut connection, &ports, |port| {
            if is_shown {
                table.add(port);
            }
        })?;
        if is_shown {
            self.print_table(&mut table, &live, &configuration)?;
        }
        drop(table); // its memory is free for changes
        self.follow(&mut connection, watching, limit, |one, since| {
            let now = self.host.local_time(now());
            Ok(match self.given.json {
                true => news_object(one, &now, since),
                false => format!("{now} {}", one.line()),
            })
        })
    }

    /// Reads the settings, by default those of the service, and hands them over to lldpa-live.
    fn reload(&self, paths: &[&str]) -> Done<()> {
        let (settings, unread) = settings_of(paths);
        let mut connection = self.connect(PATIENCE)?;
        connection.ask("settings begin")?;
        let (lines, long): (Vec<_>, Vec<_>) =
            settings.iter().partition(|one| one.to_send().len() <= settings::LONGEST_LINE);
        long.iter().for_each(|one| complain(NAME, &one.refused("line too long")));
        lines.iter().try_for_each(|one| connection.ask(&one.to_send()).map(drop))?;
        let unsent = unread + long.len();
        let answer = connection.ask(&format!("settings end {unsent}"))?;
        let refused = answer.lines();
        refused.iter().for_each(|line| complain(NAME, line));
        none_of(unsent + refused.len(), "were not applied")
    }

    /// Says which settings the service would refuse. Asks nobody, and reports a given path that does not exist.
    fn check(&self, paths: &[&str]) -> Done<()> {
        let is_missing = |path: &&&str| std::fs::symlink_metadata(path).is_err();
        let missing = paths.iter().filter(is_missing).map(|path| format!("{path}: no such file or folder"));
        let missing = missing.map(|line| complain(NAME, &line)).count();
        let (settings, unread) = settings_of(paths);
        self.host.give_up_root();
        let why = |one: &Setting| one.why_none().map(String::from).or_else(|| self.host.why_refused(one));
        let refused = settings.iter().filter_map(|one| Some(one.refused(&why(one)?)));
        let refused = refused.map(|line| complain(NAME, &line)).count();
        none_of(missing + unread + refused, "would not be applied")
    }

    /// Prints the metrics, or writes them to a file. If lldpa-live does not answer, `lldpa_up` is 0.
    fn publish(&self) -> Done<()> {
        let service = self.given.output.as_deref().and_then(service_of);
        let begun = || Metrics::of(service.clone(), MOST_METRICS);
        let asked = self.connect(PATIENCE_FOR_METRICS).and_then(|mut one| measured(&mut one, begun));
        let (text, failure) = match asked {
            Ok((text, agent)) if agent == "running" => (text, None),
            Ok((text, agent)) => (text, Some(Failure::Refused(format!("the agent is {agent}")))),
            Err(failure) => (up(service.as_deref(), false), Some(failure)),
        };
        match &self.given.output {
            Some(file) => replace(file, &text)
                .map_err(|fault| Failure::Refused(format!("{file}: {}", text_of(&fault))))?,
            None => self.print(&text)?,
        }
        failure.map_or(Ok(()), Err)
    }
}

/// Returns the settings at these paths, by default those of the service, and how many files cannot be read. Reports
/// each of these.
fn settings_of(paths: &[&str]) -> (Vec<Setting>, usize) {
    let paths = if paths.is_empty() { &CONFIG[..] } else { paths };
    let paths: Vec<String> = paths.iter().map(|path| path.to_string()).collect();
    let (settings, unread) = settings::read(&paths);
    unread.iter().for_each(|line| complain(NAME, line));
    (settings, unread.len())
}

/// Fails unless this is the case of no setting and no file.
fn none_of(count: usize, what: &str) -> Done<()> {
    match count {
        0 => Ok(()),
        count => Err(Failure::Refused(format!("{count} of the settings and files {what}"))),
    }
}

/// Returns whether the answer to a command is an object for JSON. The others answer with nothing.
fn has_object(words: &[&str]) -> bool {
    match words {
        ["show", "neighbors" | "statistics", ..] | ["show", "chassis" | "configuration"] => true,
        ["live"] => true,
        [first, ..] => ["neighbors", "details", "interfaces", "statistics", "watch"].contains(first),
        [] => false,
    }
}

/// Returns the metrics and the state of the agent. While the agent waits for an interface, there are no
/// metrics about its ports.
fn measured(connection: &mut Connection, begun: impl Fn() -> Metrics) -> Done<(String, String)> {
    let mut live = connection.ask_for("live", is_read)?;
    let (mut all, mut statistics) = (begun(), Answer::default());
    if LiveLines::read(&live.lines()).is_up() {
        let found = each_port(connection, &[], |port| {
            all.add(port);
            Ok(())
        });
        match found.and_then(|_| connection.ask("show statistics")) {
            Ok(found) => statistics = found,
            Err(Failure::Refused(why)) => {
                live = connection.ask_for("live", is_read)?;
                if LiveLines::read(&live.lines()).is_up() {
                    return Err(Failure::Refused(why)); // the agent does not wait, so something is wrong
                }
                all = begun();
            }
            Err(failure) => return Err(failure),
        }
    }
    let lines = live.lines();
    let told = LiveLines::read(&lines);
    let parts = all.parts(&show_of(&[&statistics])?.counters, &told).map_err(not_an_answer)?;
    let state = told.own.get(&"agent").map_or("running", |agent| agent);
    Ok((parts.concat(), state.into()))
}

pub fn not_an_answer(why: String) -> Failure {
    Failure::Gone(format!("not an answer of lldpa-live: {why}"))
}

pub fn show_of<'a>(answers: &[&'a Answer]) -> Done<Show<'a>> {
    Show::read(answers.iter().flat_map(|answer| answer.lines()).collect()).map_err(not_an_answer)
}

/// Returns after how many changes a watch ends, and the names of its ports. A limit comes first.
fn limited(words: &[&str]) -> Done<(usize, Vec<String>)> {
    let (limit, ports) = match words {
        [LIMIT] => return Err(Failure::Refused(format!("a word is missing after {LIMIT}"))),
        [LIMIT, number, ports @ ..] => (number, ports),
        ports => return Ok((usize::MAX, listed(ports))),
    };
    let is_number = limit.len() < 10 && limit.bytes().all(|octet| octet.is_ascii_digit());
    match limit.parse() {
        Ok(number) if is_number && number > 0 => Ok((number, listed(ports))),
        _ => Err(Failure::Refused(format!("not a number from 1 to {MOST_CHANGES}: {limit}"))),
    }
}

/// Returns the names of ports in words, split at commas. The word `ports` may come first.
pub fn listed(words: &[&str]) -> Vec<String> {
    let names = match words {
        ["ports", names @ ..] if !names.is_empty() => names,
        names => names,
    };
    names.iter().flat_map(|word| word.split(',')).map(String::from).collect()
}

/// Returns the answer to a command of the agent. If the agent refuses it, completes its words or says
/// which word is wrong.
fn told(connection: &mut Connection, words: &[&str]) -> Done<Vec<String>> {
    let words: Vec<String> = words.iter().map(|word| word.to_string()).collect();
    let text = match connection.ask(&line_of(&words)?) {
        Err(Failure::Refused(text)) => text,
        answered => return answered.map(|answer| answer.lines().into_iter().map(String::from).collect()),
    };
    let full = in_full(&words);
    if text == "unknown command" && words[0] == "configure" && full != words {
        refuse_lldpd(&full)?;
        return told(connection, &full.iter().map(|word| &word[..]).collect::<Vec<_>>());
    }
    if text == "no such port" && words.len() > 2 {
        let configuration = connection.ask("show configuration")?;
        check_ports(&words[2..3], &show_of(&[&configuration])?.configured()).map_err(Failure::Refused)?;
    }
    Err(Failure::Refused(explanation(&words, &text)))
}

/// Refuses a command of lldpd that has no counterpart, and says what to do instead.
fn refuse_lldpd(words: &[String]) -> Done<()> {
    instead(words).map_or(Ok(()), |sentence| Err(Failure::Refused(sentence.into())))
}

/// Joins words to a line, quoted if needed.
fn line_of(words: &[String]) -> Done<String> {
    if let Some(word) = words.iter().find(|word| word.contains(|letter| letter == '"' || letter > '\u{ff}')) {
        return Err(Failure::Words(format!("a word must be ASCII without double quotes: {word}")));
    }
    let is_plain = |word: &str| !word.is_empty() && !word.contains(&[' ', '\t', '#'][..]);
    let quoted = |word: &String| if is_plain(word) { word.clone() } else { format!("\"{word}\"") };
    Ok(words.iter().map(quoted).collect::<Vec<_>>().join(" "))
}

/// Returns why the agent refused a command, with the wrong word and what is allowed in its place.
fn explanation(words: &[String], text: &str) -> String {
    if !OF_A_WORD.contains(&text) {
        return text.into();
    }
    let is_empty = words[0].is_empty();
    let second = words.get(1).map_or("a word is missing", |word| &word[..]);
    match &words[0][..] {
        first if !all_commands().contains(&first) => {
            let first = if is_empty { "empty word" } else { first };
            format!("{text}: {first} ({})", all_commands().join(", "))
        }
        "configure" => line_of(words).map_or(text.into(), |line| explained(&line, text)),
        "show" if !SHOWS.contains(&second) => format!("{text}: {second} ({})", SHOWS.join(", ")),
        first => {
            let place = if first == "show" { 2 } else { 1 };
            let extra = words.get(place).map(|word| format!("{text}: {word} (no word is allowed here)"));
            extra.unwrap_or_else(|| text.into())
        }
    }
}
