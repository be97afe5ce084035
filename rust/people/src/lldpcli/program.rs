//! The programs lldpctl and lldpcli: ask a running lldpa-live, and print answers as lldpd's lldpcli does.

use super::console;
use super::forms::{tree, Form, Writer, FORMS};
use super::trees::{self, neighbor_node, Depth, Told};
use super::words::{check, of_lldpcli, of_lldpctl, Command, Question};
use crate::answers::{since_of, Parts};
use crate::arguments::DEFAULT_PATH;
use crate::changes::News;
use crate::client::{
    complain, not_an_answer, now, show_of, Client, Done, Failure, Host, CONFIGURATION, PATIENCE,
};
use crate::connection::Connection;
use crate::neighbors::each_port;
use crate::node::Node;
use crate::show::Show;
use crate::watching::begin;
use std::io::{BufRead, Write};
use std::os::unix::process::CommandExt;

pub const LLDPCTL: &str = "lldpctl";
pub const LLDPCLI: &str = "lldpcli";
/// A command of lldpcli's console, in a process of its own. A refusal does not change its status.
pub const OF_CONSOLE: &str = "lldpcli-command";
const THIS_PROGRAM: &str = "/proc/self/exe";
const HELP: &str = include_str!("help.txt");
const VERSION: &str = env!("CARGO_PKG_VERSION");
const LONG_OPTIONS: [&str; 2] = ["help", "version"];
/// lldpcli's words for what happens to a neighbor.
const HAPPENED: [(&str, &str, &str); 3] = [
    ("came", "lldp-added", "LLDP neighbor added"),
    ("changed", "lldp-updated", "LLDP neighbor updated"),
    ("gone", "lldp-deleted", "LLDP neighbor deleted"),
];

struct Given {
    path: String,
    form: Form,
    form_name: &'static str,
    is_help: bool,
    is_version: bool,
    words: Vec<String>,
}

fn refused<T>(why: String) -> Done<T> {
    Err(Failure::Refused(why))
}

impl Given {
    /// Reads the arguments of the program. Options and words may be mixed.
    fn read(arguments: &[String]) -> Done<Given> {
        let (path, words, (form_name, form)) = (DEFAULT_PATH.into(), Vec::new(), FORMS[0]);
        let mut given = Given { path, form, form_name, is_help: false, is_version: false, words };
        let mut arguments = arguments.iter();
        while let Some(word) = arguments.next() {
            match word.strip_prefix('-') {
                Some("-") => given.words.extend(arguments.by_ref().cloned()),
                Some(long) if long.starts_with('-') => given.take_long(&long[1..])?,
                Some(letters) if !letters.is_empty() => given.take_letters(letters, &mut arguments)?,
                _ => given.words.push(word.clone()),
            }
        }
        Ok(given)
    }

    fn take_long(&mut self, word: &str) -> Done<()> {
        let (name, value) = word.split_once('=').map_or((word, None), |(name, value)| (name, Some(value)));
        match (LONG_OPTIONS.iter().find(|one| one.starts_with(name)), value) {
            (Some(one), Some(_)) => refused(format!("option --{one} must not have an argument")),
            (Some(one), None) => {
                self.is_help |= *one == "help";
                self.is_version |= *one == "version";
                Ok(())
            }
            (None, _) => refused(format!("option --{name} not recognized")),
        }
    }

    fn take_letters(&mut self, letters: &str, rest: &mut std::slice::Iter<'_, String>) -> Done<()> {
        for (place, letter) in letters.char_indices() {
            match letter {
                'd' | 's' => (),
                'h' => self.is_help = true,
                'v' => self.is_version = true,
                'u' | 'f' => {
                    let own = Some(&letters[place + 1..]).filter(|own| !own.is_empty()).map(String::from);
                    match own.or_else(|| rest.next().cloned()) {
                        Some(value) => return self.set(letter, value),
                        None => return refused(format!("option -{letter} requires argument")),
                    }
                }
                _ => return refused(format!("option -{letter} not recognized")),
            }
        }
        Ok(())
    }

    fn set(&mut self, letter: char, value: String) -> Done<()> {
        if letter == 'u' {
            self.path = value;
            return Ok(());
        }
        match FORMS.iter().find(|(name, _)| *name == value) {
            Some((name, form)) => {
                (self.form_name, self.form) = (name, *form);
                Ok(())
            }
            None => {
                let names = FORMS.map(|(name, _)| name).join(", ");
                refused(format!("unknown format: {value} ({names})"))
            }
        }
    }
}

/// Runs a program under one of its names. Returns 0 if all was answered, else 1.
pub fn run(name: &str, arguments: &[String], host: &dyn Host) -> i32 {
    let shown = if name == LLDPCTL { LLDPCTL } else { LLDPCLI };
    let (mut path, mut status) = (DEFAULT_PATH.to_string(), 0);
    let answered = Given::read(arguments).and_then(|given| {
        path = given.path.clone();
        Program { host, given, name: shown }.answer(name == OF_CONSOLE, &mut status)
    });
    if let Err(failure) = answered {
        complain(shown, &failure.message(&path));
        let is_no_failure = name == OF_CONSOLE && !matches!(failure, Failure::Output(_));
        return i32::from(!is_no_failure);
    }
    status
}

struct Program<'a> {
    host: &'a dyn Host,
    given: Given,
    name: &'static str,
}

impl Program<'_> {
    fn client(&self) -> Client<'_> {
        Client::lldpcli(self.host, &self.given.path)
    }

    fn answer(&self, is_of_console: bool, status: &mut i32) -> Done<()> {
        let words = &self.given.words;
        if self.given.is_help {
            return self.client().print(&HELP.replace("NAME", self.name));
        }
        if self.given.is_version {
            return self.client().print(&format!("{} {VERSION}\n", self.name));
        }
        if self.name == LLDPCLI && words.is_empty() && !is_of_console {
            *status = self.console()?;
            return Ok(());
        }
        self.obey(if self.name == LLDPCLI { of_lldpcli(words)? } else { of_lldpctl(words)? })
    }

    fn obey(&self, command: Command) -> Done<()> {
        let client = self.client();
        match command {
            Command::Passed(words) => client.pass_on(&words),
            Command::Show(question) => self.show(&mut client.connect(PATIENCE)?, &client, &question),
            Command::Watch { depth, ports, limit } => {
                let limit = limit.unwrap_or(usize::MAX);
                self.watch(&mut client.connect(PATIENCE)?, &client, depth, ports.unwrap_or_default(), limit)
            }
        }
    }

    fn form(&self) -> Form {
        match self.given.form {
            Form::KeyValue if self.host.is_terminal() => Form::Terminal,
            form => form,
        }
    }

    /// Prints the answer to a `show` command. Then fails if a given port does not exist.
    fn show(&self, connection: &mut Connection, client: &Client<'_>, question: &Question) -> Done<()> {
        let since = since_of(connection)?;
        let statistics = connection.ask("show statistics")?;
        let (chassis, configuration) = (connection.ask("show chassis")?, connection.ask(CONFIGURATION)?);
        let show = show_of(&[&statistics, &chassis, &configuration])?;
        let told = Told { show, since: &since, now: now() };
        let mut parts = Parts::of(client);
        if !question.is_of_neighbors() {
            parts.push(&tree(self.form(), question.tree(&told)?))?;
            parts.end()?;
            return question.check(&told);
        }
        let mut writer = Writer::of(self.form(), trees::neighbors());
        parts.push(&writer.begin())?;
        each_port(connection, &[], |port| {
            let is_wanted = |ports: &Vec<String>| ports.iter().any(|name| name == port.name);
            if question.ports.as_ref().map_or(true, is_wanted) {
                for neighbor in &port.neighbors {
                    let node = neighbor_node(&told, neighbor, question.depth).map_err(not_an_answer)?;
                    parts.push(&writer.node(node))?;
                }
            }
            Ok(())
        })?;
        parts.push(&writer.end())?;
        parts.end()?;
        question.check(&told)
    }

    /// Prints each neighbor that comes, changes or leaves, up to a limit.
    fn watch(
        &self,
        connection: &mut Connection,
        client: &Client<'_>,
        depth: Depth,
        ports: Vec<String>,
        limit: usize,
    ) -> Done<()> {
        let configuration = connection.ask(CONFIGURATION)?;
        check(Some(&ports), &show_of(&[&configuration])?.configured())?;
        let watching = begin(connection, &ports, |_| ())?;
        client.follow(connection, watching, limit, |one, since| {
            let told = Told { show: Show::default(), since, now: now() };
            self.text_of(one, &told, depth)
        })
    }

    /// Returns what happened to a neighbor.
    fn text_of(&self, news: &News, told: &Told<'_>, depth: Depth) -> Done<String> {
        let happened = HAPPENED.iter().find(|(what, _, _)| *what == news.what);
        let (key, label) = happened.map_or(("lldp", ""), |(_, key, label)| (key, label));
        let node = neighbor_node(told, &news.neighbor(), depth).map_err(not_an_answer)?;
        Ok(tree(self.form(), Node { nodes: vec![node], ..Node::new(key, label) }))
    }

    /// Runs commands from standard input, until its end or `exit`. Returns 1 if the output of a command
    /// failed, else 0. As in lldpcli, refused commands do not change the status.
    fn console(&self) -> Done<i32> {
        let mut status = 0;
        let prompt = if self.host.input_is_terminal() { "[lldpcli] $ " } else { "" };
        let mut input = std::io::stdin().lock();
        loop {
            self.client().print(prompt)?;
            let _ = std::io::stdout().flush();
            let mut line = Vec::new();
            if input.read_until(b'\n', &mut line)? == 0 {
                return Ok(status);
            }
            match console::words_of(&String::from_utf8_lossy(&line)) {
                Err(why) => complain(self.name, why),
                Ok(words) => match words.first().map(|word| &word[..]) {
                    None => (),
                    Some("exit") => return Ok(status),
                    Some("help") => self.client().print(&HELP.replace("NAME", self.name))?,
                    Some(_) => status |= self.obey_in_child(&words)?,
                },
            }
        }
    }

    /// Runs a command in a child process, so that this one stays root. Returns 1 if output fails.
    fn obey_in_child(&self, words: &[String]) -> Done<i32> {
        let mut command = std::process::Command::new(THIS_PROGRAM);
        command.arg0(OF_CONSOLE).args(["-u", &self.given.path, "-f", self.given.form_name, "--"]);
        let status = command.args(words).stdin(std::process::Stdio::null()).status()?;
        Ok(i32::from(!status.success()))
    }
}
