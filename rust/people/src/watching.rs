//! What `watch` keeps of its ports: the table of each. Reads what lldpa-live sends to clients that watch:
//! first these tables, then each neighbor that changes. If changes come faster than this program reads,
//! lldpa-live sends tables again in place of the changes. Even a service that was taken over can fill no
//! memory.

use crate::changes::{News, Watch};
use crate::client::{not_an_answer, Client, Done, Failure};
use crate::connection::{Answer, Connection};
use crate::live_lines::Since;
use crate::neighbors::add;
use crate::ordered::Ordered;
use crate::show::{Neighbor, Port, Show, MOST_NEIGHBORS, MOST_PORTS};
use crate::texts::quoted;
use std::collections::BTreeMap;
use std::fmt::Display;

/// Octets of all that the neighbors say.
const MOST_KEPT: usize = 40 << 20;
/// Some that came may be told before others that are gone.
const MOST_OF_PORT: usize = 2 * MOST_NEIGHBORS as usize;
/// Some may get neighbors before others are told to be without.
const MOST_WITH_NEIGHBORS: usize = 2 * MOST_PORTS;
/// Further lines of a neighbor: an LLDPDU of 1,500 octets has no more TLVs.
const MOST_SAID: usize = 750;

#[derive(Default)]
pub struct Watching {
    /// The ports that are watched. All if empty.
    asked: Vec<String>,
    ports: BTreeMap<String, Watch>,
    kept: usize,
}

/// What lldpa-live sends.
enum Message<'a> {
    Table(Port<'a>),
    /// A neighbor came or changed.
    Present(Neighbor<'a>),
    /// The neighbor of this port with this MSAP identifier is gone.
    Gone(&'a str, &'a str),
    /// All tables were sent.
    Complete,
}

/// Reads an answer to `watch`, and since when its neighbors are there.
fn read(answer: &Answer) -> Done<(Message<'_>, Since)> {
    let (told, shown): (Vec<&str>, Vec<&str>) =
        answer.lines().into_iter().partition(|line| line.starts_with("live."));
    let mut since = Since::default();
    told.iter().try_for_each(|line| since.add(line)).map_err(not_an_answer)?;
    let first = told.first().and_then(|line| line.strip_prefix("live.")?.split_once('='));
    let change =
        first.and_then(|(front, value)| Some((front.strip_suffix(".change")?, value.split_once(' ')?)));
    let message = match (first, change) {
        (Some(("lost", _)), _) => Message::Complete,
        (_, Some((port, ("gone", id)))) => Message::Gone(port, id),
        (_, Some((port, _))) => Message::Present(Neighbor::read(port, shown).map_err(not_an_answer)?),
        _ => return Ok((Message::Table(table_in(shown)?), since)),
    };
    Ok((message, since))
}

/// Returns the only table in these lines.
fn table_in(lines: Vec<&str>) -> Done<Port<'_>> {
    let mut show = Show::read(lines).map_err(not_an_answer)?;
    match (show.ports.pop(), show.ports.len()) {
        (Some(port), 0) if port.held > MOST_NEIGHBORS => Err(too_many(port.held)),
        (Some(port), 0) => Ok(port),
        (_, rest) => {
            Err(not_an_answer(format!("{} tables in one answer", if rest > 0 { "several" } else { "no" })))
        }
    }
}

fn too_many(neighbors: impl Display) -> Failure {
    not_an_answer(format!("{neighbors} neighbors of one port"))
}

impl Message<'_> {
    /// Fails if a neighbor says more than an LLDPDU can.
    fn check(&self) -> Done<()> {
        let neighbors = match self {
            Message::Table(port) => &port.neighbors[..],
            Message::Present(one) => std::slice::from_ref(one),
            Message::Gone(..) | Message::Complete => &[],
        };
        match neighbors.iter().map(|one| one.said.len()).max() {
            Some(most) if most > MOST_SAID => {
                Err(not_an_answer(format!("a neighbor that says {most} lines")))
            }
            _ => Ok(()),
        }
    }
}

impl Watching {
    /// Takes what lldpa-live sends. Returns what has changed.
    fn take(&mut self, message: &Message<'_>) -> Done<Vec<News>> {
        message.check()?;
        match message {
            Message::Table(port) => self.change(port.name, |watch| watch.news(port)),
            Message::Present(one) => self.change(one.port, |watch| watch.learn(one).into_iter().collect()),
            Message::Gone(port, id) => self.change(port, |watch| watch.forget(id).into_iter().collect()),
            Message::Complete => Ok(Vec::new()),
        }
    }

    fn change(&mut self, port: &str, change: impl FnOnce(&mut Watch) -> Vec<News>) -> Done<Vec<News>> {
        if !self.asked.is_empty() && !self.asked.iter().any(|name| name == port) {
            return Err(not_an_answer(format!("{} was not asked for", quoted(port))));
        }
        let mut watch = self.ports.remove(port).unwrap_or_default();
        self.kept -= watch.memory();
        let news = change(&mut watch);
        self.kept += watch.memory();
        if watch.count() > MOST_OF_PORT {
            return Err(too_many(watch.count()));
        }
        if self.kept > MOST_KEPT {
            let why = "the neighbors say more than 40 MB: watch fewer ports";
            return Err(Failure::Gone(why.into()));
        }
        if watch.count() > 0 {
            self.ports.insert(port.into(), watch);
        }
        if self.ports.len() > MOST_WITH_NEIGHBORS {
            return Err(not_an_answer(format!("{} ports with neighbors", self.ports.len())));
        }
        Ok(news)
    }
}

/// Watches these ports (all if empty): gives each of their tables to `begin`.
pub fn begin(
    connection: &mut Connection,
    ports: &[String],
    mut begin: impl FnMut(&Port<'_>),
) -> Done<Watching> {
    let (mut watching, mut names) = (Watching::default(), Ordered::<String, ()>::default());
    watching.asked = ports.to_vec();
    connection.watch(ports)?;
    loop {
        let answer = connection.next_message(|_| Ok(()))?;
        let (message, _) = read(&answer)?;
        watching.take(&message)?;
        match message {
            Message::Table(port) => {
                add(&mut names, port.name)?;
                begin(&port);
            }
            Message::Complete => return Ok(watching),
            _ => return Err(not_an_answer("a change before the tables".into())),
        }
    }
}

impl Client<'_> {
    /// Prints the text that is made of each change from now on, up to a limit.
    pub fn follow(
        &self,
        connection: &mut Connection,
        mut watching: Watching,
        mut left: usize,
        text: impl Fn(&News, &Since) -> Done<String>,
    ) -> Done<()> {
        while left > 0 {
            connection.renew();
            let answer = connection.next_message(|connection| {
                let is_read = self.host.wait(connection.stream())?;
                connection.renew();
                if is_read {
                    Ok(())
                } else {
                    Err(Failure::Output(None))
                }
            })?;
            let (message, since) = read(&answer)?;
            let news = watching.take(&message)?;
            for one in news.iter().take(left) {
                self.print_lines([text(one, &since)?])?;
            }
            left = left.saturating_sub(news.len());
        }
        Ok(())
    }
}
