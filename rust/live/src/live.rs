//! Gives the agent the received frames and the seconds in the order of time, and sends its frames.

use crate::agent::Running;
use crate::answers::Server;
use crate::arguments::Arguments;
use crate::commands::Settings;
use crate::control::Control;
use crate::following::{Announced, Following};
use crate::lines::Line;
use crate::links::{Link, Links};
use crate::lookup::{HostName, Lookup};
use crate::notify::Manager;
use crate::outbox::Outbox;
use crate::ports::Ports;
use crate::recording::Recording;
use crate::reports::Events;
use crate::state::Slots;
use crate::sys::signals;
use crate::time::{processor_time, Clock, Moment, WallTime};
use crate::waiting::{self, Awaited, IN, PRIORITY};
use lldpa::Sent;
use std::fs::File;
use std::io::Result;
use std::os::unix::io::AsRawFd;
use std::time::Duration;

const MOST_TICKS: u32 = 65535; // seconds in one line
/// How many frames one turn gives to the agent, and for how long: then signals and questions follow.
const MOST_FRAMES: usize = 64;
const LONGEST_GIVING: Duration = Duration::from_millis(25);
/// How long a second waits at most for frames that came before its end and were not read yet. It is
/// longer than the ports rest to save processor time.
const MOST_LATE: Duration = Duration::from_millis(800);
/// So much of a turn counts for that wait: this process may have been stopped meanwhile, and then all
/// frames that came are given in their order.
const LONGEST_TURN: Duration = Duration::from_millis(500);

/// The result of `turn`: the moment reached, and whether signals or clients wait to be handled.
pub struct Turn {
    pub began: Moment,
    /// The agent was given all frames and seconds up to this moment.
    pub moment: Moment,
    pub has_signal: bool,
    pub is_asked: bool,
}

/// The files that wake lldpa-live, besides those of ports, links and clients.
pub struct Wakers {
    epoll: File,
    pub signals: Awaited<File>,
    /// Becomes ready when the host's name has changed.
    host_name: Option<Awaited<File>>,
}

impl Wakers {
    fn open() -> Result<Wakers> {
        Ok(Wakers {
            epoll: waiting::epoll()?,
            signals: Awaited::new(signals::open()?),
            host_name: File::open("/proc/sys/kernel/hostname").ok().map(Awaited::new),
        })
    }
}

/// A running lldpa-live.
pub struct Live {
    pub arguments: Arguments,
    pub began: WallTime,
    pub wakers: Wakers,
    pub links: Links,
    pub ports: Ports,
    /// The agent's seconds.
    pub clock: Clock,
    /// The agent. None while lldpa-live waits for an interface.
    pub running: Option<Running>,
    pub settings: Settings,
    pub announced: Announced,
    pub following: Following,
    pub server: Server,
    /// Looks for the group of the control socket, if it was not known at the start.
    pub lookup: Option<Lookup>,
    /// Asks for the host's name with its domain.
    pub host: Option<HostName>,
    pub manager: Manager,
    pub events: Events,
    pub record: Recording,
    /// Where the state is saved.
    pub slots: Option<Slots>,
    /// True if another lldpa-live follows at once.
    pub makes_way: bool,
    /// True if this one followed another, and has its neighbors.
    pub has_taken_over: bool,
    /// When to save the state next.
    pub next_state: Moment,
    /// The last number that was given to a chassis.
    pub last_chassis: u32,
    outbox: Outbox,
    /// True if frames that could be given to the agent wait for the next turn.
    pub is_cut: bool,
    /// How long a second has waited for frames.
    late: Duration,
}

impl Live {
    pub fn new(arguments: Arguments, links: Links, ports: Ports, control: Option<Control>) -> Result<Live> {
        Ok(Live {
            began: WallTime::now(),
            wakers: Wakers::open()?,
            links,
            ports,
            clock: Clock::new(),
            running: None,
            settings: Settings::default(),
            announced: Announced::new(arguments.agent.management),
            following: Following::default(),
            server: Server::new(control),
            lookup: None,
            host: None,
            manager: Manager::new(),
            events: Events::default(),
            record: Recording::default(),
            slots: None,
            makes_way: false,
            has_taken_over: false,
            next_state: Moment::default(),
            last_chassis: 0,
            outbox: Outbox::default(),
            is_cut: false,
            late: Duration::ZERO,
            arguments,
        })
    }

    /// Waits for input or a deadline, at most until `last`. Then gives the agent some frames in the
    /// order of their stamps, with each second at its place among them. Links that came up are
    /// given before the frames, links that went down after them, so that no frame is lost. If a
    /// question waits for frames, does not wait, and also reads ports that rest.
    pub fn turn(&mut self, last: Option<Moment>) -> Turn {
        let before = Moment::now();
        let due = self.agent_due();
        self.await_files(before);
        let deadline = self.deadline(before, due);
        let deadline = last.map_or(deadline, |last| last.min(deadline));
        let found = waiting::ready(&self.wakers.epoll, deadline.since(before));
        let has_signal = found.contains(&self.wakers.signals.file.as_raw_fd());
        let has_news = found.contains(&self.links.socket.file.as_raw_fd());
        let news = if has_news { self.links.read().unwrap_or_default() } else { Vec::new() };
        let is_found = |one: &Lookup| found.contains(&one.answer.file.as_raw_fd());
        let has_group = self.lookup.as_ref().map_or(false, is_found);
        let is_told = |one: &HostName| found.contains(&one.0.file.as_raw_fd());
        let has_name = self.host.as_ref().map_or(false, is_told);
        let of_others = [has_signal, has_news, has_group, has_name].map(usize::from);
        let others = self.ports.count_of(&found) + of_others.iter().sum::<usize>();
        if has_group {
            self.take_group();
        }
        if has_name {
            self.take_full_name();
        }
        let left = self.ports.read(&mut self.clock, &found, before);
        // If the agent acts at a second that ended while this turn waited, that second is given at
        // the next turn: then all frames before it have certainly been read.
        let now = Moment::now();
        let all = if due.map_or(false, |due| due <= now) { before } else { now };
        let moment = self.give(news, left.map_or(all, |left| left.min(all)));
        self.follow();
        self.note_late(before);
        self.ports.share.count(processor_time(), Moment::now());
        Turn { began: before, moment, has_signal, is_asked: found.len() > others }
    }

    fn await_files(&mut self, now: Moment) {
        let epoll = &self.wakers.epoll;
        self.wakers.signals.wait_for(epoll, IN);
        self.links.socket.wait_for(epoll, IN);
        self.lookup.iter_mut().for_each(|lookup| lookup.answer.wait_for(epoll, IN));
        self.host.iter_mut().for_each(|host| host.0.wait_for(epoll, IN));
        self.wakers.host_name.iter_mut().for_each(|file| file.wait_for(epoll, PRIORITY));
        self.ports.await_frames(epoll, now, self.server.has_question());
        self.server.control.iter_mut().for_each(|control| control.await_clients(epoll, now));
    }

    /// Gives the agent these link changes, and frames and seconds up to this moment, or up to an
    /// earlier one if there are many frames. Returns the moment that was reached.
    fn give(&mut self, news: Vec<Link>, moment: Moment) -> Moment {
        if self.running.is_none() {
            return moment;
        }
        let (came, went) = ran_and_later(news);
        let mut downs = self.follow_links(&came);
        let is_down = !(went.is_empty() && downs.is_empty());
        let moment = self.give_frames(moment, !is_down);
        let moment = if self.late < MOST_LATE { moment } else { Moment::now() };
        self.give_seconds(moment);
        downs.extend(self.follow_links(&went));
        if self.arguments.forget_on_down {
            downs.iter().for_each(|port| self.empty_table(port));
        }
        self.send(); // before ports may be removed
        moment
    }

    /// Sends clients that record the last lines, for as long as they read, but not for long.
    pub fn end_records(&mut self, last: Moment) {
        loop {
            self.serve_watches();
            let is_read =
                self.server.control.as_ref().map_or(true, |control| !control.owes_records(&self.record));
            let now = Moment::now();
            if is_read || now >= last {
                return;
            }
            self.await_files(now);
            waiting::ready(&self.wakers.epoll, last.since(now));
            self.server.control.iter_mut().for_each(|control| control.turn(now, false));
        }
    }

    /// Notes after a turn whether a second still waits.
    fn note_late(&mut self, before: Moment) {
        let now = Moment::now();
        let is_late = self.running.is_some() && self.clock.missing(now) > 0;
        self.late = if is_late { self.late + now.since(before).min(LONGEST_TURN) } else { Duration::ZERO };
    }

    /// Returns until when a second that has ended may wait for frames.
    pub fn latest(&self, due: Moment, now: Moment) -> Moment {
        due.max(now) + MOST_LATE.saturating_sub(self.late)
    }

    /// Gives the agent the frames up to this moment, but only some if `may_cut`. Returns the moment
    /// up to which it has all.
    fn give_frames(&mut self, moment: Moment, may_cut: bool) -> Moment {
        let (end, mut count) = (Moment::now() + LONGEST_GIVING, 0);
        self.is_cut = false;
        while let Some(frame) = self.ports.next_until(moment) {
            self.receive(&frame);
            count += 1;
            if may_cut && (count >= MOST_FRAMES || Moment::now() >= end) {
                self.is_cut = true;
                return frame.moment;
            }
        }
        moment
    }

    /// Returns when the agent next acts without input.
    fn agent_due(&self) -> Option<Moment> {
        self.running.as_ref()?.agent.due().map(|seconds| self.clock.end_of(seconds))
    }

    /// Gives the agent each second that has ended by this moment and was not given yet.
    pub fn give_seconds(&mut self, moment: Moment) {
        let mut left = self.clock.missing(moment);
        if left == 0 {
            return;
        }
        for before in (0..left).step_by(MOST_TICKS as usize) {
            self.record.write(moment, &Line::Ticks((left - before).min(MOST_TICKS)));
        }
        while let Some(running) = self.running.as_mut().filter(|_| left > 0) {
            let ticks = running.agent.ticks(left);
            left -= ticks.taken;
            self.clock.given += u64::from(ticks.taken);
            self.server.forget_tables();
            self.queue_sent(&ticks.sent, self.clock.end_of(0));
            if ticks.aged_out > 0 {
                self.remove_aged();
            }
        }
        if self.ports.all.iter().any(|port| port.is_refused()) {
            self.follow_known_links();
        }
    }

    /// Queues frames of ports that are due at this moment.
    pub fn queue_sent(&mut self, sent: &[Sent], moment: Moment) {
        let now = Moment::now();
        for one in sent {
            self.ports.all[usize::from(one.port)].counts.left_out += self.outbox.add(*one, moment, now);
        }
    }

    /// Builds the queued frames from the present configuration, and sends them.
    pub fn send(&mut self) {
        for one in self.outbox.take() {
            let running = self.running.as_ref();
            let frame = running.and_then(|running| running.agent.frame_of(one.port, one.mark).ok());
            frame.into_iter().for_each(|frame| self.ports.all[usize::from(one.port)].send(frame));
        }
    }
}

/// Splits news of interfaces into two parts, and keeps their order. For each name, the first part
/// has all news up to the last that says that an interface of this name is running.
fn ran_and_later(news: Vec<Link>) -> (Vec<Link>, Vec<Link>) {
    let last_run = |one: &Link| news.iter().rposition(|other| other.name == one.name && other.is_running);
    let ran: Vec<bool> = news.iter().enumerate().map(|(number, one)| last_run(one) >= Some(number)).collect();
    let (came, went): (Vec<_>, Vec<_>) = news.into_iter().zip(ran).partition(|one| one.1);
    (came.into_iter().map(|one| one.0).collect(), went.into_iter().map(|one| one.0).collect())
}

#[cfg(test)]
impl Live {
    /// Returns one with ports whose interfaces are missing, and without an agent.
    pub fn without_interfaces(arguments: Arguments, names: &[&str]) -> Live {
        let no_file = || File::open("/dev/null").expect("a file");
        let mut ports = Ports::open(&[], &arguments, false).expect("no sockets");
        let port = |name: &&str| crate::port::Port::new(name, true, Awaited::new(no_file()));
        ports.all.extend(names.iter().map(port));
        Live::new(arguments, Links::over(no_file()), ports, None).expect("files that wake it")
    }
}

#[cfg(test)]
mod tests {
    use super::*;
    use crate::options::AgentOptions;
    use crate::state::Saved;
    use crate::sys::stopped::StoppedClocks;
    use crate::time::SECOND;
    use std::os::unix::io::OwnedFd;
    use std::os::unix::net::UnixDatagram;

    #[test]
    fn a_second_waits_for_a_port_that_rests() {
        let _clocks = StoppedClocks::new();
        let words = ["--mac=02:00:00:00:00:01".to_string()];
        let agent = AgentOptions::read(&words).expect("options");
        let mut live =
            Live::without_interfaces(Arguments { agent, ..Arguments::default() }, &["eth0", "eth1"]);
        live.open(&Saved::default()).expect("an agent");
        live.following.note_all(&live.links);
        let (_theirs, ours) = UnixDatagram::pair().expect("two sockets");
        live.ports.all[0].socket = Awaited::new(File::from(OwnedFd::from(ours)));
        let now = Moment::now();
        live.ports.all[1].reception.read_to = now;
        let deadline = |live: &mut Live, read_to| {
            live.ports.all[0].reception.read_to = read_to;
            live.await_files(now);
            live.deadline(now, Some(now))
        };
        let before = now - Duration::from_millis(1);
        assert_eq!(deadline(&mut live, before), now, "it is read at once");
        live.ports.share.count(Duration::from_secs(3600), now);
        let rests_until = live.ports.all_rest_until(now, false);
        assert!(rests_until > now);
        assert_eq!(deadline(&mut live, before), rests_until);
        live.ports.all[0].reception.failures = u32::MAX;
        assert_eq!(deadline(&mut live, before), now, "no frame of a port that fails is waited for");
        live.ports.all[0].reception.failures = 0;
        assert_eq!(deadline(&mut live, now), now, "all frames before the second's end were read");
    }

    #[test]
    fn a_second_does_not_wait_long_for_frames() {
        let clocks = StoppedClocks::new();
        let words = ["--mac=02:00:00:00:00:01".to_string()];
        let agent = AgentOptions::read(&words).expect("options");
        let mut live = Live::without_interfaces(Arguments { agent, ..Arguments::default() }, &["eth0"]);
        live.open(&Saved::default()).expect("an agent");
        let ended = live.clock.end_of(1);
        clocks.pass(SECOND + Duration::from_millis(1));
        let (old, long) = (Moment::now() - 3 * SECOND, 3600 * SECOND);
        live.note_late(Moment::now() - long);
        assert_eq!(live.late, LONGEST_TURN, "this process may have been stopped");
        assert_eq!(live.latest(old, ended), ended + (MOST_LATE - LONGEST_TURN));
        live.give(Vec::new(), old);
        assert_eq!(live.clock.given, 0, "it waits");
        live.note_late(Moment::now() - long);
        live.give(Vec::new(), old);
        assert_eq!(live.clock.given, 1, "it was given although frames may be left");
        live.note_late(Moment::now());
        assert_eq!(live.late, Duration::ZERO);
    }

    #[test]
    fn frames_are_sent_as_seconds_pass_while_the_link_is_up() {
        let words = ["--mac=02:00:00:00:00:01".to_string()];
        let agent = AgentOptions::read(&words).expect("options");
        let mut live = Live::without_interfaces(Arguments { agent, ..Arguments::default() }, &["eth0"]);
        live.open(&Saved::default()).expect("an agent");
        // an interface that is missing accepts no frame, which is counted
        let count = |live: &mut Live, seconds| {
            live.give_seconds(live.clock.end_of(seconds));
            live.send();
            std::mem::take(&mut live.ports.all[0].counts.unsent)
        };
        assert_eq!(count(&mut live, 3), 0, "the link is down");
        live.give_link(0, true);
        assert_eq!([1, 1, 1].map(|seconds| count(&mut live, seconds)), [1, 0, 0], "the first frame");
        live.give_link(0, false);
        assert_eq!(count(&mut live, 60), 0, "the link is down again");
    }

    #[test]
    fn after_a_day_each_port_sends_its_last_frame() {
        let clocks = StoppedClocks::new();
        let words = ["--mac=02:00:00:00:00:01".to_string()];
        let agent = AgentOptions::read(&words).expect("options");
        let names: Vec<String> = (0..64).map(|number| format!("eth{number}")).collect();
        let names: Vec<&str> = names.iter().map(String::as_str).collect();
        let mut live = Live::without_interfaces(Arguments { agent, ..Arguments::default() }, &names);
        live.open(&Saved::default()).expect("an agent");
        (0..names.len()).for_each(|port| live.give_link(port, true));
        clocks.pass(86_400 * SECOND);
        live.give_seconds(Moment::now());
        let sent: u64 = live.totals(None).iter().map(|port| u64::from(port.numbers[0].1)).sum();
        let left_out: u64 = live.ports.all.iter().map(|port| port.counts.left_out).sum();
        assert!(sent > 184_000, "{sent}");
        assert_eq!(sent - left_out, 64);
        live.send();
        assert!(live.ports.all.iter().all(|port| port.counts.unsent == 1), "an interface is missing");
    }

    #[test]
    fn links_that_came_up_are_given_first() {
        // names in the order of news, upper case if the interface is running
        for (news, first, second) in [
            ("", "", ""),
            ("a", "", "a"),
            ("A", "A", ""),
            ("aA", "aA", ""),
            ("Aa", "A", "a"),
            ("AaBb", "AB", "ab"),
            ("aAaBA", "aAaBA", ""),
            ("abA", "aA", "b"),
        ] {
            let link = |letter: char| Link {
                name: letter.to_ascii_lowercase().into(),
                is_running: letter.is_ascii_uppercase(),
                ..Link::default()
            };
            let text = |links: Vec<Link>| -> String {
                let letter = |one: &Link| match one.is_running {
                    true => one.name.to_uppercase(),
                    false => one.name.clone(),
                };
                links.iter().map(letter).collect()
            };
            let (came, went) = ran_and_later(news.chars().map(link).collect());
            assert_eq!((&text(came)[..], &text(went)[..]), (first, second), "{news}");
        }
    }
}
