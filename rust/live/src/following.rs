//! While the agent runs, follows changes of the interfaces that patterns select, and of the host's
//! name and address. Replaces the agent if necessary. Also saves the state.

use crate::identity::management_address;
use crate::lines::set_text;
use crate::links::Links;
use crate::live::Live;
use crate::lookup::HostName;
use crate::options::is_text;
use crate::patterns;
use crate::reports::{self, counted, notice, warn};
use crate::sys;
use crate::time::{Moment, SECOND};
use std::io::ErrorKind;
use std::net::Ipv4Addr;
use std::time::Duration;

/// How long an address must be new, or a pattern's interface new or gone, before the agent is
/// replaced. One new agent has all changes of interfaces of this time.
const TO_STAY: Duration = Duration::from_secs(2);
/// The least time between two agents for other ports: fewer than 60 in two minutes.
const BETWEEN_AGENTS: Duration = Duration::from_millis(2100);
const BETWEEN_TRIES: Duration = Duration::from_secs(10);
/// The longest wait: short enough that a record has a comment with the time in each minute.
const LONGEST_SLEEP: Duration = Duration::from_secs(30);
const BETWEEN_STATES: Duration = Duration::from_secs(60);

/// How far the changes of interfaces were followed.
#[derive(Default)]
pub struct Following {
    /// The value of `links.changes` when the ports were last matched with the interfaces. None if
    /// that must be done again.
    seen: Option<u64>,
    /// When to try next to open or replace the agent.
    next_try: Moment,
    /// Since when an interface that a pattern selects is no port yet.
    new_since: Option<Moment>,
    /// When the agent was last replaced for other ports.
    replaced_at: Option<Moment>,
    /// True if it was reported that lldpa-live waits for an interface.
    pub is_wait_reported: bool,
}

impl Following {
    /// Returns when changes are followed next: at the next try if interfaces have changed, otherwise
    /// at the moment of the next change, but not before the next try.
    fn next_look(&self, links: &Links, next_change: Option<Moment>) -> Option<Moment> {
        let is_behind = self.seen != Some(links.changes);
        let moment = if is_behind { Some(self.next_try) } else { next_change };
        moment.map(|moment| moment.max(self.next_try))
    }

    pub fn note_all(&mut self, links: &Links) {
        self.seen = Some(links.changes);
    }

    fn look_again(&mut self) {
        self.seen = None;
    }

    fn try_later(&mut self, now: Moment) {
        self.look_again();
        self.next_try = now + BETWEEN_TRIES;
    }
}

/// An address that was found, and since when.
#[derive(Clone, Copy)]
struct Candidate {
    address: Option<Ipv4Addr>,
    since: Moment,
}

/// The host's name and address, and what of them the agent announces.
pub struct Announced {
    pub management: Option<Ipv4Addr>,
    /// Another address than that, which was found since.
    candidate: Option<Candidate>,
    host_name: String,
    /// A name of the host, and what the name service says that this is with its domain.
    pub full_name: Option<(String, String)>,
    /// The name that is to be announced, unless an option or a command sets another.
    pub wanted_name: String,
    /// What describes this host.
    pub description: Option<String>,
    /// The host's name as last given to the agent, or empty.
    pub name: String,
    /// True if it was reported that there is no IPv4 address to announce.
    is_missing_reported: bool,
}

impl Announced {
    pub fn new(management: Option<Ipv4Addr>) -> Announced {
        Announced {
            management,
            candidate: None,
            host_name: sys::host_name(),
            full_name: None,
            wanted_name: sys::host_name(),
            description: None,
            name: String::new(),
            is_missing_reported: false,
        }
    }

    /// Returns the host's name, with its domain if that is known.
    fn present_name(&self) -> &str {
        let full = self.full_name.as_ref().filter(|told| told.0 == self.host_name);
        full.map_or(&self.host_name, |told| &told.1)
    }

    /// Notes whether there is no address to announce. Returns true if that is news.
    fn note_missing(&mut self, is_missing: bool) -> bool {
        let was_reported = std::mem::replace(&mut self.is_missing_reported, is_missing);
        is_missing && !was_reported
    }

    /// Notes the address that was found. Returns it if it differs from the announced one, and has
    /// done so for long enough.
    fn note_address(&mut self, found: Option<Ipv4Addr>, now: Moment) -> Option<Option<Ipv4Addr>> {
        if found == self.management {
            self.candidate = None;
            return None;
        }
        let same = self.candidate.filter(|candidate| candidate.address == found);
        let candidate = same.unwrap_or(Candidate { address: found, since: now });
        self.candidate = Some(candidate);
        (now.since(candidate.since) >= TO_STAY).then_some(found)
    }
}

impl Live {
    pub fn follow(&mut self) {
        let now = Moment::now();
        let is_due = self.next_look().map_or(false, |moment| now >= moment);
        if self.running.is_none() {
            if is_due {
                self.following.note_all(&self.links);
                self.try_to_open();
            }
            return;
        }
        if is_due {
            self.following.note_all(&self.links);
            self.follow_ports(now);
            self.follow_address(now);
        }
        if self.ports.drop_report_at.map_or(false, |moment| now >= moment) {
            self.ports.report_drops(now);
        }
        if now >= self.next_state {
            self.next_state = now + BETWEEN_STATES;
            self.save_state();
        }
    }

    /// Reports why the agent could not be opened or replaced. Another try follows.
    pub fn try_later(&mut self, why: &str) {
        self.following.try_later(Moment::now());
        warn(why);
    }

    fn next_look(&self) -> Option<Moment> {
        let next_change = self.running.as_ref().and_then(|_| self.next_change());
        self.following.next_look(&self.links, next_change)
    }

    /// Returns when an interface will have been gone or new, or an address new, for long enough.
    fn next_change(&self) -> Option<Moment> {
        let of_address = self.announced.candidate.map(|candidate| candidate.since + TO_STAY);
        self.next_ports().into_iter().chain(of_address).min()
    }

    /// Returns when ports will be added or removed, if interfaces came or went.
    fn next_ports(&self) -> Option<Moment> {
        let by_pattern = self.ports.all.iter().filter(|port| !port.is_named);
        let gone = by_pattern.filter_map(|port| port.interface.gone_since);
        let first = gone.chain(self.following.new_since).min()? + TO_STAY;
        let again = self.following.replaced_at.map(|moment| moment + BETWEEN_AGENTS);
        again.into_iter().chain([first]).max()
    }

    /// Adds ports for interfaces that patterns select. Removes them when the interfaces are gone.
    fn follow_ports(&mut self, now: Moment) {
        let selectors = &self.arguments.selectors;
        let has_patterns = self.arguments.once.is_none() && selectors.iter().any(|one| patterns::gives(one));
        let new = if has_patterns { self.ports.further(selectors, &self.links) } else { Vec::new() };
        self.following.new_since = self.following.new_since.or(Some(now)).filter(|_| !new.is_empty());
        if self.next_ports().map_or(true, |moment| now < moment) {
            return;
        }
        let gone = self.ports.gone();
        if gone.is_empty() && new.is_empty() {
            return;
        }
        let mut names = self.ports.names();
        names.retain(|name| !gone.contains(name));
        names.extend(new.iter().cloned());
        if !names.is_empty() && !self.replace(names.clone(), self.announced.management) {
            return;
        }
        self.following.look_again(); // now there may be room for another port
        self.following.replaced_at = Some(now);
        self.following.new_since = None;
        self.note_removed(&gone);
        self.ports.remove(&gone);
        if names.is_empty() {
            self.running = None;
            self.following.is_wait_reported = false;
            self.report_waiting();
            return;
        }
        self.add_ports(&new);
    }

    fn note_removed(&mut self, names: &[String]) {
        for port in self.ports.all.iter().filter(|port| names.contains(&port.name)) {
            self.server.note_removed(&port.name, port.neighbors.len());
        }
    }

    /// Adds ports that the agent has already.
    fn add_ports(&mut self, names: &[String]) {
        names.iter().for_each(|name| self.ports.add(name));
        self.count_from_here(names, &Default::default());
        self.apply_settings_of(names);
        self.follow_known_links();
        self.send();
    }

    pub fn present_address(&self) -> Option<Ipv4Addr> {
        if self.arguments.agent.management.is_some() || self.arguments.no_management {
            return self.arguments.agent.management;
        }
        management_address(&self.ports.names(), &self.links, &self.arguments.addresses)
    }

    fn follow_address(&mut self, now: Moment) {
        let found = self.present_address();
        let other = match self.announced.note_address(found, now) {
            Some(other) => other,
            None => return,
        };
        if self.replace(self.ports.names(), other) {
            self.announced.management = other;
            self.announced.candidate = None;
            let text = other.map_or("no longer announced".into(), |address| address.to_string());
            warn(&format!("the management address is {text}"));
            self.report_address();
        }
    }

    pub fn report_address(&mut self) {
        let is_asked = !self.arguments.no_management && !self.arguments.agent.numbers.receive_only;
        let is_missing = is_asked && self.announced.management.is_none();
        if self.announced.note_missing(is_missing) {
            notice("there is no IPv4 address to announce");
        }
    }

    /// Takes what the name service says of the host's name.
    pub fn take_full_name(&mut self) {
        match self.host.as_mut().map(HostName::read) {
            Some(Ok(told)) => self.announced.full_name = told.or(self.announced.full_name.take()),
            Some(Err(fault)) if fault.kind() == ErrorKind::WouldBlock => (),
            _ => {
                self.host = None;
                warn("the host's name is no longer looked up: a change of its domain needs a restart");
            }
        }
        self.follow_name();
    }

    /// Gives the agent the host's new name, unless an option or a command has set the agent's name.
    pub fn follow_name(&mut self) {
        let host_name = sys::host_name();
        if host_name != self.announced.host_name {
            self.announced.host_name = host_name;
            self.host.iter_mut().for_each(HostName::ask);
        }
        let name = self.announced.present_name().to_string();
        if name == self.announced.wanted_name || self.arguments.agent.hostname.is_some() {
            return;
        }
        self.announced.wanted_name = name.clone();
        let is_ours =
            |running: &crate::agent::Running| running.agent.chassis().hostname == self.announced.name;
        if !self.running.as_ref().map_or(false, is_ours) {
            return;
        }
        let is_able = is_text(&name) && !name.contains('"');
        if is_able && self.command(set_text("hostname", &name).to_string()).is_ok() {
            self.announced.name = name;
        } else {
            notice(&format!("the host name {name} cannot be announced, so the old one stays"));
        }
    }

    /// Reports the service's state to the service manager, and the events that were left out.
    pub fn report_status(&mut self) {
        if self.running.is_some() && self.manager.is_there() {
            let (neighbors, ports) = (self.ports.neighbors().count(), self.ports.all.len());
            let refused = match self.settings.count_refused() {
                0 => String::new(),
                count => format!("; {} refused", counted(count, "setting")),
            };
            let status = format!("{} on {}{refused}", counted(neighbors, "neighbor"), counted(ports, "port"));
            self.manager.set_status(status);
        }
        self.manager.send_status(Moment::now());
        self.events.end_minute();
        reports::flush();
        self.manager.send_keepalive(Moment::now());
    }

    /// Returns when the wait for input must end. `due` is when the agent next acts without input.
    pub fn deadline(&self, now: Moment, due: Option<Moment>) -> Moment {
        let is_question = self.server.has_question();
        let reads_at_once = is_question && self.ports.all_rest_until(now, true) <= now;
        let of_agent = |moment: Option<Moment>| moment.filter(|_| self.running.is_some());
        let is_refused = self.ports.all.iter().any(|port| port.is_refused());
        let deadlines = [
            due.map(|due| if self.ports.may_keep_back(due) { self.latest(due, now) } else { due }),
            is_refused.then(|| now + SECOND),
            (self.is_cut || reads_at_once).then_some(now),
            self.next_look(),
            of_agent(self.ports.deadline(now, is_question)),
            of_agent(self.ports.drop_report_at),
            self.manager.deadline(),
            self.events.deadline(),
            reports::deadline(now),
            of_agent(self.slots.as_ref().map(|_| self.next_state)),
            self.server.deadline(now),
        ];
        deadlines.into_iter().flatten().fold(now + LONGEST_SLEEP, Moment::min)
    }
}

#[cfg(test)]
mod tests {
    use super::*;
    use crate::arguments::Arguments;
    use crate::options::AgentOptions;
    use std::fs::File;

    #[test]
    fn another_try_comes_after_a_while_and_not_before() {
        let mut links = Links::over(File::open("/dev/null").expect("a file"));
        let at = |seconds| Moment::after_boot(Duration::from_secs(seconds));
        let mut following = Following::default();
        assert_eq!(following.next_look(&links, None), Some(Moment::default()));
        following.note_all(&links);
        assert_eq!(following.next_look(&links, None), None);
        assert_eq!(following.next_look(&links, Some(at(98))), Some(at(98)));

        following.try_later(at(100));
        let again = Some(at(100) + BETWEEN_TRIES);
        assert_eq!(following.next_look(&links, None), again, "although no interface changes");
        following.note_all(&links);
        assert_eq!(following.next_look(&links, None), None);
        assert_eq!(following.next_look(&links, Some(at(98))), again, "although a change is due");
        assert_eq!(following.next_look(&links, Some(at(200))), Some(at(200)));
        links.changes += 1;
        assert_eq!(following.next_look(&links, Some(at(200))), again);
    }

    #[test]
    fn an_address_that_is_missing_is_news_once() {
        let mut announced = Announced::new(None);
        for (is_missing, is_news) in
            [(false, false), (true, true), (true, false), (false, false), (true, true)]
        {
            assert_eq!(announced.note_missing(is_missing), is_news);
        }
    }

    #[test]
    fn an_address_that_was_given_or_refused_is_not_followed() {
        let given = AgentOptions::read(&["--management=192.0.2.7".to_string()]).expect("options");
        for (agent, no_management, last) in
            [(given.clone(), false, Some(7)), (given, true, Some(7)), (AgentOptions::default(), true, None)]
        {
            let arguments = Arguments { agent, no_management, ..Arguments::default() };
            let mut live = Live::without_interfaces(arguments, &["eth0"]);
            live.links.addresses = vec![((1, Ipv4Addr::new(192, 0, 2, 9)), 0)];
            assert_eq!(live.present_address(), last.map(|last| Ipv4Addr::new(192, 0, 2, last)));
        }
    }

    #[test]
    fn an_address_must_stay_before_it_is_announced() {
        let address = |last: u8| Some(Ipv4Addr::new(192, 0, 2, last));
        let begin = Moment::after_boot(Duration::from_secs(100));
        let mut announced = Announced::new(address(1));
        // milliseconds, the address that is found then, and what is to be announced
        for (milliseconds, found, wanted) in [
            (0, address(1), None),
            (100, address(2), None),
            (2099, address(2), None),
            (2100, address(2), Some(address(2))),
            (2200, address(3), None),
            (4100, address(2), None), // again another one
            (5000, address(1), None),
            (6000, address(2), None),
            (7000, None, None),
            (9000, None, Some(None)),
        ] {
            let now = begin + Duration::from_millis(milliseconds);
            assert_eq!(announced.note_address(found, now), wanted, "{milliseconds}");
        }
    }
}
