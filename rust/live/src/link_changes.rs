//! Gives the agent the changes of links.

use crate::lines::{set_status, Line};
use crate::links::Link;
use crate::live::Live;
use crate::time::Moment;
use lldpa::Status;

impl Live {
    /// Lets the ports follow changes of interfaces. Returns the ports whose links went down.
    pub fn follow_links(&mut self, links: &[Link]) -> Vec<String> {
        let (now, mut downs) = (Moment::now(), Vec::new());
        for link in links {
            for number in 0..self.ports.all.len() {
                for is_up in self.ports.all[number].follow(link, now) {
                    self.give_link(number, is_up);
                    downs.extend((!is_up).then(|| self.ports.all[number].name.clone()));
                }
            }
        }
        downs
    }

    pub fn follow_known_links(&mut self) {
        let known: Vec<Link> = self.links.all().cloned().collect();
        self.follow_links(&known);
    }

    /// Gives the agent the state of a port's link, and reports it.
    pub fn give_link(&mut self, port: usize, is_up: bool) {
        let (name, now) = (self.ports.all[port].name.clone(), Moment::now());
        let line = Line::Link(name.clone(), is_up);
        self.record.write(now, &line);
        self.events.report(&name, &format!("{name}: the link is {}", if is_up { "up" } else { "down" }));
        if let Some(running) = &mut self.running {
            let sent = running.give(&line);
            self.server.forget_tables();
            self.queue_sent(&sent, now);
        }
    }

    /// Empties the table of a port whose link went down, by disabling the port for a moment.
    pub fn empty_table(&mut self, name: &str) {
        if let Some(status) = self.running.as_ref().and_then(|running| running.status_of(name)) {
            for status in [Status::Disabled, status] {
                let _ = self.command(set_status(name, status).to_string());
            }
        }
    }
}
