//! The frames that wait to be sent.

use crate::time::{Moment, SECOND};
use lldpa::Sent;

/// Which frames are to be sent, and when each was due.
#[derive(Default)]
pub struct Outbox(Vec<(Sent, Moment)>);

impl Outbox {
    /// Adds a frame, and removes those of its port that are a second late. Returns how many these were.
    pub fn add(&mut self, sent: Sent, moment: Moment, now: Moment) -> u64 {
        let count = self.0.len();
        self.0.retain(|one| one.0.port != sent.port || now.since(one.1) < SECOND);
        let late = count - self.0.len();
        self.0.push((sent, moment));
        late as u64
    }

    pub fn take(&mut self) -> Vec<Sent> {
        std::mem::take(&mut self.0).into_iter().map(|one| one.0).collect()
    }
}

#[cfg(test)]
mod tests {
    use super::*;
    use lldpa::Mark;

    #[test]
    fn late_frames_of_a_port_are_left_out() {
        let (now, mut outbox) = (Moment::after_boot(10 * SECOND), Outbox::default());
        // a port, how many seconds late its frame is, and how many frames are left out then
        for (port, late, left_out) in [(1, 3, 0), (0, 2, 0), (0, 1, 1), (0, 0, 1), (0, 0, 0), (2, 9, 0)] {
            let sent = Sent { port, mark: Mark::Shutdown };
            assert_eq!(outbox.add(sent, now - late * SECOND, now), left_out, "{port} {late}");
        }
        let ports: Vec<u8> = outbox.take().iter().map(|one| one.port).collect();
        assert_eq!((ports, outbox.take().len()), (vec![1, 0, 0, 2], 0));
    }
}
