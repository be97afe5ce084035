//! Counts the frames that the kernel and the limit drop, and reports each kind once a minute.

use crate::packet;
use crate::port::Port;
use crate::ports::Ports;
use crate::reports::notice;
use crate::time::Moment;
use std::time::Duration;

const BETWEEN_REPORTS: Duration = Duration::from_secs(60);

#[derive(Clone, Copy, PartialEq, Eq)]
enum Kind {
    Kernel,
    Limit,
}

/// What was reported of the drops of a kind.
pub struct DropReport {
    kind: Kind,
    reported: u64,
    /// When to report again.
    next: Moment,
}

impl DropReport {
    pub fn of_each_kind() -> [DropReport; 2] {
        [Kind::Kernel, Kind::Limit].map(|kind| DropReport { kind, reported: 0, next: Moment::default() })
    }

    fn count_at(&self, port: &Port) -> u64 {
        match self.kind {
            Kind::Kernel => port.counts.kernel_drops,
            Kind::Limit => port.counts.limit_drops,
        }
    }

    /// Reports drops that were not yet reported. Returns when to do so if it is too soon.
    fn report(&mut self, ports: &[Port], now: Moment) -> Option<Moment> {
        let drops: u64 = ports.iter().map(|port| self.count_at(port)).sum();
        let are_new = drops > self.reported;
        if are_new && now < self.next {
            return Some(self.next);
        }
        if are_new {
            notice(&self.text(ports, drops));
            self.next = now + BETWEEN_REPORTS;
        }
        self.reported = drops; // fewer if a port was removed
        None
    }

    fn text(&self, ports: &[Port], drops: u64) -> String {
        let (frames, were) = if drops == 1 { ("frame", "was") } else { ("frames", "were") };
        let what = match self.kind {
            Kind::Kernel => format!("the kernel has dropped {drops} {frames} that came too fast"),
            Kind::Limit => {
                format!("{drops} {frames} over the limit of 64 a second for a port {were} dropped")
            }
        };
        let ports = ports.iter().filter(|port| self.count_at(port) > 0);
        let ports: Vec<_> = ports.map(|port| format!("{} {}", port.name, self.count_at(port))).collect();
        format!("{what}: {}", ports.join(", "))
    }
}

impl Ports {
    /// Reports drops by the kernel and by the limit, each kind at most once a minute.
    pub fn report_drops(&mut self, now: Moment) {
        self.count_drops();
        let later = self.drop_reports.iter_mut().filter_map(|report| report.report(&self.all, now));
        self.drop_report_at = later.min();
    }

    pub fn count_drops(&mut self) {
        for port in &mut self.all {
            port.counts.kernel_drops += packet::drops(&port.socket.file);
        }
    }
}

#[cfg(test)]
mod tests {
    use super::*;
    use crate::waiting::Awaited;
    use std::fs::File;

    fn port(name: &str) -> Port {
        Port::new(name, true, Awaited::new(File::open("/dev/null").expect("a file")))
    }

    #[test]
    fn drops_are_reported_once_a_minute() {
        let mut ports = [port("eth0"), port("eth1")];
        let [_, mut report] = DropReport::of_each_kind();
        let begin = Moment::after_boot(BETWEEN_REPORTS);
        // seconds, the drops of eth0 until then, and when another report is due
        for (seconds, drops, wanted, reported) in [
            (0, 0, None, 0),
            (1, 3, None, 3),
            (2, 3, None, 3),
            (3, 9, Some(61), 3),
            (60, 9, Some(61), 3),
            (61, 9, None, 9),
            (62, 2, None, 2), // a port was removed
            (63, 3, Some(121), 2),
        ] {
            ports[0].counts.limit_drops = drops;
            ports[0].counts.kernel_drops = 1000;
            let due = report.report(&ports, begin + Duration::from_secs(seconds));
            assert_eq!(due, wanted.map(|second| begin + Duration::from_secs(second)), "{seconds}");
            assert_eq!(report.reported, reported, "{seconds}");
        }
    }

    #[test]
    fn one_frame_is_reported_too() {
        let (mut ports, begin) = ([port("eth0")], Moment::after_boot(BETWEEN_REPORTS));
        for mut report in DropReport::of_each_kind() {
            (ports[0].counts.kernel_drops, ports[0].counts.limit_drops) = (1, 1);
            assert_eq!((report.report(&ports, begin), report.next), (None, begin + BETWEEN_REPORTS));
            (ports[0].counts.kernel_drops, ports[0].counts.limit_drops) = (2, 2);
            assert_eq!(report.report(&ports, begin), Some(begin + BETWEEN_REPORTS));
        }
    }

    #[test]
    fn a_report_names_the_ports_that_lost_frames() {
        let mut ports = [port("eth0"), port("eth1"), port("eth2")];
        let [kernel, limit] = DropReport::of_each_kind();
        ports[0].counts.kernel_drops = 1;
        ports[0].counts.limit_drops = 4;
        ports[2].counts.limit_drops = 3;
        assert_eq!(kernel.text(&ports, 1), "the kernel has dropped 1 frame that came too fast: eth0 1");
        assert_eq!(
            limit.text(&ports, 7),
            "7 frames over the limit of 64 a second for a port were dropped: eth0 4, eth2 3"
        );
        assert_eq!(
            limit.text(&ports[2..], 1),
            "1 frame over the limit of 64 a second for a port was dropped: eth2 3"
        );
    }
}
