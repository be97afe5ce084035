//! Moments since the boot, times of the wall clock, and the seconds that the agent is given.

use crate::sys::{read_clock, Clock as Kernel};
use std::fmt;
use std::ops::{Add, Sub};
use std::time::Duration;

/// A second. (`Duration::from_secs(1)` by a short name.)
pub const SECOND: Duration = Duration::from_secs(1);
/// Changes of the wall clock up to this are ignored, so a moment may be wrong by this much.
pub const INEXACT: Duration = Duration::from_millis(1);

fn nanoseconds(duration: Duration) -> i64 {
    i64::try_from(duration.as_nanos()).unwrap_or(i64::MAX)
}

/// A moment: nanoseconds since the boot, also those in suspend. The default is the boot.
#[derive(Clone, Copy, Debug, Default, PartialEq, Eq, PartialOrd, Ord)]
pub struct Moment(i64);

impl Moment {
    pub fn now() -> Moment {
        Moment::after_boot(read_clock(Kernel::Boot))
    }

    pub fn after_boot(duration: Duration) -> Moment {
        Moment(nanoseconds(duration))
    }

    /// Returns the time since an earlier moment, or zero if that is later.
    pub fn since(self, earlier: Moment) -> Duration {
        Duration::from_nanos(u64::try_from(self.0.saturating_sub(earlier.0)).unwrap_or(0))
    }

    pub fn since_boot(self) -> Duration {
        self.since(Moment::default())
    }

    /// Returns when this span began, of those of this length that follow one another from the boot.
    pub fn begin_of(self, length: Duration) -> Moment {
        Moment(self.0 - self.0.rem_euclid(nanoseconds(length).max(1)))
    }

    /// Returns the present wall clock's time of this moment.
    pub fn wall_time(self) -> WallTime {
        WallTime(self.0.saturating_add(WallTime::now().0.saturating_sub(Moment::now().0)))
    }
}

impl Add<Duration> for Moment {
    type Output = Moment;

    fn add(self, duration: Duration) -> Moment {
        Moment(self.0.saturating_add(nanoseconds(duration)))
    }
}

impl Sub<Duration> for Moment {
    type Output = Moment;

    fn sub(self, duration: Duration) -> Moment {
        Moment(self.0.saturating_sub(nanoseconds(duration)))
    }
}

/// A time of the wall clock, which may be set: nanoseconds since 1970. Printed as
/// `2026-11-23T19:40:00Z`.
#[derive(Clone, Copy, Debug, PartialEq, Eq, PartialOrd, Ord)]
pub struct WallTime(i64);

impl WallTime {
    pub fn now() -> WallTime {
        WallTime::after_1970(read_clock(Kernel::Wall))
    }

    pub fn after_1970(duration: Duration) -> WallTime {
        WallTime(nanoseconds(duration))
    }

    pub fn since_1970(self) -> Duration {
        Duration::from_nanos(u64::try_from(self.0).unwrap_or(0))
    }

    /// Returns how far apart two times are.
    pub fn apart(self, other: WallTime) -> Duration {
        Duration::from_nanos(self.0.abs_diff(other.0))
    }

    /// Returns this time as the clock shows it after it was set from one time to another.
    pub fn after_setting(self, from: WallTime, to: WallTime) -> WallTime {
        WallTime(self.0.saturating_add(to.0.saturating_sub(from.0)))
    }

    /// Returns the whole seconds since 1970.
    pub fn second(self) -> WallTime {
        WallTime(self.0 - self.0.rem_euclid(nanoseconds(SECOND)))
    }
}

impl Add<Duration> for WallTime {
    type Output = WallTime;

    fn add(self, duration: Duration) -> WallTime {
        WallTime(self.0.saturating_add(nanoseconds(duration)))
    }
}

impl fmt::Display for WallTime {
    fn fmt(&self, out: &mut fmt::Formatter<'_>) -> fmt::Result {
        let seconds = self.0.div_euclid(nanoseconds(SECOND));
        let (days, rest) = (seconds.div_euclid(86_400) + 719_468, seconds.rem_euclid(86_400));
        let (era, day) = (days.div_euclid(146_097), days.rem_euclid(146_097));
        let year = (day - day / 1460 + day / 36_524 - day / 146_096) / 365;
        let day = day - (365 * year + year / 4 - year / 100);
        let month = (5 * day + 2) / 153; // from March on
        let date = day - (153 * month + 2) / 5 + 1;
        let (year, month) = (year + era * 400 + month / 10, (month + 2) % 12 + 1);
        let (hour, minute, second) = (rest / 3600, rest / 60 % 60, rest % 60);
        write!(out, "{year:04}-{month:02}-{date:02}T{hour:02}:{minute:02}:{second:02}Z")
    }
}

/// Returns the processor time that all threads of this process have used.
pub fn processor_time() -> Duration {
    read_clock(Kernel::Process)
}

/// Counts whole seconds since its creation, each exactly once, even if the wall clock is set.
pub struct Clock {
    begin: Moment,
    /// How many seconds the agent was given.
    pub given: u64,
    /// The time of the wall clock at the boot, as of the last look.
    boot: WallTime,
}

impl Clock {
    pub fn new() -> Clock {
        Clock { begin: Moment::now(), given: 0, boot: boot_time() }
    }

    /// Notes the wall clock if it was set by more than INEXACT. Smaller changes are ignored, so that
    /// moments keep the order of their stamps.
    pub fn note_wall_clock(&mut self) {
        let boot = boot_time();
        if boot.apart(self.boot) > INEXACT {
            self.boot = boot;
        }
    }

    /// Converts a time stamp of the wall clock to a moment, `now` at the latest. No stamp means `now`.
    pub fn moment(&self, stamp: Option<WallTime>, now: Moment) -> Moment {
        stamp.map_or(now, |stamp| Moment(stamp.0.saturating_sub(self.boot.0)).min(now))
    }

    /// Returns how many seconds have ended by this moment and were not yet given to the agent.
    pub fn missing(&self, moment: Moment) -> u32 {
        let missing = moment.since(self.begin).as_secs().saturating_sub(self.given);
        u32::try_from(missing).unwrap_or(u32::MAX)
    }

    /// Returns when this many seconds, after those already given to the agent, will have ended.
    pub fn end_of(&self, seconds: u32) -> Moment {
        self.begin + Duration::from_secs(self.given + u64::from(seconds))
    }
}

/// Returns the wall clock's time of the boot, from the quickest of three readings.
fn boot_time() -> WallTime {
    let readings = [(); 3].map(|()| {
        let before = Moment::now();
        let wall = WallTime::now();
        (Moment::now().since(before), WallTime(wall.0 - before.0))
    });
    readings.into_iter().min().map_or(WallTime(0), |reading| reading.1)
}

#[cfg(test)]
mod tests {
    use super::*;
    use crate::sys::stopped::StoppedClocks;

    const MILLISECOND: Duration = Duration::from_millis(1);

    #[test]
    fn no_frame_arrives_in_the_future() {
        let _clocks = StoppedClocks::new();
        let clock = Clock::new();
        let now = Moment::now();
        for stamp in [None, Some(WallTime::now() + 3600 * SECOND), Some(WallTime(i64::MAX / 2))] {
            assert_eq!(clock.moment(stamp, now), now, "{stamp:?}");
        }
        let past = WallTime(WallTime::now().0 - 5_000_000_000);
        assert_eq!(clock.moment(Some(past), now), now - 5 * SECOND);
    }

    #[test]
    fn each_second_is_counted_once() {
        let mut clock = Clock::new();
        let begin = clock.end_of(0);
        for (moment, given, missing) in [(999, 0, 0), (1000, 0, 1), (3700, 1, 2), (3700, 3, 0), (0, 3, 0)] {
            clock.given = given;
            assert_eq!(clock.missing(begin + moment * MILLISECOND), missing, "{moment} {given}");
        }
        assert_eq!(clock.missing(begin - SECOND), 0);
        assert_eq!(clock.end_of(2), begin + 5 * SECOND);
    }

    #[test]
    fn times_are_those_of_the_calendar() {
        for (seconds, text) in [
            (0, "1970-01-01T00:00:00Z"),
            (951_782_400, "2000-02-29T00:00:00Z"),
            (951_868_799, "2000-02-29T23:59:59Z"),
            (1_795_808_445, "2026-11-27T19:40:45Z"),
            (4_107_542_399, "2100-02-28T23:59:59Z"),
            (4_107_542_400, "2100-03-01T00:00:00Z"),
        ] {
            let time = WallTime::after_1970(Duration::from_secs(seconds) + 999 * MILLISECOND);
            assert_eq!(time.to_string(), text);
            assert_eq!(time.second().since_1970(), Duration::from_secs(seconds));
        }
    }

    #[test]
    fn times_do_not_go_below_zero() {
        let (one, other) = (Moment::after_boot(3 * SECOND), Moment::after_boot(5 * SECOND));
        assert_eq!((other.since(one), one.since(other)), (2 * SECOND, Duration::ZERO));
        assert_eq!(WallTime(7).apart(WallTime(4)), WallTime(4).apart(WallTime(7)));
        assert_eq!((one - 4 * SECOND).since_boot(), Duration::ZERO);
        assert_eq!(WallTime(7).after_setting(WallTime(4), WallTime(2)), WallTime(5));
        assert!(one - 4 * SECOND < Moment::default());
        assert_eq!((other + SECOND).begin_of(4 * SECOND), Moment::after_boot(4 * SECOND));
    }
}
