//! Lets a test stop the clocks of its thread, and move them.

use super::{read_running, Clock};
use std::cell::Cell;
use std::time::Duration;

thread_local! {
    /// What the clocks show: the wall clock and the time since the boot.
    static SHOWN: Cell<Option<(Duration, Duration)>> = const { Cell::new(None) };
}

pub fn read(clock: Clock) -> Option<Duration> {
    let (wall, boot) = SHOWN.with(Cell::get)?;
    Some(match clock {
        Clock::Wall => wall,
        Clock::Process => Duration::ZERO,
        _ => boot,
    })
}

/// Clocks that show the same time until the test lets time pass. They run again once this is dropped.
pub struct StoppedClocks(());

impl StoppedClocks {
    pub fn new() -> StoppedClocks {
        SHOWN.with(|shown| shown.set(Some((read_running(Clock::Wall), read_running(Clock::Boot)))));
        StoppedClocks(())
    }

    pub fn pass(&self, time: Duration) {
        SHOWN.with(|shown| shown.set(shown.get().map(|(wall, boot)| (wall + time, boot + time))));
    }
}

impl Drop for StoppedClocks {
    fn drop(&mut self) {
        SHOWN.with(|shown| shown.set(None));
    }
}
