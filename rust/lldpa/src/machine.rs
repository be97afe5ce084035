//! The transmit machine of one port (clause 9).

use crate::fault::RangeFault;
use crate::numbers::numbered;
use crate::sys;

/// What happened to a port.
#[derive(Clone, Copy, Debug, PartialEq, Eq, Hash)]
pub enum Cause {
    /// One second has passed.
    Tick = 0,
    /// Something in the local system has changed.
    Change = 1,
    /// A new neighbor was stored.
    Neighbor = 2,
    /// From now on the port may not transmit.
    Stop = 3,
    /// From now on the port may transmit.
    Allow = 4,
    /// The link went down.
    Down = 5,
    /// The link came up.
    Up = 6,
    /// Nothing that concerns transmitting.
    Nothing = 7,
}

numbered! {
    /// Which frame to send.
    Mark {
        /// A frame with all that the port announces.
        Ordinary = 1,
        /// A frame with a time to live of 0.
        Shutdown = 2,
    }
}

/// The transmit state machine of one port (IEEE 802.1AB-2009, clause 9).
///
/// ```
/// use lldpa::{Cause, Machine, Mark};
/// let mut machine = Machine::new(5, 4, 2, true)?;
/// assert_eq!(machine.event(Cause::Tick, 30)?, Some(Mark::Ordinary));
/// assert_eq!(machine.event(Cause::Tick, 30)?, None);
/// # Ok::<(), lldpa::RangeFault>(())
/// ```
#[derive(Clone, Debug)]
pub struct Machine {
    held: sys::lldpa_machine,
}

impl Machine {
    /// Returns a machine with full credit, for an inactive port with its link up. `credit_max` is 1
    /// to 10, `fast_init` 1 to 8, `reinit` 1 to 10 seconds. `allowed` says whether the port may
    /// transmit. Fails if a number is out of its range, or if the archive has another version.
    pub fn new(credit_max: u8, fast_init: u8, reinit: u8, allowed: bool) -> Result<Machine, RangeFault> {
        let mut held = sys::lldpa_machine::default();
        if !crate::is_of_this_version() {
            return Err(RangeFault::Version);
        }
        // SAFETY: the pointer is to a local value.
        let answer = unsafe {
            sys::lldpa_transmit_new(&mut held, credit_max.into(), fast_init.into(), reinit.into(), allowed)
        };
        RangeFault::check(answer)?;
        Ok(Machine { held })
    }

    /// Applies an event, and returns which frame to send. `interval` is the tx-interval after the
    /// event, 1 to 3600 seconds. If `interval` is out of range, the call fails and changes nothing.
    pub fn event(&mut self, cause: Cause, interval: u16) -> Result<Option<Mark>, RangeFault> {
        let mut mark = 0;
        // SAFETY: the pointers are to the machine's own struct and to a local value.
        let answer =
            unsafe { sys::lldpa_transmit_event(&mut self.held, cause as u32, interval.into(), &mut mark) };
        RangeFault::check(answer)?;
        Ok((mark != sys::LLDPA_QUIET).then(|| Mark::of(mark.into())))
    }

    /// Returns how many ordinary frames may be sent before the next tick, 0 to 10.
    pub fn credit(&self) -> u8 {
        self.held.credit
    }
}
