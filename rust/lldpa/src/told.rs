//! The values that the calls of an agent return.

use crate::machine::Mark;
use crate::numbers::numbered;
use crate::options::Role;
use crate::sys::{self, Statistics};
use alloc::string::String;
use alloc::vec::Vec;

/// A frame to send.
#[derive(Clone, Copy, Debug, PartialEq, Eq, Hash)]
pub struct Sent {
    /// The number of the port, from 0, in the order of the options.
    pub port: u8,
    /// Which kind of frame to send.
    pub mark: Mark,
}

numbered! {
    /// Which lines a show command asks for.
    Show {
        /// The neighbors of each port.
        Neighbors = 1,
        /// The counters of each port.
        Statistics = 2,
        /// The chassis of the agent itself.
        Chassis = 3,
        /// The current settings, and the status of each port.
        Configuration = 4,
    }
}

/// The result of a command: a show for [`crate::Agent::show`], or frames to send.
#[derive(Clone, Debug, PartialEq, Eq)]
pub struct Commanded {
    /// The show that was asked for, or None if the command is not a show command.
    pub show: Option<Show>,
    /// The frames to send.
    pub sent: Vec<Sent>,
}

/// The result of [`crate::Agent::ticks`].
#[derive(Clone, Debug, PartialEq, Eq)]
pub struct Ticks {
    /// The number of seconds that were counted.
    pub taken: u32,
    /// The number of neighbors that aged out at the last of these seconds.
    pub aged_out: u32,
    /// The frames to send at the last of these seconds.
    pub sent: Vec<Sent>,
}

impl Statistics {
    /// Returns each counter with its key, as `show statistics` names and orders them.
    pub fn by_key(&self) -> impl Iterator<Item = (&'static str, u32)> {
        let all = [
            ("sent", self.sent),
            ("shutdowns", self.shutdowns),
            ("received", self.received),
            ("discarded", self.discarded),
            ("errors", self.errors),
            ("tlvs-discarded", self.tlvs_discarded),
            ("unrecognized", self.unrecognized),
            ("ageouts", self.ageouts),
            ("drops", self.drops),
        ];
        IntoIterator::into_iter(all)
    }
}

numbered! {
    /// The status of a port.
    Status {
        /// The port receives and transmits.
        RxAndTx = 0,
        /// The port only receives.
        RxOnly = 1,
        /// The port only transmits.
        TxOnly = 2,
        /// The port neither receives nor transmits.
        Disabled = 3,
    }
}

/// The current settings of an agent.
#[derive(Clone, Debug, PartialEq, Eq, Hash)]
pub struct Configuration {
    /// The tx-interval in seconds.
    pub interval: u32,
    /// The tx-hold.
    pub hold: u32,
    /// The time to live of an ordinary frame, in seconds.
    pub ttl: u32,
    /// reinitDelay in seconds.
    pub reinit: u32,
    /// txFastInit.
    pub fast_init: u32,
    /// txCreditMax.
    pub credit_max: u32,
    /// How many neighbors each port may hold.
    pub max_neighbors: u32,
    /// The status of each port, in the order of the options.
    pub status: Vec<Status>,
}

/// What an agent says about its host.
#[derive(Clone, Debug, PartialEq, Eq, Hash)]
pub struct Chassis {
    /// The source address and the chassis ID of every frame.
    pub mac: [u8; 6],
    /// The role that the System Capabilities announce.
    pub role: Role,
    /// The IPv4 management address.
    pub management: Option<[u8; 4]>,
    /// The system name, printable ASCII.
    pub hostname: String,
    /// The system description, printable ASCII.
    pub description: String,
}

impl Chassis {
    pub(crate) fn of(told: &sys::lldpa_chassis_told) -> Chassis {
        let text =
            |octets: &[u8], length: u8| String::from_utf8_lossy(&octets[..usize::from(length)]).into_owned();
        Chassis {
            mac: told.mac,
            role: Role::of(told.role.into()),
            management: told.managed.then_some(told.management),
            hostname: text(&told.hostname, told.hostname_length),
            description: text(&told.description, told.description_length),
        }
    }
}

impl Configuration {
    pub(crate) fn of(told: &sys::lldpa_configuration_told) -> Configuration {
        let status = told.status.iter().take(told.ports as usize);
        Configuration {
            interval: told.interval,
            hold: told.hold,
            ttl: told.ttl,
            reinit: told.reinit,
            fast_init: told.fast_init,
            credit_max: told.credit_max,
            max_neighbors: told.max_neighbors,
            status: status.map(|number| Status::of(u32::from(*number))).collect(),
        }
    }
}
