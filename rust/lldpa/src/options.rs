//! The options of an agent.

use crate::numbers::numbered;

numbered! {
    /// The role that the agent announces in its System Capabilities.
    Role {
        /// An end station.
        Station = 0,
        /// A bridge.
        Bridge = 1,
        /// A router.
        Router = 2,
    }
}

/// The options of [`crate::Agent::open`].
#[derive(Clone, Copy, Debug)]
pub struct Options<'a> {
    /// The names of 1 to 64 ports, in order: each 1 to 15 letters, digits, `-`, `_`, `/` or `:`.
    pub ports: &'a [&'a str],
    /// The hostname, at most 255 octets of printable ASCII.
    pub hostname: &'a str,
    /// The source address and the chassis ID of every frame.
    pub mac: [u8; 6],
    /// The IPv4 management address that the agent announces.
    pub management: Option<[u8; 4]>,
    /// Whether each port begins with the status rx-only.
    pub receive_only: bool,
    /// The role that the agent announces.
    pub role: Role,
    /// How many neighbors each port may hold, 1 to 128.
    pub max_neighbors: u8,
    /// txCreditMax, 1 to 10.
    pub credit_max: u8,
    /// txFastInit, 1 to 8.
    pub fast_init: u8,
    /// reinitDelay in seconds, 1 to 10.
    pub reinit: u8,
}

impl Default for Options<'_> {
    /// Returns the defaults of the program lldpa, with no ports.
    fn default() -> Self {
        Options {
            ports: &[],
            hostname: "localhost",
            mac: [2, 0, 0, 0, 0, 1],
            management: None,
            receive_only: false,
            role: Role::Station,
            max_neighbors: 32,
            credit_max: 5,
            fast_init: 4,
            reinit: 2,
        }
    }
}
