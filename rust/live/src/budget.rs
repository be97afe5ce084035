//! How much memory each part of lldpa-live may take. What is not here is small, or allocated once:
//! the tables of the agent. With all of them at their limits, beside hostile neighbors on each port,
//! the service stays below 200 MB; the unit allows 256.

/// Pieces of memory of so many octets go back to the kernel at once.
pub const LARGE_PIECE: i32 = 1 << 18;
/// Octets of lines that clients that record were not sent yet.
pub const MOST_RECORDED: usize = 4_000_000;
/// Octets of all unread answers together.
pub const MOST_UNREAD: usize = 32 << 20;
/// Octets of changes that clients that watch were not sent yet. They count among the unread answers.
pub const MOST_TOLD: usize = 2 << 20;
