//! An LLDP agent on up to 64 ports.

use crate::fault::{expect_ok, CommandFault, OpenFault, PortFault};
use crate::machine::Mark;
use crate::neighbors::{Neighbors, News, Which};
use crate::options::Options;
use crate::sys::{self, Statistics};
use crate::told::{Chassis, Commanded, Configuration, Sent, Show, Ticks};
use alloc::boxed::Box;
use alloc::vec;
use alloc::vec::Vec;
use core::mem::size_of;
use core::ptr;

/// An open agent, whose memory [`Agent::open`] allocates. Dropping the agent frees the memory, and
/// sends no shutdown frames. Calls allocate their results, and fail if the port does not exist.
///
/// An agent may move to another thread, but is not `Sync`: two threads may not use it at the same
/// time, even if both only read.
///
/// ```
/// fn moves<T: Send>() {}
/// moves::<lldpa::Agent>();
/// ```
///
/// ```compile_fail,E0277
/// fn is_shared<T: Sync>() {}
/// is_shared::<lldpa::Agent>();
/// ```
///
/// ```
/// use lldpa::{Agent, Options, Show};
/// let mut agent = Agent::open(&Options { ports: &["eth0"], ..Options::default() })?;
/// for sent in agent.tick() {
///     let frame = agent.frame_of(sent.port, sent.mark)?;
///     assert_eq!(frame.len(), 66);
/// }
/// assert!(agent.show(Show::Neighbors).starts_with("lldp.eth0.neighbors=0\n"));
/// # Ok::<(), Box<dyn std::error::Error>>(())
/// ```
#[derive(Debug)]
pub struct Agent {
    // In a box, so that moving the `Agent` does not copy the open handle.
    pub(crate) handle: Box<sys::lldpa_agent>,
    /// The number of ports.
    pub(crate) ports: u8,
}

/// Returns the frames to send, from the struct that a call wrote.
fn sent(marks: &sys::lldpa_marks) -> Vec<Sent> {
    marks.items[..usize::from(marks.count)]
        .iter()
        .map(|item| Sent { port: item.port, mark: Mark::of(item.mark.into()) })
        .collect()
}

/// Returns the pointer and the length of a text. The text must outlive the result.
fn text_of(text: &str) -> sys::lldpa_text {
    sys::lldpa_text { octets: text.as_ptr(), length: text.len() }
}

impl Agent {
    /// Opens an agent, which needs about 1.6 KB for each of `max_neighbors` neighbors on each port.
    ///
    /// # Errors
    ///
    /// The first fault of the options, `Memory`, or `Version` if the archive has another version.
    pub fn open(options: &Options<'_>) -> Result<Agent, OpenFault> {
        if !crate::is_of_this_version() {
            return Err(OpenFault::Version);
        }
        let ports: Vec<sys::lldpa_text> = options.ports.iter().map(|name| text_of(name)).collect();
        let given = sys::lldpa_options {
            size: size_of::<sys::lldpa_options>(),
            ports: ports.as_ptr(),
            port_count: ports.len(),
            hostname: text_of(options.hostname),
            mac: options.mac,
            management: options.management.unwrap_or_default(),
            managed: options.management.is_some(),
            receive_only: options.receive_only,
            role: options.role as u32,
            max_neighbors: options.max_neighbors.into(),
            credit_max: options.credit_max.into(),
            fast_init: options.fast_init.into(),
            reinit: options.reinit.into(),
        };
        let mut handle = Box::<sys::lldpa_agent>::default();
        // SAFETY: the names outlive the call, which keeps no pointer to them. The handle is closed.
        let answer = unsafe { sys::lldpa_open(&given, &mut *handle) };
        OpenFault::check(answer)?;
        let ports = options.ports.len() as u8;
        Ok(Agent { handle, ports })
    }

    /// Reports to the agent that one second has passed. Returns the frames to send, by ascending
    /// port. [`Agent::frame_of`] returns the octets of a frame.
    #[must_use = "send the frames that it lists"]
    pub fn tick(&mut self) -> Vec<Sent> {
        self.ticks(1).sent
    }

    /// Reports that `count` seconds passed. Stops after the first second at which a port sends or a
    /// neighbor ages out. Send the frames, and call this again for the remaining seconds.
    /// [`Agent::aged`] returns the neighbors that aged out.
    #[must_use = "send the frames that it lists"]
    pub fn ticks(&mut self, count: u32) -> Ticks {
        let (mut marks, mut told) = (sys::lldpa_marks::default(), sys::lldpa_ticks_taken::default());
        // SAFETY: the handle is open, and the other pointers are to local values.
        expect_ok(unsafe { sys::lldpa_ticks(&mut *self.handle, count, &mut marks, &mut told) });
        Ticks { taken: told.taken, aged_out: told.aged_out, sent: sent(&marks) }
    }

    /// Returns the seconds until a port sends or a neighbor ages out, if you make no other call.
    /// None if nothing is due. You may sleep that long, and then pass the seconds to
    /// [`Agent::ticks`]. If a frame comes earlier, report first the seconds, and then the frame.
    #[must_use]
    pub fn due(&self) -> Option<u32> {
        let mut seconds = sys::LLDPA_NEVER;
        // SAFETY: the handle is open, and the other pointer is to a local value.
        expect_ok(unsafe { sys::lldpa_due(&*self.handle, &mut seconds) });
        (seconds != sys::LLDPA_NEVER).then_some(seconds)
    }

    /// Returns the counters of a port.
    pub fn statistics(&self, port: u8) -> Result<Statistics, PortFault> {
        let mut told = Statistics::default();
        // SAFETY: the handle is open, and the other pointer is to a local value.
        PortFault::check(unsafe { sys::lldpa_statistics(&*self.handle, port.into(), &mut told) })?;
        Ok(told)
    }

    /// Returns the current settings of the agent.
    #[must_use]
    pub fn configuration(&self) -> Configuration {
        let mut told = sys::lldpa_configuration_told::default();
        // SAFETY: the handle is open, and the other pointer is to a local value.
        expect_ok(unsafe { sys::lldpa_configuration(&*self.handle, &mut told) });
        Configuration::of(&told)
    }

    /// Returns what the agent says about its host.
    #[must_use]
    pub fn chassis(&self) -> Chassis {
        let mut told = sys::lldpa_chassis_told::default();
        // SAFETY: the handle is open, and the other pointer is to a local value.
        expect_ok(unsafe { sys::lldpa_chassis(&*self.handle, &mut told) });
        Chassis::of(&told)
    }

    /// Passes a received frame to the agent, and returns the frames to send. Octets that are not an
    /// LLDP frame change nothing. First report the seconds that passed before the frame arrived.
    pub fn frame(&mut self, port: u8, octets: &[u8]) -> Result<Vec<Sent>, PortFault> {
        self.hear(port, octets, ptr::null_mut())
    }

    /// Does the same as [`Agent::frame`], and also returns what the frame did.
    pub fn frame_news<'f>(&mut self, port: u8, octets: &'f [u8]) -> Result<(Vec<Sent>, News<'f>), PortFault> {
        let mut news = sys::lldpa_news::default();
        let sent = self.hear(port, octets, &mut news)?;
        Ok((sent, News::of(&news, octets)))
    }

    /// Passes a frame to the agent. Writes what the frame did to `news`, unless `news` is null.
    fn hear(&mut self, port: u8, octets: &[u8], news: *mut sys::lldpa_news) -> Result<Vec<Sent>, PortFault> {
        let mut marks = sys::lldpa_marks::default();
        let (agent, at, length) = (&mut *self.handle, octets.as_ptr(), octets.len());
        // SAFETY: the handle is open, `length` is that of the octets, and `news` is null or valid.
        PortFault::check(unsafe { sys::lldpa_frame(agent, port.into(), at, length, &mut marks, news) })?;
        Ok(sent(&marks))
    }

    /// Returns the neighbors of a port, in the order in which they were stored ([`News::New`]).
    pub fn neighbors(&self, port: u8) -> Result<Neighbors<'_>, PortFault> {
        let mut count = 0;
        // SAFETY: the handle is open, and the other pointer is to a local value.
        PortFault::check(unsafe { sys::lldpa_neighbor_count(&*self.handle, port.into(), &mut count) })?;
        Ok(Neighbors::new(self, Which::Held, port, count))
    }

    /// Returns the neighbors of a port that aged out at the last call of [`Agent::ticks`] or
    /// [`Agent::tick`], in the order in which they were stored. After another call that changes the
    /// agent they may be gone.
    pub fn aged(&self, port: u8) -> Result<Neighbors<'_>, PortFault> {
        let mut count = 0;
        // SAFETY: the handle is open, and the other pointer is to a local value.
        PortFault::check(unsafe { sys::lldpa_aged_count(&*self.handle, port.into(), &mut count) })?;
        Ok(Neighbors::new(self, Which::Aged, port, count))
    }

    /// Reports that the link of a port came up or went down. Returns the frames to send.
    pub fn link(&mut self, port: u8, up: bool) -> Result<Vec<Sent>, PortFault> {
        let mut marks = sys::lldpa_marks::default();
        // SAFETY: the handle is open, and the other pointer is to a local value.
        PortFault::check(unsafe { sys::lldpa_link(&mut *self.handle, port.into(), up, &mut marks) })?;
        Ok(sent(&marks))
    }

    /// Runs a command (`configure ..`, `update` or `show ..`), without a line feed. A show command
    /// or a command with a fault changes nothing. [`Agent::show`] returns the lines of a show.
    pub fn command(&mut self, line: impl AsRef<[u8]>) -> Result<Commanded, CommandFault> {
        let line = line.as_ref();
        let (mut marks, mut show) = (sys::lldpa_marks::default(), 0);
        // SAFETY: the handle is open, the length is that of the line, the others point to locals.
        let answer = unsafe {
            sys::lldpa_command(&mut *self.handle, line.as_ptr(), line.len(), &mut show, &mut marks)
        };
        CommandFault::check(answer)?;
        Ok(Commanded { show: (show != 0).then(|| Show::of(show)), sent: sent(&marks) })
    }

    /// Disables every port. Returns the shutdown frames to send, one for each port that was active.
    #[must_use = "send the frames that it lists"]
    pub fn leave(&mut self) -> Vec<Sent> {
        let mut marks = sys::lldpa_marks::default();
        // SAFETY: the handle is open, and the other pointer is to a local value.
        expect_ok(unsafe { sys::lldpa_leave(&mut *self.handle, &mut marks) });
        sent(&marks)
    }

    /// Returns a frame of this kind, with the current settings. It has at most 1514 octets.
    pub fn frame_of(&self, port: u8, mark: Mark) -> Result<Vec<u8>, PortFault> {
        let mut frame = vec![0u8; sys::LLDPA_FRAME_ROOM as usize];
        let (at, room, mut length) = (frame.as_mut_ptr(), frame.len(), 0);
        // SAFETY: the handle is open, and `room` is the length of the local buffer.
        PortFault::check(unsafe {
            sys::lldpa_frame_of(&*self.handle, port.into(), mark as u32, at, room, &mut length)
        })?;
        frame.truncate(length);
        Ok(frame)
    }
}

// SAFETY: the memory of an agent is all that its calls read and write. It comes from malloc, so another
// thread may free it. The library has no thread-local storage, which its check reads from the built files.
unsafe impl Send for Agent {}

impl Drop for Agent {
    fn drop(&mut self) {
        // SAFETY: the handle is open, and it is not used after this.
        unsafe { sys::lldpa_close(&mut *self.handle) };
    }
}
