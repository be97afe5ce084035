//! Returns the lines of show commands.

use crate::agent::Agent;
use crate::fault::expect_ok;
use crate::sys;
use crate::told::Show;
use alloc::string::String;
use alloc::vec;

/// How many octets suffice for each show but that of neighbors, and how many more for most neighbors.
const SHOW_ROOM: usize = 1 << 16;
const SHOW_ROOM_OF_NEIGHBOR: usize = 1 << 10;

impl Agent {
    /// Returns the size of a buffer that is large enough for most shows of this kind.
    pub(crate) fn room_of_show(&self, show: Show) -> usize {
        let held = |port| self.neighbors(port).map_or(0, |all| all.len());
        let ports = if show == Show::Neighbors { self.ports } else { 0 };
        SHOW_ROOM + SHOW_ROOM_OF_NEIGHBOR * (0..ports).map(held).sum::<usize>()
    }

    /// Returns all lines of a show, with a line feed after each.
    #[must_use]
    pub fn show(&self, show: Show) -> String {
        let mut room = vec![0u8; self.room_of_show(show)];
        let mut lines = self.show_lines(show, 0, &mut room);
        let mut text = String::from_utf8_lossy(&room[..lines.length]).into_owned();
        while !lines.done {
            room.resize(2 * room.len(), 0); // a larger buffer needs fewer calls
            lines = self.show_lines(show, lines.next, &mut room);
            text.push_str(&String::from_utf8_lossy(&room[..lines.length]));
        }
        text
    }

    /// Returns a line of a show, without its line feed. Line 0 is the first. None after the last.
    #[must_use]
    pub fn show_line(&self, show: Show, line: u32) -> Option<String> {
        let mut room = [0u8; sys::LLDPA_LINE_ROOM as usize];
        let lines = self.show_lines(show, line, &mut room);
        let text = String::from_utf8_lossy(&room[..lines.length]).into_owned();
        text.lines().next().map(String::from)
    }

    /// Writes lines of a show, beginning with line `from`, as many as fit in the buffer.
    fn show_lines(&self, show: Show, from: u32, room: &mut [u8]) -> sys::lldpa_lines {
        let mut lines = sys::lldpa_lines::default();
        // SAFETY: the handle is open, the length is that of the buffer, and `lines` is local.
        let answer = unsafe {
            sys::lldpa_show_lines(&*self.handle, show as u32, from, room.as_mut_ptr(), room.len(), &mut lines)
        };
        expect_ok(answer);
        lines
    }
}
