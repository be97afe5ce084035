//! Waits for files with epoll. A file is registered again only if the awaited events change.

use crate::sys::wait::set_events;
pub use crate::sys::wait::{epoll, ready, IN, OUT, PRIORITY};
use std::fs::File;
use std::os::unix::io::AsFd;

/// A file, and the events that are awaited from it (0 for none).
pub struct Awaited<F> {
    pub file: F,
    wanted: u32,
}

impl<F: AsFd> Awaited<F> {
    pub fn new(file: F) -> Awaited<F> {
        Awaited { file, wanted: 0 }
    }

    pub fn wait_for(&mut self, epoll: &File, wanted: u32) {
        if self.wanted != wanted && set_events(epoll, self.file.as_fd(), self.wanted, wanted).is_ok() {
            self.wanted = wanted;
        }
    }

    pub fn is_awaited(&self) -> bool {
        self.wanted != 0
    }
}

#[cfg(test)]
mod tests {
    use super::*;
    use std::io::Write;
    use std::os::unix::io::AsRawFd;
    use std::os::unix::net::UnixStream;
    use std::time::Duration;

    #[test]
    fn a_file_is_ready_while_it_is_awaited() {
        let epoll = epoll().expect("a file");
        let (ours, mut theirs) = UnixStream::pair().expect("two sockets");
        let number = ours.as_raw_fd();
        let mut file = Awaited::new(ours);
        theirs.write_all(b"x").expect("room");
        // what is awaited, and whether the file is ready
        for (wanted, is_ready) in
            [(0, false), (IN, true), (PRIORITY, false), (OUT, true), (0, false), (IN, true)]
        {
            file.wait_for(&epoll, wanted);
            assert_eq!(file.is_awaited(), wanted != 0, "{wanted}");
            let found = ready(&epoll, Duration::ZERO);
            assert_eq!(found, if is_ready { vec![number] } else { Vec::new() }, "{wanted}");
        }
        drop(file);
        assert!(ready(&epoll, Duration::ZERO).is_empty());
    }
}
