//! Tests the largest possible agent with full tables.

use crate::{Agent, News, Options, Show};
use alloc::format;
use alloc::string::String;
use alloc::vec::Vec;

const PORTS: u8 = 64;
const NEIGHBORS: u8 = 128;

/// Returns a frame of the neighbor with this number.
fn frame_of(number: u8) -> Vec<u8> {
    let header = b"\x01\x80\xc2\0\0\x0e\0\x11\x22\x33\x44\x55\x88\xcc";
    let pdu = [
        2, 7, 4, 0, 0x11, 0x22, 0x33, 0x44, number, 4, 2, 5, b'a', 6, 2, 0, 120, 8, 1, b'b', 10, 1, b'c', 0,
        0,
    ];
    [&header[..], &pdu].concat()
}

#[test]
fn every_neighbor_is_shown() {
    let names: Vec<String> = (0..PORTS).map(|port| format!("eth{port}")).collect();
    let ports: Vec<&str> = names.iter().map(String::as_str).collect();
    let options = Options { ports: &ports, max_neighbors: NEIGHBORS, ..Options::default() };
    let mut agent = Agent::open(&options).expect("an agent");
    for port in 0..PORTS {
        for number in 0..NEIGHBORS {
            let frame = frame_of(number);
            let (_, news) = agent.frame_news(port, &frame).expect("a port");
            assert!(matches!(news, News::New(_)));
        }
    }
    let text = agent.show(Show::Neighbors);
    assert_eq!(text.lines().count(), 49_344);
    assert!(text.len() <= agent.room_of_show(Show::Neighbors), "one call does not write all");
    let held: usize = (0..PORTS).map(|port| agent.neighbors(port).expect("a port").count()).sum();
    assert_eq!(text.matches(".chassis.mac=").count(), held);
    let counters = agent.show(Show::Statistics);
    assert_eq!(counters.lines().filter(|line| line.contains(".sent=")).count(), usize::from(PORTS));
    assert!(agent.room_of_show(Show::Statistics) < 1 << 17, "a show without neighbors needs little memory");
    assert_eq!(agent.show_line(Show::Neighbors, 49_343).as_deref(), text.lines().last());
    assert_eq!(agent.show_line(Show::Neighbors, 49_344), None);
}
