//! Feeds damaged input to each reader, and fails if a reader panics. Each run of the tests reads the
//! same inputs. For longer, with other inputs:
//!     LLDPA_FUZZ_SECONDS=600 cargo test --release fuzz

use crate::commands::explained;
use crate::links::Links;
use crate::netlink::messages;
use crate::queries::Query;
use crate::state;
use crate::state::Times;
use lldpa::CommandFault;
use lldpa_people::settings;
use std::fs::File;
use std::time::{Duration, Instant};

const STATE: &[u8] = b"# lldpa-live state 2 100.000 50.000\nrx eth0 34 99.000\n\
    \x01\x80\xc2\0\0\x0e\0\0\0\0\0\0\x88\xcc\x02\x07\x04\x02\0\0\0\0\x01\x04\x03\x05p1\x06\x02\xff\xff\0\0\
    tick 2\nrx eth0 34\n\
    \x01\x80\xc2\0\0\x0e\0\0\0\0\0\0\x88\xcc\x02\x07\x04\x02\0\0\0\0\x01\x04\x03\x05p1\x06\x02\0\x78\0\0\
    tick\n# end\n";
const SETTINGS: &str =
    "\u{feff}# a comment\nconfigure system hostname \"a b\"\r\nconfigure lldp tx-hold 300\n\
    configure ports eth0 lldp status rx-only x\nshow neighbors\nupdate \"\n";

const INPUTS: usize = 20_000; // for each reader

/// Makes damaged copies of samples, at random.
struct Octets(u64);

impl Octets {
    fn number(&mut self, below: usize) -> usize {
        self.0 ^= self.0 << 13;
        self.0 ^= self.0 >> 7;
        self.0 ^= self.0 << 17;
        (self.0 % below as u64) as usize
    }

    fn next(&mut self, sample: &[u8]) -> Vec<u8> {
        let mut octets = sample.to_vec();
        for _ in 0..self.number(8) {
            let (from, octet) = (self.number(octets.len() + 1), self.number(256) as u8);
            match self.number(4) {
                0 => octets.truncate(from),
                1 => octets.insert(from, octet),
                2 => octets.extend_from_within(from..),
                _ => octets.iter_mut().skip(from).take(1).for_each(|one| *one = octet),
            }
            octets.truncate(1 << 16);
        }
        octets
    }
}

/// Feeds damaged samples to a reader: always the same ones, or others for LLDPA_FUZZ_SECONDS.
fn feed(samples: &[&[u8]], mut reader: impl FnMut(&[u8])) {
    let text = std::env::var("LLDPA_FUZZ_SECONDS").ok();
    let span = text.map(|text| Duration::from_secs(text.parse().expect("a number")));
    let mut octets = Octets(if span.is_some() { u64::from(std::process::id()) << 32 | 1 } else { 1 });
    let (begin, mut count) = (Instant::now(), 0);
    while span.map_or(count < INPUTS, |span| begin.elapsed() < span) {
        for sample in samples {
            (0..100).for_each(|_| reader(&octets.next(sample)));
            count += 100;
        }
    }
    println!("{count} inputs were read");
}

#[test]
fn fuzz_netlink() {
    let mut links = Links::over(File::open("/dev/null").expect("a file"));
    let link = [
        &[72u32, 16, 0, 0].map(u32::to_ne_bytes).concat()[..],
        &[0x1_0000u32, 2, 0x1_0043, 0, 0x3_0009].map(u32::to_ne_bytes).concat(),
        b"eth0\0\0\0\0\x0a\0\x01\0\x02\0\0\0\0\x01\0\0\x0c\0\x12\0\x08\0\x01\0veth",
    ]
    .concat();
    let address = [32u32, 20, 0, 0, 0x2, 2, 0x2_0008, 0x100_007f].map(u32::to_ne_bytes).concat();
    feed(&[&link, &address], |octets| {
        let mut news = Vec::new();
        messages(octets).for_each(|(kind, body)| links.handle(kind, body, &mut news));
    });
    assert!(links.changes > 0);
}

#[test]
fn fuzz_control_lines() {
    let samples: Vec<&[u8]> = SETTINGS.lines().map(str::as_bytes).collect();
    feed(&samples, |octets| {
        let _ = Query::read(octets, octets.len() % 2 == 0);
    });
}

#[test]
fn fuzz_settings() {
    feed(&[SETTINGS.as_bytes()], |octets| {
        let settings = settings::settings_in("a.conf", octets);
        settings.iter().for_each(|setting| drop(setting.port()));
        // one line of each input, since explaining takes longer than all else
        if let Some(setting) = settings.get(octets.len() % settings.len().max(1)) {
            let why = explained(&setting.line, CommandFault::Unknown);
            assert!(setting.refused(&why).len() < 4000);
            explained(&setting.line, CommandFault::Range);
        }
    });
}

#[test]
fn fuzz_state() {
    let now = Times::read("110.000 60.000").expect("times");
    assert_eq!(state::saved_in(STATE, &now).map(|saved| saved.lines.len()).ok(), Some(4));
    feed(&[STATE], |octets| {
        let _ = state::saved_in(octets, &now);
    });
}
