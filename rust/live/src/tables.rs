//! The neighbor tables of some ports at one moment, and the answers that are written from them
//! while a client reads. So a large answer takes little memory, and clients that ask at the same
//! moment share the tables.

use crate::identifiers;
use crate::neighbors;
use crate::time::WallTime;
use lldpa::{examine, tlv_text, Agent, Examined, Info};
use std::mem::size_of;
use std::sync::Arc;

const SHOWN_IDENTIFIERS: usize = 4; // lines of a neighbor before its kept TLVs: two IDs, ttl, expires
const LINES_OF_PORT: usize = 3;
const OF_ALLOCATION: usize = 16; // octets that the allocator adds to a piece of memory

/// A neighbor of a port: the octets of its LLDPDU, and the seconds until it ages out.
struct Neighbor {
    octets: Box<[u8]>,
    left: u32,
    came: WallTime,
    chassis_number: u32,
}

impl Neighbor {
    fn of(one: &lldpa::Neighbor, known: &neighbors::Neighbor) -> Neighbor {
        Neighbor {
            octets: one.octets().into(),
            left: one.left(),
            came: known.came,
            chassis_number: known.chassis_number,
        }
    }

    fn info(&self) -> Option<Info<'_>> {
        match examine(&self.octets) {
            Ok(Examined::Info(info)) => Some(info),
            _ => None,
        }
    }
}

struct Table {
    port: String,
    has_too_many: bool,
    neighbors: Vec<Neighbor>,
}

/// The tables of some ports, and how many octets their LLDPDUs have.
pub struct Tables {
    ports: Vec<Table>,
    pub octets: usize,
}

impl Tables {
    pub fn new() -> Tables {
        Tables { ports: Vec::new(), octets: 0 }
    }

    /// Adds the table of a port with this number. `known` has the same neighbors in the same order.
    pub fn add(
        &mut self,
        agent: &Agent,
        number: u8,
        port: &str,
        has_too_many: bool,
        known: &[neighbors::Neighbor],
    ) {
        let all = agent.neighbors(number).into_iter().flatten().zip(known);
        let neighbors: Vec<Neighbor> = all.map(|(one, known)| Neighbor::of(&one, known)).collect();
        self.octets += neighbors.iter().map(|one| one.octets.len()).sum::<usize>();
        self.ports.push(Table { port: port.into(), has_too_many, neighbors });
    }

    /// Adds the table of a port that does not exist any more.
    pub fn add_empty(&mut self, port: &str) {
        self.ports.push(Table { port: port.into(), has_too_many: false, neighbors: Vec::new() });
    }

    /// Returns how many octets of memory the tables take.
    pub fn memory(&self) -> usize {
        let count: usize = self.ports.iter().map(|table| table.neighbors.len()).sum();
        self.octets + count * (size_of::<Neighbor>() + OF_ALLOCATION)
    }
}

/// Adds all lines about the neighbor at a place of a port, and returns true. Returns false if the place
/// is empty.
pub fn put_one(
    out: &mut Vec<u8>,
    agent: &Agent,
    number: u8,
    port: &str,
    (place, known): (usize, &neighbors::Neighbor),
) -> bool {
    match agent.neighbors(number).ok().and_then(|mut all| all.nth(place)) {
        Some(one) => {
            let one = Neighbor::of(&one, known);
            put_lines(out, Lines::Watched, port, place + 1, &one);
            put_chassis(out, one.chassis_number, &one);
            true
        }
        None => false,
    }
}

/// Which lines an answer has.
#[derive(Clone, Copy, PartialEq, Eq)]
pub enum Lines {
    /// Those of `show neighbors`.
    Neighbors,
    /// When each neighbor came, and the number of each chassis.
    Since,
    /// All of these: what a client that watches is sent.
    Watched,
}

impl Lines {
    fn has_neighbors(self) -> bool {
        self != Lines::Since
    }

    fn has_since(self) -> bool {
        self != Lines::Neighbors
    }
}

/// An answer that is written piece by piece.
pub struct Writer {
    tables: Arc<Tables>,
    lines: Lines,
    port: usize,
    /// The next neighbor of this port.
    neighbor: usize,
    /// The numbers of the chassis, each with the port and the place of a neighbor with that chassis.
    chassis: Vec<(u32, usize, usize)>,
}

impl Writer {
    pub fn new(tables: Arc<Tables>, lines: Lines) -> Writer {
        let mut chassis = Vec::new();
        if lines.has_since() {
            for (port, table) in tables.ports.iter().enumerate() {
                let numbers = table.neighbors.iter().enumerate();
                chassis.extend(numbers.map(|(place, one)| (one.chassis_number, port, place)));
            }
            chassis.sort_unstable();
            chassis.dedup_by_key(|one| one.0);
            chassis.reverse(); // the first number is taken first
        }
        Writer { tables, lines, port: 0, neighbor: 0, chassis }
    }

    pub fn tables(&self) -> &Arc<Tables> {
        &self.tables
    }

    /// Returns how many octets of memory the writer takes beside the tables.
    pub fn memory(&self) -> usize {
        self.chassis.capacity() * size_of::<(u32, usize, usize)>()
    }

    /// Returns how many lines the whole answer has.
    pub fn count(&self) -> usize {
        let neighbors = || self.tables.ports.iter().flat_map(|table| &table.neighbors);
        let kept = |one: &Neighbor| one.info().map_or(0, |info| SHOWN_IDENTIFIERS + info.kept().count());
        let mut count = 0;
        if self.lines.has_neighbors() {
            count += LINES_OF_PORT * self.tables.ports.len() + neighbors().map(kept).sum::<usize>();
        }
        if self.lines.has_since() {
            count += neighbors().count() + self.chassis.len();
        }
        count
    }

    /// Adds the lines of the next neighbor, or of a port. False if no line was left.
    pub fn write(&mut self, out: &mut Vec<u8>) -> bool {
        let table = match self.tables.ports.get(self.port) {
            Some(table) => table,
            None => return self.write_chassis(out),
        };
        if self.neighbor == 0 && self.lines.has_neighbors() {
            put_port(out, table);
        }
        if let Some(one) = table.neighbors.get(self.neighbor) {
            self.neighbor += 1;
            put_lines(out, self.lines, &table.port, self.neighbor, one);
        }
        if self.neighbor >= table.neighbors.len() {
            self.port += 1;
            self.neighbor = 0;
        }
        true
    }

    fn write_chassis(&mut self, out: &mut Vec<u8>) -> bool {
        let (number, port, place) = match self.chassis.pop() {
            Some(next) => next,
            None => return false,
        };
        let neighbor = self.tables.ports.get(port).and_then(|table| table.neighbors.get(place));
        neighbor.into_iter().for_each(|one| put_chassis(out, number, one));
        true
    }
}

fn put(out: &mut Vec<u8>, line: &str) {
    out.extend_from_slice(line.as_bytes());
    out.push(b'\n');
}

fn put_port(out: &mut Vec<u8>, table: &Table) {
    let octets: usize = table.neighbors.iter().map(|one| one.octets.len()).sum();
    put(out, &format!("lldp.{}.neighbors={}", table.port, table.neighbors.len()));
    put(out, &format!("lldp.{}.octets={octets}", table.port));
    put(out, &format!("lldp.{}.too-many={}", table.port, if table.has_too_many { "yes" } else { "no" }));
}

fn put_neighbor(out: &mut Vec<u8>, port: &str, number: usize, one: &Neighbor) {
    let info = match one.info() {
        Some(info) => info,
        None => return,
    };
    let mut line = |text: &str| put(out, &format!("lldp.{port}.{number}.{text}"));
    let msap = info.msap();
    line(&tlv_text(identifiers::CHASSIS_ID, msap.chassis).unwrap_or_default());
    line(&tlv_text(identifiers::PORT_ID, msap.port).unwrap_or_default());
    line(&format!("ttl={}", info.ttl()));
    line(&format!("expires={}", one.left));
    for tlv in info.kept() {
        line(&tlv_text(tlv.kind, tlv.body).unwrap_or_default());
    }
}

fn put_lines(out: &mut Vec<u8>, lines: Lines, port: &str, number: usize, one: &Neighbor) {
    if lines.has_neighbors() {
        put_neighbor(out, port, number, one);
    }
    if lines.has_since() {
        put_since(out, port, number, one);
    }
}

fn put_chassis(out: &mut Vec<u8>, number: u32, one: &Neighbor) {
    if let Some(info) = one.info() {
        put(out, &format!("live.chassis.{number}={}", identifiers::chassis_id(info.msap().chassis)));
    }
}

fn put_since(out: &mut Vec<u8>, port: &str, number: usize, one: &Neighbor) {
    if let Some(info) = one.info() {
        put(out, &format!("live.{port}.since.{number}={} {}", one.came, identifiers::id(&info.msap())));
    }
}

#[cfg(test)]
mod tests {
    use super::*;
    use crate::neighbors::Digests;
    use lldpa::{News, Options, Show};

    /// Numbers that look random, but are the same in each run.
    struct Numbers(u64);

    impl Numbers {
        fn below(&mut self, limit: u64) -> u64 {
            self.0 = self.0.wrapping_mul(6_364_136_223_846_793_005).wrapping_add(1_442_695_040_888_963_407);
            (self.0 >> 33) % limit
        }
    }

    fn frame(numbers: &mut Numbers) -> Vec<u8> {
        let mut frame = b"\x01\x80\xc2\0\0\x0e\x02\0\0\0\0\x01\x88\xcc".to_vec();
        let name = numbers.below(6) as u8;
        frame.extend([2, 2, 1 + numbers.below(7) as u8, name, 4, 3, 5, b'p', name, 6, 2, 0, 9]);
        for _ in 0..numbers.below(12) {
            let (kind, length) = (4 + numbers.below(124) as u16, numbers.below(40) as u16);
            let kind = if numbers.below(3) == 0 { 127 } else { kind.min(20) };
            frame.extend((kind << 9 | length).to_be_bytes());
            frame.extend((0..length).map(|_| numbers.below(256) as u8));
        }
        frame.extend([0, 0]);
        frame
    }

    /// Returns what the lines of `live` about neighbors name: each neighbor, and how many chassis.
    fn since(mut writer: Writer) -> (Vec<String>, usize) {
        let (count, mut text) = (writer.count(), Vec::new());
        while writer.write(&mut text) {}
        let text = String::from_utf8(text).expect("ASCII");
        assert_eq!(count, text.lines().count());
        let (chassis, neighbors): (Vec<_>, Vec<_>) =
            text.lines().partition(|line| line.starts_with("live.chassis."));
        let neighbor = |line: &str| {
            let (front, rest) = line.split_once('=').expect("a key");
            let (_, id) = rest.split_once(' ').expect("a time");
            format!("{} {id}", front.strip_prefix("live.").expect("a port").replace(".since.", "."))
        };
        (neighbors.into_iter().map(neighbor).collect(), chassis.len())
    }

    /// Returns the same from the agent. All neighbors have one chassis number.
    fn held(agent: &Agent) -> (Vec<String>, usize) {
        let of_port = |(number, name): (u8, &'static str)| {
            let neighbors = agent.neighbors(number).into_iter().flatten();
            let ids = neighbors.filter_map(|one| one.info().map(|info| identifiers::id(&info.msap())));
            ids.enumerate().map(|(place, id)| format!("{name}.{} {id}", place + 1)).collect::<Vec<_>>()
        };
        let held: Vec<String> = (0..).zip(["eth0", "eth1", "e2"]).flat_map(of_port).collect();
        let chassis = usize::from(!held.is_empty());
        (held, chassis)
    }

    #[test]
    fn lines_are_those_of_the_agent() {
        let (mut numbers, digests) = (Numbers(1), Digests::default());
        let options = Options { ports: &["eth0", "eth1", "e2"], max_neighbors: 4, ..Options::default() };
        let mut agent = Agent::open(&options).expect("an agent");
        let mut known: [Vec<neighbors::Neighbor>; 3] = Default::default();
        let (mut too_many, mut most) = ([0u64; 3], 0);
        for second in 1..300u64 {
            let port = numbers.below(3) as usize;
            let frame = frame(&mut numbers);
            match agent.frame_news(port as u8, &frame).expect("a port").1 {
                News::New(msap) => {
                    known[port].push(neighbors::Neighbor::new(&msap, &digests, 1, 0, String::new()))
                }
                News::Dropped(_) => too_many[port] = second - 1 + 9,
                _ => (),
            }
            let _ = agent.tick();
            for (port, known) in known.iter_mut().enumerate() {
                let aged: Vec<_> = agent.aged(port as u8).into_iter().flatten().collect();
                let aged: Vec<_> = aged.iter().filter_map(|one| one.info()).collect();
                known.retain(|one| !aged.iter().any(|info| info.msap() == one.msap()));
            }
            let mut tables = Tables::new();
            for (port, known) in known.iter().enumerate() {
                let name = ["eth0", "eth1", "e2"][port];
                tables.add(&agent, port as u8, name, too_many[port] > second, known);
            }
            let mut writer = Writer::new(Arc::new(tables), Lines::Neighbors);
            let (count, mut text) = (writer.count(), Vec::new());
            while writer.write(&mut text) {}
            let text = String::from_utf8(text).expect("ASCII");
            assert_eq!(text, agent.show(Show::Neighbors), "second {second}");
            assert_eq!(count, text.lines().count());
            assert_eq!(since(Writer::new(writer.tables().clone(), Lines::Since)), held(&agent));
            most = most.max(count);
        }
        assert!(most > 50, "the tables were nearly empty: {most}");
        assert!(too_many.iter().any(|second| *second > 0));
    }
}
