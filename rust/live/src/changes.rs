//! Describes in plain text what a neighbor says, and what has changed in it: as lldpa-ctl does.

use crate::identifiers::shown;
use crate::told::with_neighbor;
use lldpa::Info;
use lldpa_people::changes::Said;
use lldpa_people::table;

/// The kinds of TLVs that a summary may name: Port Description, System Name and Management Address.
const NAMED: [u8; 3] = [4, 5, 8];

/// Describes a neighbor in one line: its name, its port and its management address.
pub fn summary(info: &Info<'_>) -> String {
    with_neighbor(info, &NAMED, |neighbor| table::summary(&neighbor))
}

/// Returns the differences between two LLDPDUs of a neighbor, such as `ttl: 120 -> 60`.
pub fn changes(old: &Info<'_>, new: &Info<'_>) -> Vec<String> {
    said(old).changes(&said(new))
}

fn said(info: &Info<'_>) -> Said {
    let lines: Vec<_> = info.kept().map(|tlv| shown(tlv.kind, tlv.body)).collect();
    Said::of(info.ttl().into(), lines.iter().map(|(key, value)| (&key[..], &value[..])))
}

#[cfg(test)]
mod tests {
    use super::*;
    use lldpa::{examine, Builder, Examined};

    fn changes_of(old: &[(u8, &[u8])], new: &[(u8, &[u8])]) -> Vec<String> {
        let built = |tlvs: &[(u8, &[u8])]| {
            let begin = Builder::new(b"\x04\x02\0\0\0\0\x01", b"\x05eth0", 120);
            let built = tlvs.iter().fold(begin, |built, tlv| built.put(tlv.0, tlv.1)).finish();
            built.expect("an LLDPDU").octets().to_vec()
        };
        let (old, new) = (built(old), built(new));
        match (examine(&old), examine(&new)) {
            (Ok(Examined::Info(old)), Ok(Examined::Info(new))) => changes(&old, &new),
            _ => panic!("no LLDPDU"),
        }
    }

    #[test]
    fn changes_are_those_that_lldpa_ctl_tells() {
        let vlan = |low: u8| [0x00, 0x80, 0xc2, 1, 0, low];
        let other = |last: u8| [0x00, 0x12, 0x0f, 4, 5, last];
        type Tlvs<'a> = &'a [(u8, &'a [u8])];
        let rows: [(Tlvs<'_>, Tlvs<'_>, &[&str]); 5] = [
            (&[], &[], &[]),
            (&[(5, b"a")], &[], &["chassis.name: a -> nothing"]),
            (&[(4, b"")], &[(4, b"\x1b")], &["port.descr: empty -> \\x1b"]),
            (&[(127, &vlan(1))], &[(127, &vlan(7))], &["pvid: 1 -> 7"]),
            (&[(127, &other(1))], &[(127, &other(2))], &["max-frame-size: 1281 -> 1282"]),
        ];
        for (old, new, wanted) in rows {
            assert_eq!(changes_of(old, new), wanted, "{old:?} {new:?}");
        }
    }

    #[test]
    fn a_neighbor_is_described_by_its_name_port_and_address() {
        let mac = b"\x03\x02\0\0\0\0\x09";
        let management = b"\x05\x01\xc0\0\x02\x07\x01\0\0\0\x01\0";
        type Tlvs<'a> = &'a [(u8, &'a [u8])];
        let rows: [(&[u8], Tlvs<'_>, &str); 6] = [
            (b"\x05eth0", &[], "02:00:00:00:00:01 eth0"),
            (b"\x05eth0", &[(5, b"sw1"), (8, management)], "sw1 eth0 192.0.2.7"),
            (b"\x05eth0", &[(4, b"uplink")], "02:00:00:00:00:01 eth0"),
            (mac, &[(4, b"uplink"), (5, b"sw1")], "sw1 uplink"),
            (mac, &[(5, b"")], "02:00:00:00:00:01 02:00:00:00:00:09"),
            (mac, &[(5, b"a\x1b")], "a\\x1b 02:00:00:00:00:09"),
        ];
        for (port, tlvs, wanted) in rows {
            let begin = Builder::new(b"\x04\x02\0\0\0\0\x01", port, 120);
            let built = tlvs.iter().fold(begin, |built, tlv| built.put(tlv.0, tlv.1)).finish();
            let built = built.expect("an LLDPDU");
            match examine(built.octets()) {
                Ok(Examined::Info(info)) => assert_eq!(summary(&info), wanted),
                _ => panic!("no LLDPDU"),
            }
        }
    }
}
