//! Reads netlink messages about interfaces and their addresses. Each reader ignores what is
//! malformed. (linux: netlink.h, rtnetlink.h, if_link.h, if_addr.h)

use crate::links::{Link, Mac};
use std::net::Ipv4Addr;

const AF_INET: u8 = libc::AF_INET as u8;
/// Kinds of interfaces that are on another one, and whose frames are frames of that one. (For other
/// kinds IFLA_LINK means something else, such as the other end of a veth pair or a tunnel's way.)
const ON_OTHERS: [&str; 5] = ["vlan", "macvlan", "macvtap", "ipvlan", "macsec"];

fn half(octets: &[u8], at: usize) -> Option<u16> {
    Some(u16::from_ne_bytes(octets.get(at..at + 2)?.try_into().ok()?))
}

fn number(octets: &[u8], at: usize) -> Option<u32> {
    Some(u32::from_ne_bytes(octets.get(at..at + 4)?.try_into().ok()?))
}

/// Splits octets into parts, aligned to four octets. `length_of` reads the first part's length.
fn parts(octets: &[u8], least: usize, length_of: fn(&[u8]) -> Option<usize>) -> impl Iterator<Item = &[u8]> {
    let mut rest = octets;
    std::iter::from_fn(move || {
        let length = length_of(rest).filter(|length| *length >= least)?;
        let part = rest.get(..length)?;
        rest = rest.get((length + 3) & !3..).unwrap_or(&[]);
        Some(part)
    })
}

/// Returns the kind and the body of each message.
pub fn messages(octets: &[u8]) -> impl Iterator<Item = (u16, &[u8])> {
    parts(octets, 16, |rest| number(rest, 0).map(|length| length as usize))
        .map(|part| (half(part, 4).unwrap_or(0), &part[16..]))
}

fn attribute(octets: &[u8], kind: u16) -> Option<&[u8]> {
    parts(octets, 4, |rest| half(rest, 0).map(usize::from))
        .find(|part| half(part, 2).map(|found| found & 0x3fff) == Some(kind))
        .map(|part| &part[4..])
}

fn text(octets: &[u8]) -> String {
    String::from_utf8_lossy(octets.split(|octet| *octet == 0).next().unwrap_or(&[])).into_owned()
}

/// Returns the interface in a message. None if the message is malformed or about a bridge's port.
pub fn link_of(body: &[u8], is_there: bool) -> Option<Link> {
    let attributes = body.get(16..).filter(|_| body[0] == 0)?;
    let mac = |kind| attribute(attributes, kind).and_then(|octets| Mac::try_from(octets).ok());
    let number_in = |kind| attribute(attributes, kind).and_then(|octets| number(octets, 0)).unwrap_or(0);
    let index_in = |kind| number_in(kind) as i32;
    let made_as = attribute(attributes, libc::IFLA_LINKINFO)
        .and_then(|info| attribute(info, libc::IFLA_INFO_KIND))
        .map_or(String::new(), text);
    let is_here = attribute(attributes, libc::IFLA_LINK_NETNSID).is_none(); // in this network namespace
    Some(Link {
        index: number(body, 4)? as i32,
        name: text(attribute(attributes, libc::IFLA_IFNAME)?),
        is_there,
        is_running: is_there && number(body, 8)? & libc::IFF_LOWER_UP as u32 != 0,
        is_ethernet: half(body, 2)? == libc::ARPHRD_ETHER,
        is_hardware: made_as.is_empty() || made_as == "dsa",
        address: mac(libc::IFLA_ADDRESS),
        permanent: mac(libc::IFLA_PERM_ADDRESS),
        master: index_in(libc::IFLA_MASTER),
        lower: if ON_OTHERS.contains(&&made_as[..]) && is_here { index_in(libc::IFLA_LINK) } else { 0 },
        carrier_changes: number_in(libc::IFLA_CARRIER_CHANGES),
    })
}

/// Returns the interface's index and the global IPv4 address in a message. None if it has none.
pub fn address_of(body: &[u8]) -> Option<(i32, Ipv4Addr)> {
    let attributes = body.get(8..).filter(|_| body[0] == AF_INET && body[3] == 0)?;
    let octets =
        attribute(attributes, libc::IFA_LOCAL).or_else(|| attribute(attributes, libc::IFA_ADDRESS))?;
    let octets: [u8; 4] = octets.try_into().ok()?;
    Some((number(body, 4)? as i32, octets.into()))
}

#[cfg(test)]
mod tests {
    use super::*;

    const NESTED: u16 = libc::NLA_F_NESTED as u16;

    /// An attribute: its length, its kind, its octets, and zeros up to a multiple of four octets.
    fn attribute_of(kind: u16, octets: &[u8]) -> Vec<u8> {
        let mut all = [4 + octets.len() as u16, kind].map(u16::to_ne_bytes).concat();
        all.extend_from_slice(octets);
        all.resize((all.len() + 3) & !3, 0);
        all
    }

    /// The body of a message about an interface with the index 7: struct ifinfomsg, and attributes.
    fn interface(hardware: u16, flags: u32, attributes: &[Vec<u8>]) -> Vec<u8> {
        let front = [&[0, 0][..], &hardware.to_ne_bytes(), &7u32.to_ne_bytes(), &flags.to_ne_bytes()];
        [&front.concat()[..], &[0; 4], &attributes.concat()].concat()
    }

    fn kind_of(kind: &[u8]) -> Vec<u8> {
        attribute_of(libc::IFLA_LINKINFO, &attribute_of(libc::IFLA_INFO_KIND, kind))
    }

    #[test]
    fn an_interface_is_what_its_attributes_say() {
        let up = libc::IFF_LOWER_UP as u32;
        let name = || attribute_of(libc::IFLA_IFNAME, b"eth0\0");
        let mac = [2, 0, 0, 0, 0, 9];
        let four = |number: u32| number.to_ne_bytes().to_vec();
        let plain = Link {
            index: 7,
            name: "eth0".into(),
            is_there: true,
            is_ethernet: true,
            is_hardware: true,
            ..Link::default()
        };
        let (ether, loopback) = (libc::ARPHRD_ETHER, libc::ARPHRD_LOOPBACK);
        let rows = [
            (ether, 0, vec![name()], plain.clone()),
            (ether, up, vec![name()], Link { is_running: true, ..plain.clone() }),
            (ether, libc::IFF_UP as u32, vec![name()], plain.clone()),
            (loopback, 0, vec![name()], Link { is_ethernet: false, ..plain.clone() }),
            (
                ether,
                0,
                vec![attribute_of(libc::IFLA_ADDRESS, &mac), name()],
                Link { address: Some(mac), ..plain.clone() },
            ),
            (ether, 0, vec![name(), attribute_of(libc::IFLA_ADDRESS, &[1; 8])], plain.clone()),
            (
                ether,
                0,
                vec![name(), attribute_of(libc::IFLA_PERM_ADDRESS, &mac)],
                Link { permanent: Some(mac), ..plain.clone() },
            ),
            (
                ether,
                0,
                vec![name(), attribute_of(libc::IFLA_MASTER, &four(5))],
                Link { master: 5, ..plain.clone() },
            ),
            (ether, 0, vec![name(), kind_of(b"veth")], Link { is_hardware: false, ..plain.clone() }),
            (ether, 0, vec![name(), kind_of(b"dsa\0")], plain.clone()),
            (
                ether,
                0,
                vec![name(), attribute_of(NESTED | libc::IFLA_LINKINFO, &kind_of(b"team")[4..])],
                Link { is_hardware: false, ..plain.clone() },
            ),
            // the interface below counts if this is a VLAN, and if that is in this namespace
            (ether, 0, vec![name(), attribute_of(libc::IFLA_LINK, &four(3))], plain.clone()),
            (
                ether,
                0,
                vec![name(), kind_of(b"veth"), attribute_of(libc::IFLA_LINK, &four(3))],
                Link { is_hardware: false, ..plain.clone() },
            ),
            (
                ether,
                0,
                vec![name(), kind_of(b"macvlan"), attribute_of(libc::IFLA_LINK, &four(3))],
                Link { is_hardware: false, lower: 3, ..plain.clone() },
            ),
            (
                ether,
                0,
                vec![name(), attribute_of(libc::IFLA_CARRIER_CHANGES, &four(7))],
                Link { carrier_changes: 7, ..plain.clone() },
            ),
            (
                ether,
                0,
                vec![name(), kind_of(b"vlan"), attribute_of(libc::IFLA_LINK, &four(3))],
                Link { is_hardware: false, lower: 3, ..plain.clone() },
            ),
            (
                ether,
                0,
                vec![
                    name(),
                    kind_of(b"vlan"),
                    attribute_of(libc::IFLA_LINK, &four(3)),
                    attribute_of(libc::IFLA_LINK_NETNSID, &four(0)),
                ],
                Link { is_hardware: false, ..plain },
            ),
        ];
        for (row, (hardware, flags, attributes, wanted)) in rows.into_iter().enumerate() {
            let body = interface(hardware, flags, &attributes);
            assert_eq!(link_of(&body, true).as_ref(), Some(&wanted), "row {row}");
            let gone = Link { is_there: false, is_running: false, ..wanted };
            assert_eq!(link_of(&body, false), Some(gone), "row {row}, removed");
        }
    }

    #[test]
    fn what_is_not_about_an_interface_is_ignored() {
        let whole = interface(libc::ARPHRD_ETHER, 0, &[attribute_of(libc::IFLA_IFNAME, b"eth0\0")]);
        assert_eq!(link_of(&interface(libc::ARPHRD_ETHER, 0, &[]), true), None);
        assert_eq!(link_of(&whole[..15], true), None);
        let mut of_bridge = whole;
        of_bridge[0] = libc::AF_BRIDGE as u8;
        assert_eq!(link_of(&of_bridge, true), None);
    }

    #[test]
    fn an_address_is_a_global_one_of_ipv4() {
        let local = attribute_of(libc::IFA_LOCAL, &[192, 0, 2, 7]);
        let peer = attribute_of(libc::IFA_ADDRESS, &[192, 0, 2, 8]);
        let long = attribute_of(libc::IFA_ADDRESS, &[1; 16]);
        let (inet, link) = (AF_INET, libc::RT_SCOPE_LINK);
        let found = |last: u8| Some((7, Ipv4Addr::new(192, 0, 2, last)));
        type Row<'a> = (u8, u8, &'a [&'a Vec<u8>], Option<(i32, Ipv4Addr)>);
        let rows: [Row<'_>; 7] = [
            (inet, 0, &[&local], found(7)),
            (inet, 0, &[&peer, &local], found(7)),
            (inet, 0, &[&peer], found(8)),
            (inet, 0, &[], None),
            (inet, link, &[&local], None),
            (libc::AF_INET6 as u8, 0, &[&local], None),
            (inet, 0, &[&long], None),
        ];
        for (family, scope, attributes, wanted) in rows {
            let mut body = [&[family, 24, 0, scope][..], &7u32.to_ne_bytes()].concat();
            attributes.iter().for_each(|one| body.extend_from_slice(one));
            assert_eq!(address_of(&body), wanted, "{family} {scope} {attributes:?}");
        }
    }

    #[test]
    fn messages_are_aligned_and_whole() {
        let message = |length: u32, kind: u16, body: &[u8]| {
            let mut all = length.to_ne_bytes().to_vec();
            all.extend_from_slice(&kind.to_ne_bytes());
            all.extend_from_slice(&[0; 10]);
            all.extend_from_slice(body);
            all
        };
        let (one, other) = (message(17, 1, b"a\0\0\0"), message(18, 2, b"bc"));
        type Row<'a> = (Vec<u8>, &'a [(u16, &'a [u8])]);
        let rows: [Row<'_>; 6] = [
            (vec![], &[]),
            (one.clone(), &[(1, b"a")]),
            ([one.clone(), other.clone()].concat(), &[(1, b"a"), (2, b"bc")]),
            ([one, other[..17].to_vec()].concat(), &[(1, b"a")]),
            (message(15, 1, b""), &[]),
            (message(u32::MAX, 1, b""), &[]),
        ];
        for (octets, wanted) in rows {
            assert_eq!(messages(&octets).collect::<Vec<_>>(), wanted, "{octets:?}");
        }
    }
}
