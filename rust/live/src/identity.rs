//! Finds what identifies this host: chassis ID, operating system and management address.

use crate::links::{Link, Links, Mac};
use crate::patterns;
use std::collections::BTreeSet;
use std::net::Ipv4Addr;

const OS_RELEASE: [&str; 2] = ["/etc/os-release", "/usr/lib/os-release"];
const MOST_OF_A_DESCRIPTION: usize = 255;
const MOST_ABOVE: usize = 8; // interfaces, such as a bridge above a bond

/// Returns the MAC address for the chassis ID: the permanent address of the first hardware port,
/// else of the first hardware Ethernet interface, else the address of the first port that has one.
pub fn chassis_address(ports: &[String], links: &Links) -> Option<Mac> {
    let has_address = |one: &&Link| one.is_ethernet && one.address.map_or(false, |mac| mac != [0; 6]);
    let ours = || ports.iter().filter_map(|name| links.named(name)).filter(has_address);
    let hardware = ours().chain(links.all().filter(has_address)).find(|one| one.is_hardware);
    hardware.and_then(|one| one.permanent.or(one.address)).or_else(|| ours().next()?.address)
}

/// Returns the management address: the first global IPv4 address of a port, else of what is above
/// and on the ports (see `stack`), else of hardware, else of any interface (lowest index first). If
/// there are patterns, they must allow the address.
pub fn management_address(ports: &[String], links: &Links, patterns: &[String]) -> Option<Ipv4Addr> {
    let hardware = links.all().filter(|one| one.is_hardware && one.is_ethernet);
    let mut all = stack(ports, links).into_iter().chain(hardware).chain(links.all());
    let is_allowed = |address: &Ipv4Addr| patterns::allows(patterns, &address.to_string());
    let known: Vec<_> =
        links.addresses.iter().map(|known| known.0).filter(|one| is_allowed(&one.1)).collect();
    all.find_map(|one| known.iter().find(|known| known.0 == one.index)).map(|one| one.1)
}

/// Returns the ports, then the interfaces above them, then those on all these, such as VLANs and
/// macvlans, then those above these, and so on to the end. Each is there once.
fn stack<'a>(ports: &[String], links: &'a Links) -> Vec<&'a Link> {
    let (mut stack, mut known) = (Vec::new(), BTreeSet::new());
    let mut next: Vec<&Link> = ports.iter().filter_map(|name| links.named(name)).collect();
    while !next.is_empty() {
        let masters: Vec<&Link> = next.iter().flat_map(|one| above(one, links)).collect();
        stack.extend(next.into_iter().chain(masters).filter(|one| known.insert(one.index)));
        next = links.all().filter(|one| known.contains(&one.lower) && !known.contains(&one.index)).collect();
    }
    stack
}

/// Returns the interfaces above this one: its bond, team or bridge, the interface above that, etc.
fn above<'a>(one: &'a Link, links: &'a Links) -> impl Iterator<Item = &'a Link> {
    std::iter::successors(Some(one), |one| links.known.get(&one.master).map(|one| &one.0))
        .skip(1)
        .take(MOST_ABOVE)
}

/// Returns PRETTY_NAME of os-release, without characters that a command cannot set. None if empty.
pub fn description() -> Option<String> {
    let text = OS_RELEASE.iter().find_map(|path| std::fs::read(path).ok())?;
    pretty_name(&String::from_utf8_lossy(&text))
}

fn pretty_name(os_release: &str) -> Option<String> {
    let value = os_release.lines().find_map(|line| line.strip_prefix("PRETTY_NAME="))?;
    let is_literal = value.starts_with('\''); // in single quotes a backslash escapes nothing
    let (mut kept, mut is_escaped) = (String::new(), false);
    for letter in value.trim_matches(&['"', '\''][..]).chars() {
        is_escaped = letter == '\\' && !is_escaped && !is_literal;
        if !is_escaped && (' '..='~').contains(&letter) && letter != '"' {
            kept.push(letter);
        }
    }
    let kept: String = kept.trim().chars().take(MOST_OF_A_DESCRIPTION).collect();
    (!kept.is_empty()).then_some(kept)
}

#[cfg(test)]
mod tests {
    use super::*;

    /// Returns `Links` with these interfaces: their names, and whether they are hardware.
    fn links(kinds: &[(&str, bool)]) -> Links {
        let mut links = Links::over(std::fs::File::open("/dev/null").expect("a file"));
        for ((name, is_hardware), index) in kinds.iter().zip(1..) {
            let one = Link {
                index: i32::from(index),
                name: name.to_string(),
                is_ethernet: true,
                is_hardware: *is_hardware,
                address: Some([2, 0, 0, 0, 0, index]),
                permanent: is_hardware.then(|| [2, 0, 0, 0, 1, index]),
                ..Link::default()
            };
            links.known.insert(index.into(), (one, 0));
        }
        links
    }

    #[test]
    fn a_pretty_name_is_what_a_command_can_set() {
        let long = format!("PRETTY_NAME={}", "x".repeat(300));
        for (text, wanted) in [
            ("", None),
            ("NAME=x\n", None),
            ("PRETTY_NAME=\n", None),
            ("PRETTY_NAME=\"\"\n", None),
            ("NAME=x\nPRETTY_NAME=\"Debian GNU/Linux 12\"\n", Some("Debian GNU/Linux 12")),
            ("PRETTY_NAME=Plain\nPRETTY_NAME=Second\n", Some("Plain")),
            ("PRETTY_NAME='caf\\\u{e9} \"q\"'\n", Some("caf\\ q")),
            ("PRETTY_NAME=\" a\\\\b\\$ \"", Some("a\\b$")),
            (&long, Some(&long["PRETTY_NAME=".len()..][..255])),
        ] {
            assert_eq!(pretty_name(text).as_deref(), wanted, "{text:?}");
        }
    }

    #[test]
    fn hardware_names_the_host_before_virtual_ports() {
        let known = links(&[("veth1", false), ("eth9", true), ("eth1", true)]);
        for (ports, last) in [("veth1 eth1 eth9", 3), ("veth1", 2), ("eth7", 2)] {
            let ports: Vec<String> = ports.split(' ').map(String::from).collect();
            assert_eq!(chassis_address(&ports, &known), Some([2, 0, 0, 0, 1, last]));
        }
        let known = links(&[("veth1", false), ("veth2", false)]);
        assert_eq!(chassis_address(&["eth0".into(), "veth2".into()], &known), Some([2, 0, 0, 0, 0, 2]));
        assert_eq!(chassis_address(&["eth0".into()], &known), None);
    }

    #[test]
    fn an_interface_names_the_host_only_by_an_address() {
        let mut known = links(&[("lo", true), ("eth0", true), ("eth1", true)]);
        let lo = &mut known.known.get_mut(&1).expect("lo").0;
        (lo.is_ethernet, lo.permanent) = (false, Some([2, 0, 0, 0, 1, 1]));
        let eth0 = &mut known.known.get_mut(&2).expect("eth0").0;
        (eth0.address, eth0.permanent) = (Some([0; 6]), None);
        let ports = ["lo".to_string(), "eth0".to_string()];
        assert_eq!(chassis_address(&ports, &known), Some([2, 0, 0, 0, 1, 3]));
        known.known.get_mut(&3).expect("eth1").0.permanent = None;
        assert_eq!(chassis_address(&ports, &known), Some([2, 0, 0, 0, 0, 3]));
    }

    #[test]
    fn addresses_of_ports_and_what_is_on_them_come_first() {
        let mut known =
            links(&[("docker0", false), ("eth0", true), ("bond0", false), ("v", false), ("eth1", true)]);
        known.known.get_mut(&2).expect("eth0").0.master = 3;
        known.known.get_mut(&4).expect("v").0.lower = 3;
        let at = |last: u8, index: i32| ((index, Ipv4Addr::new(192, 0, 2, last)), 0);
        let all = [at(1, 1), at(2, 2), at(3, 3), at(4, 4), at(5, 5)];
        let ports = ["eth0".to_string()];
        // without the address of the port, of its bond, of the VLAN on the bond, and so on
        for (skipped, last) in [(&[][..], 2), (&[2], 3), (&[2, 3], 4), (&[2, 3, 4], 5), (&[2, 3, 4, 5], 1)] {
            known.addresses = all.iter().filter(|one| !skipped.contains(&one.0 .0)).copied().collect();
            let found = management_address(&ports, &known, &[]);
            assert_eq!(found, Some(Ipv4Addr::new(192, 0, 2, last)), "{skipped:?}");
        }
        known.addresses = all.to_vec();
        for (patterns, last) in [("!192.0.2.2", 3), ("192.0.2.[145]", 4), ("192.0.2.*,!192.0.2.[2345]", 1)] {
            let patterns: Vec<String> = patterns.split(',').map(String::from).collect();
            let found = management_address(&ports, &known, &patterns);
            assert_eq!(found, Some(Ipv4Addr::new(192, 0, 2, last)), "{patterns:?}");
        }
        assert_eq!(management_address(&ports, &known, &["10.*".into()]), None);
    }

    #[test]
    fn what_is_above_and_on_a_port_is_followed_to_the_end() {
        // of each interface after eth0, which is 1: what it is on, and what is above it
        for (made, wanted) in [
            (&[(1, 3), (0, 0)][..], "1 2 3"),                 // a bridge over a VLAN
            (&[(0, 0), (1, 0), (3, 2)], "1 3 4 2"),           // a VLAN in a VLAN below a bridge
            (&[(1, 0), (2, 0), (3, 0), (4, 0)], "1 2 3 4 5"), // each on the one before
            (&[(3, 0), (2, 0)], "1"),                         // a circle beside it
            (&[(1, 3), (2, 2)], "1 2 3"),                     // one on it
            (&[(0, 0), (0, 0)], "1"),
        ] {
            let mut known = links(&vec![("x", false); made.len() + 1]);
            known.known.get_mut(&1).expect("eth0").0.name = "eth0".into();
            for ((lower, master), index) in made.iter().zip(2..) {
                let one = &mut known.known.get_mut(&index).expect("an interface").0;
                (one.lower, one.master) = (*lower, *master);
            }
            let found: Vec<String> =
                stack(&["eth0".into()], &known).iter().map(|one| one.index.to_string()).collect();
            assert_eq!(found.join(" "), wanted, "{made:?}");
        }
    }
}
