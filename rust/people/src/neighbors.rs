//! Asks for the neighbors of all ports, and keeps those of one port at once.

use crate::client::{show_of, Done, Failure};
use crate::connection::Connection;
use crate::ordered::Ordered;
use crate::show::{check_ports, Port, MOST_NEIGHBORS};

const MOST_PORTS: usize = 64;
/// Octets that wait to be printed until the answer is complete.
const MOST_KEPT: usize = 32 << 20;

/// Returns the name of the port that the lines from this one on are about, if it is a port's first.
fn port_of(line: &str) -> Option<&str> {
    let (name, rest) = line.strip_prefix("lldp.")?.split_once('.')?;
    let key = rest.split_once('=')?.0;
    ["neighbors", "sent"].contains(&key).then_some(name)
}

/// Gives each of these ports (all if empty) to `take`. Fails if one is unknown.
pub fn each_port(
    connection: &mut Connection,
    ports: &[String],
    mut take: impl FnMut(&Port<'_>) -> Done<()>,
) -> Done<()> {
    let mut names = Ordered::<String, ()>::default();
    let begins = |line: &str| port_of(line).is_some();
    connection.ask_in_parts("show neighbors", begins, |part| {
        let show = show_of(&[part])?;
        for port in &show.ports {
            add(&mut names, port.name)?;
            if port.held > MOST_NEIGHBORS {
                return gone(&format!("{} neighbors of one port", port.held));
            }
            if ports.is_empty() || ports.iter().any(|name| name == port.name) {
                take(port)?;
            }
        }
        Ok(())
    })?;
    let known: Vec<&str> = names.keys().map(|name| &name[..]).collect();
    check_ports(ports, &known).map_err(Failure::Refused)
}

/// Adds the name of a port, which must be another one than those before.
pub fn add(names: &mut Ordered<String, ()>, name: &str) -> Done<()> {
    if names.get(&name.into()).is_some() || names.entries.len() == MOST_PORTS {
        return gone("a port twice, or more than 64 ports");
    }
    *names.value(name.into()) = ();
    Ok(())
}

fn gone<T>(what: &str) -> Done<T> {
    Err(Failure::Gone(format!("not an answer of lldpa-live: {what}")))
}

/// Prints the answer to a question, or its lines about these ports (all if empty), once they are all
/// there. If they are very many, prints what is there, so that their memory is free for the others.
pub fn lines_of(
    connection: &mut Connection,
    question: &str,
    ports: &[String],
    print: impl Fn(&str) -> Done<()>,
) -> Done<()> {
    let (mut names, mut kept) = (Ordered::<String, ()>::default(), String::new());
    let begins = |line: &str| port_of(line).is_some() || line.starts_with("live.");
    connection.ask_in_parts(question, begins, |part| {
        let text = part.text();
        let name = text.lines().next().and_then(port_of);
        if let Some(name) = name {
            add(&mut names, name)?;
        }
        if !ports.is_empty() && !ports.iter().any(|port| Some(&port[..]) == name) {
            return Ok(());
        }
        if kept.len() + text.len() > MOST_KEPT {
            print(&kept)?;
            kept.clear();
        }
        kept.push_str(text);
        Ok(())
    })?;
    let known: Vec<&str> = names.keys().map(|name| &name[..]).collect();
    check_ports(ports, &known).map_err(Failure::Refused)?;
    print(&kept)
}

#[cfg(test)]
mod tests {
    use super::*;

    #[test]
    fn a_port_begins_with_its_first_line() {
        for (line, name) in [
            ("lldp.eth0.neighbors=1", Some("eth0")),
            ("lldp.eth0.sent=1", Some("eth0")),
            ("lldp.neighbors.neighbors=0", Some("neighbors")),
            ("lldp.eth0.octets=1", None),
            ("lldp.eth0.1.chassis.name=lldp.eth1.neighbors=1", None),
            ("lldp.eth0.1.neighbors=1", None),
            ("lldp.neighbors=1", None),
            ("", None),
        ] {
            assert_eq!(port_of(line), name, "{line}");
        }
    }
}
