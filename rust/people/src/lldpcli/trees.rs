//! Builds the trees of lldpcli's commands from the answers of lldpa-live.

use crate::client::Failure;
use crate::counters::{Counters, COUNTERS};
use crate::live_lines::Since;
use crate::node::{lldpcli_text, said_text, yes, Node};
use crate::ordered::Ordered;
use crate::organizational::{nodes_in, octets_of, Said};
use crate::show::{capabilities_in, Identifier, Neighbor, Read, Show};
use crate::show_reader::number_of;
use crate::table::address_text;
use crate::texts::{hex_of, octets_shown};
use crate::times::seconds_of;

const CAPABILITIES: [&str; 8] = ["Other", "Repeater", "Bridge", "Router", "Wlan", "Tel", "Docsis", "Station"];
const BY_INTERFACE: &str = "2"; // the interface number is an ifIndex
/// lldpd's kinds for subtypes of Chassis ID and Port ID with an address.
const KINDS_OF_CHASSIS: [(u8, &str); 2] = [(4, "mac"), (5, "ip")];
const KINDS_OF_PORT: [(u8, &str); 2] = [(3, "mac"), (4, "ip")];
const STATUSES: [(&str, &str); 4] =
    [("rx-and-tx", "RX and TX"), ("rx-only", "RX only"), ("tx-only", "TX only"), ("disabled", "disabled")];
const SECONDS_OF_A_DAY: i64 = 24 * 60 * 60;

/// How much is shown.
#[derive(Clone, Copy, Debug, Eq, PartialEq)]
pub enum Depth {
    Summary,
    Normal,
    Details,
}

/// The answers of lldpa-live, and the current time in seconds since 1970.
pub struct Told<'a> {
    pub show: Show<'a>,
    pub since: &'a Since,
    pub now: i64,
}

type Ports<'a> = Option<&'a [String]>;

fn is_wanted(ports: Ports<'_>, name: &str) -> bool {
    ports.map_or(true, |ports| ports.iter().any(|port| port == name))
}

/// Returns the node of a neighbor.
pub fn neighbor_node(told: &Told<'_>, neighbor: &Neighbor<'_>, depth: Depth) -> Read<Node> {
    let mut node =
        Node::new("interface", "Interface").with("name", "", neighbor.port).with("via", "via", "LLDP");
    if depth != Depth::Summary {
        if let Some(number) = told.since.number(neighbor) {
            node = node.with("rid", "RID", number.to_string());
        }
        if let Some(came) = told.since.of(neighbor) {
            node = node.with("age", "Time", age((told.now - seconds_of(came)?).max(0)));
        }
    }
    let said = Said::known_to_lldpd(neighbor);
    let identifier = identifier_node("ChassisID", &neighbor.chassis, &KINDS_OF_CHASSIS);
    let mut port = port_node(neighbor);
    let chassis = chassis_node(identifier, &neighbor.said, depth == Depth::Summary);
    let mut further = Vec::new();
    if depth == Depth::Details {
        port.nodes.extend(nodes_in("port", &said));
        further = nodes_in("interface", &said);
    }
    node.nodes.extend([chassis, port]);
    node.nodes.extend(further);
    node.nodes.extend(unknown_nodes(&said.rest));
    Ok(node)
}

/// Returns a number of seconds as lldpcli writes it.
fn age(seconds: i64) -> String {
    let (days, rest) = (seconds / SECONDS_OF_A_DAY, seconds % SECONDS_OF_A_DAY);
    let plural = if days > 1 { "s" } else { "" };
    format!("{days} day{plural}, {:02}:{:02}:{:02}", rest / 3600, rest / 60 % 60, rest % 60)
}

/// Returns a chassis' node. If `is_brief`, it has only the identifier and the name.
fn chassis_node(identifier: Node, said: &[(&str, &str)], is_brief: bool) -> Node {
    let mut node = Node { nodes: vec![identifier], ..Node::new("chassis", "Chassis") };
    node.add("name", "SysName", first(said, "chassis.name"));
    if is_brief {
        return node;
    }
    node.add("descr", "SysDescr", first(said, "chassis.descr"));
    let is_address = |(key, text): &&(&str, &str)| *key == "chassis.mgmt" && !text.starts_with("af");
    for (_, text) in said.iter().filter(is_address) {
        let mut parts = text.split(',');
        let [address, numbering, number] = [(); 3].map(|_| parts.next().unwrap_or(""));
        node.add("mgmt-ip", "MgmtIP", Some(address_text(address)));
        let number = Some(number).filter(|number| numbering == BY_INTERFACE && *number != "0");
        node.add("mgmt-iface", "MgmtIface", number);
    }
    let capabilities = said.iter().find(|(key, _)| *key == "chassis.caps").map_or("", |(_, text)| text);
    let states = capabilities_in(capabilities);
    for name in CAPABILITIES {
        let state = states.get(&name).map(|is_on| if *is_on { "on" } else { "off" });
        let capability = Node::new("capability", "Capability").with("type", "", name);
        node.nodes.extend(state.map(|state| capability.with("enabled", "", state)));
    }
    node
}

/// Returns the first text with this key. None if there is none, or if it is empty.
fn first(said: &[(&str, &str)], key: &str) -> Option<Vec<u8>> {
    said.iter().find(|(name, _)| *name == key).and_then(|(_, text)| said_text(&octets_shown(text)))
}

/// Returns the node of a Chassis ID or Port ID. `known` has lldpd's kinds for subtypes that the agent
/// shows as `unhandled`.
fn identifier_node(label: &'static str, identifier: &Identifier<'_>, known: &[(u8, &'static str)]) -> Node {
    let text = identifier.text;
    let (kind, text) = match identifier.kind {
        "ip" => ("ip", address_text(text).into_bytes()),
        "component" | "portcomp" | "circuit" => ("unhandled", hex_of(&octets_shown(text), " ").into_bytes()),
        "unhandled" => {
            let octets = octets_of(text).unwrap_or_default();
            let (first, rest) = octets.split_at(octets.len().min(1));
            let kind = known.iter().find(|(one, _)| first == [*one]).map_or("unhandled", |(_, kind)| kind);
            (kind, hex_of(rest, if kind == "mac" { ":" } else { " " }).into_bytes())
        }
        "mac" => ("mac", text.into()),
        kind => (kind, lldpcli_text(&octets_shown(text))),
    };
    Node::leaf("id", label, text).with("type", "", kind)
}

/// Returns the node of a neighbor's port, without the TLVs of IEEE 802.3.
fn port_node(neighbor: &Neighbor<'_>) -> Node {
    let identifier = identifier_node("PortID", &neighbor.port_id, &KINDS_OF_PORT);
    let mut node = Node { nodes: vec![identifier], ..Node::new("port", "Port") };
    node.add("descr", "PortDescr", first(&neighbor.said, "port.descr"));
    node.add("ttl", "TTL", Some(neighbor.ttl.to_string()));
    node
}

/// Returns one node with these TLVs as octets, if there are any.
fn unknown_nodes(unknown: &[(&str, &str)]) -> Option<Node> {
    let upper = |digits: &str| hex_of(&octets_of(digits).unwrap_or_default(), ",").to_uppercase();
    let node = |(kind, digits): &(&str, &str)| {
        let (oui, subtype) = kind.split_once('.').unwrap_or((kind, ""));
        let node = Node::new("unknown-tlv", "TLV")
            .with("oui", "OUI", upper(oui))
            .with("subtype", "SubType", subtype)
            .with("len", "Len", (digits.len() / 2).to_string());
        Node { text: Some(upper(digits).into_bytes()).filter(|text| !text.is_empty()), ..node }
    };
    let nodes: Vec<Node> = unknown.iter().map(node).collect();
    (!nodes.is_empty()).then(|| Node { nodes, ..Node::new("unknown-tlvs", "Unknown TLVs") })
}

/// The root of `show neighbors`, without its nodes.
pub fn neighbors() -> Node {
    Node::new("lldp", "LLDP neighbors")
}

/// Returns the node of this host's chassis.
fn local_chassis(told: &Told<'_>, depth: Depth) -> Result<Node, Failure> {
    let chassis = told.show.chassis.as_ref().ok_or_else(|| not_reported("what this host announces"))?;
    let keys: Vec<(String, &str)> = chassis
        .iter()
        .filter(|(_, text)| !text.is_empty())
        .map(|(key, text)| (format!("chassis.{key}"), *text))
        .collect();
    let said: Vec<(&str, &str)> = keys.iter().map(|(key, text)| (&key[..], *text)).collect();
    let text = chassis.iter().find(|(key, _)| *key == "mac").map_or("", |(_, text)| text);
    let identifier = identifier_node("ChassisID", &Identifier { kind: "mac", text }, &[]);
    Ok(chassis_node(identifier, &said, depth == Depth::Summary))
}

fn not_reported(what: &str) -> Failure {
    Failure::Refused(format!("lldpa-live did not report {what}"))
}

fn setting(told: &Told<'_>, key: &str) -> Result<u128, Failure> {
    let found = told.show.settings.get(&key).and_then(|value| number_of(value));
    found.ok_or_else(|| not_reported("the configuration"))
}

/// Returns the tree of `show interfaces`: what this host announces at its ports.
pub fn interfaces(told: &Told<'_>, ports: Ports<'_>, depth: Depth) -> Result<Node, Failure> {
    let mut root = Node::new("lldp", "LLDP interfaces");
    let (chassis, ttl) = (local_chassis(told, depth)?, setting(told, "ttl")?.to_string());
    let statuses = told.show.statuses.iter().flat_map(|statuses| &statuses.entries);
    for (name, status) in statuses.filter(|(name, _)| is_wanted(ports, name)) {
        let mut node = Node::new("interface", "Interface").with("name", "", *name);
        let status = STATUSES.iter().find(|(one, _)| one == status).map(|(_, text)| *text);
        node.add("status", "Administrative status", status);
        let identifier = identifier_node("PortID", &Identifier { kind: "ifname", text: name }, &[]);
        let mut port = Node { nodes: vec![identifier], ..Node::new("port", "Port") };
        port.add("descr", "PortDescr", Some(*name));
        let ttl = Node::new("ttl", "TTL").with("ttl", "", &ttl[..]);
        node.nodes.extend([chassis.clone(), port, ttl]);
        root.nodes.push(node);
    }
    Ok(root)
}

pub fn chassis(told: &Told<'_>, _: Ports<'_>, depth: Depth) -> Result<Node, Failure> {
    let nodes = vec![local_chassis(told, depth)?];
    Ok(Node { nodes, ..Node::new("local-chassis", "Local chassis") })
}

/// Returns the tree of `show configuration`, with the settings that lldpd has too.
pub fn configuration(told: &Told<'_>, _: Ports<'_>, _: Depth) -> Result<Node, Failure> {
    let interval = setting(told, "tx-interval")?;
    let mut statuses = told.show.statuses.iter().flat_map(|statuses| statuses.values());
    let mut node = Node::new("config", "Configuration");
    node.add("tx-delay", "Transmit delay", Some(interval.to_string()));
    node.add("tx-delay-ms", "Transmit delay in milliseconds", Some((1000 * interval).to_string()));
    node.add("tx-hold", "Transmit hold", Some(setting(told, "tx-hold")?.to_string()));
    node.add(
        "max-neighbors",
        "Maximum number of neighbors",
        Some(setting(told, "max-neighbors")?.to_string()),
    );
    node.add("rx-only", "Receive mode", Some(yes(statuses.all(|status| *status == "rx-only"))));
    Ok(Node { nodes: vec![node], ..Node::new("configuration", "Global configuration") })
}

/// Returns the tree of `show statistics`, with the counters of each port or with their sums.
pub fn statistics(told: &Told<'_>, ports: Ports<'_>, depth: Depth) -> Result<Node, Failure> {
    let mut found = told.show.counters.clone();
    found.retain(|(name, _)| is_wanted(ports, name));
    if depth == Depth::Summary {
        let nodes = counter_nodes(&Counters::summed(&found));
        let nodes = vec![Node { nodes, ..Node::new("summary", "Summary of stats") }];
        return Ok(Node { nodes, ..Node::new("lldp", "LLDP Global statistics") });
    }
    let node = |(name, counters): &(&str, Counters<'_>)| {
        let node = Node::new("interface", "Interface").with("name", "", *name);
        Node { nodes: counter_nodes(counters), ..node }
    };
    Ok(Node { nodes: found.iter().map(node).collect(), ..Node::new("lldp", "LLDP statistics") })
}

/// Returns the nodes of the counters that lldpd has too.
fn counter_nodes(counters: &Counters<'_>) -> Vec<Node> {
    let mut sums = Ordered::<(&'static str, &'static str), u128>::default();
    for counter in &COUNTERS {
        let number = counters.of(counter.key).unwrap_or(0);
        counter.node.into_iter().for_each(|node| *sums.value(node) += number);
    }
    let node = |((key, label), sum): ((&'static str, &'static str), u128)| {
        Node::new(key, label).with(key, "", sum.to_string())
    };
    sums.entries.into_iter().map(node).collect()
}

#[cfg(test)]
mod tests {
    use super::*;

    #[test]
    fn ages() {
        for (seconds, text) in [
            (0, "0 day, 00:00:00"),
            (86_399, "0 day, 23:59:59"),
            (86_400, "1 day, 00:00:00"),
            (266_645, "3 days, 02:04:05"),
        ] {
            assert_eq!(age(seconds), text);
        }
    }
}
