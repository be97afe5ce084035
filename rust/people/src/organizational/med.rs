//! TLVs of LLDP-MED about a device, its policies, power and inventory, and of RFC 8520.

use super::kind::{often, once, own_tlv, row, tlv, Kind};
use super::layout::{flag, made, name_in, named, number, reserved, rest, vid, watts, Field, Names, Values};
use super::power::{LLDPCLI_PD_SOURCES, LLDPCLI_PRIORITIES, PD_SOURCES, PRIORITIES, PSE_SOURCES};
use super::{nodes_in, Said};
use crate::json::Json;
use crate::node::{capital, said_text, yes, Node};
use std::collections::BTreeMap;

const ALL: usize = usize::MAX;
pub const PARENT: &str = "lldp-med";
const CAPABILITIES: [&str; 6] = ["capabilities", "policy", "location", "MDI/PSE", "MDI/PD", "inventory"];
const CLASSES: Names = &[
    (1, "endpoint class I"),
    (2, "endpoint class II"),
    (3, "endpoint class III"),
    (4, "network connectivity"),
];
const APPLICATIONS: Names = &[
    (1, "voice"),
    (2, "voice signaling"),
    (3, "guest voice"),
    (4, "guest voice signaling"),
    (5, "softphone voice"),
    (6, "video conferencing"),
    (7, "streaming video"),
    (8, "video signaling"),
];
const DEVICES: Names = &[(0, "PSE"), (1, "PD")];
/// lldpcli's names.
const LLDPCLI_CLASSES: Names = &[
    (1, "Generic Endpoint (Class I)"),
    (2, "Media Endpoint (Class II)"),
    (3, "Communication Device Endpoint (Class III)"),
    (4, "Network Connectivity Device"),
];
const QUALITIES: [&str; 8] = [
    "Best effort",
    "Background",
    "Excellent effort",
    "Critical applications",
    "Video",
    "Voice",
    "Internetwork control",
    "Network control",
];
const LLDPCLI_PSE_SOURCES: [&str; 4] =
    ["unknown", "Primary Power Source", "Backup Power Source / Power Conservation Mode", "unknown"];
/// The kinds of inventory in the order of lldpcli, and its names of them.
const LABELS: [(&str, &str); 7] = [
    ("hardware", "Hardware Revision"),
    ("software", "Software Revision"),
    ("firmware", "Firmware Revision"),
    ("serial", "Serial Number"),
    ("manufacturer", "Manufacturer"),
    ("model", "Model"),
    ("asset", "Asset ID"),
];
const DEVICE: &str = "med.capabilities";
const POLICIES: &str = "med.policies";
const POWER: &str = "med.power";
const INVENTORY: &str = "med.inventory";

static MED: [Field; 2] = [
    number("capabilities", 16).by(|med| Json::List(names(med).map(Json::from).collect())),
    number("class", 8),
];
static POLICY: [Field; 8] = [
    number("application", 8),
    made("name", |policy| name_in(APPLICATIONS, policy.number("application")).into()),
    flag("unknown"),
    flag("tagged"),
    reserved(1),
    vid("vid", 12),
    number("priority", 3),
    number("dscp", 6),
];
/// Extended Power via MDI.
static MED_POWER: [Field; 4] = [
    named("device", 2, DEVICES, "device").told("device-type", "Power Type & Source", |power| {
        name_in(DEVICES, power.number("device")).unwrap_or("unknown").into()
    }),
    number("source", 2).by(|power| source_in(power, &PSE_SOURCES, &PD_SOURCES).into()).told(
        "source",
        "Power Source",
        |power| source_in(power, &LLDPCLI_PSE_SOURCES, &LLDPCLI_PD_SOURCES).unwrap_or("unknown").into(),
    ),
    named("priority", 4, PRIORITIES, "").listed("priority", "Power priority", &LLDPCLI_PRIORITIES),
    watts("watts").milliwatts("power", "Power Value"),
];
static HARDWARE: [Field; 1] = [rest("hardware", 0, ALL)];
static FIRMWARE: [Field; 1] = [rest("firmware", 0, ALL)];
static SOFTWARE: [Field; 1] = [rest("software", 0, ALL)];
static SERIAL: [Field; 1] = [rest("serial", 0, ALL)];
static MANUFACTURER: [Field; 1] = [rest("manufacturer", 0, ALL)];
static MODEL: [Field; 1] = [rest("model", 0, ALL)];
static ASSET: [Field; 1] = [rest("asset", 0, ALL)];
/// Manufacturer Usage Description.
static MUD_URL: [Field; 1] = [rest("text", 1, ALL)];

pub static KINDS: [Kind; 2] = [
    once(
        &[tlv("0012bb.1", &MED)],
        &[row("med", "MED", |med| {
            let names = names(med).collect::<Vec<_>>().join(", ");
            let class = med.number("class");
            let class = name_in(CLASSES, class).map_or_else(|| format!("class {class}"), String::from);
            format!("{class}: {}", if names.is_empty() { "nothing" } else { &names })
        })],
        &[(DEVICE, "capabilities"), ("med.class", "class")],
    )
    .nodes("interface", |said| said.all(DEVICE).filter_map(|med| med_node(med, said)).collect()),
    often(
        "; ",
        &[tlv("0012bb.2", &POLICY)],
        &[row("med-policies", "Policies", policy_words)],
        &[(POLICIES, "")],
    )
    .nodes(PARENT, |said| {
        let last: BTreeMap<i64, _> =
            said.all(POLICIES).map(|policy| (policy.number("application"), policy)).collect();
        last.into_iter().filter_map(|(application, policy)| policy_node(application, policy)).collect()
    }),
];

/// What follows the locations.
pub static FURTHER_KINDS: [Kind; 3] = [
    once(
        &[tlv("0012bb.4", &MED_POWER)],
        &[row("med-power", "MED power", |power| {
            power.fill("{device}, source {source}, priority {priority}, {watts}")
        })],
        &[(POWER, "")],
    )
    .nodes(PARENT, |said| {
        let node = |power: &Values| {
            let mut node = Node::new("poe", "Extended Power-over-Ethernet");
            power.add_leaves(&mut node);
            node
        };
        said.all(POWER).map(node).collect()
    }),
    once(
        &[
            tlv("0012bb.5", &HARDWARE),
            tlv("0012bb.6", &FIRMWARE),
            tlv("0012bb.7", &SOFTWARE),
            tlv("0012bb.8", &SERIAL),
            tlv("0012bb.9", &MANUFACTURER),
            tlv("0012bb.10", &MODEL),
            tlv("0012bb.11", &ASSET),
        ],
        &[row("inventory", "Inventory", |one| {
            let is_said = |name: &&str| !one.octets(name).is_empty();
            let name = LABELS.iter().map(|(name, _)| *name).find(is_said);
            name.map_or(String::new(), |name| format!("{name} {}", one.word(name)))
        })],
        &[(INVENTORY, "")],
    )
    .each_once()
    .nodes(PARENT, inventory_nodes),
    once(
        &[own_tlv("00005e.1", &MUD_URL)],
        &[row("mud-url", "MUD URL", |one| one.fill("{text}"))],
        &[("mud_url", "")],
    ),
];

/// Returns the names of the known capabilities that are set.
fn names(med: &Values) -> impl Iterator<Item = &'static str> {
    let bits = med.number("capabilities");
    CAPABILITIES
        .into_iter()
        .enumerate()
        .filter(move |(place, _)| bits >> place & 1 == 1)
        .map(|(_, name)| name)
}

/// Returns the node of all LLDP-MED TLVs. None for a device class of 0.
fn med_node(med: &Values, said: &Said) -> Option<Node> {
    let class = Some(med.number("class")).filter(|class| *class != 0)?;
    let mut node = Node::new(PARENT, "LLDP-MED");
    node.add("device-type", "Device Type", Some(name_in(LLDPCLI_CLASSES, class).unwrap_or("unknown")));
    let capability = |name| {
        Node::new("capability", "Capability").with("type", "", capital(name)).with("available", "", "yes")
    };
    node.nodes.extend(names(med).map(capability));
    node.nodes.extend(nodes_in(PARENT, said));
    Some(node)
}

fn policy_words(policy: &Values) -> String {
    let application = policy.number("application");
    let name =
        name_in(APPLICATIONS, application).map_or_else(|| format!("application {application}"), String::from);
    if policy.flag("unknown") {
        return format!("{name}: unknown");
    }
    let vlan = match (policy.flag("tagged"), policy.number("vid")) {
        (false, _) => "untagged".into(),
        (true, 0) => "priority tagged".into(),
        (true, vid) => format!("VLAN {vid}"),
    };
    name + &policy.fill(&format!(": {vlan}, priority {{priority}}, DSCP {{dscp}}"))
}

fn policy_node(application: i64, policy: &Values) -> Option<Node> {
    let name: Vec<String> = name_in(APPLICATIONS, application)?.split(' ').map(capital).collect();
    let mut node = Node::new("policy", "LLDP-MED Network Policy for")
        .with("apptype", "", name.join(" "))
        .with("defined", "Defined", yes(!policy.flag("unknown")));
    if policy.flag("tagged") {
        let vid = policy.number("vid");
        let vid = if vid == 0 { "priority".into() } else { vid.to_string() };
        node.nodes.push(Node::new("vlan", "VLAN").with("vid", "", vid));
    }
    let priority = policy.number("priority");
    node.add("priority", "Priority", QUALITIES.get(priority as usize).copied());
    node.add("pcp", "PCP", Some(priority.to_string()));
    node.add("dscp", "DSCP Value", Some(policy.number("dscp").to_string()));
    Some(node)
}

/// Returns where the power comes from. None if the device is neither a PSE nor a PD.
fn source_in(
    power: &Values,
    of_pse: &'static [&'static str; 4],
    of_pd: &'static [&'static str; 4],
) -> Option<&'static str> {
    let sources = match power.number("device") {
        0 => of_pse,
        1 => of_pd,
        _ => return None,
    };
    sources.get(power.number("source") as usize).copied()
}

/// Returns one node with all texts, or no node if there are no texts.
fn inventory_nodes(said: &Said) -> Vec<Node> {
    let mut node = Node::new("inventory", "Inventory");
    for (kind, label) in LABELS {
        let text = said.all(INVENTORY).find_map(|one| said_text(one.octets(kind)));
        node.add(kind, label, text);
    }
    Some(node).into_iter().filter(|node| !node.nodes.is_empty()).collect()
}
