//! TLVs of IEEE 802.1 about VLANs.

use super::kind::{often, once, own_tlv, row, row_in, tlv, Kind};
use super::layout::{ability, digest, flag, hex, length, most, reserved, rest, vid, Field, GREATEST_VID};
use super::Said;
use crate::node::{lldpcli_text, yes, Node};
use crate::texts::hex_of;

const OTHERS: &str = "Other VLANs";
const PVID: &str = "vlan.pvid";
const NAMES: &str = "vlan.names";
/// Port VLAN ID: the VLAN of untagged frames, 0 if the port has none.
pub static PORT_VLAN: [Field; 1] = [vid("pvid", 16)];
static VLAN_NAME: [Field; 3] = [most("vid", 16, GREATEST_VID), length(), rest("name", 0, 32)];
/// Port and Protocol VLAN ID, 0 if there is none.
static PROTOCOL_VLAN: [Field; 5] =
    [reserved(5), flag("enabled"), flag("supported"), reserved(1), vid("ppvid", 16)];
/// Protocol Identity: the first octets of a protocol's frames.
static PROTOCOL: [Field; 2] = [length(), hex("protocol")];
/// Management VID, 0 if there is none.
static MANAGEMENT: [Field; 1] = [vid("vid", 16)];
static VID_USAGE_DIGEST: [Field; 1] = [digest("digest")];

pub static KINDS: [Kind; 6] = [
    once(
        &[tlv("0080c2.1", &PORT_VLAN)],
        &[row("pvid", "VLAN", |vlan| vlan.fill("{pvid}"))],
        &[(PVID, "pvid")],
    )
    .nodes("interface", vlan_nodes),
    often(
        ", ",
        &[tlv("0080c2.3", &VLAN_NAME)],
        &[row("vlan-names", "VLAN names", |vlan| vlan.fill("{vid} {name}").trim_end().into())],
        &[(NAMES, "")],
    ),
    often(
        ", ",
        &[tlv("0080c2.2", &PROTOCOL_VLAN)],
        &[row_in(OTHERS, "protocol-vlans", "Protocol VLANs", |vlan| {
            format!("{} {}", vlan.word("ppvid"), ability(vlan.flag("supported"), vlan.flag("enabled")))
        })],
        &[("vlan.protocol_vlans", "supported enabled ppvid")],
    )
    .nodes("interface", |said| {
        let node = |vlan: &super::Values| {
            Node::new("ppvid", "PPVID")
                .with("value", "", vlan.number("ppvid").to_string())
                .with("supported", "supported", yes(vlan.flag("supported")))
                .with("enabled", "enabled", yes(vlan.flag("enabled")))
        };
        said.all("vlan.protocol_vlans").map(node).collect()
    }),
    often(
        ", ",
        &[tlv("0080c2.4", &PROTOCOL)],
        &[row_in(OTHERS, "protocols", "Protocols", |one| match one.octets("protocol") {
            [] => "empty".into(),
            _ => one.word("protocol"),
        })],
        &[("vlan.protocols", "protocol")],
    )
    .nodes("interface", |said| {
        let all = said.all("vlan.protocols").map(|one| one.octets("protocol"));
        all.filter(|octets| !octets.is_empty())
            .map(|octets| Node::leaf("pi", "PI", hex_of(octets, " ")))
            .collect()
    }),
    once(
        &[own_tlv("0080c2.6", &MANAGEMENT)],
        &[row_in(OTHERS, "management-vlan", "Management VLAN", |vlan| vlan.fill("{vid}"))],
        &[("vlan.management", "vid")],
    ),
    once(
        &[own_tlv("0080c2.5", &VID_USAGE_DIGEST)],
        &[row_in(OTHERS, "vid-usage-digest", "VID digest", |one| one.fill("{digest}"))],
        &[("vlan.usage_digest", "digest")],
    ),
];

/// Returns the nodes of named VLANs, and of the port's VLAN if it is not among them.
fn vlan_nodes(said: &Said) -> Vec<Node> {
    let pvid = said.all(PVID).next().map(|vlan| vlan.number("pvid"));
    let node = |vid: i64, is_of_port: bool| {
        Node::new("vlan", "VLAN").with("vlan-id", "", vid.to_string()).with("pvid", "pvid", yes(is_of_port))
    };
    let mut nodes: Vec<Node> = Vec::new();
    for vlan in said.all(NAMES) {
        let vid = vlan.number("vid");
        nodes.push(Node { text: Some(lldpcli_text(vlan.octets("name"))), ..node(vid, pvid == Some(vid)) });
    }
    let is_named = |vid: &i64| said.all(NAMES).any(|vlan| vlan.number("vid") == *vid);
    nodes.extend(pvid.filter(|vid| *vid != 0 && !is_named(vid)).map(|vid| node(vid, true)));
    nodes
}
