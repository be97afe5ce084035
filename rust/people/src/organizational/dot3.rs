//! TLVs of IEEE 802.3 about frames and the link, and Link Aggregation of 802.1.

use super::kind::{once, own_tlv, row, tlv, Kind};
use super::layout::{ability, flag, made, number, reserved, Field, Values};
use super::mau::{mau_of, mau_text};
use crate::json::{Json, Object};
use crate::node::{yes, Node};

/// What each of the 16 bits advertises, the most significant bit first.
const ADVERTISED: [&str; 16] = [
    "other",
    "10BASE-T/half",
    "10BASE-T/full",
    "100BASE-T4",
    "100BASE-TX/half",
    "100BASE-TX/full",
    "100BASE-T2/half",
    "100BASE-T2/full",
    "pause",
    "asymmetric pause",
    "symmetric pause",
    "asymmetric and symmetric pause",
    "1000BASE-X/half",
    "1000BASE-X/full",
    "1000BASE-T/half",
    "1000BASE-T/full",
];
/// lldpcli's names of the advertised modes, with the bits of half and full duplex.
const LLDPCLI_MODES: [(&str, i64, i64); 6] = [
    ("10Base-T", 0x4000, 0x2000),
    ("100Base-T4", 0x1000, 0x1000),
    ("100Base-TX", 0x0800, 0x0400),
    ("100Base-T2", 0x0200, 0x0100),
    ("1000Base-X", 0x0008, 0x0004),
    ("1000Base-T", 0x0002, 0x0001),
];
const SIZE: &str = "max_frame_size";
const AGGREGATION: &str = "link_aggregation";
const LINK: &str = "mac_phy";

pub static MAX_FRAME_SIZE: [Field; 1] = [number("octets", 16)];
/// The number of the aggregated port comes last.
static LINK_AGGREGATION: [Field; 4] = [reserved(6), flag("aggregated"), flag("capable"), number("port", 32)];
/// MAC/PHY Configuration/Status.
static MAC_PHY: [Field; 9] = [
    reserved(6),
    flag("enabled"),
    flag("supported"),
    number("advertised", 16),
    number("mau_type", 16),
    made("autonegotiation", autonegotiation),
    made("type", |link| mau_of(link.number("mau_type")).map(|mau| mau.name).as_deref().into()),
    made("speed", |link| {
        mau_of(link.number("mau_type")).and_then(|mau| mau.speed).map_or(Json::Null, Json::Number)
    }),
    made("duplex", |link| mau_of(link.number("mau_type")).and_then(|mau| mau.duplex).into()),
];

pub static KINDS: [Kind; 3] = [
    once(
        &[tlv("00120f.4", &MAX_FRAME_SIZE)],
        &[row("max-frame-size", "Frame size", |size| size.fill("{octets}"))],
        &[(SIZE, "octets")],
    )
    .nodes("port", |said| {
        let sizes = said.all(SIZE).map(|size| size.number("octets")).filter(|size| *size != 0);
        sizes.map(|size| Node::leaf("mfs", "MFS", size.to_string())).collect()
    }),
    once(
        &[tlv("00120f.3", &LINK_AGGREGATION), own_tlv("0080c2.7", &LINK_AGGREGATION)],
        &[row("link-aggregation", "Aggregation", |one| {
            match (one.flag("aggregated"), one.flag("capable")) {
                (true, _) => one.fill("yes, port {port}"),
                (false, true) => "no, but capable".into(),
                (false, false) => "no".into(),
            }
        })],
        &[(AGGREGATION, "capable aggregated port")],
    )
    .nodes("port", |said| {
        let ports = said.all(AGGREGATION).map(|one| one.number("port")).filter(|port| *port != 0);
        let label = "Port is aggregated. PortAggregID";
        ports.map(|port| Node::leaf("aggregation", label, port.to_string())).collect()
    }),
    once(
        &[tlv("00120f.1", &MAC_PHY)],
        &[
            row("mac-phy", "Link", |link| {
                let state = ability(link.flag("supported"), link.flag("enabled"));
                format!("{}, autonegotiation {state}", mau_words(link.number("mau_type")))
            }),
            row("advertised", "Advertised", |link| modes(link.number("advertised")).join(", ")),
        ],
        &[(LINK, "autonegotiation mau_type type speed duplex")],
    )
    .nodes("port", |said| said.all(LINK).filter_map(link_node).collect()),
];

/// Returns the names of the advertised modes.
fn modes(bits: i64) -> Vec<&'static str> {
    let is_set = |(place, _): &(usize, &&str)| bits >> (15 - place) & 1 == 1;
    ADVERTISED.iter().enumerate().filter(is_set).map(|(_, name)| *name).collect()
}

fn autonegotiation(link: &Values) -> Json {
    let modes = modes(link.number("advertised")).into_iter().map(Json::from).collect();
    let mut told = Object::default();
    told.set("supported", Json::Flag(link.flag("supported")));
    told.set("enabled", Json::Flag(link.flag("enabled")));
    told.set("advertised", Json::List(modes));
    Json::Object(told)
}

fn mau_words(number: i64) -> String {
    match mau_of(number) {
        None => format!("MAU type {number}"),
        Some(mau) => match mau.duplex {
            Some(duplex) => format!("{} {duplex} duplex", mau.name),
            None => mau.name,
        },
    }
}

fn link_node(link: &Values) -> Option<Node> {
    let (is_supported, is_enabled) = (link.flag("supported"), link.flag("enabled"));
    if !is_supported && !is_enabled && link.number("mau_type") == 0 {
        return None;
    }
    let mut node = Node::new("auto-negotiation", "PMD autoneg")
        .with("supported", "supported", yes(is_supported))
        .with("enabled", "enabled", yes(is_enabled));
    let bits = link.number("advertised");
    let is_set = |(_, half, full): &&(&str, i64, i64)| is_enabled && bits & (half | full) != 0;
    for (name, half, full) in LLDPCLI_MODES.iter().filter(is_set) {
        let mode = Node::new("advertised", "Adv").with("type", "", *name);
        node.nodes.push(match half == full {
            true => mode,
            false => mode.with("hd", "HD", yes(bits & half != 0)).with("fd", "FD", yes(bits & full != 0)),
        });
    }
    node.add("current", "MAU oper type", Some(mau_text(link.number("mau_type"))));
    Some(node)
}
