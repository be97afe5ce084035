//! TLVs of IEEE 802.3 about power, and Energy-Efficient Ethernet.

use super::kind::{once, own_tlv, row, tlv, Kind};
use super::layout::{
    ability, flag, further, name_in, named, number, perhaps, reserved, watts, Field, Names, Values,
};
use crate::json::Json;
use crate::node::{yes, Node};

const PATH: &str = "power";
const DEVICES: Names = &[(0, "PD"), (1, "PSE")];
const PAIRS: Names = &[(1, "signal"), (2, "spare")];
const TYPES: Names = &[(0, "type 2 PSE"), (1, "type 2 PD"), (2, "type 1 PSE"), (3, "type 1 PD")];
pub const PSE_SOURCES: [&str; 4] = ["unknown", "primary", "backup", "reserved"];
pub const PD_SOURCES: [&str; 4] = ["unknown", "PSE", "local", "PSE and local"];
pub const PRIORITIES: Names = &[(0, "unknown"), (1, "critical"), (2, "high"), (3, "low")];
/// lldpcli's names.
const LLDPCLI_PSE_SOURCES: [&str; 4] = ["unknown", "Primary power source", "Backup source", "unknown"];
pub const LLDPCLI_PD_SOURCES: [&str; 4] = ["unknown", "PSE", "Local", "PSE + Local"];
pub const LLDPCLI_PRIORITIES: [&str; 4] = ["unknown", "critical", "high", "low"];
const PSE_STATUSES: [&str; 4] = [
    "Unknown",
    "2-pair powering",
    "4-pair powering dual-signature PD",
    "4-pair powering single-signature PD",
];
const PD_STATUSES: [&str; 4] = [
    "Unknown",
    "2-pair powered PD",
    "4-pair powered dual-signature PD",
    "4-pair powered single-signature PD",
];
const ALTERNATIVES: [&str; 4] = ["Unknown", "Alternative A", "Alternative B", "Both alternatives"];
const TYPES_OF_PAIRS: [&str; 8] = [
    "Type 3 PSE",
    "Type 4 PSE",
    "Type 3 single-signature PD",
    "Type 3 dual-signature PD",
    "Type 4 single-signature PD",
    "Type 4 dual-signature PD",
    "Unknown",
    "Unknown",
];
const SINGLE: &str = "Single-signature PD or 2-pair only PSE";
const MODE_CLASSES: [&str; 8] =
    ["Unknown", "Class 1", "Class 2", "Class 3", "Class 4", "Class 5", "Unknown", SINGLE];
const POWER_CLASSES: [&str; 16] = [
    "Unknown",
    "Class 1",
    "Class 2",
    "Class 3",
    "Class 4",
    "Class 5",
    "Class 6",
    "Class 7",
    "Class 8",
    "Unknown",
    "Unknown",
    "Unknown",
    "Unknown",
    "Unknown",
    "Unknown",
    "Dual-signature PD",
];
const LOADS: [&str; 2] = [
    "PD is single- or dual-signature and power is not electrically isolated",
    "PD is dual-signature and power is electrically isolated",
];

/// Power via MDI: 3 octets, 8 with the fields of IEEE 802.3at, or 25 with those of 802.3bt too.
static POWER: [Field; 9] = [
    reserved(4),
    flag("pair_control"),
    flag("enabled"),
    flag("supported"),
    named("device", 1, DEVICES, "").told("device-type", "Device type", |power| power.word("device")),
    named("pairs", 8, PAIRS, "").told("pairs", "Power pairs", |power| {
        name_in(PAIRS, power.number("pairs")).unwrap_or("unknown").into()
    }),
    number("class", 8).by(|power| class_of(power).map_or(Json::Null, Json::Number)).told(
        "class",
        "Class",
        |power| class_of(power).map_or("unknown".into(), |class| format!("class {class}")),
    ),
    further(&REQUEST),
    perhaps("bt", &OF_PAIRS),
];
/// The fields that IEEE 802.3at adds.
static REQUEST: [Field; 6] = [
    named("type", 2, TYPES, "").told("power-type", "Power type", |power| {
        (if power.number("type") & 2 != 0 { "1" } else { "2" }).into()
    }),
    number("source", 2).by(|power| source_in(power, &PD_SOURCES, &PSE_SOURCES).into()).told(
        "source",
        "Power Source",
        |power| source_in(power, &LLDPCLI_PD_SOURCES, &LLDPCLI_PSE_SOURCES).into(),
    ),
    reserved(2),
    named("priority", 2, PRIORITIES, "").listed("priority", "Power Priority", &LLDPCLI_PRIORITIES),
    watts("requested").milliwatts("requested", "PD requested power Value"),
    watts("allocated").milliwatts("allocated", "PSE allocated power Value"),
];
/// The fields that IEEE 802.3bt adds. A and B are the modes of a dual-signature PD, or the alternatives
/// of its PSE. The seconds of being down are 0 for an unlimited time.
static OF_PAIRS: [Field; 20] = [
    watts("requested_a").milliwatts("requested-a", "Requested mode A"),
    watts("requested_b").milliwatts("requested-b", "Requested mode B"),
    watts("allocated_a").milliwatts("allocated-a", "Allocated alternative A"),
    watts("allocated_b").milliwatts("allocated-b", "Allocated alternative B"),
    number("pse_status", 2).listed("pse-powering-status", "PSE powering status", &PSE_STATUSES),
    number("pd_status", 2).listed("pd-powering-status", "PD powering status", &PD_STATUSES),
    number("pse_pairs", 2).listed("power-pairs-ext", "Power pairs extra", &ALTERNATIVES),
    number("class_a", 3).listed("power-class-ext-a", "Class extra A", &MODE_CLASSES),
    number("class_b", 3).listed("power-class-ext-b", "Class extra B", &MODE_CLASSES),
    number("power_class", 4).listed("power-class-ext", "Class extra", &POWER_CLASSES),
    reserved(4),
    number("type", 3).listed("power-type-ext", "Power type extra", &TYPES_OF_PAIRS),
    flag("is_isolated").listed("pd-load", "PD load", &LOADS),
    watts("most_available").milliwatts("max-power", "PSE maximum available power"),
    reserved(5),
    flag("can_autoclass"),
    flag("has_autoclass"),
    flag("requests_autoclass"),
    number("down_request", 6),
    number("down_seconds", 18),
];
/// Energy-Efficient Ethernet: wake times in microseconds, and their echoes.
static EEE: [Field; 5] = [
    number("transmit", 16),
    number("receive", 16),
    number("fallback_receive", 16),
    number("echo_transmit", 16),
    number("echo_receive", 16),
];

pub static KINDS: [Kind; 2] = [
    once(
        &[tlv("00120f.2", &POWER)],
        &[row("power", "Power", power_words)],
        &[(
            PATH,
            "device supported enabled pair_control pairs class type source priority requested allocated bt",
        )],
    )
    .nodes("port", |said| said.all(PATH).map(power_node).collect()),
    once(
        &[own_tlv("00120f.5", &EEE)],
        &[row("eee", "EEE", |eee| {
            eee.fill(
                "transmit wake time {transmit} us, requests {receive} us (fallback {fallback_receive} us), \
                 echoes of the peer's values: transmit {echo_transmit} us, receive {echo_receive} us",
            )
        })],
        &[("eee", "")],
    ),
];

/// Returns the power class, 0 to 4. None if the number does not mean a class.
fn class_of(power: &Values) -> Option<u128> {
    u128::try_from(power.number("class") - 1).ok().filter(|class| *class < 5)
}

fn source_in(
    power: &Values,
    of_pd: &'static [&'static str; 4],
    of_pse: &'static [&'static str; 4],
) -> &'static str {
    let sources = if power.number("type") & 1 != 0 { of_pd } else { of_pse };
    sources.get(power.number("source") as usize).copied().unwrap_or("unknown")
}

fn power_words(power: &Values) -> String {
    let state = ability(power.flag("supported"), power.flag("enabled"));
    let fixed = if power.flag("pair_control") { "" } else { " (fixed)" };
    let class = class_of(power).map_or("no class".into(), |class| format!("class {class}"));
    let mut text = format!("{} {state}, pairs {}{fixed}, {class}", power.word("device"), power.word("pairs"));
    if power.has("type") {
        text += &power.fill(
            "; {type}, source {source}, priority {priority}, requested {requested}, allocated {allocated}",
        );
    }
    for pairs in power.parts("bt") {
        text += &pairs.fill(
            "; at most {most_available}, mode A {requested_a} requested and {allocated_a} allocated, \
             mode B {requested_b} requested and {allocated_b} allocated",
        );
    }
    text
}

fn power_node(power: &Values) -> Node {
    let mut node = Node::new("power", "MDI Power")
        .with("supported", "supported", yes(power.flag("supported")))
        .with("enabled", "enabled", yes(power.flag("enabled")))
        .with("paircontrol", "pair control", yes(power.flag("pair_control")));
    power.add_leaves(&mut node);
    node
}
