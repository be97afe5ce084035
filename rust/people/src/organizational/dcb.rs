//! TLVs of IEEE 802.1 about data center bridging.

use super::kind::{once, own_tlv, row_in, Kind};
use super::layout::{each, flag, joined, made, name_in, number, numbers, reserved, Field, Names, Values};
use crate::json::Json;

const GROUP: &str = "Bridging";
const CLASSES: i64 = 8; // of priorities, and of traffic classes
const ALGORITHMS: Names = &[
    (0, "strict priority"),
    (1, "credit-based shaper"),
    (2, "enhanced transmission selection"),
    (255, "vendor specific"),
];
const SHORT: Names = &[(0, "strict"), (1, "CBS"), (2, "ETS"), (255, "vendor")];
const SELECTORS: Names =
    &[(1, "EtherType"), (2, "TCP or SCTP port"), (3, "UDP or DCCP port"), (4, "TCP, SCTP, UDP or DCCP port")];

/// The traffic class of each priority, and the percentage and the algorithm of each class.
const CLASSES_BY_PRIORITY: Field = numbers("classes", 8, 4);
const BANDWIDTHS: Field = numbers("bandwidths", 8, 8);
const ALGORITHMS_BY_CLASS: Field = numbers("algorithms", 8, 8).names(ALGORITHMS);
/// ETS Configuration. A number of classes of 0 means 8.
static ETS: [Field; 7] = [
    flag("willing"),
    flag("credit_based_shaper"),
    reserved(3),
    number("most_classes", 3).by(|ets| Json::Number(most_classes(ets).unsigned_abs().into())),
    CLASSES_BY_PRIORITY,
    BANDWIDTHS,
    ALGORITHMS_BY_CLASS,
];
static RECOMMENDATION: [Field; 4] = [reserved(8), CLASSES_BY_PRIORITY, BANDWIDTHS, ALGORITHMS_BY_CLASS];
/// Priority-based Flow Control: a bit for each priority, and how many may be enabled.
static FLOW_CONTROL: [Field; 5] = [
    flag("willing"),
    flag("macsec_bypass"),
    reserved(2),
    number("most_classes", 4),
    number("enabled", 8).by(|flow| {
        Json::List(enabled(flow).map(|priority| Json::Number(priority.unsigned_abs().into())).collect())
    }),
];
static APPLICATIONS: [Field; 2] = [reserved(8), each("entries", &APPLICATION)];
static APPLICATION: [Field; 5] = [
    number("priority", 3),
    reserved(2),
    number("selector", 3),
    made("selector_name", |one| name_in(SELECTORS, one.number("selector")).into()),
    number("protocol", 16),
];

pub static KINDS: [Kind; 4] = [
    once(
        &[own_tlv("0080c2.9", &ETS)],
        &[row_in(GROUP, "ets", "ETS", |ets| {
            format!("{}, class limit {}, {}", willing(ets), most_classes(ets), tables(ets))
        })],
        &[("dcb.ets", "")],
    ),
    once(
        &[own_tlv("0080c2.10", &RECOMMENDATION)],
        &[row_in(GROUP, "ets-recommendation", "ETS wanted", tables)],
        &[("dcb.ets_recommendation", "")],
    ),
    once(
        &[own_tlv("0080c2.11", &FLOW_CONTROL)],
        &[row_in(GROUP, "pfc", "PFC", |flow| {
            let enabled = joined(enabled(flow), ", ");
            let enabled = if enabled.is_empty() { "none" } else { &enabled };
            format!("{}, priorities {enabled}, class limit {}", willing(flow), flow.number("most_classes"))
        })],
        &[("dcb.pfc", "")],
    ),
    once(
        &[own_tlv("0080c2.12", &APPLICATIONS)],
        &[row_in(GROUP, "application-priorities", "Applications", |all| match all.parts("entries") {
            [] => "none".into(),
            all => joined(all.iter().map(application), ", "),
        })],
        &[("dcb.application_priorities", "entries")],
    ),
];

fn willing(flags: &Values) -> &'static str {
    if flags.flag("willing") {
        "willing"
    } else {
        "not willing"
    }
}

fn most_classes(ets: &Values) -> i64 {
    match ets.number("most_classes") {
        0 => CLASSES,
        most => most,
    }
}

fn tables(ets: &Values) -> String {
    let short = |number: &i64| name_in(SHORT, *number).map_or_else(|| number.to_string(), String::from);
    let algorithms = joined(ets.all("algorithms").iter().map(short), " ");
    ets.fill("classes by priority {classes}, percent by class {bandwidths}, algorithms ") + &algorithms
}

fn enabled(flow: &Values) -> impl Iterator<Item = i64> {
    let bits = flow.number("enabled");
    (0..CLASSES).filter(move |priority| bits >> priority & 1 == 1)
}

fn application(one: &Values) -> String {
    let (selector, protocol) = (one.number("selector"), one.number("protocol"));
    let name = name_in(SELECTORS, selector).map_or_else(|| format!("selector {selector}"), String::from);
    let protocol = if selector == 1 { format!("{protocol:#06x}") } else { protocol.to_string() };
    format!("{name} {protocol} priority {}", one.number("priority"))
}
