//! What is known about a kind of TLVs: a row of the tables in this folder.

use super::layout::{Field, Values};
use super::Said;
use crate::node::Node;

/// TLVs that mean the same, and how they are read and shown.
pub struct Kind {
    pub tlvs: &'static [Tlv],
    pub sent: Sent,
    /// Its texts for people.
    pub rows: &'static [Row],
    /// Its places in JSON: a path with dots, and the names of the fields there (all if empty).
    pub paths: &'static [(&'static str, &'static str)],
    /// The key of the node that holds its nodes, and these.
    pub parent: &'static str,
    pub nodes: fn(&Said) -> Vec<Node>,
}

/// OUI and subtype of a TLV, and its layout.
pub struct Tlv {
    pub kind: &'static str,
    pub is_of_lldpd: bool,
    pub layout: &'static [Field],
    /// The names of the fields in JSON, unless a path of the kind names them (all if empty).
    pub order: &'static str,
}

/// How often a neighbor may send TLVs of a kind.
pub enum Sent {
    /// Once, whichever of the TLVs it is.
    Once,
    /// Each of the TLVs once. Their values are in one object.
    EachOnce,
    /// Often; this text is between theirs.
    Often(&'static str),
}

/// A text for people. Rows of one group are shown together, under the name of the group.
pub struct Row {
    pub key: &'static str,
    pub heading: &'static str,
    pub group: &'static str,
    pub text: fn(&Values) -> String,
}

/// A TLV that lldpd knows too.
pub const fn tlv(kind: &'static str, layout: &'static [Field]) -> Tlv {
    Tlv { kind, is_of_lldpd: true, layout, order: "" }
}

/// A TLV that lldpd does not know.
pub const fn own_tlv(kind: &'static str, layout: &'static [Field]) -> Tlv {
    Tlv { kind, is_of_lldpd: false, layout, order: "" }
}

pub const fn row(key: &'static str, heading: &'static str, text: fn(&Values) -> String) -> Row {
    Row { key, heading, group: "", text }
}

/// A row that is shown in a group.
pub const fn row_in(
    group: &'static str,
    key: &'static str,
    heading: &'static str,
    text: fn(&Values) -> String,
) -> Row {
    Row { key, heading, group, text }
}

/// A kind that a neighbor sends at most once, and that lldpcli does not show.
pub const fn once(
    tlvs: &'static [Tlv],
    rows: &'static [Row],
    paths: &'static [(&'static str, &'static str)],
) -> Kind {
    Kind { tlvs, sent: Sent::Once, rows, paths, parent: "", nodes: |_| Vec::new() }
}

/// A kind that a neighbor may send often. The texts are shown with this between them.
pub const fn often(
    between: &'static str,
    tlvs: &'static [Tlv],
    rows: &'static [Row],
    paths: &'static [(&'static str, &'static str)],
) -> Kind {
    Kind { sent: Sent::Often(between), ..once(tlvs, rows, paths) }
}

impl Tlv {
    /// Sets the order of the fields in JSON.
    pub const fn ordered(self, order: &'static str) -> Tlv {
        Tlv { order, ..self }
    }
}

impl Kind {
    pub const fn each_once(self) -> Kind {
        Kind { sent: Sent::EachOnce, ..self }
    }

    /// Gives it nodes in another node.
    pub const fn nodes(self, parent: &'static str, nodes: fn(&Said) -> Vec<Node>) -> Kind {
        Kind { parent, nodes, ..self }
    }
}
