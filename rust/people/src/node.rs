//! The nodes of the trees from which lldpcli's answers are written.

use std::borrow::Cow;

/// A key, its label for people (empty if none is needed), and the value.
pub type Attribute = (&'static str, &'static str, String);

/// A node: its key, its label for people, its attributes, a text, which is octets, and the nodes in it.
#[derive(Clone, Debug, Default, PartialEq)]
pub struct Node {
    pub key: Cow<'static, str>,
    pub label: Cow<'static, str>,
    pub attributes: Vec<Attribute>,
    pub text: Option<Vec<u8>>,
    pub nodes: Vec<Node>,
}

impl Node {
    pub fn new(key: &'static str, label: &'static str) -> Node {
        Node { key: key.into(), label: label.into(), ..Node::default() }
    }

    /// Returns a node that has only a text.
    pub fn leaf(key: &'static str, label: &'static str, text: impl Into<Vec<u8>>) -> Node {
        Node { text: Some(text.into()), ..Node::new(key, label) }
    }

    /// Adds an attribute.
    pub fn with(mut self, key: &'static str, label: &'static str, value: impl Into<String>) -> Node {
        self.attributes.push((key, label, value.into()));
        self
    }

    /// Adds a node that has only a text; adds nothing if there is no text.
    pub fn add(&mut self, key: &'static str, label: &'static str, text: Option<impl Into<Vec<u8>>>) {
        self.nodes.extend(text.map(|text| Node::leaf(key, label, text)));
    }
}

/// Returns lldpcli's word for true or false.
pub fn yes(is_so: bool) -> &'static str {
    if is_so {
        "yes"
    } else {
        "no"
    }
}

/// Returns a text of a neighbor, cut at the first NUL as lldpd does.
pub fn lldpcli_text(octets: &[u8]) -> Vec<u8> {
    octets.iter().copied().take_while(|octet| *octet != 0).collect()
}

/// Returns a text of a neighbor, or None if it is empty.
pub fn said_text(octets: &[u8]) -> Option<Vec<u8>> {
    (!octets.is_empty()).then(|| lldpcli_text(octets))
}

/// Returns a name with its first letter as a capital.
pub fn capital(name: &str) -> String {
    let (first, rest) = name.split_at(name.len().min(1));
    first.to_uppercase() + rest
}
