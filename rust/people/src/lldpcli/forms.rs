//! Writes a tree for people, as keys and values, as JSON, or as XML.

use crate::json::{quoted, Json, Object};
use crate::letters::is_shown;
use crate::node::{Attribute, Node};
use crate::ordered::Ordered;
use crate::texts::{escaped, letters_of, printable};

pub const FORMS: [(&str, Form); 5] = [
    ("plain", Form::Plain),
    ("keyvalue", Form::KeyValue),
    ("json", Form::Json),
    ("json0", Form::Json0),
    ("xml", Form::Xml),
];
const LINE: &str = "-------------------------------------------------------------------------------\n";
const WIDTH: usize = 13; // columns before a value
const NAMING: [&str; 2] = ["name", "type"]; // the attributes whose values replace their node's key
const NAME: &str = "name";
const FLAGS: [(&str, bool); 4] = [("yes", true), ("on", true), ("no", false), ("off", false)];
const INDENT: &str = "  ";
const LINE_FEED: &str = "\n";
/// The margin of the value of a tree, and those of the nodes in it if there are several.
const OF_ROOT: &str = "\n  ";
const OF_MANY: &str = "\n      ";
const REPLACEMENT: char = '\u{fffd}';

#[derive(Clone, Copy, Eq, PartialEq)]
pub enum Form {
    Plain,
    KeyValue,
    /// Keys and values for a terminal: what is unsafe there is escaped.
    Terminal,
    Json,
    Json0,
    Xml,
}

/// Writes a tree whose nodes are made one after another. All nodes have the same key.
pub struct Writer {
    form: Form,
    root: Node,
    count: usize,
    /// The first node, since JSON of a single one differs.
    first: Option<Node>,
}

impl Writer {
    /// Begins a tree whose root has no nodes yet.
    pub fn of(form: Form, root: Node) -> Writer {
        Writer { form, root, count: 0, first: None }
    }

    /// Returns what is before the first node.
    pub fn begin(&self) -> String {
        match self.form {
            Form::Plain => format!("{LINE}{}:\n{LINE}", self.root.label),
            Form::Xml => "<?xml version=\"1.0\" encoding=\"UTF-8\"?>\n".into(),
            _ => String::new(),
        }
    }

    /// Returns the text of the next node, and of those before that could not be written without it.
    pub fn node(&mut self, node: Node) -> String {
        self.count += 1;
        let key = &self.root.key;
        match self.form {
            Form::Plain => plain_lines(&node, 0) + LINE,
            Form::KeyValue | Form::Terminal => key_lines(&node, &format!("{key}."), self.form),
            Form::Xml => {
                let head =
                    if self.count == 1 { format!("{}>\n", xml_head(&self.root, "")) } else { String::new() };
                head + &xml_lines(&node, " ")
            }
            Form::Json0 => {
                let front = match self.count {
                    1 => format!("{{\n  \"{key}\": [\n    {{\n      \"{}\": [", node.key),
                    _ => ",".into(),
                };
                format!("{front}\n        {}", whole(&node).indented(8))
            }
            Form::Json => match (self.count, self.first.take()) {
                (1, _) => {
                    self.first = Some(node);
                    String::new()
                }
                (_, Some(first)) => format!(
                    "{{\n  \"{key}\": {{\n    \"{}\": [{OF_MANY}{},{OF_MANY}{}",
                    first.key,
                    short(&first, OF_MANY),
                    short(&node, OF_MANY)
                ),
                (_, None) => format!(",{OF_MANY}{}", short(&node, OF_MANY)),
            },
        }
    }

    /// Returns what is after the last node.
    pub fn end(mut self) -> String {
        match (self.form, self.count) {
            (Form::Plain | Form::KeyValue | Form::Terminal, _) => String::new(),
            (Form::Xml, 0) => format!("{}/>\n", xml_head(&self.root, "")),
            (Form::Xml, _) => format!("</{}>\n", self.root.key),
            (Form::Json0, 0) | (Form::Json, 0 | 1) => {
                self.root.nodes.extend(self.first.take());
                tree(self.form, self.root)
            }
            (Form::Json0, _) => "\n      ]\n    }\n  ]\n}\n".into(),
            (Form::Json, _) => "\n    ]\n  }\n}\n".into(),
        }
    }
}

/// Returns the text of a whole tree.
pub fn tree(form: Form, mut root: Node) -> String {
    let key = root.key.clone();
    match form {
        Form::Json => {
            let text = format!("\"{key}\": {}", short(&root, OF_ROOT));
            enclosed("{}", &[text], LINE_FEED) + "\n"
        }
        Form::Json0 => {
            let mut told = Object::default();
            told.set(&key, Json::List(vec![whole(&root)]));
            Json::Object(told).indented(0) + "\n"
        }
        _ => {
            let nodes = std::mem::take(&mut root.nodes);
            let mut writer = Writer::of(form, root);
            let mut text = writer.begin();
            nodes.into_iter().for_each(|node| text += &writer.node(node));
            text + &writer.end()
        }
    }
}

/// Returns the lines of a node and of the nodes in it. Lines of a text are indented.
fn plain_lines(node: &Node, depth: usize) -> String {
    let front = INDENT.repeat(depth);
    let told = |(_, label, value): &Attribute| match *label {
        "" => printable(value.as_bytes()),
        label => format!("{label}: {}", printable(value.as_bytes())),
    };
    let mut line = format!("{front}{:WIDTH$}", format!("{}:", node.label));
    if !node.attributes.is_empty() {
        line += " ";
        line += &node.attributes.iter().map(told).collect::<Vec<_>>().join(", ");
    }
    if let Some(text) = &node.text {
        let margin = format!("\n{front}{}", " ".repeat(WIDTH + 1));
        let parts: Vec<String> = text.split(|octet| *octet == b'\n').map(printable).collect();
        line.extend([" ", &parts.join(&margin)]);
    }
    line.push('\n');
    node.nodes.iter().for_each(|one| line += &plain_lines(one, depth + 1));
    line
}

/// Returns a line KEY=VALUE for each value of a node and of the nodes in it.
fn key_lines(node: &Node, front: &str, form: Form) -> String {
    let is_name = |(key, _, _): &&Attribute| NAMING.contains(key);
    let name = node.attributes.iter().find(is_name).map(|(_, _, value)| one_line(value.as_bytes()));
    let path = format!("{front}{}", name.as_deref().unwrap_or(&node.key));
    let line = |key: &str, value: &[u8]| {
        let line = format!("{key}={}", one_line(value));
        if form == Form::Terminal {
            printable(line.as_bytes()) + "\n"
        } else {
            line + "\n"
        }
    };
    let others = node.attributes.iter().filter(|one| !is_name(one));
    let mut lines: String =
        others.map(|(key, _, value)| line(&format!("{path}.{key}"), value.as_bytes())).collect();
    node.text.iter().for_each(|text| lines += &line(&path, text));
    node.nodes.iter().for_each(|one| lines += &key_lines(one, &format!("{path}."), form));
    lines
}

/// Returns a text in one line. Line feeds become spaces. Other line ends, characters that control a
/// terminal, and octets that are not UTF-8 are escaped.
fn one_line(octets: &[u8]) -> String {
    let said = |letter: Result<char, u8>| match letter {
        Ok('\n') => " ".into(),
        Ok(letter)
            if letter == '\t' || !letter.is_control() && !matches!(letter, '\u{2028}' | '\u{2029}') =>
        {
            letter.to_string()
        }
        letter => escaped(letter),
    };
    letters_of(octets).map(said).collect()
}

/// Returns a text with the replacement character for each octet that is not UTF-8.
fn unicode_of(octets: &[u8]) -> String {
    match std::str::from_utf8(octets) {
        Ok(text) => text.into(),
        Err(_) => letters_of(octets).map(|letter| letter.unwrap_or(REPLACEMENT)).collect(),
    }
}

fn flag_of(key: &str, value: &str) -> Json {
    let flag = FLAGS.iter().find(|(word, _)| *word == value && !NAMING.contains(&key));
    flag.map_or_else(|| Json::from(value), |(_, flag)| Json::Flag(*flag))
}

/// Returns a node as an object with its attributes, lists of nodes by key, and its text.
fn whole(node: &Node) -> Json {
    let mut told = Object::default();
    node.attributes.iter().for_each(|(key, _, value)| told.set(key, flag_of(key, value)));
    for (key, nodes) in grouped(node).entries {
        told.set(key, Json::List(nodes.into_iter().map(whole).collect()));
    }
    node.text.iter().for_each(|text| told.set("value", &unicode_of(text)[..]));
    Json::Object(told)
}

fn grouped(node: &Node) -> Ordered<&str, Vec<&Node>> {
    let mut groups = Ordered::<&str, Vec<&Node>>::default();
    node.nodes.iter().for_each(|one| groups.value(&one.key).push(one));
    groups
}

/// Returns a node in the short form of JSON. A single item is not in a list, a node's name is its key,
/// and a node that has only a text is that text.
fn short(node: &Node, margin: &str) -> String {
    if let Some(text) = only_text(node) {
        return quoted(&unicode_of(text));
    }
    let groups = grouped(node);
    let own = node.attributes.iter().find(|(key, _, _)| *key == NAME).map(|(_, _, value)| value.clone());
    let name = own.or_else(|| match groups.get(&NAME).map(|nodes| &nodes[..]) {
        Some([one]) => only_text(one).map(unicode_of),
        _ => None,
    });
    let inner = if name.is_some() { format!("{margin}{INDENT}") } else { margin.into() };
    let attributes = node.attributes.iter().filter(|(key, _, _)| *key != NAME);
    let mut parts: Vec<String> =
        attributes.map(|(key, _, value)| format!("\"{key}\": {}", flag_of(key, value).line())).collect();
    for (key, nodes) in groups.entries.iter().filter(|(key, _)| *key != NAME || name.is_none()) {
        parts.push(format!("\"{key}\": {}", short_of_all(nodes, &format!("{inner}{INDENT}"))));
    }
    parts.extend(node.text.iter().map(|text| format!("\"value\": {}", quoted(&unicode_of(text)))));
    let whole = enclosed("{}", &parts, &inner);
    match name {
        Some(name) => enclosed("{}", &[format!("{}: {whole}", quoted(&name))], margin),
        None => whole,
    }
}

fn only_text(node: &Node) -> Option<&[u8]> {
    node.text.as_deref().filter(|_| node.attributes.is_empty() && node.nodes.is_empty())
}

/// Returns nodes of one key in the short form.
fn short_of_all(nodes: &[&Node], margin: &str) -> String {
    if let [one] = nodes {
        return short(one, margin);
    }
    let inner = format!("{margin}{INDENT}");
    enclosed("[]", &nodes.iter().map(|one| short(one, &inner)).collect::<Vec<_>>(), margin)
}

/// Returns an object or a list of these parts, each on a line.
fn enclosed(marks: &str, parts: &[String], margin: &str) -> String {
    if parts.is_empty() {
        return marks.into();
    }
    let (begin, end) = marks.split_at(1);
    format!("{begin}{margin}{INDENT}{}{margin}{end}", parts.join(&format!(",{margin}{INDENT}")))
}

/// Returns the lines of a node and of the nodes in it as XML.
fn xml_lines(node: &Node, margin: &str) -> String {
    let (head, text) = (xml_head(node, margin), node.text.as_deref().unwrap_or(&[]));
    if node.nodes.is_empty() && text.is_empty() {
        return format!("{head}/>\n");
    }
    if node.nodes.is_empty() {
        return format!("{head}>{}</{}>\n", xml_text(text), node.key);
    }
    let inner: String = node.nodes.iter().map(|one| xml_lines(one, &format!("{margin} "))).collect();
    format!("{head}>{}\n{inner}{margin}</{}>\n", xml_text(text), node.key)
}

/// Returns the beginning of a node, without its `>`.
fn xml_head(node: &Node, margin: &str) -> String {
    let label = std::iter::once(("label", &*node.label));
    let all = label.chain(node.attributes.iter().map(|(key, _, value)| (*key, &value[..])));
    let told = all.filter(|(_, value)| !value.is_empty()).map(|(key, value)| {
        let value = xml_text(value.as_bytes()).replace('"', "&quot;");
        format!(" {key}=\"{}\"", value.replace('\n', "&#10;").replace('\t', "&#9;"))
    });
    format!("{margin}<{}{}", node.key, told.collect::<String>())
}

/// Escapes a text for XML. What a terminal could obey is a reference, or, if XML has no such character,
/// escaped as for people.
fn xml_text(octets: &[u8]) -> String {
    let said = |letter: char| match letter {
        '&' => "&amp;".into(),
        '<' => "&lt;".into(),
        '>' => "&gt;".into(),
        '\n' | '\t' => letter.to_string(),
        _ if is_shown(letter) => letter.to_string(),
        '\u{fffe}' | '\u{ffff}' => escaped(Ok(letter)),
        _ if letter == '\r' || letter >= ' ' => format!("&#{};", u32::from(letter)),
        _ => escaped(Ok(letter)),
    };
    unicode_of(octets).chars().map(said).collect()
}
