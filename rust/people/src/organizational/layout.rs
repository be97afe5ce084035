//! Layouts of TLVs: the fields that follow one another in octets, each with its name, how it is read, and
//! how it is shown. Reads octets by a layout, and makes words and JSON of what was read.

use crate::json::{Json, Object};
use crate::node::Node;
use crate::texts::{hex_of, printable};

pub const GREATEST_VID: i64 = 4094; // of a VLAN
const ALL: i64 = i64::MAX;
pub type Names = &'static [(i64, &'static str)];

/// A value of a TLV.
#[derive(Clone, Copy)]
pub struct Field {
    /// Its name in JSON. Empty if it is only read.
    pub name: &'static str,
    what: What,
    shown: Shown,
    leaf: Option<Leaf>,
}

/// How a field is read.
#[derive(Clone, Copy)]
enum What {
    /// So many bits that mean nothing.
    Reserved(u32),
    /// So many bits, of which the number may be at most this.
    Number(u32, i64),
    /// The same with a sign. The number may be at most this far from 0.
    Signed(u32, i64),
    /// One octet, which tells this layout from others of the same kind.
    Form(i64),
    /// One octet, which says how many octets follow it.
    Length,
    /// So many octets.
    Octets(usize),
    /// One octet, which says how many octets the field has, and these.
    Counted,
    /// All further octets, so many at least and at most.
    Rest(usize, usize),
    /// Digits up to the end, so many at most.
    Digits(usize),
    /// This many numbers of so many bits.
    Numbers(usize, u32),
    /// Parts with these fields, up to the end.
    Each(&'static [Field]),
    /// A part with these fields, or the end.
    Perhaps(&'static [Field]),
    /// These fields, as if they stood here themselves, or the end.
    Further(&'static [Field]),
    /// Nothing: it is made of the others.
    Made,
}

/// How a field is shown.
#[derive(Clone, Copy)]
enum Shown {
    Flag,
    Number,
    /// A VLAN identifier, in words `none` for 0.
    Vid,
    /// A number of eight digits in hexadecimal in words.
    Digest,
    /// In tenths of a watt.
    Watts,
    /// Divided by this power of two.
    Scaled(u32),
    Text,
    Hex,
    /// By its name, or else null, and in words this word and the number.
    Named(Names, &'static str),
    Parts,
    /// By a function.
    Made(fn(&Values) -> Json),
}

/// lldpcli's node of a field: its key, its label and its text.
#[derive(Clone, Copy)]
struct Leaf {
    key: &'static str,
    label: &'static str,
    text: LeafText,
}

#[derive(Clone, Copy)]
enum LeafText {
    /// In thousandths of a watt.
    Milliwatts,
    Listed(&'static [&'static str]),
    Made(fn(&Values) -> String),
}

const fn field(name: &'static str, what: What, shown: Shown) -> Field {
    Field { name, what, shown, leaf: None }
}

pub const fn reserved(bits: u32) -> Field {
    field("", What::Reserved(bits), Shown::Number)
}

pub const fn flag(name: &'static str) -> Field {
    field(name, What::Number(1, 1), Shown::Flag)
}

pub const fn number(name: &'static str, bits: u32) -> Field {
    field(name, What::Number(bits, ALL), Shown::Number)
}

/// A number that may be at most this.
pub const fn most(name: &'static str, bits: u32, most: i64) -> Field {
    field(name, What::Number(bits, most), Shown::Number)
}

pub const fn vid(name: &'static str, bits: u32) -> Field {
    field(name, What::Number(bits, GREATEST_VID), Shown::Vid)
}

pub const fn digest(name: &'static str) -> Field {
    field(name, What::Number(32, ALL), Shown::Digest)
}

pub const fn watts(name: &'static str) -> Field {
    field(name, What::Number(16, ALL), Shown::Watts)
}

/// A signed number with this many bits after the point, and a limit of its size.
pub const fn scaled(name: &'static str, bits: u32, after: u32, most: i64) -> Field {
    field(name, What::Signed(bits, most), Shown::Scaled(after))
}

/// A number with names. In words, another number stands after `other`.
pub const fn named(name: &'static str, bits: u32, names: Names, other: &'static str) -> Field {
    field(name, What::Number(bits, ALL), Shown::Named(names, other))
}

pub const fn form(names: Names, number: i64) -> Field {
    field("form", What::Form(number), Shown::Named(names, ""))
}

pub const fn length() -> Field {
    field("", What::Length, Shown::Number)
}

pub const fn text(name: &'static str, octets: usize) -> Field {
    field(name, What::Octets(octets), Shown::Text)
}

pub const fn counted(name: &'static str) -> Field {
    field(name, What::Counted, Shown::Text)
}

pub const fn rest(name: &'static str, least: usize, most: usize) -> Field {
    field(name, What::Rest(least, most), Shown::Text)
}

pub const fn hex(name: &'static str) -> Field {
    field(name, What::Rest(0, usize::MAX), Shown::Hex)
}

pub const fn digits(name: &'static str, most: usize) -> Field {
    field(name, What::Digits(most), Shown::Text)
}

pub const fn numbers(name: &'static str, count: usize, bits: u32) -> Field {
    field(name, What::Numbers(count, bits), Shown::Number)
}

pub const fn each(name: &'static str, fields: &'static [Field]) -> Field {
    field(name, What::Each(fields), Shown::Parts)
}

pub const fn perhaps(name: &'static str, fields: &'static [Field]) -> Field {
    field(name, What::Perhaps(fields), Shown::Parts)
}

pub const fn further(fields: &'static [Field]) -> Field {
    field("", What::Further(fields), Shown::Parts)
}

/// A value that is made of the others.
pub const fn made(name: &'static str, json: fn(&Values) -> Json) -> Field {
    field(name, What::Made, Shown::Made(json))
}

impl Field {
    /// Shows a field by a function.
    pub const fn by(self, json: fn(&Values) -> Json) -> Field {
        Field { shown: Shown::Made(json), ..self }
    }

    /// Shows each number of a field by its name.
    pub const fn names(self, names: Names) -> Field {
        Field { shown: Shown::Named(names, ""), ..self }
    }

    const fn shown_as(self, key: &'static str, label: &'static str, text: LeafText) -> Field {
        Field { leaf: Some(Leaf { key, label, text }), ..self }
    }

    /// Gives a power a node with thousandths of a watt.
    pub const fn milliwatts(self, key: &'static str, label: &'static str) -> Field {
        self.shown_as(key, label, LeafText::Milliwatts)
    }

    /// Gives a field a node with the text that is listed for its number.
    pub const fn listed(
        self,
        key: &'static str,
        label: &'static str,
        texts: &'static [&'static str],
    ) -> Field {
        self.shown_as(key, label, LeafText::Listed(texts))
    }

    /// Gives a field a node with a text that is made of all values.
    pub const fn told(self, key: &'static str, label: &'static str, text: fn(&Values) -> String) -> Field {
        self.shown_as(key, label, LeafText::Made(text))
    }
}

#[derive(Clone, Debug, PartialEq)]
enum Value {
    Number(i64),
    Octets(Vec<u8>),
    Numbers(Vec<i64>),
    Parts(Vec<Values>),
}

/// The values that were read by a layout.
#[derive(Clone, Default)]
pub struct Values(Vec<(&'static Field, Value)>);

impl std::fmt::Debug for Values {
    fn fmt(&self, out: &mut std::fmt::Formatter<'_>) -> std::fmt::Result {
        out.debug_map().entries(self.0.iter().map(|(field, value)| (field.name, value))).finish()
    }
}

/// Values are the same if their names and values are, whatever the reserved bits were.
impl PartialEq for Values {
    fn eq(&self, other: &Values) -> bool {
        let of = |(field, value): &(&'static Field, Value)| (field.name, value.clone());
        self.0.len() == other.0.len() && self.0.iter().zip(&other.0).all(|(one, two)| of(one) == of(two))
    }
}

struct Reader<'a> {
    octets: &'a [u8],
    /// How many bits of the octets were read.
    at: usize,
}

impl<'a> Reader<'a> {
    fn is_at_end(&self) -> bool {
        self.at == 8 * self.octets.len()
    }

    fn bits(&mut self, count: u32) -> Option<i64> {
        let mut found: i64 = 0;
        for _ in 0..count {
            let octet = self.octets.get(self.at / 8)?;
            found = found << 1 | i64::from(octet >> (7 - self.at % 8) & 1);
            self.at += 1;
        }
        Some(found)
    }

    fn take(&mut self, count: usize) -> Option<&'a [u8]> {
        let found = self.octets.get(self.at / 8..)?.get(..count)?;
        self.at += 8 * count;
        Some(found)
    }

    fn left(&self) -> usize {
        self.octets.len() - self.at / 8
    }

    /// Reads a number whose most significant bit is its sign.
    fn signed(&mut self, count: u32) -> Option<i64> {
        let found = self.bits(count)?;
        Some(if found >> (count - 1) == 1 { found - (1 << count) } else { found })
    }

    fn fields(&mut self, fields: &'static [Field], values: &mut Values) -> Option<()> {
        for field in fields {
            if let What::Further(further) = field.what {
                if !self.is_at_end() {
                    self.fields(further, values)?;
                }
            } else if let Some(value) = self.value(&field.what)?.filter(|_| !field.name.is_empty()) {
                values.0.push((field, value));
            }
        }
        Some(())
    }

    /// Reads a field. Returns Some(None) if it has no value.
    fn value(&mut self, what: &What) -> Option<Option<Value>> {
        let is_most = |number: &i64, most: i64| number.abs() <= most;
        Some(Some(match *what {
            What::Reserved(bits) => return self.bits(bits).map(|_| None),
            What::Length => return self.bits(8).filter(|size| *size == self.left() as i64).map(|_| None),
            What::Further(_) => return Some(None),
            What::Made => Value::Number(0),
            What::Number(bits, most) => Value::Number(self.bits(bits).filter(|one| is_most(one, most))?),
            What::Signed(bits, most) => Value::Number(self.signed(bits).filter(|one| is_most(one, most))?),
            What::Form(form) => Value::Number(self.bits(8).filter(|found| *found == form)?),
            What::Octets(count) => Value::Octets(self.take(count)?.to_vec()),
            What::Counted => {
                let count = self.bits(8)?;
                Value::Octets(self.take(usize::try_from(count).ok()?)?.to_vec())
            }
            What::Rest(least, most) => {
                let octets = self.take(self.left())?;
                Value::Octets(Some(octets).filter(|found| (least..=most).contains(&found.len()))?.to_vec())
            }
            What::Digits(most) => {
                let octets = self.take(self.left()).filter(|found| (1..=most).contains(&found.len()))?;
                Value::Octets(Some(octets).filter(|found| found.iter().all(u8::is_ascii_digit))?.to_vec())
            }
            What::Numbers(count, bits) => {
                Value::Numbers((0..count).map(|_| self.bits(bits)).collect::<Option<_>>()?)
            }
            What::Each(fields) => Value::Parts(self.parts(fields, usize::MAX)?),
            What::Perhaps(fields) => Value::Parts(self.parts(fields, 1)?),
        }))
    }

    fn parts(&mut self, fields: &'static [Field], most: usize) -> Option<Vec<Values>> {
        let mut parts = Vec::new();
        while !self.is_at_end() && parts.len() < most {
            let mut values = Values::default();
            self.fields(fields, &mut values)?;
            parts.push(values);
        }
        Some(parts)
    }
}

impl Values {
    /// Reads octets by a layout. None if they are malformed.
    pub fn read(layout: &'static [Field], octets: &[u8]) -> Option<Values> {
        let (mut values, mut reader) = (Values::default(), Reader { octets, at: 0 });
        reader.fields(layout, &mut values)?;
        reader.is_at_end().then_some(values)
    }

    fn of(&self, name: &str) -> Option<&(&'static Field, Value)> {
        self.0.iter().find(|(field, _)| field.name == name)
    }

    /// Returns whether a field is there, which may lack.
    pub fn has(&self, name: &str) -> bool {
        self.of(name).map_or(false, |(_, value)| *value != Value::Parts(Vec::new()))
    }

    /// Returns a number, 0 if it is not there.
    pub fn number(&self, name: &str) -> i64 {
        match self.of(name) {
            Some((_, Value::Number(number))) => *number,
            _ => 0,
        }
    }

    pub fn flag(&self, name: &str) -> bool {
        self.number(name) != 0
    }

    pub fn octets(&self, name: &str) -> &[u8] {
        match self.of(name) {
            Some((_, Value::Octets(octets))) => octets,
            _ => &[],
        }
    }

    pub fn all(&self, name: &str) -> &[i64] {
        match self.of(name) {
            Some((_, Value::Numbers(numbers))) => numbers,
            _ => &[],
        }
    }

    pub fn parts(&self, name: &str) -> &[Values] {
        match self.of(name) {
            Some((_, Value::Parts(parts))) => parts,
            _ => &[],
        }
    }

    /// Returns a value in words.
    pub fn word(&self, name: &str) -> String {
        let (field, value) = match self.of(name) {
            Some(found) => found,
            None => return String::new(),
        };
        match (value, field.shown) {
            (Value::Octets(octets), Shown::Text) => printable(octets),
            (Value::Octets(octets), _) => hex_of(octets, ""),
            (Value::Number(0), Shown::Vid) => "none".into(),
            (Value::Number(number), Shown::Digest) => format!("{number:08x}"),
            (Value::Number(number), Shown::Watts) => watts_text(*number),
            (Value::Number(number), Shown::Named(names, other)) => match (name_in(names, *number), other) {
                (Some(name), _) => name.into(),
                (None, "") => number.to_string(),
                (None, other) => format!("{other} {number}"),
            },
            (Value::Number(number), Shown::Made(json)) => match json(self) {
                Json::Text(text) => text,
                _ => number.to_string(),
            },
            (Value::Number(number), _) => number.to_string(),
            (Value::Numbers(numbers), _) => joined(numbers, " "),
            (Value::Parts(_), _) => String::new(),
        }
    }

    /// Returns a text in which each name in braces is replaced by the value in words.
    pub fn fill(&self, template: &str) -> String {
        let mut parts = template.split('{');
        let mut text = String::from(parts.next().unwrap_or(""));
        for (name, after) in parts.filter_map(|part| part.split_once('}')) {
            text += &self.word(name);
            text += after;
        }
        text
    }

    /// Returns the value in JSON: the only field, or an object with the fields that are named here, or
    /// with all if none is named.
    pub fn json(&self, order: &str) -> Json {
        let own = || self.0.iter().map(|(field, _)| field.name);
        let names: Vec<&str> = if order.is_empty() { own().collect() } else { order.split(' ').collect() };
        let mut object = Object::default();
        for name in &names {
            match self.of(name) {
                Some((Field { shown: Shown::Text, .. }, Value::Octets(octets))) => {
                    object.set_text(name, octets)
                }
                Some((field, value)) => object.set(name, self.json_of(field, value)),
                None => object.set(name, Json::Null),
            }
        }
        let is_text =
            names.first().map_or(false, |name| matches!(self.of(name), Some((_, Value::Octets(_)))));
        match (names.len(), object.0.pop()) {
            (1, Some((_, value))) if !is_text || self.is_hex(names[0]) => value,
            (_, last) => {
                object.0.extend(last);
                Json::Object(object)
            }
        }
    }

    fn is_hex(&self, name: &str) -> bool {
        matches!(self.of(name), Some((Field { shown: Shown::Hex, .. }, _)))
    }

    fn json_of(&self, field: &Field, value: &Value) -> Json {
        match (value, field.shown) {
            (_, Shown::Made(json)) => json(self),
            (Value::Number(number), shown) => json_of_number(*number, shown),
            (Value::Numbers(numbers), shown) => {
                Json::List(numbers.iter().map(|number| json_of_number(*number, shown)).collect())
            }
            (Value::Octets(octets), _) => Json::Text(hex_of(octets, "")),
            (Value::Parts(parts), _) => match field.what {
                What::Perhaps(_) => parts.first().map_or(Json::Null, |part| part.json("")),
                _ => Json::List(parts.iter().map(|part| part.json("")).collect()),
            },
        }
    }

    /// Adds lldpcli's nodes of the fields that have one, and those of the fields in their parts.
    pub fn add_leaves(&self, node: &mut Node) {
        for (field, value) in &self.0 {
            if let Some(leaf) = &field.leaf {
                node.add(leaf.key, leaf.label, Some(self.leaf_text(leaf, self.number(field.name))));
            }
            if let Value::Parts(parts) = value {
                parts.iter().for_each(|part| part.add_leaves(node));
            }
        }
    }

    fn leaf_text(&self, leaf: &Leaf, number: i64) -> String {
        match leaf.text {
            LeafText::Milliwatts => (100 * number).to_string(),
            LeafText::Listed(texts) => usize::try_from(number)
                .ok()
                .and_then(|place| texts.get(place))
                .unwrap_or(&"unknown")
                .to_string(),
            LeafText::Made(text) => text(self),
        }
    }
}

fn json_of_number(number: i64, shown: Shown) -> Json {
    match shown {
        Shown::Flag => Json::Flag(number != 0),
        Shown::Watts => Json::Float(number as f64 / 10.0),
        Shown::Scaled(bits) => Json::Float(number as f64 / (1i64 << bits) as f64),
        Shown::Named(names, _) => name_in(names, number).into(),
        _ => Json::Number(number.unsigned_abs().into()),
    }
}

/// Returns the name of a number. None if it has none.
pub fn name_in(names: Names, number: i64) -> Option<&'static str> {
    names.iter().find(|(one, _)| *one == number).map(|(_, name)| *name)
}

pub fn joined<T: ToString>(values: impl IntoIterator<Item = T>, between: &str) -> String {
    values.into_iter().map(|value| value.to_string()).collect::<Vec<_>>().join(between)
}

pub fn ability(is_supported: bool, is_enabled: bool) -> &'static str {
    match (is_supported, is_enabled) {
        (_, true) => "enabled",
        (true, false) => "disabled",
        (false, false) => "not supported",
    }
}

/// Returns a power as text, from tenths of a watt.
pub fn watts_text(tenths: i64) -> String {
    match tenths % 10 {
        0 => format!("{} W", tenths / 10),
        rest => format!("{}.{rest} W", tenths / 10),
    }
}
