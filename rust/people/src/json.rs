//! Values of JSON, and their text with the indent and the escapes that Python's `json` writes.

use crate::texts::{hex_of, shown_text};
use std::fmt::Write;

const INDENT: usize = 2;
const OCTETS: &str = "octets"; // of the texts in an object that are not UTF-8

#[derive(Clone, Debug, PartialEq)]
pub enum Json {
    Null,
    Flag(bool),
    Number(u128),
    Float(f64),
    Text(String),
    List(Vec<Json>),
    Object(Object),
}

/// The values of an object by key, in their order.
#[derive(Clone, Debug, Default, PartialEq)]
pub struct Object(pub Vec<(String, Json)>);

impl From<&str> for Json {
    fn from(text: &str) -> Json {
        Json::Text(text.into())
    }
}

impl From<Option<&str>> for Json {
    fn from(text: Option<&str>) -> Json {
        text.map_or(Json::Null, Json::from)
    }
}

impl Object {
    /// Sets the value of a key, which comes last if it is new.
    pub fn set(&mut self, key: &str, value: impl Into<Json>) {
        let value = value.into();
        match self.0.iter_mut().find(|(one, _)| one == key) {
            Some((_, old)) => *old = value,
            None => self.0.push((key.into(), value)),
        }
    }

    /// Sets the value of a key. If both are objects, adds the values of the new one.
    pub fn merge(&mut self, key: &str, value: Json) {
        match value {
            Json::Object(more) => {
                more.0.into_iter().for_each(|(inner, value)| self.inner(key).set(&inner, value))
            }
            value => self.set(key, value),
        }
    }

    /// Returns the object with this key, which comes last if it is new.
    fn inner(&mut self, key: &str) -> &mut Object {
        let place = self.0.iter().position(|(one, _)| one == key);
        let place = place.unwrap_or_else(|| {
            self.0.push((key.into(), Json::Object(Object::default())));
            self.0.len() - 1
        });
        let value = &mut self.0[place].1;
        if !matches!(value, Json::Object(_)) {
            *value = Json::Object(Object::default());
        }
        match value {
            Json::Object(inner) => inner,
            _ => unreachable!("an object was put there"),
        }
    }

    /// Sets a value at a path such as `vlan.pvid`.
    pub fn set_path(&mut self, path: &str, value: Json) {
        match path.rsplit_once('.') {
            Some((outer, key)) => self.inner(outer).set(key, value),
            None => self.set(path, value),
        }
    }

    /// Sets a text that is UTF-8. Any other is escaped as the agent shows it, and its octets are added.
    pub fn set_text(&mut self, key: &str, octets: &[u8]) {
        match std::str::from_utf8(octets) {
            Ok(text) => self.set(key, text),
            Err(_) => {
                self.set(key, Json::Text(shown_text(octets)));
                self.inner(OCTETS).set(key, Json::Text(hex_of(octets, "")));
            }
        }
    }
}

impl Json {
    /// Returns the text in lines, with this many spaces before all lines but the first.
    pub fn indented(&self, margin: usize) -> String {
        let mut text = String::new();
        self.write(&mut text, Some(margin));
        text
    }

    /// Returns the text in one line.
    pub fn line(&self) -> String {
        let mut text = String::new();
        self.write(&mut text, None);
        text
    }

    fn write(&self, text: &mut String, margin: Option<usize>) {
        match self {
            Json::Null => text.push_str("null"),
            Json::Flag(flag) => text.push_str(if *flag { "true" } else { "false" }),
            Json::Number(number) => text.push_str(&number.to_string()),
            Json::Float(number) => text.push_str(&format!("{number:?}")), // the shortest that is read as the same
            Json::Text(said) => push_quoted(text, said),
            Json::List(all) => write_all(text, "[]", all.iter().map(|one| (None, one)), margin),
            Json::Object(all) => {
                let parts = all.0.iter().map(|(key, value)| (Some(&key[..]), value));
                write_all(text, "{}", parts, margin);
            }
        }
    }
}

/// Writes the parts of a list or an object, each with its key if it has one.
fn write_all<'a>(
    text: &mut String,
    marks: &str,
    parts: impl Iterator<Item = (Option<&'a str>, &'a Json)>,
    margin: Option<usize>,
) {
    let inner = margin.map(|margin| margin + INDENT);
    text.push_str(&marks[..1]);
    let mut is_empty = true;
    for (key, value) in parts {
        let between = if inner.is_some() { "," } else { ", " };
        text.push_str(if is_empty { "" } else { between });
        inner.iter().for_each(|margin| push_margin(text, *margin));
        if let Some(key) = key {
            push_quoted(text, key);
            text.push_str(": ");
        }
        value.write(text, inner);
        is_empty = false;
    }
    margin.iter().filter(|_| !is_empty).for_each(|margin| push_margin(text, *margin));
    text.push_str(&marks[1..]);
}

fn push_margin(text: &mut String, margin: usize) {
    text.push('\n');
    (0..margin).for_each(|_| text.push(' '));
}

/// Returns a text in quotes. Only printable ASCII stays as it is.
pub fn quoted(said: &str) -> String {
    let mut text = String::with_capacity(said.len() + 2);
    push_quoted(&mut text, said);
    text
}

fn push_quoted(text: &mut String, said: &str) {
    text.push('"');
    for letter in said.chars() {
        match letter {
            '"' => text.push_str("\\\""),
            '\\' => text.push_str("\\\\"),
            '\n' => text.push_str("\\n"),
            '\r' => text.push_str("\\r"),
            '\t' => text.push_str("\\t"),
            '\x08' => text.push_str("\\b"),
            '\x0c' => text.push_str("\\f"),
            ' '..='~' => text.push(letter),
            _ => letter.encode_utf16(&mut [0; 2]).iter().for_each(|unit| {
                let _ = write!(text, "\\u{unit:04x}"); // a String takes all
            }),
        }
    }
    text.push('"');
}

#[cfg(test)]
mod tests {
    use super::*;

    #[test]
    fn a_float_is_short_and_a_number_of_json() {
        for (number, text) in [
            (0.0, "0.0"),
            (25.0, "25.0"),
            (-0.5, "-0.5"),
            (6553.5, "6553.5"),
            (0.0001, "0.0001"),
            (48.8566133081913, "48.8566133081913"),
            (2097151.99609375, "2097151.99609375"),
            (1.0 / (1u64 << 25) as f64, "2.9802322387695313e-8"),
        ] {
            assert_eq!(Json::Float(number).line(), text);
        }
    }

    #[test]
    fn objects_have_the_indent_of_python() {
        let mut object = Object::default();
        object.set_text("a", b"caf\xc3\xa9 \x7f\"\\\n\x01 \xf0\x9f\x98\x80");
        object.set_text("b", b"\xff\\");
        object.set_path("c.d", Json::List(vec![Json::Number(1), Json::List(Vec::new())]));
        object.set_path("c.e", Json::Object(Object::default()));
        object.set("a", Json::Null);
        let lines = "{\n   \"a\": null,\n   \"b\": \"\\\\xff\\\\\\\\\",\n   \"octets\": {\n     \"b\": \"ff5c\"\n   },\n   \
            \"c\": {\n     \"d\": [\n       1,\n       []\n     ],\n     \"e\": {}\n   }\n }";
        assert_eq!(Json::Object(object.clone()).indented(1), lines);
        let line = "{\"a\": null, \"b\": \"\\\\xff\\\\\\\\\", \"octets\": {\"b\": \"ff5c\"}, \
            \"c\": {\"d\": [1, []], \"e\": {}}}";
        assert_eq!(Json::Object(object).line(), line);
        let all = quoted("caf\u{e9} \x7f\"\\\n\x01 \u{1f600}\t\r\x08\x0c");
        assert_eq!(all, "\"caf\\u00e9 \\u007f\\\"\\\\\\n\\u0001 \\ud83d\\ude00\\t\\r\\b\\f\"");
    }
}
