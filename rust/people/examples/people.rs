//! Answers questions about this crate's functions, for tests in Python and in Rust: a line with a function and
//! its arguments, then answers of lldpa-live, each a line `=N` and N lines, and a line `end`. Prints
//! the result as a line `=N` and N lines, or a line `fault: WHY`.

use lldpa_people::changes::{News, Watch};
use lldpa_people::json::{Json, Object};
use lldpa_people::node::Node;
use lldpa_people::organizational::{nodes_in, Said};
use lldpa_people::show::{Read, Show};
use lldpa_people::texts::{cut, hex_of, plain, readable, width_of, wrapped};
use std::collections::BTreeMap;
use std::io::{BufRead, Error, ErrorKind, Result};

pub type Answers = Vec<Vec<String>>;

fn lines(answer: &[String]) -> Vec<&str> {
    answer.iter().map(|line| &line[..]).collect()
}

/// Returns a shown text, its width, the text cut to a width, and wrapped at it.
fn texts(shown: &[String], width: usize) -> Vec<String> {
    let told = |shown: &String| {
        let text = readable(shown);
        format!("{text}|{}|{}|{}", width_of(&text), cut(&text, width), wrapped(&text, width.max(1)).join("|"))
    };
    shown.iter().map(told).collect()
}

/// Returns a node as an object.
fn object_of(node: &Node) -> Json {
    let mut object = Object::default();
    object.set("key", &*node.key);
    object.set("label", &*node.label);
    let attribute = |(key, label, value): &(&str, &str, String)| {
        Json::List(vec![Json::from(*key), Json::from(*label), Json::from(&value[..])])
    };
    object.set("attributes", Json::List(node.attributes.iter().map(attribute).collect()));
    object.set("text", node.text.as_deref().map(|text| hex_of(text, "")).as_deref());
    object.set("nodes", Json::List(node.nodes.iter().map(object_of).collect()));
    Json::Object(object)
}

/// Returns what the neighbors of an answer said: the rows for people, JSON, and lldpcli's nodes.
fn said(shown: &[String]) -> Read<Vec<String>> {
    let show = Show::read(lines(shown))?;
    let mut told = Vec::new();
    for neighbor in show.neighbors() {
        let (said, mut object) = (Said::by(neighbor), Object::default());
        told.extend(
            said.rows().iter().map(|row| format!("{}|{}|{}|{}", row.key, row.heading, row.group, row.text)),
        );
        said.add_to(&mut object);
        told.push(Json::Object(object).line());
        let known = Said::known_to_lldpd(neighbor);
        for parent in ["port", "interface"] {
            told.extend(nodes_in(parent, &known).iter().map(|node| object_of(node).line()));
        }
        told.extend(known.rest.iter().map(|(kind, digits)| format!("{kind} {digits}")));
    }
    Ok(told)
}

pub fn answer(words: &[&str], answers: &Answers) -> Read<Vec<String>> {
    let width = words.get(1).and_then(|word| word.parse().ok()).unwrap_or(0);
    match (words[0], &answers[..]) {
        ("texts", [shown]) => Ok(texts(shown, width)),
        ("said", [shown]) => said(shown),
        ("read", [shown]) => {
            let names = Show::read(lines(shown))?.names();
            Ok(names.into_iter().map(String::from).collect())
        }
        ("changes", [before, after]) => {
            let (before, after) = (Show::read(lines(before))?, Show::read(lines(after))?);
            let known = before.ports.iter().map(|port| (port.name, Watch::of(port)));
            let (mut watches, mut news) = (BTreeMap::from_iter(known), Vec::new());
            for port in &after.ports {
                let changed = watches.entry(port.name).or_default().news(port);
                news.extend(changed.iter().map(News::line));
            }
            Ok(news)
        }
        _ => Err(format!("no such question: {}", words.join(" "))),
    }
}

/// Reads lines up to `end`. None at the end of the input.
fn question(input: &mut impl Iterator<Item = Result<Vec<u8>>>) -> Result<Option<(String, Answers)>> {
    let mut next = || input.next().transpose().map(|line| line.map(|octets| plain(&octets)));
    let head = match next()? {
        Some(head) => head,
        None => return Ok(None),
    };
    let mut answers = Vec::new();
    while let Some(count) = next()?.filter(|line| line != "end") {
        let count: usize = count
            .trim_start_matches('=')
            .parse()
            .map_err(|fault| Error::new(ErrorKind::InvalidData, fault))?;
        let mut answer = Vec::new();
        for _ in 0..count {
            answer.push(next()?.unwrap_or_default());
        }
        answers.push(answer);
    }
    Ok(Some((head, answers)))
}

fn main() -> Result<()> {
    let mut input = std::io::stdin().lock().split(b'\n');
    while let Some((head, answers)) = question(&mut input)? {
        match answer(&head.split(' ').collect::<Vec<_>>(), &answers) {
            Ok(lines) => println!(
                "={}{}",
                lines.len(),
                lines.iter().map(|line| format!("\n{line}")).collect::<String>()
            ),
            Err(why) => println!("fault: {why}"),
        }
    }
    Ok(())
}
