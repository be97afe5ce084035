//! Runs each transcript of the folder `examples` through lldpa-live, and compares the lines that it
//! writes itself with those of the proved agent in it after each line of the input.

use crate::arguments::Arguments;
use crate::hex::octets_of;
use crate::live::Live;
use crate::options::AgentOptions;
use crate::reading::Frame;
use crate::state::Saved;
use crate::tables::{Lines, Writer};
use lldpa::Show;
use std::fs;
use std::path::{Path, PathBuf};

const MAC: &str = "--mac=02:00:00:00:00:01"; // where no interface has one

/// Returns the options and the ports of a transcript.
fn arguments_of(text: &str) -> (Vec<String>, Vec<String>) {
    let (mut options, mut ports) = (vec![MAC.to_string()], Vec::new());
    let mut words = text.lines().take_while(|line| !line.starts_with('|')).map(String::from);
    while let Some(word) = words.next() {
        let has_value = word.starts_with("--") && word != "--receive-only" && !word.contains('=');
        match &word[..] {
            "--" => (),
            "--mac" | "--connections" => drop(words.next()),
            option if option.starts_with("--") => {
                options.push(word);
                options.extend(if has_value { words.next() } else { None });
            }
            _ => ports.push(word),
        }
    }
    (options, ports)
}

fn opened(arguments: &Path) -> Live {
    let (options, ports) = arguments_of(&fs::read_to_string(arguments).expect("arguments"));
    let agent = AgentOptions::read(&options).expect("options");
    let names: Vec<&str> = ports.iter().map(|port| &port[..]).collect();
    let mut live = Live::without_interfaces(Arguments { agent, ..Arguments::default() }, &names);
    live.ports.all.iter_mut().for_each(|port| port.interface.is_awaited = true); // so it says nothing
    live.open(&Saved::default()).expect("an agent");
    (0..names.len()).for_each(|port| live.give_link(port, true));
    live
}

/// Does what a line of the input says. A line with a fault does nothing.
fn give(live: &mut Live, line: &[u8]) {
    let text = String::from_utf8_lossy(line);
    let words: Vec<&str> = text.split_whitespace().collect();
    let number = |live: &Live, name: &str| live.ports.all.iter().position(|port| port.name == name);
    match words[..] {
        ["tick"] => live.give_seconds(live.clock.end_of(1)),
        ["tick", count] => {
            let count = count.parse().unwrap_or(0);
            live.give_seconds(live.clock.end_of(count));
        }
        ["up" | "down", name] => {
            let port = number(live, name);
            port.into_iter().for_each(|port| live.give_link(port, words[0] == "up"));
        }
        ["rx", name, digits] => {
            if let (Some(port), Some(octets)) = (number(live, name), octets_of(digits)) {
                live.receive(&Frame { moment: live.clock.end_of(0), port, octets });
            }
        }
        _ => drop(live.command(line)),
    }
    live.send();
}

/// Returns the lines that lldpa-live writes about the neighbors of a port, or of all.
fn written(live: &mut Live, only: Option<usize>) -> String {
    let mut writer = Writer::new(live.tables(only), Lines::Neighbors);
    let (count, mut text) = (writer.count(), Vec::new());
    while writer.write(&mut text) {}
    let text = String::from_utf8(text).expect("ASCII");
    assert_eq!(count, text.lines().count());
    text
}

/// Compares the lines, and returns how many there are about neighbors.
fn compare(live: &mut Live, place: &str) -> usize {
    let agent = &live.running.as_ref().expect("an agent").agent;
    let (neighbors, statistics) = (agent.show(Show::Neighbors), agent.show(Show::Statistics));
    let all = written(live, None);
    assert_eq!(all, neighbors, "{place}");
    let by_port: String = (0..live.ports.all.len()).map(|port| written(live, Some(port))).collect();
    assert_eq!(by_port, neighbors, "{place}");
    let counted: String = live.totals(None).iter().map(|port| port.lines()).collect();
    assert_eq!(counted, statistics, "{place}");
    neighbors.lines().count() - 3 * live.ports.all.len()
}

#[test]
fn lines_are_those_of_the_agent_in_each_transcript() {
    let folder = PathBuf::from(concat!(env!("CARGO_MANIFEST_DIR"), "/../../examples"));
    let files = fs::read_dir(folder).expect("transcripts").map(|entry| entry.expect("a file").path());
    let (mut count, mut lines, mut full) = (0, 0, 0);
    for trace in files.filter(|path| path.extension().map_or(false, |ending| ending == "trace")) {
        let mut live = opened(&trace.with_extension("args"));
        for (place, line) in fs::read(&trace).expect("a trace").split(|octet| *octet == b'\n').enumerate() {
            give(&mut live, line);
            lines += compare(&mut live, &format!("{} line {}", trace.display(), place + 1));
            full += live.ports.all.iter().filter(|port| port.full_until > live.clock.given).count();
        }
        count += 1;
    }
    assert!(count > 50 && lines > 1000 && full > 10, "{count} transcripts, {lines} lines, {full} full");
}
