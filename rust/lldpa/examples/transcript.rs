//! Reads events for an agent, and prints what the program lldpa would print. Arguments and input
//! are those of tools/library/c/transcript.c. A show command also compares structs with shows.

use lldpa::{Agent, Chassis, CommandFault, Neighbor, News, Options, Role, Sent, Show, Statistics, Status};
use std::io::{stdin, BufRead};
use std::str::from_utf8;

/// Decodes pairs of hexadecimal digits.
fn octets(digits: &str) -> Vec<u8> {
    (0..digits.len())
        .step_by(2)
        .map(|at| u8::from_str_radix(&digits[at..at + 2], 16).expect("two digits"))
        .collect()
}

fn number(word: &str) -> u8 {
    word.parse().expect("a number")
}

/// Opens an agent with the options in the arguments.
fn open(words: &[&str]) -> Agent {
    let options = Options {
        ports: &words[9..],
        hostname: words[2],
        mac: octets(words[0]).try_into().expect("six octets"),
        management: octets(words[1]).try_into().ok(),
        receive_only: words[8] != "0",
        role: [Role::Station, Role::Bridge, Role::Router][usize::from(number(words[3]))],
        max_neighbors: number(words[4]),
        credit_max: number(words[5]),
        fast_init: number(words[6]),
        reinit: number(words[7]),
    };
    Agent::open(&options).expect("an agent")
}

/// Prints the frames to send.
fn write(agent: &Agent, ports: &[&str], sent: &[Sent]) {
    for one in sent {
        let frame = agent.frame_of(one.port, one.mark).expect("a port that sends");
        let digits: String = frame.iter().map(|octet| format!("{octet:02x}")).collect();
        println!("tx {} {digits}", ports[usize::from(one.port)]);
    }
}

/// Returns the lines of `show statistics` for a port.
fn counter_lines(port: &str, told: &Statistics) -> String {
    told.by_key().map(|(key, number)| format!("lldp.{port}.{key}={number}\n")).collect()
}

/// Returns the lines of `show chassis` for these values.
fn chassis_lines(told: &Chassis) -> String {
    let mac = told.mac.map(|octet| format!("{octet:02x}")).join(":");
    let address = told.management.map(|address| address.map(|octet| octet.to_string()).join("."));
    let escaped = |text: &str| lldpa::escape(text.as_bytes()).expect("at most 255 octets");
    let (name, description) = (escaped(&told.hostname), escaped(&told.description));
    let lines = [
        format!("local-chassis.mac={mac}\nlocal-chassis.name={name}\nlocal-chassis.descr={description}\n"),
        format!("local-chassis.caps={:?}:on\n", told.role),
        address.map_or(String::new(), |address| format!("local-chassis.mgmt={address},1,0,\n")),
    ];
    lines.concat()
}

/// Checks that the counters and settings in the agent's structs are those in its shows.
fn see_structs(agent: &Agent, ports: &[&str]) {
    let mut counters = String::new();
    for (port, name) in ports.iter().enumerate() {
        counters += &counter_lines(name, &agent.statistics(port as u8).expect("a port"));
    }
    assert_eq!(agent.show(Show::Statistics), counters);
    let told = agent.configuration();
    assert_eq!(told.status.len(), ports.len());
    let words = ["rx-and-tx", "rx-only", "tx-only", "disabled"];
    let status = |(port, status): (&&str, &Status)| {
        format!("configuration.{port}.status={}\n", words[*status as usize])
    };
    let numbers = format!(
        "configuration.tx-interval={}\nconfiguration.tx-hold={}\nconfiguration.ttl={}\n\
        configuration.reinit-delay={}\nconfiguration.tx-fast-init={}\nconfiguration.tx-credit-max={}\n\
        configuration.max-neighbors={}\nconfiguration.ports={}\n",
        told.interval,
        told.hold,
        told.ttl,
        told.reinit,
        told.fast_init,
        told.credit_max,
        told.max_neighbors,
        told.status.len()
    );
    let statuses: String = ports.iter().zip(&told.status).map(status).collect();
    assert_eq!(agent.show(Show::Configuration), numbers + &statuses);
    assert_eq!(agent.show(Show::Chassis), chassis_lines(&agent.chassis()));
    assert!(agent.statistics(ports.len() as u8).is_err());
}

/// Runs a command, and prints the result. Compares a show with its lines read one by one.
fn command(agent: &mut Agent, ports: &[&str], line: &[u8]) -> Result<(), CommandFault> {
    let done = agent.command(line)?;
    write(agent, ports, &done.sent);
    if let Some(show) = done.show {
        see_structs(agent, ports);
        let text = agent.show(show);
        assert!((0..).map_while(|at| agent.show_line(show, at)).eq(text.lines()));
        print!("{text}");
    }
    Ok(())
}

/// Passes a frame to the agent, and checks that the news agrees with the neighbors.
fn heard(agent: &mut Agent, port: u8, frame: &[u8]) -> Vec<Sent> {
    let before = agent.neighbors(port).expect("a port").len();
    let (sent, news) = agent.frame_news(port, frame).expect("a port");
    let after: Vec<Neighbor> = agent.neighbors(port).expect("a port").collect();
    let (more, fewer) = (matches!(news, News::New(_)), matches!(news, News::Gone(_)));
    assert_eq!(after.len() + usize::from(fewer), before + usize::from(more));
    if let News::New(msap) | News::Changed(msap) | News::Same(msap) = news {
        let named = |one: &&Neighbor| one.info().map_or(false, |info| info.msap() == msap);
        assert_eq!(after.iter().filter(named).count(), 1);
    }
    sent
}

/// Returns the octets of each neighbor of each port.
fn neighbors(agent: &Agent) -> Vec<(u8, Vec<u8>)> {
    let of = |port| agent.neighbors(port).into_iter().flatten().map(move |one| (port, one.octets().to_vec()));
    (0..64).flat_map(of).collect()
}

/// Checks that exactly those of these neighbors aged out that are no longer held.
fn see_aged(agent: &Agent, before: &[(u8, Vec<u8>)], number: u32) {
    let after = neighbors(agent);
    let mut gone = Vec::new();
    for port in 0..64 {
        for one in agent.aged(port).into_iter().flatten() {
            assert_eq!(one.left(), 1);
            gone.push((port, one.octets().to_vec()));
        }
    }
    let is_lost = |one: &&(u8, Vec<u8>)| !after.contains(one);
    assert!(before.iter().filter(is_lost).eq(&gone) && gone.len() == number as usize);
}

/// Reports to the agent that `left` seconds passed, and prints the frames to send.
fn tick(agent: &mut Agent, ports: &[&str], mut left: u32) {
    while left > 0 {
        let due = agent.due();
        let before = neighbors(agent);
        let done = agent.ticks(left);
        assert_eq!(done.taken, due.map_or(left, |due| due.min(left)));
        assert_eq!(done.aged_out > 0 || !done.sent.is_empty(), Some(done.taken) == due);
        see_aged(agent, &before, done.aged_out);
        left -= done.taken;
        write(agent, ports, &done.sent);
    }
}

fn main() {
    let words: Vec<String> = std::env::args().skip(1).collect();
    let words: Vec<&str> = words.iter().map(String::as_str).collect();
    let (mut agent, ports) = (open(&words), &words[9..]);
    for line in stdin().lock().split(b'\n') {
        let line = line.expect("a line");
        if let Some(given) = line.strip_prefix(b"command ") {
            command(&mut agent, ports, given).unwrap_or_else(|fault| println!("{}", fault.line()));
            continue;
        }
        let sent = match from_utf8(&line).expect("an event").split(' ').collect::<Vec<_>>()[..] {
            ["rx", port, digits] => heard(&mut agent, number(port), &octets(digits)),
            ["link", port, up] => agent.link(number(port), up != "0").expect("a port"),
            ["leave"] => agent.leave(),
            ["tick", count] => {
                tick(&mut agent, ports, count.parse().expect("a number"));
                continue;
            }
            _ => panic!("not an event"),
        };
        write(&agent, ports, &sent);
    }
}
