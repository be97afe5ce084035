//! Tests what is made of answers of lldpa-live: tables, changes and metrics.

use lldpa_people::changes::{News, Watch};
use lldpa_people::counters::{counter_lines, Counters, COUNTERS};
use lldpa_people::interfaces::interfaces;
use lldpa_people::live_lines::LiveLines;
use lldpa_people::metrics::{up, Metrics, MOST_METRICS};
use lldpa_people::show::{Neighbor, Port, Read, Show};
use lldpa_people::table::Table;
use lldpa_people::texts::width_of;
use std::collections::BTreeMap;

/// Returns the lines of a port with neighbors. A neighbor is a chassis ID, a port ID, and further lines.
fn port(name: &str, too_many: bool, neighbors: &[&[&str]]) -> String {
    let count = neighbors.len();
    let too_many = if too_many { "yes" } else { "no" };
    let mut text =
        format!("lldp.{name}.neighbors={count}\nlldp.{name}.octets=20\nlldp.{name}.too-many={too_many}\n");
    for (place, said) in neighbors.iter().enumerate() {
        let front = format!("lldp.{name}.{}.", place + 1);
        let times = ["ttl=120", "expires=98"];
        let lines = said[..2].iter().chain(&times).chain(&said[2..]);
        lines.for_each(|line| text.extend([&front[..], *line, "\n"]));
    }
    text
}

/// The lines of `show configuration` for three ports, without their statuses.
const SETTINGS: &str = "configuration.tx-interval=30\nconfiguration.tx-hold=4\nconfiguration.ttl=121\n\
    configuration.reinit-delay=2\nconfiguration.tx-fast-init=4\nconfiguration.tx-credit-max=5\n\
    configuration.max-neighbors=32\nconfiguration.ports=3\n";

const MAC: &str = "chassis.mac=02:00:00:00:00:01";

fn named<'a>(name: &'a str, port: &'a str, more: &[&'a str]) -> Vec<&'a str> {
    [&[MAC, port, name], more].concat()
}

fn table_of(answer: &str, width: usize) -> Vec<String> {
    table(&Show::read(answer.lines().collect()).expect(answer).ports, width)
}

fn table(ports: &[Port<'_>], width: usize) -> Vec<String> {
    let mut table = Table::default();
    ports.iter().for_each(|port| table.add(port));
    let count = table.count(width);
    table.lines(width).chain(count).collect()
}

fn lines_of(news: &[News]) -> Vec<String> {
    news.iter().map(News::line).collect()
}

fn reasons(show: &Show<'_>, live: &LiveLines<'_>, width: usize) -> Vec<String> {
    let mut table = Table::default();
    show.ports.iter().for_each(|port| table.add(port));
    table.reasons(show, live, width)
}

#[test]
fn a_line_a_neighbor_and_a_count() {
    let first = named(
        "chassis.name=switch-2",
        "port.ifname=swp1",
        &["chassis.mgmt=192.0.2.2,2,2,", "chassis.mgmt=192.0.2.3,2,2,"],
    );
    let second = named("chassis.name=b", "port.ifname=swp12", &[]);
    let answer = port("eth0", false, &[&first]) + &port("eth1", false, &[]) + &port("p2", false, &[&second]);
    let lines = [
        "PORT  NEIGHBOR  ITS PORT  MANAGEMENT  LEFT",
        "eth0  switch-2  swp1      192.0.2.2   98 s",
        "p2    b         swp12                 98 s",
        "2 neighbors on 3 ports.",
    ];
    assert_eq!(table_of(&answer, 80), lines);
}

#[test]
fn a_table_is_as_wide_as_the_terminal() {
    let (name, its_port) =
        (format!("chassis.name={}", "n".repeat(300)), format!("port.ifname={}", "p".repeat(30)));
    let wide = named(&name, &its_port, &["chassis.mgmt=192.0.2.2,2,2,"]);
    let answer = port("eth0", false, &[&wide]);
    for width in 1..400 {
        let lines = table_of(&answer, width);
        assert!(lines[..2].iter().all(|line| width_of(line) <= width));
        assert_eq!(lines[1].contains("192.0.2.2"), width >= 356, "{width}");
        assert_eq!(lines[1].contains('…'), width < 344, "{width}");
    }
}

#[test]
fn the_widest_columns_are_cut_first() {
    let said = named("chassis.name=a-long-name-of-a-switch", "port.ifname=swp1", &[]);
    let answer = port("eth0", false, &[&said]);
    for (width, lines) in [
        (
            45,
            [
                "PORT  NEIGHBOR                 ITS PORT  LEFT",
                "eth0  a-long-name-of-a-switch  swp1      98 s",
            ],
        ),
        (30, ["PORT  NEIGHBOR  ITS PORT  LEFT", "eth0  a-long-…  swp1      98 s"]),
        (20, ["PO…  NE…  IT…  LE…", "et…  a-…  sw…  98…"]),
    ] {
        assert_eq!(table_of(&answer, width)[..2], lines, "{width}");
    }
    assert_eq!(table_of("", 5), ["no neighbors on no", "ports."]);
}

#[test]
fn vlans_have_a_column_where_one_is_said() {
    let vlan = |name, vlan| named(name, "port.ifname=p", &[vlan]);
    let rows = [
        vlan("chassis.name=a", "org.0080c2.1=0078"),
        vlan("chassis.name=b", "org.0080c2.1=0000"),
        vlan("chassis.name=c", "org.0080c2.1=ffff"),
    ];
    let neighbors: Vec<&[&str]> = rows.iter().map(|row| &row[..]).collect();
    let lines = [
        "PORT  NEIGHBOR  ITS PORT  VLAN  MANAGEMENT  LEFT",
        "eth0  a         p         120               98 s",
        "eth0  b         p                           98 s",
        "eth0  c         p                           98 s",
    ];
    assert_eq!(table_of(&port("eth0", false, &neighbors), 80)[..4], lines);
    assert_eq!(table_of(&port("eth0", false, &neighbors), 47)[0], "PORT  NEIGHBOR  ITS PORT  VLAN  LEFT");
    assert!(!table_of(&port("eth0", false, &neighbors[1..]), 80)[0].contains("VLAN"));
}

#[test]
fn what_stands_for_a_name_or_a_port() {
    for (said, row) in [
        (&[MAC, "port.unhandled=ff01", "port.descr=to the roof"][..], "02:00:00:00:00:01  to the roof"),
        (&[MAC, "port.ifname=swp1", "port.descr=to the roof"], "02:00:00:00:00:01  swp1"),
        (&["chassis.local=a", "port.mac=02:00:00:00:00:02", "port.descr=up"], "a  up"),
        (&["chassis.local=a", "port.ip=2001:0db8:0000:0000:0000:0000:0000:0001"], "a  2001:db8::1"),
        (&["chassis.ip=0000:0000:0000:0000:0000:0000:c000:0207", "port.local=7"], "::192.0.2.7  7"),
        (&["chassis.ip=0000:0000:0000:0000:0000:0000:0001:0207", "port.local=7"], "::0.1.2.7  7"),
        (&["chassis.ip=0000:0000:0000:0000:0000:0000:0100:0207", "port.local=7"], "::1.0.2.7  7"),
        (&["chassis.ip=0000:0000:0000:0000:0000:0000:0000:0207", "port.local=7"], "::207  7"),
        (&["chassis.ip=0000:0000:0000:0000:0000:0001:c000:0207", "port.local=7"], "::1:c000:207  7"),
        (&["chassis.ip=fe80:0000:0000:0000:0000:0000:0000:0001", "port.ip=192.0.2.1"], "fe80::1  192.0.2.1"),
        (&["chassis.local=a", "port.mac=02:00:00:00:00:02", "port.descr="], "a  02:00:00:00:00:02"),
        (&["chassis.local=a", "port.local=7", "chassis.name="], "a  7"),
        (&["chassis.local=fe80:0000::0001", "port.ifname=::0002"], "fe80:0000::0001  ::0002"),
        (&[MAC, "port.local=7", "chassis.name=\\xe4\\xba\\xac\\xe9\\x83\\xbd"], "京都  7"),
        (&[MAC, "port.local=7", "chassis.name=\\x1b[31m\\xe2\\x80\\xae"], "\\x1b[31m\\xe2\\x80\\xae  7"),
    ] {
        let line = table_of(&port("eth0", false, &[said]), 200)[1].clone();
        let parts: Vec<&str> = line.split("  ").filter(|part| !part.is_empty()).map(str::trim).collect();
        assert_eq!(parts[1..3].join("  "), row);
    }
}

#[test]
fn columns_of_wide_letters_end_below_each_other() {
    let names = ["\\xe4\\xba\\xac\\xe9\\x83\\xbd", "caf\\xc3\\xa9", "e\\xcc\\x81"];
    let names = names.map(|name| format!("chassis.name={name}"));
    let rows: Vec<Vec<&str>> = names.iter().map(|name| named(name, "port.ifname=p", &[])).collect();
    let rows: Vec<&[&str]> = rows.iter().map(|row| &row[..]).collect();
    let lines = [
        "eth0  京都      p                     98 s",
        "eth0  café      p                     98 s",
        "eth0  e\u{301}         p                     98 s",
    ];
    assert_eq!(table_of(&port("eth0", false, &rows), 80)[1..4], lines);
}

#[test]
fn nothing_that_controls_a_terminal_is_shown() {
    let hostile = "\\x1b[31m\\x0d\\x0a\\x9b2J\\x07\\xe2\\x80\\xae";
    let texts = ["chassis.local=", "port.local=", "chassis.name=", "port.descr=", "chassis.mgmt="];
    let texts = texts.map(|key| format!("{key}{hostile}"));
    let said: Vec<&str> = texts.iter().map(|text| &text[..]).collect();
    let answer = port("eth0", true, &[&said, &said[..2]]);
    let show = Show::read(answer.lines().collect()).expect("a port");
    let nobody = port("eth0", false, &[]);
    let mut watch = Watch::of(&Show::read(nobody.lines().collect()).expect("nobody").ports[0]);
    let lines = [table(&show.ports, 200), lines_of(&watch.news(&show.ports[0]))].concat();
    assert!(lines.concat().bytes().all(|octet| (b' '..=b'~').contains(&octet)), "{lines:?}");
    assert_eq!(lines[1].matches(hostile).count(), 3, "{}", lines[1]);
}

#[test]
fn full_ports_and_silent_ones_are_told() {
    let answer = port("eth0", true, &[]) + &port("eth1", false, &[]) + &port("p2", false, &[]);
    let settings = format!(
        "{SETTINGS}configuration.eth0.status=rx-and-tx\nconfiguration.eth1.status=disabled\n\
        configuration.p2.status=disabled\n"
    );
    let lines: Vec<&str> = answer.lines().chain(settings.lines()).collect();
    let show = Show::read(lines).expect("two answers");
    let full = "no neighbors on 3 ports. eth0 had no room for a neighbor: raise --max-neighbors; \
        a port holds at most 128.";
    assert_eq!(table(&show.ports, 1000), [full]);
    assert!(table(&show.ports, 40).iter().all(|line| line.len() <= 40));
    let largest = [Port { name: "p2", held: 128, octets: 7, too_many: true, neighbors: vec![] }];
    let full = "128 neighbors on 1 port. p2 had no room for a neighbor: a port holds at most 128.";
    assert_eq!(table(&largest, 1000), [full]);
    let live = LiveLines::read(&["live.eth0.link=down"]);
    assert_eq!(reasons(&show, &live, 80), ["eth0 has no link", "eth1, p2 are disabled"]);
    let live = LiveLines::read(&["live.eth1.interface=awaited"]);
    let why = ["eth1: no interface that can be used", "p2 is disabled"];
    assert_eq!(reasons(&show, &live, 80), why);
    let live = LiveLines::read(&["live.eth0.interface=awaited", "live.eth1.interface=awaited"]);
    let sending = settings.replace("p2.status=disabled", "p2.status=tx-only");
    let why = ["eth0, eth1: no interfaces that can be used", "p2 only sends"];
    assert_eq!(reasons_of(&answer, &sending, &live), why);
    let sending = sending.replace("eth1.status=disabled", "eth1.status=tx-only");
    let live = LiveLines::read(&["live.eth0.link=down", "live.eth2.link=down"]);
    assert_eq!(reasons_of(&answer, &sending, &live), ["eth0 has no link", "eth1, p2 only send"]);
    let down = ["live.eth0.link=down", "live.eth1.link=down", "live.p2.link=down"];
    let receiving = settings.replace("=disabled", "=rx-only");
    let why = ["eth0, eth1, p2 have no link"];
    assert_eq!(reasons_of(&answer, &receiving, &LiveLines::read(&down)), why);
}

fn reasons_of(answer: &str, settings: &str, live: &LiveLines<'_>) -> Vec<String> {
    let lines: Vec<&str> = answer.lines().chain(settings.lines()).collect();
    reasons(&Show::read(lines).expect("two answers"), live, 80)
}

#[test]
fn a_port_with_a_neighbor_is_named_only_if_it_has_no_link() {
    let answer = port("eth0", false, &[&named("chassis.name=a", "port.ifname=p", &[])]);
    for (status, link, lines) in [
        ("rx-only", "live.eth0.link=down", &["eth0 has no link"][..]),
        ("rx-only", "live.eth0.link=up", &[]),
        ("tx-only", "live.eth0.link=down", &[]),
        ("disabled", "live.eth0.interface=awaited", &[]),
    ] {
        let settings = SETTINGS.replace("configuration.ports=3", "configuration.ports=1");
        let text = format!("{answer}{settings}configuration.eth0.status={status}\n");
        let show = Show::read(text.lines().collect()).expect("two answers");
        assert_eq!(reasons(&show, &LiveLines::read(&[link]), 80), lines, "{status} {link}");
    }
}

#[test]
fn ports_have_a_table_of_their_states() {
    let nobody = port("eth0", false, &[]).replace("eth0", "eth10");
    let statuses = "configuration.eth10.status=rx-and-tx\nconfiguration.eth1.status=disabled\n\
        configuration.p2.status=tx-only\n";
    let text = format!("{nobody}{SETTINGS}{statuses}");
    let show = Show::read(text.lines().collect()).expect("two answers");
    let live = LiveLines::read(&["live.eth10.interface=present", "live.eth10.link=up", "live.p2.link=\\x1b"]);
    let held = BTreeMap::from([("eth10".into(), 0)]);
    let lines = [
        "PORT   INTERFACE  LINK  STATUS     NEIGHBORS",
        "eth10  present    up    rx-and-tx          0",
        "eth1   ?          ?     disabled           ?",
        "p2     ?          \\x1b  tx-only            ?",
    ];
    assert_eq!(interfaces(&held, &show, &live, &[], 80).expect("ports"), lines);
    let only = interfaces(&held, &show, &live, &["eth1".into()], 80).expect("a port");
    assert_eq!(only[1..], ["eth1  ?          ?     disabled          ?"]);
    let why = interfaces(&held, &show, &live, &["eth9".into()], 80).expect_err("no port");
    assert_eq!(why, "no such port: eth9 (eth10, eth1, p2)");
}

/// Returns counters with these numbers.
fn counters(numbers: &[u128]) -> Counters<'static> {
    let mut counters = Counters::default();
    COUNTERS.iter().zip(numbers).for_each(|(counter, number)| *counters.0.value(counter.key) = *number);
    counters
}

fn metrics(show: &Show<'_>, live: &LiveLines<'_>) -> Read<String> {
    let mut all = Metrics::of(None, MOST_METRICS);
    show.ports.iter().for_each(|port| all.add(port));
    all.parts(&show.counters, live).map(|parts| parts.concat())
}

#[test]
fn counters_have_a_table_and_a_sum_of_several_ports() {
    let counters = [
        ("eth0", counters(&[1, 2, 3, 4, 5, 6, 7, 8, 9])),
        ("eth10", counters(&[10, 0, 0, 0, 0, 0, 0, 0, 4_294_967_295])),
    ];
    let lines = [
        "PORT   SENT  SHUTDOWNS  RECEIVED  DISCARDED  ERRORS  TLVS-DISCARDED  UNRECOGNIZED  AGEOUTS       DROPS",
        "eth0      1          2         3          4       5               6             7        8           9",
        "eth10    10          0         0          0       0               0             0        0  4294967295",
        "all      11          2         3          4       5               6             7        8  4294967304",
    ];
    assert_eq!(counter_lines(&counters, 200), lines);
    assert_eq!(counter_lines(&counters, lines[0].len()), lines);
    assert_eq!(counter_lines(&counters[..1], 200).len(), 2);
    let upright = counter_lines(&counters, lines[0].len() - 1);
    assert_eq!(
        upright[..2],
        ["PORT            eth0       eth10         all", "SENT               1          10          11"]
    );
    assert_eq!(upright.last().expect("a row")[..], "DROPS              9  4294967295  4294967304"[..]);
    let two_and_one = counter_lines(&counters, 32);
    assert_eq!(two_and_one[0], "PORT            eth0       eth10");
    assert_eq!(two_and_one[10..12], ["", "PORT                   all"]);
    assert_eq!(two_and_one.len(), 21);
}

#[test]
fn changes_are_told_once() {
    let state = |neighbors: &[&[&str]]| port("eth0", false, neighbors);
    let first = named("chassis.name=a", "port.ifname=p1", &["org.0080c2.1=0078"]);
    let second = named("chassis.name=b", "port.ifname=p1", &["org.0080c2.1=0079", "port.descr=up"]);
    let other = named("chassis.name=c", "port.ifname=p2", &[]);
    let steps: [(Vec<&[&str]>, &[&str]); 5] = [
        (vec![&first], &["eth0 came: a p1"]),
        (vec![&first], &[]),
        (
            vec![&second],
            &["eth0 changed: b p1; chassis.name: a -> b; pvid: 120 -> 121; port.descr: nothing -> up"],
        ),
        (vec![&other], &["eth0 gone: b p1", "eth0 came: c p2"]),
        (vec![], &["eth0 gone: c p2"]),
    ];
    let nobody = state(&[]);
    let mut watch = Watch::of(&Show::read(nobody.lines().collect()).expect("nobody").ports[0]);
    for (neighbors, lines) in steps {
        let answer = state(&neighbors);
        let news = watch.news(&Show::read(answer.lines().collect()).expect("a port").ports[0]);
        assert_eq!(lines_of(&news), lines);
    }
}

#[test]
fn neighbors_are_told_one_by_one() {
    let first = named("chassis.name=a b", "port.ifname=p 1", &[]);
    let second = named("chassis.name=b", "port.ifname=p 1", &[]);
    let mut watch = Watch::default();
    let id = "mac=02:00:00:00:00:01 ifname=p\\x201";
    for (said, wanted) in [
        (Some(&first), Some("eth0 came: a b p 1")),
        (Some(&first), None),
        (Some(&second), Some("eth0 changed: b p 1; chassis.name: a b -> b")),
        (None, Some("eth0 gone: b p 1")),
        (None, None),
    ] {
        let text = said.map_or(String::new(), |said| port("eth0", false, &[said]));
        let lines: Vec<&str> = text.lines().skip(3).collect();
        let news = match said {
            Some(_) => watch.learn(&Neighbor::read("eth0", lines).expect("a neighbor")),
            None => watch.forget(id),
        };
        assert_eq!(news.map(|news| news.line()), wanted.map(String::from));
    }
    assert_eq!(watch.count(), 0);
}

#[test]
fn lines_that_are_not_one_neighbor_are_refused() {
    let neighbors = [&named("chassis.name=a", "port.ifname=p1", &[])[..], &[MAC, "port.ifname=p2"]];
    let text = port("eth0", false, &neighbors);
    let lines: Vec<&str> = text.lines().collect();
    assert!(Neighbor::read("eth0", lines[3..8].to_vec()).is_ok());
    for (port, lines) in [
        ("eth0", &lines[..]),
        ("eth0", &lines[3..]),
        ("eth1", &lines[3..8]),
        ("eth", &lines[3..8]),
        ("", &lines[3..8]),
        ("eth0", &lines[4..8]),
        ("eth0", &[][..]),
        ("eth0", &["lldp.eth0.x.chassis.mac=1"][..]),
    ] {
        assert!(Neighbor::read(port, lines.to_vec()).is_err(), "{port} {lines:?}");
    }
}

#[test]
fn metrics_have_labels_and_headings() {
    let text = "chassis.name=a \"quoted\" \\\\ \\x0a";
    let answer = port("eth0", true, &[&named(text, "port.ifname=swp1", &["org.00120f.4=05f2"])]);
    let show = Show::read(answer.lines().collect()).expect("a port");
    let live = LiveLines::read(&["live.agent=waiting", "live.eth0.link=up", "live.eth0.unsent=4"]);
    let told = metrics(&show, &live).expect("numbers");
    for line in [
        "lldpa_up 0",
        "# TYPE lldpa_link_up gauge",
        "lldpa_agent_state{state=\"waiting\"} 1",
        "lldpa_link_up{port=\"eth0\"} 1",
        "lldpa_unsent_total{port=\"eth0\"} 4",
        "lldpa_neighbors{port=\"eth0\"} 1",
        "lldpa_too_many{port=\"eth0\"} 1",
        "lldpa_neighbor_info{port=\"eth0\",chassis_kind=\"mac\",chassis=\"02:00:00:00:00:01\",\
            port_id_kind=\"ifname\",port_id=\"swp1\",name=\"a \\\"quoted\\\" \\\\\\\\ \\\\x0a\",port_descr=\"\",\
            management=\"\",pvid=\"\",max_frame_size=\"1522\"} 1",
    ] {
        assert!(told.lines().any(|one| one == line), "{line}\n{told}");
    }
    assert_eq!(up(None, false).lines().last(), Some("lldpa_up 0"));
    for line in ["live.began=now", "live.settings-refused=x", "live.eth0.unsent=-1"] {
        assert!(metrics(&show, &LiveLines::read(&[line])).is_err(), "{line}");
    }
}

#[test]
fn each_metric_has_one_heading_with_its_type() {
    let neighbors = [&named("chassis.name=a", "port.ifname=p1", &[])[..], &[MAC, "port.ifname=p2"]];
    let answers = port("eth0", false, &neighbors) + &port("eth1", false, &[]);
    let line = |port: &str, key: &str| format!("lldp.{port}.{key}=1\n");
    let of_port = |port| COUNTERS.iter().map(move |counter| line(port, counter.key));
    let text = answers + &of_port("eth0").chain(of_port("eth1")).collect::<String>();
    let show = Show::read(text.lines().collect()).expect("two answers");
    let live =
        LiveLines::read(&["live.record-lines-lost=1", "live.settings-refused=0", "live.eth0.unsent=1"]);
    let told = metrics(&show, &live).expect("numbers");
    let types: Vec<&str> = told.lines().filter_map(|line| line.strip_prefix("# TYPE ")).collect();
    for told in &types {
        let (name, kind) = told.split_once(' ').expect(told);
        assert_eq!(kind, if name.ends_with("_total") { "counter" } else { "gauge" }, "{name}");
        assert_eq!(types.iter().filter(|other| *other == told).count(), 1, "{name}");
    }
    assert_eq!(types.len(), 17, "{types:?}");
}

#[test]
fn what_is_no_answer_is_refused_with_its_line() {
    let answer = port("eth0", false, &[&named("chassis.name=a", "port.ifname=p", &[])]);
    for (from, to, why) in [
        (
            "octets=20",
            "octets=020",
            "line 2: expected lldp.eth0.octets= and a number, but found 'lldp.eth0.octets=020'",
        ),
        ("neighbors=1", "neighbors=2", "line 9: expected lldp.eth0.2.chassis.KIND=, but found the end"),
        (
            "chassis.name",
            "Chassis.name",
            "line 8: expected a key of a neighbor, but found 'lldp.eth0.1.Chassis.name=a'",
        ),
    ] {
        let spoiled = answer.replace(from, to);
        assert_eq!(Show::read(spoiled.lines().collect()).expect_err(to), why);
    }
}

#[test]
fn counters_of_a_newer_agent_are_read() {
    let known: Vec<String> = COUNTERS.iter().map(|counter| format!("lldp.eth0.{}=7", counter.key)).collect();
    for (further, wanted) in [
        ("lldp.eth0.frames-too-long=3", Some(("frames-too-long", 3))),
        ("lldp.eth0.frames-too-long=03", None),
        ("lldp.eth0.Frames=3", None),
        ("lldp.eth0.drops=3", None),
        ("lldp.eth1.more=3", None),
    ] {
        let lines = known.iter().map(String::as_str).chain([further]).collect();
        let read = Show::read(lines).ok().map(|mut show| show.counters.remove(0).1 .0.entries);
        let wanted = wanted.map(|further| {
            COUNTERS.iter().map(|counter| (counter.key, 7)).chain([further]).collect::<Vec<_>>()
        });
        assert_eq!(read, wanted, "{further}");
    }
}

#[test]
fn more_than_an_agent_could_have_are_refused() {
    let names: Vec<String> = (0..65).map(|number| format!("p{number}")).collect();
    let counters: String = names
        .iter()
        .flat_map(|port| COUNTERS.iter().map(move |counter| format!("lldp.{port}.{}=1\n", counter.key)))
        .collect();
    let settings = SETTINGS.replace("ports=3", "ports=65");
    let statuses: String =
        names.iter().map(|port| format!("configuration.{port}.status=disabled\n")).collect();
    let keys = ('a'..='z').flat_map(|one| ('a'..='z').map(move |other| format!("{one}{other}"))).take(101);
    let further: String = keys.map(|key| format!("lldp.p0.{key}=1\n")).collect();
    let known: String = COUNTERS.iter().map(|counter| format!("lldp.p0.{}=1\n", counter.key)).collect();
    let long = |key: usize, value: usize| {
        let line = format!("configuration.{}={}\n", "k".repeat(key), "v".repeat(value));
        SETTINGS.replacen("configuration.ttl", &(line + "configuration.ttl"), 1)
    };
    let statuses_of_three = "configuration.p0.status=disabled\nconfiguration.p1.status=disabled\n\
        configuration.p2.status=disabled\n";
    assert!(Show::read((long(64, 1024) + statuses_of_three).lines().collect()).is_ok());
    for (text, why) in [
        (long(65, 1), "line 3: expected configuration.ttl=, but found 'configuration.kkk"),
        (long(1, 1025), "line 3: expected configuration.ttl=, but found 'configuration.k=vvv"),
        (counters, "line 577: expected a port that is not listed above, but found 'lldp.p64.sent=1'"),
        (
            known.clone() + &known,
            "line 10: expected a port that is not listed above, but found 'lldp.p0.sent=1'",
        ),
        (
            settings + &statuses,
            "line 73: expected at most 64 ports, but found 'configuration.p64.status=disabled'",
        ),
        (known + &further, "line 110: expected at most 100 further keys, but found 'lldp.p0.dw=1'"),
    ] {
        let fault = Show::read(text.lines().collect()).expect_err(why);
        assert!(fault.starts_with(why), "{fault}");
    }
}

#[test]
fn settings_of_a_newer_agent_are_read() {
    let text = format!(
        "{SETTINGS}configuration.eth0.status=rx-only\nconfiguration.ports.status=disabled\n\
        configuration.p2.status=tx-only\n"
    );
    let known: Vec<&str> = text.lines().collect();
    let statuses = [("eth0", "rx-only"), ("ports", "disabled"), ("p2", "tx-only")];
    let (of_agent, of_second_port, nowhere) = (1..=8, 10..=10, 0..=0); // after how many lines it is read
    for (further, places) in [
        ("configuration.further=3", &of_agent),
        ("configuration.place=second floor = 2", &of_agent),
        ("configuration.status=", &of_agent),
        ("configuration.ports.further=3", &of_second_port),
        ("configuration.ports.tx-hold=x", &of_second_port),
        ("configuration.ports.status=disabled", &nowhere),
        ("configuration.ports.further.more=3", &nowhere),
        ("configuration.ports.=3", &nowhere),
        ("configuration.Further=3", &nowhere),
        ("configuration.further", &nowhere),
        ("configuration.=3", &nowhere),
        ("configuration.tx-hold=4", &nowhere),
        ("configuration.ports=3", &nowhere),
        ("configuration.eth9.further=3", &nowhere),
        ("configuration.eth9.status=disabled", &nowhere),
        ("local-chassis.further=3", &nowhere),
    ] {
        for place in 0..=known.len() {
            let lines = [&known[..place], &[further], &known[place..]].concat();
            let read = Show::read(lines).ok();
            let found = read.as_ref().map(|show| show.statuses.as_ref().expect("settings").entries.clone());
            let wanted = (place > 0 && places.contains(&place)).then(|| statuses.to_vec());
            assert_eq!(found, wanted, "{further} after {place} lines");
            let (front, value) = further.split_once('=').unwrap_or((further, ""));
            let of = |show: &Show<'_>| match front.split('.').collect::<Vec<_>>()[..] {
                [_, key] => show.settings.get(&key).copied().map(String::from),
                [_, port, key] => show.of_ports.get(&port)?.get(&key).copied().map(String::from),
                _ => None,
            };
            let found = read.as_ref().map(of);
            assert_eq!(found, wanted.map(|_| Some(value.into())), "{further} after {place} lines");
        }
    }
}
