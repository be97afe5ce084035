//! What lldpd's users type: the command that means the same here, or a sentence that says what to do.

/// The beginning of a command of lldpd, and what to do instead.
type Sentence = (&'static str, &'static str);

const NOT_SENT: &str = "such TLVs are received and shown, but not sent";
const IN_DEFAULT: &str = "take the option away in /etc/default/lldpa, and restart lldpa";
const SENTENCES: [Sentence; 36] = [
    ("configure system chassisid", "the chassis ID is --mac in AGENT_OPTIONS of /etc/default/lldpa"),
    ("configure system max-neighbors", "write: configure lldp max-neighbors N"),
    (
        "configure system ip management pattern",
        "the address is --management in AGENT_OPTIONS, or --management-pattern in LIVE_OPTIONS",
    ),
    (
        "configure system interface pattern",
        "PORTS in /etc/default/lldpa has names and patterns of interfaces",
    ),
    (
        "configure system interface permanent",
        "a port that PORTS in /etc/default/lldpa names stays while its interface is away",
    ),
    (
        "configure system interface description",
        "lldpa changes no interface: lldpa-ctl shows who is behind it",
    ),
    (
        "configure system interface promiscuous",
        "each port hears LLDP's group address, and needs nothing more",
    ),
    (
        "configure system capabilities",
        "the capabilities are --role in AGENT_OPTIONS: station, bridge or router",
    ),
    ("configure system platform", "write a text instead: configure system description TEXT"),
    ("configure system bond-slave-src-mac-type", "each frame has the address of its interface as its source"),
    ("configure system hostname .", "a dot has no special meaning: write the name"),
    ("configure lldp portidsubtype", "the port ID cannot be changed: it is the name of the interface"),
    ("configure lldp portdescription", "the description cannot be changed: it is the name of the interface"),
    ("configure lldp agent-type", "frames go to the nearest-bridge address, and to no other"),
    (
        "configure lldp capabilities-advertisements",
        "the capabilities are always announced: --role says which",
    ),
    (
        "configure lldp management-addresses-advertisements",
        "an address is announced unless LIVE_OPTIONS has --no-management",
    ),
    ("configure lldp vlan-tx", "frames are sent without a VLAN tag"),
    ("configure lldp custom-tlv", NOT_SENT),
    ("configure lldp status", "name the ports: configure ports PORT,.. lldp status STATUS"),
    ("configure med", NOT_SENT),
    ("configure dot3", NOT_SENT),
    ("configure inventory", NOT_SENT),
    ("unconfigure system hostname", "write the name: configure system hostname NAME"),
    ("unconfigure system description", "write the text: configure system description TEXT"),
    ("unconfigure system chassisid", IN_DEFAULT),
    ("unconfigure system capabilities", IN_DEFAULT),
    ("unconfigure system ip", IN_DEFAULT),
    ("unconfigure system interface pattern", IN_DEFAULT),
    ("unconfigure system interface permanent", IN_DEFAULT),
    ("unconfigure lldp management-addresses-advertisements", "write --no-management in LIVE_OPTIONS"),
    ("unconfigure", "nothing is to be undone, since lldpa has no such setting"),
    ("pause", "write: configure ports PORT,.. lldp status disabled"),
    ("resume", "write: configure ports PORT,.. lldp status rx-and-tx"),
    ("exit", "each lldpa-ctl runs one command, so there is nothing to leave"),
    ("watch protocol", "the only protocol is LLDP: write watch"),
    ("show neighbors protocol", "the only protocol is LLDP: write show neighbors"),
];

/// Words of lldpd that say how much is shown.
const AMOUNTS: [&str; 3] = ["details", "summary", "hidden"];
/// Words of lldpd before the names of ports, or before a number.
const BEFORE_A_WORD: [&str; 3] = ["ports", LIMIT, "protocol"];
const LIMIT: &str = "limit";
const LEAST_SHORTENED: usize = 3; // letters of a word that stands for a longer one

fn stands_for(word: &str, full: &str) -> bool {
    word == full || word.len() >= LEAST_SHORTENED && full.starts_with(word)
}

fn begins(words: &[String], front: &str) -> bool {
    let pairs = words.iter().zip(front.split(' '));
    words.len() >= front.split(' ').count() && pairs.into_iter().all(|(word, front)| stands_for(word, front))
}

/// Completes the words of lldpd that may follow a show or `watch`.
fn in_full<'a>(rest: &[&'a str]) -> Vec<&'a str> {
    let mut full: Vec<&str> = Vec::with_capacity(rest.len());
    for word in rest {
        let is_value = full.last().map_or(false, |before| BEFORE_A_WORD.contains(before));
        let known = AMOUNTS.iter().chain(&BEFORE_A_WORD).find(|known| !is_value && stands_for(word, known));
        full.push(known.unwrap_or(word));
    }
    full
}

/// Moves a limit to the front.
fn limit_first(rest: &mut [&str]) {
    let is_limit = |place: &usize| rest[*place] == LIMIT && (*place == 0 || rest[*place - 1] != "ports");
    if let Some(place) = (0..rest.len()).find(is_limit) {
        let end = rest.len().min(place + 2);
        rest[..end].rotate_right(end - place);
    }
}

/// Returns the words of the command that means the same here.
pub fn same(words: &[String]) -> Vec<String> {
    let words: Vec<&str> = words.iter().map(|word| &word[..]).collect();
    let (front, rest) = match words[..] {
        ["watch", ref rest @ ..] => ("watch", rest),
        ["show", what, ref rest @ ..] => (what, rest),
        _ => ("", &words[..]),
    };
    let mut rest = in_full(rest);
    let has = |amount: &str| rest.contains(&amount);
    let ours: &[&str] = match front {
        "watch" => &["watch"],
        "interfaces" => &["interfaces"],
        "neighbors" if has("details") => &["details"],
        "neighbors" if has("summary") => &["neighbors"],
        "neighbors" => &["show", "neighbors"],
        "statistics" if rest == ["summary"] => &["statistics", "summary"],
        "statistics" if has("summary") => &["statistics"],
        "statistics" => &["show", "statistics"],
        "chassis" if has("details") || has("summary") => &["show", "chassis"],
        "running-configuration" => &["show", "configuration"],
        _ => return words.into_iter().map(String::from).collect(),
    };
    rest.retain(|word| !AMOUNTS.contains(word));
    if front == "watch" {
        limit_first(&mut rest);
    }
    ours.iter().chain(&rest).map(|word| word.to_string()).collect()
}

/// Returns what to do instead of a command of lldpd, if it has no counterpart here.
pub fn instead(words: &[String]) -> Option<&'static str> {
    let mut words = words.to_vec();
    if words.len() > 3 && words[0].ends_with("configure") && words[1] == "ports" {
        words.drain(1..3); // the ports of which the command is
        if begins(&words, "configure lldp status") {
            return None;
        }
    }
    SENTENCES.iter().find(|(front, _)| begins(&words, front)).map(|(_, sentence)| *sentence)
}

#[cfg(test)]
mod tests {
    use super::*;
    use crate::arguments::all_commands;
    use crate::refused::words_of;

    /// The commands of lldpcli(8), and the command here or the beginning of the sentence.
    const COMMANDS: &str = include_str!("lldpd.rows");

    #[test]
    fn commands_of_lldpd_are_done_or_explained() {
        let mut count = 0;
        for row in COMMANDS.lines() {
            let (line, wanted) = row.split_once(" | ").expect(row);
            let words = same(&words_of(line));
            let found = instead(&words).map_or_else(|| words.join(" "), String::from);
            assert!(found.starts_with(wanted), "{line}: {found}");
            let is_command = words.first().map_or(false, |word| all_commands().contains(&&word[..]));
            assert!(is_command || instead(&words).is_some(), "{line}");
            count += 1;
        }
        assert!(count > 77, "{count}");
    }

    #[test]
    fn commands_of_lldpa_stay() {
        for line in [
            "configure system hostname a",
            "configure system description a",
            "configure lldp tx-hold 4",
            "configure lldp max-neighbors 4",
            "configure ports eth0 lldp status disabled",
            "show neighbors eth0",
            "show statistics",
            "watch eth0",
            "update",
            "statistics summary",
        ] {
            let words = words_of(line);
            assert_eq!((same(&words), instead(&words)), (words, None));
        }
    }
}
