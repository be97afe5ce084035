//! Compares what TLVs of organizations mean, and what is told of changes, with the files in `expected`,
//! letter for letter. A second implementation, in Python, wrote them; floats have the form of Rust's library since.

#[allow(dead_code)]
#[path = "../examples/people.rs"]
mod people;

const FRONT: &str =
    "lldp.p.neighbors=1\nlldp.p.octets=7\nlldp.p.too-many=no\nlldp.p.1.chassis.mac=02:00:00:00:00:01\n\
    lldp.p.1.port.local=a\nlldp.p.1.ttl=120\nlldp.p.1.expires=9\n";

/// Returns what a neighbor says that sent these TLVs, each a kind and its octets in hexadecimal: the
/// rows for people, JSON, lldpcli's nodes, and the TLVs that lldpd does not know.
fn said(tlvs: &[(&str, &str)]) -> String {
    let mut answer: Vec<String> = FRONT.lines().map(String::from).collect();
    answer.extend(tlvs.iter().map(|(kind, octets)| format!("lldp.p.1.org.{kind}={octets}")));
    told("said", vec![answer])
}

/// Returns the lines of an answer, each with a line feed.
fn told(words: &str, answers: people::Answers) -> String {
    let lines = people::answer(&[words], &answers).expect(words);
    lines.iter().map(|line| format!("{line}\n")).collect()
}

/// Returns the kinds and octets in a line. The octets of a TLV without any are missing at its end.
fn tlvs_in(line: &str) -> Vec<(&str, &str)> {
    let words: Vec<&str> = line.split(' ').collect();
    words.chunks(2).map(|pair| (pair[0], pair.get(1).copied().unwrap_or(""))).collect()
}

/// Returns a checksum: FNV-1a of 64 bits.
fn sum_of(text: &str) -> String {
    let sum = text.bytes().fold(0xcbf2_9ce4_8422_2325, |sum: u64, octet| {
        (sum ^ u64::from(octet)).wrapping_mul(0x0100_0000_01b3)
    });
    format!("{sum:016x}")
}

/// Compares the answers in a file, each after a line `> TLVS`. Returns how many there are.
fn compare_whole(file: &str) -> usize {
    let mut parts = file.split("> ");
    assert_eq!(parts.next(), Some(""));
    parts.map(|part| compare_one(part.split_once('\n').expect(part))).count()
}

fn compare_one((line, wanted): (&str, &str)) {
    assert_eq!(said(&tlvs_in(line)), wanted, "{line}");
}

#[test]
fn each_kind_in_words_in_json_and_as_nodes() {
    assert_eq!(compare_whole(include_str!("expected/said.txt")), 32);
}

#[test]
fn odd_texts_and_kinds_that_contradict_each_other() {
    assert_eq!(compare_whole(include_str!("expected/odd.txt")), 21);
}

#[test]
fn sums_are_those_of_fnv() {
    assert_eq!([sum_of(""), sum_of("foobar")], ["cbf29ce484222325", "85944171f73967e8"]);
}

/// Returns variants of octets: their beginnings, longer ones, or each value of the octet at a place.
fn variants(digits: &str, way: &str) -> Vec<String> {
    match way {
        "fronts" => (0..digits.len()).step_by(2).map(|end| digits[..end].into()).collect(),
        "further" => ["00", "ff", &"00".repeat(20)].map(|more| format!("{digits}{more}")).into(),
        place => {
            let at = 2 * place.parse::<usize>().expect(place);
            let changed = |value| format!("{}{value:02x}{}", &digits[..at], &digits[at + 2..]);
            (0..256).map(changed).collect()
        }
    }
}

#[test]
fn each_beginning_and_each_value_of_each_octet() {
    let mut count = 0;
    for line in include_str!("expected/changed.txt").lines() {
        let words: Vec<&str> = line.split(' ').collect();
        let (kind, digits, way) = (words[0], words[1], words[2]);
        let variants = variants(digits, way);
        let told: String = variants.iter().map(|octets| said(&[(kind, octets)]) + "\n").collect();
        assert_eq!(sum_of(&told), words[3], "{kind} {digits} {way}:\n{}", &told[..told.len().min(3000)]);
        count += variants.len();
    }
    assert!(count > 60_000, "{count}");
}

#[test]
fn several_together() {
    let mut count = 0;
    for line in include_str!("expected/together.txt").lines() {
        let (sum, sent) = line.split_once(' ').expect(line);
        let told = said(&tlvs_in(sent));
        assert_eq!(sum_of(&told), sum, "{sent}:\n{told}");
        count += 1;
    }
    assert_eq!(count, 600);
}

#[test]
fn what_changes() {
    let mut parts = include_str!("expected/changes.txt").split("--- before\n");
    assert_eq!(parts.next(), Some(""));
    let mut lines = 0;
    for part in parts {
        let (before, rest) = part.split_once("--- after\n").expect(part);
        let (after, wanted) = rest.split_once("--- news\n").expect(part);
        let answers = [before, after].map(|text| text.lines().map(String::from).collect());
        assert_eq!(told("changes", answers.into()), wanted, "{part}");
        lines += wanted.lines().count();
    }
    assert!(lines > 100, "{lines}");
}
