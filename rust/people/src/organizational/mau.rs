//! Names MAU types, in our spelling and in lldpcli's. The numbers are those of IANA-MAU-MIB (dot3MauType).

/// The types from 1 on: the name, with a slash and the duplex mode if the type fixes the mode, and
/// lldpcli's description. A row with {first|second} is for several types, in this order.
const ROWS: &str = include_str!("mau.rows");

/// How lldpcli spells parts of the names, and the names that do not follow these rules.
const LLDPCLI_PARTS: [(&str, &str); 8] = [
    ("/half", "HD"),
    ("/full", "FD"),
    ("-multidrop", "MD"),
    ("10/1G", "10G1G"),
    ("2.5", "2p5"),
    ("-", ""),
    ("GBASE", "GigBASE"),
    ("BASE", "Base"),
];
const LLDPCLI_NAMES: [(i64, &str); 7] = [
    (3, "Foirl"),
    (9, "10Broad36"),
    (13, "10BaseFLDF"),
    (43, "10PassTS"),
    (103, "2p5GigT"),
    (104, "5GigT"),
    (113, "10GpassXR"),
];
const FIRST_IN_SMALL_LETTERS: i64 = 54;
const DUPLEX: [&str; 2] = ["half", "full"];

/// A MAU type: name, speed in Mb/s, and `half` or `full` duplex. None means undefined.
pub struct Mau {
    pub name: String,
    pub speed: Option<u128>,
    pub duplex: Option<&'static str>,
}

thread_local! {
    /// The name and the description of each type.
    static TYPES: &'static [(String, String)] = Box::leak(ROWS.lines().flat_map(types_of).collect());
}

/// Returns the name and the description of each type in a row.
fn types_of(row: &str) -> Vec<(String, String)> {
    let count = row
        .split_once('{')
        .and_then(|(_, rest)| rest.split('}').next())
        .map_or(1, |one| one.split('|').count());
    let chosen = (0..count).map(|place| choice(row, place));
    chosen.filter_map(|row| row.split_once(' ').map(|(name, text)| (name.into(), text.into()))).collect()
}

/// Returns a row with the choice at a place of each list in it.
fn choice(row: &str, place: usize) -> String {
    let mut parts = row.split('{');
    let mut text = String::from(parts.next().unwrap_or(""));
    for (list, after) in parts.filter_map(|part| part.split_once('}')) {
        text += list.split('|').nth(place).unwrap_or("");
        text += after;
    }
    text
}

fn type_of(number: i64) -> Option<&'static (String, String)> {
    let types = TYPES.with(|types| *types);
    usize::try_from(number - 1).ok().and_then(|place| types.get(place))
}

/// Returns the MAU type with this number. None if it is not known (0: other or unknown).
pub fn mau_of(number: i64) -> Option<Mau> {
    let (name, _) = type_of(number)?;
    let (front, mode) = name.rsplit_once('/').unwrap_or((name, ""));
    let duplex = DUPLEX.into_iter().find(|one| *one == mode);
    Some(Mau {
        name: if duplex.is_some() { front.into() } else { name.into() },
        speed: speed_of(name),
        duplex,
    })
}

/// Returns the speed in a name. Types such as 10/1GBASE-PRX, whose two directions differ, have none.
fn speed_of(name: &str) -> Option<u128> {
    let end = name.find(|letter: char| !letter.is_ascii_digit() && letter != '.')?;
    let (digits, rest) = name.split_at(end);
    let (rest, factor) = rest.strip_prefix('G').map_or((rest, 1.0), |rest| (rest, 1000.0));
    let is_speed = ["BASE", "PASS", "BROAD"].iter().any(|word| rest.starts_with(word));
    digits.parse::<f64>().ok().filter(|_| is_speed).map(|speed| (speed * factor).round() as u128)
}

/// Returns what lldpcli writes for the number of a MAU type.
pub fn mau_text(number: i64) -> String {
    let (name, description) = match type_of(number) {
        Some(found) => found,
        None => return "unknown".into(),
    };
    let is_small = number >= FIRST_IN_SMALL_LETTERS;
    let mut text = if is_small { name.replace("BASE", "base") } else { name.clone() };
    for (part, theirs) in LLDPCLI_PARTS {
        text = text.replace(part, theirs);
    }
    let own = LLDPCLI_NAMES.iter().find(|(one, _)| *one == number).map(|(_, name)| *name);
    format!("{} - {description}", own.unwrap_or(&text))
}

#[cfg(test)]
mod tests {
    use super::*;

    #[test]
    fn types_have_a_name_a_speed_and_a_mode() {
        for (number, name, speed, duplex) in [
            (1, "AUI", None, None),
            (9, "10BROAD36", Some(10), None),
            (16, "100BASE-TX", Some(100), Some("full")),
            (30, "1000BASE-T", Some(1000), Some("full")),
            (103, "2.5GBASE-T", Some(2500), None),
            (113, "10GPASS-XR", Some(10_000), None),
        ] {
            let mau = mau_of(number).expect(name);
            assert_eq!((&mau.name[..], mau.speed, mau.duplex), (name, speed, duplex));
        }
        assert!(mau_of(0).is_none() && mau_of(145).is_none() && mau_of(144).is_some());
        assert_eq!(mau_text(30), "1000BaseTFD - Four-pair Category 5 UTP, full duplex mode");
        assert_eq!(mau_text(0), "unknown");
    }
}
