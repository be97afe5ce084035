//! Locations of LLDP-MED, in three forms.

use super::kind::{often, row, tlv, Kind};
use super::layout::{
    counted, digits, each, form, length, made, most, name_in, named, number, scaled, text, Field, Names,
    Values,
};
use super::med::PARENT;
use super::Said;
use crate::node::{capital, lldpcli_text, Node};

const PATH: &str = "med.locations";
const FORMS: Names = &[(1, "coordinates"), (2, "civic address"), (3, "elin")];
const LONGEST_ELIN: usize = 25;
const WHATS: Names = &[(0, "DHCP server"), (1, "switch"), (2, "client")];
const DATUMS: Names = &[(1, "WGS84"), (2, "NAD83 (NAVD88)"), (3, "NAD83 (MLLW)")];
const UNITS: Names = &[(1, "meters"), (2, "floors")];
/// The names of civic address types (RFC 4776).
const ELEMENTS: Names = &[
    (0, "language"),
    (1, "country subdivision"),
    (2, "county"),
    (3, "city"),
    (4, "city division"),
    (5, "block"),
    (6, "street"),
    (16, "direction"),
    (17, "trailing street suffix"),
    (18, "street suffix"),
    (19, "number"),
    (20, "number suffix"),
    (21, "landmark"),
    (22, "additional"),
    (23, "name"),
    (24, "ZIP"),
    (25, "building"),
    (26, "unit"),
    (27, "floor"),
    (28, "room"),
    (29, "place type"),
    (128, "script"),
];
/// lldpcli's names.
const LLDPCLI_DATUMS: Names = &[(1, "WGS84"), (2, "NAD83"), (3, "NAD83/MLLW")];
const LLDPCLI_UNITS: Names = &[(1, "m"), (2, "floor")];
/// The numbers of bits before and after the binary point.
const DEGREES: (i64, u32) = (9, 25);
const ALTITUDE: (i64, u32) = (22, 8);
const ALL: i64 = i64::MAX;

/// Coordinates of RFC 6225. A resolution is the number of valid bits.
static COORDINATES: [Field; 9] = [
    form(FORMS, 1),
    most("latitude_resolution", 6, 34),
    scaled("latitude", 34, DEGREES.1, 90 << DEGREES.1),
    most("longitude_resolution", 6, 34),
    scaled("longitude", 34, DEGREES.1, 180 << DEGREES.1),
    named("altitude_unit", 4, UNITS, "of type"),
    most("altitude_resolution", 6, 30),
    scaled("altitude", 30, ALTITUDE.1, ALL),
    named("datum", 8, DATUMS, "datum"),
];
const IN_JSON: &str = "form latitude latitude_resolution longitude longitude_resolution altitude \
    altitude_unit altitude_resolution datum";
/// A civic address of RFC 4776.
static CIVIC_ADDRESS: [Field; 5] =
    [form(FORMS, 2), length(), named("what", 8, WHATS, ""), text("country", 2), each("elements", &ELEMENT)];
static ELEMENT: [Field; 3] =
    [number("type", 8), made("name", |one| name_in(ELEMENTS, one.number("type")).into()), counted("text")];
/// An emergency location identification number.
static ELIN: [Field; 2] = [form(FORMS, 3), digits("digits", LONGEST_ELIN)];

pub static KINDS: [Kind; 1] = [often(
    "; ",
    &[
        tlv("0012bb.3", &COORDINATES).ordered(IN_JSON),
        tlv("0012bb.3", &CIVIC_ADDRESS),
        tlv("0012bb.3", &ELIN),
    ],
    &[row("med-locations", "Location", |place| match place.number("form") {
        1 => coordinates(place),
        2 => civic_address(place),
        _ => place.fill("ELIN {digits}"),
    })],
    &[(PATH, "")],
)
.nodes(PARENT, nodes)];

fn coordinates(place: &Values) -> String {
    let degrees = |name: &str, [minus, plus]: [char; 2]| {
        let angle = place.number(name);
        let letter = if angle < 0 { minus } else { plus };
        let rounded = rounded(100_000 * u128::from(angle.unsigned_abs()), 1 << DEGREES.1);
        format!("{}.{:05} {letter}", rounded / 100_000, rounded % 100_000)
    };
    let (latitude, longitude) = (degrees("latitude", ['S', 'N']), degrees("longitude", ['W', 'E']));
    let altitude = general(place.number("altitude"));
    place.fill(&format!("{latitude}, {longitude}, {altitude} {{altitude_unit}}, {{datum}}"))
}

fn civic_address(place: &Values) -> String {
    let element = |one: &Values| {
        let kind = one.number("type");
        let name = name_in(ELEMENTS, kind).map_or_else(|| format!("type {kind}"), String::from);
        format!("{name} {}", one.word("text"))
    };
    let elements = place.parts("elements").iter().map(element);
    std::iter::once(place.word("country")).chain(elements).collect::<Vec<_>>().join(", ")
}

/// Divides, and rounds to the nearest number. Of two as near, the even one.
fn rounded(number: u128, by: u128) -> u128 {
    let (whole, twice) = (number / by, 2 * (number % by));
    whole + u128::from(twice > by || twice == by && whole % 2 == 1)
}

/// Returns a number of 256ths with at most six digits, as `%g` of the C library does.
fn general(number: i64) -> String {
    let sign = if number < 0 { "-" } else { "" };
    let exact = 390_625 * u128::from(number.unsigned_abs()); // with eight digits after the point
    let exponent = exact.max(1).to_string().len() as i32 - 1 - 8;
    let most = 10u128.pow(exact.max(1).to_string().len().saturating_sub(6) as u32);
    let exact = rounded(exact, most) * most;
    let digits = if exact == 0 { "0".repeat(9) } else { format!("{exact:09}") };
    let (whole, part) = digits.split_at(digits.len() - 8);
    if whole.len() < 7 {
        let part = part.trim_end_matches('0');
        return format!("{sign}{whole}{}{part}", if part.is_empty() { "" } else { "." });
    }
    let (first, rest) = whole.split_at(1);
    let rest = rest.trim_end_matches('0');
    format!("{sign}{first}{}{rest}e+{:02}", if rest.is_empty() { "" } else { "." }, exponent.max(6))
}

/// Returns the nodes of the last location of each form.
fn nodes(said: &Said) -> Vec<Node> {
    let last = |form: i64| said.all(PATH).filter(|place| place.number("form") == form).last();
    let (coordinates, civic, elin) = (last(1), last(2), last(3));
    let nodes = [coordinates.map(coordinates_node), civic.map(civic_node), elin.map(elin_node)];
    nodes.into_iter().flatten().collect()
}

fn location_node(kind: &str) -> Node {
    Node::new("location", "LLDP-MED Location Identification").with("type", "Type", kind)
}

fn coordinates_node(place: &Values) -> Node {
    let datum = name_in(LLDPCLI_DATUMS, place.number("datum")).unwrap_or("unknown");
    let mut node = location_node("Coordinates").with("geoid", "Geoid", datum);
    let said = |name: &str, (whole, after): (i64, u32)| {
        fixed(place.number(name), after, place.number(&format!("{name}_resolution")), whole)
    };
    let letter = |name: &str, minus, plus| if place.number(name) < 0 { minus } else { plus };
    let latitude = said("latitude", DEGREES) + letter("latitude", "S", "N");
    node.add("lat", "Latitude", Some(latitude));
    node.add("lon", "Longitude", Some(said("longitude", DEGREES) + letter("longitude", "W", "E")));
    let kind = place.number("altitude_unit");
    let unit = name_in(LLDPCLI_UNITS, kind).map_or_else(|| kind.to_string(), String::from);
    let altitude = letter("altitude", "-", "").to_string() + &said("altitude", ALTITUDE);
    node.nodes.push(Node::leaf("altitude", "Altitude", altitude).with("unit", "", unit));
    node
}

/// Returns the absolute value of a fixed-point number in lldpd's form. The last `after` bits of the
/// value are those after the point. The number of valid bits and the number of bits before the point
/// determine how many digits lldpd writes after the point. Further digits are cut off.
fn fixed(value: i64, after: u32, resolution: i64, whole: i64) -> String {
    let size = u128::from(value.unsigned_abs());
    let part = size & ((1 << after) - 1);
    if part == 0 {
        return (size >> after).to_string();
    }
    let bits = if resolution > whole { resolution - whole } else { whole };
    let digits = (bits as f64 * std::f64::consts::LOG10_2) as u32;
    format!("{}.{:0width$}", size >> after, (part * 10u128.pow(digits)) >> after, width = digits as usize)
}

fn civic_node(place: &Values) -> Node {
    let mut node = location_node("Civic address");
    node.add("country", "Country", Some(lldpcli_text(place.octets("country"))));
    for element in place.parts("elements") {
        let (key, label) = match name_in(ELEMENTS, element.number("type")) {
            Some(name) => (name.to_lowercase().replace(' ', "-"), capital(name)),
            None => ("unknown".into(), "unknown".into()),
        };
        let text = Some(lldpcli_text(element.octets("text")));
        node.nodes.push(Node { key: key.into(), label: label.into(), text, ..Node::default() });
    }
    node
}

fn elin_node(place: &Values) -> Node {
    let mut node = location_node("ELIN");
    node.add("ecs", "ECS ELIN", Some(place.octets("digits")));
    node
}

#[cfg(test)]
mod tests {
    use super::*;

    #[test]
    fn altitudes_have_six_digits() {
        for (number, text) in [
            (0, "0"),
            (1, "0.00390625"),
            (-128, "-0.5"),
            (256 * 1000 + 32, "1000.12"),
            (256 * 1000 + 96, "1000.38"),
            (256 * 999_999 + 128, "1e+06"),
            (256 * 123_456, "123456"),
            (-(1 << 29), "-2.09715e+06"),
        ] {
            assert_eq!(general(number), text);
        }
        assert_eq!([rounded(5, 2), rounded(7, 2), rounded(9, 4), rounded(11, 4)], [2, 4, 2, 3]);
    }
}
