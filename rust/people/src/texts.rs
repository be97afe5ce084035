//! Prints texts of neighbors, which are octets that strangers chose. No control, invisible or
//! direction-changing character reaches a terminal, and marks do not pile up.

use crate::letters::{columns_of, is_mark, is_shown};
use std::fmt::Write;

const CUT: char = '…';
const MOST_MARKS: usize = 2; // above, below or around one character

/// Returns the octets of a text as the agent shows it: printable ASCII, `\\` and `\x1b`.
pub fn unescaped(shown: &str) -> Vec<u8> {
    let mut octets = Vec::with_capacity(shown.len());
    let mut rest = shown.as_bytes();
    while let [first, after @ ..] = rest {
        let (octet, length) = match after {
            [b'\\', ..] if *first == b'\\' => (b'\\', 2),
            [b'x', high, low, ..] if *first == b'\\' => match (digit(*high), digit(*low)) {
                (Some(high), Some(low)) => (16 * high + low, 4),
                _ => (b'\\', 1),
            },
            _ => (*first, 1),
        };
        octets.push(octet);
        rest = &rest[length..];
    }
    octets
}

/// Reads a hexadecimal digit in lower case.
fn digit(octet: u8) -> Option<u8> {
    match octet {
        b'0'..=b'9' => Some(octet - b'0'),
        b'a'..=b'f' => Some(octet - b'a' + 10),
        _ => None,
    }
}

/// Unescapes a text of the agent for people, except what is unsafe on a terminal. A text that is not
/// ASCII is not escaped.
pub fn readable(shown: &str) -> String {
    printable(&octets_shown(shown))
}

/// Returns octets as a text of visible characters and spaces. Escapes all others.
pub fn printable(octets: &[u8]) -> String {
    let mut text = String::with_capacity(octets.len());
    let mut marks = MOST_MARKS; // so that a mark at the beginning is escaped
    let mut rest = octets;
    while !rest.is_empty() {
        let letter = first_letter(rest);
        let (this, after) = rest.split_at(letter.map_or(1, char::len_utf8));
        marks = if letter.map_or(false, is_mark) { marks + 1 } else { 0 };
        match letter.filter(|letter| is_shown(*letter) && marks <= MOST_MARKS) {
            Some(letter) => text.push(letter),
            None => push_escaped(&mut text, this),
        }
        rest = after;
    }
    text
}

/// Returns the character with which UTF-8 begins. None if these octets are not UTF-8.
fn first_letter(octets: &[u8]) -> Option<char> {
    let most = octets.len().min(4);
    let found = (1..=most).find_map(|length| std::str::from_utf8(&octets[..length]).ok());
    found.and_then(|text| text.chars().next())
}

fn push_escaped(text: &mut String, octets: &[u8]) {
    for octet in octets {
        let _ = write!(text, "\\x{octet:02x}"); // a String takes all
    }
}

/// Returns octets as the agent shows them: printable ASCII as it is, a backslash as two, and any other
/// octet as `\\x` and two digits.
pub fn shown_text(octets: &[u8]) -> String {
    let mut text = String::with_capacity(octets.len());
    for octet in octets {
        match octet {
            b'\\' => text.push_str("\\\\"),
            b' '..=b'~' => text.push(char::from(*octet)),
            _ => push_escaped(&mut text, &[*octet]),
        }
    }
    text
}

/// Returns octets in hexadecimal, with a text between them.
pub fn hex_of(octets: &[u8], between: &str) -> String {
    octets.iter().map(|octet| format!("{octet:02x}")).collect::<Vec<_>>().join(between)
}

/// Returns the octets of a shown text. One that is not ASCII is not escaped.
pub fn octets_shown(shown: &str) -> Vec<u8> {
    if shown.is_ascii() {
        unescaped(shown)
    } else {
        shown.as_bytes().to_vec()
    }
}

/// Returns each character of a text, or an octet that is not UTF-8.
pub fn letters_of(octets: &[u8]) -> impl Iterator<Item = Result<char, u8>> + '_ {
    let mut rest = octets;
    std::iter::from_fn(move || {
        let letter = first_letter(rest).ok_or_else(|| rest.first().copied().unwrap_or_default());
        let (first, after) = rest.split_at(rest.len().min(letter.map_or(1, char::len_utf8)));
        rest = after;
        (!first.is_empty()).then_some(letter)
    })
}

/// Returns the octets of a character, escaped as the agent shows them.
pub fn escaped(letter: Result<char, u8>) -> String {
    let mut text = String::new();
    match letter {
        Ok(letter) => push_escaped(&mut text, letter.encode_utf8(&mut [0; 4]).as_bytes()),
        Err(octet) => push_escaped(&mut text, &[octet]),
    }
    text
}

/// Returns a line of an answer, in which only printable ASCII stays as it is.
pub fn plain(octets: &[u8]) -> String {
    if octets.iter().all(|octet| (b' '..=b'~').contains(octet)) {
        return String::from_utf8_lossy(octets).into_owned();
    }
    let mut text = String::with_capacity(octets.len());
    for octet in octets {
        match octet {
            b' '..=b'~' => text.push(char::from(*octet)),
            _ => push_escaped(&mut text, &[*octet]),
        }
    }
    text
}

/// Returns how many columns a printable text takes on a terminal.
pub fn width_of(text: &str) -> usize {
    text.chars().map(columns_of).sum()
}

/// Returns the length in octets of the longest beginning that is at most so wide.
fn end_of(text: &str, width: usize) -> usize {
    let mut sum = 0;
    let mut is_over = |(_, letter): &(usize, char)| {
        sum += columns_of(*letter);
        sum > width
    };
    text.char_indices().find(|one| is_over(one)).map_or(text.len(), |(place, _)| place)
}

/// Returns the text, or its beginning and an ellipsis if the text is wider than `width`.
pub fn cut(text: &str, width: usize) -> String {
    if width_of(text) <= width {
        return text.into();
    }
    format!("{}{CUT}", &text[..end_of(text, width.saturating_sub(1))])
}

/// Returns the text, padded with spaces to this width.
pub fn padded(text: &str, width: usize) -> String {
    format!("{text}{}", " ".repeat(width.saturating_sub(width_of(text))))
}

/// Returns the text in lines of at most this width, broken between words if possible.
pub fn wrapped(text: &str, width: usize) -> Vec<&str> {
    let (mut lines, mut rest) = (Vec::new(), text);
    while let Some(first) = rest.chars().next() {
        let second = first.len_utf8();
        let end = end_of(rest, width).max(second);
        let is_whole = end == rest.len();
        let space = rest.as_bytes()[..rest.len().min(end + 1)].iter().rposition(|octet| *octet == b' ');
        let (end, after) = match space.filter(|space| *space >= second && !is_whole) {
            Some(space) => (space, space + 1),
            None => (end, end),
        };
        lines.push(&rest[..end]);
        rest = &rest[after..];
    }
    lines
}

/// Returns a number with its noun: `no neighbors`, `1 neighbor`, `2 neighbors`.
pub fn counted(number: u128, what: &str) -> String {
    match number {
        0 => format!("no {what}s"),
        1 => format!("1 {what}"),
        _ => format!("{number} {what}s"),
    }
}

/// Returns a line of printable ASCII in quotes, with escapes, as Python's `repr` does.
pub fn quoted(line: &str) -> String {
    let quote = if line.contains('\'') && !line.contains('"') { '"' } else { '\'' };
    let escaped = line.replace('\\', "\\\\");
    let escaped = if quote == '\'' { escaped.replace('\'', "\\'") } else { escaped };
    format!("{quote}{escaped}{quote}")
}

#[cfg(test)]
mod tests {
    use super::*;

    /// Characters that are never shown: controls, breaks, spaces, marks that change the direction of
    /// writing, joiners, fillers, selectors, private use and unassigned letters.
    const NEVER: [char; 47] = [
        '\0',
        '\x07',
        '\x1b',
        '\x7f',
        '\u{80}',
        '\u{9b}',
        '\u{85}',
        '\u{a0}',
        '\u{ad}',
        '\u{34f}',
        '\u{61c}',
        '\u{115f}',
        '\u{1160}',
        '\u{17b4}',
        '\u{180e}',
        '\u{2000}',
        '\u{200b}',
        '\u{200c}',
        '\u{200d}',
        '\u{200e}',
        '\u{200f}',
        '\u{2028}',
        '\u{2029}',
        '\u{202a}',
        '\u{202b}',
        '\u{202c}',
        '\u{202d}',
        '\u{202e}',
        '\u{2060}',
        '\u{2066}',
        '\u{2067}',
        '\u{2068}',
        '\u{2069}',
        '\u{206f}',
        '\u{2800}',
        '\u{3000}',
        '\u{3164}',
        '\u{e000}',
        '\u{fe0f}',
        '\u{feff}',
        '\u{ffa0}',
        '\u{fff9}',
        '\u{ffff}',
        '\u{e0001}',
        '\u{e0041}',
        '\u{e0100}',
        '\u{10ffff}',
    ];

    #[test]
    fn letters_and_signs_are_shown_as_they_are() {
        for letter in "aéßΩжאع京한€→😀½~¡".chars() {
            assert_eq!(printable(format!("a{letter}b").as_bytes()), format!("a{letter}b"));
        }
        assert_eq!(readable("a\\\\b\\xc3\\xa9\\x1b\\xZZ\\"), "a\\bé\\x1b\\xZZ\\");
    }

    #[test]
    fn what_does_something_else_is_escaped() {
        for letter in NEVER {
            let mut room = [0; 4];
            let escaped: String =
                letter.encode_utf8(&mut room).bytes().map(|octet| format!("\\x{octet:02x}")).collect();
            assert_eq!(printable(format!("a{letter}b").as_bytes()), format!("a{escaped}b"));
        }
    }

    #[test]
    fn octets_that_are_no_utf8_are_escaped() {
        let rows: [(&[u8], &str); 6] = [
            (b"caf\xe9", "caf\\xe9"),
            (b"\xc3", "\\xc3"),
            (b"\xff\xfe", "\\xff\\xfe"),
            (b"\xed\xa0\x80", "\\xed\\xa0\\x80"),
            (b"\xc0\xaf", "\\xc0\\xaf"),
            (b"a\xc3\xa9\xe9", "aé\\xe9"),
        ];
        for (octets, shown) in rows {
            assert_eq!(printable(octets), shown);
        }
        assert_eq!(plain(b"a \\\x1b\xe2~"), "a \\\\x1b\\xe2~");
    }

    #[test]
    fn marks_do_not_pile_up() {
        let mark = "\u{301}";
        let escaped = "\\xcc\\x81";
        for (text, shown) in [
            (format!("e{mark}{mark}x"), format!("e{mark}{mark}x")),
            (format!("e{mark}{mark}{mark}{mark}x"), format!("e{mark}{mark}{escaped}{escaped}x")),
            (format!("{mark}a"), format!("{escaped}a")),
        ] {
            assert_eq!(printable(text.as_bytes()), shown);
        }
    }

    #[test]
    fn widths_and_cuts() {
        for (text, width) in
            [("abc", 3), ("é", 1), ("e\u{301}", 1), ("京都", 4), ("", 0), ("ｶﾞ", 2), ("Ａ", 2), ("…", 1)]
        {
            assert_eq!(width_of(text), width, "{text}");
        }
        for (text, cuts) in [("abc", ["…", "a…", "abc", "abc"]), ("京都", ["…", "…", "京…", "京都"])]
        {
            assert_eq!([1, 2, 3, 4].map(|width| cut(text, width)), cuts);
        }
        assert_eq!(
            (cut("ab", 0), padded("京", 4), padded("abc", 2)),
            ("…".into(), "京  ".into(), "abc".into())
        );
    }

    #[test]
    fn lines_are_broken_between_words() {
        let rows: [(&str, usize, &[&str]); 7] = [
            ("one two three", 7, &["one two", "three"]),
            ("", 3, &[]),
            ("abcdefgh ij", 3, &["abc", "def", "gh", "ij"]),
            ("a bcde", 3, &["a", "bcd", "e"]),
            ("ab cd", 2, &["ab", "cd"]),
            ("京都京都", 3, &["京", "都", "京", "都"]),
            ("京", 1, &["京"]),
        ];
        for (text, width, lines) in rows {
            assert_eq!(wrapped(text, width), lines, "{text}");
        }
    }

    #[test]
    fn lines_are_quoted() {
        for (line, shown) in [("a", "'a'"), ("a'b", "\"a'b\""), ("a'\"b", "'a\\'\"b'"), ("a\\b", "'a\\\\b'")]
        {
            assert_eq!(quoted(line), shown);
        }
    }
}
