//! How a character looks on a terminal: whether it is shown, and how many columns it takes. std knows the
//! properties of all characters, by the version of Unicode of the rustc that built this.

/// Characters that std counts as printable, but that are invisible on a terminal: fillers, joiners, variation
/// selectors, and the empty Braille pattern. python/lldpa/texts.py has the same.
const INVISIBLE: [(u32, u32); 9] = [
    (0x034f, 0x034f),
    (0x115f, 0x1160),
    (0x17b4, 0x17b5),
    (0x180b, 0x180f),
    (0x2800, 0x2800),
    (0x3164, 0x3164),
    (0xfe00, 0xfe0f),
    (0xffa0, 0xffa0),
    (0xe0100, 0xe01ef),
];
/// The sound marks of half the usual width. std counts them as marks, but they take a column of their own.
const HALFWIDTH_MARKS: (u32, u32) = (0xff9e, 0xff9f);
/// Characters that take two columns: W and F of Unicode's EastAsianWidth.txt. Unassigned and invisible ones may
/// be among them.
#[rustfmt::skip]
const WIDE: [(u32, u32); 84] = [
    (0x1100, 0x115e), (0x231a, 0x231b), (0x2329, 0x232a), (0x23e9, 0x23ec), (0x23f0, 0x23f0), (0x23f3, 0x23f3),
    (0x25fd, 0x25fe), (0x2614, 0x2615), (0x2648, 0x2653), (0x267f, 0x267f), (0x2693, 0x2693), (0x26a1, 0x26a1),
    (0x26aa, 0x26ab), (0x26bd, 0x26be), (0x26c4, 0x26c5), (0x26ce, 0x26ce), (0x26d4, 0x26d4), (0x26ea, 0x26ea),
    (0x26f2, 0x26f3), (0x26f5, 0x26f5), (0x26fa, 0x26fa), (0x26fd, 0x26fd), (0x2705, 0x2705), (0x270a, 0x270b),
    (0x2728, 0x2728), (0x274c, 0x274c), (0x274e, 0x274e), (0x2753, 0x2755), (0x2757, 0x2757), (0x2795, 0x2797),
    (0x27b0, 0x27b0), (0x27bf, 0x27bf), (0x2b1b, 0x2b1c), (0x2b50, 0x2b50), (0x2b55, 0x2b55), (0x2e80, 0x3029),
    (0x302e, 0x303e), (0x3041, 0x3096), (0x309b, 0x3247), (0x3250, 0x4dbf), (0x4e00, 0xa4c6), (0xa960, 0xa97c),
    (0xac00, 0xd7a3), (0xf900, 0xfad9), (0xfe10, 0xfe19), (0xfe30, 0xfe6b), (0xff01, 0xff60), (0xffe0, 0xffe6),
    (0x16fe0, 0x16fe3), (0x16ff0, 0x1b2fb), (0x1f004, 0x1f004), (0x1f0cf, 0x1f0cf), (0x1f18e, 0x1f18e),
    (0x1f191, 0x1f19a), (0x1f200, 0x1f320), (0x1f32d, 0x1f335), (0x1f337, 0x1f37c), (0x1f37e, 0x1f393),
    (0x1f3a0, 0x1f3ca), (0x1f3cf, 0x1f3d3), (0x1f3e0, 0x1f3f0), (0x1f3f4, 0x1f3f4), (0x1f3f8, 0x1f43e),
    (0x1f440, 0x1f440), (0x1f442, 0x1f4fc), (0x1f4ff, 0x1f53d), (0x1f54b, 0x1f54e), (0x1f550, 0x1f567),
    (0x1f57a, 0x1f57a), (0x1f595, 0x1f596), (0x1f5a4, 0x1f5a4), (0x1f5fb, 0x1f64f), (0x1f680, 0x1f6c5),
    (0x1f6cc, 0x1f6cc), (0x1f6d0, 0x1f6d2), (0x1f6d5, 0x1f6df), (0x1f6eb, 0x1f6ec), (0x1f6f4, 0x1f6fc),
    (0x1f7e0, 0x1f7f0), (0x1f90c, 0x1f93a), (0x1f93c, 0x1f945), (0x1f947, 0x1f9ff), (0x1fa70, 0x1faf6),
    (0x20000, 0x3fffd),
];

fn is_among(letter: char, ranges: &[(u32, u32)]) -> bool {
    let number = u32::from(letter);
    let place = ranges.partition_point(|(_, last)| *last < number);
    ranges.get(place).map_or(false, |(first, _)| *first <= number)
}

/// Returns whether std prints a character as it is where it is not the first of a text. There it escapes no mark.
fn is_printable(letter: char) -> bool {
    let mut room = *b"a\0\0\0\0";
    let length = letter.encode_utf8(&mut room[1..]).len();
    std::str::from_utf8(&room[..=length]).map_or(false, |text| text.escape_debug().count() == 2)
}

/// Returns whether a character is visible on a terminal and has no other effect.
pub fn is_shown(letter: char) -> bool {
    if letter.is_ascii() {
        !letter.is_ascii_control()
    } else {
        is_printable(letter) && !is_among(letter, &INVISIBLE)
    }
}

/// Returns whether a character is written above, below or around the one before it. std escapes such a one only
/// where no other is before it.
pub fn is_mark(letter: char) -> bool {
    let is_escaped = !letter.is_ascii() && letter.escape_debug().count() > 1;
    is_escaped && is_printable(letter) && !is_among(letter, &[HALFWIDTH_MARKS])
}

/// Returns how many columns a visible character takes: 0 for a mark, 2 for a wide one, else 1.
pub fn columns_of(letter: char) -> usize {
    if letter.is_ascii() {
        1
    } else if is_mark(letter) {
        0
    } else {
        1 + usize::from(is_among(letter, &WIDE))
    }
}
