//! Octets as hexadecimal digits.

use std::fmt;

/// Octets that are printed as digits.
pub struct Hex<'a>(pub &'a [u8]);

impl fmt::Display for Hex<'_> {
    fn fmt(&self, out: &mut fmt::Formatter<'_>) -> fmt::Result {
        const DIGITS: &[u8; 16] = b"0123456789abcdef";
        for piece in self.0.chunks(64) {
            let mut text = [0u8; 128];
            for (pair, octet) in text.chunks_mut(2).zip(piece) {
                pair[0] = DIGITS[usize::from(octet >> 4)];
                pair[1] = DIGITS[usize::from(octet & 15)];
            }
            out.write_str(std::str::from_utf8(&text[..2 * piece.len()]).unwrap_or(""))?;
        }
        Ok(())
    }
}

/// Reads pairs of digits. None if the text is anything else.
pub fn octets_of(digits: &str) -> Option<Vec<u8>> {
    let pair = |pair: &[u8]| u8::from_str_radix(std::str::from_utf8(pair).ok()?, 16).ok();
    let are_digits = digits.len() % 2 == 0 && digits.bytes().all(|octet| octet.is_ascii_hexdigit());
    are_digits.then(|| digits.as_bytes().chunks(2).map(pair).collect())?
}

#[cfg(test)]
mod tests {
    use super::*;

    #[test]
    fn octets_are_written_as_digits() {
        let octets: Vec<u8> = (0..=255).collect();
        let plain: String = octets.iter().map(|octet| format!("{octet:02x}")).collect();
        assert_eq!(Hex(&octets).to_string(), plain);
        assert_eq!(Hex(&octets[..65]).to_string(), plain[..130]);
        assert_eq!(octets_of(&plain), Some(octets));
        assert_eq!(Hex(&[]).to_string(), "");
    }

    #[test]
    fn only_pairs_of_digits_are_read() {
        for (text, wanted) in
            [("", Some(vec![])), ("0aF0", Some(vec![10, 240])), ("0", None), ("0g", None), ("+1", None)]
        {
            assert_eq!(octets_of(text), wanted, "{text}");
        }
    }
}
