//! Splits lines of lldpcli's console into words, as a shell does.

/// Returns the words of a line, or why it cannot be read.
pub fn words_of(line: &str) -> Result<Vec<String>, &'static str> {
    let (mut words, mut word, mut quote) = (Vec::new(), None::<String>, None);
    let mut letters = line.chars();
    while let Some(letter) = letters.next() {
        match (letter, quote) {
            ('\'' | '"', None) => {
                quote = Some(letter);
                word = Some(word.unwrap_or_default());
            }
            (letter, Some(mark)) if letter == mark => quote = None,
            ('\\', None | Some('"')) => {
                let next = letters.next().ok_or("No escaped character")?;
                let is_kept = quote.is_some() && next != '"' && next != '\\';
                let word = word.get_or_insert_with(String::new);
                word.extend(is_kept.then_some('\\'));
                word.push(next);
            }
            (' ' | '\t' | '\r' | '\n', None) => words.extend(word.take()),
            (letter, _) => word.get_or_insert_with(String::new).push(letter),
        }
    }
    if quote.is_some() {
        return Err("No closing quotation");
    }
    words.extend(word);
    Ok(words)
}

#[cfg(test)]
mod tests {
    use super::*;

    #[test]
    fn words_are_those_of_a_shell() {
        for (line, wanted) in [
            ("a  b\tc", Ok(&["a", "b", "c"][..])),
            ("a 'b c' \"d \\\" \\e\"f", Ok(&["a", "b c", "d \" \\ef"])),
            ("a\\ b ''", Ok(&["a b", ""])),
            ("'a\\b'", Ok(&["a\\b"])),
            ("", Ok(&[])),
            ("'a", Err("No closing quotation")),
            ("a\\", Err("No escaped character")),
        ] {
            let wanted = wanted.map(|words| words.iter().map(|word| word.to_string()).collect());
            assert_eq!(words_of(line), wanted, "{line}");
        }
    }
}
