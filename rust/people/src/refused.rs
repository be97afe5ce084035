//! Explains why a command was refused: which word is wrong, and what is allowed in its place. Completes
//! words that are shortened.

use crate::lldpd::instead;

const A_PORT: &str = "must be a port of this agent";
const NO_WORD: &str = "no word is allowed here";
const MISSING: &str = "a word is missing";
const UNKNOWN: &str = "unknown command";
/// Reasons that are about the last word of a form, not about a number or a text.
const OF_FORMS: [&str; 2] = [UNKNOWN, "extra word"];

const A_TEXT: &str = "up to 255 printable characters, in quotes if it has spaces";
const STATUSES: &str = "rx-and-tx, rx-only, tx-only, disabled";
/// The forms of `configure`, and what is allowed in place of their words in capitals.
const FORMS: [Form; 6] = [
    Form("configure system hostname TEXT", A_TEXT),
    Form("configure system description TEXT", A_TEXT),
    Form("configure lldp tx-interval N", "seconds between frames, 1 to 3600"),
    Form("configure lldp tx-hold N", "intervals that peers keep a frame, 1 to 100"),
    Form("configure lldp max-neighbors N", "1 to the number of --max-neighbors"),
    Form("configure ports PORT lldp status STATUS", STATUSES),
];

struct Form(&'static str, &'static str);

impl Form {
    fn words(&self) -> impl Iterator<Item = &'static str> {
        self.0.split(' ')
    }

    fn word(&self, place: usize) -> Option<&'static str> {
        self.words().nth(place)
    }

    /// Returns how many of the words, from the first on, match the form.
    fn fitting(&self, words: &[String]) -> usize {
        let fits = |(form, word): &(&str, &String)| match *form {
            "STATUS" => STATUSES.split(", ").any(|status| status == &word[..]),
            form => is_placeholder(form) || form == &word[..],
        };
        self.words().zip(words).take_while(fits).count()
    }

    /// Returns what is allowed in place of a word of this form.
    fn said_of(&self, word: &'static str) -> &'static str {
        match word {
            "PORT" => A_PORT,
            _ if is_placeholder(word) => self.1,
            _ => word,
        }
    }
}

fn is_placeholder(word: &str) -> bool {
    word.bytes().all(|octet| octet.is_ascii_uppercase())
}

/// Returns the words of a line. A quoted text is one word.
pub fn words_of(line: &str) -> Vec<String> {
    let is_blank = |letter: char| letter == ' ' || letter == '\t';
    let (mut words, mut rest) = (Vec::new(), line.trim_matches(is_blank));
    while !rest.is_empty() {
        let (word, after) = match rest.strip_prefix('"') {
            Some(text) => text.split_once('"').unwrap_or((text, "")),
            None => rest.split_at(rest.find(is_blank).unwrap_or(rest.len())),
        };
        words.push(word.into());
        rest = after.trim_start_matches(is_blank);
    }
    words
}

/// Returns the agent's reason for refusing a line, such as `out of range`, with the wrong word and
/// what is allowed in its place: `out of range: 0 (seconds between frames, 1 to 3600)`. Of a command that only
/// lldpd has it says what to do.
pub fn explained(line: &str, text: &str) -> String {
    let words = words_of(line);
    let fits = FORMS.iter().map(|form| form.fitting(&words)).max().unwrap_or(0);
    if text == "bad quote" {
        return text.into();
    }
    if let Some(sentence) = instead(&words).filter(|_| text == UNKNOWN) {
        return sentence.into();
    }
    let forms: Vec<&Form> = FORMS.iter().filter(|form| form.fitting(&words) == fits).collect();
    if words.len() > fits && forms.len() == 1 && forms[0].words().count() == fits {
        return format!("{text}: {} ({NO_WORD})", words[fits]);
    }
    let value = forms[0].words().position(is_placeholder);
    let wrong = if OF_FORMS.contains(&text) { fits.min(words.len()) } else { value.unwrap_or(fits) };
    let mut wanted: Vec<&str> = Vec::new();
    for form in forms {
        let said = form.word(wrong).map(|word| form.said_of(word));
        wanted.extend(said.filter(|said| !wanted.contains(said)));
    }
    let said = words.get(wrong).map_or(MISSING, |word| if word.is_empty() { "empty word" } else { word });
    format!("{text}: {said} ({})", wanted.join(" or "))
}

/// Completes the shortened words of a command.
pub fn in_full(words: &[String]) -> Vec<String> {
    let (mut words, mut known) = (words.to_vec(), FORMS.iter().collect::<Vec<_>>());
    for place in 1..words.len() {
        let before = words[place - 1].clone();
        let is_before = |word: &str| is_placeholder(word) || word == before;
        known.retain(|form| form.word(place - 1).map_or(false, is_before));
        let able = known.iter().filter_map(|form| form.word(place)).filter(|word| !is_placeholder(word));
        if let Some(word) = completed(&words[place], able) {
            words[place] = word.into();
        }
    }
    words
}

/// Returns the only one of these words that begins with a word.
fn completed(word: &str, able: impl Iterator<Item = &'static str>) -> Option<&'static str> {
    let mut found: Vec<&str> = able.filter(|one| !word.is_empty() && one.starts_with(word)).collect();
    found.sort_unstable();
    found.dedup();
    if let [one] = found[..] {
        Some(one)
    } else {
        None
    }
}

#[cfg(test)]
mod tests {
    use super::*;

    #[test]
    fn the_wrong_word_is_named_with_what_is_allowed() {
        for (line, text, said) in [
            ("configure lldp tx-hold 0", "out of range", ": 0 (intervals that peers keep a frame, 1 to 100)"),
            ("configure lldp tx-hold x", "not a number", ": x (intervals that peers keep a frame, 1 to 100)"),
            ("configure lldp tx-interval 3601", "out of range", ": 3601 (seconds between frames, 1 to 3600)"),
            (
                "configure ports eth0 lldp status off",
                "unknown command",
                ": off (rx-and-tx, rx-only, tx-only, disabled)",
            ),
            (
                "configure ports eth0 lldp status rx",
                "unknown command",
                ": rx (rx-and-tx, rx-only, tx-only, disabled)",
            ),
            (
                "configure system description",
                "unknown command",
                ": a word is missing (up to 255 printable characters, in quotes if it has spaces)",
            ),
            ("configure ports eth9 lldp status off", "no such port", ": eth9 (must be a port of this agent)"),
            (
                "configure lldp",
                "unknown command",
                ": a word is missing (tx-interval or tx-hold or max-neighbors)",
            ),
            ("configure \"\"", "unknown command", ": empty word (system or lldp or ports)"),
            ("configure lldp tx-hold 4 5", "extra word", ": 5 (no word is allowed here)"),
            ("configure \"a", "bad quote", ""),
        ] {
            assert_eq!(explained(line, text), format!("{text}{said}"), "{line}");
        }
    }

    #[test]
    fn shortened_words_are_completed() {
        for (line, full) in [
            ("configure lldp tx-i 9", "configure lldp tx-interval 9"),
            ("configure l tx 9", "configure lldp tx 9"),
            ("configure p eth0 l s d", "configure ports eth0 lldp status d"),
            ("configure sys h name", "configure system hostname name"),
            ("configure x y", "configure x y"),
            ("configure l d 9", "configure lldp d 9"),
            ("configure sys h T", "configure system hostname T"),
            ("configure p eth0 \"\" s d", "configure ports eth0  s d"),
        ] {
            assert_eq!(in_full(&words_of(line)).join(" "), full);
        }
    }

    #[test]
    fn commands_that_only_lldpd_has_are_explained() {
        for (line, text, said) in [
            (
                "configure lldp portidsubtype ifname",
                "unknown command",
                "the port ID cannot be changed: it is the name of the interface",
            ),
            (
                "configure ports eth0 lldp portdescription \"a b\"",
                "unknown command",
                "the description cannot be changed: it is the name of the interface",
            ),
            ("configure lldp tx-hold portidsubtype", "not a number", ""),
        ] {
            let found = explained(line, text);
            assert!(if said.is_empty() { found.starts_with(text) } else { found == said }, "{line}: {found}");
        }
    }

    #[test]
    fn words_may_be_quoted() {
        for (line, words) in [
            ("a  b\tc ", &["a", "b", "c"][..]),
            ("a \"b c\" d", &["a", "b c", "d"]),
            ("\"\" x", &["", "x"]),
            ("a\"b \"c", &["a\"b", "c"]),
            ("\"a\"b", &["a", "b"]),
            ("\"a b\" c \"d\"", &["a b", "c", "d"]),
        ] {
            assert_eq!(words_of(line), words, "{line}");
        }
    }
}
