//! Selects ports by patterns, like those of lldpd's option -I.

use crate::links::{Link, Links};
use crate::sys::files::matches;

const LONGEST_NAME: usize = 15;
const LONGEST_PATTERN: usize = 64;

fn is_of_name(octet: u8) -> bool {
    octet.is_ascii_alphanumeric() || b"_/:-".contains(&octet)
}

pub fn is_name(name: &str) -> bool {
    (1..=LONGEST_NAME).contains(&name.len()) && name.bytes().all(is_of_name)
}

/// True if this is a pattern or begins with `!`, and so is not a port's name.
pub fn is_pattern(selector: &str) -> bool {
    selector.starts_with('!') || selector.contains(&['*', '?', '['][..])
}

/// True if this is a valid name of a port or a valid pattern.
pub fn is_able(selector: &str) -> bool {
    let of_pattern = |octet| is_of_name(octet) || b"*?[]^".contains(&octet);
    if !is_pattern(selector) {
        return is_name(selector);
    }
    let name = selector.trim_start_matches('!');
    selector.len() - name.len() <= 2
        && (1..=LONGEST_PATTERN).contains(&name.len())
        && name.bytes().all(of_pattern)
}

/// True if this is a pattern that adds ports, not one that excludes them with a single `!`.
pub fn gives(selector: &str) -> bool {
    is_pattern(selector) && (!selector.starts_with('!') || selector.starts_with("!!"))
}

fn gives_name(selector: &str, name: &str) -> bool {
    gives(selector) && matches(selector.trim_start_matches('!'), name)
}

/// True if a pattern with `!!` matches this name, or no pattern with a single `!` matches it.
fn is_wanted(name: &str, selectors: &[String]) -> bool {
    let is_matched = |signs: usize| {
        let of_signs = selectors.iter().map(|selector| (selector, selector.trim_start_matches('!')));
        of_signs
            .filter(|(selector, rest)| selector.len() - rest.len() == signs)
            .any(|(_, rest)| matches(rest, name))
    };
    is_matched(2) || !is_matched(1)
}

/// True if a pattern adds an interface. A pattern that begins with `*`, `?` or `[` adds only
/// hardware interfaces, and interfaces that are also given by name.
fn gives_interface(selector: &str, one: &Link, selectors: &[String]) -> bool {
    let may_be_virtual = !selector.trim_start_matches('!').starts_with(&['*', '?', '['][..]);
    gives_name(selector, &one.name) && (one.is_hardware || may_be_virtual || selectors.contains(&one.name))
}

/// True if a pattern could add an interface of this name.
pub fn may_give(selectors: &[String], name: &str) -> bool {
    is_wanted(name, selectors) && selectors.iter().any(|selector| gives_name(selector, name))
}

/// Returns the ports that names and patterns select. A name is a port even without an interface.
pub fn ports_of(selectors: &[String], links: &Links) -> Vec<String> {
    let mut names: Vec<String> = Vec::new();
    for selector in selectors {
        let is_matched =
            |one: &&Link| one.is_ethernet && is_name(&one.name) && gives_interface(selector, one, selectors);
        let matched = links.all().filter(is_matched);
        let named = Some(selector).filter(|selector| !is_pattern(selector)).cloned();
        for name in named.into_iter().chain(matched.map(|one| one.name.clone())) {
            if !names.contains(&name) && is_wanted(&name, selectors) {
                names.push(name);
            }
        }
    }
    names
}

/// True if patterns of addresses allow this one: one of those without `!` matches, or there is none,
/// and the address is not excluded.
pub fn allows(patterns: &[String], address: &str) -> bool {
    let mut giving = patterns.iter().filter(|pattern| gives(pattern) || !pattern.starts_with('!')).peekable();
    let is_given =
        giving.peek().is_none() || giving.any(|pattern| matches(pattern.trim_start_matches('!'), address));
    is_given && is_wanted(address, patterns)
}

#[cfg(test)]
mod tests {
    use super::*;

    fn list(text: &str) -> Vec<String> {
        text.split_whitespace().map(String::from).collect()
    }

    #[test]
    fn names_and_patterns_are_valid_or_not() {
        for (selector, is_valid) in [
            ("eth0", true),
            ("br-0_a/1:2", true),
            ("fifteen-letters", true),
            ("sixteen--letters", false),
            ("eth0.10", false),
            ("", false),
            ("eth*", true),
            ("!eth?", true),
            ("!!e[0-9^]", true),
            ("!!!eth0", false),
            ("!", false),
            ("eth*.1", false),
        ] {
            assert_eq!(is_able(selector), is_valid, "{selector}");
        }
        assert!(is_able(&"*".repeat(64)) && !is_able(&"*".repeat(65)));
    }

    #[test]
    fn ports_are_what_names_and_patterns_select() {
        let mut links = Links::over(std::fs::File::open("/dev/null").expect("a file"));
        for (index, name, is_ethernet, is_hardware) in [
            (1, "lo", false, true),
            (2, "vnet7", true, false),
            (3, "eth0", true, true),
            (4, "eth1", true, true),
            (5, "eth1.5", true, false),
        ] {
            let name = String::from(name);
            let link = Link { index, name, is_there: true, is_ethernet, is_hardware, ..Link::default() };
            links.known.insert(index, (link, 0));
        }
        for (selectors, ports) in [
            ("eth1 eth0", "eth1 eth0"),
            ("eth0 eth0", "eth0"),
            ("eth9", "eth9"), // a name needs no interface, nor a good one
            ("lo", "lo"),
            ("eth*", "eth0 eth1"),
            ("*", "eth0 eth1"), // only hardware
            ("* vnet7", "vnet7 eth0 eth1"),
            ("vn*", "vnet7"),
            ("?net7", ""),
            ("eth* !eth1", "eth0"),
            ("eth* eth1 !eth1", "eth0"),
            ("eth* !* !!eth1", "eth1"),
            ("!!eth1", "eth1"),
            ("!eth1", ""),
        ] {
            assert_eq!(ports_of(&list(selectors), &links), list(ports), "{selectors}");
        }
    }

    #[test]
    fn addresses_are_given_and_excluded() {
        for (patterns, address, is_allowed) in [
            ("", "192.0.2.1", true),
            ("192.0.2.*", "192.0.2.1", true),
            ("192.0.2.*", "192.0.3.1", false),
            ("192.0.2.1", "192.0.2.1", true),
            ("!172.17.*", "172.17.0.1", false),
            ("!172.17.*", "192.0.2.1", true),
            ("192.0.2.*,!192.0.2.9", "192.0.2.9", false),
            ("192.0.2.*,!192.0.2.9", "192.0.2.8", true),
            ("!192.*,!!192.0.2.*", "192.0.2.9", true),
            ("!192.*,!!192.0.2.*", "192.0.3.9", false),
        ] {
            let patterns: Vec<String> =
                patterns.split(',').filter(|one| !one.is_empty()).map(String::from).collect();
            assert_eq!(allows(&patterns, address), is_allowed, "{patterns:?} {address}");
        }
    }
}
