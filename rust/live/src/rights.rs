//! Gives up the rights that opened the sockets: reading strangers' frames needs none of them.

use crate::arguments::ArgumentFault;
use crate::sys::rights as sys;
pub use crate::sys::rights::own_user;
use std::io::{Error, Result};

#[derive(Clone, Copy)]
pub struct User {
    pub user: u32,
    pub group: u32,
}

fn entry(path: &str, name: &str) -> Option<Vec<String>> {
    let text = std::fs::read(path).ok()?;
    let text = String::from_utf8_lossy(&text);
    let fields = |line: &str| line.split(':').map(String::from).collect::<Vec<_>>();
    text.lines().map(fields).find(|fields| fields[0] == name)
}

/// Reads the number of a user or a group. Refuses u32::MAX, which system calls take as `unchanged`.
fn number_of(name: &str) -> Option<u32> {
    name.parse().ok().filter(|number| *number != u32::MAX)
}

/// Returns the user with this name in /etc/passwd, or else with this number.
fn user_of(name: &str) -> std::result::Result<User, ArgumentFault> {
    let field = |fields: &[String], place: usize| fields.get(place).and_then(|text| text.parse().ok());
    let fields = entry("/etc/passwd", name);
    let found = fields.and_then(|fields| Some(User { user: field(&fields, 2)?, group: field(&fields, 3)? }));
    let of_number = || number_of(name).map(|number| User { user: number, group: number });
    found.or_else(of_number).ok_or_else(|| ArgumentFault::UnknownUser(name.into()))
}

/// Returns the group with this name, or else with this number. May wait for the name service.
pub fn group_of(name: &str) -> Option<u32> {
    group_named(name).or_else(|| number_of(name))
}

/// Returns the group with this name in /etc/group, or else with this number.
pub fn group_in_file(name: &str) -> Option<u32> {
    entry("/etc/group", name).and_then(|fields| fields.get(2)?.parse().ok()).or_else(|| number_of(name))
}

/// A program that is linked statically cannot ask the name service.
#[cfg(target_feature = "crt-static")]
fn group_named(name: &str) -> Option<u32> {
    entry("/etc/group", name).and_then(|fields| fields.get(2)?.parse().ok())
}

#[cfg(not(target_feature = "crt-static"))]
fn group_named(name: &str) -> Option<u32> {
    crate::sys::names::number_of(name)
}

/// Returns the name of a host with its domain, or its own name if it has none: in /etc/hosts the first name of the
/// line. None if that is not known now. May wait for the name service.
#[cfg(target_feature = "crt-static")]
pub fn full_name_of(name: &str) -> Option<String> {
    let text = std::fs::read("/etc/hosts").unwrap_or_default();
    Some(full_name_in(&String::from_utf8_lossy(&text), name).unwrap_or_else(|| name.into()))
}

#[cfg(not(target_feature = "crt-static"))]
pub use crate::sys::names::canonical as full_name_of;

#[cfg(any(test, target_feature = "crt-static"))]
fn full_name_in(hosts: &str, name: &str) -> Option<String> {
    let names = |line: &'_ str| -> Vec<String> {
        let plain = line.split('#').next().unwrap_or("");
        plain.split_whitespace().skip(1).map(String::from).collect()
    };
    let line = hosts.lines().map(names).find(|names| names.iter().any(|one| one.eq_ignore_ascii_case(name)));
    line?.into_iter().next()
}

/// Says where lldpa-live has looked for a group, and that it goes on.
pub const KNOWN_GROUPS: &str = if cfg!(target_feature = "crt-static") {
    "this program is linked statically, so it knows only numbers and the groups in /etc/group, where it \
     looks again"
} else {
    "neither /etc/group nor the name service has it yet; lldpa-live asks again"
};

const OWN_USER: &str = "_lldpa";

/// Returns the user that root becomes, by default one of lldpa's own or `nobody`. None if this process
/// is not root.
pub fn user_to_be(name: Option<&str>) -> std::result::Result<Option<User>, ArgumentFault> {
    if own_user() != 0 {
        return name.map_or(Ok(None), |_| Err(ArgumentFault::OnlyForRoot));
    }
    let by_default = || user_of(OWN_USER).unwrap_or_else(|_| nobody());
    name.map_or_else(|| Ok(by_default()), user_of).map(Some)
}

/// Returns the user without files and rights.
fn nobody() -> User {
    user_of("nobody").unwrap_or(User { user: 65534, group: 65534 })
}

/// Returns the user that a client of root becomes, or root's process that asks a name service: not
/// that of lldpa-live, whose answers a client reads.
pub fn user_of_client() -> Option<User> {
    (own_user() == 0).then(nobody)
}

/// Gives up all rights for good, and becomes this user if one is given.
pub fn give_up(user: Option<User>) -> Result<()> {
    sys::keep_no_right(user.map(|user| (user.user, user.group)))
}

/// Puts a path before the text of an error.
pub fn at(path: &str) -> impl Fn(Error) -> Error + '_ {
    move |fault| Error::new(fault.kind(), format!("{path}: {}", text_of(&fault)))
}

/// Returns the text of an error without its number.
pub fn text_of(fault: &Error) -> String {
    let text = fault.to_string();
    let number = fault.raw_os_error().map(|number| format!(" (os error {number})"));
    let plain = number.and_then(|number| text.strip_suffix(&number).map(String::from));
    plain.unwrap_or(text)
}

#[cfg(test)]
mod tests {
    use super::*;
    use std::io::ErrorKind;

    #[test]
    fn errors_have_a_text_without_a_number() {
        let missing = Error::from_raw_os_error(libc::ENOENT);
        assert_eq!(text_of(&missing), "No such file or directory");
        assert_eq!(at("/a")(missing).to_string(), "/a: No such file or directory");
        let own = Error::new(ErrorKind::Other, "what (os error 2)");
        assert_eq!(text_of(&own), "what (os error 2)");
    }

    #[test]
    fn the_first_name_of_a_line_is_the_full_one() {
        let hosts =
            "127.0.0.1 localhost\n127.0.1.1\tweb17.example.com web17 # db3\n192.0.2.1 db3.example db3";
        for (name, wanted) in [
            ("web17", Some("web17.example.com")),
            ("WEB17", Some("web17.example.com")),
            ("web17.example.com", Some("web17.example.com")),
            ("db3", Some("db3.example")),
            ("192.0.2.1", None),
            ("web", None),
        ] {
            assert_eq!(full_name_in(hosts, name).as_deref(), wanted, "{name}");
        }
    }

    #[test]
    fn users_and_groups_have_names_or_numbers() {
        let number = |name: &str| user_of(name).map(|user| (user.user, user.group));
        assert_eq!(number("root"), Ok((0, 0)));
        assert_eq!(number("12345"), Ok((12_345, 12_345)));
        for wrong in ["4294967295", "-1", "no-such-user"] {
            assert_eq!(number(wrong), Err(ArgumentFault::UnknownUser(wrong.into())), "{wrong}");
        }
        assert_eq!((group_of("root"), group_of("12345")), (Some(0), Some(12_345)));
        assert_eq!((group_of("4294967295"), group_of("no-such-group")), (None, None));
    }
}
