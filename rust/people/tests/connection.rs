//! Tests what a client makes of the octets that a service sends, also one that was taken over.

use lldpa_people::client::Failure;
use lldpa_people::connection::{replace, Connection};
use std::io::{BufRead, BufReader, Write};
use std::os::unix::fs::PermissionsExt;
use std::os::unix::net::UnixStream;
use std::thread;
use std::time::{Duration, Instant};

/// Against hanging: no test needs it.
const PATIENCE: Duration = Duration::from_secs(3600);

/// Returns a connection to a service that answers each line with what this function returns.
fn served(answer: impl Fn(&str) -> Vec<u8> + Send + 'static, patience: Duration) -> Connection {
    let (theirs, ours) = UnixStream::pair().expect("two sockets");
    thread::spawn(move || {
        let mut out = theirs.try_clone().expect("a socket");
        for line in BufReader::new(theirs).lines().map_while(Result::ok) {
            if out.write_all(&answer(&line)).is_err() {
                return;
            }
        }
    });
    Connection::new(ours, patience)
}

fn lines_of(text: &str) -> Vec<u8> {
    format!("={}\n{text}", text.lines().count()).into_bytes()
}

/// Returns the lines of an answer, or why there are none.
fn told(connection: &mut Connection, line: &str) -> Result<Vec<String>, String> {
    let answer = connection.ask(line).map_err(|failure| format!("{failure:?}"))?;
    Ok(answer.lines().into_iter().map(String::from).collect())
}

#[test]
fn answers_are_read_line_by_line() {
    let long = [b"=1\n".to_vec(), vec![b'a'; 70_000]].concat();
    let ended = [b"=1\n".to_vec(), vec![b'a'; 66_000], b"\n".to_vec()].concat();
    for (octets, wanted) in [
        (&b"=0\n"[..], Ok(&[][..])),
        (b"=2\na\n\x1b\xff\n", Ok(&["a", "\\x1b\\xff"])),
        (b"=1\na\nb\n", Ok(&["a"])),
        (b"=1\nerror: no permission\n", Err("Refused(\"no permission\")")),
        (b"=2\nerror: a\nb\n", Ok(&["error: a", "b"])),
        (b"hello\n", Err("Gone(\"not an answer of lldpa-live: 'hello'\")")),
        (b"=\n", Err("Gone(\"not an answer of lldpa-live: '='\")")),
        (b"=+1\n", Err("Gone(\"not an answer of lldpa-live: '=+1'\")")),
        (b"=999999999999\n", Err("Gone(\"not an answer of lldpa-live: '=999999999999'\")")),
        (&long, Err("Gone(\"lldpa-live answers with a line of more than 8 kB\")")),
        (&ended, Err("Gone(\"lldpa-live answers with a line of more than 8 kB\")")),
    ] {
        let octets = octets.to_vec();
        let mut connection = served(move |_| octets.clone(), PATIENCE);
        let wanted = wanted.map(|lines: &[&str]| lines.iter().map(|line| line.to_string()).collect());
        assert_eq!(told(&mut connection, "update"), wanted.map_err(String::from));
    }
}

#[test]
fn a_service_that_ends_or_is_silent_holds_up_nobody() {
    let (theirs, ours) = UnixStream::pair().expect("two sockets");
    drop(theirs);
    let end = Err("Gone(\"lldpa-live has ended the connection\")".into());
    assert_eq!(told(&mut Connection::new(ours, PATIENCE), "live"), end);
    let (theirs, ours) = UnixStream::pair().expect("two sockets");
    let short = Duration::from_millis(50);
    let late = told(&mut Connection::new(ours, short), "live");
    assert_eq!(late, Err("Late(50ms)".into()));
    drop(theirs);
    let mut dripping = served(|_| b"=99999999999\na\n".to_vec(), short);
    assert!(matches!(dripping.ask("live"), Err(Failure::Late(_))));
}

#[test]
fn one_deadline_holds_for_all_answers() {
    let (answered_after, patience) = (Duration::from_millis(30), Duration::from_millis(100));
    let slow = move |_: &str| {
        thread::sleep(answered_after);
        b"=1\na\n".to_vec()
    };
    let mut connection = served(slow, patience);
    let (mut answered, began) = (0, Instant::now());
    let ended = loop {
        match connection.ask("live") {
            Ok(_) => answered += 1,
            Err(failure) => break failure,
        }
    };
    assert!(matches!(ended, Failure::Late(_)) && answered <= 3, "{ended:?} after {answered}");
    assert!(began.elapsed() >= patience);
}

#[test]
fn a_deadline_can_begin_anew() {
    let (_theirs, ours) = UnixStream::pair().expect("two sockets");
    let patience = Duration::from_millis(50);
    let mut connection = Connection::new(ours, patience);
    assert!(matches!(connection.ask("live"), Err(Failure::Late(_))));
    let renewed = Instant::now();
    connection.renew();
    assert!(matches!(connection.ask("live"), Err(Failure::Late(_))));
    assert!(renewed.elapsed() >= patience);
}

#[test]
fn no_more_is_kept_than_one_port_can_say() {
    let long = |count: usize| lines_of(&format!("{}\n", "a".repeat(999)).repeat(count));
    for (octets, is_kept) in [
        (long(26_000), true),
        (long(27_000), false),
        (lines_of(&"\n".repeat(200_000)), true),
        (lines_of(&"\n".repeat(200_001)), false),
        (lines_of(&format!("{}\n", "\u{e9}".repeat(450)).repeat(15_000)), false), // escaped, 27 MB
    ] {
        let mut connection = served(move |_| octets.clone(), PATIENCE);
        match connection.ask("live") {
            Ok(_) => assert!(is_kept),
            Err(Failure::TooLarge) => assert!(!is_kept),
            Err(other) => panic!("{other:?}"),
        }
    }
}

#[test]
fn an_answer_comes_in_parts() {
    let ports = (0..30).map(|number| format!("head={number}\n{}", "line=x\n".repeat(100_000)));
    let octets = lines_of(&ports.collect::<String>());
    let mut connection = served(move |_| octets.clone(), PATIENCE);
    let (mut heads, begins) = (Vec::new(), |line: &str| line.starts_with("head="));
    let asked = connection.ask_in_parts("show neighbors", begins, |part| {
        assert_eq!(part.lines().len(), 100_001);
        heads.push(part.lines()[0].to_string());
        Ok(())
    });
    assert!(asked.is_ok());
    assert_eq!(heads, (0..30).map(|number| format!("head={number}")).collect::<Vec<_>>());
    let first = connection.ask_in_parts("show neighbors", begins, |_| Err(Failure::Output(None)));
    assert!(matches!(first, Err(Failure::Output(None))));
}

#[test]
fn a_watch_ends_when_nobody_reads_it() {
    let mut connection = served(|_| Vec::new(), PATIENCE);
    connection.watch(&[]).expect("room");
    let waited = connection.next_message(|_| Err(Failure::Output(None)));
    assert!(matches!(waited, Err(Failure::Output(None))));
}

#[test]
fn words_that_cannot_be_sent_are_refused() {
    let mut connection = served(|_| b"=0\n".to_vec(), PATIENCE);
    for (line, why) in [
        ("a\nb".into(), "a line contains a line feed"),
        ("\u{4e2d}".into(), "a line is not Latin-1"),
        ("a".repeat(4097), "a line has 4097 octets; the limit is 4096"),
    ] {
        assert_eq!(told(&mut connection, &line), Err(format!("Words({why:?})")));
    }
    assert_eq!(told(&mut connection, &"a".repeat(4096)), Ok(Vec::new()));
}

#[test]
fn a_file_is_replaced_as_a_whole_or_not_at_all() {
    let folder = std::env::temp_dir().join(format!("lldpa-people-{}", std::process::id()));
    std::fs::create_dir(&folder).expect("a folder");
    let file = folder.join("lldpa.prom");
    let path = file.to_str().expect("a path");
    for text in ["first\n", "second\n"] {
        replace(path, text).expect("a file");
        assert_eq!(std::fs::read_to_string(&file).expect("a text"), text);
        let mode = std::fs::metadata(&file).expect("a file").permissions().mode();
        assert_eq!(mode & 0o777, 0o644);
    }
    assert!(replace(folder.join("none").join("file").to_str().expect("a path"), "x").is_err());
    assert_eq!(std::fs::read_dir(&folder).expect("a folder").count(), 1);
    std::fs::remove_dir_all(&folder).expect("a folder");
}
