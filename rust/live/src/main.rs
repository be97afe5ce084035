//! lldpa-live runs the formally verified agent of lldpa on Ethernet interfaces: see lldpa-live(8).
#![deny(unsafe_code)]

mod agent;
mod allowance;
mod answers;
mod arguments;
mod budget;
mod changes;
mod client;
mod commands;
mod control;
mod counters;
mod ctl;
mod drops;
mod following;
#[cfg(test)]
mod fuzz;
mod hex;
mod identifiers;
mod identity;
mod lines;
mod link_changes;
mod links;
mod listening;
mod live;
mod lookup;
mod neighbors;
mod netlink;
mod notify;
mod opening;
mod options;
mod outbox;
mod packet;
mod patterns;
mod port;
mod ports;
mod queries;
mod reading;
mod rebuilding;
mod received;
mod recording;
mod replacing;
mod reports;
mod rights;
#[cfg(test)]
mod same_lines;
mod share;
mod start;
mod state;
mod status;
#[allow(unsafe_code)]
mod sys;
mod tables;
mod time;
mod told;
mod waiting;
mod watching;

use arguments::{ArgumentFault, Request};
use reports::{report, ERROR};
use std::io::Write;

/// The exit status for a wrong command line.
const WRONG_ARGUMENTS: i32 = 2;

fn main() {
    let words: Vec<String> =
        std::env::args_os().skip(1).map(|word| word.to_string_lossy().into_owned()).collect();
    if let Some(status) = ctl::run(&words) {
        std::process::exit(status);
    }
    match words.iter().map(String::as_str).collect::<Vec<_>>()[..] {
        [lookup::FOR_GROUP, name, path, user] => std::process::exit(lookup::serve_group(name, path, user)),
        [lookup::FOR_HOST, user] => std::process::exit(lookup::serve_host(user)),
        [reports::WORD] => std::process::exit(reports::serve()),
        _ => (),
    }
    let status = match Request::read(&words) {
        Ok(Request::Print(text)) => i32::from(std::io::stdout().write_all(text.as_bytes()).is_err()),
        Ok(Request::Run(arguments)) => start::run(*arguments),
        Err(fault) => wrong_arguments(&fault),
    };
    std::process::exit(status);
}

pub fn wrong_arguments(fault: &ArgumentFault) -> i32 {
    report(ERROR, &format!("error: {fault}; see lldpa-live --help"));
    WRONG_ARGUMENTS
}
