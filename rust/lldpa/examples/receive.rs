//! Reads received frames from standard input, one line of hexadecimal digits for each frame, and
//! prints every neighbor that appears, changes, leaves or ages out.

use lldpa::{tlv_text, Agent, Msap, News, Options};
use std::error::Error;
use std::io::{stdin, BufRead};
use std::sync::mpsc::{channel, Receiver, RecvTimeoutError};
use std::thread;
use std::time::{Duration, Instant};

/// Decodes pairs of hexadecimal digits. Returns None if the text is not such pairs.
fn octets_of(digits: &str) -> Option<Vec<u8>> {
    (0..digits.len()).step_by(2).map(|at| u8::from_str_radix(digits.get(at..at + 2)?, 16).ok()).collect()
}

/// Prints what happened to a neighbor.
fn print(what: &str, name: Msap<'_>) {
    let text = |kind, body| tlv_text(kind, body).unwrap_or_default();
    println!("{what} {} {}", text(1, name.chassis), text(2, name.port));
}

/// Reports to the agent that seconds passed, and prints the neighbors that age out.
fn pass(agent: &mut Agent, seconds: u32) -> Result<(), Box<dyn Error>> {
    let mut left = seconds;
    while left > 0 {
        left -= agent.ticks(left).taken;
        for neighbor in agent.aged(0)? {
            if let Some(info) = neighbor.info() {
                print("aged out", info.msap());
            }
        }
    }
    Ok(())
}

/// Passes a frame to the agent, and prints what the frame did.
fn hear(agent: &mut Agent, frame: &[u8]) -> Result<(), Box<dyn Error>> {
    match agent.frame_news(0, frame)?.1 {
        News::New(name) => print("new", name),
        News::Changed(name) => print("changed", name),
        News::Dropped(name) => print("no room for", name),
        News::Gone(name) => print("gone", name),
        _ => (),
    }
    Ok(())
}

/// Returns a channel that receives the lines of standard input.
fn lines() -> Receiver<String> {
    let (sender, receiver) = channel();
    thread::spawn(move || {
        stdin().lock().lines().map_while(Result::ok).try_for_each(|line| sender.send(line))
    });
    receiver
}

fn main() -> Result<(), Box<dyn Error>> {
    let options = Options { ports: &["eth0"], receive_only: true, ..Options::default() };
    let (mut agent, lines) = (Agent::open(&options)?, lines());
    let mut now = Instant::now();
    loop {
        let came = lines.recv_timeout(Duration::from_secs(agent.due().map_or(3600, u64::from)));
        // First report the seconds that passed, and then the frame.
        let passed = now.elapsed().as_secs();
        now += Duration::from_secs(passed);
        pass(&mut agent, passed as u32)?;
        match came {
            Ok(line) => hear(&mut agent, &octets_of(&line).ok_or("a line that is not hexadecimal")?)?,
            Err(RecvTimeoutError::Timeout) => (),
            Err(RecvTimeoutError::Disconnected) => return Ok(()),
        }
    }
}
