//! An agent that sends and receives: its one port is a UDP socket, whose datagrams are frames.
//!
//!     agent NAME HERE THERE    NAME names the port; HERE and THERE are addresses, such as 127.0.0.1:7001
//!
//! It prints each neighbor that comes, leaves or ages out, and sleeps until something is due or a frame comes.
//! At the end of standard input it says goodbye.

use lldpa::{tlv_text, Agent, Msap, News, Options, Sent};
use std::error::Error;
use std::io::{stdin, ErrorKind, Read};
use std::net::UdpSocket;
use std::sync::atomic::{AtomicBool, Ordering::SeqCst};
use std::sync::Arc;
use std::thread;
use std::time::{Duration, Instant};

/// Sends each frame. A frame that the network loses is lost, as on a cable.
fn send(agent: &Agent, socket: &UdpSocket, there: &str, frames: &[Sent]) -> Result<(), Box<dyn Error>> {
    for sent in frames {
        let _ = socket.send_to(&agent.frame_of(sent.port, sent.mark)?, there);
    }
    Ok(())
}

/// Prints what happened to a neighbor.
fn print(what: &str, name: Msap<'_>) {
    let text = |kind, body| tlv_text(kind, body).unwrap_or_default();
    println!("{what} {} {}", text(1, name.chassis), text(2, name.port));
}

/// Prints the neighbors that aged out at the last second that was reported.
fn print_aged(agent: &Agent) -> Result<(), Box<dyn Error>> {
    for neighbor in agent.aged(0)? {
        if let Some(info) = neighbor.info() {
            print("aged out", info.msap());
        }
    }
    Ok(())
}

/// Returns a flag that is set at the end of standard input. An empty datagram then wakes the socket.
fn end_of_input(socket: &UdpSocket) -> Result<Arc<AtomicBool>, Box<dyn Error>> {
    let (over, waker, here) = (Arc::new(AtomicBool::new(false)), socket.try_clone()?, socket.local_addr()?);
    let flag = Arc::clone(&over);
    thread::spawn(move || {
        let _ = stdin().lock().read_to_end(&mut Vec::new());
        flag.store(true, SeqCst);
        waker.send_to(&[], here)
    });
    Ok(over)
}

fn main() -> Result<(), Box<dyn Error>> {
    let words: Vec<String> = std::env::args().skip(1).collect();
    let [name, here, there] = <[String; 3]>::try_from(words).map_err(|_| "usage: agent NAME HERE THERE")?;
    let mut agent = Agent::open(&Options { ports: &[&name], hostname: &name, ..Options::default() })?;
    let socket = UdpSocket::bind(here)?;
    let over = end_of_input(&socket)?;
    let (mut now, mut frame) = (Instant::now(), [0; 2048]);
    while !over.load(SeqCst) {
        socket.set_read_timeout(Some(Duration::from_secs(agent.due().map_or(3600, u64::from))))?;
        let came = socket.recv_from(&mut frame);
        // First report the seconds that passed, and send what became due: after a pause only the last frame.
        // Then the frame that came.
        let (mut left, mut due) = (now.elapsed().as_secs(), Vec::new());
        now += Duration::from_secs(left);
        while left > 0 {
            let ticks = agent.ticks(u32::try_from(left).unwrap_or(u32::MAX));
            left -= u64::from(ticks.taken);
            due = if ticks.sent.is_empty() { due } else { ticks.sent };
            print_aged(&agent)?;
        }
        send(&agent, &socket, &there, &due)?;
        let length = match came {
            Ok((length, _)) => length,
            Err(fault) if matches!(fault.kind(), ErrorKind::WouldBlock | ErrorKind::TimedOut) => continue,
            Err(fault) => return Err(fault.into()),
        };
        let (frames, news) = agent.frame_news(0, &frame[..length])?;
        send(&agent, &socket, &there, &frames)?;
        match news {
            News::New(name) => print("new", name),
            News::Gone(name) => print("gone", name),
            _ => (),
        }
    }
    let goodbye = agent.leave();
    send(&agent, &socket, &there, &goodbye)
}
