//! Tests what an agent says of frames and commands, and that its memory is freed.

use lldpa::{Agent, Mark, Msap, News, Options, PduFault, Show};
use std::future::Future;
use std::pin::Pin;
use std::sync::mpsc::{channel, Receiver, Sender};
use std::sync::Arc;
use std::task::{Context, Poll, Wake};
use std::thread;

/// An Ethernet header, and a Chassis ID and a Port ID whose last octet is `port`.
fn frame(port: u8, ttl: u8, more: &[u8]) -> Vec<u8> {
    let head = b"\x01\x80\xc2\0\0\x0e\0\x11\x22\x33\x44\x55\x88\xcc\x02\x07\x04\0\x11\x22\x33\x44\x55\x04\x05\x05eth";
    [&head[..], &[port, 6, 2, 0, ttl], more].concat()
}

/// Returns the identifiers in such a frame.
fn name(frame: &[u8]) -> Msap<'_> {
    Msap { chassis: &frame[16..23], port: &frame[25..30] }
}

/// Returns what a frame does on the first port.
fn news<'f>(agent: &mut Agent, frame: &'f [u8]) -> News<'f> {
    agent.frame_news(0, frame).expect("the first port").1
}

fn opened(max_neighbors: u8) -> Agent {
    let ports = &["eth0", "eth1", "eth2", "eth3", "eth4", "eth5", "eth6", "eth7"];
    Agent::open(&Options { ports, max_neighbors, ..Options::default() }).expect("options in their ranges")
}

#[test]
fn frames_have_news() {
    let mut agent = opened(1);
    let (first, other, long) =
        (frame(b'0', 120, b""), frame(b'1', 120, b""), frame(b'0', 120, b"\x0a\x01a\0\0"));
    let (leaves, unknown) = (frame(b'0', 0, b""), frame(b'1', 0, b""));
    assert_eq!(news(&mut agent, b""), News::NotLldp);
    assert_eq!(news(&mut agent, &first), News::New(name(&first)));
    assert_eq!(news(&mut agent, &first), News::Same(name(&first)));
    assert_eq!(news(&mut agent, &long), News::Changed(name(&long)));
    assert_eq!(news(&mut agent, &long), News::Same(name(&long)));
    assert_eq!(news(&mut agent, &other), News::Dropped(name(&other)));
    assert_eq!(news(&mut agent, &unknown), News::Unknown(name(&unknown)));
    assert_eq!(news(&mut agent, &leaves), News::Gone(name(&leaves)));
    assert_eq!(news(&mut agent, &first[..15]), News::Refused(PduFault::Truncated));
    assert_eq!(news(&mut agent, &frame(b'0', 120, b"\x02\x02\x07a")), News::Refused(PduFault::Repeated));
    agent.link(0, false).expect("the first port");
    assert_eq!(news(&mut agent, &first), News::Deaf);
}

#[test]
fn a_port_holds_32_neighbors_by_default() {
    let mut agent =
        Agent::open(&Options { ports: &["eth0"], ..Options::default() }).expect("options in their ranges");
    let frames: Vec<_> = (1..=33).map(|port| frame(port, 120, b"")).collect();
    for frame in &frames[..32] {
        assert_eq!(news(&mut agent, frame), News::New(name(frame)));
    }
    assert_eq!(news(&mut agent, &frames[32]), News::Dropped(name(&frames[32])));
}

#[test]
fn each_port_has_its_neighbors() {
    let mut agent = opened(2);
    agent.frame(1, &frame(b'0', 120, b"")).expect("the second port");
    let counts: Vec<_> = (0..8).map(|port| agent.neighbors(port).expect("a port").len()).collect();
    assert_eq!(counts, [0, 1, 0, 0, 0, 0, 0, 0]);
}

/// Lets this many seconds pass, and returns the neighbors that aged out on a port at the last one.
fn aged(agent: &mut Agent, port: u8, mut seconds: u32) -> Vec<Vec<u8>> {
    while seconds > 0 {
        seconds -= agent.ticks(seconds).taken;
    }
    let aged = agent.aged(port).expect("a port");
    assert_eq!(aged.len(), agent.aged(port).expect("a port").count());
    aged.inspect(|one| assert_eq!(one.left(), 1)).map(|one| one.octets().to_vec()).collect()
}

#[test]
fn neighbors_that_aged_out_are_told() {
    let mut agent = opened(3);
    let frames = [frame(b'0', 2, b""), frame(b'1', 3, b""), frame(b'2', 2, b"\x0a\x01a")];
    for frame in &frames {
        agent.frame(1, frame).expect("the second port");
    }
    assert!(aged(&mut agent, 1, 1).is_empty());
    assert_eq!(aged(&mut agent, 1, 1), [&frames[0][14..], &frames[2][14..]]);
    assert_eq!(agent.aged(0).expect("the first port").count(), 0);
    assert_eq!(aged(&mut agent, 1, 1), [&frames[1][14..]]);
    agent.frame(1, &frames[0]).expect("the second port");
    assert_eq!(agent.aged(1).expect("the second port").count(), 0);
    assert!(agent.aged(8).is_err());
}

#[test]
fn settings_have_no_show() {
    let mut agent = opened(2);
    assert_eq!(agent.command("show chassis").expect("a show").show, Some(Show::Chassis));
    assert_eq!(agent.command("configure lldp tx-interval 600").expect("a setting").show, None);
    assert_eq!(agent.tick().len(), 8);
    let left = agent.leave();
    assert!(left.len() == 8 && left.iter().all(|sent| sent.mark == Mark::Shutdown));
}

#[test]
fn an_agent_says_when_it_acts_next() {
    let mut agent = opened(2);
    assert_eq!(agent.due(), Some(1));
    let _ = agent.leave();
    assert_eq!(agent.due(), None);
    agent.command("configure ports eth0 lldp status rx-only").expect("a setting");
    agent.frame(0, &frame(b'0', 90, b"")).expect("the first port");
    assert_eq!(agent.due(), Some(90));
}

/// A future that is ready when it is polled for the second time.
struct Later(bool);

impl Future for Later {
    type Output = ();

    fn poll(mut self: Pin<&mut Self>, _: &mut Context<'_>) -> Poll<()> {
        let is_ready = std::mem::replace(&mut self.0, true);
        if is_ready {
            Poll::Ready(())
        } else {
            Poll::Pending
        }
    }
}

struct Nobody;

impl Wake for Nobody {
    fn wake(self: Arc<Self>) {}
}

/// Opens an agent, and uses and drops it, each time after another thread may have taken over.
async fn keep_agents(done: Sender<usize>) {
    for _ in 0..20 {
        let mut agent = opened(4);
        for second in 0..20 {
            Later(false).await;
            agent.frame(second % 8, &frame(second % 3, 9, b"")).expect("a port");
            Later(false).await;
            let sent = agent.tick().len();
            done.send(sent + agent.show(Show::Neighbors).len()).expect("the test");
        }
        Later(false).await;
    }
}

type Task = Pin<Box<dyn Future<Output = ()> + Send>>;

/// Polls the tasks that come, and passes each to the next thread until it has ended.
fn work(tasks: &Receiver<Task>, next: &Sender<Task>) {
    let waker = Arc::new(Nobody).into();
    for mut task in tasks {
        if task.as_mut().poll(&mut Context::from_waker(&waker)).is_ready() || next.send(task).is_err() {
            return;
        }
    }
}

/// As in a runtime whose tasks wander: three threads open, use and drop an agent in turn.
#[test]
fn agents_wander_between_threads() {
    let (done, results) = channel();
    let (senders, receivers): (Vec<_>, Vec<_>) = (0..3).map(|_| channel::<Task>()).unzip();
    senders[0].send(Box::pin(keep_agents(done))).expect("the first thread");
    let nexts = senders.into_iter().cycle().skip(1);
    for (tasks, next) in receivers.into_iter().zip(nexts) {
        thread::spawn(move || work(&tasks, &next));
    }
    let told: Vec<usize> = results.iter().collect();
    assert!(told.len() == 400 && told.chunks(20).all(|agent| agent == &told[..20]));
}

/// An agent of eight ports with 128 neighbors each has more than 1.6 MB.
#[test]
#[cfg(target_os = "linux")]
fn dropped_agents_are_freed() {
    let pages = || -> i64 {
        let told = std::fs::read_to_string("/proc/self/statm").expect("the pages of this process");
        told.split(' ').next().expect("the first of seven numbers").parse().expect("a number")
    };
    drop(opened(128));
    let before = pages();
    for _ in 0..1000 {
        drop(opened(128));
    }
    assert!(
        pages() - before < 1000 * 1_600_000 / 4096 / 2,
        "agents that were dropped still have their memory"
    );
}
