//! Checks that no call accepts an unknown answer or version as success. In the archive that
//! `tools/library/test_library.py` builds for this test, `lldpa_open` returns 0, the other calls
//! return 77, and the version is wrong if `LLDPA_STRANGE` is set.

use lldpa::{
    examine, fault_text, Agent, Builder, CommandFault, Machine, Mark, OpenFault, Options, PduFault,
    PortFault, RangeFault, Show,
};
use std::panic::{catch_unwind, AssertUnwindSafe};

/// True if this call panics.
fn panics<T>(call: impl FnOnce() -> T) -> bool {
    catch_unwind(AssertUnwindSafe(call)).is_err()
}

#[test]
#[ignore = "needs an archive that answers 77"]
fn unknown_answers_are_faults() {
    assert_eq!(examine(b"junk"), Err(PduFault::Unexpected));
    assert_eq!(Builder::new(b"\x05a", b"\x05a", 120).put(5, b"sw1").finish(), Err(RangeFault::Unexpected));
    assert_eq!(Machine::new(5, 4, 2, true).err(), Some(RangeFault::Unexpected));
    let options = Options { ports: &["eth0"], ..Options::default() };
    let mut agent = Agent::open(&options).expect("the one that answers 0");
    assert_eq!(agent.frame(0, b""), Err(PortFault::Unexpected));
    assert_eq!(agent.frame_news(0, b""), Err(PortFault::Unexpected));
    assert_eq!(agent.link(0, true), Err(PortFault::Unexpected));
    assert_eq!(agent.neighbors(0).err(), Some(PortFault::Unexpected));
    assert_eq!(agent.aged(0).err(), Some(PortFault::Unexpected));
    assert_eq!(agent.frame_of(0, Mark::Ordinary), Err(PortFault::Unexpected));
    assert_eq!(agent.statistics(0), Err(PortFault::Unexpected));
    assert_eq!(agent.command("update"), Err(CommandFault::Unexpected));
    assert_eq!(CommandFault::Unknown.line(), "error: unknown command");
    assert!(panics(|| agent.tick()) && panics(|| agent.ticks(2)) && panics(|| agent.due()));
    assert!(panics(|| agent.configuration()) && panics(|| agent.chassis()) && panics(|| fault_text(1)));
    assert!(panics(|| agent.show(Show::Chassis)) && panics(|| agent.show_line(Show::Chassis, 0)));
    std::env::set_var("LLDPA_STRANGE", "another version");
    assert_eq!(Agent::open(&options).err(), Some(OpenFault::Version));
    assert_eq!(Machine::new(5, 4, 2, true).err(), Some(RangeFault::Version));
}
