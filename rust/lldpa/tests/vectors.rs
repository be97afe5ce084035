//! Tests one or two rows of each kind in examples/vectors.rows. A C program tests all rows.

use lldpa::{
    caps, examine, frame_pdu, mgmt, Agent, BuildFault, Builder, Cause, Examined, Machine, Mark, OpenFault,
    Options, PduFault, RangeFault,
};

/// The mandatory TLVs of 00:11:22:33:44:55, port eth0, with a time to live of 120 seconds.
const MANDATORY: &[u8] = b"\x02\x07\x04\x00\x11\x22\x33\x44\x55\x04\x05\x05eth0\x06\x02\x00\x78";

/// Returns the mandatory TLVs, followed by more octets.
fn with(more: &[u8]) -> Vec<u8> {
    [MANDATORY, more].concat()
}

#[test]
fn lldpdus_are_examined() {
    assert_eq!(examine(b""), Err(PduFault::Truncated));
    assert_eq!(examine(&with(b"\x02\x02\x07a")), Err(PduFault::Repeated));
    // The first of two System Names is kept, and an incomplete TLV is discarded.
    let pdu = with(b"\x0a\x03sw1\x0a\x03sw2\x12\x01\xff\x0a\x09s");
    let info = match examine(&pdu) {
        Ok(Examined::Info(info)) => info,
        other => panic!("{other:?}"),
    };
    assert_eq!((info.msap().chassis, info.msap().port), (&pdu[2..9], &pdu[11..16]));
    assert_eq!((info.ttl(), info.octets(), info.discarded(), info.unrecognized()), (120, &pdu[..33], 2, 1));
    let kept: Vec<_> = info.kept().map(|tlv| (tlv.kind, tlv.body)).collect();
    assert_eq!(kept, [(5, &b"sw1"[..]), (9, b"\xff")]);
}

#[test]
fn shutdowns_and_frames_are_told() {
    let pdu = b"\x02\x02\x07a\x04\x02\x07b\x06\x02\0\0";
    let name = examine(pdu).expect("a shutdown LLDPDU");
    assert!(matches!(name, Examined::Shutdown(name) if name.chassis == b"\x07a" && name.port == b"\x07b"));
    let mut frame = [&b"\x01\x80\xc2\0\0\x0e\0\x11\x22\x33\x44\x55\x88\xcc"[..], pdu].concat();
    assert_eq!(frame_pdu(&frame), Some(&pdu[..]));
    frame[12] ^= 1;
    assert_eq!(frame_pdu(&frame), None);
}

#[test]
fn bodies_are_read() {
    let told = caps(b"\0\x14\0\x04").map(|told| (told.available, told.enabled));
    assert_eq!((told, caps(b"\0\x04\0\x14")), (Some((0x14, 4)), None));
    let told = mgmt(b"\x05\x01\xc0\0\x02\x01\x02\0\0\0\x03\x01\x2b").expect("an address");
    assert_eq!((told.family, told.address, told.numbering), (1, &b"\xc0\0\x02\x01"[..], 2));
    assert_eq!((told.interface, told.oid), (3, &b"\x2b"[..]));
    assert_eq!(mgmt(b"\x05\x01\xc0\0\x02\x01\x02\0\0\0\x03"), None);
}

#[test]
fn lldpdus_are_built() {
    let built =
        Builder::new(&MANDATORY[2..9], &MANDATORY[11..16], 120).put(5, b"sw1").put(5, b"sw2").finish();
    let built = built.expect("identifiers of their lengths");
    assert_eq!(built.octets(), with(b"\x0a\x03sw1\0\0"));
    assert_eq!(built.faults(), [None, Some(BuildFault::Kind)]);
    for length in [0, 1, 257] {
        assert_eq!(Builder::new(&vec![4; length], b"\x05a", 120).finish(), Err(RangeFault::OutOfRange));
    }
}

#[test]
fn machines_say_what_goes() {
    let mut machine = Machine::new(1, 4, 2, true).expect("numbers in their ranges");
    assert_eq!(machine.event(Cause::Tick, 30), Ok(Some(Mark::Ordinary)));
    assert_eq!((machine.event(Cause::Change, 30), machine.credit()), (Ok(None), 0));
    assert_eq!(machine.event(Cause::Stop, 30), Ok(Some(Mark::Shutdown)));
    assert_eq!(machine.event(Cause::Tick, 3601), Err(RangeFault::OutOfRange));
    assert!(Machine::new(11, 4, 2, true).is_err());
}

#[test]
fn openings_are_refused() {
    let fault = |ports: &[&str], hostname, max_neighbors| {
        Agent::open(&Options { ports, hostname, max_neighbors, ..Options::default() }).err()
    };
    assert_eq!(fault(&[], "sw1", 1), Some(OpenFault::NoPorts));
    assert_eq!(fault(&["eth0"], "\n", 1), Some(OpenFault::Text));
    assert_eq!(fault(&["eth0"], "sw1", 129), Some(OpenFault::OutOfRange));
}
