//! The declarations of `lldpa.h`, written by tools/library/bindings.sh.

pub const LLDPA_VERSION: u16 = 10000;
pub const LLDPA_OK: u8 = 0;
pub const LLDPA_OUT_OF_RANGE: u8 = 100;
pub const LLDPA_NO_ROOM: u8 = 101;
pub const LLDPA_NOT_OPEN: u8 = 102;
pub const LLDPA_NO_PORT: u8 = 103;
pub const LLDPA_IS_OPEN: u8 = 104;
pub const LLDPA_NULL: u8 = 105;
pub const LLDPA_PDU_ROOM: u16 = 1500;
pub const LLDPA_FRAME_ROOM: u16 = 1514;
pub const LLDPA_NEIGHBOR_ROOM: u16 = 1500;
pub const LLDPA_LINE_ROOM: u16 = 2049;
pub const LLDPA_VALUE_ROOM: u16 = 1058;
pub const LLDPA_FAULT_ROOM: u8 = 65;
pub const LLDPA_TRUNCATED: u8 = 1;
pub const LLDPA_NO_CHASSIS: u8 = 2;
pub const LLDPA_CHASSIS_LENGTH: u8 = 3;
pub const LLDPA_NO_PORT_ID: u8 = 4;
pub const LLDPA_PORT_LENGTH: u8 = 5;
pub const LLDPA_NO_TTL: u8 = 6;
pub const LLDPA_TTL_LENGTH: u8 = 7;
pub const LLDPA_REPEATED: u8 = 8;
pub const LLDPA_FULL: u8 = 11;
pub const LLDPA_KIND: u8 = 12;
pub const LLDPA_BODY: u8 = 13;
pub const LLDPA_CAUSE_TICK: u8 = 0;
pub const LLDPA_CAUSE_CHANGE: u8 = 1;
pub const LLDPA_CAUSE_NEIGHBOR: u8 = 2;
pub const LLDPA_CAUSE_STOP: u8 = 3;
pub const LLDPA_CAUSE_ALLOW: u8 = 4;
pub const LLDPA_CAUSE_DOWN: u8 = 5;
pub const LLDPA_CAUSE_UP: u8 = 6;
pub const LLDPA_CAUSE_NOTHING: u8 = 7;
pub const LLDPA_QUIET: u8 = 0;
pub const LLDPA_ORDINARY: u8 = 1;
pub const LLDPA_SHUTDOWN: u8 = 2;
pub const LLDPA_STATION: u8 = 0;
pub const LLDPA_BRIDGE: u8 = 1;
pub const LLDPA_ROUTER: u8 = 2;
pub const LLDPA_MEMORY: u8 = 21;
pub const LLDPA_NO_PORTS: u8 = 22;
pub const LLDPA_TOO_MANY_PORTS: u8 = 23;
pub const LLDPA_PORT_NAME: u8 = 24;
pub const LLDPA_SAME_PORT: u8 = 25;
pub const LLDPA_TEXT: u8 = 26;
pub const LLDPA_NEVER: u32 = 4294967295;
pub const LLDPA_NEWS_NOT_LLDP: u8 = 1;
pub const LLDPA_NEWS_DEAF: u8 = 2;
pub const LLDPA_NEWS_REFUSED: u8 = 3;
pub const LLDPA_NEWS_NEW: u8 = 4;
pub const LLDPA_NEWS_CHANGED: u8 = 5;
pub const LLDPA_NEWS_SAME: u8 = 6;
pub const LLDPA_NEWS_DROPPED: u8 = 7;
pub const LLDPA_NEWS_GONE: u8 = 8;
pub const LLDPA_NEWS_UNKNOWN: u8 = 9;
pub const LLDPA_RX_AND_TX: u8 = 0;
pub const LLDPA_RX_ONLY: u8 = 1;
pub const LLDPA_TX_ONLY: u8 = 2;
pub const LLDPA_DISABLED: u8 = 3;
pub const LLDPA_SHOW_NOTHING: u8 = 0;
pub const LLDPA_SHOW_NEIGHBORS: u8 = 1;
pub const LLDPA_SHOW_STATISTICS: u8 = 2;
pub const LLDPA_SHOW_CHASSIS: u8 = 3;
pub const LLDPA_SHOW_CONFIGURATION: u8 = 4;
pub const LLDPA_UNKNOWN: u8 = 31;
pub const LLDPA_NO_SUCH_PORT: u8 = 32;
pub const LLDPA_NUMBER: u8 = 33;
pub const LLDPA_RANGE: u8 = 34;
pub const LLDPA_BAD_TEXT: u8 = 35;
pub const LLDPA_EXTRA: u8 = 36;
pub const LLDPA_QUOTE: u8 = 37;
pub const LLDPA_IN_USE: u8 = 38;
extern "C" {
    #[doc = " Returns the version of the library, in the form of LLDPA_VERSION."]
    pub fn lldpa_version() -> u32;
}
extern "C" {
    #[doc = " Writes the description of an error number, such as \"the first TLV is not a Chassis ID\"."]
    #[doc = "   fault   a number other than 0 that a function of this header returns or writes as a fault"]
    #[doc = "   length  the number of octets written, at most LLDPA_FAULT_ROOM"]
    #[doc = " Returns 0, LLDPA_OUT_OF_RANGE if no error has this number, or LLDPA_NO_ROOM. It writes only on success."]
    pub fn lldpa_fault_text(
        fault: u32,
        room: *mut u8,
        room_length: usize,
        length: *mut usize,
    ) -> u8;
}
#[doc = " A range of octets in a buffer: its offset, and its length."]
#[repr(C)]
#[derive(Debug, Default, Copy, Clone, Hash, PartialEq, Eq)]
pub struct lldpa_place {
    pub start: usize,
    pub length: usize,
}
extern "C" {
    #[doc = " Finds the LLDPDU in an Ethernet frame."]
    #[doc = "   frame, length  the frame from the destination address on, without a VLAN tag and without the check sequence"]
    #[doc = "   pdu            written if the result is true: the octets after the EtherType, at most 1500"]
    #[doc = " Returns true exactly for an LLDP frame: 14 to 1514 octets, sent to 01-80-C2-00-00-0E, with the EtherType 88-CC."]
    pub fn lldpa_frame_pdu(frame: *const u8, length: usize, pdu: *mut lldpa_place) -> bool;
}
#[doc = " The fields of an LLDPDU without a fault. A TLV after the three mandatory ones is *kept* if it is well formed for its"]
#[doc = " type and, if the type is 4 to 7, is the first such TLV of that type."]
#[repr(C)]
#[derive(Debug, Default, Copy, Clone, Hash, PartialEq, Eq)]
pub struct lldpa_examined {
    #[doc = " the body of the Chassis ID, 2 to 256 octets that begin with the subtype"]
    pub chassis: lldpa_place,
    #[doc = " the body of the Port ID, in the same form"]
    pub port: lldpa_place,
    #[doc = " the number of octets before the End Of LLDPDU, or before an incomplete TLV"]
    pub extent: usize,
    #[doc = " how many TLVs are discarded, including an incomplete one at the end"]
    pub discarded: usize,
    #[doc = " how many kept TLVs have a type of 9 to 127"]
    pub unrecognized: usize,
    #[doc = " the time to live in seconds; at 0 the neighbor leaves, and the three numbers above are 0"]
    pub ttl: u16,
}
extern "C" {
    #[doc = " Examines an LLDPDU of any length."]
    #[doc = "   told  the fields, written on success"]
    #[doc = " Returns 0, or the number of the first fault, 1 to 8."]
    pub fn lldpa_examine(pdu: *const u8, length: usize, told: *mut lldpa_examined) -> u8;
}
#[doc = " A walk over the kept TLVs, for lldpa_next_kept. Begin with LLDPA_KEPT_INIT, which is all 0."]
#[repr(C)]
#[derive(Debug, Default, Copy, Clone, Hash, PartialEq, Eq)]
pub struct lldpa_kept {
    #[doc = " the offset where the walk continues; 0 for the first TLV after the three mandatory ones"]
    pub next: usize,
    #[doc = " the body of the TLV that was found last"]
    pub body: lldpa_place,
    #[doc = " for each of the types 4 to 7, whether a well-formed TLV was found"]
    pub met: [bool; 4usize],
    #[doc = " the type of the TLV that was found last, 4 to 127"]
    pub kind: u8,
}
extern "C" {
    #[doc = " Finds the next kept TLV."]
    #[doc = "   extent, length  the first lldpa_examined.extent octets of an LLDPDU for which lldpa_examine returned 0 and wrote a"]
    #[doc = "                   TTL above 0. Pass the same octets in every call of a walk"]
    #[doc = "   walk            is advanced to the TLV; it is unchanged if no TLV is left"]
    #[doc = " Returns true if it found a TLV. If the octets are not such an LLDPDU, it may find any TLV in them, or none."]
    pub fn lldpa_next_kept(extent: *const u8, length: usize, walk: *mut lldpa_kept) -> bool;
}
#[doc = " The fields of a System Capabilities TLV (type 7): two sets of bits, as in table 8-4 of the standard."]
#[repr(C)]
#[derive(Debug, Default, Copy, Clone, Hash, PartialEq, Eq)]
pub struct lldpa_capabilities {
    pub available: u16,
    pub enabled: u16,
}
extern "C" {
    #[doc = " Reads the body of a System Capabilities TLV."]
    #[doc = "   told  the fields, written if the result is true"]
    #[doc = " Returns true exactly if the body is well formed: it has four octets, and each enabled bit is also available."]
    pub fn lldpa_caps(body: *const u8, length: usize, told: *mut lldpa_capabilities) -> bool;
}
#[doc = " The fields of a Management Address TLV (type 8). address and oid are ranges of its body."]
#[repr(C)]
#[derive(Debug, Default, Copy, Clone, Hash, PartialEq, Eq)]
pub struct lldpa_management {
    #[doc = " 1 to 31 octets"]
    pub address: lldpa_place,
    #[doc = " 0 to 128 octets"]
    pub oid: lldpa_place,
    #[doc = " the interface number"]
    pub interface: u32,
    #[doc = " the address family, such as 1 for IPv4, 2 for IPv6 and 6 for all 802 media"]
    pub family: u8,
    #[doc = " the interface numbering subtype"]
    pub numbering: u8,
}
extern "C" {
    #[doc = " Reads the body of a Management Address TLV."]
    #[doc = "   told  the fields, written if the result is true"]
    #[doc = " Returns true exactly if the body is well formed."]
    pub fn lldpa_mgmt(body: *const u8, length: usize, told: *mut lldpa_management) -> bool;
}
extern "C" {
    #[doc = " Writes a TLV as text, as the command `show neighbors` does: \"chassis.mac=00:11:22:33:44:55\", \"port.ifname=eth0\","]
    #[doc = " \"chassis.mgmt=192.0.2.1,2,3,\". The value follows the first '='. Texts are escaped as by lldpa_escape."]
    #[doc = "   kind    the type of the TLV: 1 for a Chassis ID, 2 for a Port ID, or 4 to 127"]
    #[doc = "   body    its body, which must be well formed for the type and have at most 511 octets"]
    #[doc = "   room    LLDPA_VALUE_ROOM octets are always enough"]
    #[doc = "   length  the number of octets written, on success"]
    #[doc = " Returns the first of these that applies: LLDPA_OUT_OF_RANGE for the type or the body, LLDPA_NO_ROOM; otherwise 0."]
    pub fn lldpa_tlv_text(
        kind: u32,
        body: *const u8,
        body_length: usize,
        room: *mut u8,
        room_length: usize,
        length: *mut usize,
    ) -> u8;
}
extern "C" {
    #[doc = " Escapes a text that came from a neighbor, so that you can print it: replaces each backslash by two, and each octet"]
    #[doc = " that is not printable ASCII by a backslash, an x and two hexadecimal digits."]
    #[doc = "   text    at most 511 octets"]
    #[doc = "   room    four times as many octets are always enough"]
    #[doc = "   length  the number of octets written, on success"]
    #[doc = " Returns the first of these that applies: LLDPA_OUT_OF_RANGE if the text is too long, LLDPA_NO_ROOM; otherwise 0."]
    pub fn lldpa_escape(
        text: *const u8,
        text_length: usize,
        room: *mut u8,
        room_length: usize,
        length: *mut usize,
    ) -> u8;
}
#[doc = " A TLV to build: its body, and its type."]
#[repr(C)]
#[derive(Debug, Copy, Clone, Hash, PartialEq, Eq)]
pub struct lldpa_tlv {
    pub body: *const u8,
    pub length: usize,
    pub kind: u8,
}
impl Default for lldpa_tlv {
    fn default() -> Self {
        let mut s = ::core::mem::MaybeUninit::<Self>::uninit();
        unsafe {
            ::core::ptr::write_bytes(s.as_mut_ptr(), 0, 1);
            s.assume_init()
        }
    }
}
extern "C" {
    #[doc = " Builds an LLDPDU in the caller's buffer `room`."]
    #[doc = "   chassis, port  the bodies of the Chassis ID and the Port ID, 2 to 256 octets each, beginning with the subtype"]
    #[doc = "   ttl            the time to live in seconds; 0 makes a shutdown LLDPDU, which has no other TLVs"]
    #[doc = "   tlvs           any number of TLVs to put after the Time To Live, in this order"]
    #[doc = "   faults         receives a number for each TLV: 0 if it was put, or 11 to 13 if it is left out"]
    #[doc = "   room           LLDPA_PDU_ROOM octets are always enough"]
    #[doc = "   length         the number of octets of the LLDPDU, including its End Of LLDPDU"]
    #[doc = " Returns the first of these that applies: LLDPA_OUT_OF_RANGE for the length of an identifier; LLDPA_NO_ROOM if"]
    #[doc = " faults has fewer elements than tlvs; LLDPA_NO_ROOM if the LLDPDU is longer than room; otherwise 0. If the LLDPDU is"]
    #[doc = " longer than room, only faults is written. The other errors write nothing."]
    pub fn lldpa_build(
        chassis: *const u8,
        chassis_length: usize,
        port: *const u8,
        port_length: usize,
        ttl: u16,
        tlvs: *const lldpa_tlv,
        tlv_count: usize,
        faults: *mut u8,
        fault_count: usize,
        room: *mut u8,
        room_length: usize,
        length: *mut usize,
    ) -> u8;
}
#[doc = " A transmit machine, made by lldpa_transmit_new. You may copy it and read its fields, but not change them."]
#[repr(C)]
#[derive(Debug, Default, Copy, Clone, Hash, PartialEq, Eq)]
pub struct lldpa_machine {
    #[doc = " txTTR: ticks until the next frame is due"]
    pub timer: u16,
    #[doc = " txCreditMax"]
    pub credit_max: u8,
    #[doc = " txFastInit"]
    pub fast_init: u8,
    #[doc = " reinitDelay, in seconds"]
    pub reinit: u8,
    #[doc = " how many ordinary frames may be sent before the next tick, 0 to credit_max"]
    pub credit: u8,
    #[doc = " ticks until the port may start again"]
    pub wait: u8,
    #[doc = " txFast: how many frames of a fast transmission are left"]
    pub left: u8,
    #[doc = " a frame is wanted and was not sent yet"]
    pub waiting: bool,
    #[doc = " the port has started, and has neither stopped nor lost its link since"]
    pub active: bool,
    #[doc = " the port may transmit"]
    pub allowed: bool,
    #[doc = " its link is up"]
    pub up: bool,
}
extern "C" {
    #[doc = " Makes a machine with full credit, for a port that is not active and has its link up."]
    #[doc = "   credit_max  txCreditMax, 1 to 10"]
    #[doc = "   fast_init   txFastInit, 1 to 8"]
    #[doc = "   reinit      reinitDelay in seconds, 1 to 10"]
    #[doc = "   allowed     whether the port may transmit from the start"]
    #[doc = " Returns 0, or LLDPA_OUT_OF_RANGE, which leaves the machine unchanged."]
    pub fn lldpa_transmit_new(
        machine: *mut lldpa_machine,
        credit_max: u32,
        fast_init: u32,
        reinit: u32,
        allowed: bool,
    ) -> u8;
}
extern "C" {
    #[doc = " Applies one event, and writes which frame to send."]
    #[doc = "   cause     LLDPA_CAUSE_TICK to LLDPA_CAUSE_NOTHING"]
    #[doc = "   interval  the tx-interval in force after the event, 1 to 3600 seconds"]
    #[doc = "   mark      LLDPA_QUIET, LLDPA_ORDINARY or LLDPA_SHUTDOWN, written on success"]
    #[doc = " Returns 0; or LLDPA_OUT_OF_RANGE for the cause or the interval, or if the machine's credit is above its"]
    #[doc = " credit_max. On an error nothing is written."]
    pub fn lldpa_transmit_event(
        machine: *mut lldpa_machine,
        cause: u32,
        interval: u32,
        mark: *mut u8,
    ) -> u8;
}
#[doc = " A text, without a 0 at the end."]
#[repr(C)]
#[derive(Debug, Copy, Clone, Hash, PartialEq, Eq)]
pub struct lldpa_text {
    pub octets: *const u8,
    pub length: usize,
}
impl Default for lldpa_text {
    fn default() -> Self {
        let mut s = ::core::mem::MaybeUninit::<Self>::uninit();
        unsafe {
            ::core::ptr::write_bytes(s.as_mut_ptr(), 0, 1);
            s.assume_init()
        }
    }
}
#[doc = " The options of lldpa_open."]
#[repr(C)]
#[derive(Debug, Copy, Clone, Hash, PartialEq, Eq)]
pub struct lldpa_options {
    #[doc = " sizeof(lldpa_options)"]
    pub size: usize,
    #[doc = " the names of the ports in order, each 1 to 15 letters, digits, '-', '_', '/' or ':'"]
    pub ports: *const lldpa_text,
    #[doc = " 1 to 64"]
    pub port_count: usize,
    #[doc = " at most 255 octets, printable ASCII"]
    pub hostname: lldpa_text,
    #[doc = " the source address and the chassis ID of every frame"]
    pub mac: [u8; 6usize],
    #[doc = " the IPv4 management address that the agent announces"]
    pub management: [u8; 4usize],
    #[doc = " whether there is a management address; if not, management is not read"]
    pub managed: bool,
    #[doc = " whether each port begins with the status rx-only"]
    pub receive_only: bool,
    #[doc = " LLDPA_STATION, LLDPA_BRIDGE or LLDPA_ROUTER"]
    pub role: u32,
    #[doc = " how many neighbors each port may hold, 1 to 128"]
    pub max_neighbors: u32,
    #[doc = " txCreditMax, 1 to 10"]
    pub credit_max: u32,
    #[doc = " txFastInit, 1 to 8"]
    pub fast_init: u32,
    #[doc = " reinitDelay in seconds, 1 to 10"]
    pub reinit: u32,
}
impl Default for lldpa_options {
    fn default() -> Self {
        let mut s = ::core::mem::MaybeUninit::<Self>::uninit();
        unsafe {
            ::core::ptr::write_bytes(s.as_mut_ptr(), 0, 1);
            s.assume_init()
        }
    }
}
#[doc = " A handle of an agent. Initialize it with zeros: lldpa_agent agent = {0}. Do not read or change its fields, and do"]
#[doc = " not copy it while it is open. After lldpa_close you may open it again."]
#[repr(C)]
#[derive(Debug, Copy, Clone, Hash, PartialEq, Eq)]
pub struct lldpa_agent {
    pub held: *mut ::core::ffi::c_void,
    pub open: bool,
}
impl Default for lldpa_agent {
    fn default() -> Self {
        let mut s = ::core::mem::MaybeUninit::<Self>::uninit();
        unsafe {
            ::core::ptr::write_bytes(s.as_mut_ptr(), 0, 1);
            s.assume_init()
        }
    }
}
extern "C" {
    #[doc = " Opens an agent, and allocates all memory that it will ever need: about 1.6 KB for each of max_neighbors neighbors on"]
    #[doc = " each port. At first the link of each port is up. Returns the first of these that applies: LLDPA_OUT_OF_RANGE if"]
    #[doc = " `size` is less than in 1.0.0 or more than the library knows; LLDPA_IS_OPEN; LLDPA_OUT_OF_RANGE for role,"]
    #[doc = " max_neighbors, credit_max, fast_init or reinit, or for a text that is not UTF-8; the first fault, 22 to 26;"]
    #[doc = " LLDPA_MEMORY; otherwise 0, and the agent is open. An error leaves the handle unchanged. With more than 64 names the call fails, and"]
    #[doc = " names after the 65th are not read."]
    pub fn lldpa_open(options: *const lldpa_options, agent: *mut lldpa_agent) -> u8;
}
#[doc = " A frame that you must send: lldpa_frame_of writes it."]
#[repr(C)]
#[derive(Debug, Default, Copy, Clone, Hash, PartialEq, Eq)]
pub struct lldpa_mark {
    #[doc = " the number of the port, from 0, in the order of the options"]
    pub port: u8,
    #[doc = " LLDPA_ORDINARY or LLDPA_SHUTDOWN"]
    pub mark: u8,
}
#[doc = " The frames that you must send now: the first `count` items, by ascending port."]
#[repr(C)]
#[derive(Debug, Copy, Clone, Hash, PartialEq, Eq)]
pub struct lldpa_marks {
    pub items: [lldpa_mark; 64usize],
    pub count: u8,
}
impl Default for lldpa_marks {
    fn default() -> Self {
        let mut s = ::core::mem::MaybeUninit::<Self>::uninit();
        unsafe {
            ::core::ptr::write_bytes(s.as_mut_ptr(), 0, 1);
            s.assume_init()
        }
    }
}
#[doc = " What lldpa_ticks did. A tick is one second."]
#[repr(C)]
#[derive(Debug, Default, Copy, Clone, Hash, PartialEq, Eq)]
pub struct lldpa_ticks_taken {
    #[doc = " the number of seconds that were counted"]
    pub taken: u32,
    #[doc = " the number of neighbors that aged out at the last of these seconds"]
    pub aged_out: u32,
}
extern "C" {
    #[doc = " Reports to the agent that `count` seconds have passed. The call stops early after the first second at which a port"]
    #[doc = " sends or a neighbor ages out. Returns 0 or LLDPA_NOT_OPEN."]
    #[doc = "   count  the seconds that passed; LLDPA_NEVER waits for the next event, and ends soon if nothing is ever due"]
    #[doc = "   marks  the frames to send at the last second counted, on success"]
    #[doc = "   told   written on success. If told->taken is less than count, call lldpa_ticks again for the remaining seconds."]
    #[doc = "          lldpa_aged writes the neighbors that aged out"]
    #[doc = " Take the seconds from a clock that nobody sets and that goes on while the machine sleeps, such as CLOCK_BOOTTIME of"]
    #[doc = " Linux. When all of them are reported, send the frame of the last mark of each port. After a pause of a day there were"]
    #[doc = " marks for each tx-interval that has passed, and neighbors need only the last of these frames."]
    pub fn lldpa_ticks(
        agent: *mut lldpa_agent,
        count: u32,
        marks: *mut lldpa_marks,
        told: *mut lldpa_ticks_taken,
    ) -> u8;
}
extern "C" {
    #[doc = " Writes the number of seconds until a port sends or a neighbor ages out, if you make no other call first. Returns 0 or"]
    #[doc = " LLDPA_NOT_OPEN."]
    #[doc = "   seconds  1 to 65535, or LLDPA_NEVER, on success"]
    #[doc = " You may sleep that long, and then pass all these seconds to lldpa_ticks, which stops only after the last of them."]
    #[doc = " Until then nothing changes except the neighbors' remaining seconds and the ports' credit. Any other call may change"]
    #[doc = " the number, so call lldpa_due again after it. If you wake for something else, such as a frame, first report the"]
    #[doc = " seconds that passed, and then the frame."]
    pub fn lldpa_due(agent: *const lldpa_agent, seconds: *mut u32) -> u8;
}
#[doc = " What a frame did. The octets of both ranges together identify the neighbor among all neighbors of its port."]
#[repr(C)]
#[derive(Debug, Default, Copy, Clone, Hash, PartialEq, Eq)]
pub struct lldpa_news {
    #[doc = " in the frame: the body of the Chassis ID; 0 and 0 if `what` is below LLDPA_NEWS_NEW"]
    pub chassis: lldpa_place,
    #[doc = " in the frame: the body of the Port ID, in the same form"]
    pub port: lldpa_place,
    #[doc = " LLDPA_NEWS_NOT_LLDP to LLDPA_NEWS_UNKNOWN"]
    pub what: u32,
    #[doc = " for LLDPA_NEWS_REFUSED, the fault of the LLDPDU, 1 to 8; otherwise 0"]
    pub fault: u32,
}
extern "C" {
    #[doc = " Passes to the agent a frame that a port received. You may pass any octets: if they are not an LLDP frame, nothing"]
    #[doc = " changes. Returns 0, LLDPA_NOT_OPEN or LLDPA_NO_PORT. First report the seconds that passed before the frame arrived"]
    #[doc = " (lldpa_ticks): the neighbor's time to live starts at this call, and seconds that you report later reduce it. A full"]
    #[doc = " table accepts no new neighbor, but the neighbors in it are still refreshed. Your own frame becomes a neighbor too, so"]
    #[doc = " do not pass frames that you sent."]
    #[doc = "   port   the number of the port, from 0, in the order of the options"]
    #[doc = "   marks  the frames to send, on success"]
    #[doc = "   news   what the frame did, on success; or NULL"]
    pub fn lldpa_frame(
        agent: *mut lldpa_agent,
        port: u32,
        octets: *const u8,
        length: usize,
        marks: *mut lldpa_marks,
        news: *mut lldpa_news,
    ) -> u8;
}
extern "C" {
    #[doc = " Reports that the link of a port came up or went down. A port whose link is down neither sends nor receives, but keeps"]
    #[doc = " its neighbors until they age out. port, marks and the results are as for lldpa_frame."]
    pub fn lldpa_link(agent: *mut lldpa_agent, port: u32, up: bool, marks: *mut lldpa_marks) -> u8;
}
extern "C" {
    #[doc = " Disables every port, which also removes all neighbors. Call it before you close the agent, and send the frames of"]
    #[doc = " marks: lldpa_close sends none."]
    #[doc = " Returns 0 or LLDPA_NOT_OPEN."]
    #[doc = "   marks  on success: a shutdown frame on each port that was active, and no other frame"]
    pub fn lldpa_leave(agent: *mut lldpa_agent, marks: *mut lldpa_marks) -> u8;
}
extern "C" {
    #[doc = " Writes how many neighbors a port holds. Returns 0, LLDPA_NOT_OPEN or LLDPA_NO_PORT; count is written on success."]
    pub fn lldpa_neighbor_count(agent: *const lldpa_agent, port: u32, count: *mut u32) -> u8;
}
#[doc = " A neighbor that a port holds."]
#[repr(C)]
#[derive(Debug, Default, Copy, Clone, Hash, PartialEq, Eq)]
pub struct lldpa_held {
    #[doc = " the fields of its last stored LLDPDU, as ranges of the octets in `room`. An incomplete TLV"]
    #[doc = "at the end is not stored, and `discarded` does not count it here"]
    pub pdu: lldpa_examined,
    #[doc = " seconds until it ages out"]
    pub left: u32,
}
extern "C" {
    #[doc = " Writes a neighbor of a port. lldpa_next_kept reads its TLVs from the octets."]
    #[doc = "   index  from 0, in the order in which neighbors were stored (LLDPA_NEWS_NEW). When a neighbor is removed, the index"]
    #[doc = "          of each later neighbor decreases by 1"]
    #[doc = "   room   receives told->pdu.extent octets: the neighbor's LLDPDU without the End Of LLDPDU. LLDPA_NEIGHBOR_ROOM"]
    #[doc = "          octets are always enough"]
    #[doc = "   told   written on success"]
    #[doc = " Returns the first of these that applies: LLDPA_NOT_OPEN, LLDPA_NO_PORT, LLDPA_OUT_OF_RANGE for the index,"]
    #[doc = " LLDPA_NO_ROOM; otherwise 0."]
    pub fn lldpa_neighbor(
        agent: *const lldpa_agent,
        port: u32,
        index: u32,
        room: *mut u8,
        room_length: usize,
        told: *mut lldpa_held,
    ) -> u8;
}
extern "C" {
    #[doc = " Writes how many neighbors of a port aged out at the last call of lldpa_ticks. You may ask for the number, and read the"]
    #[doc = " neighbors by lldpa_aged, until the next call that changes the agent. The results are as for lldpa_neighbor_count."]
    pub fn lldpa_aged_count(agent: *const lldpa_agent, port: u32, count: *mut u32) -> u8;
}
extern "C" {
    #[doc = " Writes a neighbor of a port that aged out at the last call of lldpa_ticks, as lldpa_neighbor would have written it"]
    #[doc = " one second before: told->left is 1. The agent keeps its LLDPDU only until the next call that changes the agent."]
    #[doc = "   index  from 0, in the order in which neighbors were stored"]
    #[doc = " room, told and the results are as for lldpa_neighbor."]
    pub fn lldpa_aged(
        agent: *const lldpa_agent,
        port: u32,
        index: u32,
        room: *mut u8,
        room_length: usize,
        told: *mut lldpa_held,
    ) -> u8;
}
#[doc = " The counters of a port, each modulo 2^32. Nothing resets them."]
#[repr(C)]
#[derive(Debug, Default, Copy, Clone, Hash, PartialEq, Eq)]
pub struct Statistics {
    #[doc = " ordinary frames sent"]
    pub sent: u32,
    #[doc = " shutdown frames sent"]
    pub shutdowns: u32,
    #[doc = " LLDP frames that arrived while the port could receive and its link was up"]
    pub received: u32,
    #[doc = " LLDPDUs that were refused"]
    pub discarded: u32,
    #[doc = " LLDPDUs that were refused or had a TLV discarded"]
    pub errors: u32,
    #[doc = " TLVs that were discarded"]
    pub tlvs_discarded: u32,
    #[doc = " kept TLVs with a type of 9 to 127"]
    pub unrecognized: u32,
    #[doc = " neighbors that aged out"]
    pub ageouts: u32,
    #[doc = " LLDPDUs that were dropped because there was no room"]
    pub drops: u32,
}
extern "C" {
    #[doc = " Writes the counters of a port. Returns 0, LLDPA_NOT_OPEN or LLDPA_NO_PORT; told is written on success."]
    pub fn lldpa_statistics(
        agent: *const lldpa_agent,
        port: u32,
        told: *mut Statistics,
    ) -> u8;
}
#[doc = " The current settings of an agent."]
#[repr(C)]
#[derive(Debug, Copy, Clone, Hash, PartialEq, Eq)]
pub struct lldpa_configuration_told {
    #[doc = " tx-interval, in seconds"]
    pub interval: u32,
    #[doc = " tx-hold"]
    pub hold: u32,
    #[doc = " the time to live of an ordinary frame, in seconds"]
    pub ttl: u32,
    #[doc = " reinitDelay, in seconds"]
    pub reinit: u32,
    #[doc = " txFastInit"]
    pub fast_init: u32,
    #[doc = " txCreditMax"]
    pub credit_max: u32,
    #[doc = " how many neighbors each port may hold"]
    pub max_neighbors: u32,
    #[doc = " how many ports there are"]
    pub ports: u32,
    #[doc = " LLDPA_RX_AND_TX to LLDPA_DISABLED for each port; 0 after the last port"]
    pub status: [u8; 64usize],
}
impl Default for lldpa_configuration_told {
    fn default() -> Self {
        let mut s = ::core::mem::MaybeUninit::<Self>::uninit();
        unsafe {
            ::core::ptr::write_bytes(s.as_mut_ptr(), 0, 1);
            s.assume_init()
        }
    }
}
extern "C" {
    #[doc = " Writes the settings of an agent. Returns 0 or LLDPA_NOT_OPEN; told is written on success."]
    pub fn lldpa_configuration(
        agent: *const lldpa_agent,
        told: *mut lldpa_configuration_told,
    ) -> u8;
}
#[doc = " What an agent says about its host."]
#[repr(C)]
#[derive(Debug, Copy, Clone, Hash, PartialEq, Eq)]
pub struct lldpa_chassis_told {
    #[doc = " the source address and the Chassis ID of each frame"]
    pub mac: [u8; 6usize],
    #[doc = " LLDPA_STATION, LLDPA_BRIDGE or LLDPA_ROUTER"]
    pub role: u8,
    #[doc = " whether there is a management address"]
    pub managed: bool,
    #[doc = " the IPv4 management address, or zeros"]
    pub management: [u8; 4usize],
    #[doc = " the number of octets of hostname"]
    pub hostname_length: u8,
    #[doc = " the number of octets of description"]
    pub description_length: u8,
    #[doc = " the System Name: printable ASCII, then zeros"]
    pub hostname: [u8; 255usize],
    #[doc = " the System Description: printable ASCII, then zeros"]
    pub description: [u8; 255usize],
}
impl Default for lldpa_chassis_told {
    fn default() -> Self {
        let mut s = ::core::mem::MaybeUninit::<Self>::uninit();
        unsafe {
            ::core::ptr::write_bytes(s.as_mut_ptr(), 0, 1);
            s.assume_init()
        }
    }
}
extern "C" {
    #[doc = " Writes what an agent says about its host. Returns 0 or LLDPA_NOT_OPEN; told is written on success."]
    pub fn lldpa_chassis(agent: *const lldpa_agent, told: *mut lldpa_chassis_told) -> u8;
}
extern "C" {
    #[doc = " Runs a command, \"configure ..\", \"update\" or \"show ..\", without a line feed; lldpa(1) describes the commands. A show"]
    #[doc = " command changes nothing: pass the number of the show to lldpa_show_lines to get the lines."]
    #[doc = "   show   LLDPA_SHOW_NOTHING, or the number of the show, on success"]
    #[doc = "   marks  the frames to send, on success"]
    #[doc = " Returns 0, or 31 to 38 or LLDPA_NOT_OPEN. On an error nothing changes."]
    pub fn lldpa_command(
        agent: *mut lldpa_agent,
        line: *const u8,
        length: usize,
        show: *mut u32,
        marks: *mut lldpa_marks,
    ) -> u8;
}
#[doc = " The part of a show that was written."]
#[repr(C)]
#[derive(Debug, Default, Copy, Clone, Hash, PartialEq, Eq)]
pub struct lldpa_lines {
    #[doc = " the number of octets, including a line feed after each line"]
    pub length: usize,
    #[doc = " the line to continue with; if no line is left, the number of lines, or `from` if it is greater"]
    pub next: u32,
    #[doc = " whether no line is left"]
    pub done: bool,
}
extern "C" {
    #[doc = " Writes lines of a show: as many whole lines as fit, starting with line `from`."]
    #[doc = "   show  LLDPA_SHOW_NEIGHBORS to LLDPA_SHOW_CONFIGURATION"]
    #[doc = "   from  the first line that you want, from 0"]
    #[doc = "   room  LLDPA_LINE_ROOM octets hold any line"]
    #[doc = "   told  written on success"]
    #[doc = " Returns the first of these that applies: LLDPA_OUT_OF_RANGE for the show, LLDPA_NOT_OPEN, LLDPA_NO_ROOM if not"]
    #[doc = " even the first line fits; otherwise 0. It writes only on success. To get all lines, call it again with `next` as"]
    #[doc = " `from`, and make no other call on the agent in between. A call that writes neighbors goes on where the last one"]
    #[doc = " stopped, if nothing changed in between and `from` does not come before; otherwise it also goes through the neighbors"]
    #[doc = " before `from`."]
    pub fn lldpa_show_lines(
        agent: *const lldpa_agent,
        show: u32,
        from: u32,
        room: *mut u8,
        room_length: usize,
        told: *mut lldpa_lines,
    ) -> u8;
}
extern "C" {
    #[doc = " Writes the frame that a mark asks for, with the current settings. Send it on the port of the mark. A frame has the"]
    #[doc = " destination 01-80-C2-00-00-0E, the agent's MAC address as source, the EtherType 88-CC and the LLDPDU, and is not"]
    #[doc = " padded to 60 octets: the driver does that. The Chassis ID is the MAC address (subtype 4), and the Port ID the name of"]
    #[doc = " the port (subtype 5). An ordinary frame then has the time to live, a Port Description (the port's name again), System"]
    #[doc = " Name (the hostname), System Description, System Capabilities (by the role) and, if there is one, the Management"]
    #[doc = " Address. A shutdown frame has a time to live of 0 and no further TLVs."]
    #[doc = "   mark    LLDPA_ORDINARY or LLDPA_SHUTDOWN"]
    #[doc = "   room    LLDPA_FRAME_ROOM octets are always enough"]
    #[doc = "   length  the number of octets of the frame, on success"]
    #[doc = " Returns the first of these that applies: LLDPA_OUT_OF_RANGE for the mark, LLDPA_NOT_OPEN, LLDPA_NO_PORT,"]
    #[doc = " LLDPA_NO_ROOM; otherwise 0."]
    pub fn lldpa_frame_of(
        agent: *const lldpa_agent,
        port: u32,
        mark: u32,
        room: *mut u8,
        room_length: usize,
        length: *mut usize,
    ) -> u8;
}
extern "C" {
    #[doc = " Closes an agent, and frees its memory. Does nothing if it is not open."]
    pub fn lldpa_close(agent: *mut lldpa_agent);
}
