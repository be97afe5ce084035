/*
 * lldpa: a formally verified LLDP reader, transmit machine and agent (IEEE 802.1AB-2009), for C and other languages.
 *
 * Link with liblldpa.so.1 (`pkg-config --cflags --libs lldpa`), or with liblldpa.a (`-l:liblldpa.a` instead of
 * `-llldpa`). The library uses malloc and free. The header is valid C99 and C++.
 *
 * Rules for the caller of any function:
 *  - A pointer that is not NULL points to existing, aligned memory of its type. Memory that a call reads is
 *    initialized; memory that it only writes need not be. If a length follows a pointer in the list of parameters,
 *    or in a struct, the memory has at least that many elements. No length is over SIZE_MAX / 2.
 *  - Memory that a call writes does not overlap the other arguments, and no other thread reads or writes it during the
 *    call. A call does not write through pointers to const.
 *  - A bool is 0 or 1.
 * A function returns an error and changes nothing if a number or an index is out of its range.
 *
 * NULL is safe. A NULL array of length 0 is an empty array, also inside a struct. You may pass NULL as `news` of
 * lldpa_frame if you do not want the news. With any other NULL, a function that returns a number returns LLDPA_NULL, a
 * function that returns a bool returns false, and nothing is written or closed. NULL is checked first, except that
 * lldpa_open checks `size` before the pointers in the options.
 *
 * Stack: a call needs at most 12 KB.
 *
 * Memory: only lldpa_open allocates memory, and only lldpa_close frees it. No call keeps a pointer that you pass to
 * it. Texts that a function writes have no 0 at the end.
 *
 * Threads: the library has no state of its own, never waits, and starts no threads. Calls on different memory may run
 * at the same time, but calls on the same lldpa_machine or lldpa_agent may not, even if both only read. Any thread may
 * use or close an agent, after the calls of other threads on it have returned. Do not call its functions in a signal
 * handler, or in a forked child of a process with threads.
 *
 * ABI: in all releases 1.x, existing functions, parameters, numbers and fields of structs stay the same. A release may
 * add functions and fault numbers, so treat a number that you do not know as a fault. Only lldpa_options may get new
 * fields, at its end: its `size` says which fields your program was compiled with, and a later library takes the values
 * of its LLDPA_OPTIONS_INIT for the others.
 */
#ifndef LLDPA_H
#define LLDPA_H

#include <stdbool.h>
#include <stddef.h>
#include <stdint.h>

#ifdef __cplusplus
extern "C" {
#endif

/* The version of this header, major * 10000 + minor * 100 + patch: 10000 is 1.0.0. */
#define LLDPA_VERSION 10000

/* Returns the version of the library, in the form of LLDPA_VERSION. */
uint32_t lldpa_version(void);

/*
 * ---- Return values. 0 means success. Other numbers are the errors below, and the faults listed before the functions
 * that return them: 1 to 8 for reading, 21 to 26 for opening, 31 to 38 for commands. (11 to 13: see lldpa_build.)
 */

#define LLDPA_OK 0
#define LLDPA_OUT_OF_RANGE 100 /* a number or a length is out of its range, or octets are not well formed */
#define LLDPA_NO_ROOM 101      /* the caller's buffer is too small for the result */
#define LLDPA_NOT_OPEN 102     /* the agent is not open */
#define LLDPA_NO_PORT 103      /* the agent has no port with that number */
#define LLDPA_IS_OPEN 104      /* the agent is open already */
#define LLDPA_NULL 105         /* a pointer that must not be NULL is NULL */

/*
 * Writes the description of an error number, such as "the first TLV is not a Chassis ID".
 *   fault   a number other than 0 that a function of this header returns or writes as a fault
 *   length  the number of octets written, at most LLDPA_FAULT_ROOM
 * Returns 0, LLDPA_OUT_OF_RANGE if no error has this number, or LLDPA_NO_ROOM. It writes only on success.
 */
uint8_t lldpa_fault_text(uint32_t fault, uint8_t *room, size_t room_length, size_t *length);

/* ---- Sizes of `room`, in octets, that are always enough ---------------------------------------------------------- */

#define LLDPA_PDU_ROOM 1500      /* for lldpa_build */
#define LLDPA_FRAME_ROOM 1514    /* for lldpa_frame_of */
#define LLDPA_NEIGHBOR_ROOM 1500 /* for lldpa_neighbor and lldpa_aged */
#define LLDPA_LINE_ROOM 2049     /* for one line of lldpa_show_lines */
#define LLDPA_VALUE_ROOM 1058    /* for lldpa_tlv_text */
#define LLDPA_FAULT_ROOM 65      /* for lldpa_fault_text */

/* ---- Reading ---------------------------------------------------------------------------------------------------- */

/* A range of octets in a buffer: its offset, and its length. */
typedef struct lldpa_place {
    size_t start;
    size_t length;
} lldpa_place;

/*
 * Finds the LLDPDU in an Ethernet frame.
 *   frame, length  the frame from the destination address on, without a VLAN tag and without the check sequence
 *   pdu            written if the result is true: the octets after the EtherType, at most 1500
 * Returns true exactly for an LLDP frame: 14 to 1514 octets, sent to 01-80-C2-00-00-0E, with the EtherType 88-CC.
 */
bool lldpa_frame_pdu(const uint8_t *frame, size_t length, lldpa_place *pdu);

/* The faults of an LLDPDU, in the order of the checks; LLDPA_TRUNCATED is checked before each mandatory TLV. */
#define LLDPA_TRUNCATED 1      /* no complete TLV where a mandatory one belongs */
#define LLDPA_NO_CHASSIS 2     /* the first TLV is not a Chassis ID */
#define LLDPA_CHASSIS_LENGTH 3 /* the Chassis ID does not have 2 to 256 octets */
#define LLDPA_NO_PORT_ID 4     /* the second TLV is not a Port ID */
#define LLDPA_PORT_LENGTH 5    /* the Port ID does not have 2 to 256 octets */
#define LLDPA_NO_TTL 6         /* the third TLV is not a Time To Live */
#define LLDPA_TTL_LENGTH 7     /* the Time To Live has fewer than 2 octets */
#define LLDPA_REPEATED 8       /* a TLV after the third has the type 1, 2 or 3 */

/*
 * The fields of an LLDPDU without a fault. A TLV after the three mandatory ones is *kept* if it is well formed for its
 * type and, if the type is 4 to 7, is the first such TLV of that type.
 */
typedef struct lldpa_examined {
    lldpa_place chassis; /* the body of the Chassis ID, 2 to 256 octets that begin with the subtype */
    lldpa_place port;    /* the body of the Port ID, in the same form */
    size_t extent;       /* the number of octets before the End Of LLDPDU, or before an incomplete TLV */
    size_t discarded;    /* how many TLVs are discarded, including an incomplete one at the end */
    size_t unrecognized; /* how many kept TLVs have a type of 9 to 127 */
    uint16_t ttl;        /* the time to live in seconds; at 0 the neighbor leaves, and the three numbers above are 0 */
} lldpa_examined;

/*
 * Examines an LLDPDU of any length.
 *   told  the fields, written on success
 * Returns 0, or the number of the first fault, 1 to 8.
 */
uint8_t lldpa_examine(const uint8_t *pdu, size_t length, lldpa_examined *told);

/* A walk over the kept TLVs, for lldpa_next_kept. Begin with LLDPA_KEPT_INIT, which is all 0. */
typedef struct lldpa_kept {
    size_t next;      /* the offset where the walk continues; 0 for the first TLV after the three mandatory ones */
    lldpa_place body; /* the body of the TLV that was found last */
    bool met[4];      /* for each of the types 4 to 7, whether a well-formed TLV was found */
    uint8_t kind;     /* the type of the TLV that was found last, 4 to 127 */
} lldpa_kept;

#define LLDPA_KEPT_INIT { 0, { 0, 0 }, { false, false, false, false }, 0 }

/*
 * Finds the next kept TLV.
 *   extent, length  the first lldpa_examined.extent octets of an LLDPDU for which lldpa_examine returned 0 and wrote a
 *                   TTL above 0. Pass the same octets in every call of a walk
 *   walk            is advanced to the TLV; it is unchanged if no TLV is left
 * Returns true if it found a TLV. If the octets are not such an LLDPDU, it may find any TLV in them, or none.
 */
bool lldpa_next_kept(const uint8_t *extent, size_t length, lldpa_kept *walk);

/* The fields of a System Capabilities TLV (type 7): two sets of bits, as in table 8-4 of the standard. */
typedef struct lldpa_capabilities {
    uint16_t available;
    uint16_t enabled;
} lldpa_capabilities;

/*
 * Reads the body of a System Capabilities TLV.
 *   told  the fields, written if the result is true
 * Returns true exactly if the body is well formed: it has four octets, and each enabled bit is also available.
 */
bool lldpa_caps(const uint8_t *body, size_t length, lldpa_capabilities *told);

/* The fields of a Management Address TLV (type 8). address and oid are ranges of its body. */
typedef struct lldpa_management {
    lldpa_place address; /* 1 to 31 octets */
    lldpa_place oid;     /* 0 to 128 octets */
    uint32_t interface;  /* the interface number */
    uint8_t family;      /* the address family, such as 1 for IPv4, 2 for IPv6 and 6 for all 802 media */
    uint8_t numbering;   /* the interface numbering subtype */
} lldpa_management;

/*
 * Reads the body of a Management Address TLV.
 *   told  the fields, written if the result is true
 * Returns true exactly if the body is well formed.
 */
bool lldpa_mgmt(const uint8_t *body, size_t length, lldpa_management *told);

/*
 * Writes a TLV as text, as the command `show neighbors` does: "chassis.mac=00:11:22:33:44:55", "port.ifname=eth0",
 * "chassis.mgmt=192.0.2.1,2,3,". The value follows the first '='. Texts are escaped as by lldpa_escape.
 *   kind    the type of the TLV: 1 for a Chassis ID, 2 for a Port ID, or 4 to 127
 *   body    its body, which must be well formed for the type and have at most 511 octets
 *   room    LLDPA_VALUE_ROOM octets are always enough
 *   length  the number of octets written, on success
 * Returns the first of these that applies: LLDPA_OUT_OF_RANGE for the type or the body, LLDPA_NO_ROOM; otherwise 0.
 */
uint8_t lldpa_tlv_text(uint32_t kind, const uint8_t *body, size_t body_length, uint8_t *room, size_t room_length,
                       size_t *length);

/*
 * Escapes a text that came from a neighbor, so that you can print it: replaces each backslash by two, and each octet
 * that is not printable ASCII by a backslash, an x and two hexadecimal digits.
 *   text    at most 511 octets
 *   room    four times as many octets are always enough
 *   length  the number of octets written, on success
 * Returns the first of these that applies: LLDPA_OUT_OF_RANGE if the text is too long, LLDPA_NO_ROOM; otherwise 0.
 */
uint8_t lldpa_escape(const uint8_t *text, size_t text_length, uint8_t *room, size_t room_length, size_t *length);

/* ---- Building --------------------------------------------------------------------------------------------------- */

/* A TLV to build: its body, and its type. */
typedef struct lldpa_tlv {
    const uint8_t *body;
    size_t length;
    uint8_t kind;
} lldpa_tlv;

/* Why a TLV is left out. The checks come in the order KIND, BODY, FULL. */
#define LLDPA_FULL 11 /* the TLV and the End Of LLDPDU do not fit in 1500 octets */
#define LLDPA_KIND 12 /* the type is not 4 to 127, or is 4 to 7 and was put before; or the LLDPDU has a TTL of 0 */
#define LLDPA_BODY 13 /* the body is over 511 octets, or not well formed for the type */

/*
 * Builds an LLDPDU in the caller's buffer `room`.
 *   chassis, port  the bodies of the Chassis ID and the Port ID, 2 to 256 octets each, beginning with the subtype
 *   ttl            the time to live in seconds; 0 makes a shutdown LLDPDU, which has no other TLVs
 *   tlvs           any number of TLVs to put after the Time To Live, in this order
 *   faults         receives a number for each TLV: 0 if it was put, or 11 to 13 if it is left out
 *   room           LLDPA_PDU_ROOM octets are always enough
 *   length         the number of octets of the LLDPDU, including its End Of LLDPDU
 * Returns the first of these that applies: LLDPA_OUT_OF_RANGE for the length of an identifier; LLDPA_NO_ROOM if
 * faults has fewer elements than tlvs; LLDPA_NO_ROOM if the LLDPDU is longer than room; otherwise 0. If the LLDPDU is
 * longer than room, only faults is written. The other errors write nothing.
 */
uint8_t lldpa_build(const uint8_t *chassis, size_t chassis_length, const uint8_t *port, size_t port_length,
                    uint16_t ttl, const lldpa_tlv *tlvs, size_t tlv_count, uint8_t *faults, size_t fault_count,
                    uint8_t *room, size_t room_length, size_t *length);

/* ---- The transmit machine of one port (clause 9) ---------------------------------------------------------------- */

/* A transmit machine, made by lldpa_transmit_new. You may copy it and read its fields, but not change them. */
typedef struct lldpa_machine {
    uint16_t timer;     /* txTTR: ticks until the next frame is due */
    uint8_t credit_max; /* txCreditMax */
    uint8_t fast_init;  /* txFastInit */
    uint8_t reinit;     /* reinitDelay, in seconds */
    uint8_t credit;     /* how many ordinary frames may be sent before the next tick, 0 to credit_max */
    uint8_t wait;       /* ticks until the port may start again */
    uint8_t left;       /* txFast: how many frames of a fast transmission are left */
    bool waiting;       /* a frame is wanted and was not sent yet */
    bool active;        /* the port has started, and has neither stopped nor lost its link since */
    bool allowed;       /* the port may transmit */
    bool up;            /* its link is up */
} lldpa_machine;

/* What happened: the causes for lldpa_transmit_event. */
#define LLDPA_CAUSE_TICK 0     /* one second has passed */
#define LLDPA_CAUSE_CHANGE 1   /* something in the local system has changed */
#define LLDPA_CAUSE_NEIGHBOR 2 /* a new neighbor was stored */
#define LLDPA_CAUSE_STOP 3     /* from now on the port may not transmit */
#define LLDPA_CAUSE_ALLOW 4    /* from now on the port may transmit */
#define LLDPA_CAUSE_DOWN 5     /* the link went down */
#define LLDPA_CAUSE_UP 6       /* the link came up */
#define LLDPA_CAUSE_NOTHING 7  /* nothing that concerns transmitting */

/* Which frame to send. */
#define LLDPA_QUIET 0    /* none */
#define LLDPA_ORDINARY 1 /* a frame with all that the port announces */
#define LLDPA_SHUTDOWN 2 /* a frame with a time to live of 0 */

/*
 * Makes a machine with full credit, for a port that is not active and has its link up.
 *   credit_max  txCreditMax, 1 to 10
 *   fast_init   txFastInit, 1 to 8
 *   reinit      reinitDelay in seconds, 1 to 10
 *   allowed     whether the port may transmit from the start
 * Returns 0, or LLDPA_OUT_OF_RANGE, which leaves the machine unchanged.
 */
uint8_t lldpa_transmit_new(lldpa_machine *machine, uint32_t credit_max, uint32_t fast_init, uint32_t reinit,
                           bool allowed);

/*
 * Applies one event, and writes which frame to send.
 *   cause     LLDPA_CAUSE_TICK to LLDPA_CAUSE_NOTHING
 *   interval  the tx-interval in force after the event, 1 to 3600 seconds
 *   mark      LLDPA_QUIET, LLDPA_ORDINARY or LLDPA_SHUTDOWN, written on success
 * Returns 0; or LLDPA_OUT_OF_RANGE for the cause or the interval, or if the machine's credit is above its
 * credit_max. On an error nothing is written.
 */
uint8_t lldpa_transmit_event(lldpa_machine *machine, uint32_t cause, uint32_t interval, uint8_t *mark);

/* ---- The agent -------------------------------------------------------------------------------------------------- */

/* A text, without a 0 at the end. */
typedef struct lldpa_text {
    const uint8_t *octets;
    size_t length;
} lldpa_text;

/* The role that the agent announces in its System Capabilities. */
#define LLDPA_STATION 0
#define LLDPA_BRIDGE 1
#define LLDPA_ROUTER 2

/* The options of lldpa_open. */
typedef struct lldpa_options {
    size_t size;             /* sizeof(lldpa_options) */
    const lldpa_text *ports; /* the names of the ports in order, each 1 to 15 letters, digits, '-', '_', '/' or ':' */
    size_t port_count;       /* 1 to 64 */
    lldpa_text hostname;     /* at most 255 octets, printable ASCII */
    uint8_t mac[6];          /* the source address and the chassis ID of every frame */
    uint8_t management[4];   /* the IPv4 management address that the agent announces */
    bool managed;            /* whether there is a management address; if not, management is not read */
    bool receive_only;       /* whether each port begins with the status rx-only */
    uint32_t role;           /* LLDPA_STATION, LLDPA_BRIDGE or LLDPA_ROUTER */
    uint32_t max_neighbors;  /* how many neighbors each port may hold, 1 to 128 */
    uint32_t credit_max;     /* txCreditMax, 1 to 10 */
    uint32_t fast_init;      /* txFastInit, 1 to 8 */
    uint32_t reinit;         /* reinitDelay in seconds, 1 to 10 */
} lldpa_options;

/*
 * Begin with these: no ports, no hostname, the MAC address 00:00:00:00:00:00, and the defaults of the program lldpa. The
 * System Description is "lldpa"; the command `configure system description "TEXT"` of lldpa_command sets another one.
 */
#define LLDPA_OPTIONS_INIT                                                                                              \
    { sizeof(lldpa_options), NULL, 0, { NULL, 0 }, { 0, 0, 0, 0, 0, 0 }, { 0, 0, 0, 0 }, false, false, LLDPA_STATION,   \
      32, 5, 4, 2 }

/*
 * A handle of an agent. Initialize it with zeros: lldpa_agent agent = {0}. Do not read or change its fields, and do
 * not copy it while it is open. After lldpa_close you may open it again.
 */
typedef struct lldpa_agent {
    void *held;
    bool open;
} lldpa_agent;

/* Why an agent is not opened. The faults from 22 on are in the order of the checks. */
#define LLDPA_MEMORY 21         /* there was not enough memory */
#define LLDPA_NO_PORTS 22       /* no port was named */
#define LLDPA_TOO_MANY_PORTS 23 /* more than 64 ports were named */
#define LLDPA_PORT_NAME 24      /* the name of a port is not valid */
#define LLDPA_SAME_PORT 25      /* two ports have the same name */
#define LLDPA_TEXT 26           /* the hostname is over 255 octets, or has an octet that is not printable */

/*
 * Opens an agent, and allocates all memory that it will ever need: about 1.6 KB for each of max_neighbors neighbors on
 * each port. At first the link of each port is up. Returns the first of these that applies: LLDPA_OUT_OF_RANGE if
 * `size` is less than in 1.0.0 or more than the library knows; LLDPA_IS_OPEN; LLDPA_OUT_OF_RANGE for role,
 * max_neighbors, credit_max, fast_init or reinit, or for a text that is not UTF-8; the first fault, 22 to 26;
 * LLDPA_MEMORY; otherwise 0, and the agent is open. An error leaves the handle unchanged. With more than 64 names the call fails, and
 * names after the 65th are not read.
 */
uint8_t lldpa_open(const lldpa_options *options, lldpa_agent *agent);

/* A frame that you must send: lldpa_frame_of writes it. */
typedef struct lldpa_mark {
    uint8_t port; /* the number of the port, from 0, in the order of the options */
    uint8_t mark; /* LLDPA_ORDINARY or LLDPA_SHUTDOWN */
} lldpa_mark;

/* The frames that you must send now: the first `count` items, by ascending port. */
typedef struct lldpa_marks {
    lldpa_mark items[64];
    uint8_t count;
} lldpa_marks;

/* What lldpa_ticks did. A tick is one second. */
typedef struct lldpa_ticks_taken {
    uint32_t taken;    /* the number of seconds that were counted */
    uint32_t aged_out; /* the number of neighbors that aged out at the last of these seconds */
} lldpa_ticks_taken;

/*
 * Reports to the agent that `count` seconds have passed. The call stops early after the first second at which a port
 * sends or a neighbor ages out. Returns 0 or LLDPA_NOT_OPEN.
 *   count  the seconds that passed; LLDPA_NEVER waits for the next event, and ends soon if nothing is ever due
 *   marks  the frames to send at the last second counted, on success
 *   told   written on success. If told->taken is less than count, call lldpa_ticks again for the remaining seconds.
 *          lldpa_aged writes the neighbors that aged out
 * Take the seconds from a clock that nobody sets and that goes on while the machine sleeps, such as CLOCK_BOOTTIME of
 * Linux. When all of them are reported, send the frame of the last mark of each port. After a pause of a day there were
 * marks for each tx-interval that has passed, and neighbors need only the last of these frames.
 */
uint8_t lldpa_ticks(lldpa_agent *agent, uint32_t count, lldpa_marks *marks, lldpa_ticks_taken *told);

#define LLDPA_NEVER UINT32_MAX /* nothing is due */

/*
 * Writes the number of seconds until a port sends or a neighbor ages out, if you make no other call first. Returns 0 or
 * LLDPA_NOT_OPEN.
 *   seconds  1 to 65535, or LLDPA_NEVER, on success
 * You may sleep that long, and then pass all these seconds to lldpa_ticks, which stops only after the last of them.
 * Until then nothing changes except the neighbors' remaining seconds and the ports' credit. Any other call may change
 * the number, so call lldpa_due again after it. If you wake for something else, such as a frame, first report the
 * seconds that passed, and then the frame.
 */
uint8_t lldpa_due(const lldpa_agent *agent, uint32_t *seconds);

/* What a frame did. */
#define LLDPA_NEWS_NOT_LLDP 1 /* it is not an LLDP frame */
#define LLDPA_NEWS_DEAF 2     /* the port does not receive, or its link is down: the frame is ignored */
#define LLDPA_NEWS_REFUSED 3  /* its LLDPDU has a fault */
#define LLDPA_NEWS_NEW 4      /* a neighbor that was not held is stored */
#define LLDPA_NEWS_CHANGED 5  /* a neighbor that is held sent different octets, which are stored */
#define LLDPA_NEWS_SAME 6     /* a neighbor that is held sent the same octets; its time to live starts again */
#define LLDPA_NEWS_DROPPED 7  /* there is no room for a neighbor that is not held */
#define LLDPA_NEWS_GONE 8     /* a neighbor that was held leaves */
#define LLDPA_NEWS_UNKNOWN 9  /* a neighbor that is not held leaves */

/* What a frame did. The octets of both ranges together identify the neighbor among all neighbors of its port. */
typedef struct lldpa_news {
    lldpa_place chassis; /* in the frame: the body of the Chassis ID; 0 and 0 if `what` is below LLDPA_NEWS_NEW */
    lldpa_place port;    /* in the frame: the body of the Port ID, in the same form */
    uint32_t what;       /* LLDPA_NEWS_NOT_LLDP to LLDPA_NEWS_UNKNOWN */
    uint32_t fault;      /* for LLDPA_NEWS_REFUSED, the fault of the LLDPDU, 1 to 8; otherwise 0 */
} lldpa_news;

/*
 * Passes to the agent a frame that a port received. You may pass any octets: if they are not an LLDP frame, nothing
 * changes. Returns 0, LLDPA_NOT_OPEN or LLDPA_NO_PORT. First report the seconds that passed before the frame arrived
 * (lldpa_ticks): the neighbor's time to live starts at this call, and seconds that you report later reduce it. A full
 * table accepts no new neighbor, but the neighbors in it are still refreshed. Your own frame becomes a neighbor too, so
 * do not pass frames that you sent.
 *   port   the number of the port, from 0, in the order of the options
 *   marks  the frames to send, on success
 *   news   what the frame did, on success; or NULL
 */
uint8_t lldpa_frame(lldpa_agent *agent, uint32_t port, const uint8_t *octets, size_t length, lldpa_marks *marks,
                    lldpa_news *news);

/*
 * Reports that the link of a port came up or went down. A port whose link is down neither sends nor receives, but keeps
 * its neighbors until they age out. port, marks and the results are as for lldpa_frame.
 */
uint8_t lldpa_link(lldpa_agent *agent, uint32_t port, bool up, lldpa_marks *marks);

/*
 * Disables every port, which also removes all neighbors. Call it before you close the agent, and send the frames of
 * marks: lldpa_close sends none.
 * Returns 0 or LLDPA_NOT_OPEN.
 *   marks  on success: a shutdown frame on each port that was active, and no other frame
 */
uint8_t lldpa_leave(lldpa_agent *agent, lldpa_marks *marks);

/* Writes how many neighbors a port holds. Returns 0, LLDPA_NOT_OPEN or LLDPA_NO_PORT; count is written on success. */
uint8_t lldpa_neighbor_count(const lldpa_agent *agent, uint32_t port, uint32_t *count);

/* A neighbor that a port holds. */
typedef struct lldpa_held {
    lldpa_examined pdu; /* the fields of its last stored LLDPDU, as ranges of the octets in `room`. An incomplete TLV
                           at the end is not stored, and `discarded` does not count it here */
    uint32_t left;      /* seconds until it ages out */
} lldpa_held;

/*
 * Writes a neighbor of a port. lldpa_next_kept reads its TLVs from the octets.
 *   index  from 0, in the order in which neighbors were stored (LLDPA_NEWS_NEW). When a neighbor is removed, the index
 *          of each later neighbor decreases by 1
 *   room   receives told->pdu.extent octets: the neighbor's LLDPDU without the End Of LLDPDU. LLDPA_NEIGHBOR_ROOM
 *          octets are always enough
 *   told   written on success
 * Returns the first of these that applies: LLDPA_NOT_OPEN, LLDPA_NO_PORT, LLDPA_OUT_OF_RANGE for the index,
 * LLDPA_NO_ROOM; otherwise 0.
 */
uint8_t lldpa_neighbor(const lldpa_agent *agent, uint32_t port, uint32_t index, uint8_t *room, size_t room_length,
                       lldpa_held *told);

/*
 * Writes how many neighbors of a port aged out at the last call of lldpa_ticks. You may ask for the number, and read the
 * neighbors by lldpa_aged, until the next call that changes the agent. The results are as for lldpa_neighbor_count.
 */
uint8_t lldpa_aged_count(const lldpa_agent *agent, uint32_t port, uint32_t *count);

/*
 * Writes a neighbor of a port that aged out at the last call of lldpa_ticks, as lldpa_neighbor would have written it
 * one second before: told->left is 1. The agent keeps its LLDPDU only until the next call that changes the agent.
 *   index  from 0, in the order in which neighbors were stored
 * room, told and the results are as for lldpa_neighbor.
 */
uint8_t lldpa_aged(const lldpa_agent *agent, uint32_t port, uint32_t index, uint8_t *room, size_t room_length,
                   lldpa_held *told);

/* The counters of a port, each modulo 2^32. Nothing resets them. */
typedef struct lldpa_statistics_told {
    uint32_t sent;           /* ordinary frames sent */
    uint32_t shutdowns;      /* shutdown frames sent */
    uint32_t received;       /* LLDP frames that arrived while the port could receive and its link was up */
    uint32_t discarded;      /* LLDPDUs that were refused */
    uint32_t errors;         /* LLDPDUs that were refused or had a TLV discarded */
    uint32_t tlvs_discarded; /* TLVs that were discarded */
    uint32_t unrecognized;   /* kept TLVs with a type of 9 to 127 */
    uint32_t ageouts;        /* neighbors that aged out */
    uint32_t drops;          /* LLDPDUs that were dropped because there was no room */
} lldpa_statistics_told;

/* Writes the counters of a port. Returns 0, LLDPA_NOT_OPEN or LLDPA_NO_PORT; told is written on success. */
uint8_t lldpa_statistics(const lldpa_agent *agent, uint32_t port, lldpa_statistics_told *told);

/* The status of a port: what it may do. */
#define LLDPA_RX_AND_TX 0
#define LLDPA_RX_ONLY 1
#define LLDPA_TX_ONLY 2
#define LLDPA_DISABLED 3

/* The current settings of an agent. */
typedef struct lldpa_configuration_told {
    uint32_t interval;      /* tx-interval, in seconds */
    uint32_t hold;          /* tx-hold */
    uint32_t ttl;           /* the time to live of an ordinary frame, in seconds */
    uint32_t reinit;        /* reinitDelay, in seconds */
    uint32_t fast_init;     /* txFastInit */
    uint32_t credit_max;    /* txCreditMax */
    uint32_t max_neighbors; /* how many neighbors each port may hold */
    uint32_t ports;         /* how many ports there are */
    uint8_t status[64];     /* LLDPA_RX_AND_TX to LLDPA_DISABLED for each port; 0 after the last port */
} lldpa_configuration_told;

/* Writes the settings of an agent. Returns 0 or LLDPA_NOT_OPEN; told is written on success. */
uint8_t lldpa_configuration(const lldpa_agent *agent, lldpa_configuration_told *told);

/* What an agent says about its host. */
typedef struct lldpa_chassis_told {
    uint8_t mac[6];             /* the source address and the Chassis ID of each frame */
    uint8_t role;               /* LLDPA_STATION, LLDPA_BRIDGE or LLDPA_ROUTER */
    bool managed;               /* whether there is a management address */
    uint8_t management[4];      /* the IPv4 management address, or zeros */
    uint8_t hostname_length;    /* the number of octets of hostname */
    uint8_t description_length; /* the number of octets of description */
    uint8_t hostname[255];      /* the System Name: printable ASCII, then zeros */
    uint8_t description[255];   /* the System Description: printable ASCII, then zeros */
} lldpa_chassis_told;

/* Writes what an agent says about its host. Returns 0 or LLDPA_NOT_OPEN; told is written on success. */
uint8_t lldpa_chassis(const lldpa_agent *agent, lldpa_chassis_told *told);

/* What a command shows. */
#define LLDPA_SHOW_NOTHING 0 /* the command changed something */
#define LLDPA_SHOW_NEIGHBORS 1
#define LLDPA_SHOW_STATISTICS 2
#define LLDPA_SHOW_CHASSIS 3
#define LLDPA_SHOW_CONFIGURATION 4

/* Why a command is refused. The leftmost error in the line counts. */
#define LLDPA_UNKNOWN 31      /* a word is missing, or is not known at its position */
#define LLDPA_NO_SUCH_PORT 32 /* no port has that name */
#define LLDPA_NUMBER 33       /* a word is not one or more decimal digits */
#define LLDPA_RANGE 34        /* a number is not in its range */
#define LLDPA_BAD_TEXT 35     /* a text is over 255 octets, or has an octet that is not printable */
#define LLDPA_EXTRA 36        /* a word follows a complete command */
#define LLDPA_QUOTE 37        /* a double quote is inside a word, or is not closed */
#define LLDPA_IN_USE 38       /* a port holds more neighbors than the new limit */

/*
 * Runs a command, "configure ..", "update" or "show ..", without a line feed; lldpa(1) describes the commands. A show
 * command changes nothing: pass the number of the show to lldpa_show_lines to get the lines.
 *   show   LLDPA_SHOW_NOTHING, or the number of the show, on success
 *   marks  the frames to send, on success
 * Returns 0, or 31 to 38 or LLDPA_NOT_OPEN. On an error nothing changes.
 */
uint8_t lldpa_command(lldpa_agent *agent, const uint8_t *line, size_t length, uint32_t *show, lldpa_marks *marks);

/* The part of a show that was written. */
typedef struct lldpa_lines {
    size_t length; /* the number of octets, including a line feed after each line */
    uint32_t next; /* the line to continue with; if no line is left, the number of lines, or `from` if it is greater */
    bool done;     /* whether no line is left */
} lldpa_lines;

/*
 * Writes lines of a show: as many whole lines as fit, starting with line `from`.
 *   show  LLDPA_SHOW_NEIGHBORS to LLDPA_SHOW_CONFIGURATION
 *   from  the first line that you want, from 0
 *   room  LLDPA_LINE_ROOM octets hold any line
 *   told  written on success
 * Returns the first of these that applies: LLDPA_OUT_OF_RANGE for the show, LLDPA_NOT_OPEN, LLDPA_NO_ROOM if not
 * even the first line fits; otherwise 0. It writes only on success. To get all lines, call it again with `next` as
 * `from`, and make no other call on the agent in between. A call that writes neighbors goes on where the last one
 * stopped, if nothing changed in between and `from` does not come before; otherwise it also goes through the neighbors
 * before `from`.
 */
uint8_t lldpa_show_lines(const lldpa_agent *agent, uint32_t show, uint32_t from, uint8_t *room, size_t room_length,
                         lldpa_lines *told);

/*
 * Writes the frame that a mark asks for, with the current settings. Send it on the port of the mark. A frame has the
 * destination 01-80-C2-00-00-0E, the agent's MAC address as source, the EtherType 88-CC and the LLDPDU, and is not
 * padded to 60 octets: the driver does that. The Chassis ID is the MAC address (subtype 4), and the Port ID the name of
 * the port (subtype 5). An ordinary frame then has the time to live, a Port Description (the port's name again), System
 * Name (the hostname), System Description, System Capabilities (by the role) and, if there is one, the Management
 * Address. A shutdown frame has a time to live of 0 and no further TLVs.
 *   mark    LLDPA_ORDINARY or LLDPA_SHUTDOWN
 *   room    LLDPA_FRAME_ROOM octets are always enough
 *   length  the number of octets of the frame, on success
 * Returns the first of these that applies: LLDPA_OUT_OF_RANGE for the mark, LLDPA_NOT_OPEN, LLDPA_NO_PORT,
 * LLDPA_NO_ROOM; otherwise 0.
 */
uint8_t lldpa_frame_of(const lldpa_agent *agent, uint32_t port, uint32_t mark, uint8_t *room, size_t room_length,
                       size_t *length);

/* Closes an agent, and frees its memory. Does nothing if it is not open. */
void lldpa_close(lldpa_agent *agent);

#ifdef __cplusplus
}
#endif

#endif
