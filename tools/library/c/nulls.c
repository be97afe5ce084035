/*
 * Calls each function of the library with NULL for each pointer, with handles that are not open and
 * with ports that an agent does not have, also two of these at once. A call must report the first
 * and write nothing. NULL with a length of 0 means no octets, no TLVs,
 * no ports or no buffer. tools/library/library_front.py makes nulls.rows of lldpa.h.
 *     nulls
 * Failed checks are reported; the last line is `N passed, M failed`.
 */
#include "checks.h"
#include "lldpa.h"

/* Everything that a call may write to, except an agent. */
typedef struct written {
    lldpa_place place;
    lldpa_examined examined;
    lldpa_capabilities capabilities;
    lldpa_management management;
    lldpa_machine machine;
    lldpa_marks marks;
    lldpa_lines lines;
    uint8_t room[1514];
    uint8_t faults[2];
    uint8_t octet;
    size_t length;
    uint64_t any[12][512]; /* what each parameter of a row of nulls.rows points to */
} written;

static written now;
static written before;
static lldpa_agent agent;

#define AT(parameter) ((void *)now.any[parameter])

static const uint8_t frame[] = "\1\200\302\0\0\16\0\21\"3DU\210\314\2\7\4\0\21\"3DU\4\5\5eth0\6\2\0x\0";

/* Fills all that a call may write to with an octet. What a call also reads is valid: the machine, and the bools of a row,
 * which are 0 or 1. */
static void fill(uint8_t octet)
{
    memset(&now, octet, sizeof now);
    memset(now.any, octet & 1, sizeof now.any);
    lldpa_transmit_new(&now.machine, 5, 4, 2, true);
    memcpy(&before, &now, sizeof now);
}

static void begin(void)
{
    fill(0x5a);
}

static int is_as_before(void)
{
    return memcmp(&now, &before, sizeof now) == 0;
}

/* Checks that a call returns this answer and writes nothing: neither over 0x5a, nor a 0x5a over another octet. */
#define ANSWERS(wanted, call)                                                                                          \
    do {                                                                                                               \
        begin();                                                                                                       \
        int answer = (call);                                                                                           \
        holds(answer == (wanted) && is_as_before(), #call);                                                            \
        fill(0xa5);                                                                                                    \
        answer = (call);                                                                                               \
        holds(answer == (wanted) && is_as_before(), #call);                                                            \
    } while (0);

/* Calls lldpa_build with the identifiers of the frame and with these other arguments. */
static uint8_t built(const lldpa_tlv *tlvs, size_t count, uint8_t *faults, size_t fault_count, uint8_t *room,
                     size_t room_length, size_t *length)
{
    return lldpa_build(frame + 16, 7, frame + 25, 5, 120, tlvs, count, faults, fault_count, room, room_length,
                       length);
}

/* What cannot be read. */
#define READS(CALL)                                                                                                    \
    CALL(false, lldpa_caps((const uint8_t *)"\0\4\0\24", 4, &now.capabilities))                                        \
    CALL(false, lldpa_mgmt((const uint8_t *)"\5\1\n\0\0\1\2\0\0\0\1", 11, &now.management))                            \
    CALL(false, lldpa_frame_pdu(frame, 13, &now.place))

static const lldpa_tlv two_tlvs[2] = {{frame, 4, 5}, {NULL, 1, 6}};

/* What cannot be built. The last rows have two errors each. */
#define BUILDS(CALL)                                                                                                   \
    CALL(LLDPA_OUT_OF_RANGE, lldpa_build(frame, 1, frame, 5, 120, two_tlvs, 1, now.faults, 0, now.room,                \
         1500, &now.length))                                                                                           \
    CALL(LLDPA_OUT_OF_RANGE, lldpa_build(frame, 7, frame, 1, 120, two_tlvs, 1, now.faults, 0, now.room,                \
         1500, &now.length))                                                                                           \
    CALL(LLDPA_OUT_OF_RANGE, lldpa_build(frame, 7, frame, 257, 120, two_tlvs, 1, now.faults, 1, now.room,              \
         21, &now.length))                                                                                             \
    CALL(LLDPA_NO_ROOM, built(two_tlvs, 1, now.faults, 0, now.room, 21, &now.length))                                  \
    CALL(LLDPA_NULL, built(two_tlvs, 2, now.faults, 2, now.room, 1500, &now.length))                                   \
    CALL(LLDPA_NULL, lldpa_build(frame, 1, frame, 5, 120, two_tlvs, 2, now.faults, 1, now.room, 0, &now.length))

/* Calls that only read accept a handle in read-only memory. */
static const lldpa_agent none = {NULL, false};
static lldpa_agent closed;

static const lldpa_tlv tlvs[2] = {{frame, 4, 5}, {frame, 0, 9}};

/* Checks that two calls have the same answer and write the same. */
#define SAME(one, other)                                                                                               \
    do {                                                                                                               \
        static written then;                                                                                           \
        begin();                                                                                                       \
        int answer = (one);                                                                                            \
        memcpy(&then, &now, sizeof now);                                                                               \
        begin();                                                                                                       \
        holds(answer == (other) && memcmp(&then, &now, sizeof now) == 0, #one);                                        \
    } while (0);

/* Calls with NULL, handles that are not open, and ports that the agent does not have. */
static void call_all(void)
{
#include "nulls.rows"
}

/* Checks that a TLV with NULL for its body is treated like one with a body of no octets. */
static void build_empty_bodies(void)
{
    for (int kind = 0; kind < 256; kind++) {
        lldpa_tlv tlv = {frame, 0, (uint8_t)kind};
        begin();
        uint8_t wanted = built(&tlv, 1, now.faults, 1, now.room, sizeof now.room, &now.length);
        memcpy(&before, &now, sizeof now);
        written then = before;
        begin();
        tlv.body = NULL;
        uint8_t answer = built(&tlv, 1, now.faults, 1, now.room, sizeof now.room, &now.length);
        holds(answer == wanted && memcmp(&then, &now, sizeof now) == 0, "a body without octets");
    }
}

static void build_badly(void)
{
    uint8_t *room = now.room;
    BUILDS(ANSWERS)
    begin();
    holds(built(NULL, 0, NULL, 0, room, 1500, &now.length) == LLDPA_OK && now.length == 22, "no TLVs, by NULL");
    ANSWERS(LLDPA_NO_ROOM, built(NULL, 0, NULL, 0, room, 21, &now.length));
    build_empty_bodies();
}

/* Checks that opening refuses these options, and that the handle is not open. */
#define REFUSES(options, wanted)                                                                                       \
    do {                                                                                                               \
        lldpa_agent handle = {0};                                                                                      \
        holds(lldpa_open(options, &handle) == (wanted) && !handle.open, #options " " #wanted);                         \
    } while (0)

/* Options with two errors each, and the one that lldpa.h names first. The law checks_are_in_order has the order of those
 * without NULL. */
#define GOOD {(const uint8_t *)"eth0", 4}
#define MISSING {NULL, 1}
static const struct {
    const char *what;
    size_t size;
    lldpa_text names[2];
    size_t port_count;
    lldpa_text hostname;
    uint32_t role;
    uint32_t most_neighbors;
    uint8_t wanted;
} doubly_wrong[] = {
    {"another size, and a name that is missing",
     sizeof(lldpa_options) - 1, {MISSING}, 1, GOOD, 0, 2, LLDPA_OUT_OF_RANGE},
    {"a role that is none, and a name that is missing",
     sizeof(lldpa_options), {MISSING}, 1, GOOD, 3, 2, LLDPA_NULL},
    {"a number out of range, and a hostname that is missing",
     sizeof(lldpa_options), {GOOD}, 1, MISSING, 0, 129, LLDPA_NULL},
};

static void open_doubly(void)
{
    for (size_t at = 0; at < sizeof doubly_wrong / sizeof *doubly_wrong; at++) {
        lldpa_text names[66];
        lldpa_options options = LLDPA_OPTIONS_INIT;
        for (size_t name = 0; name < 66; name++) {
            names[name] = doubly_wrong[at].names[name == 1];
        }
        options.size = doubly_wrong[at].size;
        options.ports = names;
        options.port_count = doubly_wrong[at].port_count;
        options.hostname = doubly_wrong[at].hostname;
        options.role = doubly_wrong[at].role;
        options.max_neighbors = doubly_wrong[at].most_neighbors;
        lldpa_agent handle = {0};
        uint8_t answer = lldpa_open(&options, &handle);
        holds(answer == doubly_wrong[at].wanted && !handle.open, doubly_wrong[at].what);
    }
}

static void open_nulls(void)
{
    lldpa_text names[66] = {{(const uint8_t *)"eth0", 4}, {NULL, 4}};
    lldpa_options options = LLDPA_OPTIONS_INIT;
    options.ports = names;
    options.port_count = 1;
    ANSWERS(LLDPA_NULL, lldpa_open(NULL, &agent));
    ANSWERS(LLDPA_NULL, lldpa_open(&options, NULL));
    options.hostname.length = 1;
    REFUSES(&options, LLDPA_NULL);
    options.hostname.length = 0;
    options.port_count = 2;
    REFUSES(&options, LLDPA_NULL);
    names[1].length = 0;
    REFUSES(&options, LLDPA_PORT_NAME);
    options.port_count = 66;
    REFUSES(&options, LLDPA_TOO_MANY_PORTS);
    options.ports = NULL;
    REFUSES(&options, LLDPA_NULL);
    options.port_count = 0;
    REFUSES(&options, LLDPA_NO_PORTS);
    options.size += 8; /* a later library */
    REFUSES(&options, LLDPA_OUT_OF_RANGE);
    options.size = 71; /* those of 1.0.0 have 72 octets */
    REFUSES(&options, LLDPA_OUT_OF_RANGE);
    options.size = sizeof options;
    options.ports = names;
    options.port_count = 1;
    open_doubly();
    holds(lldpa_open(&options, &agent) == LLDPA_OK, "an agent");
    ANSWERS(LLDPA_IS_OPEN, lldpa_open(&options, &agent));
    options.role = 3;
    ANSWERS(LLDPA_IS_OPEN, lldpa_open(&options, &agent));
    options.hostname = (lldpa_text){NULL, 1};
    ANSWERS(LLDPA_NULL, lldpa_open(&options, &agent));
    options.size--;
    ANSWERS(LLDPA_OUT_OF_RANGE, lldpa_open(&options, &agent));
}

static size_t shown(uint8_t *room, size_t length)
{
    size_t used = 0;
    for (uint8_t show = LLDPA_SHOW_NEIGHBORS; show <= LLDPA_SHOW_CONFIGURATION; show++) {
        lldpa_lines told = {0};
        holds(lldpa_show_lines(&agent, show, 0, room + used, length - used, &told) == LLDPA_OK && told.done,
              "a show of the agent");
        used += told.length;
    }
    return used;
}

int main(void)
{
    static uint8_t first[8192], last[8192];
    READS(ANSWERS)
    build_badly();
    open_nulls();
    size_t length = shown(first, sizeof first);
    call_all();
    begin();
    holds(lldpa_escape(NULL, 0, NULL, 0, &now.length) == LLDPA_OK && now.length == 0, "no octets, escaped");
    lldpa_close(&closed);
    holds(!closed.open, "a handle is open after it was closed");
    holds(shown(last, sizeof last) == length && memcmp(first, last, length) == 0, "the agent has changed");
    begin();
    holds(lldpa_frame(&agent, 0, NULL, 0, &now.marks, NULL) == LLDPA_OK, "no octets as a frame");
    holds(lldpa_version() == LLDPA_VERSION, "another version");
    lldpa_close(NULL);
    lldpa_close(&agent);
    return end();
}
