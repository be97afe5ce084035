/*
 * Tests what the rows and transcripts of examples/ and the proved callers of the library leave out: the
 * order of checks around the proved functions, texts that were worked out by hand, in buffers that are just
 * too small, and octets that are not an LLDPDU, a frame or a command.
 *     ranges
 * Failed checks are reported; the last line is `N passed, M failed`.
 */
#include "checks.h"
#include "lldpa.h"

static const uint8_t frame[] = "\1\200\302\0\0\16\0\21\"3DU\210\314\2\7\4\0\21\"3DU\4\5\5eth0\6\2\0x\0";
static const lldpa_text names[] = {{(const uint8_t *)"eth0", 4}, {(const uint8_t *)"eth1", 4}};
static lldpa_agent agent, closed;
static lldpa_marks marks;
static uint8_t room[2100];
static size_t length;

static lldpa_options options_of(const lldpa_text *ports, size_t count)
{
    lldpa_options options = LLDPA_OPTIONS_INIT;
    options.ports = ports;
    options.port_count = count;
    return options;
}

/* Checks the order of checks where the C code around the proved functions could change it. The law
 * checks_are_in_order has the order of all checks of the proved functions. */
static void try_two_wrong(void)
{
    lldpa_options wrong = options_of(NULL, 2);
    lldpa_lines lines;
    wrong.size--;
    holds(lldpa_open(&wrong, &agent) == LLDPA_OUT_OF_RANGE, "another size, NULL, and an agent that is open");
    wrong = options_of(names, 0);
    wrong.role = 3;
    holds(lldpa_open(&wrong, &agent) == LLDPA_IS_OPEN, "an agent that is open, and options that are wrong");
    holds(lldpa_show_lines(&closed, 5, 0, room, 0, &lines) == LLDPA_OUT_OF_RANGE, "lines, no show and no agent");
    holds(lldpa_frame_of(&closed, 64, 3, room, 0, &length) == LLDPA_OUT_OF_RANGE, "a frame to send, no mark and no agent");
    holds(lldpa_frame_of(&agent, 2, 1, room, 0, &length) == LLDPA_NO_PORT, "a frame to send, no port and no room");
}

/* Checks what is told of a frame that is refused, and that the frames to send do not depend on who asks for news. */
static void try_news(void)
{
    lldpa_options options = options_of(names, 1);
    lldpa_agent one = {0}, other = {0};
    lldpa_marks wanted = {.count = 9}, found = {.count = 9};
    lldpa_news news = {.fault = 9};
    uint8_t refused[sizeof frame - 1];
    memcpy(refused, frame, sizeof refused);
    refused[14] = 4;
    holds(lldpa_open(&options, &one) == LLDPA_OK && lldpa_open(&options, &other) == LLDPA_OK, "two agents");
    holds(lldpa_frame(&one, 0, frame, sizeof frame - 1, &wanted, &news) == LLDPA_OK && news.what == LLDPA_NEWS_NEW &&
              news.fault == 0, "news of a new neighbor");
    holds(lldpa_frame(&other, 0, frame, sizeof frame - 1, &found, NULL) == LLDPA_OK && found.count == wanted.count &&
              memcmp(found.items, wanted.items, wanted.count * sizeof *wanted.items) == 0, "the frames to send without news");
    holds(lldpa_frame(&one, 0, refused, sizeof refused, &wanted, &news) == LLDPA_OK && news.what == LLDPA_NEWS_REFUSED &&
              news.fault == LLDPA_NO_CHASSIS && news.chassis.length == 0, "news of a frame that is refused");
    lldpa_close(&one);
    lldpa_close(&other);
}

/* Checks that the longest fault text just fits LLDPA_FAULT_ROOM. A contract fixes the texts. */
static void try_words(void)
{
    uint8_t room[LLDPA_FAULT_ROOM];
    size_t length = 0, longest = 0;
    for (uint32_t fault = 0; fault < 300; fault++) {
        if (lldpa_fault_text(fault, room, sizeof room, &length) == LLDPA_OK) {
            longest = length > longest ? length : longest;
            holds(lldpa_fault_text(fault, room, length - 1, &length) == LLDPA_NO_ROOM, "a buffer too small for a fault's text");
        }
    }
    holds(longest == LLDPA_FAULT_ROOM, "the longest text of a fault");
    holds(lldpa_fault_text(256 + LLDPA_MEMORY, room, sizeof room, &length) == LLDPA_OUT_OF_RANGE, "a fault over 255");
    holds(lldpa_fault_text(LLDPA_NO_CHASSIS, room, sizeof room, &length) == LLDPA_OK && length == 33 &&
              memcmp(room, "the first TLV is not a Chassis ID", 33) == 0, "the text of a fault");
}

/* Writes a TLV, or a text if the type is 0. */
static uint8_t value_of(uint32_t kind, octets body, uint8_t *room, size_t room_length, size_t *length)
{
    return kind == 0 ? lldpa_escape(body.at, body.length, room, room_length, length)
                     : lldpa_tlv_text(kind, body.at, body.length, room, room_length, length);
}

/* Tests TLVs and texts. The output was worked out by hand; NULL means that the TLV is refused. */
static void try_values(void)
{
    static const struct {
        uint32_t kind;
        const char *body;
        size_t length;
        const char *wanted;
    } rows[] = {
        {1, "\4\0\x11\x22\x33\x44\x55", 7, "chassis.mac=00:11:22:33:44:55"},
        {1, "\4\0\x11", 3, "chassis.unhandled=040011"},
        {1, "\5\1\xc0\0\2\1", 6, "chassis.ip=192.0.2.1"},
        {1, "\7a\n\\", 4, "chassis.local=a\\x0a\\\\"},
        {1, "\7", 1, NULL},
        {2, "\5eth0", 5, "port.ifname=eth0"},
        {2, "\3\0\x11\x22\x33\x44\x55", 7, "port.mac=00:11:22:33:44:55"},
        {2, "", 0, NULL},
        {3, "\0x", 2, NULL},
        {4, "\x1b[2J", 4, "port.descr=\\x1b[2J"},
        {5, "", 0, "chassis.name="},
        {7, "\0\x14\0\4", 4, "chassis.caps=Bridge:on,Router:off"},
        {7, "\0\4\0\x14", 4, NULL},
        {8, "\5\1\xc0\0\2\1\2\0\0\0\3\0", 12, "chassis.mgmt=192.0.2.1,2,3,"},
        {8, "\5\1\xc0\0\2\1\2\0\0\0\3", 11, NULL},
        {127, "\0\x80\xc2\1\0\1", 6, "org.0080c2.1=0001"},
        {126, "\1", 1, "unknown.126=01"},
        {128, "", 0, NULL}, {257, "\4a", 2, NULL}, {UINT32_MAX, "", 0, NULL},
        {0, "sw1\t\xff ~\\", 8, "sw1\\x09\\xff ~\\\\"},
        {0, "", 0, ""},
    };
    uint8_t room[LLDPA_VALUE_ROOM];
    for (size_t at = 0; at < sizeof rows / sizeof *rows; at++) {
        uint32_t kind = rows[at].kind;
        octets body = copied(rows[at].body, rows[at].length);
        size_t length = 77, wanted = rows[at].wanted != NULL ? strlen(rows[at].wanted) : 0;
        uint8_t answer = value_of(kind, body, room, sizeof room, &length);
        if (rows[at].wanted == NULL) {
            holds(answer == LLDPA_OUT_OF_RANGE && length == 77, "a TLV that is not well formed");
        } else {
            int is_so = length == wanted && memcmp(room, rows[at].wanted, wanted) == 0;
            holds(answer == LLDPA_OK && is_so, rows[at].wanted);
            holds(wanted == 0 || value_of(kind, body, room, wanted - 1, &length) == LLDPA_NO_ROOM, "a buffer that is too small");
        }
        free(body.at);
    }
}

/* Returns random octets, the same ones in each run. */
static uint8_t odd(void)
{
    static uint32_t state = 1;
    state = state * 1664525u + 1013904223u;
    return (uint8_t)(state >> 24);
}

static octets odd_octets(size_t length)
{
    octets block = {taken(length), length};
    for (size_t at = 0; at < length; at++) {
        block.at[at] = odd() < 64 ? 0 : odd();
    }
    return block;
}

/* Checks that a walk over random octets, from any start, ends and returns bodies within them. */
static void try_odd_walks(void)
{
    for (unsigned done = 0; done < 500; done++) {
        octets block = odd_octets(odd() % 64u);
        lldpa_kept walk = LLDPA_KEPT_INIT, last;
        lldpa_examined told;
        size_t steps = 0;
        int is_so = lldpa_examine(block.at, block.length, &told) <= LLDPA_REPEATED;
        walk.next = done % 2 == 0 ? 0 : odd();
        for (last = walk; steps <= block.length && lldpa_next_kept(block.at, block.length, &walk); steps++) {
            is_so = is_so && walk.body.start <= block.length && walk.body.length <= block.length - walk.body.start;
            last = walk;
        }
        holds(is_so && steps <= block.length, "a walk over other octets");
        holds(last.body.start == walk.body.start && last.next == walk.next, "a walk that has ended");
        free(block.at);
    }
}

static void try_odd_events(void)
{
    lldpa_options options = options_of(names, 1);
    lldpa_agent odd_one = {0};
    holds(lldpa_open(&options, &odd_one) == LLDPA_OK, "an agent");
    for (unsigned done = 0; done < 300; done++) {
        octets block = odd_octets(done % 100);
        uint32_t show = 0;
        holds(lldpa_frame(&odd_one, 0, block.at, block.length, &marks, NULL) == LLDPA_OK, "odd octets as a frame");
        uint8_t answer = lldpa_command(&odd_one, block.at, block.length, &show, &marks);
        holds(answer == LLDPA_UNKNOWN || answer == LLDPA_QUOTE, "odd octets as a command");
        free(block.at);
    }
    lldpa_close(&odd_one);
}

int main(void)
{
    lldpa_options options = options_of(names, 2);
    lldpa_news news;
    holds(lldpa_open(&options, &agent) == LLDPA_OK, "an agent");
    holds(lldpa_frame(&agent, 1, frame, sizeof frame - 1, &marks, &news) == LLDPA_OK, "a frame on the second port");
    uint32_t counts[2] = {9, 9};
    holds(lldpa_neighbor_count(&agent, 0, &counts[0]) == LLDPA_OK && counts[0] == 0, "no neighbor on the first port");
    holds(lldpa_neighbor_count(&agent, 1, &counts[1]) == LLDPA_OK && counts[1] == 1, "a neighbor on the second port");
    try_two_wrong();
    try_news();
    lldpa_close(&agent);
    try_words();
    try_values();
    try_odd_walks();
    try_odd_events();
    return end();
}
