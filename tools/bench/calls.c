/*
 * Makes calls of the library again and again, for bench_calls.py, which counts instructions.
 *     calls CALL PORTS NUMBER COUNT
 *
 * The agent has PORTS ports, each of which holds NUMBER neighbors, and COUNT is the number of calls:
 *     frame, news, due, neighbor    lldpa_frame without or with news, lldpa_due, lldpa_neighbor
 *     frame-of                      lldpa_frame_of, for an ordinary frame
 *     show                          lldpa_show_lines, a page of LLDPA_LINE_ROOM octets after the other
 *     loop                          a frame and lldpa_due. Each neighbor sends every 30 seconds, which
 *                                   lldpa_ticks counts, and once a minute all neighbors are read
 *     worst                         lldpa_frame, for the worst names that a stranger can choose
 *     tlv-text, escape              a System Name or a text of NUMBER octets is written
 */
#include <stdio.h>
#include <stdlib.h>
#include <string.h>

#include "lldpa.h"

static uint8_t frame[] = "\x01\x80\xc2\0\0\x0e\0\x11\x22\x33\x44\x55\x88\xcc\x02\x07\x04\0\x11\x22\x33\x44\x55"
                         "\x04\x05\x05" "eth0" "\x06\x02\0\x78\x08\x0e" "GigabitEther01" "\x0a\x03" "sw1"
                         "\x0e\x04\0\x14\0\x04\x10\x0c\x05\x01\xc0\0\x02\x01\x02\0\0\0\x01\0\0";
/* The octet of the chassis ID that tells the neighbors apart. */
#define APART 22

static lldpa_agent agent;
static lldpa_marks marks;
static int failed;

/* Opens an agent with ports that only receive. */
static void open_agent(uint32_t ports, uint32_t neighbors)
{
    static char names[64][8];
    lldpa_text texts[64];
    lldpa_options options = LLDPA_OPTIONS_INIT;
    for (uint32_t port = 0; port < ports; port++) {
        int length = snprintf(names[port], sizeof names[port], "eth%u", (unsigned)port);
        texts[port] = (lldpa_text){(const uint8_t *)names[port], (size_t)length};
    }
    options.ports = texts;
    options.port_count = ports;
    options.receive_only = true;
    options.max_neighbors = neighbors;
    failed += lldpa_open(&options, &agent) != LLDPA_OK;
}

/* Passes the frame of a neighbor to a port. */
static void receive(uint32_t port, uint32_t neighbor, lldpa_news *news)
{
    frame[APART] = (uint8_t)neighbor;
    failed += lldpa_frame(&agent, port, frame, sizeof frame - 1, &marks, news) != LLDPA_OK;
}

static void receive_plain(uint32_t neighbor)
{
    receive(0, neighbor, NULL);
}

static void receive_with_news(uint32_t neighbor)
{
    lldpa_news news;
    receive(0, neighbor, &news);
}

static void ask_due(uint32_t neighbor)
{
    uint32_t seconds;
    (void)neighbor;
    failed += lldpa_due(&agent, &seconds) != LLDPA_OK;
}

static void read_on(uint32_t port, uint32_t index)
{
    uint8_t room[LLDPA_NEIGHBOR_ROOM];
    lldpa_held held;
    failed += lldpa_neighbor(&agent, port, index, room, sizeof room, &held) != LLDPA_OK;
}

static void read_neighbor(uint32_t neighbor)
{
    read_on(0, neighbor);
}

/* A second passes. At the end of each minute all neighbors are read. */
static void pass_second(uint32_t second, uint32_t ports, uint32_t neighbors)
{
    lldpa_ticks_taken told;
    failed += lldpa_ticks(&agent, 1, &marks, &told) != LLDPA_OK || told.aged_out != 0;
    ask_due(0);
    for (uint32_t at = 0; second % 60 == 59 && at < ports * neighbors; at++) {
        read_on(at / neighbors, at % neighbors);
    }
}

static void run_loop(uint32_t ports, uint32_t neighbors, uint32_t count)
{
    uint32_t in_a_second = ports * neighbors / 30;
    for (uint32_t at = 0; at < count; at++) {
        receive(at % ports, at / ports % neighbors, NULL);
        ask_due(0);
        if ((at + 1) % in_a_second == 0) {
            pass_second(at / in_a_second, ports, neighbors);
        }
    }
}

/* Writes all lines of `show neighbors`, a page after the other. */
static void show_pages(uint32_t neighbor)
{
    uint8_t room[LLDPA_LINE_ROOM];
    lldpa_lines told = {0};
    (void)neighbor;
    while (!told.done) {
        failed += lldpa_show_lines(&agent, LLDPA_SHOW_NEIGHBORS, told.next, room, sizeof room, &told) != LLDPA_OK;
    }
}

static void write_frame(uint32_t neighbor)
{
    uint8_t room[LLDPA_FRAME_ROOM];
    size_t length;
    (void)neighbor;
    failed += lldpa_frame_of(&agent, 0, LLDPA_ORDINARY, room, sizeof room, &length) != LLDPA_OK;
}

/*
 * Receives the frame of a neighbor with the longest identifiers. All neighbors have the same port, and their
 * chassis differ only at the end, which is compared last. They have the same tag, too: a tag is one octet, to
 * which the last two octets add 31 x + 225 x, which is 0.
 */
static void receive_worst(uint32_t neighbor, bool leaves)
{
    static uint8_t worst[14 + 2 * 258 + 6];
    uint8_t *chassis = worst + 14, *port = chassis + 258, *rest = port + 258;
    memcpy(worst, frame, 14);
    memset(chassis, 7, 2 * 258);
    memcpy(chassis, "\x03", 2);
    memcpy(port, "\x05", 2);
    memcpy(rest, leaves ? "\x06\x02\0\0\0" : "\x06\x02\xff\xff\0", 6);
    port[-2] = (uint8_t)neighbor;
    port[-1] = (uint8_t)(225 * neighbor);
    failed += lldpa_frame(&agent, 0, worst, sizeof worst, &marks, NULL) != LLDPA_OK;
}

/* Three of four neighbors leave. One more then comes and leaves, so that each slot that is not in use has its name. */
static void run_worst(uint32_t neighbors, uint32_t count)
{
    open_agent(1, neighbors);
    for (uint32_t at = 0; at < neighbors; at++) {
        receive_worst(at, false);
    }
    for (uint32_t at = neighbors / 4; at < neighbors; at++) {
        receive_worst(at, true);
    }
    for (uint32_t at = neighbors / 4; at < neighbors; at++) {
        receive_worst(neighbors, true);
        receive_worst(neighbors, false);
    }
    for (uint32_t at = 0; at < count; at++) {
        receive_worst(neighbors, false);
    }
    lldpa_close(&agent);
}

static const struct {
    const char *name;
    void (*call)(uint32_t neighbor);
} calls[] = {{"frame", receive_plain},    {"news", receive_with_news}, {"due", ask_due},
             {"neighbor", read_neighbor}, {"frame-of", write_frame},   {"show", show_pages}};

/* Makes one of the calls on an agent whose ports are full, again and again. */
static void run_agent(const char *name, uint32_t ports, uint32_t neighbors, uint32_t count)
{
    open_agent(ports, neighbors);
    for (uint32_t at = 0; at < ports * neighbors; at++) {
        receive(at / neighbors, at % neighbors, NULL);
    }
    if (strcmp(name, "loop") == 0) {
        run_loop(ports, neighbors, count);
    }
    for (size_t number = 0; number < sizeof calls / sizeof *calls; number++) {
        bool is_it = strcmp(name, calls[number].name) == 0;
        for (uint32_t at = 0; is_it && at < count; at++) {
            calls[number].call(at % neighbors);
        }
    }
    lldpa_close(&agent);
}

/* Writes a System Name, or a text, `count` times. */
static void run_texts(int is_tlv, size_t length, uint32_t count)
{
    uint8_t text[511], room[4 * 511];
    size_t written;
    memset(text, 'a', sizeof text);
    for (uint32_t at = 0; at < count; at++) {
        failed += (is_tlv ? lldpa_tlv_text(5, text, length, room, sizeof room, &written)
                          : lldpa_escape(text, length, room, sizeof room, &written)) != LLDPA_OK;
    }
}

int main(int argc, char **argv)
{
    if (argc != 5) {
        fputs("calls CALL PORTS NUMBER COUNT\n", stderr);
        return 2;
    }
    uint32_t ports = (uint32_t)strtoul(argv[2], NULL, 10);
    uint32_t number = (uint32_t)strtoul(argv[3], NULL, 10), count = (uint32_t)strtoul(argv[4], NULL, 10);
    if (strcmp(argv[1], "tlv-text") == 0 || strcmp(argv[1], "escape") == 0) {
        run_texts(strcmp(argv[1], "tlv-text") == 0, number, count);
    } else if (strcmp(argv[1], "worst") == 0) {
        run_worst(number, count);
    } else {
        run_agent(argv[1], ports, number, count);
    }
    return failed != 0;
}
