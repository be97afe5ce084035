/*
 * An interface like systemd's sd_lldp_rx, with a callback for each neighbor that is added, updated,
 * refreshed or removed. Reads lines `rx HEX` and `tick SECONDS` from standard input as an example.
 *     cc sd_lldp_rx.c $(pkg-config --cflags --libs lldpa) -o sd_lldp_rx
 */
#include <lldpa.h>
#include <stdio.h>
#include <stdlib.h>
#include <string.h>

typedef enum sd_lldp_rx_event { ADDED, UPDATED, REFRESHED, REMOVED } sd_lldp_rx_event;

/* A neighbor: octets, and where its identifiers are in these octets. */
typedef struct sd_lldp_neighbor {
    const uint8_t *octets;
    lldpa_place chassis, port;
} sd_lldp_neighbor;

typedef struct sd_lldp_rx {
    lldpa_agent agent;
    void (*callback)(sd_lldp_rx_event event, const sd_lldp_neighbor *neighbor, void *userdata);
    void *userdata;
} sd_lldp_rx;

static int sd_lldp_rx_start(sd_lldp_rx *rx, const char *interface)
{
    lldpa_text port = {(const uint8_t *)interface, strlen(interface)};
    lldpa_options options = LLDPA_OPTIONS_INIT;
    options.ports = &port;
    options.port_count = 1;
    options.receive_only = true;
    options.max_neighbors = 128;
    return lldpa_open(&options, &rx->agent) == LLDPA_OK ? 0 : -1;
}

/* Returns the seconds until a neighbor is removed, or LLDPA_NEVER. You may sleep that long. */
static uint32_t sd_lldp_rx_due(sd_lldp_rx *rx)
{
    uint32_t seconds = LLDPA_NEVER;
    lldpa_due(&rx->agent, &seconds);
    return seconds;
}

/* Counts seconds that passed, and removes the neighbors whose time to live ends. */
static void sd_lldp_rx_passed(sd_lldp_rx *rx, uint32_t seconds)
{
    static uint8_t room[LLDPA_NEIGHBOR_ROOM];
    lldpa_marks marks; /* stays empty, since the port only receives */
    lldpa_ticks_taken done;
    lldpa_held held;
    for (; seconds > 0; seconds -= done.taken) {
        lldpa_ticks(&rx->agent, seconds, &marks, &done);
        for (uint32_t at = 0; lldpa_aged(&rx->agent, 0, at, room, sizeof room, &held) == LLDPA_OK; at++) {
            sd_lldp_neighbor gone = {room, held.pdu.chassis, held.pdu.port};
            rx->callback(REMOVED, &gone, rx->userdata);
        }
    }
}

/* Handles a frame that was received. */
static void sd_lldp_rx_receive(sd_lldp_rx *rx, const uint8_t *frame, size_t length)
{
    lldpa_marks marks;
    lldpa_news news;
    lldpa_frame(&rx->agent, 0, frame, length, &marks, &news);
    sd_lldp_neighbor neighbor = {frame, news.chassis, news.port};
    switch (news.what) {
    case LLDPA_NEWS_NEW: rx->callback(ADDED, &neighbor, rx->userdata); break;
    case LLDPA_NEWS_CHANGED: rx->callback(UPDATED, &neighbor, rx->userdata); break;
    case LLDPA_NEWS_SAME: rx->callback(REFRESHED, &neighbor, rx->userdata); break;
    case LLDPA_NEWS_GONE: rx->callback(REMOVED, &neighbor, rx->userdata); break;
    default: break;
    }
}

static void print_event(sd_lldp_rx_event event, const sd_lldp_neighbor *neighbor, void *userdata)
{
    static const char *const words[] = {"added", "updated", "refreshed", "removed"};
    uint8_t text[4 * 255]; /* escaped, since a stranger chose it */
    size_t length = 0;
    (void)userdata;
    lldpa_escape(neighbor->octets + neighbor->port.start + 1, neighbor->port.length - 1, text, sizeof text, &length);
    printf("%s %.*s\n", words[event], (int)length, (const char *)text);
}

int main(void)
{
    static char line[8192];
    static uint8_t frame[2048];
    sd_lldp_rx rx = {.callback = print_event};
    if (sd_lldp_rx_start(&rx, "eth0") != 0) {
        return 1;
    }
    while (fgets(line, sizeof line, stdin) != NULL) {
        size_t length = 0;
        if (strncmp(line, "tick ", 5) == 0) {
            sd_lldp_rx_passed(&rx, (uint32_t)strtoul(line + 5, NULL, 10));
        }
        for (unsigned octet; strncmp(line, "rx ", 3) == 0 && length < sizeof frame &&
                             sscanf(line + 3 + 2 * length, "%2x", &octet) == 1; length++) {
            frame[length] = (uint8_t)octet;
        }
        if (length > 0) {
            sd_lldp_rx_receive(&rx, frame, length);
        }
        uint32_t due = sd_lldp_rx_due(&rx);
        printf(due == LLDPA_NEVER ? "nothing is due\n" : "due in %lu\n", (unsigned long)due);
    }
    lldpa_close(&rx.agent);
    return 0;
}
