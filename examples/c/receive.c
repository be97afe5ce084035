/*
 * Receives LLDP on a Linux interface, and prints every neighbor that appears, changes, leaves or
 * ages out. Needs the right to open packet sockets (CAP_NET_RAW). Runs until SIGINT or SIGTERM.
 *     cc receive.c $(pkg-config --cflags --libs lldpa) -o receive && sudo ./receive eth0
 */
#define _GNU_SOURCE
#include <lldpa.h>
#include <arpa/inet.h>
#include <linux/if_packet.h>
#include <net/if.h>
#include <poll.h>
#include <signal.h>
#include <stdio.h>
#include <string.h>
#include <sys/socket.h>
#include <time.h>
#include <unistd.h>

#define ETHERTYPE_LLDP 0x88cc

static volatile sig_atomic_t is_over;

static void end(int number)
{
    (void)number;
    is_over = 1;
}

/* Opens a socket that receives LLDP frames on an interface. Returns -1 if that fails. */
static int open_socket(const char *interface)
{
    struct sockaddr_ll place = {.sll_family = AF_PACKET, .sll_protocol = htons(ETHERTYPE_LLDP)};
    struct packet_mreq group = {.mr_type = PACKET_MR_MULTICAST, .mr_alen = 6, .mr_address = {1, 0x80, 0xc2, 0, 0, 0x0e}};
    int heard = socket(AF_PACKET, SOCK_RAW, htons(ETHERTYPE_LLDP));
    place.sll_ifindex = group.mr_ifindex = (int)if_nametoindex(interface);
    if (heard < 0 || place.sll_ifindex == 0 || bind(heard, (struct sockaddr *)&place, sizeof place) != 0 ||
        setsockopt(heard, SOL_PACKET, PACKET_ADD_MEMBERSHIP, &group, sizeof group) != 0) {
        return -1;
    }
    return heard;
}

/* This clock goes on while the machine sleeps, as a neighbor's time to live does, and nobody sets it. */
static long seconds(void)
{
    struct timespec now;
    clock_gettime(CLOCK_BOOTTIME, &now);
    return now.tv_sec;
}

/* Prints what happened to a neighbor: "new chassis.mac=00:11:22:33:44:55 port.ifname=eth0". */
static void print_neighbor(const char *what, const uint8_t *octets, lldpa_place chassis, lldpa_place port)
{
    static uint8_t first[LLDPA_VALUE_ROOM], second[LLDPA_VALUE_ROOM];
    size_t used = 0, more = 0;
    lldpa_tlv_text(1, octets + chassis.start, chassis.length, first, sizeof first, &used);
    lldpa_tlv_text(2, octets + port.start, port.length, second, sizeof second, &more);
    printf("%s %.*s %.*s\n", what, (int)used, (const char *)first, (int)more, (const char *)second);
    fflush(stdout);
}

/* Reports to the agent that seconds passed, and prints the neighbors that age out. */
static void pass(lldpa_agent *agent, uint32_t passed)
{
    static uint8_t room[LLDPA_NEIGHBOR_ROOM];
    lldpa_marks marks; /* stays empty, since the port only receives */
    lldpa_ticks_taken done;
    lldpa_held held;
    for (; passed > 0; passed -= done.taken) {
        lldpa_ticks(agent, passed, &marks, &done);
        for (uint32_t at = 0; lldpa_aged(agent, 0, at, room, sizeof room, &held) == LLDPA_OK; at++) {
            print_neighbor("aged out", room, held.pdu.chassis, held.pdu.port);
        }
    }
}

/* Returns the milliseconds until a neighbor ages out, at most an hour. */
static int wait_of(lldpa_agent *agent)
{
    uint32_t due;
    return lldpa_due(agent, &due) == LLDPA_OK && due < 3600 ? 1000 * (int)due : 3600000;
}

static void hear(lldpa_agent *agent, int heard)
{
    static const char *const words[] = {[LLDPA_NEWS_NEW] = "new", [LLDPA_NEWS_CHANGED] = "changed",
                                        [LLDPA_NEWS_DROPPED] = "no room for", [LLDPA_NEWS_GONE] = "gone"};
    static uint8_t frame[2048];
    lldpa_marks marks; /* stays empty, since the port only receives */
    lldpa_news news;
    ssize_t length = recv(heard, frame, sizeof frame, 0);
    if (length > 0 && lldpa_frame(agent, 0, frame, (size_t)length, &marks, &news) == LLDPA_OK &&
        news.what < sizeof words / sizeof *words && words[news.what] != NULL) {
        print_neighbor(words[news.what], frame, news.chassis, news.port);
    }
}

int main(int count, char **words)
{
    const char *name = count == 2 ? words[1] : "";
    lldpa_text port = {(const uint8_t *)name, strlen(name)};
    lldpa_options options = LLDPA_OPTIONS_INIT;
    lldpa_agent agent = {0};
    options.ports = &port;
    options.port_count = 1;
    options.receive_only = true;
    uint8_t fault = lldpa_open(&options, &agent);
    int heard = fault == LLDPA_OK ? open_socket(name) : -1;
    if (heard < 0) {
        fprintf(stderr, fault == LLDPA_OK ? "receive: no packet socket on %s\n" : "usage: receive INTERFACE\n", name);
        lldpa_close(&agent);
        return 2;
    }
    sigaction(SIGINT, &(struct sigaction){.sa_handler = end}, NULL);
    sigaction(SIGTERM, &(struct sigaction){.sa_handler = end}, NULL);
    for (long now = seconds(); !is_over;) {
        struct pollfd waited = {heard, POLLIN, 0};
        int came = poll(&waited, 1, wait_of(&agent));
        long before = now; /* first report the seconds that passed, and then the frame */
        now = seconds();
        pass(&agent, (uint32_t)(now - before));
        if (came > 0) {
            hear(&agent, heard);
        }
    }
    close(heard);
    lldpa_close(&agent);
    return 0;
}
