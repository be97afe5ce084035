/*
 * An agent that sends and receives LLDP on Linux interfaces. It prints each neighbor that comes, leaves
 * or ages out, sleeps until something is due or a frame comes, and says goodbye on SIGINT or SIGTERM.
 * Needs the right to open packet sockets (CAP_NET_RAW).
 *     cc agent.c $(pkg-config --cflags --libs lldpa) -o agent && sudo ./agent eth0 eth1
 */
#define _GNU_SOURCE
#include <lldpa.h>
#include <arpa/inet.h>
#include <linux/if_packet.h>
#include <net/if.h>
#include <poll.h>
#include <signal.h>
#include <stdio.h>
#include <string.h>
#include <sys/ioctl.h>
#include <sys/socket.h>
#include <time.h>
#include <unistd.h>

#define ETHERTYPE_LLDP 0x88cc
#define MOST_PORTS 64

static volatile sig_atomic_t is_over;
static struct pollfd ports[MOST_PORTS];
static char **names;
static nfds_t count;

static void stop(int number)
{
    (void)number;
    is_over = 1;
}

/* Opens a socket that sends and receives LLDP frames on an interface. Returns -1 if that fails. */
static int open_socket(const char *interface)
{
    struct sockaddr_ll place = {.sll_family = AF_PACKET, .sll_protocol = htons(ETHERTYPE_LLDP)};
    struct packet_mreq group = {.mr_type = PACKET_MR_MULTICAST, .mr_alen = 6, .mr_address = {1, 0x80, 0xc2, 0, 0, 0x0e}};
    int opened = socket(AF_PACKET, SOCK_RAW, htons(ETHERTYPE_LLDP));
    place.sll_ifindex = group.mr_ifindex = (int)if_nametoindex(interface);
    if (opened < 0 || place.sll_ifindex == 0 || bind(opened, (struct sockaddr *)&place, sizeof place) != 0 ||
        setsockopt(opened, SOL_PACKET, PACKET_ADD_MEMBERSHIP, &group, sizeof group) != 0) {
        return -1;
    }
    return opened;
}

/* Opens a socket for each port, and an agent whose address is that of the first interface. */
static int open_all(lldpa_agent *agent)
{
    static lldpa_text texts[MOST_PORTS];
    static char host[64];
    struct ifreq first = {0};
    lldpa_options options = LLDPA_OPTIONS_INIT;
    for (nfds_t at = 0; at < count; at++) {
        texts[at] = (lldpa_text){(const uint8_t *)names[at], strlen(names[at])};
        ports[at] = (struct pollfd){open_socket(names[at]), POLLIN, 0};
        if (ports[at].fd < 0) {
            fprintf(stderr, "agent: no packet socket on %s\n", names[at]);
            return -1;
        }
    }
    strncpy(first.ifr_name, names[0], sizeof first.ifr_name - 1);
    gethostname(host, sizeof host - 1);
    options.ports = texts;
    options.port_count = count;
    options.hostname = (lldpa_text){(const uint8_t *)host, strlen(host)};
    if (ioctl(ports[0].fd, SIOCGIFHWADDR, &first) == 0) {
        memcpy(options.mac, first.ifr_hwaddr.sa_data, sizeof options.mac);
    }
    uint8_t fault = lldpa_open(&options, agent);
    if (fault != LLDPA_OK) {
        fprintf(stderr, "agent: fault %u\n", fault);
    }
    return fault == LLDPA_OK ? 0 : -1;
}

/* Sends the frame of a mark. A frame that the kernel refuses is lost, as on a cable. */
static void send_one(lldpa_agent *agent, lldpa_mark mark)
{
    static uint8_t frame[LLDPA_FRAME_ROOM];
    size_t length;
    if (lldpa_frame_of(agent, mark.port, mark.mark, frame, sizeof frame, &length) == LLDPA_OK) {
        (void)!write(ports[mark.port].fd, frame, length);
    }
}

static void send_all(lldpa_agent *agent, const lldpa_marks *marks)
{
    for (uint8_t at = 0; at < marks->count; at++) {
        send_one(agent, marks->items[at]);
    }
}

/* Prints what happened to a neighbor, whose IDs are ranges of these octets. */
static void print_neighbor(uint32_t port, const char *what, const uint8_t *octets, lldpa_place chassis, lldpa_place id)
{
    static uint8_t first[LLDPA_VALUE_ROOM], second[LLDPA_VALUE_ROOM];
    size_t used = 0, more = 0;
    lldpa_tlv_text(1, octets + chassis.start, chassis.length, first, sizeof first, &used);
    lldpa_tlv_text(2, octets + id.start, id.length, second, sizeof second, &more);
    printf("%s %s %.*s %.*s\n", names[port], what, (int)used, (const char *)first, (int)more, (const char *)second);
    fflush(stdout);
}

/* Prints the neighbors that aged out at the last second that was reported. */
static void print_aged(lldpa_agent *agent)
{
    static uint8_t room[LLDPA_NEIGHBOR_ROOM];
    lldpa_held held;
    for (uint32_t port = 0; port < count; port++) {
        for (uint32_t at = 0; lldpa_aged(agent, port, at, room, sizeof room, &held) == LLDPA_OK; at++) {
            print_neighbor(port, "aged out", room, held.pdu.chassis, held.pdu.port);
        }
    }
}

/* Reports the seconds that passed, and then sends what became due: on each port only the last frame. After a pause of
 * a day (the machine slept, or the program was stopped) each port has been due thousands of times. */
static void pass(lldpa_agent *agent, uint32_t seconds)
{
    lldpa_marks marks;
    lldpa_ticks_taken done;
    uint8_t last[MOST_PORTS] = {LLDPA_QUIET};
    for (; seconds > 0 && lldpa_ticks(agent, seconds, &marks, &done) == LLDPA_OK; seconds -= done.taken) {
        for (uint8_t at = 0; at < marks.count; at++) {
            last[marks.items[at].port] = marks.items[at].mark;
        }
        print_aged(agent);
    }
    for (uint8_t port = 0; port < count; port++) {
        if (last[port] != LLDPA_QUIET) {
            send_one(agent, (lldpa_mark){port, last[port]});
        }
    }
}

/* Passes a frame to the agent, and prints whether a neighbor came or left. */
static void hear(lldpa_agent *agent, uint32_t port)
{
    static uint8_t frame[2048];
    lldpa_marks marks;
    lldpa_news news;
    ssize_t length = recv(ports[port].fd, frame, sizeof frame, 0);
    if (length < 0 || lldpa_frame(agent, port, frame, (size_t)length, &marks, &news) != LLDPA_OK) {
        return;
    }
    send_all(agent, &marks);
    if (news.what == LLDPA_NEWS_NEW || news.what == LLDPA_NEWS_GONE) {
        print_neighbor(port, news.what == LLDPA_NEWS_NEW ? "new" : "gone", frame, news.chassis, news.port);
    }
}

/* This clock goes on while the machine sleeps, as a neighbor's time to live does, and nobody sets it. */
static time_t seconds(void)
{
    struct timespec now;
    clock_gettime(CLOCK_BOOTTIME, &now);
    return now.tv_sec;
}

int main(int words_count, char **words)
{
    lldpa_agent agent = {0};
    lldpa_marks marks;
    sigset_t held, before;
    names = words + 1;
    count = words_count > 1 && words_count <= MOST_PORTS + 1 ? (nfds_t)words_count - 1 : 0;
    if (count == 0) {
        fputs("usage: agent INTERFACE ..\n", stderr);
        return 2;
    }
    /* The signals come only while the program sleeps, so none is missed. */
    sigemptyset(&held);
    sigaddset(&held, SIGINT);
    sigaddset(&held, SIGTERM);
    sigprocmask(SIG_BLOCK, &held, &before);
    sigaction(SIGINT, &(struct sigaction){.sa_handler = stop}, NULL);
    sigaction(SIGTERM, &(struct sigaction){.sa_handler = stop}, NULL);
    if (open_all(&agent) != 0) {
        return 1;
    }
    for (time_t now = seconds(); !is_over;) {
        uint32_t due = LLDPA_NEVER;
        lldpa_due(&agent, &due);
        struct timespec most = {.tv_sec = due < 3600 ? due : 3600};
        int came = ppoll(ports, count, &most, &before);
        time_t then = now; /* first report the seconds that passed, and then the frames */
        now = seconds();
        pass(&agent, (uint32_t)(now - then));
        for (nfds_t at = 0; came > 0 && at < count; at++) {
            if (ports[at].revents != 0) {
                hear(&agent, (uint32_t)at);
            }
        }
    }
    if (lldpa_leave(&agent, &marks) == LLDPA_OK) {
        send_all(&agent, &marks);
    }
    lldpa_close(&agent);
    return 0;
}
