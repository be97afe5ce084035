/*
 * Lets the agent of examples/c/agent.c pause for a day with 64 ports, which are sockets without an interface. Each port
 * sends one frame after the pause, and each neighbor ages out.
 *     pause
 * Failed checks are reported; the last line is `N passed, M failed`.
 */
#define main agent_main
#include "../../../examples/c/agent.c"
#undef main
#include "checks.h"

static int others[MOST_PORTS];

/* Opens an agent whose ports are datagram sockets. The tests read what is sent from the other ends. */
static void open_ports(lldpa_agent *agent)
{
    static char *letters[MOST_PORTS], text[MOST_PORTS][8];
    lldpa_text texts[MOST_PORTS];
    lldpa_options options = LLDPA_OPTIONS_INIT;
    names = letters;
    count = MOST_PORTS;
    for (size_t at = 0; at < count; at++) {
        int pair[2];
        holds(socketpair(AF_UNIX, SOCK_DGRAM | SOCK_NONBLOCK, 0, pair) == 0, "a pair of sockets");
        ports[at].fd = pair[0];
        others[at] = pair[1];
        texts[at] = (lldpa_text){(const uint8_t *)text[at], (size_t)snprintf(text[at], sizeof text[at], "p%zu", at)};
        letters[at] = text[at];
    }
    options.ports = texts;
    options.port_count = count;
    holds(lldpa_open(&options, agent) == LLDPA_OK, "an agent");
}

/* Returns the most frames that a port has sent since the last call, or -1 if another port has sent fewer. */
static int sent_by_each(void)
{
    uint8_t frame[LLDPA_FRAME_ROOM];
    int most = -1, is_same = 1;
    for (size_t at = 0; at < count; at++) {
        int sent = 0;
        while (recv(others[at], frame, sizeof frame, 0) > 0) {
            sent++;
        }
        is_same = is_same && (at == 0 || sent == most);
        most = sent > most ? sent : most;
    }
    return is_same ? most : -1;
}

int main(void)
{
    static const char frame[] = "\1\200\302\0\0\16\0\21\"3DU\210\314\2\7\4\0\21\"3DU\4\5\5eth0\6\2\0x\0";
    lldpa_agent agent = {0};
    uint32_t held = 0;
    open_ports(&agent);
    pass(&agent, 1);
    holds(sent_by_each() == 1, "a frame in the first second");
    holds(send(others[63], frame, sizeof frame - 1, 0) > 0, "a frame of a neighbor");
    hear(&agent, 63);
    holds(sent_by_each() == -1, "a frame for the new neighbor");
    holds(lldpa_neighbor_count(&agent, 63, &held) == LLDPA_OK && held == 1, "the new neighbor");
    pass(&agent, 86400);
    holds(sent_by_each() == 1, "one frame on each port after a day");
    holds(lldpa_neighbor_count(&agent, 63, &held) == LLDPA_OK && held == 0, "no neighbor after a day");
    pass(&agent, 30);
    holds(sent_by_each() == 1, "a frame in the next interval");
    lldpa_close(&agent);
    return end();
}
