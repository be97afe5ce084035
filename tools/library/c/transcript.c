/*
 * Passes events to an agent of the library, and writes what the program lldpa would write.
 *     transcript MAC ADDRESS HOSTNAME ROLE MAX-NEIGHBORS CREDIT-MAX FAST-INIT REINIT RECEIVE-ONLY PORT ..
 * MAC and ADDRESS are hexadecimal, ADDRESS may be empty, ROLE and RECEIVE-ONLY are numbers. A line
 * of standard input is an event: `tick SECONDS`, `rx PORT FRAME`, `link PORT UP`, `leave` or
 * `command LINE`, with port numbers and hexadecimal octets. If a check fails, the status is 2.
 * rust/lldpa/examples/transcript.rs, which runs the same, compares structs with shows.
 */
#define _POSIX_C_SOURCE 200809L
#include "checks.h"
#include "lldpa.h"

static lldpa_agent agent;
static lldpa_text names[64];
static uint32_t port_count;

static void must(int is_so, const char *what)
{
    if (!is_so) {
        fprintf(stderr, "transcript: %s\n", what);
        exit(2);
    }
}

static lldpa_text text_of(const char *text)
{
    return (lldpa_text){(const uint8_t *)text, strlen(text)};
}

static uint32_t number_of(const char *text)
{
    return (uint32_t)strtoul(text, NULL, 10);
}

static void open_agent(char **words, int count)
{
    lldpa_options options = LLDPA_OPTIONS_INIT;
    octets mac = spelled(words[1], 12), address = spelled(words[2], strlen(words[2]));
    memcpy(options.mac, mac.at, sizeof options.mac);
    memcpy(options.management, address.at, address.length);
    options.managed = address.length > 0;
    options.hostname = text_of(words[3]);
    options.role = number_of(words[4]);
    options.max_neighbors = number_of(words[5]);
    options.credit_max = number_of(words[6]);
    options.fast_init = number_of(words[7]);
    options.reinit = number_of(words[8]);
    options.receive_only = number_of(words[9]) != 0;
    for (int at = 10; at < count && port_count < 64; at++) {
        names[port_count++] = text_of(words[at]);
    }
    options.ports = names;
    options.port_count = port_count;
    must(lldpa_open(&options, &agent) == LLDPA_OK, "the agent is not opened");
    free(mac.at);
    free(address.at);
}

/* Writes the frames that the marked ports send. */
static void write_marks(uint8_t answer, const lldpa_marks *marks)
{
    static uint8_t frame[LLDPA_FRAME_ROOM];
    size_t length = 0;
    must(answer == LLDPA_OK, "an event was refused");
    for (uint8_t at = 0; at < marks->count; at++) {
        lldpa_mark mark = marks->items[at];
        answer = lldpa_frame_of(&agent, mark.port, mark.mark, frame, sizeof frame, &length);
        must(answer == LLDPA_OK, "a port sends no frame");
        printf("tx %.*s ", (int)names[mark.port].length, (const char *)names[mark.port].octets);
        for (size_t place = 0; place < length; place++) {
            printf("%02x", frame[place]);
        }
        putchar('\n');
    }
}

/* Checks that a line of a show, read alone into a buffer of its exact size, is this text. */
static void see_line(uint32_t show, uint32_t line, const char *wanted, size_t length)
{
    octets room = {taken(length), length};
    lldpa_lines one;
    must(lldpa_show_lines(&agent, show, line, room.at, length, &one) == LLDPA_OK && one.length == length &&
             one.next == line + 1 && memcmp(room.at, wanted, length) == 0, "a line of a show differs");
    free(room.at);
}

/* Writes a show, in parts of as many lines as fit into a buffer. Checks each line alone. */
static void write_show(uint32_t show)
{
    static uint8_t room[LLDPA_LINE_ROOM];
    lldpa_lines lines = {0, 0, false};
    while (!lines.done) {
        uint32_t line = lines.next;
        must(lldpa_show_lines(&agent, show, line, room, sizeof room, &lines) == LLDPA_OK, "a show was refused");
        fwrite(room, 1, lines.length, stdout);
        for (size_t at = 0, length; at < lines.length; at += length) {
            length = (size_t)((uint8_t *)memchr(room + at, '\n', lines.length - at) - (room + at)) + 1;
            see_line(show, line++, (const char *)room + at, length);
        }
        must(line == lines.next, "a show continues with another line");
    }
}

static uint32_t count_of(uint32_t port)
{
    uint32_t count = 0;
    must(lldpa_neighbor_count(&agent, port, &count) == LLDPA_OK, "the number of neighbors");
    return count;
}

#define MOST_KEPT (64 * 128)

/* Neighbors of all ports, with room for an attempt to read one more. */
typedef struct kept {
    lldpa_held held[MOST_KEPT + 1];
    uint8_t octets[MOST_KEPT + 1][LLDPA_NEIGHBOR_ROOM];
    uint32_t port[MOST_KEPT + 1], count;
} kept;

typedef uint8_t reading(const lldpa_agent *, uint32_t, uint32_t, uint8_t *, size_t, lldpa_held *);

/* Reads neighbors of all ports until there is none. */
static void keep(kept *all, reading *read)
{
    uint32_t now = 0;
    for (uint32_t port = 0; port < port_count; port++) {
        uint8_t *room = all->octets[now];
        for (uint32_t at = 0; read(&agent, port, at, room, LLDPA_NEIGHBOR_ROOM, &all->held[now]) == LLDPA_OK; at++) {
            all->port[now++] = port;
            room = all->octets[now];
        }
    }
    all->count = now;
}

/* Returns whether two neighbors are one: on the same port, with the same LLDPDU. */
static int is_same(const kept *one, uint32_t at, const kept *other, uint32_t place)
{
    size_t length = one->held[at].pdu.extent;
    return one->port[at] == other->port[place] && length == other->held[place].pdu.extent &&
           memcmp(one->octets[at], other->octets[place], length) == 0;
}

/* Checks that those that aged out are the neighbors before that are not among those after, in their order. */
static void see_aged(const kept *before, uint32_t aged_out)
{
    static kept after, gone;
    uint32_t place = 0, found = 0;
    keep(&after, lldpa_neighbor);
    keep(&gone, lldpa_aged);
    for (uint32_t at = 0; at < before->count; at++) {
        if (place < after.count && is_same(before, at, &after, place)) {
            place++;
        } else {
            must(found < gone.count && is_same(before, at, &gone, found) && gone.held[found].left == 1, "who aged out");
            found++;
        }
    }
    must(place == after.count && found == gone.count && found == aged_out, "how many aged out");
}

/* Lets seconds pass, one or more in each call. Checks that a call stops when something is due. */
static void tick(uint32_t seconds)
{
    static kept before;
    lldpa_ticks_taken done = {0, 0};
    lldpa_marks marks;
    for (; seconds > 0; seconds -= done.taken) {
        uint32_t due, most = seconds % 2 == 1 ? 1 : seconds;
        must(lldpa_due(&agent, &due) == LLDPA_OK, "when something is due");
        keep(&before, lldpa_neighbor);
        write_marks(lldpa_ticks(&agent, most, &marks, &done), &marks);
        must(done.taken == (most < due ? most : due), "something is due at another tick");
        must((marks.count > 0 || done.aged_out > 0) == (done.taken == due), "a tick at which something is due");
        see_aged(&before, done.aged_out);
    }
}

/* Returns whether a frame's news is about this neighbor. */
static int is_of(const lldpa_news *news, octets frame, const lldpa_examined *pdu, const uint8_t *room)
{
    return news->chassis.length == pdu->chassis.length && news->port.length == pdu->port.length &&
           memcmp(frame.at + news->chassis.start, room + pdu->chassis.start, news->chassis.length) == 0 &&
           memcmp(frame.at + news->port.start, room + pdu->port.start, news->port.length) == 0;
}

/* Receives a frame on a port, and checks that the port's neighbors agree with the frame's news. */
static void hear(uint32_t port, octets frame)
{
    static uint8_t room[LLDPA_NEIGHBOR_ROOM];
    lldpa_marks marks;
    lldpa_news news;
    lldpa_held held;
    uint32_t before = count_of(port), found = 0;
    write_marks(lldpa_frame(&agent, port, frame.at, frame.length, &marks, &news), &marks);
    uint32_t after = count_of(port);
    must(after == before + (news.what == LLDPA_NEWS_NEW) - (news.what == LLDPA_NEWS_GONE), "how many neighbors");
    for (uint32_t at = 0; at < after; at++) {
        must(lldpa_neighbor(&agent, port, at, room, sizeof room, &held) == LLDPA_OK, "a neighbor");
        must(held.left > 0 && held.left <= held.pdu.ttl, "the seconds that a neighbor has left");
        found += is_of(&news, frame, &held.pdu, room);
    }
    must(found == (news.what >= LLDPA_NEWS_NEW && news.what <= LLDPA_NEWS_SAME), "the neighbor of the news");
    must(lldpa_neighbor(&agent, port, after, room, sizeof room, &held) == LLDPA_OUT_OF_RANGE, "a neighbor after the last");
}

static void command(const char *line, size_t length)
{
    lldpa_marks marks;
    uint32_t show = LLDPA_SHOW_NOTHING;
    octets exact = copied(line, length);
    uint8_t answer = lldpa_command(&agent, exact.at, length, &show, &marks);
    free(exact.at);
    if (answer >= LLDPA_UNKNOWN && answer <= LLDPA_IN_USE) {
        uint8_t room[LLDPA_FAULT_ROOM];
        must(lldpa_fault_text(answer, room, sizeof room, &length) == LLDPA_OK, "the text of a fault");
        printf("error: %.*s\n", (int)length, (const char *)room);
        return;
    }
    write_marks(answer, &marks);
    if (show != LLDPA_SHOW_NOTHING) {
        write_show(show);
    }
}

static void run_line(const char *line, size_t length)
{
    static const char front[] = "command ";
    lldpa_marks marks;
    unsigned number, is_up;
    int at = 0;
    if (sscanf(line, "tick %u", &number) == 1) {
        tick(number);
    } else if (sscanf(line, "link %u %u", &number, &is_up) == 2) {
        write_marks(lldpa_link(&agent, number, is_up != 0, &marks), &marks);
    } else if (sscanf(line, "rx %u %n", &number, &at) == 1) {
        octets frame = spelled(line + at, length - (size_t)at);
        hear(number, frame);
        free(frame.at);
    } else if (strcmp(line, "leave") == 0) {
        write_marks(lldpa_leave(&agent, &marks), &marks);
    } else {
        must(memcmp(line, front, strlen(front)) == 0, line);
        command(line + strlen(front), length - strlen(front));
    }
}

int main(int count, char **words)
{
    char *line = NULL;
    size_t size = 0;
    ssize_t length;
    must(count > 10, "usage: see the head of transcript.c");
    open_agent(words, count);
    while ((length = getline(&line, &size, stdin)) > 0) {
        length -= line[length - 1] == '\n';
        line[length] = '\0';
        run_line(line, (size_t)length);
    }
    free(line);
    lldpa_close(&agent);
    return fflush(stdout) == 0 ? 0 : 1;
}
