/*
 * A program of lldpa 1.0.0. It calls each function of that release, with arguments that differ from each other, and
 * looks at each field of what is told, and at the octets behind it. It is built with the header 1.0.0.h and runs with
 * the library of today, and with one whose structs and numbers have grown. Neither file is ever changed.
 */
#include <lldpa.h>
#include <stdio.h>
#include <string.h>

#define END 0x5a
/* What a call writes to: structs and numbers as large as in this release, each with octets behind it that no call may
 * write. */
#define ALL(EACH)                                                                                                      \
    EACH(lldpa_place, place) EACH(lldpa_examined, examined) EACH(lldpa_kept, walk) EACH(lldpa_capabilities, caps)      \
    EACH(lldpa_management, mgmt) EACH(lldpa_machine, machine) EACH(lldpa_agent, agent) EACH(lldpa_marks, marks)        \
    EACH(lldpa_ticks_taken, ticks) EACH(lldpa_news, news) EACH(lldpa_held, held) EACH(lldpa_lines, lines)              \
    EACH(lldpa_statistics_told, counters) EACH(lldpa_configuration_told, settings) EACH(lldpa_chassis_told, host)      \
    EACH(uint32_t, number) EACH(size_t, length) EACH(uint8_t, octet)
#define DECLARE(type, name) static struct { type told; uint8_t end[64]; } name;
#define FILL(type, name) memset(name.end, END, sizeof name.end);
#define SEE(type, name) HOLDS(is_end(name.end));
#define HOLDS(is_so) (void)((is_so) || (failed = 1, printf("%d: %s\n", __LINE__, #is_so)))

ALL(DECLARE)
static uint8_t room[4096], faults[2];
static int failed;

/* A frame with two unknown TLVs, a System Name, System Capabilities, a Management Address and another System Name. */
static uint8_t frame[] = "\1\200\302\0\0\16\0\21\"3DU\210\314" "\2\7\4\0\21\"3DU" "\4\5\5eth7" "\6\2\0\3"
                         "\22\1x" "\24\1y" "\12\3sw1" "\16\4\0\24\0\4" "\20\15\5\1\300\0\2\1\2\0\0\0\3\1+"
                         "\12\3sw2" "\0\0";
static const uint8_t *const pdu = frame + 14;
static const size_t pdu_length = sizeof frame - 15;

static int is_end(const uint8_t *end)
{
    size_t at = 0;
    while (at < 64 && end[at] == END) {
        at++;
    }
    return at == 64;
}

static int is_written(const char *wanted)
{
    return length.told == strlen(wanted) && memcmp(room, wanted, length.told) == 0;
}

static void read_all(void)
{
    HOLDS(lldpa_frame_pdu(frame, sizeof frame - 1, &place.told) && place.told.start == 14);
    HOLDS(place.told.length == pdu_length);
    HOLDS(lldpa_examine(pdu, pdu_length, &examined.told) == LLDPA_OK && examined.told.ttl == 3);
    HOLDS(examined.told.chassis.start == 2 && examined.told.chassis.length == 7);
    HOLDS(examined.told.port.start == 11 && examined.told.port.length == 5);
    HOLDS(examined.told.extent == pdu_length - 2 && examined.told.discarded == 1 && examined.told.unrecognized == 2);
    HOLDS(lldpa_examine(pdu + 9, pdu_length - 9, &examined.told) == LLDPA_NO_CHASSIS);
    walk.told = (lldpa_kept)LLDPA_KEPT_INIT;
    HOLDS(lldpa_next_kept(pdu, pdu_length - 2, &walk.told) && walk.told.kind == 9 && walk.told.next == 23);
    HOLDS(lldpa_next_kept(pdu, pdu_length - 2, &walk.told) && walk.told.kind == 10 && !walk.told.met[1]);
    HOLDS(lldpa_next_kept(pdu, pdu_length - 2, &walk.told) && walk.told.kind == 5 && walk.told.met[1]);
    HOLDS(walk.told.body.start == 28 && walk.told.body.length == 3 && !walk.told.met[3]);
    HOLDS(lldpa_caps(pdu + 33, 4, &caps.told) && caps.told.available == 20 && caps.told.enabled == 4);
    HOLDS(lldpa_mgmt(pdu + 39, 13, &mgmt.told) && mgmt.told.family == 1 && mgmt.told.numbering == 2);
    HOLDS(mgmt.told.address.start == 2 && mgmt.told.address.length == 4 && mgmt.told.interface == 3);
    HOLDS(mgmt.told.oid.start == 12 && mgmt.told.oid.length == 1);
}

static void write_texts(void)
{
    static const lldpa_tlv tlvs[] = {{(const uint8_t *)"sw1", 3, 5}, {(const uint8_t *)"a", 1, 3}};
    HOLDS(lldpa_tlv_text(2, frame + 25, 5, room, LLDPA_VALUE_ROOM, &length.told) == LLDPA_OK);
    HOLDS(is_written("port.ifname=eth7"));
    HOLDS(lldpa_escape((const uint8_t *)"a\n", 2, room, 8, &length.told) == LLDPA_OK && is_written("a\\x0a"));
    HOLDS(lldpa_fault_text(LLDPA_NO_TTL, room, LLDPA_FAULT_ROOM, &length.told) == LLDPA_OK);
    HOLDS(is_written("the third TLV is not a Time To Live"));
    HOLDS(lldpa_build(frame + 16, 7, frame + 25, 5, 258, tlvs, 2, faults, 2, room, LLDPA_PDU_ROOM, &length.told) == 0);
    HOLDS(length.told == 27 && memcmp(room, "\2\7\4\0\21\"3DU\4\5\5eth7\6\2\1\2\12\3sw1\0", 27) == 0);
    HOLDS(faults[0] == LLDPA_OK && faults[1] == LLDPA_KIND);
}

static void run_machine(void)
{
    HOLDS(lldpa_transmit_new(&machine.told, 6, 3, 9, true) == LLDPA_OK && machine.told.credit_max == 6);
    HOLDS(machine.told.fast_init == 3 && machine.told.reinit == 9 && machine.told.credit == 6 && machine.told.allowed);
    HOLDS(machine.told.up && !machine.told.active && !machine.told.waiting && machine.told.wait == 0);
    HOLDS(lldpa_transmit_event(&machine.told, LLDPA_CAUSE_TICK, 300, &octet.told) == LLDPA_OK);
    HOLDS(octet.told == LLDPA_ORDINARY && machine.told.timer == 300 && machine.told.credit == 5);
    HOLDS(machine.told.active && machine.told.left == 0);
    HOLDS(lldpa_transmit_event(&machine.told, LLDPA_CAUSE_STOP, 300, &octet.told) == 0 && octet.told == LLDPA_SHUTDOWN);
}

static void open_agent(void)
{
    static const lldpa_text ports[] = {{(const uint8_t *)"eth0", 4}, {(const uint8_t *)"eth1", 4}};
    lldpa_options options = LLDPA_OPTIONS_INIT;
    options.ports = ports;
    options.port_count = 2;
    options.hostname.octets = (const uint8_t *)"sw1";
    options.hostname.length = 3;
    memcpy(options.mac, "\2\3\4\5\6\7", 6);
    memcpy(options.management, "\300\0\2\1", 4);
    options.managed = true;
    options.role = LLDPA_ROUTER;
    HOLDS(lldpa_open(&options, &agent.told) == LLDPA_OK && agent.told.open);
    HOLDS(lldpa_open(&options, &agent.told) == LLDPA_IS_OPEN);
    HOLDS(lldpa_configuration(&agent.told, &settings.told) == LLDPA_OK && settings.told.ports == 2);
    HOLDS(settings.told.interval == 30 && settings.told.hold == 4 && settings.told.ttl == 121);
    HOLDS(settings.told.reinit == 2 && settings.told.fast_init == 4 && settings.told.credit_max == 5);
    HOLDS(settings.told.max_neighbors == 32 && settings.told.status[1] == LLDPA_RX_AND_TX);
    HOLDS(lldpa_chassis(&agent.told, &host.told) == LLDPA_OK && memcmp(host.told.mac, options.mac, 6) == 0);
    HOLDS(host.told.role == LLDPA_ROUTER && host.told.managed && memcmp(host.told.management, "\300\0\2\1", 4) == 0);
    HOLDS(host.told.hostname_length == 3 && memcmp(host.told.hostname, "sw1", 4) == 0);
    HOLDS(host.told.description_length == 5 && memcmp(host.told.description, "lldpa", 6) == 0);
}

static void hear(void)
{
    HOLDS(lldpa_frame(&agent.told, 1, frame, sizeof frame - 1, &marks.told, &news.told) == LLDPA_OK);
    HOLDS(news.told.what == LLDPA_NEWS_NEW && news.told.fault == 0 && marks.told.count == 0);
    HOLDS(news.told.chassis.start == 16 && news.told.chassis.length == 7 && news.told.port.start == 25);
    for (int times = 0; times < 3; times++) {
        HOLDS(lldpa_frame(&agent.told, 1, frame, 30, &marks.told, NULL) == LLDPA_OK);
    }
    HOLDS(lldpa_neighbor_count(&agent.told, 1, &number.told) == LLDPA_OK && number.told == 1);
    HOLDS(lldpa_neighbor(&agent.told, 1, 0, room, LLDPA_NEIGHBOR_ROOM, &held.told) == LLDPA_OK && held.told.left == 3);
    HOLDS(held.told.pdu.ttl == 3 && held.told.pdu.extent == pdu_length - 2 && memcmp(room, pdu, pdu_length - 2) == 0);
    HOLDS(lldpa_due(&agent.told, &number.told) == LLDPA_OK && number.told == 1);
    HOLDS(lldpa_ticks(&agent.told, 1, &marks.told, &ticks.told) == LLDPA_OK && ticks.told.taken == 1);
    HOLDS(marks.told.count == 2 && marks.told.items[1].port == 1 && marks.told.items[1].mark == LLDPA_ORDINARY);
    HOLDS(lldpa_frame_of(&agent.told, 1, LLDPA_SHUTDOWN, room, LLDPA_FRAME_ROOM, &length.told) == LLDPA_OK);
    HOLDS(memcmp(room + 6, "\2\3\4\5\6\7\210\314\2\7\4\2\3\4\5\6\7\4\5\5eth1\6\2\0\0", 28) == 0);
    HOLDS(lldpa_link(&agent.told, 0, false, &marks.told) == LLDPA_OK && marks.told.count == 0);
}

static void age(void)
{
    do {
        HOLDS(lldpa_ticks(&agent.told, 9, &marks.told, &ticks.told) == LLDPA_OK);
    } while (ticks.told.aged_out == 0 && ticks.told.taken > 0 && !failed);
    HOLDS(lldpa_aged_count(&agent.told, 1, &number.told) == LLDPA_OK && number.told == 1 && ticks.told.aged_out == 1);
    HOLDS(lldpa_aged(&agent.told, 1, 0, room, LLDPA_NEIGHBOR_ROOM, &held.told) == LLDPA_OK && held.told.left == 1);
    HOLDS(lldpa_statistics(&agent.told, 1, &counters.told) == LLDPA_OK && counters.told.received == 4);
    HOLDS(counters.told.sent == 1 && counters.told.shutdowns == 0 && counters.told.discarded == 3);
    HOLDS(counters.told.errors == 4 && counters.told.tlvs_discarded == 1 && counters.told.unrecognized == 2);
    HOLDS(counters.told.ageouts == 1 && counters.told.drops == 0);
}

static void command(void)
{
    static const uint8_t line[] = "show chassis";
    HOLDS(lldpa_command(&agent.told, line, sizeof line - 1, &number.told, &marks.told) == LLDPA_OK);
    HOLDS(number.told == LLDPA_SHOW_CHASSIS && marks.told.count == 0);
    HOLDS(lldpa_command(&agent.told, line, 4, &number.told, &marks.told) == LLDPA_UNKNOWN);
    HOLDS(lldpa_show_lines(&agent.told, LLDPA_SHOW_CHASSIS, 1, room, 30, &lines.told) == LLDPA_OK);
    HOLDS(lines.told.length == 23 && lines.told.next == 2 && !lines.told.done);
    HOLDS(memcmp(room, "local-chassis.name=sw1\n", 23) == 0);
    HOLDS(lldpa_leave(&agent.told, &marks.told) == LLDPA_OK && marks.told.count == 1);
    HOLDS(marks.told.items[0].port == 1 && marks.told.items[0].mark == LLDPA_SHUTDOWN);
    lldpa_close(&agent.told);
    HOLDS(!agent.told.open && lldpa_due(&agent.told, &number.told) == LLDPA_NOT_OPEN);
}

int main(void)
{
    ALL(FILL)
    HOLDS(lldpa_version() >= LLDPA_VERSION);
    read_all();
    write_texts();
    run_machine();
    open_agent();
    if (!failed) {
        hear();
        age();
        command();
    }
    ALL(SEE)
    puts(failed ? "failed" : "all hold");
    return failed;
}
