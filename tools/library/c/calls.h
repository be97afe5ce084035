/* Calls of most functions of the library, for the programs stack.c and refused.c. */
#ifndef CALLS_H
#define CALLS_H

#include "checks.h"
#include "lldpa.h"

static lldpa_agent agent;
static lldpa_machine machine;
static lldpa_marks marks;
static lldpa_kept walk;
static lldpa_examined examined;
static lldpa_ticks_taken ticks;
static lldpa_news news;
static lldpa_held neighbor;
static lldpa_statistics_told statistics;
static lldpa_configuration_told configuration;
static lldpa_chassis_told chassis;
static lldpa_lines lines;
static uint8_t room[1 << 16], fault, mark;
static uint32_t number;
static size_t length;

static uint8_t frame[] = "\x01\x80\xc2\0\0\x0e\0\x11\x22\x33\x44\x55\x88\xcc\x02\x07\x04\0\x11\x22\x33\x44\x55"
                         "\x04\x05\x05" "eth0" "\x06\x02\0\x78\x0a\x03" "sw1" "\0";
static const uint8_t *const pdu = frame + 14;
static const size_t pdu_length = sizeof frame - 15;
static const lldpa_tlv tlv = {(const uint8_t *)"sw1", 3, 5};
static const char line[] = "configure lldp tx-interval 30";

static uint8_t open_agent(void)
{
    static lldpa_text names[64];
    static const uint8_t letters[] = "abcdefghijklmnopqrstuvwxyzABCDEFGHIJKLMNOPQRSTUVWXYZ0123456789-_";
    lldpa_options options = LLDPA_OPTIONS_INIT;
    for (uint8_t at = 0; at < 64; at++) {
        names[at] = (lldpa_text){letters + at, 1};
    }
    options.ports = names;
    options.port_count = 64;
    return lldpa_open(&options, &agent);
}

/* Calls that need no agent, each with a name and the most octets of stack that it may use. */
#define PLAIN_CALLS(CALL)                                                                                              \
    CALL(lldpa_examine, 1024, lldpa_examine(pdu, pdu_length, &examined))                                               \
    CALL(lldpa_next_kept, 1024, lldpa_next_kept(pdu, pdu_length, &walk))                                               \
    CALL(lldpa_build, 12288,                                                                                           \
         lldpa_build(frame + 16, 7, frame + 25, 5, 120, &tlv, 1, &fault, 1, room, sizeof room, &length))               \
    CALL(lldpa_transmit_new, 1024, lldpa_transmit_new(&machine, 5, 4, 2, true))                                        \
    CALL(lldpa_transmit_event, 1024, lldpa_transmit_event(&machine, LLDPA_CAUSE_TICK, 30, &mark))                      \
    CALL(chassis_text, 1024, lldpa_tlv_text(1, frame + 16, 7, room, sizeof room, &length))                            \
    CALL(name_text, 1024, lldpa_tlv_text(5, frame, 9, room, sizeof room, &length))                                    \
    CALL(lldpa_escape, 1024, lldpa_escape(frame, 9, room, sizeof room, &length))                                      \
    CALL(lldpa_fault_text, 1024, lldpa_fault_text(LLDPA_MEMORY, room, sizeof room, &length))

/* Calls on an open agent, except lldpa_leave and lldpa_close. */
#define AGENT_CALLS(CALL)                                                                                              \
    CALL(lldpa_ticks, 12288, lldpa_ticks(&agent, 1, &marks, &ticks))                                                   \
    CALL(lldpa_frame, 12288, lldpa_frame(&agent, 0, frame, sizeof frame - 1, &marks, &news))                           \
    CALL(lldpa_link, 12288, lldpa_link(&agent, 1, number % 2 == 0, &marks))                                            \
    CALL(lldpa_neighbor_count, 12288, lldpa_neighbor_count(&agent, 0, &number))                                        \
    CALL(lldpa_neighbor, 12288, lldpa_neighbor(&agent, 0, 0, room, sizeof room, &neighbor))                            \
    CALL(lldpa_aged_count, 12288, lldpa_aged_count(&agent, 0, &number))                                                \
    CALL(lldpa_command, 12288, lldpa_command(&agent, (const uint8_t *)line, sizeof line - 1, &number, &marks))         \
    CALL(show_neighbors, 12288, lldpa_show_lines(&agent, LLDPA_SHOW_NEIGHBORS, 0, room, sizeof room, &lines))          \
    CALL(show_statistics, 12288, lldpa_show_lines(&agent, LLDPA_SHOW_STATISTICS, 0, room, sizeof room, &lines))        \
    CALL(show_chassis, 12288, lldpa_show_lines(&agent, LLDPA_SHOW_CHASSIS, 0, room, sizeof room, &lines))              \
    CALL(show_configuration, 12288, lldpa_show_lines(&agent, LLDPA_SHOW_CONFIGURATION, 0, room, sizeof room, &lines))  \
    CALL(lldpa_frame_of, 12288, lldpa_frame_of(&agent, 0, LLDPA_ORDINARY, room, sizeof room, &length))                 \
    CALL(lldpa_due, 1024, lldpa_due(&agent, &number))                                                                  \
    CALL(lldpa_statistics, 1024, lldpa_statistics(&agent, 0, &statistics))                                             \
    CALL(lldpa_configuration, 1024, lldpa_configuration(&agent, &configuration))                                       \
    CALL(lldpa_chassis, 2048, lldpa_chassis(&agent, &chassis))

#endif
