#ifndef LLDPA_H
#define LLDPA_H
#include <stdbool.h>
#include <stddef.h>
#include <stdint.h>
#ifdef __cplusplus
extern "C" {
#endif
#define LLDPA_VERSION 10000
uint32_t lldpa_version(void);
#define LLDPA_OK 0
#define LLDPA_OUT_OF_RANGE 100
#define LLDPA_NO_ROOM 101
#define LLDPA_NOT_OPEN 102
#define LLDPA_NO_PORT 103
#define LLDPA_IS_OPEN 104
#define LLDPA_NULL 105
uint8_t lldpa_fault_text(uint32_t fault, uint8_t *room, size_t room_length, size_t *length);
#define LLDPA_PDU_ROOM 1500
#define LLDPA_FRAME_ROOM 1514
#define LLDPA_NEIGHBOR_ROOM 1500
#define LLDPA_LINE_ROOM 2049
#define LLDPA_VALUE_ROOM 1058
#define LLDPA_FAULT_ROOM 65
typedef struct lldpa_place {
    size_t start;
    size_t length;
} lldpa_place;
bool lldpa_frame_pdu(const uint8_t *frame, size_t length, lldpa_place *pdu);
#define LLDPA_TRUNCATED 1
#define LLDPA_NO_CHASSIS 2
#define LLDPA_CHASSIS_LENGTH 3
#define LLDPA_NO_PORT_ID 4
#define LLDPA_PORT_LENGTH 5
#define LLDPA_NO_TTL 6
#define LLDPA_TTL_LENGTH 7
#define LLDPA_REPEATED 8
typedef struct lldpa_examined {
    lldpa_place chassis;
    lldpa_place port;
    size_t extent;
    size_t discarded;
    size_t unrecognized;
    uint16_t ttl;
} lldpa_examined;
uint8_t lldpa_examine(const uint8_t *pdu, size_t length, lldpa_examined *told);
typedef struct lldpa_kept {
    size_t next;
    lldpa_place body;
    bool met[4];
    uint8_t kind;
} lldpa_kept;
#define LLDPA_KEPT_INIT { 0, { 0, 0 }, { false, false, false, false }, 0 }
bool lldpa_next_kept(const uint8_t *extent, size_t length, lldpa_kept *walk);
typedef struct lldpa_capabilities {
    uint16_t available;
    uint16_t enabled;
} lldpa_capabilities;
bool lldpa_caps(const uint8_t *body, size_t length, lldpa_capabilities *told);
typedef struct lldpa_management {
    lldpa_place address;
    lldpa_place oid;
    uint32_t interface;
    uint8_t family;
    uint8_t numbering;
} lldpa_management;
bool lldpa_mgmt(const uint8_t *body, size_t length, lldpa_management *told);
uint8_t lldpa_tlv_text(uint32_t kind, const uint8_t *body, size_t body_length, uint8_t *room, size_t room_length,
                       size_t *length);
uint8_t lldpa_escape(const uint8_t *text, size_t text_length, uint8_t *room, size_t room_length, size_t *length);
typedef struct lldpa_tlv {
    const uint8_t *body;
    size_t length;
    uint8_t kind;
} lldpa_tlv;
#define LLDPA_FULL 11
#define LLDPA_KIND 12
#define LLDPA_BODY 13
uint8_t lldpa_build(const uint8_t *chassis, size_t chassis_length, const uint8_t *port, size_t port_length,
                    uint16_t ttl, const lldpa_tlv *tlvs, size_t tlv_count, uint8_t *faults, size_t fault_count,
                    uint8_t *room, size_t room_length, size_t *length);
typedef struct lldpa_machine {
    uint16_t timer;
    uint8_t credit_max;
    uint8_t fast_init;
    uint8_t reinit;
    uint8_t credit;
    uint8_t wait;
    uint8_t left;
    bool waiting;
    bool active;
    bool allowed;
    bool up;
} lldpa_machine;
#define LLDPA_CAUSE_TICK 0
#define LLDPA_CAUSE_CHANGE 1
#define LLDPA_CAUSE_NEIGHBOR 2
#define LLDPA_CAUSE_STOP 3
#define LLDPA_CAUSE_ALLOW 4
#define LLDPA_CAUSE_DOWN 5
#define LLDPA_CAUSE_UP 6
#define LLDPA_CAUSE_NOTHING 7
#define LLDPA_QUIET 0
#define LLDPA_ORDINARY 1
#define LLDPA_SHUTDOWN 2
uint8_t lldpa_transmit_new(lldpa_machine *machine, uint32_t credit_max, uint32_t fast_init, uint32_t reinit,
                           bool allowed);
uint8_t lldpa_transmit_event(lldpa_machine *machine, uint32_t cause, uint32_t interval, uint8_t *mark);
typedef struct lldpa_text {
    const uint8_t *octets;
    size_t length;
} lldpa_text;
#define LLDPA_STATION 0
#define LLDPA_BRIDGE 1
#define LLDPA_ROUTER 2
typedef struct lldpa_options {
    size_t size;
    const lldpa_text *ports;
    size_t port_count;
    lldpa_text hostname;
    uint8_t mac[6];
    uint8_t management[4];
    bool managed;
    bool receive_only;
    uint32_t role;
    uint32_t max_neighbors;
    uint32_t credit_max;
    uint32_t fast_init;
    uint32_t reinit;
} lldpa_options;
#define LLDPA_OPTIONS_INIT \
    { sizeof(lldpa_options), NULL, 0, { NULL, 0 }, { 0, 0, 0, 0, 0, 0 }, { 0, 0, 0, 0 }, false, false, LLDPA_STATION, \
      32, 5, 4, 2 }
typedef struct lldpa_agent {
    void *held;
    bool open;
} lldpa_agent;
#define LLDPA_MEMORY 21
#define LLDPA_NO_PORTS 22
#define LLDPA_TOO_MANY_PORTS 23
#define LLDPA_PORT_NAME 24
#define LLDPA_SAME_PORT 25
#define LLDPA_TEXT 26
uint8_t lldpa_open(const lldpa_options *options, lldpa_agent *agent);
typedef struct lldpa_mark {
    uint8_t port;
    uint8_t mark;
} lldpa_mark;
typedef struct lldpa_marks {
    lldpa_mark items[64];
    uint8_t count;
} lldpa_marks;
typedef struct lldpa_ticks_taken {
    uint32_t taken;
    uint32_t aged_out;
} lldpa_ticks_taken;
uint8_t lldpa_ticks(lldpa_agent *agent, uint32_t count, lldpa_marks *marks, lldpa_ticks_taken *told);
#define LLDPA_NEVER UINT32_MAX
uint8_t lldpa_due(const lldpa_agent *agent, uint32_t *seconds);
#define LLDPA_NEWS_NOT_LLDP 1
#define LLDPA_NEWS_DEAF 2
#define LLDPA_NEWS_REFUSED 3
#define LLDPA_NEWS_NEW 4
#define LLDPA_NEWS_CHANGED 5
#define LLDPA_NEWS_SAME 6
#define LLDPA_NEWS_DROPPED 7
#define LLDPA_NEWS_GONE 8
#define LLDPA_NEWS_UNKNOWN 9
typedef struct lldpa_news {
    lldpa_place chassis;
    lldpa_place port;
    uint32_t what;
    uint32_t fault;
} lldpa_news;
uint8_t lldpa_frame(lldpa_agent *agent, uint32_t port, const uint8_t *octets, size_t length, lldpa_marks *marks,
                    lldpa_news *news);
uint8_t lldpa_link(lldpa_agent *agent, uint32_t port, bool up, lldpa_marks *marks);
uint8_t lldpa_leave(lldpa_agent *agent, lldpa_marks *marks);
uint8_t lldpa_neighbor_count(const lldpa_agent *agent, uint32_t port, uint32_t *count);
typedef struct lldpa_held {
    lldpa_examined pdu;
    uint32_t left;
} lldpa_held;
uint8_t lldpa_neighbor(const lldpa_agent *agent, uint32_t port, uint32_t index, uint8_t *room, size_t room_length,
                       lldpa_held *told);
uint8_t lldpa_aged_count(const lldpa_agent *agent, uint32_t port, uint32_t *count);
uint8_t lldpa_aged(const lldpa_agent *agent, uint32_t port, uint32_t index, uint8_t *room, size_t room_length,
                   lldpa_held *told);
typedef struct lldpa_statistics_told {
    uint32_t sent;
    uint32_t shutdowns;
    uint32_t received;
    uint32_t discarded;
    uint32_t errors;
    uint32_t tlvs_discarded;
    uint32_t unrecognized;
    uint32_t ageouts;
    uint32_t drops;
} lldpa_statistics_told;
uint8_t lldpa_statistics(const lldpa_agent *agent, uint32_t port, lldpa_statistics_told *told);
#define LLDPA_RX_AND_TX 0
#define LLDPA_RX_ONLY 1
#define LLDPA_TX_ONLY 2
#define LLDPA_DISABLED 3
typedef struct lldpa_configuration_told {
    uint32_t interval;
    uint32_t hold;
    uint32_t ttl;
    uint32_t reinit;
    uint32_t fast_init;
    uint32_t credit_max;
    uint32_t max_neighbors;
    uint32_t ports;
    uint8_t status[64];
} lldpa_configuration_told;
uint8_t lldpa_configuration(const lldpa_agent *agent, lldpa_configuration_told *told);
typedef struct lldpa_chassis_told {
    uint8_t mac[6];
    uint8_t role;
    bool managed;
    uint8_t management[4];
    uint8_t hostname_length;
    uint8_t description_length;
    uint8_t hostname[255];
    uint8_t description[255];
} lldpa_chassis_told;
uint8_t lldpa_chassis(const lldpa_agent *agent, lldpa_chassis_told *told);
#define LLDPA_SHOW_NOTHING 0
#define LLDPA_SHOW_NEIGHBORS 1
#define LLDPA_SHOW_STATISTICS 2
#define LLDPA_SHOW_CHASSIS 3
#define LLDPA_SHOW_CONFIGURATION 4
#define LLDPA_UNKNOWN 31
#define LLDPA_NO_SUCH_PORT 32
#define LLDPA_NUMBER 33
#define LLDPA_RANGE 34
#define LLDPA_BAD_TEXT 35
#define LLDPA_EXTRA 36
#define LLDPA_QUOTE 37
#define LLDPA_IN_USE 38
uint8_t lldpa_command(lldpa_agent *agent, const uint8_t *line, size_t length, uint32_t *show, lldpa_marks *marks);
typedef struct lldpa_lines {
    size_t length;
    uint32_t next;
    bool done;
} lldpa_lines;
uint8_t lldpa_show_lines(const lldpa_agent *agent, uint32_t show, uint32_t from, uint8_t *room, size_t room_length,
                         lldpa_lines *told);
uint8_t lldpa_frame_of(const lldpa_agent *agent, uint32_t port, uint32_t mark, uint8_t *room, size_t room_length,
                       size_t *length);
void lldpa_close(lldpa_agent *agent);
#ifdef __cplusplus
}
#endif
#endif
