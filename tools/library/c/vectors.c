/*
 * Reads the input of each row of a file, calls the library with it, and writes the row with the
 * library's results. If the library is right, the written rows equal those of the file.
 *     vectors FILE
 * The head of examples/vectors.rows describes the rows. test_library.py compares what is written.
 */
#include "checks.h"
#include "lldpa.h"

/* The greatest length of a row, and the most fields of a row. */
#define MOST_OCTETS 65536
#define MOST_FIELDS 128

/* The fields of the current row. */
static char *fields[MOST_FIELDS];
static size_t field_count;

static uint32_t number(size_t field)
{
    return (uint32_t)strtoul(fields[field], NULL, 10);
}

/* Returns the octets of the digits up to a colon or the end of the field; `-` means none. */
static octets octets_of(const char *digits)
{
    return spelled(digits, *digits == '-' ? 0 : strcspn(digits, ":"));
}

static void write_fields(size_t first, size_t count)
{
    for (size_t at = first; at < first + count; at++) {
        printf("%s%s", at > 0 ? "\t" : "", fields[at]);
    }
}

static void write_octets(char before, const uint8_t *at, size_t length)
{
    printf("%c%s", before, length > 0 ? "" : "-");
    for (size_t place = 0; place < length; place++) {
        printf("%02x", at[place]);
    }
}

/* Writes a fault as in the rows: 0 for LLDPA_OK, 1 for the fault `first`, and so on. */
static void write_fault(char before, unsigned first, unsigned fault)
{
    printf("%c%u", before, fault == LLDPA_OK ? 0 : fault - first + 1);
}

static void write_kept(const uint8_t *pdu, size_t length)
{
    octets extent = copied(pdu, length);
    lldpa_kept walk = LLDPA_KEPT_INIT;
    while (lldpa_next_kept(extent.at, extent.length, &walk)) {
        printf("\t%u", walk.kind);
        write_octets(':', extent.at + walk.body.start, walk.body.length);
    }
    free(extent.at);
}

/* Writes a row: examine NAME LLDPDU .. */
static void write_examined(void)
{
    octets pdu = octets_of(fields[2]);
    lldpa_examined told = {0};
    uint8_t fault = lldpa_examine(pdu.at, pdu.length, &told);
    write_fields(0, 3);
    if (fault != LLDPA_OK) {
        printf("\tfault\t%u", fault);
    } else {
        printf("\ttold\t%u", told.ttl);
        write_octets('\t', pdu.at + told.chassis.start, told.chassis.length);
        write_octets('\t', pdu.at + told.port.start, told.port.length);
        printf("\t%zu\t%zu\t%zu", told.extent, told.discarded, told.unrecognized);
    }
    if (told.ttl > 0) {
        write_kept(pdu.at, told.extent);
    }
    free(pdu.at);
}

/* Writes a row: caps NAME BODY .. */
static void write_capabilities(void)
{
    octets body = octets_of(fields[2]);
    lldpa_capabilities told;
    write_fields(0, 3);
    if (lldpa_caps(body.at, body.length, &told)) {
        printf("\t%u\t%u", told.available, told.enabled);
    }
    free(body.at);
}

/* Writes a row: mgmt NAME BODY .. */
static void write_management(void)
{
    octets body = octets_of(fields[2]);
    lldpa_management told;
    write_fields(0, 3);
    if (lldpa_mgmt(body.at, body.length, &told)) {
        printf("\t%u", told.family);
        write_octets('\t', body.at + told.address.start, told.address.length);
        printf("\t%u\t%lu", told.numbering, (unsigned long)told.interface);
        write_octets('\t', body.at + told.oid.start, told.oid.length);
    }
    free(body.at);
}

/* Writes a row: build NAME TTL CHASSIS PORT LENGTH LLDPDU [KIND:BODY:ANSWER ..] */
static void write_built(void)
{
    octets chassis = octets_of(fields[3]), port = octets_of(fields[4]);
    size_t count = field_count - 7, length = 0;
    lldpa_tlv *tlvs = taken(count * sizeof *tlvs);
    uint8_t *faults = taken(count), *room = taken(number(5));
    for (size_t at = 0; at < count; at++) {
        octets body = octets_of(strchr(fields[7 + at], ':') + 1);
        tlvs[at] = (lldpa_tlv){body.at, body.length, (uint8_t)number(7 + at)};
    }
    uint8_t answer = lldpa_build(chassis.at, chassis.length, port.at, port.length, (uint16_t)number(2), tlvs, count,
                                 faults, count, room, number(5), &length);
    write_fields(0, 5);
    printf("\t%zu", answer == LLDPA_OK ? length : 0);
    write_octets('\t', room, strcmp(fields[6], "-") == 0 ? 0 : length);
    for (size_t at = 0; at < count; at++) {
        printf("\t%u", tlvs[at].kind);
        write_octets(':', tlvs[at].body, tlvs[at].length);
        write_fault(':', LLDPA_FULL, faults[at]);
        free((void *)tlvs[at].body);
    }
    free(room);
    free(faults);
    free(tlvs);
    free(port.at);
    free(chassis.at);
}

/* Writes a row: machine NAME CREDIT_MAX [CAUSE:TIMES:INTERVAL:MARKS ..] */
static void write_machine(void)
{
    lldpa_machine machine = {0};
    lldpa_transmit_new(&machine, number(2), 4, 2, true);
    write_fields(0, 3);
    for (size_t field = 3; field < field_count; field++) {
        unsigned cause, times, interval;
        int before = -1;
        if (sscanf(fields[field], "%u:%u:%u", &cause, &times, &interval) == 3) {
            printf("\t%u:%u:%u", cause, times, interval);
            for (unsigned done = 0; done < times; done++) {
                uint8_t mark = 77;
                lldpa_transmit_event(&machine, cause, interval, &mark);
                if (mark != before) {
                    printf(":%u", mark);
                }
                before = mark;
            }
        }
    }
}

/* Writes a row: open NAME HOSTNAME FAULT [PORT ..] */
static void write_opening(void)
{
    octets hostname = octets_of(fields[2]);
    size_t count = field_count - 4;
    lldpa_text *ports = taken(count * sizeof *ports);
    lldpa_options options = LLDPA_OPTIONS_INIT;
    lldpa_agent agent = {0};
    for (size_t at = 0; at < count; at++) {
        octets name = octets_of(fields[4 + at]);
        ports[at] = (lldpa_text){name.at, name.length};
    }
    options.ports = ports;
    options.port_count = count;
    options.hostname = (lldpa_text){hostname.at, hostname.length};
    write_fields(0, 3);
    write_fault('\t', LLDPA_MEMORY, lldpa_open(&options, &agent));
    write_fields(4, count);
    lldpa_close(&agent);
    for (size_t at = 0; at < count; at++) {
        free((void *)ports[at].octets);
    }
    free(ports);
    free(hostname.at);
}

static void write_row(void)
{
    static const struct {
        const char *kind;
        void (*write)(void);
    } kinds[] = {{"examine", write_examined}, {"caps", write_capabilities}, {"mgmt", write_management},
                 {"build", write_built}, {"machine", write_machine}, {"open", write_opening}};
    for (size_t at = 0; at < sizeof kinds / sizeof *kinds; at++) {
        if (strcmp(kinds[at].kind, fields[0]) == 0) {
            kinds[at].write();
            putchar('\n');
        }
    }
}

int main(int count, char **words)
{
    static char line[MOST_OCTETS];
    FILE *file = count == 2 ? fopen(words[1], "r") : NULL;
    if (file == NULL) {
        fputs("usage: vectors FILE\n", stderr);
        return 2;
    }
    while (fgets(line, sizeof line, file) != NULL) {
        field_count = 0;
        for (char *at = strtok(line, "\t\n"); at != NULL && field_count < MOST_FIELDS; at = strtok(NULL, "\t\n")) {
            fields[field_count++] = at;
        }
        if (field_count > 1) {
            write_row();
        }
    }
    fclose(file);
    return 0;
}
