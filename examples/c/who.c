/*
 * Prints the neighbors in a capture: a line for each, with its chassis ID, its port ID, its time to
 * live and its system name.
 *     cc who.c $(pkg-config --cflags --libs lldpa) -o who && ./who FILE.pcap
 */
#include <lldpa.h>
#include <stdio.h>
#include <string.h>

/* The identifiers that were printed. Later frames of the same sender are skipped. */
static uint8_t seen[1024][512];
static size_t seen_lengths[1024], seen_count;

static uint32_t number(const uint8_t *at, int is_little)
{
    return is_little ? at[0] | at[1] << 8 | at[2] << 16 | (uint32_t)at[3] << 24
                     : at[3] | at[2] << 8 | at[1] << 16 | (uint32_t)at[0] << 24;
}

/* Prints a TLV as text. The library escapes what a stranger chose. */
static void print_tlv(uint32_t kind, const uint8_t *body, size_t length)
{
    uint8_t text[LLDPA_VALUE_ROOM];
    size_t used = 0;
    lldpa_tlv_text(kind, body, length, text, sizeof text, &used);
    printf("%.*s", (int)used, (const char *)text);
}

/* True if no earlier LLDPDU began with these `length` octets, which identify the sender. */
static int is_new(const uint8_t *pdu, size_t length)
{
    for (size_t at = 0; at < seen_count; at++) {
        if (seen_lengths[at] == length && memcmp(seen[at], pdu, length) == 0) {
            return 0;
        }
    }
    if (seen_count < 1024 && length <= 512) {
        memcpy(seen[seen_count], pdu, length);
        seen_lengths[seen_count++] = length;
    }
    return 1;
}

static void print_neighbor(const uint8_t *pdu, size_t length)
{
    lldpa_examined told;
    lldpa_kept walk = LLDPA_KEPT_INIT;
    if (lldpa_examine(pdu, length, &told) != LLDPA_OK || told.ttl == 0 ||
        !is_new(pdu, told.port.start + told.port.length)) {
        return;
    }
    print_tlv(1, pdu + told.chassis.start, told.chassis.length);
    putchar(' ');
    print_tlv(2, pdu + told.port.start, told.port.length);
    printf(" %u", told.ttl);
    while (lldpa_next_kept(pdu, told.extent, &walk)) {
        if (walk.kind == 5) {
            putchar(' ');
            print_tlv(walk.kind, pdu + walk.body.start, walk.body.length);
        }
    }
    putchar('\n');
}

int main(int count, char **words)
{
    static uint8_t header[24], frame[65536];
    FILE *capture = count == 2 ? fopen(words[1], "rb") : NULL;
    if (capture == NULL) {
        fputs("usage: who FILE.pcap\n", stderr);
        return 2;
    }
    if (fread(header, 1, 24, capture) != 24) {
        fputs("who: no pcap file\n", stderr);
        fclose(capture);
        return 2;
    }
    int is_little = header[3] == 0xa1;
    while (fread(header, 1, 16, capture) == 16) {
        size_t length = number(header + 8, is_little);
        lldpa_place pdu;
        if (length > sizeof frame || fread(frame, 1, length, capture) != length) {
            break;
        }
        if (lldpa_frame_pdu(frame, length, &pdu)) {
            print_neighbor(frame + pdu.start, pdu.length);
        }
    }
    fclose(capture);
    return 0;
}
