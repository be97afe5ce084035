/* The yardstick of bench.py, for amd64: the same work in plain C, with few checks and no proofs.
 *
 *   yardstick read NEIGHBORS < TRACE      reads lines `rx PORT HEX`, decodes the digits by a table,
 *                                         walks the TLVs and refreshes one of NEIGHBORS; counts ticks
 *   yardstick vectors NEIGHBORS < TRACE   the same with SSE, but without a check of the TLVs; the
 *                                         first 16 octets of an LLDPDU serve as the neighbor's name
 *   yardstick show LINES < TRACE          writes the file LINES for each line `show ..`
 *   yardstick send FRAME < TRACE          writes 64 lines `tx eth0 HEX` of that frame for each line
 */
#include <emmintrin.h>
#include <stdint.h>
#include <stdio.h>
#include <stdlib.h>
#include <string.h>
#include <unistd.h>

enum { LONGEST = 4096, ROOM = 16384, MOST = 128, PORTS = 64, BLOCK = 16 };

struct neighbor {
    uint8_t octets[1500];
    int length, chassis, port, ttl;
};

static uint8_t value_of[256];
static struct neighbor table[MOST];
static int held, by_vectors;
static unsigned long ticks, refused;

static void make_values(void)
{
    memset(value_of, 0xff, sizeof value_of);
    for (int i = 0; i < 10; i++)
        value_of['0' + i] = i;
    for (int i = 0; i < 6; i++)
        value_of['a' + i] = value_of['A' + i] = 10 + i;
}

/* Decodes pairs of digits. Returns the number of octets, or -1 if something is not a digit. */
static int decode(const char *digits, int count, uint8_t *octets)
{
    int bad = 0;
    for (int i = 0; i < count / 2; i++) {
        uint8_t high = value_of[(uint8_t)digits[2 * i]], low = value_of[(uint8_t)digits[2 * i + 1]];
        bad |= high | low;
        octets[i] = high << 4 | (low & 15);
    }
    return count % 2 || bad & 0xf0 ? -1 : count / 2;
}

/* Walks the TLVs of an LLDPDU, and refreshes its neighbor in a table of at most `limit`. */
static void take(const uint8_t *pdu, int length, int limit)
{
    int at = 0, place = 0, chassis = 0, port = 0, ttl = 0;
    while (at + 2 <= length) {
        int type = pdu[at] >> 1, size = (pdu[at] & 1) << 8 | pdu[at + 1];
        if (type == 0 || at + 2 + size > length)
            break;
        if (place == 0)
            chassis = size;
        else if (place == 1)
            port = size;
        else if (place == 2 && size >= 2)
            ttl = pdu[at + 2] << 8 | pdu[at + 3];
        place++;
        at += 2 + size;
    }
    if (place < 3 || ttl == 0) {
        refused++;
        return;
    }
    int i = 0;
    while (i < held && !(table[i].chassis == chassis && table[i].port == port
                         && memcmp(table[i].octets + 2, pdu + 2, chassis) == 0
                         && memcmp(table[i].octets + 4 + chassis, pdu + 4 + chassis, port) == 0))
        i++;
    if (i == held) {
        if (held == limit)
            return;
        held++;
    }
    memcpy(table[i].octets, pdu, at);
    table[i].length = at;
    table[i].chassis = chassis;
    table[i].port = port;
    table[i].ttl = ttl;
}

/* Returns a lane of ones for each octet that is at most `most`, and of zeros for the others. */
static inline __m128i at_most(__m128i octets, int most)
{
    return _mm_cmpeq_epi8(_mm_min_epu8(octets, _mm_set1_epi8(most)), octets);
}

/* Returns the octets of sixteen digits, 16 bits each. Clears in `good` the lanes of non-digits. */
static inline __m128i octets_of(const char *digits, __m128i *good)
{
    __m128i all = _mm_loadu_si128((const __m128i *)digits);
    __m128i numeral = _mm_sub_epi8(all, _mm_set1_epi8('0'));
    __m128i letter = _mm_sub_epi8(_mm_or_si128(all, _mm_set1_epi8(32)), _mm_set1_epi8('a'));
    __m128i is_numeral = at_most(numeral, 9), is_letter = at_most(letter, 5);
    __m128i ten_more = _mm_add_epi8(letter, _mm_set1_epi8(10));
    __m128i values = _mm_or_si128(_mm_and_si128(numeral, is_numeral), _mm_and_si128(ten_more, is_letter));
    *good = _mm_and_si128(*good, _mm_or_si128(is_numeral, is_letter));
    return _mm_and_si128(_mm_or_si128(_mm_slli_epi16(values, 4), _mm_srli_epi16(values, 8)), _mm_set1_epi16(255));
}

/* Decodes as `decode` does, 32 digits at a time. The last block begins 32 digits before the end. */
static int decode_by_vectors(const char *digits, int count, uint8_t *octets)
{
    __m128i good = _mm_set1_epi8(-1);
    int last = count - 2 * BLOCK;
    if (last < 0 || count % 2)
        return decode(digits, count, octets);
    for (int i = 0; i < last + 2 * BLOCK; i += 2 * BLOCK) {
        int at = i < last ? i : last;
        __m128i high = octets_of(digits + at, &good), low = octets_of(digits + at + BLOCK, &good);
        _mm_storeu_si128((__m128i *)(octets + at / 2), _mm_packus_epi16(high, low));
    }
    return _mm_movemask_epi8(good) == 0xffff ? count / 2 : -1;
}

static int may_be_same(const uint8_t *a, const uint8_t *b)
{
    __m128i same = _mm_cmpeq_epi8(_mm_loadu_si128((const __m128i *)a), _mm_loadu_si128((const __m128i *)b));
    return _mm_movemask_epi8(same) == 0xffff;
}

/* Refreshes the neighbor in a table of at most `limit`, without reading its TLVs. */
static void take_unchecked(const uint8_t *pdu, int length, int limit)
{
    int i = 0;
    while (i < held && !may_be_same(table[i].octets, pdu))
        i++;
    if (i == held) {
        if (held == limit)
            return;
        held++;
    }
    memcpy(table[i].octets, pdu, length);
    table[i].length = length;
}

static void read_line(const char *line, int length, int limit)
{
    static uint8_t frame[LONGEST / 2 + BLOCK];
    if (length >= 4 && memcmp(line, "tick", 4) == 0) {
        ticks++;
        for (int i = 0; i < held; i++)
            table[i].ttl -= table[i].ttl > 1;
        return;
    }
    if (length < 4 || memcmp(line, "rx ", 3) != 0)
        return;
    const char *digits = memchr(line + 3, ' ', length - 3);
    if (!digits)
        return;
    digits++;
    int count = (by_vectors ? decode_by_vectors : decode)(digits, line + length - digits, frame);
    if (count >= 14 && memcmp(frame, "\x01\x80\xc2\x00\x00\x0e", 6) == 0 && frame[12] == 0x88 && frame[13] == 0xcc)
        (by_vectors ? take_unchecked : take)(frame + 14, count - 14, limit);
    else
        refused++;
}

static char *whole_file(const char *name, size_t *length)
{
    FILE *file = fopen(name, "rb");
    if (!file)
        exit(2);
    fseek(file, 0, SEEK_END);
    *length = ftell(file);
    rewind(file);
    char *text = malloc(*length + 1);
    if (!text || fread(text, 1, *length, file) != *length)
        exit(2);
    fclose(file);
    return text;
}

static void show(const char *text, size_t length)
{
    const char *end = text + length;
    while (text < end) {
        const char *next = memchr(text, '\n', end - text);
        next = next ? next + 1 : end;
        fwrite(text, 1, next - text, stdout);
        text = next;
    }
    fflush(stdout);
}

static void send(const uint8_t *frame, size_t length)
{
    static const char digits[] = "0123456789abcdef";
    static char waiting[PORTS * (16 + 2 * 1514)];
    char *at = waiting;
    for (int port = 0; port < PORTS; port++) {
        memcpy(at, "tx eth0 ", 8);
        at += 8;
        for (size_t i = 0; i < length; i++) {
            *at++ = digits[frame[i] >> 4];
            *at++ = digits[frame[i] & 15];
        }
        *at++ = '\n';
    }
    if (write(STDOUT_FILENO, waiting, at - waiting) < 0)
        exit(1);
}

int main(int count, char **words)
{
    static char room[ROOM];
    size_t waiting = 0, length = 0;
    char *file = NULL;
    make_values();
    if (count < 3)
        return 2;
    by_vectors = strcmp(words[1], "vectors") == 0;
    if (!by_vectors && strcmp(words[1], "read") != 0)
        file = whole_file(words[2], &length);
    int limit = file ? 0 : atoi(words[2]);
    for (;;) {
        ssize_t more = read(STDIN_FILENO, room + waiting, ROOM - waiting);
        if (more <= 0)
            break;
        char *line = room, *end = room + waiting + more, *stop;
        while ((stop = memchr(line, '\n', end - line))) {
            if (!file)
                read_line(line, stop - line, limit);
            else if (words[1][1] == 'h' && line[0] == 's')
                show(file, length);
            else if (words[1][1] == 'e')
                send((const uint8_t *)file, length);
            line = stop + 1;
        }
        waiting = end - line;
        memmove(room, line, waiting);
    }
    fprintf(stderr, "%d held, %lu ticks, %lu refused\n", held, ticks, refused);
    return 0;
}
