/* Counts checks, and makes blocks of octets, for the programs of this folder. Each block has its
 * exact size, so that valgrind and AddressSanitizer notice reads beyond its end. */
#ifndef CHECKS_H
#define CHECKS_H

#include <stdint.h>
#include <stdio.h>
#include <stdlib.h>
#include <string.h>

static unsigned passed;
static unsigned failed;

static inline void holds(int is_so, const char *what)
{
    passed += is_so != 0;
    failed += is_so == 0;
    if (!is_so) {
        printf("FAILED: %s\n", what);
    }
}

/* Prints the counts, and returns the status of the program. */
static inline int end(void)
{
    printf("%u passed, %u failed\n", passed, failed);
    return passed == 0 || failed > 0;
}

typedef struct octets {
    uint8_t *at;
    size_t length;
} octets;

/* Returns allocated memory, or ends the program. */
static inline void *taken(size_t size)
{
    void *block = malloc(size > 0 ? size : 1);
    if (block == NULL) {
        fputs("no memory\n", stderr);
        exit(2);
    }
    return block;
}

static inline octets copied(const void *at, size_t length)
{
    octets block = {taken(length), length};
    memcpy(block.at, at, length);
    return block;
}

/* Returns the octets of `count` lower-case hexadecimal digits, or ends the program. */
static inline octets spelled(const char *digits, size_t count)
{
    static const char values[] = "0123456789abcdef";
    octets read = {taken(count / 2), count / 2};
    for (size_t at = 0; at < read.length; at++) {
        const char *high = memchr(values, digits[2 * at], 16), *low = memchr(values, digits[2 * at + 1], 16);
        if (high == NULL || low == NULL) {
            fprintf(stderr, "not hexadecimal: %s\n", digits);
            exit(2);
        }
        read.at[at] = (uint8_t)((high - values) << 4 | (low - values));
    }
    return read;
}

#endif
