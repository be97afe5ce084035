/*
 * The functions that programs call. Each checks the pointers that must not be NULL, and then calls the proved function
 * with the same arguments. Only a NULL whose length is 0 is replaced by another address. checked.awk makes checked.h,
 * which has most of the functions, of lldpa.h. tools/library/library.sh puts `proved_` before the names of the proved
 * functions.
 *
 * A proved function takes the agent out of its handle and puts it back. A function that only reads passes a copy of the
 * handle, so that nothing is written through the caller's pointer to const.
 */
#include "lldpa.h"
#include <string.h>

/* ---- The sizes that the structs have in the proved functions, on each platform ----------------------------------- */

#define SIZE(name, octets) _Static_assert(sizeof(lldpa_##name) == (octets), "the size of lldpa_" #name);

SIZE(place, 16) SIZE(examined, 64) SIZE(kept, 32) SIZE(capabilities, 4) SIZE(management, 40) SIZE(tlv, 24)
SIZE(machine, 12) SIZE(text, 16) SIZE(options, 72) SIZE(agent, 16) SIZE(mark, 2) SIZE(marks, 129) SIZE(ticks_taken, 8)
SIZE(news, 40) SIZE(held, 72) SIZE(statistics_told, 36) SIZE(configuration_told, 96) SIZE(lines, 16)
SIZE(chassis_told, 524)

/* The size of the first lldpa_options, of 1.0.0. */
#define FIRST_OPTIONS 72

/* ---- NULL -------------------------------------------------------------------------------------------------------- */

/* The proved lldpa_open reads at most this many names of ports. */
#define MOST_NAMES 65

/* The address of this variable replaces a NULL that has a length of 0. Nothing is read or written here. */
static const lldpa_tlv nowhere;
#define SOME(at) ((at) != NULL ? (at) : (void *)&nowhere)

/* True if a pointer is NULL, but its length is not 0. */
static bool is_missing(const void *at, size_t count)
{
    return at == NULL && count > 0;
}

/* True if `tlvs` or the body of one of them is missing. */
static bool lacks_octets(const lldpa_tlv *tlvs, size_t count)
{
    bool is_lacking = is_missing(tlvs, count);
    for (size_t at = 0; !is_lacking && at < count; at++) {
        is_lacking = is_missing(tlvs[at].body, tlvs[at].length);
    }
    return is_lacking;
}

/* The contracts of proved functions forbid NULL. */
#define PROVED __attribute__((nonnull))

/* The address of a copy of a handle, for a function that only reads it. */
#define COPY(agent) (&(lldpa_agent){(agent)->held, (agent)->open})

#include "checked.h"

/* ---- The functions with other rules ------------------------------------------------------------------------------ */

/* The build of the Rust crate searches the archive for these words, and reads the number after them. */
static const struct {
    char words[20];
    uint32_t number;
} version = {"liblldpa version", LLDPA_VERSION};

uint32_t lldpa_version(void)
{
    const uint32_t *number = &version.number;
    __asm__("" : "+r"(number)); /* so that the words stay in the archive */
    return *number;
}

/* Gives a text of no octets an address. Returns false if its octets are missing. */
static bool is_whole(lldpa_text *text)
{
    bool is_there = !is_missing(text->octets, text->length);
    text->octets = SOME(text->octets);
    return is_there;
}

extern __typeof__(lldpa_open) proved_lldpa_open PROVED;
uint8_t lldpa_open(const lldpa_options *options, lldpa_agent *agent)
{
    /* Fields that the caller's release does not have keep these defaults. */
    lldpa_options given = LLDPA_OPTIONS_INIT;
    lldpa_text names[MOST_NAMES];
    if (options == NULL || agent == NULL) {
        return LLDPA_NULL;
    }
    if (options->size < FIRST_OPTIONS || options->size > sizeof given) {
        return LLDPA_OUT_OF_RANGE;
    }
    memcpy(&given, options, options->size);
    const lldpa_text *ports = given.ports;
    given.ports = names;
    if (given.port_count > MOST_NAMES) {
        given.port_count = MOST_NAMES;
    }
    bool is_there = !is_missing(ports, given.port_count) && is_whole(&given.hostname);
    for (size_t at = 0; is_there && at < given.port_count; at++) {
        names[at] = ports[at];
        is_there = is_whole(&names[at]);
    }
    return is_there ? proved_lldpa_open(&given, agent) : LLDPA_NULL;
}

/* The first of these proved functions writes no news, and the second writes news. */
extern uint8_t proved_lldpa_frame(lldpa_agent *agent, uint32_t port, const uint8_t *octets, size_t length,
                                  lldpa_marks *marks) PROVED;
extern __typeof__(lldpa_frame) proved_lldpa_frame_news PROVED;
uint8_t lldpa_frame(lldpa_agent *agent, uint32_t port, const uint8_t *octets, size_t length, lldpa_marks *marks,
                    lldpa_news *news)
{
    if (agent == NULL || is_missing(octets, length) || marks == NULL) {
        return LLDPA_NULL;
    }
    return news == NULL ? proved_lldpa_frame(agent, port, SOME(octets), length, marks)
                        : proved_lldpa_frame_news(agent, port, SOME(octets), length, marks, news);
}

extern __typeof__(lldpa_close) proved_lldpa_close PROVED;
void lldpa_close(lldpa_agent *agent)
{
    if (agent != NULL) {
        proved_lldpa_close(agent);
    }
}
