/*
 * Measures how much stack each call of the library uses, on a stack filled with a pattern.
 *     stack
 * It prints the octets of each call, and fails if a call uses more than lldpa.h says. The last line
 * is `N passed, M failed`.
 */
#define _GNU_SOURCE
#include "calls.h"
#include <ucontext.h>

#define PAINT 0xa5

static uint8_t stack[1 << 18];
static ucontext_t here, there;

#define CALLS(CALL)                                                                                                    \
    PLAIN_CALLS(CALL)                                                                                                  \
    CALL(lldpa_open, 12288, open_agent())                                                                              \
    AGENT_CALLS(CALL)                                                                                                  \
    CALL(lldpa_leave, 12288, lldpa_leave(&agent, &marks))                                                              \
    CALL(lldpa_close, 12288, lldpa_close(&agent))

#define FUNCTION(name, most, call)                                                                                     \
    static void call_##name(void)                                                                                      \
    {                                                                                                                  \
        call;                                                                                                          \
    }
#define ROW(name, most, call) {#name, call_##name, most},

CALLS(FUNCTION)

static void call_nothing(void)
{
}

/* Returns how far down the stack a call writes, in octets. */
static size_t taken_by(void (*call)(void))
{
    size_t untouched = 0;
    memset(stack, PAINT, sizeof stack);
    getcontext(&there);
    there.uc_stack.ss_sp = stack;
    there.uc_stack.ss_size = sizeof stack;
    there.uc_link = &here;
    makecontext(&there, call, 0);
    swapcontext(&here, &there);
    while (untouched < sizeof stack && stack[untouched] == PAINT) {
        untouched++;
    }
    return sizeof stack - untouched;
}

int main(void)
{
    static const struct {
        const char *name;
        void (*call)(void);
        size_t most;
    } calls[] = {CALLS(ROW)};
    size_t nothing = taken_by(call_nothing);
    for (size_t at = 0; at < sizeof calls / sizeof *calls; at++) {
        size_t octets = taken_by(calls[at].call) - nothing;
        printf("%s: %lu octets of stack\n", calls[at].name, (unsigned long)octets);
        holds(octets <= calls[at].most, calls[at].name);
    }
    return end();
}
