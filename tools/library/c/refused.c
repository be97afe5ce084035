/*
 * Refuses memory to the library: each allocation of an opening in turn, and then all allocations.
 * An opening without memory must report this and keep no memory. An open agent must request no
 * memory. A close must free all memory.
 *     refused
 * It is linked with --wrap=malloc, --wrap=realloc and --wrap=free, to see each call of the library.
 * The last line is `N passed, M failed`.
 */
#include "calls.h"

void *__real_malloc(size_t size);
void *__real_realloc(void *block, size_t size);
void __real_free(void *block);

/* The number of requests, the one to refuse (0: none, ALL: each), and the number of blocks. */
#define ALL (~0ul)
static unsigned long asked;
static unsigned long refused;
static long held;

static int refuses(void)
{
    asked++;
    return refused == ALL || asked == refused;
}

void *__wrap_malloc(size_t size)
{
    void *block = refuses() ? NULL : __real_malloc(size);
    held += block != NULL;
    return block;
}

void *__wrap_realloc(void *block, size_t size)
{
    void *other = refuses() ? NULL : __real_realloc(block, size);
    held += block == NULL && other != NULL;
    return other;
}

void __wrap_free(void *block)
{
    held -= block != NULL;
    __real_free(block);
}

#define RUN(name, most, call) (void)(call);
#define USE(name, most, call) holds((call) == LLDPA_OK, #name);

/* Makes all calls on an open agent, with more neighbors than fit, and with refused commands. */
static void use(void)
{
    static const char *const refused_lines[] = {"configure lldp max-neighbors 1", "show neighbors x", "\"", "tick"};
    for (unsigned done = 0; done < 200; done++) {
        frame[22] = (uint8_t)(done % 40);
        PLAIN_CALLS(RUN)
        AGENT_CALLS(USE)
        const char *other = refused_lines[(done + 1) % 4];
        uint8_t answer = lldpa_command(&agent, (const uint8_t *)other, strlen(other), &number, &marks);
        holds(answer >= LLDPA_UNKNOWN && answer <= LLDPA_IN_USE, "a command is not refused");
    }
    holds(lldpa_leave(&agent, &marks) == LLDPA_OK, "leaving");
}

int main(void)
{
    holds(open_agent() == LLDPA_OK, "an opening");
    unsigned long needed = asked;
    holds(needed > 0 && held > 0, "an agent without memory");
    lldpa_close(&agent);
    holds(held == 0, "a close keeps memory");
    for (unsigned long nth = 1; nth <= needed; nth++) {
        asked = 0;
        refused = nth;
        holds(open_agent() == LLDPA_MEMORY && !agent.open, "an opening without memory");
        holds(held == 0, "an opening that failed keeps memory");
    }
    asked = refused = 0;
    holds(open_agent() == LLDPA_OK && asked == needed, "an opening after those that failed");
    refused = ALL;
    use();
    holds(asked == needed, "an open agent asks for memory");
    lldpa_close(&agent);
    holds(held == 0, "a close keeps memory after use");
    refused = 0;
    return end();
}
