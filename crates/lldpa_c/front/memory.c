/* The allocator of agents, which uses malloc. */
#include <stdlib.h>

/* The result of an allocation: whether it succeeded, and an address that is never NULL. */
struct memory {
    unsigned long ok;
    void *at;
};

/* The address of this variable is the result if there was no memory. Nothing is written here. */
static const char nowhere;

static struct memory found(void *at)
{
    return (struct memory){at != NULL, at != NULL ? at : (void *)&nowhere};
}

/* Allocates `align` octets instead of 0, so that each result has an address of its own. */
struct memory rattle_alloc(size_t octets, size_t align)
{
    return found(malloc(octets > 0 ? octets : align));
}

struct memory rattle_realloc(void *old, size_t octets_now, size_t octets, size_t align)
{
    (void)octets_now;
    return found(realloc(old, octets > 0 ? octets : align));
}

void rattle_dealloc(void *at)
{
    free(at);
}
