/* A preloaded library that refuses memory to a program, for tools/gate/test_refused_memory.py.
 *
 * It counts the program's requests for memory. REFUSE_AT=N refuses request N and, if REFUSE_LATER is
 * set, all later ones. TELL_TO=FILE writes the number of requests to FILE at the end. */
#include <errno.h>
#include <stdio.h>
#include <stdlib.h>

/* The C library's own functions, by names that this library does not replace. */
extern void *__libc_malloc(size_t size);
extern void *__libc_calloc(size_t count, size_t size);
extern void *__libc_realloc(void *old, size_t size);
extern void *__libc_memalign(size_t alignment, size_t size);

static long requests;

static int is_refused(void) {
    const char *at = getenv("REFUSE_AT");
    long refused = at ? atol(at) : 0;
    requests++;
    if (refused == 0 || requests < refused || (requests > refused && !getenv("REFUSE_LATER"))) return 0;
    errno = ENOMEM;
    return 1;
}

void *malloc(size_t size) { return is_refused() ? NULL : __libc_malloc(size); }
void *calloc(size_t count, size_t size) { return is_refused() ? NULL : __libc_calloc(count, size); }
void *realloc(void *old, size_t size) { return is_refused() ? NULL : __libc_realloc(old, size); }
void *memalign(size_t align, size_t size) { return is_refused() ? NULL : __libc_memalign(align, size); }
void *aligned_alloc(size_t align, size_t size) { return memalign(align, size); }

int posix_memalign(void **out, size_t align, size_t size) {
    void *made = memalign(align, size);
    if (made) *out = made;
    return made ? 0 : ENOMEM;
}

__attribute__((destructor)) static void tell(void) {
    long counted = requests;
    const char *name = getenv("TELL_TO");
    FILE *file = name ? fopen(name, "w") : NULL;
    if (file) fprintf(file, "%ld\n", counted), fclose(file);
}
