/*
 * C functions that the program needs on a platform for which the toolchain has no archive. They
 * return the program's arguments, and get and set errno.
 */
#include <errno.h>
#include <string.h>

static size_t argument_count;
static char **arguments;

/* The C library passes a constructor the arguments of main. */
__attribute__((constructor)) static void keep_arguments(int count, char **words)
{
    argument_count = (size_t)count;
    arguments = words;
}

/* Copies argument `at`. Returns its length, -1 if there is none, -2 if it is longer than `most`. */
long rattle_arg(size_t at, char *room, size_t most)
{
    if (at >= argument_count) {
        return -1;
    }
    size_t length = strlen(arguments[at]);
    if (length > most) {
        return -2;
    }
    memcpy(room, arguments[at], length);
    return (long)length;
}

int rattle_errno(void)
{
    return errno;
}

void rattle_set_errno(int number)
{
    errno = number;
}
