/* What the programs ask of the C code of the proof kit's library os, for a
 * processor for which the kit has none: the contracts are those of its c.rt. */
#define _GNU_SOURCE /* glibc's arguments of a constructor */
#include <errno.h>
#include <stddef.h>
#include <stdint.h>

int32_t rattle_errno(void);
void rattle_set_errno(int32_t error);
ptrdiff_t rattle_arg(size_t i, uint8_t *buffer, size_t len);

static size_t count;
static char **words;

/* main has no parameters, so the arguments are kept before it runs. */
__attribute__((constructor)) static void keep(int argc, char **argv)
{
    count = (size_t)argc;
    words = argv;
}

int32_t rattle_errno(void)
{
    return errno;
}

void rattle_set_errno(int32_t error)
{
    errno = error;
}

/* The length of argument i, now in the buffer; -1 if there is none, -2 if it
 * does not fit, and then the buffer is full. */
ptrdiff_t rattle_arg(size_t i, uint8_t *buffer, size_t len)
{
    size_t n;

    if (i >= count || words[i] == NULL)
        return -1;
    for (n = 0; words[i][n] != 0; n++) {
        if (n == len)
            return -2;
        buffer[n] = (uint8_t)words[i][n];
    }
    return (ptrdiff_t)n;
}
