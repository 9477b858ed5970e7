/* The stack that a function takes: it runs on a painted one, and what lost its
 * paint is counted.  To be included before any other header. */
#ifndef PAINTED_H
#define PAINTED_H

#ifndef _XOPEN_SOURCE
#define _XOPEN_SOURCE 700 /* makecontext is not plain C99 */
#endif
#include <stdint.h>
#include <string.h>
#include <ucontext.h>

#define PAINT 0xA7

static uint8_t painted[256 * 1024];
static ucontext_t here, there;

/* Octets that lost their paint; all of them where the function did not run. */
static size_t stack_used_by(void (*call)(void))
{
    size_t untouched;

    memset(painted, PAINT, sizeof painted);
    if (getcontext(&there) != 0)
        return sizeof painted;
    there.uc_stack.ss_sp = painted;
    there.uc_stack.ss_size = sizeof painted;
    there.uc_link = &here;
    makecontext(&there, call, 0);
    if (swapcontext(&here, &there) != 0)
        return sizeof painted;
    for (untouched = 0; painted[untouched] == PAINT; untouched++)
        continue;
    return sizeof painted - untouched;
}

#endif
