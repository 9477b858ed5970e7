/* Lends between fences: an untouchable page on one side, guards on the other. */
#ifndef _DEFAULT_SOURCE
#define _DEFAULT_SOURCE 1 /* mmap with MAP_ANONYMOUS is not plain C99 */
#endif
#include "place.h"

#include <signal.h>
#include <stdio.h>
#include <stdlib.h>
#include <string.h>
#include <sys/mman.h>
#include <unistd.h>

#define GUARD 256u /* guard octets on the side that has no fence */

static struct {
    uint8_t *room; /* LENT_MAX and one page between two untouchable pages */
    uint8_t *at;   /* where the library sees the buffer */
    size_t len;
} places[ROLES];

static size_t page, room_len;
static const char *const *group_name;

/* A touched fence ends the test with words instead of a bare signal. */
static void on_fence(int signal_number)
{
    static const char words[] = "FAILED: the library touched a fence in: ";
    (void)signal_number;
    if (write(2, words, sizeof words - 1) < 0
        || write(2, *group_name, strlen(*group_name)) < 0
        || write(2, "\n", 1) < 0)
        _exit(3);
    _exit(2);
}

void place_open(const char *const *group)
{
    int r;

    group_name = group;
    page = (size_t)sysconf(_SC_PAGESIZE);
    room_len = LENT_MAX + page;
    for (r = 0; r < ROLES; r++) {
        void *all = mmap(NULL, room_len + 2 * page, PROT_NONE,
                         MAP_PRIVATE | MAP_ANONYMOUS, -1, 0);
        if (all == MAP_FAILED
            || mprotect((uint8_t *)all + page, room_len,
                        PROT_READ | PROT_WRITE) != 0) {
            perror("mmap");
            exit(3);
        }
        places[r].room = (uint8_t *)all + page;
    }
    signal(SIGSEGV, on_fence);
    signal(SIGBUS, on_fence);
}

static uint8_t guard_octet(size_t i)
{
    return (uint8_t)(0x5Au ^ i);
}

/* The guard octets lie on the side away from the fence. */
static uint8_t *guards_of(int role, int back)
{
    return back ? places[role].at - GUARD : places[role].at + places[role].len;
}

uint8_t *place(int role, const uint8_t *octets, size_t len, int back)
{
    size_t i;
    uint8_t *guards;

    places[role].len = len;
    places[role].at = places[role].room + (back ? room_len - len : 0);
    memcpy(places[role].at, octets, len);
    guards = guards_of(role, back);
    for (i = 0; i < GUARD; i++)
        guards[i] = guard_octet(i);
    return places[role].at;
}

long changed_outside(int role, int back)
{
    const uint8_t *guards = guards_of(role, back);
    size_t i;

    for (i = 0; i < GUARD; i++)
        if (guards[i] != guard_octet(i))
            return (long)i;
    return -1;
}

/* The pages of a buffer and its guards; a whole room would take the system as
 * long as the rest of the test. */
static void protect(int role, int protection)
{
    size_t from, to;

    if (places[role].at == NULL)
        return;
    from = (size_t)(places[role].at - places[role].room);
    to = (from + places[role].len + GUARD + page - 1) / page * page;
    from = (from > GUARD ? from - GUARD : 0) / page * page;
    if (to > room_len)
        to = room_len;
    if (mprotect(places[role].room + from, to - from, protection) != 0)
        exit(3);
}

void place_lock(int locked)
{
    const int protection = locked ? PROT_READ : PROT_READ | PROT_WRITE;

    protect(SHEET, protection);
    protect(COMMAND, protection);
    protect(TRACE, protection);
    protect(OLD, protection);
    protect(SECOND, protection);
}
