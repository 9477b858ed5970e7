/* Buffers lent to an engine, against an untouchable page on one side and beside
 * guard octets on the other, so that an engine without a sanitizer of its own
 * cannot read or write past an end unseen. */
#ifndef LENT_H
#define LENT_H

#include <stddef.h>
#include <stdint.h>
#include <stdlib.h>
#include <string.h>
#include <sys/mman.h>
#include <unistd.h>

enum { GUARD = 64, GUARD_OCTET = 0xC3, LENT_MAX = 66 * 1024 };

struct lent {
    uint8_t *room; /* between two untouchable pages */
    size_t room_length;
    uint8_t *octets;
    size_t length;
    uint8_t *guard;
};

/* Maps the room once; inputs only move the buffer inside it. */
static void lent_open(struct lent *lent)
{
    const size_t page = (size_t)sysconf(_SC_PAGESIZE);
    uint8_t *all;

    lent->room_length = (LENT_MAX + GUARD + page - 1) / page * page;
    all = mmap(NULL, lent->room_length + 2 * page, PROT_NONE,
               MAP_PRIVATE | MAP_ANONYMOUS, -1, 0);
    if (all == MAP_FAILED)
        abort();
    lent->room = all + page;
    if (mprotect(lent->room, lent->room_length, PROT_READ | PROT_WRITE) != 0)
        abort();
}

static void lent_make(struct lent *lent, const uint8_t *octets, size_t length,
                      int at_end)
{
    if (length > LENT_MAX)
        abort();
    lent->length = length;
    lent->octets = lent->room + (at_end ? lent->room_length - length : 0);
    lent->guard = at_end ? lent->octets - GUARD : lent->octets + length;
    memset(lent->guard, GUARD_OCTET, GUARD);
    if (length > 0)
        memcpy(lent->octets, octets, length);
}

static int lent_intact(const struct lent *lent)
{
    for (size_t at = 0; at < GUARD; at++)
        if (lent->guard[at] != GUARD_OCTET)
            return 0;
    return 1;
}

#endif
