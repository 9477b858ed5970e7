/* The functions of both engines, what they are lent, and how it is compared. */
#ifndef RIG_H
#define RIG_H

#include "lent.h"

#include <stddef.h>
#include <stdint.h>
#include <stdio.h>
#include <stdlib.h>
#include <string.h>

#define ENGINE(name)                                                           \
    uint64_t name##_sheet(const uint8_t *, size_t);                            \
    uint64_t name##_lengths(const uint8_t *, size_t);                          \
    uint64_t name##_reset(const uint8_t *, size_t, uint8_t *, size_t);         \
    uint64_t name##_enable(const uint8_t *, size_t, uint8_t *, size_t);        \
    uint64_t name##_turn(const uint8_t *, size_t, const uint8_t *, size_t,     \
                         uint8_t *, size_t);                                   \
    uint64_t name##_exchange(const uint8_t *, size_t, uint8_t *, size_t,       \
                             uint8_t *, size_t, const uint8_t *, size_t,       \
                             uint8_t *, size_t);                               \
    uint64_t name##_replay(const uint8_t *, size_t, uint8_t *, size_t,         \
                           uint8_t *, size_t, const uint8_t *, size_t);        \
    uint64_t name##_difference(const uint8_t *, size_t, const uint8_t *,       \
                               size_t, uint8_t *, size_t);                     \
    uint64_t name##_version(void)

ENGINE(t24);
ENGINE(peer);

enum { SIDES = 2 };

/* What both engines are lent, once for each side. */
static struct rig {
    struct lent sheet[SIDES], state[SIDES], memory[SIDES];
    struct lent command[SIDES], reply[SIDES], trace[SIDES], old[SIDES];
    struct lent first[SIDES], second[SIDES], list[SIDES];
    int at_end; /* on which side of the buffers the untouchable pages are */
} rig;

static void fail(const char *what, uint64_t peer, uint64_t t24)
{
    fprintf(stderr, "difference in %s: peer %016llx, t24 %016llx\n", what,
            (unsigned long long)peer, (unsigned long long)t24);
    abort();
}

static void same(const char *what, const struct lent *sides)
{
    if (sides[0].length > 0
        && memcmp(sides[0].octets, sides[1].octets, sides[0].length) != 0)
        fail(what, 0, 0);
    if (!lent_intact(&sides[0]) || !lent_intact(&sides[1]))
        fail("octets outside", 0, 0);
}

static void check(const char *call, uint64_t peer, uint64_t t24)
{
    if (peer != t24)
        fail(call, peer, t24);
    same("sheet", rig.sheet);
    same("state", rig.state);
    same("memory", rig.memory);
}

static void lend_both(struct lent *sides, const uint8_t *octets, size_t length)
{
    lent_make(&sides[0], octets, length, rig.at_end);
    lent_make(&sides[1], octets, length, rig.at_end);
}

#define SHEET(side) rig.sheet[side].octets, rig.sheet[side].length
#define STATE(side) rig.state[side].octets, rig.state[side].length
#define MEMORY(side) rig.memory[side].octets, rig.memory[side].length
#define COMMAND(side) rig.command[side].octets, rig.command[side].length
#define REPLY(side) rig.reply[side].octets, rig.reply[side].length
#define TRACE(side) rig.trace[side].octets, rig.trace[side].length
#define OLD(side) rig.old[side].octets, rig.old[side].length
#define FIRST(side) rig.first[side].octets, rig.first[side].length
#define SECOND(side) rig.second[side].octets, rig.second[side].length
#define LIST(side) rig.list[side].octets, rig.list[side].length

#endif
