/* The exchanges of one input as a trace, with what it starts from. */
#ifndef TRACE_H
#define TRACE_H

#include "sheets.h"

#include <stddef.h>
#include <stdint.h>
#include <string.h>

enum { TRACE_ROOM = 48 * (1 + 2 * 64) };

static struct kept {
    uint8_t octets[TRACE_ROOM];
    size_t length;
    uint64_t records;
    uint8_t state[16], memory[MEMORY_LIMIT + 300];
    size_t state_length, memory_length;
} kept;

/* Forgets the trace; the next record starts one. */
static void keep_nothing(void)
{
    kept.length = 0;
    kept.records = 0;
}

/* What the next exchange starts from, if it is to be the first record. */
static void keep_start(const uint8_t *state, size_t state_length,
                       const uint8_t *memory, size_t memory_length)
{
    if (kept.records > 0)
        return;
    kept.state_length = state_length;
    kept.memory_length = memory_length;
    memcpy(kept.state, state, state_length);
    memcpy(kept.memory, memory, memory_length);
}

static void keep_record(const uint8_t *command, const uint8_t *reply, size_t l)
{
    uint8_t *to = kept.octets + kept.length;

    to[0] = (uint8_t)(0x21 + l / 16);
    memcpy(to + 1, command, l);
    memcpy(to + 1 + l, reply, l);
    kept.length += 1 + 2 * l;
    kept.records++;
}

/* The trace with some octets changed, and seldom cut; tells its length. */
static size_t change_trace(struct input *in, uint8_t *changed)
{
    const uint8_t control = take(in);

    memcpy(changed, kept.octets, kept.length);
    for (int count = control % 4; count > 0 && kept.length > 0; count--) {
        const size_t at = take_16(in) % kept.length;
        changed[at] ^= take(in);
    }
    return control < 0xC0 ? kept.length : take_16(in) % (kept.length + 1);
}

#endif
