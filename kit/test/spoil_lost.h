/* What is spoiled of a tolerated lost cycle, for spoil.c. */
#ifndef SPOIL_LOST_H
#define SPOIL_LOST_H

#include <string.h>

#include "spoil.h"

/* The sheet as it is seen: with one lost cycle more tolerated in a row. */
static const uint8_t *spoil_tolerance(const uint8_t *sheet, size_t sheet_len)
{
    static uint8_t seen[T24_SHEET_MAX];
    const uint32_t tolerance = t24_tolerance(sheet, sheet_len);

    if (!spoil(35) || sheet_len > sizeof seen || tolerance == 0
        || tolerance >= T24_TOLERANCE_MAX
        || sheet[sheet_len - 3] != T24_RECORD_TOLERANCE)
        return sheet;
    memcpy(seen, sheet, sheet_len);
    seen[sheet_len - 2]++;
    return seen;
}

/* A reply without a tolerated lost cycle: the row, or its bit, out of place. */
static void spoil_kept(const uint8_t *sheet, const uint8_t *before,
                       uint8_t *state, uint8_t *reply)
{
    const int left = before[T24_AT_LINK] == T24_LINK_SYNC
        && t24_reply_communication_alarm(sheet, reply) != 0
        && before[T24_AT_COMMUNICATION_ALARM] == 0;

    if (spoil(30) && state[T24_AT_LINK] == T24_LINK_SYNC
        && t24_reply_alarm(sheet, reply) == T24_ALARM_NONE)
        state[T24_AT_FAILURES] = before[T24_AT_FAILURES]; /* not in a row */
    if (spoil(39) && state[T24_AT_LINK] == T24_LINK_SYNC
        && t24_reply_alarm(sheet, reply) != T24_ALARM_NONE)
        state[T24_AT_FAILURES] = before[T24_AT_FAILURES]; /* refused keeps it */
    if (spoil(40) && left)
        reply[T24_REPLY_AT_STATUS] |= T24_STATUS_TOLERATED;
    if (spoil(41) && left)
        state[T24_AT_FAILURES] = before[T24_AT_FAILURES];
}

/* What comes of a built reply; tells the answer. */
static uint64_t spoil_tolerated(uint64_t answer, const uint8_t *sheet,
                                const uint8_t *before, uint8_t *state,
                                uint8_t *memory, size_t memory_len,
                                uint8_t *reply)
{
    uint8_t *rwdt = reply + t24_rwdt_at(sheet);

    if (!t24_reply_tolerated(sheet, reply)) {
        spoil_kept(sheet, before, state, reply);
        return answer;
    }
    if (spoil(31) && reply[0] == T24_MEM_WR)
        memory[memory_len - 1] ^= 1; /* something is stored */
    if (spoil(32))
        reply[T24_REPLY_AT_STATUS] &= 0xFD; /* not told */
    if (spoil(33)) /* the MN that was expected is taken */
        state[T24_AT_LAST_MN] = (uint8_t)t24_expected_mn(before);
    if (spoil(34)) {
        state[T24_AT_RSN] = before[T24_AT_RSN]; /* RSN does not advance */
        *rwdt = (uint8_t)(16 * before[T24_AT_RSN] + *rwdt % 16);
    }
    if (spoil(37))
        state[T24_AT_COMMUNICATION_ALARM] = T24_ALARM_COMMUNICATION;
    if (spoil(38))
        state[T24_AT_FAILURES] = before[T24_AT_FAILURES]; /* nothing counted */
    if (spoil(42))
        *rwdt = 0;
    return spoil(43) ? answer + ((uint64_t)4 << 32) : answer;
}

#endif
