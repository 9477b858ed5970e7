/* A replay of a trace with lost cycles that the sheet tolerates. */
#include "groups.h"
#include "sheets.h"

#include <string.h>

enum { RECORDS = 7, SIZE = 33, COMMAND_AT = 1, REPLY_AT = 17, TOLERANCE = 2 };

/* On sheet P with tolerance 2, from last MN 3 and RSN 5: two lost in a row, one
 * kept, two lost, and one more, which leaves link 3; then out of step.  The
 * state is that behind the record, and only the last record writes. */
static const struct {
    uint8_t command[16], reply[16], state[T24_STATE_LEN];
} script[RECORDS] = {
    { { 0x1E, 0x53, 0x40, 0, 0, 0x11, 1, 0, 4, 0x10, 0, 0, 0x55 },
      { 0x1E, 0x63, 0x46 }, { 0x12, 3, 16, 0, 1, 1, 3, 6, 0, 0, 1 } },
    { { 0x00, 0x54 },
      { 0x00, 0x74, 6 }, { 0x12, 3, 16, 0, 1, 1, 4, 7, 0, 0, 2 } },
    { { 0x20, 0x75 },
      { 0x20, 0x85, 5, 8 }, { 0x12, 3, 16, 0, 1, 1, 5, 8, 8, 0, 0 } },
    { { 0x06, 0x85 },
      { 0x06, 0x95, 7 }, { 0x12, 3, 16, 0, 1, 1, 5, 9, 8, 0, 1 } },
    { { 0x0F, 0x80 },
      { 0x0F, 0xA0, 7 }, { 0x12, 3, 16, 0, 1, 1, 0, 10, 8, 0, 2 } },
    { { 0x0F, 0xA0 },
      { 0x0F, 0x00, 5, 0xC0 }, { 0x12, 2, 16, 0, 1, 0, 0, 0, 8, 12, 0 } },
    { { 0x1E, 0x00, 0, 0, 0, 0x11, 1, 0, 4, 0x10, 0, 0, 0x55 },
      { 0x1E, 0x00, 5, 0xC0, 0, 0x11, 1, 0, 4, 0x10, 0, 0, 0x55 },
      { 0x12, 2, 16, 0, 1, 0, 0, 0, 8, 12, 0 } }
};

static const uint8_t first[] = { 0x12, 3, 16, 0, 1, 1, 3, 5, 0, 0, 0 };

static void give_trace(unsigned tolerance)
{
    uint8_t trace[RECORDS * SIZE];
    struct built sheet;
    size_t i;

    for (i = 0; i < RECORDS; i++) {
        trace[i * SIZE] = T24_TRACE_16;
        memcpy(trace + i * SIZE + COMMAND_AT, script[i].command, 16);
        memcpy(trace + i * SIZE + REPLY_AT, script[i].reply, 16);
    }
    build_tolerant(&sheet, 16, tolerance);
    give(SHEET, sheet.octets, sheet.len);
    give(STATE, first, sizeof first);
    give(MEMORY, memory_p, sizeof memory_p);
    give(TRACE, trace, sizeof trace);
}

/* The record differs at this octet; the state is the one before it. */
static void differs(size_t record, size_t octet, int back)
{
    if (record > 0)
        memcpy(wanted(STATE), script[record - 1].state, T24_STATE_LEN);
    expect_on_side(ASK_REPLAY, T24_TRACE_DIFFERS
                   + ((uint64_t)(64 * record + octet) << 32), back);
}

/* Each octet of each reply with each of its bits changed, bit 1 among them. */
static void changed_replies(void)
{
    size_t record, octet;
    unsigned bit;

    for (record = 0; record < RECORDS; record++)
        for (octet = 0; octet < 16; octet++)
            for (bit = 0; bit < 8; bit++) {
                const size_t at = record * SIZE + REPLY_AT + octet;

                label("record, octet", (long)(100 * record + octet));
                give_trace(TOLERANCE);
                given(TRACE)[at] ^= (uint8_t)(1u << bit);
                wanted(TRACE)[at] ^= (uint8_t)(1u << bit);
                differs(record, octet, (int)(bit % 2));
            }
}

/* Under another tolerance: with less the row is over sooner, and the reply has
 * RWDT 0; with more the last one of the row is tolerated too. */
void tolerated_replays(void)
{
    size_t i;

    give(COMMAND, NULL, 0);
    give(REPLY, NULL, 0);
    label("whole trace", RECORDS);
    give_trace(TOLERANCE);
    memcpy(wanted(STATE), script[RECORDS - 1].state, T24_STATE_LEN);
    wanted(MEMORY)[4] = 0x55;
    expect(ASK_REPLAY, (uint64_t)RECORDS << 32);
    label("from a row begun before, record", 1);
    give_trace(TOLERANCE);
    give(STATE, script[0].state, T24_STATE_LEN);
    give(TRACE, given(TRACE) + SIZE, 3 * SIZE);
    memcpy(wanted(STATE), script[3].state, T24_STATE_LEN);
    expect(ASK_REPLAY, (uint64_t)3 << 32);
    for (i = 0; i < TOLERANCE; i++) {
        label("tolerance", (long)i);
        give_trace((unsigned)i);
        differs(i, 1, 0);
        differs(i, 1, 1);
    }
    label("tolerance", 3);
    give_trace(3);
    differs(5, 1, 0);
    changed_replies();
    give(TRACE, NULL, 0);
}
