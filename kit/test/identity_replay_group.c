/* A replay compares the identity too. */
#include "groups.h"
#include "sheets.h"

#include <string.h>

enum { RECORDS = 6, SIZE = 33, COMMAND_AT = 1, REPLY_AT = 17 };

/* On sheet P from state A: a read, the same read repeated, one refused; then in
 * step, and out of it by a lost cycle.  The state is that behind the record. */
static const struct {
    uint8_t command[16], reply[16], state[T24_STATE_LEN];
} script[RECORDS] = {
    { { 0x1D, 0, 0x40, 0, 0, 0x11, 2, 0, 0, 0x10 },
      { 0x1D, 0, 0x44, 0, 0, 0x11, 2, 0, 0, 0x10, 0, 0, 0x0A, 0x0B },
      { 0x12, 2, 16, 0, 1, 0, 0, 0, 0, 0, 0 } },
    { { 0x1D, 0, 0x80, 0, 0, 0x11, 2, 0, 0, 0x10 },
      { 0x1D, 0, 0x84, 0, 0, 0x11, 2, 0, 0, 0x10, 0, 0, 0x0A, 0x0B },
      { 0x12, 2, 16, 0, 1, 0, 0, 0, 0, 0, 0 } },
    { { 0x1D, 0, 0xC0, 0, 0, 0x11, 5, 0, 0, 0x10 },
      { 0x1D, 0, 0xC5, 9 },
      { 0x12, 2, 16, 0, 1, 0, 0, 0, 9, 0, 0 } },
    { { 0x0D, 6, 0x00 },
      { 0x0D, 6, 0x05 },
      { 0x12, 3, 16, 0, 1, 0, 0, 0, 9, 0, 0 } },
    { { 0x00, 7, 0x40 },
      { 0x00, 0x17, 0x45 },
      { 0x12, 3, 16, 0, 1, 1, 7, 1, 9, 0, 0 } },
    { { 0x0F, 0x17, 0x80 },
      { 0x0F, 0, 0x85, 0xC0 },
      { 0x12, 2, 16, 0, 1, 0, 0, 0, 9, 12, 0 } }
};

static void give_trace(void)
{
    uint8_t trace[RECORDS * SIZE];
    size_t i;

    for (i = 0; i < RECORDS; i++) {
        trace[i * SIZE] = T24_TRACE_16;
        memcpy(trace + i * SIZE + COMMAND_AT, script[i].command, 16);
        memcpy(trace + i * SIZE + REPLY_AT, script[i].reply, 16);
    }
    give(SHEET, sheet_p, sizeof sheet_p);
    give(STATE, state_a, sizeof state_a);
    give(MEMORY, memory_p, sizeof memory_p);
    give(TRACE, trace, sizeof trace);
}

/* Wanted with the change too: a trace is only read. */
static void change(size_t record, size_t at, unsigned value)
{
    given(TRACE)[record * SIZE + at] = (uint8_t)value;
    wanted(TRACE)[record * SIZE + at] = (uint8_t)value;
}

static void agrees(void)
{
    memcpy(wanted(STATE), script[RECORDS - 1].state, T24_STATE_LEN);
    expect(ASK_REPLAY, (uint64_t)RECORDS << 32);
}

/* At octet 2 of its reply, and the state is the one before the record. */
static void differs(size_t record)
{
    if (record > 0)
        memcpy(wanted(STATE), script[record - 1].state, T24_STATE_LEN);
    expect(ASK_REPLAY, T24_TRACE_DIFFERS + ((uint64_t)(64 * record + 2) << 32));
}

/* Another identity in the reply, or in the command, is not this slave's. */
static void other_identities(size_t record)
{
    static const unsigned bits[3] = { 0x40, 0x80, 0xC0 };
    size_t i;

    for (i = 0; i < 3; i++) {
        label("record", (long)record);
        give_trace();
        change(record, REPLY_AT + 2, script[record].reply[2] ^ bits[i]);
        differs(record);
        give_trace();
        change(record, COMMAND_AT + 2, script[record].command[2] ^ bits[i]);
        differs(record);
    }
}

/* What else octets 2 and 3 have changes nothing. */
static void others_ignored(size_t record)
{
    unsigned bit;

    label("control of record", (long)record);
    for (bit = 0; bit < 14; bit++) {
        give_trace();
        if (bit < 6)
            change(record, COMMAND_AT + 2,
                   script[record].command[2] ^ (1u << bit));
        else
            change(record, COMMAND_AT + 3, 1u << (bit - 6));
        agrees();
    }
}

void identity_replays(void)
{
    size_t i;

    give(COMMAND, NULL, 0);
    give(REPLY, NULL, 0);
    label("whole trace", RECORDS);
    give_trace();
    agrees();
    for (i = 0; i < RECORDS; i++) {
        other_identities(i);
        others_ignored(i);
    }
    label("replies of a repeated read", 0);
    give_trace();
    change(0, REPLY_AT + 2, 0x84);
    change(1, REPLY_AT + 2, 0x44);
    differs(0);
    give(TRACE, NULL, 0);
}
