/* Replays of a written-out trace of the short type: kind 22, since L is 16. */
#include "groups.h"
#include "short_slave.h"

#include <string.h>

enum { RECORDS = 9, SIZE = 33, COMMAND_AT = 1, REPLY_AT = 17 };

/* On sheet S from Disconnected on: into step, reads, a write, alarms, a lost
 * cycle, which leaves link 3, and latches.  The state is that behind the record,
 * and the fields end at the octet told. */
static const struct {
    uint8_t command[SHORT_L], reply[SHORT_L], state[T24_STATE_LEN], behind;
} script[RECORDS] = {
    { { 0x0E, 0, 0, 0, 0x30, 2, 1, 0, 0, 0, 0, 0, 0, 0, 0, 0x06 },
      { 0x0E, 0, 4, 0, 0x30, 2, 1, 0, 0, 0, 0, 0, 0, 0, 0, 0x06 },
      { 0x12, 3, 16, 0, 1, 0, 0, 0, 0, 0, 0 }, 7 },
    { { 0x01, 0, 0, 0, 0x2C, 1, 8, 0, 0, 0, 0, 0, 0, 0, 0, 0x07 },
      { 0x01, 0, 4, 0, 0x2C, 1, 8, 0x12, 0x13, 0x14, 0x15, 0x16, 0x17, 0x18,
        0x19, 0x17 },
      { 0x12, 3, 16, 0, 1, 1, 7, 1, 0, 0, 0 }, 7 },
    { { 0x02, 0, 0, 0, 8, 0, 1, 0xE1, 0, 0, 0, 0, 0, 0, 0, 0x18 },
      { 0x02, 0, 4, 0, 8, 0, 1, 0xE1, 0, 0, 0, 0, 0, 0, 0, 0x28 },
      { 0x12, 3, 16, 0, 1, 1, 8, 2, 0, 0, 0 }, 8 },
    { { 0x1D, 0, 0, 0, 0, 0x11, 1, 0, 0, 0x10, 0, 0, 0, 0, 0, 0x29 },
      { 0x1D, 8, 5, 0, 0, 0, 0, 0, 0, 0, 0, 0, 0, 0, 0, 0x39 },
      { 0x12, 3, 16, 0, 1, 1, 9, 3, 8, 0, 0 }, 4 },
    { { 0x02, 0, 0, 0, 7, 0, 2, 0xC1, 0xC2, 0, 0, 0, 0, 0, 0, 0x3A },
      { 0x02, 10, 5, 0, 0, 0, 0, 0, 0, 0, 0, 0, 0, 0, 0, 0x4A },
      { 0x12, 3, 16, 0, 1, 1, 10, 4, 8, 0, 0 }, 9 },
    { { 0x00, 0, 0, 0, 0, 0, 0, 0, 0, 0, 0, 0, 0, 0, 0, 0x4A },
      { 0x00, 0, 5, 0xC0 },
      { 0x12, 2, 16, 0, 1, 0, 0, 0, 8, 12, 0 }, 4 },
    { { 0x05, 0, 0, 0, 0, 0, 0, 0, 0, 0, 0, 0, 0, 0, 0, 0 },
      { 0x05, 0, 5, 0xC0, 0, 8, 12 },
      { 0x12, 2, 16, 0, 1, 0, 0, 0, 8, 12, 0 }, 5 },
    { { 0x03, 0, 0, 0, 0x21, 0, 4, 0, 0, 0, 0, 0, 0, 0, 0, 0 },
      { 0x03, 0, 5, 0xC0, 0x21, 0, 4, 0x61, 0x62, 0x63, 0x64 },
      { 0x12, 2, 16, 0, 1, 0, 0, 0, 8, 12, 0 }, 7 },
    { { 0x06, 0, 0, 0, 0, 0, 0, 0, 0, 0, 0, 0, 0, 0, 0, 0 },
      { 0x06, 0, 4, 0 },
      { 0x12, 2, 16, 0, 1, 0, 0, 0, 0, 0, 0 }, 5 }
};

static const uint8_t first[] = { 0x12, 1, 16, 0, 0, 0, 0, 0, 0, 0, 0 };

static void give_trace(void)
{
    uint8_t trace[RECORDS * SIZE];
    size_t i;

    for (i = 0; i < RECORDS; i++) {
        trace[i * SIZE] = 0x22;
        memcpy(trace + i * SIZE + COMMAND_AT, script[i].command, SHORT_L);
        memcpy(trace + i * SIZE + REPLY_AT, script[i].reply, SHORT_L);
    }
    give_short_slave(first);
    give(TRACE, trace, sizeof trace);
}

/* State and memory as they stand behind so many records; the third writes. */
static void want_behind(size_t records)
{
    if (records > 0)
        memcpy(wanted(STATE), script[records - 1].state, T24_STATE_LEN);
    if (records > 2)
        wanted(MEMORY)[4] = 0xE1;
}

static void change(size_t at, unsigned value)
{
    given(TRACE)[at] = wanted(TRACE)[at] = (uint8_t)value;
}

static void differs(size_t record, size_t octet, int back)
{
    want_behind(record);
    expect_on_side(ASK_REPLAY, T24_TRACE_DIFFERS
                   + ((uint64_t)(64 * record + octet) << 32), back);
}

static void agrees(size_t records)
{
    want_behind(records);
    expect(ASK_REPLAY, (uint64_t)records << 32);
}

/* Whole, and one by one as exchanges, which come to the same; the span without
 * the right lacks it at its first octet, so that every place is 0. */
void short_replay_agrees(void)
{
    size_t i;

    give(COMMAND, NULL, 0);
    give(REPLY, NULL, 0);
    label("records", RECORDS);
    give_trace();
    agrees(RECORDS);
    give_short_slave(first);
    give(TRACE, NULL, 0);
    for (i = 0; i < RECORDS; i++) {
        label("record", (long)i);
        give(COMMAND, script[i].command, SHORT_L);
        give_noise(REPLY, SHORT_L);
        memcpy(wanted(REPLY), script[i].reply, SHORT_L);
        want_behind(i + 1);
        expect(ASK_EXCHANGE, T24_DONE);
        go_on(STATE);
        go_on(MEMORY);
    }
    give(COMMAND, NULL, 0);
    give(REPLY, NULL, 0);
}

/* Each octet of each reply with each of its bits changed. */
void short_replay_differs(void)
{
    size_t record, octet;
    unsigned bit;

    for (record = 0; record < RECORDS; record++)
        for (octet = 0; octet < SHORT_L; octet++)
            for (bit = 0; bit < 8; bit++) {
                const size_t at = record * SIZE + REPLY_AT + octet;

                label("record, octet", (long)(100 * record + octet));
                give_trace();
                change(at, given(TRACE)[at] ^ (1u << bit));
                differs(record, octet, (int)(bit % 2));
            }
}

/* Noise in every octet of the commands that is not looked at: all agree. */
void short_replay_noise(void)
{
    size_t record, octet;

    give_trace();
    for (record = 0; record < RECORDS; record++)
        for (octet = 1; octet < 15; octet++)
            if (octet < 4 || octet >= script[record].behind)
                change(record * SIZE + COMMAND_AT + octet, 0xC1 + 7 * octet);
    label("noise in records", RECORDS);
    agrees(RECORDS);
}

/* The kinds of other lengths, unknown ones, and cuts; and a NOP in step as the
 * enhanced type has it. */
void short_replay_form(void)
{
    uint8_t enhanced[SIZE] = { 0x22, 0x00, 0x07 };
    unsigned kind;
    size_t len;

    for (kind = 0; kind < 256; kind++) {
        label("kind", (long)kind);
        give_trace();
        change(2 * SIZE, kind);
        if (kind == 0x22)
            agrees(RECORDS);
        else
            expect_on_side(ASK_REPLAY, (kind < 0x21 || kind > 0x25 ? 31u : 32u)
                           + ((uint64_t)(2 * SIZE) << 32), (int)(kind & 1u));
    }
    for (len = 0; len < RECORDS * SIZE; len++) {
        label("length", (long)len);
        give_trace();
        give(TRACE, given(TRACE), len);
        if (len % SIZE == 0)
            agrees(len / SIZE);
        else
            expect_on_side(ASK_REPLAY,
                           33 + ((uint64_t)(len - len % SIZE) << 32), 1);
    }
    label("a record of the enhanced type", 1);
    enhanced[REPLY_AT + 1] = 0x17; /* RWDT */
    enhanced[REPLY_AT + 2] = 4;
    give_short_slave(script[0].state);
    give(TRACE, enhanced, SIZE);
    expect(ASK_REPLAY, T24_TRACE_DIFFERS + ((uint64_t)1 << 32));
    give(TRACE, NULL, 0);
}
