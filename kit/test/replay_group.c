/* Replays of a written-out trace: agreeing, changed, and cut. */
#include "groups.h"
#include "recording.h"
#include "sheets.h"

#include <string.h>

static struct recording kept;

/* Runs the checks on a trace of every L, and lends no trace afterwards. */
static void on_every_l(void (*checks)(void))
{
    size_t i;

    for (i = 0; i < sizeof all_l; i++) {
        load_recording(&kept, all_l[i]);
        checks();
    }
    give(TRACE, NULL, 0);
}

/* Wanted with the change too: a trace is only read. */
static void change(size_t at, unsigned value)
{
    wanted(TRACE)[at] = given(TRACE)[at] = (uint8_t)value;
}

static void differs(size_t at, size_t octet, int back)
{
    want_before(&kept, at);
    expect_on_side(ASK_REPLAY, T24_TRACE_DIFFERS
                   + ((uint64_t)(64 * at + octet) << 32), back);
}

/* The exchanges of the trace one by one, each with its written-out reply. */
static void exchanged(void)
{
    size_t at;

    give_recording(&kept);
    for (at = 0; at < RECORDS; at++) {
        const uint8_t *command = kept.trace + at * kept.size + 1;
        label("record", (long)at);
        give(COMMAND, command, kept.l);
        give_noise(REPLY, kept.l);
        want_before(&kept, at + 1);
        memcpy(wanted(REPLY), command + kept.l, kept.l);
        expect(ASK_EXCHANGE, built_at(kept.place[at]));
        go_on(STATE);
        go_on(MEMORY);
    }
    give(COMMAND, NULL, 0);
    give(REPLY, NULL, 0);
}

void replay_exchanges(void) { on_every_l(exchanged); }

static void agreeing(void)
{
    label("all records, L", (long)kept.l);
    give_recording(&kept);
    want_before(&kept, RECORDS);
    expect(ASK_REPLAY, (uint64_t)RECORDS << 32);
    give(STATE, kept.state[4], T24_STATE_LEN);
    give(MEMORY, kept.memory[4], 8);
    give(TRACE, kept.trace + 4 * kept.size, kept.len - 4 * kept.size);
    want_before(&kept, RECORDS);
    label("from record 4 on, L", (long)kept.l);
    expect(ASK_REPLAY, (uint64_t)(RECORDS - 4) << 32);
}

void replay_agrees(void) { on_every_l(agreeing); }

/* One octet alone, and with all replies' octets behind it: the first is told. */
static void changed_replies(void)
{
    size_t at, octet, i;

    for (at = 0; at < RECORDS; at++)
        for (octet = 0; octet < kept.l; octet++) {
            const size_t place = at * kept.size + 1 + kept.l + octet;
            label("reply octet", (long)(64 * at + octet));
            give_recording(&kept);
            change(place, kept.trace[place] ^ (1u << ((at + octet) % 8)));
            differs(at, octet, (int)(octet & 1));
            for (i = place; i < kept.len; i++)
                if (i % kept.size > kept.l)
                    change(i, kept.trace[i] ^ 0xFFu);
            differs(at, octet, (int)(at & 1));
        }
}

void replay_replies(void) { on_every_l(changed_replies); }

/* Octet 0 is the code again, so it differs there; octet 3 is ignored. */
static void changed_commands(void)
{
    size_t at;
    unsigned bit;

    for (at = 0; at < RECORDS; at++)
        for (bit = 0; bit < 8; bit++) {
            const size_t place = at * kept.size + 1;
            label("command bit", (long)(64 * at + bit));
            give_recording(&kept);
            change(place, kept.trace[place] ^ (1u << bit));
            differs(at, 0, (int)(bit & 1));
            give_recording(&kept);
            change(place + 3, 1u << bit);
            want_before(&kept, RECORDS);
            expect_on_side(ASK_REPLAY, (uint64_t)RECORDS << 32, (int)(bit & 1));
        }
}

void replay_commands(void) { on_every_l(changed_commands); }

/* A cut at a record's end leaves a shorter trace, which agrees. */
static void cut_traces(void)
{
    size_t len;

    for (len = 0; len < kept.len; len++) {
        const size_t whole = len / kept.size;
        label("length", (long)len);
        give_recording(&kept);
        give(TRACE, kept.trace, len);
        if (len == whole * kept.size) {
            want_before(&kept, whole);
            expect(ASK_REPLAY, (uint64_t)whole << 32);
        } else {
            expect(ASK_REPLAY,
                   T24_TRACE_CUT + ((uint64_t)(whole * kept.size) << 32));
        }
    }
}

void replay_cuts(void) { on_every_l(cut_traces); }

/* Told before a reply that differs in a record before it. */
static void try_kind(size_t at, unsigned kind)
{
    const uint64_t place = (uint64_t)(at * kept.size) << 32;

    give_recording(&kept);
    change(at * kept.size, kind);
    if (at > 0)
        change(1 + kept.l, kept.trace[1 + kept.l] ^ 1u);
    if (kind < 0x21 || kind > 0x25)
        expect(ASK_REPLAY, T24_TRACE_KIND + place);
    else if (kind != kind_of(kept.l))
        expect(ASK_REPLAY, T24_TRACE_L + place);
    else if (at > 0)
        expect(ASK_REPLAY, T24_TRACE_DIFFERS);
}

static void every_kind(void)
{
    unsigned kind;

    for (kind = 0; kind < 256; kind++) {
        label("kind", (long)kind);
        try_kind(0, kind);
        try_kind(5, kind);
        try_kind(RECORDS - 1, kind);
    }
}

void replay_kinds(void) { on_every_l(every_kind); }
