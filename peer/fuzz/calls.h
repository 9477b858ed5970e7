/* The calls, each on both engines. */
#ifndef CALLS_H
#define CALLS_H

#include "marks.h"
#include "rig.h"
#include "sheets.h"
#include "trace.h"

#include <stddef.h>
#include <stdint.h>
#include <string.h>

static void ask_sheet(void)
{
    const uint64_t peer = peer_sheet(SHEET(0));

    check("sheet", peer, t24_sheet(SHEET(1)));
    check("lengths", peer_lengths(SHEET(0)), t24_lengths(SHEET(1)));
    mark_call("sheet", peer);
    mark_tolerance(SHEET(0), peer);
    mark_release(SHEET(0), peer);
    mark_link(SHEET(0), peer);
}

static void reset(void)
{
    const uint64_t peer = peer_reset(SHEET(0), STATE(0));

    check("reset", peer, t24_reset(SHEET(1), STATE(1)));
    mark_call("reset", peer);
}

static void enable(void)
{
    const uint64_t peer = peer_enable(SHEET(0), STATE(0));

    check("enable", peer, t24_enable(SHEET(1), STATE(1)));
    mark_call("enable", peer);
}

/* Turns an old record into one of so many octets; if that is refused, the slave
 * goes on from where it was. */
static void turn(const uint8_t *old, size_t old_length, size_t length)
{
    uint8_t content[32], state[32];
    const size_t state_length = rig.state[0].length;
    uint64_t peer;

    memcpy(state, rig.state[0].octets, state_length);
    memset(content, 0xA5, sizeof content);
    lend_both(rig.old, old, old_length);
    lend_both(rig.state, content, length);
    peer = peer_turn(SHEET(0), OLD(0), STATE(0));
    check("turn", peer, t24_turn(SHEET(1), OLD(1), STATE(1)));
    same("old record", rig.old);
    if (old_length > 0 && memcmp(rig.old[1].octets, old, old_length) != 0)
        fail("an old record that is lent for reading", 0, 0);
    mark_call("turn", peer);
    mark_turn(old, old_length, length, peer);
    if (peer != 0)
        lend_both(rig.state, state, state_length);
}

/* Whether a state that was refused would be good with a count of 0. */
static int good_but_for_count(const uint8_t *state)
{
    uint8_t old[OLD_LENGTH], made[STATE_LENGTH];

    memcpy(old, state, sizeof old);
    old[0] = 0x11;
    return state[0] == 0x12
           && peer_turn(SHEET(0), old, sizeof old, made, sizeof made) == 0;
}

static void exchange(const uint8_t *octets, size_t length, size_t reply_length)
{
    uint8_t old[256], before[STATE_LENGTH] = {0};
    const struct wire *wire;
    uint64_t peer, t24;

    memset(old, 0x5A, sizeof old);
    lend_both(rig.command, octets, length);
    lend_both(rig.reply, old, reply_length);
    if (rig.state[0].length == sizeof before)
        memcpy(before, rig.state[0].octets, sizeof before);
    keep_start(STATE(0), MEMORY(0));
    peer = peer_exchange(SHEET(0), STATE(0), MEMORY(0), COMMAND(0), REPLY(0));
    t24 = t24_exchange(SHEET(1), STATE(1), MEMORY(1), COMMAND(1), REPLY(1));
    check("exchange", peer, t24);
    same("command", rig.command);
    same("reply", rig.reply);
    mark_call("exchange", peer);
    if (peer == 1 && good_but_for_count(before))
        mark_bad_count(before);
    if ((uint32_t)peer != 0) /* a place tells of a command in a built reply */
        return;
    wire = wire_of(rig.sheet[0].octets);
    mark_exchange(wire, octets, rig.reply[0].octets, length, before,
                  rig.state[0].octets[1]);
    mark_count(wire, octets[wire->wdt], rig.reply[0].octets, before,
               rig.state[0].octets);
    mark_place(wire, octets, rig.reply[0].octets[wire->alarm] & 15, peer >> 32);
    if (!is_lost(rig.reply[0].octets, before, rig.state[0].octets[1])
        && !(rig.reply[0].octets[2] & 2)) { /* else it was not looked at */
        mark_room(rig.sheet[0].octets, octets,
                  rig.reply[0].octets[wire->alarm] & 15);
        if ((rig.reply[0].octets[wire->alarm] & 15) == 0)
            mark_accepted(wire, rig.sheet[0].octets, octets);
    }
    keep_record(octets, rig.reply[0].octets, length);
}

/* Replays a trace from the state and memory that are lent. */
static uint64_t replay(const uint8_t *trace, size_t length)
{
    uint64_t peer, t24;

    lend_both(rig.trace, trace, length);
    peer = peer_replay(SHEET(0), STATE(0), MEMORY(0), TRACE(0));
    t24 = t24_replay(SHEET(1), STATE(1), MEMORY(1), TRACE(1));
    check("replay", peer, t24);
    same("trace", rig.trace);
    mark_call("replay", peer);
    if (length > 0 && rig.sheet[0].length > 0
        && rig.sheet[0].octets[0] == SHORT_LINK)
        mark_call("short_replay", peer);
    return peer;
}

#endif
