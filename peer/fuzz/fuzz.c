/* libFuzzer target: the archive's engine (t24_*) beside the peer's (peer_*).
 *
 * One input is cut into a sheet, a state, a seed of the memory, and a sequence
 * of calls. Any difference in an answer or in what a call leaves behind, and any
 * octet touched outside a lent buffer, aborts. peer/fuzz/run builds and runs it.
 */
#ifndef _DEFAULT_SOURCE
#define _DEFAULT_SOURCE 1 /* mmap with MAP_ANONYMOUS is not plain C99 */
#endif
#include "calls.h"
#include "commands.h"
#include "pairs.h"
#include "rig.h"
#include "sheets.h"
#include "trace.h"

#include <stddef.h>
#include <stdint.h>
#include <string.h>

int LLVMFuzzerTestOneInput(const uint8_t *octets, size_t length);
int LLVMFuzzerInitialize(int *argc, char ***argv);

enum { STEPS = 48 };

/* Replays from where the kept trace starts, and then goes on as before. */
static void replay_kept(const uint8_t *trace, size_t length, int whole)
{
    static uint8_t state[sizeof kept.state], memory[sizeof kept.memory];
    const size_t state_length = rig.state[0].length;
    const size_t memory_length = rig.memory[0].length;
    uint64_t answer;

    memcpy(state, rig.state[0].octets, state_length);
    memcpy(memory, rig.memory[0].octets, memory_length);
    lend_both(rig.state, kept.state, kept.state_length);
    lend_both(rig.memory, kept.memory, kept.memory_length);
    answer = replay(trace, length);
    if (whole && answer != kept.records << 32)
        fail("the replay of own exchanges", kept.records << 32, answer);
    if (whole && (memcmp(rig.state[0].octets, state, state_length) != 0
                  || memcmp(rig.memory[0].octets, memory, memory_length) != 0))
        fail("what the replay of own exchanges leaves", 0, 0);
    lend_both(rig.state, state, state_length);
    lend_both(rig.memory, memory, memory_length);
}

/* The kept trace is replayed before the state changes by other means. */
static void end_trace(void)
{
    if (kept.records > 0)
        replay_kept(kept.octets, kept.length, 1);
    keep_nothing();
}

/* The kept trace changed, or a few octets from where the slave is now. */
static void replay_step(struct input *in)
{
    static uint8_t trace[TRACE_ROOM];
    size_t length;

    if (kept.records > 0) {
        length = change_trace(in, trace);
        replay_kept(trace, length, 0);
        return;
    }
    length = take(in) % 4;
    for (size_t at = 0; at < length; at++)
        trace[at] = take(in);
    replay(trace, length);
}

/* Changes one octet of the state, the same on both sides. */
static void poke(struct input *in)
{
    const size_t at = take(in);
    const uint8_t octet = take(in);

    for (int side = 0; side < SIDES && rig.state[side].length > 0; side++)
        rig.state[side].octets[at % rig.state[side].length] = octet;
}

/* The record that the state was, good or spoiled, into eleven octets or others. */
static void turn_step(struct input *in)
{
    uint8_t state[STATE_LENGTH] = {0}, old[16] = {0};
    const uint8_t control = take(in);
    size_t length;

    if (rig.state[0].length == sizeof state)
        memcpy(state, rig.state[0].octets, sizeof state);
    length = make_old(in, state, old);
    turn(old, length, control < 0xE0 ? STATE_LENGTH : take(in) % 16);
}

static void exchange_step(struct input *in, const struct parts *parts,
                          uint8_t control)
{
    uint8_t command[256];
    size_t length = parts->sheet[1];
    size_t reply_length = length;

    make_command(in, parts, rig.state[0].octets, rig.state[0].length, control,
                 command);
    if (control >= 0xFC)
        length = take(in);
    if (control >= 0xFE)
        reply_length = take(in);
    exchange(command, length, reply_length);
}

/* One call, or a changed state. */
static void step(struct input *in, const struct parts *parts)
{
    const uint8_t control = take(in);

    switch (control) {
    case 0xE0:
        end_trace();
        reset();
        break;
    case 0xE1:
        end_trace();
        enable();
        break;
    case 0xE2:
        ask_sheet();
        break;
    case 0xE3:
        end_trace();
        poke(in);
        break;
    case 0xE4:
        replay_step(in);
        break;
    case 0xE5:
        end_trace();
        turn_step(in);
        break;
    case 0xE6:
        difference_step(in, parts);
        break;
    default:
        exchange_step(in, parts, control);
    }
}

/* Lends sheet, state and memory as the input has them. */
static void lend_all(struct input *in, struct parts *parts)
{
    static uint8_t memory[MEMORY_LIMIT + 300];
    size_t length;

    make_sheet(in, parts);
    length = (size_t)(peer_lengths(parts->sheet, parts->sheet_length) >> 32);
    make_state(in, parts);
    make_memory(in, memory, length);
    if (take(in) == 0xFF)
        length = length / 2 + take(in);
    rig.at_end = take(in) & 1;
    lend_both(rig.sheet, parts->sheet, parts->sheet_length);
    lend_both(rig.state, parts->state, parts->state_length);
    lend_both(rig.memory, memory, length);
}

int LLVMFuzzerInitialize(int *argc, char ***argv)
{
    struct lent *all[] = {rig.sheet, rig.state, rig.memory, rig.command,
                          rig.reply, rig.trace, rig.old, rig.first,
                          rig.second, rig.list};

    (void)argc;
    (void)argv;
    if (peer_version() != t24_version())
        fail("the version", peer_version(), t24_version());
    for (size_t role = 0; role < sizeof all / sizeof all[0]; role++)
        for (int side = 0; side < SIDES; side++)
            lent_open(&all[role][side]);
    return 0;
}

int LLVMFuzzerTestOneInput(const uint8_t *octets, size_t length)
{
    static struct parts parts;
    struct input in = {octets, length};

    lend_all(&in, &parts);
    keep_nothing();
    ask_sheet();
    if (parts.start == BY_RESET) {
        reset();
        enable();
    }
    if (parts.start == BY_TURN) {
        parts.state[0] = 0x11;
        turn(parts.state, OLD_LENGTH, STATE_LENGTH);
    }
    for (int count = 0; count < STEPS && in.left > 0; count++)
        step(&in, &parts);
    end_trace();
    return 0;
}
