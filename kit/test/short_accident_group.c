/* Hosts whose buffers do not fit a sheet of the short type: nothing but what was
 * lent is touched, and the refusals come in their order. */
#include "groups.h"
#include "sheets.h"
#include "variants.h"

#include <string.h>

static void give_short_sheet(void)
{
    struct built sheet;

    build_short(&sheet);
    give(SHEET, sheet.octets, sheet.len);
}

static void give_host(unsigned state_l, size_t command_len, size_t reply_len)
{
    give_short_sheet();
    give_state(state_l, T24_LINK_ASYNC, 0);
    give(MEMORY, memory_p, sizeof memory_p);
    give_noise(COMMAND, command_len);
    give_noise(REPLY, reply_len);
    give(TRACE, NULL, 0);
}

/* A host for each other L, and one for 16 with buffers of another; a record made
 * for the short type is none of another L's sheet, but a record has no type. */
void short_accident(void)
{
    struct built sheet;
    size_t i;

    for (i = 0; i < sizeof all_l; i++) {
        const unsigned l = all_l[i];

        if (l == 16)
            continue;
        label("host for L", (long)l);
        give_host(l, l, l);
        expect(ASK_EXCHANGE, T24_BAD_STATE);
        expect(ASK_REPLAY, T24_BAD_STATE);
        expect(ASK_ENABLE, T24_BAD_STATE);
        give_host(16, l, l);
        expect(ASK_EXCHANGE, T24_BAD_COMMAND);
        give_host(16, 16, l);
        expect(ASK_EXCHANGE, T24_BAD_REPLY);
        give_host(16, l, l);
        build_p(&sheet, l);
        give(SHEET, sheet.octets, sheet.len);
        expect(ASK_EXCHANGE, T24_BAD_STATE);
    }
    label("a record of the enhanced type's, L", 16);
    give_host(16, 16, 16);
    give(STATE, state_a, sizeof state_a);
    memset(wanted(REPLY), 0, 16);
    wanted(REPLY)[0] = 0xC3; /* the noise is no code, */
    wanted(REPLY)[1] = 8;    /* and no octet of it comes back */
    wanted(REPLY)[2] = 5;
    wanted(STATE)[T24_AT_COMMAND_ALARM] = 8;
    expect(ASK_EXCHANGE, T24_DONE);
}

static void lengths_of(enum role role, size_t right, unsigned number)
{
    size_t len;

    for (len = 0; len <= 2 * right + 40; len++) {
        if (len == right)
            continue;
        label("length", (long)len);
        give_noise(role, len);
        expect(ASK_EXCHANGE, number);
        if (role == STATE || role == MEMORY)
            expect(ASK_REPLAY, number);
        if (role == STATE)
            expect(ASK_RESET, number);
    }
}

void short_lengths(void)
{
    give_host(16, 16, 16);
    lengths_of(COMMAND, 16, T24_BAD_COMMAND);
    give_host(16, 16, 16);
    lengths_of(REPLY, 16, T24_BAD_REPLY);
    give_host(16, 16, 16);
    lengths_of(MEMORY, 8, T24_BAD_MEMORY);
    give_host(16, 16, 16);
    lengths_of(STATE, T24_STATE_LEN, T24_BAD_STATE);
}

/* Every way in which state, memory, command, reply and link can be wrong at once
 * answers the first of them. */
static void mixture(int state, int memory, int command, int reply, unsigned link)
{
    uint64_t answer = T24_DONE;

    give_short_sheet();
    give_state(16, link, state);
    give_noise(MEMORY, near_length(8, memory));
    give_noise(COMMAND, near_length(16, command));
    give_noise(REPLY, near_length(16, reply));
    if (state != 0)
        answer = T24_BAD_STATE;
    else if (memory != 0)
        answer = T24_BAD_MEMORY;
    else if (command != 0)
        answer = T24_BAD_COMMAND;
    else if (reply != 0)
        answer = T24_BAD_REPLY;
    else if (link == T24_LINK_DISABLED)
        answer = T24_IS_DISABLED;
    if (answer == T24_DONE) {
        memset(wanted(REPLY), 0, 16);
        wanted(REPLY)[0] = 0xC3;
        wanted(REPLY)[1] = wanted(STATE)[T24_AT_COMMAND_ALARM] = T24_ALARM_CODE;
        wanted(REPLY)[2] = 5;
    }
    expect_on_side(ASK_EXCHANGE, answer, reply & 1);
}

void short_mixtures(void)
{
    int state, memory, command, reply;
    unsigned link;

    for (state = 0; state < STATE_VARIANTS; state++)
        for (memory = 0; memory < LENGTH_VARIANTS; memory++)
            for (command = 0; command < LENGTH_VARIANTS; command++)
                for (reply = 0; reply < LENGTH_VARIANTS; reply++)
                    for (link = 0; link < 3; link++) {
                        label("state variant", state);
                        mixture(state, memory, command, reply, link);
                    }
    give_host(16, 16, 16);
    give_state(16, T24_LINK_DISABLED, 0);
    expect(ASK_REPLAY, T24_IS_DISABLED);
}

/* A record of release 1, whose sheet was of the enhanced type, is turned under a
 * short sheet of its L; one of another L is not. */
void short_turn(void)
{
    uint8_t old[T24_OLD_STATE_LEN] = { 0x11, 3, 16, 1, 2, 1, 7, 9, 10, 12 };
    static const uint8_t turned[] = { 0x12, 3, 16, 1, 2, 1, 7, 9, 10, 12, 0 };

    label("L", 16);
    give_short_sheet();
    give(OLD, old, sizeof old);
    give_noise(STATE, T24_STATE_LEN);
    memcpy(wanted(STATE), turned, sizeof turned);
    expect(ASK_TURN, T24_DONE);
    label("L", 32);
    old[T24_AT_L] = 32;
    give(OLD, old, sizeof old);
    give_noise(STATE, T24_STATE_LEN);
    expect(ASK_TURN, T24_BAD_STATE);
    give(OLD, NULL, 0);
}
