/* Refusals 1 to 6: mixtures of wrong things answer the first in the order. */
#include "groups.h"
#include "sheets.h"
#include "variants.h"

#include <string.h>

/* The noise of a command begins with C3 hex, which is no code; its octet 2 is
 * CD hex, so its identity is 3. */
static void want_unknown_code(unsigned l)
{
    memset(wanted(REPLY), 0, l);
    wanted(REPLY)[0] = 0xC3;
    wanted(REPLY)[2] = 0xC5;
    wanted(REPLY)[3] = T24_ALARM_CODE;
    wanted(STATE)[T24_AT_COMMAND_ALARM] = T24_ALARM_CODE;
}

static void mixture_of_exchange(unsigned l, uint64_t sheet_answer, int state,
                                int memory, int command, int reply,
                                unsigned link)
{
    uint64_t answer = T24_DONE;

    give_state(l, link, state);
    give_noise(MEMORY, near_length(8, memory));
    give_noise(COMMAND, near_length(l, command));
    give_noise(REPLY, near_length(l, reply));
    if (sheet_answer != T24_DONE)
        answer = sheet_answer;
    else if (state != 0)
        answer = T24_BAD_STATE;
    else if (memory != 0)
        answer = T24_BAD_MEMORY;
    else if (command != 0)
        answer = T24_BAD_COMMAND;
    else if (reply != 0)
        answer = T24_BAD_REPLY;
    else if (link == T24_LINK_DISABLED)
        answer = T24_IS_DISABLED;
    else
        want_unknown_code(l);
    expect(ASK_EXCHANGE, answer);
}

static void mixtures_of_exchange(unsigned l, int sheet)
{
    int state, memory, command, reply;
    unsigned link;

    for (state = 0; state < STATE_VARIANTS; state++)
        for (memory = 0; memory < 4; memory++)
            for (command = 0; command < 4; command++)
                for (reply = 0; reply < 4; reply++)
                    for (link = 0; link < 3; link++)
                        mixture_of_exchange(l, give_sheet(l, sheet), state,
                                            memory, command, reply, link);
}

static void mixtures_of_reset_and_enable(unsigned l, int sheet)
{
    uint64_t fault;
    unsigned link;
    int state;

    for (state = 0; state < STATE_VARIANTS; state++)
        for (link = 0; link < 4; link++) {
            fault = give_sheet(l, sheet);
            give_state(l, link, state);
            if (fault == T24_DONE && state != 0)
                fault = T24_BAD_STATE;
            if (fault == T24_DONE && link != T24_LINK_DISABLED)
                fault = T24_NOT_DISABLED;
            if (fault == T24_DONE)
                wanted(STATE)[T24_AT_LINK] = T24_LINK_DISCONNECTED;
            expect(ASK_ENABLE, fault);
            fault = give_sheet(l, sheet);
            give_state(l, link, state);
            if (fault == T24_DONE && given_len(STATE) != T24_STATE_LEN)
                fault = T24_BAD_STATE; /* reset minds the length alone */
            if (fault == T24_DONE) {
                memset(wanted(STATE), 0, T24_STATE_LEN);
                wanted(STATE)[T24_AT_KIND] = T24_STATE_KIND;
                wanted(STATE)[T24_AT_L] = (uint8_t)l;
            }
            expect(ASK_RESET, fault);
        }
}

void refusal_order(void)
{
    size_t i;
    int sheet;

    for (sheet = 0; sheet < 8; sheet++)
        for (i = 0; i < sizeof all_l; i++) {
            label("sheet variant", sheet);
            mixtures_of_reset_and_enable(all_l[i], sheet);
            if (sheet == 0 || i == 1)
                mixtures_of_exchange(all_l[i], sheet);
        }
}

/* All the lengths of one buffer from 0 to well past the right one. */
static void lengths_of(enum role role, size_t right, unsigned number)
{
    size_t len;

    for (len = 0; len <= 2 * right + 70; len++) {
        if (len == right)
            continue;
        label("length", (long)len);
        give_noise(role, len);
        expect(ASK_EXCHANGE, number);
        if (role == STATE || role == MEMORY)
            expect(ASK_REPLAY, number);
        if (role == STATE) {
            expect(ASK_ENABLE, number);
            expect(ASK_RESET, number);
        }
    }
    give_noise(role, right);
}

void refusal_lengths(void)
{
    size_t i;

    for (i = 0; i < sizeof all_l; i++) {
        give_sheet(all_l[i], 0);
        give_noise(MEMORY, 8);
        give_noise(COMMAND, all_l[i]);
        give_noise(REPLY, all_l[i]);
        lengths_of(STATE, T24_STATE_LEN, T24_BAD_STATE);
        give_state(all_l[i], T24_LINK_ASYNC, 0);
        lengths_of(MEMORY, 8, T24_BAD_MEMORY);
        lengths_of(COMMAND, all_l[i], T24_BAD_COMMAND);
        lengths_of(REPLY, all_l[i], T24_BAD_REPLY);
    }
}

/* Lengths that are right modulo 2^8 or 2^16 must not pass for right. */
static void big(enum role role, size_t right, unsigned number)
{
    label("big buffer, role", role);
    give_noise(role, right + 256);
    expect(ASK_EXCHANGE, number);
    give_noise(role, right + 65536);
    expect(ASK_EXCHANGE, number);
    give_noise(role, LENT_MAX);
    expect(ASK_EXCHANGE, number);
    if (role != COMMAND && role != REPLY)
        expect(ASK_REPLAY, number);
    if (role == STATE || role == SHEET) {
        expect(ASK_ENABLE, number);
        expect(ASK_RESET, number);
    }
}

void refusal_big(void)
{
    struct built sheet;

    build_p(&sheet, 64);
    give_state(64, T24_LINK_ASYNC, 0);
    give_noise(MEMORY, 8);
    give_noise(COMMAND, 64);
    give_noise(REPLY, 64);
    give_noise(SHEET, 65536 + 33);
    expect(ASK_SHEET, T24_SHEET_CUT);
    give_noise(SHEET, LENT_MAX);
    expect(ASK_SHEET, T24_SHEET_CUT);
    expect(ASK_LENGTHS, 0);
    big(SHEET, 33 + 2048, T24_SHEET_CUT);
    give(SHEET, sheet.octets, sheet.len);
    big(STATE, T24_STATE_LEN, T24_BAD_STATE);
    give_state(64, T24_LINK_ASYNC, 0);
    big(MEMORY, 8, T24_BAD_MEMORY);
    give_noise(MEMORY, 8);
    big(COMMAND, 64, T24_BAD_COMMAND);
    give_noise(COMMAND, 64);
    big(REPLY, 64, T24_BAD_REPLY);
}

/* With length 0 a host may have no buffer at all, as from malloc(0). */
void refusal_empty(void)
{
    static const uint8_t bare[5] = { 1, 16, 0x30, 0, 0 };
    uint8_t state[T24_STATE_LEN], command[16] = { 0 }, reply[16];

    memcpy(state, state_a, sizeof state);
    check(t24_sheet(NULL, 0) == T24_SHEET_CUT, "null sheet");
    check(t24_lengths(NULL, 0) == 0, "null sheet");
    check(t24_reset(NULL, 0, NULL, 0) == T24_SHEET_CUT, "null sheet");
    check(t24_enable(NULL, 0, NULL, 0) == T24_SHEET_CUT, "null sheet");
    check(t24_reset(bare, 5, NULL, 0) == T24_BAD_STATE, "null state");
    check(t24_enable(bare, 5, NULL, 0) == T24_BAD_STATE, "null state");
    check(t24_exchange(NULL, 0, NULL, 0, NULL, 0, NULL, 0, NULL, 0)
          == T24_SHEET_CUT, "all null");
    check(t24_exchange(bare, 5, NULL, 0, NULL, 0, NULL, 0, NULL, 0)
          == T24_BAD_STATE, "null state");
    check(t24_exchange(bare, 5, state, 11, NULL, 0, NULL, 0, NULL, 0)
          == T24_BAD_COMMAND, "null command");
    check(t24_exchange(bare, 5, state, 11, NULL, 0, command, 16, NULL, 0)
          == T24_BAD_REPLY, "null reply");
    check(t24_replay(NULL, 0, NULL, 0, NULL, 0, NULL, 0) == T24_SHEET_CUT,
          "all null");
    check(t24_replay(bare, 5, NULL, 0, NULL, 0, NULL, 0) == T24_BAD_STATE,
          "null state");
    check(t24_replay(bare, 5, state, 11, NULL, 0, NULL, 0) == T24_DONE,
          "null memory and trace of length 0");
    check(t24_turn(NULL, 0, NULL, 0, NULL, 0) == T24_SHEET_CUT, "all null");
    check(t24_turn(bare, 5, NULL, 0, state, 11) == T24_BAD_STATE,
          "null old record");
    check(t24_turn(bare, 5, state, 10, NULL, 0) == T24_BAD_STATE,
          "null state");
    check(memcmp(state, state_a, sizeof state) == 0, "state changed");
    check(t24_exchange(bare, 5, state, 11, NULL, 0, command, 16, reply, 16)
          == T24_DONE, "null memory of length 0");
    check(reply[2] == 4 && reply[3] == 0, "reply without memory");
}
