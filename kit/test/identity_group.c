/* Bits 6 and 7 of command octet 2 come back in every built reply. */
#include "groups.h"
#include "sheets.h"

#include <string.h>

/* Written out for each identity: the command's octet 2, and the reply's
 * without a latch and with one. */
static const uint8_t asked[4] = { 0x00, 0x40, 0x80, 0xC0 };
static const uint8_t told_clear[4] = { 0x04, 0x44, 0x84, 0xC4 };
static const uint8_t told_latched[4] = { 0x05, 0x45, 0x85, 0xC5 };

/* On sheet P; octet 2 of the replies is for identity 0.  After MEM_WR the
 * memory begins with the octets told.  The place is that of the answer. */
static const struct exchanged {
    const char *name;
    uint8_t before[T24_STATE_LEN], command[16], reply[16], after[T24_STATE_LEN];
    uint8_t memory[2], place;
} cases[] = {
    { "accepted read",
      { 0x12, 2, 16, 0, 1, 0, 0, 0, 0, 0, 0 },
      { 0x1D, 0, 0, 0, 0, 0x11, 4, 0, 0, 0x10 },
      { 0x1D, 0, 4, 0, 0, 0x11, 4, 0, 0, 0x10, 0, 0, 0x0A, 0x0B, 0x0C, 0x0D },
      { 0x12, 2, 16, 0, 1, 0, 0, 0, 0, 0, 0 }, { 0x0A, 0x0B }, 0 },
    { "accepted write, a latch set",
      { 0x12, 2, 16, 0, 1, 0, 0, 0, 9, 0, 0 },
      { 0x1E, 0, 0, 0, 0, 0x21, 1, 0, 0, 0x10, 0, 0, 0xB4, 0xB5 },
      { 0x1E, 0, 5, 0, 0, 0x21, 1, 0, 0, 0x10, 0, 0, 0xB4, 0xB5 },
      { 0x12, 2, 16, 0, 1, 0, 0, 0, 9, 0, 0 }, { 0xB4, 0xB5 }, 0 },
    { "CONNECT, to link 3",
      { 0x12, 1, 16, 0, 0, 0, 0, 0, 0, 0, 0 },
      { 0x0E, 7, 0, 0, 0x30, 6, 2, 0 }, { 0x0E, 7, 4, 0, 0x30, 6, 2, 0 },
      { 0x12, 3, 16, 1, 2, 0, 0, 0, 0, 0, 0 }, { 0x0A, 0x0B }, 0 },
    { "DISCONNECT, from link 3",
      { 0x12, 3, 16, 1, 2, 1, 15, 4, 0, 0, 0 },
      { 0x0F, 0x40 }, { 0x0F, 0, 4, 0 },
      { 0x12, 1, 16, 0, 0, 0, 0, 0, 0, 0, 0 }, { 0x0A, 0x0B }, 0 },
    { "ALM_CLR, both latches set",
      { 0x12, 2, 16, 0, 1, 0, 0, 0, 9, 12, 0 },
      { 0x06 }, { 0x06, 0, 4, 0 },
      { 0x12, 2, 16, 0, 1, 0, 0, 0, 0, 0, 0 }, { 0x0A, 0x0B }, 0 },
    { "NOP in step",
      { 0x12, 3, 16, 0, 1, 1, 3, 15, 0, 0, 0 },
      { 0x00, 0xF4 }, { 0x00, 0x04, 4, 0 },
      { 0x12, 3, 16, 0, 1, 1, 4, 0, 0, 0, 0 }, { 0x0A, 0x0B }, 0 },
    { "alarm 8, in step",
      { 0x12, 3, 16, 0, 1, 1, 3, 5, 0, 0, 0 },
      { 0x20, 0x54 }, { 0x20, 0x64, 5, 8 },
      { 0x12, 3, 16, 0, 1, 1, 4, 6, 8, 0, 0 }, { 0x0A, 0x0B }, 0 },
    { "alarm 8",
      { 0x12, 1, 16, 0, 0, 0, 0, 0, 0, 0, 0 },
      { 0x20 }, { 0x20, 0, 5, 8 },
      { 0x12, 1, 16, 0, 0, 0, 0, 0, 8, 0, 0 }, { 0x0A, 0x0B }, 0 },
    { "alarm 9",
      { 0x12, 2, 16, 0, 1, 0, 0, 0, 0, 0, 0 },
      { 0x1E, 0, 0, 0, 0, 0x11, 5, 0, 0, 0x10, 0, 0, 1, 2, 3, 4 },
      { 0x1E, 0, 5, 9 },
      { 0x12, 2, 16, 0, 1, 0, 0, 0, 9, 0, 0 }, { 0x0A, 0x0B }, 6 },
    { "alarm 10",
      { 0x12, 2, 16, 0, 1, 0, 0, 0, 0, 0, 0 },
      { 0x1D, 0, 0, 0, 0, 0x11, 1, 0, 4, 0x10 }, { 0x1D, 0, 5, 10 },
      { 0x12, 2, 16, 0, 1, 0, 0, 0, 10, 0, 0 }, { 0x0A, 0x0B }, 0 },
    { "alarm 12",
      { 0x12, 2, 16, 0, 1, 0, 0, 0, 0, 0, 0 },
      { 0x0E, 0, 0, 0, 0x30, 0, 1, 0 }, { 0x0E, 0, 5, 12 },
      { 0x12, 2, 16, 0, 1, 0, 0, 0, 12, 0, 0 }, { 0x0A, 0x0B }, 0 },
    { "a lost cycle, with a write",
      { 0x12, 3, 16, 1, 2, 1, 3, 5, 0, 0, 0 },
      { 0x1E, 0x53, 0, 0, 0, 0x11, 1, 0, 4, 0x10, 0, 0, 0x55 },
      { 0x1E, 0, 5, 0xC0 },
      { 0x12, 2, 16, 0, 2, 0, 0, 0, 0, 12, 0 }, { 0x0A, 0x0B }, 0 },
    { "a lost cycle, with an unknown code",
      { 0x12, 3, 16, 0, 1, 1, 3, 5, 8, 0, 0 },
      { 0x20, 0x55 }, { 0x20, 0, 5, 0xC0 },
      { 0x12, 2, 16, 0, 1, 0, 0, 0, 8, 12, 0 }, { 0x0A, 0x0B }, 0 },
    { "alarm 9, behind a lost cycle",
      { 0x12, 2, 16, 0, 1, 0, 0, 0, 0, 12, 0 },
      { 0x05, 0, 0, 0, 1 }, { 0x05, 0, 5, 0xC9 },
      { 0x12, 2, 16, 0, 1, 0, 0, 0, 9, 12, 0 }, { 0x0A, 0x0B }, 4 }
};

enum { CASES = sizeof cases / sizeof cases[0] };

static unsigned told(const struct exchanged *one, unsigned identity)
{
    return one->reply[2] == 4 ? told_clear[identity] : told_latched[identity];
}

/* The case with these octets 2 and 3 in its command gets this identity. */
static void exchange(const struct exchanged *one, unsigned low, unsigned high,
                     unsigned identity)
{
    uint8_t command[16];

    memcpy(command, one->command, sizeof command);
    command[2] = (uint8_t)low;
    command[3] = (uint8_t)high;
    label(one->name, (long)(low + 256 * high));
    give(SHEET, sheet_p, sizeof sheet_p);
    give(STATE, one->before, T24_STATE_LEN);
    give(MEMORY, memory_p, sizeof memory_p);
    give(COMMAND, command, sizeof command);
    give_noise(REPLY, 16);
    memcpy(wanted(STATE), one->after, T24_STATE_LEN);
    memcpy(wanted(MEMORY), one->memory, sizeof one->memory);
    memcpy(wanted(REPLY), one->reply, 16);
    wanted(REPLY)[2] = (uint8_t)told(one, identity);
    expect(ASK_EXCHANGE, built_at(one->place));
}

void identity_comes_back(void)
{
    unsigned identity;
    size_t i;

    for (i = 0; i < CASES; i++)
        for (identity = 0; identity < 4; identity++)
            exchange(&cases[i], asked[identity], 0, identity);
}

/* Alone, all together, and beside each identity. */
void identity_others_ignored(void)
{
    unsigned identity, bit;
    size_t i;

    for (i = 0; i < CASES; i++) {
        for (bit = 0; bit < 6; bit++)
            exchange(&cases[i], 1u << bit, 0, 0);
        for (bit = 0; bit < 8; bit++)
            exchange(&cases[i], 0, 1u << bit, 0);
        for (identity = 0; identity < 4; identity++)
            exchange(&cases[i], asked[identity] + 0x3Fu, 0xFF, identity);
    }
}

/* A NOP, an unknown code and a lost cycle at this L. */
static void at_length(unsigned l, unsigned identity)
{
    uint8_t state[T24_STATE_LEN] = { 0x12, 3, 0, 0, 1, 1, 3, 5, 0, 0, 0 };
    uint8_t command[T24_L_MAX] = { 0x00, 0x54 };
    struct built sheet;

    label("at L", (long)l);
    state[T24_AT_L] = (uint8_t)l;
    command[2] = asked[identity];
    build_p(&sheet, l);
    give(SHEET, sheet.octets, sheet.len);
    give(STATE, state, sizeof state);
    give(MEMORY, memory_p, sizeof memory_p);
    give(COMMAND, command, l);
    give_noise(REPLY, l);
    memset(wanted(REPLY), 0, l);
    wanted(REPLY)[1] = 0x64;
    wanted(REPLY)[2] = told_clear[identity];
    wanted(STATE)[T24_AT_LAST_MN] = 4;
    wanted(STATE)[T24_AT_RSN] = 6;
    expect(ASK_EXCHANGE, T24_DONE);
    given(COMMAND)[0] = wanted(COMMAND)[0] = wanted(REPLY)[0] = 0x77;
    wanted(REPLY)[2] = told_latched[identity];
    wanted(REPLY)[3] = 8;
    wanted(STATE)[T24_AT_COMMAND_ALARM] = 8;
    expect(ASK_EXCHANGE, T24_DONE);
    given(COMMAND)[1] = wanted(COMMAND)[1] = 0x53;
    wanted(REPLY)[1] = 0;
    wanted(REPLY)[3] = 0xC0;
    memset(wanted(STATE) + T24_AT_MN_KNOWN, 0, 4);
    wanted(STATE)[T24_AT_LINK] = T24_LINK_ASYNC;
    wanted(STATE)[T24_AT_COMMUNICATION_ALARM] = 12;
    expect(ASK_EXCHANGE, T24_DONE);
}

void identity_every_l(void)
{
    unsigned identity;
    size_t i;

    for (i = 0; i < sizeof all_l; i++)
        for (identity = 0; identity < 4; identity++)
            at_length(all_l[i], identity);
}
