/* Reserved octets of the enhanced type: under release 2 of the drive rules each
 * must be zero, and under release 1 none is looked at (RULES 7.24). */
#include "groups.h"
#include "reserved.h"
#include "sheets.h"

#include <string.h>

#define OUT { 0x12, 2, 16, 0, 1, 0, 0, 0, 0, 0, 0 }
#define FRESH { 0x12, 1, 16, 0, 0, 0, 0, 0, 0, 0, 0 }
#define IN { 0x12, 3, 16, 0, 1, 1, 3, 5, 0, 0, 0 }
#define NEXT { 0x12, 3, 16, 0, 1, 1, 4, 6, 0, 0, 0 }

/* The letters were written down by the request's own list. */
static const struct named rows[] = {
    { "NOP", "##b.............", OUT, { 0x00 }, { 0x00, 0, 4 }, OUT, 0, 0, 0 },
    { "NOP in step", "##b.............", IN, { 0x00, 0x54 },
      { 0x00, 0x64, 4 }, NEXT, 0, 0, 0 },
    { "PRM_RD", "##b.###.........", OUT, { 0x01, 0, 0, 0, 7, 0, 2 },
      { 0x01, 0, 4, 0, 7, 0, 2, 0, 0x0C, 0x0D }, OUT, 0, 0, 0 },
    { "PRM_WR of 2", "##b.###.##......", OUT,
      { 0x02, 0, 0, 0, 7, 0, 2, 0, 0xA1, 0xA2 },
      { 0x02, 0, 4, 0, 7, 0, 2, 0, 0xA1, 0xA2 }, OUT, 8, 2, 2 },
    { "PRM_WR of 7", "##b.###.#######.", OUT,
      { 0x02, 0, 0, 0, 9, 0, 7, 0, 1, 2, 3, 4, 5, 6, 0xFF },
      { 0x02, 0, 4, 0, 9, 0, 7, 0, 1, 2, 3, 4, 5, 6, 0xFF }, OUT, 8, 7, 0 },
    { "PRM_WR of 8", "##b.###.########", OUT,
      { 0x02, 0, 0, 0, 8, 0, 8, 0, 1, 2, 3, 4, 5, 6, 7, 0xFF },
      { 0x02, 0, 4, 0, 8, 0, 8, 0, 1, 2, 3, 4, 5, 6, 7, 0xFF }, OUT, 8, 8, 0 },
    { "ID_RD", "##b.####........", OUT, { 0x03, 0, 0, 0, 0x21, 3, 1 },
      { 0x03, 0, 4, 0, 0x21, 3, 1, 0, 0x64 }, OUT, 0, 0, 0 },
    { "ALM_RD", "##b.##..........", OUT, { 0x05 }, { 0x05, 0, 4 }, OUT, 0, 0, 0 },
    { "ALM_CLR", "##b.##..........", OUT, { 0x06 }, { 0x06, 0, 4 }, OUT, 0, 0, 0 },
    { "SYNC_SET", "##b.............", OUT, { 0x0D }, { 0x0D, 0, 4 },
      { 0x12, 3, 16, 0, 1, 0, 0, 0, 0, 0, 0 }, 0, 0, 0 },
    { "CONNECT", "##b.####........", FRESH, { 0x0E, 0, 0, 0, 0x30, 0, 1, 0 },
      { 0x0E, 0, 4, 0, 0x30, 0, 1, 0 }, OUT, 0, 0, 0 },
    { "DISCONNECT", "##b.............", OUT, { 0x0F }, { 0x0F, 0, 4 }, FRESH, 0, 0,
      0 },
    { "MEM_RD", "##b..#######....", OUT,
      { 0x1D, 0, 0, 0, 0, 0x11, 4, 0, 0, 0x10 },
      { 0x1D, 0, 4, 0, 0, 0x11, 4, 0, 0, 0x10, 0, 0, 0x0A, 0x0B, 0x0C, 0x0D },
      OUT, 0, 0, 0 },
    { "MEM_WR of 1", "##b..########...", OUT,
      { 0x1E, 0, 0, 0, 0, 0x11, 1, 0, 7, 0x10, 0, 0, 0xFF },
      { 0x1E, 0, 4, 0, 0, 0x11, 1, 0, 7, 0x10, 0, 0, 0xFF }, OUT, 12, 1, 7 },
    { "MEM_WR of 3", "##b..##########.", OUT,
      { 0x1E, 0, 0, 0, 0, 0x11, 3, 0, 0, 0x10, 0, 0, 1, 2, 0xFF },
      { 0x1E, 0, 4, 0, 0, 0x11, 3, 0, 0, 0x10, 0, 0, 1, 2, 0xFF }, OUT, 12, 3, 0 },
    { "MEM_WR of 2 twos", "##b..###########", OUT,
      { 0x1E, 0, 0, 0, 0, 0x21, 2, 0, 0, 0x10, 0, 0, 1, 2, 3, 0xFF },
      { 0x1E, 0, 4, 0, 0, 0x21, 2, 0, 0, 0x10, 0, 0, 1, 2, 3, 0xFF }, OUT, 12, 4,
      0 },
    { "MEM_WR of 1 two", "##b..#########..", OUT,
      { 0x1E, 0, 0, 0, 0, 0x21, 1, 0, 6, 0x10, 0, 0, 1, 0xFF },
      { 0x1E, 0, 4, 0, 0, 0x21, 1, 0, 6, 0x10, 0, 0, 1, 0xFF }, OUT, 12, 2, 6 },
    { "MEM_WR of 1 four", "##b..###########", OUT,
      { 0x1E, 0, 0, 0, 0, 0x31, 1, 0, 4, 0x10, 0, 0, 1, 2, 3, 0xFF },
      { 0x1E, 0, 4, 0, 0, 0x31, 1, 0, 4, 0x10, 0, 0, 1, 2, 3, 0xFF }, OUT, 12, 4,
      4 }
};

void reserved_each(void)
{
    size_t i;

    for (i = 0; i < sizeof rows / sizeof rows[0]; i++)
        each_octet(0, &rows[i]);
}

/* Of several that are not zero the first is told; with an identity, too. */
void reserved_first(void)
{
    static const struct named pair = {
        "MEM_RD with octets 4 and 15 set", "##b..#######....", OUT,
        { 0x1D, 0, 0xC0, 0, 0, 0x11, 4, 0, 0, 0x10, 0, 0, 0, 0, 0, 1 }, { 0 }, OUT,
        0, 0, 0
    };
    struct named one = pair;

    label(one.name, 4);
    give_ruled_slave(0, RULES_L, 2, one.before);
    stray_refused(0, &one, 2, 0xC1);
    one.command[2] = 0;
    give_ruled_slave(0, RULES_L, 2, one.before);
    stray_refused(0, &one, 3, 0x80);
    give_ruled_slave(0, RULES_L, 2, one.before);
    stray_refused(0, &one, 4, 0x80);
    give_ruled_slave(0, RULES_L, 2, one.before);
    stray_refused(0, &one, 12, 1);
    give_ruled_slave(0, RULES_L, 2, one.before);
    stray_refused(0, &one, 15, 1);
}

/* At every L: a NOP with one octet set, from 3 to the last. */
static void nop_at(unsigned l, size_t octet)
{
    uint8_t state[T24_STATE_LEN] = OUT, command[T24_L_MAX] = { 0 };

    state[T24_AT_L] = (uint8_t)l;
    command[octet] = 1;
    label("NOP, L and octet", (long)(1000 * l + octet));
    give_ruled_slave(0, l, 2, state);
    give(COMMAND, command, l);
    memset(wanted(REPLY), 0, l);
    wanted(REPLY)[2] = 5;
    wanted(REPLY)[3] = 9;
    wanted(STATE)[T24_AT_COMMAND_ALARM] = 9;
    expect_on_side(ASK_EXCHANGE, built_at((uint32_t)octet), (int)(octet & 1u));
    give_ruled_slave(0, l, 1, state);
    memset(wanted(REPLY), 0, l);
    wanted(REPLY)[2] = 4;
    expect_on_side(ASK_EXCHANGE, T24_DONE, (int)(octet & 1u));
}

/* A write of so many octets at 1000 with the octet behind them set, where L has
 * one. */
static void write_at(unsigned l, unsigned octets)
{
    uint8_t state[T24_STATE_LEN] = OUT;
    uint8_t command[T24_L_MAX] = { 0x1E, 0, 0, 0, 0, 0x11, 0, 0, 0, 0x10 };

    state[T24_AT_L] = (uint8_t)l;
    command[6] = (uint8_t)octets;
    memset(command + 12, 0xB5, octets);
    label("MEM_WR, L and octets", (long)(1000 * l + octets));
    give_ruled_slave(0, l, 2, state);
    give(COMMAND, command, l);
    memset(wanted(REPLY), 0, l);
    memcpy(wanted(REPLY), command, l);
    wanted(REPLY)[2] = 4;
    memset(wanted(MEMORY), 0xB5, octets);
    expect(ASK_EXCHANGE, T24_DONE);
    if (12 + octets >= l)
        return;
    give_ruled_slave(0, l, 2, state);
    command[12 + octets] = 0x10;
    give(COMMAND, command, l);
    memset(wanted(REPLY), 0, l);
    wanted(REPLY)[0] = 0x1E;
    wanted(REPLY)[2] = 5;
    wanted(REPLY)[3] = 9;
    wanted(STATE)[T24_AT_COMMAND_ALARM] = 9;
    expect(ASK_EXCHANGE, built_at(12 + octets));
}

void reserved_every_l(void)
{
    unsigned octets;
    size_t i, octet;

    for (i = 0; i < sizeof all_l; i++) {
        for (octet = 3; octet < all_l[i]; octet++)
            nop_at(all_l[i], octet);
        for (octets = 1; octets <= 8 && 12 + octets <= all_l[i]; octets++)
            write_at(all_l[i], octets);
    }
}
