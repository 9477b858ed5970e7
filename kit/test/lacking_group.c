/* Alarm 10: the place counts the octets of the span before the first that lacks
 * the right, so that address + place is that octet's address. */
#include "groups.h"
#include "sheets.h"

#include <string.h>

static unsigned l;

static void give_sheet_octets(const struct built *sheet)
{
    give(SHEET, sheet->octets, sheet->len);
    give_noise(MEMORY, t24_memory(t24_lengths(sheet->octets, sheet->len)));
}

/* In link 3 the exchange is the first there, with MN 0. */
static void start(unsigned link, const uint8_t *command)
{
    uint8_t state[T24_STATE_LEN] = { 0x12, 0, 0, 0, 1, 0, 0, 0, 0, 0, 0 };

    state[T24_AT_LINK] = (uint8_t)link;
    state[T24_AT_L] = (uint8_t)l;
    give(STATE, state, sizeof state);
    give(COMMAND, command, l);
    give_noise(REPLY, l);
    memset(wanted(REPLY), 0, l);
    go_on(MEMORY);
    wanted(REPLY)[0] = command[0];
    wanted(REPLY)[2] = 4;
    if (link == T24_LINK_SYNC) {
        wanted(REPLY)[1] = 0x10;
        wanted(STATE)[T24_AT_MN_KNOWN] = 1;
        wanted(STATE)[T24_AT_RSN] = 1;
    }
}

static void lacks(unsigned link, const uint8_t *command, unsigned place)
{
    start(link, command);
    wanted(REPLY)[2] = 5;
    wanted(REPLY)[3] = 10;
    wanted(STATE)[T24_AT_COMMAND_ALARM] = 10;
    expect(ASK_EXCHANGE, built_at(place));
}

/* The head comes back, and the octets are read from, or go to, this place. */
static void passes(unsigned link, const uint8_t *command, size_t head,
                   size_t count, size_t place)
{
    const int writes = command[0] == T24_PRM_WR || command[0] == T24_MEM_WR;

    start(link, command);
    memcpy(wanted(REPLY) + 4, command + 4, head - 4);
    if (writes)
        memcpy(wanted(MEMORY) + place, command + head, count);
    memcpy(wanted(REPLY) + head, wanted(MEMORY) + place, count);
    expect(ASK_EXCHANGE, T24_DONE);
}

/* At 1000 all rights; 1001 not written in step, 1002 not read, 1003 not written
 * out of step; then once more; so each right is lacked twice in 8 octets. */
static void give_mixed(void)
{
    static const uint8_t rights[8] = { 7, 3, 6, 5, 7, 3, 6, 5 };
    struct built sheet;
    unsigned i;

    l = 16;
    sheet.len = 0;
    add_link(&sheet, l);
    for (i = 0; i < 8; i++)
        add_region(&sheet, 0x1000 + i, 1, rights[i]);
    add_parameter(&sheet, 7, 0x1000, 8);
    add_parameter(&sheet, 8, 0x1003, 5);
    add_end(&sheet);
    give_sheet_octets(&sheet);
}

/* Written out: four octets from each address, and two parameters. */
void lacking_mixed(void)
{
    static const uint8_t place[5][3] = { /* read; written in link 2, in link 3 */
        { 2, 3, 1 }, { 1, 2, 0 }, { 0, 1, 3 }, { 3, 0, 2 }, { 2, 3, 1 }
    };
    static const uint8_t whole[16] = { 0x01, 0, 0, 0, 7, 0, 8 };
    static const uint8_t part[16] = { 0x01, 0, 0, 0, 8, 0, 5 };
    uint8_t command[16] = { 0x1D, 0, 0, 0, 0, 0x11, 4, 0, 0, 0x10 };

    give_mixed();
    for (command[8] = 0; command[8] < 5; command[8]++) {
        label("four octets from", (long)command[8]);
        command[0] = T24_MEM_RD;
        lacks(T24_LINK_ASYNC, command, place[command[8]][0]);
        lacks(T24_LINK_SYNC, command, place[command[8]][0]);
        command[0] = T24_MEM_WR;
        lacks(T24_LINK_ASYNC, command, place[command[8]][1]);
        lacks(T24_LINK_SYNC, command, place[command[8]][2]);
    }
    label("parameter", 7);
    lacks(T24_LINK_ASYNC, whole, 2);
    memcpy(command, whole, sizeof command);
    command[0] = T24_PRM_WR;
    lacks(T24_LINK_ASYNC, command, 3);
    lacks(T24_LINK_SYNC, command, 1);
    label("parameter", 8);
    lacks(T24_LINK_SYNC, part, 3);
    memcpy(command, part, sizeof command);
    command[0] = T24_PRM_WR;
    lacks(T24_LINK_ASYNC, command, 0);
    lacks(T24_LINK_SYNC, command, 2);
}

/* Two regions that touch `before` octets into the span, of which the second
 * lacks the right; with `again` a third that has it, and a fourth without. */
static void give_regions(unsigned before, unsigned right, unsigned size,
                         int again)
{
    const uint8_t less = (uint8_t)(7 - right);
    struct built sheet;

    sheet.len = 0;
    add_link(&sheet, l);
    add_region(&sheet, 0x1000, 4 + before, 7);
    add_region(&sheet, 0x1004 + before, again ? 1 : 64, less);
    if (again) {
        add_region(&sheet, 0x1005 + before, 1, 7);
        add_region(&sheet, 0x1006 + before, 62, less);
    }
    add_parameter(&sheet, 7, 0x1004, size);
    add_end(&sheet);
    give_sheet_octets(&sheet);
}

/* The span begins at 1004; at its full length the regions touch behind it. */
static void at_each_octet(unsigned link, unsigned code, unsigned right,
                          size_t head, unsigned size)
{
    const int prm = code == T24_PRM_RD || code == T24_PRM_WR;
    uint8_t command[T24_L_MAX];
    unsigned before;

    memset(command, 0x5A, sizeof command);
    memset(command, 0, 12);
    command[0] = (uint8_t)code;
    command[4] = prm ? 7 : 0;
    command[5] = prm ? 0 : 0x11;
    command[6] = (uint8_t)size;
    command[8] = 0x04;
    command[9] = 0x10;
    label("size", (long)size);
    for (before = 0; before < size; before++) {
        give_regions(before, right, size, 0);
        lacks(link, command, before);
        give_regions(before, right, size, 1);
        lacks(link, command, before);
    }
    give_regions(size, right, size, 0);
    if (prm)
        command[7] = 0;
    passes(link, command, head, size, 4);
}

/* The shortest span, one between, and the longest that this L carries. */
void lacking_each_octet(void)
{
    size_t i;
    unsigned step;

    for (i = 1; i < sizeof all_l; i++) {
        l = all_l[i];
        for (step = 0; step < 3; step++) {
            const unsigned mem = step == 0 ? 1 : step == 1 ? 3 : l - 12;
            const unsigned prm = step == 0 ? 1 : step == 1 ? 3 : l - 8;

            at_each_octet(T24_LINK_ASYNC, T24_MEM_RD, 1, 12, mem);
            at_each_octet(T24_LINK_SYNC, T24_MEM_RD, 1, 12, mem);
            at_each_octet(T24_LINK_ASYNC, T24_MEM_WR, 2, 12, mem);
            at_each_octet(T24_LINK_SYNC, T24_MEM_WR, 4, 12, mem);
            at_each_octet(T24_LINK_ASYNC, T24_PRM_RD, 1, 8, prm);
            at_each_octet(T24_LINK_SYNC, T24_PRM_RD, 1, 8, prm);
            at_each_octet(T24_LINK_ASYNC, T24_PRM_WR, 2, 8, prm);
            at_each_octet(T24_LINK_SYNC, T24_PRM_WR, 4, 8, prm);
        }
    }
}

/* A span with an octet that is in no region is alarm 9, wherever that is. */
void lacking_or_unmapped(void)
{
    static const uint8_t before[16] = { 0x1D, 0, 0, 0, 0, 0x11, 4, 0, 0x06, 0x10 };
    static const uint8_t top[16] = { 0x1E, 0, 0, 0, 0, 0x31, 1, 0, 0xFC, 0xFF, 0xFF,
                                     0xFF, 1, 2, 3, 4 };
    struct built sheet;

    l = 16;
    sheet.len = 0;
    add_link(&sheet, l);
    add_region(&sheet, 0x1000, 9, 0);
    add_region(&sheet, 0xFFFFFFFCu, 3, 7);
    add_region(&sheet, 0xFFFFFFFFu, 1, 3);
    add_end(&sheet);
    give_sheet_octets(&sheet);
    label("three without the right, then a gap", 0);
    start(T24_LINK_ASYNC, before);
    wanted(REPLY)[2] = 5;
    wanted(REPLY)[3] = 9;
    wanted(STATE)[T24_AT_COMMAND_ALARM] = 9;
    expect(ASK_EXCHANGE, built_at(8));
    label("the last address lacks it in step", 0);
    lacks(T24_LINK_SYNC, top, 3);
    passes(T24_LINK_ASYNC, top, 12, 4, 9);
}
