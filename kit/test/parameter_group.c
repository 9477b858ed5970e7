/* A parameter's span asks for its right alone: it is in regions, or the sheet
 * has fault 17. */
#include "groups.h"
#include "sheets.h"

#include <string.h>

enum { SIZE = 4, MEMORY_LEN = 12 };

/* Three regions of 4 octets that touch; the parameter begins anywhere. */
static void give_sheet(const uint8_t rights[3], unsigned address)
{
    struct built sheet;
    unsigned i;

    sheet.len = 0;
    add_link(&sheet, 16);
    for (i = 0; i < 3; i++)
        add_region(&sheet, 0x1000 + 4 * i, 4, rights[i]);
    add_parameter(&sheet, 7, address, SIZE);
    add_end(&sheet);
    give(SHEET, sheet.octets, sheet.len);
}

static void start(unsigned link, unsigned code)
{
    uint8_t state[T24_STATE_LEN] = { 0x12, 0, 16, 0, 1, 0, 0, 0, 0, 0, 0 };
    uint8_t command[16] = { 0, 0, 0, 0, 7, 0, SIZE, 0, 0xA1, 0xA2, 0xA3, 0xA4 };

    state[T24_AT_LINK] = (uint8_t)link;
    command[0] = (uint8_t)code;
    give(STATE, state, sizeof state);
    give_noise(MEMORY, MEMORY_LEN);
    give(COMMAND, command, sizeof command);
    give_noise(REPLY, sizeof command);
    memset(wanted(REPLY), 0, sizeof command);
    wanted(REPLY)[0] = (uint8_t)code;
    wanted(REPLY)[1] = link == T24_LINK_SYNC ? 0x10 : 0;
    wanted(REPLY)[2] = 0x04;
    if (link == T24_LINK_SYNC) {
        wanted(STATE)[T24_AT_MN_KNOWN] = 1;
        wanted(STATE)[T24_AT_RSN] = 1;
    }
}

/* Without the right: alarm 10, a zero body, the latch, and nothing stored; the
 * place is that of the span's first octet without it. */
static void refused(unsigned link, unsigned code, unsigned octet)
{
    start(link, code);
    wanted(REPLY)[2] = 0x05;
    wanted(REPLY)[3] = T24_ALARM_RIGHTS;
    wanted(STATE)[T24_AT_COMMAND_ALARM] = T24_ALARM_RIGHTS;
    expect(ASK_EXCHANGE, built_at(octet));
}

static void accepted(unsigned link, unsigned code, unsigned place)
{
    start(link, code);
    if (code == T24_PRM_WR)
        memcpy(wanted(MEMORY) + place, given(COMMAND) + 8, SIZE);
    memcpy(wanted(REPLY) + 4, given(COMMAND) + 4, 3);
    memcpy(wanted(REPLY) + 8, wanted(MEMORY) + place, SIZE);
    expect(ASK_EXCHANGE, T24_DONE);
}

/* One region lacks one right; each span has octets before, in or behind it. */
static void lacking(unsigned which, unsigned right, unsigned link, unsigned code)
{
    uint8_t rights[3] = { 7, 7, 7 };
    unsigned place;

    rights[which] = (uint8_t)(7 - right);
    for (place = 0; place + SIZE <= MEMORY_LEN; place++) {
        const int touches = place < 4 * which + 4 && place + SIZE > 4 * which;

        label("parameter at", (long)place);
        give_sheet(rights, 0x1000 + place);
        if (touches)
            refused(link, code, place < 4 * which ? 4 * which - place : 0);
        else
            accepted(link, code, place);
    }
}

void parameter_rights(void)
{
    unsigned which;

    for (which = 0; which < 3; which++) {
        lacking(which, T24_RIGHT_READ, T24_LINK_ASYNC, T24_PRM_RD);
        lacking(which, T24_RIGHT_READ, T24_LINK_SYNC, T24_PRM_RD);
        lacking(which, T24_RIGHT_WRITE_ASYNC, T24_LINK_ASYNC, T24_PRM_WR);
        lacking(which, T24_RIGHT_WRITE_SYNC, T24_LINK_SYNC, T24_PRM_WR);
    }
}

/* One octet before the first address, or behind the last, is the sheet's. */
void parameter_unmapped(void)
{
    static const uint8_t rights[3] = { 0, 0, 0 };

    label("one octet before", 0);
    start(T24_LINK_ASYNC, T24_PRM_RD);
    give_noise(REPLY, 16);
    give_sheet(rights, 0x0FFF);
    expect(ASK_SHEET, T24_SHEET_SPAN + ((uint64_t)34 << 32));
    expect(ASK_EXCHANGE, T24_SHEET_SPAN + ((uint64_t)34 << 32));
    label("one octet behind", 0);
    give_sheet(rights, 0x1000 + MEMORY_LEN - SIZE + 1);
    expect(ASK_EXCHANGE, T24_SHEET_SPAN + ((uint64_t)34 << 32));
    label("the last four", 0);
    give_sheet(rights, 0x1000 + MEMORY_LEN - SIZE);
    refused(T24_LINK_ASYNC, T24_PRM_RD, 0);
}
