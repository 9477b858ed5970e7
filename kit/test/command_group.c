/* Every code at every L, from every link, with the data area full. */
#include "groups.h"
#include "sheets.h"

#include <string.h>

enum { PLACE = 5, MEMORY_LEN = 80 }; /* where a span begins in the memory */

static unsigned l;

/* Two regions that touch, and every span at 1005 hex crosses to the second. */
static void give_sheet(void)
{
    struct built sheet;

    sheet.len = 0;
    add_link(&sheet, l);
    add_region(&sheet, 0x1000, 8, 7);
    add_region(&sheet, 0x1008, MEMORY_LEN - 8, 7);
    add_parameter(&sheet, 7, 0x1005, l == T24_L8 ? 1 : l - 8);
    add_item(&sheet, 5, 32);
    add_end(&sheet);
    give(SHEET, sheet.octets, sheet.len);
}

static void give_state(unsigned link)
{
    uint8_t state[T24_STATE_LEN] = { 0x12, 0, 0, 0, 0, 0, 0, 0, 9, 12, 0 };

    state[T24_AT_LINK] = (uint8_t)link;
    state[T24_AT_L] = (uint8_t)l;
    state[T24_AT_COM_TIME] = link >= T24_LINK_ASYNC ? 3 : 0;
    if (link == T24_LINK_SYNC) {
        state[T24_AT_MN_KNOWN] = 1;
        state[T24_AT_LAST_MN] = 14;
        state[T24_AT_RSN] = 15;
    }
    give(STATE, state, sizeof state);
}

/* Fields are octets 4 to 11; MN 15 follows, SN is RSN, and RSN turns to 0. */
static void start(unsigned link, unsigned code, const uint8_t *fields)
{
    uint8_t command[T24_L_MAX] = { 0 };

    label("code", (long)code);
    give_state(link);
    give_noise(MEMORY, MEMORY_LEN);
    command[0] = (uint8_t)code;
    command[1] = 0xFF;
    memcpy(command + 4, fields, l == T24_L8 ? 4 : 8);
    give(COMMAND, command, l);
    give_noise(REPLY, l);
    memset(wanted(REPLY), 0, l);
    wanted(REPLY)[0] = (uint8_t)code;
    wanted(REPLY)[2] = 0x05;
    wanted(REPLY)[3] = 0xC0;
    if (link == T24_LINK_SYNC) {
        wanted(STATE)[T24_AT_LAST_MN] = 15;
        wanted(STATE)[T24_AT_RSN] = 0;
        wanted(REPLY)[1] = 0x0F;
    }
}

static void refused(unsigned link, unsigned code, const uint8_t *fields,
                    unsigned alarm, unsigned place)
{
    start(link, code, fields);
    wanted(REPLY)[3] = (uint8_t)(0xC0 + alarm);
    expect(ASK_EXCHANGE, built_at(place));
}

/* The head comes back; behind it stand octets of the sheet or the memory. */
static void reads(unsigned link, unsigned code, const uint8_t *fields,
                  size_t head, const uint8_t *octets, size_t count)
{
    start(link, code, fields);
    memcpy(wanted(REPLY) + 4, fields, head - 4);
    memcpy(wanted(REPLY) + head, octets, count);
    expect(ASK_EXCHANGE, T24_DONE);
}

static void writes(unsigned link, unsigned code, const uint8_t *fields,
                   size_t head)
{
    size_t i;

    start(link, code, fields);
    memcpy(wanted(REPLY) + 4, fields, head - 4);
    for (i = head; i < l; i++) {
        const uint8_t octet = (uint8_t)(0x80 + i);
        given(COMMAND)[i] = wanted(COMMAND)[i] = octet;
        wanted(REPLY)[i] = wanted(MEMORY)[PLACE + i - head] = octet;
    }
    expect(ASK_EXCHANGE, T24_DONE);
}

static void memory_of(unsigned link, unsigned mode, unsigned width)
{
    const unsigned count = (l - 12) / width;
    uint8_t fields[8] = { 0, 0, 0, 0, 0x05, 0x10, 0, 0 };

    fields[1] = (uint8_t)mode;
    fields[2] = (uint8_t)count;
    reads(link, T24_MEM_RD, fields, 12, wanted(MEMORY) + PLACE, l - 12);
    writes(link, T24_MEM_WR, fields, 12);
    fields[2] = (uint8_t)(count + 1);
    refused(link, T24_MEM_RD, fields, T24_ALARM_DATA, 6);
    refused(link, T24_MEM_WR, fields, T24_ALARM_DATA, 6);
}

/* A parameter is as long as L allows, an item is cut off by its length or L. */
static void data(unsigned link)
{
    const size_t item = l < 40 ? l - 8 : 32;
    uint8_t parameter[8] = { 7, 0, 0, 0 }, id[8] = { 5, 0, 0, 0 };
    const uint8_t mode[8] = { 0 }, latches[2] = { 9, 12 };

    parameter[2] = (uint8_t)(l - 8);
    id[2] = (uint8_t)item;
    reads(link, T24_PRM_RD, parameter, 8, wanted(MEMORY) + PLACE, l - 8);
    writes(link, T24_PRM_WR, parameter, 8);
    reads(link, T24_ID_RD, id, 8, given(SHEET) + given_len(SHEET) - 33, item);
    reads(link, T24_ALM_RD, mode, 8, latches, sizeof latches);
    memory_of(link, T24_ELEMENT_1, 1);
    memory_of(link, T24_ELEMENT_2, 2);
    memory_of(link, T24_ELEMENT_4, 4);
}

/* L 8 has no data area, so what needs one is refused. */
static void no_data(unsigned link)
{
    const uint8_t parameter[8] = { 7, 0, 1, 0 }, id[8] = { 5, 0, 1, 0 };
    const uint8_t mode[8] = { 0 }, memory[8] = { 0, T24_ELEMENT_1, 1, 0 };

    refused(link, T24_PRM_RD, parameter, T24_ALARM_DATA, 6);
    refused(link, T24_PRM_WR, parameter, T24_ALARM_DATA, 6);
    refused(link, T24_ID_RD, id, T24_ALARM_DATA, 6);
    refused(link, T24_ALM_RD, mode, T24_ALARM_DATA, 0);
    refused(link, T24_MEM_RD, memory, T24_ALARM_DATA, 6);
    refused(link, T24_MEM_WR, memory, T24_ALARM_DATA, 6);
}

/* The state wanted in another link: RWDT is MN on entry to link 3, else 0. */
static void enters(unsigned link, unsigned dual)
{
    wanted(STATE)[T24_AT_LINK] = (uint8_t)link;
    wanted(STATE)[T24_AT_DUAL] = (uint8_t)dual;
    wanted(STATE)[T24_AT_COM_TIME] = link == T24_LINK_DISCONNECTED ? 0 : 3;
    memset(wanted(STATE) + T24_AT_MN_KNOWN, 0, 3);
    wanted(REPLY)[1] = link == T24_LINK_SYNC ? 0x0F : 0;
    expect(ASK_EXCHANGE, T24_DONE);
}

static void connects(unsigned mode, unsigned link, unsigned dual)
{
    uint8_t fields[8] = { 0x30, 0, 3, 0 };

    fields[1] = (uint8_t)mode;
    refused(T24_LINK_ASYNC, T24_CONNECT, fields, T24_ALARM_LINK, 0);
    refused(T24_LINK_SYNC, T24_CONNECT, fields, T24_ALARM_LINK, 0);
    start(T24_LINK_DISCONNECTED, T24_CONNECT, fields);
    memcpy(wanted(REPLY) + 4, fields, 4);
    enters(link, dual);
}

static void links(void)
{
    const uint8_t none[8] = { 0 };
    unsigned link;

    for (link = T24_LINK_DISCONNECTED; link <= T24_LINK_SYNC; link++) {
        start(link, T24_NOP, none);
        expect(ASK_EXCHANGE, T24_DONE);
        refused(link, 0x04, none, T24_ALARM_CODE, 0);
        start(link, T24_DISCONNECT, none);
        enters(T24_LINK_DISCONNECTED, 0);
    }
    connects(0x00, T24_LINK_ASYNC, 0);
    connects(0x02, T24_LINK_SYNC, 0);
    connects(0x06, T24_LINK_SYNC, 1);
    refused(T24_LINK_DISCONNECTED, T24_SYNC_SET, none, T24_ALARM_LINK, 0);
    refused(T24_LINK_SYNC, T24_SYNC_SET, none, T24_ALARM_LINK, 0);
    start(T24_LINK_ASYNC, T24_SYNC_SET, none);
    enters(T24_LINK_SYNC, 0);
}

static void clears(unsigned link)
{
    const uint8_t mode[8] = { 0 };

    start(link, T24_ALM_CLR, mode);
    memset(wanted(STATE) + T24_AT_COMMAND_ALARM, 0, 2);
    wanted(REPLY)[2] = 0x04;
    wanted(REPLY)[3] = 0x00;
    expect(ASK_EXCHANGE, T24_DONE);
}

void command_codes(void)
{
    size_t i;
    unsigned link;

    for (i = 0; i < sizeof all_l; i++) {
        l = all_l[i];
        give_sheet();
        links();
        for (link = T24_LINK_ASYNC; link <= T24_LINK_SYNC; link++) {
            clears(link);
            if (l == T24_L8)
                no_data(link);
            else
                data(link);
        }
    }
}
