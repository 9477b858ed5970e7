/* Alarm 9 at every L: the last size and count that fit, and one past them; and
 * commands that are refused, or not executed, without a place. */
#include "groups.h"
#include "sheets.h"

#include <string.h>

enum { MEMORY_LEN = 128, NUMBER_FITS = 1, NUMBER_LONG = 2, CODE = 0x21 };

static unsigned l;

/* One region that may be read and written, a parameter of L - 8 octets and one
 * of L - 7, as far as a sheet can have them, and an item of 32. */
static void give_slave(unsigned link)
{
    uint8_t state[T24_STATE_LEN] = { 0x12, 0, 0, 0, 0, 0, 0, 0, 0, 0, 0 };
    struct built sheet;

    sheet.len = 0;
    add_link(&sheet, l);
    add_region(&sheet, 0x1000, MEMORY_LEN, 7);
    if (l > T24_L8)
        add_parameter(&sheet, NUMBER_FITS, 0x1000, l - 8);
    if (l < T24_L64)
        add_parameter(&sheet, NUMBER_LONG, 0x1000, l - 7);
    add_item(&sheet, CODE, 32);
    add_end(&sheet);
    give(SHEET, sheet.octets, sheet.len);
    state[T24_AT_LINK] = (uint8_t)link;
    state[T24_AT_L] = (uint8_t)l;
    state[T24_AT_COM_TIME] = link >= T24_LINK_ASYNC;
    give(STATE, state, sizeof state);
    give_noise(MEMORY, MEMORY_LEN);
    give_noise(REPLY, l);
    memset(wanted(REPLY), 0, l);
}

/* Octets 4 to 11 are given; those past L are not there. */
static void give_command(unsigned code, const uint8_t *fields)
{
    uint8_t command[T24_L_MAX] = { 0 };

    command[0] = (uint8_t)code;
    memcpy(command + 4, fields, 8);
    label("code", (long)(code + 256 * l));
    give(COMMAND, command, l);
    wanted(REPLY)[0] = (uint8_t)code;
    wanted(REPLY)[2] = 4;
}

static void refused(unsigned link, unsigned code, const uint8_t *fields,
                    unsigned alarm, unsigned place)
{
    give_slave(link);
    give_command(code, fields);
    wanted(REPLY)[2] = 5;
    wanted(REPLY)[3] = (uint8_t)alarm;
    wanted(STATE)[T24_AT_COMMAND_ALARM] = (uint8_t)alarm;
    expect(ASK_EXCHANGE, built_at(place));
}

/* Read from the front of the memory or, with `item`, of the item. */
static void read_whole(unsigned code, const uint8_t *fields, size_t head,
                       size_t count, int item)
{
    give_slave(T24_LINK_ASYNC);
    give_command(code, fields);
    memcpy(wanted(REPLY) + 4, fields, head - 4);
    memcpy(wanted(REPLY) + head,
           item ? given(SHEET) + given_len(SHEET) - 33 : given(MEMORY), count);
    expect(ASK_EXCHANGE, T24_DONE);
}

static void parameter_sizes(void)
{
    const uint8_t fits[8] = { NUMBER_FITS, 0, (uint8_t)(l - 8) };
    const uint8_t longer[8] = { NUMBER_LONG, 0, (uint8_t)(l - 7) };
    const uint8_t past[8] = { NUMBER_FITS, 0, (uint8_t)(l - 7) };
    const uint8_t none[8] = { 0, 0, (uint8_t)(l - 8) };

    if (l > T24_L8)
        read_whole(T24_PRM_RD, fits, 8, l - 8, 0);
    refused(T24_LINK_ASYNC, T24_PRM_RD, longer, 9, l < T24_L64 ? 6 : 4);
    refused(T24_LINK_ASYNC, T24_PRM_WR, longer, 9, l < T24_L64 ? 6 : 4);
    refused(T24_LINK_ASYNC, T24_PRM_RD, past, 9, l > T24_L8 ? 6 : 4);
    refused(T24_LINK_ASYNC, T24_PRM_WR, none, 9, 4);
}

/* L - 8 octets of the item, or all 32; one more is too many. */
static void item_sizes(void)
{
    const size_t most = l < 40 ? l - 8 : 32;
    const uint8_t fits[8] = { CODE, 0, (uint8_t)most };
    const uint8_t past[8] = { CODE, 0, (uint8_t)(most + 1) };
    const uint8_t none[8] = { CODE + 1, 0, (uint8_t)(most + 1) };

    if (l > T24_L8)
        read_whole(T24_ID_RD, fits, 8, most, 1);
    refused(T24_LINK_ASYNC, T24_ID_RD, past, 9, 6);
    refused(T24_LINK_ASYNC, T24_ID_RD, none, 9, 4);
}

/* At L 8 no octet past 7 is looked at, and the count is wrong at the latest. */
static void memory_counts(void)
{
    static const uint8_t element[3] = { 0x11, 0x21, 0x31 };
    uint8_t fields[8] = { 0, 0, 0, 0, 0x00, 0x10, 0, 0 };
    unsigned i, most;

    for (i = 0; i < 3; i++) {
        most = l > T24_L8 ? (l - 12) >> i : 0;
        fields[1] = element[i];
        fields[2] = (uint8_t)most;
        if (l > T24_L8)
            read_whole(T24_MEM_RD, fields, 12, l - 12, 0);
        fields[2] = (uint8_t)(most + 1);
        refused(T24_LINK_ASYNC, T24_MEM_RD, fields, 9, 6);
        refused(T24_LINK_ASYNC, T24_MEM_WR, fields, 9, 6);
        fields[2] = 0;
        refused(T24_LINK_ASYNC, T24_MEM_RD, fields, 9, 6);
        fields[1] = (uint8_t)(element[i] + 1);
        refused(T24_LINK_ASYNC, T24_MEM_WR, fields, 9, 5);
    }
}

/* L is asked before the mode; ALM_CLR does not ask it. */
static void modes(void)
{
    static const uint8_t zero[8] = { 0 }, one[8] = { 1 }, high[8] = { 0, 1 };
    const unsigned place = l == T24_L8 ? 0 : 4;

    if (l == T24_L8)
        refused(T24_LINK_ASYNC, T24_ALM_RD, zero, 9, 0);
    else
        read_whole(T24_ALM_RD, zero, 8, 0, 0);
    refused(T24_LINK_ASYNC, T24_ALM_RD, one, 9, place);
    refused(T24_LINK_ASYNC, T24_ALM_RD, high, 9, place);
    refused(T24_LINK_ASYNC, T24_ALM_CLR, one, 9, 4);
    refused(T24_LINK_ASYNC, T24_ALM_CLR, high, 9, 4);
}

static void connections(void)
{
    static const uint8_t version[8] = { 0x31, 6, 1, 1 };
    static const uint8_t com_mod[8] = { 0x30, 4, 0, 1 };
    static const uint8_t com_time[8] = { 0x30, 6, 1, 1 };
    static const uint8_t profile[8] = { 0x30, 6, 2, 1 };

    refused(T24_LINK_DISCONNECTED, T24_CONNECT, version, 9, 4);
    refused(T24_LINK_DISCONNECTED, T24_CONNECT, com_mod, 9, 5);
    refused(T24_LINK_DISCONNECTED, T24_CONNECT, com_time, 9, 6);
    refused(T24_LINK_DISCONNECTED, T24_CONNECT, profile, 9, 7);
}

void wrong_at_every_l(void)
{
    size_t i;

    for (i = 0; i < sizeof all_l; i++) {
        l = all_l[i];
        parameter_sizes();
        item_sizes();
        memory_counts();
        modes();
        connections();
    }
}

/* Link 3, last MN 3, RSN 5, and another WDT than 54 hex: not executed, whatever
 * is wrong. */
static void lost(unsigned code, const uint8_t *fields, unsigned wdt)
{
    static const uint8_t before[] = { 0x12, 3, 0, 0, 1, 1, 3, 5, 0, 0, 0 };
    static const uint8_t after[] = { 0x12, 2, 0, 0, 1, 0, 0, 0, 0, 12, 0 };

    give_slave(T24_LINK_SYNC);
    give(STATE, before, sizeof before);
    memcpy(wanted(STATE), after, sizeof after);
    given(STATE)[T24_AT_L] = wanted(STATE)[T24_AT_L] = (uint8_t)l;
    give_command(code, fields);
    given(COMMAND)[1] = wanted(COMMAND)[1] = (uint8_t)wdt;
    wanted(REPLY)[2] = 5;
    wanted(REPLY)[3] = 0xC0;
    expect(ASK_EXCHANGE, T24_DONE);
}

/* Each code with fields that are all wrong: nothing but check 4 tells them. */
void wrong_without_place(void)
{
    static const uint8_t wrong[8] = { 0xFF, 0xFF, 0xFF, 0xFF, 0xFF, 0xFF, 0xFF,
                                      0xFF };
    static const uint8_t known[] = { 0x00, 0x01, 0x02, 0x03, 0x05, 0x06, 0x0D,
                                     0x0E, 0x0F, 0x1D, 0x1E };
    unsigned code;
    size_t i;

    for (i = 0; i < sizeof all_l; i++) {
        l = all_l[i];
        for (code = 0; code < 256; code++) {
            lost(code, wrong, 0x53);
            lost(code, wrong, 0x44);
            if (memchr(known, (int)code, sizeof known) == NULL) {
                refused(T24_LINK_DISCONNECTED, code, wrong, 8, 0);
                refused(T24_LINK_ASYNC, code, wrong, 8, 0);
            } else if (code == T24_CONNECT) {
                refused(T24_LINK_ASYNC, code, wrong, 12, 0);
            } else if (code != T24_NOP && code != T24_DISCONNECT) {
                refused(T24_LINK_DISCONNECTED, code, wrong, 12, 0);
            }
        }
    }
}
