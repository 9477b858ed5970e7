/* Alarm 9: the place is the first octet of the first field that is wrong, with
 * written-out commands at L 16, each bound met and passed by one. */
#include "groups.h"
#include "sheets.h"

#include <string.h>

enum { L = 16, MEMORY_LEN = 36 };

/* A command of one code after the other in turn; refused, it has this place. */
struct wrong {
    const char *name;
    uint8_t place, command[L];
};

static const struct wrong connects[] = {
    { "version, one less", 4, { 0x0E, 0, 0, 0, 0x2F, 0, 1, 0 } },
    { "version, one more", 4, { 0x0E, 0, 0, 0, 0x31, 0, 1, 0 } },
    { "com_mod bit 0", 5, { 0x0E, 0, 0, 0, 0x30, 0x01, 1, 0 } },
    { "com_mod bits 0, 1", 5, { 0x0E, 0, 0, 0, 0x30, 0x03, 1, 0 } },
    { "com_mod, dual alone", 5, { 0x0E, 0, 0, 0, 0x30, 0x04, 2, 0 } },
    { "com_mod, transfer 2", 5, { 0x0E, 0, 0, 0, 0x30, 0x0A, 2, 0 } },
    { "com_mod, transfer 3", 5, { 0x0E, 0, 0, 0, 0x30, 0x0E, 2, 0 } },
    { "com_mod bit 4", 5, { 0x0E, 0, 0, 0, 0x30, 0x16, 2, 0 } },
    { "com_mod bit 5", 5, { 0x0E, 0, 0, 0, 0x30, 0x22, 1, 0 } },
    { "com_mod bit 6", 5, { 0x0E, 0, 0, 0, 0x30, 0x40, 1, 0 } },
    { "com_mod bit 7", 5, { 0x0E, 0, 0, 0, 0x30, 0x80, 1, 0 } },
    { "com_time 0", 6, { 0x0E, 0, 0, 0, 0x30, 0x00, 0, 0 } },
    { "com_time 0, in step", 6, { 0x0E, 0, 0, 0, 0x30, 0x02, 0, 0 } },
    { "com_time 0, dual", 6, { 0x0E, 0, 0, 0, 0x30, 0x06, 0, 0 } },
    { "com_time 1, dual", 6, { 0x0E, 0, 0, 0, 0x30, 0x06, 1, 0 } },
    { "profile 1", 7, { 0x0E, 0, 0, 0, 0x30, 0x00, 1, 1 } },
    { "profile 255", 7, { 0x0E, 0, 0, 0, 0x30, 0x06, 2, 0xFF } },
    { "version and com_mod", 4, { 0x0E, 0, 0, 0, 0x31, 0x01, 1, 0 } },
    { "version and profile", 4, { 0x0E, 0, 0, 0, 0x31, 0x00, 1, 1 } },
    { "com_mod and com_time", 5, { 0x0E, 0, 0, 0, 0x30, 0x04, 0, 0 } },
    { "com_mod and profile", 5, { 0x0E, 0, 0, 0, 0x30, 0x04, 2, 1 } },
    { "com_time and profile", 6, { 0x0E, 0, 0, 0, 0x30, 0x06, 1, 1 } },
    { "all four fields", 4, { 0x0E, 0, 0, 0, 0, 0xFF, 0, 0xFF } }
};

/* Parameter 7 has 2 octets, 300 has L - 8, and 301 one more than that. */
static const struct wrong parameters[] = {
    { "number, one less", 4, { 0x01, 0, 0, 0, 6, 0, 2 } },
    { "number, one more", 4, { 0x01, 0, 0, 0, 8, 0, 2 } },
    { "number 7 + 256", 4, { 0x01, 0, 0, 0, 7, 1, 2 } },
    { "number 300 - 256", 4, { 0x01, 0, 0, 0, 0x2C, 0, 8 } },
    { "size 0", 6, { 0x01, 0, 0, 0, 7, 0, 0 } },
    { "size, one less", 6, { 0x01, 0, 0, 0, 7, 0, 1 } },
    { "size, one more", 6, { 0x01, 0, 0, 0, 7, 0, 3 } },
    { "another's size", 6, { 0x01, 0, 0, 0, 7, 0, 8 } },
    { "its size, L - 7", 6, { 0x01, 0, 0, 0, 0x2D, 1, 9 } },
    { "L - 8, not its size", 6, { 0x01, 0, 0, 0, 0x2D, 1, 8 } },
    { "number and size", 4, { 0x01, 0, 0, 0, 8, 0, 0xFF } }
};

/* Item 80 has 10 octets, item 81 has 5; the offset alone is never wrong. */
static const struct wrong items[] = {
    { "code, one less", 4, { 0x03, 0, 0, 0, 0x7F, 0, 1 } },
    { "code, one more", 4, { 0x03, 0, 0, 0, 0x82, 0, 1 } },
    { "size 0", 6, { 0x03, 0, 0, 0, 0x80, 0, 0 } },
    { "size 0 at offset 255", 6, { 0x03, 0, 0, 0, 0x80, 0xFF, 0 } },
    { "size 1 at offset 255", 6, { 0x03, 0, 0, 0, 0x80, 0xFF, 1 } },
    { "one past the item", 6, { 0x03, 0, 0, 0, 0x81, 0, 6 } },
    { "offset one too far", 6, { 0x03, 0, 0, 0, 0x80, 3, 8 } },
    { "offset at the end", 6, { 0x03, 0, 0, 0, 0x80, 10, 1 } },
    { "in the item, L - 7", 6, { 0x03, 0, 0, 0, 0x80, 0, 9 } },
    { "size 256", 6, { 0x03, 0, 0, 0, 0x80, 0, 0, 1 } },
    { "size 1 + 256", 6, { 0x03, 0, 0, 0, 0x80, 0, 1, 1 } },
    { "code and size", 4, { 0x03, 0, 0, 0, 0x82, 0xFF, 0 } }
};

static const struct wrong modes[] = {
    { "mode 1", 4, { 0x05, 0, 0, 0, 1, 0 } },
    { "mode 256", 4, { 0x05, 0, 0, 0, 0, 1 } },
    { "mode 65535", 4, { 0x05, 0, 0, 0, 0xFF, 0xFF } }
};

/* Mapped are 1000 to 101F, 2000 and 2001, FFFFFFFE and FFFFFFFF. */
static const struct wrong memories[] = {
    { "element 00", 5, { 0x1D, 0, 0, 0, 0, 0x00, 1, 0, 0, 0x10 } },
    { "element 10", 5, { 0x1D, 0, 0, 0, 0, 0x10, 1, 0, 0, 0x10 } },
    { "element 12", 5, { 0x1D, 0, 0, 0, 0, 0x12, 1, 0, 0, 0x10 } },
    { "element 01", 5, { 0x1D, 0, 0, 0, 0, 0x01, 1, 0, 0, 0x10 } },
    { "element 41", 5, { 0x1D, 0, 0, 0, 0, 0x41, 1, 0, 0, 0x10 } },
    { "element 13", 5, { 0x1D, 0, 0, 0, 0, 0x13, 1, 0, 0, 0x10 } },
    { "count 0", 6, { 0x1D, 0, 0, 0, 0, 0x11, 0, 0, 0, 0x10 } },
    { "5 of 1 octet", 6, { 0x1D, 0, 0, 0, 0, 0x11, 5, 0, 0, 0x10 } },
    { "3 of 2 octets", 6, { 0x1D, 0, 0, 0, 0, 0x21, 3, 0, 0, 0x10 } },
    { "2 of 4 octets", 6, { 0x1D, 0, 0, 0, 0, 0x31, 2, 0, 0, 0x10 } },
    { "4 + 256", 6, { 0x1D, 0, 0, 0, 0, 0x11, 4, 1, 0, 0x10 } },
    { "product 65536", 6, { 0x1D, 0, 0, 0, 0, 0x31, 0, 0x40, 0, 0x10 } },
    { "product 65540", 6, { 0x1D, 0, 0, 0, 0, 0x31, 1, 0x40, 0, 0x10 } },
    { "product 131070", 6, { 0x1D, 0, 0, 0, 0, 0x21, 0xFF, 0xFF, 0, 0x10 } },
    { "one before", 8, { 0x1D, 0, 0, 0, 0, 0x11, 1, 0, 0xFF, 0x0F } },
    { "before and in", 8, { 0x1D, 0, 0, 0, 0, 0x11, 2, 0, 0xFF, 0x0F } },
    { "last and behind", 8, { 0x1D, 0, 0, 0, 0, 0x11, 2, 0, 0x1F, 0x10 } },
    { "4 to one behind", 8, { 0x1D, 0, 0, 0, 0, 0x31, 1, 0, 0x1D, 0x10 } },
    { "one behind", 8, { 0x1D, 0, 0, 0, 0, 0x11, 1, 0, 0x20, 0x10 } },
    { "gap and in", 8, { 0x1D, 0, 0, 0, 0, 0x21, 1, 0, 0xFF, 0x1F } },
    { "past the top", 8,
      { 0x1D, 0, 0, 0, 0, 0x11, 3, 0, 0xFE, 0xFF, 0xFF, 0xFF } },
    { "over the top", 8,
      { 0x1D, 0, 0, 0, 0, 0x21, 1, 0, 0xFF, 0xFF, 0xFF, 0xFF } },
    { "element and count", 5, { 0x1D, 0, 0, 0, 0, 0x12, 0, 0, 0, 0x10 } },
    { "element and address", 5, { 0x1D, 0, 0, 0, 0, 0x12, 1, 0, 0x20, 0x10 } },
    { "count and address", 6, { 0x1D, 0, 0, 0, 0, 0x11, 5, 0, 0x20, 0x10 } }
};

/* Every octet has every right, so alarm 10 is never the reason. */
static void give_slave(unsigned link)
{
    uint8_t state[T24_STATE_LEN] = { 0x12, 0, L, 0, 0, 0, 0, 0, 0, 0, 0 };
    struct built sheet;

    sheet.len = 0;
    add_link(&sheet, L);
    add_region(&sheet, 0x1000, 16, 7);
    add_region(&sheet, 0x1010, 16, 7);
    add_region(&sheet, 0x2000, 2, 7);
    add_region(&sheet, 0xFFFFFFFEu, 2, 7);
    add_parameter(&sheet, 7, 0x1002, 2);
    add_parameter(&sheet, 300, 0x100C, 8);
    add_parameter(&sheet, 301, 0x100C, 9);
    add_item(&sheet, 0x80, 10);
    add_item(&sheet, 0x81, 5);
    add_end(&sheet);
    give(SHEET, sheet.octets, sheet.len);
    state[T24_AT_LINK] = (uint8_t)link;
    state[T24_AT_COM_TIME] = link >= T24_LINK_ASYNC;
    give(STATE, state, sizeof state);
    give_noise(MEMORY, MEMORY_LEN);
    give_noise(REPLY, L);
    memset(wanted(REPLY), 0, L);
}

/* Refused with alarm 9 at the place, in link 3 counted as well. */
static void refused(const struct wrong *one, unsigned code, unsigned link)
{
    label(one->name, (long)code);
    give_slave(link);
    give(COMMAND, one->command, L);
    given(COMMAND)[0] = wanted(COMMAND)[0] = (uint8_t)code;
    wanted(REPLY)[0] = (uint8_t)code;
    wanted(REPLY)[2] = 5;
    wanted(REPLY)[3] = 9;
    wanted(STATE)[T24_AT_COMMAND_ALARM] = 9;
    if (link == T24_LINK_SYNC) {
        wanted(REPLY)[1] = 0x10;
        wanted(STATE)[T24_AT_MN_KNOWN] = 1;
        wanted(STATE)[T24_AT_RSN] = 1;
    }
    expect(ASK_EXCHANGE, built_at(one->place));
}

static void all_refused(const struct wrong *all, size_t count, unsigned code)
{
    size_t i;

    for (i = 0; i < count; i++) {
        refused(&all[i], code, T24_LINK_ASYNC);
        refused(&all[i], code, T24_LINK_SYNC);
    }
}

#define COUNT(all) (sizeof all / sizeof all[0])

void wrong_octets(void)
{
    size_t i;

    for (i = 0; i < COUNT(connects); i++)
        refused(&connects[i], T24_CONNECT, T24_LINK_DISCONNECTED);
    all_refused(parameters, COUNT(parameters), T24_PRM_RD);
    all_refused(parameters, COUNT(parameters), T24_PRM_WR);
    all_refused(items, COUNT(items), T24_ID_RD);
    all_refused(modes, COUNT(modes), T24_ALM_RD);
    all_refused(modes, COUNT(modes), T24_ALM_CLR);
    all_refused(memories, COUNT(memories), T24_MEM_RD);
    all_refused(memories, COUNT(memories), T24_MEM_WR);
}

/* Each bound met: accepted, with the reply written out, and no place. */
static void accepted(const char *name, const uint8_t *command,
                     const uint8_t *reply)
{
    label(name, (long)command[0]);
    give(COMMAND, command, L);
    memcpy(wanted(REPLY), reply, L);
    expect(ASK_EXCHANGE, T24_DONE);
}

static void reads_met(void)
{
    static const uint8_t prm[2][L] = {
        { 0x01, 0, 0, 0, 0x2C, 1, 8 },
        { 0x01, 0, 4, 0, 0x2C, 1, 8, 0, 0x97, 0x98, 0xA1, 0xAA, 0xB3, 0xB4, 0xBD,
          0x46 } };
    static const uint8_t id[2][L] = {
        { 0x03, 0, 0, 0, 0x80, 2, 8 },
        { 0x03, 0, 4, 0, 0x80, 2, 8, 0, 0x42, 0x43, 0x44, 0x45, 0x46, 0x47, 0x48,
          0x49 } };
    static const uint8_t mem[2][L] = {
        { 0x1D, 0, 0, 0, 0, 0x31, 1, 0, 0x1C, 0x10 },
        { 0x1D, 0, 4, 0, 0, 0x31, 1, 0, 0x1C, 0x10, 0, 0, 0x07, 0x08, 0x11,
          0x1A } };
    static const uint8_t top[2][L] = {
        { 0x1D, 0, 0, 0, 0, 0x21, 1, 0, 0xFE, 0xFF, 0xFF, 0xFF },
        { 0x1D, 0, 4, 0, 0, 0x21, 1, 0, 0xFE, 0xFF, 0xFF, 0xFF, 0x2D, 0x36 } };
    static const uint8_t alm[2][L] = {
        { 0x05, 0, 0, 0, 0, 0, 0xFF, 0xFF }, { 0x05, 0, 4, 0 } };

    give_slave(T24_LINK_ASYNC);
    accepted("L - 8 of a parameter", prm[0], prm[1]);
    accepted("L - 8 of an item, to its end", id[0], id[1]);
    accepted("L - 12 of memory, to the last address", mem[0], mem[1]);
    accepted("the two addresses at the top", top[0], top[1]);
    accepted("mode 0", alm[0], alm[1]);
}

void right_octets(void)
{
    static const uint8_t dual[2][L] = { { 0x0E, 0, 0, 0, 0x30, 6, 2, 0 },
                                        { 0x0E, 0, 4, 0, 0x30, 6, 2, 0 } };
    static const uint8_t async[2][L] = { { 0x0E, 0, 0, 0, 0x30, 0, 1, 0 },
                                         { 0x0E, 0, 4, 0, 0x30, 0, 1, 0 } };

    reads_met();
    give_slave(T24_LINK_DISCONNECTED);
    wanted(STATE)[T24_AT_LINK] = T24_LINK_ASYNC;
    wanted(STATE)[T24_AT_COM_TIME] = 1;
    accepted("com_time 1", async[0], async[1]);
    wanted(STATE)[T24_AT_LINK] = T24_LINK_SYNC;
    wanted(STATE)[T24_AT_DUAL] = 1;
    wanted(STATE)[T24_AT_COM_TIME] = 2;
    accepted("com_time 2, dual", dual[0], dual[1]);
}
