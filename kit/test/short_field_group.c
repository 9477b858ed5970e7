/* The short type's fields: each wrong alone with its place, each value of each,
 * every code in every link, and what is written. */
#include "groups.h"
#include "short_slave.h"

#include <string.h>

static const uint8_t links[4][T24_STATE_LEN] = {
    { 0 }, { 0x12, 1, 16, 0, 0, 0, 0, 0, 0, 0, 0 },
    { 0x12, 2, 16, 0, 1, 0, 0, 0, 0, 0, 0 },
    { 0x12, 3, 16, 0, 1, 1, 3, 5, 0, 0, 0 } /* WDT 54 follows */
};

/* The command in a link, in step with its WDT; octets not looked at are noise. */
static void start(unsigned link, const uint8_t *command, size_t behind,
                  unsigned noise)
{
    uint8_t octets[SHORT_L];

    memcpy(octets, command, sizeof octets);
    octets[15] = 0x54;
    give_short_slave(links[link]);
    give_short_command(octets, behind, noise);
    memset(wanted(REPLY), 0, SHORT_L);
    wanted(REPLY)[0] = command[0];
    wanted(REPLY)[2] = 4;
    if (link == T24_LINK_SYNC) {
        wanted(REPLY)[15] = 0x64;
        wanted(STATE)[T24_AT_LAST_MN] = 4;
        wanted(STATE)[T24_AT_RSN] = 6;
    }
}

static void alarm_at(unsigned alarm, unsigned place)
{
    wanted(REPLY)[1] = wanted(STATE)[T24_AT_COMMAND_ALARM] = (uint8_t)alarm;
    wanted(REPLY)[2] = 5;
    expect_on_side(ASK_EXCHANGE, built_at(place), given(COMMAND)[1] & 1);
}

/* Wrong alone, and beside a field behind it. */
static const struct {
    const char *name;
    uint8_t link, place, command[SHORT_L];
} wrong[] = {
    { "number, one less", 2, 4, { 0x01, 0, 0, 0, 6, 0, 2 } },
    { "number 7 + 256", 2, 4, { 0x01, 0, 0, 0, 7, 1, 2 } },
    { "number 300 - 256", 2, 4, { 0x02, 0, 0, 0, 0x2C, 0, 8 } },
    { "number and size", 3, 4, { 0x02, 0, 0, 0, 6, 0, 0 } },
    { "size 0", 2, 6, { 0x01, 0, 0, 0, 7, 0, 0 } },
    { "size 1 for 2", 2, 6, { 0x01, 0, 0, 0, 7, 0, 1 } },
    { "size 3 for 2", 3, 6, { 0x02, 0, 0, 0, 7, 0, 3 } },
    { "size 255", 2, 6, { 0x02, 0, 0, 0, 7, 0, 255 } },
    { "its size, 9", 2, 6, { 0x01, 0, 0, 0, 0x2D, 1, 9 } },
    { "8, not its size", 2, 6, { 0x02, 0, 0, 0, 0x2D, 1, 8 } },
    { "its size, 56", 3, 6, { 0x01, 0, 0, 0, 0x2E, 1, 56 } },
    { "ID code, one more", 2, 4, { 0x03, 0, 0, 0, 0x22, 0, 1 } },
    { "ID code and size", 3, 4, { 0x03, 0, 0, 0, 0, 0, 0 } },
    { "ID size 0", 2, 6, { 0x03, 0, 0, 0, 0x80, 0, 0 } },
    { "ID size 9, in the item", 2, 6, { 0x03, 0, 0, 0, 0x80, 0, 9 } },
    { "ID size 255", 3, 6, { 0x03, 0, 0, 0, 0x81, 0, 255 } },
    { "one past the item", 2, 6, { 0x03, 0, 0, 0, 0x21, 1, 4 } },
    { "offset at the end", 2, 6, { 0x03, 0, 0, 0, 0x21, 4, 1 } },
    { "offset 255", 2, 6, { 0x03, 0, 0, 0, 0x81, 255, 1 } },
    { "mode 1", 2, 4, { 0x05, 0, 0, 0, 1 } },
    { "mode 255", 3, 4, { 0x06, 0, 0, 0, 255 } },
    { "version, one less", 1, 4, { 0x0E, 0, 0, 0, 0x2F, 0, 1 } },
    { "com_mod 1", 1, 5, { 0x0E, 0, 0, 0, 0x30, 1, 1 } },
    { "com_mod, dual alone", 1, 5, { 0x0E, 0, 0, 0, 0x30, 4, 2 } },
    { "com_time 0", 1, 6, { 0x0E, 0, 0, 0, 0x30, 0, 0 } },
    { "com_time 1, dual", 1, 6, { 0x0E, 0, 0, 0, 0x30, 6, 1 } },
    { "version and com_mod", 1, 4, { 0x0E, 0, 0, 0, 0, 0xFF, 0 } },
    { "com_mod and com_time", 1, 5, { 0x0E, 0, 0, 0, 0x30, 0x80, 0 } }
};

void short_fields(void)
{
    static const unsigned noises[] = { 0, 255, 0x5B };
    size_t i, j;

    for (i = 0; i < sizeof wrong / sizeof wrong[0]; i++)
        for (j = 0; j < 3; j++) {
            label(wrong[i].name, (long)noises[j]);
            start(wrong[i].link, wrong[i].command,
                  behind_fields(wrong[i].command[0]), noises[j]);
            alarm_at(T24_ALARM_DATA, wrong[i].place);
        }
}

/* Whether a command of this code with zero fields has a place in the link, and
 * otherwise its alarm. */
static unsigned alarm_of(unsigned code, unsigned link)
{
    switch (code) {
    case 0x00: case 0x0F: return 0;
    case 0x0E: return link == 1 ? 9 : 12;
    case 0x0D: return link == 2 ? 0 : 12;
    case 0x05: case 0x06: return link == 1 ? 12 : 0;
    case 0x01: case 0x02: case 0x03: return link == 1 ? 12 : 9;
    default: return 8;
    }
}

void short_codes(void)
{
    unsigned code, link, alarm;

    for (code = 0; code < 256; code++)
        for (link = 1; link < 4; link++) {
            const uint8_t command[SHORT_L] = { (uint8_t)code };

            label("code in link", (long)(10 * code + link));
            alarm = alarm_of(code, link);
            start(link, command, behind_fields(code), code);
            if (alarm != 0) {
                alarm_at(alarm, alarm == 9 ? 4 : 0);
                continue;
            }
            if (code == 0x0D) {
                wanted(STATE)[T24_AT_LINK] = 3;
                wanted(REPLY)[15] = 4;
            } else if (code == 0x0F) {
                memcpy(wanted(STATE), links[1], T24_STATE_LEN);
                wanted(REPLY)[15] = 0;
            }
            expect_on_side(ASK_EXCHANGE, T24_DONE, (int)(code & 1u));
        }
}

/* Every size of a parameter of so many octets at 2000: its own is right up to 8. */
static void parameter_sizes(unsigned number, unsigned octets)
{
    uint8_t command[SHORT_L] = { 0x01 };
    unsigned size, i;

    command[4] = (uint8_t)(number & 0xFFu);
    command[5] = (uint8_t)(number >> 8);
    for (size = 0; size < 256; size++) {
        label("parameter and size", (long)(1000 * number + size));
        command[6] = (uint8_t)size;
        start(T24_LINK_ASYNC, command, 7, size);
        if (size != octets || size > 8) {
            alarm_at(T24_ALARM_DATA, 6);
            continue;
        }
        memcpy(wanted(REPLY) + 4, command + 4, 3);
        for (i = 0; i < size; i++)
            wanted(REPLY)[7 + i] = (uint8_t)(0x12 + i);
        expect(ASK_EXCHANGE, T24_DONE);
    }
}

/* Every size of item 81, which has 32 octets from 41 on, at this offset. */
static void item_sizes(unsigned offset)
{
    uint8_t command[SHORT_L] = { 0x03, 0, 0, 0, 0x81 };
    unsigned size, i;

    command[5] = (uint8_t)offset;
    for (size = 0; size < 256; size++) {
        label("offset and size", (long)(1000 * offset + size));
        command[6] = (uint8_t)size;
        start(T24_LINK_ASYNC, command, 7, size + offset);
        if (size == 0 || size > 8 || offset + size > 32) {
            alarm_at(T24_ALARM_DATA, 6);
            continue;
        }
        memcpy(wanted(REPLY) + 4, command + 4, 3);
        for (i = 0; i < size; i++)
            wanted(REPLY)[7 + i] = (uint8_t)(0x41 + offset + i);
        expect_on_side(ASK_EXCHANGE, T24_DONE, (int)(size & 1u));
    }
}

void short_sizes(void)
{
    parameter_sizes(300, 8);
    parameter_sizes(301, 9);
    parameter_sizes(302, 56);
    item_sizes(0);
    item_sizes(1);
    item_sizes(24);
    item_sizes(25);
    item_sizes(31);
    item_sizes(32);
    item_sizes(255);
}

/* Every com_mod with a com_time, and every version; no octet is a profile. */
static void connects(unsigned version, unsigned com_mod, unsigned com_time,
                     unsigned noise)
{
    const uint8_t command[SHORT_L] = { 0x0E, 0, 0, 0, (uint8_t)version,
                                       (uint8_t)com_mod, (uint8_t)com_time };

    start(T24_LINK_DISCONNECTED, command, 7, noise);
    if (version != 0x30) {
        alarm_at(T24_ALARM_DATA, 4);
    } else if (com_mod != 0 && com_mod != 2 && com_mod != 6) {
        alarm_at(T24_ALARM_DATA, 5);
    } else if (com_time == 0 || (com_mod == 6 && com_time == 1)) {
        alarm_at(T24_ALARM_DATA, 6);
    } else {
        memcpy(wanted(REPLY) + 4, command + 4, 3);
        wanted(REPLY)[15] = com_mod != 0 ? 4 : 0;
        wanted(STATE)[T24_AT_LINK] = com_mod != 0 ? 3 : 2;
        wanted(STATE)[T24_AT_DUAL] = com_mod == 6;
        wanted(STATE)[T24_AT_COM_TIME] = (uint8_t)com_time;
        expect_on_side(ASK_EXCHANGE, T24_DONE, 1);
    }
}

void short_connects(void)
{
    unsigned value;

    for (value = 0; value < 256; value++) {
        label("version, com_mod, com_time", (long)value);
        connects(value, 2, 1, value);
        connects(0x30, value, 2, value);
        connects(0x30, 0, value, value);
        connects(0x30, 6, value, value);
    }
}

/* Of this size at this place of the memory; what stands behind it is noise. */
static void writes(unsigned link, unsigned number, unsigned size, size_t place)
{
    uint8_t command[SHORT_L] = { 0x02 };
    unsigned i;

    command[4] = (uint8_t)(number & 0xFFu);
    command[5] = (uint8_t)(number >> 8);
    command[6] = (uint8_t)size;
    for (i = 0; i < size; i++)
        command[7 + i] = (uint8_t)(0xD1 + i);
    label("write to parameter", (long)number);
    start(link, command, 7 + size, 0xA5);
    memcpy(wanted(REPLY) + 4, command + 4, 3 + size);
    memcpy(wanted(MEMORY) + place, command + 7, size);
    expect(ASK_EXCHANGE, T24_DONE);
}

void short_writes(void)
{
    writes(T24_LINK_ASYNC, 7, 2, 2);
    writes(T24_LINK_ASYNC, 9, 8, 0); /* over two regions */
    writes(T24_LINK_ASYNC, 300, 8, 8);
    writes(T24_LINK_ASYNC, 303, 1, SHORT_MEMORY - 1);
    writes(T24_LINK_SYNC, 8, 1, 4);
    writes(T24_LINK_SYNC, 300, 8, 8);
}
