/* A slave of the short type to test with, on a sheet S of its own. */
#include "short_slave.h"
#include "sheets.h"

#include <string.h>

static void build_s(struct built *sheet)
{
    sheet->len = 0;
    add_short_link(sheet, SHORT_L);
    add_region(sheet, 0x1000, 4, 3);
    add_region(sheet, 0x1004, 4, 6);
    add_region(sheet, 0x2000, 64, 7);
    add_parameter(sheet, 7, 0x1002, 2);
    add_parameter(sheet, 8, 0x1004, 1);
    add_parameter(sheet, 9, 0x1000, 8);
    add_parameter(sheet, 300, 0x2000, 8);
    add_parameter(sheet, 301, 0x2000, 9);
    add_parameter(sheet, 302, 0x2000, 56);
    add_parameter(sheet, 303, 0x203F, 1);
    add_item(sheet, 0x21, 4);
    add_item(sheet, 0x80, 10);
    add_item(sheet, 0x81, 32);
    add_end(sheet);
}

void give_short_slave(const uint8_t *state)
{
    uint8_t memory[SHORT_MEMORY];
    struct built sheet;
    unsigned i;

    build_s(&sheet);
    for (i = 0; i < SHORT_MEMORY; i++)
        memory[i] = (uint8_t)(0x0A + i);
    give(SHEET, sheet.octets, sheet.len);
    give(STATE, state, T24_STATE_LEN);
    give(MEMORY, memory, sizeof memory);
}

void give_short_command(const uint8_t *command, size_t behind, unsigned noise)
{
    uint8_t octets[SHORT_L];
    unsigned i;

    memcpy(octets, command, sizeof octets);
    for (i = 1; i < 15; i++)
        if (i < 4 || i >= behind)
            octets[i] = (uint8_t)(noise + 29 * i * (noise != 0 && noise != 255));
    give(COMMAND, octets, sizeof octets);
    give_noise(REPLY, SHORT_L);
}

void want_short(const uint8_t *reply, const uint8_t *state)
{
    memcpy(wanted(REPLY), reply, SHORT_L);
    memcpy(wanted(STATE), state, T24_STATE_LEN);
}

size_t behind_fields(unsigned code)
{
    switch (code) {
    case 0x01: case 0x02: case 0x03: case 0x0E: return 7;
    case 0x05: case 0x06: return 5;
    default: return 4;
    }
}
