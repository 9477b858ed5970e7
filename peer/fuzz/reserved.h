/* Request 13: the octets that a command names, and the release that a sheet asks
 * for, under which all others are zero. */
#ifndef RESERVED_H
#define RESERVED_H

#include "wire.h"

#include <stddef.h>
#include <stdint.h>

/* The octets of a sheet's record, by its kind. */
static const uint8_t RECORD_LENGTHS[8] = {1, 4, 10, 8, 35, 4, 2, 2};

/* What the release record of a good sheet says, 0 for a sheet without one. */
static uint8_t release_of(const uint8_t *sheet)
{
    uint8_t release = 0;

    for (; sheet[0] != 0; sheet += RECORD_LENGTHS[sheet[0]])
        if (sheet[0] == 7)
            release = sheet[1];
    return release;
}

/* The octets of one element of a memory command, 0 for a mode that is none. */
static size_t element_of(uint8_t mode)
{
    return mode == 0x11 ? 1 : mode == 0x21 ? 2 : mode == 0x31 ? 4 : 0;
}

/* The first octet behind a command's fields, which begin at 4 or, of a memory
 * command, at 5. */
static size_t fields_end(const struct wire *wire, uint8_t code)
{
    switch (code) {
    case 0x01:
    case 0x02:
        return 7;
    case 0x03:
    case 0x0E:
        return 6u + wire->fields;
    case 0x05:
    case 0x06:
        return 4u + wire->fields;
    case 0x1D:
    case 0x1E:
        return wire == &ENHANCED ? 12 : 4;
    }
    return 4;
}

/* The first octet behind the data that a command writes, or behind its fields. */
static size_t named_end(const struct wire *wire, const uint8_t *command)
{
    if (command[0] == 0x02)
        return (wire == &ENHANCED ? 8u : 7u) + command[6];
    if (command[0] == 0x1E && wire == &ENHANCED)
        return 12 + (command[6] + 256u * command[7]) * element_of(command[5]);
    return fields_end(wire, command[0]);
}

/* The bits of an octet that the command names. */
static uint8_t named_bits(const struct wire *wire, const uint8_t *command, size_t at)
{
    const int memory = fields_end(wire, command[0]) == 12;
    const size_t gap = memory ? 4 : command[0] == 0x02 && wire == &ENHANCED ? 7 : 0;

    if (at == 0 || at == wire->wdt)
        return 0xFF;
    if (at == 2)
        return wire == &ENHANCED ? 0xC0 : 0;
    return at < 4 || at == gap || at >= named_end(wire, command) ? 0 : 0xFF;
}

#endif
