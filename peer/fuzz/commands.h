/* Cuts a state, a memory and commands off a fuzz input. */
#ifndef COMMANDS_H
#define COMMANDS_H

#include "reserved.h"
#include "sheets.h"

/* A count that the sheet allows, seldom one that it need not allow. */
static uint8_t make_count(struct input *in, const struct parts *parts, uint8_t known)
{
    const uint8_t control = take(in);

    if (control >= 0xC0)
        return control % 5;
    return known ? control % (parts->tolerance + 1u) : 0;
}

/* A state of any link, or any eleven octets, or another length. */
static void make_state(struct input *in, struct parts *parts)
{
    static const uint8_t latches[8] = {0, 0, 0, 0, 8, 9, 10, 12};
    static const enum start starts[4] = {BY_RESET, BY_TURN, AS_IT_IS, AS_IT_IS};
    uint8_t control = take(in);
    uint8_t link = control & 3;
    uint8_t *state = parts->state;

    parts->state_length = STATE_LENGTH;
    state[0] = 0x12;
    state[1] = link;
    state[2] = parts->sheet[1];
    state[4] = link < 2 ? 0 : (uint8_t)(2 + (control >> 2 & 3));
    if (link == 3) {
        state[3] = control >> 4 & 1;
        state[5] = control >> 5 & 1;
        state[6] = state[5] ? take(in) & 15 : 0;
        state[7] = state[5] ? take(in) & 15 : 0;
        state[10] = make_count(in, parts, state[5]);
    }
    state[8] = link ? latches[take(in) % 8] : 0;
    state[9] = link && take(in) & 1 ? 12 : 0;
    parts->start = starts[control >> 6];
    if (control >= 0xF8)
        state[take(in) % STATE_LENGTH] = take(in);
    if (control >= 0xFE)
        parts->state_length = take(in) % 16;
}

static void make_memory(struct input *in, uint8_t *memory, size_t length)
{
    uint32_t seed = take_16(in) * 2654435761u + 1;

    for (size_t at = 0; at < length + 256; at++) {
        seed = seed * 1664525u + 1013904223u;
        memory[at] = (uint8_t)(seed >> 24);
    }
}

static void aim_parameter(const struct parts *parts, uint8_t choice,
                          uint8_t *command)
{
    size_t index = parts->parameters ? choice % parts->parameters : 0;

    command[4] = (uint8_t)parts->numbers[index];
    command[5] = (uint8_t)(parts->numbers[index] >> 8);
    command[6] = parts->sizes[index];
}

static void aim_memory(struct input *in, const struct parts *parts,
                       uint8_t choice, uint8_t *command)
{
    static const uint8_t modes[8] = {0x11, 0x21, 0x31, 0x11,
                                     0x21, 0x31, 0x11, 0x12};
    const uint8_t where = take(in);
    uint32_t address = parts->regions ? parts->starts[where % parts->regions] : 0;

    /* From two octets before a region on, seldom farther than its end. */
    address += where >= 0xE0 ? 0u - 2 : where >= 0x40 ? command[8] % 20u : 0;
    command[5] = modes[choice % 8];
    command[6] = (uint8_t)(1 + command[6] % (choice & 0x40 ? 52 : 4));
    command[7] = choice < 0xF0 ? 0 : 0x40;
    for (int at = 0; at < 4; at++)
        command[8 + at] = (uint8_t)(address >> 8 * at);
}

/* Fields that hit the sheet, over the octets already in the command. */
static void aim(struct input *in, const struct parts *parts, uint8_t *command)
{
    const struct wire *wire = wire_of(parts->sheet);
    uint8_t choice = take(in);

    switch (command[0]) {
    case 0x01:
    case 0x02:
        aim_parameter(parts, choice, command);
        break;
    case 0x03:
        command[4] = parts->items ? parts->codes[choice % parts->items] : 0;
        command[5] &= 3;
        command[6] &= 15;
        memset(command + 7, 0, wire->fields - 1u);
        break;
    case 0x05:
    case 0x06:
        memset(command + 4, 0, wire->fields);
        break;
    case 0x0E:
        command[4] = parts->sheet[2];
        command[5] = (uint8_t)(2 * (choice % 4));
        if (wire == &ENHANCED && choice < 0xE0)
            command[7] = parts->sheet[3];
        break;
    case 0x1D:
    case 0x1E:
        aim_memory(in, parts, choice, command);
        break;
    }
}

/* The record that a state was before request 9, seldom with another octet or
 * another length; tells its length. */
static size_t make_old(struct input *in, const uint8_t *state, uint8_t *old)
{
    const uint8_t control = take(in);

    memcpy(old, state, STATE_LENGTH);
    old[0] = control < 0xF0 ? 0x11 : 0x12;
    if (control >= 0x80 && control < 0xC0)
        old[control % OLD_LENGTH] = take(in);
    return control < 0xC0 || control >= 0xE0 ? OLD_LENGTH : take(in) % 16;
}

/* Bit 2 gives the WDT that keeps link 3, with bit 3 its MN alone; bit 3 without
 * it gives its SN alone. */
static uint8_t aim_wdt(uint8_t wdt, const uint8_t *state, uint8_t control)
{
    const uint8_t mn = (state[6] + 1) & 15, sn = (uint8_t)(state[7] << 4);

    switch (control >> 2 & 3) {
    case 1:
        return sn | mn;
    case 2:
        return sn | (wdt & 0x0F);
    case 3:
        return (wdt & 0xF0) | mn;
    }
    return wdt;
}

/* Under release 2 bit 4 makes what is reserved zero, and with bit 5 one octet
 * then holds another value. */
static void hush(struct input *in, const struct parts *parts, uint8_t control,
                 uint8_t *command)
{
    const struct wire *wire = wire_of(parts->sheet);

    if (parts->release != 2 || !(control & 0x10))
        return;
    for (size_t at = 0; at < 64; at++)
        command[at] &= named_bits(wire, command, at);
    if (control & 0x20) {
        const size_t at = take(in) % 64;
        command[at] = take(in);
    }
}

/* A command of 256 octets, of which L are lent. */
static void make_command(struct input *in, const struct parts *parts,
                         const uint8_t *state, size_t state_length,
                         uint8_t control, uint8_t *command)
{
    const struct wire *wire = wire_of(parts->sheet);
    size_t filled = parts->sheet[1] < 64 ? parts->sheet[1] : 64;

    memset(command, 0xEE, 256);
    for (size_t at = 0; at < filled; at++)
        command[at] = take(in);
    if (control & 1)
        command[0] = CODES[command[0] % 11];
    if (control & 2)
        aim(in, parts, command);
    hush(in, parts, control, command);
    if (state_length == STATE_LENGTH)
        command[wire->wdt] = aim_wdt(command[wire->wdt], state, control);
}

#endif
