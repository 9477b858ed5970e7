/* Cuts a sheet off a fuzz input: one of a few plans, or built record by record
 * from good ones, or raw octets; then some are changed or cut. */
#ifndef SHEETS_H
#define SHEETS_H

#include "wire.h"

#include <stddef.h>
#include <stdint.h>
#include <string.h>

enum { SHEET_ROOM = 4200, MEMORY_LIMIT = 65536 };
/* Octets of a state record, and of one from before request 9. */
enum { STATE_LENGTH = 11, OLD_LENGTH = 10 };
/* How the state of an input comes to be. */
enum start { AS_IT_IS, BY_RESET, BY_TURN };

struct input {
    const uint8_t *octets;
    size_t left;
};

struct parts {
    uint8_t sheet[SHEET_ROOM];
    size_t sheet_length;
    uint8_t state[16];
    size_t state_length;
    enum start start;
    /* What the sheet was built from, for commands that hit it. */
    uint32_t starts[64];
    size_t regions;
    uint16_t numbers[80];
    uint8_t sizes[80];
    size_t parameters;
    uint8_t codes[40];
    size_t items;
    uint8_t tolerance, release;
};

static const uint8_t LENGTHS[5] = {8, 16, 32, 48, 64};

/* The next octet, or 0 behind the end. */
static uint8_t take(struct input *in)
{
    if (in->left == 0)
        return 0;
    in->left--;
    return *in->octets++;
}

static uint16_t take_16(struct input *in)
{
    uint16_t low = take(in);
    return (uint16_t)(low | take(in) << 8);
}

static uint32_t take_32(struct input *in)
{
    uint32_t low = take_16(in);
    return low | (uint32_t)take_16(in) << 16;
}

static void put(struct parts *parts, uint64_t value, int octets)
{
    for (int at = 0; at < octets; at++)
        parts->sheet[parts->sheet_length++] = (uint8_t)(value >> 8 * at);
}

static void put_region(struct parts *parts, uint32_t start, uint32_t length,
                       uint8_t rights)
{
    parts->starts[parts->regions++] = start;
    put(parts, 2, 1);
    put(parts, start, 4);
    put(parts, length, 4);
    put(parts, rights, 1);
}

static void put_parameter(struct parts *parts, uint16_t number, uint32_t address,
                          uint8_t size)
{
    parts->numbers[parts->parameters] = number;
    parts->sizes[parts->parameters++] = size;
    put(parts, 3, 1);
    put(parts, number, 2);
    put(parts, address, 4);
    put(parts, size, 1);
}

static void put_item(struct parts *parts, uint8_t code, uint8_t length,
                     uint8_t first)
{
    parts->codes[parts->items++] = code;
    put(parts, 4, 1);
    put(parts, code, 1);
    put(parts, length, 1);
    for (int at = 0; at < 32; at++)
        put(parts, at < length ? (uint8_t)(first + at) : 0, 1);
}

static void put_tolerance(struct parts *parts, uint8_t failures)
{
    parts->tolerance = failures & 3;
    put(parts, 6, 1);
    put(parts, failures, 1);
}

static void put_release(struct parts *parts, uint8_t release)
{
    parts->release = release;
    put(parts, 7u | (unsigned)release << 8, 2);
}

/* Sheets that short inputs can use: so many records of each kind, regions one
 * behind the other or apart, parameters over as many regions as they reach. */
struct plan {
    uint32_t start, length, gap;
    uint8_t regions, parameters, items, size;
};

static const struct plan PLANS[] = {
    {0x1000, 4, 0, 2, 1, 0, 2},        {0, 5, 0, 8, 4, 2, 8},
    {0x1000, 0x100, 0, 8, 16, 4, 4},   {0x20000, 2048, 0, 32, 64, 32, 56},
    {0xFFFFFFF0u, 2, 0, 8, 3, 1, 3},   {0x7F, 3, 1, 32, 8, 3, 3},
    {0x20000, 2, 0, 32, 64, 32, 56},   {0, 0, 0, 0, 0, 2, 0},
};
enum { PLAN_COUNT = sizeof PLANS / sizeof PLANS[0] };

static void make_plan(struct parts *parts, const struct plan *plan)
{
    uint32_t at = plan->start;

    for (uint8_t index = 0; index < plan->regions; index++) {
        /* Neighbours differ in rights, so that a span over two can lack one. */
        put_region(parts, at, plan->length, index % 8 == 0 ? 7 : 7 - index % 4);
        at += plan->length + plan->gap;
    }
    /* Every second one from the second region on, which cannot be read. */
    for (uint8_t index = 0; index < plan->parameters; index++)
        put_parameter(parts, (uint16_t)(3 * index),
                      plan->start + index % 2 * (plan->length + plan->gap),
                      plan->size);
    for (uint8_t index = 0; index < plan->items; index++)
        put_item(parts, (uint8_t)(5 * index), (uint8_t)(1 + index % 32), index);
}

static void make_regions(struct input *in, struct parts *parts)
{
    uint8_t where = take(in);
    uint32_t at = where < 64    ? 0
                  : where < 128 ? 0xFFFFFF00u | take(in)
                                : take_32(in);
    size_t count = take(in) % 34;

    for (size_t index = 0; index < count; index++) {
        uint8_t control = take(in);
        uint32_t length = 1 + control % 16;
        if (control >= 0xF0)
            length = take_16(in);
        if (control >= 0xFE)
            length += 0xFF00;
        if ((control & 0x70) == 0x70)
            at--; /* the least overlap */
        else if (!(control & 0x10))
            at += take(in);
        put_region(parts, at, length, take(in) & (control >= 0xFC ? 0xFF : 7));
        at += length;
    }
}

static void make_parameters(struct input *in, struct parts *parts)
{
    size_t count = take(in) % 66;
    uint32_t number = take_16(in);

    for (size_t index = 0; index < count; index++) {
        uint8_t control = take(in);
        uint32_t start = parts->regions ? parts->starts[control % parts->regions] : 0;
        uint8_t size = (uint8_t)(1 + take(in) % (control & 0x80 ? 12 : 57));
        start += control & 0x40 ? take(in) % 16 : 0;
        put_parameter(parts, (uint16_t)number, start, size);
        number += control & 0x20 ? 1 : take(in);
    }
}

static void make_items(struct input *in, struct parts *parts)
{
    size_t count = take(in) % 34;
    uint8_t code = take(in);

    for (size_t index = 0; index < count; index++) {
        uint8_t control = take(in);
        uint8_t length = (uint8_t)(1 + control % 33);
        put_item(parts, code, length, (uint8_t)(control * 7));
        code += control & 0x80 ? take(in) : 1;
    }
}

static void put_link(struct parts *parts, uint8_t kind, uint8_t length,
                     uint16_t names)
{
    put(parts, kind, 1);
    put(parts, length, 1);
    put(parts, names, 2);
}

/* Of the enhanced type with any L, or of the short type, seldom with an L that
 * it does not have; seldom two, each of either type. */
static void make_link(struct input *in, struct parts *parts)
{
    const uint8_t choice = take(in);
    const uint16_t names = take_16(in);
    const uint8_t length = LENGTHS[choice % 5];

    if (choice < 0xC0) {
        put_link(parts, ENHANCED_LINK, length, names);
    } else if (choice < 0xF0 || choice >= 0xF8) {
        put_link(parts, SHORT_LINK, choice < 0xF0 ? SHORT_LENGTH : length, names);
    } else {
        put_link(parts, choice & 2 ? SHORT_LINK : ENHANCED_LINK, SHORT_LENGTH, names);
        put_link(parts, choice & 1 ? SHORT_LINK : ENHANCED_LINK, SHORT_LENGTH, names);
    }
}

/* None, a good one, one out of range, or two. */
static void make_tolerance(struct input *in, struct parts *parts)
{
    uint8_t control = take(in);

    if (control >= 0x40)
        put_tolerance(parts, control >> 4 == 0xE ? control : control & 3);
    if (control >= 0xF0)
        put_tolerance(parts, control & 7);
}

/* None, either good one, one out of range, two, or one before a tolerance. */
static void make_release(struct input *in, struct parts *parts)
{
    const uint8_t control = take(in);

    if (control >= 0x40)
        put_release(parts, control < 0xD0 ? 1 + (control >= 0x60) : control & 7);
    if (control >= 0xF0 && control & 8)
        put_tolerance(parts, control & 3);
    else if (control >= 0xE0)
        put_release(parts, 1 + (control & 1));
}

static void damage(struct input *in, struct parts *parts)
{
    uint8_t control = take(in);

    for (int count = control % 4; count > 0; count--) {
        size_t at = take_16(in) % parts->sheet_length;
        parts->sheet[at] = take(in);
    }
    if (control >= 0xF8)
        parts->sheet_length = take_16(in) % (parts->sheet_length + 1);
    else if (control >= 0xF0)
        parts->sheet_length += 1 + take(in);
}

static void make_raw(struct input *in, struct parts *parts)
{
    parts->sheet_length = take_16(in) % 2100;
    for (size_t at = 0; at < parts->sheet_length; at++)
        parts->sheet[at] = take(in);
}

static void make_sheet(struct input *in, struct parts *parts)
{
    uint8_t control = take(in);

    memset(parts, 0, sizeof *parts);
    if (control >= 0xF0) {
        make_raw(in, parts);
        return;
    }
    make_link(in, parts);
    if (control < 0x80) {
        make_plan(parts, &PLANS[control % PLAN_COUNT]);
        if (control & 0x40)
            put_tolerance(parts, control >> 3 & 3);
        /* Without a tolerance bit 3 tells the release. */
        if (control & 0x20)
            put_release(parts, (control & 0x48) == 8 ? 1 : 2);
    } else {
        make_regions(in, parts);
        make_parameters(in, parts);
        make_items(in, parts);
        make_tolerance(in, parts);
        make_release(in, parts);
    }
    put(parts, 0, 1);
    damage(in, parts);
}

#endif

