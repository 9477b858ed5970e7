/* Sheets to test with, put together record by record. */
#include "sheets.h"

#include <stdio.h>
#include <string.h>

const uint8_t sheet_p[33] = {
    0x01, 0x10, 0x30, 0x00,
    0x02, 0x00, 0x10, 0x00, 0x00, 0x04, 0x00, 0x00, 0x00, 0x03,
    0x02, 0x04, 0x10, 0x00, 0x00, 0x04, 0x00, 0x00, 0x00, 0x06,
    0x03, 0x07, 0x00, 0x02, 0x10, 0x00, 0x00, 0x02,
    0x00
};

const uint8_t memory_p[8] = { 0x0A, 0x0B, 0x0C, 0x0D, 0x0E, 0x0F, 0x10, 0x11 };

const uint8_t state_a[T24_STATE_LEN] = { 0x12, 2, 0x10, 0, 1, 0, 0, 0, 0, 0, 0 };

const uint8_t old_a[10] = { 0x11, 2, 0x10, 0, 1, 0, 0, 0, 0, 0 };

const uint8_t all_l[5] = { T24_L8, T24_L16, T24_L32, T24_L48, T24_L64 };

void add_octet(struct built *sheet, unsigned octet)
{
    if (sheet->len < BUILT_MAX)
        sheet->octets[sheet->len++] = (uint8_t)octet;
}

static void add_number(struct built *sheet, uint64_t value, int count)
{
    for (; count > 0; count--, value >>= 8)
        add_octet(sheet, (unsigned)(value & 0xFFu));
}

static void add_link_of(struct built *sheet, unsigned kind, unsigned l)
{
    add_octet(sheet, kind);
    add_octet(sheet, l);
    add_octet(sheet, 0x30);
    add_octet(sheet, 0x00);
}

void add_link(struct built *sheet, unsigned l)
{
    add_link_of(sheet, T24_RECORD_LINK, l);
}

void add_short_link(struct built *sheet, unsigned l)
{
    add_link_of(sheet, T24_RECORD_SHORT_LINK, l);
}

void add_region(struct built *sheet, uint64_t start, uint64_t length,
                unsigned rights)
{
    add_octet(sheet, T24_RECORD_REGION);
    add_number(sheet, start, 4);
    add_number(sheet, length, 4);
    add_octet(sheet, rights);
}

void add_parameter(struct built *sheet, unsigned number, uint64_t address,
                   unsigned size)
{
    add_octet(sheet, T24_RECORD_PARAMETER);
    add_number(sheet, number, 2);
    add_number(sheet, address, 4);
    add_octet(sheet, size);
}

void add_item(struct built *sheet, unsigned code, unsigned length)
{
    unsigned i;

    add_octet(sheet, T24_RECORD_ID);
    add_octet(sheet, code);
    add_octet(sheet, length);
    for (i = 0; i < 32; i++)
        add_octet(sheet, i < length ? 0x40u + ((code + i) & 0x3Fu) : 0u);
}

void add_tolerance(struct built *sheet, unsigned count)
{
    add_octet(sheet, T24_RECORD_TOLERANCE);
    add_octet(sheet, count);
}

void add_rule_release(struct built *sheet, unsigned number)
{
    add_octet(sheet, T24_RECORD_RULE_RELEASE);
    add_octet(sheet, number);
}

void add_end(struct built *sheet)
{
    add_octet(sheet, T24_RECORD_END);
}

void add_rules(struct built *sheet, unsigned number)
{
    sheet->len--;
    add_rule_release(sheet, number);
    add_end(sheet);
}

void read_hex(struct built *sheet, const char *hex)
{
    unsigned octet;
    int used;

    sheet->len = 0;
    while (sscanf(hex, "%2x%n", &octet, &used) == 1) {
        add_octet(sheet, octet);
        hex += used;
    }
}

void build_p(struct built *sheet, unsigned l)
{
    memcpy(sheet->octets, sheet_p, sizeof sheet_p);
    sheet->octets[1] = (uint8_t)l;
    sheet->len = sizeof sheet_p;
}

void build_tolerant(struct built *sheet, unsigned l, unsigned tolerance)
{
    build_p(sheet, l);
    sheet->len--;
    add_tolerance(sheet, tolerance);
    add_end(sheet);
}

void build_short(struct built *sheet)
{
    build_p(sheet, 16);
    sheet->octets[0] = T24_RECORD_SHORT_LINK;
}

void build_short_tolerant(struct built *sheet, unsigned tolerance)
{
    build_tolerant(sheet, 16, tolerance);
    sheet->octets[0] = T24_RECORD_SHORT_LINK;
}

void build_largest(struct built *sheet, unsigned l)
{
    unsigned i;

    sheet->len = 0;
    add_link(sheet, l);
    for (i = 0; i < 32; i++)
        add_region(sheet, 0x1000u + 2048u * (uint64_t)i, 2048, 7);
    for (i = 0; i < 64; i++)
        add_parameter(sheet, i, 0x1000u + 1023u * (uint64_t)i, 56);
    for (i = 0; i < 32; i++)
        add_item(sheet, i, 32);
    add_tolerance(sheet, T24_TOLERANCE_MAX);
    add_rule_release(sheet, T24_RULE_RELEASE_MAX);
    add_end(sheet);
}

/* As many regions, parameters and ID items as a sheet may have, each key even or
 * odd. */
static void add_all(struct built *sheet, unsigned odd)
{
    unsigned i;

    for (i = 0; i < 32; i++)
        add_region(sheet, 0x2000u * i + odd, 2, 1);
    for (i = 0; i < 64; i++)
        add_parameter(sheet, 0x0102u * i + odd, odd, 1);
    for (i = 0; i < 32; i++)
        add_item(sheet, 8 * i + odd, 32);
}

/* The record of a sheet at a place, as new: without its kind. */
static void add_body(struct built *list, const struct built *sheet, size_t at,
                     size_t len)
{
    size_t i;

    add_octet(list, 0x50u + sheet->octets[at]);
    for (i = 1; i < len; i++)
        add_octet(list, sheet->octets[at + i]);
}

/* The key of a record as gone. */
static void add_gone(struct built *list, const struct built *sheet, size_t at,
                     size_t key_len)
{
    size_t i;

    add_octet(list, 0x40u + sheet->octets[at]);
    for (i = 1; i <= key_len; i++)
        add_octet(list, sheet->octets[at + i]);
}

/* Records of one kind, the even one gone before the odd one is new; tells where
 * the next kind begins. */
static size_t add_pairs(struct built *list, const struct built *even,
                        const struct built *odd, size_t at, size_t len,
                        size_t key_len)
{
    const uint8_t kind = even->octets[at];

    for (; even->octets[at] == kind; at += len) {
        add_gone(list, even, at, key_len);
        add_body(list, odd, at, len);
    }
    return at;
}

void build_apart(struct built *first, struct built *second, struct built *list)
{
    size_t at;

    first->len = second->len = list->len = 0;
    add_link(first, 64);
    add_all(first, 0);
    add_tolerance(first, 0);
    add_rule_release(first, 1);
    add_end(first);
    add_short_link(second, 16);
    add_all(second, 1);
    add_tolerance(second, 3);
    add_rule_release(second, 2);
    add_end(second);
    add_octet(list, 0x41);
    add_body(list, second, 0, 4);
    at = add_pairs(list, first, second, 4, 10, 4);
    at = add_pairs(list, first, second, at, 8, 2);
    add_pairs(list, first, second, at, 35, 1);
    add_octet(list, 0x66), add_octet(list, 1), add_octet(list, 3);
    add_octet(list, 0x67), add_octet(list, 1), add_octet(list, 2);
}
