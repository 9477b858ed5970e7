/*
 * type24_range_words.h - fault 14 of a sheet in words: which field of a record
 * is out of range (RULES 3.4).  Comes with type24_words.h.
 *
 * The walk stands at the record, which is whole.  Each t24_say_, here and in
 * type24_sheet_words.h, says what is wrong and tells 1, or finds nothing and
 * tells 0.
 */
#ifndef TYPE24_RANGE_WORDS_H
#define TYPE24_RANGE_WORDS_H

#include "type24_walk.h"

/* "parameter number 7, size 57: only 1 to 56", for a field of one octet. */
static inline int t24_say_field(struct t24_text *text,
                                const struct t24_walk *walk, const char *field,
                                uint8_t value, const char *allowed)
{
    t24_put_named(text, walk);
    t24_put(text, field);
    t24_put_decimal(text, value);
    t24_put(text, allowed);
    return 1;
}

/* Length 0, an end past the address space, or bits that are no rights. */
static inline int t24_say_region(struct t24_text *text,
                                 const struct t24_walk *walk)
{
    const uint8_t *record = walk->sheet + walk->at;
    const uint64_t start = t24_low_first(record + T24_REGION_AT_START, 4);
    const uint64_t length = t24_low_first(record + T24_REGION_AT_LENGTH, 4);
    const int past = start + length > UINT64_C(4294967296);

    if (length != 0 && !past && record[T24_REGION_AT_RIGHTS] < 8)
        return 0;
    t24_put_named(text, walk);
    if (length == 0) {
        t24_put(text, ", length 0: at least 1");
    } else if (past) {
        t24_put(text, ", start ");
        t24_put_hex(text, start, 8);
        t24_put(text, ", length ");
        t24_put_decimal(text, length);
        t24_put(text, ": start + length is over 2^32");
    } else {
        t24_put(text, ", rights ");
        t24_put_hex(text, record[T24_REGION_AT_RIGHTS], 2);
        t24_put(text, ": only bits 0 to 2 may be set");
    }
    return 1;
}

/* Its length, or the first octet past it that is not zero. */
static inline int t24_say_item(struct t24_text *text,
                               const struct t24_walk *walk)
{
    const uint8_t *octets = walk->sheet + walk->at + T24_ITEM_AT_OCTETS;
    const uint8_t length = walk->sheet[walk->at + T24_ITEM_AT_LENGTH];
    size_t i = length;

    if (length == 0 || length > T24_ITEM_OCTETS)
        return t24_say_field(text, walk, ", length ", length, ": only 1 to 32");
    while (i < T24_ITEM_OCTETS && octets[i] == 0)
        i++;
    if (i == T24_ITEM_OCTETS)
        return 0;
    t24_say_field(text, walk, ", length ", length, ": its octet ");
    t24_put_decimal(text, i);
    t24_put(text, ", octet ");
    t24_put_decimal(text, walk->at + T24_ITEM_AT_OCTETS + i);
    t24_put(text, " of the sheet, is ");
    t24_put_hex(text, octets[i], 2);
    t24_put(text, ": past the length only 00");
    return 1;
}

/* The first field, in the record's order, that is out of its range. */
static inline int t24_say_range(struct t24_text *text,
                                const struct t24_walk *walk)
{
    const uint8_t *record = walk->sheet + walk->at;
    uint8_t value;

    switch (record[0]) {
    case T24_RECORD_LINK:
        value = record[T24_SHEET_AT_L];
        return value != 8 && (value == 0 || value > 64 || value % 16 != 0)
            && t24_say_field(text, walk, ", L ", value,
                             ": only 8, 16, 32, 48 or 64");
    case T24_RECORD_SHORT_LINK:
        value = record[T24_SHEET_AT_L];
        return value != T24_L16
            && t24_say_field(text, walk, ", L ", value, ": only 16");
    case T24_RECORD_REGION:
        return t24_say_region(text, walk);
    case T24_RECORD_PARAMETER:
        value = record[T24_PARAMETER_AT_SIZE];
        return (value == 0 || value > T24_PARAMETER_SIZE_MAX)
            && t24_say_field(text, walk, ", size ", value, ": only 1 to 56");
    case T24_RECORD_ID:
        return t24_say_item(text, walk);
    case T24_RECORD_TOLERANCE:
        value = record[T24_TOLERANCE_AT_COUNT];
        return value > T24_TOLERANCE_MAX
            && t24_say_field(text, walk, ", lost cycles ", value,
                             ": only 0 to 3");
    case T24_RECORD_RULE_RELEASE:
        value = record[T24_RULE_RELEASE_AT_NUMBER];
        return (value == 0 || value > T24_RULE_RELEASE_MAX)
            && t24_say_field(text, walk, ", rule release ", value,
                             ": only 1 or 2");
    default:
        return 0;
    }
}

#endif
