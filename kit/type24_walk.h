/*
 * type24_walk.h - a sheet record by record from its front, and what a record is
 * called in words.  Comes with type24_words.h; reads nothing outside the sheet.
 */
#ifndef TYPE24_WALK_H
#define TYPE24_WALK_H

#include "type24_octets.h"
#include "type24_records.h"
#include "type24_text.h"

/* A number of so many octets, low octet first. */
static inline uint64_t t24_low_first(const uint8_t *octets, size_t count)
{
    uint64_t number = 0;

    while (count > 0)
        number = number << 8 | octets[--count];
    return number;
}

#define T24_KINDS (T24_RECORD_RULE_RELEASE + 1) /* known kinds are below this */

/* What stands before a place of a sheet. */
struct t24_walk {
    const uint8_t *sheet;
    size_t sheet_len;
    size_t at;                 /* behind the last whole record before it */
    uint32_t count[T24_KINDS]; /* the records before it, by kind */
    size_t last[T24_KINDS];    /* where the last of each kind begins */
    uint64_t memory;           /* the sum of the regions' lengths */
};

/* The next record; tells 0 if none stands whole there, or behind the end. */
static inline int t24_walk_on(struct t24_walk *walk)
{
    const size_t left = walk->sheet_len - walk->at;
    size_t len;
    uint8_t kind;

    if (left == 0 || walk->count[T24_RECORD_END] != 0)
        return 0;
    kind = walk->sheet[walk->at];
    len = t24_record_len(kind);
    if (len == 0 || len > left)
        return 0;
    if (kind == T24_RECORD_REGION)
        walk->memory += t24_low_first(
            walk->sheet + walk->at + T24_REGION_AT_LENGTH, 4);
    walk->count[kind]++;
    walk->last[kind] = walk->at;
    walk->at += len;
    return 1;
}

/* From the front to a place, or as far as records stand whole. */
static inline struct t24_walk t24_walk_to(const uint8_t *sheet,
                                          size_t sheet_len, size_t place)
{
    struct t24_walk walk = { sheet, sheet_len, 0, { 0, 0, 0, 0, 0, 0, 0, 0 },
                             { 0, 0, 0, 0, 0, 0, 0, 0 }, 0 };

    while (walk.at < place && t24_walk_on(&walk))
        continue;
    return walk;
}

/* A kind in words, to stand behind a count. */
static inline const char *t24_kind_words(uint8_t kind)
{
    switch (kind) {
    case T24_RECORD_END: return " end record";
    case T24_RECORD_LINK: return " link record";
    case T24_RECORD_REGION: return " region";
    case T24_RECORD_PARAMETER: return " parameter";
    case T24_RECORD_ID: return " ID item";
    case T24_RECORD_SHORT_LINK: return " short link record";
    case T24_RECORD_TOLERANCE: return " tolerance record";
    case T24_RECORD_RULE_RELEASE: return " rule release record";
    default: return " record";
    }
}

/* How many records of a kind a sheet may have. */
static inline uint32_t t24_records_max(uint8_t kind)
{
    switch (kind) {
    case T24_RECORD_REGION: return T24_REGIONS_MAX;
    case T24_RECORD_PARAMETER: return T24_PARAMETERS_MAX;
    case T24_RECORD_ID: return T24_ITEMS_MAX;
    default: return 1;
    }
}

/* What has to rise from record to record: start, number or code. */
static inline uint64_t t24_key(const uint8_t *record)
{
    switch (record[0]) {
    case T24_RECORD_REGION:
        return t24_low_first(record + T24_REGION_AT_START, 4);
    case T24_RECORD_PARAMETER:
        return t24_low_first(record + T24_PARAMETER_AT_NUMBER, 2);
    case T24_RECORD_ID:
        return record[T24_ITEM_AT_CODE];
    default:
        return 0;
    }
}

/* The least that the next record of this kind may have for it. */
static inline uint64_t t24_key_after(const uint8_t *record)
{
    return t24_key(record) + (record[0] == T24_RECORD_REGION
        ? t24_low_first(record + T24_REGION_AT_LENGTH, 4) : 1);
}

/* Whether a region before the walk's place has an address. */
static inline int t24_region_has(const struct t24_walk *walk, uint64_t address)
{
    struct t24_walk again = t24_walk_to(walk->sheet, walk->sheet_len, 0);

    while (again.at < walk->at) {
        const uint8_t *record = walk->sheet + again.at;
        if (record[0] == T24_RECORD_REGION && t24_key(record) <= address
            && address < t24_key_after(record))
            return 1;
        if (!t24_walk_on(&again))
            return 0;
    }
    return 0;
}

/* The record the walk has come to, by its count, since its body may be cut. */
static inline void t24_put_counted(struct t24_text *text,
                                   const struct t24_walk *walk)
{
    const uint8_t kind = walk->sheet[walk->at];

    if (kind == T24_RECORD_REGION) {
        t24_put(text, "region ");
        t24_put_decimal(text, walk->count[kind] + 1);
    } else if (kind == T24_RECORD_LINK) {
        t24_put(text, "link record");
    } else if (kind == T24_RECORD_SHORT_LINK) {
        t24_put(text, "short link record");
    } else if (kind == T24_RECORD_TOLERANCE) {
        t24_put(text, "tolerance record");
    } else if (kind == T24_RECORD_RULE_RELEASE) {
        t24_put(text, "rule release record");
    } else {
        t24_put_ordinal(text, walk->count[kind] + 1);
        t24_put(text, t24_kind_words(kind));
    }
}

/* The same of a whole record, by the number or code that it has itself. */
static inline void t24_put_named(struct t24_text *text,
                                 const struct t24_walk *walk)
{
    const uint8_t *record = walk->sheet + walk->at;

    if (record[0] == T24_RECORD_PARAMETER) {
        t24_put(text, "parameter number ");
        t24_put_decimal(text, t24_key(record));
    } else if (record[0] == T24_RECORD_ID) {
        t24_put(text, "ID item code ");
        t24_put_hex(text, t24_key(record), 2);
    } else {
        t24_put_counted(text, walk);
    }
}

/* What a valid sheet has, the walk having come to its end. */
static inline void t24_put_contents(struct t24_text *text,
                                    const struct t24_walk *walk)
{
    t24_put(text, "valid, ");
    if (walk->count[T24_RECORD_SHORT_LINK] != 0)
        t24_put(text, "short type, ");
    if (walk->count[T24_RECORD_LINK] + walk->count[T24_RECORD_SHORT_LINK] != 0) {
        t24_put(text, "L ");
        t24_put_decimal(text, walk->sheet[T24_SHEET_AT_L]);
        t24_put(text, ", ");
    }
    t24_put_count(text, walk->memory, "octet");
    t24_put(text, " of memory, ");
    t24_put_count(text, walk->count[T24_RECORD_REGION], "region");
    t24_put(text, ", ");
    t24_put_count(text, walk->count[T24_RECORD_PARAMETER], "parameter");
    t24_put(text, ", ");
    t24_put_count(text, walk->count[T24_RECORD_ID], "ID item");
    if (walk->count[T24_RECORD_TOLERANCE] != 0) {
        t24_put(text, ", tolerates ");
        t24_put_count(text, t24_tolerance(walk->sheet, walk->sheet_len),
                      "lost cycle");
        t24_put(text, " in a row");
    }
    if (walk->count[T24_RECORD_RULE_RELEASE] != 0) {
        t24_put(text, ", rule release ");
        t24_put_decimal(text, t24_rule_release(walk->sheet, walk->sheet_len));
    }
}

#endif
