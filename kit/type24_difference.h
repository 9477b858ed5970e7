/*
 * type24_difference.h - what changed between two sheets: the call, the octets of
 * its list, and the list entry by entry (RULES 8.22 to 8.29).  Comes with
 * type24.h.
 *
 * A list has one entry for each record that differs, in the order link, regions
 * by start, parameters by number, ID items by code, tolerance, rule release.  A
 * record that both sheets have alike has none, and so the list of equal sheets is
 * empty.  With k for the record's kind an entry is
 *   4k hex, key         gone: the first sheet alone has it
 *   5k hex, body        new: the second sheet alone has it
 *   6k hex, bits, body  changed: both have it; a bit for each field that differs,
 *                       bit 0 the body's first, and the body of the second sheet
 * Regions, parameters and ID items are known by their key, the body's first field:
 * start (4), number (2), code (1).  Other records have none, and there is at most
 * one of each.  A link record of the other type is gone, and then one is new.
 */
#ifndef TYPE24_DIFFERENCE_H
#define TYPE24_DIFFERENCE_H

#include <stddef.h>
#include <stdint.h>

#include "type24_answers.h"
#include "type24_octets.h"
#include "type24_records.h"

#define T24_DIFFERENCE_MAX 2379 /* no list of two valid sheets is longer */

/* The first octet of an entry: one of these + the record's kind, 01 to 07. */
#define T24_ENTRY_GONE 0x40
#define T24_ENTRY_NEW 0x50
#define T24_ENTRY_CHANGED 0x60
#define T24_ENTRY_MAX 36 /* no entry is longer: an ID item that changed */

#define T24_REGION_KEY_LEN 4 /* other kinds than these three have no key */
#define T24_PARAMETER_KEY_LEN 2
#define T24_ITEM_KEY_LEN 1

/* The bits of a changed record, by its kind.  Bit 0 of a region, parameter or ID
 * item would be its key, and is never set. */
#define T24_CHANGED_L 0x01 /* link and short link */
#define T24_CHANGED_VERSION 0x02
#define T24_CHANGED_PROFILE 0x04
#define T24_CHANGED_REGION_LENGTH 0x02
#define T24_CHANGED_RIGHTS 0x04
#define T24_CHANGED_ADDRESS 0x02 /* parameter */
#define T24_CHANGED_SIZE 0x04
#define T24_CHANGED_ITEM_LENGTH 0x02
#define T24_CHANGED_ITEM_OCTETS 0x04 /* one of the 32 at least */
#define T24_CHANGED_TOLERANCE 0x01
#define T24_CHANGED_RULE_RELEASE 0x01

#ifdef __cplusplus
extern "C" {
#endif

/*
 * What changed between two sheets.  Needs two valid sheets, and a buffer for the
 * list, of any content.  A host asks with an empty one first, and is told how long
 * the list is; T24_DIFFERENCE_MAX octets always suffice.
 * Answers, the first that applies: 11 to 17 with place, as t24_sheet does, for a
 * fault of the first sheet; 21 to 27 with place, 10 more than t24_sheet tells, for
 * one of the second; T24_LIST_LONG with the list's length as place, exactly if
 * that is more than list_len; else T24_DONE with the list's length as place.
 * t24_difference_words() in type24_words.h says it in words, and
 * t24_entry_words() each entry.
 * Afterwards: on T24_DONE the list stands at the front of its buffer, and the
 * octets behind it are as before; else the buffer is unchanged.  Both sheets are
 * unchanged.
 */
uint64_t t24_difference(const uint8_t *first, size_t first_len,
                        const uint8_t *second, size_t second_len,
                        uint8_t *list, size_t list_len);

#ifdef __cplusplus
}
#endif

/* An entry of a list; its pointers lead into the list. */
struct t24_entry {
    size_t len;          /* of all its octets; 0 where no entry stands whole */
    uint8_t what;        /* T24_ENTRY_GONE, T24_ENTRY_NEW or T24_ENTRY_CHANGED */
    uint8_t kind;        /* the record's, 01 to 07 */
    uint8_t bits;        /* of a changed record, which fields differ; else 0 */
    const uint8_t *key;  /* t24_key_len(kind) octets */
    const uint8_t *body; /* t24_body_len(kind) octets; NULL if it is gone */
};

/* The octets of a record's key; 0 for a kind that has none. */
static inline size_t t24_key_len(uint8_t kind)
{
    switch (kind) {
    case T24_RECORD_REGION: return T24_REGION_KEY_LEN;
    case T24_RECORD_PARAMETER: return T24_PARAMETER_KEY_LEN;
    case T24_RECORD_ID: return T24_ITEM_KEY_LEN;
    default: return 0;
    }
}

/* The octets of a record behind its kind; 0 for an unknown kind. */
static inline size_t t24_body_len(uint8_t kind)
{
    const size_t len = t24_record_len(kind);

    return len == 0 ? 0 : len - 1;
}

/* The octets of an entry by its first one; 0 where none begins so. */
static inline size_t t24_entry_len(uint8_t octet)
{
    const uint8_t kind = octet & 0x0Fu;
    const size_t body_len = t24_body_len(kind);

    if (body_len == 0) /* an end record is in no list */
        return 0;
    switch (octet & 0xF0u) {
    case T24_ENTRY_GONE: return 1 + t24_key_len(kind);
    case T24_ENTRY_NEW: return 1 + body_len;
    case T24_ENTRY_CHANGED: return 2 + body_len;
    default: return 0;
    }
}

/*
 * The entry at a place of a list; the next one stands at place + its len.  Where
 * none stands whole, at the list's end or in octets that are no list, len is 0 and
 * so is all else.  Nothing outside the list is read, whatever comes.
 */
static inline struct t24_entry t24_entry_at(const uint8_t *list,
                                            size_t list_len, size_t place)
{
    struct t24_entry entry = { 0, 0, 0, 0, NULL, NULL };
    const uint8_t *at;

    if (place >= list_len)
        return entry;
    at = list + place;
    entry.len = t24_entry_len(at[0]);
    if (entry.len == 0 || entry.len > list_len - place) {
        entry.len = 0;
        return entry;
    }
    entry.what = at[0] & 0xF0u;
    entry.kind = at[0] & 0x0Fu;
    entry.bits = entry.what == T24_ENTRY_CHANGED ? at[1] : 0;
    entry.key = at + (entry.what == T24_ENTRY_CHANGED ? 2 : 1);
    entry.body = entry.what == T24_ENTRY_GONE ? NULL : entry.key;
    return entry;
}

/* A region's start, a parameter's number, an ID item's code; else 0. */
static inline uint32_t t24_entry_key(const struct t24_entry *entry)
{
    size_t count = t24_key_len(entry->kind);
    uint32_t key = 0;

    while (count > 0)
        key = key << 8 | entry->key[--count];
    return key;
}

#endif
