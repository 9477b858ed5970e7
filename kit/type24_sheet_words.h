/*
 * type24_sheet_words.h - the fault of a sheet in words: which record, which
 * field, and what is allowed (RULES 3.4).  Comes with
 * type24_words.h.
 *
 * The verdict is the library's; the sheet is read again only to say where it
 * stands.  Nothing outside the sheet is read, whatever octets and answer come,
 * and where the two do not belong together the words say so.
 */
#ifndef TYPE24_SHEET_WORDS_H
#define TYPE24_SHEET_WORDS_H

#include "type24.h"
#include "type24_range_words.h"
#include "type24_walk.h"

/* 11: nothing where a record should be, or a part of it. */
static inline int t24_say_cut(struct t24_text *text,
                              const struct t24_walk *walk)
{
    const size_t left = walk->sheet_len - walk->at;
    size_t len;

    if (left == 0) {
        t24_put(text, walk->at == 0 ? "the sheet is empty" : "no end record");
        return 1;
    }
    len = t24_record_len(walk->sheet[walk->at]);
    if (len <= left)
        return 0;
    t24_put_counted(text, walk);
    t24_put(text, ": ");
    t24_put_missing(text, left, len);
    return 1;
}

/* 12: a kind that no record has. */
static inline int t24_say_kind(struct t24_text *text,
                               const struct t24_walk *walk)
{
    if (t24_record_len(walk->sheet[walk->at]) != 0)
        return 0;
    t24_put(text, "kind ");
    t24_put_hex(text, walk->sheet[walk->at], 2);
    t24_put(text, " is unknown: a record begins with 00 to 07");
    return 1;
}

/* 13: a region, parameter, ID item or tolerance record behind what comes after
 * its kind. */
static inline int t24_say_late(struct t24_text *text,
                               const struct t24_walk *walk)
{
    const uint8_t kind = walk->sheet[walk->at];
    const int early = kind >= T24_RECORD_REGION && kind <= T24_RECORD_ID;
    const int rules = walk->count[T24_RECORD_RULE_RELEASE] != 0;
    const int tolerance = walk->count[T24_RECORD_TOLERANCE] != 0;
    const int items = walk->count[T24_RECORD_ID] != 0;
    const int parameters = walk->count[T24_RECORD_PARAMETER] != 0;

    if (rules && (early || kind == T24_RECORD_TOLERANCE)) {
        t24_put_counted(text, walk);
        t24_put(text, " after the rule release record: that comes last before "
                      "the end record");
    } else if (tolerance && early) {
        t24_put_counted(text, walk);
        t24_put(text, " after the tolerance record: that comes behind regions, "
                      "parameters and ID items");
    } else if ((kind == T24_RECORD_REGION && (items || parameters))
               || (kind == T24_RECORD_PARAMETER && items)) {
        t24_put_counted(text, walk);
        t24_put(text, items ? " after an ID item: " : " after a parameter: ");
        t24_put(text, "regions come first, then parameters, then ID items");
    } else {
        return 0;
    }
    return 1;
}

/* 13: a link record that is not the first, of the same type or of the other. */
static inline int t24_say_second_link(struct t24_text *text, uint8_t first,
                                      uint8_t second)
{
    if (first == second)
        t24_put(text, "a second link record: it comes first and once");
    else if (second == T24_RECORD_SHORT_LINK)
        t24_put(text, "a short link record after a link record: one of them comes "
                      "first and once");
    else
        t24_put(text, "a link record after a short link record: one of them comes "
                      "first and once");
    return 1;
}

/* 13: a known kind where another should be, or anything behind the end. */
static inline int t24_say_place(struct t24_text *text,
                                const struct t24_walk *walk)
{
    const uint8_t kind = walk->sheet[walk->at];
    const int rules = walk->count[T24_RECORD_RULE_RELEASE] != 0;
    const int tolerance = walk->count[T24_RECORD_TOLERANCE] != 0;
    const int link = kind == T24_RECORD_LINK || kind == T24_RECORD_SHORT_LINK;

    if (walk->count[T24_RECORD_END] != 0) {
        t24_put_count(text, walk->sheet_len - walk->at, "octet");
        t24_put(text, " after the end record");
    } else if (walk->at == 0 && !link) {
        t24_put(text, "the sheet begins with ");
        t24_put_hex(text, kind, 2);
        t24_put(text, ", not with a link record, 01 or 05");
    } else if (walk->at != 0 && link) {
        return t24_say_second_link(text, walk->sheet[0], kind);
    } else if (rules && kind == T24_RECORD_RULE_RELEASE) {
        t24_put(text, "a second rule release record: it comes at most once");
    } else if (tolerance && kind == T24_RECORD_TOLERANCE) {
        t24_put(text, "a second tolerance record: it comes at most once");
    } else {
        return t24_say_late(text, walk);
    }
    return 1;
}

/* 15: what the record before has, which this one must not go back behind. */
static inline int t24_say_order(struct t24_text *text,
                                const struct t24_walk *walk)
{
    const uint8_t kind = walk->sheet[walk->at];
    const uint8_t *record = walk->sheet + walk->at;
    const uint8_t *before = walk->sheet + walk->last[kind];

    if (walk->count[kind] == 0 || t24_key(record) >= t24_key_after(before))
        return 0;
    t24_put_named(text, walk);
    if (kind == T24_RECORD_REGION) {
        t24_put(text, " starts at ");
        t24_put_hex(text, t24_key(record), 8);
        t24_put(text, ", before the end ");
        t24_put_hex(text, t24_key_after(before), 8);
        t24_put(text, " of region ");
        t24_put_decimal(text, walk->count[kind]);
        return 1;
    }
    t24_put(text, " does not rise after ");
    if (kind == T24_RECORD_ID)
        t24_put_hex(text, t24_key(before), 2);
    else
        t24_put_decimal(text, t24_key(before));
    return 1;
}

/* 16: more records of a kind, or more memory, than a sheet may have. */
static inline int t24_say_excess(struct t24_text *text,
                                 const struct t24_walk *walk)
{
    const uint8_t kind = walk->sheet[walk->at];
    const uint32_t most = t24_records_max(kind);
    uint64_t memory;

    if (walk->count[kind] >= most) {
        t24_put_ordinal(text, walk->count[kind] + 1);
        t24_put(text, t24_kind_words(kind));
        t24_put(text, ": at most ");
        t24_put_decimal(text, most);
        return 1;
    }
    if (kind != T24_RECORD_REGION)
        return 0;
    memory = walk->memory
        + t24_low_first(walk->sheet + walk->at + T24_REGION_AT_LENGTH, 4);
    if (memory <= T24_MEMORY_MAX)
        return 0;
    t24_put_named(text, walk);
    t24_put(text, ": memory ");
    t24_put_decimal(text, memory);
    t24_put(text, " octets, at most 65536");
    return 1;
}

/* 17: the first address of a parameter's span that no region has. */
static inline int t24_say_span(struct t24_text *text,
                               const struct t24_walk *walk)
{
    const uint8_t *record = walk->sheet + walk->at;
    uint64_t start, end, address;

    if (record[0] != T24_RECORD_PARAMETER)
        return 0;
    start = t24_low_first(record + T24_PARAMETER_AT_ADDRESS, 4);
    end = start + record[T24_PARAMETER_AT_SIZE];
    address = start;
    while (address < end && t24_region_has(walk, address))
        address++;
    if (address == end)
        return 0;
    t24_put_named(text, walk);
    t24_put(text, " at ");
    t24_put_hex(text, start, 8);
    t24_put(text, ", ");
    t24_put_count(text, end - start, "octet");
    t24_put(text, ": no region has ");
    t24_put_hex(text, address, 8);
    return 1;
}

/* The fault of this number at the place where the walk has come to. */
static inline int t24_say_fault(struct t24_text *text,
                                const struct t24_walk *walk, uint32_t number)
{
    const size_t left = walk->sheet_len - walk->at;
    const int ended = walk->count[T24_RECORD_END] != 0;
    size_t len;

    if (number == T24_SHEET_CUT && !ended)
        return t24_say_cut(text, walk);
    if (left == 0 || (ended && number != T24_SHEET_PLACE))
        return 0;
    len = t24_record_len(walk->sheet[walk->at]);
    switch (number) {
    case T24_SHEET_KIND: return t24_say_kind(text, walk);
    case T24_SHEET_PLACE: return t24_say_place(text, walk);
    default: break;
    }
    if (len == 0 || len > left)
        return 0;
    switch (number) {
    case T24_SHEET_RANGE: return t24_say_range(text, walk);
    case T24_SHEET_ORDER: return t24_say_order(text, walk);
    case T24_SHEET_EXCESS: return t24_say_excess(text, walk);
    case T24_SHEET_SPAN: return t24_say_span(text, walk);
    default: return 0;
    }
}

/* What the walk finds at the place of a fault, or that it is not there. */
static inline void t24_put_fault(struct t24_text *text, const uint8_t *sheet,
                                 size_t sheet_len, uint32_t fault, size_t place)
{
    struct t24_walk walk;

    if (sheet_len > T24_SHEET_MAX && fault == T24_SHEET_CUT && place == 0) {
        t24_put(text, "the sheet is over 2048 octets");
        return;
    }
    walk = t24_walk_to(sheet, sheet_len, place);
    if (sheet_len > T24_SHEET_MAX || walk.at != place
        || !t24_say_fault(text, &walk, fault)) {
        t24_put(text, t24_words(fault));
        t24_put(text, "; but not in these octets");
    }
}

/* What t24_sheet_words says, put behind what the text has. */
static inline void t24_put_verdict(struct t24_text *text, const uint8_t *sheet,
                                   size_t sheet_len, uint64_t answer)
{
    const uint32_t number = t24_number(answer), place = t24_place(answer);
    const uint32_t fault = t24_sheet_fault(number);
    struct t24_walk walk;

    if (number == T24_DONE) {
        walk = t24_walk_to(sheet, sheet_len, sheet_len);
        t24_put_contents(text, &walk);
        return;
    }
    t24_put(text, fault != 0 && fault != number ? "second sheet: " : "");
    t24_put_decimal(text, number);
    if (fault == 0) {
        t24_put(text, ": ");
        t24_put(text, t24_words(number));
        return;
    }
    t24_put(text, " at octet ");
    t24_put_decimal(text, place);
    t24_put(text, ": ");
    t24_put_fault(text, sheet, sheet_len, fault, place);
}

/*
 * An answer of t24_sheet, or of another call with this sheet, in words: for 11
 * to 17 "14 at octet 14: region 2, rights 09: only bits 0 to 2 may be set", for
 * 21 to 27, where it is t24_difference's second one, the same behind "second
 * sheet: ", for 0 "valid, L 16, 8 octets of memory, 2 regions, 1 parameter, 0 ID
 * items", for others the number and t24_words().
 */
static inline size_t t24_sheet_words(const uint8_t *sheet, size_t sheet_len,
                                     uint64_t answer, char *text,
                                     size_t text_len)
{
    struct t24_text made = t24_text_in(text, text_len);

    t24_put_verdict(&made, sheet, sheet_len, answer);
    return t24_text_end(&made);
}

#endif
