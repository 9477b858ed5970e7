/*
 * type24_difference_words.h - what changed between two sheets in words (RULES
 * 8.27).  Comes with type24_words.h.
 *
 * The list is the library's; the first sheet is read again only to say what a
 * changed field was.  Nothing outside list and sheet is read, whatever octets
 * come, and where the two do not belong together the words say so.
 */
#ifndef TYPE24_DIFFERENCE_WORDS_H
#define TYPE24_DIFFERENCE_WORDS_H

#include "type24_difference.h"
#include "type24_sheet_words.h"
#include "type24_walk.h"

/* A code, version or profile as the pages write it: "7", "30 hex". */
static inline void t24_put_code(struct t24_text *text, uint8_t code)
{
    t24_put_hex(text, code, 1);
    if (code > 9)
        t24_put(text, " hex");
}

/* "read, write out of step, write in step", as far as there are such rights. */
static inline void t24_put_rights(struct t24_text *text, uint8_t rights)
{
    static const char *const words[] = { "read", "write out of step",
                                         "write in step" };
    const char *between = "";
    unsigned bit;

    if ((rights & 7u) == 0)
        t24_put(text, "none");
    for (bit = 0; bit < 3; bit++)
        if ((rights >> bit & 1u) != 0) {
            t24_put(text, between);
            t24_put(text, words[bit]);
            between = ", ";
        }
}

/* An ID item's octets up to its length, in hex. */
static inline void t24_put_item(struct t24_text *text, const uint8_t *body)
{
    const size_t at = T24_ITEM_AT_OCTETS - 1; /* a body has no kind */
    size_t count = body[T24_ITEM_AT_LENGTH - 1], i;

    if (count > T24_ITEM_OCTETS)
        count = T24_ITEM_OCTETS;
    for (i = 0; i < count; i++)
        t24_put_hex(text, body[at + i], 2);
}

/* A field's name, by its number in the body; what is a key has none. */
static inline const char *t24_changed_field(uint8_t kind, unsigned field)
{
    static const char *const names[][3] = {
        { "L ", "version ", "profile " }, { NULL, "length ", "rights " },
        { NULL, "address ", "size " },    { NULL, "length ", "octets " },
        { "L ", "version ", "profile " }, { "lost cycles ", NULL, NULL },
        { "rule release ", NULL, NULL }
    };

    return kind == 0 || kind >= T24_KINDS || field > 2
        ? NULL : names[kind - 1][field];
}

/* What a field of a body has; of fields that have a name. */
static inline void t24_put_value(struct t24_text *text, uint8_t kind,
                                 unsigned field, const uint8_t *body)
{
    const int link = kind == T24_RECORD_LINK || kind == T24_RECORD_SHORT_LINK;

    if (kind == T24_RECORD_REGION && field == 1)
        t24_put_decimal(text,
                        t24_low_first(body + T24_REGION_AT_LENGTH - 1, 4));
    else if (kind == T24_RECORD_REGION)
        t24_put_rights(text, body[T24_REGION_AT_RIGHTS - 1]);
    else if (kind == T24_RECORD_PARAMETER && field == 1)
        t24_put_hex(text, t24_low_first(body + T24_PARAMETER_AT_ADDRESS - 1, 4),
                    8);
    else if (kind == T24_RECORD_PARAMETER)
        t24_put_decimal(text, body[T24_PARAMETER_AT_SIZE - 1]);
    else if (kind == T24_RECORD_ID && field == 2)
        t24_put_item(text, body);
    else if (link && field != 0)
        t24_put_code(text, body[field]);
    else /* L, an item's length, and what has one octet */
        t24_put_decimal(text, body[field]);
}

/* Which record an entry is about: "region 00001004", "parameter 7". */
static inline void t24_put_entry(struct t24_text *text,
                                 const struct t24_entry *entry)
{
    t24_put(text, t24_kind_words(entry->kind) + 1); /* without its blank */
    if (t24_key_len(entry->kind) != 0)
        t24_put_char(text, ' ');
    if (entry->kind == T24_RECORD_REGION)
        t24_put_hex(text, t24_entry_key(entry), 8);
    else if (entry->kind == T24_RECORD_PARAMETER)
        t24_put_decimal(text, t24_entry_key(entry));
    else if (entry->kind == T24_RECORD_ID)
        t24_put_code(text, entry->key[0]);
    t24_put(text, ": ");
}

/* What a new record has: "new, 4 octets". */
static inline void t24_put_new(struct t24_text *text, uint8_t kind,
                               const uint8_t *body)
{
    unsigned field;

    t24_put(text, "new, ");
    if (kind == T24_RECORD_REGION) {
        t24_put_count(text, t24_low_first(body + T24_REGION_AT_LENGTH - 1, 4),
                      "octet");
        t24_put(text, ", rights ");
        t24_put_value(text, kind, 2, body);
    } else if (kind == T24_RECORD_PARAMETER) {
        t24_put_count(text, body[T24_PARAMETER_AT_SIZE - 1], "octet");
        t24_put(text, " at ");
        t24_put_value(text, kind, 1, body);
    } else if (kind == T24_RECORD_ID) {
        t24_put_count(text, body[T24_ITEM_AT_LENGTH - 1], "octet");
    } else {
        for (field = 0; t24_changed_field(kind, field) != NULL; field++) {
            t24_put(text, field == 0 ? "" : ", ");
            t24_put(text, t24_changed_field(kind, field));
            t24_put_value(text, kind, field, body);
        }
    }
}

/* The body of the sheet's record that has an entry's kind and key; NULL if there
 * is none. */
static inline const uint8_t *t24_body_in(const uint8_t *sheet, size_t sheet_len,
                                         const struct t24_entry *entry)
{
    struct t24_walk walk = t24_walk_to(sheet, sheet_len, 0);
    size_t at = 0;

    while (t24_walk_on(&walk)) {
        if (sheet[at] == entry->kind && t24_key(sheet + at) == t24_entry_key(entry))
            return sheet + at + 1;
        at = walk.at;
    }
    return NULL;
}

/* Each field that differs, as it was and as it is: "size 2 -> 4; ...". */
static inline void t24_put_changed(struct t24_text *text,
                                   const struct t24_entry *entry,
                                   const uint8_t *was)
{
    const char *between = "";
    unsigned field;

    for (field = 0; field < 3; field++) {
        const char *name = t24_changed_field(entry->kind, field);

        if (name == NULL || (entry->bits >> field & 1u) == 0)
            continue;
        t24_put(text, between);
        t24_put(text, name);
        if (was != NULL) {
            t24_put_value(text, entry->kind, field, was);
            t24_put_char(text, ' ');
        }
        t24_put(text, "-> ");
        t24_put_value(text, entry->kind, field, entry->body);
        between = "; ";
    }
    if (between[0] == '\0')
        t24_put(text, "changed, but no bit says what");
    if (was == NULL)
        t24_put(text, "; but the first sheet has no such record");
}

/* Octets of a list where no entry stands whole. */
static inline void t24_put_no_entry(struct t24_text *text, const uint8_t *list,
                                    size_t list_len, size_t place)
{
    t24_put(text, "no entry at octet ");
    t24_put_decimal(text, place);
    t24_put(text, ": ");
    if (place >= list_len) {
        t24_put(text, "the list ends before it");
    } else if (t24_entry_len(list[place]) == 0) {
        t24_put_hex(text, list[place], 2);
        t24_put(text, " is none of 41 to 47, 51 to 57 and 61 to 67");
    } else {
        t24_put_missing(text, list_len - place, t24_entry_len(list[place]));
    }
}

/*
 * The entry at a place of a list of t24_difference in words, by the list and the
 * first sheet: "region 00001004: rights read, write out of step -> read",
 * "parameter 7: gone", "ID item 2: new, 4 octets".  No text is over 255 octets.
 */
static inline size_t t24_entry_words(const uint8_t *first, size_t first_len,
                                     const uint8_t *list, size_t list_len,
                                     size_t place, char *text, size_t text_len)
{
    const struct t24_entry entry = t24_entry_at(list, list_len, place);
    struct t24_text made = t24_text_in(text, text_len);

    if (entry.len == 0) {
        t24_put_no_entry(&made, list, list_len, place);
        return t24_text_end(&made);
    }
    t24_put_entry(&made, &entry);
    if (entry.what == T24_ENTRY_GONE)
        t24_put(&made, "gone");
    else if (entry.what == T24_ENTRY_NEW)
        t24_put_new(&made, entry.kind, entry.body);
    else
        t24_put_changed(&made, &entry, t24_body_in(first, first_len, &entry));
    return t24_text_end(&made);
}

/* 28: how long the list is. */
static inline void t24_put_list_long(struct t24_text *text, uint64_t answer)
{
    t24_put_decimal(text, T24_LIST_LONG);
    t24_put(text, ": ");
    t24_put(text, t24_words(T24_LIST_LONG));
    t24_put(text, ": it has ");
    t24_put_count(text, t24_place(answer), "octet");
}

/*
 * An answer of t24_difference in words, by what it was lent: for 11 to 17 "first
 * sheet: 14 at octet 14: region 2, rights 09: only bits 0 to 2 may be set", for
 * 21 to 27 the same of the second sheet, for 28 "28: list of differences is longer
 * than its buffer: it has 55 octets, the buffer 54", for 0 "no difference" or "55
 * octets of differences".
 */
static inline size_t t24_difference_words(const uint8_t *first, size_t first_len,
                                          const uint8_t *second,
                                          size_t second_len, size_t list_len,
                                          uint64_t answer, char *text,
                                          size_t text_len)
{
    const uint32_t number = t24_number(answer), place = t24_place(answer);
    struct t24_text made = t24_text_in(text, text_len);

    if (number == T24_LIST_LONG) {
        t24_put_list_long(&made, answer);
        t24_put(&made, ", the buffer ");
        t24_put_decimal(&made, list_len);
    } else if (number == T24_DONE && place == 0) {
        t24_put(&made, "no difference");
    } else if (number == T24_DONE) {
        t24_put_count(&made, place, "octet");
        t24_put(&made, " of differences");
    } else if (number == t24_sheet_fault(number)) {
        t24_put(&made, "first sheet: ");
        t24_put_verdict(&made, first, first_len, answer);
    } else {
        t24_put_verdict(&made, second, second_len, answer);
    }
    return t24_text_end(&made);
}

#endif
