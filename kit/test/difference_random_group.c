/* t24_difference on random pairs: the list, applied to the first sheet by the
 * header's walk, gives the second; it is empty exactly for equal sheets; keys rise
 * in it, and its bits are those of the fields that differ. */
#include "difference.h"
#include "groups.h"

#include <string.h>

enum { ROUNDS = 4000, RECORDS = 260 };

static uint32_t seed;
static long gone, fresh, changed, equal; /* what was met */

/* The same numbers in every run, so that a failure can be seen again. */
static uint32_t below(uint32_t limit)
{
    seed = seed * 1664525u + 1013904223u;
    return (seed >> 8) % limit;
}

/* A valid sheet with few keys, so that two of them have many in common. */
static void random_sheet(struct built *sheet)
{
    uint32_t i, more = below(8);

    sheet->len = 0;
    if (below(4) == 0)
        add_short_link(sheet, 16);
    else
        add_link(sheet, all_l[below(5)]);
    sheet->octets[2] = (uint8_t)(0x30u + below(2));
    for (i = 0; i < 32; i++)
        if (i == 0 || below(8) < more)
            add_region(sheet, 0xFCu * i, 8u + (i > 0) * below(2), below(8));
    for (i = 0; i < 64; i++)
        if (below(8) < more)
            add_parameter(sheet, 0xF8u * i, below(4), 1 + below(2));
    for (i = 0; i < 32; i++)
        if (below(8) < more)
            add_item(sheet, 8 * i, 31 + below(2));
    if (below(2) == 0)
        add_tolerance(sheet, below(4));
    if (below(2) == 0)
        add_rule_release(sheet, 1 + below(2));
    add_end(sheet);
}

/* The next sheet: another one, the same, or with one record changed. */
static void second_sheet(struct built *second, const struct built *first)
{
    uint32_t how = below(4);

    if (how < 2)
        random_sheet(second);
    else
        *second = *first;
    if (how == 3)
        second->octets[4 + 9] = (uint8_t)below(8); /* rights of the first region */
}

/* Where a record stands among others: by its kind, link records alike, and its
 * key. */
static uint64_t place_of(unsigned kind, uint32_t key)
{
    return ((uint64_t)(kind == 5 ? 1 : kind) << 32) + key;
}

static struct record {
    uint64_t place;
    uint8_t octets[35];
    size_t len;
} records[RECORDS];
static size_t count;

static void put_record(uint8_t kind, const uint8_t *body)
{
    struct t24_entry as_new = { 1, 0x50, 0, 0, NULL, NULL };
    size_t i;

    as_new.kind = kind;
    as_new.key = body;
    records[count].place = place_of(kind, t24_entry_key(&as_new));
    records[count].len = 1 + t24_body_len(kind);
    records[count].octets[0] = kind;
    memcpy(records[count].octets + 1, body, t24_body_len(kind));
    for (i = count++; i > 0 && records[i].place < records[i - 1].place; i--) {
        const struct record last = records[i];

        records[i] = records[i - 1];
        records[i - 1] = last;
    }
}

/* Takes a record out; tells 0 if there is none such. */
static int take_record(uint8_t kind, uint64_t place, struct record *taken)
{
    size_t i = 0;

    while (i < count
           && (records[i].place != place || records[i].octets[0] != kind))
        i++;
    if (i == count)
        return 0;
    *taken = records[i];
    count--;
    memmove(records + i, records + i + 1, (count - i) * sizeof records[0]);
    return 1;
}

/* A bit for each field that differs, by the lengths of the fields. */
static unsigned bits_of(uint8_t kind, const uint8_t *was, const uint8_t *is)
{
    static const uint8_t fields[8][3] = { { 0, 0, 0 }, { 1, 1, 1 }, { 4, 4, 1 },
                                          { 2, 4, 1 }, { 1, 1, 32 },
                                          { 1, 1, 1 }, { 1, 0, 0 },
                                          { 1, 0, 0 } };
    unsigned bits = 0, i;

    for (i = 0; i < 3; was += fields[kind][i], is += fields[kind][i], i++)
        if (memcmp(was, is, fields[kind][i]) != 0)
            bits |= 1u << i;
    return bits;
}

static void apply(const struct t24_entry *entry)
{
    const uint64_t place = place_of(entry->kind, t24_entry_key(entry));
    struct record was;
    const int there = take_record(entry->kind, place, &was);

    check(there == (entry->what != T24_ENTRY_NEW), "a record that is there");
    gone += entry->what == T24_ENTRY_GONE;
    fresh += entry->what == T24_ENTRY_NEW;
    changed += entry->what == T24_ENTRY_CHANGED;
    if (there && entry->what == T24_ENTRY_CHANGED) {
        check(entry->bits != 0, "a bit");
        check(entry->bits == bits_of(entry->kind, was.octets + 1, entry->body),
              "bits of the fields that differ");
    }
    if (entry->what != T24_ENTRY_GONE)
        put_record(entry->kind, entry->body);
}

static void take_sheet(const struct built *sheet)
{
    size_t at;

    count = 0;
    for (at = 0; sheet->octets[at] != 0; at += t24_record_len(sheet->octets[at]))
        put_record(sheet->octets[at], sheet->octets + at + 1);
}

/* Every entry, and that each stands behind the one before. */
static void apply_list(const uint8_t *list, size_t len)
{
    struct t24_entry entry;
    uint64_t before = 0;
    size_t at = 0;

    while ((entry = t24_entry_at(list, len, at)).len != 0) {
        const uint64_t place = place_of(entry.kind, t24_entry_key(&entry));

        check(place > before || (at == 1 && list[0] % 16 + entry.kind == 6),
              "in order");
        before = place;
        apply(&entry);
        at += entry.len;
    }
    check(at == len, "entries to the end of the list");
}

static void same_as(const struct built *sheet)
{
    size_t at = 0, i;

    for (i = 0; i < count; at += records[i].len, i++)
        if (at + records[i].len > sheet->len
            || memcmp(sheet->octets + at, records[i].octets, records[i].len) != 0)
            break;
    check(i == count && at + 1 == sheet->len, "the second sheet");
}

void difference_random(void)
{
    static struct built first, second;
    static uint8_t list[T24_DIFFERENCE_MAX];
    uint64_t answer;
    long round;

    seed = 2, gone = fresh = changed = equal = 0;
    for (round = 0; round < ROUNDS; round++) {
        label("round", round);
        random_sheet(&first);
        second_sheet(&second, &first);
        answer = t24_difference(first.octets, first.len, second.octets,
                                second.len, list, sizeof list);
        count_answer(ASK_DIFFERENCE, t24_is_short(first.octets), answer);
        check(t24_number(answer) == T24_DONE, "done");
        check((t24_place(answer) == 0)
              == (first.len == second.len
                  && memcmp(first.octets, second.octets, first.len) == 0),
              "empty exactly for equal sheets");
        equal += t24_place(answer) == 0;
        take_sheet(&first);
        apply_list(list, t24_place(answer));
        same_as(&second);
    }
    check(gone > 1000 && fresh > 1000 && changed > 1000 && equal > 100,
          "hardly met");
}
