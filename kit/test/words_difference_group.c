/* Lists of changes that are cut, any octets for one, and each answer in words. */
#include "difference.h"
#include "groups.h"
#include "place.h"
#include "said.h"

#include "type24_words.h"

/* The longest list cut at every length: whole entries up to the cut, and nothing
 * read behind it. */
void words_entries_cut(void)
{
    struct built first, second, list;
    struct t24_entry entry;
    size_t len, at, whole = 0;

    build_apart(&first, &second, &list);
    for (len = 0; len <= list.len; len++) {
        const uint8_t *octets = place(LIST, list.octets, len, 1);

        label("length", (long)len);
        for (at = 0; (entry = t24_entry_at(octets, len, at)).len != 0;)
            at += entry.len;
        check(at <= len && len - at < T24_ENTRY_MAX, "entries up to the cut");
        check(entry.what == 0 && entry.kind == 0 && entry.bits == 0
              && entry.key == NULL && entry.body == NULL
              && t24_entry_key(&entry) == 0, "no entry is all zero");
        whole += at == len;
        t24_entry_words(first.octets, first.len, octets, len, at, text,
                        sizeof text);
        check((strstr(text, "the list ends") != NULL) == (at == len)
              && (strstr(text, "missing") != NULL) == (at < len), "words of a cut");
    }
    check(whole == 1 + 2 + 2 * (32 + 64 + 32) + 2, "every entry ends once");
}

static uint32_t seed;

static uint32_t below(uint32_t limit)
{
    seed = seed * 1664525u + 1013904223u;
    return (seed >> 8) % limit;
}

/* Any octets, mostly such as lists and sheets begin with: words for each place,
 * and nothing read outside. */
void words_entries_random(void)
{
    static const uint8_t sheet_kinds[] = { 0, 1, 2, 3, 4, 5, 6, 7, 255 };
    uint8_t list[50], sheet[80];
    long round, entry_count = 0;
    size_t i, len, at;

    seed = 4;
    for (round = 0; round < 20000; round++) {
        label("round", round);
        for (i = 0; i < sizeof list; i++)
            list[i] = (uint8_t)(below(3) == 0 ? below(256)
                                              : 0x40 + 16 * below(3) + below(9));
        for (i = 0; i < sizeof sheet; i++)
            sheet[i] = sheet_kinds[below(9)];
        len = below(sizeof list + 1);
        at = below((uint32_t)len + 2);
        i = below(sizeof sheet + 1);
        check(t24_entry_words(place(SHEET, sheet, i, 1), i,
                              place(LIST, list, len, 1), len, at, text,
                              sizeof text) < sizeof text, "words that fit");
        entry_count += strstr(text, "no entry") == NULL;
    }
    check(entry_count > 4000, "entries hardly met");
}

static void answer_words(const struct built *first, const struct built *second,
                         size_t list_len, const char *words)
{
    const uint8_t *one = place(SHEET, first->octets, first->len, 1);
    const uint8_t *two = place(SECOND, second->octets, second->len, 1);
    uint8_t *list = place(LIST, given(LIST), list_len, 1);
    const uint64_t answer = t24_difference(one, first->len, two, second->len, list,
                                           list_len);
    size_t room;

    label(words, (long)t24_number(answer));
    same(t24_difference_words(one, first->len, two, second->len, list_len, answer,
                              text, sizeof text), words);
    for (room = 0; room <= strlen(words); room++) {
        uint8_t *at = place(REPLY, given(REPLY), room, 1);

        t24_difference_words(one, first->len, two, second->len, list_len, answer,
                             (char *)at, room);
        check(room == 0 || (strlen((char *)at) == room - 1
                            && memcmp(at, words, room - 1) == 0),
              "words in a smaller room");
    }
}

void words_difference(void)
{
    struct built first, second, bad;

    build_p(&first, 16);
    build_p(&second, 16);
    build_p(&bad, 16);
    give_noise(LIST, 16);
    give_noise(REPLY, 256);
    bad.octets[23] = 9;
    second.octets[23] = 7;
    answer_words(&first, &first, 0, "no difference");
    answer_words(&first, &second, 11, "11 octets of differences");
    answer_words(&first, &second, 10, "28: list of differences is longer than "
                 "its buffer: it has 11 octets, the buffer 10");
    answer_words(&bad, &bad, 0, "first sheet: 14 at octet 14: region 2, rights 09: "
                 "only bits 0 to 2 may be set");
    answer_words(&first, &bad, 0, "second sheet: 24 at octet 14: region 2, rights "
                 "09: only bits 0 to 2 may be set");
    bad.len = 0;
    answer_words(&bad, &first, 0, "first sheet: 11 at octet 0: the sheet is empty");
    answer_words(&first, &bad, 0, "second sheet: 21 at octet 0: the sheet is "
                 "empty");
    bad.len = 2049;
    answer_words(&first, &bad, 0, "second sheet: 21 at octet 0: the sheet is over "
                 "2048 octets");
}

/* What t24_refusal_words says of the second sheet and of the list. */
void words_second(void)
{
    same(t24_refusal_words(sheet_p, 32, NULL, 0, 0, NULL, 0,
                           21 + ((uint64_t)32 << 32), text, sizeof text),
         "second sheet: 21 at octet 32: no end record");
    same(t24_refusal_words(sheet_p, 33, NULL, 0, 0, NULL, 0,
                           25 + ((uint64_t)14 << 32), text, sizeof text),
         "second sheet: 25 at octet 14: sheet: records out of order or "
         "overlapping; but not in these octets");
    same(t24_refusal_words(NULL, 0, NULL, 0, 0, NULL, 0,
                           28 + ((uint64_t)1 << 32), text, sizeof text),
         "28: list of differences is longer than its buffer: it has 1 octet");
    same(t24_difference_words(NULL, 0, NULL, 0, 0, 7, text, sizeof text),
         "7: not a number of this library");
}
