/* t24_difference: the longest list, and every length of its buffer. */
#include "difference.h"
#include "groups.h"
#include "variants.h"

#include <string.h>

/* In buffers of every length up to well past the list's; the octets behind it
 * stay. */
static void every_length(const struct built *first, const struct built *second,
                         const struct built *list, size_t step)
{
    size_t len;

    for (len = 0; len < list->len; len += step) {
        label("length", (long)len);
        give_two(first, second, len);
        expect(ASK_DIFFERENCE, too_long(list->len));
    }
    for (len = list->len; len < list->len + 40; len++) {
        label("length", (long)len);
        give_two(first, second, len);
        memcpy(wanted(LIST), list->octets, list->len);
        expect(ASK_DIFFERENCE, list_of(list->len));
    }
}

void difference_longest(void)
{
    struct built first, second, list;

    build_apart(&first, &second, &list);
    check(first.len == 1961 && second.len == 1961, "the largest sheets");
    check(list.len == 2379, "the longest list");
    expect_list(&first, &second, &list);
    every_length(&first, &second, &list, 13);
    label("a link record that changed", 0);
    second.octets[0] = 1; /* changed, as long as gone and new */
    memcpy(list.octets, "\x61\x01\x10\x30\x00", 5);
    expect_list(&first, &second, &list);
    label("equal", 0);
    list.len = 0;
    expect_list(&second, &second, &list);
    expect_list(&first, &first, &list);
}

/* Every record changed in every field but its key. */
void difference_all_changed(void)
{
    struct built first, second, list;
    size_t at = 4, len, i;

    build_apart(&first, &second, &list);
    list.len = 0;
    second = first;
    while (second.octets[at] != 6) {
        len = second.octets[at] == 2 ? 10 : second.octets[at] == 3 ? 8 : 35;
        second.octets[at + len - 1] ^= second.octets[at] == 3 ? 3 : 2;
        add_octet(&list, 0x60u + second.octets[at]);
        add_octet(&list, 0x04);
        for (i = 1; i < len; i++)
            add_octet(&list, second.octets[at + i]);
        at += len;
    }
    check(list.len == 32 * 11 + 64 * 9 + 32 * 36, "all changed");
    expect_list(&first, &second, &list);
}

/* A list of one entry, or of two, at every length of its buffer. */
void difference_lengths(void)
{
    struct built first, second, list;

    build_p(&first, 16);
    build_p(&second, 16);
    second.octets[23] = 7;
    read_hex(&list, "6204041000000400000007");
    every_length(&first, &second, &list, 1);
    build_short(&second);
    read_hex(&list, "4155103000");
    every_length(&first, &second, &list, 1);
    read_hex(&list, "4551103000");
    every_length(&second, &first, &list, 1);
    read_hex(&list, "");
    every_length(&first, &first, &list, 1);
    label("really big buffers", 0);
    read_hex(&list, "4155103000");
    give_two(&first, &second, 65536);
    memcpy(wanted(LIST), list.octets, list.len);
    expect(ASK_DIFFERENCE, list_of(list.len));
    give_two(&first, &second, LENT_MAX);
    memcpy(wanted(LIST), list.octets, list.len);
    expect(ASK_DIFFERENCE, list_of(list.len));
}

/* Both sheets in each variant, with buffers that are empty, one too short, right
 * and one too long: the first sheet's fault, then the second's, then the buffer. */
static void mixture(unsigned kind, int of_first, int of_second, size_t list_len)
{
    struct built first, second, list;
    const uint64_t first_fault = build_variant(&first, 16, of_first);
    const uint64_t second_fault = build_variant(&second, 16, of_second);

    first.octets[0] = (uint8_t)kind;
    second.octets[23] = (uint8_t)(second.octets[23] ^ 1u);
    read_hex(&list, kind == 5 ? "45511030006204041000000400000007"
                              : "6204041000000400000007");
    give_two(&first, &second, list_len);
    if (first_fault != T24_DONE) {
        expect(ASK_DIFFERENCE, first_fault);
    } else if (second_fault != T24_DONE) {
        expect(ASK_DIFFERENCE, second_fault + 10);
    } else if (list_len < list.len) {
        expect(ASK_DIFFERENCE, too_long(list.len));
    } else {
        memcpy(wanted(LIST), list.octets, list.len);
        expect(ASK_DIFFERENCE, list_of(list.len));
    }
}

void difference_refusals(void)
{
    size_t list_len;
    int of_first, of_second;

    for (of_first = 0; of_first < SHEET_VARIANTS; of_first++)
        for (of_second = 0; of_second < SHEET_VARIANTS; of_second++)
            for (list_len = 0; list_len < 18; list_len++) {
                label("variants", 10 * of_first + of_second);
                mixture(1, of_first, of_second, list_len);
                mixture(5, of_first, of_second, list_len);
            }
}

/* Sheets that are too long, and lengths that are right modulo 2^8 or 2^16. */
void difference_big(void)
{
    static const size_t more[] = { 2049, 33 + 65536, LENT_MAX };
    struct built sheet;
    size_t i;

    build_p(&sheet, 16);
    for (i = 0; i < 3; i++) {
        label("length", (long)more[i]);
        give_two(&sheet, &sheet, 40);
        give_noise(SECOND, more[i]);
        memcpy(given(SECOND), sheet_p, sizeof sheet_p);
        memcpy(wanted(SECOND), sheet_p, sizeof sheet_p);
        expect(ASK_DIFFERENCE, T24_SECOND_CUT);
        give_noise(SHEET, more[i]);
        memcpy(given(SHEET), sheet_p, sizeof sheet_p);
        memcpy(wanted(SHEET), sheet_p, sizeof sheet_p);
        expect(ASK_DIFFERENCE, T24_SHEET_CUT);
    }
    label("256 octets more", 0);
    give_two(&sheet, &sheet, 40);
    give_noise(SECOND, 33 + 256);
    memcpy(given(SECOND), sheet_p, sizeof sheet_p);
    memcpy(wanted(SECOND), sheet_p, sizeof sheet_p);
    expect(ASK_DIFFERENCE, T24_SECOND_PLACE + ((uint64_t)33 << 32));
}

/* With length 0 a host may have no buffer at all. */
void difference_empty(void)
{
    static const uint8_t bare[5] = { 1, 16, 0x30, 0, 0 };
    static const uint8_t other[5] = { 1, 32, 0x30, 0, 0 };

    check(t24_difference(NULL, 0, NULL, 0, NULL, 0) == 11, "all null");
    check(t24_difference(bare, 5, NULL, 0, NULL, 0) == 21, "null second");
    check(t24_difference(NULL, 0, bare, 5, NULL, 0) == 11, "null first");
    check(t24_difference(bare, 5, other, 5, NULL, 0) == too_long(5),
          "null list of length 0");
    check(t24_difference(bare, 5, bare, 5, NULL, 0) == T24_DONE,
          "null list of length 0, equal sheets");
}
