/* Random sheets: words for every verdict, and nothing read outside the sheet. */
#include "groups.h"
#include "place.h"
#include "sheets.h"

#include <string.h>

#include "type24_words.h"

enum { ROUNDS = 6000 };

static uint32_t seed;

/* The same numbers in every run, so that a failure can be seen again. */
static uint32_t below(uint32_t limit)
{
    seed = seed * 1664525u + 1013904223u;
    return (seed >> 8) % limit;
}

/* Records in order and nearly good, so that faults lie deep in the sheet. */
static void nearly_good(struct built *sheet)
{
    uint32_t count, i;

    sheet->len = 0;
    if (below(3) == 0)
        add_short_link(sheet, below(8) == 0 ? all_l[below(5)] : 16);
    else
        add_link(sheet, all_l[below(5)]);
    count = below(4) == 0 ? 31 + below(3) : below(4);
    for (i = 0; i < count; i++)
        add_region(sheet, 0x1000u + 16u * i, 16u - below(2), below(8));
    count = below(4) == 0 ? 63 + below(3) : below(4);
    for (i = 0; i < count; i++)
        add_parameter(sheet, i, 0x1000u + below(16), 1 + below(16));
    count = below(4) == 0 ? 31 + below(3) : below(4);
    for (i = 0; i < count; i++)
        add_item(sheet, i, 1 + below(32));
    if (below(3) == 0)
        add_tolerance(sheet, below(5));
    if (below(3) == 0)
        add_rule_release(sheet, below(4));
    add_end(sheet);
}

static void random_sheet(struct built *sheet)
{
    static const uint8_t likely[] = { 0, 1, 2, 3, 4, 5, 6, 7, 8, 57, 255 };
    uint32_t changes = below(3);

    nearly_good(sheet);
    for (; changes > 0; changes--)
        sheet->octets[below((uint32_t)sheet->len)] = likely[below(11)];
    if (below(3) == 0)
        sheet->len = below((uint32_t)sheet->len + 1);
    if (below(16) == 0)
        sheet->len = below(BUILT_MAX); /* with octets of sheets before */
}

/* Whatever answer comes with the sheet, there is a text, and it fits. */
static void any_answer(const uint8_t *sheet, size_t len)
{
    const uint64_t answer =
        below(40) + ((uint64_t)below((uint32_t)len + 40) << 32);
    uint8_t *text = place(REPLY, given(REPLY), 200, 1);
    const size_t told = t24_sheet_words(sheet, len, answer, (char *)text, 200);

    check(told < 200 && strlen((char *)text) == told, "a text for any answer");
    check(changed_outside(REPLY, 1) < 0, "words outside their room");
}

void words_random(void)
{
    static struct built sheet;
    long faults[T24_SHEET_SPAN + 1] = { 0 };
    char text[200];
    long round;
    int number;

    seed = 24;
    give_noise(REPLY, 200);
    for (round = 0; round < ROUNDS; round++) {
        uint8_t *at;
        uint64_t answer;

        label("round", round);
        random_sheet(&sheet);
        at = place(SHEET, sheet.octets, sheet.len, 1);
        answer = t24_sheet(at, sheet.len);
        t24_sheet_words(at, sheet.len, answer, text, sizeof text);
        check(strstr(text, "not in these") == NULL, "no words for a verdict");
        any_answer(at, sheet.len);
        faults[t24_number(answer)]++;
    }
    for (number = T24_SHEET_CUT; number <= T24_SHEET_SPAN; number++) {
        label("fault", number);
        check(faults[number] >= 20, "hardly met");
    }
    check(faults[T24_DONE] >= 20, "valid sheets hardly met");
}
