/* The rule release record of a sheet in words, and read out of any octets. */
#include "groups.h"
#include "place.h"
#include "said.h"
#include "sheets.h"

#include "type24_words.h"

#define LAST " after the rule release record: that comes last before the end record"
#define LINK "01 10 30 00 "
#define SHORT_LINK "05 10 30 00 "
#define REGION "02 00 10 00 00 04 00 00 00 03 " /* 4 octets at 1000 */
#define EMPTY "L 16, 0 octets of memory, 0 regions, 0 parameters, 0 ID items"

/* A sheet, its words by the library's own answer, and the release that is read
 * out of it, 1 where no such record stands whole. */
static const struct {
    const char *sheet, *words;
    uint32_t release;
} cases[] = {
    { LINK "07 01 00", "valid, " EMPTY ", rule release 1", 1 },
    { LINK "07 02 00", "valid, " EMPTY ", rule release 2", 2 },
    { SHORT_LINK "07 02 00", "valid, short type, " EMPTY ", rule release 2", 2 },
    { LINK "06 02 07 02 00", "valid, " EMPTY ", tolerates 2 lost cycles in a row, "
      "rule release 2", 2 },
    { LINK "06 02 00", "valid, " EMPTY ", tolerates 2 lost cycles in a row", 1 },
    { LINK "00", "valid, " EMPTY, 1 },
    { LINK "07 00 00",
      "14 at octet 4: rule release record, rule release 0: only 1 or 2", 0 },
    { LINK "06 01 07 03 00",
      "14 at octet 6: rule release record, rule release 3: only 1 or 2", 3 },
    { LINK REGION "07 FF 00",
      "14 at octet 14: rule release record, rule release 255: only 1 or 2", 255 },
    { LINK "07",
      "11 at octet 4: rule release record: 1 of its 2 octets is missing", 1 },
    { LINK "07 02", "11 at octet 6: no end record", 2 },
    { "07 02", "13 at octet 0: the sheet begins with 07, not with a link record, 01 "
      "or 05", 2 },
    { LINK "07 02 07 01 00",
      "13 at octet 6: a second rule release record: it comes at most once", 2 },
    { LINK "07 01 07",
      "13 at octet 6: a second rule release record: it comes at most once", 1 },
    { LINK "07 02 06 01 00", "13 at octet 6: tolerance record" LAST, 2 },
    { LINK "06 00 07 02 06 01 00",
      "13 at octet 8: a second tolerance record: it comes at most once", 2 },
    { LINK "07 02 " REGION "00", "13 at octet 6: region 1" LAST, 2 },
    { LINK REGION "06 01 07 02 02", "13 at octet 18: region 2" LAST, 2 },
    { LINK REGION "07 02 03", "13 at octet 16: 1st parameter" LAST, 2 },
    { LINK "07 02 04", "13 at octet 6: 1st ID item" LAST, 2 },
    { LINK "07 02 " LINK,
      "13 at octet 6: a second link record: it comes first and once", 2 },
    { LINK "07 02 00 07 02", "13 at octet 7: 2 octets after the end record", 2 },
    { LINK "00 07 02", "13 at octet 5: 2 octets after the end record", 1 },
    { LINK "02 07 02 00", "11 at octet 4: region 1: 6 of its 10 octets are missing",
      1 }
};

void words_rules(void)
{
    struct built built;
    uint8_t *sheet;
    size_t i;
    int back;

    for (i = 0; i < sizeof cases / sizeof cases[0]; i++) {
        label(cases[i].words, (long)i);
        read_hex(&built, cases[i].sheet);
        for (back = 0; back < 2; back++) {
            sheet = place(SHEET, built.octets, built.len, back);
            same(t24_sheet_words(sheet, built.len, t24_sheet(sheet, built.len),
                                 text, sizeof text), cases[i].words);
            check(t24_rule_release(sheet, built.len) == cases[i].release,
                  "the rule release of a sheet");
        }
    }
    check(t24_rule_release(NULL, 0) == 1, "the rule release of no sheet");
}

/* What a code may leave unnamed, in letters: '#' is named in any case, as the first
 * octet of a write's data is, 'b' but for its bits 6 and 7 reserved, '.' reserved. */
static const struct {
    uint8_t is_short, code;
    const char *octets;
} letters[] = {
    { 0, 0x00, "##b............." }, { 0, 0x01, "##b.###........." },
    { 0, 0x02, "##b.###.#......." }, { 0, 0x03, "##b.####........" },
    { 0, 0x05, "##b.##.........." }, { 0, 0x06, "##b.##.........." },
    { 0, 0x0D, "##b............." }, { 0, 0x0E, "##b.####........" },
    { 0, 0x0F, "##b............." }, { 0, 0x1D, "##b..#######...." },
    { 0, 0x1E, "##b..########..." }, { 0, 0x20, "################" },
    { 1, 0x00, "#..............#" }, { 1, 0x01, "#...###........#" },
    { 1, 0x02, "#...####.......#" }, { 1, 0x03, "#...###........#" },
    { 1, 0x05, "#...#..........#" }, { 1, 0x06, "#...#..........#" },
    { 1, 0x0D, "#..............#" }, { 1, 0x0E, "#...###........#" },
    { 1, 0x0F, "#..............#" }, { 1, 0x1D, "################" },
    { 1, 0x1E, "################" }, { 1, 0x04, "################" }
};

/* The letter of an octet; those behind the sixteenth are as it is, up to the last
 * that a command may have. */
static char letter_of(size_t row, uint32_t octet)
{
    if (octet < 16)
        return letters[row].octets[octet];
    return octet < 64 && !letters[row].is_short ? letters[row].octets[15] : '#';
}

void words_reserved_fields(void)
{
    static const uint8_t kind[2] = { 1, 5 };
    const char *field;
    uint32_t octet;
    size_t row;
    char letter;

    for (row = 0; row < sizeof letters / sizeof letters[0]; row++)
        for (octet = 0; octet < 70; octet++) {
            const uint8_t *sheet =
                place(SHEET, kind + letters[row].is_short, 1, 1);

            label("code and octet", (long)(1000 * letters[row].code + octet));
            field = t24_field_words(sheet, letters[row].code, 9, octet);
            letter = letter_of(row, octet);
            check((strcmp(field, "reserved octet") == 0) == (letter == '.'),
                  "a reserved octet");
            check((strcmp(field, "reserved bits") == 0) == (letter == 'b'),
                  "reserved bits");
            check(strcmp(t24_field_words(sheet, letters[row].code, 10, octet),
                         "reserved octet") != 0, "reserved at alarm 10");
        }
}
