/* Each fault of a sheet in words, in room of every length. */
#include "groups.h"
#include "place.h"
#include "sheets.h"

#include <stdio.h>
#include <string.h>

#include "type24_words.h"

#define LATE " after the tolerance record: that comes behind regions, parameters " \
             "and ID items"
#define LINK "01 10 30 00 "
#define SHORT_LINK "05 10 30 00 "
#define REGION "02 00 10 00 00 04 00 00 00 03 " /* 4 octets at 1000 */
#define PARAMETER "03 07 00 00 10 00 00 04 "    /* number 7, all of them */
#define ZEROS_8 "00 00 00 00 00 00 00 00 "
#define ITEM "04 07 02 AA BB 00 00 00 00 00 00 " ZEROS_8 ZEROS_8 ZEROS_8

static const struct {
    const char *sheet, *words;
} cases[] = {
    { "", "11 at octet 0: the sheet is empty" },
    { "01 10", "11 at octet 0: link record: 2 of its 4 octets are missing" },
    { LINK, "11 at octet 4: no end record" },
    { LINK REGION "02 00 20 00 00 04 00",
      "11 at octet 14: region 2: 3 of its 10 octets are missing" },
    { LINK REGION PARAMETER "03 08 00 00 10 00 00",
      "11 at octet 22: 2nd parameter: 1 of its 8 octets is missing" },
    { LINK "04", "11 at octet 4: 1st ID item: 34 of its 35 octets are missing" },
    { LINK "05", "13 at octet 4: a short link record after a link record: one of "
      "them comes first and once" },
    { LINK "06 01 " SHORT_LINK "00", "13 at octet 6: a short link record after a "
      "link record: one of them comes first and once" },
    { SHORT_LINK LINK "00", "13 at octet 4: a link record after a short link record: "
      "one of them comes first and once" },
    { SHORT_LINK SHORT_LINK, "13 at octet 4: a second link record: it comes first "
      "and once" },
    { "05 10 30", "11 at octet 0: short link record: 1 of its 4 octets is missing" },
    { "05 20 30 00 00", "14 at octet 0: short link record, L 32: only 16" },
    { "05 00 30 00 00", "14 at octet 0: short link record, L 0: only 16" },
    { SHORT_LINK, "11 at octet 4: no end record" },
    { SHORT_LINK "08", "12 at octet 4: kind 08 is unknown: a record begins with 00 "
      "to 07" },
    { SHORT_LINK ITEM REGION, "13 at octet 39: region 1 after an ID item: "
      "regions come first, then parameters, then ID items" },
    { SHORT_LINK "00", "valid, short type, L 16, 0 octets of memory, 0 regions, "
      "0 parameters, 0 ID items" },
    { SHORT_LINK REGION PARAMETER ITEM "06 02 00", "valid, short type, L 16, 4 "
      "octets of memory, 1 region, 1 parameter, 1 ID item, tolerates 2 lost cycles "
      "in a row" },
    { "FF", "12 at octet 0: kind FF is unknown: a record begins with 00 to 07" },
    { LINK "08 01 00",
      "12 at octet 4: kind 08 is unknown: a record begins with 00 to 07" },
    { "02 00", "13 at octet 0: the sheet begins with 02, not with a link record, 01 "
      "or 05" },
    { "00", "13 at octet 0: the sheet begins with 00, not with a link record, 01 or "
      "05" },
    { LINK LINK, "13 at octet 4: a second link record: it comes first and once" },
    { LINK REGION PARAMETER REGION "00",
      "13 at octet 22: region 2 after a parameter: "
      "regions come first, then parameters, then ID items" },
    { LINK ITEM REGION "00",
      "13 at octet 39: region 1 after an ID item: "
      "regions come first, then parameters, then ID items" },
    { LINK REGION ITEM "03",
      "13 at octet 49: 1st parameter after an ID item: "
      "regions come first, then parameters, then ID items" },
    { "06 01", "13 at octet 0: the sheet begins with 06, not with a link record, 01 "
      "or 05" },
    { LINK "06 01 06 01 00",
      "13 at octet 6: a second tolerance record: it comes at most once" },
    { LINK "06 00 06",
      "13 at octet 6: a second tolerance record: it comes at most once" },
    { LINK "06 01 " LINK, "13 at octet 6: a second link record: it comes first and once" },
    { LINK "06 01 " REGION "00", "13 at octet 6: region 1" LATE },
    { LINK REGION PARAMETER "06 01 02", "13 at octet 24: region 2" LATE },
    { LINK REGION "06 01 03", "13 at octet 16: 1st parameter" LATE },
    { LINK ITEM "06 01 04", "13 at octet 41: 2nd ID item" LATE },
    { LINK "06 03 00 06 03", "13 at octet 7: 2 octets after the end record" },
    { LINK "06", "11 at octet 4: tolerance record: 1 of its 2 octets is missing" },
    { LINK "06 03", "11 at octet 6: no end record" },
    { LINK ITEM "06 04 00",
      "14 at octet 39: tolerance record, lost cycles 4: only 0 to 3" },
    { LINK "06 FF 00",
      "14 at octet 4: tolerance record, lost cycles 255: only 0 to 3" },
    { LINK "06 00 00", "valid, L 16, 0 octets of memory, 0 regions, 0 parameters, "
      "0 ID items, tolerates 0 lost cycles in a row" },
    { LINK "06 01 00", "valid, L 16, 0 octets of memory, 0 regions, 0 parameters, "
      "0 ID items, tolerates 1 lost cycle in a row" },
    { LINK REGION PARAMETER ITEM "06 03 00", "valid, L 16, 4 octets of memory, "
      "1 region, 1 parameter, 1 ID item, tolerates 3 lost cycles in a row" },
    { LINK "00 00", "13 at octet 5: 1 octet after the end record" },
    { LINK "00 01 02 03", "13 at octet 5: 3 octets after the end record" },
    { "01 18 30 00 00", "14 at octet 0: link record, L 24: only 8, 16, 32, 48 or 64" },
    { "01 50 30 00 00", "14 at octet 0: link record, L 80: only 8, 16, 32, 48 or 64" },
    { "01 00 30 00 00", "14 at octet 0: link record, L 0: only 8, 16, 32, 48 or 64" },
    { LINK REGION "02 00 20 00 00 04 00 00 00 09 00",
      "14 at octet 14: region 2, rights 09: only bits 0 to 2 may be set" },
    { LINK "02 00 20 00 00 00 00 00 00 03 00",
      "14 at octet 4: region 1, length 0: at least 1" },
    { LINK "02 FF FF FF FF 02 00 00 00 09 00",
      "14 at octet 4: region 1, start FFFFFFFF, length 2: "
      "start + length is over 2^32" },
    { LINK "02 F0 FF FF FF 10 00 00 00 08 00",
      "14 at octet 4: region 1, rights 08: only bits 0 to 2 may be set" },
    { LINK REGION "03 34 12 00 10 00 00 00 00",
      "14 at octet 14: parameter number 4660, size 0: only 1 to 56" },
    { LINK REGION "03 07 00 00 10 00 00 39 00",
      "14 at octet 14: parameter number 7, size 57: only 1 to 56" },
    { LINK "04 0A 00 00 00 00 00 00 00 00 00 " ZEROS_8 ZEROS_8 ZEROS_8 "00",
      "14 at octet 4: ID item code 0A, length 0: only 1 to 32" },
    { LINK "04 0A 21 00 00 00 00 00 00 00 00 " ZEROS_8 ZEROS_8 ZEROS_8 "00",
      "14 at octet 4: ID item code 0A, length 33: only 1 to 32" },
    { LINK "04 0A 02 AA BB 00 CC 00 00 00 00 " ZEROS_8 ZEROS_8 ZEROS_8 "00",
      "14 at octet 4: ID item code 0A, length 2: its octet 3, octet 10 of the "
      "sheet, is CC: past the length only 00" },
    { LINK REGION "02 03 10 00 00 04 00 00 00 03 00",
      "15 at octet 14: region 2 starts at 00001003, "
      "before the end 00001004 of region 1" },
    { LINK "02 FF FF FF FF 01 00 00 00 03 02 00 00 00 00 01 00 00 00 03 00",
      "15 at octet 14: region 2 starts at 00000000, "
      "before the end 100000000 of region 1" },
    { LINK REGION PARAMETER PARAMETER "00",
      "15 at octet 22: parameter number 7 does not rise after 7" },
    { LINK ITEM "04 06 02 AA BB 00 00 00 00 00 00 " ZEROS_8 ZEROS_8 ZEROS_8,
      "15 at octet 39: ID item code 06 does not rise after 07" },
    { LINK REGION "02 04 10 00 00 00 00 01 00 03 00",
      "16 at octet 14: region 2: memory 65540 octets, at most 65536" },
    { LINK "02 00 00 00 00 01 00 01 00 03 00",
      "16 at octet 4: region 1: memory 65537 octets, at most 65536" },
    { LINK "02 00 00 00 00 FF FF FF FF 03 00",
      "16 at octet 4: region 1: memory 4294967295 octets, at most 65536" },
    { LINK REGION "02 08 10 00 00 04 00 00 00 03 03 07 00 02 10 00 00 07 00",
      "17 at octet 24: parameter number 7 at 00001002, 7 octets: "
      "no region has 00001004" },
    { LINK "03 07 00 FF FF FF FF 01 00",
      "17 at octet 4: parameter number 7 at FFFFFFFF, 1 octet: "
      "no region has FFFFFFFF" },
    { LINK "02 FE FF FF FF 02 00 00 00 03 03 07 00 FE FF FF FF 38 00",
      "17 at octet 14: parameter number 7 at FFFFFFFE, 56 octets: "
      "no region has 100000000" },
    { LINK REGION PARAMETER ITEM "00",
      "valid, L 16, 4 octets of memory, 1 region, 1 parameter, 1 ID item" },
    { "01 08 00 00 00",
      "valid, L 8, 0 octets of memory, 0 regions, 0 parameters, 0 ID items" }
};

/* As snprintf does: cut to the room, ended with a zero, nothing behind it. */
static void in_room(const uint8_t *sheet, size_t len, uint64_t answer,
                    const char *words, size_t room, int back)
{
    uint8_t noise[256];
    const size_t whole = strlen(words);
    const size_t kept = room == 0 ? 0 : room <= whole ? room - 1 : whole;
    uint8_t *text;

    memset(noise, 0xC3, sizeof noise);
    text = place(REPLY, noise, room, back);
    check(t24_sheet_words(sheet, len, answer, (char *)text, room) == whole,
          "length of the words");
    check(kept == 0 || memcmp(text, words, kept) == 0, "words in their room");
    check(room == 0 || text[kept] == 0, "no zero at the end");
    check(changed_outside(REPLY, back) < 0, "words outside their room");
}

static void said(const struct built *built, uint64_t answer, const char *words)
{
    uint8_t *sheet;
    char text[256];
    size_t room;
    int back;

    for (back = 0; back < 2; back++) {
        sheet = place(SHEET, built->octets, built->len, back);
        t24_sheet_words(sheet, built->len, answer, text, sizeof text);
        if (strcmp(text, words) != 0)
            fprintf(stderr, "  said:   %s\n  wanted: %s\n", text, words);
        check(strcmp(text, words) == 0, "words of a fault");
        for (room = 0; room < strlen(words) + 3; room++)
            in_room(sheet, built->len, answer, words, room, back);
    }
}

/* By the library's own answer, so that words and verdict belong together. */
static void verdict_said(const struct built *sheet, const char *words)
{
    said(sheet, t24_sheet(sheet->octets, sheet->len), words);
}

void words_faults(void)
{
    struct built sheet;
    size_t i;

    for (i = 0; i < sizeof cases / sizeof cases[0]; i++) {
        label("case", (long)i);
        read_hex(&sheet, cases[i].sheet);
        verdict_said(&sheet, cases[i].words);
    }
}

/* The record behind so many ID items is cut, and counted as one says it. */
static void counted(unsigned items, const char *count)
{
    struct built sheet;
    char words[256];
    unsigned i;

    sheet.len = 0;
    add_link(&sheet, 8);
    for (i = 0; i < items; i++)
        add_item(&sheet, i, 32);
    sprintf(words, "11 at octet %u: %s ID item: 34 of its 35 octets are missing",
            4 + 35 * items, count);
    add_octet(&sheet, T24_RECORD_ID);
    verdict_said(&sheet, words);
}

/* Faults that need a long sheet. */
void words_limits(void)
{
    struct built sheet;
    unsigned i;

    counted(2, "3rd");
    counted(10, "11th");
    counted(11, "12th");
    counted(12, "13th");
    counted(20, "21st");
    counted(21, "22nd");
    sheet.len = 0;
    add_link(&sheet, 8);
    for (i = 0; i < 33; i++)
        add_region(&sheet, i, 1, 7);
    verdict_said(&sheet, "16 at octet 324: 33rd region: at most 32");
    sheet.len = 324;
    for (i = 0; i < 65; i++)
        add_parameter(&sheet, i, 0, 1);
    verdict_said(&sheet, "16 at octet 836: 65th parameter: at most 64");
    sheet.len = 324;
    for (i = 0; i < 33; i++)
        add_item(&sheet, i, 32);
    verdict_said(&sheet, "16 at octet 1444: 33rd ID item: at most 32");
    while (sheet.len <= T24_SHEET_MAX)
        add_octet(&sheet, 0);
    verdict_said(&sheet, "11 at octet 0: the sheet is over 2048 octets");
}

/* Answers that are not the sheet's: the words say so. */
void words_of_others(void)
{
    struct built sheet;
    unsigned number;
    char words[256];

    build_p(&sheet, 16);
    said(&sheet, T24_DONE, "valid, L 16, 8 octets of memory, 2 regions, "
         "1 parameter, 0 ID items");
    said(&sheet, T24_BAD_STATE, "1: state record of wrong length or not valid");
    said(&sheet, 99, "99: not a number of this library");
    for (number = T24_SHEET_CUT; number <= T24_SHEET_SPAN; number++) {
        label("number", (long)number);
        sprintf(words, "%u at octet 14: %s; but not in these octets", number,
                t24_words(number));
        said(&sheet, number + ((uint64_t)14 << 32), words);
        sprintf(words, "%u at octet 15: %s; but not in these octets", number,
                t24_words(number));
        said(&sheet, number + ((uint64_t)15 << 32), words);
        sprintf(words, "%u at octet 33: %s; but not in these octets", number,
                t24_words(number));
        said(&sheet, number + ((uint64_t)33 << 32), words);
    }
}

/* A sheet with every kind, cut everywhere, with every fault at every place. */
void words_cut(void)
{
    struct built whole;
    uint8_t *sheet;
    char text[256];
    unsigned number;
    size_t len, at;

    read_hex(&whole, LINK REGION PARAMETER ITEM "06 03 07 02 00");
    for (len = 0; len <= whole.len; len++) {
        label("length", (long)len);
        sheet = place(SHEET, whole.octets, len, 1);
        for (number = T24_SHEET_CUT; number <= T24_SHEET_SPAN; number++)
            for (at = 0; at <= len + 1; at++)
                check(t24_sheet_words(sheet, len, number + ((uint64_t)at << 32),
                                      text, sizeof text) == strlen(text),
                      "a text for any cut");
    }
}
