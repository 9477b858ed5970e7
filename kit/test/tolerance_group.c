/* The sheet's tolerance record, kind 06: each bound of its count met and passed
 * by one, once, behind the ID items, whole (RULES 3.4). */
#include "groups.h"
#include "sheets.h"

#include <string.h>

enum { PLACE = 32 }; /* where the record stands in sheet P */

/* A valid one; the lengths are those without the record. */
static void taken(const char *name, const struct built *sheet, uint64_t lengths)
{
    label(name, (long)sheet->len);
    give(SHEET, sheet->octets, sheet->len);
    give_noise(STATE, T24_STATE_LEN);
    expect(ASK_SHEET, T24_DONE);
    expect(ASK_LENGTHS, lengths);
    memset(wanted(STATE), 0, T24_STATE_LEN);
    wanted(STATE)[0] = 0x12;
    wanted(STATE)[2] = sheet->octets[1];
    expect(ASK_RESET, T24_DONE);
}

/* Every octet there is, at every L. */
void tolerance_range(void)
{
    const uint64_t eight = (uint64_t)8 << 32;
    struct built sheet;
    unsigned count;
    size_t i;

    for (i = 0; i < sizeof all_l; i++)
        for (count = 0; count < 256; count++) {
            build_tolerant(&sheet, all_l[i], count);
            if (count <= 3)
                taken("in range", &sheet, all_l[i] + eight);
            else if (i == 1 || count == 4 || count == 255)
                sheet_refused("out of range", &sheet, 14, PLACE);
        }
    sheet.len = 0;
    add_link(&sheet, 8);
    add_tolerance(&sheet, 3);
    add_end(&sheet);
    taken("link, tolerance, end", &sheet, 8);
    build_largest(&sheet, 64);
    check(sheet.len == 1961, "octets of the largest sheet");
    taken("behind every other record", &sheet, 64 + ((uint64_t)65536 << 32));
}

/* The record, and one more octet behind it, of a kind that comes too late; the
 * kind is told before its cut body. */
static void behind(unsigned kind, unsigned number)
{
    struct built sheet;

    build_tolerant(&sheet, 16, 1);
    sheet.octets[sheet.len - 1] = (uint8_t)kind;
    sheet_refused("a kind behind it, cut", &sheet, number, PLACE + 2);
    for (; sheet.len < 70; sheet.len++)
        sheet.octets[sheet.len] = 0;
    sheet_refused("a kind behind it", &sheet, number, PLACE + 2);
}

/* Behind the link record alone and behind each other kind it stands well; what
 * belongs before it does not stand behind it. */
void tolerance_places(void)
{
    struct built sheet;

    sheet.len = 0;
    add_tolerance(&sheet, 1);
    add_link(&sheet, 16);
    add_end(&sheet);
    sheet_refused("before the link record", &sheet, 13, 0);
    behind(T24_RECORD_LINK, 13);
    behind(T24_RECORD_REGION, 13);
    behind(T24_RECORD_PARAMETER, 13);
    behind(T24_RECORD_ID, 13);
    behind(T24_RECORD_TOLERANCE, 13);
    behind(T24_RECORD_SHORT_LINK, 13);
    behind(8, 12);
    build_tolerant(&sheet, 16, 1);
    sheet.octets[sheet.len - 1] = T24_RECORD_TOLERANCE;
    add_octet(&sheet, 9);
    sheet_refused("a second one, out of range too", &sheet, 13, PLACE + 2);
    build_tolerant(&sheet, 16, 0);
    sheet.len--;
    add_tolerance(&sheet, 0);
    add_end(&sheet);
    sheet_refused("twice the same", &sheet, 13, PLACE + 2);
    build_p(&sheet, 16);
    add_tolerance(&sheet, 1);
    sheet_refused("behind the end record", &sheet, 13, 33);
    sheet.len = 0;
    add_link(&sheet, 16);
    add_region(&sheet, 0x1000, 4, 3);
    add_tolerance(&sheet, 1);
    add_parameter(&sheet, 7, 0x1000, 2);
    add_end(&sheet);
    sheet_refused("between region and parameter", &sheet, 13, 16);
}

/* Cut at each length; a record that is not whole has no range. */
void tolerance_cut(void)
{
    struct built sheet;

    build_tolerant(&sheet, 16, 4);
    sheet.len = PLACE + 1;
    sheet_refused("its count is missing", &sheet, 11, PLACE);
    build_tolerant(&sheet, 16, 3);
    sheet.len = PLACE + 2;
    sheet_refused("no end record", &sheet, 11, PLACE + 2);
    sheet.len = 0;
    add_octet(&sheet, T24_RECORD_TOLERANCE);
    sheet_refused("cut, and before the link record", &sheet, 13, 0);
    sheet.len = 0;
    add_link(&sheet, 16);
    add_octet(&sheet, T24_RECORD_TOLERANCE);
    sheet_refused("cut behind the link record", &sheet, 11, 4);
    build_tolerant(&sheet, 16, 3);
    add_octet(&sheet, 0);
    sheet_refused("an octet behind the end", &sheet, 13, PLACE + 3);
    while (sheet.len <= T24_SHEET_MAX)
        add_octet(&sheet, T24_RECORD_TOLERANCE);
    sheet_refused("a sheet too long", &sheet, 11, 0);
}
