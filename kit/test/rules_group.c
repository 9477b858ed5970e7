/* The sheet's rule release record, kind 07: each bound of its number met and
 * passed by one, once, last before the end record, whole (RULES 3.4). */
#include "groups.h"
#include "sheets.h"

#include <string.h>

enum { PLACE = 32 }; /* where the record stands in sheet P */

/* A valid one; the lengths are those without the record. */
static void taken(const char *name, const struct built *sheet, uint64_t lengths)
{
    label(name, (long)sheet->len);
    give(SHEET, sheet->octets, sheet->len);
    give_noise(STATE, T24_STATE_LEN);
    expect(ASK_SHEET, T24_DONE);
    expect(ASK_LENGTHS, lengths);
    memset(wanted(STATE), 0, T24_STATE_LEN);
    wanted(STATE)[0] = 0x12;
    wanted(STATE)[2] = sheet->octets[1];
    expect(ASK_RESET, T24_DONE);
}

/* Every octet there is, at every L and in the short type. */
void rules_range(void)
{
    const uint64_t eight = (uint64_t)8 << 32;
    struct built sheet;
    unsigned number;
    size_t i;

    for (i = 0; i <= sizeof all_l; i++)
        for (number = 0; number < 256; number++) {
            if (i < sizeof all_l)
                build_p(&sheet, all_l[i]);
            else
                build_short(&sheet);
            add_rules(&sheet, number);
            if (number == 1 || number == 2)
                taken("in range", &sheet, sheet.octets[1] + eight);
            else if (i == 1 || number < 4 || number == 255)
                sheet_refused("out of range", &sheet, 14, PLACE);
        }
}

/* Behind the link record alone, and behind each other kind. */
void rules_taken(void)
{
    struct built sheet;

    sheet.len = 0;
    add_link(&sheet, 8);
    add_rule_release(&sheet, 2);
    add_end(&sheet);
    taken("link, rules, end", &sheet, 8);
    sheet.octets[0] = T24_RECORD_SHORT_LINK;
    sheet.octets[1] = 16;
    taken("short link, rules, end", &sheet, 16);
    sheet.len = 4;
    add_region(&sheet, 0x1000, 4, 3);
    add_rule_release(&sheet, 1);
    add_end(&sheet);
    taken("behind a region", &sheet, 16 + ((uint64_t)4 << 32));
    sheet.len = 4;
    add_item(&sheet, 1, 4);
    add_rule_release(&sheet, 2);
    add_end(&sheet);
    taken("behind an ID item", &sheet, 16);
    build_tolerant(&sheet, 64, 0);
    add_rules(&sheet, 2);
    taken("behind a tolerance", &sheet, 64 + ((uint64_t)8 << 32));
    build_largest(&sheet, 64);
    check(sheet.octets[sheet.len - 3] == 7, "the largest sheet has the record");
    taken("behind every other record", &sheet, 64 + ((uint64_t)65536 << 32));
}

/* The record, and one more octet behind it, of a kind that comes too late; the
 * kind is told before its cut body. */
static void behind(unsigned kind, unsigned number)
{
    struct built sheet;

    build_p(&sheet, 16);
    add_rules(&sheet, 2);
    sheet.octets[sheet.len - 1] = (uint8_t)kind;
    sheet_refused("a kind behind it, cut", &sheet, number, PLACE + 2);
    for (; sheet.len < 70; sheet.len++)
        sheet.octets[sheet.len] = 0;
    sheet_refused("a kind behind it", &sheet, number, PLACE + 2);
}

/* Nothing but the end stands behind it, and a link record before it. */
void rules_places(void)
{
    struct built sheet;
    unsigned kind;

    sheet.len = 0;
    add_rule_release(&sheet, 2);
    add_link(&sheet, 16);
    add_end(&sheet);
    sheet_refused("before the link record", &sheet, 13, 0);
    for (kind = 1; kind <= 7; kind++)
        behind(kind, 13);
    behind(8, 12);
    build_p(&sheet, 16);
    add_rules(&sheet, 2);
    add_rules(&sheet, 2);
    sheet_refused("twice the same", &sheet, 13, PLACE + 2);
    sheet.octets[PLACE + 3] = 9;
    sheet_refused("a second one, out of range too", &sheet, 13, PLACE + 2);
    build_tolerant(&sheet, 16, 1);
    add_rules(&sheet, 1);
    sheet.octets[sheet.len - 1] = T24_RECORD_TOLERANCE;
    add_octet(&sheet, 1);
    sheet_refused("a tolerance before and behind it", &sheet, 13, PLACE + 4);
    build_p(&sheet, 16);
    add_rule_release(&sheet, 2);
    sheet_refused("behind the end record", &sheet, 13, 33);
}

/* Cut at each length; a record that is not whole has no range. */
void rules_cut(void)
{
    struct built sheet;

    build_p(&sheet, 16);
    add_rules(&sheet, 3);
    sheet.len = PLACE + 1;
    sheet_refused("its number is missing", &sheet, 11, PLACE);
    build_p(&sheet, 16);
    add_rules(&sheet, 2);
    sheet.len = PLACE + 2;
    sheet_refused("no end record", &sheet, 11, PLACE + 2);
    sheet.len = 0;
    add_octet(&sheet, T24_RECORD_RULE_RELEASE);
    sheet_refused("cut, and before the link record", &sheet, 13, 0);
    sheet.len = 0;
    add_short_link(&sheet, 16);
    add_octet(&sheet, T24_RECORD_RULE_RELEASE);
    sheet_refused("cut behind the link record", &sheet, 11, 4);
    build_p(&sheet, 16);
    add_rules(&sheet, 2);
    add_octet(&sheet, 0);
    sheet_refused("an octet behind the end", &sheet, 13, PLACE + 3);
}
