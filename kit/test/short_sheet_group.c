/* The short link record of a sheet: its L, its place, and where it is cut. */
#include "groups.h"
#include "sheets.h"
#include "variants.h"

#include <string.h>

enum { FIRST = 4 }; /* where the second record stands */

/* A valid one: its lengths, a state record made under it and used. */
static void taken(const char *name, const struct built *sheet, uint64_t memory)
{
    static const uint8_t reset[] = { 0x12, 0, 16, 0, 0, 0, 0, 0, 0, 0, 0 };

    label(name, (long)sheet->len);
    give(SHEET, sheet->octets, sheet->len);
    give_noise(STATE, T24_STATE_LEN);
    expect(ASK_SHEET, T24_DONE);
    expect(ASK_LENGTHS, 16 + (memory << 32));
    memcpy(wanted(STATE), reset, sizeof reset);
    expect(ASK_RESET, T24_DONE);
    go_on(STATE);
    wanted(STATE)[T24_AT_LINK] = T24_LINK_DISCONNECTED;
    expect(ASK_ENABLE, T24_DONE);
    go_on(STATE);
    expect(ASK_ENABLE, T24_NOT_DISABLED);
}

/* L 16 alone; version and profile may be anything. */
void short_sheet_l(void)
{
    struct built sheet;
    unsigned value;

    for (value = 0; value < 256; value++) {
        build_short(&sheet);
        sheet.octets[1] = (uint8_t)value;
        if (value == 16)
            taken("L 16", &sheet, 8);
        else
            sheet_refused("another L", &sheet, 14, 0);
        build_short(&sheet);
        sheet.octets[2] = (uint8_t)value;
        sheet.octets[3] = (uint8_t)~value;
        give(SHEET, sheet.octets, sheet.len);
        expect_on_side(ASK_SHEET, T24_DONE, (int)(value & 1u));
    }
}

/* With nothing behind it, with each kind behind it, and with as much as a sheet
 * may have. */
void short_sheet_taken(void)
{
    struct built sheet;

    sheet.len = 0;
    add_short_link(&sheet, 16);
    add_end(&sheet);
    taken("alone", &sheet, 0);
    build_short_tolerant(&sheet, 3);
    taken("all but an ID item", &sheet, 8);
    sheet.len = 0;
    add_short_link(&sheet, 16);
    add_tolerance(&sheet, 1);
    add_end(&sheet);
    taken("a tolerance behind it", &sheet, 0);
    sheet.len = 0;
    add_short_link(&sheet, 16);
    add_item(&sheet, 5, 5);
    add_end(&sheet);
    taken("an ID item behind it", &sheet, 0);
    build_largest(&sheet, 16);
    sheet.octets[0] = T24_RECORD_SHORT_LINK;
    taken("the largest", &sheet, 65536);
}

/* The record where another one should be, whole and cut behind its kind, and with
 * an L that is none: its place comes before its length and range. */
static void out_of_place(const char *name, const struct built *before)
{
    struct built sheet = *before;

    add_octet(&sheet, T24_RECORD_SHORT_LINK);
    sheet_refused(name, &sheet, 13, before->len);
    sheet = *before;
    add_short_link(&sheet, 16);
    add_end(&sheet);
    sheet_refused(name, &sheet, 13, before->len);
    sheet.octets[before->len + 1] = 99;
    sheet_refused(name, &sheet, 13, before->len);
}

/* Behind a link record, itself, and each other kind. */
void short_sheet_places(void)
{
    struct built sheet;

    sheet.len = 0;
    add_link(&sheet, 16);
    out_of_place("behind a link record", &sheet);
    sheet.octets[0] = T24_RECORD_SHORT_LINK;
    out_of_place("twice", &sheet);
    add_region(&sheet, 0x1000, 4, 3);
    out_of_place("behind a region", &sheet);
    add_parameter(&sheet, 7, 0x1000, 2);
    out_of_place("behind a parameter", &sheet);
    add_item(&sheet, 7, 4);
    out_of_place("behind an ID item", &sheet);
    add_tolerance(&sheet, 1);
    out_of_place("behind a tolerance", &sheet);
    add_rule_release(&sheet, 2);
    out_of_place("behind a rule release", &sheet);
    add_end(&sheet);
    out_of_place("behind the end", &sheet);
    sheet.len = 0;
    add_link(&sheet, 64);
    out_of_place("behind a link record of another L", &sheet);
}

/* The other way round: a link record behind it, and what comes first is told. */
void short_sheet_others(void)
{
    struct built sheet;

    sheet.len = 0;
    add_short_link(&sheet, 16);
    add_octet(&sheet, T24_RECORD_LINK);
    sheet_refused("a link record behind it, cut", &sheet, 13, FIRST);
    sheet.len = FIRST;
    add_link(&sheet, 16);
    add_end(&sheet);
    sheet_refused("a link record behind it", &sheet, 13, FIRST);
    sheet.octets[1] = 32;
    sheet_refused("its own range first", &sheet, 14, 0);
    build_short(&sheet);
    sheet.octets[0] = T24_RECORD_REGION;
    sheet_refused("a region in its place", &sheet, 13, 0);
    sheet.octets[0] = 8;
    sheet_refused("an unknown kind in its place", &sheet, 12, 0);
    sheet.len = 0;
    add_short_link(&sheet, 16);
    add_tolerance(&sheet, 4);
    add_end(&sheet);
    sheet_refused("a tolerance out of range behind it", &sheet, 14, FIRST);
}

/* Cut at every length, and with an L that is not looked at in a cut body. */
void short_sheet_cut(void)
{
    static const size_t starts[] = { 0, 4, 14, 24, 32, 34 };
    struct built sheet;
    size_t len, place, i;

    build_short_tolerant(&sheet, 2);
    for (len = 1; len < 35; len++) {
        for (place = 0, i = 0; i < 6; i++)
            if (starts[i] <= len)
                place = starts[i];
        sheet.len = len;
        sheet_refused("cut", &sheet, 11, place);
    }
    sheet.octets[1] = 8;
    for (len = 1; len < 4; len++) {
        sheet.len = len;
        sheet_refused("cut, with L 8", &sheet, 11, 0);
    }
    build_short(&sheet);
    while (sheet.len < T24_SHEET_MAX + 1)
        add_octet(&sheet, 0);
    sheet_refused("one octet over the longest", &sheet, 11, 0);
    sheet.len--;
    sheet_refused("longest, but with octets behind the end", &sheet, 13, 33);
}

/* Each other fault behind it, at every call. */
void short_sheet_faults(void)
{
    struct built sheet;
    uint64_t fault;
    int variant;

    for (variant = 1; variant < SHEET_VARIANTS; variant++) {
        fault = give_sheet(16, variant);
        sheet.len = given_len(SHEET);
        memcpy(sheet.octets, given(SHEET), sheet.len);
        sheet.octets[0] = T24_RECORD_SHORT_LINK;
        sheet_refused("variant", &sheet, t24_number(fault), t24_place(fault));
    }
}
