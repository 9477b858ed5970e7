/* Sheet faults 11 to 17 with their places, told alike by every call. */
#include "groups.h"
#include "sheets.h"

#include <string.h>

void sheet_refused(const char *name, const struct built *sheet,
                   unsigned number, size_t place)
{
    const uint64_t answer = number + ((uint64_t)place << 32);

    label(name, (long)number);
    give(SHEET, sheet->octets, sheet->len);
    give(STATE, state_a, sizeof state_a);
    give(MEMORY, memory_p, sizeof memory_p);
    give_noise(COMMAND, 16);
    give_noise(REPLY, 16);
    give(TRACE, NULL, 0);
    give(OLD, old_a, sizeof old_a);
    expect(ASK_SHEET, answer);
    expect(ASK_LENGTHS, 0);
    expect(ASK_RESET, answer);
    expect(ASK_ENABLE, answer);
    expect(ASK_EXCHANGE, answer);
    expect(ASK_REPLAY, answer);
    expect(ASK_TURN, answer);
    give(SECOND, sheet_p, sizeof sheet_p);
    give_noise(LIST, 16);
    expect(ASK_DIFFERENCE, answer);
    give(SECOND, sheet->octets, sheet->len);
    give(SHEET, sheet_p, sizeof sheet_p);
    expect(ASK_DIFFERENCE, answer + T24_SECOND);
}

static void start(struct built *sheet)
{
    sheet->len = 0;
    add_link(sheet, 16);
}

static void cut_sheets(void)
{
    static const size_t starts[] = { 0, 4, 14, 24, 32 };
    struct built sheet;
    size_t len, i, place;

    build_p(&sheet, 16);
    for (len = 0; len < sizeof sheet_p; len++) {
        sheet.len = len;
        for (place = 0, i = 0; i < 5; i++)
            if (starts[i] <= len)
                place = starts[i];
        sheet_refused("cut", &sheet, 11, place);
    }
    build_p(&sheet, 16);
    while (sheet.len < T24_SHEET_MAX + 1)
        add_octet(&sheet, 0);
    sheet_refused("one octet over the longest", &sheet, 11, 0);
    sheet.len = T24_SHEET_MAX;
    sheet_refused("longest, but with octets behind the end", &sheet, 13, 33);
}

static void unknown_kinds(void)
{
    struct built sheet;

    sheet.len = 0;
    add_octet(&sheet, 8);
    sheet_refused("unknown kind first, cut too", &sheet, 12, 0);
    start(&sheet);
    add_octet(&sheet, 0xFF);
    sheet_refused("unknown kind second", &sheet, 12, 4);
    build_p(&sheet, 16);
    sheet.octets[32] = 8;
    sheet_refused("unknown kind for the end", &sheet, 12, 32);
}

static void kinds_out_of_place(void)
{
    struct built sheet;

    sheet.len = 0;
    add_end(&sheet);
    sheet_refused("end first", &sheet, 13, 0);
    sheet.len = 0;
    add_octet(&sheet, T24_RECORD_REGION);
    sheet_refused("region first, cut too", &sheet, 13, 0);
    start(&sheet);
    add_octet(&sheet, T24_RECORD_LINK);
    sheet_refused("second link, cut too", &sheet, 13, 4);
    build_p(&sheet, 16);
    sheet.octets[32] = T24_RECORD_REGION;
    sheet_refused("region behind a parameter", &sheet, 13, 32);
    start(&sheet);
    add_item(&sheet, 1, 4);
    add_octet(&sheet, T24_RECORD_PARAMETER);
    sheet_refused("parameter behind an item", &sheet, 13, 39);
    build_p(&sheet, 16);
    add_octet(&sheet, 0xFF);
    sheet_refused("an octet behind the end", &sheet, 13, 33);
}

static void region_with(const char *name, uint64_t start_at, uint64_t length,
                        unsigned rights, unsigned number)
{
    struct built sheet;

    start(&sheet);
    add_region(&sheet, 0x1000, 4, 3);
    add_region(&sheet, start_at, length, rights);
    add_end(&sheet);
    sheet_refused(name, &sheet, number, 14);
}

static void parameter_with(const char *name, unsigned parameter,
                           uint64_t address, unsigned size, unsigned number)
{
    struct built sheet;

    start(&sheet);
    add_region(&sheet, 0x1000, 100, 3);
    add_region(&sheet, 0xFFFFFFF0u, 16, 3);
    add_parameter(&sheet, 7, 0x1000, 1);
    add_parameter(&sheet, parameter, address, size);
    add_end(&sheet);
    sheet_refused(name, &sheet, number, 32);
}

static void item_with(const char *name, unsigned code, unsigned length,
                      unsigned number)
{
    struct built sheet;

    start(&sheet);
    add_item(&sheet, 7, 4);
    add_item(&sheet, code, length);
    add_end(&sheet);
    sheet_refused(name, &sheet, number, 39);
}

static void bad_fields(void)
{
    struct built sheet;

    build_p(&sheet, 9);
    sheet_refused("L 9", &sheet, 14, 0);
    build_p(&sheet, 0);
    sheet_refused("L 0", &sheet, 14, 0);
    region_with("region of length 0", 0x2000, 0, 3, 14);
    region_with("region past 2^32", 0xFFFFFFFFu, 2, 3, 14);
    region_with("rights bit 3", 0x2000, 4, 8, 14);
    parameter_with("size 0", 8, 0x1000, 0, 14);
    parameter_with("size 57", 8, 0x1000, 57, 14);
    item_with("item of length 0", 8, 0, 14);
    item_with("item of length 33", 8, 33, 14);
    start(&sheet);
    add_item(&sheet, 7, 31);
    sheet.octets[4 + 34] = 1;
    sheet_refused("item octet past its length", &sheet, 14, 4);
}

static void order_and_span(void)
{
    region_with("overlap by one octet", 0x1003, 4, 3, 15);
    region_with("before the one before", 0x0FFC, 4, 3, 15);
    parameter_with("same number", 7, 0x1000, 1, 15);
    parameter_with("lower number, unmapped too", 6, 0x3000, 1, 15);
    item_with("same code", 7, 4, 15);
    item_with("lower code", 6, 4, 15);
    parameter_with("unmapped", 8, 0x3000, 1, 17);
    parameter_with("last octet unmapped", 8, 0x1000 + 45, 56, 17);
    parameter_with("first octet unmapped", 8, 0x0FFF, 2, 17);
    parameter_with("span past 2^32", 8, 0xFFFFFFF1u, 16, 17);
}

static void first_fault_of_two(void)
{
    struct built sheet;

    start(&sheet);
    add_region(&sheet, 0x1000, 0, 9);
    add_octet(&sheet, 0xEE);
    sheet_refused("range before a later unknown kind", &sheet, 14, 4);
    region_with("range before overlap", 0x1000, 0, 3, 14);
    region_with("excess before overlap", 0x1000, 65536, 3, 16);
    region_with("range before excess", 0x1000, 70000, 8, 14);
}

void sheet_faults(void)
{
    cut_sheets();
    unknown_kinds();
    kinds_out_of_place();
    bad_fields();
    order_and_span();
    first_fault_of_two();
}
