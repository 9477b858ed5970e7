/* Limits of the sheet met exactly, and passed by one. */
#include "groups.h"
#include "sheets.h"

#include <string.h>

static void told(const char *name, const struct built *sheet, uint64_t verdict,
                 uint64_t lengths)
{
    label(name, 0);
    give(SHEET, sheet->octets, sheet->len);
    give_noise(STATE, T24_STATE_LEN);
    expect(ASK_SHEET, verdict);
    expect(ASK_LENGTHS, lengths);
    if (verdict == T24_DONE) {
        memset(wanted(STATE), 0, T24_STATE_LEN);
        wanted(STATE)[T24_AT_KIND] = T24_STATE_KIND;
        wanted(STATE)[T24_AT_L] = sheet->octets[1];
    }
    expect(ASK_RESET, verdict);
}

static uint64_t pair(uint64_t low, uint64_t high)
{
    return low + (high << 32);
}

static void regions(unsigned count, uint64_t last_length, uint64_t verdict)
{
    struct built sheet;
    unsigned i;

    sheet.len = 0;
    add_link(&sheet, 64);
    for (i = 0; i + 1 < count; i++)
        add_region(&sheet, i, 1, 7);
    add_region(&sheet, i, last_length, 7);
    add_end(&sheet);
    told("regions", &sheet, verdict,
         verdict == T24_DONE ? pair(64, i + last_length) : 0);
}

static void parameters(unsigned count, uint64_t verdict)
{
    struct built sheet;
    unsigned i;

    sheet.len = 0;
    add_link(&sheet, 32);
    add_region(&sheet, 0, 56, 1);
    for (i = 0; i < count; i++)
        add_parameter(&sheet, i, 0, 56);
    add_end(&sheet);
    told("parameters", &sheet, verdict,
         verdict == T24_DONE ? pair(32, 56) : 0);
}

static void items(unsigned count, uint64_t verdict)
{
    struct built sheet;
    unsigned i;

    sheet.len = 0;
    add_link(&sheet, 48);
    for (i = 0; i < count; i++)
        add_item(&sheet, i, 1 + i % 32);
    add_end(&sheet);
    told("items", &sheet, verdict, verdict == T24_DONE ? 48 : 0);
}

static void edges_of_the_address_space(void)
{
    struct built sheet;

    sheet.len = 0;
    add_link(&sheet, 8);
    add_region(&sheet, 0xFFFFFFF0u, 16, 7);
    add_parameter(&sheet, 0xFFFF, 0xFFFFFFF0u, 16);
    add_end(&sheet);
    told("region up to 2^32", &sheet, T24_DONE, pair(8, 16));
    sheet.len = 0;
    add_link(&sheet, 8);
    add_region(&sheet, 0xFFFFFFFFu, 1, 7);
    add_region(&sheet, 0, 1, 7);
    add_end(&sheet);
    told("nothing starts behind 2^32", &sheet, pair(15, 14), 0);
}

void sheet_limits(void)
{
    struct built sheet;
    size_t i;

    for (i = 0; i < sizeof all_l; i++) {
        build_p(&sheet, all_l[i]);
        told("sheet P", &sheet, T24_DONE, pair(all_l[i], 8));
        build_largest(&sheet, all_l[i]);
        told("largest sheet", &sheet, T24_DONE, pair(all_l[i], 65536));
        sheet.len = 0;
        add_link(&sheet, all_l[i]);
        add_end(&sheet);
        told("smallest sheet", &sheet, T24_DONE, all_l[i]);
    }
    regions(32, 65536 - 31, T24_DONE);
    regions(32, 65536 - 30, pair(16, 4 + 31 * 10));
    regions(33, 1, pair(16, 4 + 32 * 10));
    regions(1, 65536, T24_DONE);
    regions(1, 65537, pair(16, 4));
    parameters(64, T24_DONE);
    parameters(65, pair(16, 14 + 64 * 8));
    items(32, T24_DONE);
    items(33, pair(16, 4 + 32 * 35));
    edges_of_the_address_space();
}
