/* t24_turn: a record of release 1 becomes one of this release (RULES 8.16). */
#include "groups.h"
#include "sheets.h"
#include "variants.h"

#include <string.h>

/* A valid record of each link, as release 1 has it; the third octet is L. */
static const uint8_t olds[][T24_OLD_STATE_LEN] = {
    { 0x11, 0, 16, 0, 0, 0, 0, 0, 0, 0 }, { 0x11, 1, 16, 0, 0, 0, 0, 0, 0, 0 },
    { 0x11, 1, 16, 0, 0, 0, 0, 0, 8, 12 }, { 0x11, 2, 16, 0, 1, 0, 0, 0, 0, 0 },
    { 0x11, 2, 16, 0, 255, 0, 0, 0, 12, 0 }, { 0x11, 3, 16, 0, 1, 0, 0, 0, 9, 0 },
    { 0x11, 3, 16, 1, 2, 0, 0, 0, 0, 12 }, { 0x11, 3, 16, 0, 1, 1, 15, 15, 0, 0 },
    { 0x11, 3, 16, 1, 255, 1, 3, 5, 10, 12 }, { 0x11, 3, 16, 0, 1, 1, 0, 0, 0, 0 }
};

enum { OLDS = sizeof olds / sizeof olds[0] };

static void give_turn(const uint8_t *old, size_t old_len, size_t state_len)
{
    give(OLD, old, old_len);
    give_noise(STATE, state_len);
}

/* The same fields behind the new kind, and none lost in a row. */
static void turned(const uint8_t *old)
{
    give_turn(old, 10, 11);
    wanted(STATE)[0] = 0x12;
    memcpy(wanted(STATE) + 1, old + 1, 9);
    wanted(STATE)[10] = 0;
    expect(ASK_TURN, T24_DONE);
}

static void refused(const uint8_t *old, size_t old_len, size_t state_len)
{
    give_turn(old, old_len, state_len);
    expect(ASK_TURN, T24_BAD_STATE);
}

/* Under every tolerance and at every L; what comes out is taken as it is. */
void turn_valid(void)
{
    struct built sheet;
    uint8_t old[10];
    unsigned tolerance;
    size_t i, j;

    for (j = 0; j < sizeof all_l; j++)
        for (tolerance = 0; tolerance <= 3; tolerance++) {
            build_tolerant(&sheet, all_l[j], tolerance);
            give(SHEET, sheet.octets, sheet.len);
            for (i = 0; i < OLDS; i++) {
                label("old record", (long)i);
                memcpy(old, olds[i], sizeof old);
                old[2] = all_l[j];
                turned(old);
                go_on(STATE);
                wanted(STATE)[1] = old[1] == 0 ? 1 : old[1];
                expect(ASK_ENABLE, old[1] == 0 ? T24_DONE : T24_NOT_DISABLED);
            }
        }
    build_p(&sheet, 16);
    give(SHEET, sheet.octets, sheet.len);
    for (i = 0; i < OLDS; i++)
        turned(olds[i]);
}

/* One octet is wrong, or does not go with the link; each bound passed by one. */
static const struct {
    uint8_t from, octet, value;
} wrong[] = {
    { 3, 0, 0x12 }, { 3, 0, 0x10 }, { 3, 0, 0x00 }, { 3, 1, 4 }, { 3, 1, 255 },
    { 3, 1, 0 }, { 3, 1, 1 }, { 3, 2, 8 }, { 3, 2, 32 }, { 3, 2, 0 },
    { 3, 3, 1 }, { 6, 3, 2 }, { 3, 4, 0 }, { 0, 4, 1 }, { 1, 4, 255 },
    { 6, 4, 1 }, { 6, 4, 0 }, { 3, 5, 1 }, { 7, 5, 2 }, { 7, 5, 0 },
    { 7, 6, 16 }, { 5, 6, 1 }, { 3, 6, 1 }, { 7, 7, 16 }, { 5, 7, 1 },
    { 1, 7, 1 }, { 3, 8, 1 }, { 3, 8, 7 }, { 3, 8, 11 }, { 3, 8, 13 },
    { 0, 8, 8 }, { 3, 9, 11 }, { 3, 9, 13 }, { 3, 9, 8 }, { 0, 9, 12 }
};

void turn_bad_fields(void)
{
    uint8_t old[10];
    size_t i;

    give(SHEET, sheet_p, sizeof sheet_p);
    for (i = 0; i < sizeof wrong / sizeof wrong[0]; i++) {
        label("row", (long)i);
        memcpy(old, olds[wrong[i].from], sizeof old);
        turned(old);
        old[wrong[i].octet] = wrong[i].value;
        refused(old, 10, 11);
    }
}

/* Lengths near the right ones; also of a record that is not valid. */
void turn_lengths(void)
{
    uint8_t old[12] = { 0x11, 3, 16, 0, 1, 1, 3, 5, 0, 0, 0, 0 };
    size_t old_len, state_len;

    give(SHEET, sheet_p, sizeof sheet_p);
    for (old_len = 0; old_len <= 12; old_len++)
        for (state_len = 0; state_len <= 24; state_len++) {
            label("length of the new", (long)state_len);
            if (old_len == 10 && state_len == 11)
                turned(old);
            else
                refused(old, old_len, state_len);
        }
    label("a new record for an old one", 0);
    old[0] = 0x12;
    refused(old, 10, 11);
    refused(old, 11, 11);
    label("really big buffers", 0);
    old[0] = 0x11;
    refused(old, 10, 11 + 256);
    refused(old, 10, 11 + 65536);
    give_noise(OLD, 10 + 65536);
    memcpy(given(OLD), old, 10);
    memcpy(wanted(OLD), old, 10);
    give_noise(STATE, 11);
    expect(ASK_TURN, T24_BAD_STATE);
}

/* Each fault of a sheet goes before a bad old record and a bad length. */
void turn_sheets(void)
{
    uint64_t fault;
    int sheet;

    for (sheet = 1; sheet < SHEET_VARIANTS; sheet++) {
        label("sheet variant", sheet);
        fault = give_sheet(16, sheet);
        give_turn(olds[3], 10, 11);
        expect(ASK_TURN, fault);
        give_turn(olds[3], 9, 11);
        expect(ASK_TURN, fault);
        give_turn(olds[3], 10, 10);
        expect(ASK_TURN, fault);
    }
    give_sheet(32, 0);
    label("another L than the sheet's", 32);
    refused(olds[3], 10, 11);
    give(OLD, NULL, 0);
}
