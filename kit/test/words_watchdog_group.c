/* Lost cycles, tolerance and releases in words. */
#include "groups.h"
#include "place.h"
#include "said.h"
#include "sheets.h"

#include "type24_words.h"

static void said(const uint8_t *before, unsigned wdt, const char *words)
{
    const uint8_t command[8] = { 0x1D, (uint8_t)wdt };
    const uint8_t *lent = place(COMMAND, command, sizeof command, 1);
    const uint8_t *kept = place(STATE, before, T24_STATE_LEN, 1);

    label("WDT", (long)wdt);
    same(t24_watchdog_words(sheet_p, kept, lent, text, sizeof text), words);
    check(t24_watchdog_words(sheet_p, kept, lent, NULL, 0) == strlen(words),
          "no room at all");
}

void words_watchdog(void)
{
    static const uint8_t known[] = { 0x12, 3, 16, 0, 1, 1, 3, 5, 0, 0, 0 };
    static const uint8_t turned[] = { 0x12, 3, 16, 1, 2, 1, 15, 14, 0, 0, 0 };
    static const uint8_t entered[] = { 0x12, 3, 16, 0, 1, 0, 0, 0, 0, 0, 0 };
    static const uint8_t async[] = { 0x12, 2, 16, 0, 1, 0, 0, 0, 0, 12, 0 };

    said(known, 0x74, "MN 4 expected, 4 seen; SN 5 expected, 7 seen");
    said(known, 0x53, "MN 4 expected, 3 seen; SN 5 expected, 5 seen");
    said(known, 0xF0, "MN 4 expected, 0 seen; SN 5 expected, 15 seen");
    said(turned, 0x1F, "MN 0 expected, 15 seen; SN 14 expected, 1 seen");
    said(turned, 0xE0, "MN 0 expected, 0 seen; SN 14 expected, 14 seen");
    said(entered, 0x74, "not asked: MN is not known");
    said(async, 0x74, "not asked: the link is not 3");
}

/* Under sheet P with this tolerance, the state in a row of so many. */
static void lost(unsigned tolerance, unsigned count, unsigned wdt,
                 const char *words)
{
    uint8_t before[] = { 0x12, 3, 16, 0, 1, 1, 3, 5, 0, 0, 0 };
    const uint8_t command[8] = { 0x1D, (uint8_t)wdt };
    struct built sheet;

    before[10] = (uint8_t)count;
    build_tolerant(&sheet, 16, tolerance);
    label("tolerance and count", (long)(10 * tolerance + count));
    same(t24_lost_words(place(SHEET, sheet.octets, sheet.len, 1), sheet.len,
                        place(STATE, before, sizeof before, 1),
                        place(COMMAND, command, sizeof command, 1), text,
                        sizeof text), words);
    check(t24_lost_words(sheet.octets, sheet.len, before, command, NULL, 0)
          == strlen(words), "no room at all");
}

void words_lost(void)
{
    static const uint8_t async[] = { 0x12, 2, 16, 0, 1, 0, 0, 0, 0, 0, 0 };
    static const uint8_t known[] = { 0x12, 3, 16, 0, 1, 1, 3, 5, 0, 0, 0 };
    static const uint8_t command[8] = { 0x1D, 0x53 };

    lost(0, 0, 0x53, "MN 4 expected, 3 seen; SN 5 expected, 5 seen");
    lost(1, 0, 0x53, "tolerated, 1 of 1 in a row: MN 4 expected, 3 seen; SN 5 "
         "expected, 5 seen");
    lost(3, 0, 0x74, "tolerated, 1 of 3 in a row: MN 4 expected, 4 seen; SN 5 "
         "expected, 7 seen");
    lost(3, 2, 0x74, "tolerated, 3 of 3 in a row: MN 4 expected, 4 seen; SN 5 "
         "expected, 7 seen");
    lost(3, 3, 0x74, "the 4th in a row, 3 are tolerated: MN 4 expected, 4 seen; "
         "SN 5 expected, 7 seen");
    lost(2, 2, 0xF0, "the 3rd in a row, 2 are tolerated: MN 4 expected, 0 seen; "
         "SN 5 expected, 15 seen");
    lost(1, 1, 0x53, "the 2nd in a row, 1 is tolerated: MN 4 expected, 3 seen; "
         "SN 5 expected, 5 seen");
    lost(3, 1, 0x54, "MN 4 expected, 4 seen; SN 5 expected, 5 seen");
    label("out of step", 0);
    same(t24_lost_words(NULL, 0, async, command, text, sizeof text),
         "not asked: the link is not 3");
    label("no sheet", 0);
    same(t24_lost_words(NULL, 0, known, command, text, sizeof text),
         "MN 4 expected, 3 seen; SN 5 expected, 5 seen");
}

static void tolerates(const struct built *sheet, size_t len, unsigned most)
{
    label("tolerance of a sheet of", (long)len);
    check(t24_tolerance(place(SHEET, sheet->octets, len, 1), len)
          == most, "t24_tolerance");
}

/* By the record alone, wherever its octets stand elsewhere; nothing outside the
 * sheet is read, however it is cut. */
void words_tolerance(void)
{
    struct built sheet;
    unsigned count;
    size_t len;

    for (count = 0; count <= 3; count++) {
        build_tolerant(&sheet, 16, count);
        tolerates(&sheet, sheet.len, count);
    }
    for (len = 0; len <= sheet.len; len++)
        tolerates(&sheet, len, len < 34 ? 0 : 3);
    build_p(&sheet, 16);
    tolerates(&sheet, sheet.len, 0);
    build_largest(&sheet, 64);
    tolerates(&sheet, sheet.len, 3);
    sheet.len = 0;
    add_link(&sheet, 6);
    sheet.octets[2] = sheet.octets[3] = 6; /* version and profile 6 */
    add_item(&sheet, 6, 32);
    memset(sheet.octets + sheet.len - 32, 6, 32);
    add_end(&sheet);
    tolerates(&sheet, sheet.len, 0);
    sheet.octets[4] = 7; /* an unknown kind before anything else */
    tolerates(&sheet, sheet.len, 0);
}

/* Of one kit; what two of them say, oven.c and the host of release 1 show. */
void words_release(void)
{
    same(t24_release_words(text, sizeof text),
         "archive and header are of release 3");
    check(t24_release_words(NULL, 0)
          == strlen("archive and header are of release 3"), "no room at all");
}
