/* Which octet of a refused command was wrong, in words. */
#include "groups.h"
#include "place.h"
#include "said.h"
#include "sheets.h"

#include "type24_words.h"

/* Written out, so that a slip in the header's constants shows here too. */
static const struct {
    uint8_t code, alarm, place;
    const char *field, *words;
} rows[] = {
    { 0x01, 9, 4, "parameter number",
      "alarm 9 at octet 4, parameter number: not in the sheet" },
    { 0x01, 9, 6, "size",
      "alarm 9 at octet 6, size: not the parameter's, or more than L - 8" },
    { 0x02, 9, 4, "parameter number",
      "alarm 9 at octet 4, parameter number: not in the sheet" },
    { 0x02, 9, 6, "size",
      "alarm 9 at octet 6, size: not the parameter's, or more than L - 8" },
    { 0x03, 9, 4, "ID code", "alarm 9 at octet 4, ID code: not in the sheet" },
    { 0x03, 9, 6, "size", "alarm 9 at octet 6, size: 0, past the item's end, or "
      "more than L - 8" },
    { 0x05, 9, 0, "L", "alarm 9 at octet 0, L: ALM_RD needs 16 or more" },
    { 0x05, 9, 4, "mode", "alarm 9 at octet 4, mode: not 0" },
    { 0x06, 9, 4, "mode", "alarm 9 at octet 4, mode: not 0" },
    { 0x0E, 9, 4, "version", "alarm 9 at octet 4, version: not the sheet's" },
    { 0x0E, 9, 5, "com_mod", "alarm 9 at octet 5, com_mod: not 00, 02 or 06" },
    { 0x0E, 9, 6, "com_time",
      "alarm 9 at octet 6, com_time: 0, or 1 with dual transfer" },
    { 0x0E, 9, 7, "profile", "alarm 9 at octet 7, profile: not the sheet's" },
    { 0x1D, 9, 5, "element", "alarm 9 at octet 5, element: not 11, 21 or 31" },
    { 0x1D, 9, 6, "count", "alarm 9 at octet 6, count: 0, or with its element "
      "more than L - 12 octets" },
    { 0x1D, 9, 8, "address",
      "alarm 9 at octet 8, address: an octet from it on is in no region" },
    { 0x1E, 9, 5, "element", "alarm 9 at octet 5, element: not 11, 21 or 31" },
    { 0x1E, 9, 6, "count", "alarm 9 at octet 6, count: 0, or with its element "
      "more than L - 12 octets" },
    { 0x1E, 9, 8, "address",
      "alarm 9 at octet 8, address: an octet from it on is in no region" },
    { 0x20, 8, 0, "code", "alarm 8, unknown command code" },
    { 0x0E, 12, 0, "code", "alarm 12, command not allowed in this link" },
    { 0x00, 0, 0, "no field of this command", "no alarm" },
    { 0x1D, 0, 0, "no field of this command", "no alarm" },
    { 0x06, 9, 0, "no field of this command",
      "alarm 9 at octet 0, no field of this command" },
    { 0x03, 9, 5, "no field of this command",
      "alarm 9 at octet 5, no field of this command" },
    { 0x00, 9, 4, "reserved octet",
      "alarm 9 at octet 4, no field of this command" },
    { 0x00, 9, 2, "reserved bits",
      "alarm 9 at octet 2, no field of this command" },
    { 0x0E, 10, 4, "no field of this command",
      "alarm 10, no right to part of the span" },
    { 0x1D, 3, 4, "no field of this command",
      "alarm 3, not an alarm of this library" }
};

enum { ROWS = sizeof rows / sizeof rows[0] };

static size_t refused(const uint8_t *sheet, size_t sheet_len, unsigned link,
                      const uint8_t *command, size_t len, unsigned alarm,
                      uint32_t place)
{
    return t24_refused_command_words(sheet, sheet_len, link, command, len, alarm,
                                     place, text, sizeof text);
}

void words_fields(void)
{
    uint8_t command[8] = { 0 };
    size_t i;

    for (i = 0; i < ROWS; i++) {
        label("row", (long)i);
        check(strcmp(t24_field_words(sheet_p, rows[i].code, rows[i].alarm,
                                     rows[i].place), rows[i].field) == 0,
              "words of a field");
        command[0] = rows[i].code;
        same(refused(sheet_p, sizeof sheet_p, 2, place(COMMAND, command, 8, 1),
                     8, rows[i].alarm, rows[i].place), rows[i].words);
        check(t24_refused_command_words(NULL, 0, 0, command, 8, rows[i].alarm,
                                        rows[i].place, NULL, 0)
              == strlen(rows[i].words), "no room at all");
    }
    label("nothing lent", 0);
    same(refused(NULL, 0, 2, NULL, 0, 9, 4),
         "alarm 9 at octet 4, no field of this command");
}

/* Whether a row above has a check of this code, alarm 9 and this place. */
static int has_row(unsigned code, uint32_t place)
{
    size_t i;

    for (i = 0; i < ROWS; i++)
        if (rows[i].code == code && rows[i].alarm == 9 && rows[i].place == place
            && strcmp(rows[i].field, T24_NO_FIELD) != 0
            && strncmp(rows[i].field, "reserved", 8) != 0)
            return 1;
    return 0;
}

/* There is a text for whatever is given, and a field for the rows alone. */
static void any(const uint8_t *command, unsigned alarm, uint32_t octet)
{
    const unsigned code = command[0];
    const char *field = t24_field_words(sheet_p, code, alarm, octet);
    const size_t told = refused(sheet_p, sizeof sheet_p, alarm % 5, command, 1,
                                alarm, octet);

    check(field != NULL && field[0] != '\0', "a field for anything");
    check(told > 0 && told < sizeof text && strlen(text) == told,
          "words for anything");
    if (alarm == 9 && strncmp(field, "reserved", 8) != 0)
        check((strcmp(field, T24_NO_FIELD) != 0) == has_row(code, octet),
              "a field where no check is, or none where one is");
    else if (alarm == 9)
        check(!has_row(code, octet), "a checked field told as reserved");
}

void words_fields_of_any(void)
{
    static const uint32_t far[] = { 255, 256, 260, 65536, 0x7FFFFFFF,
                                    0xFFFFFFFFu };
    static const unsigned odd[] = { 256, 257, 285, 65535, 0xFFFFFFFFu };
    unsigned code, alarm;
    uint32_t octet;
    size_t i;

    for (code = 0; code < 256; code++) {
        const uint8_t alone = (uint8_t)code;
        const uint8_t *command = place(COMMAND, &alone, 1, 1);

        label("code", (long)code);
        for (alarm = 0; alarm < 16; alarm++) {
            for (octet = 0; octet <= T24_L_MAX; octet++)
                any(command, alarm, octet);
            for (i = 0; i < sizeof far / sizeof far[0]; i++)
                any(command, alarm, far[i]);
        }
    }
    for (i = 0; i < sizeof odd / sizeof odd[0]; i++) {
        label("no code and no alarm", (long)i);
        check(strcmp(t24_field_words(sheet_p, odd[i], 9, 4), T24_NO_FIELD) == 0,
              "code");
        check(strcmp(t24_field_words(sheet_p, 0x0E, odd[i], 4), T24_NO_FIELD)
              == 0, "alarm");
    }
}

static void lacking(const char *words, const uint8_t *sheet, size_t sheet_len,
                    unsigned link, const uint8_t *command, size_t len,
                    uint32_t octet)
{
    const uint8_t *lent =
        sheet == NULL ? NULL : place(SHEET, sheet, sheet_len, 1);

    label(words, (long)octet);
    same(refused(lent, sheet_len, link, place(COMMAND, command, len, 1), len, 10,
                 octet), words);
}

/* The address of MEM commands is their own, that of a parameter the sheet's;
 * what is not lent is not told. */
void words_refused_commands(void)
{
    static const uint8_t mem[] = { 0x1D, 0, 0, 0, 0, 0x21, 2, 0, 2, 0x10, 0, 0 };
    static const uint8_t top[] = { 0x1E, 0, 0, 0, 0, 0x11, 4, 0, 0xFC, 0xFF, 0xFF,
                                   0xFF };
    static const uint8_t prm[] = { 0x01, 0, 0, 0, 7, 0, 2 };
    static const uint8_t set[] = { 0x02, 0, 0, 0, 7, 0, 2 };
    static const uint8_t other[] = { 0x02, 0, 0, 0, 7, 1, 2 };
    const size_t whole = sizeof sheet_p;

    lacking("alarm 10: octet 2 of the span, at address 00001004, lacks the right "
            "to be read", sheet_p, whole, 2, mem, sizeof mem, 2);
    lacking("alarm 10: octet 2 of the span, at address 00001004, lacks the right "
            "to be read", NULL, 0, 3, mem, sizeof mem, 2);
    lacking("alarm 10: octet 2 of the span lacks the right to be read", sheet_p,
            whole, 2, mem, sizeof mem - 1, 2);
    lacking("alarm 10: octet 3 of the span, at address FFFFFFFF, lacks the right "
            "to be written out of step", sheet_p, whole, 2, top, sizeof top, 3);
    lacking("alarm 10: octet 0 of the span, at address FFFFFFFC, lacks the right "
            "to be written in step", sheet_p, whole, 3, top, sizeof top, 0);
    lacking("alarm 10: octet 0 of the span, at address FFFFFFFC, lacks the right "
            "to be written", sheet_p, whole, 0, top, sizeof top, 0);
    lacking("alarm 10: octet 1 of the span, at address 00001003, lacks the right "
            "to be read", sheet_p, whole, 2, prm, sizeof prm, 1);
    lacking("alarm 10: octet 0 of the span, at address 00001002, lacks the right "
            "to be written in step", sheet_p, whole, 3, set, sizeof set, 0);
    lacking("alarm 10: octet 0 of the span lacks the right to be written in step",
            sheet_p, whole, 3, other, sizeof other, 0);
    lacking("alarm 10: octet 1 of the span lacks the right to be read", sheet_p,
            24, 2, prm, sizeof prm, 1);
    lacking("alarm 10: octet 1 of the span lacks the right to be read", sheet_p,
            31, 2, prm, sizeof prm, 1);
    lacking("alarm 10: octet 1 of the span lacks the right to be written out of "
            "step", NULL, 0, 2, set, sizeof set, 1);
    lacking("alarm 10: octet 4294967295 of the span, at address 1FFFFFFFB, lacks "
            "the right to be written in step", sheet_p, whole, 3, top,
            sizeof top, 0xFFFFFFFFu);
}
