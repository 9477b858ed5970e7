/* Commands, replies and lost cycles of the short type in words. */
#include "groups.h"
#include "place.h"
#include "said.h"
#include "sheets.h"

#include "type24_words.h"

static const uint8_t kind[] = { 5 };

/* The sheet as it is lent to what reads its first octet alone. */
static const uint8_t *lent_kind(void)
{
    return place(SHEET, kind, sizeof kind, 1);
}

static void command(const char *words, size_t len, const uint8_t *octets)
{
    label(words, (long)len);
    same(t24_command_words(lent_kind(), place(COMMAND, octets, len, 1), len,
                           text, sizeof text), words);
}

void words_short_commands(void)
{
    static const uint8_t prm[16] = { 0x02, 0x11, 0x22, 0x33, 7, 1, 1, 0xAA, 0,
                                     0, 0, 0, 0, 0, 0, 0xF4 };
    static const uint8_t id[16] = { 0x03, 0, 0xC0, 0, 0x0A, 3, 2, 9, 0, 0, 0, 0,
                                    0, 0, 0, 0x30 };
    static const uint8_t alm[16] = { 0x05, 0, 0, 0, 1, 9 };
    static const uint8_t clear[16] = { 0x06, 0, 0, 0, 0, 9 };
    static const uint8_t connect[16] = { 0x0E, 0, 0, 0, 0x30, 6, 2, 1 };
    static const uint8_t mem[16] = { 0x1D, 0x14, 0, 0, 0, 0x21, 2, 0, 0, 0x10 };
    static const uint8_t nop[16] = { 0x00, 0x55, 0xFF, 0, 0, 0, 0, 0, 0, 0, 0, 0,
                                     0, 0, 0, 0x21 };

    command("02 PRM_WR number 263, 1 octet; MN 4, SN 15", 16, prm);
    command("02 PRM_WR number 263, 1 octet; MN 0, SN 0", 15, prm);
    command("02 PRM_WR number 7, 0 octets; MN 0, SN 0", 5, prm);
    command("03 ID_RD item 0A, offset 3, 2 octets; MN 0, SN 3", 16, id);
    command("05 ALM_RD mode 1; MN 0, SN 0", 16, alm);
    command("06 ALM_CLR mode 0; MN 0, SN 0", 16, clear);
    command("0E CONNECT version 30, com_mod 06, com_time 2; MN 0, SN 0", 16,
            connect);
    command("1D unknown code; MN 0, SN 0", 16, mem);
    command("00 NOP; MN 1, SN 2", 16, nop);
    command("00 NOP; MN 0, SN 0", 0, nop);
}

/* From the octet named on, up to the next line's, the words are these. */
static const struct {
    uint8_t code, octet;
    const char *words;
} fields[] = {
    { 0x00, 0, "the code" }, { 0x00, 1, "the command's alarm" },
    { 0x00, 2, "status, low octet" }, { 0x00, 3, "status, high octet" },
    { 0x00, 4, "unnamed, must be 0" }, { 0x00, 15, "RWDT" },
    { 0x00, 16, "not an octet of a reply" }, { 0x01, 4, "PRM_RD: number" },
    { 0x01, 6, "PRM_RD: size" }, { 0x01, 7, "PRM_RD: data, and zeros behind it" },
    { 0x01, 15, "RWDT" }, { 0x02, 4, "PRM_WR: number" },
    { 0x02, 6, "PRM_WR: size" }, { 0x02, 7, "PRM_WR: data, and zeros behind it" },
    { 0x02, 15, "RWDT" }, { 0x03, 4, "ID_RD: code of the item" },
    { 0x03, 5, "ID_RD: offset" }, { 0x03, 6, "ID_RD: size" },
    { 0x03, 7, "ID_RD: data, and zeros behind it" }, { 0x03, 15, "RWDT" },
    { 0x05, 4, "ALM_RD: mode" }, { 0x05, 5, "ALM_RD: command latch" },
    { 0x05, 6, "ALM_RD: communication latch" }, { 0x05, 7, "unnamed, must be 0" },
    { 0x05, 15, "RWDT" }, { 0x06, 4, "unnamed, must be 0" }, { 0x06, 15, "RWDT" },
    { 0x0E, 4, "CONNECT: version" }, { 0x0E, 5, "CONNECT: com_mod" },
    { 0x0E, 6, "CONNECT: com_time" }, { 0x0E, 7, "unnamed, must be 0" },
    { 0x0E, 15, "RWDT" }, { 0x1D, 4, "unnamed, must be 0" }, { 0x1D, 15, "RWDT" },
    { 0x1E, 4, "unnamed, must be 0" }, { 0x1E, 15, "RWDT" },
    { 0x77, 0, "the code" }, { 0x77, 1, "the command's alarm" }
};

void words_short_octets(void)
{
    const char *zero = "the body of a refused or not executed command is zero";
    const size_t count = sizeof fields / sizeof fields[0];
    size_t i, octet, next;

    for (i = 0; i < count; i++) {
        next = i + 1 < count && fields[i + 1].code == fields[i].code
            ? fields[i + 1].octet : fields[i].octet + 1u;
        for (octet = fields[i].octet; octet < next; octet++) {
            const int body = octet > 3 && octet < 15;

            label("octet", (long)(256 * fields[i].code + octet));
            check(strcmp(t24_octet_words(lent_kind(), fields[i].code, octet),
                         fields[i].words) == 0, "words of an octet");
            check(strcmp(t24_reply_octet_words(kind, fields[i].code, octet, 1),
                         fields[i].words) == 0, "executed");
            check(strcmp(t24_reply_octet_words(kind, fields[i].code, octet, 0),
                         body ? zero : fields[i].words) == 0, "not executed");
        }
    }
}

static void status(unsigned alarm, unsigned low, unsigned high,
                   const char *words)
{
    const uint8_t octets[4] = { 0, (uint8_t)alarm, (uint8_t)low, (uint8_t)high };

    label("alarm and status", (long)(alarm + 256 * low + 65536 * high));
    same(t24_status_words(lent_kind(), place(REPLY, octets, 4, 1), text,
                          sizeof text), words);
    check(t24_status_words(kind, octets, NULL, 0) == strlen(words), "no room");
}

/* Octet 1 is the alarm as a whole; what the enhanced type has in the status is
 * told as bits that are not 0. */
void words_short_status(void)
{
    status(0, 4, 0, "accepted");
    status(0, 5, 0, "accepted; a latch is set");
    status(9, 5, 0, "alarm 9, an octet of the command is wrong; a latch is set");
    status(8, 5, 0xC0, "alarm 8, unknown command code; communication latch 12, a "
           "cycle was lost: MN did not follow, or SN was not RSN; a latch is set");
    status(0, 5, 0xC0, "alarm 0, none; communication latch 12, a cycle was lost: "
           "MN did not follow, or SN was not RSN; a latch is set");
    status(0, 6, 0, "not executed, a lost cycle was tolerated");
    status(0x19, 5, 0, "alarm 25, not an alarm of this library; a latch is set");
    status(0, 5, 9, "accepted; a latch is set; bits 8 to 11 are not 0");
    status(0, 0x84, 0, "accepted; bits 3 to 7 are not 0");
    status(0, 0x08, 1, "accepted; bit 2 is 0, must be 1; bits 3 to 7 are not 0; "
           "bits 8 to 11 are not 0");
}

/* Each check that the short type has, and what it has not. */
static const struct {
    uint8_t code, alarm, place;
    const char *field, *words;
} rows[] = {
    { 0x01, 9, 4, "parameter number",
      "alarm 9 at octet 4, parameter number: not in the sheet" },
    { 0x02, 9, 6, "size",
      "alarm 9 at octet 6, size: not the parameter's, or more than 8" },
    { 0x03, 9, 4, "ID code", "alarm 9 at octet 4, ID code: not in the sheet" },
    { 0x03, 9, 6, "size", "alarm 9 at octet 6, size: 0, past the item's end, or "
      "more than 8" },
    { 0x05, 9, 4, "mode", "alarm 9 at octet 4, mode: not 0" },
    { 0x06, 9, 4, "mode", "alarm 9 at octet 4, mode: not 0" },
    { 0x0E, 9, 4, "version", "alarm 9 at octet 4, version: not the sheet's" },
    { 0x0E, 9, 5, "com_mod", "alarm 9 at octet 5, com_mod: not 00, 02 or 06" },
    { 0x0E, 9, 6, "com_time",
      "alarm 9 at octet 6, com_time: 0, or 1 with dual transfer" },
    { 0x0E, 9, 7, "reserved octet",
      "alarm 9 at octet 7, no field of this command" },
    { 0x05, 9, 0, T24_NO_FIELD, "alarm 9 at octet 0, no field of this command" },
    { 0x1D, 9, 6, T24_NO_FIELD, "alarm 9 at octet 6, no field of this command" },
    { 0x1E, 10, 6, T24_NO_FIELD, "alarm 10, no right to part of the span" },
    { 0x1D, 8, 0, "code", "alarm 8, unknown command code" },
    { 0x0E, 12, 0, "code", "alarm 12, command not allowed in this link" },
    { 0x02, 10, 1, "octet of the span", "alarm 10: octet 1 of the span, at address "
      "00001003, lacks the right to be written in step" },
    { 0x00, 0, 0, T24_NO_FIELD, "no alarm" }
};

void words_short_fields(void)
{
    uint8_t octets[16] = { 0, 0, 0, 0, 7, 0, 2 };
    struct built sheet;
    size_t i;

    build_short(&sheet);
    for (i = 0; i < sizeof rows / sizeof rows[0]; i++) {
        label("row", (long)i);
        octets[0] = rows[i].code;
        check(strcmp(t24_field_words(lent_kind(), rows[i].code, rows[i].alarm,
                                     rows[i].place), rows[i].field) == 0,
              "words of a field");
        same(t24_refused_command_words(place(SHEET, sheet.octets, sheet.len, 1),
                                       sheet.len, 3,
                                       place(COMMAND, octets, 16, 1), 16,
                                       rows[i].alarm, rows[i].place, text,
                                       sizeof text), rows[i].words);
    }
}

void words_short_lost(void)
{
    static const uint8_t known[] = { 0x12, 3, 16, 0, 1, 1, 3, 5, 0, 0, 1 };
    static const uint8_t octets[16] = { 0, 0x54, 0, 0, 0, 0, 0, 0, 0, 0, 0, 0, 0,
                                        0, 0, 0x72 };
    const uint8_t *state = place(STATE, known, sizeof known, 1);
    const uint8_t *lent = place(COMMAND, octets, sizeof octets, 1);
    struct built sheet;

    label("WDT", 0x72);
    same(t24_watchdog_words(lent_kind(), state, lent, text, sizeof text),
         "MN 4 expected, 2 seen; SN 5 expected, 7 seen");
    build_short_tolerant(&sheet, 2);
    same(t24_lost_words(place(SHEET, sheet.octets, sheet.len, 1), sheet.len,
                        state, lent, text, sizeof text),
         "tolerated, 2 of 2 in a row: MN 4 expected, 2 seen; SN 5 expected, 7 "
         "seen");
}
