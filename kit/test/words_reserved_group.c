/* A command that is refused at a reserved octet, in words. */
#include "groups.h"
#include "place.h"
#include "said.h"
#include "sheets.h"

#include "type24_words.h"

/* What is said of alarm 9 at a place of a command, under release 2 of the drive
 * rules and under release 1. */
static const struct {
    uint8_t is_short, place, command[16];
    const char *words;
} rows[] = {
    { 0, 7, { 0x01, 0, 0, 0, 7, 0, 2, 1 }, "alarm 9: octet 7 must be zero" },
    { 0, 2, { 0x01, 0, 0x20, 0, 7, 0, 2 },
      "alarm 9: bits 0 to 5 of octet 2 must be zero" },
    { 0, 2, { 0x01, 0, 0xC1, 0, 7, 0, 2 },
      "alarm 9: bits 0 to 5 of octet 2 must be zero" },
    { 0, 3, { 0x00, 0, 0, 0x80 }, "alarm 9: octet 3 must be zero" },
    { 0, 15, { 0x0F, 0, 0, 0, 0, 0, 0, 0, 0, 0, 0, 0, 0, 0, 0, 1 },
      "alarm 9: octet 15 must be zero" },
    { 0, 10, { 0x02, 0, 0, 0, 7, 0, 2, 0, 1, 1, 1 },
      "alarm 9: octet 10 must be zero" },
    { 0, 4, { 0x1E, 0, 0, 0, 1, 0x11, 1 }, "alarm 9: octet 4 must be zero" },
    { 0, 13, { 0x1E, 0, 0, 0, 0, 0x11, 1, 0, 0, 0x10, 0, 0, 1, 1 },
      "alarm 9: octet 13 must be zero" },
    { 0, 14, { 0x1E, 0, 0, 0, 0, 0x21, 1, 0, 0, 0x10, 0, 0, 1, 1, 1 },
      "alarm 9: octet 14 must be zero" },
    { 0, 12, { 0x1D, 0, 0, 0, 0, 0x31, 1, 0, 0, 0x10, 0, 0, 1 },
      "alarm 9: octet 12 must be zero" },
    { 0, 8, { 0x03, 0, 0, 0, 0x21, 0, 1, 0, 1 }, "alarm 9: octet 8 must be zero" },
    { 0, 6, { 0x05, 0, 0, 0, 0, 0, 1 }, "alarm 9: octet 6 must be zero" },
    { 1, 1, { 0x00, 1 }, "alarm 9: octet 1 must be zero" },
    { 1, 2, { 0x00, 0, 0x40 }, "alarm 9: octet 2 must be zero" },
    { 1, 5, { 0x06, 0, 0, 0, 0, 1 }, "alarm 9: octet 5 must be zero" },
    { 1, 7, { 0x0E, 0, 0, 0, 0x30, 0, 1, 1 }, "alarm 9: octet 7 must be zero" },
    { 1, 9, { 0x02, 0, 0, 0, 7, 0, 2, 1, 1, 1 }, "alarm 9: octet 9 must be zero" },
    { 1, 14, { 0x0D, 0, 0, 0, 0, 0, 0, 0, 0, 0, 0, 0, 0, 0, 1 },
      "alarm 9: octet 14 must be zero" }
};

/* What rule release 2 says as 1 does: a field, and a place that no refusal of
 * this command has, since its octet is named or zero. */
static const struct {
    uint8_t is_short, place, command[16];
    const char *words;
} others[] = {
    { 0, 4, { 0x01, 0, 0, 1, 6, 0, 2, 1 },
      "alarm 9 at octet 4, parameter number: not in the sheet" },
    { 0, 7, { 0x0E, 0, 0, 0, 0x30, 0, 1, 1 },
      "alarm 9 at octet 7, profile: not the sheet's" },
    { 0, 8, { 0x1D, 0, 0, 0, 0, 0x11, 1, 0, 0xFF },
      "alarm 9 at octet 8, address: an octet from it on is in no region" },
    { 0, 0, { 0x05, 0, 0, 1 }, "alarm 9 at octet 0, L: ALM_RD needs 16 or more" },
    { 0, 7, { 0x01, 0, 0, 0, 7, 0, 2 },
      "alarm 9 at octet 7, no field of this command" },
    { 0, 2, { 0x00, 0, 0xC0 }, "alarm 9 at octet 2, no field of this command" },
    { 0, 1, { 0x00, 1 }, "alarm 9 at octet 1, no field of this command" },
    { 0, 9, { 0x02, 0, 0, 0, 7, 0, 2, 0, 1, 1 },
      "alarm 9 at octet 9, no field of this command" },
    { 0, 13, { 0x1E, 0, 0, 0, 0, 0x21, 1, 0, 0, 0x10, 0, 0, 1, 1 },
      "alarm 9 at octet 13, no field of this command" },
    { 0, 15, { 0x1E, 0, 0, 0, 0, 0x31, 1, 0, 0, 0x10, 0, 0, 1, 1, 1, 1 },
      "alarm 9 at octet 15, no field of this command" },
    { 0, 3, { 0x20, 0, 0, 1 }, "alarm 9 at octet 3, no field of this command" },
    { 0, 16, { 0 }, "alarm 9 at octet 16, no field of this command" },
    { 1, 15, { 0x00, 0, 0, 0, 0, 0, 0, 0, 0, 0, 0, 0, 0, 0, 0, 1 },
      "alarm 9 at octet 15, no field of this command" },
    { 1, 8, { 0x02, 0, 0, 0, 7, 0, 2, 1, 1 },
      "alarm 9 at octet 8, no field of this command" },
    { 1, 4, { 0x1D, 0, 0, 0, 1 }, "alarm 9 at octet 4, no field of this command" }
};

/* The words under a rule release, 0 for a sheet without its record. */
static size_t refused(int is_short, unsigned release, const uint8_t *command,
                      size_t len, uint32_t octet)
{
    struct built sheet;

    if (is_short)
        build_short(&sheet);
    else
        build_p(&sheet, 16);
    if (release != 0)
        add_rules(&sheet, release);
    return t24_refused_command_words(place(SHEET, sheet.octets, sheet.len, 1),
                                     sheet.len, 2, place(COMMAND, command, len, 1),
                                     len, 9, octet, text, sizeof text);
}

/* The same place with a sheet that has another release, and with none. */
static void not_a_field(int is_short, const uint8_t *command, uint32_t octet)
{
    char words[64];
    unsigned release;

    sprintf(words, "alarm 9 at octet %u, no field of this command",
            (unsigned)octet);
    for (release = 0; release < 2; release++)
        same(refused(is_short, release, command, 16, octet), words);
    if (!is_short)
        same(t24_refused_command_words(NULL, 0, 2, command, 16, 9, octet, text,
                                       sizeof text), words);
}

void words_reserved(void)
{
    size_t i;

    for (i = 0; i < sizeof rows / sizeof rows[0]; i++) {
        label(rows[i].words, (long)i);
        same(refused(rows[i].is_short, 2, rows[i].command, 16, rows[i].place),
             rows[i].words);
        not_a_field(rows[i].is_short, rows[i].command, rows[i].place);
    }
    for (i = 0; i < sizeof others / sizeof others[0]; i++) {
        label(others[i].words, (long)i);
        same(refused(others[i].is_short, 2, others[i].command, 16,
                     others[i].place), others[i].words);
    }
    label("a command cut before the octet", 7);
    same(refused(0, 2, rows[0].command, 7, 7),
         "alarm 9 at octet 7, no field of this command");
    same(t24_refused_command_words(sheet_p, sizeof sheet_p, 2, NULL, 0, 9, 3, text,
                                   sizeof text),
         "alarm 9 at octet 3, no field of this command");
}

/* By the library's own answers: every octet of every command that an exchange
 * refuses under rule release 2 alone has words that name it. */
void words_reserved_answers(void)
{
    static const uint8_t state_1[T24_STATE_LEN] = { 0x12, 1, 16 };
    char words[64];
    struct built sheet;
    uint8_t state[T24_STATE_LEN], memory[8], reply[16], command[16] = { 0 };
    uint64_t answer;
    uint32_t octet;

    for (octet = 1; octet < 15; octet++) {
        label("NOP, octet", (long)octet);
        build_short(&sheet);
        add_rules(&sheet, 2);
        memcpy(state, state_1, sizeof state);
        memset(memory, 0, sizeof memory);
        memset(command, 0, sizeof command);
        command[octet] = 0x40;
        answer = t24_exchange(sheet.octets, sheet.len, state, sizeof state, memory,
                              sizeof memory, command, 16, reply, 16);
        sprintf(words, "alarm 9: octet %u must be zero", (unsigned)octet);
        same(t24_refused_command_words(sheet.octets, sheet.len, 1, command, 16,
                                       t24_reply_alarm(sheet.octets, reply),
                                       t24_place(answer), text, sizeof text),
             words);
    }
}
