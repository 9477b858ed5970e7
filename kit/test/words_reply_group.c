/* Commands, replies and traces in words. */
#include "groups.h"
#include "place.h"
#include "said.h"
#include "sheets.h"

#include "type24_words.h"

static void status(unsigned low, unsigned high, const char *words)
{
    const uint8_t octets[4] = { 0, 0, (uint8_t)low, (uint8_t)high };

    label("status", (long)(low + 256 * high));
    same(t24_status_words(sheet_p, place(REPLY, octets, 4, 1), text,
                          sizeof text), words);
    check(t24_status_words(sheet_p, octets, NULL, 0) == strlen(words),
          "no room at all");
}

/* Bit 1: nothing was executed, whatever else the status has. */
static void status_tolerated(void)
{
    status(6, 0x00, "not executed, a lost cycle was tolerated");
    status(0x47, 0x00, "not executed, a lost cycle was tolerated; a latch is "
           "set; identity 1");
    status(7, 0xC0, "not executed, a lost cycle was tolerated; communication "
           "latch 12, a cycle was lost: MN did not follow, or SN was not RSN; "
           "a latch is set");
    status(7, 0x09, "alarm 9, an octet of the command is wrong; a lost cycle was "
           "tolerated; a latch is set");
    status(0x3A, 0x00, "not executed, a lost cycle was tolerated; bit 2 is 0, "
           "must be 1; bits 3 to 5 are not 0");
}

void words_status(void)
{
    status(4, 0x00, "accepted");
    status(5, 0x00, "accepted; a latch is set");
    status(5, 0x09, "alarm 9, an octet of the command is wrong; a latch is set");
    status(5, 0xC9, "alarm 9, an octet of the command is wrong; communication "
           "latch 12, a cycle was lost: MN did not follow, or SN was not RSN; "
           "a latch is set");
    status(5, 0xC0, "alarm 0, none; communication latch 12, a cycle was lost: "
           "MN did not follow, or SN was not RSN; a latch is set");
    status(5, 0x0C, "alarm 12, command not allowed in this link; a latch is set");
    status(0, 0x00, "accepted; bit 2 is 0, must be 1");
    status(12, 0x30, "alarm 0, none; communication latch 3, not an alarm of this "
           "library; bits 3 to 5 are not 0");
    status(0x44, 0x00, "accepted; identity 1");
    status(0x85, 0x00, "accepted; a latch is set; identity 2");
    status(0xC5, 0x0A, "alarm 10, no right to part of the span; a latch is set; "
           "identity 3");
    status(0xC5, 0xC0, "alarm 0, none; communication latch 12, a cycle was lost: "
           "MN did not follow, or SN was not RSN; a latch is set; identity 3");
    status(0xE0, 0x00, "accepted; identity 3; bit 2 is 0, must be 1; "
           "bits 3 to 5 are not 0");
    status_tolerated();
    check(strcmp(t24_communication_words(0), "none") == 0, "no latch");
    check(strcmp(t24_communication_words(12), t24_alarm_words(12)) != 0,
          "one 12 is not the other");
}

/* From the octet named on, up to the next line's, the words are these. */
static const struct {
    uint8_t code, octet;
    const char *words;
} fields[] = {
    { T24_NOP, 0, "the code" }, { T24_NOP, 1, "RWDT" },
    { T24_NOP, 2, "status, low octet, with the command's identity" },
    { T24_NOP, 3, "status, high octet" },
    { T24_NOP, 4, "unnamed, must be 0" }, { T24_PRM_RD, 4, "PRM_RD: number" },
    { T24_PRM_RD, 6, "PRM_RD: size" }, { T24_PRM_RD, 7, "unnamed, must be 0" },
    { T24_PRM_RD, 8, "PRM_RD: data, and zeros behind it" },
    { T24_PRM_WR, 4, "PRM_WR: number" }, { T24_PRM_WR, 6, "PRM_WR: size" },
    { T24_PRM_WR, 7, "unnamed, must be 0" },
    { T24_PRM_WR, 8, "PRM_WR: data, and zeros behind it" },
    { T24_ID_RD, 4, "ID_RD: code of the item" },
    { T24_ID_RD, 5, "ID_RD: offset" }, { T24_ID_RD, 6, "ID_RD: size" },
    { T24_ID_RD, 8, "ID_RD: data, and zeros behind it" },
    { T24_ALM_RD, 4, "unnamed, must be 0" },
    { T24_ALM_RD, 8, "ALM_RD: command latch" },
    { T24_ALM_RD, 9, "ALM_RD: communication latch" },
    { T24_ALM_RD, 10, "unnamed, must be 0" },
    { T24_ALM_CLR, 4, "unnamed, must be 0" },
    { T24_SYNC_SET, 4, "unnamed, must be 0" },
    { T24_CONNECT, 4, "CONNECT: version" }, { T24_CONNECT, 5, "CONNECT: com_mod" },
    { T24_CONNECT, 6, "CONNECT: com_time" },
    { T24_CONNECT, 7, "CONNECT: profile" }, { T24_CONNECT, 8, "unnamed, must be 0" },
    { T24_DISCONNECT, 4, "unnamed, must be 0" },
    { T24_MEM_RD, 4, "unnamed, must be 0" }, { T24_MEM_RD, 5, "MEM_RD: element" },
    { T24_MEM_RD, 6, "MEM_RD: count" }, { T24_MEM_RD, 8, "MEM_RD: address" },
    { T24_MEM_RD, 12, "MEM_RD: data, and zeros behind it" },
    { T24_MEM_WR, 4, "unnamed, must be 0" }, { T24_MEM_WR, 5, "MEM_WR: element" },
    { T24_MEM_WR, 6, "MEM_WR: count" }, { T24_MEM_WR, 8, "MEM_WR: address" },
    { T24_MEM_WR, 12, "MEM_WR: data, and zeros behind it" },
    { 0x77, 4, "unnamed, must be 0" }, { 0x77, 64, "not an octet of a reply" }
};

void words_octets(void)
{
    const char *zero = "the body of a refused or not executed command is zero";
    const size_t count = sizeof fields / sizeof fields[0];
    size_t i, octet, next;

    for (i = 0; i < count; i++) {
        next = i + 1 < count && fields[i + 1].code == fields[i].code
            ? fields[i + 1].octet : 65u;
        if (next == 65 && fields[i].octet < 64)
            next = 64;
        for (octet = fields[i].octet; octet < next; octet++) {
            label("octet", (long)(256 * fields[i].code + octet));
            check(strcmp(t24_octet_words(sheet_p, fields[i].code, octet),
                         fields[i].words) == 0, "words of an octet");
            check(strcmp(t24_reply_octet_words(sheet_p, fields[i].code, octet,
                                               1), fields[i].words) == 0,
                  "executed");
            check(strcmp(t24_reply_octet_words(sheet_p, fields[i].code, octet,
                                               0),
                         octet < 4 || octet > 63 ? fields[i].words : zero) == 0,
                  "not executed");
        }
    }
}

static void command(const char *words, size_t len, const uint8_t *octets)
{
    label(words, (long)len);
    same(t24_command_words(sheet_p, place(COMMAND, octets, len, 1), len, text,
                           sizeof text), words);
}

void words_commands(void)
{
    static const uint8_t mem[] = { 0x1D, 0x14, 0, 0, 0, 0x21, 2, 0, 0, 0x10, 0, 0,
                                   0, 0, 0, 0 };
    static const uint8_t odd[] = { 0x1E, 0, 0, 0, 0, 0x12, 1, 1, 0, 0, 0, 0x80,
                                   0, 0, 0, 0 };
    static const uint8_t prm[] = { 0x02, 0xF0, 0, 0, 7, 1, 1, 0 };
    static const uint8_t id[] = { 0x03, 0, 0, 0, 0x0A, 3, 2, 0 };
    static const uint8_t alm[] = { 0x05, 0, 0, 0, 1, 0, 0, 0 };
    static const uint8_t connect[] = { 0x0E, 0, 0, 0, 0x30, 6, 2, 1 };
    static const uint8_t unknown[] = { 0x77, 3, 0, 0, 0, 0, 0, 0 };
    static const uint8_t again[] = { 0x1D, 0x14, 0xBF, 0xFF, 0, 0x21, 2, 0, 0,
                                     0x10, 0, 0, 0, 0, 0, 0 };
    static const uint8_t other[] = { 0x0F, 5, 0x40, 0, 0, 0, 0, 0 };
    static const uint8_t ignored[] = { 0x0F, 5, 0x3F, 0xFF, 0, 0, 0, 0 };

    command("1D MEM_RD address 00001000, 4 octets; MN 4, SN 1", 16, mem);
    command("1D MEM_RD without an address, 4 octets; MN 4, SN 1", 8, mem);
    command("1E MEM_WR address 80000000, element 12, count 257; MN 0, SN 0", 16,
            odd);
    command("02 PRM_WR number 263, 1 octet; MN 0, SN 15", 8, prm);
    command("03 ID_RD item 0A, offset 3, 2 octets; MN 0, SN 0", 8, id);
    command("05 ALM_RD mode 1; MN 0, SN 0", 8, alm);
    command("0E CONNECT version 30, com_mod 06, com_time 2, profile 01; "
            "MN 0, SN 0", 8, connect);
    command("77 unknown code; MN 3, SN 0", 8, unknown);
    command("00 NOP; MN 0, SN 0", 0, unknown);
    command("1D MEM_RD address 00001000, 4 octets; MN 4, SN 1, identity 2", 16,
            again);
    command("0F DISCONNECT; MN 5, SN 0, identity 1", 8, other);
    command("0F DISCONNECT; MN 5, SN 0", 2, other);
    command("0F DISCONNECT; MN 5, SN 0", 8, ignored);
}

static void trace(const char *words, size_t len, unsigned kind, uint64_t answer)
{
    uint8_t octets[66] = { T24_TRACE_16 };

    octets[33] = (uint8_t)kind;
    label(words, (long)len);
    same(t24_trace_words(place(TRACE, octets, len, 1), len, 16, answer, text,
                         sizeof text), words);
}

void words_traces(void)
{
    const uint64_t at = (uint64_t)33 << 32;

    trace("31 at octet 33: record 1: kind 77 is unknown: a record begins with "
          "21 to 25", 66, 0x77, T24_TRACE_KIND + at);
    trace("32 at octet 33: record 1: kind 23 has L 32, the sheet 16", 66, 0x23,
          T24_TRACE_L + at);
    trace("33 at octet 33: record 1: 3 of its 33 octets are missing", 63, 0x22,
          T24_TRACE_CUT + at);
    trace("31 at octet 33: record 1: trace: unknown record kind; but not in "
          "these octets", 33, 0x77, T24_TRACE_KIND + at);
    trace("35: trace is too long", 66, 0x22, T24_TRACE_LONG);
}
