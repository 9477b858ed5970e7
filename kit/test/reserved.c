/* Slaves under a release of the drive rules, and commands whose reserved octets
 * are written out. */
#include "reserved.h"
#include "sheets.h"

#include <string.h>

void give_ruled_slave(int is_short, unsigned l, unsigned release,
                      const uint8_t *state)
{
    uint8_t memory[RULES_MEMORY];
    struct built sheet;
    unsigned i;

    sheet.len = 0;
    if (is_short)
        add_short_link(&sheet, l);
    else
        add_link(&sheet, l);
    add_region(&sheet, 0x1000, 8, 3);
    add_region(&sheet, 0x1008, 8, 6);
    add_parameter(&sheet, 7, 0x1002, 2);
    add_parameter(&sheet, 8, 0x1000, 8);
    add_parameter(&sheet, 9, 0x1000, 7);
    add_item(&sheet, 0x21, 4);
    add_tolerance(&sheet, 1);
    add_end(&sheet);
    if (release != 0)
        add_rules(&sheet, release);
    for (i = 0; i < RULES_MEMORY; i++)
        memory[i] = (uint8_t)(0x0A + i);
    give(SHEET, sheet.octets, sheet.len);
    give(STATE, state, T24_STATE_LEN);
    give(MEMORY, memory, sizeof memory);
    give_noise(REPLY, l);
}

static void give_changed(const struct named *one, size_t octet, unsigned value)
{
    uint8_t command[RULES_L];

    memcpy(command, one->command, sizeof command);
    command[octet] = (uint8_t)value;
    give(COMMAND, command, sizeof command);
}

void still_accepted(const struct named *one, size_t octet, unsigned value)
{
    give_changed(one, octet, value);
    memcpy(wanted(REPLY), one->reply, RULES_L);
    memcpy(wanted(STATE), one->after, T24_STATE_LEN);
    memcpy(wanted(MEMORY) + one->to, one->command + one->from, one->size);
    expect_on_side(ASK_EXCHANGE, T24_DONE, (int)(value & 1u));
}

/* In step the exchange counts, refused or not; the rows have last MN 3 and RSN 5
 * there. */
void stray_refused(int is_short, const struct named *one, size_t octet,
                   unsigned value)
{
    const int in_step = one->before[T24_AT_LINK] == T24_LINK_SYNC;

    give_changed(one, octet, value);
    memset(wanted(REPLY), 0, RULES_L);
    wanted(REPLY)[0] = one->command[0];
    wanted(REPLY)[is_short ? 15 : 1] = in_step ? 0x64 : 0;
    wanted(REPLY)[2] = 5;
    wanted(REPLY)[is_short ? 1 : 3] = 9;
    if (!is_short && octet == 2)
        wanted(REPLY)[2] = (uint8_t)(5 + (value & 0xC0u));
    wanted(STATE)[T24_AT_COMMAND_ALARM] = 9;
    if (in_step) {
        wanted(STATE)[T24_AT_LAST_MN] = 4;
        wanted(STATE)[T24_AT_RSN] = 6;
    }
    expect_on_side(ASK_EXCHANGE, built_at((uint32_t)octet), (int)(value & 1u));
}

/* One octet with one value: what is named is not asked here, but for the data of
 * a write, which is free. */
static void one_octet(int is_short, const struct named *one, size_t octet,
                      unsigned value)
{
    const int bits = one->octets[octet] == 'b';
    unsigned release;

    if (one->octets[octet] == '#')
        return;
    for (release = 0; release < 3; release++) {
        give_ruled_slave(is_short, RULES_L, release, one->before);
        label(one->name, (long)(1000 * octet + value));
        if (bits && (release < 2 || (value & 0x3Fu) == 0)) {
            struct named echoed = *one;

            echoed.reply[2] = (uint8_t)(one->reply[2] + (value & 0xC0u));
            still_accepted(&echoed, octet, value);
        } else if (release < 2) {
            still_accepted(one, octet, value);
        } else {
            stray_refused(is_short, one, octet, value);
        }
    }
}

void each_octet(int is_short, const struct named *one)
{
    unsigned release, bit;
    size_t octet;

    check(strlen(one->octets) == RULES_L, "a letter for each octet");
    for (release = 0; release < 3; release++) {
        give_ruled_slave(is_short, RULES_L, release, one->before);
        label(one->name, (long)release);
        still_accepted(one, 0, one->command[0]);
    }
    for (octet = 0; octet < RULES_L; octet++) {
        for (bit = 0; bit < 8; bit++)
            one_octet(is_short, one, octet, 1u << bit);
        one_octet(is_short, one, octet, 0xC0);
        one_octet(is_short, one, octet, 0xFF);
    }
}
