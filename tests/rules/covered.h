/* What the examples of all pages together are examples of, for check.c. */
#ifndef COVERED_H
#define COVERED_H

#include "lent.h"

enum { SHORT_KIND = 0x05, TOLERATED_BIT = 0x02, LINK_AT = 1 };

static int numbers[64], turns[2], versions;
static struct { const char *name; int codes[256], alarms[16], lost, tolerated; } types[2] = {
    {.name = "the enhanced type"}, {.name = "the short type"}};

/* An answer of a call, by its number. */
static void count_number(const char *call, unsigned long number)
{
    if (strcmp(call, "t24_lengths") && strcmp(call, "t24_version") && number < 64)
        numbers[number] = 1;
    if (!strcmp(call, "t24_turn"))
        turns[number != T24_DONE] = 1;
    if (!strcmp(call, "t24_version"))
        versions++;
}

/* What the reply is an example of, by its own octets and not by the kit's helpers: a slip of theirs must not hide one
 * of a page. */
static void count_reply(const struct octets *state_was)
{
    const int is_short = sheet.at[0] == SHORT_KIND;
    const unsigned alarm = is_short ? reply.at[1] : reply.at[3] % 16u;

    types[is_short].alarms[alarm % 16] = 1;
    if (reply.at[2] & TOLERATED_BIT)
        types[is_short].tolerated = 1;
    else if (state_was->at[LINK_AT] == T24_LINK_SYNC && state.at[LINK_AT] == T24_LINK_ASYNC)
        types[is_short].lost = 1;
    else if (alarm == T24_ALARM_NONE)
        types[is_short].codes[reply.at[0]] = 1;
}

/* The short type has all commands but the last two. */
static void ask_type(int is_short)
{
    static const uint8_t all_codes[] = {T24_NOP, T24_PRM_RD, T24_PRM_WR, T24_ID_RD, T24_ALM_RD, T24_ALM_CLR,
        T24_SYNC_SET, T24_CONNECT, T24_DISCONNECT, T24_MEM_RD, T24_MEM_WR};
    static const uint8_t all_alarms[] = {T24_ALARM_NONE, T24_ALARM_CODE, T24_ALARM_DATA, T24_ALARM_RIGHTS,
        T24_ALARM_LINK};

    page = types[is_short].name;
    for (size_t i = 0; i < sizeof all_codes - (is_short ? 2 : 0); i++)
        if (!types[is_short].codes[all_codes[i]])
            fail("a command without an example that is accepted");
    for (size_t i = 0; i < sizeof all_alarms; i++)
        if (!types[is_short].alarms[all_alarms[i]])
            fail("an alarm without an example");
    if (!types[is_short].lost || !types[is_short].tolerated)
        fail("no example of a lost cycle, or of a tolerated one");
}

/* Of every number but 35, and of the calls that answer no such number. */
static void ask_numbers(void)
{
    page = "all pages";
    for (int n = 0; n < 35; n++)
        if (!numbers[n] && (n <= 6 || (n >= 11 && n <= 17) || (n >= 21 && n <= 28) || n >= 31))
            fail("a number without an example");
    if (!turns[0] || !turns[1] || !versions)
        fail("no example of t24_turn, refused or not, or of t24_version");
}

#endif
