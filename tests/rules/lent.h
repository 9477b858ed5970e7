/* What the examples lend: octets by name, and the calls on them, for check.c. */
#ifndef LENT_H
#define LENT_H

#include <ctype.h>
#include <stdio.h>
#include <stdlib.h>
#include <string.h>

#include "type24.h"

enum { ROOM = 70000 };

struct octets {
    size_t len;
    uint8_t at[ROOM];
};

static struct octets sheet, state, memory, command, trace, old, reply, second, list;
static const char *page;
static int line_number;

static void fail(const char *why)
{
    fprintf(stderr, "rules: %s:%d: %s\n", page, line_number, why);
    exit(1);
}

/* Octets of two digits with blanks between them; 00*27 is 27 of them. */
static void read_octets(const char *text, struct octets *into)
{
    while (*text) {
        size_t times = 1;
        char *end;
        const unsigned long octet = strtoul(text, &end, 16);
        if (end != text + 2 || !isxdigit((unsigned char)*text))
            fail("an octet has two digits");
        if (*end == '*')
            times = strtoul(end + 1, &end, 10);
        if (*end && *end != ' ')
            fail("no blank behind an octet");
        if (times > ROOM - into->len)
            fail("too many octets");
        memset(into->at + into->len, (int)octet, times);
        into->len += times;
        text = end + strspn(end, " ");
    }
}

static int same(const struct octets *a, const struct octets *b)
{
    return a->len == b->len && memcmp(a->at, b->at, a->len) == 0;
}

/* The call of a name on what is lent; t24_turn only reads the old record. */
static uint64_t answer_of(const char *call)
{
    if (!strcmp(call, "t24_sheet"))
        return t24_sheet(sheet.at, sheet.len);
    if (!strcmp(call, "t24_lengths"))
        return t24_lengths(sheet.at, sheet.len);
    if (!strcmp(call, "t24_reset"))
        return t24_reset(sheet.at, sheet.len, state.at, state.len);
    if (!strcmp(call, "t24_enable"))
        return t24_enable(sheet.at, sheet.len, state.at, state.len);
    if (!strcmp(call, "t24_exchange"))
        return t24_exchange(sheet.at, sheet.len, state.at, state.len, memory.at, memory.len, command.at, command.len, reply.at, reply.len);
    if (!strcmp(call, "t24_replay"))
        return t24_replay(sheet.at, sheet.len, state.at, state.len, memory.at, memory.len, trace.at, trace.len);
    if (!strcmp(call, "t24_turn"))
        return t24_turn(sheet.at, sheet.len, old.at, old.len, state.at, state.len);
    if (!strcmp(call, "t24_difference"))
        return t24_difference(sheet.at, sheet.len, second.at, second.len, list.at, list.len);
    if (!strcmp(call, "t24_version"))
        return t24_version();
    fail("no such call");
    return 0;
}

#endif
