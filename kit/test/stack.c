/* Measures the stack that every call needs, alone, less what an empty function
 * takes there: on the smallest sheet, on the largest, on the largest of the short
 * type, and on the largest with a last region that gives no right; every code in
 * every link, accepted, refused, and in a cycle that is lost, tolerated or not;
 * refused calls; old records; traces that agree, that differ and that have a fault;
 * the longest list of differences, an empty one, and one that has no room.
 * Fails where a call takes what the header promises, or more. */
#include "painted.h"
#include "sheets.h"
#include "stack_commands.h"

#include <stdio.h>
#include <stdlib.h>
#include <string.h>

#ifndef PROMISED
#define PROMISED 1024u /* what the header tells the integrator */
#endif
#define RECORDS 256u

enum {
    SHEET, LENGTHS, RESET, TURN, VERSION, ENABLE, EXCHANGE, REPLAY, DIFFERENCE,
    CALLS
};
static const char *const names[CALLS] = { "sheet",    "lengths", "reset",
                                          "turn",     "version", "enable",
                                          "exchange", "replay",  "difference" };

static struct built sheet, second, list;
static size_t l, sheet_len, state_len, old_len, memory_len;
static uint8_t state[T24_STATE_LEN + 1], memory[T24_MEMORY_MAX + 1];
static uint8_t command[T24_L_MAX], reply[T24_L_MAX];
static uint8_t start[T24_STATE_LEN], old[T24_OLD_STATE_LEN];
static uint8_t trace[RECORDS * (1 + 2 * T24_L_MAX)];
static size_t trace_len, list_len;
static uint64_t answer;
static size_t empty, most[CALLS];
static unsigned accepted[32], refused[32], tolerated, left, differed, faulty;

static void nothing(void) { answer = 0; }
static void ask_sheet(void) { answer = t24_sheet(sheet.octets, sheet_len); }

static void ask_lengths(void) { answer = t24_lengths(sheet.octets, sheet_len); }

static void ask_reset(void)
{
    answer = t24_reset(sheet.octets, sheet_len, state, state_len);
}

static void ask_turn(void)
{
    answer = t24_turn(sheet.octets, sheet_len, old, old_len, state, state_len);
}

static void ask_version(void) { answer = t24_version() - T24_RELEASE; }

static void ask_enable(void)
{
    answer = t24_enable(sheet.octets, sheet_len, state, state_len);
}

static void ask_exchange(void)
{
    answer = t24_exchange(sheet.octets, sheet_len, state, state_len, memory,
                          memory_len, command, l, reply, l);
}

static void ask_replay(void)
{
    answer = t24_replay(sheet.octets, sheet_len, state, state_len, memory,
                        memory_len, trace, trace_len);
}

static void ask_difference(void)
{
    answer = t24_difference(sheet.octets, sheet_len, second.octets, second.len,
                            list.octets, list_len);
}

static void (*const calls[CALLS])(void) = { ask_sheet,    ask_lengths,
                                            ask_reset,    ask_turn,
                                            ask_version,  ask_enable,
                                            ask_exchange, ask_replay,
                                            ask_difference };

static void measure(int which)
{
    const size_t used = stack_used_by(calls[which]);

    if (used == sizeof painted)
        exit(3); /* it did not run */
    if (used - empty > most[which])
        most[which] = used - empty;
}

/* What must come out, or nothing was measured that is meant here. */
static void must(int holds, const char *what)
{
    if (!holds) {
        printf("stack: FAILED: not measured: %s\n", what);
        exit(1);
    }
}

static void lend(size_t length, size_t octets)
{
    l = length;
    sheet_len = sheet.len;
    state_len = T24_STATE_LEN;
    old_len = sizeof old;
    memset(old, 0, sizeof old);
    old[T24_AT_KIND] = T24_OLD_STATE_KIND;
    old[T24_AT_L] = (uint8_t)length;
    memory_len = octets;
    trace_len = 0;
    memset(memory, 0, sizeof memory);
}

/* Every call on lengths that are one too short and one too long, and on a
 * sheet that is cut or that ends with a wrong record. */
static void measure_refused_calls(void)
{
    int which, lack;

    for (which = SHEET; which < CALLS; which++) {
        for (lack = 0; lack < 5; lack++) {
            sheet_len = sheet.len - (lack == 0) - (lack == 1) * sheet.len;
            state_len = T24_STATE_LEN - (lack == 2);
            memory_len += lack == 3;
            old_len -= lack == 4;
            measure(which);
            memory_len -= lack == 3;
            old_len += lack == 4;
        }
        sheet_len = sheet.len;
        state_len = T24_STATE_LEN;
        sheet.octets[sheet.len - 1] = 9;
        measure(which);
        sheet.octets[sheet.len - 1] = T24_RECORD_END;
    }
}

/* The start of the exchanges: a link, with MN known in the last one. */
static void enter(unsigned link)
{
    memset(start, 0, sizeof start);
    start[T24_AT_KIND] = T24_STATE_KIND;
    start[T24_AT_LINK] = (uint8_t)link;
    start[T24_AT_L] = (uint8_t)l;
    start[T24_AT_COM_TIME] = link > T24_LINK_DISCONNECTED;
    start[T24_AT_MN_KNOWN] = link == T24_LINK_SYNC;
    start[T24_AT_LAST_MN] = link == T24_LINK_SYNC ? 15 : 0;
}

static void measure_exchange(unsigned code, int wrong, int lost)
{
    make_command(command, l, code, wrong);
    t24_put_wdt(sheet.octets, command, lost ? 5 : 0); /* 0 follows 15 */
    memcpy(state, start, sizeof start);
    measure(EXCHANGE);
    must(t24_number(answer) == T24_DONE, "an exchange that is executed");
    tolerated += (unsigned)t24_reply_tolerated(sheet.octets, reply);
    left += t24_reply_communication_alarm(sheet.octets, reply) != 0;
    if (t24_reply_alarm(sheet.octets, reply) != 0)
        refused[code]++;
    else if (!lost)
        accepted[code]++;
}

/* A replay of the exchange just made, as it was, and with an octet changed at
 * the reply's front and at its end. */
static void measure_replay(void)
{
    size_t change;

    trace_len = 1 + 2 * l;
    trace[0] = (uint8_t)(l == T24_L8 ? T24_TRACE_8
                         : l == T24_L16 ? T24_TRACE_16 : T24_TRACE_64);
    memcpy(trace + 1, command, l);
    memcpy(trace + 1 + l, reply, l);
    for (change = 0; change < 3; change++) {
        trace[1 + l] ^= change == 1;
        trace[2 * l] ^= change == 2;
        memcpy(state, start, sizeof start);
        measure(REPLAY);
        differed += t24_number(answer) == T24_TRACE_DIFFERS;
        must(change > 0 || answer == (uint64_t)1 << 32, "a trace that agrees");
        trace[1 + l] ^= change == 1;
    }
    trace[0] = 0;
    measure(REPLAY);
    faulty += t24_number(answer) != 0;
}

/* Every code, as it should be, with every field wrong, and in a lost cycle. */
static void measure_codes(void)
{
    unsigned code, k;

    for (code = 0; code < 32; code++)
        for (k = 0; k < 3; k++) {
            measure_exchange(code, k == 1, k == 2);
            measure_replay();
        }
}

static void measure_sheet(void)
{
    unsigned link;
    int which;

    for (which = SHEET; which <= ENABLE; which++) {
        measure(which);
        must(which <= LENGTHS || answer == T24_DONE, "an accepted call");
    }
    for (link = T24_LINK_DISCONNECTED; link <= T24_LINK_SYNC; link++) {
        enter(link);
        measure_codes();
    }
    start[T24_AT_FAILURES] = (uint8_t)t24_tolerance(sheet.octets, sheet_len);
    measure_codes();
    measure_refused_calls();
}

/* Every code was accepted, and every one that can be refused was refused. */
static int all_codes(void)
{
    static const uint8_t codes[] = { T24_PRM_RD, T24_PRM_WR,   T24_ID_RD,
                                     T24_ALM_RD, T24_ALM_CLR,  T24_CONNECT,
                                     T24_MEM_RD, T24_MEM_WR,   T24_SYNC_SET };
    size_t i;
    int all = accepted[T24_NOP] > 0 && accepted[T24_DISCONNECT] > 0
        && refused[T24_NOP] > 0; /* by a reserved octet alone */

    for (i = 0; i < sizeof codes; i++)
        all = all && accepted[codes[i]] > 0 && refused[codes[i]] > 0;
    return all && refused[4] > 0 && tolerated > 0 && left > 0 && differed > 0
        && faulty > 0;
}

/* Between the two largest sheets that have nothing in common, in a buffer that is
 * just long enough and in one that is not, between equal ones, and with a second
 * sheet that ends with a wrong record. */
static void measure_difference(void)
{
    size_t longest;

    build_apart(&sheet, &second, &list);
    sheet_len = sheet.len;
    longest = list.len;
    for (list_len = longest - 1; list_len <= longest; list_len++)
        measure(DIFFERENCE);
    must(answer == (uint64_t)longest << 32, "the longest list");
    second.octets[second.len - 1] = 9;
    measure(DIFFERENCE);
    must(t24_number(answer) == T24_SECOND_KIND, "a faulty second sheet");
    second = sheet;
    list_len = 0;
    measure(DIFFERENCE);
    must(answer == T24_DONE, "an empty list");
}

int main(void)
{
    int which, good = 1;

    empty = stack_used_by(nothing);
    add_link(&sheet, T24_L8);
    add_end(&sheet);
    lend(T24_L8, 0);
    measure_sheet();
    build_largest(&sheet, T24_L16);
    sheet.octets[0] = T24_RECORD_SHORT_LINK;
    for (which = 0; which < 64; which++) /* parameters of 8 octets */
        sheet.octets[4 + 10 * 32 + 8 * which + T24_PARAMETER_AT_SIZE] = 8;
    lend(T24_L16, T24_MEMORY_MAX);
    measure_sheet();
    build_largest(&sheet, T24_L64);
    lend(T24_L64, T24_MEMORY_MAX);
    measure_sheet();
    sheet.octets[4 + 10 * 31 + 9] = 0; /* the last region's rights */
    measure_sheet();
    measure_difference();
    must(all_codes(), "every code, accepted and refused");
    printf("stack, octets at most:");
    for (which = SHEET; which < CALLS; which++) {
        printf(" %s %lu;", names[which], (unsigned long)most[which]);
        good = good && most[which] < PROMISED;
    }
    printf(" promised under %u: %s\n", PROMISED, good ? "ok" : "FAILED");
    return good ? 0 : 1;
}
