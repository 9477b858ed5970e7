/* Stack that each of the calls takes, by number of records in the sheet:
 * a call runs on a painted stack, and what lost its paint is counted, less what
 * an empty function takes there. */
#include "painted.h"
#include "sheets.h"

#include <stdio.h>
#include <stdlib.h>
#include <string.h>

#define L 64u
#define CALLS 8
#define RECORD (1u + 2u * L)
#define OLD_LEN 10u /* a state record from before request 9 */

struct size {
    const char *name;
    unsigned regions, parameters, items, size, tolerances;
};

static const struct size sizes[] = {
    { "smallest", 0, 0, 0, 0, 0 }, { "", 2, 2, 0, 4, 0 },
    { "", 4, 8, 2, 4, 0 },         { "typical", 8, 16, 4, 4, 0 },
    { "", 16, 32, 8, 56, 0 },      { "", 24, 48, 16, 56, 0 },
    { "largest", 32, 64, 32, 56, 1 }
};
#define SIZES (sizeof sizes / sizeof sizes[0])

static struct built sheet, second;
static uint8_t list[4096];
static uint8_t state[T24_STATE_LEN], memory[T24_MEMORY_MAX];
static const uint8_t old[OLD_LEN] = { 0x11, 1, L }; /* Disconnected */
static uint8_t command[L], reply[L];
static uint8_t start[T24_STATE_LEN], trace[16 * RECORD];
static size_t memory_len, trace_len;
static uint64_t answer;

/* So many records; in a changed sheet each of them but the link has another
 * field, and in a moved one its key is another too. */
static void build(struct built *to, const struct size *size, unsigned changed,
                  unsigned moved)
{
    const uint64_t start = 0x1000u + moved;
    unsigned i;

    to->len = 0;
    memory_len = 2048u * size->regions;
    add_link(to, L);
    for (i = 0; i < size->regions; i++)
        add_region(to, start + 2048u * (uint64_t)i, 2048, 7 - changed);
    for (i = 0; i < size->parameters; i++)
        add_parameter(to, i + 100 * moved, start + memory_len - 56,
                      size->size - changed);
    for (i = 0; i < size->items; i++)
        add_item(to, i + 100 * moved, 32 - changed);
    if (size->tolerances > 0)
        add_tolerance(to, 3 - changed);
    add_end(to);
}

static void nothing(void) { answer = 0; }
static void ask_sheet(void) { answer = t24_sheet(sheet.octets, sheet.len); }

static void ask_lengths(void)
{
    answer = t24_lengths(sheet.octets, sheet.len) == 0;
}

static void ask_reset(void)
{
    answer = t24_reset(sheet.octets, sheet.len, state, sizeof state);
}

static void ask_enable(void)
{
    answer = t24_enable(sheet.octets, sheet.len, state, sizeof state);
}

/* What it leaves is what enable has left. */
static void ask_turn(void)
{
    answer = t24_turn(sheet.octets, sheet.len, old, sizeof old, state,
                      sizeof state);
}

/* The number alone: a place tells of a refused command, whose reply is built. */
static void ask_exchange(void)
{
    answer = (uint32_t)t24_exchange(sheet.octets, sheet.len, state,
                                    sizeof state, memory, memory_len, command,
                                    sizeof command, reply, sizeof reply);
}

/* The writes wrote zeros over zeros, so the memory is as at the start. */
static void ask_replay(void)
{
    answer = t24_replay(sheet.octets, sheet.len, start, sizeof start, memory,
                        memory_len, trace, trace_len)
             != (uint64_t)(trace_len / RECORD) << 32;
}

/* The number alone: the place is the list's length. */
static void ask_difference(void)
{
    answer = (uint32_t)t24_difference(sheet.octets, sheet.len, second.octets,
                                      second.len, list, sizeof list);
}

/* The exchange just made becomes the trace's next record. */
static void keep_record(void)
{
    trace[trace_len] = T24_TRACE_8 + 4;
    memcpy(trace + trace_len + 1, command, L);
    memcpy(trace + trace_len + 1 + L, reply, L);
    trace_len += RECORD;
}

/* A call that does not run, or is refused, measures nothing. */
static size_t used_by(void (*call)(void))
{
    const size_t used = stack_used_by(call);

    if (used == sizeof painted || answer != 0)
        exit(3);
    return used;
}

/* A command that the sheet accepts, if it has a record of each kind. */
static void make_command(uint8_t code, const struct size *size)
{
    memset(command, 0, sizeof command);
    command[0] = code;
    command[6] = 1;
    if (code == T24_CONNECT)
        command[4] = 0x30;
    if (code == T24_PRM_RD || code == T24_PRM_WR) {
        command[4] = (uint8_t)(size->parameters - 1);
        command[6] = (uint8_t)size->size;
    }
    if (code == T24_ID_RD) {
        command[4] = (uint8_t)(size->items - 1);
        command[6] = 32;
    }
    if (code == T24_MEM_RD || code == T24_MEM_WR) {
        command[5] = T24_ELEMENT_4;
        command[6] = 13;
        command[9] = 0x10; /* address 1000 hex */
    }
}

/* The most that any code takes. */
static size_t used_by_exchange(const struct size *size)
{
    static const uint8_t codes[] = {
        T24_CONNECT, T24_NOP, T24_PRM_RD, T24_PRM_WR, T24_ID_RD, T24_ALM_RD,
        T24_ALM_CLR, T24_MEM_RD, T24_MEM_WR, T24_SYNC_SET, T24_DISCONNECT
    };
    size_t i, used, most = 0;

    memcpy(start, state, sizeof start);
    trace_len = 0;
    for (i = 0; i < sizeof codes; i++) {
        make_command(codes[i], size);
        used = used_by(ask_exchange);
        most = used > most ? used : most;
        if (size->items > 0 && t24_reply_alarm(sheet.octets, reply) != 0)
            exit(3);
        keep_record();
    }
    return most;
}

/* The most that a pair takes: equal, all changed, all gone and new. */
static size_t used_by_difference(const struct size *size)
{
    size_t used, most = 0;
    unsigned way;

    for (way = 0; way < 3; way++) {
        build(&second, size, way > 0, way > 1);
        used = used_by(ask_difference);
        most = used > most ? used : most;
    }
    return most;
}

static void measure(const struct size *size, double *used)
{
    size_t empty;

    build(&sheet, size, 0, 0);
    empty = used_by(nothing);
    used[0] = (double)(used_by(ask_sheet) - empty);
    used[1] = (double)(used_by(ask_lengths) - empty);
    used[2] = (double)(used_by(ask_reset) - empty);
    used[3] = (double)(used_by(ask_enable) - empty);
    used[4] = (double)(used_by(ask_turn) - empty);
    used[5] = (double)(used_by_exchange(size) - empty);
    used[6] = (double)(used_by(ask_replay) - empty);
    used[7] = (double)(used_by_difference(size) - empty);
}

/* Least squares: octets for each record, and those for none. */
static void fit(const double *records, double used[][CALLS], int call,
                double *slope, double *base)
{
    double n = (double)SIZES, x = 0, y = 0, xx = 0, xy = 0;
    size_t i;

    for (i = 0; i < SIZES; i++) {
        x += records[i];
        y += used[i][call];
        xx += records[i] * records[i];
        xy += records[i] * used[i][call];
    }
    *slope = (n * xy - x * y) / (n * xx - x * x);
    *base = (y - *slope * x) / n;
}

int main(void)
{
    double records[SIZES], used[SIZES][CALLS], slope, base;
    size_t i;
    int call;

    puts("| records | t24_sheet | t24_lengths | t24_reset | t24_enable | t24_turn | t24_exchange | t24_replay | t24_difference |");
    puts("|---|---:|---:|---:|---:|---:|---:|---:|---:|");
    for (i = 0; i < SIZES; i++) {
        records[i] = 2 + sizes[i].regions + sizes[i].parameters + sizes[i].items
                     + sizes[i].tolerances;
        measure(&sizes[i], used[i]);
        printf("| %.0f %s |", records[i], sizes[i].name);
        for (call = 0; call < CALLS; call++)
            printf(" %.0f |", used[i][call]);
        puts("");
    }
    printf("| a line fitted |");
    for (call = 0; call < CALLS; call++) {
        fit(records, used, call, &slope, &base);
        printf(" %.0f + %.1f each |", base, slope < 0.05 && slope > -0.05 ? 0 : slope);
    }
    puts("");
    return 0;
}
