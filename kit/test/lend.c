/* Lends octet buffers to the library, and checks them after. */
#include "lend.h"
#include "place.h"

#include <stdio.h>
#include <string.h>

#define REPORTS_SHOWN 10 /* one fault often shows thousands of times */

static struct {
    uint8_t given[LENT_MAX];
    uint8_t wanted[LENT_MAX];
    size_t len;
    uint8_t *at; /* where the library sees the buffer */
} lent[ROLES];

static long calls, failures;
static long answers[ASK_DIFFERENCE + 1][2][NUMBERS]; /* by call and type */
static const char *group_name = "", *label_text = "";
static long label_number;

static const char *const role_name[ROLES] = {
    "sheet", "state", "memory", "command", "reply", "trace", "old record",
    "second sheet", "list"
};

void lend_open(void)
{
    place_open(&group_name);
}

void give(enum role role, const uint8_t *octets, size_t len)
{
    lent[role].len = len;
    if (len == 0)
        return;
    memmove(lent[role].given, octets, len);
    memcpy(lent[role].wanted, lent[role].given, len);
}

void give_noise(enum role role, size_t len)
{
    size_t i;

    lent[role].len = len;
    for (i = 0; i < len; i++)
        lent[role].given[i] = (uint8_t)(0xC3u ^ (i * 7u));
    memcpy(lent[role].wanted, lent[role].given, len);
}

uint8_t *given(enum role role) { return lent[role].given; }
size_t given_len(enum role role) { return lent[role].len; }
uint8_t *wanted(enum role role) { return lent[role].wanted; }

void go_on(enum role role)
{
    memcpy(lent[role].given, lent[role].wanted, lent[role].len);
}

static int fail(const char *what, int role, size_t at)
{
    if (failures++ < REPORTS_SHOWN)
        fprintf(stderr, "  %s, %s %ld: %s %s at octet %lu\n", group_name,
                label_text, label_number, role < ROLES ? role_name[role] : "",
                what, (unsigned long)at);
    return 0;
}

static int intact(int role, int back)
{
    const long outside = changed_outside(role, back);
    size_t i;

    if (outside >= 0)
        return fail("guard changed", role, (size_t)outside);
    if (lent[role].len == 0
        || memcmp(lent[role].at, lent[role].wanted, lent[role].len) == 0)
        return 1;
    for (i = 0; lent[role].at[i] == lent[role].wanted[i]; i++)
        continue;
    return fail("not as wanted", role, i);
}

static uint64_t ask(enum which which)
{
    switch (which) {
    case ASK_SHEET:
        return t24_sheet(lent[SHEET].at, lent[SHEET].len);
    case ASK_LENGTHS:
        return t24_lengths(lent[SHEET].at, lent[SHEET].len);
    case ASK_RESET:
        return t24_reset(lent[SHEET].at, lent[SHEET].len,
                         lent[STATE].at, lent[STATE].len);
    case ASK_ENABLE:
        return t24_enable(lent[SHEET].at, lent[SHEET].len,
                          lent[STATE].at, lent[STATE].len);
    case ASK_REPLAY:
        return t24_replay(lent[SHEET].at, lent[SHEET].len,
                          lent[STATE].at, lent[STATE].len,
                          lent[MEMORY].at, lent[MEMORY].len,
                          lent[TRACE].at, lent[TRACE].len);
    case ASK_TURN:
        return t24_turn(lent[SHEET].at, lent[SHEET].len,
                        lent[OLD].at, lent[OLD].len,
                        lent[STATE].at, lent[STATE].len);
    case ASK_DIFFERENCE:
        return t24_difference(lent[SHEET].at, lent[SHEET].len,
                              lent[SECOND].at, lent[SECOND].len,
                              lent[LIST].at, lent[LIST].len);
    default:
        return t24_exchange(lent[SHEET].at, lent[SHEET].len,
                            lent[STATE].at, lent[STATE].len,
                            lent[MEMORY].at, lent[MEMORY].len,
                            lent[COMMAND].at, lent[COMMAND].len,
                            lent[REPLY].at, lent[REPLY].len);
    }
}

void count_answer(enum which which, int is_short, uint64_t answer)
{
    if (t24_number(answer) < NUMBERS)
        answers[which][is_short][t24_number(answer)]++;
}

static int call_and_compare(enum which which, uint64_t answer, int back,
                            int locked)
{
    uint64_t got;
    int r, right = 1;

    for (r = 0; r < ROLES; r++)
        lent[r].at = place(r, lent[r].given, lent[r].len, back);
    if (locked)
        place_lock(1);
    got = ask(which);
    if (locked)
        place_lock(0);
    calls++;
    count_answer(which, lent[SHEET].len > 0 && t24_is_short(lent[SHEET].given),
                 got);
    if (got != answer) {
        if (failures < REPORTS_SHOWN)
            fprintf(stderr, "  answer number %lu place %lu, wanted %lu %lu\n",
                    (unsigned long)t24_number(got),
                    (unsigned long)t24_place(got),
                    (unsigned long)t24_number(answer),
                    (unsigned long)t24_place(answer));
        right = fail("answer", ROLES, 0);
    }
    for (r = 0; r < ROLES; r++)
        right = intact(r, back) && right;
    return right;
}

int expect_on_side(enum which which, uint64_t answer, int back)
{
    return call_and_compare(which, answer, back, calls % 64 == 0);
}

int expect(enum which which, uint64_t answer)
{
    const int front_right = call_and_compare(which, answer, 0, 1);
    return call_and_compare(which, answer, 1, 1) && front_right;
}

uint64_t built_at(uint32_t place)
{
    return T24_DONE + ((uint64_t)place << 32);
}

long met(enum which which, int is_short, unsigned number)
{
    return answers[which][is_short][number];
}

void check(int right, const char *what)
{
    calls++;
    if (!right)
        fail(what, ROLES, 0);
}

void label(const char *text, long number)
{
    label_text = text;
    label_number = number;
}

long run_group(const struct group *group)
{
    group_name = group->name;
    calls = 0;
    failures = 0;
    label("start", 0);
    group->run();
    if (failures == 0)
        printf("%-44s %8ld checks  ok\n", group->name, calls);
    else
        printf("%-44s %8ld checks  FAILED %ld\n", group->name, calls, failures);
    fflush(stdout);
    return failures;
}
