/* Lends octet buffers to the library, and checks them after. */
#ifndef LEND_H
#define LEND_H

#include "type24.h"

#define LENT_MAX (1024u * 1024u) /* the longest buffer a test really lends */

#define NUMBERS 36               /* numbers are below this */

enum role {
    SHEET, STATE, MEMORY, COMMAND, REPLY, TRACE, OLD, SECOND, LIST, ROLES
};
enum which {
    ASK_SHEET, ASK_LENGTHS, ASK_RESET, ASK_ENABLE, ASK_EXCHANGE, ASK_REPLAY,
    ASK_TURN, ASK_DIFFERENCE
};

/* Gets the places ready; to be called once before anything else. */
void lend_open(void);

/* Sets what a buffer holds before the call; afterwards it must hold the same. */
void give(enum role role, const uint8_t *octets, size_t len);

/* Like give, with octets that mean nothing, for lengths that are the matter. */
void give_noise(enum role role, size_t len);

/* What the buffer holds before the call, for changing single octets. */
uint8_t *given(enum role role);
size_t given_len(enum role role);

/* What the buffer must hold after the call; a test writes its expectation. */
uint8_t *wanted(enum role role);

/* Takes what was wanted as given, so that the next call goes on from there. */
void go_on(enum role role);

/* An exchange's answer for a built reply, with the place that it tells. */
uint64_t built_at(uint32_t place);

/* Makes the call and compares answer, buffers and guards; tells 1 if right. */
int expect(enum which which, uint64_t answer);

/* As expect, but the buffers stand on one side of their places only. */
int expect_on_side(enum which which, uint64_t answer, int back);

/* Counts an answer, for calls that are not made by expect; the sheet's type is
 * told by whether it is short. */
void count_answer(enum which which, int is_short, uint64_t answer);

/* How often a call has answered a number so far, on sheets of either type. */
long met(enum which which, int is_short, unsigned number);

/* Counts and reports a condition that is no call. */
void check(int right, const char *what);

/* Says what is being tried, for the report of a failure. */
void label(const char *text, long number);

struct group {
    const char *name;
    void (*run)(void);
};

/* Runs one group, prints its line, tells the number of failures. */
long run_group(const struct group *group);

#endif
