/* The slave of a trace: what it is lent, why it refuses, and why it does not
 * execute a command, for t24-explain. */
#ifndef EXPLAIN_SLAVE_H
#define EXPLAIN_SLAVE_H

#include <stdio.h>
#include <string.h>

#include "explain_file.h"
#include "type24_words.h"

enum { AGREES = 0, DIFFERS = 1, REFUSED = 2 };

/* The slave of a trace, and the trace. */
struct replay {
    struct file sheet, state, memory, trace;
    int turned;          /* whether the state record was of release 1 */
    uint8_t *memory_before;
    size_t l, size;      /* octets of a PDU, and of a record */
    int progress;        /* whether it is shown */
    unsigned long shown; /* the percent shown last; 101 before the first */
};

/* The file that a refusal of this number is about. */
static const char *refused_path(const struct replay *run, uint32_t number)
{
    if (number == T24_BAD_STATE || number == T24_IS_DISABLED)
        return run->state.path;
    if (number == T24_BAD_MEMORY)
        return run->memory.path;
    return (number < T24_TRACE_KIND ? run->sheet : run->trace).path;
}

static int refused(const struct replay *run, uint64_t answer)
{
    char words[256];

    t24_refusal_words(run->sheet.octets, run->sheet.len, run->state.octets,
                      run->state.len, run->memory.len, run->trace.octets,
                      run->trace.len, answer, words, sizeof words);
    complain(refused_path(run, t24_number(answer)), words);
    return REFUSED;
}

/*
 * A state record of ten octets is turned first, and the new one stands in its
 * place: the file was read into room for one octet more than a new one has.
 * Tells 0 if it is refused, and says why.
 */
static int turn_old(struct replay *run)
{
    uint8_t state[T24_STATE_LEN];
    char words[256];
    uint64_t answer;

    if (run->state.len != T24_OLD_STATE_LEN)
        return 1;
    answer = t24_turn(run->sheet.octets, run->sheet.len, run->state.octets,
                      run->state.len, state, sizeof state);
    if (t24_number(answer) != T24_DONE) {
        t24_turn_words(run->sheet.octets, run->sheet.len, run->state.octets,
                       run->state.len, sizeof state, answer, words,
                       sizeof words);
        return complain(refused_path(run, t24_number(answer)), words);
    }
    memcpy(run->state.octets, state, sizeof state);
    run->state.len = sizeof state;
    run->turned = 1;
    return 1;
}

/* Said with a verdict, and not with a refusal. */
static void print_turned(const struct replay *run)
{
    if (run->turned)
        printf("%s: a state record of release 1, turned\n", run->state.path);
}

static uint64_t replay_piece(struct replay *run, size_t at, size_t len)
{
    return t24_replay(run->sheet.octets, run->sheet.len, run->state.octets,
                      run->state.len, run->memory.octets, run->memory.len,
                      run->trace.octets + at, len);
}

/* Whether our watchdog fails at the command, and then why; to be asked before
 * the exchange, which changes the state record. */
static int print_lost(const struct replay *run, const uint8_t *command)
{
    char words[256];

    if (!t24_watchdog_fails(run->sheet.octets, run->state.octets, command))
        return 0;
    t24_lost_words(run->sheet.octets, run->sheet.len, run->state.octets,
                   command, words, sizeof words);
    printf("ours failed the watchdog: %s\n", words);
    return 1;
}

/* Which octet of the command was wrong, where our reply refuses it. */
static void print_refused(const struct replay *run, const uint8_t *command,
                          const uint8_t *ours, uint64_t answer)
{
    const uint32_t alarm = t24_reply_alarm(run->sheet.octets, ours);
    char words[256];

    if (alarm == T24_ALARM_NONE)
        return;
    t24_refused_command_words(run->sheet.octets, run->sheet.len,
                              run->state.octets[T24_AT_LINK], command, run->l,
                              alarm, t24_place(answer), words, sizeof words);
    printf("ours is refused: %s\n", words);
}

#endif
