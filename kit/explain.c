/*
 * t24-explain: what a device sheet has, and whether the replies of a trace are
 * this slave's, in words.  libtype24.a decides, and type24_words.h has the words.
 */
#ifndef _POSIX_C_SOURCE
#define _POSIX_C_SOURCE 200112L /* isatty is not plain C99 */
#endif
#include <stdio.h>
#include <stdlib.h>
#include <string.h>
#include <unistd.h>

#include "explain_call.h"
#include "explain_file.h"
#include "explain_show.h"
#include "explain_slave.h"
#include "type24.h"
#include "type24_words.h"

enum { PIECE = 1 << 18 }; /* octets of a trace between two looks at progress */

static int explain_sheet(const char *path)
{
    struct file sheet = { NULL, NULL, 0 };
    char words[256];
    int status = REFUSED;
    uint64_t answer;

    if (read_file(&sheet, path, T24_SHEET_MAX)) {
        answer = t24_sheet(sheet.octets, sheet.len);
        status = answer == T24_DONE ? AGREES : REFUSED;
        t24_sheet_words(sheet.octets, sheet.len, answer, words, sizeof words);
        fprintf(status == AGREES ? stdout : stderr, "sheet: %s\n", words);
    }
    free(sheet.octets);
    return status;
}

/* A trace that has its form may go by in pieces, and is replayed the same. */
static int has_form(const struct replay *run)
{
    size_t at;

    if (run->trace.len > T24_TRACE_MAX || run->trace.len % run->size != 0)
        return 0;
    for (at = 0; at < run->trace.len; at += run->size)
        if (t24_trace_l(run->trace.octets[at]) != run->l)
            return 0;
    return 1;
}

/* In one line, which end_progress ends. */
static void show_progress(struct replay *run, size_t done)
{
    const unsigned long percent =
        (unsigned long)((uint64_t)done * 100 / run->trace.len);

    if (!run->progress || percent == run->shown)
        return;
    run->shown = percent;
    fprintf(stderr, "\r%3lu %%", percent);
}

static void end_progress(struct replay *run)
{
    if (run->progress)
        fprintf(stderr, "\n");
}

/* State and memory stand as before the record, so the slave's reply to it is
 * got by giving it the command once more. */
static int differs(struct replay *run, size_t record, size_t octet)
{
    const size_t at = record * run->size;
    const uint8_t *command = run->trace.octets + at + T24_TRACE_AT_COMMAND;
    const uint8_t *theirs = command + run->l, *sheet = run->sheet.octets;
    uint8_t ours[T24_L_MAX];
    char words[256];
    uint64_t answer;
    int lost;

    printf("record %lu, at octet %lu of the trace, differs at octet %lu of its "
           "reply\n", (unsigned long)record, (unsigned long)at,
           (unsigned long)octet);
    t24_command_words(sheet, command, run->l, words, sizeof words);
    printf("command: %s\n", words);
    t24_state_words(run->state.octets, words, sizeof words);
    printf("before:  %s\n", words);
    lost = print_lost(run, command);
    answer = t24_exchange(sheet, run->sheet.len, run->state.octets,
                          run->state.len, run->memory.octets, run->memory.len,
                          command, run->l, ours, run->l);
    print_refused(run, command, ours, answer);
    print_octets("ours:  ", ours, run->l);
    print_octets("trace: ", theirs, run->l);
    print_marks(ours, theirs, run->l);
    printf("octet %lu: %s\n", (unsigned long)octet,
           t24_reply_octet_words(sheet, command[T24_COMMAND_AT_CODE], octet,
                                 !lost && t24_reply_alarm(sheet, ours) == 0));
    print_status("ours:  ", sheet, ours);
    print_status("trace: ", sheet, theirs);
    return DIFFERS;
}

/* The replies are ours, so each that tells of a tolerated lost cycle is one. */
static size_t count_tolerated(const struct replay *run)
{
    size_t at, count = 0;

    for (at = 0; at < run->trace.len; at += run->size)
        count += (size_t)t24_reply_tolerated(
            run->sheet.octets,
            run->trace.octets + at + T24_TRACE_AT_COMMAND + run->l);
    return count;
}

static int agrees(const struct replay *run)
{
    const size_t tolerated = count_tolerated(run);
    char words[256];
    size_t i, changed = 0;

    for (i = 0; i < run->memory.len; i++)
        changed += run->memory.octets[i] != run->memory_before[i];
    t24_state_words(run->state.octets, words, sizeof words);
    printf("all agree: %lu record%s\n",
           (unsigned long)(run->trace.len / run->size),
           run->trace.len == run->size ? "" : "s");
    if (tolerated > 0)
        printf("lost:   %lu cycle%s, tolerated\n", (unsigned long)tolerated,
               tolerated == 1 ? "" : "s");
    printf("after:  %s\n", words);
    printf("memory: %lu of %lu octets changed\n", (unsigned long)changed,
           (unsigned long)run->memory.len);
    return AGREES;
}

/* Piece by piece, each of whole records; a later piece's records count on. */
static int play(struct replay *run)
{
    const size_t piece = PIECE / run->size * run->size;
    size_t at, len;
    uint64_t answer = T24_DONE;

    show_progress(run, 0);
    for (at = 0; at < run->trace.len; at += len) {
        len = run->trace.len - at < piece ? run->trace.len - at : piece;
        answer = replay_piece(run, at, len);
        if (t24_number(answer) != T24_DONE)
            break;
        show_progress(run, at + len);
    }
    end_progress(run);
    if (t24_number(answer) == T24_TRACE_DIFFERS)
        return differs(run, at / run->size + t24_trace_record(answer),
                       t24_trace_octet(answer));
    return t24_number(answer) == T24_DONE ? agrees(run) : refused(run, answer);
}

/* The refusals that need no trace, then its form, then its records; but a state
 * record of release 1 is turned before all. */
static int replay_all(struct replay *run)
{
    uint64_t answer;

    if (!turn_old(run))
        return REFUSED;
    answer = replay_piece(run, 0, 0);
    if (t24_number(answer) != T24_DONE)
        return refused(run, answer);
    if (run->trace.len == 0) {
        print_turned(run);
        printf("nothing to replay: the trace has no record\n");
        return AGREES;
    }
    run->l = t24_l(t24_lengths(run->sheet.octets, run->sheet.len));
    run->size = 1 + 2 * run->l;
    if (!has_form(run)) /* the library says why, and exchanges nothing */
        return refused(run, replay_piece(run, 0, run->trace.len));
    run->memory_before = (uint8_t *)malloc(run->memory.len + 1);
    if (run->memory_before == NULL) {
        complain(run->memory.path, "no memory for a copy");
        return REFUSED;
    }
    memcpy(run->memory_before, run->memory.octets, run->memory.len);
    print_turned(run);
    return play(run);
}

static int explain_trace(char **paths, int progress)
{
    static struct replay run;
    int status = REFUSED, good;

    good = read_file(&run.sheet, paths[0], T24_SHEET_MAX);
    good = read_file(&run.state, paths[1], T24_STATE_LEN) && good;
    good = read_file(&run.memory, paths[2], T24_MEMORY_MAX) && good;
    good = read_file(&run.trace, paths[3], T24_TRACE_MAX) && good;
    run.progress = progress || (run.trace.len > PIECE && isatty(STDERR_FILENO));
    run.shown = 101;
    if (good)
        status = replay_all(&run);
    free(run.sheet.octets);
    free(run.state.octets);
    free(run.memory.octets);
    free(run.trace.octets);
    free(run.memory_before);
    return status;
}

/* By the first word; a wrong one is said. */
static int explain(const struct call *call, char **words)
{
    if (call->help) {
        printf("%s%s", usage_words, help_words);
        return AGREES;
    }
    if (call->unknown != NULL)
        misused("unknown option ", call->unknown);
    else if (call->count == 0)
        misused("sheet or trace?", "");
    else if (strcmp(words[0], "sheet") == 0)
        return has_files(call, words, 1) ? explain_sheet(words[1]) : REFUSED;
    else if (strcmp(words[0], "trace") == 0)
        return has_files(call, words, 4)
            ? explain_trace(words + 1, call->progress) : REFUSED;
    else
        misused("unknown word ", words[0]);
    return REFUSED;
}

int main(int argc, char **argv)
{
    const struct call call = sort_words(argc, argv);
    char words[128];
    int status;

    if (!t24_release_fits()) {
        t24_release_words(words, sizeof words);
        complain("libtype24.a", words);
        return REFUSED;
    }
    status = explain(&call, argv);
    if (fflush(stdout) == 0)
        return status;
    complain("standard output", strerror(errno));
    return REFUSED;
}
