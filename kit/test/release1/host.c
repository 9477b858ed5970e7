/*
 * A host of release 1: the headers beside this file are that release's, and its
 * state record has ten octets.  Linked with the archive of a later release it
 * must get numbers, and no octet may change, in its buffers or beside them.
 * type24_release_words.h is the kit's, with the number that a header of release
 * 1 would have.
 */
#include <stdio.h>
#include <string.h>

#include "type24.h"
#include "type24_release_words.h"

enum { GUARD = 64, L = 16, CALLS = 4 };

/* A buffer between guard octets. */
struct guarded {
    uint8_t before[GUARD];
    uint8_t octets[L];
    uint8_t after[GUARD];
};

static const uint8_t sheet[] = {
    1, 16, 0x30, 0, 2, 0, 0x10, 0, 0, 4, 0, 0, 0, 3, 2, 4, 0x10, 0, 0, 4, 0, 0, 0,
    6, 3, 7, 0, 2, 0x10, 0, 0, 2, 0
};

/* Out of step, as release 1 left it; and a command that writes. */
static const uint8_t state_was[T24_STATE_LEN] = { 0x11, 2, 16, 0, 1 };
static const uint8_t command[L] = { 0x1E, 0, 0, 0, 0, 0x11, 1, 0, 0, 0x10, 0, 0,
                                    0x55 };

static struct guarded state, memory, reply;

/* The octets stand at the front, and behind them the guard goes on. */
static void lend(struct guarded *buffer, const uint8_t *octets, size_t len)
{
    memset(buffer, 0x5A, sizeof *buffer);
    memcpy(buffer->octets, octets, len);
}

static int changed(const struct guarded *buffer, const uint8_t *octets,
                   size_t len)
{
    struct guarded fresh;

    lend(&fresh, octets, len);
    return memcmp(&fresh, buffer, sizeof fresh) != 0;
}

static uint64_t ask(int call)
{
    const size_t len = sizeof sheet, ten = T24_STATE_LEN;

    switch (call) {
    case 0: return t24_reset(sheet, len, state.octets, ten);
    case 1: return t24_enable(sheet, len, state.octets, ten);
    case 2: return t24_exchange(sheet, len, state.octets, ten, memory.octets, 8,
                                command, L, reply.octets, L);
    default: return t24_replay(sheet, len, state.octets, ten, memory.octets, 8,
                               NULL, 0);
    }
}

/* One call, and the number that it answers; tells 1 if something changed. */
static int made(int call)
{
    static const char *const names[CALLS] = { "reset", "enable", "exchange",
                                              "replay" };
    uint64_t answer;
    int other;

    lend(&state, state_was, sizeof state_was);
    lend(&memory, sheet, 8);
    lend(&reply, command, L);
    answer = ask(call);
    printf("%s: %lu: %s\n", names[call], (unsigned long)t24_number(answer),
           t24_words(t24_number(answer)));
    other = changed(&state, state_was, sizeof state_was)
        || changed(&memory, sheet, 8) || changed(&reply, command, L);
    if (other)
        printf("FAILED: %s changed an octet\n", names[call]);
    return other;
}

int main(void)
{
    const uint64_t lengths = t24_lengths(sheet, sizeof sheet);
    char words[128];
    int call, wrong = 0;

    t24_release_words(words, sizeof words);
    printf("release: %s\n", words);
    printf("sheet: %lu, L %lu, memory %lu\n",
           (unsigned long)t24_sheet(sheet, sizeof sheet),
           (unsigned long)t24_l(lengths), (unsigned long)t24_memory(lengths));
    for (call = 0; call < CALLS; call++)
        wrong += made(call);
    return wrong != 0;
}
