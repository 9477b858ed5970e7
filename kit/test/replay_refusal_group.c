/* Refusals of a replay: in order, whatever else is wrong, and the longest. */
#ifndef _DEFAULT_SOURCE
#define _DEFAULT_SOURCE 1 /* mmap with MAP_ANONYMOUS is not plain C99 */
#endif
#include "groups.h"
#include "recording.h"
#include "sheets.h"
#include "variants.h"

#include <string.h>
#include <sys/mman.h>

static struct recording kept;

enum { TRACE_VARIANTS = 8, AT = 5 }; /* the record that is wrong */

/* Index 0 agrees and 1 is empty; the others are wrong at record AT. */
static uint64_t give_trace(int variant)
{
    static const uint8_t number[] = { 0, 0, 31, 32, 33, 31, 32, 34 };
    const size_t at = AT * kept.size;
    size_t len = kept.len, place = at;

    if (variant == 1)
        len = 0;
    if (variant >= 4 && variant <= 6)
        len = at + kept.size - 1; /* cut, with a good kind or a bad one */
    give(TRACE, kept.trace, len);
    if (variant == 2 || variant == 5)
        given(TRACE)[at] = wanted(TRACE)[at] = 0x26;
    if (variant == 3 || variant == 6)
        given(TRACE)[at] = wanted(TRACE)[at] = kept.l == 8 ? 0x22 : 0x21;
    if (variant == 7) {
        given(TRACE)[at + 1 + kept.l] ^= 1;
        wanted(TRACE)[at + 1 + kept.l] ^= 1;
        place = 64 * AT;
    }
    if (variant < 2)
        place = variant == 0 ? RECORDS : 0;
    return number[variant] + ((uint64_t)place << 32);
}

static void mixture(uint64_t sheet_answer, int state, int memory, int trace,
                    unsigned link)
{
    uint64_t answer = give_trace(trace);

    give_state(kept.l, link, state);
    give(MEMORY, memory_p, sizeof memory_p);
    if (memory != 0)
        give_noise(MEMORY, near_length(sizeof memory_p, memory));
    if (sheet_answer != T24_DONE)
        answer = sheet_answer;
    else if (state != 0)
        answer = T24_BAD_STATE;
    else if (memory != 0)
        answer = T24_BAD_MEMORY;
    else if (link == T24_LINK_DISABLED)
        answer = T24_IS_DISABLED;
    else if (trace == 0)
        want_before(&kept, RECORDS);
    else if (t24_number(answer) == T24_TRACE_DIFFERS)
        want_before(&kept, AT);
    expect(ASK_REPLAY, answer);
}

static void mixtures(int sheet)
{
    int state, memory, trace;

    for (state = 0; state < STATE_VARIANTS; state++)
        for (memory = 0; memory < LENGTH_VARIANTS; memory++)
            for (trace = 0; trace < TRACE_VARIANTS; trace++) {
                label("trace variant", trace);
                mixture(give_sheet(kept.l, sheet), state, memory, trace,
                        T24_LINK_DISABLED);
                mixture(give_sheet(kept.l, sheet), state, memory, trace,
                        T24_LINK_ASYNC);
            }
}

void replay_refusals(void)
{
    size_t i;
    int sheet;

    for (i = 0; i < sizeof all_l; i++) {
        load_recording(&kept, all_l[i]);
        for (sheet = 0; sheet < SHEET_VARIANTS; sheet++)
            if (sheet == 0 || i == 1)
                mixtures(sheet);
    }
    give(TRACE, NULL, 0);
}

/* Told of a trace by itself, without lending it between fences. */
static void told_by(const struct built *sheet, const uint8_t *trace, size_t len,
                    unsigned link, uint64_t answer)
{
    uint8_t state[T24_STATE_LEN], memory[sizeof memory_p];
    uint64_t got;

    memcpy(state, state_a, sizeof state);
    memcpy(memory, memory_p, sizeof memory);
    state[T24_AT_LINK] = (uint8_t)link;
    state[T24_AT_COM_TIME] = link >= T24_LINK_ASYNC;
    got = t24_replay(sheet->octets, sheet->len, state, sizeof state, memory,
                     sizeof memory, trace, len);
    count_answer(ASK_REPLAY, t24_is_short(sheet->octets), got);
    check(got == answer, "answer");
    check(state[T24_AT_LINK] == link
          && memcmp(state + 5, state_a + 5, 5) == 0, "state changed");
    check(memcmp(memory, memory_p, sizeof memory) == 0, "memory changed");
}

/* On sheets of both types. */
static void told(const uint8_t *trace, size_t len, unsigned link,
                 uint64_t answer)
{
    struct built sheet;

    build_p(&sheet, 16);
    told_by(&sheet, trace, len, link, answer);
    build_short(&sheet);
    told_by(&sheet, trace, len, link, answer);
}

/* Zeros that nobody touches take no room, so a gigabyte of them is cheap. */
void replay_longest(void)
{
    const size_t longest = T24_TRACE_MAX, room = 2 * (longest + 1);
    void *zeros = mmap(NULL, room, PROT_READ,
                       MAP_PRIVATE | MAP_ANONYMOUS | MAP_NORESERVE, -1, 0);

    check(zeros != MAP_FAILED, "room for a long trace");
    if (zeros == MAP_FAILED)
        return;
    label("octets over the longest", 0);
    told((const uint8_t *)zeros, longest, T24_LINK_ASYNC, T24_TRACE_KIND);
    told((const uint8_t *)zeros, longest + 1, T24_LINK_DISABLED,
         T24_IS_DISABLED);
    label("octets over the longest", 1);
    told((const uint8_t *)zeros, longest + 1, T24_LINK_ASYNC, T24_TRACE_LONG);
    told((const uint8_t *)zeros, room, T24_LINK_ASYNC, T24_TRACE_LONG);
    munmap(zeros, room);
}
