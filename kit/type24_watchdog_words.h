/*
 * type24_watchdog_words.h - a lost cycle in words (RULES 6.4).
 * Comes with type24_words.h.
 */
#ifndef TYPE24_WATCHDOG_WORDS_H
#define TYPE24_WATCHDOG_WORDS_H

#include "type24.h"
#include "type24_pdu_words.h"
#include "type24_text.h"

/* One of the two counts: "MN 4 expected, 4 seen". */
static inline void t24_put_expected(struct t24_text *text, const char *name,
                                    uint32_t expected, uint32_t seen)
{
    t24_put(text, name);
    t24_put_decimal(text, expected);
    t24_put(text, " expected, ");
    t24_put_decimal(text, seen);
    t24_put(text, " seen");
}

/* Both counts, or why none is asked. */
static inline void t24_put_watchdog(struct t24_text *text, const uint8_t *sheet,
                                    const uint8_t *state,
                                    const uint8_t *command)
{
    if (state[T24_AT_LINK] != T24_LINK_SYNC) {
        t24_put(text, "not asked: the link is not 3");
    } else if (!t24_watchdog_asks(state)) {
        t24_put(text, "not asked: MN is not known");
    } else {
        t24_put_expected(text, "MN ", t24_expected_mn(state),
                         t24_mn(sheet, command));
        t24_put_expected(text, "; SN ", t24_expected_sn(state),
                         t24_sn(sheet, command));
    }
}

/*
 * What the watchdog asks of a command, and what this one has: "MN 4 expected,
 * 4 seen; SN 5 expected, 7 seen".  By the state record before the exchange,
 * since that changes it; t24_watchdog_fails() tells whether the cycle is lost.
 * Where nothing is asked, the words say why.
 */
static inline size_t t24_watchdog_words(const uint8_t *sheet,
                                        const uint8_t *state,
                                        const uint8_t *command, char *text,
                                        size_t text_len)
{
    struct t24_text made = t24_text_in(text, text_len);

    t24_put_watchdog(&made, sheet, state, command);
    return t24_text_end(&made);
}

/* Which one in a row it is, where the sheet tolerates any. */
static inline void t24_put_row(struct t24_text *text, uint32_t count,
                               uint32_t tolerance)
{
    if (count < tolerance) {
        t24_put(text, "tolerated, ");
        t24_put_decimal(text, count + 1);
        t24_put(text, " of ");
        t24_put_decimal(text, tolerance);
        t24_put(text, " in a row: ");
    } else if (tolerance != 0) {
        t24_put(text, "the ");
        t24_put_ordinal(text, count + 1);
        t24_put(text, " in a row, ");
        t24_put_decimal(text, tolerance);
        t24_put(text, tolerance == 1 ? " is tolerated: " : " are tolerated: ");
    }
}

/*
 * Why a cycle is lost, as t24_watchdog_words, and before it what comes of that
 * under this sheet: "tolerated, 1 of 2 in a row: MN 4 expected, 4 seen; SN 5
 * expected, 7 seen", or "the 3rd in a row, 2 are tolerated: MN .." where
 * SyncConnected is left.  A sheet that tolerates none has nothing before it, and
 * one that is left out, with length 0, counts as such, of the enhanced type.
 */
static inline size_t t24_lost_words(const uint8_t *sheet, size_t sheet_len,
                                    const uint8_t *state,
                                    const uint8_t *command, char *text,
                                    size_t text_len)
{
    const uint8_t *typed = t24_lent_sheet(sheet, sheet_len);
    struct t24_text made = t24_text_in(text, text_len);

    if (t24_watchdog_fails(typed, state, command))
        t24_put_row(&made, state[T24_AT_FAILURES],
                    t24_tolerance(sheet, sheet_len));
    t24_put_watchdog(&made, typed, state, command);
    return t24_text_end(&made);
}

#endif
