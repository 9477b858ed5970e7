/*
 * type24_watchdog.h - the counts by which master and slave see in step that the
 * other one still listens (RULES 6.4).  Comes with type24.h.
 *
 * A command has WDT, 16 SN + MN, and a reply RWDT, 16 RSN + MN.  The master
 * counts MN and copies RSN of the last reply into SN; the slave counts RSN and
 * copies MN.  What reads a command or a reply takes the sheet first, since WDT and
 * RWDT stand elsewhere in the short type.
 */
#ifndef TYPE24_WATCHDOG_H
#define TYPE24_WATCHDOG_H

#include <stddef.h>
#include <stdint.h>

#include "type24_octets.h"
#include "type24_records.h"
#include "type24_short.h"

/*
 * For a host that plays the master: the next command's WDT, by the last reply:
 * its RSN as SN, and its MN + 1, modulo 16, as MN; behind a tolerated lost cycle
 * too.  Out of step, and in the first command behind the one that enters
 * SyncConnected, any WDT is taken, so this one too; before there is a reply,
 * octets of zero will do for one.
 */
static inline uint8_t t24_next_wdt(const uint8_t *sheet, const uint8_t *reply)
{
    const uint32_t rwdt = reply[t24_rwdt_at(sheet)];
    const uint32_t rsn = rwdt & 0xF0u, mn = (rwdt + 1u) & 0x0Fu;

    return (rsn | mn) & 0xFFu;
}

/* Puts WDT into a command; no other octet of it is written. */
static inline void t24_put_wdt(const uint8_t *sheet, uint8_t *command,
                               uint8_t wdt)
{
    command[t24_wdt_at(sheet)] = wdt;
}

/* MN and SN as a command has them. */
static inline uint32_t t24_mn(const uint8_t *sheet, const uint8_t *command)
{
    return command[t24_wdt_at(sheet)] & 0x0Fu;
}

static inline uint32_t t24_sn(const uint8_t *sheet, const uint8_t *command)
{
    return (command[t24_wdt_at(sheet)] >> 4) & 0x0Fu;
}

/* MN and SN as the watchdog asks for them, where it does; by a state record. */
static inline uint32_t t24_expected_mn(const uint8_t *state)
{
    return (state[T24_AT_LAST_MN] + 1u) & 0x0Fu;
}

static inline uint32_t t24_expected_sn(const uint8_t *state)
{
    return state[T24_AT_RSN];
}

/* Whether the watchdog asks anything of the next command. */
static inline int t24_watchdog_asks(const uint8_t *state)
{
    return state[T24_AT_LINK] == T24_LINK_SYNC && state[T24_AT_MN_KNOWN] != 0;
}

/*
 * Whether this command's cycle is a lost one, so that it is not executed, by
 * the valid state record before the exchange, which changes it: a host keeps a
 * copy.  t24_lost_words() in type24_words.h says what was expected, and what
 * comes of it.
 */
static inline int t24_watchdog_fails(const uint8_t *sheet,
                                     const uint8_t *state,
                                     const uint8_t *command)
{
    return t24_watchdog_asks(state)
        && (t24_mn(sheet, command) != t24_expected_mn(state)
            || t24_sn(sheet, command) != t24_expected_sn(state));
}

/*
 * Whether a lost cycle is tolerated now, by the same record: there were fewer in
 * a row than the sheet allows.  Then link and latches stay and the counts go on;
 * else SyncConnected is left.  The reply tells it too: t24_reply_tolerated().
 */
static inline int t24_watchdog_tolerates(const uint8_t *sheet, size_t sheet_len,
                                         const uint8_t *state)
{
    return state[T24_AT_FAILURES] < t24_tolerance(sheet, sheet_len);
}

#endif
