/*
 * type24_watchdog.h - the counts by which master and slave see in step that the
 * other one still listens (RULES 6.4).  Comes with type24.h.
 *
 * A command has WDT, 16 SN + MN, and a reply RWDT, 16 RSN + MN.  The master
 * counts MN and copies RSN of the last reply into SN; the slave counts RSN and
 * copies MN.
 */
#ifndef TYPE24_WATCHDOG_H
#define TYPE24_WATCHDOG_H

#include <stdint.h>

#include "type24_octets.h"

/*
 * For a host that plays the master: the next command's WDT, by the last reply:
 * its RSN as SN, and its MN + 1, modulo 16, as MN.  Out of step, and in the
 * first command behind the one that enters SyncConnected, any WDT is taken, so
 * this one too; before there is a reply, octets of zero will do for one.
 */
static inline uint8_t t24_next_wdt(const uint8_t *reply)
{
    const uint32_t rwdt = reply[T24_REPLY_AT_RWDT];
    const uint32_t rsn = rwdt & 0xF0u, mn = (rwdt + 1u) & 0x0Fu;

    return (rsn | mn) & 0xFFu;
}

/* MN and SN as a command has them. */
static inline uint32_t t24_mn(const uint8_t *command)
{
    return command[T24_COMMAND_AT_WDT] & 0x0Fu;
}

static inline uint32_t t24_sn(const uint8_t *command)
{
    return (command[T24_COMMAND_AT_WDT] >> 4) & 0x0Fu;
}

/* MN and SN as the watchdog asks for them, where it does; by a state record. */
static inline uint32_t t24_expected_mn(const uint8_t *state)
{
    return (state[T24_AT_LAST_MN] + 1u) & 0x0Fu;
}

static inline uint32_t t24_expected_sn(const uint8_t *state)
{
    return state[T24_AT_RSN];
}

/* Whether the watchdog asks anything of the next command. */
static inline int t24_watchdog_asks(const uint8_t *state)
{
    return state[T24_AT_LINK] == T24_LINK_SYNC && state[T24_AT_MN_KNOWN] != 0;
}

/*
 * Whether this command's cycle is a lost one, so that it is not executed, by
 * the valid state record before the exchange, which changes it: a host keeps a
 * copy.  t24_watchdog_words() in type24_words.h says what was expected.
 */
static inline int t24_watchdog_fails(const uint8_t *state,
                                     const uint8_t *command)
{
    return t24_watchdog_asks(state)
        && (t24_mn(command) != t24_expected_mn(state)
            || t24_sn(command) != t24_expected_sn(state));
}

#endif
