/*
 * As spoil.c, for t24_turn and t24_version: spoils one thing at a time, as the
 * variable SPOIL says.  Linked with --wrap for both.
 */
#include "spoil.h"

#include <string.h>

uint64_t __real_t24_version(void);
uint64_t __real_t24_turn(const uint8_t *, size_t, const uint8_t *, size_t,
                         uint8_t *, size_t);
uint64_t __wrap_t24_version(void);
uint64_t __wrap_t24_turn(const uint8_t *, size_t, const uint8_t *, size_t,
                         uint8_t *, size_t);

uint64_t __wrap_t24_version(void)
{
    return spoil(44) ? 1 : __real_t24_version();
}

/* A record with a bad field is seen with a good one. */
static const uint8_t *mended(const uint8_t *old, const uint8_t *sheet)
{
    static uint8_t seen[T24_OLD_STATE_LEN];

    memcpy(seen, old, sizeof seen);
    if (spoil(45))
        seen[T24_AT_L] = sheet[T24_SHEET_AT_L];
    if (spoil(46) && seen[T24_AT_KIND] == T24_STATE_KIND)
        seen[T24_AT_KIND] = T24_OLD_STATE_KIND;
    if (spoil(47) && seen[T24_AT_RSN] == 16)
        seen[T24_AT_RSN] = 0;
    return seen;
}

/* Lengths that pass though they are wrong by one. */
static void spoil_lengths(size_t *old_len, size_t *state_len)
{
    if (spoil(48) && *old_len == T24_OLD_STATE_LEN + 1)
        *old_len = T24_OLD_STATE_LEN;
    if (spoil(49) && *state_len == T24_STATE_LEN + 1)
        *state_len = T24_STATE_LEN;
}

uint64_t __wrap_t24_turn(const uint8_t *sheet, size_t sheet_len,
                         const uint8_t *old, size_t old_len, uint8_t *state,
                         size_t state_len)
{
    const size_t lent = old_len;
    const uint8_t last = state_len == T24_STATE_LEN ? state[10] : 0;
    uint64_t answer;

    spoil_lengths(&old_len, &state_len);
    answer = __real_t24_turn(sheet, sheet_len,
                             old_len == T24_OLD_STATE_LEN && sheet_len > 1
                                 ? mended(old, sheet) : old,
                             old_len, state, state_len);
    if (spoil(50) && answer == T24_DONE)
        state[T24_AT_FAILURES] = last; /* ten octets written */
    if (spoil(51) && answer == T24_DONE)
        state[T24_AT_KIND] = T24_OLD_STATE_KIND;
    if (spoil(52) && answer == T24_BAD_STATE && state_len > 0)
        state[0] ^= 1; /* a refusal that writes */
    if (spoil(53) && answer == T24_DONE)
        *(volatile uint8_t *)(size_t)old = old[0]; /* even the same octet */
    if (spoil(54) && lent == 9 && old[lent] == 1 && state_len > 0)
        state[0] = 0; /* an octet read behind the old record */
    return answer;
}
