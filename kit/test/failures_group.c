/* The state record's eleventh octet: how many cycles in a row were lost and
 * tolerated, and what a record of release 1 gets (RULES 5.4). */
#include "groups.h"
#include "sheets.h"

#include <string.h>

/* Sheet P with a tolerance; 4 stands for one without the record. */
enum { NO_RECORD = 4 };

static void give_slave(unsigned tolerance, const uint8_t *state, size_t len)
{
    struct built sheet;

    if (tolerance == NO_RECORD)
        build_p(&sheet, 16);
    else
        build_tolerant(&sheet, 16, tolerance);
    give(SHEET, sheet.octets, sheet.len);
    give(STATE, state, len);
    give(MEMORY, memory_p, sizeof memory_p);
    give_noise(COMMAND, 16);
    memset(given(COMMAND), 0, 16);
    memset(wanted(COMMAND), 0, 16);
    give_noise(REPLY, 16);
    give(TRACE, NULL, 0);
}

static void bad(unsigned tolerance, const uint8_t *state, size_t len)
{
    give_slave(tolerance, state, len);
    expect(ASK_ENABLE, T24_BAD_STATE);
    expect(ASK_EXCHANGE, T24_BAD_STATE);
    expect(ASK_REPLAY, T24_BAD_STATE);
}

/* Replayed over an empty trace, which takes a valid record and changes none. */
static void good(unsigned tolerance, const uint8_t *state)
{
    give_slave(tolerance, state, T24_STATE_LEN);
    if (state[1] == 0) {
        expect(ASK_REPLAY, T24_IS_DISABLED);
        return;
    }
    expect(ASK_ENABLE, T24_NOT_DISABLED);
    expect(ASK_REPLAY, T24_DONE);
}

/* Each count with each tolerance, in each link: with MN known in step, at most
 * the sheet's; elsewhere 0 alone. */
void state_failures(void)
{
    static const uint8_t states[5][10] = {
        { 0x12, 3, 16, 0, 1, 1, 3, 5, 0, 0 }, { 0x12, 3, 16, 0, 1, 0, 0, 0, 0, 0 },
        { 0x12, 2, 16, 0, 1, 0, 0, 0, 0, 0 }, { 0x12, 1, 16, 0, 0, 0, 0, 0, 0, 0 },
        { 0x12, 0, 16, 0, 0, 0, 0, 0, 0, 0 }
    };
    static const uint8_t most[5] = { 0, 1, 2, 3, 0 };
    uint8_t state[T24_STATE_LEN];
    unsigned tolerance, count, i;

    for (tolerance = 0; tolerance <= NO_RECORD; tolerance++)
        for (i = 0; i < 5; i++)
            for (count = 0; count < 256; count++) {
                label("state and count", (long)(1000 * i + count));
                memcpy(state, states[i], 10);
                state[10] = (uint8_t)count;
                if (count == 0 || (i == 0 && count <= most[tolerance]))
                    good(tolerance, state);
                else if (count <= 5 || count >= 254 || tolerance == 3)
                    bad(tolerance, state, sizeof state);
            }
}

/* Reset makes a new record out of it, if it is lent eleven octets. */
static void reset(const uint8_t *state, size_t len)
{
    give_slave(0, state, len);
    if (len == 11) {
        memset(wanted(STATE), 0, 11);
        wanted(STATE)[0] = 0x12;
        wanted(STATE)[2] = 16;
    }
    expect(ASK_RESET, len == 11 ? T24_DONE : T24_BAD_STATE);
}

/* Records of release 1 in every link, with ten octets, and with one more or
 * less; and new ones that have not eleven. */
void state_old(void)
{
    static const uint8_t links[4][12] = {
        { 0x11, 0, 16 }, { 0x11, 1, 16 }, { 0x11, 2, 16, 0, 1 },
        { 0x11, 3, 16, 0, 1, 1, 3, 5 }
    };
    uint8_t state[12];
    unsigned link, tolerance;
    size_t len;

    for (link = 0; link < 4; link++)
        for (tolerance = 0; tolerance <= NO_RECORD; tolerance++)
            for (len = 9; len <= 12; len++) {
                label("link and length", (long)(100 * link + len));
                memcpy(state, links[link], sizeof state);
                bad(tolerance, state, len);
                reset(state, len);
                state[0] = 0x12;
                if (len != 11)
                    bad(tolerance, state, len);
                reset(state, len);
            }
}
