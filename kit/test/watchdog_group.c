/* The watchdog: MN has to follow, and SN has to be RSN (RULES 6.4). */
#include "groups.h"
#include "sheets.h"

#include <string.h>

/* On sheet P, from this state, with WDT of this command. */
static void start(const uint8_t *state, unsigned code, unsigned wdt)
{
    uint8_t command[16] = { 0 };

    command[0] = (uint8_t)code;
    command[1] = (uint8_t)wdt;
    give(SHEET, sheet_p, sizeof sheet_p);
    give(STATE, state, T24_STATE_LEN);
    give(MEMORY, memory_p, sizeof memory_p);
    give(COMMAND, command, sizeof command);
    give_noise(REPLY, 16);
    memset(wanted(REPLY), 0, 16);
    wanted(REPLY)[0] = (uint8_t)code;
    wanted(REPLY)[2] = 4;
}

/* In step behind the exchange: the counts go on. */
static void taken(unsigned mn, unsigned rsn)
{
    wanted(STATE)[5] = 1;
    wanted(STATE)[6] = (uint8_t)mn;
    wanted(STATE)[7] = (uint8_t)rsn;
    wanted(REPLY)[1] = (uint8_t)(16 * rsn + mn);
    expect_on_side(ASK_EXCHANGE, T24_DONE, (int)(mn + rsn) % 2);
}

/* A lost cycle, whatever the command is. */
static void lost(void)
{
    static const uint8_t after[] = { 0x12, 2, 16, 0, 1, 0, 0, 0, 0, 12, 0 };

    memcpy(wanted(STATE), after, sizeof after);
    memset(wanted(REPLY) + 1, 0, 15);
    wanted(REPLY)[2] = 5;
    wanted(REPLY)[3] = 0xC0;
    expect_on_side(ASK_EXCHANGE, T24_DONE, given(COMMAND)[1] % 2);
}

/* Written out: both right, each wrong alone, both wrong, at either end. */
void watchdog_cases(void)
{
    static const struct {
        uint8_t last, rsn, wdt, told; /* RWDT; 0 where the cycle is lost */
    } rows[] = {
        { 3, 5, 0x54, 0x64 }, { 3, 5, 0x44, 0 }, { 3, 5, 0x64, 0 },
        { 3, 5, 0x53, 0 }, { 3, 5, 0x55, 0 }, { 3, 5, 0x45, 0 },
        { 3, 5, 0x04, 0 }, { 3, 5, 0x00, 0 }, { 15, 14, 0xE0, 0xF0 },
        { 15, 14, 0xEF, 0 }, { 15, 14, 0xF0, 0 }, { 14, 15, 0xFF, 0x0F },
        { 14, 15, 0x0F, 0 }, { 14, 15, 0xF0, 0 }, { 15, 0, 0x00, 0x10 },
        { 15, 0, 0x10, 0 }, { 15, 0, 0xF0, 0 }, { 0, 15, 0xF1, 0x01 },
        { 0, 1, 0x11, 0x21 }, { 0, 1, 0x01, 0 }, { 4, 5, 0x54, 0 }
    };
    uint8_t state[T24_STATE_LEN] = { 0x12, 3, 16, 0, 1, 1, 0, 0, 0, 0, 0 };
    size_t i;

    for (i = 0; i < sizeof rows / sizeof rows[0]; i++) {
        label("row", (long)i);
        state[6] = rows[i].last;
        state[7] = rows[i].rsn;
        start(state, T24_NOP, rows[i].wdt);
        if (rows[i].told != 0)
            taken(rows[i].told & 15u, rows[i].told >> 4);
        else
            lost();
    }
}

/* Each SN against each RSN, with each MN; the header's own verdict beside it. */
void watchdog_every_wdt(void)
{
    static const uint8_t next[] = { 1, 2, 3, 4, 5, 6, 7, 8, 9, 10, 11, 12, 13,
                                    14, 15, 0 };
    uint8_t state[T24_STATE_LEN] = { 0x12, 3, 16, 0, 1, 1, 0, 0, 0, 0, 0 };
    unsigned rsn, wdt;
    int right;

    for (rsn = 0; rsn < 16; rsn++)
        for (wdt = 0; wdt < 256; wdt++) {
            label("16 RSN + last MN, with WDT", (long)wdt);
            state[6] = (uint8_t)((5 * rsn + 3) % 16);
            state[7] = (uint8_t)rsn;
            right = wdt == 16 * rsn + next[state[6]];
            start(state, wdt % 2 ? T24_DISCONNECT : T24_NOP, wdt);
            check(t24_watchdog_fails(sheet_p, state, given(COMMAND)) == !right,
                  "t24_watchdog_fails");
            if (!right) {
                lost();
            } else if (wdt % 2) {
                memset(wanted(STATE) + 4, 0, 4);
                wanted(STATE)[1] = 1;
                expect_on_side(ASK_EXCHANGE, T24_DONE, 0);
            } else {
                taken(next[state[6]], next[rsn]);
            }
        }
}

/* Nothing is asked while MN is not known, nor outside link 3. */
void watchdog_not_asked(void)
{
    static const uint8_t entered[] = { 0x12, 3, 16, 0, 1, 0, 0, 0, 0, 0, 0 };
    static const uint8_t async[] = { 0x12, 2, 16, 0, 1, 0, 0, 0, 0, 0, 0 };
    static const uint8_t apart[] = { 0x12, 1, 16, 0, 0, 0, 0, 0, 0, 0, 0 };
    unsigned wdt;

    for (wdt = 0; wdt < 256; wdt++) {
        label("MN not known, WDT", (long)wdt);
        start(entered, T24_NOP, wdt);
        check(!t24_watchdog_fails(sheet_p, entered, given(COMMAND)),
              "MN not known");
        taken(wdt & 15u, 1);
        label("link 2, WDT", (long)wdt);
        start(async, T24_NOP, wdt);
        check(!t24_watchdog_fails(sheet_p, async, given(COMMAND)), "link 2");
        expect_on_side(ASK_EXCHANGE, T24_DONE, 0);
        label("SYNC_SET, WDT", (long)wdt);
        start(async, T24_SYNC_SET, wdt);
        wanted(STATE)[1] = 3;
        wanted(REPLY)[1] = (uint8_t)(wdt & 15u);
        expect_on_side(ASK_EXCHANGE, T24_DONE, 0);
        label("link 1, WDT", (long)wdt);
        start(apart, T24_NOP, wdt);
        check(!t24_watchdog_fails(sheet_p, apart, given(COMMAND)), "link 1");
        expect_on_side(ASK_EXCHANGE, T24_DONE, 1);
    }
}
