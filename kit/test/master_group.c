/* A master's side of the watchdog: WDT made from the last reply. */
#include "groups.h"
#include "place.h"
#include "sheets.h"

#include <string.h>

/* By all 256 values of RWDT: RSN comes back, and MN goes on. */
void master_next_wdt(void)
{
    uint8_t reply[T24_L8] = { 0xFF, 0, 0xFF, 0xFF, 0xFF, 0xFF, 0xFF, 0xFF };
    unsigned rsn, mn;

    for (rsn = 0; rsn < 16; rsn++)
        for (mn = 0; mn < 16; mn++) {
            label("RWDT", (long)(16 * rsn + mn));
            reply[1] = (uint8_t)(16 * rsn + mn);
            check(t24_next_wdt(sheet_p, place(REPLY, reply, sizeof reply, 1))
                      == (mn < 15 ? 16 * rsn + mn + 1 : 16 * rsn),
                  "the next WDT");
        }
}

/* Sheet P's slave and its master, which goes on from the last reply. */
static uint8_t state[T24_STATE_LEN], memory[8], reply[16];

static void exchange(unsigned code, unsigned wdt)
{
    uint8_t command[16] = { 0 };

    command[0] = (uint8_t)code;
    command[1] = (uint8_t)wdt;
    command[5] = code == T24_MEM_WR ? 0x11 : 0; /* an octet at 1000 */
    command[6] = 1;
    command[9] = 0x10;
    check(t24_number(t24_exchange(sheet_p, sizeof sheet_p, state, sizeof state,
                                  memory, sizeof memory, command, 16, reply,
                                  16)) == T24_DONE, "a reply");
}

static void enter(unsigned wdt)
{
    memcpy(state, state_a, sizeof state);
    memcpy(memory, memory_p, sizeof memory);
    exchange(T24_SYNC_SET, wdt);
    check(state[1] == 3 && reply[1] == (wdt & 15u), "entered link 3");
}

/* Accepted, and with each alarm: the counts go on in all of them. */
void master_in_step(void)
{
    static const uint8_t codes[] = { T24_NOP, 0x77, T24_ALM_CLR, T24_PRM_RD,
                                     T24_MEM_WR, T24_CONNECT, T24_ALM_RD };
    static const uint8_t alarms[] = { 0, 8, 0, 9, 10, 12, 0 };
    unsigned first, i;

    for (first = 0; first < 16; first++) {
        enter(first);
        for (i = 0; i < 7 * 16; i++) {
            label("entered with MN, exchange", (long)(1000 * first + i));
            exchange(codes[i % 7], t24_next_wdt(sheet_p, reply));
            check(state[1] == 3, "still in link 3");
            check(reply[1] == 16 * ((i + 1) % 16) + (first + i + 1) % 16,
                  "RWDT");
            check(t24_reply_alarm(sheet_p, reply) == alarms[i % 7], "alarm");
            check(t24_reply_communication_alarm(sheet_p, reply) == 0,
                  "no lost cycle");
        }
    }
}

/* MN follows, but SN stays: RSN is 1 where MN is known, and then 2. */
void master_repeats_sn(void)
{
    unsigned sn, good;

    for (sn = 0; sn < 16; sn++) {
        label("SN", (long)sn);
        enter(0);
        exchange(T24_NOP, 16 * sn + 1);
        check(state[1] == 3, "MN was not known");
        good = 0;
        for (; good < 3; good++) {
            exchange(T24_NOP, 16 * sn + 2 + good);
            if (state[1] != 3)
                break;
        }
        check(good == (sn == 1), "lost with the first or the second");
        check(reply[1] == 0 && reply[3] == 0xC0, "the reply of a lost cycle");
        check(t24_next_wdt(sheet_p, reply) == 1, "WDT behind a lost cycle");
    }
}

/* As above, on sheet P with tolerance 1, and tells whether a cycle was lost. */
static int tolerated(unsigned wdt)
{
    const uint8_t command[16] = { T24_NOP, (uint8_t)wdt };
    struct built sheet;

    build_tolerant(&sheet, 16, 1);
    check(t24_number(t24_exchange(sheet.octets, sheet.len, state, sizeof state,
                                  memory, sizeof memory, command, 16, reply, 16))
          == T24_DONE, "a reply");
    check(state[1] == 3, "still in link 3");
    return t24_reply_tolerated(sheet.octets, reply);
}

/* Every third command does not arrive, or its reply does not, so that it is sent
 * once more: the next WDT, by the reply that tells it, is right again. */
void master_tolerated(void)
{
    unsigned i, wdt;

    enter(0);
    check(!tolerated(t24_next_wdt(sheet_p, reply)), "the first");
    for (i = 0; i < 60; i++) {
        label("exchange", (long)i);
        wdt = t24_next_wdt(sheet_p, reply);
        check(!tolerated(wdt), "in step");
        if (i % 3 == 0)
            wdt = (wdt & 0xF0u) | ((wdt + 2u) & 0x0Fu); /* one not arrived */
        check(i % 3 == 2 || tolerated(wdt), "lost");
        check(!tolerated(t24_next_wdt(sheet_p, reply)), "in step again");
    }
}
