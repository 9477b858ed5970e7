/* The watchdog of the short type: WDT and RWDT stand last; with the helpers of a
 * host that need not know it. */
#include "groups.h"
#include "place.h"
#include "sheets.h"
#include "short_slave.h"

#include <string.h>

/* In step under the short sheet P with this tolerance: last MN 9, RSN 15, so FA
 * follows; every other octet of the command looks like the right WDT, or not. */
static void one_wdt(unsigned tolerance, unsigned count, unsigned wdt)
{
    static const uint8_t gone[] = { 0x12, 2, 16, 0, 1, 0, 0, 0, 9, 12, 0 };
    uint8_t state[] = { 0x12, 3, 16, 0, 1, 1, 9, 15, 9, 0, 0 };
    uint8_t command[SHORT_L], reply[SHORT_L] = { 0, 0, 5, 0 };
    const int right = wdt == 0xFA, kept = right || count < tolerance;
    struct built sheet;

    state[10] = (uint8_t)count;
    build_short_tolerant(&sheet, tolerance);
    give(SHEET, sheet.octets, sheet.len);
    give(STATE, state, sizeof state);
    give(MEMORY, memory_p, sizeof memory_p);
    memset(command, right ? 0x11 : 0xFA, sizeof command);
    command[0] = 0;
    command[15] = (uint8_t)wdt;
    give_short_command(command, 15, right ? 0x11 : 0xFA);
    check(t24_watchdog_fails(sheet.octets, state, given(COMMAND)) == !right,
          "t24_watchdog_fails");
    reply[2] = right || !kept ? 5 : 7;
    reply[3] = kept ? 0 : 0xC0;
    reply[15] = kept ? (uint8_t)(wdt & 15u) : 0;
    check(t24_reply_tolerated(sheet.octets, reply) == (kept && !right),
          "by the reply");
    state[6] = reply[15];
    state[7] = 0;
    state[10] = right ? 0 : (uint8_t)(count + 1);
    want_short(reply, kept ? state : gone);
    expect_on_side(ASK_EXCHANGE, T24_DONE, (int)(wdt & 1u));
}

void short_watchdog(void)
{
    unsigned tolerance, count, wdt;

    for (tolerance = 0; tolerance <= 3; tolerance++)
        for (count = 0; count <= tolerance; count++)
            for (wdt = 0; wdt < 256; wdt += count < tolerance ? 5 : 1) {
                label("tolerance, count and WDT",
                      (long)(10000 * tolerance + 1000 * count + wdt));
                one_wdt(tolerance, count, wdt);
            }
}

/* Whatever the command is, nothing of it is done. */
void short_tolerated(void)
{
    static const struct {
        uint8_t before[T24_STATE_LEN], command[SHORT_L], reply[SHORT_L];
        uint8_t after[T24_STATE_LEN];
    } rows[] = {
        { { 0x12, 3, 16, 0, 1, 1, 3, 5, 0, 0, 0 },
          { 0x02, 0, 0, 0, 7, 0, 2, 1, 2, 0, 0, 0, 0, 0, 0, 0x53 },
          { 0x02, 0, 6, 0, 0, 0, 0, 0, 0, 0, 0, 0, 0, 0, 0, 0x63 },
          { 0x12, 3, 16, 0, 1, 1, 3, 6, 0, 0, 1 } },
        { { 0x12, 3, 16, 1, 2, 1, 15, 15, 9, 12, 1 },
          { 0x06, 0, 0, 0, 0, 0, 0, 0, 0, 0, 0, 0, 0, 0, 0, 0xFF },
          { 0x06, 0, 7, 0xC0, 0, 0, 0, 0, 0, 0, 0, 0, 0, 0, 0, 0x0F },
          { 0x12, 3, 16, 1, 2, 1, 15, 0, 9, 12, 2 } },
        { { 0x12, 3, 16, 0, 1, 1, 3, 5, 0, 0, 1 },
          { 0x1D, 0xC0, 0xC0, 0xC0, 0, 0, 0, 0, 0, 0, 0, 0, 0, 0, 0, 0x44 },
          { 0x1D, 0, 6, 0, 0, 0, 0, 0, 0, 0, 0, 0, 0, 0, 0, 0x64 },
          { 0x12, 3, 16, 0, 1, 1, 4, 6, 0, 0, 2 } }
    };
    struct built sheet;
    size_t i;

    build_short_tolerant(&sheet, 2);
    for (i = 0; i < sizeof rows / sizeof rows[0]; i++) {
        label("row", (long)i);
        give(SHEET, sheet.octets, sheet.len);
        give(STATE, rows[i].before, T24_STATE_LEN);
        give(MEMORY, memory_p, sizeof memory_p);
        give(COMMAND, rows[i].command, SHORT_L);
        give_noise(REPLY, SHORT_L);
        want_short(rows[i].reply, rows[i].after);
        expect(ASK_EXCHANGE, T24_DONE);
    }
}

/* Which octets the helpers read and write, by octets that are all different; of
 * the sheet they read the first alone. */
void short_helpers(void)
{
    static const uint8_t kind[] = { 5 };
    uint8_t reply[SHORT_L], command[SHORT_L], *lent;
    const uint8_t *sheet = place(SHEET, kind, 1, 1);
    unsigned i, rwdt;

    for (i = 0; i < SHORT_L; i++)
        reply[i] = command[i] = (uint8_t)(0xD0 + i);
    check(t24_is_short(sheet), "short");
    check(t24_reply_alarm(sheet, reply) == 0xD1, "alarm");
    check(t24_reply_tolerated(sheet, reply) == 1, "bit 1 of D2");
    check(t24_reply_communication_alarm(sheet, reply) == 13, "latch, of D3");
    check(t24_reply_identity(sheet, reply) == 0, "no identity");
    check(t24_mn(sheet, command) == 15 && t24_sn(sheet, command) == 13, "DF");
    lent = place(COMMAND, command, SHORT_L, 1);
    t24_put_wdt(sheet, lent, 0x2B);
    command[15] = 0x2B;
    check(memcmp(lent, command, SHORT_L) == 0, "WDT alone is put");
    check(changed_outside(COMMAND, 1) < 0, "nothing outside the command");
    for (rwdt = 0; rwdt < 256; rwdt++) {
        reply[15] = (uint8_t)rwdt;
        check(t24_next_wdt(sheet, place(REPLY, reply, SHORT_L, 1))
              == (rwdt % 16 < 15 ? rwdt + 1 : rwdt - 15), "the next WDT");
    }
    check(t24_prm_data_at(sheet) == 7 && t24_id_data_at(sheet) == 7, "data");
    check(t24_alm_command_at(sheet) == 5 && t24_alm_communication_at(sheet) == 6,
          "latches");
    check(t24_prm_data_at(sheet_p) == 8 && t24_id_data_at(sheet_p) == 8
          && t24_alm_command_at(sheet_p) == 8
          && t24_alm_communication_at(sheet_p) == 9 && !t24_is_short(sheet_p),
          "the enhanced type's");
}

/* A master that goes on from the last reply, by the helpers alone: accepted, and
 * with each alarm, and every fifth time with a cycle lost and tolerated. */
void short_master(void)
{
    static const uint8_t codes[] = { T24_NOP, T24_MEM_RD, T24_ALM_CLR,
                                     T24_PRM_RD, T24_CONNECT, T24_ALM_RD };
    static const uint8_t alarms[] = { 0, 8, 0, 9, 12, 0 };
    uint8_t state[] = { 0x12, 3, 16, 0, 1, 0, 0, 0, 0, 0, 0 };
    uint8_t memory[8] = { 0 }, command[SHORT_L] = { 0 }, reply[SHORT_L] = { 0 };
    struct built sheet;
    unsigned i;

    build_short_tolerant(&sheet, 1);
    for (i = 0; i < 120; i++) {
        const int lost = i % 5 == 4;

        label("exchange", (long)i);
        command[0] = codes[i % 6];
        t24_put_wdt(sheet.octets, command,
                    (uint8_t)(t24_next_wdt(sheet.octets, reply)
                              ^ (lost ? 0x80u : 0u)));
        check(t24_watchdog_fails(sheet.octets, state, command) == lost,
              "lost, by the state");
        check(t24_number(t24_exchange(sheet.octets, sheet.len, state,
                                      sizeof state, memory, sizeof memory,
                                      command, SHORT_L, reply, SHORT_L))
              == T24_DONE, "a reply");
        check(t24_reply_tolerated(sheet.octets, reply) == lost, "tolerated");
        check(t24_reply_alarm(sheet.octets, reply)
              == (lost ? 0u : alarms[i % 6]), "alarm");
        check(state[1] == 3, "still in step");
        check(t24_reply_communication_alarm(sheet.octets, reply) == 0, "latch");
    }
}
