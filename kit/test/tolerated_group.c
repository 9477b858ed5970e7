/* Lost cycles that the sheet tolerates, and the one more that it does not (RULES
 * 6.4); with written-out octets, on sheet P. */
#include "groups.h"
#include "sheets.h"

#include <string.h>

static void give_slave(unsigned l, unsigned tolerance, const uint8_t *state)
{
    struct built sheet;

    build_tolerant(&sheet, l, tolerance);
    give(SHEET, sheet.octets, sheet.len);
    give(STATE, state, T24_STATE_LEN);
    give(MEMORY, memory_p, sizeof memory_p);
    give(TRACE, NULL, 0);
}

/* One exchange with this command, and what stands behind it. */
static void exchanged(const uint8_t *command, const uint8_t *reply,
                      const uint8_t *after)
{
    give(COMMAND, command, 16);
    give_noise(REPLY, 16);
    memcpy(wanted(REPLY), reply, 16);
    memcpy(wanted(STATE), after, T24_STATE_LEN);
    expect(ASK_EXCHANGE, T24_DONE);
    go_on(STATE);
}

/* MN 3 again; MN 5 for 4; SN 6 for 7; both wrong.  From last MN 3, RSN 5. */
static const struct {
    uint8_t command[16], reply[16], after[T24_STATE_LEN];
} row[4] = {
    { { 0x00, 0x53 }, { 0x00, 0x63, 6 },
      { 0x12, 3, 16, 1, 2, 1, 3, 6, 0, 0, 1 } },
    { { 0x0F, 0x65 }, { 0x0F, 0x75, 6 },
      { 0x12, 3, 16, 1, 2, 1, 5, 7, 0, 0, 2 } },
    { { 0x77, 0x66 }, { 0x77, 0x86, 6 },
      { 0x12, 3, 16, 1, 2, 1, 6, 8, 0, 0, 3 } },
    { { 0x00, 0x9F }, { 0x00, 0x9F, 6 },
      { 0x12, 3, 16, 1, 2, 1, 15, 9, 0, 0, 4 } }
};

/* As many in a row as the sheet tolerates; the next one leaves link 3. */
void tolerated_rows(void)
{
    static const uint8_t before[] = { 0x12, 3, 16, 1, 2, 1, 3, 5, 0, 0, 0 };
    static const uint8_t left[] = { 0x12, 2, 16, 0, 2, 0, 0, 0, 0, 12, 0 };
    uint8_t reply[16] = { 0, 0, 5, 0xC0 };
    unsigned tolerance, i;

    for (tolerance = 0; tolerance <= 3; tolerance++) {
        give_slave(16, tolerance, before);
        for (i = 0; i < tolerance; i++) {
            label("tolerated, of", (long)(10 * i + tolerance));
            exchanged(row[i].command, row[i].reply, row[i].after);
        }
        label("one more than", (long)tolerance);
        reply[0] = row[tolerance].command[0];
        exchanged(row[tolerance].command, reply, left);
    }
}

/* Whatever the command is, nothing of it is done; bits 0 and 6 to 7 and the
 * communication latch are told as ever. */
static const struct {
    const char *name;
    uint8_t before[T24_STATE_LEN], command[16], reply[16], after[T24_STATE_LEN];
} cases[] = {
    { "MEM_WR", { 0x12, 3, 16, 0, 1, 1, 3, 5, 0, 0, 0 },
      { 0x1E, 0x53, 0, 0, 0, 0x11, 1, 0, 4, 0x10, 0, 0, 0x55 },
      { 0x1E, 0x63, 6 }, { 0x12, 3, 16, 0, 1, 1, 3, 6, 0, 0, 1 } },
    { "MEM_WR without the right, identity 2",
      { 0x12, 3, 16, 0, 1, 1, 3, 5, 0, 0, 1 },
      { 0x1E, 0x53, 0x80, 0, 0, 0x11, 1, 0, 0, 0x10, 0, 0, 0x55 },
      { 0x1E, 0x63, 0x86 }, { 0x12, 3, 16, 0, 1, 1, 3, 6, 0, 0, 2 } },
    { "PRM_RD, a latch set", { 0x12, 3, 16, 0, 1, 1, 3, 5, 9, 0, 0 },
      { 0x01, 0x44, 0, 0, 7, 0, 2 },
      { 0x01, 0x64, 7 }, { 0x12, 3, 16, 0, 1, 1, 4, 6, 9, 0, 1 } },
    { "PRM_WR, the other latch set", { 0x12, 3, 16, 0, 1, 1, 3, 5, 0, 12, 0 },
      { 0x02, 0x44, 0x3F, 0xFF, 7, 0, 2, 0, 1, 2 },
      { 0x02, 0x64, 7, 0xC0 }, { 0x12, 3, 16, 0, 1, 1, 4, 6, 0, 12, 1 } },
    { "ALM_CLR, both set", { 0x12, 3, 16, 0, 1, 1, 3, 5, 8, 12, 1 },
      { 0x06, 0x50 }, { 0x06, 0x60, 7, 0xC0 },
      { 0x12, 3, 16, 0, 1, 1, 0, 6, 8, 12, 2 } },
    { "ALM_RD, both set, identity 3", { 0x12, 3, 16, 0, 1, 1, 3, 5, 8, 12, 1 },
      { 0x05, 0x53, 0xC0 }, { 0x05, 0x63, 0xC7, 0xC0 },
      { 0x12, 3, 16, 0, 1, 1, 3, 6, 8, 12, 2 } },
    { "DISCONNECT, dual transfer", { 0x12, 3, 16, 1, 2, 1, 15, 15, 0, 0, 0 },
      { 0x0F, 0xFF }, { 0x0F, 0x0F, 6 },
      { 0x12, 3, 16, 1, 2, 1, 15, 0, 0, 0, 1 } },
    { "SYNC_SET", { 0x12, 3, 16, 0, 1, 1, 14, 0, 0, 0, 1 },
      { 0x0D, 0x1F }, { 0x0D, 0x1F, 6 },
      { 0x12, 3, 16, 0, 1, 1, 15, 1, 0, 0, 2 } },
    { "CONNECT", { 0x12, 3, 16, 0, 1, 1, 3, 5, 0, 0, 0 },
      { 0x0E, 0x04, 0, 0, 0x30, 6, 2, 0 }, { 0x0E, 0x64, 6 },
      { 0x12, 3, 16, 0, 1, 1, 4, 6, 0, 0, 1 } },
    { "unknown code", { 0x12, 3, 16, 0, 1, 1, 3, 5, 0, 0, 1 },
      { 0x20, 0xF4 }, { 0x20, 0x64, 6 },
      { 0x12, 3, 16, 0, 1, 1, 4, 6, 0, 0, 2 } },
    { "MEM_RD with every field wrong", { 0x12, 3, 16, 0, 1, 1, 3, 5, 0, 0, 0 },
      { 0x1D, 0x55, 0, 0, 255, 255, 255, 255, 255, 255, 255, 255 },
      { 0x1D, 0x65, 6 }, { 0x12, 3, 16, 0, 1, 1, 5, 6, 0, 0, 1 } }
};

void tolerated_cases(void)
{
    size_t i;

    for (i = 0; i < sizeof cases / sizeof cases[0]; i++) {
        label(cases[i].name, 2);
        give_slave(16, 2, cases[i].before);
        exchanged(cases[i].command, cases[i].reply, cases[i].after);
    }
}

/* An exchange that passes check 1 sets the count back, whatever comes of it. */
void tolerated_set_back(void)
{
    static const uint8_t before[] = { 0x12, 3, 16, 0, 1, 1, 3, 5, 0, 0, 1 };
    static const struct {
        uint8_t command[16], reply[16], after[T24_STATE_LEN], place;
    } rows[] = {
        { { 0x00, 0x54 }, { 0x00, 0x64, 4 },
          { 0x12, 3, 16, 0, 1, 1, 4, 6, 0, 0, 0 }, 0 },
        { { 0x20, 0x54 }, { 0x20, 0x64, 5, 8 },
          { 0x12, 3, 16, 0, 1, 1, 4, 6, 8, 0, 0 }, 0 },
        { { 0x05, 0x54, 0, 0, 1 }, { 0x05, 0x64, 5, 9 },
          { 0x12, 3, 16, 0, 1, 1, 4, 6, 9, 0, 0 }, 4 },
        { { 0x1E, 0x54, 0, 0, 0, 0x11, 1, 0, 0, 0x10 }, { 0x1E, 0x64, 5, 10 },
          { 0x12, 3, 16, 0, 1, 1, 4, 6, 10, 0, 0 }, 0 },
        { { 0x0D, 0x54 }, { 0x0D, 0x64, 5, 12 },
          { 0x12, 3, 16, 0, 1, 1, 4, 6, 12, 0, 0 }, 0 },
        { { 0x0F, 0x54 }, { 0x0F, 0, 4 },
          { 0x12, 1, 16, 0, 0, 0, 0, 0, 0, 0, 0 }, 0 }
    };
    size_t i;

    for (i = 0; i < sizeof rows / sizeof rows[0]; i++) {
        label("row", (long)i);
        give_slave(16, 1, before);
        give(COMMAND, rows[i].command, 16);
        give_noise(REPLY, 16);
        memcpy(wanted(REPLY), rows[i].reply, 16);
        memcpy(wanted(STATE), rows[i].after, T24_STATE_LEN);
        expect(ASK_EXCHANGE, built_at(rows[i].place));
    }
}

/* Each WDT at each count, by the header's own verdict beside the library's. */
static void one_wdt(unsigned tolerance, unsigned count, unsigned wdt)
{
    static const uint8_t gone[] = { 0x12, 2, 16, 0, 1, 0, 0, 0, 9, 12, 0 };
    uint8_t state[] = { 0x12, 3, 16, 0, 1, 1, 9, 15, 9, 0, 0 };
    const uint8_t command[16] = { 0x00, (uint8_t)wdt };
    const int right = wdt == 0xFA, kept = right || count < tolerance;
    const uint8_t told = kept ? (uint8_t)(wdt & 15u) : 0;
    const uint8_t low = right || !kept ? 5 : 7, high = kept ? 0 : 0xC0;
    const uint8_t reply[16] = { 0, told, low, high };

    state[10] = (uint8_t)count;
    give_slave(16, tolerance, state);
    check(t24_watchdog_fails(sheet_p, state, command) == !right,
          "t24_watchdog_fails");
    check(t24_watchdog_tolerates(given(SHEET), given_len(SHEET), state)
          == (count < tolerance), "t24_watchdog_tolerates");
    check(t24_reply_tolerated(sheet_p, reply) == (kept && !right),
          "by the reply");
    state[6] = told;
    state[7] = 0;
    state[10] = right ? 0 : (uint8_t)(count + 1);
    exchanged(command, reply, kept ? state : gone);
}

void tolerated_every_wdt(void)
{
    unsigned tolerance, count, wdt;

    for (tolerance = 0; tolerance <= 3; tolerance++)
        for (count = 0; count <= tolerance; count++)
            for (wdt = 0; wdt < 256; wdt++) {
                label("tolerance, count and WDT",
                      (long)(10000 * tolerance + 1000 * count + wdt));
                one_wdt(tolerance, count, wdt);
            }
}

/* A cycle lost and one kept in turn is never two in a row, however long. */
static void in_turn(unsigned l)
{
    uint8_t state[] = { 0x12, 3, 0, 0, 1, 1, 0, 0, 0, 0, 0 };
    uint8_t command[T24_L_MAX] = { 0 };
    unsigned i;

    state[2] = (uint8_t)l;
    give_slave(l, 1, state);
    for (i = 0; i < 40; i++) {
        label("at L, exchange", (long)(1000 * l + i));
        command[1] = (uint8_t)(16 * (i % 16) + (i + 1) % 16);
        if (i % 2 == 0)
            command[1] ^= 0x80; /* another SN */
        give(COMMAND, command, l);
        give_noise(REPLY, l);
        memset(wanted(REPLY), 0, l);
        wanted(REPLY)[1] = (uint8_t)(17 * ((i + 1) % 16));
        wanted(REPLY)[2] = i % 2 == 0 ? 6 : 4;
        wanted(STATE)[6] = wanted(STATE)[7] = (uint8_t)((i + 1) % 16);
        wanted(STATE)[10] = i % 2 == 0;
        expect(ASK_EXCHANGE, T24_DONE);
        go_on(STATE);
    }
}

void tolerated_every_l(void)
{
    size_t i;

    for (i = 0; i < sizeof all_l; i++)
        in_turn(all_l[i]);
}
