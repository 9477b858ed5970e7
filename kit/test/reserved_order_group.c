/* Where the reserved octets stand among the checks: behind the watchdog, the code,
 * the link and the data, before the rights (RULES 7.24). */
#include "groups.h"
#include "reserved.h"

#include <string.h>

#define OUT { 0x12, 2, 16, 0, 1, 0, 0, 0, 0, 0, 0 }
#define FRESH { 0x12, 1, 16, 0, 0, 0, 0, 0, 0, 0, 0 }

/* Refused with this alarm and place under release 2 of the drive rules. */
struct ordered {
    const char *name;
    uint8_t is_short, alarm, place, before[T24_STATE_LEN], command[RULES_L];
};

/* Each has a reserved octet that is not zero, but for those that say so. */
static const struct ordered orders[] = {
    { "unknown code", 0, 8, 0, OUT, { 0x20, 0, 1, 1, 1 } },
    { "MEM_RD, short", 1, 8, 0, OUT, { 0x1D, 1, 0, 0, 1 } },
    { "CONNECT in link 2", 0, 12, 0, OUT, { 0x0E, 0, 0, 1, 0x30, 0, 1 } },
    { "PRM_RD in link 1, short", 1, 12, 0, FRESH, { 0x01, 1, 0, 0, 7, 0, 2 } },
    { "number", 0, 9, 4, OUT, { 0x01, 0, 0, 1, 6, 0, 2, 1 } },
    { "size", 0, 9, 6, OUT, { 0x02, 0, 1, 0, 7, 0, 3, 1, 1, 1, 1, 1 } },
    { "size, short", 1, 9, 6, OUT, { 0x02, 1, 1, 1, 7, 0, 3, 1, 1, 1, 1 } },
    { "ID size", 0, 9, 6, OUT, { 0x03, 0, 0, 1, 0x21, 0, 5 } },
    { "mode", 0, 9, 4, OUT, { 0x05, 0, 0, 1, 0, 1 } },
    { "mode, short", 1, 9, 4, OUT, { 0x06, 0, 0, 1, 1, 1 } },
    { "profile", 0, 9, 7, FRESH, { 0x0E, 0, 0, 1, 0x30, 0, 1, 1 } },
    { "com_time, short", 1, 9, 6, FRESH, { 0x0E, 0, 0, 1, 0x30, 0, 0, 1 } },
    { "element", 0, 9, 5, OUT, { 0x1D, 0, 0, 1, 1, 0x12, 1, 0, 0, 0x10 } },
    { "count", 0, 9, 6, OUT, { 0x1E, 0, 0, 1, 1, 0x11, 5, 0, 0, 0x10 } },
    { "unmapped", 0, 9, 8, OUT, { 0x1D, 0, 0, 0, 1, 0x11, 1, 0, 0x10, 0x10 } },
    { "a right lacks, none set", 0, 10, 0, OUT,
      { 0x1D, 0, 0xC0, 0, 0, 0x11, 1, 0, 8, 0x10 } },
    { "a right lacks, octet 4", 0, 9, 4, OUT,
      { 0x1D, 0, 0, 0, 1, 0x11, 1, 0, 8, 0x10 } },
    { "a right lacks later, last octet", 0, 9, 15, OUT,
      { 0x1D, 0, 0, 0, 0, 0x11, 2, 0, 7, 0x10, 0, 0, 0, 0, 0, 1 } },
    { "a right lacks later, none set", 0, 10, 1, OUT,
      { 0x1D, 0, 0, 0, 0, 0x11, 2, 0, 7, 0x10 } },
    { "read of a write-only octet, short", 1, 9, 1, OUT,
      { 0x01, 1, 0, 0, 6, 0, 1 } },
    { "the same, none set", 1, 10, 0, OUT, { 0x01, 0, 0, 0, 6, 0, 1 } }
};

/* In the short type, which has no MEM_RD, parameter 6 is one octet at 1008, which
 * may not be read. */
static void give_slave(const struct ordered *one, unsigned release)
{
    static const uint8_t sixth[] = { 3, 6, 0, 8, 0x10, 0, 0, 1 };
    const size_t at = 4 + 2 * 10;
    uint8_t sheet[256];
    size_t len;

    give_ruled_slave(one->is_short, RULES_L, release, one->before);
    len = given_len(SHEET);
    memcpy(sheet, given(SHEET), at);
    memcpy(sheet + at, sixth, sizeof sixth);
    memcpy(sheet + at + sizeof sixth, given(SHEET) + at, len - at);
    if (one->is_short)
        give(SHEET, sheet, len + sizeof sixth);
    give(COMMAND, one->command, RULES_L);
}

void reserved_order(void)
{
    size_t i;

    for (i = 0; i < sizeof orders / sizeof orders[0]; i++) {
        const struct ordered *one = &orders[i];

        label(one->name, (long)one->alarm);
        give_slave(one, 2);
        memset(wanted(REPLY), 0, RULES_L);
        wanted(REPLY)[0] = one->command[0];
        wanted(REPLY)[2] = 5;
        if (!one->is_short)
            wanted(REPLY)[2] |= one->command[2] & 0xC0u;
        wanted(REPLY)[one->is_short ? 1 : 3] = one->alarm;
        wanted(STATE)[T24_AT_COMMAND_ALARM] = one->alarm;
        expect(ASK_EXCHANGE, built_at(one->place));
    }
}

/* A lost cycle, tolerated and one more, in a NOP with every reserved octet set. */
void reserved_lost(void)
{
    const uint8_t state[T24_STATE_LEN] = { 0x12, 3, 16, 0, 1, 1, 3, 5, 0, 0, 0 };
    uint8_t command[RULES_L];

    memset(command, 0xFF, sizeof command);
    command[0] = 0;
    command[1] = 0x53;
    label("tolerated", 1);
    give_ruled_slave(0, RULES_L, 2, state);
    give(COMMAND, command, sizeof command);
    memset(wanted(REPLY), 0, RULES_L);
    wanted(REPLY)[1] = 0x63;
    wanted(REPLY)[2] = 0xC6;
    wanted(STATE)[T24_AT_RSN] = 6;
    wanted(STATE)[T24_AT_FAILURES] = 1;
    expect(ASK_EXCHANGE, T24_DONE);
    label("one more", 2);
    go_on(STATE);
    given(COMMAND)[1] = wanted(COMMAND)[1] = 0x63;
    memset(wanted(REPLY), 0, RULES_L);
    wanted(REPLY)[2] = 0xC5;
    wanted(REPLY)[3] = 0xC0;
    memset(wanted(STATE) + T24_AT_MN_KNOWN, 0, 6);
    wanted(STATE)[T24_AT_LINK] = T24_LINK_ASYNC;
    wanted(STATE)[T24_AT_COMMUNICATION_ALARM] = 12;
    expect(ASK_EXCHANGE, T24_DONE);
}

/* At L 8 the length of the PDU goes before octet 2 in ALM_RD, and in ALM_CLR there
 * is no such check. */
void reserved_at_l8(void)
{
    const uint8_t state[T24_STATE_LEN] = { 0x12, 2, 8, 0, 1, 0, 0, 0, 0, 0, 0 };
    uint8_t command[8] = { 0x05, 0, 1 };
    unsigned code;

    for (code = 5; code < 7; code++) {
        label("code at L 8", (long)code);
        give_ruled_slave(0, 8, 2, state);
        command[0] = (uint8_t)code;
        give(COMMAND, command, sizeof command);
        memset(wanted(REPLY), 0, 8);
        wanted(REPLY)[0] = (uint8_t)code;
        wanted(REPLY)[2] = 5;
        wanted(REPLY)[3] = 9;
        wanted(STATE)[T24_AT_COMMAND_ALARM] = 9;
        expect(ASK_EXCHANGE, built_at(code == 5 ? 0 : 2));
    }
}

/* A NOP with octet 3 set, accepted and refused, as the replies of a trace: each
 * is the slave's under one rule release, and differs under the other. */
void reserved_replays(void)
{
    static const uint8_t state[T24_STATE_LEN] = OUT;
    static const uint8_t told[3] = { 4, 4, 5 };
    uint8_t trace[33] = { 0x22, 0, 0, 0, 1 };
    unsigned release, seen;

    for (release = 0; release < 3; release++)
        for (seen = 0; seen < 3; seen += 2) {
            const int agrees = told[release] == told[seen];

            label("release and reply", (long)(10 * release + seen));
            trace[19] = told[seen];
            trace[20] = seen == 2 ? 9 : 0;
            give_ruled_slave(0, RULES_L, release, state);
            give(TRACE, trace, sizeof trace);
            if (agrees && release == 2)
                wanted(STATE)[T24_AT_COMMAND_ALARM] = 9;
            expect(ASK_REPLAY, agrees ? (uint64_t)1 << 32 : 34 + ((uint64_t)2 << 32));
        }
}
