/* The eleven cases from the bench, with literal octets, over the C calls. */
#include "groups.h"
#include "sheets.h"

#include <string.h>

typedef uint8_t pdu[16];

/* Each case starts from sheet P, its memory and state A. */
static void start(long number, const uint8_t *command)
{
    label("case", number);
    give(SHEET, sheet_p, sizeof sheet_p);
    give(STATE, state_a, sizeof state_a);
    give(MEMORY, memory_p, sizeof memory_p);
    give(COMMAND, command, sizeof(pdu));
    give_noise(REPLY, sizeof(pdu));
}

static void built(const uint8_t *reply)
{
    memcpy(wanted(REPLY), reply, sizeof(pdu));
    expect(ASK_EXCHANGE, T24_DONE);
}

/* A refused command: code, RWDT and status, then a zero body; with a place. */
static void alarmed(unsigned rwdt, unsigned status_low, unsigned status_high,
                    unsigned place)
{
    pdu reply = { 0 };

    reply[0] = given(COMMAND)[0];
    reply[1] = (uint8_t)rwdt;
    reply[2] = (uint8_t)status_low;
    reply[3] = (uint8_t)status_high;
    if ((status_high & 15u) != 0)
        wanted(STATE)[T24_AT_COMMAND_ALARM] = status_high & 15u;
    memcpy(wanted(REPLY), reply, sizeof reply);
    expect(ASK_EXCHANGE, built_at(place));
}

static void cases_1_to_3(void)
{
    static const pdu read4 = { 0x1D, 0, 0, 0, 0, 0x11, 4, 0, 0, 0x10 };
    static const pdu read4_reply = {
        0x1D, 0, 4, 0, 0, 0x11, 4, 0, 0, 0x10, 0, 0, 0x0A, 0x0B, 0x0C, 0x0D
    };
    static const pdu read5 = { 0x1D, 0, 0, 0, 0, 0x11, 5, 0, 0, 0x10 };
    static const pdu read2x2 = { 0x1D, 0, 0, 0, 0, 0x21, 2, 0, 2, 0x10 };

    start(1, read4);
    built(read4_reply);
    start(2, read5);
    alarmed(0, 0x05, 0x09, 6);
    start(3, read2x2);
    alarmed(0, 0x05, 0x0A, 2);
}

static void cases_4_to_7(void)
{
    static const pdu write4 = {
        0x1E, 0, 0, 0, 0, 0x31, 1, 0, 2, 0x10, 0, 0, 1, 2, 3, 4
    };
    static const pdu write4_reply = {
        0x1E, 0, 4, 0, 0, 0x31, 1, 0, 2, 0x10, 0, 0, 1, 2, 3, 4
    };
    static const uint8_t written[8] = { 0x0A, 0x0B, 1, 2, 3, 4, 0x10, 0x11 };
    static const pdu read1 = { 0x1D, 0, 0, 0, 0, 0x11, 1, 0, 8, 0x10 };
    static const pdu code20 = { 0x20 };

    start(4, write4);
    memcpy(wanted(MEMORY), written, sizeof written);
    built(write4_reply);
    start(5, write4);
    given(STATE)[T24_AT_LINK] = T24_LINK_SYNC;
    wanted(STATE)[T24_AT_LINK] = T24_LINK_SYNC;
    wanted(STATE)[T24_AT_MN_KNOWN] = 1;
    wanted(STATE)[T24_AT_RSN] = 1;
    alarmed(0x10, 0x05, 0x0A, 0);
    start(6, read1);
    alarmed(0, 0x05, 0x09, 8);
    start(7, code20);
    alarmed(0, 0x05, 0x08, 0);
}

static void case_8(void)
{
    static const pdu size2 = { 0x01, 0, 0, 0, 7, 0, 2 };
    static const pdu size2_reply = { 0x01, 0, 4, 0, 7, 0, 2, 0, 0x0C, 0x0D };
    static const pdu size1 = { 0x01, 0, 0, 0, 7, 0, 1 };

    start(8, size2);
    built(size2_reply);
    start(8, size1);
    alarmed(0, 0x05, 0x09, 6);
}

static void give_link(const uint8_t *state)
{
    give(STATE, state, T24_STATE_LEN);
}

static void case_9(void)
{
    static const uint8_t link1[11] = { 0x12, 1, 0x10, 0, 0, 0, 0, 0, 0, 0, 0 };
    static const uint8_t dual[11] = { 0x12, 3, 0x10, 1, 2, 0, 0, 0, 0, 0, 0 };
    static const pdu time1 = { 0x0E, 0, 0, 0, 0x30, 6, 1, 0 };
    static const pdu time2 = { 0x0E, 0, 0, 0, 0x30, 6, 2, 0 };
    static const pdu time2_reply = { 0x0E, 0, 4, 0, 0x30, 6, 2, 0 };

    start(9, time1);
    give_link(link1);
    alarmed(0, 0x05, 0x09, 6);
    start(9, time2);
    give_link(link1);
    memcpy(wanted(STATE), dual, sizeof dual);
    built(time2_reply);
}

static void case_10(void)
{
    static const uint8_t last15[11] = { 0x12, 3, 16, 0, 1, 1, 15, 5, 0, 0, 0 };
    static const uint8_t after0[11] = { 0x12, 3, 0x10, 0, 1, 1, 0, 6, 0, 0, 0 };
    static const uint8_t last3[11] = { 0x12, 3, 0x10, 0, 1, 1, 3, 5, 0, 0, 0 };
    static const uint8_t dropped[11] = { 0x12, 2, 16, 0, 1, 0, 0, 0, 0, 12, 0 };
    static const pdu mn0 = { 0x00, 0x50 }, mn3 = { 0x00, 0x53 }; /* SN is RSN */
    static const pdu mn0_reply = { 0x00, 0x60, 4, 0 };

    start(10, mn0);
    give_link(last15);
    memcpy(wanted(STATE), after0, sizeof after0);
    built(mn0_reply);
    start(10, mn3);
    give_link(last3);
    memcpy(wanted(STATE), dropped, sizeof dropped);
    alarmed(0, 0x05, 0xC0, 0);
}

static void sheet_is(const uint8_t *sheet, size_t len, unsigned number,
                     uint64_t place)
{
    give(SHEET, sheet, len);
    expect(ASK_SHEET, number + (place << 32));
    expect(ASK_RESET, number + (place << 32));
    expect(ASK_ENABLE, number + (place << 32));
    expect(ASK_EXCHANGE, number + (place << 32));
}

static void case_11(void)
{
    static const pdu nop = { 0 };
    uint8_t longer[34] = { 0 };

    start(11, nop);
    sheet_is(sheet_p, 0, 11, 0);
    sheet_is(sheet_p, 32, 11, 32);
    memcpy(longer, sheet_p, sizeof sheet_p);
    sheet_is(longer, 34, 13, 33);
}

void bench_cases(void)
{
    cases_1_to_3();
    cases_4_to_7();
    case_8();
    case_9();
    case_10();
    case_11();
}

/* Reset, enable, zero memory, then the bench's two commands and replies. */
void bench_program(void)
{
    static const uint8_t disabled[11] = { 0x12, 0, 0x10 };
    static const uint8_t enabled[11] = { 0x12, 1, 0x10 };
    static const uint8_t connected[11] = { 0x12, 2, 0x10, 0, 1 };
    static const pdu nop = { 0 }, nop_reply = { 0x00, 0x00, 0x04, 0x00 };
    static const pdu connect = { 0x0E, 0, 0, 0, 0x30, 0, 1, 0 };
    static const pdu connect_reply = { 0x0E, 0, 4, 0, 0x30, 0, 1, 0 };

    start(0, nop);
    memset(given(MEMORY), 0, 8);
    memset(wanted(MEMORY), 0, 8);
    give_noise(STATE, T24_STATE_LEN);
    memcpy(wanted(STATE), disabled, sizeof disabled);
    expect(ASK_RESET, T24_DONE);
    go_on(STATE);
    memcpy(wanted(STATE), enabled, sizeof enabled);
    expect(ASK_ENABLE, T24_DONE);
    go_on(STATE);
    built(nop_reply);
    go_on(STATE);
    give(COMMAND, connect, sizeof connect);
    memcpy(wanted(STATE), connected, sizeof connected);
    built(connect_reply);
}
