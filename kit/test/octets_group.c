/* Commands put together from the header's constants alone are accepted. */
#include "groups.h"
#include "sheets.h"

#include <string.h>

static uint8_t built[16];

/* A number of so many octets, low octet first, as the header says. */
static void put(size_t at, uint32_t number, int count)
{
    for (; count > 0; count--, number >>= 8)
        built[at++] = (uint8_t)(number & 0xFFu);
}

static void start(unsigned code)
{
    memset(built, 0, sizeof built);
    built[T24_COMMAND_AT_CODE] = (uint8_t)code;
}

/* On sheet P with ID item 21 hex, in state A or Disconnected. */
static void lend_slave(unsigned link)
{
    struct built sheet;
    uint8_t state[T24_STATE_LEN];

    build_p(&sheet, 16);
    sheet.len--;
    add_item(&sheet, 0x21, 4);
    add_end(&sheet);
    memcpy(state, state_a, sizeof state);
    state[T24_AT_LINK] = (uint8_t)link;
    state[T24_AT_COM_TIME] = link == T24_LINK_ASYNC;
    give(SHEET, sheet.octets, sheet.len);
    give(STATE, state, sizeof state);
    give(MEMORY, memory_p, sizeof memory_p);
    give(COMMAND, built, sizeof built);
    give_noise(REPLY, 16);
}

/* Written-out octets: what the constants build, and the whole reply. */
static void accepted(const char *name, const uint8_t *command,
                     const uint8_t *reply)
{
    label(name, (long)command[0]);
    check(memcmp(built, command, sizeof built) == 0, "octets of the command");
    memcpy(wanted(REPLY), reply, 16);
    expect(ASK_EXCHANGE, T24_DONE);
}

static void memory_commands(void)
{
    static const uint8_t read[16] = { 0x1D, 0, 0, 0, 0, 0x11, 4, 0, 0, 0x10 };
    static const uint8_t told[16] = { 0x1D, 0, 4, 0, 0, 0x11, 4, 0, 0, 0x10, 0, 0,
                                      0x0A, 0x0B, 0x0C, 0x0D };
    static const uint8_t write[16] = { 0x1E, 0, 0, 0, 0, 0x31, 1, 0, 2, 0x10, 0, 0,
                                       1, 2, 3, 4 };
    static const uint8_t written[16] = { 0x1E, 0, 4, 0, 0, 0x31, 1, 0, 2, 0x10, 0,
                                         0, 1, 2, 3, 4 };

    start(T24_MEM_RD);
    built[T24_MEM_AT_ELEMENT] = T24_ELEMENT_1;
    put(T24_MEM_AT_COUNT, 4, 2);
    put(T24_MEM_AT_ADDRESS, 0x1000, 4);
    lend_slave(T24_LINK_ASYNC);
    accepted("MEM_RD", read, told);
    start(T24_MEM_WR);
    built[T24_MEM_AT_ELEMENT] = T24_ELEMENT_4;
    put(T24_MEM_AT_COUNT, 1, 2);
    put(T24_MEM_AT_ADDRESS, 0x1002, 4);
    put(T24_MEM_AT_DATA, 0x04030201, 4);
    lend_slave(T24_LINK_ASYNC);
    memcpy(wanted(MEMORY) + 2, built + T24_MEM_AT_DATA, 4);
    accepted("MEM_WR", write, written);
}

static void parameter_commands(void)
{
    static const uint8_t read[16] = { 0x01, 0, 0, 0, 7, 0, 2 };
    static const uint8_t told[16] = { 0x01, 0, 4, 0, 7, 0, 2, 0, 0x0C, 0x0D };
    static const uint8_t write[16] = { 0x02, 0, 0, 0, 7, 0, 2, 0, 0xB4, 0 };
    static const uint8_t written[16] = { 0x02, 0, 4, 0, 7, 0, 2, 0, 0xB4, 0 };

    start(T24_PRM_RD);
    put(T24_PRM_AT_NUMBER, 7, 2);
    put(T24_PRM_AT_SIZE, 2, 1);
    lend_slave(T24_LINK_ASYNC);
    accepted("PRM_RD", read, told);
    start(T24_PRM_WR);
    put(T24_PRM_AT_NUMBER, 7, 2);
    put(T24_PRM_AT_SIZE, 2, 1);
    put(T24_PRM_AT_DATA, 0xB4, 2);
    lend_slave(T24_LINK_ASYNC);
    memcpy(wanted(MEMORY) + 2, built + T24_PRM_AT_DATA, 2);
    accepted("PRM_WR", write, written);
}

static void other_commands(void)
{
    static const uint8_t id[16] = { 0x03, 0, 0, 0, 0x21, 1, 2 };
    static const uint8_t told[16] = { 0x03, 0, 4, 0, 0x21, 1, 2, 0, 0x62, 0x63 };
    static const uint8_t alarms[16] = { 0x05 };
    static const uint8_t latches[16] = { 0x05, 0, 5, 0, 0, 0, 0, 0, 9 };

    start(T24_ID_RD);
    put(T24_ID_AT_CODE, 0x21, 1);
    put(T24_ID_AT_OFFSET, 1, 1);
    put(T24_ID_AT_SIZE, 2, 2);
    lend_slave(T24_LINK_ASYNC);
    accepted("ID_RD", id, told);
    start(T24_ALM_RD);
    put(T24_ALM_AT_MODE, 0, 2);
    lend_slave(T24_LINK_ASYNC);
    given(STATE)[T24_AT_COMMAND_ALARM] = T24_ALARM_DATA;
    wanted(STATE)[T24_AT_COMMAND_ALARM] = T24_ALARM_DATA;
    accepted("ALM_RD", alarms, latches);
    check(latches[T24_ALM_AT_COMMAND] == T24_ALARM_DATA, "command latch");
    check(latches[T24_ALM_AT_COMMUNICATION] == 0, "communication latch");
}

static void connect_command(void)
{
    static const uint8_t connect[16] = { 0x0E, 0x07, 0, 0, 0x30, 6, 2, 0 };
    static const uint8_t connected[16] = { 0x0E, 0x07, 4, 0, 0x30, 6, 2, 0 };

    start(T24_CONNECT);
    put(T24_COMMAND_AT_WDT, 7, 1);
    put(T24_CONNECT_AT_VERSION, sheet_p[T24_SHEET_AT_VERSION], 1);
    put(T24_CONNECT_AT_COM_MOD, T24_COM_SYNC | T24_COM_DUAL, 1);
    put(T24_CONNECT_AT_COM_TIME, 2, 1);
    put(T24_CONNECT_AT_PROFILE, sheet_p[T24_SHEET_AT_PROFILE], 1);
    lend_slave(T24_LINK_DISCONNECTED);
    wanted(STATE)[T24_AT_LINK] = T24_LINK_SYNC;
    wanted(STATE)[T24_AT_DUAL] = 1;
    wanted(STATE)[T24_AT_COM_TIME] = 2;
    accepted("CONNECT", connect, connected);
}

/* A trace of each L by the constant of its kind: NOP, and its reply. */
static void trace_kinds(void)
{
    static const uint8_t kinds[] = { T24_TRACE_8, T24_TRACE_16, T24_TRACE_32,
                                     T24_TRACE_48, T24_TRACE_64 };
    uint8_t trace[1 + 2 * T24_L_MAX];
    struct built sheet;
    size_t i;

    for (i = 0; i < sizeof kinds; i++) {
        label("trace of L", (long)all_l[i]);
        build_p(&sheet, all_l[i]);
        lend_slave(T24_LINK_ASYNC);
        give(SHEET, sheet.octets, sheet.len);
        given(STATE)[T24_AT_L] = wanted(STATE)[T24_AT_L] = all_l[i];
        memset(trace, 0, sizeof trace);
        trace[0] = kinds[i];
        trace[T24_TRACE_AT_COMMAND + all_l[i] + T24_REPLY_AT_STATUS] =
            T24_STATUS_ALWAYS;
        give(TRACE, trace, 1 + 2 * (size_t)all_l[i]);
        expect(ASK_REPLAY, (uint64_t)1 << 32);
    }
    give(TRACE, NULL, 0);
}

void octets_commands(void)
{
    memory_commands();
    parameter_commands();
    other_commands();
    connect_command();
    trace_kinds();
}
