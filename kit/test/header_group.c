/* The header itself: its numbers are the rules', its words tell apart. */
#include "groups.h"

#include <string.h>

static const unsigned numbers[] = {
    0, 1, 2, 3, 4, 5, 6, 11, 12, 13, 14, 15, 16, 17, 21, 22, 23, 24, 25, 26, 27,
    28, 31, 32, 33, 34, 35
};

/* Literal octets stand here on purpose: a slip in the header must show. */
static const unsigned pair[][2] = {
    { T24_L8, 8 }, { T24_L16, 16 }, { T24_L32, 32 }, { T24_L48, 48 },
    { T24_L64, 64 }, { T24_L_MAX, 64 }, { T24_STATE_LEN, 11 },
    { T24_OLD_STATE_LEN, 10 }, { T24_RELEASE, 3 },
    { T24_SHEET_MAX, 2048 }, { T24_MEMORY_MAX, 65536 },
    { T24_DONE, 0 }, { T24_BAD_STATE, 1 }, { T24_BAD_MEMORY, 2 },
    { T24_BAD_COMMAND, 3 }, { T24_BAD_REPLY, 4 }, { T24_IS_DISABLED, 5 },
    { T24_NOT_DISABLED, 6 }, { T24_SHEET_CUT, 11 }, { T24_SHEET_KIND, 12 },
    { T24_SHEET_PLACE, 13 }, { T24_SHEET_RANGE, 14 },
    { T24_SHEET_ORDER, 15 }, { T24_SHEET_EXCESS, 16 },
    { T24_SHEET_SPAN, 17 }, { T24_TRACE_KIND, 31 }, { T24_TRACE_L, 32 },
    { T24_TRACE_CUT, 33 }, { T24_TRACE_DIFFERS, 34 },
    { T24_TRACE_LONG, 35 }, { T24_TRACE_MAX, 0x3FFFFFFF },
    { T24_TRACE_8, 0x21 }, { T24_NOP, 0 }, { T24_PRM_RD, 1 },
    { T24_PRM_WR, 2 }, { T24_ID_RD, 3 }, { T24_ALM_RD, 5 },
    { T24_ALM_CLR, 6 }, { T24_SYNC_SET, 0x0D }, { T24_CONNECT, 0x0E },
    { T24_DISCONNECT, 0x0F }, { T24_MEM_RD, 0x1D }, { T24_MEM_WR, 0x1E },
    { T24_ALARM_NONE, 0 }, { T24_ALARM_CODE, 8 }, { T24_ALARM_DATA, 9 },
    { T24_ALARM_RIGHTS, 10 }, { T24_ALARM_LINK, 12 },
    { T24_ALARM_COMMUNICATION, 12 }, { T24_LINK_DISABLED, 0 },
    { T24_LINK_DISCONNECTED, 1 }, { T24_LINK_ASYNC, 2 },
    { T24_LINK_SYNC, 3 }, { T24_STATE_KIND, 0x12 },
    { T24_OLD_STATE_KIND, 0x11 }, { T24_AT_KIND, 0 },
    { T24_AT_LINK, 1 }, { T24_AT_L, 2 }, { T24_AT_DUAL, 3 },
    { T24_AT_COM_TIME, 4 }, { T24_AT_MN_KNOWN, 5 }, { T24_AT_LAST_MN, 6 },
    { T24_AT_RSN, 7 }, { T24_AT_COMMAND_ALARM, 8 },
    { T24_AT_COMMUNICATION_ALARM, 9 }, { T24_AT_FAILURES, 10 },
    { T24_RECORD_END, 0 }, { T24_RECORD_TOLERANCE, 6 },
    { T24_RECORD_TOLERANCE_LEN, 2 }, { T24_TOLERANCE_AT_COUNT, 1 },
    { T24_TOLERANCE_MAX, 3 }, { T24_STATUS_TOLERATED, 2 },
    { T24_RECORD_RULE_RELEASE, 7 }, { T24_RECORD_RULE_RELEASE_LEN, 2 },
    { T24_RULE_RELEASE_AT_NUMBER, 1 }, { T24_RULE_RELEASE_MAX, 2 },
    { T24_RECORD_LINK, 1 }, { T24_RECORD_REGION, 2 },
    { T24_RECORD_PARAMETER, 3 }, { T24_RECORD_ID, 4 },
    { T24_RIGHT_READ, 1 }, { T24_RIGHT_WRITE_ASYNC, 2 },
    { T24_RIGHT_WRITE_SYNC, 4 }, { T24_COM_SYNC, 2 }, { T24_COM_DUAL, 4 },
    { T24_ELEMENT_1, 0x11 }, { T24_ELEMENT_2, 0x21 },
    { T24_ELEMENT_4, 0x31 }, { T24_TRACE_16, 0x22 }, { T24_TRACE_32, 0x23 },
    { T24_TRACE_48, 0x24 }, { T24_TRACE_64, 0x25 },
    { T24_TRACE_AT_COMMAND, 1 }, { T24_RECORD_END_LEN, 1 },
    { T24_RECORD_LINK_LEN, 4 }, { T24_RECORD_REGION_LEN, 10 },
    { T24_RECORD_PARAMETER_LEN, 8 }, { T24_RECORD_ID_LEN, 35 },
    { T24_SHEET_AT_L, 1 }, { T24_SHEET_AT_VERSION, 2 },
    { T24_SHEET_AT_PROFILE, 3 }, { T24_REGION_AT_START, 1 },
    { T24_REGION_AT_LENGTH, 5 }, { T24_REGION_AT_RIGHTS, 9 },
    { T24_PARAMETER_AT_NUMBER, 1 }, { T24_PARAMETER_AT_ADDRESS, 3 },
    { T24_PARAMETER_AT_SIZE, 7 }, { T24_ITEM_AT_CODE, 1 },
    { T24_ITEM_AT_LENGTH, 2 }, { T24_ITEM_AT_OCTETS, 3 },
    { T24_REGIONS_MAX, 32 }, { T24_PARAMETERS_MAX, 64 },
    { T24_ITEMS_MAX, 32 }, { T24_PARAMETER_SIZE_MAX, 56 },
    { T24_ITEM_OCTETS, 32 }, { T24_COMMAND_AT_CODE, 0 },
    { T24_COMMAND_AT_WDT, 1 }, { T24_COMMAND_AT_CONTROL, 2 },
    { T24_IDENTITY, 0xC0 }, { T24_REPLY_AT_CODE, 0 },
    { T24_REPLY_AT_RWDT, 1 }, { T24_REPLY_AT_STATUS, 2 },
    { T24_STATUS_LATCHED, 1 }, { T24_STATUS_ALWAYS, 4 },
    { T24_PRM_AT_NUMBER, 4 }, { T24_PRM_AT_SIZE, 6 },
    { T24_PRM_AT_DATA, 8 }, { T24_ID_AT_CODE, 4 }, { T24_ID_AT_OFFSET, 5 },
    { T24_ID_AT_SIZE, 6 }, { T24_ID_AT_DATA, 8 }, { T24_ALM_AT_MODE, 4 },
    { T24_ALM_AT_COMMAND, 8 }, { T24_ALM_AT_COMMUNICATION, 9 },
    { T24_CONNECT_AT_VERSION, 4 }, { T24_CONNECT_AT_COM_MOD, 5 },
    { T24_CONNECT_AT_COM_TIME, 6 }, { T24_CONNECT_AT_PROFILE, 7 },
    { T24_MEM_AT_ELEMENT, 5 }, { T24_MEM_AT_COUNT, 6 },
    { T24_MEM_AT_ADDRESS, 8 }, { T24_MEM_AT_DATA, 12 },
    { T24_RECORD_SHORT_LINK, 5 }, { T24_RECORD_SHORT_LINK_LEN, 4 },
    { T24_SHORT_COMMAND_AT_WDT, 15 }, { T24_SHORT_REPLY_AT_ALARM, 1 },
    { T24_SHORT_REPLY_AT_STATUS, 2 }, { T24_SHORT_REPLY_AT_RWDT, 15 },
    { T24_SHORT_PRM_AT_DATA, 7 }, { T24_SHORT_DATA_MAX, 8 },
    { T24_SHORT_ID_AT_DATA, 7 }, { T24_SHORT_ALM_AT_COMMAND, 5 },
    { T24_SHORT_ALM_AT_COMMUNICATION, 6 }, { T24_SECOND, 10 },
    { T24_SECOND_CUT, 21 }, { T24_SECOND_KIND, 22 }, { T24_SECOND_PLACE, 23 },
    { T24_SECOND_RANGE, 24 }, { T24_SECOND_ORDER, 25 },
    { T24_SECOND_EXCESS, 26 }, { T24_SECOND_SPAN, 27 }, { T24_LIST_LONG, 28 },
    { T24_DIFFERENCE_MAX, 2379 }, { T24_ENTRY_GONE, 0x40 },
    { T24_ENTRY_NEW, 0x50 }, { T24_ENTRY_CHANGED, 0x60 }, { T24_ENTRY_MAX, 36 },
    { T24_REGION_KEY_LEN, 4 }, { T24_PARAMETER_KEY_LEN, 2 },
    { T24_ITEM_KEY_LEN, 1 }, { T24_CHANGED_L, 1 }, { T24_CHANGED_VERSION, 2 },
    { T24_CHANGED_PROFILE, 4 }, { T24_CHANGED_REGION_LENGTH, 2 },
    { T24_CHANGED_RIGHTS, 4 }, { T24_CHANGED_ADDRESS, 2 },
    { T24_CHANGED_SIZE, 4 }, { T24_CHANGED_ITEM_LENGTH, 2 },
    { T24_CHANGED_ITEM_OCTETS, 4 }, { T24_CHANGED_TOLERANCE, 1 },
    { T24_CHANGED_RULE_RELEASE, 1 }
};

void header_constants(void)
{
    size_t i;

    for (i = 0; i < sizeof pair / sizeof pair[0]; i++) {
        label("constant", (long)i);
        check(pair[i][0] == pair[i][1], "constant");
    }
}

/* The archive that is tested is the header's own; the version begins with it. */
void header_release(void)
{
    check(t24_version() == 3, "release of the archive");
    check(t24_release_fits(), "archive and header");
    check(strcmp(T24_VERSION, "3.2.0") == 0, "version and release");
}

static void answers_taken_apart(void)
{
    const uint64_t answer = ((uint64_t)0xFEDCBA98u << 32) + 0x76543210u;
    static const uint8_t low[4] = { 0x3F, 0x44, 0x80, 0xC5 }, enhanced[] = { 1 };
    uint8_t reply[4] = { 0xFF, 0xFF, 5, 0xC9 };
    unsigned identity;

    check(t24_number(answer) == 0x76543210u, "number of an answer");
    check(t24_place(answer) == 0xFEDCBA98u, "place of an answer");
    check(t24_l(answer) == 0x76543210u, "L of lengths");
    check(t24_memory(answer) == 0xFEDCBA98u, "memory of lengths");
    check(t24_trace_record(answer) == 0x3FB72EAu, "record of an answer");
    check(t24_trace_octet(answer) == 0x18, "octet of an answer");
    check(t24_reply_alarm(enhanced, reply) == 9, "alarm of a reply");
    check(t24_reply_communication_alarm(enhanced, reply) == 12,
          "latch of a reply");
    for (identity = 0; identity < 4; identity++) {
        reply[2] = low[identity];
        check(t24_reply_identity(enhanced, reply) == identity,
              "identity of a reply");
        check(t24_reply_tolerated(enhanced, reply) == (identity == 0),
              "bit 1 of a reply");
    }
}

void header_words(void)
{
    static const unsigned alarms[] = { 0, 8, 9, 10, 12 };
    size_t i, j;

    answers_taken_apart();
    for (i = 0; i < 64; i++)
        check(t24_sheet_fault((uint32_t)i)
              == (i >= 11 && i <= 17 ? i : i >= 21 && i <= 27 ? i - 10 : 0),
              "the fault of a sheet");
    for (i = 0; i < sizeof numbers / sizeof numbers[0]; i++) {
        label("number", (long)numbers[i]);
        check(strcmp(t24_words(numbers[i]), t24_words(7)) != 0, "no words");
        for (j = 0; j < i; j++)
            check(strcmp(t24_words(numbers[i]), t24_words(numbers[j])) != 0,
                  "same words as another");
    }
    for (i = 0; i < sizeof alarms / sizeof alarms[0]; i++) {
        label("alarm", (long)alarms[i]);
        check(strcmp(t24_alarm_words(alarms[i]), t24_alarm_words(1)) != 0,
              "no words");
        for (j = 0; j < i; j++)
            check(strcmp(t24_alarm_words(alarms[i]),
                         t24_alarm_words(alarms[j])) != 0,
                  "same words as another");
    }
}
