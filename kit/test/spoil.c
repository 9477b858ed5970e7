/*
 * Stands between the test and the library and spoils one thing at a time, as
 * the variable SPOIL says, so that it shows whether the test notices; between
 * compare and the library for peer/valgrind and peer/sanitized.
 * Linked with --wrap for each of the six calls; t24_turn and t24_version have
 * a file of their own, and so has t24_difference.
 */
#include "spoil.h"
#include "spoil_lost.h"
#include "spoil_rules.h"
#include "spoil_short.h"

#include <string.h>

uint64_t __real_t24_sheet(const uint8_t *, size_t);
uint64_t __real_t24_lengths(const uint8_t *, size_t);
uint64_t __real_t24_reset(const uint8_t *, size_t, uint8_t *, size_t);
uint64_t __real_t24_enable(const uint8_t *, size_t, uint8_t *, size_t);
uint64_t __real_t24_replay(const uint8_t *, size_t, uint8_t *, size_t,
                           uint8_t *, size_t, const uint8_t *, size_t);
uint64_t __wrap_t24_sheet(const uint8_t *, size_t);
uint64_t __wrap_t24_lengths(const uint8_t *, size_t);
uint64_t __wrap_t24_reset(const uint8_t *, size_t, uint8_t *, size_t);
uint64_t __wrap_t24_enable(const uint8_t *, size_t, uint8_t *, size_t);
uint64_t __wrap_t24_exchange(const uint8_t *, size_t, uint8_t *, size_t,
                             uint8_t *, size_t, const uint8_t *, size_t,
                             uint8_t *, size_t);
uint64_t __wrap_t24_replay(const uint8_t *, size_t, uint8_t *, size_t,
                           uint8_t *, size_t, const uint8_t *, size_t);

uint64_t __wrap_t24_sheet(const uint8_t *sheet, size_t len)
{
    const uint64_t answer = __real_t24_sheet(sheet, len);

    if (spoil(1) && t24_number(answer) == T24_SHEET_PLACE)
        return answer + ((uint64_t)1 << 32); /* a place one too far */
    if (spoil(2) && t24_number(answer) == T24_SHEET_EXCESS)
        return answer - 1; /* order told for excess */
    return spoil_rules_sheet(spoil_short_sheet(answer, sheet), sheet);
}

uint64_t __wrap_t24_lengths(const uint8_t *sheet, size_t len)
{
    const uint64_t answer = __real_t24_lengths(sheet, len);

    if (spoil(3) && t24_memory(answer) == T24_MEMORY_MAX)
        return t24_l(answer); /* the memory length in 16 bits */
    return answer;
}

uint64_t __wrap_t24_reset(const uint8_t *sheet, size_t sheet_len,
                          uint8_t *state, size_t state_len)
{
    const uint8_t last = state_len == T24_STATE_LEN ? state[10] : 0;
    uint64_t answer;

    if (spoil(4) && state_len > T24_STATE_LEN)
        state_len = T24_STATE_LEN; /* a longer record passes */
    answer = __real_t24_reset(sheet, sheet_len, state, state_len);
    if (spoil(36) && answer == T24_DONE)
        state[T24_AT_FAILURES] = last; /* ten octets written, as before */
    return answer;
}

uint64_t __wrap_t24_enable(const uint8_t *sheet, size_t sheet_len,
                           uint8_t *state, size_t state_len)
{
    const uint64_t answer =
        __real_t24_enable(sheet, sheet_len, state, state_len);

    if (spoil(5) && answer == T24_NOT_DISABLED)
        return T24_DONE;
    if (spoil(6) && answer == T24_NOT_DISABLED)
        state[T24_AT_COMMAND_ALARM] ^= 8; /* a refusal that writes */
    return answer;
}

/* What goes wrong before the library sees the call. */
static int spoil_order(size_t memory_len, size_t command_len, size_t reply_len,
                       uint64_t answer)
{
    if (spoil(7) && answer == T24_BAD_COMMAND && reply_len != command_len)
        return 1; /* 4 told before 3 */
    return spoil(8) && answer == T24_BAD_MEMORY && memory_len > 65536;
}

static void spoil_buffers(uint64_t answer, const uint8_t *sheet,
                          uint8_t *memory, size_t memory_len,
                          const uint8_t *command, size_t command_len,
                          uint8_t *reply, size_t reply_len)
{
    static unsigned built;

    built += t24_number(answer) == T24_DONE;
    if (spoil(9) && answer == T24_BAD_REPLY)
        reply[reply_len] = 0; /* the overrun that once was */
    if (spoil(10) && reply_len > 0)
        reply[-1] = 0;
    if (spoil(11) && memory_len > 0)
        *(volatile uint8_t *)(size_t)sheet = sheet[0]; /* even the same octet */
    if (spoil(12) && command_len > 0)
        reply[0] = *(const volatile uint8_t *)(command + command_len);
    if (spoil(13) && t24_number(answer) == T24_DONE && reply[0] == T24_MEM_RD)
        reply[reply_len - 1] ^= 0x80; /* an old octet behind the data */
    if (spoil(14) && t24_number(answer) == T24_DONE && reply[0] == T24_MEM_WR)
        memory[memory_len - 1] ^= 1;
    if (spoil(15) && t24_number(answer) == T24_DONE && built % 100 == 0)
        reply[1] ^= 0x10; /* something kept from call to call */
}

/* The identity lost in one kind of reply, or a bit too many come back. */
static void spoil_identity(const uint8_t *sheet, uint8_t *reply,
                           const uint8_t *command)
{
    const unsigned alarm = t24_reply_alarm(sheet, reply);

    if ((spoil(20) && alarm != T24_ALARM_NONE)
        || (spoil(21) && reply[T24_REPLY_AT_STATUS + 1] == 0xC0))
        reply[T24_REPLY_AT_STATUS] &= 0x3F;
    if (spoil(22))
        reply[T24_REPLY_AT_STATUS] |= command[T24_COMMAND_AT_CONTROL] & 0x20;
}

/* Another octet told as the wrong one, or one told where none is wrong. */
static uint64_t spoil_place(uint64_t answer, const uint8_t *sheet,
                            const uint8_t *reply, const uint8_t *command)
{
    const unsigned alarm = t24_reply_alarm(sheet, reply);
    const uint64_t one = (uint64_t)1 << 32;

    if (spoil(24) && alarm != T24_ALARM_NONE)
        return T24_DONE; /* no place, as there once was none */
    if (spoil(25) && alarm == T24_ALARM_RIGHTS && t24_place(answer) > 0)
        return answer + one; /* the second octet without the right */
    if (spoil(26) && alarm == T24_ALARM_CODE)
        return answer + T24_COMMAND_AT_WDT * one;
    if (spoil(27) && alarm == T24_ALARM_DATA && t24_place(answer) == 4
        && command[5] != 0 && command[4] == 0)
        return answer + one; /* a mode or number told at its second octet */
    return answer;
}

/* The watchdog asks too little, or too early: tells the command as it is seen. */
static const uint8_t *spoil_watchdog(const uint8_t *sheet, uint8_t *state,
                                     size_t state_len, const uint8_t *command,
                                     size_t command_len)
{
    static uint8_t seen[T24_L_MAX];

    if (state_len != T24_STATE_LEN || state[T24_AT_LINK] != T24_LINK_SYNC)
        return command;
    memcpy(seen, command, command_len);
    if (spoil(28) && t24_watchdog_asks(state)) /* SN is not asked */
        t24_put_wdt(sheet, seen, (uint8_t)(16 * t24_expected_sn(state)
                                           + t24_mn(sheet, command)));
    if (spoil(29) && !t24_watchdog_asks(state) && t24_sn(sheet, command) != 0) {
        state[T24_AT_MN_KNOWN] = 1; /* SN is asked, though MN is not known */
        state[T24_AT_LAST_MN] = (uint8_t)t24_mn(sheet, command);
    }
    return spoil(28) ? seen : command;
}

/* The same of both types, where the command's length is the sheet's L. */
static const uint8_t *spoil_command(const uint8_t *sheet, size_t sheet_len,
                                    uint8_t *state, size_t state_len,
                                    size_t memory_len, const uint8_t *command,
                                    size_t command_len)
{
    if (sheet_len <= T24_SHEET_AT_L || command_len != sheet[T24_SHEET_AT_L]
        || command_len < T24_L8 || command_len > T24_L_MAX)
        return command;
    if (t24_is_short(sheet) && command_len != T24_L16)
        return command;
    command = spoil_watchdog(sheet, state, state_len, command, command_len);
    if (t24_is_short(sheet))
        command = spoil_short_command(sheet, command);
    if (state_len != T24_STATE_LEN || t24_rule_release(sheet, sheet_len) != 2)
        return command;
    return spoil_reserved(sheet, sheet_len, state, memory_len, command,
                          command_len);
}

uint64_t __wrap_t24_exchange(const uint8_t *sheet, size_t sheet_len,
                             uint8_t *state, size_t state_len,
                             uint8_t *memory, size_t memory_len,
                             const uint8_t *command, size_t command_len,
                             uint8_t *reply, size_t reply_len)
{
    const uint8_t *seen = spoil_command(sheet, sheet_len, state, state_len,
                                        memory_len, command, command_len);
    uint8_t before[T24_STATE_LEN] = { 0 };
    uint64_t answer;

    if (state_len == T24_STATE_LEN)
        memcpy(before, state, sizeof before);
    answer = __real_t24_exchange(
        spoil_rules(spoil_tolerance(sheet, sheet_len), sheet_len), sheet_len,
        state, state_len, memory, memory_len, seen, command_len, reply,
        reply_len);
    if (t24_number(answer) == T24_DONE)
        answer = spoil_tolerated(answer, sheet, before, state, memory,
                                 memory_len, reply);
    if (t24_number(answer) == T24_DONE)
        answer = spoil_strays(answer, sheet, sheet_len, command, command_len,
                              state, reply);
    if (spoil_order(memory_len, command_len, reply_len, answer))
        answer = T24_BAD_REPLY;
    if (spoil(16) && t24_number(answer) == T24_DONE
        && state[T24_AT_LAST_MN] == 15)
        state[T24_AT_LAST_MN] = 14; /* 15 to 0 then looks like a lost cycle */
    if (t24_number(answer) == T24_DONE)
        spoil_identity(sheet, reply, command);
    if (t24_number(answer) == T24_DONE && t24_is_short(sheet))
        spoil_short_reply(reply, command);
    spoil_buffers(answer, sheet, memory, memory_len, command, command_len,
                  reply, reply_len);
    return t24_number(answer) != T24_DONE
        ? answer : spoil_place(answer, sheet, reply, command);
}

uint64_t __wrap_t24_replay(const uint8_t *sheet, size_t sheet_len,
                           uint8_t *state, size_t state_len,
                           uint8_t *memory, size_t memory_len,
                           const uint8_t *trace, size_t trace_len)
{
    const uint64_t answer = __real_t24_replay(sheet, sheet_len, state,
                                              state_len, memory, memory_len,
                                              trace, trace_len);
    const uint32_t number = t24_number(answer);

    if (spoil(17) && number == T24_TRACE_DIFFERS)
        memory[memory_len - 1] ^= 1; /* the differing record has written */
    if (spoil(18) && number == T24_TRACE_CUT && t24_place(answer) > 0)
        return answer + 1; /* a difference told before the form */
    if (spoil(23) && number == T24_TRACE_DIFFERS && t24_trace_octet(answer) == 2)
        return answer + ((uint64_t)1 << 32); /* status not compared in octet 2 */
    if (spoil(19) && number == T24_DONE && trace_len > 0)
        state[T24_AT_LAST_MN] ^= *(const volatile uint8_t *)(trace + trace_len);
    return answer;
}
