/*
 * As spoil.c, for t24_difference: spoils one thing at a time, as the variable
 * SPOIL says.  Linked with --wrap for it.
 */
#include "spoil.h"

#include <string.h>

uint64_t __real_t24_difference(const uint8_t *, size_t, const uint8_t *, size_t,
                               uint8_t *, size_t);
uint64_t __wrap_t24_difference(const uint8_t *, size_t, const uint8_t *, size_t,
                               uint8_t *, size_t);

/* What is told in place of an answer; what is written stays right. */
static uint64_t spoil_answer(uint64_t answer, uint64_t of_second, size_t list_len)
{
    const uint32_t number = t24_number(answer), place = t24_place(answer);
    const uint64_t one = (uint64_t)1 << 32;

    if (spoil(80) && number >= 11 && number <= 17 && t24_number(of_second) != 0)
        return of_second + T24_SECOND; /* the second sheet first */
    if (spoil(81) && number >= T24_SECOND_CUT && number <= T24_SECOND_SPAN)
        return answer - T24_SECOND; /* as if it were the first's */
    if (spoil(82) && number >= T24_SECOND_CUT && number <= T24_SECOND_SPAN)
        return answer + one;
    if (spoil(83) && number == T24_DONE && list_len > 0 && place == list_len)
        return answer + T24_LIST_LONG; /* a buffer just long enough */
    if (spoil(84) && number == T24_LIST_LONG)
        return answer - one; /* one octet too few asked for */
    if (spoil(85) && number == T24_LIST_LONG)
        return T24_LIST_LONG; /* no length */
    return spoil(86) && number == T24_DONE ? T24_DONE : answer;
}

/* What is written or read where nothing should be. */
static void spoil_outside(uint64_t answer, const uint8_t *second,
                          size_t second_len, uint8_t *list, size_t list_len)
{
    const uint32_t number = t24_number(answer), place = t24_place(answer);

    if (spoil(87) && number == T24_LIST_LONG && list_len > 0)
        list[0] = 0x41; /* written before the length was known */
    if (spoil(88) && number != 0 && number != T24_LIST_LONG && list_len > 0)
        list[list_len - 1] ^= 1; /* a refusal that writes */
    if (spoil(89) && number == T24_DONE && place < list_len)
        list[place] = 0; /* an end behind the list */
    if (spoil(90) && number == T24_LIST_LONG)
        list[list_len] = 0;
    if (spoil(91) && number == T24_DONE)
        *(volatile uint8_t *)(size_t)second = second[0]; /* even the same octet */
    if (spoil(92) && number == T24_DONE && place > 0)
        list[0] |= *(const volatile uint8_t *)(second + second_len) & 0x40u;
}

/* Where the last entry of a list stands. */
static size_t last_entry(const uint8_t *list, size_t len)
{
    size_t at = 0, next = 0;

    for (; next < len; next += t24_entry_at(list, len, next).len)
        at = next;
    return at;
}

/* The first so many octets go behind the others. */
static void turn_round(uint8_t *list, size_t len, size_t count)
{
    uint8_t front[T24_ENTRY_MAX];

    if (count > sizeof front || count > len)
        return;
    memcpy(front, list, count);
    memmove(list, list + count, len - count);
    memcpy(list + len - count, front, count);
}

/* Two entries in another order than theirs. */
static void spoil_entry_order(uint8_t *list, size_t len)
{
    const size_t front = len > 0 ? t24_entry_at(list, len, 0).len : 0;
    const size_t last = last_entry(list, len);

    if (spoil(93) && len > 1 && (list[0] == 0x41 || list[0] == 0x45))
        turn_round(list, 5, 1); /* the new link before the one that is gone */
    if (spoil(94) && len == 15 && list[0] == 0x42 && list[1] == 0xFF)
        turn_round(list, len, front); /* a start by its low octet */
    if (spoil(95) && last == front && last > 0 && list[0] / 16 == 5
        && list[last] / 16 == 4)
        turn_round(list, len, front); /* what is gone before what is new */
    if (spoil(96) && last == 3 && list[0] == 0x66 && list[3] == 0x67)
        turn_round(list, len, front); /* rule release before tolerance */
}

/* Another list; tells its length. */
static size_t spoil_list(uint8_t *list, size_t len, size_t room)
{
    const size_t last = last_entry(list, len);
    const uint8_t octet = len > 0 ? list[last] : 0;

    if (spoil(97) && len > 0)
        return last; /* the last record left out */
    if (spoil(98) && octet == 0x66) {
        list[last] = 0x46; /* a changed record gone and new */
        list[last + 1] = 0x56;
    }
    if (spoil(99) && octet / 16 == 6)
        list[last + 1] = (uint8_t)(list[last + 1] << 1); /* the next field's bit */
    if (spoil(100) && octet / 16 == 6)
        list[last + 1] |= 1; /* the key told as changed */
    if (spoil(101) && octet == 0x64 && list[last + 1] == T24_CHANGED_ITEM_OCTETS)
        return last; /* an ID item compared by its length */
    if (spoil(102) && len == 0 && room > 0) {
        list[0] = 0x46; /* a record in the list of equal sheets */
        return 1;
    }
    if (spoil(103) && (octet & 0x0F) == T24_RECORD_RULE_RELEASE)
        return last; /* kind 07 not listed */
    return len;
}

uint64_t __wrap_t24_difference(const uint8_t *first, size_t first_len,
                               const uint8_t *second, size_t second_len,
                               uint8_t *list, size_t list_len)
{
    const uint64_t of_second = t24_sheet(second, second_len);
    uint64_t answer = __real_t24_difference(first, first_len, second, second_len,
                                            list, list_len);

    spoil_outside(answer, second, second_len, list, list_len);
    if (t24_number(answer) == T24_DONE) {
        const size_t len = t24_place(answer);

        spoil_entry_order(list, len);
        answer = (uint64_t)spoil_list(list, len, list_len) << 32;
    }
    return spoil_answer(answer, of_second, list_len);
}
