/*
 * Stands between compare and the archive's t24_difference, as the kit's spoil.c
 * does for the other calls, and spoils one thing as the variable SPOIL says.
 * Linked with --wrap for this call.
 */
#include "test/spoil.h"

uint64_t __real_t24_difference(const uint8_t *, size_t, const uint8_t *, size_t,
                               uint8_t *, size_t);
uint64_t __wrap_t24_difference(const uint8_t *, size_t, const uint8_t *, size_t,
                               uint8_t *, size_t);

uint64_t __wrap_t24_difference(const uint8_t *first, size_t first_len,
                               const uint8_t *second, size_t second_len,
                               uint8_t *list, size_t list_len)
{
    const uint64_t answer = __real_t24_difference(first, first_len, second,
                                                  second_len, list, list_len);

    if (list_len == 0 || first_len == 0 || second_len == 0)
        return answer;
    if (spoil(1001))
        list[list_len] = 0; /* the octet behind the list */
    if (spoil(1002))
        list[0] = *(const volatile uint8_t *)(first + first_len);
    if (spoil(1003))
        list[0] = *(const volatile uint8_t *)(second + second_len);
    return answer;
}
