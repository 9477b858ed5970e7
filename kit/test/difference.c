/* Two sheets, and the list of what changed between them. */
#include "difference.h"

#include <string.h>

uint64_t list_of(size_t len)
{
    return (uint64_t)len << 32;
}

uint64_t too_long(size_t len)
{
    return 28 + ((uint64_t)len << 32);
}

void give_two(const struct built *first, const struct built *second,
              size_t list_len)
{
    give(SHEET, first->octets, first->len);
    give(SECOND, second->octets, second->len);
    give_noise(LIST, list_len);
}

void expect_list(const struct built *first, const struct built *second,
                 const struct built *list)
{
    give_two(first, second, list->len + 7);
    memcpy(wanted(LIST), list->octets, list->len);
    expect(ASK_DIFFERENCE, list_of(list->len));
    give_two(first, second, list->len);
    memcpy(wanted(LIST), list->octets, list->len);
    expect(ASK_DIFFERENCE, list_of(list->len));
    if (list->len == 0)
        return;
    give_two(first, second, list->len - 1);
    expect(ASK_DIFFERENCE, too_long(list->len));
    give_two(first, second, 0);
    expect(ASK_DIFFERENCE, too_long(list->len));
}
