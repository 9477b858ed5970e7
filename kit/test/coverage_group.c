/* Last of all: each number was answered by each call that can answer it, on sheets
 * of each type. */
#include "groups.h"

enum { COUNT = 27 };

void all_numbers_met(void)
{
    static const unsigned numbers[COUNT] = {
        0, 1, 2, 3, 4, 5, 6, 11, 12, 13, 14, 15, 16, 17, 21, 22, 23, 24, 25, 26,
        27, 28, 31, 32, 33, 34, 35
    };
    /* By call: sheet, lengths (which answers lengths), reset, enable,
     * exchange, replay, turn, difference. */
    static const char *const can[] = {
        "x......xxxxxxx.............", "...........................",
        "xx.....xxxxxxx.............", "xx....xxxxxxxx.............",
        "xxxxxx.xxxxxxx.............", "xxx..x.xxxxxxx........xxxxx",
        "xx.....xxxxxxx.............", "x......xxxxxxxxxxxxxxx....."
    };
    int which, is_short, i;

    for (which = ASK_SHEET; which <= ASK_DIFFERENCE; which++)
        for (i = 0; i < COUNT && which != ASK_LENGTHS; i++)
            for (is_short = 0; is_short < 2; is_short++) {
                label(is_short ? "short, number" : "number", (long)numbers[i]);
                check((met((enum which)which, is_short, numbers[i]) > 0)
                      == (can[which][i] == 'x'),
                      "met where it should not, or not");
            }
}
