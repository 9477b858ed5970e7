/* Random commands of the short type: words for whatever comes of them, by the
 * library's own verdict, and nothing read outside what was lent. */
#include "groups.h"
#include "place.h"
#include "sheets.h"

#include <string.h>

#include "type24_words.h"

enum { ROUNDS = 4000, ROOM = 200 };

static uint32_t seed;
static struct built sheet;

/* The same numbers in every run, so that a failure can be seen again. */
static uint32_t below(uint32_t limit)
{
    seed = seed * 1664525u + 1013904223u;
    return (seed >> 8) % limit;
}

/* Codes that are known, and fields that are nearly right. */
static void random_command(uint8_t *command)
{
    static const uint8_t codes[] = { 0x00, 0x01, 0x02, 0x03, 0x05, 0x06, 0x0D,
                                     0x0E, 0x0F, 0x1D, 0x1E, 0x20 };
    static const uint8_t likely[] = { 0, 1, 2, 6, 7, 8, 9, 0x21, 0x30, 255 };
    size_t i;

    for (i = 1; i < 16; i++)
        command[i] = below(4) != 0 ? likely[below(10)] : (uint8_t)below(256);
    command[0] = codes[below(12)];
    if (below(2) == 0) { /* parameter 7 as it is; a write may lack the right */
        command[0] = below(2) == 0 ? T24_PRM_WR : command[0];
        command[4] = 7;
        command[5] = 0;
        command[6] = 2;
    }
    if (below(3) == 0)
        command[15] = 0x54; /* follows in step */
}

static void random_state(uint8_t *state)
{
    static const uint8_t states[3][T24_STATE_LEN] = {
        { 0x12, 1, 16, 0, 0, 0, 0, 0, 0, 0, 0 },
        { 0x12, 2, 16, 0, 1, 0, 0, 0, 0, 12, 0 },
        { 0x12, 3, 16, 0, 1, 1, 3, 5, 9, 0, 0 }
    };

    memcpy(state, states[below(3)], T24_STATE_LEN);
    if (state[1] == 3)
        state[10] = (uint8_t)below(2);
}

/* There is a text, it fits, and nothing around it is written. */
static void fits(const uint8_t *text, size_t told)
{
    check(told > 0 && told < ROOM && strlen((const char *)text) == told,
          "a text for anything");
    check(changed_outside(REPLY, 1) < 0, "words outside their room");
}

/* Every function on a command of which so many octets are lent. */
static void words_of(const uint8_t *command, const uint8_t *state,
                     const uint8_t *reply, uint64_t answer)
{
    const uint8_t *lent_sheet = place(SHEET, sheet.octets, sheet.len, 1);
    const uint8_t *lent_state = place(STATE, state, T24_STATE_LEN, 1);
    const size_t len = below(17);
    const uint8_t *cut = place(COMMAND, command, len, 1);
    uint8_t *text = place(REPLY, given(REPLY), ROOM, 1);
    const uint32_t alarm = t24_reply_alarm(lent_sheet, reply);

    fits(text, t24_command_words(lent_sheet, cut, len, (char *)text, ROOM));
    fits(text, t24_refused_command_words(lent_sheet, sheet.len, state[1], cut,
                                         len, alarm, t24_place(answer),
                                         (char *)text, ROOM));
    cut = place(COMMAND, command, 16, 1);
    fits(text, t24_watchdog_words(lent_sheet, lent_state, cut, (char *)text,
                                  ROOM));
    fits(text, t24_lost_words(lent_sheet, sheet.len, lent_state, cut,
                              (char *)text, ROOM));
    fits(text, t24_refused_command_words(lent_sheet, sheet.len, state[1], cut,
                                         16, alarm, t24_place(answer),
                                         (char *)text, ROOM));
    check(strstr((const char *)text, "no field") == NULL, "no field told");
    fits(text, t24_status_words(lent_sheet,
                                place(TRACE, reply, T24_L16, 1),
                                (char *)text, ROOM));
    check(strstr((const char *)text, "must be") == NULL
          && strstr((const char *)text, "are not 0") == NULL, "odd bits told");
    check(alarm != 9 || strcmp(t24_field_words(lent_sheet, command[0], alarm,
                                               t24_place(answer)),
                               T24_NO_FIELD) != 0, "no field of alarm 9");
}

/* Words that need no command: for any code, alarm, place and octet, by a sheet of
 * which the first octet is lent alone. */
static void words_of_any(void)
{
    const uint8_t *lent = place(SHEET, sheet.octets, 1, 1);
    const uint32_t code = below(260), octet = below(70);

    check(t24_code_words(lent, code)[0] != '\0', "a name for any code");
    check(t24_octet_words(lent, code, octet)[0] != '\0', "any octet");
    check(t24_reply_octet_words(lent, code, octet, (int)below(2))[0] != '\0',
          "any octet, executed or not");
    check(t24_field_words(lent, code, below(16), octet)[0] != '\0', "any field");
}

/* The helpers' verdict beside the library's. */
static unsigned verdict(const uint8_t *command, const uint8_t *before,
                        const uint8_t *after, const uint8_t *reply)
{
    const int lost = t24_watchdog_fails(sheet.octets, before, command);
    const int stays = t24_watchdog_tolerates(sheet.octets, sheet.len, before);

    check(t24_reply_tolerated(sheet.octets, reply) == (lost && stays),
          "tolerated");
    check(!lost || (stays ? after[1] == 3 : after[1] == 2), "the link behind it");
    check(!lost || t24_reply_alarm(sheet.octets, reply) == 0, "a lost cycle");
    return lost ? 1 : t24_reply_alarm(sheet.octets, reply);
}

/* On the short sheet P with tolerance 1, and ID item 21. */
static void build_sheet(void)
{
    build_short(&sheet);
    sheet.len--;
    add_item(&sheet, 0x21, 4);
    add_tolerance(&sheet, 1);
    add_end(&sheet);
}

void words_short_random(void)
{
    long seen[16] = { 0 };
    uint8_t command[16], before[T24_STATE_LEN], after[T24_STATE_LEN];
    uint8_t memory[8] = { 0 }, reply[16];
    long round;
    size_t i;

    seed = 7;
    build_sheet();
    give_noise(REPLY, ROOM);
    for (round = 0; round < ROUNDS; round++) {
        uint64_t answer;

        label("round", round);
        random_command(command);
        random_state(before);
        memcpy(after, before, sizeof after);
        answer = t24_exchange(sheet.octets, sheet.len, after, sizeof after,
                              memory, sizeof memory, command, 16, reply, 16);
        check(t24_number(answer) == T24_DONE, "a reply");
        seen[verdict(command, before, after, reply) & 15u]++;
        words_of(command, before, reply, answer);
        words_of_any();
    }
    for (i = 0; i < 16; i++) {
        label("alarm, or 1 for a lost cycle", (long)i);
        check((seen[i] >= 20) == (i < 2 || (i >= 8 && i != 11 && i < 13)),
              "hardly met, or not an alarm");
    }
    give(TRACE, NULL, 0);
}
