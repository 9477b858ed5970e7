/* The owner's accident, and its relatives: a host built for another L. */
#include "groups.h"
#include "sheets.h"

#include <string.h>

static void give_host(unsigned sheet_l, unsigned state_l, size_t command_len,
                      size_t reply_len)
{
    struct built sheet;
    uint8_t state[T24_STATE_LEN];

    build_p(&sheet, sheet_l);
    give(SHEET, sheet.octets, sheet.len);
    memcpy(state, state_a, sizeof state);
    state[T24_AT_L] = (uint8_t)state_l;
    give(STATE, state, sizeof state);
    give(MEMORY, memory_p, sizeof memory_p);
    give_noise(COMMAND, command_len);
    memset(given(COMMAND), 0, command_len);
    memset(wanted(COMMAND), 0, command_len);
    give_noise(REPLY, reply_len);
}

/* Guards and fence right behind octet 31 show the overrun that once was. */
void accident_reply(void)
{
    label("reply of 32, sheet for", 64);
    give_host(64, 64, 64, 32);
    expect(ASK_EXCHANGE, T24_BAD_REPLY);
    label("command and reply of 32, sheet for", 64);
    give_host(64, 64, 32, 32);
    expect(ASK_EXCHANGE, T24_BAD_COMMAND);
    label("the whole host for 32, sheet for", 64);
    give_host(64, 32, 32, 32);
    expect(ASK_EXCHANGE, T24_BAD_STATE);
    label("the host mended, sheet for", 64);
    give_host(64, 64, 64, 64);
    memset(wanted(REPLY), 0, 64);
    wanted(REPLY)[2] = 4;
    expect(ASK_EXCHANGE, T24_DONE);
}

/* A record is made by reset and enable under one L, then used under another. */
static void another_l(unsigned made, unsigned used)
{
    struct built sheet;

    label("record made for", (long)made);
    give_host(made, made, made, made);
    memset(wanted(STATE), 0, T24_STATE_LEN);
    wanted(STATE)[T24_AT_KIND] = T24_STATE_KIND;
    wanted(STATE)[T24_AT_L] = (uint8_t)made;
    expect(ASK_RESET, T24_DONE);
    go_on(STATE);
    build_p(&sheet, used);
    give(SHEET, sheet.octets, sheet.len);
    expect(ASK_ENABLE, T24_BAD_STATE);
    expect(ASK_EXCHANGE, T24_BAD_STATE);
    build_p(&sheet, made);
    give(SHEET, sheet.octets, sheet.len);
    wanted(STATE)[T24_AT_LINK] = T24_LINK_DISCONNECTED;
    expect(ASK_ENABLE, T24_DONE);
    go_on(STATE);
    build_p(&sheet, used);
    give(SHEET, sheet.octets, sheet.len);
    give_noise(COMMAND, used);
    give_noise(REPLY, used);
    expect(ASK_ENABLE, T24_BAD_STATE);
    expect(ASK_EXCHANGE, T24_BAD_STATE);
}

void accident_other_l(void)
{
    size_t i, j;

    for (i = 0; i < sizeof all_l; i++)
        for (j = 0; j < sizeof all_l; j++)
            if (i != j)
                another_l(all_l[i], all_l[j]);
}
