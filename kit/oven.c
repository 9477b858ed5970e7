/*
 * oven SHEET: a host for the Type 24 slave, the drive of an oven's band.
 * Brings the slave up with a device sheet from a file and gives it commands.
 * In a drive, t24_exchange stands in the cycle and commands come by wire.
 * The sheet may be of either type: where an octet stands that the two have at
 * different places, the helpers know, and the host need not.
 */
#include <errno.h>
#include <stdio.h>
#include <stdlib.h>
#include <string.h>

#include "type24.h"
#include "type24_words.h"

/* Everything the host lends; it owns all memory, the library owns none. */
struct host {
    uint8_t sheet[T24_SHEET_MAX + 1]; /* one more, to see a file too long */
    size_t sheet_len;
    uint8_t state[T24_STATE_LEN];
    uint8_t *memory;
    size_t memory_len;
    uint8_t command[T24_L_MAX]; /* room for any L, lent with length L */
    uint8_t reply[T24_L_MAX];
    size_t l;
};

/* Asked before any other call: a host and an archive of two releases do not
 * fit, and this says so in words. */
static int same_release(void)
{
    char words[128];

    if (t24_release_fits())
        return 1;
    t24_release_words(words, sizeof words);
    fprintf(stderr, "oven: %s\n", words);
    return 0;
}

/* Says in words what a call refused and why; tells 1 if it was done. */
static int done(const struct host *host, const char *what, uint64_t answer)
{
    char words[256];

    if (t24_number(answer) == T24_DONE)
        return 1;
    t24_refusal_words(host->sheet, host->sheet_len, host->state,
                      sizeof host->state, host->memory_len, NULL, 0, answer,
                      words, sizeof words);
    fprintf(stderr, "%s refused: %s\n", what, words);
    return 0;
}

/* Not every C library says why a file could not be read. */
static int unreadable(const char *path)
{
    fprintf(stderr, "oven: %s: %s\n", path,
            errno != 0 ? strerror(errno) : "cannot be read");
    return 0;
}

static int load_sheet(struct host *host, const char *path)
{
    FILE *file;
    int failed;

    errno = 0;
    file = fopen(path, "rb");
    if (file == NULL)
        return unreadable(path);
    host->sheet_len = fread(host->sheet, 1, sizeof host->sheet, file);
    failed = ferror(file); /* a directory opens, but does not read */
    if (failed)
        unreadable(path);
    fclose(file);
    return !failed
        && done(host, "sheet", t24_sheet(host->sheet, host->sheet_len));
}

static int bring_up(struct host *host)
{
    const uint64_t lengths = t24_lengths(host->sheet, host->sheet_len);

    host->l = t24_l(lengths);
    host->memory_len = t24_memory(lengths);
    /* A sheet without regions asks for no memory; calloc(0) may be NULL. */
    host->memory = (uint8_t *)calloc(host->memory_len + 1, 1);
    if (host->memory == NULL) {
        perror("memory");
        return 0;
    }
    printf("%sL %lu, memory %lu octets\n",
           t24_is_short(host->sheet) ? "short type, " : "",
           (unsigned long)host->l, (unsigned long)host->memory_len);
    return done(host, "reset", t24_reset(host->sheet, host->sheet_len,
                                         host->state, sizeof host->state))
        && done(host, "enable", t24_enable(host->sheet, host->sheet_len,
                                           host->state, sizeof host->state));
}

/* Says why a command was refused: the alarm, the octet and the field. */
static int refused(const struct host *host, const char *name, uint32_t alarm,
                   uint64_t answer)
{
    char words[256];

    t24_refused_command_words(host->sheet, host->sheet_len,
                              host->state[T24_AT_LINK], host->command, host->l,
                              alarm, t24_place(answer), words, sizeof words);
    fprintf(stderr, "%s refused: %s\n", name, words);
    return 0;
}

/* Says why a cycle was lost, MN and SN as expected and as sent, and whether the
 * sheet tolerates it: then the band runs on in step, and the command may go once
 * more. */
static int lost(const struct host *host, const char *name,
                const uint8_t *before)
{
    char words[256];

    t24_lost_words(host->sheet, host->sheet_len, before, host->command, words,
                   sizeof words);
    fprintf(stderr, "%s not executed, a cycle was lost: %s\n", name, words);
    return 0;
}

/* One exchange; tells 1 if the command was accepted and executed. */
static int exchange(struct host *host)
{
    const char *name =
        t24_code_words(host->sheet, host->command[T24_COMMAND_AT_CODE]);
    uint8_t before[T24_STATE_LEN]; /* the exchange changes the state */
    uint64_t answer;
    uint32_t alarm;
    size_t i;

    memcpy(before, host->state, sizeof before);
    answer = t24_exchange(host->sheet, host->sheet_len, host->state,
                          sizeof host->state, host->memory, host->memory_len,
                          host->command, host->l, host->reply, host->l);
    if (!done(host, name, answer))
        return 0;
    printf("%-10s ", name);
    for (i = 0; i < host->l; i++)
        printf("%02X", host->reply[i]);
    printf("\n");
    fflush(stdout);
    if (t24_watchdog_fails(host->sheet, before, host->command))
        return lost(host, name, before);
    alarm = t24_reply_alarm(host->sheet, host->reply);
    return alarm == T24_ALARM_NONE || refused(host, name, alarm, answer);
}

/* A fresh command: all octets zero but the code and WDT, which follows the last
 * reply; out of step, WDT is not looked at.  Under release 2 of the drive rules an
 * octet that the command does not name has to stay zero. */
static uint8_t *command(struct host *host, uint8_t code)
{
    memset(host->command, 0, sizeof host->command);
    host->command[T24_COMMAND_AT_CODE] = code;
    t24_put_wdt(host->sheet, host->command,
                t24_next_wdt(host->sheet, host->reply));
    return host->command;
}

/* MEM_RD or MEM_WR of one 2-octet element at an address of the sheet; tells where
 * the data stands. */
static uint8_t *memory_command(struct host *host, uint8_t code, uint32_t address)
{
    uint8_t *octets = command(host, code);
    int i;

    octets[T24_MEM_AT_ELEMENT] = T24_ELEMENT_2;
    octets[T24_MEM_AT_COUNT] = 1;
    for (i = 0; i < 4; i++, address >>= 8)
        octets[T24_MEM_AT_ADDRESS + i] = (uint8_t)(address & 0xFFu);
    return octets + T24_MEM_AT_DATA;
}

/* PRM_RD or PRM_WR of a parameter of 2 octets; tells where the data stands. */
static uint8_t *parameter_command(struct host *host, uint8_t code,
                                  uint8_t number)
{
    uint8_t *octets = command(host, code);

    octets[T24_PRM_AT_NUMBER] = number;
    octets[T24_PRM_AT_SIZE] = 2;
    return octets + t24_prm_data_at(host->sheet);
}

/* Reads or sets the heat by its address, but as parameter 7 in the short type,
 * which has no memory commands; tells where the data stands. */
static uint8_t *heat_command(struct host *host, int sets)
{
    if (t24_is_short(host->sheet))
        return parameter_command(host, sets ? T24_PRM_WR : T24_PRM_RD, 7);
    return memory_command(host, sets ? T24_MEM_WR : T24_MEM_RD, 0x1000);
}

static int read_heat(struct host *host)
{
    heat_command(host, 0);
    return exchange(host);
}

static int set_heat(struct host *host, uint8_t degrees)
{
    heat_command(host, 1)[0] = degrees; /* low octet first */
    return exchange(host);
}

/* By com_mod out of step or in step. */
static int connect_by(struct host *host, uint8_t com_mod)
{
    uint8_t *octets = command(host, T24_CONNECT);

    octets[T24_CONNECT_AT_VERSION] = host->sheet[T24_SHEET_AT_VERSION];
    octets[T24_CONNECT_AT_COM_MOD] = com_mod;
    octets[T24_CONNECT_AT_COM_TIME] = 1;
    if (!t24_is_short(host->sheet)) /* the short type has no profile */
        octets[T24_CONNECT_AT_PROFILE] = host->sheet[T24_SHEET_AT_PROFILE];
    return exchange(host);
}

static int disconnect(struct host *host)
{
    command(host, T24_DISCONNECT);
    return exchange(host);
}

/* Out of step: the oven is set. */
static int bake(struct host *host)
{
    int accepted = connect_by(host, 0);

    accepted = read_heat(host) && accepted;
    accepted = set_heat(host, 180) && accepted;
    return disconnect(host) && accepted;
}

/* In step: the band runs, and each side sees that the other still listens. */
static int run_band(struct host *host)
{
    int cycle, accepted = connect_by(host, T24_COM_SYNC);

    for (cycle = 0; cycle < 3; cycle++)
        accepted = read_heat(host) && accepted;
    return disconnect(host) && accepted;
}

int main(int argc, char **argv)
{
    static struct host host;
    int good;

    if (!same_release())
        return 2;
    if (argc != 2) {
        fprintf(stderr, "usage: oven SHEET\n");
        return 2;
    }
    good = load_sheet(&host, argv[1]) && bring_up(&host);
    if (good) {
        good = bake(&host);
        good = run_band(&host) && good;
    }
    free(host.memory);
    return good ? 0 : 1;
}
