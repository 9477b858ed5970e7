/*
 * newsheet IN_USE NEW: a host that is given a new device sheet while the band runs.
 * Says in words what changes, and takes the new sheet only if the slave can go on
 * under it as it stands: the state record has the sheet's L, the memory its
 * regions, and neither may move below a running slave.  Anything else waits until
 * the band stands: then the memory is laid out anew, and t24_reset makes the state
 * record anew.
 * Ends with 0 if the new sheet is taken or equal, with 1 if it has to wait, and with
 * 2 if a sheet is refused or cannot be read.
 */
#include <errno.h>
#include <stdio.h>
#include <stdlib.h>
#include <string.h>

#include "type24.h"
#include "type24_words.h"

enum { TAKEN = 0, WAITS = 1, REFUSED = 2 };

struct sheet {
    uint8_t octets[T24_SHEET_MAX + 1]; /* one more, to see a file too long */
    size_t len;
};

/* Everything the host lends; it owns all memory, the library owns none. */
struct host {
    struct sheet sheet; /* in use */
    uint8_t state[T24_STATE_LEN];
    uint8_t *memory;
    size_t memory_len;
    uint8_t command[T24_L_MAX]; /* room for any L, lent with length L */
    uint8_t reply[T24_L_MAX];
    size_t l;
};

/* Not every C library says why a file could not be read. */
static int load(struct sheet *sheet, const char *path)
{
    FILE *file;
    int good = 0;

    errno = 0;
    file = fopen(path, "rb");
    if (file != NULL) {
        sheet->len = fread(sheet->octets, 1, sizeof sheet->octets, file);
        good = !ferror(file); /* a directory opens, but does not read */
    }
    if (!good)
        fprintf(stderr, "newsheet: %s: %s\n", path,
                errno != 0 ? strerror(errno) : "cannot be read");
    if (file != NULL)
        fclose(file);
    return good;
}

/* One exchange; tells 1 if a reply was built and has no alarm. */
static int exchange(struct host *host)
{
    const uint8_t *sheet = host->sheet.octets;
    const uint64_t answer = t24_exchange(
        sheet, host->sheet.len, host->state, sizeof host->state, host->memory,
        host->memory_len, host->command, host->l, host->reply, host->l);
    char words[256];
    size_t i;

    if (t24_number(answer) != T24_DONE) {
        t24_refusal_words(sheet, host->sheet.len, host->state,
                          sizeof host->state, host->memory_len, NULL, 0, answer,
                          words, sizeof words);
        fprintf(stderr, "newsheet: %s\n", words);
        return 0;
    }
    printf("%-8s", t24_code_words(sheet, host->command[T24_COMMAND_AT_CODE]));
    for (i = 0; i < host->l; i++)
        printf("%02X", host->reply[i]);
    printf("\n");
    return t24_reply_alarm(sheet, host->reply) == T24_ALARM_NONE;
}

/* All octets zero but the code, and WDT, which follows the last reply. */
static void make_command(struct host *host, uint8_t code)
{
    const uint8_t *sheet = host->sheet.octets;

    memset(host->command, 0, sizeof host->command);
    host->command[T24_COMMAND_AT_CODE] = code;
    t24_put_wdt(sheet, host->command, t24_next_wdt(sheet, host->reply));
}

/* The band runs in step, as the sheet in use says. */
static int run_band(struct host *host)
{
    const uint8_t *sheet = host->sheet.octets;
    const uint64_t lengths = t24_lengths(sheet, host->sheet.len);

    host->l = t24_l(lengths);
    host->memory_len = t24_memory(lengths);
    /* A sheet without regions asks for no memory; calloc(0) may be NULL. */
    host->memory = (uint8_t *)calloc(host->memory_len + 1, 1);
    if (host->memory == NULL
        || t24_reset(sheet, host->sheet.len, host->state, sizeof host->state)
            != T24_DONE
        || t24_enable(sheet, host->sheet.len, host->state, sizeof host->state)
            != T24_DONE)
        return 0;
    make_command(host, T24_CONNECT);
    host->command[T24_CONNECT_AT_VERSION] = sheet[T24_SHEET_AT_VERSION];
    host->command[T24_CONNECT_AT_COM_MOD] = T24_COM_SYNC;
    host->command[T24_CONNECT_AT_COM_TIME] = 1;
    if (!t24_is_short(sheet)) /* the short type has no profile */
        host->command[T24_CONNECT_AT_PROFILE] = sheet[T24_SHEET_AT_PROFILE];
    return exchange(host);
}

/* Says why two sheets cannot be compared. */
static int refused(const struct host *host, const struct sheet *next,
                   uint64_t answer)
{
    char words[256];

    t24_difference_words(host->sheet.octets, host->sheet.len, next->octets,
                         next->len, 0, answer, words, sizeof words);
    fprintf(stderr, "newsheet: %s\n", words);
    return REFUSED;
}

/* The list of differences, which the caller frees; NULL if there is no room for
 * it.  Asked with an empty buffer, the call has told its length. */
static uint8_t *list_differences(const struct host *host,
                                 const struct sheet *next, size_t len)
{
    uint8_t *list = (uint8_t *)malloc(len);

    if (list != NULL
        && t24_difference(host->sheet.octets, host->sheet.len, next->octets,
                          next->len, list, len) == (uint64_t)len << 32)
        return list;
    free(list);
    return NULL;
}

/* Whether the slave can go on across a difference: L and type are as they were,
 * and every octet of the memory has its place. */
static int goes_on(const struct t24_entry *entry)
{
    switch (entry->kind) {
    case T24_RECORD_LINK:
    case T24_RECORD_SHORT_LINK:
        return entry->what == T24_ENTRY_CHANGED
            && (entry->bits & T24_CHANGED_L) == 0;
    case T24_RECORD_REGION:
        return entry->what == T24_ENTRY_CHANGED
            && (entry->bits & T24_CHANGED_REGION_LENGTH) == 0;
    default:
        return 1;
    }
}

/* Says each difference, and tells how many the slave cannot go on across. */
static int show(const struct host *host, const uint8_t *list, size_t len)
{
    struct t24_entry entry = t24_entry_at(list, len, 0);
    char words[256];
    size_t place;
    int waits = 0;

    for (place = 0; entry.len != 0; entry = t24_entry_at(list, len, place)) {
        t24_entry_words(host->sheet.octets, host->sheet.len, list, len, place,
                        words, sizeof words);
        printf("%s%s\n", words, goes_on(&entry) ? "" : " (waits)");
        waits += !goes_on(&entry);
        place += entry.len;
    }
    return waits;
}

/* The next exchange is made under the new sheet, with state and memory as they
 * stand.  More lost cycles in a row than the new sheet tolerates would make the
 * state record one that is not valid under it. */
static int take(struct host *host, const struct sheet *next)
{
    if (host->state[T24_AT_FAILURES] > t24_tolerance(next->octets, next->len)) {
        printf("waits: cycles are being lost, more than the new sheet tolerates\n");
        return WAITS;
    }
    host->sheet = *next;
    printf("taken\n");
    make_command(host, T24_NOP);
    return exchange(host) ? TAKEN : REFUSED;
}

/* A new sheet comes while the band runs. */
static int offer(struct host *host, const struct sheet *next, size_t len)
{
    uint8_t *list = list_differences(host, next, len);
    int waits;

    if (list == NULL) {
        fprintf(stderr, "newsheet: no list\n");
        return REFUSED;
    }
    waits = show(host, list, len);
    free(list);
    if (waits == 0)
        return take(host, next);
    printf("waits: not while the band runs\n");
    return WAITS;
}

/* What the empty buffer tells: refused, equal, or how long the list is. */
static int compare(struct host *host, const struct sheet *next)
{
    const uint64_t answer = t24_difference(host->sheet.octets, host->sheet.len,
                                           next->octets, next->len, NULL, 0);

    if (t24_number(answer) == T24_DONE) {
        printf("no difference\n");
        return TAKEN;
    }
    if (t24_number(answer) != T24_LIST_LONG)
        return refused(host, next, answer);
    if (!run_band(host))
        return REFUSED;
    return offer(host, next, t24_place(answer));
}

int main(int argc, char **argv)
{
    static struct host host;
    static struct sheet next;
    char words[128];
    int status;

    if (!t24_release_fits()) {
        t24_release_words(words, sizeof words);
        fprintf(stderr, "newsheet: %s\n", words);
        return REFUSED;
    }
    if (argc != 3) {
        fprintf(stderr, "usage: newsheet IN_USE NEW\n");
        return REFUSED;
    }
    if (!load(&host.sheet, argv[1]) || !load(&next, argv[2]))
        return REFUSED;
    status = compare(&host, &next);
    free(host.memory);
    return status;
}
