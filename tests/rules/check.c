/*
 * check PAGE...: makes the calls of the worked examples on the pages, and fails at the first line that is not what the library does.
 *
 * An example is a fenced block with the word "example"; docs/RULES.md, "Worked examples", says how it is read.  Also
 * asked of all pages together: of each type an accepted example of every command, one of every alarm, of a lost cycle and
 * of a tolerated one; one of every number but 35, which takes a trace of 2^30 octets, one of t24_turn done and refused,
 * and one of t24_version.
 */
#include "covered.h"
#include "lent.h"

enum { NAMES = 16, SPOILT = 0xA5 };

static struct octets given, state_was, memory_was, list_was, old_was;
static struct { char name[16]; struct octets octets; } named[NAMES];
static struct octets *last;       /* what a line that begins with a blank goes on with */
static int told, owes_place;      /* answers in this block; whether no line has told of the last one's place */
static uint32_t owed_place;       /* of the last reply's answer */
static size_t room;               /* of the reply */
static char call[32];
static int answers, examples;

/* What a call may write, and whether no line has told it of the last one. */
static struct after { const char *key; struct octets *now, *was; const char *changed, *other; int owed; } afters[] = {
    {"state after", &state, &state_was, "the state has changed, and no line above says so", "another state", 0},
    {"memory after", &memory, &memory_was, "the memory has changed, and no line above says so", "another memory", 0},
    {"list after", &list, &list_was, "the list has changed, and no line above says so", "another list", 0}};
enum { AFTERS = sizeof afters / sizeof *afters };
static struct after *told_of;     /* whose octets are in given, as far as lines were read */
static int told_at;

/* What no line has spoken of must be as before the call. */
static void settle(void)
{
    for (int i = 0; i < AFTERS; i++) {
        if (afters[i].owed && !same(afters[i].now, afters[i].was))
            fail(afters[i].changed);
        afters[i].owed = 0;
    }
    if (owes_place && owed_place != 0)
        fail("the answer has a place, and no line above says so");
    owes_place = 0;
}

static uint64_t make_call(void)
{
    settle();
    for (int i = 0; i < AFTERS; i++) {
        *afters[i].was = *afters[i].now;
        afters[i].owed = 1;
    }
    told++, answers++;
    memset(reply.at, SPOILT, sizeof reply.at);
    old_was = old;
    const uint64_t answer = answer_of(call);
    if (!same(&old, &old_was))
        fail("the old record has changed");
    return answer;
}

static void expect_answer(const char *text)
{
    unsigned long number, place;
    uint64_t answer;
    char rest;

    if (sscanf(text, "%lu at %lu %c", &number, &place, &rest) != 2)
        fail("an answer is NUMBER at PLACE");
    reply.len = room == ROOM ? t24_l(t24_lengths(sheet.at, sheet.len)) : room;
    answer = make_call();
    if (t24_number(answer) != number || t24_place(answer) != place) {
        fprintf(stderr, "rules: the library answers %lu at %lu\n", (unsigned long)t24_number(answer), (unsigned long)t24_place(answer));
        fail("another answer");
    }
    if (!strcmp(call, "t24_exchange") && number)
        for (size_t i = 0; i < sizeof reply.at; i++)
            if (reply.at[i] != SPOILT)
                fail("a refused call has written to the reply");
    count_number(call, number);
}

static void expect_octets(const char *what, const struct octets *have)
{
    if (same(have, &given))
        return;
    fprintf(stderr, "rules: the library leaves:");
    for (size_t i = 0; i < have->len; i++)
        fprintf(stderr, " %02X", have->at[i]);
    fprintf(stderr, "\n");
    fail(what);
}

static void expect_reply(void)
{
    uint64_t answer;

    strcpy(call, "t24_exchange");
    reply.len = t24_l(t24_lengths(sheet.at, sheet.len));
    answer = make_call();
    if (t24_number(answer) != T24_DONE)
        fail("no reply is built");
    owed_place = t24_place(answer);
    owes_place = 1;
    expect_octets("another reply", &reply);
    count_number(call, T24_DONE);
    count_reply(&state_was);
}

/* The octets of lines that tell what a call has left, when the last of them is read. */
static void expect_after(void)
{
    const int here = line_number;

    if (!told_of)
        return;
    line_number = told_at;
    expect_octets(told_of->other, told_of->now);
    line_number = here;
    told_of = NULL;
}

/* Begins such lines; tells 0 if it is not one of them, or nothing is to be told. */
static int take_after(const char *key, const char *text)
{
    for (int i = 0; i < AFTERS; i++)
        if (!strcmp(key, afters[i].key) && afters[i].owed) {
            told_of = &afters[i];
            told_of->owed = 0;
            told_at = line_number;
            last = &given;
            read_octets(text, &given);
            return 1;
        }
    return 0;
}

/* The place of the reply above; where no line tells it, it is 0. */
static void expect_place(const char *text)
{
    if (!owes_place)
        fail("a place without a reply");
    owes_place = 0;
    if (!*text || text[strspn(text, "0123456789")] || strtoul(text, NULL, 10) != owed_place) {
        fprintf(stderr, "rules: the library tells place %lu\n", (unsigned long)owed_place);
        fail("another place");
    }
}

static void use_sheet(const char *text, struct octets *into)
{
    for (int i = 0; i < NAMES; i++)
        if (named[i].name[0] && !strcmp(named[i].name, text)) {
            *into = named[i].octets;
            return;
        }
    read_octets(text, into);
}

static void name_sheet(const char *name, const char *text)
{
    for (int i = 0; i < NAMES; i++) {
        if (!strcmp(named[i].name, name))
            fail("the name is another sheet's");
        if (!named[i].name[0] && strlen(name) < sizeof named[i].name) {
            strcpy(named[i].name, name);
            last = &named[i].octets;
            read_octets(text, last);
            told++; /* a block may give names alone */
            return;
        }
    }
    fail("no room for the name");
}

/* A line "KEY: TEXT" of an example. */
static void take(const char *key, const char *text)
{
    static const struct { const char *key; struct octets *octets; } inputs[] = {
        {"sheet", &sheet}, {"state", &state}, {"memory", &memory}, {"command", &command}, {"trace", &trace}, {"old", &old},
        {"second", &second}, {"list", &list}};

    last = NULL;
    for (size_t i = 0; i < sizeof inputs / sizeof *inputs; i++)
        if (!strcmp(key, inputs[i].key)) {
            settle();
            last = inputs[i].octets;
            last->len = 0;
            if (last == &sheet || last == &second)
                use_sheet(text, last);
            else
                read_octets(text, last);
            return;
        }
    given.len = 0;
    if (!strncmp(key, "sheet ", 6)) {
        name_sheet(key + 6, text);
    } else if (!strcmp(key, "call") && strlen(text) < sizeof call) {
        strcpy(call, text);
    } else if (!strcmp(key, "room")) {
        room = strtoul(text, NULL, 10);
    } else if (!strcmp(key, "answer")) {
        expect_answer(text);
    } else if (!strcmp(key, "place")) {
        expect_place(text);
    } else if (!strcmp(key, "reply")) {
        read_octets(text, &given);
        expect_reply();
    } else if (!take_after(key, text)) {
        fail("unknown line");
    }
}

static void take_line(char *line)
{
    char *colon;

    line[strcspn(line, "#\n")] = 0;
    for (size_t n = strlen(line); n && isspace((unsigned char)line[n - 1]); n--)
        line[n - 1] = 0;
    if (line[0] == ' ' && last) {
        read_octets(line + strspn(line, " "), last);
    } else if (line[0]) {
        colon = strchr(line, ':');
        if (colon == NULL)
            fail("no KEY:");
        *colon++ = 0;
        expect_after();
        take(line, colon + strspn(colon, " "));
    }
}

static void begin(void)
{
    sheet.len = state.len = memory.len = command.len = trace.len = old.len = second.len = list.len = 0;
    call[0] = 0, told = 0, room = ROOM, last = NULL;
    examples++;
}

static void read_page(void)
{
    char line[4096];
    int inside = 0;
    FILE *file = fopen(page, "r");

    if (file == NULL)
        fail("cannot be read");
    for (line_number = 1; fgets(line, sizeof line, file); line_number++) {
        if (!inside && !strncmp(line, "```example", 10)) {
            inside = 1;
            begin();
        } else if (inside && !strncmp(line, "```", 3)) {
            inside = 0;
            expect_after();
            settle();
            if (!told)
                fail("an example without an answer");
        } else if (inside) {
            take_line(line);
        }
    }
    if (inside)
        fail("an example without an end");
    fclose(file);
}

int main(int argc, char **argv)
{
    for (int i = 1; i < argc; i++) {
        page = argv[i];
        read_page();
    }
    line_number = 0;
    ask_type(0);
    ask_type(1);
    ask_numbers();
    printf("rules: %d answers in %d examples are the library's\n", answers, examples);
    return 0;
}
