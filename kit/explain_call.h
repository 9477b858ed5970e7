/* What t24-explain is asked: options, and the words that are none. */
#ifndef EXPLAIN_CALL_H
#define EXPLAIN_CALL_H

#include <stdio.h>
#include <string.h>

struct call {
    int help, progress;
    const char *unknown; /* the first option that is none, or NULL */
    int count;           /* of the words, which stand from argv[0] on */
};

static const char usage_words[] =
    "usage: t24-explain sheet SHEET\n"
    "       t24-explain [--progress] trace SHEET STATE MEMORY TRACE\n";

static const char help_words[] =
    "sheet  tells whether the device sheet is valid, and else its first fault.\n"
    "trace  gives the slave each command of TRACE, from the state record STATE\n"
    "       and the memory MEMORY on, and tells the first reply that is not the\n"
    "       slave's, or that all agree.  A state record of release 1, of ten\n"
    "       octets, is turned first, and a line says so.  How far it is shows on\n"
    "       a terminal, and with --progress.\n"
    "All files hold octets as they are; RULES.md says what they mean.  A file whose\n"
    "name begins with - goes behind a word --.\n"
    "Exit status: 0 valid, or all agree; 1 a reply differs; 2 refused, or a file\n"
    "cannot be read.  What ends with 2 is said on standard error.\n";

/* Behind a word "--" there are no more options. */
static struct call sort_words(int argc, char **argv)
{
    struct call call = { 0, 0, NULL, 0 };
    int i, options = 1;

    for (i = 1; i < argc; i++) {
        if (!options || argv[i][0] != '-' || argv[i][1] == '\0')
            argv[call.count++] = argv[i];
        else if (strcmp(argv[i], "--") == 0)
            options = 0;
        else if (strcmp(argv[i], "--help") == 0 || strcmp(argv[i], "-h") == 0)
            call.help = 1;
        else if (strcmp(argv[i], "--progress") == 0)
            call.progress = 1;
        else if (call.unknown == NULL)
            call.unknown = argv[i];
    }
    return call;
}

/* A wrong call: what is wrong, with the word that is, and how it goes. */
static void misused(const char *what, const char *word)
{
    fprintf(stderr, "t24-explain: %s%s\n%s", what, word, usage_words);
}

/* Whether behind the first word so many files are named; else it is said. */
static int has_files(const struct call *call, char **words, int files)
{
    char fault[64];

    if (call->count == 1 + files)
        return 1;
    if (call->count > 1 + files) {
        misused("a word too many: ", words[1 + files]);
        return 0;
    }
    sprintf(fault, " needs %d file%s, not %d", files, files == 1 ? "" : "s",
            call->count - 1);
    misused(words[0], fault);
    return 0;
}

#endif
