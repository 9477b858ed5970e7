/* A file read whole, for t24-explain; what cannot be read is said. */
#ifndef EXPLAIN_FILE_H
#define EXPLAIN_FILE_H

#include <errno.h>
#include <stdint.h>
#include <stdio.h>
#include <stdlib.h>
#include <string.h>

struct file {
    const char *path;
    uint8_t *octets;
    size_t len;
};

static int complain(const char *path, const char *why)
{
    fprintf(stderr, "t24-explain: %s: %s\n", path, why);
    return 0;
}

/* Room for as much again, but for no more octets than are wanted. */
static int grow(struct file *file, size_t *room, size_t wanted)
{
    const size_t more = *room == 0 ? 65536 : *room;
    void *grown;

    *room = wanted - *room < more ? wanted : *room + more;
    grown = realloc(file->octets, *room);
    if (grown == NULL)
        return 0;
    file->octets = (uint8_t *)grown;
    return 1;
}

/* To its end, or to one octet more than it may have, which the library sees. */
static int read_octets(FILE *in, struct file *file, size_t most)
{
    size_t room = 0, got;

    do {
        if (file->len == room && !grow(file, &room, most + 1))
            return complain(file->path, "no memory to read it");
        errno = 0;
        got = fread(file->octets + file->len, 1, room - file->len, in);
        file->len += got;
    } while (got > 0 && file->len <= most);
    if (ferror(in)) /* a directory opens, but does not read */
        return complain(file->path,
                        errno != 0 ? strerror(errno) : "cannot be read");
    return 1;
}

/* Once from front to end, so that a pipe will do. */
static int read_file(struct file *file, const char *path, size_t most)
{
    FILE *in;
    int good;

    file->path = path;
    errno = 0;
    in = fopen(path, "rb");
    if (in == NULL)
        return complain(path, errno != 0 ? strerror(errno) : "cannot be opened");
    good = read_octets(in, file, most);
    fclose(in);
    return good;
}

#endif
