/*
 * type24_text.h - text put together piece by piece in the caller's room, for
 * the words of type24_words.h.  Needs nothing of the C library.
 */
#ifndef TYPE24_TEXT_H
#define TYPE24_TEXT_H

#include <stddef.h>
#include <stdint.h>

struct t24_text {
    char *at;
    size_t room;
    size_t len; /* of the whole text, also of what has no room */
};

static inline struct t24_text t24_text_in(char *text, size_t text_len)
{
    struct t24_text made;

    made.at = text;
    made.room = text_len;
    made.len = 0;
    return made;
}

/* One place is kept free for the zero at the end. */
static inline void t24_put_char(struct t24_text *text, char letter)
{
    if (text->len + 1 < text->room)
        text->at[text->len] = letter;
    text->len++;
}

static inline void t24_put(struct t24_text *text, const char *words)
{
    for (; *words != '\0'; words++)
        t24_put_char(text, *words);
}

static inline void t24_put_decimal(struct t24_text *text, uint64_t number)
{
    char digits[20];
    size_t count = 0;

    do {
        digits[count++] = "0123456789"[number % 10];
        number /= 10;
    } while (number != 0);
    while (count > 0)
        t24_put_char(text, digits[--count]);
}

/* In hex with at least so many digits; an address has 8, and 2^32 needs 9. */
static inline void t24_put_hex(struct t24_text *text, uint64_t number,
                               unsigned digits)
{
    while (digits < 16 && (number >> (4 * digits)) != 0)
        digits++;
    while (digits-- > 0)
        t24_put_char(text, "0123456789ABCDEF"[(number >> (4 * digits)) & 15]);
}

/* A number of things: "1 octet", "2 octets". */
static inline void t24_put_count(struct t24_text *text, uint64_t number,
                                 const char *thing)
{
    t24_put_decimal(text, number);
    t24_put_char(text, ' ');
    t24_put(text, thing);
    if (number != 1)
        t24_put_char(text, 's');
}

/* "1st", "2nd", "3rd", "4th", but "11th" to "13th". */
static inline void t24_put_ordinal(struct t24_text *text, uint64_t number)
{
    const uint64_t teens = number / 10 % 10;

    t24_put_decimal(text, number);
    if (teens != 1 && number % 10 == 1)
        t24_put(text, "st");
    else if (teens != 1 && number % 10 == 2)
        t24_put(text, "nd");
    else if (teens != 1 && number % 10 == 3)
        t24_put(text, "rd");
    else
        t24_put(text, "th");
}

/* What a record lacks of its length: "3 of its 10 octets are missing". */
static inline void t24_put_missing(struct t24_text *text, size_t left,
                                   size_t len)
{
    t24_put_decimal(text, len - left);
    t24_put(text, " of its ");
    t24_put_decimal(text, len);
    t24_put(text, " octets ");
    t24_put(text, len - left == 1 ? "is missing" : "are missing");
}

/* Ends the text with a zero, cut where the room ends; tells its full length. */
static inline size_t t24_text_end(struct t24_text *text)
{
    if (text->room > 0)
        text->at[text->len < text->room ? text->len : text->room - 1] = '\0';
    return text->len;
}

#endif
