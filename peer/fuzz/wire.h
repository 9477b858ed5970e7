/* Where the two PDU types have what a command needs and a mark tells. */
#ifndef WIRE_H
#define WIRE_H

#include <stdint.h>

/* The kinds of the link records that select them. */
enum { ENHANCED_LINK = 1, SHORT_LINK = 5, SHORT_LENGTH = 16 };

struct wire {
    const char *name; /* what its marks begin with */
    uint8_t wdt;      /* the octet of WDT and RWDT */
    uint8_t alarm;    /* the octet of the reply with the alarm in its low half */
    uint8_t fields;   /* octets of an ID size and of an alarm mode */
    uint8_t codes;    /* how many of CODES it has */
};

static const struct wire ENHANCED = {"", 1, 3, 2, 11};
static const struct wire SHORT = {"short_", 15, 1, 1, 9};

/* The codes that are built, those of the enhanced type alone behind the others. */
static const uint8_t CODES[11] = {0x00, 0x01, 0x02, 0x03, 0x05, 0x06,
                                  0x0D, 0x0E, 0x0F, 0x1D, 0x1E};

/* The type of a sheet that has octets. */
static const struct wire *wire_of(const uint8_t *sheet)
{
    return sheet[0] == SHORT_LINK ? &SHORT : &ENHANCED;
}

#endif
