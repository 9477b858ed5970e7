/* A trace of exchanges on sheet P, with what the slave is like between them. */
#ifndef RECORDING_H
#define RECORDING_H

#include "lend.h"

enum { RECORDS = 13 };

struct recording {
    unsigned l;
    size_t size; /* octets of one record */
    uint8_t trace[RECORDS * (1 + 2 * T24_L_MAX)];
    size_t len;
    /* before each record, and behind the last */
    uint8_t state[RECORDS + 1][T24_STATE_LEN];
    uint8_t memory[RECORDS + 1][8];
    /* of the answer, where the record is exchanged */
    uint8_t place[RECORDS];
};

/* The kind of trace records of this L. */
unsigned kind_of(unsigned l);

/* Puts the trace together from written-out octets; no call is made. */
void load_recording(struct recording *kept, unsigned l);

/* Gives sheet P, the first state and memory, and the whole trace. */
void give_recording(const struct recording *kept);

/* State and memory are wanted as they are before record number `at`. */
void want_before(const struct recording *kept, size_t at);

#endif
