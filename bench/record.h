/* What the C programs here share: their limit and their record, and that no call is refused. */

#ifndef RECORD_H
#define RECORD_H

#include <stddef.h>
#include <stdint.h>
#include <stdlib.h>

#include "sm3rows.h"

enum { LIMIT = SM3ROWS_LIMIT_OURS }; /* in blocks, of every call that takes one: it allows every length */
enum { RECORD_MOST = SM3ROWS_RECORD_BYTES(SM3ROWS_MOST_BITS) };

/* A record of so many bits: after its last bit come zeros. */
static inline void set_record(uint8_t record[RECORD_MOST], uint64_t bits)
{
    for (size_t k = 0; k < SM3ROWS_RECORD_BYTES(bits); k++)
        record[k] = (uint8_t)(k * k);
    if (bits % 8 != 0)
        record[bits / 8] &= (uint8_t)(0xff << (8 - bits % 8));
}

/* A refused call ends the program: what it takes is not what is measured. */
static inline void go_on(uint64_t answer)
{
    if (SM3ROWS_REFUSAL(answer) != 0)
        exit(EXIT_FAILURE);
}

#endif
