/* What a call of the archive is made from: numbers and bytes from a fuzzer's input, and slices to be lent. */

#ifndef LENT_H
#define LENT_H

#include <stddef.h>
#include <stdint.h>

/* ---- The input, byte by byte; past its end come zeros. ---- */

struct input {
    const uint8_t *at;
    size_t left;
};

/* A number of so many bytes. */
uint64_t take(struct input *in, int bytes);

/* A number near one that matters, or any number of 8 bytes. */
uint64_t take_near(struct input *in, uint64_t centre);

/* A size that is right, or one near it. */
size_t take_size(struct input *in, int near, size_t exact);

/* A wire below so many: one of the first 257, one of the last 8, or any. */
uint64_t take_wire(struct input *in, uint64_t wires);

/* An entry: one of the first numbers; one beside 2^60, beside p, below 2^64 or beside a greater multiple of p; or any,
 * mostly below p. */
uint64_t take_entry(struct input *in);

/* ---- Slices between pages that cannot be touched. ---- */

enum { PAGE = 4096, ROOM = 3 << 20 };

uint8_t *room(void);

/* A slice at the end or at the beginning of a room; an empty one may be null. */
uint8_t *slice(uint8_t *room, size_t length, uint64_t how);

/* What a buffer holds before a call, and whether it still does. */
void fill(uint8_t *bytes, size_t length);
int filled(const uint8_t *bytes, size_t length);

/* ---- What is read in a slice ---- */

/* The prime that every entry is below. */
static const uint64_t P = ((uint64_t)1 << 61) - 1;

/* A wire's entry of an assignment. */
uint64_t entry(const uint8_t *assignment, size_t wire);

/* What a check and packing answer where one of so many entries is p or more: 20, the lowest such wire from bit 8 on. 0 where
 * all are below p. */
uint64_t not_below(const uint8_t *assignment, uint64_t wires);

/* A bit of a record, of a digest or of packed bytes, the highest of a byte first. */
uint64_t bit(const uint8_t *bytes, size_t number);

/* A term of a row. */
struct term {
    uint32_t wire;
    int64_t coefficient;
};

struct term term(const uint8_t *at);

/* The terms of one sum of a row, which must have rising wires and coefficients that are not 0 and lie between
 * -(p - 1) / 2 and (p - 1) / 2; where they end. */
const uint8_t *terms(const uint8_t *at, unsigned count, uint64_t wires);

#endif
