/* The C side of the bench: plain C11, written for speed. */

#ifndef BASELINE_H
#define BASELINE_H

#include <stddef.h>
#include <stdint.h>

/* The producer: the hash's words in the layout's order, one uint64_t, 0 or 1, for each wire. The record has at most
 * 8,127 bits, the bits after its last one in its last byte are zero, and out has room for all wires. */
void baseline_produce(size_t bits, const uint8_t *record, uint64_t *out);

/* Packing of an assignment, `wires` entries of 8 bytes: 0; or 20 with the lowest wire whose entry is p or more from bit 8
 * on, or 10 with the lowest whose entry is no bit, and then no byte is written. Wires are 32 x k + 1, so one stands alone
 * in the last byte; out has room for 4 x k + 1. The first pass looks for entries that are no bits, the second writes. */
uint64_t baseline_pack(size_t wires, const uint8_t *assignment, uint8_t *out);

/* The same in one pass, at the price of so much stack: into an array of its own, which is copied at the end. */
enum { BASELINE_PACKED_MOST = 45121 };
uint64_t baseline_pack_copied(size_t wires, const uint8_t *assignment, uint8_t *out);

/* Unpacking to one uint64_t, 0 or 1, for each wire: 0, 11 or 12. */
uint64_t baseline_unpack(size_t wires, const uint8_t *packed, size_t packed_len, uint64_t *out);

/* Passage lines: as include/passage.h has passage_read and passage_write. */
uint64_t baseline_read(const uint8_t *line, size_t line_len);
uint64_t baseline_write(uint64_t lane, uint64_t time, uint64_t vehicle_class, uint64_t axles, const uint8_t *plate,
                        size_t plate_len, const uint8_t *blind, size_t blind_len, uint8_t *out, size_t out_len);

/* The rows as a stored sparse matrix. Sum k (A, B, C of row 0, A, B, C of row 1, ..) has the terms from ends[k] to
 * before ends[k + 1]. Coefficients are from 1 to p - 1. */
struct baseline_rows {
    size_t rows;
    size_t wires;
    const uint32_t *ends;
    const uint32_t *wire;
    const uint64_t *coefficient;
};

/* The check: 0; or 20 with the lowest wire whose entry is p or more from bit 8 on, 7, 8, or 9 with the lowest unsatisfied
 * row from bit 8 on. The assignment has `wires` entries of 8 bytes. Once all are found below p they are multiplied as they
 * stand. */
uint64_t baseline_check(const struct baseline_rows *matrix, const uint8_t digest[32], const uint8_t *assignment);

#endif
