/* SM3 record rows over the prime p = 2^61 - 1: the nine operations for a C host.
 *
 * A record is a string of `bits` bits, 0 to 8,127. It is handed over in bits / 8 bytes, rounded up: its first bit is the
 * highest of the first byte, and the low bits of the last byte that it does not reach are zero. A record of whole bytes
 * has 8 x bytes bits. The number is compared as it comes, 64 bits wide.
 *
 * The six operations that take `bits` take their caller's limit first: how many blocks at most the caller takes, 1 to 16.
 * Our own road takes sixteen, a partner road two. A length that needs more blocks than the limit is refused. A limit does
 * no more than that: rows, assignments and answers for a length are the same under every limit that allows it. It too is
 * compared as it comes.
 *
 * Three of the operations are of another circuit, axles between two bounds. Its record has 504 bits, the length of a
 * passage line; bytes 17 and 18 are digits, the tens and the units of the axles, which lie within the bounds, ends
 * included. Bounds are from 2 to 99; they too are compared as they come. These three take no limit. They use the
 * partner's two blocks, as many as 504 bits need, so that 21 and 22 cannot occur.
 *
 * An assignment has one entry a wire: a number below p in 8 bytes, least byte first. An entry of p or more is refused, and
 * none is read modulo p.
 *
 * The answer of every call is one 64-bit number. Its low byte is the refusal's number, 0 for none. What stands above it:
 *   - sm3rows_row and sm3rows_axles_row without a refusal: how many terms A, B and C have, in bits 8 to 15, 16 to 23
 *     and 24 to 31;
 *   - refusal 9: the lowest row that is not satisfied, from bit 8 on;
 *   - refusal 20: the lowest wire of all whose entry is p or more, from bit 8 on;
 *   - refusal 10: the lowest wire whose entry is neither 0 nor 1, from bit 8 on;
 *   - otherwise 0.
 *
 * Refusals, in the order in which they are looked for. A call skips those that it has no argument for. A refused call
 * changes no byte.
 *  21  the limit is outside 1 to 16 blocks
 *   2  the record length is above 8,127 bits, whatever the limit
 *  13  the record's bytes are not the bits over 8 rounded up; for axles, they are not 63
 *  14  a bit after the last record bit is set: one of the low 8 x bytes - bits bits of the last byte
 *  22  the record length needs more blocks than the limit
 *  18  a bound is outside 2 to 99, or the lower one is above the upper
 *  19  byte 17 or 18 of the record is no digit, or the axles are outside the bounds (sm3rows_axles_produce alone)
 *   3  the row number is not below the row count
 *   4  the buffer to be written is shorter than 32 bytes (digest), 1,956 (row), 8 x wires (assignment) or
 *      65 + 2,816 x blocks (packed bytes)
 *   5  the digest that an assignment is held against is not 32 bytes
 *   6  the assignment is not exactly 8 x wires bytes
 *  20  an entry is p or more
 *  10  an entry is neither 0 nor 1 (sm3rows_pack alone)
 *  11  the packed bytes are not exactly 65 + 2,816 x blocks
 *  12  a spare bit is set, one of the 7 low bits of the last packed byte
 *   7  wire 0 is not 1
 *   8  a digest wire is not its bit of the digest
 *   9  a row is not satisfied
 * (1 is a refusal of the programs alone.)
 *
 * What the host owes:
 *   - A pointer and the length after it are a slice: bytes that may be read, and written where the slice is `out`.
 *   - `out` overlaps no other slice of the same call.
 *   - Until the call has returned nobody else writes a slice that is lent to it, and nobody else reads `out`.
 *   - Stack: 8 KiB below the call are enough (bench/stack.sh measures it: 4,392 bytes at most).
 * What it need not see to: a slice may begin at any address; an empty one may be null; slices that are only read may
 * overlap, in one call and between calls; calls keep nothing, so any number of threads may call at once. */

#ifndef SM3ROWS_H
#define SM3ROWS_H

#include <stddef.h>
#include <stdint.h>

#ifdef __cplusplus
extern "C" {
#endif

/* The prime p: every entry of an assignment is below it. */
#define SM3ROWS_PRIME 2305843009213693951u

/* The limit in blocks: ours, and a partner road's. And the most bits of a record in so many blocks, for a limit from 1 to
 * 16: 447, 959, .., 8,127. */
#define SM3ROWS_LIMIT_OURS 16u
#define SM3ROWS_LIMIT_PARTNER 2u
#define SM3ROWS_LIMIT_BITS(limit) (512 * (uint64_t)(limit) - 65)

/* The most bits of a record; and sizes for a record of `bits` bits, from 0 to that many. */
#define SM3ROWS_MOST_BITS 8127u
#define SM3ROWS_DIGEST_BYTES 32u
#define SM3ROWS_ROW_BYTES 1956u
#define SM3ROWS_RECORD_BYTES(bits) (((uint64_t)(bits) + 7) / 8)
#define SM3ROWS_BLOCKS(bits) (((uint64_t)(bits) + 64) / 512 + 1)
#define SM3ROWS_WIRES(bits) (513 + 22528 * SM3ROWS_BLOCKS(bits))
#define SM3ROWS_ROWS(bits) (512 + 32320 * SM3ROWS_BLOCKS(bits))
#define SM3ROWS_ASSIGNMENT_BYTES(bits) (8 * SM3ROWS_WIRES(bits))
#define SM3ROWS_PACKED_BYTES(bits) (65 + 2816 * SM3ROWS_BLOCKS(bits))

/* The bounds that axles may be held between, and sizes for a record whose axles are. */
#define SM3ROWS_LEAST_AXLES 2u
#define SM3ROWS_MOST_AXLES 99u
#define SM3ROWS_AXLES_BITS 504u
#define SM3ROWS_AXLES_RECORD_BYTES 63u
#define SM3ROWS_AXLES_WIRES 45591u
#define SM3ROWS_AXLES_ROWS 65186u
#define SM3ROWS_AXLES_ASSIGNMENT_BYTES (8 * SM3ROWS_AXLES_WIRES)

/* The parts of an answer. */
#define SM3ROWS_REFUSAL(answer) ((unsigned)((answer) & 0xff))
#define SM3ROWS_COUNT_A(answer) ((unsigned)((answer) >> 8 & 0xff))
#define SM3ROWS_COUNT_B(answer) ((unsigned)((answer) >> 16 & 0xff))
#define SM3ROWS_COUNT_C(answer) ((unsigned)((answer) >> 24 & 0xff))
#define SM3ROWS_FAILING_ROW(answer) ((uint64_t)(answer) >> 8)
#define SM3ROWS_FAILING_WIRE(answer) ((uint64_t)(answer) >> 8)

/* The SM3 digest of the record into the first 32 bytes of out. Bytes of out past it keep their value. Refusals 21, 2, 13,
 * 14, 22, 4. */
uint64_t sm3rows_digest(uint64_t limit, uint64_t bits, const uint8_t *record, size_t record_len, uint8_t *out,
                        size_t out_len);

/* Row number `row` for records of `bits` bits into out: the terms of A, then of B, then of C, 12 bytes each (wire 4,
 * coefficient 8, least byte first). A coefficient is signed, in two's complement, and is read as an int64_t: not 0, and
 * between -(p - 1) / 2 and (p - 1) / 2. A negative one plus p is the same modulo p. Bytes of out past the terms keep
 * their value. Refusals 21, 2, 22, 3, 4. */
uint64_t sm3rows_row(uint64_t limit, uint64_t bits, uint64_t row, uint8_t *out, size_t out_len);

/* The whole assignment of the record into the first 8 x wires bytes of out: 8 bytes a wire, least byte first, each the
 * number 0 or 1. Bytes of out past it keep their value. The digest that it is accepted against stands in it: wires 1 to
 * 256, its first bit first. Refusals 21, 2, 13, 14, 22, 4. */
uint64_t sm3rows_produce(uint64_t limit, uint64_t bits, const uint8_t *record, size_t record_len, uint8_t *out,
                         size_t out_len);

/* Whether the assignment satisfies every row for records of `bits` bits and has this digest. 0 when it does: then it is,
 * byte for byte, what sm3rows_produce writes for a record of so many bits that has this digest. Refusals 21, 2, 22, 5, 6,
 * 20, 7, 8, 9. */
uint64_t sm3rows_check(uint64_t limit, uint64_t bits, const uint8_t *digest, size_t digest_len,
                       const uint8_t *assignment, size_t assignment_len);

/* The assignment for records of `bits` bits at one bit a wire into the first 65 + 2,816 x blocks bytes of out: wire w in
 * byte w / 8, the first wire in the highest bit, the spare low bits zero. Bytes of out past them keep their value.
 * Refusals 21, 2, 22, 4, 6, 20, 10. */
uint64_t sm3rows_pack(uint64_t limit, uint64_t bits, const uint8_t *assignment, size_t assignment_len, uint8_t *out,
                      size_t out_len);

/* The way back: the assignment of packed bytes into the first 8 x wires bytes of out, laid out as by sm3rows_produce.
 * Bytes of out past it keep their value. Unpacking what was packed gives the assignment byte for byte. Refusals 21, 2,
 * 22, 4, 11, 12. */
uint64_t sm3rows_unpack(uint64_t limit, uint64_t bits, const uint8_t *packed, size_t packed_len, uint8_t *out,
                        size_t out_len);

/* ---- Axles between two bounds: the wires and rows of a record of 504 bits, and behind them 22 wires and 34 rows ---- */

/* Row number `row` for axles between these bounds into out, laid out as by sm3rows_row, coefficients signed too. Bytes of
 * out past the terms keep their value. Refusals 18, 3, 4. */
uint64_t sm3rows_axles_row(uint64_t lower, uint64_t upper, uint64_t row, uint8_t *out, size_t out_len);

/* The whole assignment of the record for axles between these bounds into the first 8 x 45,591 bytes of out, laid out
 * as by sm3rows_produce. Bytes of out past it keep their value. Of the record bytes 17 and 18 alone are asked: it need
 * not be a passage line. The digest that the assignment is accepted against stands in it, wires 1 to 256; it is the one
 * that sm3rows_digest gives for the record and 504 bits. Refusals 13, 18, 19, 4. */
uint64_t sm3rows_axles_produce(uint64_t lower, uint64_t upper, const uint8_t *record, size_t record_len, uint8_t *out,
                               size_t out_len);

/* Whether the assignment satisfies every row for axles between these bounds and has this digest. 0 when it does: then it
 * is, byte for byte, what sm3rows_axles_produce writes for some record of 63 bytes that has this digest, its bytes 17 and
 * 18 are digits, and the axles lie within the bounds. Nothing else of the record is said by that. Refusals 18, 5, 6, 20,
 * 7, 8, 9. */
uint64_t sm3rows_axles_check(uint64_t lower, uint64_t upper, const uint8_t *digest, size_t digest_len,
                             const uint8_t *assignment, size_t assignment_len);

#ifdef __cplusplus
}
#endif

#endif
