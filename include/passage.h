/* Passage records: the four operations of the passage product for a C host.
 *
 * A passage is one line of 63 bytes, without a line feed:
 *
 *   field   bytes      what stands there
 *   lane     0 to  2   3 digits, from 001
 *   ,        3
 *   time     4 to 13   10 digits, seconds since 1970 UTC
 *   ,       14
 *   class   15         1 to 9
 *   ,       16
 *   axles   17 to 18   2 digits, from 02
 *   ,       19
 *   plate   20 to 29   A to Z and 0 to 9, filled up with '-': the first place allows no '-', and after a '-' stands
 *                      only '-'
 *   ,       30
 *   blind   31 to 62   32 digits from 0 to 9 and a to f
 *
 * As a record a line has 504 bits, which are two blocks. The calls here take no limit in blocks: they use a partner road's
 * limit of two, which a line always meets, so that none of them is refused for it.
 *
 * The answer of every call is one 64-bit number. Its low byte is the refusal's number, 0 for none. What stands above it:
 *   - passage_read without a refusal: the lane at bits 8 to 17, the time at bits 18 to 51, the class at bits 52 to 55, the
 *     axles at bits 56 to 62;
 *   - refusal 16: the lowest wrong byte of the line, from bit 8 on, counted from 0;
 *   - refusal 20: the lowest wire of all whose entry is 2^61 - 1 or more, from bit 8 on;
 *   - refusal 9: the lowest row that is not satisfied, from bit 8 on;
 *   - otherwise 0.
 *
 * Refusals, in the order in which they are looked for. A call skips those that it has no argument for. A refused call
 * changes no byte.
 *  15  the line is not 63 bytes; in writing, the plate is not 10 bytes or the blind is not 32
 *  16  a byte that its place does not allow. In writing, a number too great for its digits, or class 0, is a wrong byte at
 *      its field's first place (0, 4, 15, 17), and byte k of plate or blind at 20 + k or 31 + k
 *  17  lane 000, or axles below 02
 *   4  a buffer to be written is shorter than 63 bytes (line), 32 (digest) or 364,552 (assignment)
 *   5  the digest that an assignment is held against is not 32 bytes
 *   6  the assignment is not exactly 364,552 bytes
 *  20  an entry is 2^61 - 1 or more
 *   7  wire 0 is not 1
 *   8  a digest wire is not its bit of the digest
 *   9  a row is not satisfied
 * Numbers are compared as they come, 64 bits wide.
 *
 * What the host owes:
 *   - A pointer and the length after it are a slice: bytes that may be read, and written where the slice is `out`, or
 *     `digest` or `assignment` of passage_seal.
 *   - A slice that is written overlaps no other slice of the same call, so the two of passage_seal not one another.
 *   - Until the call has returned nobody else writes a slice that is lent to it, and nobody else reads one that is
 *     written.
 *   - Stack: 8 KiB below the call are enough (bench/stack.sh measures it: 4,120 bytes at most).
 * What it need not see to: a slice may begin at any address; an empty one may be null; slices that are only read may
 * overlap, in one call and between calls; calls keep nothing, so any number of threads may call at once. */

#ifndef PASSAGE_H
#define PASSAGE_H

#include <stddef.h>
#include <stdint.h>

#ifdef __cplusplus
extern "C" {
#endif

/* Sizes: a line, in bytes and in bits, and the fields of it that are taken as bytes, with the first place of each; what
 * a line is sealed into. */
#define PASSAGE_LINE_BYTES 63u
#define PASSAGE_BITS 504u
#define PASSAGE_PLATE_FIRST 20u
#define PASSAGE_PLATE_BYTES 10u
#define PASSAGE_BLIND_FIRST 31u
#define PASSAGE_BLIND_BYTES 32u
#define PASSAGE_DIGEST_BYTES 32u
#define PASSAGE_ASSIGNMENT_BYTES 364552u

/* The parts of an answer. */
#define PASSAGE_REFUSAL(answer) ((unsigned)((answer) & 0xff))
#define PASSAGE_LANE(answer) ((unsigned)((answer) >> 8 & 0x3ff))
#define PASSAGE_TIME(answer) ((uint64_t)(answer) >> 18 & 0x3ffffffff)
#define PASSAGE_CLASS(answer) ((unsigned)((answer) >> 52 & 0xf))
#define PASSAGE_AXLES(answer) ((unsigned)((answer) >> 56 & 0x7f))
#define PASSAGE_WRONG_BYTE(answer) ((unsigned)((answer) >> 8))
#define PASSAGE_FAILING_ROW(answer) ((uint64_t)(answer) >> 8)
#define PASSAGE_FAILING_WIRE(answer) ((uint64_t)(answer) >> 8)

/* The numbers of a line. Its plate and its blind are bytes 20 to 29 and 31 to 62 of the line itself. Refusals 15, 16,
 * 17. */
uint64_t passage_read(const uint8_t *line, size_t line_len);

/* The line of these fields into the first 63 bytes of out. Bytes of out past it keep their value. Reading what was
 * written gives the fields, and writing what was read gives the line. Refusals 15, 16, 17, 4. */
uint64_t passage_write(uint64_t lane, uint64_t time, uint64_t vehicle_class, uint64_t axles, const uint8_t *plate,
                       size_t plate_len, const uint8_t *blind, size_t blind_len, uint8_t *out, size_t out_len);

/* The SM3 digest of the line into the first 32 bytes of digest, and the line's assignment, as a record of 504 bits, into
 * the first 364,552 bytes of assignment: 45,569 wires, 8 bytes each, least byte first, each the number 0 or 1. Bytes
 * past them keep their value. Refusals 15, 16, 17, 4. */
uint64_t passage_seal(const uint8_t *line, size_t line_len, uint8_t *digest, size_t digest_len, uint8_t *assignment,
                      size_t assignment_len);

/* Whether the assignment satisfies every row for records of 504 bits and has this digest. 0 when it does: then it is, byte
 * for byte, the assignment of a record of 504 bits that has this digest. That the record is a passage line no row says.
 * Refusals 5, 6, 20, 7, 8, 9. */
uint64_t passage_check(const uint8_t *digest, size_t digest_len, const uint8_t *assignment, size_t assignment_len);

#ifdef __cplusplus
}
#endif

#endif
