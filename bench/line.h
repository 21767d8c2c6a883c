/* A passage line for the C programs here, and the functions called for it: the four of the passage product, and the row
 * library's three for its axles between two bounds. */

#ifndef LINE_H
#define LINE_H

#include <stddef.h>
#include <stdint.h>

#include "passage.h"
#include "sm3rows.h"

#define LINE_PLATE "KMA4711---"
#define LINE_BLIND "8d0c6a3bf14e972257e0b1d4a9f3c86e"
static const uint8_t line_plate[] = LINE_PLATE, line_blind[] = LINE_BLIND;
static const uint8_t line[] = "004,1735718400,2,03," LINE_PLATE "," LINE_BLIND;
static uint8_t line_written[PASSAGE_LINE_BYTES], line_digest[PASSAGE_DIGEST_BYTES];
static uint64_t line_assignment[PASSAGE_ASSIGNMENT_BYTES / 8];

/* Bounds that its 3 axles lie within. */
enum { LINE_LOWER = 2, LINE_UPPER = 5 };
static uint8_t line_row[SM3ROWS_ROW_BYTES];
static uint64_t line_band[SM3ROWS_AXLES_WIRES];

/* The type of passage_write, which a plain C version has too. */
typedef uint64_t line_writer(uint64_t lane, uint64_t time, uint64_t vehicle_class, uint64_t axles,
                             const uint8_t *plate, size_t plate_len, const uint8_t *blind, size_t blind_len,
                             uint8_t *out, size_t out_len);

static inline uint64_t write_line_by(line_writer *write)
{
    return write(4, 1735718400, 2, 3, line_plate, PASSAGE_PLATE_BYTES, line_blind, PASSAGE_BLIND_BYTES, line_written,
                 sizeof line_written);
}

static inline uint64_t read_line_by(uint64_t (*read)(const uint8_t *line, size_t line_len))
{
    return read(line, PASSAGE_LINE_BYTES);
}

static inline uint64_t seal_line(void)
{
    return passage_seal(line, PASSAGE_LINE_BYTES, line_digest, sizeof line_digest, (uint8_t *)line_assignment,
                        sizeof line_assignment);
}

/* Of what was sealed before. */
static inline uint64_t check_line(void)
{
    return passage_check(line_digest, sizeof line_digest, (const uint8_t *)line_assignment, sizeof line_assignment);
}

/* All rows, one after the other: the refusals of all calls. */
static inline uint64_t list_band(void)
{
    uint64_t refusals = 0;
    for (uint64_t row = 0; row < SM3ROWS_AXLES_ROWS; row++)
        refusals |= SM3ROWS_REFUSAL(sm3rows_axles_row(LINE_LOWER, LINE_UPPER, row, line_row, sizeof line_row));
    return refusals;
}

static inline uint64_t produce_band(void)
{
    return sm3rows_axles_produce(LINE_LOWER, LINE_UPPER, line, PASSAGE_LINE_BYTES, (uint8_t *)line_band,
                                 sizeof line_band);
}

/* Of what was produced before, against the digest that was sealed before. */
static inline uint64_t check_band(void)
{
    return sm3rows_axles_check(LINE_LOWER, LINE_UPPER, line_digest, sizeof line_digest, (const uint8_t *)line_band,
                               sizeof line_band);
}

#endif
