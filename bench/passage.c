/* See baseline.h: passage lines, read and written. */

#include "baseline.h"

#include <string.h>

enum { LINE = 63, LANE = 0, TIME = 4, CLASS = 15, AXLES = 17, PLATE = 20, BLIND = 31 }; /* first places of the fields */
enum { PLATE_BYTES = 10, BLIND_BYTES = 32 };
enum { NOT_63 = 15, WRONG_BYTE = 16, TOO_LOW = 17, NO_ROOM = 4 };

/* ---- Bytes and their places ---- */

/* What a byte may be, as bits, and what each place of a line allows: a test by comparing would be guessed wrong for every
 * other byte of a blind. */
enum { DIGIT = 1, FROM_1 = 2, LETTER = 4, FILLER = 8, HEX = 16, COMMA = 32 };
enum { ONE = DIGIT | FROM_1 | HEX };
static const uint8_t kinds[256] = {
    [','] = COMMA, ['-'] = FILLER, ['0'] = DIGIT | HEX,
    ['1'] = ONE, ['2'] = ONE, ['3'] = ONE, ['4'] = ONE, ['5'] = ONE, ['6'] = ONE, ['7'] = ONE, ['8'] = ONE, ['9'] = ONE,
    ['A'] = LETTER, ['B'] = LETTER, ['C'] = LETTER, ['D'] = LETTER, ['E'] = LETTER, ['F'] = LETTER, ['G'] = LETTER,
    ['H'] = LETTER, ['I'] = LETTER, ['J'] = LETTER, ['K'] = LETTER, ['L'] = LETTER, ['M'] = LETTER, ['N'] = LETTER,
    ['O'] = LETTER, ['P'] = LETTER, ['Q'] = LETTER, ['R'] = LETTER, ['S'] = LETTER, ['T'] = LETTER, ['U'] = LETTER,
    ['V'] = LETTER, ['W'] = LETTER, ['X'] = LETTER, ['Y'] = LETTER, ['Z'] = LETTER,
    ['a'] = HEX, ['b'] = HEX, ['c'] = HEX, ['d'] = HEX, ['e'] = HEX, ['f'] = HEX,
};
/* The fields in three rows: the numbers, the plate, the blind. */
enum { D = DIGIT, N = FROM_1, C = COMMA, P = DIGIT | LETTER, F = P | FILLER, H = HEX };
static const uint8_t places[LINE] = {
    D, D, D, C, D, D, D, D, D, D, D, D, D, D, C, N, C, D, D, C,
    P, F, F, F, F, F, F, F, F, F, C,
    H, H, H, H, H, H, H, H, H, H, H, H, H, H, H, H, H, H, H, H, H, H, H, H, H, H, H, H, H, H, H, H,
};

/* The first place before the end whose byte is not allowed there, or the end. The bytes are those of a line from a place
 * on. */
static inline size_t past(const uint8_t *bytes, size_t from, size_t end)
{
    size_t place = from;
    while (place < end && kinds[bytes[place - from]] & places[place])
        place++;
    return place;
}

/* The same for a plate: after a filler comes no letter and no digit. */
static inline size_t past_plate(const uint8_t *plate)
{
    size_t end = past(plate, PLATE, PLATE + PLATE_BYTES) - PLATE;
    for (size_t k = 1; k < end; k++)
        if (plate[k - 1] == '-' && plate[k] != '-')
            return PLATE + k;
    return PLATE + end;
}

static inline uint64_t wrong_byte(size_t place)
{
    return WRONG_BYTE | (uint64_t)place << 8;
}

/* ---- Reading ---- */

/* The lowest byte of a line that its place does not allow, or the line's length. */
static size_t lowest_wrong(const uint8_t *line)
{
    size_t place = past(line, 0, PLATE);
    if (place == PLATE)
        place = past_plate(line + PLATE);
    if (place == PLATE + PLATE_BYTES)
        place = past(line + place, place, LINE);
    return place;
}

static inline uint64_t number(const uint8_t *digits, size_t count)
{
    uint64_t value = 0;
    for (size_t k = 0; k < count; k++)
        value = 10 * value + (digits[k] - '0');
    return value;
}

uint64_t baseline_read(const uint8_t *line, size_t line_len)
{
    if (line_len != LINE)
        return NOT_63;
    size_t wrong = lowest_wrong(line);
    if (wrong < LINE)
        return wrong_byte(wrong);
    uint64_t lane = number(line + LANE, 3), axles = number(line + AXLES, 2);
    if (lane == 0 || axles < 2)
        return TOO_LOW;
    return lane << 8 | number(line + TIME, 10) << 18 | number(line + CLASS, 1) << 52 | axles << 56;
}

/* ---- Writing ---- */

static inline void put_number(uint8_t *out, size_t count, uint64_t value)
{
    while (count-- > 0) {
        out[count] = (uint8_t)('0' + value % 10);
        value /= 10;
    }
}

uint64_t baseline_write(uint64_t lane, uint64_t time, uint64_t vehicle_class, uint64_t axles, const uint8_t *plate,
                        size_t plate_len, const uint8_t *blind, size_t blind_len, uint8_t *out, size_t out_len)
{
    if (plate_len != PLATE_BYTES || blind_len != BLIND_BYTES)
        return NOT_63;
    if (lane > 999)
        return wrong_byte(LANE);
    if (time > 9999999999)
        return wrong_byte(TIME);
    if (vehicle_class < 1 || vehicle_class > 9)
        return wrong_byte(CLASS);
    if (axles > 99)
        return wrong_byte(AXLES);
    size_t in_plate = past_plate(plate), in_blind = past(blind, BLIND, LINE);
    if (in_plate < PLATE + PLATE_BYTES)
        return wrong_byte(in_plate);
    if (in_blind < LINE)
        return wrong_byte(in_blind);
    if (lane == 0 || axles < 2)
        return TOO_LOW;
    if (out_len < LINE)
        return NO_ROOM;
    put_number(out + LANE, 3, lane);
    put_number(out + TIME, 10, time);
    put_number(out + CLASS, 1, vehicle_class);
    put_number(out + AXLES, 2, axles);
    out[TIME - 1] = out[CLASS - 1] = out[AXLES - 1] = out[PLATE - 1] = out[BLIND - 1] = ',';
    memcpy(out + PLATE, plate, PLATE_BYTES);
    memcpy(out + BLIND, blind, BLIND_BYTES);
    return 0;
}
