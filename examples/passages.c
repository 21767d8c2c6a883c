/* Reads passage lines from a file, as a plaza's host does, and seals them: of a right line its fields, its digest and that
 * what was sealed is accepted; of a wrong line what is wrong with it. Before that, a line made of its fields, what the
 * check says once an entry of its assignment was changed, and the band that its axles are in, shown to a partner that
 * bills by it. Usage: passages FILE; each line ends with a line feed, which is no part of it, and a blank line at the
 * end of the file is none. Builds by examples/passages.sh. */

#include <inttypes.h>
#include <stdio.h>
#include <stdlib.h>
#include <string.h>

#include "passage.h"
#include "sm3rows.h"

/* What comes of a line: the digest goes to the partner road, the assignment to the proof back end. */
struct sealed {
    uint8_t digest[PASSAGE_DIGEST_BYTES];
    uint8_t assignment[PASSAGE_ASSIGNMENT_BYTES];
};

static void *room(size_t bytes)
{
    void *new = malloc(bytes);
    if (new == NULL && bytes > 0)
        exit(EXIT_FAILURE);
    return new;
}

static uint64_t seal(const uint8_t *line, size_t size, struct sealed *sealed)
{
    return passage_seal(line, size, sealed->digest, sizeof sealed->digest, sealed->assignment,
                        sizeof sealed->assignment);
}

static uint64_t check(const struct sealed *sealed)
{
    return passage_check(sealed->digest, sizeof sealed->digest, sealed->assignment, sizeof sealed->assignment);
}

/* ---- What is printed of a line ---- */

static void print_fields(const uint8_t *line)
{
    uint64_t answer = passage_read(line, PASSAGE_LINE_BYTES);
    printf("lane %u, time %" PRIu64 ", class %u, axles %u, plate %.*s\n", PASSAGE_LANE(answer), PASSAGE_TIME(answer),
           PASSAGE_CLASS(answer), PASSAGE_AXLES(answer), (int)PASSAGE_PLATE_BYTES,
           (const char *)line + PASSAGE_PLATE_FIRST);
}

static void print_digest(const struct sealed *sealed)
{
    printf("         digest ");
    for (size_t k = 0; k < sizeof sealed->digest; k++)
        printf("%02x", sealed->digest[k]);
    printf(" %s\n", check(sealed) == 0 ? "accepted" : "REFUSED");
}

/* A byte that can be printed stands as it is, another in hexadecimal digits. */
static void print_wrong_byte(const uint8_t *line, unsigned place)
{
    if (line[place] > ' ' && line[place] < 0x7f)
        printf("wrong: byte %u, '%c', is not allowed there\n", place, line[place]);
    else
        printf("wrong: byte %u, hexadecimal %02x, is not allowed there\n", place, line[place]);
}

static void print_refusal(const uint8_t *line, size_t size, uint64_t answer)
{
    switch (PASSAGE_REFUSAL(answer)) {
    case 15:
        printf("wrong: %zu bytes, not %u\n", size, PASSAGE_LINE_BYTES);
        break;
    case 16:
        print_wrong_byte(line, PASSAGE_WRONG_BYTE(answer));
        break;
    case 17:
        printf("wrong: lane 000, or axles below 02\n");
        break;
    default:
        printf("refusal %u\n", PASSAGE_REFUSAL(answer));
    }
}

/* ---- A line made of its fields ---- */

/* The blind keeps the digest from being guessed from the other fields. A plaza draws it by chance for every line. */
static const uint8_t blind[] = "8d0c6a3bf14e972257e0b1d4a9f3c86e", plate[] = "KMA4711---";

/* The fields into a line, and from the line again. */
static int compose(uint8_t line[PASSAGE_LINE_BYTES])
{
    uint64_t answer = passage_write(4, 1735718400, 2, 3, plate, PASSAGE_PLATE_BYTES, blind, PASSAGE_BLIND_BYTES, line,
                                    PASSAGE_LINE_BYTES);
    if (PASSAGE_REFUSAL(answer) != 0)
        return 0;
    printf("written  %.*s\nread     ", (int)PASSAGE_LINE_BYTES, (const char *)line);
    print_fields(line);
    answer = passage_read(line, PASSAGE_LINE_BYTES);
    return PASSAGE_REFUSAL(answer) == 0 && PASSAGE_LANE(answer) == 4 && PASSAGE_TIME(answer) == 1735718400 &&
           PASSAGE_CLASS(answer) == 2 && PASSAGE_AXLES(answer) == 3;
}

/* Class 257 is not taken for 1, nor a plate of small letters for one of capitals: each is named by its place. */
static int name_wrong_fields(void)
{
    uint8_t line[PASSAGE_LINE_BYTES];
    const uint8_t small[] = "kma4711---";
    uint64_t great = passage_write(4, 1735718400, 257, 3, plate, PASSAGE_PLATE_BYTES, blind, PASSAGE_BLIND_BYTES, line,
                                   sizeof line);
    uint64_t letter = passage_write(4, 1735718400, 2, 3, small, PASSAGE_PLATE_BYTES, blind, PASSAGE_BLIND_BYTES, line,
                                    sizeof line);
    printf("refused  class 257 at byte %u, a small letter at byte %u\n", PASSAGE_WRONG_BYTE(great),
           PASSAGE_WRONG_BYTE(letter));
    return PASSAGE_REFUSAL(great) == 16 && PASSAGE_WRONG_BYTE(great) == 15 && PASSAGE_REFUSAL(letter) == 16 &&
           PASSAGE_WRONG_BYTE(letter) == PASSAGE_PLATE_FIRST;
}

/* Wire 513 is the line's first bit. As the other bit it breaks a row, which the check names. With all bits of its 8 bytes
 * set it is no number below 2^61 - 1, and the check names the wire. */
static int name_damage(const uint8_t line[PASSAGE_LINE_BYTES])
{
    struct sealed *sealed = room(sizeof *sealed);
    int right = seal(line, PASSAGE_LINE_BYTES, sealed) == 0 && check(sealed) == 0;
    sealed->assignment[8 * 513] ^= 1;
    uint64_t other = check(sealed);
    memset(sealed->assignment + 8 * 513, 0xff, 8);
    uint64_t great = check(sealed);
    free(sealed);
    printf("damaged  refusal %u, row %" PRIu64 "\n", PASSAGE_REFUSAL(other), PASSAGE_FAILING_ROW(other));
    printf("         refusal %u, wire %" PRIu64 "\n", PASSAGE_REFUSAL(great), PASSAGE_FAILING_WIRE(great));
    return right && PASSAGE_REFUSAL(other) == 9 && PASSAGE_REFUSAL(great) == 20 && PASSAGE_FAILING_WIRE(great) == 513;
}

/* ---- The band that a line's axles are in ---- */

/* What is named to a partner that bills by it. The assignment holds the whole line and goes to the proof back end. */
struct band {
    uint64_t lower, upper;
};
enum { BAND_BYTES = SM3ROWS_AXLES_ASSIGNMENT_BYTES };

static uint64_t produce_band(struct band band, const uint8_t line[PASSAGE_LINE_BYTES], uint8_t *assignment)
{
    return sm3rows_axles_produce(band.lower, band.upper, line, PASSAGE_LINE_BYTES, assignment, BAND_BYTES);
}

/* Against the digest that the partner got when the line was sealed. */
static uint64_t check_band(struct band band, const struct sealed *sealed, const uint8_t *assignment)
{
    return sm3rows_axles_check(band.lower, band.upper, sealed->digest, sizeof sealed->digest, assignment, BAND_BYTES);
}

/* The line has 3 axles. For a band that they are not in nothing is produced; and what was produced for one band is not
 * accepted for another, though they are in that one too: the check names a row. */
static int name_bands(const uint8_t line[PASSAGE_LINE_BYTES])
{
    static const struct band band = {2, 4}, wrong = {4, 9}, other = {3, 4};
    struct sealed *sealed = room(sizeof *sealed);
    uint8_t *assignment = room(BAND_BYTES);
    int right = seal(line, PASSAGE_LINE_BYTES, sealed) == 0 && produce_band(band, line, assignment) == 0 &&
                check_band(band, sealed, assignment) == 0;
    uint64_t outside = produce_band(wrong, line, assignment), moved = check_band(other, sealed, assignment);
    free(assignment);
    free(sealed);
    printf("band     axles 2 to 4: %s\n", right ? "accepted" : "REFUSED");
    printf("         axles 4 to 9: refusal %u\n", SM3ROWS_REFUSAL(outside));
    printf("         axles 3 to 4, with the assignment for 2 to 4: refusal %u, row %" PRIu64 "\n",
           SM3ROWS_REFUSAL(moved), SM3ROWS_FAILING_ROW(moved));
    return right && SM3ROWS_REFUSAL(outside) == 19 && SM3ROWS_REFUSAL(moved) == 9;
}

/* ---- The lines of a file ---- */

/* A line is lent in memory of its size, so that Valgrind sees where a byte more is read or written. A wrong line is no
 * fault of this program; 1 where what was sealed is accepted. */
static int go_through_line(size_t number, const uint8_t *bytes, size_t size)
{
    uint8_t *line = room(size);
    struct sealed *sealed = room(sizeof *sealed);
    if (size > 0)
        memcpy(line, bytes, size);
    uint64_t answer = seal(line, size, sealed);
    printf("line %-3zu ", number);
    int right = 1;
    if (answer == 0) {
        print_fields(line);
        print_digest(sealed);
        right = check(sealed) == 0;
    } else {
        print_refusal(line, size, answer);
    }
    free(sealed);
    free(line);
    return right;
}

static int go_through_lines(const uint8_t *bytes, size_t size)
{
    int right = 1;
    while (size > 0 && bytes[size - 1] == '\n')
        size--;
    const uint8_t *end = bytes + size;
    for (size_t number = 1; bytes < end; number++) {
        const uint8_t *feed = memchr(bytes, '\n', (size_t)(end - bytes));
        const uint8_t *stop = feed == NULL ? end : feed;
        right &= go_through_line(number, bytes, (size_t)(stop - bytes));
        bytes = feed == NULL ? end : feed + 1;
    }
    return right;
}

/* The whole file; the size of what was read at `size`. NULL where it cannot be read. */
static uint8_t *file_bytes(const char *name, size_t *size)
{
    size_t most = 4096, got;
    FILE *file = fopen(name, "rb");
    if (file == NULL)
        return NULL;
    uint8_t *bytes = room(most);
    *size = 0;
    while ((got = fread(bytes + *size, 1, most - *size, file)) > 0) {
        *size += got;
        if (*size == most) {
            most *= 2;
            bytes = realloc(bytes, most);
            if (bytes == NULL)
                exit(EXIT_FAILURE);
        }
    }
    fclose(file);
    return bytes;
}

int main(int argc, char **argv)
{
    uint8_t line[PASSAGE_LINE_BYTES];
    size_t size;
    uint8_t *bytes = argc == 2 ? file_bytes(argv[1], &size) : NULL;
    if (bytes == NULL) {
        fprintf(stderr, "usage: passages FILE, a file that can be read\n");
        return EXIT_FAILURE;
    }
    int right = compose(line);
    right = right && name_damage(line) && name_bands(line);
    right &= name_wrong_fields();
    right &= go_through_lines(bytes, size);
    free(bytes);
    return right ? EXIT_SUCCESS : EXIT_FAILURE;
}
