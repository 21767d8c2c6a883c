/* libFuzzer harness for the four functions of include/passage.h.
 *
 * An input is read as one call, as in entry.c: a byte for the function, then what its slices and numbers are made of.
 * Slices end at a page that cannot be touched, or begin after one. Every answer is held against what the paper says of a
 * line, and sealing and checking against the row library for 504 bits. */

#include <stdint.h>
#include <string.h>

#include "lent.h"
#include "must.h"
#include "passage.h"
#include "sm3rows.h"

enum { LIMIT = SM3ROWS_LIMIT_PARTNER }; /* in blocks: the one that sealing and checking use themselves */
enum { LINE = PASSAGE_LINE_BYTES, PLATE = PASSAGE_PLATE_FIRST, BLIND = PASSAGE_BLIND_FIRST };
enum { DIGEST = PASSAGE_DIGEST_BYTES, ASSIGNMENT = PASSAGE_ASSIGNMENT_BYTES };

static uint8_t *lines, *plates, *blinds, *outs, *digests, *assignments, *rights; /* a room for each */

static unsigned long seen[21]; /* calls by refusal, 0 for none */

/* ---- Lines and their fields ---- */

/* Lane, time, class and axles, and of each its first place, its digits and the least that a line has. */
enum { NUMBERS = 4 };
static const struct {
    size_t first, digits;
    uint64_t least;
} fields[NUMBERS] = {{0, 3, 1}, {4, 10, 0}, {15, 1, 1}, {17, 2, 2}};

/* The first number with so many digits more. */
static uint64_t power(size_t digits)
{
    return digits == 0 ? 1 : 10 * power(digits - 1);
}

static uint8_t take_one_of(struct input *in, const char *bytes)
{
    return (uint8_t)bytes[take(in, 1) % strlen(bytes)];
}

static void put_number(uint8_t *digits, size_t count, uint64_t value)
{
    for (; count > 0; value /= 10)
        digits[--count] = (uint8_t)('0' + value % 10);
}

static uint64_t number(const uint8_t *digits, size_t count)
{
    uint64_t value = 0;
    for (size_t k = 0; k < count; k++)
        value = 10 * value + digits[k] - '0';
    return value;
}

/* A line that is right but for numbers below the least, of which there are some. */
static void take_near_right(struct input *in, uint8_t line[LINE])
{
    size_t end = PLATE + 1 + take(in, 1) % PASSAGE_PLATE_BYTES;
    memset(line, ',', LINE);
    for (size_t k = 0; k < NUMBERS; k++) {
        uint64_t low = take(in, 1) >= 240, value = take(in, 5), least = fields[k].least;
        value = low ? value % 3 : least + value % (power(fields[k].digits) - least);
        put_number(line + fields[k].first, fields[k].digits, value);
    }
    for (size_t k = PLATE; k < BLIND - 1; k++)
        line[k] = k < end ? take_one_of(in, "ABCDEFGHIJKLMNOPQRSTUVWXYZ0123456789") : '-';
    for (size_t k = BLIND; k < LINE; k++)
        line[k] = take_one_of(in, "0123456789abcdef");
}

/* The same with up to 3 bytes changed, to one beside those that some place allows, or to any. */
static void take_line(struct input *in, uint8_t line[LINE])
{
    uint64_t how = take(in, 1);
    take_near_right(in, line);
    for (uint64_t changes = how < 128 ? 0 : how % 4; changes > 0; changes--) {
        size_t place = take(in, 1) % LINE;
        line[place] = how & 4 ? take_one_of(in, "-,+./09:@AZ[`afg{ \n") : (uint8_t)take(in, 1);
    }
}

/* What the paper allows at a place of a line. */
static int allowed(const uint8_t *line, size_t place)
{
    uint8_t byte = line[place];
    int digit = byte >= '0' && byte <= '9';
    if (place >= BLIND)
        return digit || (byte >= 'a' && byte <= 'f');
    if (place == 3 || place == 14 || place == 16 || place == 19 || place == 30)
        return byte == ',';
    if (place < PLATE)
        return digit && (place != 15 || byte != '0');
    if (place > PLATE && line[place - 1] == '-')
        return byte == '-';
    return digit || (byte >= 'A' && byte <= 'Z') || (place > PLATE && byte == '-');
}

/* What reading must answer. */
static uint64_t answer_to(const uint8_t *line, size_t length)
{
    if (length != LINE)
        return 15;
    for (uint64_t place = 0; place < LINE; place++)
        if (!allowed(line, place))
            return 16 | place << 8;
    uint64_t lane = number(line, 3), axles = number(line + 17, 2);
    if (lane == 0 || axles < 2)
        return 17;
    return lane << 8 | number(line + 4, 10) << 18 | number(line + 15, 1) << 52 | axles << 56;
}

/* A slice with the line, or of another length: its first bytes, or more after them. */
static uint8_t *lend_line(struct input *in, const uint8_t line[LINE], size_t *length)
{
    uint64_t how = take(in, 1);
    *length = how < 224 ? LINE : how < 240 ? how - 224 : LINE + how - 248;
    uint8_t *lent = slice(lines, *length, how);
    for (size_t k = 0; k < *length; k++)
        lent[k] = k < LINE ? line[k] : '0';
    return lent;
}

/* ---- Reading and writing ---- */

static void count(uint64_t answer)
{
    seen[PASSAGE_REFUSAL(answer)]++;
}

/* A line that is read is written back to the same bytes. */
static void write_back(const uint8_t *line, uint64_t answer)
{
    uint8_t out[LINE];
    MUST(passage_write(PASSAGE_LANE(answer), PASSAGE_TIME(answer), PASSAGE_CLASS(answer), PASSAGE_AXLES(answer),
                       line + PLATE, PASSAGE_PLATE_BYTES, line + BLIND, PASSAGE_BLIND_BYTES, out, sizeof out) == 0);
    MUST(memcmp(out, line, LINE) == 0);
}

static void read_line(struct input *in)
{
    uint8_t line[LINE];
    size_t length;
    take_line(in, line);
    const uint8_t *lent = lend_line(in, line, &length);
    uint64_t answer = passage_read(lent, length);
    count(answer);
    MUST(answer == answer_to(lent, length));
    MUST(PASSAGE_REFUSAL(answer) != 16 || PASSAGE_WRONG_BYTE(answer) < LINE);
    for (size_t k = 0; k < length; k++)
        MUST(lent[k] == (k < LINE ? line[k] : '0'));
    if (PASSAGE_REFUSAL(answer) == 0)
        write_back(lent, answer);
}

/* A number of a line: the line's own, one beside where its digits end or 0, or one that a line can have only for who drops
 * its upper bits. */
static uint64_t take_number(struct input *in, const uint8_t *line, size_t field)
{
    uint64_t how = take(in, 1), own = number(line + fields[field].first, fields[field].digits);
    if (how < 208)
        return own;
    if (how < 224)
        return power(fields[field].digits) - 2 + how % 4;
    if (how < 236)
        return how % 3;
    return how < 252 ? own + ((uint64_t)1 << (how % 16 * 4 + 3)) : take(in, 8);
}

/* What writing must answer for fields that stand in a line as far as they fit there. */
static uint64_t answer_to_fields(const uint64_t *numbers, const uint8_t *line, size_t plate_len, size_t blind_len,
                                 size_t out_len)
{
    if (plate_len != PASSAGE_PLATE_BYTES || blind_len != PASSAGE_BLIND_BYTES)
        return 15;
    for (size_t k = 0; k < NUMBERS; k++)
        if (numbers[k] >= power(fields[k].digits) || (k == 2 && numbers[k] == 0))
            return 16 | (uint64_t)fields[k].first << 8;
    for (uint64_t place = PLATE; place < LINE; place++)
        if (place != BLIND - 1 && !allowed(line, place))
            return 16 | place << 8;
    if (numbers[0] < fields[0].least || numbers[3] < fields[3].least)
        return 17;
    return out_len < LINE ? 4 : 0;
}

/* A plate or a blind: the line's, or of a length near it; what both have too much or too little may even out. */
static uint8_t *lend_field(uint8_t *room, const uint8_t *bytes, size_t size, size_t length, uint64_t how)
{
    uint8_t *lent = slice(room, length, how);
    for (size_t k = 0; k < length; k++)
        lent[k] = k < size ? bytes[k] : '0';
    return lent;
}

/* What was written is the line of the fields, and reading it gives them. */
static void is_line(const uint8_t *out, const uint64_t *numbers, const uint8_t *line)
{
    uint64_t answer = passage_read(out, LINE);
    MUST(answer == answer_to(out, LINE) && PASSAGE_REFUSAL(answer) == 0);
    MUST(PASSAGE_LANE(answer) == numbers[0] && PASSAGE_TIME(answer) == numbers[1]);
    MUST(PASSAGE_CLASS(answer) == numbers[2] && PASSAGE_AXLES(answer) == numbers[3]);
    MUST(memcmp(out + PLATE, line + PLATE, PASSAGE_PLATE_BYTES) == 0);
    MUST(memcmp(out + BLIND, line + BLIND, PASSAGE_BLIND_BYTES) == 0);
}

static void write_line(struct input *in)
{
    uint8_t line[LINE];
    uint64_t numbers[NUMBERS], sizes = take(in, 1);
    take_line(in, line);
    for (size_t k = 0; k < NUMBERS; k++)
        numbers[k] = take_number(in, line, k);
    size_t plate_len = sizes < 224 ? PASSAGE_PLATE_BYTES : sizes % 16 + 4;
    size_t blind_len = sizes < 240 ? PASSAGE_PLATE_BYTES + PASSAGE_BLIND_BYTES - plate_len : take(in, 1) % 48;
    size_t out_len = take(in, 1) < 160 ? LINE : take(in, 1) % 80;
    uint64_t right = answer_to_fields(numbers, line, plate_len, blind_len, out_len);
    const uint8_t *plate = lend_field(plates, line + PLATE, PASSAGE_PLATE_BYTES, plate_len, take(in, 1));
    const uint8_t *blind = lend_field(blinds, line + BLIND, PASSAGE_BLIND_BYTES, blind_len, take(in, 1));
    uint8_t *out = slice(outs, out_len, take(in, 1));
    fill(out, out_len);
    uint64_t answer = passage_write(numbers[0], numbers[1], numbers[2], numbers[3], plate, plate_len, blind, blind_len,
                                    out, out_len);
    count(answer);
    MUST(answer == right);
    size_t written = answer == 0 ? LINE : 0;
    MUST(filled(out + written, out_len - written));
    if (answer == 0)
        is_line(out, numbers, line);
}

/* ---- Sealing and checking ---- */

/* What the row library says of the line as a record of 504 bits. */
static void is_sealed(const uint8_t *line, const uint8_t *digest, const uint8_t *assignment)
{
    uint8_t right[DIGEST];
    MUST(sm3rows_digest(LIMIT, PASSAGE_BITS, line, LINE, right, sizeof right) == 0);
    MUST(sm3rows_produce(LIMIT, PASSAGE_BITS, line, LINE, rights, ASSIGNMENT) == 0);
    MUST(memcmp(digest, right, DIGEST) == 0 && memcmp(assignment, rights, ASSIGNMENT) == 0);
    MUST(passage_check(digest, DIGEST, assignment, ASSIGNMENT) == 0);
}

static void seal(struct input *in)
{
    uint8_t line[LINE];
    size_t length;
    uint64_t sizes = take(in, 1);
    take_line(in, line);
    const uint8_t *lent = lend_line(in, line, &length);
    size_t digest_len = sizes & 1 ? take(in, 1) % 72 : DIGEST;
    size_t assignment_len = take_size(in, sizes & 2, ASSIGNMENT);
    uint8_t *digest = slice(digests, digest_len, sizes >> 2);
    uint8_t *assignment = slice(assignments, assignment_len, sizes >> 4);
    fill(digest, digest_len);
    fill(assignment, assignment_len);
    uint64_t right = answer_to(lent, length);
    if (PASSAGE_REFUSAL(right) == 0)
        right = digest_len < DIGEST || assignment_len < ASSIGNMENT ? 4 : 0;
    uint64_t answer = passage_seal(lent, length, digest, digest_len, assignment, assignment_len);
    count(answer);
    MUST(answer == right);
    size_t digests_end = answer == 0 ? DIGEST : 0, assignments_end = answer == 0 ? ASSIGNMENT : 0;
    MUST(filled(digest + digests_end, digest_len - digests_end));
    MUST(filled(assignment + assignments_end, assignment_len - assignments_end));
    if (answer == 0)
        is_sealed(lent, digest, assignment);
}

/* An entry takes another value. */
static void change_entry(struct input *in, uint8_t *assignment, size_t size)
{
    uint64_t wire = take(in, 1) % 4 == 0 ? take(in, 2) % 257 : take(in, 3), value = take_entry(in);
    memcpy(assignment + 8 * (wire % (size / 8)), &value, 8);
}

/* What is said of a claim's sizes and of its entries of p or more; 0 where they are right. */
static uint64_t answer_to_entries(size_t digest_len, const uint8_t *assignment, size_t assignment_len)
{
    if (digest_len != DIGEST)
        return 5;
    return assignment_len != ASSIGNMENT ? 6 : not_below(assignment, ASSIGNMENT / 8);
}

/* A line's claim, up to 3 of its entries and a byte of its digest changed: as the row library's check for 504 bits. What
 * is accepted is the line's, byte for byte: with so few changes no other record's comes out. */
static void check(struct input *in)
{
    uint8_t line[LINE], sealed[256] = {0};
    uint64_t sizes = take(in, 1), changes = take(in, 1);
    size_t digest_len = sizes & 1 ? take(in, 1) : DIGEST, assignment_len = take_size(in, sizes & 2, ASSIGNMENT);
    uint8_t *digest = slice(digests, digest_len, sizes >> 2);
    uint8_t *assignment = slice(assignments, assignment_len, sizes >> 4);
    take_near_right(in, line);
    MUST(sm3rows_digest(LIMIT, PASSAGE_BITS, line, LINE, sealed, DIGEST) == 0);
    memset(rights + ASSIGNMENT, 0, 128);
    MUST(sm3rows_produce(LIMIT, PASSAGE_BITS, line, LINE, rights, ASSIGNMENT) == 0);
    for (uint64_t k = changes % 4; k > 0; k--)
        change_entry(in, rights, ASSIGNMENT);
    if (changes & 128)
        sealed[take(in, 1) % DIGEST] ^= (uint8_t)take(in, 1);
    if (digest_len > 0)
        memcpy(digest, sealed, digest_len);
    memcpy(assignment, rights, assignment_len);
    uint64_t answer = passage_check(digest, digest_len, assignment, assignment_len);
    uint64_t right = answer_to_entries(digest_len, assignment, assignment_len);
    unsigned refusal = PASSAGE_REFUSAL(answer);
    count(answer);
    MUST(answer == sm3rows_check(LIMIT, PASSAGE_BITS, digest, digest_len, assignment, assignment_len));
    MUST(right != 0 ? answer == right : refusal == 0 || (refusal >= 7 && refusal <= 9));
    MUST(right != 0 || (refusal == 9 ? PASSAGE_FAILING_ROW(answer) < SM3ROWS_ROWS(PASSAGE_BITS) : answer == refusal));
    MUST(memcmp(assignment, rights, assignment_len) == 0);
    MUST(digest_len == 0 || memcmp(digest, sealed, digest_len) == 0);
    if (answer == 0)
        MUST(sm3rows_produce(LIMIT, PASSAGE_BITS, line, LINE, rights, ASSIGNMENT) == 0 &&
             memcmp(assignment, rights, ASSIGNMENT) == 0);
}

static void report(void)
{
    static const int refusals[] = {15, 16, 17, 4, 5, 6, 20, 7, 8, 9};
    fprintf(stderr, "passage: %lu calls not refused, refused by", seen[0]);
    for (size_t k = 0; k < sizeof refusals / sizeof *refusals; k++)
        fprintf(stderr, "%s %d: %lu", k > 0 ? "," : "", refusals[k], seen[refusals[k]]);
    fprintf(stderr, "\n");
}

int LLVMFuzzerInitialize(int *argc, char ***argv)
{
    (void)argc;
    (void)argv;
    lines = room();
    plates = room();
    blinds = room();
    outs = room();
    digests = room();
    assignments = room();
    rights = room();
    return atexit(report);
}

int LLVMFuzzerTestOneInput(const uint8_t *data, size_t size)
{
    static void (*const functions[4])(struct input *) = {read_line, write_line, seal, check};
    struct input in = {data, size};
    functions[take(&in, 1) % 4](&in);
    return 0;
}
