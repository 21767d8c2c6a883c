/* libFuzzer harness for the three functions of include/sm3rows.h for axles between two bounds.
 *
 * An input is read as one call, as in entry.c: a byte for the function, then what its bounds and slices are made of.
 * Slices end at a page that cannot be touched, or begin after one. Every answer is held against what the paper says of
 * it; the rows and wires that a record of 504 bits has too, against those; and the row that a check names, against the
 * row that is handed over. */

#include <stdint.h>
#include <string.h>

#include "lent.h"
#include "must.h"
#include "sm3rows.h"

enum { LIMIT = SM3ROWS_LIMIT_PARTNER }; /* in blocks: the one that the three use themselves */
enum { BITS = SM3ROWS_AXLES_BITS, RECORD = SM3ROWS_AXLES_RECORD_BYTES, DIGEST = SM3ROWS_DIGEST_BYTES };
enum { WIRES = SM3ROWS_AXLES_WIRES, ROWS = SM3ROWS_AXLES_ROWS, ASSIGNMENT = SM3ROWS_AXLES_ASSIGNMENT_BYTES };
enum { RECORD_WIRES = SM3ROWS_WIRES(BITS), RECORD_ROWS = SM3ROWS_ROWS(BITS) }; /* behind them stands what is appended */
enum { TENS = 17, UNITS = 18, DIGIT_WIRES = 649 };

static uint8_t *records, *outs, *digests, *assignments, *rights, *claims; /* a room for each */

static unsigned long seen[21]; /* calls by refusal, 0 for none */

/* ---- Records and bounds ---- */

struct bounds {
    uint64_t lower, upper;
};

static int is_digit(uint8_t byte)
{
    return byte >= '0' && byte <= '9';
}

/* By the low halves of the two bytes, whatever they are. */
static uint64_t axles(const uint8_t *record)
{
    return 10 * (record[TENS] & 15u) + (record[UNITS] & 15u);
}

/* A digit; or a byte beside the digits, one with a digit's low half, or any. */
static uint8_t take_digit(struct input *in)
{
    uint64_t how = take(in, 1);
    if (how < 224)
        return (uint8_t)('0' + how % 10);
    if (how < 236)
        return how % 2 == 0 ? '0' - 1 : '9' + 1;
    return how < 248 ? (uint8_t)(take(in, 1) << 4 | how % 8) : (uint8_t)take(in, 1);
}

static void take_digits(struct input *in, uint8_t record[RECORD])
{
    record[TENS] = take_digit(in);
    record[UNITS] = take_digit(in);
}

/* All bytes but the two digits. */
static void take_others(struct input *in, uint8_t record[RECORD])
{
    for (size_t k = 0; k < RECORD; k++)
        if (k != TENS && k != UNITS)
            record[k] = (uint8_t)take(in, 1);
}

/* A bound in range; one beside the range; or one that is in range only for who drops its upper bits. */
static uint64_t take_bound(struct input *in)
{
    static const uint64_t borders[] = {0, 1, 2, 3, 98, 99, 100, 101};
    uint64_t how = take(in, 1), bound = 2 + take(in, 1) % 98;
    if (how < 160)
        return bound;
    if (how < 208)
        return borders[how % 8];
    return how < 248 ? bound + ((uint64_t)1 << (7 + how % 57)) : take(in, 8);
}

static uint64_t in_range(int64_t bound)
{
    return bound < 2 ? 2 : bound > 99 ? 99 : (uint64_t)bound;
}

/* Bounds around the record's axles, at times with the axles one beyond them; or any two. */
static struct bounds take_bounds(struct input *in, const uint8_t *record)
{
    if (take(in, 1) >= 160) {
        uint64_t any = take_bound(in);
        return (struct bounds){any, take_bound(in)};
    }
    int64_t centre = (int64_t)(axles(record) % 100);
    int64_t lower = centre + 1 - (int64_t)(take(in, 1) % 16), upper = centre - 1 + (int64_t)(take(in, 1) % 16);
    return (struct bounds){in_range(lower), in_range(upper)};
}

/* The paper's refusals of bounds, and of a record under them. */
static unsigned bounds_refusal(struct bounds bounds)
{
    int outside = bounds.lower < 2 || bounds.lower > 99 || bounds.upper < 2 || bounds.upper > 99;
    return outside || bounds.lower > bounds.upper ? 18 : 0;
}

static unsigned record_refusal(struct bounds bounds, const uint8_t *record, size_t length)
{
    if (length != RECORD)
        return 13;
    if (bounds_refusal(bounds) != 0)
        return 18;
    if (!is_digit(record[TENS]) || !is_digit(record[UNITS]))
        return 19;
    return axles(record) < bounds.lower || axles(record) > bounds.upper ? 19 : 0;
}

/* ---- The functions, on bounds and with the sizes that are always right ---- */

static uint64_t produce_for(struct bounds bounds, const uint8_t *record, uint8_t *out)
{
    return sm3rows_axles_produce(bounds.lower, bounds.upper, record, RECORD, out, ASSIGNMENT);
}

static uint64_t check_for(struct bounds bounds, const uint8_t *digest, const uint8_t *assignment)
{
    return sm3rows_axles_check(bounds.lower, bounds.upper, digest, DIGEST, assignment, ASSIGNMENT);
}

static uint64_t row_for(struct bounds bounds, uint64_t number, uint8_t out[SM3ROWS_ROW_BYTES])
{
    return sm3rows_axles_row(bounds.lower, bounds.upper, number, out, SM3ROWS_ROW_BYTES);
}

/* ---- Rows ---- */

/* A sum of a row on an assignment, whose entries are below p; then `at` is where its terms end. */
static uint64_t sum(const uint8_t **at, unsigned count, const uint8_t *assignment)
{
    __int128 sum = 0;
    for (; count > 0; count--, *at += 12) {
        struct term here = term(*at);
        sum = (sum + (__int128)here.coefficient * entry(assignment, here.wire)) % P;
    }
    return (uint64_t)(sum < 0 ? sum + P : sum);
}

/* Whether an assignment satisfies the row that was handed over with this answer. */
static int holds(const uint8_t *row, uint64_t answer, const uint8_t *assignment)
{
    uint64_t a = sum(&row, SM3ROWS_COUNT_A(answer), assignment), b = sum(&row, SM3ROWS_COUNT_B(answer), assignment);
    return (uint64_t)((unsigned __int128)a * b % P) == sum(&row, SM3ROWS_COUNT_C(answer), assignment);
}

/* A row's terms, and behind them what the buffer held before. A record of 504 bits has the rows before the appended
 * ones. */
static void is_row(uint64_t number, uint64_t answer, const uint8_t *out, size_t out_len)
{
    unsigned a = SM3ROWS_COUNT_A(answer), b = SM3ROWS_COUNT_B(answer), c = SM3ROWS_COUNT_C(answer);
    MUST(answer >> 32 == 0 && a > 0 && b > 0 && a + b + c <= 163);
    const uint8_t *end = terms(terms(terms(out, a, WIRES), b, WIRES), c, WIRES);
    MUST(filled(end, out_len - (size_t)(end - out)));
    if (number < RECORD_ROWS) {
        uint8_t same[SM3ROWS_ROW_BYTES];
        MUST(sm3rows_row(LIMIT, BITS, number, same, sizeof same) == answer);
        MUST(memcmp(out, same, (size_t)(end - out)) == 0);
    }
}

/* A row, and that what is produced for a record under the same bounds satisfies it. */
static void row(struct input *in)
{
    uint8_t record[RECORD];
    take_digits(in, record);
    struct bounds bounds = take_bounds(in, record);
    uint64_t how = take(in, 1);
    uint64_t number = how < 96 ? RECORD_ROWS + how % (ROWS - RECORD_ROWS) : take_near(in, ROWS);
    size_t out_len = take(in, 1) < 160 ? SM3ROWS_ROW_BYTES : take(in, 2) % 4000;
    uint8_t *out = slice(outs, out_len, take(in, 1));
    take_others(in, record);
    fill(out, out_len);
    unsigned refusal = bounds_refusal(bounds) != 0 ? 18 : number >= ROWS ? 3 : out_len < SM3ROWS_ROW_BYTES ? 4 : 0;
    uint64_t answer = sm3rows_axles_row(bounds.lower, bounds.upper, number, out, out_len);
    seen[refusal]++;
    MUST(SM3ROWS_REFUSAL(answer) == refusal);
    if (refusal != 0) {
        MUST(answer == refusal && filled(out, out_len));
        return;
    }
    is_row(number, answer, out, out_len);
    if (record_refusal(bounds, record, RECORD) == 0)
        MUST(produce_for(bounds, record, rights) == 0 && holds(out, answer, rights));
}

/* ---- Producing ---- */

/* A slice with the record, or of another length: its first bytes, or more after them. */
static uint8_t *lend_record(uint64_t how, const uint8_t record[RECORD], size_t *length)
{
    *length = how < 224 ? RECORD : how < 240 ? how - 224 : RECORD + how - 248;
    uint8_t *lent = slice(records, *length, how);
    for (size_t k = 0; k < *length; k++)
        lent[k] = k < RECORD ? record[k] : '0';
    return lent;
}

/* A number of so many bits from a wire on; the wire after it. */
static size_t is_number(const uint8_t *assignment, size_t wire, size_t bits, uint64_t value)
{
    for (size_t k = bits; k > 0; k--, wire++)
        MUST(entry(assignment, wire) == (value >> (k - 1) & 1));
    return wire;
}

/* A record's own assignment, and the four numbers behind it. The record's check takes the first part, not the whole. */
static void is_assignment(struct bounds bounds, const uint8_t *record, const uint8_t *out)
{
    uint8_t sealed[DIGEST];
    uint64_t all = axles(record);
    MUST(sm3rows_produce(LIMIT, BITS, record, RECORD, rights, ASSIGNMENT) == 0);
    MUST(memcmp(out, rights, 8 * RECORD_WIRES) == 0);
    size_t wire = is_number(out, RECORD_WIRES, 4, 9 - all / 10);
    wire = is_number(out, wire, 4, 9 - all % 10);
    wire = is_number(out, wire, 7, all - bounds.lower);
    MUST(is_number(out, wire, 7, bounds.upper - all) == WIRES);
    MUST(sm3rows_digest(LIMIT, BITS, record, RECORD, sealed, sizeof sealed) == 0);
    for (size_t number = 0; number < 8 * DIGEST; number++)
        MUST(entry(out, 1 + number) == bit(sealed, number));
    MUST(check_for(bounds, sealed, out) == 0);
    MUST(sm3rows_check(LIMIT, BITS, sealed, sizeof sealed, out, 8 * RECORD_WIRES) == 0);
    MUST(sm3rows_check(LIMIT, BITS, sealed, sizeof sealed, out, ASSIGNMENT) == 6);
}

static void produce(struct input *in)
{
    uint8_t record[RECORD];
    size_t length;
    take_digits(in, record);
    struct bounds bounds = take_bounds(in, record);
    uint64_t how = take(in, 1), sizes = take(in, 1);
    size_t out_len = sizes & 1 ? take(in, 1) : take_size(in, sizes & 2, ASSIGNMENT);
    uint8_t *out = slice(outs, out_len, sizes >> 2);
    take_others(in, record);
    const uint8_t *lent = lend_record(how, record, &length);
    fill(out, out_len);
    unsigned refusal = record_refusal(bounds, lent, length);
    if (refusal == 0 && out_len < ASSIGNMENT)
        refusal = 4;
    seen[refusal]++;
    MUST(sm3rows_axles_produce(bounds.lower, bounds.upper, lent, length, out, out_len) == refusal);
    for (size_t k = 0; k < length; k++)
        MUST(lent[k] == (k < RECORD ? record[k] : '0'));
    size_t written = refusal == 0 ? ASSIGNMENT : 0;
    MUST(filled(out + written, out_len - written));
    if (refusal == 0)
        is_assignment(bounds, lent, out);
}

/* ---- Checking, on a record's claim, right or not, with some things changed ---- */

/* A wire: one of the two digit bytes, one of those that are appended, or as for a record. */
static uint64_t take_axle_wire(struct input *in)
{
    uint64_t how = take(in, 1);
    if (how < 64)
        return DIGIT_WIRES + how % 16;
    return how < 160 ? RECORD_WIRES + how % (WIRES - RECORD_WIRES) : take_wire(in, WIRES);
}

/* The low bits, so many, of a number that may have more, from a wire on; the wire after them. */
static size_t put_number(uint8_t *assignment, size_t wire, size_t bits, uint64_t value)
{
    for (size_t k = bits; k > 0; k--, wire++) {
        uint64_t one = value >> (k - 1) & 1;
        memcpy(assignment + 8 * wire, &one, 8);
    }
    return wire;
}

/* What a dishonest producer would write in `claims`: it takes any record. */
static void put_claim(struct bounds bounds, const uint8_t record[RECORD])
{
    uint64_t all = axles(record);
    MUST(sm3rows_produce(LIMIT, BITS, record, RECORD, claims, ASSIGNMENT) == 0);
    size_t wire = put_number(claims, RECORD_WIRES, 4, 9u - (record[TENS] & 15u));
    wire = put_number(claims, wire, 4, 9u - (record[UNITS] & 15u));
    wire = put_number(claims, wire, 7, all - bounds.lower);
    put_number(claims, wire, 7, bounds.upper - all);
}

/* The record's digest, where a byte may be changed, and in `claims` its assignment with up to 7 entries changed, and
 * zeros behind. */
static void take_claim(struct input *in, struct bounds own, uint8_t record[RECORD], uint8_t *sealed)
{
    uint64_t changes = take(in, 1), wires[8], values[8];
    for (unsigned k = 0; k < changes % 8; k++) {
        wires[k] = take_axle_wire(in);
        values[k] = take_entry(in);
    }
    size_t at = changes & 128 ? take(in, 1) % DIGEST : 0;
    uint8_t other = changes & 128 ? (uint8_t)take(in, 1) : 0;
    take_others(in, record);
    MUST(sm3rows_digest(LIMIT, BITS, record, RECORD, sealed, DIGEST) == 0);
    put_claim(own, record);
    memset(claims + ASSIGNMENT, 0, 128);
    for (unsigned k = 0; k < changes % 8; k++)
        memcpy(claims + 8 * wires[k], &values[k], 8);
    sealed[at] ^= other;
}

/* What the paper says of the claim under these bounds, if its sizes are right; of 9 without the row. What is accepted is
 * the record's, byte for byte. With so few changes no other record's claim comes out; the same record's under these bounds
 * may. */
static uint64_t claim_answer(struct bounds bounds, const uint8_t *record, const uint8_t *sealed)
{
    int same = produce_for(bounds, record, rights) == 0 && memcmp(claims, rights, ASSIGNMENT) == 0, same_digest = 1;
    for (size_t number = 0; number < 8 * DIGEST; number++)
        same_digest &= entry(claims, 1 + number) == bit(sealed, number);
    uint64_t great = not_below(claims, WIRES);
    return great != 0 ? great : entry(claims, 0) != 1 ? 7 : !same_digest ? 8 : same ? 0 : 9;
}

/* The row that a check names is not satisfied; the ones just before it are, all the appended ones among them. */
static void is_lowest(struct bounds bounds, uint64_t failing, const uint8_t *assignment)
{
    uint8_t out[SM3ROWS_ROW_BYTES];
    MUST(failing < ROWS);
    uint64_t number = failing < ROWS - RECORD_ROWS ? 0 : failing - (ROWS - RECORD_ROWS);
    for (; number <= failing; number++) {
        uint64_t answer = row_for(bounds, number, out);
        MUST(SM3ROWS_REFUSAL(answer) == 0 && holds(out, answer, assignment) == (number < failing));
    }
}

static void check(struct input *in)
{
    uint8_t record[RECORD], sealed[256] = {0};
    take_digits(in, record);
    struct bounds own = take_bounds(in, record), bounds = own;
    uint64_t sizes = take(in, 1);
    if (sizes & 1)
        bounds = take_bounds(in, record);
    size_t digest_len = sizes & 2 ? take(in, 1) : DIGEST, assignment_len = take_size(in, sizes & 4, ASSIGNMENT);
    uint8_t *digest = slice(digests, digest_len, sizes >> 3);
    uint8_t *assignment = slice(assignments, assignment_len, sizes >> 5);
    take_claim(in, own, record, sealed);
    uint64_t right = claim_answer(bounds, record, sealed);
    if (bounds_refusal(bounds) != 0)
        right = 18;
    else if (digest_len != DIGEST)
        right = 5;
    else if (assignment_len != ASSIGNMENT)
        right = 6;
    if (digest_len > 0)
        memcpy(digest, sealed, digest_len);
    memcpy(assignment, claims, assignment_len);
    uint64_t answer = sm3rows_axles_check(bounds.lower, bounds.upper, digest, digest_len, assignment, assignment_len);
    seen[SM3ROWS_REFUSAL(right)]++;
    MUST(SM3ROWS_REFUSAL(answer) == SM3ROWS_REFUSAL(right) && (right == 9 || answer == right));
    if (right == 9)
        is_lowest(bounds, SM3ROWS_FAILING_ROW(answer), assignment);
    MUST(memcmp(assignment, claims, assignment_len) == 0);
    MUST(digest_len == 0 || memcmp(digest, sealed, digest_len) == 0);
}

static void report(void)
{
    static const int refusals[] = {13, 18, 19, 3, 4, 5, 6, 20, 7, 8, 9};
    fprintf(stderr, "axles: %lu calls not refused, refused by", seen[0]);
    for (size_t k = 0; k < sizeof refusals / sizeof *refusals; k++)
        fprintf(stderr, "%s %d: %lu", k > 0 ? "," : "", refusals[k], seen[refusals[k]]);
    fprintf(stderr, "\n");
}

int LLVMFuzzerInitialize(int *argc, char ***argv)
{
    (void)argc;
    (void)argv;
    records = room();
    outs = room();
    digests = room();
    assignments = room();
    rights = room();
    claims = room();
    return atexit(report);
}

int LLVMFuzzerTestOneInput(const uint8_t *data, size_t size)
{
    static void (*const functions[3])(struct input *) = {row, produce, check};
    struct input in = {data, size};
    functions[take(&in, 1) % 3](&in);
    return 0;
}
