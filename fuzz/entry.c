/* libFuzzer harness for the six functions of include/sm3rows.h that take a limit in blocks and a record's bits.
 *
 * An input is read as one call: a byte for the function, then its numbers, the limit first, then bytes for its slices.
 * The archive is not instrumented, so the harness looks for faults itself: every slice ends at a page that cannot be
 * touched, or begins after one, so that a byte read or written outside stops the run; and every answer is held against
 * what the paper says of it. A call that its limit does not turn away is made again under a limit of sixteen blocks, and
 * must give the same answer and bytes. */

#include <stdint.h>
#include <string.h>

#include "lent.h"
#include "must.h"
#include "sm3rows.h"

enum { OURS = SM3ROWS_LIMIT_OURS };           /* the limit that allows every length */
enum { MOST_BITS = 8127, MOST_BYTES = 1100 }; /* the most bits of a record; more bytes than they take */

static uint8_t *records, *outs, *digests, *assignments, *rights, *claims; /* a room for each */

static unsigned long seen[23]; /* calls by refusal, 0 for none */
static unsigned long alike;    /* calls under another limit than ours that were answered as under ours */

/* ---- Limits ---- */

/* A limit in blocks: mostly ours, the partner's or any from 1 to 16; seldom one beside these, one that is in range only
 * for who drops its upper bits, or any number. */
static uint64_t take_limit(struct input *in)
{
    static const uint64_t wrong[] = {0, 17, ((uint64_t)1 << 32) + 2, UINT64_MAX};
    uint64_t how = take(in, 1);
    if (how < 96)
        return OURS;
    if (how < 108)
        return wrong[how % 4];
    if (how < 112)
        return how < 111 ? 1 + how % 16 + ((uint64_t)1 << (5 + take(in, 1) % 59)) : take(in, 8);
    return how < 176 ? SM3ROWS_LIMIT_PARTNER : 1 + how % 16;
}

/* The paper's refusals of a limit and a length: 21, 2, 22. */
static unsigned length_refusal(uint64_t limit, uint64_t bits)
{
    if (limit < 1 || limit > 16)
        return 21;
    if (bits > MOST_BITS)
        return 2;
    return (bits + 64) / 512 + 1 > limit ? 22 : 0;
}

/* Whether a call must give what it gives under our limit: its own did not turn it away. */
static int as_ours(uint64_t limit, uint64_t answer)
{
    if (SM3ROWS_REFUSAL(answer) == 21 || SM3ROWS_REFUSAL(answer) == 22)
        return 0;
    alike += limit != OURS;
    return 1;
}

/* The buffer of the call under our limit, as the call's own was before. */
static uint8_t *filled_again(size_t length)
{
    fill(rights, length);
    return rights;
}

static int same(const uint8_t *bytes, const uint8_t *others, size_t length)
{
    return length == 0 || memcmp(bytes, others, length) == 0;
}

/* ---- Records: bits, bytes, and what stands after the last bit ---- */

/* A number of bits: mostly few, since many take long; beside a number where the blocks, the bytes or the refusals change,
 * at the limit too; any that may be in range; or one that is in range only for who drops its upper bits, or what passes
 * 2^64 on the way. */
static uint64_t take_bits(struct input *in, uint64_t limit)
{
    static const uint64_t borders[] = {0, 448, 512, 960, 8064, 8120, 8128};
    static const uint64_t wide[] = {1 << 13, 1 << 16, (uint64_t)1 << 32, (uint64_t)1 << 35,
                                    (uint64_t)1 << 61, (uint64_t)1 << 63, /* 2^64: */ 0};
    uint64_t how = take(in, 1);
    if (how < 112)
        return take(in, 2) % 448;
    if (how < 168)
        return borders[how % 7] + take(in, 1) % 16 - 8;
    if (how < 208)
        return 512 * limit - 64 + take(in, 1) % 16 - 8;
    if (how < 232)
        return take(in, 2) % 8200;
    return how < 248 ? wide[how % 7] + take(in, 2) % 8400 - 200 : take(in, 8);
}

/* As many bytes as the bits take, or another number; for bits out of range also what they take where much is dropped. */
static size_t take_record_len(struct input *in, uint64_t bits)
{
    uint64_t how = take(in, 1), right = (bits + 7) % 65536 / 8;
    if (how < 192)
        return right % MOST_BYTES;
    return (how < 224 ? right + how % 8 - 4 : take(in, 2)) % MOST_BYTES;
}

/* The bytes of a record of so many bits, the spare ones of its last byte cleared. */
static uint8_t *take_cleared(struct input *in, uint64_t bits, size_t length)
{
    uint8_t *record = slice(records, length, take(in, 1));
    for (size_t k = 0; k < length; k++)
        record[k] = (uint8_t)take(in, 1);
    if (length > 0)
        record[length - 1] &= (uint8_t)(0xff << (8 * length - bits) % 8);
    return record;
}

/* The same, or with any one bit of the last byte set, or with a last byte as it comes. */
static const uint8_t *take_record(struct input *in, uint64_t bits, size_t length)
{
    uint64_t how = take(in, 1), last = how < 224 ? (uint64_t)1 << how % 8 : take(in, 1);
    uint8_t *record = take_cleared(in, bits, length);
    if (length > 0 && how >= 192)
        record[length - 1] |= (uint8_t)last;
    return record;
}

/* The paper's refusals of a record: 21, 2, 13, 14, 22. */
static unsigned record_refusal(uint64_t limit, uint64_t bits, const uint8_t *record, size_t length)
{
    unsigned refusal = length_refusal(limit, bits);
    if (refusal == 21 || refusal == 2)
        return refusal;
    if (length != bits / 8 + (bits % 8 > 0))
        return 13;
    for (size_t number = bits; number < 8 * length; number++)
        if (bit(record, number) != 0)
            return 14;
    return refusal;
}

/* A bit of a record's message: the record, one bit 1, zeros, then the bits in 64 bits. */
static uint64_t message_bit(uint64_t bits, const uint8_t *record, uint64_t number)
{
    uint64_t end = 512 * ((bits + 64) / 512 + 1);
    if (number < bits)
        return bit(record, number);
    return number == bits ? 1 : number < end - 64 ? 0 : bits >> (end - 1 - number) & 1;
}

/* ---- Digest, row and produce ---- */

static void digest(struct input *in)
{
    uint64_t limit = take_limit(in), bits = take_bits(in, limit);
    size_t length = take_record_len(in, bits), out_len = take(in, 1) % 72;
    uint8_t *out = slice(outs, out_len, take(in, 1));
    const uint8_t *record = take_record(in, bits, length);
    unsigned refusal = record_refusal(limit, bits, record, length);
    if (refusal == 0 && out_len < 32)
        refusal = 4;
    fill(out, out_len);
    seen[refusal]++;
    MUST(sm3rows_digest(limit, bits, record, length, out, out_len) == refusal);
    MUST(filled(out + (refusal == 0 ? 32 : 0), out_len - (refusal == 0 ? 32 : 0)));
    if (as_ours(limit, refusal))
        MUST(sm3rows_digest(OURS, bits, record, length, filled_again(out_len), out_len) == refusal &&
             same(out, rights, out_len));
    /* The same bytes are another record where all of their bits count. */
    if (refusal == 0 && bits % 8 > 0 && 8 * length <= MOST_BITS)
        MUST(sm3rows_digest(OURS, 8 * length, record, length, rights, 32) == 0 && memcmp(out, rights, 32) != 0);
}

/* A row: that of a message bit near the last record bit, one near the row count, or any. */
static uint64_t take_row(struct input *in, uint64_t bits, uint64_t rows)
{
    uint64_t how = take(in, 1), number = bits + how % 8 - 4;
    return how < 64 ? 256 + 32320 * (number / 512) + number % 512 : take_near(in, rows);
}

/* Whether B of a row for a block bit has the terms of its form: a bit row for a record wire, else a fixed row. */
static int block_bit_form(uint64_t bits, uint64_t number, unsigned terms_of_b)
{
    uint64_t block = (number - 256) / 32320, place = (number - 256) % 32320;
    if (number < 256 || block >= SM3ROWS_BLOCKS(bits) || place >= 512)
        return 1;
    return terms_of_b == (512 * block + place < bits ? 2 : 1);
}

static void row(struct input *in)
{
    uint64_t limit = take_limit(in), bits = take_bits(in, limit);
    uint64_t rows = bits <= MOST_BITS ? SM3ROWS_ROWS(bits) : 0;
    uint64_t number = take_row(in, bits, rows);
    size_t out_len = take(in, 1) < 128 ? 1956 : take(in, 2) % 4000;
    uint8_t *out = slice(outs, out_len, take(in, 1));
    fill(out, out_len);
    uint64_t answer = sm3rows_row(limit, bits, number, out, out_len);
    unsigned refusal = length_refusal(limit, bits);
    if (refusal == 0)
        refusal = number >= rows ? 3 : out_len < 1956 ? 4 : 0;
    seen[refusal]++;
    MUST(SM3ROWS_REFUSAL(answer) == refusal);
    if (as_ours(limit, answer))
        MUST(sm3rows_row(OURS, bits, number, filled_again(out_len), out_len) == answer && same(out, rights, out_len));
    if (refusal != 0) {
        MUST(answer == refusal && filled(out, out_len));
        return;
    }
    unsigned a = SM3ROWS_COUNT_A(answer), b = SM3ROWS_COUNT_B(answer), c = SM3ROWS_COUNT_C(answer);
    MUST(answer >> 32 == 0 && a > 0 && b > 0 && a + b + c <= 163 && block_bit_form(bits, number, b));
    const uint8_t *at = terms(out, a, SM3ROWS_WIRES(bits));
    at = terms(at, b, SM3ROWS_WIRES(bits));
    at = terms(at, c, SM3ROWS_WIRES(bits));
    MUST(filled(at, out_len - (size_t)(at - out)));
}

/* How many bytes an assignment and its packed bytes must have; 0 for bits out of range. */
static size_t assignment_bytes(uint64_t bits)
{
    return bits <= MOST_BITS ? SM3ROWS_ASSIGNMENT_BYTES(bits) : 0;
}

static size_t packed_bytes(uint64_t bits)
{
    return (assignment_bytes(bits) / 8 + 7) / 8;
}

/* What the paper says of some wires of a record's assignment: all are 0 or 1, the block bits are the message's, and
 * wires 1 to 256 are the digest, against which the check accepts. */
static void is_assignment(const uint8_t *out, uint64_t limit, uint64_t bits, const uint8_t *record, size_t length)
{
    uint8_t sealed[32];
    MUST(entry(out, 0) == 1);
    for (size_t wire = 0; wire < SM3ROWS_WIRES(bits); wire++)
        MUST(entry(out, wire) <= 1);
    for (uint64_t number = 0; number < 512 * SM3ROWS_BLOCKS(bits); number++)
        MUST(entry(out, 513 + 22528 * (number / 512) + number % 512) == message_bit(bits, record, number));
    MUST(sm3rows_digest(limit, bits, record, length, sealed, sizeof sealed) == 0);
    for (size_t number = 0; number < 256; number++)
        MUST(entry(out, 1 + number) == bit(sealed, number));
    MUST(sm3rows_check(limit, bits, sealed, sizeof sealed, out, assignment_bytes(bits)) == 0);
}

static void produce(struct input *in)
{
    uint64_t limit = take_limit(in), bits = take_bits(in, limit);
    size_t length = take_record_len(in, bits), exact = assignment_bytes(bits);
    size_t out_len = (exact + take(in, 1) - 128) % (ROOM - PAGE);
    uint8_t *out = slice(outs, out_len, take(in, 1));
    const uint8_t *record = take_record(in, bits, length);
    unsigned refusal = record_refusal(limit, bits, record, length);
    if (refusal == 0 && out_len < exact)
        refusal = 4;
    fill(out, out_len);
    seen[refusal]++;
    MUST(sm3rows_produce(limit, bits, record, length, out, out_len) == refusal);
    exact = refusal == 0 ? exact : 0;
    MUST(filled(out + exact, out_len - exact));
    if (as_ours(limit, refusal))
        MUST(sm3rows_produce(OURS, bits, record, length, filled_again(out_len), out_len) == refusal &&
             same(out, rights, out_len));
    if (refusal == 0)
        is_assignment(out, limit, bits, record, length);
}

/* ---- Check, pack and unpack, on a record's own claim with some things changed ---- */

/* The bits of a record in range, which the limit need not allow. */
static uint64_t take_real(struct input *in, uint64_t limit)
{
    return take_bits(in, limit) % (MOST_BITS + 1);
}

/* Bits that are the record's, or others, mostly with as many blocks. */
static uint64_t take_other(struct input *in, int other, uint64_t limit, uint64_t real)
{
    uint64_t how = other ? take(in, 1) : 0;
    return !other ? real : how < 128 ? real + how % 32 - 16 : take_bits(in, limit);
}

/* A record's digest and, in `rights`, its assignment; in `claims` the same with up to 7 entries changed, and zeros
 * behind. A byte of the digest may be changed too. */
static void take_claim(struct input *in, uint64_t bits, uint8_t *sealed)
{
    size_t exact = assignment_bytes(bits), length = (bits + 7) / 8;
    uint64_t changes = take(in, 1), wires[8], values[8];
    for (unsigned k = 0; k < changes % 8; k++) {
        wires[k] = take_wire(in, exact / 8);
        values[k] = take_entry(in);
    }
    const uint8_t *record = take_cleared(in, bits, length);
    MUST(sm3rows_digest(OURS, bits, record, length, sealed, 32) == 0);
    MUST(sm3rows_produce(OURS, bits, record, length, rights, exact) == 0);
    memcpy(claims, rights, exact);
    memset(claims + exact, 0, 128);
    for (unsigned k = 0; k < changes % 8; k++)
        memcpy(claims + 8 * wires[k], &values[k], 8);
    if (changes & 128) {
        size_t at = take(in, 1) % 32;
        sealed[at] ^= (uint8_t)take(in, 1);
    }
}

/* What the paper says of the claim for so many bits, if its sizes are right; of 9 without the row. What is accepted is the
 * record's, byte for byte. With so few changes no other record's claim comes out. */
static uint64_t claim_answer(uint64_t bits, uint64_t real, const uint8_t *sealed)
{
    int same = bits == real && memcmp(claims, rights, assignment_bytes(real)) == 0, same_digest = 1;
    for (size_t number = 0; number < 256; number++)
        same_digest &= entry(claims, 1 + number) == bit(sealed, number);
    uint64_t great = not_below(claims, SM3ROWS_WIRES(real));
    return great != 0 ? great : entry(claims, 0) != 1 ? 7 : !same_digest ? 8 : same ? 0 : 9;
}

static void check(struct input *in)
{
    uint64_t limit = take_limit(in), real = take_real(in, limit);
    uint64_t sizes = take(in, 1), bits = take_other(in, sizes & 1, limit, real);
    size_t digest_len = sizes & 2 ? take(in, 1) : 32;
    size_t assignment_len = take_size(in, sizes & 4, assignment_bytes(real));
    uint8_t *digest = slice(digests, digest_len, sizes >> 3);
    uint8_t *assignment = slice(assignments, assignment_len, sizes >> 5);
    uint8_t sealed[256] = {0};
    take_claim(in, real, sealed);
    uint64_t right = claim_answer(bits, real, sealed);
    if (length_refusal(limit, bits) != 0)
        right = length_refusal(limit, bits);
    else if (digest_len != 32)
        right = 5;
    else if (assignment_len != assignment_bytes(bits))
        right = 6;
    if (digest_len > 0)
        memcpy(digest, sealed, digest_len);
    memcpy(assignment, claims, assignment_len);
    uint64_t answer = sm3rows_check(limit, bits, digest, digest_len, assignment, assignment_len);
    seen[SM3ROWS_REFUSAL(right)]++;
    MUST(SM3ROWS_REFUSAL(answer) == SM3ROWS_REFUSAL(right));
    MUST(right == 9 ? SM3ROWS_FAILING_ROW(answer) < SM3ROWS_ROWS(bits) : answer == right);
    if (as_ours(limit, answer))
        MUST(sm3rows_check(OURS, bits, digest, digest_len, assignment, assignment_len) == answer);
    MUST(memcmp(assignment, claims, assignment_len) == 0);
    MUST(digest_len == 0 || memcmp(digest, sealed, digest_len) == 0);
}

/* What the paper says of packing the claim. */
static uint64_t packing_answer(uint64_t limit, uint64_t bits, size_t assignment_len, size_t out_len)
{
    if (length_refusal(limit, bits) != 0)
        return length_refusal(limit, bits);
    if (out_len < packed_bytes(bits))
        return 4;
    if (assignment_len != assignment_bytes(bits))
        return 6;
    uint64_t great = not_below(claims, SM3ROWS_WIRES(bits));
    for (uint64_t wire = 0; great == 0 && wire < SM3ROWS_WIRES(bits); wire++)
        if (entry(claims, wire) > 1)
            return 10 | wire << 8;
    return great;
}

/* Packs the claim; what was packed unpacks to the same bytes. */
static void pack(struct input *in)
{
    uint64_t limit = take_limit(in), real = take_real(in, limit);
    uint64_t sizes = take(in, 1), bits = take_other(in, sizes & 1, limit, real);
    size_t assignment_len = take_size(in, sizes & 2, assignment_bytes(real));
    size_t out_len = take_size(in, sizes & 4, packed_bytes(real)), exact = packed_bytes(bits);
    uint8_t *assignment = slice(assignments, assignment_len, sizes >> 3), *out = slice(outs, out_len, sizes >> 5);
    uint8_t sealed[32];
    take_claim(in, real, sealed);
    uint64_t answer = packing_answer(limit, bits, assignment_len, out_len);
    memcpy(assignment, claims, assignment_len);
    fill(out, out_len);
    seen[SM3ROWS_REFUSAL(answer)]++;
    MUST(sm3rows_pack(limit, bits, assignment, assignment_len, out, out_len) == answer);
    MUST(memcmp(assignment, claims, assignment_len) == 0);
    exact = answer == 0 ? exact : 0;
    MUST(filled(out + exact, out_len - exact));
    if (as_ours(limit, answer))
        MUST(sm3rows_pack(OURS, bits, assignment, assignment_len, filled_again(out_len), out_len) == answer &&
             same(out, rights, out_len));
    if (answer == 0) {
        MUST(sm3rows_unpack(limit, bits, out, exact, rights, ROOM) == 0);
        MUST(memcmp(rights, claims, assignment_len) == 0);
        for (size_t wire = 0; wire < SM3ROWS_WIRES(bits); wire++)
            MUST(bit(out, wire) == entry(claims, wire));
    }
}

/* What the paper says of unpacking the bytes in `claims`. */
static unsigned unpacking_refusal(uint64_t limit, uint64_t bits, size_t packed_len, size_t out_len)
{
    if (length_refusal(limit, bits) != 0)
        return length_refusal(limit, bits);
    if (out_len < assignment_bytes(bits))
        return 4;
    if (packed_len != packed_bytes(bits))
        return 11;
    return (claims[packed_len - 1] & 0x7f) != 0 ? 12 : 0;
}

/* Unpacks bytes of a pattern, up to 7 of them changed; what was unpacked packs to the same bytes. */
static void unpack(struct input *in)
{
    uint64_t limit = take_limit(in), real = take_real(in, limit);
    uint64_t sizes = take(in, 1), bits = take_other(in, sizes & 1, limit, real);
    size_t packed_len = take_size(in, sizes & 2, packed_bytes(real)), exact = assignment_bytes(bits);
    size_t out_len = take_size(in, sizes & 4, assignment_bytes(real));
    uint8_t *packed = slice(assignments, packed_len, sizes >> 3), *out = slice(outs, out_len, sizes >> 5);
    uint8_t pattern = (uint8_t)take(in, 1), last = (uint8_t)take(in, 1);
    for (size_t k = 0; k < packed_len; k++)
        claims[k] = (uint8_t)(pattern * (k + 1) >> 3);
    for (unsigned changes = take(in, 1) % 8; changes > 0; changes--)
        claims[take(in, 2) % packed_len] = (uint8_t)take(in, 1);
    claims[packed_len - 1] = sizes & 128 ? last : last & 0x80;
    memcpy(packed, claims, packed_len);
    fill(out, out_len);
    unsigned refusal = unpacking_refusal(limit, bits, packed_len, out_len);
    seen[refusal]++;
    MUST(sm3rows_unpack(limit, bits, packed, packed_len, out, out_len) == refusal);
    MUST(memcmp(packed, claims, packed_len) == 0);
    exact = refusal == 0 ? exact : 0;
    MUST(filled(out + exact, out_len - exact));
    if (as_ours(limit, refusal))
        MUST(sm3rows_unpack(OURS, bits, packed, packed_len, filled_again(out_len), out_len) == refusal &&
             same(out, rights, out_len));
    if (refusal == 0) {
        for (size_t wire = 0; wire < exact / 8; wire++)
            MUST(entry(out, wire) == bit(claims, wire));
        MUST(sm3rows_pack(limit, bits, out, exact, rights, ROOM) == 0 && memcmp(rights, claims, packed_len) == 0);
    }
}

static void report(void)
{
    static const int refusals[] = {21, 2, 13, 14, 22, 3, 4, 5, 6, 20, 10, 11, 12, 7, 8, 9};
    fprintf(stderr, "entry: %lu calls not refused, refused by", seen[0]);
    for (size_t k = 0; k < sizeof refusals / sizeof *refusals; k++)
        fprintf(stderr, " %d: %lu,", refusals[k], seen[refusals[k]]);
    fprintf(stderr, " as under sixteen blocks: %lu under another limit\n", alike);
}

int LLVMFuzzerInitialize(int *argc, char ***argv)
{
    (void)argc;
    (void)argv;
    records = room();
    outs = room();
    digests = room();
    assignments = room();
    rights = room();
    claims = room();
    return atexit(report);
}

int LLVMFuzzerTestOneInput(const uint8_t *data, size_t size)
{
    static void (*const functions[6])(struct input *) = {digest, row, produce, check, pack, unpack};
    struct input in = {data, size};
    functions[take(&in, 1) % 6](&in);
    return 0;
}
