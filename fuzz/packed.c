/* libFuzzer harness for the standard input of the program `packed`.
 *
 * A run is as program.h has it. What is printed is held against document 02, requests 1, 2 and 8: the line, the bits and
 * the packed bytes are judged below (refusals 1, 2, 11, 12), and the wires by the archive's check (refusals 7, 8, 9), so
 * that the program and the library must agree. The claims to begin with are made at the start, by the archive. */

#include <string.h>

#include "program.h"
#include "sm3rows.h"

int packed_main(void);

/* ---- What the program must print ---- */

enum { LIMIT = SM3ROWS_LIMIT_OURS }; /* in blocks: the one that the program uses, which allows every length */
enum { DIGITS = 2 * SM3ROWS_DIGEST_BYTES, WIRES = 513 + 22528 * 16, MOST_BITS = 8127 };

static size_t packed_bytes(uint64_t bits)
{
    return 65 + 2816 * SM3ROWS_BLOCKS(bits);
}

/* 64 lower-case hexadecimal digits. */
static int hexadecimal(const uint8_t *field, size_t size, uint8_t *digest)
{
    static const char digits[] = "0123456789abcdef";
    if (size != DIGITS)
        return 0;
    for (size_t k = 0; k < DIGITS; k++) {
        const char *digit = memchr(digits, field[k], 16);
        if (digit == NULL)
            return 0;
        digest[k / 2] = (uint8_t)(digest[k / 2] << 4 | (digit - digits));
    }
    return 1;
}

/* The line up to the first line feed: bits, comma, digest. Answers how many bytes it has, 0 for a bad one. */
static size_t line(const uint8_t *bytes, size_t size, uint64_t *bits, uint8_t *digest)
{
    const uint8_t *end = memchr(bytes, '\n', size);
    const uint8_t *comma = end == NULL ? NULL : memchr(bytes, ',', (size_t)(end - bytes));
    if (comma == NULL || !decimal(bytes, (size_t)(comma - bytes), bits) ||
        !hexadecimal(comma + 1, (size_t)(end - comma - 1), digest))
        return 0;
    return (size_t)(end - bytes) + 1;
}

/* Each wire of packed bytes as an entry of 8 bytes. */
static void unpack(const uint8_t *packed, uint8_t *entries, size_t wires)
{
    memset(entries, 0, 8 * wires);
    for (size_t wire = 0; wire < wires; wire++)
        entries[8 * wire] = packed[wire / 8] >> (7 - wire % 8) & 1;
}

static unsigned refusal(const uint8_t *bytes, size_t size)
{
    static uint8_t entries[8 * WIRES];
    uint64_t bits;
    uint8_t digest[SM3ROWS_DIGEST_BYTES] = {0};
    size_t begin = line(bytes, size, &bits, digest);
    if (begin == 0)
        return 1;
    if (bits > MOST_BITS)
        return 2;
    if (size - begin != packed_bytes(bits))
        return 11;
    if (bytes[size - 1] & 0x7f)
        return 12;
    unpack(bytes + begin, entries, SM3ROWS_WIRES(bits));
    uint64_t answer = sm3rows_check(LIMIT, bits, digest, sizeof digest, entries, SM3ROWS_ASSIGNMENT_BYTES(bits));
    MUST(SM3ROWS_REFUSAL(answer) != 20); /* of a bit an entry below p comes */
    return SM3ROWS_REFUSAL(answer);
}

/* ---- One run ---- */

static unsigned long seen[14]; /* runs by refusal (0 for none), and last those with a failing call */

static void report(void)
{
    fprintf(stderr, "packed: %lu accepted, refused by", seen[0]);
    for (int number = 1; number <= 12; number++)
        if (seen[number] > 0)
            fprintf(stderr, " %d: %lu,", number, seen[number]);
    fprintf(stderr, " a read or write failed: %lu\n", seen[13]);
}

int LLVMFuzzerTestOneInput(const uint8_t *data, size_t size)
{
    if (size < MANNER)
        return 0;
    run_program(packed_main, data, size);
    unsigned number = refusal(run.input, run.input_size);
    seen[call_failed() ? 13 : number]++;
    if (!run.read_failed)
        MUST(number == 0 ? is_printed("accepted\n") : is_refused(number));
    return 0;
}

/* ---- Claims that are right or nearly so ---- */

/* Claims of one block, as the program reads them: of whole bytes, and of records that end inside a byte. */
static const uint64_t lengths[] = {0, 24, 37, 440, 447};
enum { CLAIMS = sizeof lengths / sizeof *lengths, CLAIM = 75 + 2881 };
static struct {
    uint8_t bytes[CLAIM];
    size_t line, size;
} claims[CLAIMS];

static void make_claim(size_t number)
{
    static uint8_t entries[8 * WIRES];
    uint8_t record[56], digest[SM3ROWS_DIGEST_BYTES], *at = claims[number].bytes;
    uint64_t bits = lengths[number];
    size_t length = SM3ROWS_RECORD_BYTES(bits);
    memset(record, 'a', sizeof record);
    if (bits % 8 > 0)
        record[length - 1] &= (uint8_t)(0xff << (8 - bits % 8));
    MUST(sm3rows_digest(LIMIT, bits, record, length, digest, sizeof digest) == 0);
    MUST(sm3rows_produce(LIMIT, bits, record, length, entries, sizeof entries) == 0);
    at += snprintf((char *)at, CLAIM, "%u,", (unsigned)bits);
    for (size_t k = 0; k < sizeof digest; k++)
        at += snprintf((char *)at, 3, "%02x", digest[k]);
    *at++ = '\n';
    claims[number].line = (size_t)(at - claims[number].bytes);
    for (size_t wire = 0; wire < SM3ROWS_WIRES(bits); wire++)
        at[wire / 8] |= (uint8_t)(entries[8 * wire] << (7 - wire % 8));
    claims[number].size = claims[number].line + packed_bytes(bits);
    MUST(refusal(claims[number].bytes, claims[number].size) == 0);
}

int LLVMFuzzerInitialize(int *argc, char ***argv)
{
    (void)argc;
    (void)argv;
    for (size_t number = 0; number < CLAIMS; number++)
        make_claim(number);
    return atexit(report);
}

/* The first so many bytes become others; what stands behind them moves. */
static size_t put_front(uint8_t *bytes, size_t size, size_t front, const uint8_t *others, size_t count)
{
    memmove(bytes + count, bytes + front, size - front);
    memcpy(bytes, others, count);
    return size - front + count;
}

/* Another length, in range or not, in the place of the claim's. */
static size_t other_length(uint8_t *bytes, size_t size)
{
    static const char *const others[] = {"1",   "36",  "38",   "40",   "439",  "441",   "446",      "448",
                                         "959", "960", "8127", "8128", "8129", "65536", "999999999"};
    const char *other = others[below(sizeof others / sizeof *others)];
    size_t digits = (size_t)((uint8_t *)memchr(bytes, ',', size) - bytes);
    return put_front(bytes, size, digits, (const uint8_t *)other, strlen(other));
}

/* A bit of the packed bytes changes: wire 0; one of the first 33 bytes, mostly a digest wire; one of the last byte,
 * mostly a spare one; or any. */
static void turn_bit(uint8_t *packed, size_t size)
{
    uint8_t bit = (uint8_t)(1 << below(8));
    switch (below(4)) {
    case 0:
        packed[0] ^= 0x80;
        break;
    case 1:
        packed[below(33)] ^= bit;
        break;
    case 2:
        packed[size - 1] ^= bit;
        break;
    case 3:
        packed[below(size)] ^= bit;
        break;
    }
}

/* A claim as it is, or with one thing changed. */
static size_t put_claim(uint8_t *bytes, size_t max_size)
{
    static const uint8_t choice[] = "0123456789abcdefAFg,,\n\n\r \xff"; /* and NUL */
    size_t number = below(CLAIMS), begin = claims[number].line, size = claims[number].size;
    uint8_t front[CLAIM];
    memcpy(bytes, claims[number].bytes, size);
    switch (below(10)) {
    case 0: /* as it is */
        break;
    case 1: /* a byte of the line */
        bytes[below(begin)] = choice[below(sizeof choice)];
        break;
    case 2: /* the line alone, which may take another size */
        memcpy(front, bytes, begin);
        size_t damaged = damage(front, begin, begin + 40, choice, sizeof choice);
        return put_front(bytes, size, begin, front, damaged);
    case 3:
        return damage(bytes, size, max_size, choice, sizeof choice);
    case 4: /* some bytes, or one more or less */
        return below(4) == 0 ? below(size) : size - 1 + below(3);
    case 5:
        return other_length(bytes, size);
    default:
        for (uint64_t bits = 1 + below(3); bits > 0; bits--)
            turn_bit(bytes + begin, size - begin);
    }
    return size;
}

size_t LLVMFuzzerCustomMutator(uint8_t *data, size_t size, size_t max_size, unsigned seed)
{
    set_state(seed);
    if (max_size < MANNER + CLAIM + 40 || below(16) == 0)
        return LLVMFuzzerMutate(data, size, max_size);
    put_manner(data);
    return MANNER + put_claim(data + MANNER, max_size - MANNER);
}
