/* Seals a record and checks it, as a C host does: the digest, the assignment, the check, the assignment packed for a disk
 * and unpacked again to the same bytes, and what packing and the check say once an entry of the assignment was changed,
 * with a term of the row that then fails. Usage: host [TEXT [BITS]]; the record is the text, or its first so many bits.
 * Without a text there are two records, one of whole bytes and a tag that ends inside a byte, what is said of bytes that
 * do not fit the tag's bits, and what a partner road gets that takes two blocks at most. Builds by examples/run.sh. */

#include <inttypes.h>
#include <stdio.h>
#include <stdlib.h>
#include <string.h>

#include "sm3rows.h"

/* What a tag reader delivers: 37 bits, the first the highest of its byte. The low 3 bits of the last byte are spare. */
enum { TAG_BITS = 37, TAG_BYTES = SM3ROWS_RECORD_BYTES(TAG_BITS) };
static const uint8_t tag[TAG_BYTES] = {0x8b, 0x21, 0x5f, 0x04, 0xd8};

/* What goes from hand to hand once a record of so many bits is sealed. */
struct claim {
    uint64_t bits;
    uint8_t digest[SM3ROWS_DIGEST_BYTES];
    uint8_t *assignment;
    size_t assignment_size;
};

/* Ends the program where the answer is a refusal. */
static void go_on(const char *what, uint64_t answer)
{
    if (SM3ROWS_REFUSAL(answer) == 0)
        return;
    fprintf(stderr, "%s: refusal %u\n", what, SM3ROWS_REFUSAL(answer));
    exit(EXIT_FAILURE);
}

static uint8_t *room(size_t bytes)
{
    uint8_t *new = malloc(bytes);
    if (new == NULL && bytes > 0)
        exit(EXIT_FAILURE);
    return new;
}

/* The digest goes to the partner road, the assignment to the proof back end. */
static struct claim seal(uint64_t bits, const uint8_t *record)
{
    struct claim claim = {.bits = bits};
    size_t bytes = SM3ROWS_RECORD_BYTES(bits);
    go_on("digest", sm3rows_digest(SM3ROWS_LIMIT_OURS, bits, record, bytes, claim.digest, sizeof claim.digest));
    claim.assignment_size = SM3ROWS_ASSIGNMENT_BYTES(bits);
    claim.assignment = room(claim.assignment_size);
    go_on("produce", sm3rows_produce(SM3ROWS_LIMIT_OURS, bits, record, bytes, claim.assignment, claim.assignment_size));

    printf("record   %" PRIu64 " bits in %zu bytes, %" PRIu64 " wires, %" PRIu64 " rows\n", bits, bytes,
           SM3ROWS_WIRES(bits), SM3ROWS_ROWS(bits));
    printf("digest   ");
    for (size_t k = 0; k < sizeof claim.digest; k++)
        printf("%02x", claim.digest[k]);
    printf("\n");
    return claim;
}

static uint64_t check(const struct claim *claim)
{
    return sm3rows_check(SM3ROWS_LIMIT_OURS, claim->bits, claim->digest, sizeof claim->digest, claim->assignment,
                         claim->assignment_size);
}

/* An answer of 0 says that the assignment belongs to the digest. */
static int accepted(const struct claim *claim)
{
    int right = check(claim) == 0;
    printf("check    %s\n", right ? "accepted" : "refused");
    return right;
}

static uint64_t pack(const struct claim *claim, uint8_t *packed)
{
    return sm3rows_pack(SM3ROWS_LIMIT_OURS, claim->bits, claim->assignment, claim->assignment_size, packed,
                        SM3ROWS_PACKED_BYTES(claim->bits));
}

/* To a disk and back: from one bit a wire the assignment is written anew, the same bytes. */
static int store(const struct claim *claim)
{
    size_t size = SM3ROWS_PACKED_BYTES(claim->bits);
    uint8_t *packed = room(size), *unpacked = room(claim->assignment_size);
    go_on("pack", pack(claim, packed));
    printf("packed   %zu bytes instead of %zu\n", size, claim->assignment_size);
    go_on("unpack", sm3rows_unpack(SM3ROWS_LIMIT_OURS, claim->bits, packed, size, unpacked, claim->assignment_size));
    int same = memcmp(unpacked, claim->assignment, claim->assignment_size) == 0;
    free(packed);
    free(unpacked);
    printf("unpacked %s\n", same ? "the same bytes" : "OTHER bytes");
    return same;
}

/* The message's first bit. */
enum { WIRE = 513 };

/* Its entry, in 8 bytes, least byte first. */
static void put_entry(const struct claim *claim, uint64_t value)
{
    for (unsigned k = 0; k < 8; k++)
        claim->assignment[8 * WIRE + k] = (uint8_t)(value >> 8 * k);
}

static int is_wire(const char *what, uint64_t answer, unsigned refusal)
{
    printf("%-8s refusal %u, wire %" PRIu64 "\n", what, SM3ROWS_REFUSAL(answer), SM3ROWS_FAILING_WIRE(answer));
    return SM3ROWS_REFUSAL(answer) == refusal && SM3ROWS_FAILING_WIRE(answer) == WIRE;
}

/* As 2 the entry is no bit, and packing says which wire it was. With p added it is the bit modulo p, but the proof back
 * end would stop on it: the check and packing refuse it and say which wire it was. */
static int name_wires(const struct claim *claim)
{
    uint8_t *packed = room(SM3ROWS_PACKED_BYTES(claim->bits)), kept = claim->assignment[8 * WIRE];
    put_entry(claim, 2);
    int right = is_wire("no bit", pack(claim, packed), 10);
    put_entry(claim, SM3ROWS_PRIME + kept);
    right &= is_wire("plus p", check(claim), 20);
    right &= pack(claim, packed) == check(claim);
    put_entry(claim, kept);
    free(packed);
    return right;
}

/* A term of a row: the wire, then the coefficient, two's complement. */
enum { TERM_BYTES = 4 + 8 };

/* For a back end that wants coefficients from 1 to p - 1, p is added to a negative one. */
static int name_term(const uint8_t term[TERM_BYTES])
{
    uint32_t wire;
    int64_t coefficient;
    memcpy(&wire, term, sizeof wire);
    memcpy(&coefficient, term + sizeof wire, sizeof coefficient);
    uint64_t residue = (uint64_t)coefficient + (coefficient < 0 ? SM3ROWS_PRIME : 0);
    printf("a term   %" PRId64 " on wire %" PRIu32 ", modulo p %" PRIu64 "\n", coefficient, wire, residue);
    return residue > 0 && residue < SM3ROWS_PRIME;
}

/* The same wire as the other bit breaks a row; that row by its number, and the last of its terms in A. */
static int name_row(const struct claim *claim)
{
    uint8_t row[SM3ROWS_ROW_BYTES];
    claim->assignment[8 * WIRE] ^= 1;
    uint64_t failed = check(claim);
    printf("damaged  refusal %u, row %" PRIu64 "\n", SM3ROWS_REFUSAL(failed), SM3ROWS_FAILING_ROW(failed));
    uint64_t answer = sm3rows_row(SM3ROWS_LIMIT_OURS, claim->bits, SM3ROWS_FAILING_ROW(failed), row, sizeof row);
    go_on("row", answer);
    printf("the row  %u terms in A, %u in B, %u in C\n", SM3ROWS_COUNT_A(answer), SM3ROWS_COUNT_B(answer),
           SM3ROWS_COUNT_C(answer));
    return SM3ROWS_REFUSAL(failed) == 9 && name_term(row + TERM_BYTES * (SM3ROWS_COUNT_A(answer) - 1));
}

/* One record through all of it; 1 where each answer is as it should be. */
static int go_through(uint64_t bits, const uint8_t *record)
{
    struct claim claim = seal(bits, record);
    int right = accepted(&claim);
    right &= store(&claim);
    right &= name_wires(&claim);
    right &= name_row(&claim);
    free(claim.assignment);
    return right;
}

/* The tag once without its last byte and once with a spare bit set: bytes that the bits do not allow. */
static int name_wrong_bytes(void)
{
    uint8_t digest[SM3ROWS_DIGEST_BYTES], spare[TAG_BYTES];
    memcpy(spare, tag, sizeof spare);
    spare[TAG_BYTES - 1] |= 1;
    uint64_t few = sm3rows_digest(SM3ROWS_LIMIT_OURS, TAG_BITS, tag, TAG_BYTES - 1, digest, sizeof digest);
    uint64_t set = sm3rows_digest(SM3ROWS_LIMIT_OURS, TAG_BITS, spare, TAG_BYTES, digest, sizeof digest);
    printf("the tag  in %d bytes refusal %u, with a spare bit set refusal %u\n", TAG_BYTES - 1, SM3ROWS_REFUSAL(few),
           SM3ROWS_REFUSAL(set));
    return SM3ROWS_REFUSAL(few) == 13 && SM3ROWS_REFUSAL(set) == 14;
}

/* A partner road takes two blocks at most. A record of three is refused under its limit and digested under ours. */
static int name_limit(void)
{
    enum { BITS = 1016 };
    uint8_t record[SM3ROWS_RECORD_BYTES(BITS)], digest[SM3ROWS_DIGEST_BYTES];
    memset(record, 'a', sizeof record);
    uint64_t two = sm3rows_digest(SM3ROWS_LIMIT_PARTNER, BITS, record, sizeof record, digest, sizeof digest);
    uint64_t sixteen = sm3rows_digest(SM3ROWS_LIMIT_OURS, BITS, record, sizeof record, digest, sizeof digest);
    printf("partner  %d bits are %" PRIu64 " blocks: at a limit of %u refusal %u, at %u %s\n", BITS,
           SM3ROWS_BLOCKS(BITS), SM3ROWS_LIMIT_PARTNER, SM3ROWS_REFUSAL(two), SM3ROWS_LIMIT_OURS,
           sixteen == 0 ? "digested" : "REFUSED");
    return two == 22 && sixteen == 0;
}

/* The most bits that the partner takes: each row for them is the same bytes under both limits, so that one copy of the
 * rows serves both roads. */
static int share_rows(void)
{
    uint64_t bits = SM3ROWS_LIMIT_BITS(SM3ROWS_LIMIT_PARTNER);
    uint8_t two[SM3ROWS_ROW_BYTES] = {0}, sixteen[SM3ROWS_ROW_BYTES] = {0};
    int same = 1;
    for (uint64_t row = 0; row < SM3ROWS_ROWS(bits); row++) {
        uint64_t answer = sm3rows_row(SM3ROWS_LIMIT_PARTNER, bits, row, two, sizeof two);
        go_on("row", answer);
        same &= sm3rows_row(SM3ROWS_LIMIT_OURS, bits, row, sixteen, sizeof sixteen) == answer;
        same &= memcmp(two, sixteen, sizeof two) == 0;
    }
    printf("         %" PRIu64 " bits have %" PRIu64 " rows, %s at both limits\n", bits, SM3ROWS_ROWS(bits),
           same ? "the same" : "OTHERS");
    return same;
}

/* The first so many bits of a text, which has them: what stands behind them in the last byte is cleared. The record is in
 * memory of its size, so that Valgrind sees where a byte more is read. */
static int go_through_part(uint64_t bits, const char *text)
{
    size_t bytes = SM3ROWS_RECORD_BYTES(bits);
    uint8_t *record = room(bytes);
    for (size_t k = 0; k < bytes; k++)
        record[k] = (uint8_t)text[k];
    if (bits % 8 != 0)
        record[bytes - 1] &= (uint8_t)(0xff << (8 - bits % 8));
    int right = go_through(bits, record);
    free(record);
    return right;
}

int main(int argc, char **argv)
{
    static const char passage[] = "lane 4, 07:31, class 2, seal 118";
    if (argc > 1) {
        uint64_t all = 8 * (uint64_t)strlen(argv[1]), bits = argc > 2 ? strtoull(argv[2], NULL, 10) : all;
        return bits <= all && go_through_part(bits, argv[1]) ? EXIT_SUCCESS : EXIT_FAILURE;
    }
    int right = go_through(8 * strlen(passage), (const uint8_t *)passage); /* a byte is 8 bits */
    right &= go_through(TAG_BITS, tag);
    right &= name_wrong_bytes();
    right &= name_limit();
    right &= share_rows();
    return right ? EXIT_SUCCESS : EXIT_FAILURE;
}
