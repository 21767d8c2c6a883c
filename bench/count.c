/* Calls to be counted by bench/count.sh, which builds and runs this: `count SIDE BITS CALLS [FEATURE]` makes so many calls
 * of one side for a record of so many bits; OpenSSL and libgcrypt take whole bytes alone, and a passage line has one length,
 * whatever the bits. libgcrypt leaves the processor's feature of that name aside. The side `check@WIRE` is the check of an
 * assignment whose entry of that wire is turned over. */

#include <stdint.h>
#include <stdlib.h>
#include <string.h>

#include <gcrypt.h>
#include <openssl/evp.h>

#include "baseline.h"
#include "line.h"
#include "record.h"
#include "sm3rows.h"

static uint8_t record[RECORD_MOST], digest[SM3ROWS_DIGEST_BYTES];
static uint8_t packed[SM3ROWS_PACKED_BYTES(SM3ROWS_MOST_BITS)];
static uint64_t assignment[SM3ROWS_WIRES(SM3ROWS_MOST_BITS)];
static EVP_MD *kind;
static EVP_MD_CTX *context;

static void by_digest(uint64_t bits)
{
    go_on(sm3rows_digest(LIMIT, bits, record, SM3ROWS_RECORD_BYTES(bits), digest, sizeof digest));
}

static void by_openssl(uint64_t bits)
{
    EVP_DigestInit_ex(context, kind, NULL);
    EVP_DigestUpdate(context, record, bits / 8);
    EVP_DigestFinal_ex(context, digest, NULL);
}

static void by_libgcrypt(uint64_t bits)
{
    gcry_md_hash_buffer(GCRY_MD_SM3, digest, record, bits / 8);
}

/* All rows, one after the other. */
static void by_row(uint64_t bits)
{
    uint8_t out[SM3ROWS_ROW_BYTES];
    for (uint64_t row = 0; row < SM3ROWS_ROWS(bits); row++)
        go_on(sm3rows_row(LIMIT, bits, row, out, sizeof out));
}

static void by_produce(uint64_t bits)
{
    go_on(sm3rows_produce(LIMIT, bits, record, SM3ROWS_RECORD_BYTES(bits), (uint8_t *)assignment, sizeof assignment));
}

static void by_pack(uint64_t bits)
{
    go_on(sm3rows_pack(LIMIT, bits, (uint8_t *)assignment, SM3ROWS_ASSIGNMENT_BYTES(bits), packed, sizeof packed));
}

static void by_c_pack(uint64_t bits)
{
    baseline_pack(SM3ROWS_WIRES(bits), (uint8_t *)assignment, packed);
}

static void by_unpack(uint64_t bits)
{
    go_on(sm3rows_unpack(LIMIT, bits, packed, SM3ROWS_PACKED_BYTES(bits), (uint8_t *)assignment, sizeof assignment));
}

static void by_c_unpack(uint64_t bits)
{
    baseline_unpack(SM3ROWS_WIRES(bits), packed, SM3ROWS_PACKED_BYTES(bits), assignment);
}

static void by_check(uint64_t bits)
{
    go_on(sm3rows_check(LIMIT, bits, digest, sizeof digest, (uint8_t *)assignment, SM3ROWS_ASSIGNMENT_BYTES(bits)));
}

static void by_check_of_turned(uint64_t bits)
{
    if (SM3ROWS_REFUSAL(sm3rows_check(LIMIT, bits, digest, sizeof digest, (uint8_t *)assignment, SM3ROWS_ASSIGNMENT_BYTES(bits))) != 9)
        exit(EXIT_FAILURE);
}

static void by_read(uint64_t bits)
{
    (void)bits;
    go_on(read_line_by(passage_read));
}

static void by_c_read(uint64_t bits)
{
    (void)bits;
    go_on(read_line_by(baseline_read));
}

static void by_write(uint64_t bits)
{
    (void)bits;
    go_on(write_line_by(passage_write));
}

static void by_c_write(uint64_t bits)
{
    (void)bits;
    go_on(write_line_by(baseline_write));
}

static void by_seal(uint64_t bits)
{
    (void)bits;
    go_on(seal_line());
}

static void by_check_line(uint64_t bits)
{
    (void)bits;
    go_on(check_line());
}

static void by_axles_row(uint64_t bits)
{
    (void)bits;
    go_on(list_band());
}

static void by_axles_produce(uint64_t bits)
{
    (void)bits;
    go_on(produce_band());
}

static void by_axles_check(uint64_t bits)
{
    (void)bits;
    go_on(check_band());
}

static const struct {
    const char *name;
    void (*call)(uint64_t bits);
} sides[] = {{"digest", by_digest},
             {"openssl", by_openssl},
             {"libgcrypt", by_libgcrypt},
             {"row", by_row},
             {"produce", by_produce},
             {"check", by_check},
             {"pack", by_pack},
             {"c-pack", by_c_pack},
             {"unpack", by_unpack},
             {"c-unpack", by_c_unpack},
             {"passage-read", by_read},
             {"c-read", by_c_read},
             {"passage-write", by_write},
             {"c-write", by_c_write},
             {"passage-seal", by_seal},
             {"passage-check", by_check_line},
             {"axles-row", by_axles_row},
             {"axles-produce", by_axles_produce},
             {"axles-check", by_axles_check}};

/* Turns over the entry of the wire that a side's name ends in. */
static void turn_over(uint64_t bits, const char *wire)
{
    uint64_t at = strtoull(wire, NULL, 10);
    if (at >= SM3ROWS_WIRES(bits))
        exit(EXIT_FAILURE);
    assignment[at] ^= 1;
}

int main(int count, char **arguments)
{
    if (count < 4 || (count > 4 && gcry_control(GCRYCTL_DISABLE_HWF, arguments[4], NULL) != 0))
        return EXIT_FAILURE;
    uint64_t bits = strtoull(arguments[2], NULL, 10);
    int calls = atoi(arguments[3]);
    if (bits > SM3ROWS_MOST_BITS)
        return EXIT_FAILURE;
    gcry_check_version(NULL);
    gcry_control(GCRYCTL_INITIALIZATION_FINISHED, 0);
    kind = EVP_MD_fetch(NULL, "SM3", NULL);
    context = EVP_MD_CTX_new();
    set_record(record, bits);
    by_digest(bits);
    by_produce(bits); /* for the check and packing to read, and the packed bytes for unpacking */
    by_pack(bits);
    by_seal(bits); /* for the check of a line, and its digest for that of its axles */
    by_axles_produce(bits);
    if (strncmp(arguments[1], "check@", 6) == 0) {
        turn_over(bits, arguments[1] + 6);
        for (int call = 0; call < calls; call++)
            by_check_of_turned(bits);
    }
    for (size_t side = 0; side < sizeof sides / sizeof *sides; side++)
        if (strcmp(sides[side].name, arguments[1]) == 0)
            for (int call = 0; call < calls; call++)
                sides[side].call(bits);
    EVP_MD_CTX_free(context);
    EVP_MD_free(kind);
    return EXIT_SUCCESS;
}
