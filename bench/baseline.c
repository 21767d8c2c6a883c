/* See baseline.h. */

#include "baseline.h"

#include <string.h>

/* ---- The producer ---- */

static inline uint32_t turn(uint32_t x, unsigned by)
{
    return x << by | x >> (32 - by);
}

/* Four wires a step: twice as fast as one a step. */
static inline uint64_t *put_word(uint64_t *out, uint32_t word)
{
    for (int position = 0; position < 32; position += 4) {
        out[position] = word >> 31;
        out[position + 1] = word >> 30 & 1;
        out[position + 2] = word >> 29 & 1;
        out[position + 3] = word >> 28 & 1;
        word <<= 4;
    }
    return out + 32;
}

/* A sum's word, then its two carries, the higher first. */
static inline uint64_t *put_sum(uint64_t *out, uint64_t sum)
{
    out = put_word(out, (uint32_t)sum);
    out[0] = sum >> 33 & 1;
    out[1] = sum >> 32 & 1;
    return out + 2;
}

static inline uint32_t load_word(const uint8_t *bytes)
{
    return (uint32_t)bytes[0] << 24 | (uint32_t)bytes[1] << 16 | (uint32_t)bytes[2] << 8 | bytes[3];
}

static uint64_t *put_block(uint64_t *out, const uint8_t *block, uint32_t state[8])
{
    uint32_t w[68], w_prime[64];
    for (int j = 0; j < 16; j++) {
        w[j] = load_word(block + 4 * j);
        out = put_word(out, w[j]);
    }
    for (int j = 16; j < 68; j++) {
        uint32_t q = w[j - 16] ^ w[j - 9] ^ turn(w[j - 3], 15);
        uint32_t p1 = q ^ turn(q, 15) ^ turn(q, 23);
        w[j] = p1 ^ turn(w[j - 13], 7) ^ w[j - 6];
        out = put_word(out, q);
        out = put_word(out, p1);
        out = put_word(out, w[j]);
    }
    for (int j = 0; j < 64; j++) {
        w_prime[j] = w[j] ^ w[j + 4];
        out = put_word(out, w_prime[j]);
    }
    uint32_t a = state[0], b = state[1], c = state[2], d = state[3];
    uint32_t e = state[4], f = state[5], g = state[6], h = state[7];
    uint32_t t = 0x79cc4519;
    for (int j = 0; j < 64; j++) {
        if (j == 16)
            t = 0x9d8a7a87; /* 7a879d8a turned by 16 */
        uint32_t a12 = turn(a, 12);
        uint64_t u = (uint64_t)a12 + e + t;
        uint32_t ss1 = turn((uint32_t)u, 7);
        uint32_t ss2 = ss1 ^ a12;
        uint32_t ff = j < 16 ? a ^ b ^ c : (a & b) | (c & (a | b));
        uint32_t gg = j < 16 ? e ^ f ^ g : (e & f) | (~e & g);
        uint64_t tt1 = (uint64_t)ff + d + ss2 + w_prime[j];
        uint64_t tt2 = (uint64_t)gg + h + ss1 + w[j];
        uint32_t x = (uint32_t)tt2;
        uint32_t p0 = x ^ turn(x, 9) ^ turn(x, 17);
        out = put_sum(out, u);
        out = put_word(out, ss2);
        out = put_word(out, ff);
        out = put_word(out, gg);
        out = put_sum(out, tt1);
        out = put_sum(out, tt2);
        out = put_word(out, p0);
        d = c;
        c = turn(b, 9);
        b = a;
        a = (uint32_t)tt1;
        h = g;
        g = turn(f, 19);
        f = e;
        e = p0;
        t = turn(t, 1);
    }
    const uint32_t last[8] = {a, b, c, d, e, f, g, h};
    for (int k = 0; k < 8; k++) {
        state[k] ^= last[k];
        out = put_word(out, state[k]);
    }
    return out;
}

void baseline_produce(size_t bits, const uint8_t *record, uint64_t *out)
{
    static const uint32_t start[8] = {0x7380166f, 0x4914b2b9, 0x172442d7, 0xda8a0600,
                                      0xa96f30bc, 0x163138aa, 0xe38dee4d, 0xb0fb0e4e};
    uint8_t message[1024] = {0};
    size_t blocks = (bits + 64) / 512 + 1;
    if (bits > 0)
        memcpy(message, record, (bits + 7) / 8);
    message[bits / 8] |= (uint8_t)(0x80 >> bits % 8);
    /* 8,127 has 13 bits. */
    message[64 * blocks - 2] = (uint8_t)(bits >> 8);
    message[64 * blocks - 1] = (uint8_t)bits;

    uint32_t state[8];
    memcpy(state, start, sizeof state);
    out[0] = 1;
    uint64_t *next = out + 257;
    for (int k = 0; k < 8; k++)
        next = put_word(next, state[k]);
    for (size_t block = 0; block < blocks; block++)
        next = put_block(next, message + 64 * block, state);
    next = out + 1;
    for (int k = 0; k < 8; k++)
        next = put_word(next, state[k]);
}

/* ---- Entries ---- */

static const uint64_t P = ((uint64_t)1 << 61) - 1;

static inline uint64_t load_entry(const uint8_t *assignment, size_t wire)
{
    uint64_t entry; /* least byte first, as on the machines that this runs on */
    memcpy(&entry, assignment + 8 * wire, sizeof entry);
    return entry;
}

static inline uint64_t refuse(uint64_t number, size_t wire)
{
    return number | (uint64_t)wire << 8;
}

/* Eight entries put together by `or`: none of them is above it. */
static inline uint64_t any_of_eight(const uint8_t *entries)
{
    return load_entry(entries, 0) | load_entry(entries, 1) | load_entry(entries, 2) | load_entry(entries, 3) |
           load_entry(entries, 4) | load_entry(entries, 5) | load_entry(entries, 6) | load_entry(entries, 7);
}

/* The lowest wire from `from` on whose entry is p or more, or `to`. */
static inline size_t below_to(const uint8_t *assignment, size_t from, size_t to)
{
    while (from < to && load_entry(assignment, from) < P)
        from++;
    return from;
}

/* Refusal 20 where an entry from `wire` on is p or more, else 0: eight at a time, and one by one only where that does not
 * decide. */
static inline uint64_t test_below(const uint8_t *assignment, size_t wire, size_t wires)
{
    for (; wires - wire >= 8; wire += 8)
        if (any_of_eight(assignment + 8 * wire) >= P && below_to(assignment, wire, wire + 8) < wire + 8)
            break;
    wire = below_to(assignment, wire, wires);
    return wire < wires ? refuse(20, wire) : 0;
}

/* ---- Packing ---- */

/* Eight such entries as a byte, in one step: quicker than a loop. */
static inline uint8_t join_eight(const uint8_t *entries)
{
    uint64_t byte = load_entry(entries, 0);
    byte = 2 * byte + load_entry(entries, 1);
    byte = 2 * byte + load_entry(entries, 2);
    byte = 2 * byte + load_entry(entries, 3);
    byte = 2 * byte + load_entry(entries, 4);
    byte = 2 * byte + load_entry(entries, 5);
    byte = 2 * byte + load_entry(entries, 6);
    return (uint8_t)(2 * byte + load_entry(entries, 7));
}

/* Refusal 20 or 10 of an assignment whose entries before `from` are bits, and of those from there on one is not. */
static uint64_t refuse_to_pack(const uint8_t *assignment, size_t from, size_t wires)
{
    uint64_t refusal = test_below(assignment, from, wires);
    if (refusal != 0)
        return refusal;
    while (load_entry(assignment, from) <= 1)
        from++;
    return refuse(10, from);
}

uint64_t baseline_pack(size_t wires, const uint8_t *assignment, uint8_t *out)
{
    size_t last = wires - 1, bits = 0;
    while (bits < last && any_of_eight(assignment + 8 * bits) <= 1)
        bits += 8;
    if (bits < last || load_entry(assignment, last) > 1)
        return refuse_to_pack(assignment, bits, wires);
    for (size_t wire = 0; wire < last; wire += 8)
        *out++ = join_eight(assignment + 8 * wire);
    *out = (uint8_t)(load_entry(assignment, last) << 7);
    return 0;
}

uint64_t baseline_pack_copied(size_t wires, const uint8_t *assignment, uint8_t *out)
{
    uint8_t packed[BASELINE_PACKED_MOST];
    size_t last = wires - 1;
    for (size_t wire = 0; wire < last; wire += 8) {
        if (any_of_eight(assignment + 8 * wire) > 1)
            return refuse_to_pack(assignment, wire, wires);
        packed[wire / 8] = join_eight(assignment + 8 * wire);
    }
    if (load_entry(assignment, last) > 1)
        return refuse_to_pack(assignment, last, wires);
    packed[last / 8] = (uint8_t)(load_entry(assignment, last) << 7);
    memcpy(out, packed, last / 8 + 1);
    return 0;
}

uint64_t baseline_unpack(size_t wires, const uint8_t *packed, size_t packed_len, uint64_t *out)
{
    if (packed_len != (wires + 7) / 8)
        return 11;
    const uint8_t *last = packed + packed_len - 1;
    if (*last & 0x7f)
        return 12;
    for (; packed < last; packed += 4)
        out = put_word(out, load_word(packed));
    *out = *last >> 7;
    return 0;
}

/* ---- The check ---- */

typedef unsigned __int128 wide;

/* 2^61 is 1 modulo p, so the bits from 61 on are added to those below: the same number modulo p, below 2^62 + 2^6. */
static inline uint64_t fold_wide(wide x)
{
    return ((uint64_t)x & P) + ((uint64_t)(x >> 61) & P) + (uint64_t)(x >> 122);
}

static inline uint64_t reduce_wide(wide x)
{
    uint64_t sum = fold_wide(x);
    sum = (sum & P) + (sum >> 61);
    return sum >= P ? sum - P : sum;
}

static inline wide add_terms(wide total, const struct baseline_rows *matrix, const uint8_t *assignment, uint32_t from,
                             uint32_t to)
{
    for (; from < to; from++)
        total += (wide)matrix->coefficient[from] * load_entry(assignment, matrix->wire[from]);
    return total;
}

/* A sum of the row, folded. A product of two numbers below p is below 2^122, so 63 of them and a folded number fit in 128
 * bits. */
static inline uint64_t evaluate(const struct baseline_rows *matrix, const uint8_t *assignment, uint32_t from,
                                uint32_t to)
{
    wide total = 0;
    if (from == to)
        return 0;
    for (; to - from > 63; from += 63)
        total = fold_wide(add_terms(total, matrix, assignment, from, from + 63));
    return fold_wide(add_terms(total, matrix, assignment, from, to));
}

uint64_t baseline_check(const struct baseline_rows *matrix, const uint8_t digest[32], const uint8_t *assignment)
{
    uint64_t refusal = test_below(assignment, 0, matrix->wires);
    if (refusal != 0)
        return refusal;
    if (load_entry(assignment, 0) != 1)
        return 7;
    for (int bit = 0; bit < 256; bit++)
        if (load_entry(assignment, 1 + bit) != (uint64_t)(digest[bit / 8] >> (7 - bit % 8) & 1))
            return 8;
    for (size_t row = 0; row < matrix->rows; row++) {
        const uint32_t *ends = matrix->ends + 3 * row;
        uint64_t a = evaluate(matrix, assignment, ends[0], ends[1]);
        uint64_t b = evaluate(matrix, assignment, ends[1], ends[2]);
        uint64_t c = evaluate(matrix, assignment, ends[2], ends[3]);
        if (reduce_wide((wide)a * b) != reduce_wide(c))
            return 9 | (uint64_t)row << 8;
    }
    return 0;
}
