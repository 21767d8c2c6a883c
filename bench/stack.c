/* How much stack the functions of both archives use: each is called on a thread whose stack was painted, and the lowest byte that
 * lost its paint is found afterwards. Usage: stack FILE; the longest record's claim is left in the file, as the program
 * `packed` reads it. Built and run by bench/stack.sh. */

#define _GNU_SOURCE
#include <pthread.h>
#include <stdint.h>
#include <stdio.h>
#include <stdlib.h>
#include <string.h>
#include <sys/mman.h>

#include "line.h"
#include "record.h"
#include "sm3rows.h"

enum { STACK = 8 << 20, PAINT = 0x5a, MOST = SM3ROWS_MOST_BITS };

static uint8_t record[RECORD_MOST], out[SM3ROWS_ASSIGNMENT_BYTES(MOST)], packed[SM3ROWS_PACKED_BYTES(MOST)];
static uint8_t digest[SM3ROWS_DIGEST_BYTES], *stack;

/* One call of each function for a record of so many bits; what it answered. */
static uint64_t call_digest(uint64_t bits)
{
    return sm3rows_digest(LIMIT, bits, record, SM3ROWS_RECORD_BYTES(bits), digest, sizeof digest);
}

static uint64_t call_row(uint64_t bits)
{
    /* Rows of all forms: a step that meets every place of a block. */
    uint64_t refusals = 0;
    for (uint64_t row = 0; row < SM3ROWS_ROWS(bits); row += 31)
        refusals |= SM3ROWS_REFUSAL(sm3rows_row(LIMIT, bits, row, out, sizeof out));
    return refusals;
}

static uint64_t call_produce(uint64_t bits)
{
    return sm3rows_produce(LIMIT, bits, record, SM3ROWS_RECORD_BYTES(bits), out, sizeof out);
}

/* A right claim, and the same with its last entry turned over: rows are judged by their terms only where one fails. */
static uint64_t call_check(uint64_t bits)
{
    size_t size = SM3ROWS_ASSIGNMENT_BYTES(bits);
    uint64_t right = sm3rows_check(LIMIT, bits, digest, sizeof digest, out, size);
    out[size - 8] ^= 1;
    uint64_t wrong = sm3rows_check(LIMIT, bits, digest, sizeof digest, out, size);
    out[size - 8] ^= 1;
    return right | (SM3ROWS_REFUSAL(wrong) != 9);
}

static uint64_t call_pack(uint64_t bits)
{
    return sm3rows_pack(LIMIT, bits, out, SM3ROWS_ASSIGNMENT_BYTES(bits), packed, sizeof packed);
}

static uint64_t call_unpack(uint64_t bits)
{
    return sm3rows_unpack(LIMIT, bits, packed, SM3ROWS_PACKED_BYTES(bits), out, sizeof out);
}

/* The same of the passage product, whose lines have one length. */
static uint64_t call_read(uint64_t bits)
{
    (void)bits;
    return PASSAGE_REFUSAL(read_line_by(passage_read));
}

static uint64_t call_write(uint64_t bits)
{
    (void)bits;
    return write_line_by(passage_write);
}

static uint64_t call_seal(uint64_t bits)
{
    (void)bits;
    return seal_line();
}

static uint64_t call_passage_check(uint64_t bits)
{
    (void)bits;
    uint64_t right = check_line(), *last = &line_assignment[sizeof line_assignment / 8 - 1];
    *last ^= 1;
    uint64_t wrong = check_line();
    *last ^= 1;
    return right | (PASSAGE_REFUSAL(wrong) != 9);
}

/* And the row library's for axles between two bounds. */
static uint64_t call_axles_row(uint64_t bits)
{
    (void)bits;
    return list_band();
}

static uint64_t call_axles_produce(uint64_t bits)
{
    (void)bits;
    return produce_band();
}

static uint64_t call_axles_check(uint64_t bits)
{
    (void)bits;
    return check_band();
}

struct job {
    uint64_t (*call)(uint64_t bits);
    uint64_t bits, answer;
    size_t used;
};

static void *measure(void *argument)
{
    struct job *job = argument;
    uint8_t *here = (uint8_t *)__builtin_frame_address(0);
    /* Room for this function's own frame and for memset's. */
    size_t painted = (size_t)(here - stack) - 256;
    memset(stack, PAINT, painted);
    job->answer = job->call(job->bits);
    size_t low = 0;
    while (low < painted && stack[low] == PAINT)
        low++;
    job->used = (size_t)(here - stack) - low;
    return NULL;
}

static size_t used_by(uint64_t (*call)(uint64_t), uint64_t bits)
{
    struct job job = {.call = call, .bits = bits};
    pthread_attr_t attributes;
    pthread_t thread;
    if (pthread_attr_init(&attributes) != 0 || pthread_attr_setstack(&attributes, stack, STACK) != 0 ||
        pthread_create(&thread, &attributes, measure, &job) != 0 || pthread_join(thread, NULL) != 0)
        exit(EXIT_FAILURE);
    go_on(job.answer);
    return job.used;
}

/* In this order each finds what it reads. */
static const struct {
    const char *name;
    uint64_t (*call)(uint64_t);
} functions[] = {{"sm3rows_digest", call_digest},
                 {"sm3rows_row", call_row},
                 {"sm3rows_produce", call_produce},
                 {"sm3rows_check", call_check},
                 {"sm3rows_pack", call_pack},
                 {"sm3rows_unpack", call_unpack},
                 {"passage_read", call_read},
                 {"passage_write", call_write},
                 {"passage_seal", call_seal},
                 {"passage_check", call_passage_check},
                 {"sm3rows_axles_row", call_axles_row},
                 {"sm3rows_axles_produce", call_axles_produce},
                 {"sm3rows_axles_check", call_axles_check}};
enum { FUNCTIONS = sizeof functions / sizeof *functions };

static void print_stack(void)
{
    static const uint64_t bits[] = {0, 440, 447, 448, 501, 504, 4000, 8120, MOST};
    size_t most[FUNCTIONS] = {0};
    for (size_t b = 0; b < sizeof bits / sizeof *bits; b++) {
        set_record(record, bits[b]);
        for (size_t f = 0; f < FUNCTIONS; f++) {
            size_t used = used_by(functions[f].call, bits[b]);
            most[f] = used > most[f] ? used : most[f];
        }
    }
    for (size_t f = 0; f < FUNCTIONS; f++)
        printf("%-21s at most %zu bytes of stack\n", functions[f].name, most[f]);
}

/* The claim that the last of the records left. */
static int write_claim(const char *name)
{
    FILE *file = fopen(name, "wb");
    if (file == NULL)
        return EXIT_FAILURE;
    fprintf(file, "%d,", MOST);
    for (size_t k = 0; k < sizeof digest; k++)
        fprintf(file, "%02x", digest[k]);
    fputc('\n', file);
    fwrite(packed, 1, sizeof packed, file);
    return fclose(file) == 0 ? EXIT_SUCCESS : EXIT_FAILURE;
}

int main(int count, char **arguments)
{
    if (count != 2)
        return EXIT_FAILURE;
    stack = mmap(NULL, STACK, PROT_READ | PROT_WRITE, MAP_PRIVATE | MAP_ANONYMOUS, -1, 0);
    if (stack == MAP_FAILED)
        return EXIT_FAILURE;
    print_stack();
    return write_claim(arguments[1]);
}
