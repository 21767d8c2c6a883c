/* A run of a program as a call, for the harnesses of the programs.
 *
 * fuzz/run.sh links a program's object in with its `main`, `read`, `write` and `rattle_errno` renamed, so that a run is a
 * call and its standard input and output are the functions of program.c. The first three bytes of an input are the
 * manner: how the reads and writes go, whole, in pieces, failing. The others are the standard input.
 *
 * The objects are not instrumented, so each harness has a mutator that makes inputs that are right or nearly so; what
 * the mutators share is here too. */

#ifndef PROGRAM_H
#define PROGRAM_H

#include <stddef.h>
#include <stdint.h>

#include "must.h"

enum { OUTPUT = 1 << 17, MANNER = 3 };

/* Standard input, output and error of one run. */
struct run {
    const uint8_t *input;
    size_t input_size, input_at;
    size_t most_read, most_written; /* how many bytes one call moves at most */
    unsigned reads_left;            /* so many reads go well */
    size_t room;                    /* so many bytes are taken, at most OUTPUT */
    int read_failed, write_failed;
    char output[OUTPUT + 1];
    size_t output_size, error_size;
};

extern struct run run;

/* Runs a program in the manner and with the standard input of a fuzzer's input, which has the manner's bytes at least. */
void run_program(int (*program)(void), const uint8_t *data, size_t size);

/* Whether a read or a write failed; then, and only then, the program says so on standard error. */
int call_failed(void);

/* Whether what was printed begins with the text, or ends within it at a failing write. */
int begins(const char *text);

/* Nothing but the text, as far as the writes went. */
int is_printed(const char *text);

/* The same for `refused,` and the number. */
int is_refused(unsigned number);

/* A decimal number of 1 to 9 digits without leading zeros. */
int decimal(const uint8_t *field, size_t size, uint64_t *value);

/* ---- For the mutators ---- */

size_t LLVMFuzzerMutate(uint8_t *data, size_t size, size_t max_size);

void set_state(unsigned seed);
uint64_t below(uint64_t bound);

/* Any manner; with most of them the run can read and print to the end. */
void put_manner(uint8_t *data);

/* One byte put in, taken out or changed, or some put after the end; a byte is one of the choice. */
size_t damage(uint8_t *bytes, size_t size, size_t max_size, const uint8_t *choice, size_t choices);

#endif
