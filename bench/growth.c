/* Why a block is dearer in a long assignment: calls of the producer whose memory grows and whose work does not. Built and
 * run by bench/growth.sh. */

#define _GNU_SOURCE
#include <stdint.h>
#include <stdio.h>
#include <stdlib.h>
#include <sys/mman.h>
#include <sys/resource.h>
#include <time.h>

#include "record.h"
#include "sm3rows.h"

enum { RUNS = 25, CALLS = 960, TOUCHES = 100000, STEPS = 9, PAGE = 4096, HUGE_PAGE = 2 << 20 };

/* Assignments of one block that memory is taken for. */
static const size_t steps[STEPS] = {1, 2, 4, 6, 8, 10, 12, 14, 16};

/* Memory on pages of the usual size and on huge ones. */
static const struct {
    const char *name;
    int advice;
} kinds[2] = {{"usual pages", MADV_NOHUGEPAGE}, {"huge pages", MADV_HUGEPAGE}};

static uint8_t record[RECORD_MOST], *memory[2];

/* One call for a record of so many blocks, the longest of them that is whole bytes. */
static void produce(uint64_t blocks, uint8_t *out)
{
    uint64_t bits = 512 * blocks - 72;
    go_on(sm3rows_produce(LIMIT, bits, record, SM3ROWS_RECORD_BYTES(bits), out, SM3ROWS_ASSIGNMENT_BYTES(bits)));
}

/* Processor time of this thread in nanoseconds. */
static double now(void)
{
    struct timespec time;
    clock_gettime(CLOCK_THREAD_CPUTIME_ID, &time);
    return 1e9 * (double)time.tv_sec + (double)time.tv_nsec;
}

/* New memory with room for sixteen assignments of one block. */
static uint8_t *take(int advice)
{
    size_t size = 16 * SM3ROWS_ASSIGNMENT_BYTES(0);
    uint8_t *new = mmap(NULL, size + HUGE_PAGE, PROT_READ | PROT_WRITE, MAP_PRIVATE | MAP_ANONYMOUS, -1, 0);
    if (new == MAP_FAILED)
        exit(EXIT_FAILURE);
    new += -(uintptr_t)new % HUGE_PAGE;
    madvise(new, size, advice);
    return new;
}

/* Nanoseconds of a call of one block, the calls going round so many buffers. */
static double round_buffers(uint8_t *from, size_t buffers)
{
    double begin = now();
    for (size_t call = 0; call < CALLS; call++)
        produce(1, from + call % buffers * SM3ROWS_ASSIGNMENT_BYTES(0));
    return (now() - begin) / CALLS;
}

/* Nanoseconds of a write to a page, the writes going round the pages of so many buffers. They are to lines that the
 * first cache holds together, so that only the pages' addresses are to be found anew. */
static double touch_pages(uint8_t *from, size_t buffers)
{
    volatile uint8_t *page = from;
    size_t pages = buffers * SM3ROWS_ASSIGNMENT_BYTES(0) / PAGE, rounds = TOUCHES / pages;
    double begin = now();
    for (size_t round = 0; round < rounds; round++)
        for (size_t k = 0; k < pages; k++)
            page[k * PAGE + k % 64 * 64] = (uint8_t)round;
    return (now() - begin) / (double)(rounds * pages);
}

/* The best of the runs for each amount of memory. In every run each has its turn. */
static void print_best(const char *what, double (*measure)(uint8_t *from, size_t buffers))
{
    double best[2][STEPS];
    for (int run = 0; run <= RUNS; run++) /* in the first the pages are new */
        for (size_t k = 0; k < 2 * STEPS; k++) {
            double *time = &best[k / STEPS][k % STEPS], taken = measure(memory[k / STEPS], steps[k % STEPS]);
            if (run < 2 || taken < *time)
                *time = taken;
        }
    for (size_t k = 0; k < 2; k++) {
        printf("%s, %s:", what, kinds[k].name);
        for (size_t step = 0; step < STEPS; step++)
            printf(best[k][step] < 10 ? " %.2f" : " %.0f", best[k][step]);
        printf("\n");
    }
}

/* Ten calls into new memory: the first and the last. */
static void print_faults(uint64_t blocks)
{
    uint8_t *out = take(MADV_NOHUGEPAGE);
    for (int call = 1; call <= 10; call++) {
        struct rusage before, after;
        getrusage(RUSAGE_THREAD, &before);
        double begin = now();
        produce(blocks, out);
        double time = now() - begin;
        getrusage(RUSAGE_THREAD, &after);
        if (call == 1 || call == 10)
            printf("%2d blocks, call %d into new memory: %.0f ns a block, %ld page faults\n", (int)blocks, call,
                   time / (double)blocks, after.ru_minflt - before.ru_minflt);
    }
}

int main(void)
{
    set_record(record, SM3ROWS_MOST_BITS);
    for (size_t k = 0; k < 2; k++)
        memory[k] = take(kinds[k].advice);
    printf("In memory for so many assignments of one block:");
    for (size_t step = 0; step < STEPS; step++)
        printf(" %zu", steps[step]);
    printf("\n");
    print_best("ns for a call of one block", round_buffers);
    print_best("ns for a write to a page", touch_pages);
    print_faults(1);
    print_faults(16);
    return EXIT_SUCCESS;
}
