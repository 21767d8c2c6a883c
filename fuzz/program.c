/* A run of a program as a call: see program.h. What comes of failing reads and writes is in docs/DECISIONS.md. */

#include <errno.h>
#include <string.h>
#include <sys/types.h>

#include "program.h"

struct run run;

static size_t least(size_t a, size_t b)
{
    return a < b ? a : b;
}

ssize_t program_read(int fd, void *to, size_t count)
{
    MUST(fd == 0 && !run.read_failed && run.output_size == 0);
    if (run.reads_left-- == 0) {
        run.read_failed = 1;
        return -1;
    }
    size_t n = least(least(count, run.most_read), run.input_size - run.input_at);
    memcpy(to, run.input + run.input_at, n);
    run.input_at += n;
    return (ssize_t)n;
}

ssize_t program_write(int fd, const void *from, size_t count)
{
    if (fd == 2) {
        run.error_size += count;
        return (ssize_t)count;
    }
    MUST(fd == 1 && !run.read_failed && !run.write_failed);
    size_t n = least(least(count, run.most_written), run.room - run.output_size);
    memcpy(run.output + run.output_size, from, n);
    run.output_size += n;
    run.write_failed = n == 0 && count > 0;
    return run.write_failed && run.room % 3 != 0 ? -1 : (ssize_t)n;
}

/* Why a read or a write failed: for no reason after which it would be tried again. */
int program_errno(void)
{
    return EIO;
}

void run_program(int (*program)(void), const uint8_t *data, size_t size)
{
    run.most_read = data[0] / 2 % 4 == 0 ? SIZE_MAX : data[0] / 8 % 16 + 1u;
    run.reads_left = data[0] & 128 ? data[1] % 8 : UINT32_MAX;
    run.most_written = data[1] & 128 ? OUTPUT : 1 << data[1] / 8;
    run.room = data[2] & 128 ? least(OUTPUT >> data[2] % 8, 2048 * run.most_written) : data[2];
    run.input = data + MANNER;
    run.input_size = size - MANNER;
    run.input_at = run.output_size = run.error_size = 0;
    run.read_failed = run.write_failed = 0;
    program();
}

int call_failed(void)
{
    int failed = run.read_failed || run.write_failed;
    MUST((run.error_size > 0) == failed);
    MUST(!run.read_failed || run.output_size == 0);
    return failed;
}

int begins(const char *text)
{
    size_t size = strlen(text);
    return memcmp(run.output, text, least(size, run.output_size)) == 0 &&
           (run.output_size >= size || run.write_failed);
}

int is_printed(const char *text)
{
    return begins(text) && run.output_size <= strlen(text);
}

int is_refused(unsigned number)
{
    char text[16];
    snprintf(text, sizeof text, "refused,%u\n", number);
    return is_printed(text);
}

int decimal(const uint8_t *field, size_t size, uint64_t *value)
{
    if (size < 1 || size > 9 || (size > 1 && field[0] == '0'))
        return 0;
    *value = 0;
    for (size_t k = 0; k < size; k++) {
        if (field[k] < '0' || field[k] > '9')
            return 0;
        *value = 10 * *value + field[k] - '0';
    }
    return 1;
}

/* ---- For the mutators ---- */

static uint64_t state;

void set_state(unsigned seed)
{
    state = seed;
}

uint64_t below(uint64_t bound)
{
    state = state * 6364136223846793005u + 1442695040888963407u;
    return (state >> 33) % bound;
}

void put_manner(uint8_t *data)
{
    for (int k = 0; k < MANNER; k++)
        data[k] = (uint8_t)below(256);
    if (below(4) > 0) {
        data[0] &= 127;
        data[2] = 128;
    }
}

size_t damage(uint8_t *bytes, size_t size, size_t max_size, const uint8_t *choice, size_t choices)
{
    size_t at = below(size + 1), how = below(4);
    uint8_t byte = choice[below(choices)];
    if (how == 0 && size < max_size) {
        memmove(bytes + at + 1, bytes + at, size - at);
        bytes[at] = byte;
        return size + 1;
    }
    if (at < size && how == 1) {
        memmove(bytes + at, bytes + at + 1, size - at - 1);
        return size - 1;
    }
    if (at < size && how == 2)
        bytes[at] = byte;
    if (how == 3)
        for (size_t more = below(40); more > 0 && size < max_size; more--)
            bytes[size++] = byte;
    return size;
}
