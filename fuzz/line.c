/* libFuzzer harness for the line that the programs `rows` and `steps` read, and for the shape of what they print.
 *
 * A run is as program.h has it; the manner's first byte says which program runs too. What comes out is held against
 * document 01 (refusals 1 to 3, "What `rows` prints") and docs/STEPS.md for the lines of `steps`. Which terms a row has
 * is the judge's business. */

#include <string.h>

#include "program.h"

int rows_main(void), steps_main(void);

enum { ROWS, STEPS, PROGRAMS };
static int (*const programs[PROGRAMS])(void) = {rows_main, steps_main};
static const char *const headers[PROGRAMS] = {"row,part,wire,coefficient\n", "row,block,step,index,bit,form\n"};

/* ---- Document 01 on the line, its length in bits by document 02, request 2 ---- */

enum { MOST_BITS = 8127 }; /* those of sixteen blocks, the programs' limit */

static uint64_t block_count(uint64_t bits)
{
    return (bits + 64) / 512 + 1;
}

static uint64_t row_count(uint64_t bits)
{
    return 512 + 32320 * block_count(bits);
}

/* Three fields parted by commas, ended by one line feed and nothing after. */
static int numbers(const uint8_t *bytes, size_t size, uint64_t values[3])
{
    size_t field = 0, begin = 0;
    for (size_t at = 0; at < size; at++) {
        if (bytes[at] != ',' && bytes[at] != '\n')
            continue;
        if (bytes[at] != (field < 2 ? ',' : '\n') || !decimal(bytes + begin, at - begin, &values[field]))
            return 0;
        begin = at + 1;
        if (++field == 3)
            return begin == size;
    }
    return 0;
}

static unsigned refusal(const uint8_t *bytes, size_t size, uint64_t values[3])
{
    if (!numbers(bytes, size, values))
        return 1;
    if (values[0] > MOST_BITS)
        return 2;
    return values[1] + values[2] > row_count(values[0]) ? 3 : 0;
}

/* ---- What is printed ---- */

/* Whether a field is a decimal number below a bound, without leading zeros. */
static int printed(const char *field, uint64_t bound, uint64_t *value)
{
    size_t digits = strspn(field, "0123456789");
    *value = strtoull(field, NULL, 10);
    return digits > 0 && digits < 20 && field[digits] == 0 && (digits == 1 || field[0] != '0') && *value < bound;
}

/* Parts one printed line at its commas, in place; true when there are that many fields. */
static int part(char *at, char **fields, int count)
{
    fields[0] = at;
    for (int k = 1; k < count; k++) {
        at = strchr(at, ',');
        if (at == NULL)
            return 0;
        *at++ = 0;
        fields[k] = at;
    }
    return strchr(at, ',') == NULL;
}

/* Whether a field is a coefficient: not 0, between -(p - 1) / 2 and (p - 1) / 2, a negative one with a leading `-`. */
static int printed_signed(const char *field)
{
    uint64_t size;
    return printed(field + (field[0] == '-'), (uint64_t)1 << 60, &size) && size > 0;
}

/* A term: parts A to C, wires that rise in a part, a coefficient. The line before it is of the row `before`; answers the
 * row of this one. */
static uint64_t term(char *text, uint64_t bits, uint64_t before)
{
    static char sum;
    static uint64_t last;
    char *fields[4];
    uint64_t row, wire;
    MUST(part(text, fields, 4) && printed(fields[0], UINT64_MAX, &row));
    MUST(strlen(fields[1]) == 1 && fields[1][0] >= 'A' && fields[1][0] <= 'C');
    MUST(printed(fields[2], 513 + 22528 * block_count(bits), &wire));
    MUST(printed_signed(fields[3]));
    if (row != before)
        MUST(fields[1][0] == 'A');
    else
        MUST(fields[1][0] == sum ? wire > last : fields[1][0] == sum + 1);
    sum = fields[1][0];
    last = wire;
    return row;
}

/* A step: a row number, then the fields of docs/STEPS.md. */
static uint64_t step(char *text, uint64_t bits)
{
    static const char steps[] = ",start,message,q,p1,w,wprime,u,ss2,ff,gg,tt1,tt2,p0,result,digest,";
    static const char forms[] = ",fixed,bit,xor of two,xor of three,majority,choice,sum,equal,";
    char *fields[6], name[32];
    uint64_t row, ignored;
    MUST(part(text, fields, 6) && printed(fields[0], UINT64_MAX, &row));
    MUST(fields[1][0] == 0 || printed(fields[1], block_count(bits), &ignored));
    snprintf(name, sizeof name, ",%s,", fields[2]);
    MUST(strstr(steps, name) != NULL);
    MUST(printed(fields[3], 68, &ignored) && (fields[4][0] == 0 || printed(fields[4], 34, &ignored)));
    snprintf(name, sizeof name, ",%s,", fields[5]);
    MUST(strstr(forms, name) != NULL);
    return row;
}

/* The lines after the header: every row asked for, in order; where a write failed, as far as it came. */
static void listing(int program, char *at, const uint64_t values[3])
{
    uint64_t next = values[1], end = values[1] + values[2];
    for (char *feed; (feed = memchr(at, '\n', (size_t)(run.output + run.output_size - at))) != NULL; at = feed + 1) {
        *feed = 0;
        MUST(strlen(at) == (size_t)(feed - at));
        uint64_t row = program == ROWS ? term(at, values[0], next - 1) : step(at, values[0]);
        MUST(row == next || (program == ROWS && row + 1 == next && next > values[1]));
        next = row + 1;
        MUST(next <= end);
    }
    MUST(run.write_failed || (next == end && at == run.output + run.output_size));
}

/* ---- One run ---- */

static unsigned long seen[PROGRAMS][5]; /* runs by refusal (0 for none), and last those with a failing call */

static void report(void)
{
    for (int program = 0; program < PROGRAMS; program++)
        fprintf(stderr, "line: %s: %lu listed, refused by 1: %lu, by 2: %lu, by 3: %lu, a read or write failed: %lu\n",
                program == ROWS ? "rows" : "steps", seen[program][0], seen[program][1], seen[program][2],
                seen[program][3], seen[program][4]);
}

static void judge(int program)
{
    uint64_t values[3];
    unsigned number = refusal(run.input, run.input_size, values);
    seen[program][call_failed() ? 4 : number]++;
    if (run.read_failed)
        return;
    if (number > 0) {
        MUST(is_refused(number));
        return;
    }
    size_t size = strlen(headers[program]);
    MUST(begins(headers[program]));
    if (run.output_size >= size)
        listing(program, run.output + size, values);
}

int LLVMFuzzerInitialize(int *argc, char ***argv)
{
    (void)argc;
    (void)argv;
    return atexit(report);
}

int LLVMFuzzerTestOneInput(const uint8_t *data, size_t size)
{
    if (size < MANNER)
        return 0;
    int program = data[0] % PROGRAMS;
    run_program(programs[program], data, size);
    judge(program);
    return 0;
}

/* ---- Lines that are right or nearly so ---- */

/* A number that matters to some field, one beside the centre, or any up to it. */
static uint64_t number_near(uint64_t centre)
{
    static const uint64_t known[] = {0,    1,    7,    8,     447,   448,    959,      960,       8120,
                                     8127, 8128, 8129, 32832, 32833, 517632, 99999999, 100000000, 999999999,
                                     /* too long: */ 1000000000, UINT32_MAX, (uint64_t)1 << 32, UINT64_MAX};
    uint64_t how = below(16);
    if (how < 3)
        return known[below(sizeof known / sizeof *known)];
    return how < 8 ? centre + below(5) - (centre < 2 ? 0 : 2) : below(centre + 1);
}

/* Bits, a first row and how many, as text. Mostly few rows, since many take long. */
static size_t right_line(char *text, size_t text_size)
{
    uint64_t numbers[3] = {number_near(MOST_BITS)}, rows = row_count(numbers[0] % (MOST_BITS + 1));
    numbers[1] = number_near(rows);
    numbers[2] = below(8) > 0 ? below(40) : number_near(numbers[1] < rows ? rows - numbers[1] : 0);
    size_t size = 0;
    for (int k = 0; k < 3; k++)
        size += (size_t)snprintf(text + size, text_size - size, "%s%llu%c", below(64) == 0 ? "0" : "",
                                 (unsigned long long)numbers[k], k < 2 ? ',' : '\n');
    return size;
}

size_t LLVMFuzzerCustomMutator(uint8_t *data, size_t size, size_t max_size, unsigned seed)
{
    static const uint8_t choice[] = "0123456789009,,\n\n\r +-./:x\xff"; /* and NUL */
    set_state(seed);
    if (below(8) == 0 || max_size < MANNER + 80)
        return LLVMFuzzerMutate(data, size, max_size);
    if (size < MANNER || below(4) > 0) {
        char text[80];
        size = right_line(text, sizeof text);
        memcpy(data + MANNER, text, size);
        put_manner(data);
        size += MANNER;
    }
    for (uint64_t more = below(3); more > 0; more--)
        size = MANNER + damage(data + MANNER, size - MANNER, max_size - MANNER, choice, sizeof choice);
    return size;
}
