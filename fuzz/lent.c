/* See lent.h. */

#define _GNU_SOURCE
#include <stdlib.h>
#include <string.h>
#include <sys/mman.h>

#include "lent.h"
#include "must.h"

uint64_t take(struct input *in, int bytes)
{
    uint64_t value = 0;
    for (int k = 0; k < bytes; k++) {
        value = value << 8 | (in->left > 0 ? *in->at : 0);
        if (in->left > 0) {
            in->at++;
            in->left--;
        }
    }
    return value;
}

uint64_t take_near(struct input *in, uint64_t centre)
{
    uint64_t how = take(in, 1);
    if (how == 0)
        return take(in, 8);
    if (how < 64)
        return take(in, 3);
    return centre + how - 160;
}

size_t take_size(struct input *in, int near, size_t exact)
{
    return near ? exact + take(in, 1) - 128 : exact;
}

uint64_t take_wire(struct input *in, uint64_t wires)
{
    uint64_t number = take(in, 4);
    switch (number >> 30) {
    case 1:
        return number % 257;
    case 2:
        return wires - 1 - number % 8;
    }
    return number % wires;
}

uint64_t take_entry(struct input *in)
{
    uint64_t how = take(in, 1), near = take(in, 1) % 4;
    if (how < 80)
        return near;
    if (how < 96)
        return P / 2 - 1 + near;
    if (how < 160)
        return P - 2 + near;
    if (how < 168)
        return near - 4;
    if (how < 176)
        return (2 + how % 7) * P + near - 1;
    uint64_t any = take(in, 8);
    return how < 248 ? any % P : any;
}

uint8_t *room(void)
{
    uint8_t *all = mmap(NULL, ROOM + 2 * PAGE, PROT_NONE, MAP_PRIVATE | MAP_ANONYMOUS, -1, 0);
    if (all == MAP_FAILED || mprotect(all + PAGE, ROOM, PROT_READ | PROT_WRITE) != 0)
        abort();
    return all + PAGE;
}

uint8_t *slice(uint8_t *room, size_t length, uint64_t how)
{
    if (length == 0 && how % 4 == 0)
        return NULL;
    return how % 2 == 0 ? room + ROOM - length : room;
}

void fill(uint8_t *bytes, size_t length)
{
    if (length > 0)
        memset(bytes, 0xa5, length);
}

int filled(const uint8_t *bytes, size_t length)
{
    for (size_t k = 0; k < length; k++)
        if (bytes[k] != 0xa5)
            return 0;
    return 1;
}

uint64_t entry(const uint8_t *assignment, size_t wire)
{
    uint64_t value;
    memcpy(&value, assignment + 8 * wire, 8);
    return value;
}

uint64_t not_below(const uint8_t *assignment, uint64_t wires)
{
    for (uint64_t wire = 0; wire < wires; wire++)
        if (entry(assignment, wire) >= P)
            return 20 | wire << 8;
    return 0;
}

uint64_t bit(const uint8_t *bytes, size_t number)
{
    return bytes[number / 8] >> (7 - number % 8) & 1;
}

struct term term(const uint8_t *at)
{
    struct term term;
    memcpy(&term.wire, at, 4);
    memcpy(&term.coefficient, at + 4, 8);
    return term;
}

const uint8_t *terms(const uint8_t *at, unsigned count, uint64_t wires)
{
    int64_t before = -1, most = P / 2;
    for (unsigned k = 0; k < count; k++, at += 12) {
        struct term here = term(at);
        MUST(here.wire > before && here.wire < wires);
        MUST(here.coefficient != 0 && here.coefficient >= -most && here.coefficient <= most);
        before = here.wire;
    }
    return at;
}
