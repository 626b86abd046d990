/* ours FILE TIMES: answers the request lines of FILE, TIMES times over, by the functions of include/flaxbadger.h; the last time it writes
 * the answers as `cover` does. Takes `covering` and `interior`, without options. See bench/run. */
#include <inttypes.h>
#include <stdio.h>
#include <stdlib.h>
#include <string.h>

#include "flaxbadger.h"

#ifndef FLAXBADGER_STARTS
#define FLAXBADGER_STARTS 1 /* a header from before there were totals by start cell: one total */
#endif
#define PLACES 65536
#define ALLOWANCE UINT32_MAX

struct request {
    int inner, cap;
    uint64_t min, max, mod, cells, id;
    double x, y, z, radius;
};

static uint64_t mem[FLAXBADGER_MEMORY];
static uint64_t out[PLACES];

static double real(const char *digits) {
    uint64_t bits = strtoull(digits, NULL, 16);
    double value;
    memcpy(&value, &bits, sizeof value);
    return value;
}

static int read_line(const char *line, struct request *r) {
    char kind[9], x[17], y[17], z[17], radius[17];
    int start = 0;
    if (sscanf(line, "%8s %" SCNu64 " %" SCNu64 " %" SCNu64 " %" SCNu64 " %n", kind, &r->min, &r->max, &r->mod, &r->cells, &start) != 5) {
        return 0;
    }
    r->inner = strcmp(kind, "interior") == 0;
    r->cap = sscanf(line + start, "cap %16s %16s %16s %16s", x, y, z, radius) == 4;
    if (r->cap) {
        r->x = real(x);
        r->y = real(y);
        r->z = real(z);
        r->radius = real(radius);
    }
    return (r->inner || strcmp(kind, "covering") == 0) && (r->cap || sscanf(line + start, "cell %" SCNx64, &r->id) == 1);
}

static uint64_t answer(const struct request *r, uint64_t *count, uint64_t *steps, uint64_t *aside) {
    if (r->cap) {
        return (r->inner ? flaxbadger_interior_covering_cap : flaxbadger_covering_cap)(
            r->x, r->y, r->z, r->radius, r->min, r->max, r->mod, r->cells, ALLOWANCE, mem, FLAXBADGER_MEMORY, out, PLACES, count, steps, aside);
    }
    return (r->inner ? flaxbadger_interior_covering_cell : flaxbadger_covering_cell)(
        r->id, r->min, r->max, r->mod, r->cells, ALLOWANCE, mem, FLAXBADGER_MEMORY, out, PLACES, count, steps, aside);
}

static void write_answer(uint64_t number, uint64_t count, uint64_t steps, const uint64_t *aside) {
    if (number != 0) {
        printf("refused %" PRIu64 "\n", number);
        return;
    }
    printf("ok %" PRIu64, steps);
    for (int i = 0; i < FLAXBADGER_STARTS; i++) {
        printf(" %" PRIu64, aside[i]);
    }
    printf(" %" PRIu64, count);
    for (uint64_t i = 0; i < count; i++) {
        printf(" %016" PRIx64, out[i]);
    }
    printf("\n");
}

int main(int argc, char **argv) {
    char line[256];
    struct request *requests = NULL;
    size_t many = 0, room = 0;
    FILE *file = argc == 3 ? fopen(argv[1], "r") : NULL;
    if (file == NULL) {
        fprintf(stderr, "usage: ours FILE TIMES\n");
        return 2;
    }
    while (fgets(line, sizeof line, file) != NULL) {
        if (many == room) {
            room = 2 * room + 64;
            requests = realloc(requests, room * sizeof *requests);
        }
        if (requests == NULL || !read_line(line, &requests[many++])) {
            fprintf(stderr, "ours: line %zu can't be taken\n", many);
            return 1;
        }
    }
    for (long left = atol(argv[2]); left > 0; left--) {
        for (size_t i = 0; i < many; i++) {
            uint64_t count, steps, aside[FLAXBADGER_STARTS], number = answer(&requests[i], &count, &steps, aside);
            if (left == 1) {
                write_answer(number, count, steps, aside);
            }
        }
    }
    return 0;
}
