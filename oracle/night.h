/* A night as oracle/nights.c and bench/night.c read it, and an order of it asked alone, of the public function that it names.
 *
 *     night OUT MEM COUNT
 *     FAST INNER CELL ID X Y Z RADIUS MIN MAX MOD MAX_CELLS EDITION ALLOWANCE
 *
 * The first line has the places of the output, the words of memory and the number of orders. Then comes a line an order: three truths, 0 or 1; an id and
 * four floats, 16 hexadecimal digits each; six decimal numbers. oracle/nights writes them. */
#include "flaxbadger.h"

#include <inttypes.h>
#include <stdio.h>
#include <stdlib.h>
#include <string.h>

struct night {
    size_t out_len, mem_len, many;
    flaxbadger_order *orders; /* one more lies before them and one behind, which no call may look at */
};

struct told {
    uint64_t number, count, steps, aside[FLAXBADGER_STARTS];
};

static void *room(size_t bytes) {
    void *found = malloc(bytes);
    if (found == NULL) {
        fprintf(stderr, "no room for %zu bytes\n", bytes);
        exit(1);
    }
    return found;
}

/* The bytes of a night's records, and of the two beside them. */
static size_t whole(const struct night *n) { return (n->many + 2) * sizeof *n->orders; }

static int read_order(FILE *from, flaxbadger_order *o) {
    unsigned fast, inner, cell;
    uint64_t cap[4];
    flaxbadger_coverer *c = &o->coverer;
    if (fscanf(from, "%u %u %u %" SCNx64 " %" SCNx64 " %" SCNx64 " %" SCNx64 " %" SCNx64, &fast, &inner, &cell, &o->id, &cap[0], &cap[1], &cap[2], &cap[3]) != 8) {
        return 0;
    }
    o->fast = fast != 0;
    o->inner = inner != 0;
    o->cell = cell != 0;
    memcpy(&o->cap, cap, sizeof o->cap);
    return fscanf(from, "%" SCNu64 " %" SCNu64 " %" SCNu64 " %" SCNu64 " %" SCNu64 " %" SCNu32, &c->min_level, &c->max_level, &c->level_mod, &c->max_cells, &c->edition,
                  &o->allowance) == 6;
}

/* What an order asks is read; every other byte of the records, those of the answers too, is one that no answer has. */
static struct night read_night(FILE *from) {
    struct night n;
    if (fscanf(from, "night %zu %zu %zu", &n.out_len, &n.mem_len, &n.many) != 3) {
        fprintf(stderr, "no night\n");
        exit(1);
    }
    n.orders = (flaxbadger_order *)room(whole(&n)) + 1;
    memset(n.orders - 1, 0xe5, whole(&n));
    for (size_t k = 0; k < n.many; k++) {
        if (!read_order(from, &n.orders[k])) {
            fprintf(stderr, "order %zu can't be taken\n", k + 1);
            exit(1);
        }
    }
    return n;
}

#define LEVELS o->coverer.min_level, o->coverer.max_level, o->coverer.level_mod, o->coverer.max_cells
#define CAP o->cap.center.x, o->cap.center.y, o->cap.center.z, o->cap.radius
#define BUFFERS mem, mem_len, out, out_len, &t.count, &t.steps, t.aside
#define RUN(kind, region) \
    (edition == 1 ? flaxbadger_##kind(region, LEVELS, o->allowance, BUFFERS) \
                  : flaxbadger_##kind##_by(FLAXBADGER_QUICK, region, LEVELS, edition, o->allowance, BUFFERS, &agree))

/* Functions for quick coverings take no edition: an order for one, in an edition that there is not, is asked of a run's function, which refuses it before any run. */
static inline struct told alone(const flaxbadger_order *o, uint64_t *mem, size_t mem_len, uint64_t *out, size_t out_len) {
    struct told t;
    uint64_t agree, edition = o->coverer.edition;
    bool fast = o->fast && (edition == 1 || edition == 2);
    memset(&t, 0xff, sizeof t);
    if (fast && o->cell) t.number = flaxbadger_fast_covering_cell(o->id, LEVELS, BUFFERS);
    else if (fast) t.number = flaxbadger_fast_covering_cap(CAP, LEVELS, BUFFERS);
    else if (o->inner && o->cell) t.number = RUN(interior_covering_cell, o->id);
    else if (o->inner) t.number = RUN(interior_covering_cap, CAP);
    else if (o->cell) t.number = RUN(covering_cell, o->id);
    else t.number = RUN(covering_cap, CAP);
    return t;
}
