/* night FILE TIMES: serves the night of FILE (its form stands in oracle/night.h), TIMES times over, by one call of flaxbadger_night; compiled with -DALONE,
 * by a call of a public function for each order, whose values go into the record. Writes the answers as 64-bit words as they stand in memory: number,
 * count, steps and the six of aside of each order, then the places of the output that are taken. See bench/night. */
#include "../oracle/night.h"

#ifdef ALONE
static uint64_t serve(struct night *n, uint64_t *mem, uint64_t *out) {
    size_t taken = 0;
    for (size_t k = 0; k < n->many; k++) {
        flaxbadger_order *o = &n->orders[k];
        struct told t = alone(o, mem, n->mem_len, out + taken, n->out_len - taken);
        o->number = t.number;
        o->count = t.count;
        o->steps = (uint32_t)t.steps;
        memcpy(o->aside, t.aside, sizeof t.aside);
        taken += t.count;
    }
    return 0;
}
#else
static uint64_t serve(struct night *n, uint64_t *mem, uint64_t *out) {
    return flaxbadger_night(n->orders, n->many, mem, n->mem_len, out, n->out_len);
}
#endif

static void write_words(const uint64_t *words, size_t many) {
    if (fwrite(words, sizeof *words, many, stdout) != many) exit(1);
}

static void write_answers(const struct night *n, const uint64_t *out) {
    size_t taken = 0;
    for (size_t k = 0; k < n->many; k++) {
        const flaxbadger_order *o = &n->orders[k];
        uint64_t words[] = {o->number, o->count, o->steps};
        write_words(words, sizeof words / sizeof *words);
        write_words(o->aside, FLAXBADGER_STARTS);
        taken += o->count;
    }
    write_words(out, taken);
}

int main(int argc, char **argv) {
    FILE *file = argc == 3 ? fopen(argv[1], "r") : NULL;
    if (file == NULL) {
        fprintf(stderr, "usage: night FILE TIMES\n");
        return 2;
    }
    struct night n = read_night(file);
    uint64_t *mem = room((n.mem_len + 1) * sizeof *mem), *out = room((n.out_len + 1) * sizeof *out);
    uint64_t number = 0;
    for (long left = atol(argv[2]); left > 0 && number == 0; left--) {
        number = serve(&n, mem, out);
    }
    if (number != 0) {
        fprintf(stderr, "refused %" PRIu64 "\n", number);
        return 1;
    }
    write_answers(&n, out);
    return fflush(stdout) == 0 ? 0 : 1;
}
