/* Asks flaxbadger_night about the night on standard input (its form stands in oracle/night.h), and each of its orders of the function for it alone, in
 * turn, on a copy of the memory and on a copy of the output behind the lists so far. Writes a line an order and one more. See oracle/nights.
 *
 *     ok BEGIN STEPS ASIDE0 .. ASIDE5 COUNT ID...
 *                                      an order's answer; or `refused NUMBER`
 *     end ORDERS REFUSED CELLS LEFT    LEFT: places of the output that are not taken
 *     refused 13                       in place of all these lines
 *
 * What else a call has to keep is looked at here, and behind a line stands what it did not. Of an order: `answer`, where its number, count, steps and aside
 * are not those of the single call, or an inner, a fast or a refused one has a total over 0; `order`, where a field that says what is asked is changed. Of
 * the night: `beside`, where a byte of the records before and behind the orders is changed; `memory` and `output`, where these, with their margins, are not
 * the copies after the single calls, or are changed where no call may change them. Of 13: `records`, `memory` and `output`, where any byte is changed. Memory
 * and output are filled with words that no answer has. */
#include "night.h"

enum { MARGIN = 64 };

/* What stands at a place of a buffer before a call: no cell, and not 0. */
static uint64_t before(size_t at) { return 0xe000000000000000 + at; }

/* A buffer of so many words, between its margins. */
static uint64_t *buffer(size_t words) {
    uint64_t *found = room((words + 2 * MARGIN) * sizeof *found);
    for (size_t at = 0; at < words + 2 * MARGIN; at++) found[at] = before(at);
    return found + MARGIN;
}

/* Whether a buffer and its margins are as they were, but for the first words. */
static int kept(const uint64_t *words, size_t many, size_t first) {
    for (size_t at = 0; at < many + 2 * MARGIN; at++) {
        if ((at < MARGIN || at >= MARGIN + first) && words[(ptrdiff_t)at - MARGIN] != before(at)) return 0;
    }
    return 1;
}

/* Whether two buffers and their margins are the same, and as they were but for the first words. */
static int same(const uint64_t *one, const uint64_t *other, size_t many, size_t first) {
    return memcmp(one - MARGIN, other - MARGIN, (many + 2 * MARGIN) * sizeof *one) == 0 && kept(one, many, first);
}

#define SAME(field) (memcmp(&a->field, &b->field, sizeof a->field) == 0)

static int same_asked(const flaxbadger_order *a, const flaxbadger_order *b) {
    return SAME(fast) && SAME(inner) && SAME(cell) && SAME(id) && SAME(cap) && SAME(coverer) && SAME(allowance);
}

static int same_answer(const flaxbadger_order *o, struct told t) {
    static const uint64_t none[FLAXBADGER_STARTS];
    if ((o->fast || o->inner || o->number != 0) && memcmp(o->aside, none, sizeof none) != 0) return 0;
    return o->number == t.number && o->count == t.count && o->steps == t.steps && memcmp(o->aside, t.aside, sizeof t.aside) == 0;
}

/* Writes an order's answer; of its ids no more than there are. */
static void tell(const flaxbadger_order *o, size_t begin, const uint64_t *out, size_t left) {
    if (o->number != 0) {
        printf("refused %" PRIu64, o->number);
        return;
    }
    printf("ok %zu %" PRIu32, begin, o->steps);
    for (size_t at = 0; at < FLAXBADGER_STARTS; at++) printf(" %" PRIu64, o->aside[at]);
    printf(" %zu", o->count);
    for (size_t at = 0; at < o->count && at < left; at++) printf(" %016" PRIx64, out[begin + at]);
}

static void word(int is_right, const char *wrong) {
    if (!is_right) printf(" %s", wrong);
}

/* After a call that was refused as a whole. */
static void tell_refused(uint64_t number, const struct night *n, const struct night *asked, const uint64_t *mem, const uint64_t *out) {
    printf("refused %" PRIu64, number);
    word(memcmp(n->orders - 1, asked->orders - 1, whole(n)) == 0, "records");
    word(kept(mem, n->mem_len, 0), "memory");
    word(kept(out, n->out_len, 0), "output");
    printf("\n");
}

/* After a call that answered the orders. */
static void tell_answers(const struct night *n, const struct night *asked, const uint64_t *mem, const uint64_t *out) {
    uint64_t *own_mem = buffer(n->mem_len), *own_out = buffer(n->out_len);
    size_t taken = 0, refused = 0;
    for (size_t k = 0; k < n->many; k++) {
        const flaxbadger_order *o = &n->orders[k];
        struct told t = alone(&asked->orders[k], own_mem, n->mem_len, own_out + taken, n->out_len - taken);
        tell(o, taken, out, n->out_len - taken);
        word(same_answer(o, t), "answer");
        word(same_asked(o, &asked->orders[k]), "order");
        printf("\n");
        taken += t.count;
        refused += o->number != 0;
    }
    printf("end %zu %zu %zu %zu", n->many, refused, taken, n->out_len - taken);
    word(memcmp(n->orders - 1, asked->orders - 1, sizeof *n->orders) == 0 && memcmp(n->orders + n->many, asked->orders + n->many, sizeof *n->orders) == 0, "beside");
    word(same(mem, own_mem, n->mem_len, n->mem_len < FLAXBADGER_MEMORY ? 0 : FLAXBADGER_MEMORY), "memory");
    word(same(out, own_out, n->out_len, taken), "output");
    printf("\n");
}

int main(void) {
    struct night n = read_night(stdin), asked = n;
    asked.orders = (flaxbadger_order *)room(whole(&n)) + 1;
    memcpy(asked.orders - 1, n.orders - 1, whole(&n));
    uint64_t *mem = buffer(n.mem_len), *out = buffer(n.out_len);
    uint64_t number = flaxbadger_night(n.orders, n.many, mem, n.mem_len, out, n.out_len);
    if (number != 0) tell_refused(number, &n, &asked, mem, out);
    else tell_answers(&n, &asked, mem, out);
    return fflush(stdout) == 0 ? 0 : 1;
}
