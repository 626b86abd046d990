/* Coverings from C: a cap that is covered, by both engines too, a cell and a list as regions, a run in both editions, a list as leaf ranges and back,
 * two lists as one, a list as tokens and back, a night's orders in one call, and eleven refusals. Writes what comes back; exits with 1 where it is not
 * what papers 01 and 02 say. Doesn't compile where the record of an order is not laid out as the header says. */
#include <inttypes.h>
#include <stdio.h>
#include <string.h>

#include "flaxbadger.h"

/* An array of -1 places doesn't compile. */
#define AT(field, byte) typedef char at_##field[offsetof(flaxbadger_order, field) == (byte) ? 1 : -1]
AT(number, 0);
AT(count, 8);
AT(steps, 16);
AT(aside, 24);
AT(fast, 72);
AT(inner, 73);
AT(cell, 74);
AT(id, 80);
AT(cap, 88);
AT(coverer, 120);
AT(allowance, 160);
typedef char an_order_has_168_bytes[sizeof(flaxbadger_order) == 168 ? 1 : -1];

static uint64_t mem[FLAXBADGER_MEMORY];
static uint64_t out[64];
static flaxbadger_order orders[FLAXBADGER_ORDERS + 1], as_before[FLAXBADGER_ORDERS + 1];

/* The leaves set aside under all start cells together. */
static uint64_t sum(const uint64_t aside[FLAXBADGER_STARTS]) {
    uint64_t found = 0;
    for (int place = 0; place < FLAXBADGER_STARTS; place++) {
        found += aside[place];
    }
    return found;
}

static int show(const char *name, uint64_t number, uint64_t count, uint64_t steps, const uint64_t aside[FLAXBADGER_STARTS]) {
    printf("%s: number %" PRIu64 ", %" PRIu64 " cells, %" PRIu64 " steps, %" PRIu64 " leaves set aside\n", name, number, count, steps, sum(aside));
    for (uint64_t i = 0; i < count && i < 4; i++) {
        printf("  %016" PRIx64 "\n", out[i]);
    }
    if (count > 4) {
        printf("  ..\n");
    }
    return number == 0;
}

int main(void) {
    uint64_t count, steps, aside[FLAXBADGER_STARTS], number;
    int ok = 1;

    /* The whole sphere at level 1: 24 cells, 6 steps. */
    number = flaxbadger_covering_cap(1, 0, 0, 4, 1, 30, 1, 8, 1000, mem, FLAXBADGER_MEMORY, out, 64, &count, &steps, aside);
    ok &= show("the whole sphere", number, count, steps, aside) && count == 24 && steps == 6 && sum(aside) == 0;

    /* The same with an allowance of 5 steps: refused with 9, and nothing written. */
    memset(out, 0xff, sizeof out);
    number = flaxbadger_covering_cap(1, 0, 0, 4, 1, 30, 1, 8, 5, mem, FLAXBADGER_MEMORY, out, 64, &count, &steps, aside);
    show("with 5 steps", number, count, steps, aside);
    ok &= number == 9 && count == 0 && steps == 0 && sum(aside) == 0 && out[0] == UINT64_MAX;

    /* Face 0 as a region. The run starts from all six faces, and sets aside all 4^30 leaves of each but the first. */
    number = flaxbadger_covering_cell(UINT64_C(0x1000000000000000), 0, 30, 1, 8, 1000, mem, FLAXBADGER_MEMORY, out, 64, &count, &steps, aside);
    ok &= show("face 0", number, count, steps, aside) && count == 1 && out[0] == UINT64_C(0x1000000000000000) && aside[0] == 0;
    for (int place = 1; place < FLAXBADGER_STARTS; place++) {
        printf("  under start cell %d: %" PRIu64 "\n", place, aside[place]);
        ok &= aside[place] == UINT64_C(1) << 60;
    }

    /* A small cap, and the self-test of the machine on it: both engines agree, and their answer is the one before. Then the cells inside it. */
    number = flaxbadger_covering_cap(0, 0, 1, 1e-6, 0, 30, 1, 8, 1000, mem, FLAXBADGER_MEMORY, out, 64, &count, &steps, aside);
    ok &= show("a cap at the pole", number, count, steps, aside);
    uint64_t tested[64], tested_count, tested_steps, tested_aside[FLAXBADGER_STARTS], agree;
    number = flaxbadger_covering_cap_by(FLAXBADGER_BOTH, 0, 0, 1, 1e-6, 0, 30, 1, 8, 1, 1000, mem, FLAXBADGER_MEMORY, tested, 64, &tested_count,
                                        &tested_steps, tested_aside, &agree);
    printf("by both engines: number %" PRIu64 ", %" PRIu64 " cells, the engines %s\n", number, tested_count, agree == 1 ? "agree" : "DO NOT agree");
    ok &= agree == 1 && number == 0 && tested_count == count && tested_steps == steps && memcmp(tested_aside, aside, sizeof aside) == 0;
    ok &= memcmp(tested, out, count * sizeof *out) == 0;
    number = flaxbadger_interior_covering_cap(0, 0, 1, 1e-6, 0, 30, 1, 8, 1000, mem, FLAXBADGER_MEMORY, out, 64, &count, &steps, aside);
    ok &= show("inside it", number, count, steps, aside) && sum(aside) == 0;
    number = flaxbadger_fast_covering_cap(0, 0, 1, 1e-6, 0, 30, 1, 8, mem, FLAXBADGER_MEMORY, out, 64, &count, &steps, aside);
    ok &= show("quickly", number, count, steps, aside) && steps == 0 && sum(aside) == 0;

    /* A working memory that is too short: refused with 6. */
    number = flaxbadger_raw_cap(0, 0, 1, 1e-6, 0, 30, 1, 8, 1000, mem, FLAXBADGER_MEMORY - 1, out, 64, &count, &steps, aside);
    show("too little memory", number, count, steps, aside);
    ok &= number == 6 && sum(aside) == 0;

    /* Six faces as leaf ranges: one pair, from the first leaf to the last; and back. An output of one word is too short. */
    uint64_t faces[6], pair[2];
    for (int i = 0; i < 6; i++) {
        faces[i] = ((uint64_t)i << 61) + (UINT64_C(1) << 60);
    }
    number = flaxbadger_ranges(faces, 6, pair, 1, &count);
    ok &= number == 26 && count == 0;
    number = flaxbadger_ranges(faces, 6, pair, 2, &count);
    printf("six faces: number %" PRIu64 ", %" PRIu64 " words, %016" PRIx64 " to %016" PRIx64 "\n", number, count, pair[0], pair[1]);
    ok &= number == 0 && count == 2 && pair[0] == 1 && pair[1] == UINT64_C(0xbfffffffffffffff);
    number = flaxbadger_cells(pair, 2, out, 64, &count);
    printf("and back: number %" PRIu64 ", %" PRIu64 " cells\n", number, count);
    ok &= number == 0 && count == 6 && memcmp(out, faces, sizeof faces) == 0;

    /* Two customers' lists: the first three quarters of face 0, and its last three. Together they are the face; what they share is copied
     * once instead of twice. */
    const uint64_t quarters[4] = {UINT64_C(0x0400000000000000), UINT64_C(0x0c00000000000000), UINT64_C(0x1400000000000000), UINT64_C(0x1c00000000000000)};
    const uint64_t *first = quarters, *second = quarters + 1;
    number = flaxbadger_union(first, 3, second, 3, out, 64, &count);
    printf("two lists as one: number %" PRIu64 ", %" PRIu64 " cells, %016" PRIx64 "\n", number, count, out[0]);
    ok &= number == 0 && count == 1 && out[0] == faces[0];
    number = flaxbadger_common(first, 3, second, 3, out, 64, &count);
    printf("shared: number %" PRIu64 ", %" PRIu64 " cells, %016" PRIx64 " and %016" PRIx64 "\n", number, count, out[0], out[1]);
    ok &= number == 0 && count == 2 && out[0] == quarters[1] && out[1] == quarters[2];

    /* The first list as a region: its three cells cover it, and lie inside it. Where one cell is aimed at, it is the face; of levels from 1 on, the
     * three again, and the face's last quarter, 4^29 leaves, is set aside. A list that descends is refused with 5. */
    number = flaxbadger_covering_list(first, 3, 0, 30, 1, 8, 1000, mem, FLAXBADGER_MEMORY, out, 64, &count, &steps, aside);
    ok &= show("three quarters", number, count, steps, aside) && count == 3 && memcmp(out, first, 3 * sizeof *out) == 0 && steps == 0 && sum(aside) == 0;
    number = flaxbadger_interior_covering_list(first, 3, 0, 30, 1, 8, 1000, mem, FLAXBADGER_MEMORY, out, 64, &count, &steps, aside);
    ok &= number == 0 && count == 3 && memcmp(out, first, 3 * sizeof *out) == 0;
    number = flaxbadger_covering_list(first, 3, 0, 30, 1, 1, 1000, mem, FLAXBADGER_MEMORY, out, 64, &count, &steps, aside);
    ok &= show("as one cell", number, count, steps, aside) && count == 1 && out[0] == faces[0] && steps == 1 && sum(aside) == 0;
    number = flaxbadger_covering_list(first, 3, 1, 30, 1, 1, 1000, mem, FLAXBADGER_MEMORY, out, 64, &count, &steps, aside);
    ok &= show("from level 1 on", number, count, steps, aside) && count == 3 && memcmp(out, first, 3 * sizeof *out) == 0 && steps == 1;
    ok &= aside[0] == UINT64_C(1) << 58 && sum(aside) == aside[0];
    const uint64_t descending[2] = {quarters[1], quarters[0]};
    number = flaxbadger_covering_list(descending, 2, 0, 30, 1, 8, 1000, mem, FLAXBADGER_MEMORY, out, 64, &count, &steps, aside);
    show("descending", number, count, steps, aside);
    ok &= number == 5 && count == 0 && steps == 0 && sum(aside) == 0;

    /* No id at all is a region, whose answer has none; one id too many is none. */
    static uint64_t many[FLAXBADGER_LIST_MOST + 1];
    for (uint64_t i = 0; i < FLAXBADGER_LIST_MOST + 1; i++) {
        many[i] = 2 * i + 1;
    }
    number = flaxbadger_covering_list(many, 0, 0, 30, 1, 8, 1000, mem, FLAXBADGER_MEMORY, out, 64, &count, &steps, aside);
    ok &= show("an empty list", number, count, steps, aside) && count == 0 && steps == 0 && sum(aside) == 0;
    number = flaxbadger_covering_list(many, FLAXBADGER_LIST_MOST + 1, 0, 30, 1, 8, 1000, mem, FLAXBADGER_MEMORY, out, 64, &count, &steps, aside);
    show("one id too many", number, count, steps, aside);
    ok &= number == 5 && count == 0;

    /* A run in both editions: edition 1 takes the cell of the smaller id where edition 2 takes the larger cell, so that the same five cells are kept in
     * another order. There is no edition 3: refused with 14. */
    const uint64_t ground[5] = {UINT64_C(0x0010000000000000), UINT64_C(0x0030000000000000), UINT64_C(0x0050000000000000), UINT64_C(0x0070000000000000),
                                UINT64_C(0x0c00000000000000)};
    const uint64_t kept[5] = {UINT64_C(0x0040000000000000), UINT64_C(0x0900000000000000), UINT64_C(0x0b00000000000000), UINT64_C(0x0d00000000000000),
                              UINT64_C(0x0f00000000000000)};
    for (uint64_t edition = 1; edition <= 3; edition++) {
        number = flaxbadger_raw_list_by(FLAXBADGER_BOTH, ground, 5, 2, 30, 1, 1, edition, 1000, mem, FLAXBADGER_MEMORY, out, 64, &count, &steps, aside,
                                        &agree);
        printf("edition %" PRIu64 ": number %" PRIu64 ", %" PRIu64 " cells", edition, number, count);
        for (uint64_t i = 0; i < count && i < 5; i++) {
            printf("%s %016" PRIx64, i == 0 ? "," : "", out[i]);
            ok &= out[i] == kept[edition == 1 ? i : (i + 1) % 5];
        }
        puts("");
        ok &= agree == 1 && number == (edition <= 2 ? 0 : 14) && count == (edition <= 2 ? 5 : 0);
    }

    /* The first list as tokens, which survey crews type, a line each; and back. A text of eight bytes is too short; a capital is refused, with the
     * number of its line. */
    const char typed[] = "04\n0c\n14\n";
    uint8_t text[9];
    uint64_t line;
    number = flaxbadger_write_tokens(first, 3, text, 8, &count, &line);
    ok &= number == 12 && count == 0 && line == 0;
    number = flaxbadger_write_tokens(first, 3, text, 9, &count, &line);
    printf("as tokens: number %" PRIu64 ", %" PRIu64 " bytes\n%.*s", number, count, (int)count, (const char *)text);
    ok &= number == 0 && count == 9 && memcmp(text, typed, 9) == 0;
    number = flaxbadger_read_tokens(text, 9, out, 64, &count, &line);
    printf("and back: number %" PRIu64 ", %" PRIu64 " cells\n", number, count);
    ok &= number == 0 && count == 3 && memcmp(out, first, 3 * sizeof *out) == 0;
    text[4] = 'C';
    number = flaxbadger_read_tokens(text, 9, out, 64, &count, &line);
    printf("with a capital: number %" PRIu64 ", line %" PRIu64 "\n", number, line);
    ok &= number == 11 && count == 0 && line == 2;

    /* Five orders of a night: around a cap at the pole, and, in edition 2, inside it; the whole sphere, with fewer steps than it takes; face 0, quickly;
     * and an order whose edition nobody set. The second and the fourth stand behind the lists before them; the third is refused with 9, the last with
     * 14, and they take no room. */
    const flaxbadger_cap pole = {{0, 0, 1}, 1e-6}, sphere = {{1, 0, 0}, 4};
    const flaxbadger_coverer any = {0, 30, 1, 8, 1}, in_edition_2 = {0, 30, 1, 8, 2}, from_level_1 = {1, 30, 1, 8, 1}, unset = {0, 30, 1, 8, 0};
    flaxbadger_order night[5] = {
        {.cap = pole, .coverer = any, .allowance = 1000},
        {.inner = true, .cap = pole, .coverer = in_edition_2, .allowance = 1000},
        {.cap = sphere, .coverer = from_level_1, .allowance = 5},
        {.fast = true, .cell = true, .id = faces[0], .coverer = any},
        {.cap = pole, .coverer = unset, .allowance = 1000},
    };
    const char *const names[5] = {"around the cap", "inside it", "the whole sphere", "face 0, quickly", "of no edition"};
    const uint64_t refusals[5] = {0, 0, 9, 0, 14};
    uint64_t alone[64];
    size_t begin = 0;
    number = flaxbadger_night(night, 5, mem, FLAXBADGER_MEMORY, out, 64);
    printf("a night of five orders: number %" PRIu64 "\n", number);
    ok &= number == 0;
    for (int k = 0; k < 5; k++) {
        const flaxbadger_order *o = &night[k];
        printf("  %s: number %" PRIu64 ", %zu cells from place %zu on, %" PRIu32 " steps, %" PRIu64 " leaves set aside\n", names[k], o->number,
               o->count, begin, o->steps, sum(o->aside));
        ok &= o->number == refusals[k] && (o->number == 0 || (o->count == 0 && o->steps == 0)) && (k == 0 || sum(o->aside) == 0);
        begin += o->count;
    }

    /* Each alone has the same answer. */
    number = flaxbadger_covering_cap(0, 0, 1, 1e-6, 0, 30, 1, 8, 1000, mem, FLAXBADGER_MEMORY, alone, 64, &count, &steps, aside);
    ok &= number == 0 && count == night[0].count && steps == night[0].steps && memcmp(aside, night[0].aside, sizeof aside) == 0;
    ok &= sum(aside) > 0 && memcmp(alone, out, count * sizeof *out) == 0;
    begin = night[0].count;
    number = flaxbadger_interior_covering_cap_by(FLAXBADGER_QUICK, 0, 0, 1, 1e-6, 0, 30, 1, 8, 2, 1000, mem, FLAXBADGER_MEMORY, alone, 64, &count, &steps,
                                                 aside, &agree);
    ok &= number == 0 && count == night[1].count && steps == night[1].steps && memcmp(alone, out + begin, count * sizeof *out) == 0;
    begin += night[1].count;
    number = flaxbadger_fast_covering_cell(faces[0], 0, 30, 1, 8, mem, FLAXBADGER_MEMORY, alone, 64, &count, &steps, aside);
    ok &= number == 0 && count == night[3].count && count > 0 && memcmp(alone, out + begin, count * sizeof *out) == 0;

    /* One order too many: refused with 13, and records, memory and output are as they were. */
    for (int k = 0; k < FLAXBADGER_ORDERS + 1; k++) {
        orders[k] = night[k % 5];
    }
    memcpy(as_before, orders, sizeof orders);
    memset(mem, 0xff, sizeof mem);
    memset(out, 0xff, sizeof out);
    number = flaxbadger_night(orders, FLAXBADGER_ORDERS + 1, mem, FLAXBADGER_MEMORY, out, 64);
    printf("a night of %d orders: number %" PRIu64 "\n", FLAXBADGER_ORDERS + 1, number);
    ok &= number == 13 && memcmp(as_before, orders, sizeof orders) == 0;
    for (int i = 0; i < FLAXBADGER_MEMORY; i++) {
        ok &= mem[i] == UINT64_MAX;
    }
    for (int i = 0; i < 64; i++) {
        ok &= out[i] == UINT64_MAX;
    }

    puts(ok ? "as expected" : "NOT as expected");
    return ok ? 0 : 1;
}
