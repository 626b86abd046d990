/* Region coverings of the sphere by S2 cells, for C and C++.
 *
 * The functions are proved: whatever numbers they are given, each does exactly what is said here, in bounded memory, and returns.
 * They allocate nothing and keep nothing between calls.
 *
 * Link with the archive that bin/archive writes, target/staticlib/libcapi.a (x86-64 Linux). bin/examples shows the commands.
 *
 * REGION. A cap is given by its centre (x, y, z), a point of unit length as S2 tests it, and by its radius: the SQUARED CHORD from
 * the centre to the rim, 0 for a point, 2 for half of the sphere, 4 for all of it; negative for the empty cap. A cell is given by
 * its 64-bit S2 cell id. A list is given by 0 to 4,096 cell ids, ascending, none inside another; it need not be normalised. The
 * region is the ground of these cells: an outer answer covers every leaf under them, an inner one has no leaf outside them.
 *
 * ARGUMENTS
 *   list, list_len         the ids of a region that is a list. They are only read
 *   min_level, max_level   levels of the cells of a covering, 0 <= min_level <= max_level <= 30
 *   level_mod              1, 2 or 3: levels are min_level plus whole steps of this
 *   max_cells              0 to 1,000: how many cells are aimed at. More are given where min_level or the start cells ask it
 *   allowance              how many steps the run may take, 0 to 4,294,967,295
 *   mem, mem_len           working memory, at least 5,120 words. What stands in it makes no difference to the answer. Words from
 *                          5,120 on are never touched
 *   out, out_len           the output, of any length. The ids of the answer go into its first places
 *   count, steps, aside    where the answer's values are written: how many ids it has; how many steps the run took; and in six words
 *                          how many leaf cells (of level 30) an outer run set aside as outside the region, by start cell: aside[0]
 *                          those under the first cell that the run started from, aside[1] those under the second, and so on; 0 where
 *                          there is no such start cell. Their sum is all that was set aside. With level_mod above 1 the start cells
 *                          of a list may overlap; a leaf cell that is set aside under two of them counts under each
 * Pointers must be valid for the lengths given, aside for six words, aligned as uint64_t is, and not null, not even for a length of 0,
 * as of an empty list; and no two of list, mem, out, count, steps and aside may overlap. This is the caller's part: C passes no lengths
 * that could be tested.
 *
 * RESULT. The number of the refusal, or 0 for success.
 *    1  max_level is over 30                                     mem unchanged
 *    2  min_level is over max_level                              mem unchanged
 *    3  level_mod is not 1, 2 or 3                               mem unchanged
 *    4  max_cells is over 1,000                                  mem unchanged
 *   14  edition is not 1 or 2, of functions that take one        mem unchanged
 *       and of a night's orders
 *    5  the region is outside the domain: a centre that is not   mem unchanged
 *       finite or not of unit length, a radius that is not
 *       finite or over 4, an id that is not a cell, a list
 *       that descends or overlaps or has over 4,096 ids
 *    6  mem_len is under 5,120                                   mem unchanged
 *    7  the run's queue would hold 1,025 candidates at once      first 5,120 words of mem zero
 *    8  the run would keep a 1,025th raw cell                    first 5,120 words of mem zero
 *    9  the queue isn't empty and the allowance is used up       first 5,120 words of mem zero
 *   10  the answer is longer than out_len                        first 5,120 words of mem zero
 * 1 to 4, 14, 5 and 6 are tested in that order, before anything else; 7 to 9 come as the run meets them. A refusal leaves the output as
 * it was and writes 0 to count, to steps and to all six of aside. A success leaves the ids in the first `count` places of the output, the
 * rest of the output as it was, and the first 5,120 words of mem zero.
 */
#ifndef FLAXBADGER_H
#define FLAXBADGER_H

#include <stdbool.h>
#include <stddef.h>
#include <stdint.h>

#ifdef __cplusplus
extern "C" {
#endif

#define FLAXBADGER_MEMORY 5120 /* words of working memory that are always enough */
#define FLAXBADGER_STARTS 6 /* cells that a run starts from, at most: as many words has aside */
#define FLAXBADGER_LIST_MOST 4096 /* ids that a list may have as a region */

#define FLAXBADGER_CAP double x, double y, double z, double radius
#define FLAXBADGER_CELL uint64_t id
#define FLAXBADGER_LIST const uint64_t *list, size_t list_len
#define FLAXBADGER_LEVELS uint64_t min_level, uint64_t max_level, uint64_t level_mod, uint64_t max_cells
#define FLAXBADGER_NUMBERS FLAXBADGER_LEVELS, uint64_t edition
#define FLAXBADGER_BUFFERS \
    uint64_t *mem, size_t mem_len, uint64_t *out, size_t out_len, uint64_t *count, uint64_t *steps, uint64_t aside[FLAXBADGER_STARTS]

/* A covering: cells that cover the region, of levels min_level to max_level in whole steps of level_mod, ascending. */
uint64_t flaxbadger_covering_cap(FLAXBADGER_CAP, FLAXBADGER_LEVELS, uint32_t allowance, FLAXBADGER_BUFFERS);
uint64_t flaxbadger_covering_cell(FLAXBADGER_CELL, FLAXBADGER_LEVELS, uint32_t allowance, FLAXBADGER_BUFFERS);
uint64_t flaxbadger_covering_list(FLAXBADGER_LIST, FLAXBADGER_LEVELS, uint32_t allowance, FLAXBADGER_BUFFERS);

/* The same ground, normalised: ascending, no cell inside another, four siblings replaced by their parent. Levels may be above min_level
 * and off step. */
uint64_t flaxbadger_cellunion_cap(FLAXBADGER_CAP, FLAXBADGER_LEVELS, uint32_t allowance, FLAXBADGER_BUFFERS);
uint64_t flaxbadger_cellunion_cell(FLAXBADGER_CELL, FLAXBADGER_LEVELS, uint32_t allowance, FLAXBADGER_BUFFERS);
uint64_t flaxbadger_cellunion_list(FLAXBADGER_LIST, FLAXBADGER_LEVELS, uint32_t allowance, FLAXBADGER_BUFFERS);

/* The run's own list, in the order in which it kept the cells. With level_mod 1 no two of them overlap; above 1 a list's may. */
uint64_t flaxbadger_raw_cap(FLAXBADGER_CAP, FLAXBADGER_LEVELS, uint32_t allowance, FLAXBADGER_BUFFERS);
uint64_t flaxbadger_raw_cell(FLAXBADGER_CELL, FLAXBADGER_LEVELS, uint32_t allowance, FLAXBADGER_BUFFERS);
uint64_t flaxbadger_raw_list(FLAXBADGER_LIST, FLAXBADGER_LEVELS, uint32_t allowance, FLAXBADGER_BUFFERS);

/* The same three for cells inside the region: aside is six zeros. */
uint64_t flaxbadger_interior_covering_cap(FLAXBADGER_CAP, FLAXBADGER_LEVELS, uint32_t allowance, FLAXBADGER_BUFFERS);
uint64_t flaxbadger_interior_covering_cell(FLAXBADGER_CELL, FLAXBADGER_LEVELS, uint32_t allowance, FLAXBADGER_BUFFERS);
uint64_t flaxbadger_interior_covering_list(FLAXBADGER_LIST, FLAXBADGER_LEVELS, uint32_t allowance, FLAXBADGER_BUFFERS);
uint64_t flaxbadger_interior_cellunion_cap(FLAXBADGER_CAP, FLAXBADGER_LEVELS, uint32_t allowance, FLAXBADGER_BUFFERS);
uint64_t flaxbadger_interior_cellunion_cell(FLAXBADGER_CELL, FLAXBADGER_LEVELS, uint32_t allowance, FLAXBADGER_BUFFERS);
uint64_t flaxbadger_interior_cellunion_list(FLAXBADGER_LIST, FLAXBADGER_LEVELS, uint32_t allowance, FLAXBADGER_BUFFERS);
uint64_t flaxbadger_interior_raw_cap(FLAXBADGER_CAP, FLAXBADGER_LEVELS, uint32_t allowance, FLAXBADGER_BUFFERS);
uint64_t flaxbadger_interior_raw_cell(FLAXBADGER_CELL, FLAXBADGER_LEVELS, uint32_t allowance, FLAXBADGER_BUFFERS);
uint64_t flaxbadger_interior_raw_list(FLAXBADGER_LIST, FLAXBADGER_LEVELS, uint32_t allowance, FLAXBADGER_BUFFERS);

/* A quick, coarse covering from the region's bound alone: no run, no allowance; steps is 0, aside six zeros, and of the refusals only 1 to
 * 6 and 10 come. */
uint64_t flaxbadger_fast_covering_cap(FLAXBADGER_CAP, FLAXBADGER_LEVELS, FLAXBADGER_BUFFERS);
uint64_t flaxbadger_fast_covering_cell(FLAXBADGER_CELL, FLAXBADGER_LEVELS, FLAXBADGER_BUFFERS);
uint64_t flaxbadger_fast_covering_list(FLAXBADGER_LIST, FLAXBADGER_LEVELS, FLAXBADGER_BUFFERS);

/* EITHER EDITION, BY EITHER ENGINE OR BOTH. A run always goes on with the first of the candidates that wait. In which order they stand is
 * said by the edition: the functions above are of edition 1, and each function below does what the one of its name without _by does, in the
 * edition that it is given. Two engines are here that find the first: the quick one keeps the candidates in a heap; the plain one keeps them
 * in a simple list, and looks through all of it at each step. They are proved to agree: on every request, in either edition, both give the
 * same number, count, steps and aside, the same ids in the output and the same words in mem. So the answer is the same whichever engine is
 * asked. With both it is a self-test.
 *
 *   engines   FLAXBADGER_QUICK for the quick engine, FLAXBADGER_PLAIN for the plain one; FLAXBADGER_BOTH, or any other number, for both,
 *             one after the other. No number is wrong
 *   edition   1 or 2; any other number is refused with 14. What has to be cut again as it was is asked for in the edition that it was cut
 *             in, and all that was cut before there were two is of edition 1
 *   agree     where it is written whether all engines that were asked gave the same answer: 1 if they did, which is proved. 0 tells of a
 *             fault of the machine, of its memory or its processor, and then the answer is not to be used
 *
 * Edition 2 takes the larger cell first; of one level the one with fewer children to go on with; of these the one with fewer that would be
 * kept as they are; then the smaller id; and of a cell that waits twice the one grown from the earlier start cell. Edition 1 does the same
 * but for one pair: a cell with all 4^level_mod children, each of which would be kept as it is, and a cell one level deeper with a single
 * child that would not. There it takes the smaller id, where edition 2 takes the larger cell.
 *
 * The other arguments, the result and what is left in the buffers are as said above; agree may not overlap any of them. The quick, coarse
 * covering has no candidates that wait, and so neither engine nor edition. */
#define FLAXBADGER_QUICK 0
#define FLAXBADGER_PLAIN 1
#define FLAXBADGER_BOTH 2

#define FLAXBADGER_TESTED FLAXBADGER_BUFFERS, uint64_t *agree

uint64_t flaxbadger_covering_cap_by(uint64_t engines, FLAXBADGER_CAP, FLAXBADGER_NUMBERS, uint32_t allowance, FLAXBADGER_TESTED);
uint64_t flaxbadger_covering_cell_by(uint64_t engines, FLAXBADGER_CELL, FLAXBADGER_NUMBERS, uint32_t allowance, FLAXBADGER_TESTED);
uint64_t flaxbadger_covering_list_by(uint64_t engines, FLAXBADGER_LIST, FLAXBADGER_NUMBERS, uint32_t allowance, FLAXBADGER_TESTED);
uint64_t flaxbadger_cellunion_cap_by(uint64_t engines, FLAXBADGER_CAP, FLAXBADGER_NUMBERS, uint32_t allowance, FLAXBADGER_TESTED);
uint64_t flaxbadger_cellunion_cell_by(uint64_t engines, FLAXBADGER_CELL, FLAXBADGER_NUMBERS, uint32_t allowance, FLAXBADGER_TESTED);
uint64_t flaxbadger_cellunion_list_by(uint64_t engines, FLAXBADGER_LIST, FLAXBADGER_NUMBERS, uint32_t allowance, FLAXBADGER_TESTED);
uint64_t flaxbadger_raw_cap_by(uint64_t engines, FLAXBADGER_CAP, FLAXBADGER_NUMBERS, uint32_t allowance, FLAXBADGER_TESTED);
uint64_t flaxbadger_raw_cell_by(uint64_t engines, FLAXBADGER_CELL, FLAXBADGER_NUMBERS, uint32_t allowance, FLAXBADGER_TESTED);
uint64_t flaxbadger_raw_list_by(uint64_t engines, FLAXBADGER_LIST, FLAXBADGER_NUMBERS, uint32_t allowance, FLAXBADGER_TESTED);
uint64_t flaxbadger_interior_covering_cap_by(uint64_t engines, FLAXBADGER_CAP, FLAXBADGER_NUMBERS, uint32_t allowance, FLAXBADGER_TESTED);
uint64_t flaxbadger_interior_covering_cell_by(uint64_t engines, FLAXBADGER_CELL, FLAXBADGER_NUMBERS, uint32_t allowance, FLAXBADGER_TESTED);
uint64_t flaxbadger_interior_covering_list_by(uint64_t engines, FLAXBADGER_LIST, FLAXBADGER_NUMBERS, uint32_t allowance, FLAXBADGER_TESTED);
uint64_t flaxbadger_interior_cellunion_cap_by(uint64_t engines, FLAXBADGER_CAP, FLAXBADGER_NUMBERS, uint32_t allowance, FLAXBADGER_TESTED);
uint64_t flaxbadger_interior_cellunion_cell_by(uint64_t engines, FLAXBADGER_CELL, FLAXBADGER_NUMBERS, uint32_t allowance, FLAXBADGER_TESTED);
uint64_t flaxbadger_interior_cellunion_list_by(uint64_t engines, FLAXBADGER_LIST, FLAXBADGER_NUMBERS, uint32_t allowance, FLAXBADGER_TESTED);
uint64_t flaxbadger_interior_raw_cap_by(uint64_t engines, FLAXBADGER_CAP, FLAXBADGER_NUMBERS, uint32_t allowance, FLAXBADGER_TESTED);
uint64_t flaxbadger_interior_raw_cell_by(uint64_t engines, FLAXBADGER_CELL, FLAXBADGER_NUMBERS, uint32_t allowance, FLAXBADGER_TESTED);
uint64_t flaxbadger_interior_raw_list_by(uint64_t engines, FLAXBADGER_LIST, FLAXBADGER_NUMBERS, uint32_t allowance, FLAXBADGER_TESTED);

/* LISTS AS LEAF RANGES. Leaf cells (of level 30) have odd ids, and those under a cell are a stretch of them, so any list is a few pairs
 * of a first and a last leaf id: in an index sorted by leaf id each pair is one scan from its first to its last, both included.
 *
 * flaxbadger_ranges turns a list of ids_len ids (valid, ascending, none inside another) into such pairs, one word after another, first,
 * last, first, last; neighbouring pairs are joined when the next first is the last plus 2. flaxbadger_cells turns such pairs (pairs_len
 * words, an even number) back into the normalised list of the same leaves. Lists are of any length; there is no working memory.
 *
 * The result is 0, and count the number of words in the first places of the output; or the number of a refusal, with the output as it
 * was and count 0:
 *   25  the input is outside these rules: an id that is not a cell, a list that descends or overlaps; an odd number of words, a word
 *       that is no leaf id, a first over its last, pairs that descend, overlap or could be joined
 *   26  the answer is longer than out_len. 2 * ids_len words are always enough for pairs
 * 25 is tested first, over the whole input. The input is only read; it may not overlap the output or count, and what is said of
 * pointers above holds here too. */
uint64_t flaxbadger_ranges(const uint64_t *ids, size_t ids_len, uint64_t *out, size_t out_len, uint64_t *count);
uint64_t flaxbadger_cells(const uint64_t *pairs, size_t pairs_len, uint64_t *out, size_t out_len, uint64_t *count);

/* TWO LISTS AS ONE. The leaves of either list (union), of both (common), or of the first alone (difference), as a normalised list:
 * ascending, none inside another, four siblings replaced by their parent, so that no shorter list has those leaves. Each list is of valid
 * ids, ascending, none inside another, at most 4,096; it need not be normalised. There is no working memory.
 *
 * The result is 0, and count the number of ids in the first places of the output; or the number of a refusal, with the output as it was
 * and count 0:
 *   15  the first list is not such a list, or longer than 4,096 ids
 *   16  the second list likewise
 *   17  the answer is longer than out_len. first_len + second_len words are always enough for a union and for a common part; a difference
 *       may be longer than both lists
 * They are tested in this order. The lists are only read; they may overlap each other, or be one, but not the output or count, and what
 * is said of pointers above holds here too. */
uint64_t flaxbadger_union(const uint64_t *first, size_t first_len, const uint64_t *second, size_t second_len,
                          uint64_t *out, size_t out_len, uint64_t *count);
uint64_t flaxbadger_common(const uint64_t *first, size_t first_len, const uint64_t *second, size_t second_len,
                           uint64_t *out, size_t out_len, uint64_t *count);
uint64_t flaxbadger_difference(const uint64_t *first, size_t first_len, const uint64_t *second, size_t second_len,
                               uint64_t *out, size_t out_len, uint64_t *count);

/* TOKENS. An id's token is its 16 lowercase hexadecimal digits without the zeros at their end. A list as a text has a token a line, each
 * line ended by one newline: the list 0x04.., 0x0c.., 0x14.. is the nine bytes 04, newline, 0c, newline, 14, newline; an empty list is an
 * empty text.
 *
 * flaxbadger_write_tokens turns a list of ids_len valid ids, in any order, into such a text. flaxbadger_read_tokens turns such a text of
 * text_len bytes (tokens of 1 to 16 digits with the last not 0, every id valid) back into the list. What was written is read as the
 * list, and what was read is written as the same bytes. Lists and texts are of any length, with no byte 0 behind a text; there is no
 * working memory.
 *
 * The result is 0, and count the number of bytes, or of ids, in the first places of the output; or the number of a refusal, with the
 * output as it was and count 0:
 *   11  an id that is not a cell; a line that is not the token of one: empty, over 16 digits, with 0 as the last, with a capital, a
 *       blank, a carriage return or any other byte; a last line without its newline. first is the number, from 1, of the first such
 *   12  the text, or the list, is longer than the output. 17 * ids_len bytes are always enough for a text, text_len / 2 words for a list
 * 11 is tested first, over the whole input; but for 11, first is 0. The input is only read; it may not overlap the output, count or
 * first, nor may any two of these, and what is said of pointers above holds here too, except that a text need not be aligned. */
uint64_t flaxbadger_write_tokens(const uint64_t *ids, size_t ids_len, uint8_t *text, size_t text_len,
                                 uint64_t *count, uint64_t *first);
uint64_t flaxbadger_read_tokens(const uint8_t *text, size_t text_len, uint64_t *ids, size_t ids_len,
                                uint64_t *count, uint64_t *first);

/* A NIGHT'S ORDERS IN ONE CALL. Up to 256 orders, each a record with what it asks, are answered one after another; the lists stand one behind
 * another in the output's first places. Each order is answered as flaxbadger_covering_cap_by or flaxbadger_interior_covering_cap_by in its
 * edition, or flaxbadger_fast_covering_cap, or the counterpart for a cell, answers it alone, called with mem and with the room that the orders
 * before it left in the output: refusals, count, steps, aside, mem and the ids in the output are the same. An order that is refused takes no
 * room, and the next one is answered.
 *
 * Into each record the answer is written: number (0 for success, or the refusal's), count, steps and the six of aside. Nothing else in it is changed. The
 * list of the record orders[k] begins behind the counts of those before it, at out[orders[0].count + .. + orders[k - 1].count]; the counts
 * of all are the places that are taken. The rest of the output stays as it was.
 *
 *   fast, inner        the quick covering; or else cells inside the region; or else a covering. Where fast is true, inner says nothing
 *   cell, id, cap      the region is the cell id; or, where cell is false, the cap. The other of the two says nothing
 *   coverer            the levels, level_mod, max_cells and edition of the order. Any edition but 1 and 2, such as a 0 that nobody set, is
 *                      refused with 14, of a quick covering too, which is the same in both
 *   allowance          how many steps its run may take; of a quick covering it says nothing
 *
 * The result is 0; or 13, where orders_len is over 256: no order is looked at, and records, mem and out are as they were. The record is laid
 * out as C does it, in 168 bytes on x86-64 Linux. A bool is 0 or 1, as C makes it. orders may not overlap mem or out, nor they each other, and
 * what is said of pointers above holds here too. */
typedef struct {
    double x, y, z;
} flaxbadger_point;

typedef struct {
    flaxbadger_point center;
    double radius;
} flaxbadger_cap;

typedef struct {
    uint64_t min_level, max_level, level_mod, max_cells, edition;
} flaxbadger_coverer;

typedef struct {
    uint64_t number; /* from byte 0 */
    size_t count;    /* 8 */
    uint32_t steps;  /* 16 */
    uint64_t aside[FLAXBADGER_STARTS]; /* 24 */
    bool fast;       /* 72 */
    bool inner;      /* 73 */
    bool cell;       /* 74 */
    uint64_t id;     /* 80 */
    flaxbadger_cap cap;         /* 88 */
    flaxbadger_coverer coverer; /* 120 */
    uint32_t allowance;         /* 160 */
} flaxbadger_order;

#define FLAXBADGER_ORDERS 256 /* orders that a night may have */

uint64_t flaxbadger_night(flaxbadger_order *orders, size_t orders_len, uint64_t *mem, size_t mem_len, uint64_t *out, size_t out_len);

#ifdef __cplusplus
}
#endif

#endif
