/* Asks the two functions for tokens of include/flaxbadger.h: a question a line from standard input, an answer a line to standard output, and at
 * last `end` and the number of answers. See oracle/tokens.
 *
 *     write_tokens ROOM COUNT ID...   answer `ok BYTES TEXT`, a text as two hexadecimal digits a byte
 *     read_tokens ROOM [TEXT]         no TEXT for an empty one; answer `ok COUNT ID...`
 *
 * ROOM is the length of the output; refusals are `refused 11 FIRST` and `refused 12`. What else a call has to keep is looked at here, and behind
 * the answer stands what it did not: `count` and `first` of an answer that has none; `output`, which lies between margins and is filled with bytes
 * that no answer has, where anything but the answer is changed in it or beside it; `back`, where the other function does not give back the
 * question's list or text for the answer. Behind a text stands a newline, and behind a list a 0, which no call may look at. */
#define _POSIX_C_SOURCE 200809L
#include "flaxbadger.h"

#include <inttypes.h>
#include <stdio.h>
#include <stdlib.h>
#include <string.h>

enum { MARGIN = 64 };

struct told {
    uint64_t number, count, first;
};

static void *room(size_t bytes) {
    void *found = malloc(bytes);
    if (found == NULL) {
        fprintf(stderr, "tokens.c: no room for %zu bytes\n", bytes);
        exit(1);
    }
    return found;
}

/* What stands at a place of an output before a call. Eight of these are no cell. */
static uint8_t before(size_t at) { return (uint8_t)(0xe0 + at % 31); }

/* An output of so many bytes, between its margins. */
static void *output(size_t bytes) {
    uint8_t *whole = room(bytes + 2 * MARGIN);
    for (size_t at = 0; at < bytes + 2 * MARGIN; at++) whole[at] = before(at);
    return whole + MARGIN;
}

/* Whether an output and its margins are as they were, but for the first bytes, which were written. */
static int kept(const void *out, size_t bytes, size_t written) {
    const uint8_t *whole = (const uint8_t *)out - MARGIN;
    for (size_t at = 0; at < bytes + 2 * MARGIN; at++) {
        if ((at < MARGIN || at >= MARGIN + written) && whole[at] != before(at)) return 0;
    }
    return 1;
}

static void let_go(void *out) { free((uint8_t *)out - MARGIN); }

static struct told write_tokens(const uint64_t *ids, size_t many, uint8_t *text, size_t bytes) {
    struct told t = {0, UINT64_MAX, UINT64_MAX};
    t.number = flaxbadger_write_tokens(ids, many, text, bytes, &t.count, &t.first);
    return t;
}

static struct told read_tokens(const uint8_t *text, size_t bytes, uint64_t *ids, size_t places) {
    struct told t = {0, UINT64_MAX, UINT64_MAX};
    t.number = flaxbadger_read_tokens(text, bytes, ids, places, &t.count, &t.first);
    return t;
}

/* How much of an output is an answer; no more than there is. */
static size_t written(struct told t, size_t places) { return t.number != 0 ? 0 : t.count < places ? (size_t)t.count : places; }

/* The answer's first words, before a text or ids. */
static void tell(struct told t) {
    if (t.number == 0) printf("ok %" PRIu64, t.count);
    else if (t.number == 11) printf("refused 11 %" PRIu64, t.first);
    else printf("refused %" PRIu64, t.number);
}

/* What stands behind the answer where the call did not keep it. */
static void tell_wrong(struct told t, int is_kept, int is_back) {
    if (t.number != 0 && t.count != 0) printf(" count");
    if (t.number != 11 && t.first != 0) printf(" first");
    if (!is_kept) printf(" output");
    if (!is_back) printf(" back");
    printf("\n");
}

static void ask_write(const uint64_t *ids, size_t many, size_t bytes) {
    uint8_t *text = output(bytes);
    struct told t = write_tokens(ids, many, text, bytes);
    size_t length = written(t, bytes);
    tell(t);
    if (length > 0) printf(" ");
    for (size_t at = 0; at < length; at++) printf("%02x", text[at]);
    int is_kept = kept(text, bytes, length), is_back = 1;
    if (t.number == 0) {
        uint64_t *again = output(many * sizeof *again);
        struct told b = read_tokens(text, length, again, many);
        is_back = b.number == 0 && b.count == many && memcmp(again, ids, many * sizeof *ids) == 0;
        let_go(again);
    }
    tell_wrong(t, is_kept, is_back);
    let_go(text);
}

static void ask_read(const uint8_t *text, size_t bytes, size_t places) {
    uint64_t *ids = output(places * sizeof *ids);
    struct told t = read_tokens(text, bytes, ids, places);
    size_t many = written(t, places);
    tell(t);
    for (size_t at = 0; at < many; at++) printf(" %016" PRIx64, ids[at]);
    int is_kept = kept(ids, places * sizeof *ids, many * sizeof *ids), is_back = 1;
    if (t.number == 0) {
        uint8_t *again = output(bytes);
        struct told b = write_tokens(ids, many, again, bytes);
        is_back = b.number == 0 && b.count == bytes && memcmp(again, text, bytes) == 0;
        let_go(again);
    }
    tell_wrong(t, is_kept, is_back);
    let_go(ids);
}

/* Asks a function what a line says; 0 for a line that is no question. */
static int ask(char *line) {
    char *at = strchr(line, ' ');
    if (at == NULL) return 0;
    size_t places = strtoull(at, &at, 10);
    if (strncmp(line, "write_tokens ", 13) == 0) {
        size_t many = strtoull(at, &at, 10);
        uint64_t *ids = room((many + 1) * sizeof *ids);
        for (size_t k = 0; k < many; k++) ids[k] = strtoull(at, &at, 16);
        ids[many] = 0;
        ask_write(ids, many, places);
        free(ids);
        return 1;
    }
    if (strncmp(line, "read_tokens ", 12) != 0) return 0;
    at += strspn(at, " ");
    size_t bytes = strspn(at, "0123456789abcdef") / 2;
    uint8_t *text = room(bytes + 1);
    for (size_t k = 0; k < bytes; k++) {
        char pair[] = {at[2 * k], at[2 * k + 1], 0};
        text[k] = (uint8_t)strtoul(pair, NULL, 16);
    }
    text[bytes] = '\n';
    ask_read(text, bytes, places);
    free(text);
    return 1;
}

int main(void) {
    char *line = NULL;
    size_t size = 0, many = 0;
    for (; getline(&line, &size, stdin) >= 0; many++) {
        if (!ask(line)) {
            fprintf(stderr, "tokens.c: line %zu can't be taken\n", many + 1);
            return 1;
        }
    }
    printf("end %zu\n", many);
    return fflush(stdout) == 0 ? 0 : 1;
}
