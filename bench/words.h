/* How bench/ranges.c, bench/sets.c and bench/tokens.c take and give lists: files of 64-bit words as they stand in memory. */
#include <inttypes.h>
#include <stdio.h>
#include <stdlib.h>

static uint64_t *room(size_t places) {
    uint64_t *words = calloc(places, sizeof *words);
    if (words == NULL) {
        fprintf(stderr, "no room for %zu words\n", places);
        exit(1);
    }
    return words;
}

static uint64_t *read_words(const char *path, size_t *many) {
    FILE *file = fopen(path, "rb");
    if (file == NULL || fseek(file, 0, SEEK_END) != 0) {
        fprintf(stderr, "%s can't be read\n", path);
        exit(1);
    }
    *many = (size_t)ftell(file) / sizeof(uint64_t);
    rewind(file);
    uint64_t *words = room(*many + 1);
    if (fread(words, sizeof *words, *many, file) != *many) {
        fprintf(stderr, "%s can't be read\n", path);
        exit(1);
    }
    fclose(file);
    return words;
}

/* Writes the answer of a function that returned this number; gives the program's status. */
static int write_answer(uint64_t number, const uint64_t *words, uint64_t count) {
    if (number != 0) {
        fprintf(stderr, "refused %" PRIu64 "\n", number);
        return 1;
    }
    return fwrite(words, sizeof *words, count, stdout) == count && fflush(stdout) == 0 ? 0 : 1;
}
