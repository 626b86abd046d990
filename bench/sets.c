/* sets FILE TIMES: gives two lists to a function of include/flaxbadger.h, TIMES times over, and writes the answer's words. The words of FILE:
 * which function (0 union, 1 common, 2 difference), how many ids the first list has, the first list, the second. See bench/sets. */
#include "flaxbadger.h"
#include "words.h"

typedef uint64_t way(const uint64_t *first, size_t first_len, const uint64_t *second, size_t second_len, uint64_t *out, size_t out_len, uint64_t *count);

static way *const ways[] = {flaxbadger_union, flaxbadger_common, flaxbadger_difference};

int main(int argc, char **argv) {
    if (argc != 3) {
        fprintf(stderr, "usage: sets FILE TIMES\n");
        return 2;
    }
    size_t many;
    const uint64_t *words = read_words(argv[1], &many);
    if (many < 2 || words[0] > 2 || words[1] > many - 2) {
        fprintf(stderr, "%s has no two lists\n", argv[1]);
        return 1;
    }
    way *asked = ways[words[0]];
    const uint64_t *first = words + 2, *second = first + words[1];
    size_t first_len = words[1], second_len = many - 2 - first_len, places = many;
    uint64_t *out = room(places);
    uint64_t count, number = asked(first, first_len, second, second_len, out, places, &count);
    while (number == 17) {
        free(out);
        places *= 4;
        out = room(places);
        number = asked(first, first_len, second, second_len, out, places, &count);
    }
    for (long left = atol(argv[2]); left > 0; left--) {
        number = asked(first, first_len, second, second_len, out, places, &count);
    }
    return write_answer(number, out, count);
}
