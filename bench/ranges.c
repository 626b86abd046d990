/* NAME FILE TIMES: gives the words of FILE, 64 bits each as they stand in memory, to the function WAY of include/flaxbadger.h, TIMES times
 * over, and writes the answer's words in the same form. To be compiled with -DWAY=flaxbadger_ranges or -DWAY=flaxbadger_cells. See
 * bench/ranges. */
#include "flaxbadger.h"
#include "words.h"

int main(int argc, char **argv) {
    if (argc != 3) {
        fprintf(stderr, "usage: NAME FILE TIMES\n");
        return 2;
    }
    size_t many;
    uint64_t *words = read_words(argv[1], &many);
    size_t places = 2 * many + 1;
    uint64_t *out = room(places);
    uint64_t count, number = WAY(words, many, out, places, &count);
    while (number == 26) {
        free(out);
        places *= 4;
        out = room(places);
        number = WAY(words, many, out, places, &count);
    }
    for (long left = atol(argv[2]); left > 0; left--) {
        number = WAY(words, many, out, places, &count);
    }
    return write_answer(number, out, count);
}
