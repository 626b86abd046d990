/* tokens FILE TIMES: gives a list or a text to a function of include/flaxbadger.h, TIMES times over, and writes the answer's words. The words of FILE:
 * which function (0 flaxbadger_write_tokens, 1 flaxbadger_read_tokens), how many ids or bytes there are, and these. A text is filled up with bytes 0
 * to a whole word, here and in an answer. See bench/tokens. */
#include "flaxbadger.h"
#include "words.h"

static uint64_t asked(const uint64_t *words, uint64_t *out, size_t places, uint64_t *count) {
    uint64_t first;
    if (words[0] == 0) {
        return flaxbadger_write_tokens(words + 2, words[1], (uint8_t *)out, places * sizeof *out, count, &first);
    }
    return flaxbadger_read_tokens((const uint8_t *)(words + 2), words[1], out, places, count, &first);
}

int main(int argc, char **argv) {
    if (argc != 3) {
        fprintf(stderr, "usage: tokens FILE TIMES\n");
        return 2;
    }
    size_t many;
    const uint64_t *words = read_words(argv[1], &many);
    if (many < 2 || words[0] > 1 || words[1] > (many - 2) * (words[0] == 0 ? 1 : sizeof *words)) {
        fprintf(stderr, "%s has no list and no text\n", argv[1]);
        return 1;
    }
    size_t places = (words[0] == 0 ? 17 * words[1] / sizeof *words : words[1] / 2) + 1;
    uint64_t *out = room(places);
    uint64_t count = 0, number = 0;
    for (long left = atol(argv[2]); left > 0; left--) {
        number = asked(words, out, places, &count);
    }
    return write_answer(number, out, words[0] == 0 ? (count + sizeof *out - 1) / sizeof *out : count);
}
