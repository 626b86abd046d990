/* curve FUNCTION N: calls a function of the crate `walks` with N cells, of the levels 0 to 30 in turn, and writes a sum over all its answers. See bench/curve. */
#include <inttypes.h>
#include <stdio.h>
#include <stdlib.h>
#include <string.h>

uint64_t walk(uint64_t id), bits(uint64_t id), valid(uint64_t id);
uint64_t leaf(uint64_t face, uint64_t i, uint64_t j), face(uint64_t face, uint64_t i, uint64_t j);

static uint64_t state = 2026;

/* the next of the numbers of splitmix64 */
static uint64_t next(void) {
    uint64_t z = state += 0x9e3779b97f4a7c15;
    z = (z ^ z >> 30) * 0xbf58476d1ce4e5b9;
    z = (z ^ z >> 27) * 0x94d049bb133111eb;
    return z ^ z >> 31;
}

static uint64_t cell(unsigned level) {
    uint64_t face = next() % 6, pairs = level == 0 ? 0 : next() >> (64 - 2 * level);
    return (2 * (face << 2 * level | pairs) + 1) << 2 * (30 - level);
}

int main(int argc, char **argv) {
    static const struct {
        const char *name;
        uint64_t (*of_id)(uint64_t);
        uint64_t (*of_place)(uint64_t, uint64_t, uint64_t);
    } functions[] = {{"walk", walk, NULL}, {"bits", bits, NULL}, {"valid", valid, NULL}, {"leaf", NULL, leaf}, {"face", NULL, face}};
    size_t at = 0, many = sizeof functions / sizeof *functions;
    long n = argc == 3 ? strtol(argv[2], NULL, 10) : 0;
    while (n > 0 && at < many && strcmp(argv[1], functions[at].name) != 0) {
        at++;
    }
    if (n <= 0 || at == many) {
        fputs("usage: curve walk|bits|valid|leaf|face N\n", stderr);
        return 2;
    }
    uint64_t sum = 0;
    for (long k = 0; k < n; k++) {
        uint64_t id = cell((unsigned)(k % 31));
        sum = sum * 31 + (functions[at].of_id ? functions[at].of_id(id) : functions[at].of_place(id >> 61, id >> 1, id >> 31));
    }
    printf("%016" PRIx64 "\n", sum);
    return 0;
}
