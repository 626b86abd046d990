// sets FILE TIMES: takes two lists together by S2CellUnion of the C++ S2 library, TIMES times over, and writes the answer's words. The words of FILE,
// 64 bits each as they stand in memory: what is asked (0 union, 1 intersection, 2 difference), how many ids the first list has, the first list, the
// second. The answer is normalised where the library hasn't done so. See bench/sets.
#include <cstdint>
#include <cstdio>
#include <cstdlib>
#include <fstream>
#include <vector>

#include <s2/s2cell_id.h>
#include <s2/s2cell_union.h>

static S2CellUnion Made(uint64_t asked, const S2CellUnion& first, const S2CellUnion& second) {
  if (asked == 0) return first.Union(second);
  S2CellUnion found = asked == 1 ? first.Intersection(second) : first.Difference(second);
  found.Normalize();
  return found;
}

int main(int argc, char** argv) {
  if (argc != 3) {
    std::fprintf(stderr, "usage: sets FILE TIMES\n");
    return 2;
  }
  std::ifstream file(argv[1], std::ios::binary);
  std::vector<uint64_t> words;
  for (uint64_t word; file.read(reinterpret_cast<char*>(&word), sizeof word);) words.push_back(word);
  if (words.size() < 2 || words[0] > 2 || words[1] > words.size() - 2) {
    std::fprintf(stderr, "%s has no two lists\n", argv[1]);
    return 1;
  }
  std::vector<S2CellId> lists[2];
  for (size_t i = 2; i < words.size(); i++) lists[i - 2 >= words[1]].push_back(S2CellId(words[i]));
  S2CellUnion first = S2CellUnion::FromVerbatim(lists[0]), second = S2CellUnion::FromVerbatim(lists[1]), found;
  for (long left = std::atol(argv[2]); left > 0; left--) found = Made(words[0], first, second);
  for (S2CellId id : found) {
    uint64_t word = id.id();
    if (std::fwrite(&word, sizeof word, 1, stdout) != 1) return 1;
  }
  return std::fflush(stdout) == 0 ? 0 : 1;
}
