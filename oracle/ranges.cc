// Answers the lines `ranges` and `cells` of `cover`, from standard input, with the functions of the C++ S2 library: range_min, range_max and
// ToToken of S2CellId, FromMinMax and Normalize of S2CellUnion. The last line is `end` and the number of answers. To be built with -DNDEBUG, so
// that lists that break a rule get as far as IsValid. See oracle/ranges.
#include <cinttypes>
#include <cstdio>
#include <cstdlib>
#include <iostream>
#include <sstream>
#include <string>
#include <vector>

#include <s2/s2cell_id.h>
#include <s2/s2cell_union.h>

struct Question {
  std::string kind;
  std::vector<S2CellId> words;
  size_t room = 65536;
  bool tokens = false;
};

static bool ReadLine(const std::string& line, Question* q) {
  std::istringstream fields(line);
  std::string word;
  size_t count;
  if (!(fields >> q->kind >> count)) return false;
  for (size_t i = 0; i < count; i++) {
    if (!(fields >> word)) return false;
    q->words.push_back(S2CellId(std::strtoull(word.c_str(), nullptr, 16)));
  }
  if (fields >> word) {
    if (word.compare(0, 4, "out=") == 0) {
      q->room = std::strtoull(word.c_str() + 4, nullptr, 10);
    } else if (word == "tokens=1") {
      q->tokens = true;
    } else {
      return false;
    }
  }
  return q->kind == "ranges" || q->kind == "cells";
}

// The pairs of a list, one word after another; false where the list is outside the rules.
static bool Ranges(const std::vector<S2CellId>& ids, std::vector<S2CellId>* found) {
  if (!S2CellUnion::FromVerbatim(ids).IsValid()) return false;
  for (S2CellId id : ids) {
    if (!found->empty() && found->back().next() == id.range_min()) {
      found->back() = id.range_max();
    } else {
      found->push_back(id.range_min());
      found->push_back(id.range_max());
    }
  }
  return true;
}

// The normalised list of pairs; false where they are outside the rules.
static bool Cells(const std::vector<S2CellId>& words, std::vector<S2CellId>* found) {
  if (words.size() % 2 != 0) return false;
  for (size_t i = 0; i < words.size(); i++) {
    if (!words[i].is_valid() || !words[i].is_leaf()) return false;
    if (i % 2 == 1 && words[i] < words[i - 1]) return false;
    if (i % 2 == 0 && i > 0 && words[i] <= words[i - 1].next()) return false;
  }
  for (size_t i = 0; i < words.size(); i += 2) {
    S2CellUnion pair = S2CellUnion::FromMinMax(words[i], words[i + 1]);
    found->insert(found->end(), pair.begin(), pair.end());
  }
  S2CellUnion::Normalize(found);
  return true;
}

int main() {
  std::ios::sync_with_stdio(false);
  size_t many = 0;
  for (std::string line; std::getline(std::cin, line); many++) {
    Question q;
    if (!ReadLine(line, &q)) {
      std::fprintf(stderr, "ranges.cc: line %zu can't be taken\n", many + 1);
      return 1;
    }
    std::vector<S2CellId> found;
    if (!(q.kind == "ranges" ? Ranges : Cells)(q.words, &found)) {
      std::printf("refused 25\n");
    } else if (found.size() > q.room) {
      std::printf("refused 26\n");
    } else {
      std::printf("ok %zu", found.size());
      for (S2CellId id : found) {
        if (q.tokens) {
          std::printf(" %s", id.ToToken().c_str());
        } else {
          std::printf(" %016" PRIx64, id.id());
        }
      }
      std::printf("\n");
    }
  }
  std::printf("end %zu\n", many);
}
