// Answers the lines `union`, `common` and `difference` of `cover`, from standard input, with the functions of the C++ S2 library: Union,
// Intersection, Difference and Normalize of S2CellUnion, ToToken of S2CellId. The last line is `end` and the number of answers. To be built with
// -DNDEBUG, so that lists that break a rule get as far as IsValid. See oracle/sets.
#include <cinttypes>
#include <cstdio>
#include <cstdlib>
#include <iostream>
#include <sstream>
#include <string>
#include <vector>

#include <s2/s2cell_id.h>
#include <s2/s2cell_union.h>

struct Question {
  std::string kind;
  std::vector<S2CellId> first, second;
  size_t room = 65536;
  bool tokens = false;
};

static bool ReadList(std::istringstream* fields, std::vector<S2CellId>* ids) {
  std::string word;
  size_t count;
  if (!(*fields >> count)) return false;
  for (size_t i = 0; i < count; i++) {
    if (!(*fields >> word)) return false;
    ids->push_back(S2CellId(std::strtoull(word.c_str(), nullptr, 16)));
  }
  return true;
}

static bool ReadLine(const std::string& line, Question* q) {
  std::istringstream fields(line);
  if (!(fields >> q->kind) || !ReadList(&fields, &q->first) || !ReadList(&fields, &q->second)) return false;
  for (std::string word; fields >> word;) {
    if (word.compare(0, 4, "out=") == 0) {
      q->room = std::strtoull(word.c_str() + 4, nullptr, 10);
    } else if (word == "tokens=1") {
      q->tokens = true;
    } else if (word.compare(0, 6, "allow=") != 0 && word.compare(0, 4, "mem=") != 0) {
      return false;
    }
  }
  return q->kind == "union" || q->kind == "common" || q->kind == "difference";
}

static bool Taken(const S2CellUnion& list) { return list.size() <= 4096 && list.IsValid(); }

static S2CellUnion Made(const std::string& kind, const S2CellUnion& first, const S2CellUnion& second) {
  if (kind == "union") return first.Union(second);
  if (kind == "common") return first.Intersection(second);
  return first.Difference(second);
}

// The number of the refusal; or 0, and the normalised list.
static int Answer(const Question& q, S2CellUnion* found) {
  S2CellUnion first = S2CellUnion::FromVerbatim(q.first), second = S2CellUnion::FromVerbatim(q.second);
  if (!Taken(first)) return 15;
  if (!Taken(second)) return 16;
  *found = Made(q.kind, first, second);
  found->Normalize();
  return found->size() > q.room ? 17 : 0;
}

int main() {
  std::ios::sync_with_stdio(false);
  size_t many = 0;
  for (std::string line; std::getline(std::cin, line); many++) {
    Question q;
    if (!ReadLine(line, &q)) {
      std::fprintf(stderr, "sets.cc: line %zu can't be taken\n", many + 1);
      return 1;
    }
    S2CellUnion found;
    int refusal = Answer(q, &found);
    if (refusal != 0) {
      std::printf("refused %d\n", refusal);
    } else {
      std::printf("ok %zu", found.size());
      for (S2CellId id : found) {
        if (q.tokens) {
          std::printf(" %s", id.ToToken().c_str());
        } else {
          std::printf(" %016" PRIx64, id.id());
        }
      }
      std::printf("\n");
    }
  }
  std::printf("end %zu\n", many);
}
