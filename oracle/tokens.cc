// Answers the lines `write_tokens` and `read_tokens` of oracle/tokens.c, from standard input, with the functions of the C++ S2 library: ToToken
// and FromToken of S2CellId. A line of a text is well-formed if its FromToken is valid and ToToken writes that as the same bytes. The last line is
// `end` and the number of answers. See oracle/tokens.
#include <cinttypes>
#include <cstdio>
#include <cstdlib>
#include <iostream>
#include <sstream>
#include <string>
#include <vector>

#include <s2/s2cell_id.h>

static void Refuse(int number, size_t first = 0) {
  std::printf(first == 0 ? "refused %d\n" : "refused %d %zu\n", number, first);
}

static bool Write(std::istringstream* fields, size_t room) {
  size_t count, first = 0;
  std::string word, text;
  if (!(*fields >> count)) return false;
  for (size_t i = 1; i <= count; i++) {
    if (!(*fields >> word)) return false;
    S2CellId id(std::strtoull(word.c_str(), nullptr, 16));
    if (first == 0 && !id.is_valid()) first = i;
    text += id.ToToken() + "\n";
  }
  if (first != 0) {
    Refuse(11, first);
  } else if (text.size() > room) {
    Refuse(12);
  } else {
    std::printf("ok %zu%s", text.size(), text.empty() ? "" : " ");
    for (unsigned char byte : text) std::printf("%02x", byte);
    std::printf("\n");
  }
  return true;
}

static bool Read(std::istringstream* fields, size_t room) {
  std::string word, text;
  *fields >> word;
  for (size_t i = 0; i < word.size(); i += 2) text += static_cast<char>(std::stoi(word.substr(i, 2), nullptr, 16));
  std::vector<S2CellId> ids;
  for (size_t begin = 0; begin < text.size();) {
    size_t end = text.find('\n', begin);
    std::string token = text.substr(begin, end - begin);
    S2CellId id = S2CellId::FromToken(token);
    if (end == std::string::npos || !id.is_valid() || id.ToToken() != token) {
      Refuse(11, ids.size() + 1);
      return true;
    }
    ids.push_back(id);
    begin = end + 1;
  }
  if (ids.size() > room) {
    Refuse(12);
  } else {
    std::printf("ok %zu", ids.size());
    for (S2CellId id : ids) std::printf(" %016" PRIx64, id.id());
    std::printf("\n");
  }
  return true;
}

static bool Answer(const std::string& line) {
  std::istringstream fields(line);
  std::string kind;
  size_t room;
  if (!(fields >> kind >> room)) return false;
  return kind == "write_tokens" ? Write(&fields, room) : kind == "read_tokens" && Read(&fields, room);
}

int main() {
  std::ios::sync_with_stdio(false);
  size_t many = 0;
  for (std::string line; std::getline(std::cin, line); many++) {
    if (!Answer(line)) {
      std::fprintf(stderr, "tokens.cc: line %zu can't be taken\n", many + 1);
      return 1;
    }
  }
  std::printf("end %zu\n", many);
}
