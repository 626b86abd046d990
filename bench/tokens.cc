// tokens FILE TIMES: writes a list as tokens, or reads such a text, by S2CellId of the C++ S2 library, TIMES times over, and writes the answer's text or
// words. The words of FILE, 64 bits each as they stand in memory: what is asked (0 ToToken, 1 FromToken), how many ids or bytes there are, and these, a
// text with bytes 0 up to a whole word. See bench/tokens.
#include <cstdint>
#include <cstdio>
#include <cstdlib>
#include <fstream>
#include <string>
#include <vector>

#include <absl/strings/string_view.h>
#include <s2/s2cell_id.h>

static std::string Written(const std::vector<S2CellId>& ids) {
  std::string text;
  for (S2CellId id : ids) {
    text += id.ToToken();
    text += '\n';
  }
  return text;
}

static std::vector<S2CellId> Read(const std::string& text) {
  std::vector<S2CellId> ids;
  for (size_t begin = 0, end; (end = text.find('\n', begin)) != std::string::npos; begin = end + 1) {
    ids.push_back(S2CellId::FromToken(absl::string_view(text.data() + begin, end - begin)));
  }
  return ids;
}

int main(int argc, char** argv) {
  if (argc != 3) {
    std::fprintf(stderr, "usage: tokens FILE TIMES\n");
    return 2;
  }
  std::ifstream file(argv[1], std::ios::binary);
  std::vector<uint64_t> words;
  for (uint64_t word; file.read(reinterpret_cast<char*>(&word), sizeof word);) words.push_back(word);
  if (words.size() < 2 || words[1] > (words.size() - 2) * (words[0] == 0 ? 1 : sizeof words[0])) {
    std::fprintf(stderr, "%s has no list and no text\n", argv[1]);
    return 1;
  }
  std::vector<S2CellId> ids;
  std::string text;
  if (words[0] == 0) {
    for (size_t i = 0; i < words[1]; i++) ids.push_back(S2CellId(words[2 + i]));
    for (long left = std::atol(argv[2]); left > 0; left--) text = Written(ids);
    return std::fwrite(text.data(), 1, text.size(), stdout) == text.size() && std::fflush(stdout) == 0 ? 0 : 1;
  }
  text.assign(reinterpret_cast<const char*>(words.data() + 2), words[1]);
  for (long left = std::atol(argv[2]); left > 0; left--) ids = Read(text);
  for (S2CellId id : ids) {
    uint64_t word = id.id();
    if (std::fwrite(&word, sizeof word, 1, stdout) != 1) return 1;
  }
  return std::fflush(stdout) == 0 ? 0 : 1;
}
