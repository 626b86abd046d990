// cpp FILE TIMES: answers the request lines of FILE, TIMES times over, by S2RegionCoverer of the C++ S2 library; the last time it writes
// the answers as `cover` does, with - for steps and set-aside totals. Takes `covering` and `interior`, without options. See bench/run.
#include <cinttypes>
#include <cstdio>
#include <cstdlib>
#include <cstring>
#include <fstream>
#include <sstream>
#include <string>
#include <vector>

#include <s2/s2cap.h>
#include <s2/s2cell.h>
#include <s2/s2region_coverer.h>

struct Request {
  bool inner, cap;
  S2RegionCoverer::Options options;
  S2Point center;
  double radius;
  S2CellId id;
};

static double Real(const std::string& digits) {
  uint64_t bits = std::strtoull(digits.c_str(), nullptr, 16);
  double value;
  std::memcpy(&value, &bits, sizeof value);
  return value;
}

static bool ReadLine(const std::string& line, Request* r) {
  std::istringstream fields(line);
  std::string kind, region, x, y, z, radius;
  int min, max, mod, cells;
  if (!(fields >> kind >> min >> max >> mod >> cells >> region >> x)) return false;
  r->inner = kind == "interior";
  r->cap = region == "cap";
  r->options.set_min_level(min);
  r->options.set_max_level(max);
  r->options.set_level_mod(mod);
  r->options.set_max_cells(cells);
  if (r->cap) {
    if (!(fields >> y >> z >> radius)) return false;
    r->center = S2Point(Real(x), Real(y), Real(z));
    r->radius = Real(radius);
  } else {
    r->id = S2CellId(std::strtoull(x.c_str(), nullptr, 16));
  }
  return (r->inner || kind == "covering") && (r->cap || region == "cell");
}

static void Covered(S2RegionCoverer* coverer, bool inner, const S2Region& region, std::vector<S2CellId>* found) {
  if (inner) {
    coverer->GetInteriorCovering(region, found);
  } else {
    coverer->GetCovering(region, found);
  }
}

static void Answer(const Request& r, S2RegionCoverer* coverer, std::vector<S2CellId>* found) {
  *coverer->mutable_options() = r.options;
  if (r.cap) {
    Covered(coverer, r.inner, S2Cap(r.center, S1ChordAngle::FromLength2(r.radius)), found);
  } else {
    Covered(coverer, r.inner, S2Cell(r.id), found);
  }
}

int main(int argc, char** argv) {
  if (argc != 3) {
    std::fprintf(stderr, "usage: cpp FILE TIMES\n");
    return 2;
  }
  std::ifstream file(argv[1]);
  std::vector<Request> requests;
  for (std::string line; std::getline(file, line);) {
    requests.emplace_back();
    if (!ReadLine(line, &requests.back())) {
      std::fprintf(stderr, "cpp: line %zu can't be taken\n", requests.size());
      return 1;
    }
  }
  S2RegionCoverer coverer;
  std::vector<S2CellId> found;
  for (long left = std::atol(argv[2]); left > 0; left--) {
    for (const Request& request : requests) {
      Answer(request, &coverer, &found);
      if (left > 1) continue;
      std::printf("ok - - - - - - - %zu", found.size());
      for (S2CellId id : found) std::printf(" %016" PRIx64, id.id());
      std::printf("\n");
    }
  }
}
