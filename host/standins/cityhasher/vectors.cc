// Prints vectors.txt from Google's own CityHash64, as Abseil carries it (Debian: libabsl-dev, g++):
//   g++ -std=c++17 vectors.cc -labsl_city -o vectors && ./vectors > vectors.txt
// A line is a length and the hash of that many bytes; byte k of the text of length n is the top byte of
// splitmix64's finaliser over n * 2^32 + k. Every length to 200 (each branch and its edges), then every 13th to 1100.
#include <cstdint>
#include <cstdio>
#include <string>

#include "absl/hash/internal/city.h"

static char byte(uint64_t n, uint64_t k) {
  uint64_t z = (n << 32) + k;
  z = (z ^ (z >> 30)) * 0xbf58476d1ce4e5b9u;
  z = (z ^ (z >> 27)) * 0x94d049bb133111ebu;
  return static_cast<char>((z ^ (z >> 31)) >> 56);
}

int main() {
  for (uint64_t n = 0; n <= 1100; n += n < 200 ? 1 : 13) {
    std::string text;
    for (uint64_t k = 0; k < n; k++) text += byte(n, k);
    uint64_t hash = absl::hash_internal::CityHash64(text.data(), text.size());
    std::printf("%llu %016llx\n", (unsigned long long)n, (unsigned long long)hash);
  }
}
