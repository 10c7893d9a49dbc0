// Random numbers that a seed and a case's number determine, and the numbers at which something changes.
#pragma once

#include "layout.hpp"

namespace outside {

class Random {
  uint64_t state_;

 public:
  explicit Random(uint64_t seed, uint64_t number = 0) : state_(seed * 0x9e3779b97f4a7c15u ^ number * 0xd1b54a32d192ed03u) {
    bits(), bits();
  }

  // SplitMix64.
  uint64_t bits() {
    uint64_t z = state_ += 0x9e3779b97f4a7c15u;
    z = (z ^ z >> 30) * 0xbf58476d1ce4e5b9u;
    z = (z ^ z >> 27) * 0x94d049bb133111ebu;
    return z ^ z >> 31;
  }

  unsigned below(uint64_t n) { return static_cast<unsigned>((bits() >> 32) * n >> 32); }
  unsigned between(unsigned least, unsigned most) { return least + below(most - least + 1u); }
  bool chance(unsigned in_a_thousand) { return below(1000) < in_a_thousand; }
  uint8_t byte() { return static_cast<uint8_t>(bits()); }

  void fill(uint8_t* at, size_t size) {
    for (; size >= 8; at += 8, size -= 8) {
      uint64_t word = bits();
      memcpy(at, &word, 8);
    }
    for (uint64_t word = bits(); size > 0; --size, word >>= 8) *at++ = static_cast<uint8_t>(word);
  }

  template <class T, size_t N> T one_of(const T (&of)[N]) { return of[below(N)]; }

  // A byte near a limit of some field, or any.
  uint8_t odd_byte() {
    static const uint8_t odd[] = {0, 1, 2, 3, 4, 5, 7, 8, 9, 15, 16, 17, 30, 31, 32, 33, 127, 128, 129, 130, 254, 255};
    return chance(800) ? one_of(odd) : byte();
  }

  uint32_t odd_word() {
    static const uint32_t odd[] = {0, 1, 2, 7, 8, 9, 31, 32, 33, 127, 128, 129, 255, 256, 257, 65535, 65536,
                                   0x7fffffff, 0x80000000, 0x80000001, 0xfffffffe, 0xffffffff};
    return chance(800) ? one_of(odd) : static_cast<uint32_t>(bits());
  }

  uint64_t odd_long() {
    static const uint64_t odd[] = {0, 1, 2, 127, 128, 129, 255, 256, 0xffffffff, 0x100000000, 0x100000001,
                                   0x7fffffffffffffff, 0x8000000000000000, 0xfffffffffffffffe, 0xffffffffffffffff};
    return chance(700) ? one_of(odd) : bits();
  }

  // A set of members that is not empty.
  uint8_t set(unsigned members) { return static_cast<uint8_t>(1 + below((1u << members) - 1)); }

  // A set that a majority test often passes: all members but perhaps a few.
  uint8_t wide_set(unsigned members) {
    auto all = static_cast<uint8_t>((1u << members) - 1), less = all;
    if (chance(400)) less = static_cast<uint8_t>(less & ~(1u << below(members)));
    if (chance(150)) less = static_cast<uint8_t>(less & ~(1u << below(members)));
    return less ? less : all;
  }
};

}  // namespace outside
