// The register that the offices keep: members of a timber frame by their marks (B12, R3, ...), each with its section and an engineer's verdict. An
// entry of the service is one 64-bit number; this file packs a line of the register into it.
#pragma once

#include "dvs.hpp"

#include <map>
#include <string>
#include <tuple>

namespace offices {

// "B12": a letter and a number below 1024.
struct Mark {
  char letter = 'A';
  unsigned number = 0;
};
inline bool operator<(Mark a, Mark b) { return std::tie(a.letter, a.number) < std::tie(b.letter, b.number); }
inline std::string name(Mark mark) { return mark.letter + std::to_string(mark.number); }

enum class Verdict : unsigned { designed = 0, adequate = 1, resized = 2 };
inline const char *name(Verdict verdict) {
  return verdict == Verdict::designed ? "as designed" : verdict == Verdict::adequate ? "adequate" : "re-sized";
}

// Width and depth in millimetres, each below 4096.
struct Section {
  unsigned width = 0, depth = 0;
};
inline std::string name(Section section) { return std::to_string(section.width) + "x" + std::to_string(section.depth); }

// When a line was changed: the primary view, and the entry's place among those handed out in it. Every office that has the entry gives it the same
// stamp. (0, 0) is the design.
struct Stamp {
  unsigned view = 0, place = 0;
};
inline bool operator<(Stamp a, Stamp b) { return std::tie(a.view, a.place) < std::tie(b.view, b.place); }
inline bool operator==(Stamp a, Stamp b) { return a.view == b.view && a.place == b.place; }

// A line of the register. It is safe once every office of the view has it.
struct Line {
  Section section;
  Verdict verdict = Verdict::designed;
  Stamp stamp;
  bool safe = true;
};
using Register = std::map<Mark, Line>;

// What an entry says: a change; a line that an office brings into a new view; or that it has brought all of its lines.
enum class Says : unsigned { change = 1, brought = 2, all_brought = 3 };
struct Entry {
  Says says = Says::change;
  Mark mark;
  Section section;
  Verdict verdict = Verdict::designed;
  Stamp stamp;  // of a line that is brought
};

// From the top: says 4 bits, verdict 4, mark 6 and 10, width 12, depth 12, view 8, place 8.
inline std::uint64_t pack(const Entry &entry) {
  std::uint64_t packed = static_cast<unsigned>(entry.says);
  packed = packed << 4u | static_cast<unsigned>(entry.verdict);
  packed = packed << 6u | static_cast<unsigned>(entry.mark.letter - 'A');
  packed = packed << 10u | entry.mark.number;
  packed = packed << 12u | entry.section.width;
  packed = packed << 12u | entry.section.depth;
  packed = packed << 8u | entry.stamp.view;
  return packed << 8u | entry.stamp.place;
}

inline Entry unpack(std::uint64_t packed) {
  const auto bits = [packed](unsigned at, unsigned width) { return static_cast<unsigned>(packed >> at & ((1u << width) - 1u)); };
  Entry entry;
  entry.says = static_cast<Says>(bits(60, 4));
  entry.verdict = static_cast<Verdict>(bits(56, 4));
  entry.mark = {static_cast<char>('A' + bits(50, 6)), bits(40, 10)};
  entry.section = {bits(28, 12), bits(16, 12)};
  entry.stamp = {bits(8, 8), bits(0, 8)};
  return entry;
}

inline Register design() {
  return {{{'B', 12}, {{63, 175}, Verdict::designed, {}, true}},
          {{'C', 4}, {{100, 100}, Verdict::designed, {}, true}},
          {{'R', 3}, {{50, 150}, Verdict::designed, {}, true}}};
}

}  // namespace offices
