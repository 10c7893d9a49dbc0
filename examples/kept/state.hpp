// All that an office keeps, in one file and by one save a turn: what belongs together must not come back from different turns.
#pragma once

#include "bytes.hpp"

#include <array>

namespace kept {

// The register that the offices keep copies of: a few marks, and the latest entry of each. An entry says its mark, and the greater of two is the later one.
constexpr unsigned kMarks = 4;
using Copy = std::array<std::uint64_t, kMarks>;
constexpr unsigned mark_of(std::uint64_t entry) { return static_cast<unsigned>(entry % kMarks); }
// Above what an office has of a mark, and no two offices make one entry.
constexpr std::uint64_t entry_of(std::uint64_t version, dvs::Member maker, unsigned mark) {
  return (version * DVS_MEMBERS + dvs::number(maker)) * kMarks + mark;
}
constexpr std::uint64_t version_of(std::uint64_t entry) { return entry / (DVS_MEMBERS * kMarks); }

struct State {
  dvs::Book book;
  Copy copy{};                      // a told count speaks of it, so it is saved with the book
  std::uint64_t version = 0;        // the highest of an entry that this office made
  std::uint32_t highest = 0;        // the highest identifier that this office made or saw
  std::uint64_t number = 0;         // of the first event of the turn
  std::vector<std::string> events;  // of the turn, which may not have been published when the office is stopped
};

Buffer pack(const State &state);
// False if the bytes are not what pack gave; the state is then not to be used. A book that load refuses, as one of another layout, ends the process with
// the reason.
bool unpack(dvs::Bytes bytes, State &state);

}  // namespace kept
