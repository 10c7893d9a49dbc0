// The trials of the offices of examples/kept.
#pragma once

#include "carrier.hpp"

namespace kept {

constexpr const char *kNames[kActions] = {"load", "wait", "take", "step", "write", "sync", "rename", "sync directory", "publish", "post"};

// How often an office was stopped at each action.
class Tally {
 public:
  void count(Action action) { ++counts_[static_cast<unsigned>(action)]; }
  void print() const;
  // Ends the program if an action was never met.
  void need_each() const;

 private:
  std::array<unsigned, kActions> counts_{};
};

void try_disk(const std::string &directory);
void try_stops(const std::string &directory);
void try_kills(const std::string &directory, unsigned count, std::uint64_t seed, Care care);

}  // namespace kept
