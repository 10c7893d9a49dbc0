// The offices of examples/kept, each a process of its own, are stopped and started again. Their public histories go to the standard output, for
// tests/figure1/figure1.py to judge; what was tried is said on the standard error. The directory must not be there yet.
//
//   kept disk DIRECTORY                     the disk by itself: its lock, saves that fail, and bytes that were changed
//   kept stops DIRECTORY                    ends an office at its first action, at its second, and so on, until there are no more
//   kept kills DIRECTORY COUNT SEED [CARE]  kills offices at any time; with a care of careless.hpp, the offices break the rule
#include "trials.hpp"

#include <unistd.h>

namespace kept {

void Tally::print() const {
  for (unsigned i = 0; i < kActions; ++i) std::fprintf(stderr, "%s %s %u", i == 0 ? "" : ",", kNames[i], counts_[i]);
  std::fprintf(stderr, "\n");
}

void Tally::need_each() const {
  for (const unsigned times : counts_) expect(times > 0, "an office was stopped at each action");
}

}  // namespace kept

// A trial that takes so long hangs, and fails.
constexpr unsigned kMostSeconds = 1800;

int main(int count, char **arguments) {
  using namespace kept;
  const std::vector<std::string> words(arguments + 1, arguments + count);
  alarm(kMostSeconds);
  const std::optional<Care> care = words.size() == 5 ? care_of(words[4]) : Care::kept;
  if (words.size() == 2 && words[0] == "disk") try_disk(words[1]);
  else if (words.size() == 2 && words[0] == "stops") try_stops(words[1]);
  else if (words.size() >= 4 && words[0] == "kills" && care) try_kills(words[1], static_cast<unsigned>(std::stoul(words[2])), std::stoull(words[3]), *care);
  else expect(false, "the arguments are those that main.cpp says");
}
