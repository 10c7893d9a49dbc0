// What was called and answered: the table at the end, beside what calls.inc says each function can answer, and the report of
// a difference.
#pragma once

#include <cinttypes>
#include <cstdio>
#include <cstdlib>

#include "../../include/dvs.h"
#include "lent.hpp"

namespace outside {

constexpr uint32_t kNamed[] = {
#include "refusals.inc"
};

constexpr bool named_in_order() {
  for (uint32_t i = 0; i < sizeof kNamed / sizeof kNamed[0]; ++i)
    if (kNamed[i] != i) return false;
  return true;
}
constexpr unsigned kAnswers = DVS_REFUSALS + 1;
static_assert(named_in_order() && sizeof kNamed / sizeof kNamed[0] == kAnswers, "the header's refusals are numbered");

// The functions and parts of functions that are counted, as the table of calls has them: a packet by what it came to, and a
// group's step by its kind, whose number is the distance of its part from the step of an unknown kind.
enum Function : unsigned {
#define CALL(name, ...) kFn_##name,
#define PART(name, part, ...) kFn_##name##_##part,
#include "calls.inc"
  kFunctions
};
static_assert(kFn_dvs_group_step_create - kFn_dvs_group_step == DVS_STEP_CREATE, "the first kind of step");
static_assert(kFn_dvs_group_step_collect - kFn_dvs_group_step == DVS_STEP_COLLECT, "the last kind of step");

struct Promise {
  const char* name;
  bool accepts;
  uint32_t refusals[kAnswers];  // in the order in which they are checked, then 0
};

// What each can answer. Of a function with parts the accepted calls are those of its parts.
constexpr Promise kPromises[kFunctions] = {
#define CALL(name, ...) {#name, true, {__VA_ARGS__}},
#define SPLIT(name, ...) {#name, false, {__VA_ARGS__}},
#define PART(name, part, ...) {#name " " #part, true, {__VA_ARGS__}},
#include "calls.inc"
};

class Tally {
  uint64_t seen_[kFunctions][kAnswers] = {};
  uint64_t bytes_ = 0;
  uint64_t lists_above_ = 0, lists_unsound_ = 0;

 public:
  uint64_t seed = 0, number = 0;  // of the case that runs
  bool verbose = false;

  void count(Function f, uint32_t answer, uint64_t bytes) { ++seen_[f][answer], bytes_ += bytes; }
  // A random list of steps for a sound group with a client view above its carrier view. Only such a group can become
  // unsound.
  void count_above(bool unsound) { ++lists_above_, lists_unsound_ += unsound; }

  // After a difference: how to see it once more.
  [[noreturn]] void say_again() const {
    printf("  again, with every call of the case: outside_test case %" PRIu64 " %" PRIu64 "\n", seed, number);
    fflush(stdout);
    _exit(1);
  }

  uint64_t calls(Function f) const {
    uint64_t sum = 0;
    for (uint64_t n : seen_[f]) sum += n;
    return sum;
  }
  uint64_t calls() const {
    uint64_t sum = 0;
    for (unsigned f = 0; f < kFunctions; ++f) sum += calls(static_cast<Function>(f));
    return sum;
  }
  uint64_t bytes() const { return bytes_; }

  // Prints the table. False if an answer that calls.inc has was never seen, or another was, or no list left a group unsound
  // before its last step.
  bool print() const {
    bool whole = true;
    printf("%-24s %10s %10s  refusals seen, each with its number of times\n", "function", "calls", "accepted");
    for (unsigned f = 0; f < kFunctions; ++f) {
      const Promise& p = kPromises[f];
      printf("%-24s %10" PRIu64 " %10" PRIu64 " ", p.name, calls(static_cast<Function>(f)), seen_[f][0]);
      bool named[kAnswers] = {};
      named[0] = p.accepts;
      for (const uint32_t* r = p.refusals; *r != 0; ++r) {
        named[*r] = true;
        printf(" %" PRIu32 ":%" PRIu64, *r, seen_[f][*r]);
      }
      for (unsigned a = 0; a < kAnswers; ++a) {
        if (named[a] == (seen_[f][a] > 0)) continue;
        printf(named[a] ? "  NEVER SEEN: %u" : "  NOT IN THE TABLE: %u", a);
        whole = false;
      }
      printf("\n");
    }
    printf("%" PRIu64 " random lists of steps for a sound group with a client view above its carrier view; %" PRIu64
           " of them left it unsound before their last step%s\n",
           lists_above_, lists_unsound_, lists_unsound_ ? "" : "  NEVER SEEN");
    return whole && lists_unsound_ > 0;
  }
};

// Says where a range differs, and what it held there before the call if that was kept.
inline void print_difference(Lent& lent) {
  constexpr size_t kRow = 32;
  unsigned differing = 0;
  for (size_t i = 0; i < lent.size(); ++i) {
    if (lent.theirs()[i] == lent.mine()[i]) continue;
    if (differing++ < 20)
      printf("  %s byte %zu: the library left %u, expected %u\n", lent.name(), i, lent.theirs()[i], lent.mine()[i]);
  }
  printf("  %s: %zu bytes, %u differ\n", lent.name(), lent.size(), differing);
  // The small record of a book and the like, and every row in which something differs.
  for (size_t row = 0; lent.before() && row < lent.size(); row += kRow) {
    size_t width = lent.size() - row < kRow ? lent.size() - row : kRow;
    if (row >= plain::kAtOutgoing && memcmp(lent.theirs() + row, lent.mine() + row, width) == 0) continue;
    printf("  %s before, from %zu:", lent.name(), row);
    for (size_t i = row; i < row + width; ++i) printf(" %02x", lent.before()[i]);
    printf("\n");
  }
}

}  // namespace outside
