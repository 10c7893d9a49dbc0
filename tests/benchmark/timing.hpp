// Sides timed against each other within one run: in every round each side has its turn, and what counts is the
// processor's time, so that a busy machine does less harm. Nothing passes or fails by its time.
#pragma once

#include <algorithm>
#include <cstdint>
#include <cstdio>
#include <cstdlib>
#include <ctime>
#include <functional>
#include <string>
#include <vector>

namespace benchmark {

constexpr unsigned kRounds = 9;
constexpr double kTurn = 5e6;  // ns of one side's turn in a round, unless one run of it takes longer

[[noreturn]] inline void fail(const std::string& what) {
  printf("WRONG: %s\n", what.c_str());
  exit(1);
}

inline double now() {
  timespec t;
  clock_gettime(CLOCK_PROCESS_CPUTIME_ID, &t);
  return 1e9 * static_cast<double>(t.tv_sec) + static_cast<double>(t.tv_nsec);
}

// What one side took in each round, in ns per call.
struct Times {
  std::vector<double> rounds;

  double best() const { return *std::min_element(rounds.begin(), rounds.end()); }
  double median() const { return middle(rounds); }

  static double middle(std::vector<double> all) {
    std::sort(all.begin(), all.end());
    return all[all.size() / 2];
  }
};

// A run makes `calls` calls and gives how many were accepted: each must be, in every timed run.
using Run = std::function<uint64_t()>;

inline double turn(const Run& run, uint64_t calls, uint64_t times) {
  double from = now();
  for (uint64_t i = 0; i < times; ++i)
    if (run() != calls) fail("a call was refused while it was timed");
  return (now() - from) / static_cast<double>(times * calls);
}

inline std::vector<Times> measure(uint64_t calls, const std::vector<Run>& sides, unsigned rounds = kRounds) {
  std::vector<Times> all(sides.size());
  std::vector<uint64_t> times;
  for (const Run& side : sides) {
    double once = turn(side, calls, 1) * static_cast<double>(calls);
    times.push_back(1 + static_cast<uint64_t>(kTurn / std::max(once, 1.0)));
  }
  for (unsigned r = 0; r < rounds; ++r)
    for (size_t s = 0; s < sides.size(); ++s) all[s].rounds.push_back(turn(sides[s], calls, times[s]));
  return all;
}

// The sides less what another run of each takes, which is counted by its best round.
inline std::vector<Times> measure_less(uint64_t calls, std::vector<Run> sides, const std::vector<Run>& less) {
  const size_t count = sides.size();
  sides.insert(sides.end(), less.begin(), less.end());
  std::vector<Times> all = measure(calls, sides);
  for (size_t side = 0; side < count; ++side)
    for (double& round : all[side].rounds) round -= all[side + count].best();
  all.resize(count);
  return all;
}

// Which times the first side takes of another's: by the best of both, and the median of the rounds' own ratios.
inline double ratio(const Times& first, const Times& other) { return first.best() / other.best(); }

inline double median_ratio(const Times& first, const Times& other) {
  std::vector<double> all;
  for (size_t r = 0; r < first.rounds.size(); ++r) all.push_back(first.rounds[r] / other.rounds[r]);
  return Times::middle(all);
}

// A table's head: the sides by name, the library first.
inline void head(const char* title, const std::vector<const char*>& sides) {
  printf("\n%s\n%-34s", title, "ratio of the library's time to");
  for (size_t s = 1; s < sides.size(); ++s) printf("  %-15s", sides[s]);
  printf(" | ns");
  for (const char* side : sides) printf("  %-15s", side);
  printf("\n");
}

inline void row(const std::string& what, const std::vector<Times>& sides) {
  printf("%-34s", what.c_str());
  for (size_t s = 1; s < sides.size(); ++s)
    printf("  %6.2f (%6.2f)", ratio(sides[0], sides[s]), median_ratio(sides[0], sides[s]));
  printf(" |   ");
  for (const Times& t : sides) printf("  %6.0f (%6.0f)", t.best(), t.median());
  printf("\n");
  fflush(stdout);
}

}  // namespace benchmark
