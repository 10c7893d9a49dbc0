// The library from outside: every exported function beside a plain implementation written from the specification.
//
//   outside_test short SEED          lengths, limits and some thousand random cases; every answer must have been seen
//   outside_test fuzz SECONDS SEED   random cases until the time is over
//   outside_test case SEED NUMBER    one of these cases, every call of it printed
//   outside_test lines               answers lines, the driver's among them: lines.hpp
#include <chrono>
#include <cstdlib>
#include <ctime>
#include <string>

#include "crossing_cases.hpp"
#include "edges.hpp"
#include "form_cases.hpp"
#include "form_refusals.hpp"
#include "group_cases.hpp"
#include "huge.hpp"
#include "lines.hpp"
#include "list_cases.hpp"
#include "member_cases.hpp"
#include "message_cases.hpp"
#include "packet_cases.hpp"
#include "papers.hpp"
#include "stack.hpp"

namespace {

using namespace outside;
using Clock = std::chrono::steady_clock;

constexpr uint64_t kShortCases = 1800;

class Test {
  Tally tally_;
  Calls calls_{tally_};
  MemberCases member_{calls_};
  GroupCases group_{calls_};
  FormCases forms_{calls_};
  MessageCases messages_{calls_};
  PacketCases packets_{calls_};
  Clock::time_point begun_ = Clock::now();

  double seconds() const { return std::chrono::duration<double>(Clock::now() - begun_).count(); }

  // A case is determined by the seed and its number.
  void run_case(uint64_t seed, uint64_t number) {
    tally_.seed = seed, tally_.number = number;
    Random r(seed, number);
    // Nothing of an earlier case is left in what calls are lent besides books.
    for (Lent* lent : {&calls_.event, &calls_.buffer, &calls_.length, &calls_.message, &calls_.answers, &calls_.count,
                       &calls_.delivery, &calls_.views, &calls_.found})
      r.fill(lent->mine(), lent->most());
    calls_.usual();
    switch (number % 15) {
      case 0: case 1: case 2: case 3: return member_.history(r);
      case 4: case 5: case 6: case 7:
        for (unsigned n = 0; n < 40; ++n) member_.single(r);
        return;
      case 8:
        for (unsigned n = 0; n < 20; ++n) member_.noise(r);
        return group_.noise(r);
      case 9: return group_.history(r);
      case 10: return group_.made_up(r);
      case 11: return group_.run(r);
      case 12: return forms_.made_up(r);
      case 13: return packets_.some(r);
      default: return messages_.some(r);
    }
  }

  // By the processor's time, since others may use the machine too.
  void print_rate() const {
    double own = static_cast<double>(clock()) / CLOCKS_PER_SEC, made = static_cast<double>(tally_.calls());
    printf("%" PRIu64 " calls compared, %.1f GB of lent bytes, %.1f s, %.1f s of them computing, %.0f calls a second of these; ",
           tally_.calls(), static_cast<double>(tally_.bytes()) / 1e9, seconds(), own, made / own);
    printf("no difference\n");
  }

 public:
  int run_short(uint64_t seed) {
    if (!guards_work()) return printf("the pages beside a lent range can be touched\n"), 1;
    if (!library_agrees()) return 1;
    if (!Papers(calls_).run() || !forms_.run() || !FormRefusals(calls_).run() || !packets_.run() || !ListCases(calls_).run() ||
        !CrossingCases(calls_).run())
      return 1;
    for (uint64_t number = 0; number < kShortCases; ++number) run_case(seed, number);
    Random r(seed);
    messages_.every(r);
    Edges(calls_).run();
    if (!std::make_unique<Huge>()->run() || !std::make_unique<Stack>()->run()) return 1;
    bool whole = tally_.print();
    print_rate();
    if (!whole) printf("not every answer of calls.inc was seen, or another was\n");
    return whole ? 0 : 1;
  }

  int run_fuzz(double most, uint64_t seed) {
    uint64_t number = 0;
    for (; seconds() < most; ++number) run_case(seed, number);
    tally_.print();
    printf("seed %" PRIu64 ", %" PRIu64 " cases\n", seed, number);
    print_rate();
    return 0;
  }

  int run_one(uint64_t seed, uint64_t number) {
    tally_.verbose = true;
    run_case(seed, number);
    printf("no difference in case %" PRIu64 " of seed %" PRIu64 "\n", number, seed);
    return 0;
  }

  int run_lines() { return Lines(calls_).run() ? 0 : 1; }
};

}  // namespace

int main(int count, char** words) {
  std::string what = count > 1 ? words[1] : "";
  auto number = [&](int i) { return strtoull(words[i], nullptr, 10); };
  static Test test;
  if (what == "short" && count == 3) return test.run_short(number(2));
  if (what == "fuzz" && count == 4) return test.run_fuzz(strtod(words[2], nullptr), number(3));
  if (what == "case" && count == 4) return test.run_one(number(2), number(3));
  if (what == "lines" && count == 2) return test.run_lines();
  fprintf(stderr, "outside_test short SEED | fuzz SECONDS SEED | case SEED NUMBER | lines\n");
  return 2;
}
