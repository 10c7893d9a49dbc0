// What the library costs beside independent implementations in C++, in one run.
//   benchmark SCRIPT BENCH PLAIN UNCHECKED   a steady script, the bench, and the plain one with refusal 4 and without
#include <thread>

#include "earlier.hpp"
#include "parts.hpp"

#ifdef __clang__
constexpr char kCompiler[] = __VERSION__;
#else
constexpr char kCompiler[] = "GCC " __VERSION__;
#endif

int main(int argc, char** argv) {
  using namespace benchmark;
  if (argc != 5) return fprintf(stderr, "benchmark SCRIPT BENCH PLAIN UNCHECKED\n"), 2;
  double load[1] = {0};
  if (getloadavg(load, 1) != 1) load[0] = 0;
  printf("Every answer was compared before it was timed. Times are the processor's, in ns per call: the best of %u\n"
         "rounds in which the sides take turns, and the median in brackets. A ratio below 1: the library is quicker.\n"
         "What else the machine does meanwhile is not controlled: load %.1f now, on %u processors.\n"
         "The other sides are C++, compiled by %s.\n",
         kRounds, load[0], std::thread::hardware_concurrency(), kCompiler);
  if (kBefore) printf("before: the same calls of the earlier library; beside lists of steps, its steps one by one.\n");
  messages();
  members();
  packets();
  groups(argv[1]);
  lists();
  forms();
  queries();
  lines(argv[1], {argv[2], argv[3], argv[4]});
  growth();
}
