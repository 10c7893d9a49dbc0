// EXPECT: ends a test program with 1, and names the line, if what it is given does not hold.
#pragma once

#include <cstdio>
#include <cstdlib>

[[noreturn]] inline void not_so(const char *file, int line) {
  std::fprintf(stderr, "%s:%d: not so\n", file, line);
  std::exit(1);
}
#define EXPECT(holds) ((holds) ? void() : not_so(__FILE__, __LINE__))
