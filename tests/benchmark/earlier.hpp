// An earlier library beside this one, if one is given (-DBEFORE): its functions have their names after before_. It
// has ranges of its own, of the same lengths, and must leave the same bytes in them. Only the head of the queues may
// differ, after the number of views made: an earlier layout may keep less there. What it did not have is not compared.
#pragma once

#include <vector>

#include "../../include/dvs.h"

// A call by its name without dvs_, as a member of a class of calls; and the declaration of the earlier one.
#define BY_DVS(name) static constexpr auto name = dvs_##name;
#define BY_BEFORE(name) static constexpr auto name = before_dvs_##name;
#define OF_BEFORE(name) decltype(dvs_##name) before_dvs_##name;

namespace benchmark {

#ifdef BEFORE
constexpr bool kBefore = true;
#else
constexpr bool kBefore = false;
#endif

// The names of a table's sides, and of the earlier library's, which is always last.
inline std::vector<const char*> with_before(std::vector<const char*> sides) {
  if (kBefore) sides.push_back("before");
  return sides;
}

}  // namespace benchmark
