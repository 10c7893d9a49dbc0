// The whole group by direct calls, on the steps of a steady script: read from its lines once, then kept as numbers.
#include <fstream>
#include <sstream>

#include "group_sides.hpp"

namespace benchmark {

namespace {

constexpr unsigned kRoom = 8;  // views, as the bench lends

const char* const kNames[] = {"group",   "create",   "join", "pass", "order", "deliver", "attempt",
                              "register", "send",     "hand", "tell", "safe",  "collect"};

// The script's first group: its start, and its steps up to the next start. `views` limits the views made.
std::vector<Step> life(const std::string& script, unsigned views) {
  std::ifstream in(script);
  if (!in) fail("there is no script " + script);
  std::vector<Step> steps;
  for (std::string line; std::getline(in, line);) {
    std::istringstream words(line);
    std::string name;
    uint64_t first = 0, second = 0;
    words >> name >> first >> second;
    Step s = {0, static_cast<uint32_t>(first), second};
    while (s.kind < 13 && name != kNames[s.kind]) ++s.kind;
    if (s.kind == 13) fail("a line of the script is no step");
    if (!steps.empty() && (s.kind == 0 || (s.kind == DVS_STEP_CREATE && first >= views))) return steps;
    steps.push_back(s);
  }
  fail("the script ends within its first group");
}

struct Sides {
  Ranges library{kRoom}, bytes{kRoom};
  Structured structs;
  Unchecked unchecked;
  Before before{kRoom};

  void compare(const std::vector<Step>& steps) {
    for (const Step& s : steps) {
      plain::Event event, quick;
      uint32_t a, b, c, d;
      if (s.kind == 0) {
        auto set = static_cast<uint32_t>(s.second);
        a = library.start(s.first, set), b = structs.start(s.first, set, kRoom);
        c = unchecked.start(s.first, set, kRoom), d = bytes.start_independent(s.first, set);
      } else {
        a = library.step(s), b = structs.step(s, event), c = unchecked.step(s, quick), d = bytes.step_independent(s);
        if (!library.shows(event) || !library.shows(quick)) fail("a group's event is otherwise");
      }
      if (a || b || c || d) fail("a step of the steady script is refused");
      if (kBefore) compare_before(s, event);
      if (library.books != bytes.books || library.list != bytes.list) fail("a group's books or list are otherwise");
    }
    if (!library.same(bytes)) fail("a group's queues are otherwise");
    if (kBefore && !library.same_below_head(before)) fail("the earlier library leaves other bytes");
  }

  void compare_before(const Step& s, const plain::Event& event) {
    if (s.kind ? before.step(s) : before.start(s.first, static_cast<uint32_t>(s.second)))
      fail("a step of the steady script is refused by the earlier library");
    if (s.kind && !before.shows(event)) fail("the earlier library's event is otherwise");
  }
};

template <class Start, class Next> uint64_t run(const std::vector<Step>& steps, Start start, Next next) {
  uint64_t accepted = 0;
  for (const Step& s : steps)
    accepted += (s.kind ? next(s) : start(s.first, static_cast<uint32_t>(s.second))) == DVS_ACCEPTED;
  return accepted;
}

// The steps one by one.
template <class By> Run calls(const std::vector<Step>& steps, RangesBy<By>& side) {
  return [&] {
    return run(steps, [&](uint32_t n, uint32_t set) { return side.start(n, set); },
               [&](const Step& s) { return side.step(s); });
  };
}
template <class Structs> Run struct_calls(const std::vector<Step>& steps, Structs& side) {
  return [&] {
    plain::Event event;
    return run(steps, [&](uint32_t n, uint32_t set) { return side.start(n, set, kRoom); },
               [&](const Step& s) { return side.step(s, event); });
  };
}

void time_steps(const std::string& what, const std::vector<Step>& steps) {
  Sides sides;
  sides.compare(steps);
  auto parsed = [&] {
    return run(steps, [&](uint32_t n, uint32_t set) { return sides.bytes.start_independent(n, set); },
               [&](const Step& s) { return sides.bytes.step_independent(s); });
  };
  std::vector<Run> runs = {calls(steps, sides.library), struct_calls(steps, sides.structs),
                           struct_calls(steps, sides.unchecked), parsed};
  if (kBefore) runs.push_back(calls(steps, sides.before));
  std::vector<Times> times = measure(steps.size(), runs);
  if (!sides.library.same(sides.bytes)) fail("a group's ranges are otherwise after their timed runs");
  row(what + ", " + std::to_string(steps.size()), times);
}

// The start and the steps as one run, whose answers are those of the steps one by one.
void time_run(const std::string& what, const std::vector<Step>& steps) {
  Sides sides;
  sides.compare(steps);
  Ranges whole(kRoom);
  const Step start = steps[0];
  const auto set = static_cast<uint32_t>(start.second);
  List list(std::vector<Step>(steps.begin() + 1, steps.end()));
  if (whole.run(start.first, set, list) != steps.size() || !whole.same(sides.library))
    fail("a run leaves other bytes than its steps");
  sides.library.start(start.first, set);
  for (size_t i = 0; i < list.size(); ++i)
    if (sides.library.step(steps[i + 1]) || memcmp(list.event(i), sides.library.event, DVS_EVENT_SIZE))
      fail("an event in a run is otherwise");
  std::vector<Run> runs = {[&] { return whole.run(start.first, set, list); }, calls(steps, sides.library),
                           struct_calls(steps, sides.structs), struct_calls(steps, sides.unchecked)};
  if (kBefore) runs.push_back([&] { return sides.before.run(start.first, set, list); });
  std::vector<Times> times = measure(steps.size(), runs);
  if (!whole.same(sides.library)) fail("a run's ranges are otherwise after its timed runs");
  row(what + ", " + std::to_string(steps.size()), times);
}

}  // namespace

void groups(const std::string& script) {
  head("Steps of a group of five, and how many a run is. structs: the host keeps structs, refusal 4 checked in\n"
       "every step. unchecked: the same without refusal 4. bytes: the library's ranges, every book parsed in every\n"
       "step.",
       with_before({"library", "structs", "unchecked", "bytes"}));
  const std::vector<Step> first = life(script, 1), all = life(script, kRoom);
  time_steps("messages in the first view", first);
  time_steps("messages and views 1 to 8", all);
  head("The same as one run (dvs_group_run), in ns a step. one by one: the library's start and steps, a call each.",
       with_before({"library", "one by one", "structs", "unchecked"}));
  time_run("messages in the first view", first);
  time_run("messages and views 1 to 8", all);
}

}  // namespace benchmark
