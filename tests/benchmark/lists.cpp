// Steps as lists, on a group that runs: entries are sent, passed, ordered, taken and handed out by everyone.
#include "growing.hpp"

namespace benchmark {

namespace {

constexpr size_t kSteps = 256;  // of one run, in lists of so many

// A group with so many views of `held` messages, none of which is outgoing or waits, and what comes next.
class Listed {
  Growing now_;
  Ranges lists_, one_by_one_;
  Structured structs_;
  Before before_;
  std::vector<Step> steps_;
  List list_;

  static Growing made(unsigned members, unsigned views, unsigned held) {
    Growing group(members, held, views);
    for (unsigned view = 1; view < views; ++view) group.next_view();
    group.finish_last();
    return group;
  }
  static std::vector<Step> next(Growing group) { return group.more(kSteps); }

  // The runs: how many of the steps were accepted.
  uint64_t by_lists(size_t many) {
    uint64_t accepted = 0;
    Ranges& r = lists_;
    for (size_t i = 0; i < kSteps; i += many) {
      if (dvs_group_steps(r.list.data(), r.list.size(), r.books.data(), r.books.size(), r.queues.data(),
                          r.queues.size(), &list_.steps[DVS_STEP_SIZE * i], DVS_STEP_SIZE * many,
                          &list_.answers[DVS_ANSWER_SIZE * i], DVS_ANSWER_SIZE * many))
        fail("a list of steps is refused");
      accepted += list_.accepted(i, many);
    }
    return accepted;
  }
  template <class By> uint64_t by_steps(RangesBy<By>& side) {
    uint64_t accepted = 0;
    for (const Step& s : steps_) accepted += side.step(s) == DVS_ACCEPTED;
    return accepted;
  }
  uint64_t by_structs() {
    plain::Event event;
    uint64_t accepted = 0;
    for (const Step& s : steps_) accepted += structs_.step(s, event) == DVS_ACCEPTED;
    return accepted;
  }

  // Lists, their steps one by one and the structs give the same answers and leave the same bytes.
  void compare(size_t many) {
    if (by_lists(many) != kSteps) fail("a step of a list is refused");
    for (size_t i = 0; i < kSteps; ++i) {
      plain::Event event;
      if (one_by_one_.step(steps_[i]) || structs_.step(steps_[i], event)) fail("a step that a list takes is refused");
      if (!one_by_one_.shows(event) || memcmp(list_.event(i), one_by_one_.event, DVS_EVENT_SIZE))
        fail("an event in a list is otherwise");
    }
    if (!lists_.same(one_by_one_)) fail("a list leaves other bytes than its steps one by one");
    lists_.go_back(now_.library()), one_by_one_.go_back(now_.library()), structs_.go_back(now_.structs());
  }

 public:
  Listed(unsigned members, unsigned views, unsigned held)
      : now_(made(members, views, held)), lists_(now_.library()), one_by_one_(now_.library()), structs_(now_.structs()),
        before_(now_.before()), steps_(next(now_)), list_(steps_) {}

  std::vector<Times> times(size_t many) {
    compare(many);
    auto again = [](auto run, auto& side, const auto& then) {
      return [&side, &then, run] {
        uint64_t accepted = run();
        side.go_back(then);
        return accepted;
      };
    };
    std::vector<Run> sides = {again([this, many] { return by_lists(many); }, lists_, now_.library()),
                              again([this] { return by_steps(one_by_one_); }, one_by_one_, now_.library()),
                              again([this] { return by_structs(); }, structs_, now_.structs())};
    if (kBefore) sides.push_back(again([this] { return by_steps(before_); }, before_, now_.before()));
    return measure(kSteps, sides);
  }
};

}  // namespace

void lists() {
  head("Steps of a group that runs, as lists of so many (dvs_group_steps), in ns a step. one by one: the library's\n"
       "dvs_group_step, a call each. structs: as above, refusal 4 checked in every step.",
       with_before({"library", "one by one", "structs"}));
  constexpr struct { unsigned members, views, held; const char* what; } kGroups[] = {
      {5, 1, 64, "5 members, 1 view of 64"}, {8, 8, 100, "8 members, 8 views of 100"}};
  for (const auto& group : kGroups) {
    Listed listed(group.members, group.views, group.held);
    for (size_t many : {1, 8, 64, 256})
      row(std::string(group.what) + ", by " + std::to_string(many), listed.times(many));
  }
}

}  // namespace benchmark
