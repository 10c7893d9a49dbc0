// Views formed by one call, beside the same steps by hand and beside structs that do as much by their own steps.
#include "group_sides.hpp"

namespace benchmark {

namespace {

std::vector<Step> steps_of(uint32_t set, uint32_t view) {
  std::vector<Step> steps;
  for (uint32_t kind : kForming)
    for (unsigned p = 0; p < DVS_MEMBERS; ++p)
      for (unsigned i = plain::ones(set & 1u << p) * (kind == DVS_STEP_DELIVER ? plain::ones(set) : 1); i > 0; --i)
        steps.push_back({kind, p, view});
  return steps;
}

// A group of so many servers in which one view after another, of all of them, is made and formed.
class Forming {
  const unsigned servers_, views_;
  const uint32_t set_ = (1u << servers_) - 1;
  const unsigned room_ = views_ + 2;  // the first view, and one that is not to be formed
  Ranges library_{room_}, by_hand_{room_};
  Structured structs_;
  Unchecked unchecked_;
  Before before_{room_};
  std::vector<std::vector<Step>> steps_;  // by view, the first one at 0

  template <class By> uint32_t start(RangesBy<By>& side) { return side.start(servers_, set_); }
  template <class Side> uint32_t start(Side& side) { return side.start(servers_, set_, room_); }
  template <class By> uint32_t step(RangesBy<By>& side, const Step& s, plain::Event&) { return side.step(s); }
  template <class Side> uint32_t step(Side& side, const Step& s, plain::Event& event) { return side.step(s, event); }

  // The runs: how many views were made, and formed.
  template <class Side> uint64_t make(Side& side) {
    plain::Event event;
    uint64_t made = 0;
    if (start(side)) return 0;
    for (uint32_t view = 1; view <= views_; ++view) made += !step(side, {DVS_STEP_CREATE, view, set_}, event);
    return made;
  }
  template <class Side, class Form> uint64_t make_and_form(Side& side, Form form) {
    plain::Event event;
    uint64_t formed = 0;
    if (start(side)) return 0;
    for (uint32_t view = 1; view <= views_; ++view) {
      uint32_t refused = step(side, {DVS_STEP_CREATE, view, set_}, event);
      formed += !refused && form(view);
    }
    return formed;
  }
  template <class Side> uint64_t by_call(Side& side) {
    return make_and_form(side, [&](uint32_t view) {
      uint32_t count = 0;
      return side.form(view, count) == DVS_ACCEPTED && count == steps_[view].size();
    });
  }
  uint64_t by_steps() {
    return make_and_form(by_hand_, [&](uint32_t view) {
      size_t accepted = 0;
      for (const Step& s : steps_[view]) accepted += by_hand_.step(s) == DVS_ACCEPTED;
      return accepted == steps_[view].size();
    });
  }

  void same_ranges() const {
    if (!library_.same(by_hand_)) fail("a formed view's group is otherwise than by its steps");
  }
  void same_refusal(uint32_t view, uint32_t refusal) {
    uint32_t count = 0;
    if (library_.form(view, count) != refusal || structs_.form(view, count) != refusal ||
        unchecked_.form(view, count) != refusal)
      fail("a view that is not to be formed is answered otherwise");
    same_ranges();
  }

 public:
  Forming(unsigned servers, unsigned views) : servers_(servers), views_(views) {
    for (uint32_t view = 0; view <= views; ++view) steps_.push_back(steps_of(set_, view));
  }
  size_t steps() const { return steps_[0].size(); }

  void compare() {
    if (by_call(library_) != views_ || by_steps() != views_ || by_call(structs_) != views_ ||
        by_call(unchecked_) != views_)
      fail("a view is not formed");
    if (kBefore && (by_call(before_) != views_ || !library_.same_below_head(before_)))
      fail("a view is formed otherwise by the earlier library");
    same_refusal(views_, DVS_REFUSED_VIEW_NOT_FRESH);
    same_refusal(views_ + 1, DVS_REFUSED_NO_SUCH_VIEW);
    for (uint32_t kind = DVS_STEP_JOIN; kind <= DVS_STEP_COLLECT; ++kind)
      for (unsigned p = 0; p < servers_; ++p) {
        Step s = {kind, p, views_};
        plain::Event event, quick;
        uint32_t answer = library_.step(s);
        if (by_hand_.step(s) != answer || structs_.step(s, event) != answer || unchecked_.step(s, quick) != answer)
          fail("a step behind a formed view is answered otherwise");
        if (answer == DVS_ACCEPTED && (!library_.shows(event) || !library_.shows(quick)))
          fail("an event behind a formed view is otherwise");
      }
    same_ranges();
    if (servers_ == 1) return;
    Step alone = {DVS_STEP_CREATE, views_ + 1, 1};
    plain::Event event;
    if (library_.step(alone) || by_hand_.step(alone) || structs_.step(alone, event) || unchecked_.step(alone, event))
      fail("a view is not made");
    same_refusal(views_ + 1, DVS_REFUSED_FORM_TEST_FAILED);
  }

  // One call, by hand, structs, unchecked, each less what its start and its creates take.
  std::vector<Times> times() {
    std::vector<Run> runs = {[&] { return by_call(library_); }, [&] { return by_steps(); },
                             [&] { return by_call(structs_); }, [&] { return by_call(unchecked_); }};
    std::vector<Run> less = {[&] { return make(library_); }, [&] { return make(by_hand_); },
                             [&] { return make(structs_); }, [&] { return make(unchecked_); }};
    if (kBefore) runs.push_back([&] { return by_call(before_); }), less.push_back([&] { return make(before_); });
    return measure_less(views_, runs, less);
  }
};

}  // namespace

void forms() {
  head("A view formed by one call, by servers and steps, ns per view. by hand: the same steps, a call each. structs,\n"
       "unchecked: as above, all or none too, by a copy that a refusal puts back.",
       with_before({"library", "by hand", "structs", "unchecked"}));
  constexpr unsigned kSizes[][2] = {{1, 1}, {2, 1}, {5, 1}, {8, 1}, {8, DVS_VIEWS - 2}};
  for (auto [servers, views] : kSizes) {
    Forming forming(servers, views);
    forming.compare();
    std::string what = std::to_string(servers) + (servers > 1 ? " servers, " : " server, ");
    what += std::to_string(forming.steps()) + (views > 1 ? ", views 1 to " + std::to_string(views) : "");
    row(what, forming.times());
  }
}

}  // namespace benchmark
