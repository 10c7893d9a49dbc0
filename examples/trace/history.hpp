// What became of each view of a group: when it was made, and when each member joined it, attempted it, registered in it, settled it and left it for another.
// Times are numbers of accepted steps, and 0 is the start.
#pragma once

#include <dvs.hpp>

#include <array>
#include <optional>
#include <vector>

namespace trace {

using Time = std::size_t;

// One member and one view. A member has left a view when it can be neither its carrier view nor its client view any more: it attempted a later one, or
// it joined a later one and had not attempted this one.
struct Stay {
  std::optional<Time> joined, attempted, registered, settled, left;
};

// From the least to the most that can be said of a view.
enum class State { made, attempted, totally_registered, settled };
const char *words(State state);

struct ViewHistory {
  dvs::View view;
  Time made = 0;
  // A member that is not in the view has a place too: it may hear that the view is settled.
  std::array<Stay, DVS_MEMBERS> stays{};

  // The members of whom this is known: those(&Stay::attempted).
  dvs::Set those(std::optional<Time> Stay::*when) const;
  State state() const;
};

class History {
 public:
  // The group has just started: the first view is joined, attempted and registered by its members, and everyone has it settled.
  History(std::uint32_t members, dvs::Set first);
  // The group accepted a step, which gave the event. The group is as the step left it.
  void add(const dvs::Group &group, const dvs::Step &step, const dvs::Event &event);

  std::uint32_t members() const { return members_; }
  Time steps() const { return steps_; }
  // By rising identifiers, which is the order in which they were made.
  const std::vector<ViewHistory> &views() const { return views_; }

 private:
  Stay &stay(dvs::Identifier view, dvs::Member member);
  void leave_below(dvs::Identifier view, dvs::Member member, std::optional<dvs::View> kept);

  std::uint32_t members_;
  Time steps_ = 0;
  std::vector<ViewHistory> views_;
};

}  // namespace trace
