#include "history.hpp"

#include <algorithm>

namespace trace {

const char *words(State state) {
  switch (state) {
    case State::made: return "made only";
    case State::attempted: return "attempted";
    case State::totally_registered: return "totally registered";
    case State::settled: return "settled";
  }
  return "";
}

dvs::Set ViewHistory::those(std::optional<Time> Stay::*when) const {
  dvs::Set found;
  for (std::uint32_t member = 0; member < DVS_MEMBERS; ++member)
    if (stays[member].*when) found = found.with(dvs::Member{member});
  return found;
}

State ViewHistory::state() const {
  if (!those(&Stay::settled).empty()) return State::settled;
  if (those(&Stay::registered) == view.set) return State::totally_registered;
  return those(&Stay::attempted).empty() ? State::made : State::attempted;
}

History::History(std::uint32_t members, dvs::Set first) : members_(members) {
  ViewHistory begun{{dvs::Identifier{0}, first}, 0, {}};
  for (dvs::Member member : dvs::Set::below(members)) begun.stays[dvs::number(member)].settled = 0;
  for (dvs::Member member : first) begun.stays[dvs::number(member)] = {0, 0, 0, 0, {}};
  views_.push_back(begun);
}

Stay &History::stay(dvs::Identifier view, dvs::Member member) {
  const auto found = std::find_if(views_.begin(), views_.end(), [view](const ViewHistory &one) { return one.view.identifier == view; });
  return found->stays[dvs::number(member)];
}

// The member goes on to a view and leaves all those below it but the one that it keeps.
void History::leave_below(dvs::Identifier view, dvs::Member member, std::optional<dvs::View> kept) {
  for (ViewHistory &one : views_) {
    Stay &stay = one.stays[dvs::number(member)];
    const bool keeps = kept && kept->identifier == one.view.identifier;
    if (one.view.identifier < view && one.view.set.has(member) && !keeps && !stay.left) stay.left = steps_;
  }
}

void History::add(const dvs::Group &group, const dvs::Step &step, const dvs::Event &event) {
  ++steps_;
  if (step.kind == dvs::StepKind::create) {
    views_.push_back({{dvs::Identifier{step.first}, dvs::Set(static_cast<std::uint32_t>(step.second))}, steps_, {}});
    return;
  }
  const dvs::Member member{step.first};
  if (step.kind == dvs::StepKind::join) {
    const dvs::Identifier joined{static_cast<std::uint32_t>(step.second)};
    stay(joined, member).joined = steps_;
    leave_below(joined, member, group.look(member).client());
  }
  if (event.kind == dvs::EventKind::attempted) {
    stay(event.view, member).attempted = steps_;
    leave_below(event.view, member, std::nullopt);
  }
  if (event.kind == dvs::EventKind::registered) stay(event.view, member).registered = steps_;
  // A view is settled by a collect, or by an info that says so.
  Stay &settled = stay(group.look(member).settled().identifier, member);
  if (!settled.settled) settled.settled = steps_;
}

}  // namespace trace
