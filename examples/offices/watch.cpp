#include "watch.hpp"

#include <algorithm>
#include <cstdio>
#include <cstdlib>

namespace offices {

void expect(bool holds, const char *words) {
  if (holds) return;
  std::fflush(stdout);
  std::fprintf(stderr, "offices: not so: %s\n", words);
  std::exit(1);
}

Watch::Watch(dvs::Set first, Rule rule) : rule_(rule) {
  Seen &seen = views_[dvs::Identifier{0}];
  seen.set = seen.registered = first;
}

void Watch::hold_to(bool holds, const char *words) {
  if (rule_ == Rule::service) expect(holds, words);
  if (!holds) broken_.insert(words);
}

bool Watch::registered_between(dvs::Identifier low, dvs::Identifier high) const {
  return std::any_of(views_.upper_bound(low), views_.lower_bound(high),
                     [](const auto &view) { return view.second.registered == view.second.set; });
}

void Watch::attempted(const dvs::Event &event) {
  views_[event.view].set = event.set;
  for (const auto &[identifier, seen] : views_) {
    if (identifier == event.view || !(seen.set & event.set).empty()) continue;
    const auto [low, high] = std::minmax(identifier, event.view);
    hold_to(registered_between(low, high), "attempted views with no registered one between them share an office");
  }
}

void Watch::registered(const dvs::Event &event, const Register &marks) {
  Seen &seen = views_.at(event.view);
  seen.registered = seen.registered.with(event.member);
  none_lost(event.view, marks);
}

void Watch::handed(const dvs::Event &event, unsigned place) {
  Seen &seen = views_.at(event.view);
  hold_to(place == ++seen.handed[event.member], "entries are handed out one by one");
  const std::pair<dvs::Member, std::uint64_t> entry{event.sender, event.entry};
  if (place > seen.entries.size()) seen.entries.push_back(entry);
  hold_to(seen.entries[place - 1] == entry, "all offices of a view are handed one order");
}

void Watch::safe(const dvs::Event &event, unsigned place, Mark mark, Stamp stamp) {
  Seen &seen = views_.at(event.view);
  hold_to(seen.entries.at(place - 1) == std::make_pair(event.sender, event.entry), "what is safe is what was handed out there");
  for (unsigned i = 0; i < DVS_MEMBERS; ++i)
    if (seen.set.has(dvs::Member{i})) hold_to(seen.handed[dvs::Member{i}] >= place, "what is safe was handed out in every office of the view");
  if (safe_[mark] < stamp) {
    safe_[mark] = stamp;
    ++lines_safe_;
  }
}

void Watch::none_lost(dvs::Identifier view, const Register &marks) {
  for (const auto &[mark, stamp] : safe_)
    if (stamp.view <= dvs::number(view)) hold_to(!(marks.at(mark).stamp < stamp), "a safe line is not lost");
}

}  // namespace offices
