#include "layout.hpp"

#include "words.hpp"

#include <algorithm>

namespace trace {

namespace {

// A step takes kStep pixels, and the steps of a long script together take kSpan. The marks of one bar are at least kMark apart.
constexpr int kStep = 6, kSpan = 1600, kMark = 13, kGap = 6, kLane = kBarHeight + 10, kTop = 68;

std::size_t key(std::size_t view, dvs::Member member) { return view * DVS_MEMBERS + dvs::number(member); }

int width_of(std::string_view text) { return static_cast<int>(text.size()) * kLetter; }

// For each time the bars on which something is drawn then: the begin, a mark or the end.
std::vector<std::vector<std::size_t>> touched(const History &history) {
  std::vector<std::vector<std::size_t>> bars(history.steps() + 1);
  for (std::size_t place = 0; place < history.views().size(); ++place) {
    const ViewHistory &one = history.views()[place];
    for (dvs::Member member : one.view.set) {
      const Stay &stay = one.stays[dvs::number(member)];
      bars[one.made].push_back(key(place, member));
      for (std::optional<Time> time : {stay.joined, stay.attempted, stay.registered, stay.settled})
        if (drawn(one, stay, time)) bars[*time].push_back(key(place, member));
      if (stay.left) bars[*stay.left].push_back(key(place, member));
    }
  }
  return bars;
}

// Time goes evenly, and waits wherever a bar has no room yet for what is drawn on it next.
void place_times(const History &history, Layout &layout) {
  const auto bars = touched(history);
  const Time steps = history.steps(), span = std::min<Time>(steps * kStep, kSpan);
  std::vector<int> room(history.views().size() * DVS_MEMBERS);   // from where on each bar has some
  int waited = kLeft + kMargin, made = 0;
  auto next = history.views().begin();
  for (Time time = 0; time <= steps; ++time) {
    const int even = steps == 0 ? 0 : static_cast<int>(time * span / steps);
    const bool makes = next != history.views().end() && next->made == time;
    int x = makes ? std::max(even + waited, made + kMark) : even + waited;
    for (std::size_t bar : bars[time]) x = std::max(x, room[bar]);
    // A bar begins with its view's identifier.
    const int taken = makes ? width_of(words(next->view.identifier)) + kMark : kMark;
    for (std::size_t bar : bars[time]) room[bar] = x + taken;
    waited = x - even;
    layout.at.push_back(x);
    if (!makes) continue;
    made = x;
    ++next;
  }
  layout.right = std::max(layout.at.back(), *std::max_element(room.begin(), room.end())) + kMargin;
}

// A flag hangs below every earlier flag that reaches over its left edge. Its pole goes down from there, so it crosses no flag.
void place_flags(const Told &told, Layout &layout) {
  layout.bottom = kTop;
  for (std::size_t place = 0; place < told.history.views().size(); ++place) {
    const ViewHistory &one = told.history.views()[place];
    const Answer &answer = told.answers[place];
    Flag flag{layout.at[one.made], kTop, 0, "view " + words(one.view), words(one.state())};
    if (answer.crossed) flag.words += (answer.held ? ", majority: " : ", crossed: ") + share(told.set, one.view);
    flag.width = kSwatch + std::max(width_of(flag.name), width_of(flag.words)) + kGap;
    for (const Flag &other : layout.flags)
      if (other.left + other.width + kGap > flag.left) flag.top = std::max(flag.top, other.top + kFlagHeight + kGap);
    layout.bottom = std::max(layout.bottom, flag.top + kFlagHeight);
    layout.right = std::max(layout.right, flag.left + flag.width);
    layout.flags.push_back(flag);
  }
}

// Each bar takes the first lane of the row that is free at its begin.
void place_row(const History &history, dvs::Member member, Layout &layout) {
  const Row row{layout.bottom, 0};
  std::vector<int> lanes;   // how far each is taken
  for (std::size_t place = 0; place < history.views().size(); ++place) {
    const ViewHistory &one = history.views()[place];
    if (!one.view.set.has(member)) continue;
    const std::optional<Time> left = one.stays[dvs::number(member)].left;
    Bar bar{place, member, layout.at[one.made], left ? layout.at[*left] : layout.right, 0};
    const auto lane = std::find_if(lanes.begin(), lanes.end(), [&bar](int taken) { return taken + kGap <= bar.from; });
    bar.top = row.top + kGap + kLane * static_cast<int>(lane - lanes.begin()) + (kLane - kBarHeight) / 2;
    if (lane == lanes.end()) lanes.push_back(bar.to);
    else *lane = bar.to;
    layout.bars.push_back(bar);
  }
  const int height = 2 * kGap + kLane * std::max(1, static_cast<int>(lanes.size()));
  layout.rows.push_back({row.top, height});
  layout.bottom = row.top + height;
}

}  // namespace

bool drawn(const ViewHistory &view, const Stay &stay, std::optional<Time> time) { return time && *time > view.made && (!stay.left || *time < *stay.left); }

Layout lay_out(const Told &told, int least) {
  Layout layout;
  place_times(told.history, layout);
  layout.right = std::max(layout.right, least);
  place_flags(told, layout);
  layout.bottom += 2 * kGap;
  for (dvs::Member member : dvs::Set::below(told.history.members())) place_row(told.history, member, layout);
  return layout;
}

}  // namespace trace
