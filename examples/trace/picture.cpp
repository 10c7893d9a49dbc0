#include "picture.hpp"

#include "layout.hpp"
#include "legend.hpp"
#include "words.hpp"

#include <algorithm>
#include <iterator>

namespace trace {

namespace {

// The look of the last phase that a view as a whole has reached.
const char *look(State state) {
  switch (state) {
    case State::made: return "made";
    case State::attempted: return "attempted";
    case State::totally_registered: return "registered";
    case State::settled: return "settled";
  }
  return "";
}

struct Picture {
  const Told &told;
  Layout layout;
  Svg svg;

  Picture(const Told &all, int least) : told(all), layout(lay_out(all, least)) {}
  const ViewHistory &view(std::size_t place) const { return told.history.views()[place]; }

  // The look of something for a view that the set crosses, holds a majority of, or neither.
  const char *by_answer(std::size_t place, const char *neither, const char *crossed, const char *held) const {
    return told.answers[place].held ? held : told.answers[place].crossed ? crossed : neither;
  }

  // The rows of the asked set's members are told apart by a band and by bold letters too.
  void rows() {
    for (std::uint32_t member = 0; member < layout.rows.size(); ++member) {
      const auto [top, height] = layout.rows[member];
      const bool asked = told.set.has(dvs::Member{member});
      svg.rect(asked ? "row-asked" : "row", 0, top + 1, layout.right + kMargin, height - 2);
      if (asked) svg.rect("asked", 0, top + 1, 8, height - 2);
      svg.text(asked ? "name" : "", kMargin, top + height / 2 + 4, "member " + std::to_string(member));
    }
  }

  // Poles first and bars over them, so a pole shows only between the bars that it passes.
  void poles() {
    for (std::size_t place = 0; place < layout.flags.size(); ++place) {
      const Flag &flag = layout.flags[place];
      int end = flag.top;
      for (const Bar &bar : layout.bars)
        if (bar.view == place) end = std::max(end, bar.top + kBarHeight);
      svg.line(by_answer(place, "pole", "pole-crossed", "pole-held"), flag.left, flag.top, flag.left, end);
    }
  }

  // A flag says in words what its swatch and its outline show.
  void flags() {
    for (std::size_t place = 0; place < layout.flags.size(); ++place) {
      const Flag &flag = layout.flags[place];
      svg.rect(by_answer(place, "flag", "flag-crossed", "flag-held"), flag.left, flag.top, flag.width, kFlagHeight, 3);
      svg.rect(look(view(place).state()), flag.left + 5, flag.top + 6, 8, kFlagHeight - 12, 2);
      svg.text("name", flag.left + kSwatch, flag.top + 14, flag.name);
      svg.text("", flag.left + kSwatch, flag.top + 28, flag.words);
    }
  }

  // One member's part in a view: each phase up to the next, the marks between them, and the identifier at the begin.
  void bar(const Bar &bar) {
    const ViewHistory &one = view(bar.view);
    const Stay &stay = one.stays[dvs::number(bar.member)];
    if (told.answers[bar.view].crossed)
      svg.rect(by_answer(bar.view, "", "halo-crossed", "halo-held"), bar.from - 2, bar.top - 2, bar.to - bar.from + 4, kBarHeight + 4, 3);
    const std::pair<const char *, std::optional<Time>> phases[] = {
        {"made", one.made}, {"joined", stay.joined}, {"attempted", stay.attempted}, {"registered", stay.registered}, {"settled", stay.settled}};
    int to = bar.to;
    for (auto phase = std::rbegin(phases); phase != std::rend(phases) && to > bar.from; ++phase) {
      if (!phase->second || (*phase->second != one.made && !drawn(one, stay, phase->second))) continue;
      const int from = layout.at[*phase->second];
      svg.rect(phase->first, from, bar.top, to - from, kBarHeight);
      to = from;
    }
    const std::pair<Mark, std::optional<Time>> marks[] = {
        {Mark::joined, stay.joined}, {Mark::attempted, stay.attempted}, {Mark::registered, stay.registered}, {Mark::settled, stay.settled}};
    for (const auto &[mark, time] : marks)
      if (drawn(one, stay, time)) draw_mark(svg, mark, layout.at[*time], bar.top);
    svg.text(stay.settled == Time{0} ? "white" : "name", bar.from + 4, bar.top + 12, words(one.view.identifier));
  }

  // Round numbers of steps, at most 40 of them, and none that would touch the one before.
  void axis() {
    const int line = layout.bottom + 4, text = layout.bottom + 20;
    svg.line("axis", kLeft, line, layout.right, line);
    svg.text("quiet", kMargin, text, "step");
    Time every = 10;
    while (told.history.steps() / every > 40) every *= 2;
    int free = 0;
    for (Time time = 0; time < layout.at.size(); time += every) {
      const int x = layout.at[time];
      if (x < free) continue;
      svg.line("axis", x, line, x, line + 5);
      svg.text("quiet", x - 3, text, std::to_string(time));
      free = x + kLetter * (static_cast<int>(std::to_string(time).size()) + 2);
    }
  }
};

}  // namespace

std::string picture(const Told &told) {
  const std::string title = "The views that " + words(told.set) + " crosses";
  const std::string about = heading(told) + ", time from left to right";
  Picture it(told, std::max(kLegendWidth, kMargin + kLetter * static_cast<int>(about.size())));
  const int width = it.layout.right + kMargin, height = it.layout.bottom + kLegendHeight;
  it.svg.rect("page", 0, 0, width, height);
  it.svg.text("title", kMargin, 30, title);
  it.svg.text("quiet", kMargin, 50, about);
  it.rows();
  it.poles();
  for (const Bar &bar : it.layout.bars) it.bar(bar);
  it.flags();
  it.axis();
  draw_legend(it.svg, told.set, it.layout.bottom);
  return it.svg.finished(width, height, title + ": " + told.script, kStyle);
}

}  // namespace trace
