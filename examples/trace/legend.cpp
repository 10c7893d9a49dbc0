#include "legend.hpp"

#include "layout.hpp"
#include "words.hpp"

namespace trace {

namespace {

constexpr int kSample = 36;

// A piece of a bar that reaches its next phase, and the word for it.
void phase(Svg &svg, const char *before, const char *after, Mark mark, int left, int top, const char *name) {
  svg.rect(before, left, top, kSample / 2, kBarHeight);
  svg.rect(after, left + kSample / 2, top, kSample / 2, kBarHeight);
  draw_mark(svg, mark, left + kSample / 2, top);
  svg.text("", left + kSample + 8, top + 12, name);
}

void halo(Svg &svg, const char *look, int left, int top, const std::string &name) {
  svg.rect(look, left - 2, top - 2, kSample + 4, kBarHeight + 4, 3);
  svg.rect("attempted", left, top, kSample, kBarHeight);
  svg.text("", left + kSample + 8, top + 12, name);
}

}  // namespace

void draw_mark(Svg &svg, Mark mark, int x, int top) {
  const int middle = top + kBarHeight / 2;
  const auto tick = "M" + std::to_string(x - 4) + " " + std::to_string(middle) + "l3 4l6 -8";
  switch (mark) {
    case Mark::joined: svg.line("mark", x, top - 3, x, top + kBarHeight + 3); break;
    case Mark::attempted: svg.circle("mark", x, middle, 4); break;
    case Mark::registered:
      svg.path("tick-under", tick);
      svg.path("tick", tick);
      break;
    case Mark::settled: svg.circle("dot", x, middle, 5); break;
  }
}

void draw_legend(Svg &svg, dvs::Set set, int bottom) {
  const int first = bottom + 44, second = first + 30, third = second + 30;
  svg.rect("made", kMargin, first, kSample, kBarHeight);
  svg.text("", kMargin + kSample + 8, first + 12, "made");
  phase(svg, "made", "joined", Mark::joined, kMargin + 120, first, "joined");
  phase(svg, "joined", "attempted", Mark::attempted, kMargin + 250, first, "attempted");
  phase(svg, "attempted", "registered", Mark::registered, kMargin + 400, first, "registered");
  phase(svg, "registered", "settled", Mark::settled, kMargin + 560, first, "settled");

  halo(svg, "halo-crossed", kMargin, second, "crossed");
  halo(svg, "halo-held", kMargin + 120, second, "majority held by the set");
  svg.rect("row-asked", kMargin + 400, second, kSample, kBarHeight);
  svg.rect("asked", kMargin + 400, second, 8, kBarHeight);
  svg.text("", kMargin + 400 + kSample + 8, second + 12, "a member of " + words(set));

  svg.text("quiet", kMargin, third + 12, "A bar is a view at one of its members: from the time when the view was made, until the member");
  svg.text("quiet", kMargin, third + 26, "went on to a later view. A view that nobody attempted is not crossed. Exactly half is no majority.");
}

}  // namespace trace
