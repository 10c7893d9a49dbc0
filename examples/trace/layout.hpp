// Where everything is in the picture, so that nothing overlaps. Whole pixels give the same picture on every machine.
//
// Each member has a row. In the row each of its views has a bar, from the time when the view was made to the time when the member left it. Bars of one row
// that overlap in time have lanes below each other. Above the rows each view has a flag with its name, at the time when it was made.
#pragma once

#include "report.hpp"

namespace trace {

// Letters have one width, so that the room of a text is known without its font's measures.
constexpr int kLetter = 7;
constexpr int kLeft = 104, kMargin = 20, kBarHeight = 16, kFlagHeight = 34, kSwatch = 18;

struct Bar {
  std::size_t view = 0;   // its place in the history
  dvs::Member member{};
  int from = 0, to = 0, top = 0;
};

struct Flag {
  int left = 0, top = 0, width = 0;
  std::string name, words;
};

struct Row {
  int top = 0, height = 0;
};

struct Layout {
  std::vector<int> at;       // of each time
  std::vector<Bar> bars;
  std::vector<Flag> flags;   // one for each view
  std::vector<Row> rows;     // one for each member
  int right = 0, bottom = 0; // of all rows
};

// Whether a time of a stay is drawn on its bar. The times of the start are not, since the first view's bars begin with all of them. Nor is the time when a
// member that had left the view heard that it is settled.
bool drawn(const ViewHistory &view, const Stay &stay, std::optional<Time> time);

// The rows reach at least so far to the right.
Layout lay_out(const Told &told, int least);

}  // namespace trace
