// What the library answers about a set, and the answers as text.
#pragma once

#include "history.hpp"

#include <dvs.hpp>

#include <optional>
#include <string>
#include <vector>

namespace trace {

// A line that was not accepted.
struct Refused {
  std::size_t line = 0;   // from 1 on
  std::string typed;
  dvs::Refusal refusal{};
};

// Of one view.
struct Answer {
  bool crossed = false, held = false;
  std::optional<dvs::View> before;   // the newest attempted view before it
};

// All that is told of one script, in words or as a picture.
struct Told {
  std::string script;   // its name, fit to be shown
  dvs::Set set;
  std::vector<Refused> refused;
  History history;
  dvs::Identifiers crossed, held;   // newest first, each once
  std::vector<Answer> answers;   // one for each view of the history
};

// Asks the library for the answers and fills them in. It refuses a set that is empty or beyond the members, and then there are none.
dvs::Refusal ask(const dvs::GroupReader &group, Told &told);

// The script's name and how much happened in it, in one line.
std::string heading(const Told &told);

std::string report(const Told &told);

}  // namespace trace
