#include "report.hpp"

#include "words.hpp"

#include <algorithm>
#include <sstream>

namespace trace {

namespace {

bool among(const dvs::Identifiers &views, dvs::Identifier view) { return std::find(views.begin(), views.end(), view) != views.end(); }

std::string listed(const dvs::Identifiers &views) {
  std::string list;
  for (dvs::Identifier view : views) list += (list.empty() ? "" : ", ") + words(view);
  return list.empty() ? "none" : list;
}

using Cells = std::vector<std::string>;

// Columns as wide as their widest word, two spaces apart.
void print(std::ostream &out, const std::vector<Cells> &rows) {
  std::vector<std::size_t> widths(rows.front().size());
  for (const Cells &row : rows)
    for (std::size_t i = 0; i < row.size(); ++i) widths[i] = std::max(widths[i], row[i].size());
  for (const Cells &row : rows) {
    std::string line;
    for (std::size_t i = 0; i < row.size(); ++i) line += "  " + row[i] + std::string(widths[i] - row[i].size(), ' ');
    out << line.substr(0, line.find_last_not_of(' ') + 1) << '\n';
  }
}

Cells row(const Told &told, std::size_t place) {
  const ViewHistory &one = told.history.views()[place];
  const Answer &answer = told.answers[place];
  const auto those = [&one](std::optional<Time> Stay::*when) { return one.those(when).empty() ? "-" : words(one.those(when)); };
  return {words(one.view.identifier),
          words(one.view.set),
          words(one.state()),
          those(&Stay::attempted),
          those(&Stay::registered),
          those(&Stay::settled),
          answer.crossed ? "yes, by " + words(told.set & one.view.set) : "no",
          answer.held ? "yes, " + share(told.set, one.view) : answer.crossed ? "no, " + share(told.set, one.view) : "no",
          answer.before ? words(*answer.before) : "none"};
}

}  // namespace

dvs::Refusal ask(const dvs::GroupReader &group, Told &told) {
  const auto crossed = group.crossing(told.set), held = group.holding(told.set);
  if (!crossed) return crossed.refusal();
  if (!held) return held.refusal();
  told.crossed = *crossed;
  told.held = *held;
  for (const ViewHistory &one : told.history.views()) {
    const auto before = group.newest_before(one.view.identifier);
    if (!before.accepted()) return before.refusal();
    told.answers.push_back({among(told.crossed, one.view.identifier), among(told.held, one.view.identifier), *before});
  }
  return dvs::Refusal::none;
}

std::string heading(const Told &told) {
  const auto some = [](std::size_t count, const std::string &what) { return std::to_string(count) + " " + what + (count == 1 ? "" : "s"); };
  const History &history = told.history;
  return told.script + ": " + some(history.members(), "member") + ", " + some(history.views().size(), "view") + ", " + some(history.steps(), "accepted step");
}

std::string report(const Told &told) {
  std::ostringstream out;
  out << heading(told) << "\n\n";
  for (const Refused &one : told.refused)
    out << "line " << one.line << ", `" << printable(one.typed, 64) << "`: refused " << dvs::number(one.refusal) << ", " << dvs::text(one.refusal) << '\n';
  if (!told.refused.empty()) out << '\n';
  out << "attempted views that share a member with " << words(told.set) << ", newest first: " << listed(told.crossed) << '\n'
      << "attempted views of which " << words(told.set) << " holds a majority: " << listed(told.held) << "\n\n";
  std::vector<Cells> rows = {{"view", "set", "state", "attempted by", "registered by", "settled at", "crossed", "majority", "newest attempted before"}};
  for (std::size_t place = told.history.views().size(); place > 0; --place) rows.push_back(row(told, place - 1));
  print(out, rows);
  return out.str();
}

}  // namespace trace
