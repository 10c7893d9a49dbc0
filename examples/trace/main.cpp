// Which views does a set cross? A script of the bench's lines is played to a group, and the answer is told as text and as a picture.
//
//     trace SET SCRIPT [PICTURE.svg]
//
// SET is a number as the bench takes it, 10, or its members, {1,3}. The group has room for 32 views, the bench's for 8. As on the bench, a later `group`
// starts afresh, and the answer is about the last one. Refused lines are always told, whether `all` is the first line or not.
//
// It exits with 2 if it is called wrongly, and with 1 if a file cannot be read or written, if no group was started, or if the library refuses the set.
//
//   script   the lines of the bench
//   history  what became of each view
//   report   the library's answers, as a table
//   layout   the places of the picture, so that nothing overlaps
//   picture  the picture, drawn with svg
//
// `make trace` plays story.txt and compares the text with expected.txt and the picture with expected.svg. In the story members 0 to 3 have the first view.
// They split into view 1 {0,1,2}, which is settled, and view 2 {3,4}, which is refused with 21. View 3 {0,2,4} is attempted by member 0 alone. In view 4
// {1,2,3} one member has not registered when all five come together in view 5, which is totally registered and not yet settled.
#include "picture.hpp"
#include "script.hpp"
#include "words.hpp"

#include <fstream>
#include <iostream>

namespace {

// The memory of a group is too large for the stack.
dvs::GroupMemory<> memory;

int fails(int status, const std::string &words) {
  std::cerr << "trace: " << words << '\n';
  return status;
}

// What a group made of the lines; nothing if none of them started a group.
struct Played {
  std::optional<trace::History> history;
  std::vector<trace::Refused> refused;
};

Played play(const std::vector<std::string> &lines) {
  dvs::Group group(memory);
  Played played;
  const auto take = [&](const std::string &line) {
    const auto command = trace::command_in(line);
    const auto *const start = command ? std::get_if<trace::Start>(&*command) : nullptr;
    const auto *const step = command ? std::get_if<dvs::Step>(&*command) : nullptr;
    if (start != nullptr) {
      const dvs::Result<void> started = group.start(start->members, start->first);
      if (started) played.history.emplace(start->members, start->first);
      return started.refusal();
    }
    if (step == nullptr || !played.history) return dvs::Refusal::line_unreadable;
    const dvs::Result<dvs::Event> event = group.step(*step);
    if (event) played.history->add(group, *step, *event);
    return event.refusal();
  };
  for (std::size_t i = !lines.empty() && lines[0] == "all" ? 1 : 0; i < lines.size(); ++i) {
    const dvs::Refusal refusal = take(lines[i]);
    if (refusal != dvs::Refusal::none) played.refused.push_back({i + 1, lines[i], refusal});
  }
  return played;
}

}  // namespace

int main(int count, char **arguments) {
  if (count != 3 && count != 4) return fails(2, "called as trace SET SCRIPT [PICTURE.svg]");
  const auto set = trace::set_in(arguments[1]);
  if (!set) return fails(2, trace::printable(arguments[1]) + " is not a set: write its number, as 10, or its members, as {1,3}");
  const auto lines = trace::lines_of(arguments[2]);
  if (!lines) return fails(1, trace::printable(arguments[2]) + " cannot be read");
  const Played played = play(*lines);
  if (!played.history) return fails(1, trace::printable(arguments[2]) + " starts no group");

  const std::string_view path = arguments[2];
  trace::Told told{trace::printable(path.substr(path.rfind('/') + 1), 60), *set, played.refused, *played.history, {}, {}, {}};
  if (const dvs::Refusal refusal = ask(dvs::GroupReader(memory), told); refusal != dvs::Refusal::none)
    return fails(1, "the set " + trace::words(*set) + ": refused " + std::to_string(dvs::number(refusal)) + ", " + dvs::text(refusal));
  std::cout << report(told);
  if (!std::cout.flush()) return fails(1, "the text cannot be written");
  if (count == 3) return 0;
  std::ofstream file(arguments[3], std::ios::binary);
  file << picture(told);
  file.close();
  return file ? 0 : fails(1, trace::printable(arguments[3]) + " cannot be written");
}
