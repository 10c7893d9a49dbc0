// The lines of include/dvs_lines.hpp: known events, and stored scripts of the bench. Each argument names a script: its lines are steps of a dvs::Group, and
// the lines that it gives must be those of the bench, which are stored beside the script.
#include "dvs.hpp"
#include "expect.hpp"

#include <fstream>
#include <iostream>
#include <map>
#include <sstream>
#include <string>

namespace {

using dvs::Event;
using dvs::EventKind;
using dvs::Identifier;
using dvs::Line;
using dvs::Member;
using dvs::Refusal;
using dvs::Set;

constexpr std::uint32_t kMost = 0xFFFFFFFFu;
constexpr Event kLongest{EventKind::handed, Member{kMost}, Identifier{kMost}, Set{}, Member{kMost}, 0xFFFFFFFFFFFFFFFFu};
constexpr Line kLine = dvs::line(kLongest);
static_assert(kLine.text() == "hand 4294967295 4294967295 4294967295 18446744073709551615");

void known() {
  const auto is = [](const Event &event, const char *words) {
    const Line line = dvs::line(event);
    std::ostringstream out;
    out << dvs::line(event);
    return line.text() == words && std::string(line.c_str()) == words && out.str() == words;
  };
  EXPECT(is({}, "ok"));
  EXPECT(is({EventKind::attempted, Member{0}, Identifier{1}, Set{3}, {}, 0}, "attempt 0 1 3"));
  EXPECT(is({EventKind::registered, Member{7}, Identifier{10}, {}, {}, 0}, "register 7 10"));
  EXPECT(is({EventKind::sent, Member{2}, Identifier{0}, {}, {}, 12175}, "send 2 0 12175"));
  EXPECT(is({EventKind::handed, Member{1}, Identifier{0}, {}, Member{2}, 0}, "hand 1 0 2 0"));
  EXPECT(is({EventKind::safe, Member{1}, Identifier{9}, {}, Member{2}, 100}, "safe 1 9 2 100"));
  EXPECT(is({static_cast<EventKind>(77), Member{1}, Identifier{2}, {}, {}, 0}, "event 1 2 77"));
  const Line refused = dvs::line(Refusal::test_failed);
  EXPECT(refused.text() == "refused 21" && refused != dvs::line(Refusal::info_missing) && dvs::line(Refusal::none) == dvs::line(Event{}));
}

// What a reply is to a line of a script; the bench has room for 8 views.
Line reply(dvs::Group &group, const std::string &typed) {
  static const std::map<std::string, std::uint32_t> kinds = {{"create", 1}, {"join", 2}, {"pass", 3}, {"order", 4}, {"deliver", 5}, {"attempt", 6},
                                                             {"register", 7}, {"send", 8}, {"hand", 9}, {"tell", 10}, {"safe", 11}, {"collect", 12}};
  std::istringstream words(typed);
  std::string name;
  std::uint32_t first = 0;
  std::uint64_t second = 0;
  words >> name >> first >> second;
  if (name == "group") return dvs::line(group.start(first, Set{static_cast<std::uint32_t>(second)}).refusal());
  EXPECT(kinds.count(name) == 1);
  const auto event = group.step(kinds.at(name), first, second);
  return event ? dvs::line(*event) : dvs::line(event.refusal());
}

std::size_t replay(const std::string &script) {
  static dvs::GroupMemory<8> memory;
  dvs::Group group(memory);
  std::ifstream typed(script + ".txt"), stored(script + ".out");
  std::string line, wanted;
  std::size_t count = 0;
  EXPECT(std::getline(typed, line) && line == "all");
  for (; std::getline(typed, line); ++count) {
    const Line given = reply(group, line);
    if (std::getline(stored, wanted) && given.text() == wanted) continue;
    std::cerr << script << ": to `" << line << "` the bench says `" << wanted << "`, and dvs::line `" << given << "`\n";
    std::exit(1);
  }
  EXPECT(!std::getline(stored, wanted));
  return count;
}

}  // namespace

int main(int count, char **scripts) {
  known();
  EXPECT(count > 1);
  for (int i = 1; i < count; ++i) EXPECT(replay(scripts[i]) > 0);
  std::cout << "lines: as the bench writes them, in " << count - 1 << " scripts\n";
}
