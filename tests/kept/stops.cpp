// Stops at one action after another, in runs that are the same each time up to the stop.
#include "trials.hpp"

namespace kept {
namespace {

struct Stop {
  dvs::Member office{};
  unsigned first = 0;        // the action at which it ends, counted from 1
  unsigned second = 0;       // and, started again, at which it ends once more
  bool first_cuts = false;   // whether the first stop is a power cut; the second always is
};

void until_quiet(Carrier &carrier) {
  while (carrier.round()) {
  }
}

// Each part has a view. If it is a primary one, its offices register in it, and an entry of each becomes safe.
void work(Carrier &carrier, const std::vector<dvs::Set> &parts) {
  carrier.connect(parts);
  until_quiet(carrier);
  for (dvs::Member office : carrier.ready()) carrier.wish(office, dvs::number(office));
  until_quiet(carrier);
}

void start(Carrier &carrier, dvs::Member office, unsigned stop_at) {
  carrier.start(office, stop_at);
  carrier.hear_out(office);
}

// Three offices work, then two of them without the third, which is there and hears nobody, and then all three again. If one of them is gone, the others
// have a view without it, it is started again, and all of them work. Gives the action at which it was stopped first, if it was.
std::optional<Action> day(const std::string &directory, Stop stop) {
  const dvs::Set all = dvs::Set::below(3);
  Carrier carrier(directory, {3, all}, Care::kept, stdout);
  for (dvs::Member office : all) start(carrier, office, office == stop.office ? stop.first : 0);
  const dvs::Set two = dvs::Set::below(2);
  for (const std::vector<dvs::Set> &parts : std::vector<std::vector<dvs::Set>>{{all}, {two, all - two}, {all}}) {
    if (!carrier.gone().empty()) break;
    work(carrier, parts);
    expect(!carrier.gone().empty() || carrier.registered(parts.front()), "the offices of a primary view register in it");
  }
  std::optional<Action> stopped;
  for (const unsigned stop_at : {stop.second, 0u}) {
    if (carrier.gone().empty()) break;
    if (stopped || stop.first_cuts) carrier.cut_power(stop.office);
    if (!stopped) stopped = carrier.place(stop.office).action;
    work(carrier, {carrier.ready()});
    start(carrier, stop.office, stop_at);
    if (carrier.gone().empty()) work(carrier, {all});
  }
  expect(carrier.registered(all), "at the end all are registered in one view");
  return stopped;
}

// A power cut leaves something else than the end of a process.
bool writes(Action action) { return action >= Action::write && action <= Action::sync_directory; }

}  // namespace

void try_stops(const std::string &directory) {
  Tally tally;
  unsigned days = 0;
  // The lowest office makes the views, the others do not.
  for (const dvs::Member office : {dvs::Member{0}, dvs::Member{2}}) {
    std::optional<Action> stopped;
    for (unsigned first = 1; first == 1 || stopped; ++first) {
      // The second stop comes a little later each time: while the office loads, publishes again, joins or attempts.
      Stop stop{office, first, 1 + first % 50, false};
      stopped = day(directory, stop);
      ++days;
      if (!stopped) break;
      tally.count(*stopped);
      if (!writes(*stopped)) continue;
      stop.first_cuts = true;
      expect(day(directory, stop) == stopped, "up to the stop a run is the same each time");
      ++days;
      if (*stopped != Action::sync_directory) continue;
      // The file is replaced, and a power cut may still bring the old one back when the office has started again.
      // It loads, syncs, publishes, posts, waits: it is stopped when its events are public, and when its message is posted.
      for (const unsigned second : {4u, 5u}) {
        day(directory, {office, first, second, false});
        ++days;
      }
    }
  }
  std::fprintf(stderr, "kept: %u days of three offices; stopped before", days);
  tally.print();
  tally.need_each();
}

}  // namespace kept
