// Kills at any time, while five offices work.
#include "trials.hpp"

#include <random>

namespace kept {
namespace {

constexpr unsigned kOffices = 5;
// With 31 the group's life would end (docs/HOST.md, 'Limits'), and views that are under way may be attempted yet.
constexpr std::size_t kMostOpen = 12;
// With so many kills every action is met.
constexpr unsigned kMany = 500;

class Kills {
 public:
  Kills(const std::string &directory, std::uint64_t seed, Care care)
      : carrier_(directory, {kOffices, dvs::Set::below(kOffices)}, care, stdout), chance_(seed) {}

  void run(unsigned count) {
    for (dvs::Member office : all_) carrier_.start(office);
    while (kills_ < count || !carrier_.registered(all_)) {
      if (kills_ >= count || carrier_.open_views() > kMostOpen) calm_ = true;
      else if (carrier_.registered(all_)) calm_ = false;
      bring_back();
      kill_some();
      connect();
      if (below(4) == 0) carrier_.wish(dvs::Member{below(kOffices)}, below(kMarks));
      for (dvs::Member office : all_) carrier_.give(office, 1 + below(4));
      carrier_.hear_all(1);
      bury();
    }
  }

  void print() const {
    std::fprintf(stderr, "kept: %u kills of five offices, %u of them with a power cut; %zu views, %zu events, %zu of them safe; killed at", kills_, cuts_,
                 carrier_.views(), carrier_.events(), carrier_.safe_events());
    killed_at_.print();
    if (kills_ >= kMany) killed_at_.need_each();
  }

 private:
  unsigned below(unsigned limit) { return static_cast<unsigned>(chance_() % limit); }

  // In a calm nobody is killed and all come back, so that a view is settled.
  void bring_back() {
    for (dvs::Member office : carrier_.gone()) {
      if (!calm_ && below(8) != 0) continue;
      if (!calm_ && !hunted_ && below(8) == 0) hunt(office, Action::load);
      carrier_.start(office);
    }
  }

  // Half of the kills come at any time. The others wait until the office comes to a chosen action: some actions take so little time that chance alone
  // would hardly meet them.
  void kill_some() {
    if (hunted_) {
      if (carrier_.place(*hunted_).lingers || --patience_ == 0) kill(*hunted_);
      return;
    }
    const dvs::Member office{below(kOffices)};
    if (calm_ || !(carrier_.ready() - dying_).has(office) || below(16) != 0) return;
    if (below(2) == 0) kill(office);
    else hunt(office, static_cast<Action>(below(kActions)));
  }

  void hunt(dvs::Member office, Action action) {
    hunted_ = office;
    patience_ = 200;
    carrier_.place(office).linger_at = static_cast<int>(action);
  }

  void kill(dvs::Member office) {
    if (hunted_ == office) hunted_.reset();
    carrier_.kill(office);
    dying_ = dying_.with(office);
  }

  void bury() {
    for (dvs::Member office : dying_ & carrier_.gone()) {
      ++kills_;
      killed_at_.count(carrier_.place(office).action);
      carrier_.place(office).linger_at = -1;
      if (below(2) == 0) continue;
      carrier_.cut_power(office);
      ++cuts_;
    }
    dying_ = dying_ - carrier_.gone();
  }

  // When others are there than before, and now and then besides, the offices fall into one part or two. In a calm they are one part.
  void connect() {
    const dvs::Set ready = carrier_.ready();
    if (ready.empty() || (ready == connected_ && !carrier_.nearly_full() && below(calm_ ? 500 : 50) != 0)) return;
    connected_ = ready;
    dvs::Set part;
    if (!calm_ && below(3) == 0)
      for (dvs::Member office : ready)
        if (below(2) == 0) part = part.with(office);
    std::vector<dvs::Set> parts;
    for (const dvs::Set one : {part, ready - part})
      if (!one.empty()) parts.push_back(one);
    carrier_.connect(parts);
  }

  const dvs::Set all_ = dvs::Set::below(kOffices);
  Carrier carrier_;
  std::mt19937_64 chance_;
  bool calm_ = true;
  dvs::Set connected_;                 // who was there when views were formed last
  dvs::Set dying_;                     // killed, and not yet seen to be gone
  std::optional<dvs::Member> hunted_;  // to be killed when it lingers, or when patience ends
  unsigned patience_ = 0;
  unsigned kills_ = 0, cuts_ = 0;
  Tally killed_at_;
};

}  // namespace

void try_kills(const std::string &directory, unsigned count, std::uint64_t seed, Care care) {
  Kills kills(directory, seed, care);
  kills.run(count);
  kills.print();
}

}  // namespace kept
