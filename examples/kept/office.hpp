// One office that can be stopped at any moment and started again. It works in turns, as duty 1 of docs/HOST.md has them: take, step, save, publish, post.
// After a start it loads, publishes again, and joins a view before anything else.
#pragma once

#include "disk.hpp"
#include "line.hpp"
#include "state.hpp"

#include <deque>

namespace kept {

// The same in every office (duty 3).
struct Group {
  std::uint32_t members = 0;
  dvs::Set first;
};

class Office {
 public:
  // Loads what was saved, or ends the process if nothing was and the office is not new: a lost book is never replaced by a fresh one under the same
  // number. So a person says `never_started`, once.
  Office(Group group, dvs::Member own, bool never_started, Disk &disk, const Line &line);
  virtual ~Office() = default;

  // One turn with what came.
  void turn(const std::vector<Arrival> &came);

 protected:
  // How a turn ends: save, publish, post. (Virtual, so that the test can see what comes of another order.)
  virtual void finish();
  void save();
  void publish();
  void post();

 private:
  void take(dvs::View view);
  void take(const Packet &packet);
  void take(const Make &make);
  void take(Wish wish) { wishes_.push_back(wish); }
  void step();
  void attempt();
  void hand_out();
  void work();
  void pass();

  dvs::Book &call();
  void note(const dvs::Event &event);
  bool has_all() const;

  dvs::Member own_;
  Disk &disk_;
  const Line &line_;
  State state_;

  // Not saved, since a join comes next after a stop.
  bool joined_ = false;            // since this process was started
  dvs::Set brought_;               // who has brought all that it held into the client view
  std::deque<Wish> wishes_;        // not sent yet; no client was told that its wish is done
  std::optional<dvs::View> made_;  // in this turn, to be posted
  Buffer packet_;                  // of this turn, to be posted
};

}  // namespace kept
