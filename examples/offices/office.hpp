// One office: its book, its copy of the register, and the tray where changes wait that cannot be sent now. It speaks to the service by its book's
// calls alone, and to the others by the carrier alone.
#pragma once

#include "carrier.hpp"
#include "timber.hpp"
#include "watch.hpp"

#include <string>

namespace offices {

// A change that an engineer wants, with the line's stamp as the engineer saw it.
struct Wish {
  Mark mark;
  Section section;
  Verdict verdict = Verdict::designed;
  Stamp seen;
};

// Attempts of an office by their answers, and those that the service refused and the old program would have made; packets that came too late.
struct Tally {
  unsigned accepted = 0, refused = 0, only_by_old_program = 0, too_late = 0;
};

class Office {
 public:
  Office(dvs::Member own, const char *town, dvs::Set first, Rule rule);

  const char *town() const { return town_; }
  dvs::BookReader book() const { return book_.look(); }
  const Register &marks() const { return marks_; }
  std::size_t in_tray() const { return tray_.size(); }
  bool works() const { return book_.look().in_primary(); }
  // The last answer to an attempt of the carrier view.
  dvs::Refusal answer() const { return answer_; }
  const Tally &tally() const { return tally_; }
  // Changes that came back because the line had been changed meanwhile; they go to an engineer, not to the others.
  const std::deque<Wish> &come_back() const { return come_back_; }

  // The carrier gave a view.
  void enter(dvs::View view);
  // An engineer wants a change. It is made when it is handed out in a primary view, and not before.
  void wish(Mark mark, Section section, Verdict verdict);
  // Takes what came, does what can be done, passes on what is to go out. Whether anything happened.
  bool turn(Carrier &carrier, Watch &watch);

 private:
  bool take(Carrier &carrier);
  bool pass_on(Carrier &carrier);
  bool attempt(Watch &watch);
  void bring_marks();
  bool hand_out(Watch &watch);
  void apply(const dvs::Event &event);
  bool send_wishes();
  bool report_safe(Watch &watch);

  dvs::Book book_;
  dvs::Member own_;
  const char *town_;
  Register marks_ = design();
  std::deque<Wish> tray_, come_back_;
  std::deque<Wish> sent_;  // sent and not handed out yet; back to the tray if the view ends before they are
  dvs::Set have_brought_;  // who has brought all its lines into the client view
  Rule rule_;
  bool decided_ = true;    // whether the carrier view was attempted, or is not to be
  dvs::Refusal answer_ = dvs::Refusal::none;
  Tally tally_;
};

}  // namespace offices
