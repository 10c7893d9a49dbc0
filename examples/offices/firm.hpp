// The eight offices with the carrier between them, and the tables that show what each of them believes.
#pragma once

#include "office.hpp"
#include "towns.hpp"

#include <vector>

namespace offices {

class Firm {
 public:
  Firm(std::uint64_t seed, dvs::Set first, Rule rule);

  Office &operator[](unsigned office) { return offices_[office]; }
  const Office &operator[](unsigned office) const { return offices_[office]; }
  Carrier &carrier() { return carrier_; }
  const Watch &watch() const { return watch_; }

  // The lines fail or return: these are the parts that reach each other now, and each gets a view unless it has just that one.
  void connect(const std::vector<dvs::Set> &parts);
  // One round: a try on every line, a turn of every office. Whether anything happened.
  bool round();
  // Rounds until nothing can happen any more. A part whose view has all its messages gets a new view and goes on.
  void run();
  // Rounds until this is so, which must come.
  template <class Condition>
  void run_until(Condition holds) {
    for (int rounds = 0; !holds(); ++rounds) {
      expect(rounds < 1000, "what is waited for comes");
      round();
    }
  }

  // The views that somebody works in now; and all who work.
  std::vector<dvs::View> primaries() const;
  dvs::Set working() const;

  Tally tally() const;

  // A row for each office: its views and its copy of the register.
  void print() const;

 private:
  void give_view(dvs::Set part);
  bool has_one_view(dvs::Set part) const;

  std::vector<dvs::Set> parts_;
  Carrier carrier_;
  Watch watch_;
  std::vector<Office> offices_;
};

}  // namespace offices
